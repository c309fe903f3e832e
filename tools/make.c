/* Text as files; what the library calls malformed or unsound is refused with its line. */
#include <stdio.h>
#include <stdlib.h>
#include <string.h>

#include "text.h"

#define MOST_WORDS 64
#define MOST_ROWS 65536

/* A line of the text: its first word, and the others as name and value; a value that is taken is NULL from then on. */
typedef struct {
    unsigned long number;
    char *word, *names[MOST_WORDS], *values[MOST_WORDS];
    size_t count;
} line;

static line now;

static void refuse_line(const char *form, const char *what)
{
    fprintf(stderr, "text: line %lu: ", now.number);
    fprintf(stderr, form, what);
    fprintf(stderr, "\n");
    exit(1);
}

static void split_line(char *text)
{
    static char none[] = "";
    char *word = strtok(text, " \t\r");
    now.word = word;
    now.count = 0;
    while (word != NULL && (word = strtok(NULL, " \t\r")) != NULL) {
        char *equals = strchr(word, '=');
        if (now.count == MOST_WORDS)
            refuse_line("more than %s fields", "64");
        if (equals != NULL)
            *equals = '\0';
        for (size_t i = 0; i < now.count; i++)
            if (strcmp(now.names[i], word) == 0)
                refuse_line("'%s' stands twice", word);
        now.names[now.count] = word;
        now.values[now.count++] = equals != NULL ? equals + 1 : none;
    }
}

/* The value of a field, or NULL where the line has none. */
static char *take(const char *name)
{
    for (size_t i = 0; i < now.count; i++)
        if (strcmp(now.names[i], name) == 0) {
            char *value = now.values[i];
            now.names[i] = now.names[now.count - 1];
            now.values[i] = now.values[--now.count];
            return value;
        }
    return NULL;
}

static void none_left(void)
{
    if (now.count > 0)
        refuse_line("'%s' is no field of this line", now.names[0]);
}

/* A number of decimal digits without zeros in front, up to `most`; `at` is left behind it. */
static uint64_t number_at(const char **at, uint64_t most, const char *name)
{
    uint64_t n = 0;
    const char *first = *at;
    for (; **at >= '0' && **at <= '9'; ++*at) {
        unsigned digit = (unsigned)(**at - '0');
        if (n > (most - (digit > most ? most : digit)) / 10 || digit > most)
            refuse_line("'%s' is too large", name);
        n = 10 * n + digit;
    }
    if (*at == first || (*first == '0' && *at > first + 1))
        refuse_line("'%s' is no number", name);
    return n;
}

static uint64_t number_of(const char *value, uint64_t most, const char *name)
{
    uint64_t n = number_at(&value, most, name);
    if (*value != '\0')
        refuse_line("'%s' is no number", name);
    return n;
}

static uint64_t take_number(const char *name, uint64_t most)
{
    char *value = take(name);
    return value == NULL ? 0 : number_of(value, most, name);
}

/* A mark, which stands alone. */
static uint64_t flag_of(const char *value, const char *name)
{
    if (*value != '\0')
        refuse_line("'%s' takes no value", name);
    return 1;
}

static int is_word(const char *value, const char *name)
{
    for (; *name != '\0' && (*value == *name || (*value == '-' && *name == ' ')); value++)
        name++;
    return *name == '\0' && *value == '\0';
}

/* The number of a word, from `first` to `last`, or of digits up to `most`. */
static uint64_t word_of(const char *value, naming *names, uint64_t first, uint64_t last, uint64_t most, const char *name)
{
    for (uint64_t n = first; n <= last; n++)
        if (is_word(value, names(n)))
            return n;
    if (*value < '0' || *value > '9')
        refuse_line("'%s' has a word that it does not know", name);
    return number_of(value, most, name);
}

static void put_bits(uint8_t *at, unsigned word, unsigned low, uint64_t number)
{
    uint64_t w = lupinenblatt_word(at, word) | number << low;
    for (unsigned i = 0; i < 8; i++)
        at[8 * word + i] = (uint8_t)(w >> (56 - 8 * i));
}

static void put_list(uint8_t *at, const field *f, const char *value)
{
    uint64_t seen = 0;
    do {
        uint64_t p = number_at(&value, 63, f->name), retries = 0;
        if (seen >> p & 1)
            refuse_line("'%s' has a provider twice", f->name);
        seen |= (uint64_t)1 << p;
        if (f->form == RETRIES) {
            if (*value++ != ':' || p == 0)
                refuse_line("'%s' is no list of provider:retries", f->name);
            retries = number_at(&value, 7, f->name);
            put_bits(at, f->word + (unsigned)(p - 1) / 21, 3 * ((unsigned)(p - 1) % 21), retries);
        }
    } while (*value == ',' && *value++ != '\0');
    if (*value != '\0')
        refuse_line("'%s' is no list of providers", f->name);
    if (f->form == SET)
        put_bits(at, f->word, 0, seen);
}

static unsigned digit_of(char c)
{
    const char *digits = "0123456789abcdef", *found = c == '\0' ? NULL : strchr(digits, c);
    if (found == NULL)
        refuse_line("'%s' has other letters than 0 to 9 and a to f", "hex");
    return (unsigned)(found - digits);
}

/* Bytes of hexadecimal digits; answers how many, at most `most`. */
static size_t put_hex(uint8_t *at, const char *value, size_t most)
{
    size_t n = strlen(value);
    if (n % 2 != 0 || n / 2 > most || n == 0)
        refuse_line("'%s' has another length than its place", "hex");
    for (size_t i = 0; i < n / 2; i++)
        at[i] = (uint8_t)(digit_of(value[2 * i]) << 4 | digit_of(value[2 * i + 1]));
    return n / 2;
}

static void make_row(uint8_t *at)
{
    char *value = take("hex");
    if (value != NULL) {
        if (put_hex(at, value, LUPINENBLATT_ROW_BYTES) != LUPINENBLATT_ROW_BYTES)
            refuse_line("'%s' has another length than its place", "hex");
        return;
    }
    if (take("free") != NULL)
        return;
    for (const field *f = row_fields; f < row_fields + ROW_FIELDS; f++) {
        value = take(f->name);
        if (value == NULL && f->always)
            refuse_line("'%s' is missing", f->name);
        if (value == NULL)
            continue;
        if (f->form == SET || f->form == RETRIES)
            put_list(at, f, value);
        else
            put_bits(at, f->word, f->low, f->form == FLAG ? flag_of(value, f->name)
                         : f->form == NUMBER ? number_of(value, mask_of(f->width), f->name)
                         : word_of(value, f->names, 0, f->last, mask_of(f->width), f->name));
    }
}

/* The line of each row or place, so that a fault is told by its line. */
static unsigned long *lines;
static size_t lines_room;

static void note_line(size_t place)
{
    if (place >= lines_room) {
        lines_room = 2 * place + 64;
        lines = (unsigned long *)realloc(lines, lines_room * sizeof *lines);
        if (lines == NULL)
            refuse("no memory");
    }
    lines[place] = now.number;
}

static void make_provider(bytes *out, size_t places)
{
    static const char *const marks[] = {"absent", "present", "local"};
    uint64_t provider = take_number("number", places);
    char *mark = take("mark");
    unsigned n = 0;
    if (provider == 0 || mark == NULL)
        refuse_line("a provider needs '%s', a place of the list, and a mark", "number");
    while (n < 3 && strcmp(mark, marks[n]) != 0)
        n++;
    if (out->at[provider - 1] != 0)
        refuse_line("'%s' stands in a line before", "number");
    lupinenblatt_providers_put(out->at, out->length, (unsigned)provider, n < 2 ? n : n == 2 ? 3 : (unsigned)number_of(mark, 255, "mark"));
    note_line((size_t)provider - 1);
}

static size_t codes, filters, pairs;

/* A number that the line must have, unless its place is free. */
static uint32_t need_number(const char *name, uint64_t most, int is_free)
{
    char *value = is_free ? NULL : take(name);
    if (value == NULL && !is_free)
        refuse_line("'%s' is missing", name);
    return is_free ? 0 : (uint32_t)number_of(value, most, name);
}

/*
 * Lists in their order, so that every book has one text. Lines are kept by list: codes from 0, filters from 1,024, pairs from 2,048; a place
 * beyond its list is refused before its line is asked for.
 */
static void make_books_line(uint8_t *books)
{
    int put = 1, is_free;
    uint32_t one, two;
    if (strcmp(now.word, "head") == 0 && codes + filters + pairs == 0) {
        char *value = take("hex");
        if (value == NULL || put_hex(books, value, 8) != 8)
            refuse_line("'%s' needs hex of eight bytes", now.word);
        return;
    }
    is_free = take("free") != NULL;
    if (strcmp(now.word, "code") == 0 && filters + pairs == 0) {
        note_line(codes);
        one = need_number("number", 0x3ffffff, is_free), two = need_number("owner", 63, is_free);
        put = lupinenblatt_books_put_code(books, codes++, one, two);
    } else if (strcmp(now.word, "filter") == 0 && pairs == 0) {
        note_line(1024 + filters);
        one = need_number("provider", 4095, is_free), two = need_number("code", 0xfffff, is_free);
        put = lupinenblatt_books_put_filter(books, filters++, one, two);
    } else if (strcmp(now.word, "pair") == 0) {
        note_line(2048 + pairs);
        one = need_number("one", 0xffffffff, is_free), two = need_number("two", 0xffffffff, is_free);
        put = lupinenblatt_books_put_pair(books, pairs++, one, two);
    } else
        refuse_line("'%s' is no line of books here: head, then codes, then filters, then pairs", now.word);
    if (!put)
        refuse_line("no place is left for a '%s'", now.word);
}

static const char *taken_by(uint64_t kind)
{
    return kind == 1 ? "sender, other, tn, lrn, time, due, within exactly where sender and other are the same"
        : kind == 2 ? "sender, other, mark, cause with no, tn, time, due"
        : kind == 3 ? "sender, tn, lrn, version, time, due" : kind == 4 ? "sender, mark, cause with no, tn, version, time, due"
        : kind == 9 ? "sender, tn, lrn, version, time" : kind == 11 ? "sender from 1, mark, tn, version, time"
        : kind == 12 ? "sender 0, other, tn, version, time" : kind >= 1 && kind <= 15 ? "sender, tn, version, time" : "1 to 15";
}

/* Writes the record of a line; answers its length, which is 24 but for a part of a record. */
static size_t make_event(uint8_t *at)
{
    lupinenblatt_event e;
    char *value = take("hex"), *kind, *mark, *within;
    if (value != NULL)
        return put_hex(at, value, LUPINENBLATT_RECORD_BYTES);
    kind = take("kind");
    if (kind == NULL)
        refuse_line("'%s' is missing", "kind");
    e.kind = word_of(kind, lupinenblatt_kind_name, 1, 15, 255, "kind");
    mark = take("mark");
    e.mark = mark == NULL ? 0 : word_of(mark, authorization_name, 0, 2, 3, "mark");
    e.sender = take_number("sender", UINT64_MAX);
    e.other = take_number("other", UINT64_MAX);
    e.cause = take_number("cause", UINT64_MAX);
    e.tn = take_number("tn", UINT64_MAX);
    e.lrn = take_number("lrn", UINT64_MAX);
    e.version = take_number("version", UINT64_MAX);
    e.time = take_number("time", UINT64_MAX);
    e.due = take_number("due", UINT64_MAX);
    within = take("within");
    e.within = within == NULL ? 0 : flag_of(within, "within");
    none_left();
    if (lupinenblatt_event_write(e, at, LUPINENBLATT_RECORD_BYTES) != LUPINENBLATT_DONE)
        refuse_line("no well-formed record; its kind takes %s, in their ranges", taken_by(e.kind));
    return LUPINENBLATT_RECORD_BYTES;
}

typedef enum { NOTHING, TABLE, PROVIDERS, BOOKS, EVENTS } sort;

/* The first line says what the text is, and makes its empty file. */
static sort make_first(bytes *out)
{
    if (strcmp(now.word, "table") == 0) {
        grow(out, (size_t)take_number("rows", MOST_ROWS) * LUPINENBLATT_ROW_BYTES);
        return TABLE;
    }
    if (strcmp(now.word, "providers") == 0) {
        grow(out, (size_t)take_number("places", 4096));
        return PROVIDERS;
    }
    if (strcmp(now.word, "books") == 0) {
        grow(out, LUPINENBLATT_BOOKS_BYTES);
        return BOOKS;
    }
    if (strcmp(now.word, "events") != 0)
        refuse_line("'%s' is no text that is made: table, providers, books or events", now.word);
    return EVENTS;
}

static size_t rows;

static void make_line(sort of, bytes *out)
{
    static const char *const words[] = {"", "row", "provider", "", "event"};
    if (of != BOOKS && strcmp(now.word, words[of]) != 0)
        refuse_line("'%s' is no line of this text", now.word);
    if (of == TABLE) {
        if (rows == out->length / LUPINENBLATT_ROW_BYTES)
            refuse_line("more lines than '%s' says", "rows");
        note_line(rows);
        make_row(out->at + rows++ * LUPINENBLATT_ROW_BYTES);
    } else if (of == PROVIDERS)
        make_provider(out, out->length);
    else if (of == BOOKS)
        make_books_line(out->at);
    else {
        size_t at = out->length;
        if (at % LUPINENBLATT_RECORD_BYTES != 0)
            refuse_line("'%s' stands behind a part of a record", now.word);
        grow(out, at + LUPINENBLATT_RECORD_BYTES);
        out->length = at + make_event(out->at + at);
    }
}

static void refuse_fault(const char *words, lupinenblatt_fault f, size_t first)
{
    unsigned long at = f.place > 0 ? lines[first + f.place - 1] : 1;
    if (f.second > 0)
        fprintf(stderr, "text: line %lu: %s (line %lu)\n", at, words, lines[first + f.second - 1]);
    else
        fprintf(stderr, "text: line %lu: %s\n", at, words);
    exit(1);
}

/* Refuses what the library calls unsound. Books are judged with a provider list; where none is named, all 63 providers are present. */
static void judge(sort of, const bytes *out, const bytes *list)
{
    uint8_t empty[LUPINENBLATT_BOOKS_BYTES] = {0}, all[LUPINENBLATT_PROVIDERS_BYTES];
    lupinenblatt_fault f = {0, 0, 0};
    memset(all, LUPINENBLATT_PROVIDER_PRESENT, sizeof all);
    if (of == TABLE) {
        f = lupinenblatt_table_fault(out->at, out->length, all, sizeof all, empty, sizeof empty);
        if (f.clause != 0)
            refuse_fault(lupinenblatt_table_fault_name(f.clause), f, 0);
    } else if (of == PROVIDERS) {
        f = lupinenblatt_books_fault(out->at, out->length, empty, sizeof empty);
        if (f.clause != 0)
            refuse_fault(lupinenblatt_books_fault_name(f.clause), f, 0);
    } else if (of == BOOKS) {
        f = list == NULL ? lupinenblatt_books_fault(all, sizeof all, out->at, out->length)
                         : lupinenblatt_books_fault(list->at, list->length, out->at, out->length);
        if (f.clause == LUPINENBLATT_BOOKS_FAULT_PROVIDERS || f.clause == LUPINENBLATT_BOOKS_FAULT_PROVIDER)
            refuse("PROVIDERS: %s", lupinenblatt_books_fault_name(f.clause));
        if (f.clause != 0)
            refuse_fault(lupinenblatt_books_fault_name(f.clause), f,
                         f.clause >= LUPINENBLATT_BOOKS_FAULT_PAIRS_HOLE ? 2048 : f.clause >= LUPINENBLATT_BOOKS_FAULT_FILTERS_HOLE ? 1024 : 0);
    }
}

void make(const char *text, const char *name, const char *providers, int sound)
{
    bytes in = read_file(text), out = {NULL, 0, 0}, list = {NULL, 0, 0};
    sort of = NOTHING;
    char *at;
    if (memchr(in.at, 0, in.length) != NULL)
        refuse("%s: no text: it has a byte 0", text);
    grow(&in, in.length + 1);
    grow(&out, 1);
    out.length = 0;
    for (at = (char *)in.at; *at != '\0';) {
        char *end = at + strcspn(at, "\n"), *next = *end == '\0' ? end : end + 1;
        *end = '\0';
        now.number++;
        at[strcspn(at, "#")] = '\0';
        split_line(at);
        at = next;
        if (now.word == NULL)
            continue;
        if (of == NOTHING)
            of = make_first(&out);
        else
            make_line(of, &out);
        none_left();
    }
    if (of == NOTHING)
        refuse("%s: no line", text);
    if (providers != NULL)
        list = read_file(providers);
    if (sound)
        judge(of, &out, providers == NULL ? NULL : &list);
    write_file(name, &out);
}
