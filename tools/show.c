/* Files as text, in the form of docs/TEXT.md. */
#include <inttypes.h>
#include <stdio.h>
#include <string.h>

#include "text.h"

static uint64_t bits_of(const uint8_t *at, const field *f) { return lupinenblatt_word(at, f->word) >> f->low & mask_of(f->width); }

/* Whether every bit that is set belongs to a field. */
static int all_told(const uint8_t *at, const field *fields, size_t count, unsigned words)
{
    for (unsigned word = 0; word < words; word++) {
        uint64_t told = 0;
        for (size_t i = 0; i < count; i++)
            if (fields[i].word == word || (fields[i].form == RETRIES && word > fields[i].word))
                told |= mask_of(fields[i].width) << fields[i].low;
        if ((lupinenblatt_word(at, word) & ~told) != 0)
            return 0;
    }
    return 1;
}

/* A name of the header as one word: its spaces are hyphens. */
static void print_word(const char *name)
{
    for (; *name != '\0'; name++)
        putchar(*name == ' ' ? '-' : *name);
}

static void print_hex(const uint8_t *at, size_t length)
{
    printf(" hex=");
    for (size_t i = 0; i < length; i++)
        printf("%02x", at[i]);
}

static void print_list(const uint8_t *at, const field *f)
{
    const char *between = "";
    for (unsigned p = 0; p < 64; p++) {
        unsigned retries = f->form == RETRIES && p > 0 ? lupinenblatt_row_retries(at, p) : 0;
        if (f->form == SET ? bits_of(at, f) >> p & 1 : retries != 0) {
            printf(f->form == SET ? "%s%u" : "%s%u:%u", between, p, retries);
            between = ",";
        }
    }
}

static int any_retries(const uint8_t *at, const field *f)
{
    return (lupinenblatt_word(at, f->word) | lupinenblatt_word(at, f->word + 1) | lupinenblatt_word(at, f->word + 2)) != 0;
}

static void print_fields(const uint8_t *at, const field *fields, size_t count, size_t length)
{
    if (!all_told(at, fields, count, (unsigned)(length / 8))) {
        print_hex(at, length);
        return;
    }
    for (const field *f = fields; f < fields + count; f++) {
        uint64_t number = bits_of(at, f);
        if (!(f->form == RETRIES ? any_retries(at, f) : number != 0) && !f->always)
            continue;
        printf(" %s%s", f->name, f->form == FLAG ? "" : "=");
        if (f->form == SET || f->form == RETRIES)
            print_list(at, f);
        else if (f->form == WORD && number <= f->last)
            print_word(f->names(number));
        else if (f->form != FLAG)
            printf("%" PRIu64, number);
    }
}

static int is_zero(const uint8_t *at, size_t length)
{
    while (length > 0 && at[length - 1] == 0)
        length--;
    return length == 0;
}

static void show_table(const bytes *b)
{
    size_t rows = b->length / LUPINENBLATT_ROW_BYTES, last = rows;
    if (b->length % LUPINENBLATT_ROW_BYTES != 0)
        refuse("no whole rows of 80 bytes: %lu bytes", (unsigned long)b->length);
    while (last > 0 && is_zero(b->at + (last - 1) * LUPINENBLATT_ROW_BYTES, LUPINENBLATT_ROW_BYTES))
        last--;
    printf("table rows=%lu\n", (unsigned long)rows);
    for (size_t i = 0; i < last; i++) {
        const uint8_t *row = b->at + i * LUPINENBLATT_ROW_BYTES;
        printf("row");
        if (is_zero(row, LUPINENBLATT_ROW_BYTES))
            printf(" free");
        else
            print_fields(row, row_fields, ROW_FIELDS, LUPINENBLATT_ROW_BYTES);
        printf("\n");
    }
}

static void show_providers(const bytes *b)
{
    static const char *const marks[] = {"absent", "present", NULL, "local"};
    printf("providers places=%lu\n", (unsigned long)b->length);
    for (size_t i = 0; i < b->length; i++)
        if (b->at[i] == 1 || b->at[i] == 3)
            printf("provider number=%lu mark=%s\n", (unsigned long)i + 1, marks[b->at[i]]);
        else if (b->at[i] != 0)
            printf("provider number=%lu mark=%u\n", (unsigned long)i + 1, b->at[i]);
}

static size_t used_places(const uint8_t *list, size_t places, size_t width)
{
    while (places > 0 && is_zero(list + (places - 1) * width, width))
        places--;
    return places;
}

static void show_books(const bytes *b)
{
    if (b->length != LUPINENBLATT_BOOKS_BYTES)
        refuse("not the books' %d bytes: %lu", LUPINENBLATT_BOOKS_BYTES, (unsigned long)b->length);
    printf("books\n");
    if (!is_zero(b->at, 8)) {
        printf("head");
        print_hex(b->at, 8);
        printf("\n");
    }
    for (size_t i = 0, n = used_places(b->at + LUPINENBLATT_CODES_AT, LUPINENBLATT_CODE_PLACES, 4); i < n; i++) {
        lupinenblatt_code c = lupinenblatt_books_code(b->at, i);
        printf(c.code == 0 && c.owner == 0 ? "code free\n" : "code number=%u owner=%u\n", (unsigned)c.code, (unsigned)c.owner);
    }
    for (size_t i = 0, n = used_places(b->at + LUPINENBLATT_FILTERS_AT, LUPINENBLATT_FILTER_PLACES, 4); i < n; i++) {
        lupinenblatt_filter f = lupinenblatt_books_filter(b->at, i);
        printf(f.code == 0 && f.provider == 0 ? "filter free\n" : "filter provider=%u code=%u\n", (unsigned)f.provider, (unsigned)f.code);
    }
    for (size_t i = 0, n = used_places(b->at + LUPINENBLATT_PAIRS_AT, LUPINENBLATT_PAIR_PLACES, 8); i < n; i++) {
        lupinenblatt_pair p = lupinenblatt_books_pair(b->at, i);
        printf(p.one == 0 && p.two == 0 ? "pair free\n" : "pair one=%u two=%u\n", (unsigned)p.one, (unsigned)p.two);
    }
}

static void print_number(const char *name, uint64_t number)
{
    if (number != 0)
        printf(" %s=%" PRIu64, name, number);
}

static void show_events(const bytes *b)
{
    printf("events\n");
    for (size_t at = 0; at < b->length; at += LUPINENBLATT_RECORD_BYTES) {
        size_t length = b->length - at < LUPINENBLATT_RECORD_BYTES ? b->length - at : LUPINENBLATT_RECORD_BYTES;
        lupinenblatt_event e;
        printf("event");
        if (lupinenblatt_event_read(b->at + at, length, &e) != LUPINENBLATT_DONE)
            print_hex(b->at + at, length);
        else {
            printf(" kind=");
            print_word(lupinenblatt_kind_name(e.kind));
            printf(" sender=%" PRIu64, e.sender);
            print_number("other", e.other);
            if (e.mark != 0)
                printf(" mark=%s", authorization_name(e.mark));
            print_number("cause", e.cause);
            print_number("tn", e.tn);
            print_number("lrn", e.lrn);
            print_number("version", e.version);
            print_number("time", e.time);
            print_number("due", e.due);
            if (e.within != 0)
                printf(" within");
        }
        printf("\n");
    }
}

/* The next line of OUTCOMES: the place and the count of an event. */
static int next_outcome(const char **at, unsigned long *place, unsigned long *count)
{
    unsigned long outcome;
    int n = 0;
    if (**at == '\0')
        return 0;
    if (sscanf(*at, "%lu %lu %lu%n", place, &outcome, count, &n) != 3 || (*at)[n] != '\n')
        refuse("OUTCOMES: no line 'place outcome count' behind place %lu", *place);
    *at += n + 1;
    return 1;
}

static void show_messages(const bytes *b, bytes *outcomes)
{
    unsigned long place = 0, left = 0;
    const char *at = NULL;
    if (b->length % LUPINENBLATT_MESSAGE_BYTES != 0)
        refuse("no whole messages of 24 bytes: %lu bytes", (unsigned long)b->length);
    if (outcomes != NULL) {
        grow(outcomes, outcomes->length + 1);
        at = (const char *)outcomes->at;
    }
    printf("messages\n");
    for (size_t i = 0; i < b->length / LUPINENBLATT_MESSAGE_BYTES; i++) {
        printf("message");
        if (at != NULL) {
            while (left == 0)
                if (!next_outcome(&at, &place, &left))
                    refuse("OUTCOMES tells of %lu messages, MESSAGES has more", (unsigned long)i);
            left--;
            printf(" event=%lu", place);
        }
        print_fields(b->at + i * LUPINENBLATT_MESSAGE_BYTES, message_fields, MESSAGE_FIELDS, LUPINENBLATT_MESSAGE_BYTES);
        printf("\n");
    }
    while (at != NULL && left == 0 && next_outcome(&at, &place, &left))
        ;
    if (left > 0)
        refuse("OUTCOMES tells of more messages than MESSAGES has, at event %lu", place);
}

int show(const char *sort, const bytes *b, bytes *outcomes)
{
    if (strcmp(sort, "table") == 0)
        show_table(b);
    else if (strcmp(sort, "providers") == 0)
        show_providers(b);
    else if (strcmp(sort, "books") == 0)
        show_books(b);
    else if (strcmp(sort, "events") == 0)
        show_events(b);
    else if (strcmp(sort, "messages") == 0)
        show_messages(b, outcomes);
    else
        return 0;
    return 1;
}
