/*
 * Document 01 by hand, for speed: the same calls on the same bytes (docs/LAYOUTS.md), written from the paper and not from the library.
 *
 * The soundness of the table is one pass with one load a word and, but for retries, no branch that goes either way in sound tables; a
 * number's rows are found by bisection; rows and messages are written word by word; rows move by memmove. The rows of a line in a
 * split pair are found by two bisections, and the pass is followed by a merge for each pair. Without RELEASE_DATES (request A5, see
 * tests/sizes.h) rows have no word for the date, and there is no status 9.
 */
#include "hand.h"
#include "sizes.h"

#include <stdbool.h>
#include <string.h>

enum { PENDING, CONFLICT, CANCEL_PENDING, SENDING, FAILED, PARTIAL_FAILURE, ACTIVE, OLD, CANCELED, DISCONNECT_PENDING };
enum { NEW_CREATES = 1, OLD_CREATES, NEW_MODIFIES, OLD_MODIFIES, ACTIVATES, CANCELS, ACKNOWLEDGES, RESOLVES, MODIFIES_ACTIVE, DISCONNECTS,
       REPLY, SILENCE, WINDOW_RAN_OUT, RESEND, PURGE, RELEASES, WITHDRAWS };
enum { CREATION = 1, STATUS, ATTRIBUTES, DOWNLOAD_CREATE, WINDOW_NOTICE = 7 };  /* downloads: DOWNLOAD_CREATE + purpose - 1 */
enum { YES = 1, NO = 2 };
enum { ACTIVATE = 1, MODIFY, DISCONNECT };
enum { NEW_SIDE = 1, OLD_SIDE = 2, NPAC = 4 };  /* standings; the first two are cancellers too */
enum { SELECTED, NOT_PRESENT, NO_LOCAL, FILTER_ONLY, FILTERS_BOTH };

/* The numbers above and the layouts below are those that sizes.h counts. */
_Static_assert((RELEASE_DATES ? (int)WITHDRAWS : (int)PURGE) == KINDS && (int)WINDOW_NOTICE == SORTS, "numbers");
_Static_assert((RELEASE_DATES ? (int)DISCONNECT_PENDING : (int)CANCELED) + 1 == STATUSES && DISCONNECT + 1 == PURPOSES, "numbers");
_Static_assert(OLD_SIDE + 1 == CANCELLERS && NO + 1 == MARKS && PROVIDERS == 63 && MOST_RETRIES == 7, "numbers");
_Static_assert(FILTERS_BOTH + 1 == CLASSES && (int)CLASS_PLACES == (int)PROVIDERS, "numbers");
_Static_assert(OLDER_ROW == 80 && ROW == (RELEASE_DATES ? 88 : 80) && STATUS_VALUES == 16, "layouts");
_Static_assert(MESSAGE == 24 && RECORD == 24 && FIELDS == 11, "layouts");
_Static_assert(CODES_AT == 8 && FILTERS_AT == CODES_AT + 4 * CODES && FILTERS % 8 == 0 && SPLITS_AT == FILTERS_AT + 4 * FILTERS
               && BOOKS == SPLITS_AT + 8 * SPLITS, "layouts");

/* ---- Bytes ---- */

static inline uint64_t load64(const uint8_t *at)
{
    uint64_t w;
    memcpy(&w, at, 8);
#if __BYTE_ORDER__ == __ORDER_LITTLE_ENDIAN__
    w = __builtin_bswap64(w);
#endif
    return w;
}

static inline uint64_t raw64(const uint8_t *at)
{
    uint64_t w;
    memcpy(&w, at, 8);
    return w;
}

static inline uint32_t raw32(const uint8_t *at)
{
    uint32_t w;
    memcpy(&w, at, 4);
    return w;
}

static inline uint32_t load32(const uint8_t *at)
{
    uint32_t w;
    memcpy(&w, at, 4);
#if __BYTE_ORDER__ == __ORDER_LITTLE_ENDIAN__
    w = __builtin_bswap32(w);
#endif
    return w;
}

static inline void store64(uint8_t *at, uint64_t w)
{
#if __BYTE_ORDER__ == __ORDER_LITTLE_ENDIAN__
    w = __builtin_bswap64(w);
#endif
    memcpy(at, &w, 8);
}

/* All bytes are equal if each equals its neighbour. */
static inline bool all_zero(const uint8_t *at, size_t length)
{
    return length == 0 || (at[0] == 0 && memcmp(at, at + 1, length - 1) == 0);
}

/* Bits of a row's first word, and its type: 1 within one provider. */
enum { OLD_CREATED = 1 << 7, WINDOW_RUN_OUT = 1 << 6, WITHIN = 1 << 5, SPARE = 31 };
static inline uint64_t within_of(uint64_t w0) { return w0 >> 5 & 1; }

/*
 * Ten digits, the first and the fourth 2 to 9: 1 where they are not. The fourth digit is 2 or more exactly where n / 10,000,000 is at least
 * 0.2 above its whole part, and that fraction is the low word of n times 2^64 / 10,000,000: the error, below 2^34, is less than a step of n.
 */
static inline uint64_t not_ten_digits(uint64_t n)
{
    return (n - 2000000000u > 7999999999u) | (n * 1844674407371u < 3689348814741910323u);
}

/* Likewise six digits; for c below 2^20 the error, below 2^20, is less than a step of 2^32 / 1,000. */
static inline uint32_t not_a_code(uint32_t c)
{
    return (c - 200000 > 799999) | (c * 4294968u < 858993459u);
}

/* ---- Soundness of the table ---- */

/*
 * Which marks and purposes a status may have, as a set over six bits: old side created, new side created, live, purpose (two bits), a
 * canceller. Each name below is the set of all places where its bit is set.
 */
#define OLDC 0xaaaaaaaaaaaaaaaau
#define NEWC 0xccccccccccccccccu
#define LIVE 0xf0f0f0f0f0f0f0f0u
#define PURPOSE_LOW 0xff00ff00ff00ff00u
#define PURPOSE_HIGH 0xffff0000ffff0000u
#define CANCELLER 0xffffffff00000000u
#define AIMLESS (~PURPOSE_LOW & ~PURPOSE_HIGH)
#define TO_ACTIVATE (PURPOSE_LOW & ~PURPOSE_HIGH)

static const uint64_t FITS[STATUS_VALUES] = {
    [PENDING] = (NEWC | OLDC) & ~LIVE & AIMLESS & ~CANCELLER,
    [CONFLICT] = OLDC & ~LIVE & AIMLESS & ~CANCELLER,
    [CANCEL_PENDING] = NEWC & OLDC & ~LIVE & AIMLESS & CANCELLER,
    [SENDING] = NEWC & ~CANCELLER & (TO_ACTIVATE | (LIVE & ~AIMLESS)),
    [FAILED] = NEWC & ~CANCELLER & TO_ACTIVATE & ~LIVE,
    [PARTIAL_FAILURE] = NEWC & ~CANCELLER & TO_ACTIVATE & LIVE,
    [ACTIVE] = NEWC & ~CANCELLER & ~AIMLESS & LIVE,
    [OLD] = NEWC & ~CANCELLER & AIMLESS & ~LIVE,
    [CANCELED] = (NEWC | OLDC) & ~CANCELLER & AIMLESS & ~LIVE,
#if RELEASE_DATES
    [DISCONNECT_PENDING] = NEWC & ~CANCELLER & ~AIMLESS & LIVE,
#endif
};

/* Bit 0 of a set, which is no provider's, as it stands in memory. */
#if __BYTE_ORDER__ == __ORDER_LITTLE_ENDIAN__
#define NOBODY ((uint64_t)1 << 56)
#else
#define NOBODY ((uint64_t)1)
#endif

/* What a line may have once: a sending version 2, a worked one 4; live is 1. */
static const uint8_t ONCE[STATUS_VALUES] = {[PENDING] = 4, [CONFLICT] = 4, [CANCEL_PENDING] = 4, [SENDING] = 2};

/* The lowest 21 bits, each to the lowest of its three. */
static inline uint64_t spread(uint64_t s)
{
    s &= 0x1fffff;
    s = (s | s << 32) & 0x001f00000000ffff;
    s = (s | s << 16) & 0x001f0000ff0000ff;
    s = (s | s << 8) & 0x100f00f00f00f00f;
    s = (s | s << 4) & 0x10c30c30c30c30c3;
    s = (s | s << 2) & 0x1249249249249249;
    return s;
}

static uint64_t stray_retries(uint64_t a, uint64_t b, uint64_t c, uint64_t waiting)
{
    return (a & ~(spread(waiting >> 1) * 7)) | (b & ~(spread(waiting >> 22) * 7)) | (c & ~(spread(waiting >> 43) * 7));
}

/*
 * The used rows, or -1 for an unsound table, whose rows are so many bytes, with the date's word or without. What is only compared with zero,
 * or set with set, is taken as it stands in memory. Each test leaves at once: in a sound table no such branch is taken, and that costs less
 * than keeping its answer.
 */
static inline __attribute__((always_inline)) ptrdiff_t check_rows(const uint8_t *table, size_t length, size_t row)
{
    if (length % row != 0 || length > (size_t)MOST_ROWS * row) return -1;
    const uint8_t *at = table, *end = table + length;
    uint64_t last = 0, seen = 0;
    for (; at != end; at += row) {
        uint64_t w0 = load64(at), w1 = load64(at + 8);
        if (w0 == 0) break;
        uint64_t key = w0 >> 14, tn = w0 >> 30, status = w0 >> 10 & 15, live = w0 >> 9 & 1, created = w0 >> 8 & 1, old = w0 >> 7 & 1;
        if (((w0 & SPARE) | (w1 & 31)) != 0 || (key & 0xffff) == 0 || key <= last || not_ten_digits(tn)) return -1;
        uint64_t once = ONCE[status] | live;
        seen &= -(uint64_t)(tn == last >> 16);
        if ((seen & once) != 0) return -1;
        seen |= once;
        last = key;

        uint64_t lrn = w1 >> 30, one = w1 >> 24 & 63, two = w1 >> 18 & 63, mark = w1 >> 16 & 3, cause = w1 >> 9 & 127;
        uint64_t canceller = w1 >> 7 & 3, purpose = w1 >> 5 & 3;
        uint64_t place = (w0 >> 7 & 7) | purpose << 3 | (uint64_t)(canceller != 0) << 5;
        if ((FITS[status] >> place & 1) == 0 || canceller == 3 || one == 0 || two == 0) return -1;
        if ((((one == two) ^ within_of(w0)) | (within_of(w0) & (w0 >> 7 | w0 >> 6))) != 0) return -1;
        if (((created ^ (lrn != 0)) | (created & not_ten_digits(lrn)) | (created ^ (raw32(at + 16) != 0))) != 0) return -1;
        if (((old ^ (mark != 0)) | (old ^ (raw32(at + 20) != 0))) != 0 || mark == 3) return -1;
        if ((mark == NO) != (cause != 0) || cause > 99) return -1;

        uint64_t confirmed = raw64(at + 32), waiting = raw64(at + 40), failed = raw64(at + 48), sending = status == SENDING;
        if (raw32(at + 24) == 0 || ((sending ^ (raw32(at + 28) != 0)) | (sending ^ (waiting != 0))) != 0) return -1;
        if ((((confirmed | waiting | failed) & NOBODY) | (confirmed & waiting) | ((confirmed | waiting) & failed)) != 0) return -1;
        if ((live & (purpose == ACTIVATE) & (confirmed == 0) & ((waiting | failed) != 0)) != 0) return -1;
        if ((raw64(at + 56) | raw64(at + 64) | raw64(at + 72)) != 0
            && stray_retries(load64(at + 56), load64(at + 64), load64(at + 72), load64(at + 40)) != 0)
            return -1;
        if (RELEASE_DATES) {
            uint64_t pending = status == DISCONNECT_PENDING, date = row == OLDER_ROW ? 0 : load64(at + 80);
            if (((pending ^ (date != 0)) | (pending & (failed != 0)) | (date & 0xffffffff)) != 0) return -1;
        }
    }
    if (!all_zero(at, (size_t)(end - at))) return -1;
    return (at - table) / (ptrdiff_t)row;
}

static ptrdiff_t check_table(const uint8_t *table, size_t length)
{
    return check_rows(table, length, ROW);
}

/* ---- Soundness of the books ---- */

typedef struct {
    const uint8_t *at;
    uint64_t present, local;
    size_t codes, filters, splits;  /* used places */
} books_t;

/* No code stands twice in the first n pairs: a table of twice the room, searched from a code's own place on. */
_Static_assert(2 * 2 * SPLITS <= 256, "twice the room");
static bool apart(const uint8_t *at, size_t n)
{
    uint32_t places[256];
    memset(places, 0, sizeof places);
    for (size_t i = 0; i < 2 * n; i++) {
        uint32_t code = load32(at + 4 * i);
        if (not_a_code(code)) return false;
        uint32_t place = code * 2654435761u >> 24;
        while (places[place] != 0) {
            if (places[place] == code) return false;
            place = (place + 1) & 255;
        }
        places[place] = code;
    }
    return true;
}

static bool check_books(const uint8_t *providers, size_t providers_length, const uint8_t *at, size_t length, books_t *b)
{
    if (providers_length > PROVIDERS || length != BOOKS || load64(at) != 0) return false;
    uint64_t present = 0, local = 0;
    uint32_t bad = 0, last = 0;
    size_t i;
    for (i = 0; i < providers_length; i++) {
        bad |= (providers[i] > 3) | (providers[i] == 2);
        present |= (uint64_t)(providers[i] & 1) << (i + 1);
        local |= (uint64_t)(providers[i] >> 1 & 1) << (i + 1);
    }
    const uint8_t *codes = at + CODES_AT, *filters = at + FILTERS_AT, *splits = at + SPLITS_AT;
    for (i = 0; i < CODES; i++) {
        uint32_t entry = load32(codes + 4 * i), code = entry >> 6;
        if (entry == 0) break;
        if (not_a_code(code) || code <= last || (present >> (entry & 63) & 1) == 0) return false;
        last = code;
    }
    b->codes = i;
    last = 0;
    for (i = 0; i < FILTERS; i++) {
        uint32_t entry = load32(filters + 4 * i);
        if (entry == 0) break;
        if (not_a_code(entry & 0xfffff) || entry <= last || entry >> 26 != 0 || (present >> (entry >> 20 & 63) & 1) == 0) return false;
        last = entry;
    }
    b->filters = i;
    for (i = 0; i < SPLITS && load64(splits + 8 * i) != 0; i++) {}
    b->splits = i;
    if (bad != 0 || !all_zero(codes + 4 * b->codes, 4 * (CODES - b->codes)) || !all_zero(filters + 4 * b->filters, 4 * (FILTERS - b->filters))
        || !all_zero(splits + 8 * b->splits, 8 * (SPLITS - b->splits)) || (b->splits != 0 && !apart(splits, b->splits)))
        return false;
    b->at = at;
    b->present = present;
    b->local = local;
    return true;
}

/* ---- Soundness of the lines ---- */

/* Of so many used rows of so many bytes the first whose key (TN and number) is not below the given one. */
static inline __attribute__((always_inline)) const uint8_t *first_of(const uint8_t *base, size_t n, uint64_t key, size_t row)
{
    if (n == 0) return base;
    while (n > 1) {
        size_t half = n / 2;
        base = load64(base + row * half - row) >> 14 < key ? base + row * half : base;
        n -= half;
    }
    return load64(base) >> 14 < key ? base + row : base;
}

static const uint8_t *first_from(const uint8_t *base, size_t n, uint64_t key)
{
    return first_of(base, n, key, ROW);
}

/* A code's rows from one on, up to the end of the used ones; the row's last four digits and number, or PAST where the code's rows end. */
typedef struct {
    const uint8_t *at, *end;
    uint64_t base, place;
} range_t;

#define PAST ((uint64_t)10000 << 16)

static inline void look(range_t *r)
{
    uint64_t place = r->at == r->end ? PAST : (load64(r->at) >> 14) - r->base;
    r->place = place < PAST ? place : PAST;
}

static inline range_t range_of(const uint8_t *rows, size_t used, uint64_t code, size_t row)
{
    uint64_t base = code * 10000 << 16;
    range_t r = {row == ROW ? first_from(rows, used, base) : first_of(rows, used, base, row), rows + row * used, base, 0};
    look(&r);
    return r;
}

/* On to the next row. Answered is what the line may have once and this row has. */
static inline unsigned pass(range_t *r, size_t row)
{
    uint64_t w0 = load64(r->at);
    r->at += row;
    look(r);
    return ONCE[w0 >> 10 & 15] | (w0 >> 9 & 1);
}

/*
 * Each pair's two ranges merged by the last four digits. In a line that both have, their marks do not meet and their numbers differ; the
 * pass over the table has seen to each name's own. Of a row only the first word is read.
 */
static inline __attribute__((always_inline)) bool check_lines_of(const uint8_t *rows, size_t used, const books_t *b, size_t row)
{
    for (size_t i = 0; i < b->splits; i++) {
        uint64_t pair = load64(b->at + SPLITS_AT + 8 * i);
        range_t one = range_of(rows, used, pair >> 32, row);
        if (one.place == PAST) continue;
        range_t two = range_of(rows, used, (uint32_t)pair, row);
        while (one.place != PAST && two.place != PAST) {
            uint64_t line = one.place >> 16, other = two.place >> 16;
            if (line < other) {
                pass(&one, row);
            } else if (line > other) {
                pass(&two, row);
            } else {
                unsigned by_one = 0, by_two = 0;
                while (one.place >> 16 == line || two.place >> 16 == line) {
                    if (one.place == two.place) return false;
                    if (one.place < two.place) by_one |= pass(&one, row);
                    else by_two |= pass(&two, row);
                }
                if ((by_one & by_two) != 0) return false;
            }
        }
    }
    return true;
}

static bool check_lines(const uint8_t *rows, size_t used, const books_t *b)
{
    return check_lines_of(rows, used, b, ROW);
}

/* ---- Asking the books ---- */

/* 0 where the code is not listed. */
static unsigned owner_of(const books_t *b, uint32_t code)
{
    const uint8_t *base = b->at + CODES_AT;
    size_t n = b->codes;
    if (n == 0) return 0;
    while (n > 1) {
        size_t half = n / 2;
        base = load32(base + 4 * half) >> 6 <= code ? base + 4 * half : base;
        n -= half;
    }
    uint32_t entry = load32(base);
    return entry >> 6 == code ? entry & 63 : 0;
}

/* 0 where the code stands in no pair. */
static uint32_t partner_of(const books_t *b, uint32_t code)
{
    const uint8_t *splits = b->at + SPLITS_AT;
    for (size_t i = 0; i < b->splits; i++) {
        uint64_t pair = load64(splits + 8 * i);
        if (pair >> 32 == code) return (uint32_t)pair;
        if ((uint32_t)pair == code) return (uint32_t)(pair >> 32);
    }
    return 0;
}

/* The other name of a TN's line, 0 where it has none. */
static inline uint64_t other_name(const books_t *b, uint64_t tn)
{
    uint64_t partner = partner_of(b, (uint32_t)(tn / 10000));
    return partner == 0 ? 0 : partner * 10000 + tn % 10000;
}

/* A code as it stands in a filter's place, without the provider. */
static inline uint32_t raw_code(uint32_t code)
{
    uint8_t bytes[4] = {0, (uint8_t)(code >> 16), (uint8_t)(code >> 8), (uint8_t)code};
    return raw32(bytes);
}

/*
 * The providers that filters skip for a code and its partner: one pass for both, where a code without a partner (0) is its own. Eight
 * places at a time are compared as they stand, without exchanging bytes; only where one of them has a code they are looked at one by one.
 * Places behind the last used one are zero and name no code.
 */
static uint64_t skipped(const books_t *b, uint32_t code, uint32_t partner)
{
    if (partner == 0) partner = code;
    const uint8_t *filters = b->at + FILTERS_AT;
    uint32_t mask = raw_code(0xfffff), one = raw_code(code), two = raw_code(partner);
    uint64_t by_one = 0, by_two = 0;
    for (size_t i = 0; i < b->filters; i += 8) {
        uint32_t group[8], any = 0;
        memcpy(group, filters + 4 * i, 32);
        for (int k = 0; k < 8; k++) any |= ((group[k] & mask) == one) | ((group[k] & mask) == two);
        if (!any) continue;
        for (size_t k = i; k < i + 8; k++) {
            uint32_t entry = load32(filters + 4 * k);
            uint64_t bit = (uint64_t)1 << (entry >> 20 & 63);
            if ((entry & 0xfffff) == code) by_one |= bit;
            if ((entry & 0xfffff) == partner) by_two |= bit;
        }
    }
    return by_one & by_two;
}

static uint64_t selected(const books_t *b, uint32_t code)
{
    return b->filters == 0 ? b->local : b->local & ~skipped(b, code, partner_of(b, code));
}

/* ---- The event record ---- */

typedef struct {
    uint64_t tn, lrn, version, time, due;
    unsigned kind, sender, other, mark, cause, within;
} event_t;

enum { HAS_SENDER = 1, MAY_BE_NPAC = 2, HAS_OTHER = 4, HAS_MARK = 8, HAS_CAUSE = 16, HAS_LRN = 32, HAS_VERSION = 64, HAS_DUE = 128,
       MAY_HAVE_DUE = RELEASE_DATES << 8 };
#define PLAIN (HAS_SENDER | MAY_BE_NPAC | HAS_VERSION)

static const uint16_t NAMED[KINDS + 1] = {
    [NEW_CREATES] = HAS_SENDER | HAS_OTHER | HAS_LRN | HAS_DUE,
    [OLD_CREATES] = HAS_SENDER | HAS_OTHER | HAS_MARK | HAS_CAUSE | HAS_DUE,
    [NEW_MODIFIES] = PLAIN | HAS_LRN | HAS_DUE,
    [OLD_MODIFIES] = PLAIN | HAS_MARK | HAS_CAUSE | HAS_DUE,
    [ACTIVATES] = PLAIN, [CANCELS] = PLAIN, [ACKNOWLEDGES] = PLAIN, [RESOLVES] = PLAIN,
    [MODIFIES_ACTIVE] = PLAIN | HAS_LRN,
    [DISCONNECTS] = PLAIN | MAY_HAVE_DUE,
    [REPLY] = HAS_SENDER | HAS_MARK | HAS_VERSION,
    [SILENCE] = HAS_OTHER | HAS_VERSION,
    [WINDOW_RAN_OUT] = PLAIN, [RESEND] = PLAIN, [PURGE] = PLAIN,
#if RELEASE_DATES
    [RELEASES] = PLAIN, [WITHDRAWS] = PLAIN,
#endif
};

static bool well_formed(const event_t *e)
{
    if (e->kind < NEW_CREATES || e->kind > KINDS) return false;
    unsigned named = NAMED[e->kind];
    bool cause = (named & HAS_CAUSE) && e->mark == NO;
    uint64_t bad = not_ten_digits(e->tn) | (e->time == 0);
    bad |= named & HAS_SENDER ? e->sender == 0 && !(named & MAY_BE_NPAC) : e->sender != 0;
    bad |= ((named & HAS_OTHER) != 0) != (e->other != 0);
    bad |= (named & HAS_OTHER) && (e->sender == e->other) != e->within;
    bad |= e->within && e->kind != NEW_CREATES;
    bad |= (((named & HAS_MARK) != 0) != (e->mark != 0)) | (e->mark > NO);
    bad |= (cause != (e->cause != 0)) | (e->cause > 99);
    bad |= named & HAS_LRN ? not_ten_digits(e->lrn) : e->lrn != 0;
    bad |= ((named & HAS_VERSION) != 0) != (e->version != 0);
    bad |= (named & MAY_HAVE_DUE) == 0 && ((named & HAS_DUE) != 0) != (e->due != 0);
    return bad == 0;
}

static bool read_event(const uint8_t *at, event_t *e)
{
    uint64_t a = load64(at), b = load64(at + 8), c = load64(at + 16);
    e->kind = a >> 56;
    e->sender = a >> 50 & 63;
    e->other = a >> 44 & 63;
    e->mark = a >> 42 & 3;
    e->cause = a >> 34 & 255;
    e->tn = a & 0x3ffffffff;
    e->lrn = b >> 30;
    e->version = b >> 14 & 0xffff;
    e->time = (b & 0x3fff) << 18 | c >> 46;
    e->due = c >> 14 & 0xffffffff;
    e->within = c >> 13 & 1;
    return (c & 0x1fff) == 0 && well_formed(e);
}

uint8_t hand_record_read(const uint8_t *bytes, size_t length, uint64_t *fields, size_t places)
{
    event_t e;
    if (length != RECORD || places != FIELDS || !read_event(bytes, &e)) return 2;
    const uint64_t all[FIELDS] = {e.kind, e.sender, e.other, e.mark, e.cause, e.tn, e.lrn, e.version, e.time, e.due, e.within};
    memcpy(fields, all, sizeof all);
    return 0;
}

uint8_t hand_record_write(uint64_t kind, uint64_t sender, uint64_t other, uint64_t mark, uint64_t cause, uint64_t tn, uint64_t lrn,
                          uint64_t version, uint64_t time, uint64_t due, uint64_t within, uint8_t *out, size_t length)
{
    if (length != RECORD || kind > KINDS || sender > PROVIDERS || other > PROVIDERS || mark > NO || cause > LAST_CAUSE
        || version > LAST_VERSION || time > 0xffffffff || due > 0xffffffff || within > 1)
        return 2;
    event_t e = {tn, lrn, version, time, due, (unsigned)kind, (unsigned)sender, (unsigned)other, (unsigned)mark, (unsigned)cause,
                 (unsigned)within};
    if (!well_formed(&e)) return 2;
    store64(out, kind << 56 | sender << 50 | other << 44 | mark << 42 | cause << 34 | tn);
    store64(out + 8, lrn << 30 | version << 14 | time >> 18);
    store64(out + 16, time << 46 | due << 14 | within << 13);
    return 0;
}

/* ---- A line's rows ---- */

typedef struct {
    uint8_t *rows;
    size_t used, all;
    books_t books;
    uint64_t retries;
} engine_t;

/* The first used row whose key is not below the given one. */
static inline uint8_t *row_from(const engine_t *g, uint64_t key)
{
    return g->rows + (first_from(g->rows, g->used, key) - g->rows);
}

/* The row of this name and number, null where there is none. */
static inline uint8_t *row_of(const engine_t *g, uint64_t tn, uint64_t version)
{
    uint64_t key = tn << 16 | version;
    uint8_t *row = row_from(g, key);
    return row == g->rows + ROW * g->used || load64(row) >> 14 != key ? NULL : row;
}

typedef struct {
    uint8_t *end, *live, *sending, *worked, *asked;  /* null where there is none; end is behind the last row of the event's own name */
    uint64_t newest, stamp;
} survey_t;

/* The rows of one name; answered is what is behind the last. */
static inline uint8_t *survey_name(const engine_t *g, uint64_t tn, uint64_t version, survey_t *s)
{
    uint8_t *at = row_from(g, tn << 16), *end = g->rows + ROW * g->used;
    for (; at != end; at += ROW) {
        uint64_t w0 = load64(at), stamp = load64(at + 24) >> 32, number = w0 >> 14 & 0xffff;
        if (w0 >> 30 != tn) break;
        unsigned status = w0 >> 10 & 15;
        if (number > s->newest) s->newest = number;
        if (stamp > s->stamp) s->stamp = stamp;
        if (w0 >> 9 & 1) s->live = at;
        if (status == SENDING) s->sending = at;
        if (status <= CANCEL_PENDING) s->worked = at;
        if (number == version) s->asked = at;
    }
    return at;
}

static void survey(const engine_t *g, uint64_t tn, uint64_t version, survey_t *s)
{
    uint64_t other = other_name(&g->books, tn);
    memset(s, 0, sizeof *s);
    s->end = survey_name(g, tn, version, s);
    if (other != 0) survey_name(g, other, version, s);
}

/* ---- Writing ---- */

static inline uint64_t with_status(uint64_t w0, uint64_t status) { return (w0 & ~(uint64_t)(15 << 10)) | status << 10; }
static inline uint64_t with_authorization(uint64_t w1, uint64_t mark, uint64_t cause)
{
    return (w1 & ~(uint64_t)(3 << 16 | 127 << 9)) | mark << 16 | cause << 9;
}
static inline uint64_t with_lrn(uint64_t w1, uint64_t lrn) { return (w1 & 0x3fffffff) | lrn << 30; }
static inline uint64_t with_canceller(uint64_t w1, uint64_t who) { return (w1 & ~(uint64_t)(3 << 7)) | who << 7; }
static inline uint64_t with_purpose(uint64_t w1, uint64_t purpose) { return (w1 & ~(uint64_t)(3 << 5)) | purpose << 5; }
static inline unsigned new_of(uint64_t w1) { return w1 >> 24 & 63; }
static inline unsigned old_of(uint64_t w1) { return w1 >> 18 & 63; }

/* The release date, which older rows have not. */
static inline void with_date(uint8_t *row, uint64_t date)
{
    if (RELEASE_DATES) store64(row + 80, date << 32);
}
static inline uint64_t date_of(const uint8_t *row) { return RELEASE_DATES ? load64(row + 80) >> 32 : 0; }

/* TN, number and status stand in a message where they stand in the row's first word, the LRN where it stands in the second. */
static inline uint8_t *tell(uint8_t *tray, uint64_t w0, unsigned provider, unsigned sort, uint64_t second, uint64_t failed)
{
    store64(tray, (w0 & ~(uint64_t)1023) | provider << 4 | sort);
    store64(tray + 8, second);
    store64(tray + 16, failed);
    return tray + MESSAGE;
}

/* To old and new; within one provider once. */
static inline uint8_t *tell_sides(uint8_t *tray, uint64_t w0, uint64_t w1, unsigned sort)
{
    uint64_t second = sort == ATTRIBUTES ? w1 & ~(uint64_t)0x3fffffff : 0;
    if (!within_of(w0)) tray = tell(tray, w0, old_of(w1), sort, second, 0);
    return tell(tray, w0, new_of(w1), sort, second, 0);
}

static inline uint8_t *tell_change(uint8_t *tray, uint64_t w0, uint64_t w1, bool changed)
{
    if (changed) tray = tell_sides(tray, w0, w1, STATUS);
    return tell_sides(tray, w0, w1, ATTRIBUTES);
}

static inline uint8_t *download(uint8_t *tray, uint64_t w0, uint64_t w1, unsigned provider)
{
    return tell(tray, w0, provider, DOWNLOAD_CREATE + (w1 >> 5 & 3) - 1, (w1 & ~(uint64_t)0x3fffffff) | 1 << 29, 0);
}

/* The live row of this name, other than one given, turns old with the given stamp. */
static inline void retire_name(const engine_t *g, const uint8_t *self, uint64_t tn, uint64_t stamp)
{
    uint8_t *end = g->rows + ROW * g->used;
    for (uint8_t *at = row_from(g, tn << 16); at != end; at += ROW) {
        uint64_t w0 = load64(at);
        if (w0 >> 30 != tn) return;
        if (at == self || !(w0 >> 9 & 1)) continue;
        store64(at, with_status(w0 & ~(uint64_t)(1 << 9), OLD));
        store64(at + 8, with_purpose(load64(at + 8), 0));
        store64(at + 24, stamp << 32 | (uint32_t)load64(at + 24));
        with_date(at, 0);
        return;
    }
}

static void retire(const engine_t *g, const uint8_t *self, uint64_t tn, uint64_t stamp)
{
    uint64_t other = other_name(&g->books, tn);
    retire_name(g, self, tn, stamp);
    if (other != 0) retire_name(g, self, other, stamp);
}

/* The last answer is in: status by purpose and sets, the start cleared, the sides told. */
static uint8_t *close(const engine_t *g, uint8_t *row, uint64_t w0, uint64_t w1, uint64_t stamp, uint64_t confirmed, uint64_t failed,
                      uint8_t *tray)
{
    unsigned purpose = w1 >> 5 & 3;
    bool none_confirmed = failed != 0 && confirmed == 0;
    if (purpose == ACTIVATE) {
        w0 = with_status(w0, failed == 0 ? ACTIVE : none_confirmed ? FAILED : PARTIAL_FAILURE);
        if (!none_confirmed) {
            w0 |= 1 << 9;
            retire(g, row, w0 >> 30, stamp);
        }
        if (!within_of(w0)) tray = tell(tray, w0, old_of(w1), STATUS, 0, failed);
    } else if (purpose == MODIFY || none_confirmed) {
        w0 = with_status(w0, ACTIVE);
    } else {
        w0 = with_status(w0 & ~(uint64_t)(1 << 9), OLD);
        w1 = with_purpose(w1, 0);
    }
    store64(row, w0);
    store64(row + 8, w1);
    store64(row + 24, stamp << 32);
    store64(row + 32, confirmed);
    store64(row + 40, 0);
    store64(row + 48, failed);
    return tell(tray, w0, new_of(w1), STATUS, 0, failed);
}

static uint8_t *broadcast(const engine_t *g, uint8_t *row, uint64_t w0, uint64_t w1, const event_t *e, uint8_t *tray)
{
    uint64_t asked = selected(&g->books, (uint32_t)((w0 >> 30) / 10000)), confirmed = 0;
    if (e->kind == RESEND) {
        asked &= load64(row + 48);
        confirmed = load64(row + 32);
    } else {
        if (e->kind == MODIFIES_ACTIVE) w1 = with_lrn(w1, e->lrn);
        w1 = with_purpose(w1, e->kind == ACTIVATES ? ACTIVATE : e->kind == MODIFIES_ACTIVE ? MODIFY : DISCONNECT);
    }
    if (asked == 0) return close(g, row, w0, w1, e->time, confirmed, 0, tray);
    w0 = with_status(w0, SENDING);
    store64(row, w0);
    store64(row + 8, w1);
    store64(row + 24, e->time << 32 | e->time);
    store64(row + 32, confirmed);
    store64(row + 40, asked);
    store64(row + 48, 0);
    for (; asked != 0; asked &= asked - 1) tray = download(tray, w0, w1, (unsigned)__builtin_ctzll(asked));
    return tray;
}

/* ---- Kinds 1 and 2 ---- */

static unsigned create(engine_t *g, const event_t *e, uint8_t **tray)
{
    bool by_new = e->kind == NEW_CREATES;
    uint64_t one = by_new ? e->sender : e->other, two = by_new ? e->other : e->sender;
    unsigned owner = owner_of(&g->books, (uint32_t)(e->tn / 10000));
    survey_t s;
    if (owner == 0) return 4;
    survey(g, e->tn, 0, &s);
    if (s.sending != NULL) return 10;
    if (e->time < s.stamp) return 8;
    if (two != (s.live != NULL ? new_of(load64(s.live + 8)) : owner)) return 12;
    uint64_t side = by_new ? 1 << 8 : 1 << 7;
    uint8_t *row = s.worked;
    uint64_t w0, w1, w2;
    if (row != NULL) {
        w0 = load64(row), w1 = load64(row + 8), w2 = load64(row + 16);
        if ((w0 >> 10 & 15) == CANCEL_PENDING || (w0 & side) != 0 || new_of(w1) != one || old_of(w1) != two) return 9;
        if (e->due != (by_new ? w2 & 0xffffffff : w2 >> 32)) return 18;
    } else {
        if (s.newest == 65535) return 14;
        if (g->used == g->all) return 13;
        row = s.end;
        memmove(row + ROW, row, (size_t)(g->rows + ROW * g->used - row));
        g->used++;
        memset(row + 32, 0, ROW - 32);
        w0 = e->tn << 30 | (s.newest + 1) << 14 | e->within << 5, w1 = one << 24 | two << 18, w2 = 0;
    }
    uint64_t before = w0 >> 10 & 15;
    w0 |= side;
    if (by_new) {
        w1 = with_lrn(w1, e->lrn);
        w2 |= e->due << 32;
    } else {
        w1 = with_authorization(w1, e->mark, e->cause);
        w2 |= e->due;
    }
    if ((w1 >> 16 & 3) == NO) w0 = with_status(w0, CONFLICT);
    store64(row, w0);
    store64(row + 8, w1);
    store64(row + 16, w2);
    if (s.worked == NULL) {
        store64(row + 24, e->time << 32);
        *tray = tell_sides(*tray, w0, w1, CREATION);
    } else {
        store64(row + 24, e->time << 32 | (uint32_t)load64(row + 24));
        *tray = tell_change(*tray, w0, w1, (w0 >> 10 & 15) != before);
    }
    return 0;
}

/* ---- Kinds 11 and 12 ---- */

static unsigned answer(const engine_t *g, const event_t *e, uint8_t **tray)
{
    uint64_t other = 0, bit = (uint64_t)1 << (e->kind == REPLY ? e->sender : e->other);
    uint8_t *row = row_of(g, e->tn, e->version);
    if (row == NULL) other = other_name(&g->books, e->tn);
    if (other != 0) row = row_of(g, other, e->version);
    if (row == NULL) return 5;
    uint64_t waiting = load64(row + 40), w3 = load64(row + 24);
    if ((waiting & bit) == 0) return 11;
    if (e->time < (uint32_t)w3) return 8;
    uint64_t w0 = load64(row), w1 = load64(row + 8), stamp = w3 >> 32 > e->time ? w3 >> 32 : e->time;
    unsigned place = (e->kind == REPLY ? e->sender : e->other) - 1, shift = 3 * (place % 21);
    uint8_t *at = row + 56 + 8 * (place / 21);
    uint64_t counts = load64(at);
    if (e->kind == SILENCE && (counts >> shift & 7) < g->retries) {
        store64(at, counts + ((uint64_t)1 << shift));
        store64(row + 24, stamp << 32 | (uint32_t)w3);
        *tray = download(*tray, w0, w1, e->other);
        return 0;
    }
    store64(at, counts & ~((uint64_t)7 << shift));
    uint64_t confirmed = load64(row + 32), failed = load64(row + 48);
    waiting &= ~bit;
    if (e->kind == REPLY && e->mark == YES) confirmed |= bit;
    else failed |= bit;
    if (waiting == 0) {
        *tray = close(g, row, w0, w1, stamp, confirmed, failed, *tray);
        return 0;
    }
    store64(row + 24, stamp << 32 | (uint32_t)w3);
    store64(row + 32, confirmed);
    store64(row + 40, waiting);
    store64(row + 48, failed);
    return 0;
}

/* ---- All other kinds ---- */

#define IN(status) (1 << (status))
static const uint16_t ALLOWS[KINDS + 1] = {
    [NEW_MODIFIES] = IN(PENDING) | IN(CONFLICT), [OLD_MODIFIES] = IN(PENDING) | IN(CONFLICT), [CANCELS] = IN(PENDING) | IN(CONFLICT),
    [ACTIVATES] = IN(PENDING), [ACKNOWLEDGES] = IN(CANCEL_PENDING), [RESOLVES] = IN(CONFLICT),
    [MODIFIES_ACTIVE] = IN(ACTIVE), [DISCONNECTS] = IN(ACTIVE), [WINDOW_RAN_OUT] = IN(PENDING) | IN(CANCEL_PENDING),
    [RESEND] = IN(FAILED) | IN(PARTIAL_FAILURE) | IN(ACTIVE), [PURGE] = IN(OLD) | IN(CANCELED),
#if RELEASE_DATES
    [RELEASES] = IN(DISCONNECT_PENDING), [WITHDRAWS] = IN(DISCONNECT_PENDING),
#endif
};
static const uint8_t STANDS[KINDS + 1] = {
    [NEW_MODIFIES] = NEW_SIDE, [ACTIVATES] = NEW_SIDE, [MODIFIES_ACTIVE] = NEW_SIDE, [DISCONNECTS] = NEW_SIDE, [OLD_MODIFIES] = OLD_SIDE,
    [CANCELS] = NEW_SIDE | OLD_SIDE, [ACKNOWLEDGES] = NEW_SIDE | OLD_SIDE, [RESOLVES] = NEW_SIDE | OLD_SIDE,
    [WINDOW_RAN_OUT] = NPAC, [RESEND] = NPAC, [PURGE] = NPAC,
#if RELEASE_DATES
    [RELEASES] = NPAC, [WITHDRAWS] = NEW_SIDE,
#endif
};

static void strike(engine_t *g, uint8_t *row)
{
    uint8_t *last = g->rows + ROW * --g->used;
    memmove(row, row + ROW, (size_t)(last - row));
    memset(last, 0, ROW);
}

static unsigned other_kind(engine_t *g, const event_t *e, uint8_t **tray)
{
    survey_t s;
    survey(g, e->tn, e->version, &s);
    uint8_t *row = s.asked;
    if (row == NULL) return 5;
    uint64_t w0 = load64(row), w1 = load64(row + 8), w2 = load64(row + 16), w3 = load64(row + 24);
    unsigned status = w0 >> 10 & 15, canceller = w1 >> 7 & 3;
    bool created = w0 >> 8 & 1, old = w0 >> 7 & 1, window = w0 >> 6 & 1;
    unsigned stand = e->sender == 0 ? NPAC : created && e->sender == new_of(w1) ? NEW_SIDE : old && e->sender == old_of(w1) ? OLD_SIDE : 0;
    if ((STANDS[e->kind] & stand) == 0) return 6;
    if ((ALLOWS[e->kind] >> status & 1) == 0) return 7;

    bool busy = false, early = e->time < s.stamp, unawaited = false;
    switch (e->kind) {
    case ACTIVATES:
        if ((w0 & (OLD_CREATED | WINDOW_RUN_OUT | WITHIN)) == 0) return 7;
        busy = s.sending != NULL;
        early |= e->time < w2 >> 32;
        break;
    case MODIFIES_ACTIVE: case DISCONNECTS:
        if (load64(row + 48) != 0) return 7;
        busy = s.sending != NULL;
        break;
    case RESEND:
        if (status == ACTIVE && load64(row + 48) == 0) return 7;
        busy = s.sending != NULL || (status == FAILED && s.newest > e->version);
        break;
    case PURGE: busy = s.newest == e->version; break;
    case RELEASES:
        busy = s.sending != NULL;
        early |= e->time < date_of(row);
        break;
    case ACKNOWLEDGES: unawaited = stand == canceller; break;
    case WINDOW_RAN_OUT:
        if (within_of(w0)) return 7;
        unawaited = status == PENDING && created && (old || window);
        break;
    default: break;
    }
    if (busy) return 10;
    if (early) return 8;
    if (unawaited) return 11;

    if (RELEASE_DATES && (e->kind == WITHDRAWS || (e->kind == DISCONNECTS && e->due > e->time))) {
        bool enters = e->kind == DISCONNECTS;
        w0 = with_status(w0, enters ? DISCONNECT_PENDING : ACTIVE);
        store64(row, w0);
        store64(row + 24, e->time << 32);
        with_date(row, enters ? e->due : 0);
        *tray = tell(*tray, w0, new_of(w1), STATUS, 0, 0);
        return 0;
    }
    switch (e->kind) {
    case RELEASES: with_date(row, 0);  /* fall through */
    case ACTIVATES: case MODIFIES_ACTIVE: case DISCONNECTS: case RESEND: *tray = broadcast(g, row, w0, w1, e, *tray); return 0;
    case PURGE: strike(g, row); return 0;
    case NEW_MODIFIES:
        w1 = with_lrn(w1, e->lrn);
        store64(row + 16, e->due << 32 | (uint32_t)w2);
        break;
    case OLD_MODIFIES:
        w1 = with_authorization(w1, e->mark, e->cause);
        w0 = with_status(w0, e->mark == NO ? CONFLICT : PENDING);
        store64(row + 16, (w2 >> 32) << 32 | e->due);
        break;
    case CANCELS:
        if (created && old) {
            w0 = with_status(w0, CANCEL_PENDING);
            w1 = with_canceller(w1, stand);
        } else {
            w0 = with_status(w0, CANCELED);
        }
        break;
    case ACKNOWLEDGES:
        w0 = with_status(w0, CANCELED);
        w1 = with_canceller(w1, 0);
        break;
    case RESOLVES:
        w0 = with_status(w0, PENDING);
        w1 = with_authorization(w1, YES, 0);
        break;
    default:  /* the window ran out */
        if (status == PENDING && created) {
            w0 |= WINDOW_RUN_OUT;
        } else if (status == PENDING) {
            w0 = with_status(w0, CANCELED);
        } else {
            w0 = with_status(w0, canceller == NEW_SIDE ? CANCELED : CONFLICT);
            w1 = with_canceller(w1, 0);
        }
    }
    store64(row, w0);
    store64(row + 8, w1);
    store64(row + 24, e->time << 32 | (uint32_t)w3);
    if (e->kind <= OLD_MODIFIES) *tray = tell_change(*tray, w0, w1, (w0 >> 10 & 15) != status);
    else if (e->kind == WINDOW_RAN_OUT && status == PENDING && created) *tray = tell(*tray, w0, old_of(w1), WINDOW_NOTICE, 0, 0);
    else *tray = tell_sides(*tray, w0, w1, STATUS);
    return 0;
}

/* ---- Calls ---- */

static lupinenblatt_answer act(engine_t *g, const uint8_t *record, uint8_t *tray)
{
    lupinenblatt_answer a = {2, 0};
    event_t e;
    if (!read_event(record, &e)) return a;
    uint64_t named = (uint64_t)1 << e.sender | (uint64_t)1 << e.other;
    uint8_t *end = tray;
    if ((named & ~g->books.present & ~(uint64_t)1) != 0) a.outcome = 3;
    else if (e.kind <= OLD_CREATES) a.outcome = create(g, &e, &end);
    else if (e.kind == REPLY || e.kind == SILENCE) a.outcome = answer(g, &e, &end);
    else a.outcome = other_kind(g, &e, &end);
    a.count = (uint64_t)(end - tray) / MESSAGE;
    return a;
}

static bool begin(engine_t *g, uint8_t *table, size_t table_length, const uint8_t *providers, size_t providers_length, const uint8_t *books,
                  size_t books_length, uint64_t retries, size_t tray_length)
{
    if (retries > MOST_RETRIES || tray_length / MESSAGE < PLACES) return false;
    if (!check_books(providers, providers_length, books, books_length, &g->books)) return false;
    ptrdiff_t used = check_table(table, table_length);
    if (used < 0 || !check_lines(table, (size_t)used, &g->books)) return false;
    g->rows = table;
    g->used = (size_t)used;
    g->all = table_length / ROW;
    g->retries = retries;
    return true;
}

lupinenblatt_answer hand_step(uint8_t *table, size_t table_length, const uint8_t *providers, size_t providers_length, const uint8_t *books,
                              size_t books_length, uint64_t retries, const uint8_t *event, size_t event_length, uint8_t *tray,
                              size_t tray_length)
{
    lupinenblatt_answer a = {1, 0};
    engine_t g;
    if (!begin(&g, table, table_length, providers, providers_length, books, books_length, retries, tray_length)) return a;
    a.outcome = 2;
    if (event_length != RECORD) return a;
    return act(&g, event, tray);
}

/* A call without R takes 3. */
lupinenblatt_answer hand_step_default(uint8_t *table, size_t table_length, const uint8_t *providers, size_t providers_length,
                                      const uint8_t *books, size_t books_length, const uint8_t *event, size_t event_length, uint8_t *tray,
                                      size_t tray_length)
{
    return hand_step(table, table_length, providers, providers_length, books, books_length, 3, event, event_length, tray, tray_length);
}

lupinenblatt_ran hand_run(uint8_t *table, size_t table_length, const uint8_t *providers, size_t providers_length, const uint8_t *books,
                          size_t books_length, uint64_t retries, const uint8_t *events, size_t events_length, uint8_t *tray,
                          size_t tray_length, uint8_t *outcomes, size_t outcomes_length)
{
    lupinenblatt_ran ran = {1, 0, 0};
    engine_t g;
    size_t count = events_length / RECORD, places = tray_length / MESSAGE;
    if (outcomes_length / 2 < count) return ran;
    if (!begin(&g, table, table_length, providers, providers_length, books, books_length, retries, tray_length)) return ran;
    ran.outcome = 2;
    if (events_length % RECORD != 0) return ran;
    ran.outcome = 0;
    while (ran.events < count && places - ran.messages >= PLACES) {
        lupinenblatt_answer a = act(&g, events + RECORD * ran.events, tray + MESSAGE * ran.messages);
        outcomes[2 * ran.events] = (uint8_t)a.outcome;
        outcomes[2 * ran.events + 1] = (uint8_t)a.count;
        ran.events++;
        ran.messages += a.count;
    }
    return ran;
}

lupinenblatt_answer hand_table_check(const uint8_t *table, size_t table_length, const uint8_t *providers, size_t providers_length,
                                     const uint8_t *books, size_t books_length)
{
    books_t b;
    ptrdiff_t used = check_table(table, table_length);
    bool sound = used >= 0 && check_books(providers, providers_length, books, books_length, &b) && check_lines(table, (size_t)used, &b);
    lupinenblatt_answer a = {!sound, sound ? (uint64_t)used : 0};
    return a;
}

#if RELEASE_DATES
lupinenblatt_answer hand_convert(const uint8_t *older, size_t older_length, const uint8_t *providers, size_t providers_length,
                                 const uint8_t *books, size_t books_length, uint8_t *table, size_t table_length)
{
    lupinenblatt_answer a = {1, 0};
    books_t b;
    if (older_length / OLDER_ROW * ROW != table_length || !check_books(providers, providers_length, books, books_length, &b)) return a;
    ptrdiff_t used = check_rows(older, older_length, OLDER_ROW);
    if (used < 0 || !check_lines_of(older, (size_t)used, &b, OLDER_ROW)) return a;
    uint8_t *end = table + table_length;
    for (ptrdiff_t i = 0; i < used; i++, table += ROW) {
        memcpy(table, older + OLDER_ROW * i, OLDER_ROW);
        with_date(table, 0);
    }
    memset(table, 0, (size_t)(end - table));
    a.outcome = 0;
    a.count = (uint64_t)used;
    return a;
}
#endif

uint8_t hand_books_check(const uint8_t *providers, size_t providers_length, const uint8_t *books, size_t books_length)
{
    books_t b;
    return !check_books(providers, providers_length, books, books_length, &b);
}

/* The class by three bits: present, runs a Local SMS, skipped. */
uint8_t hand_selection(const uint8_t *providers, size_t providers_length, const uint8_t *books, size_t books_length, uint64_t tn,
                       uint8_t *classes, size_t classes_length)
{
    books_t b;
    if (!check_books(providers, providers_length, books, books_length, &b)) return 1;
    if (not_ten_digits(tn) || classes_length != CLASS_PLACES) return 2;
    uint32_t code = (uint32_t)(tn / 10000), partner = partner_of(&b, code);
    uint64_t skips = skipped(&b, code, partner);
    const uint8_t by_bits[8] = {NOT_PRESENT, NO_LOCAL, NOT_PRESENT, SELECTED, NOT_PRESENT, NO_LOCAL, NOT_PRESENT,
                                partner != 0 ? FILTERS_BOTH : FILTER_ONLY};
    for (unsigned p = 1; p <= PROVIDERS; p++)
        classes[p - 1] = by_bits[(b.present >> p & 1) | (b.local >> p & 1) << 1 | (skips >> p & 1) << 2];
    return 0;
}
