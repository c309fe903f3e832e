/*
 * Every inline function of include/lupinenblatt.h on bytes made by hand from docs/LAYOUTS.md, the R of the call without R, the classes of
 * selection, and the calls with null and length 0. tests/header builds it as C99 and as C++17 and runs both. With an argument it prints the
 * words of outcomes, classes and clauses, a line for each number.
 */
#include <stdio.h>
#include <string.h>

#include "sizes.h"

static unsigned checks, wrong;

static void check(int holds, const char *what, int line)
{
    checks++;
    if (!holds) {
        wrong++;
        printf("line %d: %s\n", line, what);
    }
}

#define CHECK(holds) check(holds, #holds, __LINE__)
#define SAME(a, b) CHECK(strcmp(a, b) == 0)

static const uint8_t record[] = {0x01, 0x08, 0x10, 0x00, 0xb4, 0xee, 0xd1, 0x94, 0x2d, 0x3b, 0xb4, 0x4c,
                                 0x00, 0x00, 0x00, 0x00, 0x00, 0x02, 0x80, 0x00, 0x00, 0x19, 0x00, 0x00};

/* The row of docs/LAYOUTS.md, then one in which every field has bits of its own. */
static const uint8_t rows[] = {
    0x2d, 0x3b, 0xb4, 0x65, 0x00, 0x00, 0x5b, 0x80, 0x2d, 0x3b, 0xb4, 0x4c, 0x02, 0x05, 0x00, 0x20, 0x00, 0x00, 0x00, 0x64,
    0x00, 0x00, 0x00, 0x64, 0x00, 0x00, 0x00, 0x68, 0x00, 0x00, 0x00, 0x00, 0x00, 0x00, 0x00, 0x00, 0x00, 0x00, 0x00, 0x0e,
    0x00, 0x00, 0x00, 0x00, 0x00, 0x00, 0x00, 0x00, 0x00, 0x00, 0x00, 0x00, 0x00, 0x00, 0x00, 0x00, 0x00, 0x00, 0x00, 0x00,
    0x00, 0x00, 0x00, 0x00, 0x00, 0x00, 0x00, 0x00, 0x00, 0x00, 0x00, 0x00, 0x00, 0x00, 0x00, 0x00, 0x00, 0x00, 0x00, 0x00,
    0x2d, 0x3b, 0xb4, 0x65, 0x00, 0x80, 0x4f, 0x40, 0x89, 0x17, 0x35, 0xea, 0x29, 0x5a, 0x9b, 0x60, 0x01, 0x02, 0x03, 0x04,
    0xf0, 0xe0, 0xd0, 0xc0, 0x11, 0x12, 0x13, 0x14, 0x21, 0x22, 0x23, 0x24, 0x80, 0x00, 0x00, 0x00, 0x00, 0x00, 0x00, 0x02,
    0x00, 0x00, 0x00, 0x00, 0x00, 0x40, 0x00, 0x04, 0x00, 0x00, 0x08, 0x00, 0x00, 0x00, 0x00, 0x00, 0x50, 0x00, 0x00, 0x00,
    0x00, 0x00, 0x00, 0x07, 0x10, 0x00, 0x00, 0x00, 0x00, 0x00, 0x00, 0x03, 0x20, 0x00, 0x00, 0x00, 0x00, 0x00, 0x00, 0x06,
};

/* The message of docs/LAYOUTS.md, then one of the highest numbers to a SOA with a failed set. */
static const uint8_t messages[] = {
    0x2d, 0x3b, 0xb4, 0x65, 0x00, 0x00, 0x4c, 0x24, 0x2d, 0x3b, 0xb4, 0x4c, 0x20, 0x00, 0x00, 0x00, 0x00, 0x00, 0x00, 0x00,
    0x00, 0x00, 0x00, 0x00, 0x2d, 0x3b, 0xb4, 0x65, 0x3f, 0xff, 0xd7, 0xf2, 0x89, 0x17, 0x35, 0xea, 0x00, 0x00, 0x00, 0x00,
    0x80, 0x00, 0x00, 0x00, 0x00, 0x00, 0x00, 0x02,
};

static void sizes(void)
{
    CHECK(LUPINENBLATT_TRAY_BYTES == 1536);
    CHECK(LUPINENBLATT_CODES_AT + 4 * LUPINENBLATT_CODE_PLACES == LUPINENBLATT_FILTERS_AT);
    CHECK(LUPINENBLATT_FILTERS_AT + 4 * LUPINENBLATT_FILTER_PLACES == LUPINENBLATT_PAIRS_AT);
    CHECK(LUPINENBLATT_PAIRS_AT + 8 * LUPINENBLATT_PAIR_PLACES == LUPINENBLATT_BOOKS_BYTES);
    CHECK(LUPINENBLATT_CLASSES == LUPINENBLATT_PROVIDERS_BYTES);
    char version[32];
    sprintf(version, "%d.%d.%d", LUPINENBLATT_VERSION_MAJOR, LUPINENBLATT_VERSION_MINOR, LUPINENBLATT_VERSION_PATCH);
    SAME(version, LUPINENBLATT_VERSION);
    CHECK(lupinenblatt_version() == LUPINENBLATT_VERSION_NUMBER);
}

static void events(void)
{
    lupinenblatt_event e = {1, 2, 1, 0, 0, 3035550100u, 3035550000u, 0, 10, 100, 0}, back, kept;
    uint8_t out[25];
    memset(out, 0xa5, sizeof out);
    CHECK(lupinenblatt_event_write(e, out, 24) == LUPINENBLATT_DONE);
    CHECK(memcmp(out, record, 24) == 0 && out[24] == 0xa5);
    memset(&back, 0xff, sizeof back);
    CHECK(lupinenblatt_event_read(record, 24, &back) == LUPINENBLATT_DONE);
    CHECK(back.kind == 1 && back.sender == 2 && back.other == 1 && back.mark == 0 && back.cause == 0);
    CHECK(back.tn == 3035550100u && back.lrn == 3035550000u && back.version == 0 && back.time == 10 && back.due == 100);
    CHECK(back.within == 0);
    lupinenblatt_event all = {4, 7, 0, 2, 99, 3035550100u, 0, 513, 4294967295u, 77, 0};
    CHECK(lupinenblatt_event_write(all, out, 24) == LUPINENBLATT_DONE && lupinenblatt_event_read(out, 24, &back) == LUPINENBLATT_DONE);
    CHECK(back.mark == 2 && back.cause == 99 && back.version == 513 && back.time == 4294967295u && back.due == 77 && back.lrn == 0);
    memset(out, 0xa5, sizeof out);
    e.kind = 257;
    CHECK(lupinenblatt_event_write(e, out, 24) == LUPINENBLATT_MALFORMED && out[0] == 0xa5 && out[23] == 0xa5);
    e.kind = 1;
    CHECK(lupinenblatt_event_write(e, out, 25) == LUPINENBLATT_MALFORMED && out[0] == 0xa5);
    kept = back;
    CHECK(lupinenblatt_event_read(record, 23, &back) == LUPINENBLATT_MALFORMED && memcmp(&kept, &back, sizeof kept) == 0);
}

/* The type within one provider: its record by hand, and each form that is malformed. */
static void events_within(void)
{
    lupinenblatt_event e = {1, 2, 2, 0, 0, 3035550100u, 3035550000u, 0, 10, 100, 1}, back, bad;
    uint8_t out[24], expected[24];
    memcpy(expected, record, 24);
    expected[2] = 0x20, expected[22] = 0x20;
    CHECK(lupinenblatt_event_write(e, out, 24) == LUPINENBLATT_DONE && memcmp(out, expected, 24) == 0);
    CHECK(lupinenblatt_event_read(expected, 24, &back) == LUPINENBLATT_DONE);
    CHECK(back.kind == 1 && back.sender == 2 && back.other == 2 && back.due == 100 && back.within == 1);
    memset(out, 0xa5, sizeof out);
    bad = e, bad.within = 0;
    CHECK(lupinenblatt_event_write(bad, out, 24) == LUPINENBLATT_MALFORMED);
    bad = e, bad.other = 1;
    CHECK(lupinenblatt_event_write(bad, out, 24) == LUPINENBLATT_MALFORMED);
    bad = e, bad.sender = 0, bad.other = 0;
    CHECK(lupinenblatt_event_write(bad, out, 24) == LUPINENBLATT_MALFORMED);
    bad = e, bad.within = 2;
    CHECK(lupinenblatt_event_write(bad, out, 24) == LUPINENBLATT_MALFORMED);
    bad = e, bad.within = 257;
    CHECK(lupinenblatt_event_write(bad, out, 24) == LUPINENBLATT_MALFORMED);
    bad = e, bad.kind = 2, bad.mark = 1, bad.lrn = 0;
    CHECK(lupinenblatt_event_write(bad, out, 24) == LUPINENBLATT_MALFORMED);
    bad = e, bad.kind = 5, bad.other = 0, bad.lrn = 0, bad.due = 0, bad.version = 1;
    CHECK(lupinenblatt_event_write(bad, out, 24) == LUPINENBLATT_MALFORMED && out[0] == 0xa5 && out[23] == 0xa5);
    bad.within = 0;
    CHECK(lupinenblatt_event_write(bad, out, 24) == LUPINENBLATT_DONE && lupinenblatt_event_read(out, 24, &back) == LUPINENBLATT_DONE);
    CHECK(back.kind == 5 && back.within == 0);
    expected[22] = 0x10;
    CHECK(lupinenblatt_event_read(expected, 24, &back) == LUPINENBLATT_MALFORMED && back.kind == 5);
}

static void sets(void)
{
    for (unsigned p = 0; p < 130; p++) {
        CHECK(lupinenblatt_set_has(~(uint64_t)0, p) == (p >= 1 && p <= 63));
        CHECK(lupinenblatt_set_has(0, p) == 0);
        CHECK(lupinenblatt_set_has((uint64_t)1 << 63 | 2, p) == (p == 1 || p == 63));
    }
}

static void trays(void)
{
    lupinenblatt_message_fields m = lupinenblatt_message(messages, 0);
    CHECK(m.tn == 3035550100u && m.lrn == 3035550000u && m.failed == 0 && m.version == 1);
    CHECK(m.status == LUPINENBLATT_SENDING && m.sort == LUPINENBLATT_DOWNLOAD_CREATE && m.provider == 2 && m.local == 1);
    m = lupinenblatt_message(messages, 1);
    CHECK(m.tn == 3035550100u && m.lrn == 9199998888u && m.failed == ((uint64_t)1 << 63 | 2) && m.version == 65535);
    CHECK(m.status == LUPINENBLATT_PARTIAL_FAILURE && m.sort == LUPINENBLATT_STATUS && m.provider == 63 && m.local == 0);
}

static void tables(void)
{
    static const uint8_t free_row[LUPINENBLATT_ROW_BYTES] = {0};
    uint8_t row[LUPINENBLATT_ROW_BYTES];
    lupinenblatt_row_fields r = lupinenblatt_row(rows, 0), zero;
    CHECK(r.tn == 3035550100u && r.version == 1 && r.status == LUPINENBLATT_ACTIVE && r.live && r.new_created && r.old_created);
    CHECK(!r.window_ran_out && r.lrn == 3035550000u && r.new_provider == 2 && r.old_provider == 1 && r.cause == 0 && r.canceller == 0);
    CHECK(r.authorization == LUPINENBLATT_YES && r.purpose == LUPINENBLATT_PURPOSE_ACTIVATE && r.new_due == 100 && r.old_due == 100);
    CHECK(r.stamp == 104 && r.start == 0 && r.confirmed == 14 && r.waiting == 0 && r.failed == 0);
    r = lupinenblatt_row(rows, 1);
    CHECK(r.tn == 3035550100u && r.version == 513 && r.status == LUPINENBLATT_SENDING && r.live == 1 && r.new_created == 1);
    CHECK(r.old_created == 0 && r.window_ran_out == 1 && r.lrn == 9199998888u && r.new_provider == 41 && r.old_provider == 22);
    CHECK(r.authorization == LUPINENBLATT_NO && r.cause == 77 && r.canceller == LUPINENBLATT_CANCELLER_OLD);
    CHECK(r.purpose == LUPINENBLATT_PURPOSE_DISCONNECT && r.new_due == 0x01020304 && r.old_due == 0xf0e0d0c0u);
    CHECK(r.stamp == 0x11121314 && r.start == 0x21222324 && r.confirmed == ((uint64_t)1 << 63 | 2));
    CHECK(r.waiting == ((uint64_t)1 << 22 | 4) && r.failed == (uint64_t)1 << 43);
    for (unsigned p = 0; p <= PROVIDERS; p++)
        CHECK(r.retries[p] == (p == 1 ? 7 : p == 21 ? 5 : p == 22 ? 3 : p == 42 ? 1 : p == 43 ? 6 : p == 63 ? 2 : 0));
    CHECK(r.within == 0 && lupinenblatt_row(rows, 0).within == 0);
    memcpy(row, rows, sizeof row);
    row[7] = 0x20;
    r = lupinenblatt_row(row, 0);
    CHECK(r.within == 1 && r.window_ran_out == 0 && r.old_created == 0 && r.live == 1 && lupinenblatt_row_within(row) == 1);
    r = lupinenblatt_row(free_row, 0);
    memset(&zero, 0, sizeof zero);
    CHECK(r.tn == 0 && r.version == 0 && r.stamp == 0 && r.within == 0 && r.confirmed == 0);
    CHECK(memcmp(r.retries, zero.retries, sizeof r.retries) == 0);
}

static uint8_t books[LUPINENBLATT_BOOKS_BYTES];

static void makers(void)
{
    uint8_t list[3] = {0, 0, 0}, before[LUPINENBLATT_BOOKS_BYTES];
    CHECK(lupinenblatt_providers_put(list, 3, 1, 3) && lupinenblatt_providers_put(list, 3, 3, 1) && memcmp(list, "\x03\x00\x01", 3) == 0);
    CHECK(!lupinenblatt_providers_put(list, 3, 0, 1) && !lupinenblatt_providers_put(list, 3, 4, 1) && !lupinenblatt_providers_put(list, 3, 2, 256));
    CHECK(memcmp(list, "\x03\x00\x01", 3) == 0);
    CHECK(lupinenblatt_books_put_code(books, 0, 303555, 1) && memcmp(books + 8, "\x01\x28\x70\xc1", 4) == 0);
    CHECK(lupinenblatt_books_put_filter(books, 0, 3, 303555) && memcmp(books + 4104, "\x00\x34\xa1\xc3", 4) == 0);
    CHECK(lupinenblatt_books_put_pair(books, 0, 303555, 303556) && memcmp(books + 8200, "\x00\x04\xa1\xc3\x00\x04\xa1\xc4", 8) == 0);
    CHECK(lupinenblatt_books_check(list, 3, books, sizeof books) == LUPINENBLATT_DONE);
    CHECK(lupinenblatt_books_put_code(books, 1023, 999999, 63) && memcmp(books + 4100, "\x03\xd0\x8f\xff", 4) == 0);
    CHECK(lupinenblatt_books_put_filter(books, 1023, 63, 999999) && memcmp(books + 8196, "\x03\xff\x42\x3f", 4) == 0);
    CHECK(lupinenblatt_books_put_pair(books, 63, 999999, 200200) && memcmp(books + 8704, "\x00\x0f\x42\x3f\x00\x03\x0e\x08", 8) == 0);
    memcpy(before, books, sizeof books);
    CHECK(!lupinenblatt_books_put_code(books, 1024, 303555, 1) && !lupinenblatt_books_put_code(books, 5, 303555, 64));
    CHECK(!lupinenblatt_books_put_code(books, 5, 1u << 26, 1) && !lupinenblatt_books_put_filter(books, 1024, 3, 303555));
    CHECK(!lupinenblatt_books_put_filter(books, 5, 4096, 303555) && !lupinenblatt_books_put_filter(books, 5, 3, 1u << 20));
    CHECK(!lupinenblatt_books_put_pair(books, 64, 303555, 303556) && memcmp(before, books, sizeof books) == 0);
    CHECK(lupinenblatt_books_code(books, 0).code == 303555 && lupinenblatt_books_code(books, 0).owner == 1);
    CHECK(lupinenblatt_books_code(books, 1023).code == 999999 && lupinenblatt_books_code(books, 1023).owner == 63);
    CHECK(lupinenblatt_books_filter(books, 0).provider == 3 && lupinenblatt_books_filter(books, 0).code == 303555);
    CHECK(lupinenblatt_books_filter(books, 1023).provider == 63 && lupinenblatt_books_filter(books, 1023).code == 999999);
    CHECK(lupinenblatt_books_pair(books, 63).one == 999999 && lupinenblatt_books_pair(books, 63).two == 200200);
    CHECK(lupinenblatt_books_code(books, 1).code == 0 && lupinenblatt_books_pair(books, 1).one == 0);
}

typedef const char *naming(uint64_t number);

typedef int numbering(uint64_t number);

static int any(uint64_t number) { (void)number; return 1; }

/* Every number from `first` to `last` that is one of `numbers` has a text of its own, which is not `none`; every other number has `none`. */
static void naming_is(naming *name, uint64_t first, uint64_t last, numbering *numbers, const char *none)
{
    for (uint64_t i = first; i <= last; i++) {
        CHECK(name(i)[0] != '\0' && (strcmp(name(i), none) != 0) == (numbers(i) != 0));
        for (uint64_t j = first; j < i; j++)
            CHECK(strcmp(name(i), name(j)) != 0 || !numbers(i));
    }
    for (uint64_t i = 0; i < first; i++)
        SAME(name(i), none);
    SAME(name(last + 1), none);
    SAME(name(256), none);
    SAME(name((uint64_t)1 << 32), none);
    SAME(name(~(uint64_t)0), none);
}

static void names(void)
{
    naming_is(lupinenblatt_outcome_name, 0, OUTCOMES - 1, isOutcome, "no outcome");
    naming_is(lupinenblatt_kind_name, 1, KINDS, any, "no kind");
    naming_is(lupinenblatt_status_name, 0, STATUSES - 1, any, "no status");
    naming_is(lupinenblatt_sort_name, 1, SORTS, any, "no sort");
    naming_is(lupinenblatt_purpose_name, 0, PURPOSES - 1, any, "no purpose");
    naming_is(lupinenblatt_canceller_name, 0, CANCELLERS - 1, any, "no canceller");
    naming_is(lupinenblatt_class_name, 0, CLASSES - 1, any, "no class");
    naming_is(lupinenblatt_table_fault_name, 0, TABLE_CLAUSES, any, "no clause");
    naming_is(lupinenblatt_books_fault_name, 0, BOOKS_CLAUSES, any, "no clause");
}

static void kind_words(void)
{
    SAME(lupinenblatt_kind_name(LUPINENBLATT_NEW_CREATES), "new side creates");
    SAME(lupinenblatt_kind_name(LUPINENBLATT_OLD_CREATES), "old side creates");
    SAME(lupinenblatt_kind_name(LUPINENBLATT_NEW_MODIFIES), "new side modifies");
    SAME(lupinenblatt_kind_name(LUPINENBLATT_OLD_MODIFIES), "old side modifies");
    SAME(lupinenblatt_kind_name(LUPINENBLATT_ACTIVATE), "activate");
    SAME(lupinenblatt_kind_name(LUPINENBLATT_CANCEL), "cancel");
    SAME(lupinenblatt_kind_name(LUPINENBLATT_ACKNOWLEDGE_CANCEL), "acknowledge cancel");
    SAME(lupinenblatt_kind_name(LUPINENBLATT_RESOLVE_CONFLICT), "resolve conflict");
    SAME(lupinenblatt_kind_name(LUPINENBLATT_MODIFY_ACTIVE), "modify active");
    SAME(lupinenblatt_kind_name(LUPINENBLATT_DISCONNECT), "disconnect");
    SAME(lupinenblatt_kind_name(LUPINENBLATT_REPLY), "reply");
    SAME(lupinenblatt_kind_name(LUPINENBLATT_SILENCE), "silence");
    SAME(lupinenblatt_kind_name(LUPINENBLATT_WINDOW_RAN_OUT), "window ran out");
    SAME(lupinenblatt_kind_name(LUPINENBLATT_RESEND), "resend");
    SAME(lupinenblatt_kind_name(LUPINENBLATT_PURGE), "purge");
}

static void status_words(void)
{
    SAME(lupinenblatt_status_name(LUPINENBLATT_PENDING), "pending");
    SAME(lupinenblatt_status_name(LUPINENBLATT_CONFLICT), "conflict");
    SAME(lupinenblatt_status_name(LUPINENBLATT_CANCEL_PENDING), "cancel-pending");
    SAME(lupinenblatt_status_name(LUPINENBLATT_SENDING), "sending");
    SAME(lupinenblatt_status_name(LUPINENBLATT_FAILED), "failed");
    SAME(lupinenblatt_status_name(LUPINENBLATT_PARTIAL_FAILURE), "partial-failure");
    SAME(lupinenblatt_status_name(LUPINENBLATT_ACTIVE), "active");
    SAME(lupinenblatt_status_name(LUPINENBLATT_OLD), "old");
    SAME(lupinenblatt_status_name(LUPINENBLATT_CANCELED), "canceled");
}

static void sort_words(void)
{
    SAME(lupinenblatt_sort_name(LUPINENBLATT_CREATION), "creation");
    SAME(lupinenblatt_sort_name(LUPINENBLATT_STATUS), "status");
    SAME(lupinenblatt_sort_name(LUPINENBLATT_ATTRIBUTES), "attributes");
    SAME(lupinenblatt_sort_name(LUPINENBLATT_DOWNLOAD_CREATE), "download create");
    SAME(lupinenblatt_sort_name(LUPINENBLATT_DOWNLOAD_MODIFY), "download modify");
    SAME(lupinenblatt_sort_name(LUPINENBLATT_DOWNLOAD_DELETE), "download delete");
    SAME(lupinenblatt_sort_name(LUPINENBLATT_WINDOW), "window");
}

static void other_words(void)
{
    SAME(lupinenblatt_purpose_name(LUPINENBLATT_PURPOSE_NONE), "none");
    SAME(lupinenblatt_purpose_name(LUPINENBLATT_PURPOSE_ACTIVATE), "activate");
    SAME(lupinenblatt_purpose_name(LUPINENBLATT_PURPOSE_MODIFY), "modify");
    SAME(lupinenblatt_purpose_name(LUPINENBLATT_PURPOSE_DISCONNECT), "disconnect");
    SAME(lupinenblatt_canceller_name(LUPINENBLATT_CANCELLER_NOBODY), "nobody");
    SAME(lupinenblatt_canceller_name(LUPINENBLATT_CANCELLER_NEW), "new side");
    SAME(lupinenblatt_canceller_name(LUPINENBLATT_CANCELLER_OLD), "old side");
    SAME(lupinenblatt_class_name(LUPINENBLATT_CLASS_SELECTED), "selected");
    SAME(lupinenblatt_class_name(LUPINENBLATT_CLASS_NOT_PRESENT), "not present");
    SAME(lupinenblatt_class_name(LUPINENBLATT_CLASS_NO_LOCAL), "no Local SMS");
    SAME(lupinenblatt_class_name(LUPINENBLATT_CLASS_FILTER_ONLY), "filter on the only code");
    SAME(lupinenblatt_class_name(LUPINENBLATT_CLASS_FILTERS_BOTH), "filters on both codes");
    SAME(lupinenblatt_outcome_name(LUPINENBLATT_DONE), "done");
    SAME(lupinenblatt_table_fault_name(LUPINENBLATT_FAULT_NONE), "nothing at fault");
    SAME(lupinenblatt_books_fault_name(LUPINENBLATT_FAULT_NONE), "nothing at fault");
}

/* One event through the call without R, on a table of one row and two providers with Local SMSs. */
static lupinenblatt_answer short_call(uint8_t *table, uint8_t *tray, lupinenblatt_event e)
{
    uint8_t list[2] = {LUPINENBLATT_PROVIDER_LOCAL, LUPINENBLATT_PROVIDER_LOCAL}, bytes[LUPINENBLATT_RECORD_BYTES];
    CHECK(lupinenblatt_event_write(e, bytes, sizeof bytes) == LUPINENBLATT_DONE);
    return lupinenblatt_step_default(table, LUPINENBLATT_ROW_BYTES, list, sizeof list, books, sizeof books, bytes, sizeof bytes, tray,
                                     LUPINENBLATT_TRAY_BYTES);
}

/* Without R a silent system is asked again as often as the header says, and then given up. */
static void retries(void)
{
    static uint8_t table[LUPINENBLATT_ROW_BYTES], tray[LUPINENBLATT_TRAY_BYTES];
    lupinenblatt_event new_side = {LUPINENBLATT_NEW_CREATES, 2, 1, 0, 0, 3035550100u, 3035550000u, 0, 10, 10, 0};
    lupinenblatt_event old_side = {LUPINENBLATT_OLD_CREATES, 1, 2, LUPINENBLATT_YES, 0, 3035550100u, 0, 0, 10, 10, 0};
    lupinenblatt_event activate = {LUPINENBLATT_ACTIVATE, 2, 0, 0, 0, 3035550100u, 0, 1, 10, 0, 0};
    lupinenblatt_event silence = {LUPINENBLATT_SILENCE, 0, 2, 0, 0, 3035550100u, 0, 1, 10, 0, 0};
    memset(books, 0, sizeof books);
    lupinenblatt_books_put_code(books, 0, 303555, 1);
    CHECK(LUPINENBLATT_DEFAULT_RETRIES == 3);
    CHECK(short_call(table, tray, new_side).outcome == LUPINENBLATT_DONE);
    CHECK(short_call(table, tray, old_side).outcome == LUPINENBLATT_DONE);
    CHECK(short_call(table, tray, activate).count == 2);
    for (unsigned used = 0; used <= LUPINENBLATT_DEFAULT_RETRIES; used++) {
        lupinenblatt_answer a = short_call(table, tray, silence);
        lupinenblatt_row_fields row = lupinenblatt_row(table, 0);
        int again = used < LUPINENBLATT_DEFAULT_RETRIES;
        CHECK(a.outcome == LUPINENBLATT_DONE && a.count == (again ? 1u : 0u));
        CHECK(lupinenblatt_set_has(row.waiting, 2) == again && lupinenblatt_set_has(row.failed, 2) == !again);
        CHECK(!again || (lupinenblatt_message(tray, 0).sort == LUPINENBLATT_DOWNLOAD_CREATE && lupinenblatt_message(tray, 0).provider == 2));
    }
}

/* The classes for a TN of this code: those of providers 1 to 9 in the digits of `expected`, and nobody behind them is present. */
static void classes_are(const uint8_t *list, uint64_t tn, const char *expected)
{
    uint8_t classes[LUPINENBLATT_CLASSES + 1];
    memset(classes, 0xa5, sizeof classes);
    CHECK(lupinenblatt_selection(list, 9, books, sizeof books, tn, classes, LUPINENBLATT_CLASSES) == LUPINENBLATT_DONE);
    for (unsigned p = 1; p <= PROVIDERS; p++)
        CHECK(classes[p - 1] == (p <= 9 ? expected[p - 1] - '0' : LUPINENBLATT_CLASS_NOT_PRESENT));
    CHECK(classes[LUPINENBLATT_CLASSES] == 0xa5);
}

/* Every class by hand: 303555 stands in no pair, 404555 and 505555 in one. Providers 1 to 5 run Local SMSs, 6 to 8 none, 9 is absent. */
static void selections(void)
{
    static const uint32_t filters[][2] = {{2, 303555}, {3, 404555}, {4, 404555}, {4, 505555}, {5, 303555}, {5, 505555},
                                          {7, 303555}, {8, 303555}, {8, 404555}, {8, 505555}};
    uint8_t list[9] = {3, 3, 3, 3, 3, 1, 1, 1, 0}, classes[LUPINENBLATT_CLASSES + 1], blank[LUPINENBLATT_CLASSES + 1];
    memset(books, 0, sizeof books);
    for (size_t i = 0; i < sizeof filters / sizeof *filters; i++)
        lupinenblatt_books_put_filter(books, i, filters[i][0], filters[i][1]);
    lupinenblatt_books_put_pair(books, 0, 606555, 707555);
    lupinenblatt_books_put_pair(books, 1, 404555, 505555);
    classes_are(list, 3035550100u, "030032221");
    classes_are(list, 4045550100u, "000402221");
    classes_are(list, 5055550100u, "000402221");
    classes_are(list, 6065550100u, "000002221");
    classes_are(list, 9199998888u, "000002221");
    memset(blank, 0xa5, sizeof blank);
    memset(classes, 0xa5, sizeof classes);
    for (size_t length = 0; length <= sizeof classes; length++)
        CHECK(length == LUPINENBLATT_CLASSES
              || lupinenblatt_selection(list, 9, books, sizeof books, 3035550100u, classes, length) == LUPINENBLATT_MALFORMED);
    CHECK(lupinenblatt_selection(list, 9, books, sizeof books, 303555010u, classes, 63) == LUPINENBLATT_MALFORMED);
    CHECK(lupinenblatt_selection(list, 9, books, sizeof books, 3031550100u, classes, 63) == LUPINENBLATT_MALFORMED);
    CHECK(lupinenblatt_selection(list, 9, books, sizeof books, 3035550100u + ((uint64_t)1 << 34), classes, 63) == LUPINENBLATT_MALFORMED);
    list[8] = LUPINENBLATT_PROVIDER_LOCAL - 1;
    CHECK(lupinenblatt_selection(list, 9, books, sizeof books, 3035550100u, classes, 63) == LUPINENBLATT_UNSOUND);
    CHECK(lupinenblatt_selection(list, 9, books, sizeof books, 0, classes, 64) == LUPINENBLATT_UNSOUND);
    CHECK(memcmp(classes, blank, sizeof classes) == 0);
}

/* What the library at hand does with null and 0, which is tested and not promised. */
static void nulls(void)
{
    uint8_t table[LUPINENBLATT_ROW_BYTES] = {0}, tray[LUPINENBLATT_TRAY_BYTES], list[1] = {0}, classes[LUPINENBLATT_CLASSES] = {0};
    lupinenblatt_answer a = lupinenblatt_table_check(NULL, 0, NULL, 0, NULL, 0);
    lupinenblatt_fault f = lupinenblatt_table_fault(NULL, 0, NULL, 0, NULL, 0);
    lupinenblatt_ran r;
    memset(books, 0, sizeof books);
    CHECK(a.outcome == LUPINENBLATT_UNSOUND && a.count == 0);
    a = lupinenblatt_table_check(NULL, 0, NULL, 0, books, sizeof books);
    CHECK(a.outcome == LUPINENBLATT_DONE && a.count == 0);
    CHECK(f.clause == LUPINENBLATT_TABLE_FAULT_BOOKS && f.place == 0 && f.second == 0);
    f = lupinenblatt_books_fault(NULL, 0, NULL, 0);
    CHECK(f.clause == LUPINENBLATT_BOOKS_FAULT_LENGTH && f.place == 0);
    CHECK(lupinenblatt_books_check(NULL, 0, books, sizeof books) == LUPINENBLATT_DONE);
    CHECK(lupinenblatt_books_check(list, 1, NULL, 0) == LUPINENBLATT_UNSOUND);
    CHECK(lupinenblatt_selection(NULL, 0, books, sizeof books, 3035550100u, classes, sizeof classes) == LUPINENBLATT_DONE);
    CHECK(classes[0] == LUPINENBLATT_CLASS_NOT_PRESENT && classes[62] == LUPINENBLATT_CLASS_NOT_PRESENT);
    CHECK(lupinenblatt_selection(NULL, 0, books, sizeof books, 3035550100u, NULL, 0) == LUPINENBLATT_MALFORMED);
    CHECK(lupinenblatt_selection(NULL, 0, NULL, 0, 3035550100u, NULL, 0) == LUPINENBLATT_UNSOUND);
    CHECK(lupinenblatt_record_read(NULL, 0, NULL, 0) == LUPINENBLATT_MALFORMED);
    CHECK(lupinenblatt_record_write(1, 2, 1, 0, 0, 3035550100u, 3035550000u, 0, 10, 100, 0, NULL, 0) == LUPINENBLATT_MALFORMED);
    a = lupinenblatt_step(NULL, 0, NULL, 0, books, sizeof books, 0, record, 24, tray, sizeof tray);
    CHECK(a.outcome == LUPINENBLATT_ABSENT && a.count == 0);
    a = lupinenblatt_step(table, sizeof table, NULL, 0, books, sizeof books, 0, NULL, 0, tray, sizeof tray);
    CHECK(a.outcome == LUPINENBLATT_MALFORMED);
    a = lupinenblatt_step_default(NULL, 0, NULL, 0, NULL, 0, NULL, 0, NULL, 0);
    CHECK(a.outcome == LUPINENBLATT_UNSOUND);
    r = lupinenblatt_run(NULL, 0, NULL, 0, books, sizeof books, 0, NULL, 0, tray, sizeof tray, NULL, 0);
    CHECK(r.outcome == LUPINENBLATT_DONE && r.events == 0 && r.messages == 0);
}

static void print_names(const char *title, naming *name, uint64_t first, uint64_t last, numbering *numbers)
{
    for (uint64_t i = first; i <= last; i++)
        if (numbers(i)) printf("%s %u %s\n", title, (unsigned)i, name(i));
}

int main(int count, char **arguments)
{
    (void)arguments;
    if (count > 1) {
        print_names("outcome", lupinenblatt_outcome_name, 1, OUTCOMES - 1, isOutcome);
        print_names("class", lupinenblatt_class_name, 0, CLASSES - 1, any);
        print_names("TABLE", lupinenblatt_table_fault_name, 1, TABLE_CLAUSES, any);
        print_names("BOOKS", lupinenblatt_books_fault_name, 1, BOOKS_CLAUSES, any);
        return 0;
    }
    sizes();
    events();
    events_within();
    sets();
    trays();
    tables();
    makers();
    names();
    kind_words();
    status_words();
    sort_words();
    other_words();
    retries();
    selections();
    nulls();
    printf("%u checks, %u wrong\n", checks, wrong);
    return wrong != 0;
}
