/*
 * A short day of one number, by the calls for C: provider 2 takes 3035550100 over from provider 1, with R = 1, and then begins to move it
 * between its own switches. Each event is told in words, with its outcome and its messages, and held to what is expected of it.
 * examples/gateway.sh builds and runs it.
 */
#include <inttypes.h>
#include <stdio.h>
#include <string.h>

#include "lupinenblatt.h"

#define TN 3035550100u
#define LRN 3035550000u
#define RETRIES 1
#define ROWS 16
#define MOST_MESSAGES 2

/* What is lent to a step. */
typedef struct {
    uint8_t table[ROWS * LUPINENBLATT_ROW_BYTES];
    uint8_t providers[3];
    uint8_t books[LUPINENBLATT_BOOKS_BYTES];
    uint8_t tray[LUPINENBLATT_TRAY_BYTES];
} desk;

/* A message that is expected: to the Local SMS of a provider or to its SOA, with the version's number and status and the failed set. */
typedef struct {
    uint8_t sort, provider, local, version, status;
    uint64_t failed;
} message;

/* An event of the day, and what is expected of it. */
typedef struct {
    const char *words;
    uint64_t kind, sender, other, mark, lrn, version, time, due, within;
    uint64_t outcome, count;
    message messages[MOST_MESSAGES];
} event;

#define SOA 0
#define LOCAL 1
#define SET(provider) ((uint64_t)1 << (provider))

static const event day[] = {
    {"2 creates as the new side, from 1, due at 100", LUPINENBLATT_NEW_CREATES, 2, 1, 0, LRN, 0, 10, 100, 0, LUPINENBLATT_DONE, 2,
     {{LUPINENBLATT_CREATION, 1, SOA, 1, LUPINENBLATT_PENDING, 0}, {LUPINENBLATT_CREATION, 2, SOA, 1, LUPINENBLATT_PENDING, 0}}},
    {"1 creates as the old side, says yes, due at 150", LUPINENBLATT_OLD_CREATES, 1, 2, LUPINENBLATT_YES, 0, 0, 15, 150, 0,
     LUPINENBLATT_ANOTHER_DUE, 0, {{0, 0, 0, 0, 0, 0}}},
    {"1 creates as the old side, says yes, due at 100", LUPINENBLATT_OLD_CREATES, 1, 2, LUPINENBLATT_YES, 0, 0, 20, 100, 0,
     LUPINENBLATT_DONE, 2,
     {{LUPINENBLATT_ATTRIBUTES, 1, SOA, 1, LUPINENBLATT_PENDING, 0}, {LUPINENBLATT_ATTRIBUTES, 2, SOA, 1, LUPINENBLATT_PENDING, 0}}},
    {"2 activates, a second before it is due", LUPINENBLATT_ACTIVATE, 2, 0, 0, 0, 1, 99, 0, 0, LUPINENBLATT_EARLY, 0, {{0, 0, 0, 0, 0, 0}}},
    {"2 activates", LUPINENBLATT_ACTIVATE, 2, 0, 0, 0, 1, 100, 0, 0, LUPINENBLATT_DONE, 2,
     {{LUPINENBLATT_DOWNLOAD_CREATE, 1, LOCAL, 1, LUPINENBLATT_SENDING, 0},
      {LUPINENBLATT_DOWNLOAD_CREATE, 2, LOCAL, 1, LUPINENBLATT_SENDING, 0}}},
    {"the Local SMS of 1 replies: success", LUPINENBLATT_REPLY, 1, 0, LUPINENBLATT_YES, 0, 1, 105, 0, 0, LUPINENBLATT_DONE, 0,
     {{0, 0, 0, 0, 0, 0}}},
    {"the Local SMS of 2 is silent", LUPINENBLATT_SILENCE, 0, 2, 0, 0, 1, 110, 0, 0, LUPINENBLATT_DONE, 1,
     {{LUPINENBLATT_DOWNLOAD_CREATE, 2, LOCAL, 1, LUPINENBLATT_SENDING, 0}}},
    {"the Local SMS of 2 is silent again", LUPINENBLATT_SILENCE, 0, 2, 0, 0, 1, 115, 0, 0, LUPINENBLATT_DONE, 2,
     {{LUPINENBLATT_STATUS, 1, SOA, 1, LUPINENBLATT_PARTIAL_FAILURE, SET(2)},
      {LUPINENBLATT_STATUS, 2, SOA, 1, LUPINENBLATT_PARTIAL_FAILURE, SET(2)}}},
    {"the Local SMS of 2 replies after all", LUPINENBLATT_REPLY, 2, 0, LUPINENBLATT_YES, 0, 1, 120, 0, 0, LUPINENBLATT_UNAWAITED, 0,
     {{0, 0, 0, 0, 0, 0}}},
    {"the NPAC resends", LUPINENBLATT_RESEND, 0, 0, 0, 0, 1, 200, 0, 0, LUPINENBLATT_DONE, 1,
     {{LUPINENBLATT_DOWNLOAD_CREATE, 2, LOCAL, 1, LUPINENBLATT_SENDING, 0}}},
    {"the Local SMS of 2 replies: success", LUPINENBLATT_REPLY, 2, 0, LUPINENBLATT_YES, 0, 1, 205, 0, 0, LUPINENBLATT_DONE, 2,
     {{LUPINENBLATT_STATUS, 1, SOA, 1, LUPINENBLATT_ACTIVE, 0}, {LUPINENBLATT_STATUS, 2, SOA, 1, LUPINENBLATT_ACTIVE, 0}}},
    {"the NPAC purges", LUPINENBLATT_PURGE, 0, 0, 0, 0, 1, 300, 0, 0, LUPINENBLATT_MISPLACED, 0, {{0, 0, 0, 0, 0, 0}}},
    {"1 creates within itself, though the number is with 2", LUPINENBLATT_NEW_CREATES, 1, 1, 0, LRN, 0, 310, 400, 1,
     LUPINENBLATT_NOT_CURRENT, 0, {{0, 0, 0, 0, 0, 0}}},
    {"2 creates within itself, due at 400", LUPINENBLATT_NEW_CREATES, 2, 2, 0, LRN, 0, 320, 400, 1, LUPINENBLATT_DONE, 1,
     {{LUPINENBLATT_CREATION, 2, SOA, 2, LUPINENBLATT_PENDING, 0}}},
    {"2 cancels it, which acts at once", LUPINENBLATT_CANCEL, 2, 0, 0, 0, 2, 330, 0, 0, LUPINENBLATT_DONE, 1,
     {{LUPINENBLATT_STATUS, 2, SOA, 2, LUPINENBLATT_CANCELED, 0}}},
};

/* Prints a set of providers, as "2" or "1, 3". */
static void print_set(uint64_t set)
{
    const char *between = "";
    for (unsigned provider = 1; provider <= LUPINENBLATT_PROVIDERS_BYTES; provider++)
        if (lupinenblatt_set_has(set, provider)) {
            printf("%s%u", between, provider);
            between = ", ";
        }
}

static void print_message(lupinenblatt_message_fields m)
{
    printf("        %s to the %s of provider %u: %" PRIu64 " version %u is %s", lupinenblatt_sort_name(m.sort), m.local ? "Local SMS" : "SOA",
           m.provider, m.tn, m.version, lupinenblatt_status_name(m.status));
    if (m.lrn != 0)
        printf(", LRN %" PRIu64, m.lrn);
    if (m.failed != 0) {
        printf(", failed at ");
        print_set(m.failed);
    }
    printf("\n");
}

static int is_message(lupinenblatt_message_fields told, const message *m)
{
    return told.sort == m->sort && told.provider == m->provider && told.local == m->local && told.status == m->status
        && told.failed == m->failed && told.tn == TN && told.version == m->version;
}

/* An empty table, providers 1 to 3 with Local SMSs, code 303555 owned by 1, and the filter (3, 303555). */
static void set_up(desk *d)
{
    memset(d, 0, sizeof *d);
    memset(d->providers, LUPINENBLATT_PROVIDER_LOCAL, sizeof d->providers);
    lupinenblatt_books_put_code(d->books, 0, 303555, 1);
    lupinenblatt_books_put_filter(d->books, 0, 3, 303555);
    memset(d->tray, 0xa5, sizeof d->tray);
}

/* Whether the tray's messages, and all that has to stay as it was, are as expected. */
static int is_expected(const event *e, lupinenblatt_answer a, const desk *before, const desk *after)
{
    size_t written = e->count * LUPINENBLATT_MESSAGE_BYTES;
    if (a.outcome != e->outcome || a.count != e->count)
        return 0;
    for (size_t i = 0; i < e->count; i++)
        if (!is_message(lupinenblatt_message(after->tray, i), &e->messages[i]))
            return 0;
    if (memcmp(before->tray + written, after->tray + written, sizeof after->tray - written) != 0)
        return 0;
    return a.outcome == LUPINENBLATT_DONE || memcmp(before->table, after->table, sizeof after->table) == 0;
}

/* One event: told, stepped, told again. Answers whether all came out as expected. */
static int run(desk *d, const event *e)
{
    static desk before;
    lupinenblatt_event fields = {e->kind, e->sender, e->other, e->mark, 0, TN, e->lrn, e->version, e->time, e->due, e->within};
    uint8_t record[LUPINENBLATT_RECORD_BYTES];
    lupinenblatt_answer a;
    if (lupinenblatt_event_write(fields, record, sizeof record) != LUPINENBLATT_DONE) {
        printf("%4" PRIu64 "  %s: NOT WRITTEN\n", e->time, e->words);
        return 0;
    }
    before = *d;
    a = lupinenblatt_step(d->table, sizeof d->table, d->providers, sizeof d->providers, d->books, sizeof d->books, RETRIES, record,
                          sizeof record, d->tray, sizeof d->tray);
    printf("%4" PRIu64 "  %s: %s\n", e->time, e->words, lupinenblatt_outcome_name(a.outcome));
    for (size_t i = 0; i < a.count && i < LUPINENBLATT_TRAY_PLACES; i++)
        print_message(lupinenblatt_message(d->tray, i));
    if (a.outcome != LUPINENBLATT_DONE)
        printf("        %s\n", memcmp(&before, d, sizeof before) == 0 ? "no byte of table or tray changed" : "BYTES CHANGED");
    if (is_expected(e, a, &before, d))
        return 1;
    printf("        NOT AS EXPECTED\n");
    return 0;
}

/* The number's first row at the end of the day, printed, and whether it is as expected. */
static int close_day(const desk *d)
{
    lupinenblatt_row_fields row = lupinenblatt_row(d->table, 0);
    lupinenblatt_answer checked = lupinenblatt_table_check(d->table, sizeof d->table, d->providers, sizeof d->providers,
                                                           d->books, sizeof d->books);
    printf("\n%" PRIu64 " version %u is %s with provider %u, LRN %" PRIu64 "; confirmed by ", row.tn, row.version,
           lupinenblatt_status_name(row.status), row.new_provider, row.lrn);
    print_set(row.confirmed);
    printf("\n");
    return checked.outcome == LUPINENBLATT_DONE && checked.count == 2 && row.tn == TN && row.version == 1
        && row.status == LUPINENBLATT_ACTIVE && row.live && row.new_provider == 2 && row.lrn == LRN
        && row.confirmed == (SET(1) | SET(2)) && row.waiting == 0 && row.failed == 0;
}

int main(void)
{
    static desk d;
    size_t count = sizeof day / sizeof *day;
    unsigned wrong = 0;
    set_up(&d);
    for (size_t i = 0; i < count; i++)
        wrong += !run(&d, &day[i]);
    wrong += !close_day(&d);
    printf("%u events and the table after them, %u not as expected\n", (unsigned)count, wrong);
    return wrong == 0 ? 0 : 1;
}
