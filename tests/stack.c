/*
 * The stack that a call needs: each call is made on a thread whose stack is filled with a pattern, and what is no longer the pattern is
 * counted, less what a thread that calls nothing uses. Prints a line for each call and, last, 'N bytes of stack at most'.
 */
#include <pthread.h>
#include <stdio.h>
#include <string.h>

#include "sizes.h"

#define STACK (1 << 20)
#define PAINT 0x5a
#define EVENTS 1024

static uint8_t stack[STACK] __attribute__((aligned(65536)));
static uint8_t table[MOST_ROWS * ROW], books[BOOKS], providers[PROVIDERS], tray[EVENTS * PLACES * MESSAGE];
static uint8_t events[EVENTS * RECORD], outcomes[2 * EVENTS], event[RECORD];
static uint8_t before[sizeof table];
static unsigned now = 10, recorded, done, told;
static uint64_t ran;

static void empty(void) {}

/* One event on a table of 4,096 rows in lines with two names, with every provider and every place of the books used. */
static void step(void)
{
    done += lupinenblatt_step(table, sizeof table, providers, sizeof providers, books, sizeof books, MOST_RETRIES, event, sizeof event,
                              tray, sizeof tray).outcome == LUPINENBLATT_DONE;
}

static void step_default(void)
{
    lupinenblatt_step_default(table, sizeof table, providers, sizeof providers, books, sizeof books, event, sizeof event, tray, sizeof tray);
}

/* The same events in one call. */
static void run(void)
{
    ran = lupinenblatt_run(table, sizeof table, providers, sizeof providers, books, sizeof books, MOST_RETRIES, events,
                           (size_t)recorded * RECORD, tray, sizeof tray, outcomes, sizeof outcomes).events;
}

static void table_check(void) { lupinenblatt_table_check(table, sizeof table, providers, sizeof providers, books, sizeof books); }
static void books_check(void) { lupinenblatt_books_check(providers, sizeof providers, books, sizeof books); }
static void selection(void)
{
    static uint8_t classes[CLASS_PLACES];
    told += lupinenblatt_selection(providers, sizeof providers, books, sizeof books, told == 0 ? 4042000100u : 5052010100u, classes,
                                   sizeof classes) == LUPINENBLATT_DONE;
}

static void table_fault(void) { lupinenblatt_table_fault(table, sizeof table, providers, sizeof providers, books, sizeof books); }
static void books_fault(void) { lupinenblatt_books_fault(providers, sizeof providers, books, sizeof books); }

static void record_read(void)
{
    static uint64_t fields[FIELDS];
    lupinenblatt_record_read(event, sizeof event, fields, FIELDS);
}

static void record_write(void) { lupinenblatt_record_write(1, 2, 1, 0, 0, 3035550100u, 3035550000u, 0, 10, 100, 0, event, sizeof event); }

static void *on_thread(void *call)
{
    void (*f)(void);
    memcpy(&f, call, sizeof f);
    f();
    return NULL;
}

static size_t used_by(void (*f)(void))
{
    pthread_attr_t attributes;
    pthread_t thread;
    size_t i = 0;
    memset(stack, PAINT, sizeof stack);
    pthread_attr_init(&attributes);
    pthread_attr_setstack(&attributes, stack, sizeof stack);
    if (pthread_create(&thread, &attributes, on_thread, &f) != 0 || pthread_join(thread, NULL) != 0)
        return 0;
    while (i < sizeof stack && stack[i] == PAINT)
        i++;
    return sizeof stack - i;
}

static size_t most;

static void tell(const char *name, void (*f)(void))
{
    size_t nothing = used_by(empty), all = used_by(f), bytes = all > nothing ? all - nothing : 0;
    if (bytes > most)
        most = bytes;
    printf("%s %lu\n", name, (unsigned long)bytes);
}

/* Creates have the name whose code is listed, the others either name of the line. */
static void put_event(uint64_t kind, uint64_t sender, uint64_t other, uint64_t mark, uint64_t lrn, uint64_t version, uint64_t due)
{
    uint64_t tn = kind <= LUPINENBLATT_OLD_CREATES || now % 2 == 0 ? 3035550100u : 6062000100u;
    lupinenblatt_event e = {kind, sender, other, mark, 0, tn, lrn, version, now++, due, 0};
    lupinenblatt_event_write(e, event, sizeof event);
    if (recorded < EVENTS)
        memcpy(events + RECORD * (size_t)recorded++, event, sizeof event);
}

/* Kinds that write are accepted, the last three refused. */
static void each_kind(void)
{
    put_event(1, 2, 1, 0, 3035550000u, 0, 5), tell("step, kind 1", step);
    put_event(2, 1, 2, 1, 0, 0, 5), tell("step, kind 2", step);
    put_event(3, 2, 0, 0, 3035550000u, 1, 5), tell("step, kind 3", step);
    put_event(4, 1, 0, 1, 0, 1, 5), tell("step, kind 4", step);
    put_event(5, 2, 0, 0, 0, 1, 0), tell("step, kind 5", step);
    put_event(12, 0, 1, 0, 0, 1, 0), tell("step, kind 12", step);
    for (unsigned p = 1; p <= PROVIDERS; p++)
        put_event(11, p, 0, 1, 0, 1, 0), tell(p == PROVIDERS ? "step, kind 11, last" : "step, kind 11", step);
    put_event(9, 2, 0, 0, 3035550001u, 1, 0), tell("step, kind 9", step);
    put_event(13, 0, 0, 0, 0, 1, 0), tell("step, kind 13", step);
    put_event(14, 0, 0, 0, 0, 1, 0), tell("step, kind 14", step);
    put_event(15, 0, 0, 0, 0, 1, 0), tell("step_default, kind 15", step_default);
}

/* A create within one provider, in the place of the other. */
static void within(void)
{
    lupinenblatt_event e = {LUPINENBLATT_NEW_CREATES, 1, 1, 0, 0, 3035550100u, 3035550000u, 0, 10, 5, 1};
    lupinenblatt_event_write(e, event, sizeof event);
    tell("step, kind 1 within one provider", step);
}

/* Old versions of other lines: as many as leave a row free, of nearly every line one under each name. */
static void fill_table(void)
{
    static const uint8_t row[] = {0x2d, 0x3b, 0xb4, 0x65, 0x00, 0x00, 0x5d, 0x80, 0x2d, 0x3b, 0xb4, 0x4c, 0x02, 0x05, 0x00, 0x00,
                                  0x00, 0x00, 0x00, 0x64, 0x00, 0x00, 0x00, 0x64, 0x00, 0x00, 0x00, 0x01};
    for (unsigned i = 0; i < MOST_ROWS - 1; i++) {
        uint8_t *place = table + (size_t)i * ROW;
        unsigned larger = i >= MOST_ROWS / 2;
        uint64_t tn = larger ? 6062001000u + (i - MOST_ROWS / 2) : 3035551000u + i;
        uint64_t first = tn << 30 | (uint64_t)(1 + larger) << 14 | 7 << 10 | 1 << 8 | 1 << 7;
        memcpy(place, row, sizeof row);
        for (unsigned b = 0; b < 8; b++)
            place[b] = (uint8_t)(first >> (56 - 8 * b));
    }
}

int main(void)
{
    for (unsigned p = 1; p <= PROVIDERS; p++)
        lupinenblatt_providers_put(providers, sizeof providers, p, LUPINENBLATT_PROVIDER_LOCAL);
    for (unsigned i = 0; i < CODES; i++)
        lupinenblatt_books_put_code(books, i, 303200 + i / 100 * 1000 + i % 100 + 355, 1);
    for (unsigned i = 0; i < FILTERS; i++)
        lupinenblatt_books_put_filter(books, i, 1 + i / 100, 404200 + i % 100);
    for (unsigned i = 0; i < SPLITS; i++)
        lupinenblatt_books_put_pair(books, i, i == 0 ? 303555 : 505200 + i, 606200 + i);
    fill_table();
    if (lupinenblatt_table_fault(table, sizeof table, providers, sizeof providers, books, sizeof books).clause != 0) {
        printf("the table or the books are unsound\n");
        return 1;
    }
    memcpy(before, table, sizeof table);
    each_kind();
    memcpy(table, before, sizeof table);
    within();
    memcpy(table, before, sizeof table);
    tell("run", run), tell("table_check", table_check), tell("books_check", books_check);
    tell("selection", selection), tell("selection, a code of a pair", selection);
    tell("record_read", record_read), tell("record_write", record_write), tell("table_fault", table_fault), tell("books_fault", books_fault);
    table[(size_t)(MOST_ROWS - 1) * ROW + 6] ^= 0xc0;  /* version 2 becomes 1, which the line has under its other name */
    if (lupinenblatt_table_fault(table, sizeof table, providers, sizeof providers, books, sizeof books).clause
        != LUPINENBLATT_TABLE_FAULT_LINE_NUMBER) {
        printf("the last line is not at fault\n");
        return 1;
    }
    tell("table_check, the last line at fault", table_check), tell("table_fault, the last line at fault", table_fault);
    table[sizeof table - 1] = 1, books[sizeof books - 2] = 1;
    tell("table_fault, unsound", table_fault), tell("books_fault, unsound", books_fault);
    if (done != 71 || ran != recorded || told != 2) {
        printf("%u events accepted instead of 71, %u of %u run, %u selections instead of 2\n", done, (unsigned)ran, recorded, told);
        return 1;
    }
    printf("%lu bytes of stack at most\n", (unsigned long)most);
    return most > 4096;
}
