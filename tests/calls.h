/*
 * The calls for C that the tests make. include/lupinenblatt.h declares them; the declarations below stand for those that it lacks (tests/flags
 * sees which and sets LUPINENBLATT_HEADER_HAS_..). TEST_CHECKS, TEST_SELECTION, TEST_FAULTS, TEST_RUN and TEST_CONVERT say whether the calls
 * of that name are tested: they are where the header declares them or something stands in for the library.
 */
#ifndef LUPINENBLATT_TESTS_CALLS_H
#define LUPINENBLATT_TESTS_CALLS_H

#include "lupinenblatt.h"

#ifdef __cplusplus
extern "C" {
#endif

#ifndef LUPINENBLATT_HEADER_HAS_STEP
typedef struct {
    uint64_t outcome;
    uint64_t count;
} lupinenblatt_answer;

lupinenblatt_answer lupinenblatt_step(uint8_t *table, size_t table_len, const uint8_t *providers, size_t providers_len, const uint8_t *books,
                                      size_t books_len, uint64_t retries, const uint8_t *event, size_t event_len, uint8_t *tray,
                                      size_t tray_len);

/* As lupinenblatt_step with R = 3. */
lupinenblatt_answer lupinenblatt_step_default(uint8_t *table, size_t table_len, const uint8_t *providers, size_t providers_len,
                                              const uint8_t *books, size_t books_len, const uint8_t *event, size_t event_len, uint8_t *tray,
                                              size_t tray_len);
#endif

#ifndef LUPINENBLATT_HEADER_HAS_CHECKS
/* Table, provider list and books sound: outcome 0 and how many rows are used. Otherwise outcome 1 and 0. */
lupinenblatt_answer lupinenblatt_table_check(const uint8_t *table, size_t table_length, const uint8_t *providers, size_t providers_length,
                                             const uint8_t *books, size_t books_length);

/* 0 where provider list and books are sound, otherwise 1. */
uint8_t lupinenblatt_books_check(const uint8_t *providers, size_t providers_length, const uint8_t *books, size_t books_length);
#endif

#ifndef LUPINENBLATT_HEADER_HAS_SELECTION
/*
 * 1 where provider list or books are unsound, otherwise 2 where the number is no TN or the slice is not 63 bytes; nothing is written then.
 * Otherwise 0 and the class of provider n in byte n - 1.
 */
uint8_t lupinenblatt_selection(const uint8_t *providers, size_t providers_length, const uint8_t *books, size_t books_length, uint64_t tn,
                               uint8_t *classes, size_t classes_length);
#endif

#ifndef LUPINENBLATT_HEADER_HAS_FAULTS
/* The clause that fails, the place at fault, a second place; from 1, and 0 where there is none. docs/FAULTS.md. */
typedef struct {
    uint64_t clause;
    uint64_t place;
    uint64_t second;
} lupinenblatt_fault;

lupinenblatt_fault lupinenblatt_table_fault(const uint8_t *table, size_t table_length, const uint8_t *providers, size_t providers_length,
                                            const uint8_t *books, size_t books_length);

lupinenblatt_fault lupinenblatt_books_fault(const uint8_t *providers, size_t providers_length, const uint8_t *books, size_t books_length);
#endif

#ifndef LUPINENBLATT_HEADER_HAS_RUN
typedef struct {
    uint64_t outcome;
    uint64_t events;
    uint64_t messages;
} lupinenblatt_ran;

/*
 * The events, records of 24 bytes one behind the other, in order and each as lupinenblatt_step does it, each event's messages behind those of
 * the event before it. It stops before an event for which fewer than 64 whole places are left in the tray. Answered are outcome 0, the events
 * done and the messages written; the outcome slice has two bytes for each event done, its outcome and its count. The rest of the tray and of
 * the outcome slice stays. Outcome 1 and nothing changed: table or books unsound, R above 7, a tray below 64 whole places, an outcome slice
 * below two bytes for each whole record. Then 2 and nothing changed: the event slice is not whole records.
 */
lupinenblatt_ran lupinenblatt_run(uint8_t *table, size_t table_len, const uint8_t *providers, size_t providers_len, const uint8_t *books,
                                  size_t books_len, uint64_t retries, const uint8_t *events, size_t events_len, uint8_t *tray,
                                  size_t tray_len, uint8_t *outcomes, size_t outcomes_len);
#endif

#ifndef LUPINENBLATT_HEADER_HAS_CONVERT
/*
 * From a table of rows of 80 bytes, sound as such with provider list and books, to the same versions in rows of 88 bytes with release date 0,
 * as many rows, used and free: outcome 0 and how many rows are used. Something unsound, or a target that is not as many rows: outcome 1 and
 * 0, and no byte of the target changes.
 */
lupinenblatt_answer lupinenblatt_convert(const uint8_t *older, size_t older_length, const uint8_t *providers, size_t providers_length,
                                         const uint8_t *books, size_t books_length, uint8_t *table, size_t table_length);
#endif

#ifdef __cplusplus
}
#endif

#endif
