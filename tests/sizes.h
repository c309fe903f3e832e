/*
 * How many there are of each, and how large each is: what the arrays, loops and clamps of tests/ and bench/ are made from.
 *
 * What include/lupinenblatt.h has is taken from it. A rule is not taken from here: model.hpp, faults.hpp and bench/hand.c spell the numbers
 * of the papers where their rules stand, and layouts.hpp and hand.c do not compile where their own numbers are not these.
 */
#ifndef LUPINENBLATT_TESTS_SIZES_H
#define LUPINENBLATT_TESTS_SIZES_H

#include "lupinenblatt.h"

/*
 * Request A5 (disconnects with a future release date) is prepared behind this switch. With 0 the tests are of the library as it is: rows of
 * 80 bytes, statuses up to 8, kinds up to 15, no date in a disconnect, no converter. With 1 they are those of the request.
 */
#ifndef RELEASE_DATES
#define RELEASE_DATES 0
#endif

/* A name for a number: in C++ a size_t, in C an enumerator. */
#ifdef __cplusplus
#define NUMBER(name, value) constexpr size_t name = value
#else
#define NUMBER(name, value) enum { name = value }
#endif

/* How many numbers there are. A larger one is none of its sort, and what counts by number has one more place, the last, for those. */
NUMBER(OUTCOMES, LUPINENBLATT_ANOTHER_DUE + 1);                 /* outcomes, from 0; 15 to 17 among them are none (`isOutcome`) */
NUMBER(KINDS, LUPINENBLATT_PURGE + 2 * RELEASE_DATES);          /* kinds of events, from 1 */
NUMBER(STATUSES, LUPINENBLATT_CANCELED + 1 + RELEASE_DATES);    /* statuses of a version, from 0 */
NUMBER(STATUS_VALUES, 16);                                      /* what the bits of a status hold, those that are none with them */
NUMBER(SORTS, LUPINENBLATT_WINDOW);                             /* sorts of messages, from 1 */
NUMBER(PURPOSES, LUPINENBLATT_PURPOSE_DISCONNECT + 1);          /* purposes of a broadcast, from 0 for none */
NUMBER(CANCELLERS, LUPINENBLATT_CANCELLER_OLD + 1);             /* cancellers, from 0 for nobody */
NUMBER(MARKS, LUPINENBLATT_NO + 1);                             /* authorizations and results, from 0 for none */
NUMBER(CLASSES, LUPINENBLATT_CLASS_FILTERS_BOTH + 1);           /* classes that selection gives a provider, from 0 */
NUMBER(TABLE_CLAUSES, LUPINENBLATT_TABLE_FAULT_WITHIN + 2 * RELEASE_DATES);  /* clauses of docs/FAULTS.md for a table, from 1; 0 is none */
NUMBER(BOOKS_CLAUSES, LUPINENBLATT_BOOKS_FAULT_PAIRED_TWICE);   /* likewise for provider list and books */

/* The event record. */
NUMBER(RECORD, LUPINENBLATT_RECORD_BYTES);                      /* its bytes */
NUMBER(FIELDS, LUPINENBLATT_RECORD_FIELDS);                     /* its fields */

/* The table. */
NUMBER(ROW, LUPINENBLATT_ROW_BYTES + 8 * RELEASE_DATES);        /* bytes of a row */
NUMBER(OLDER_ROW, 80);                                          /* bytes of a row before request A5, which the converter takes */
NUMBER(MOST_ROWS, LUPINENBLATT_TABLE_ROWS);                     /* rows of the largest table */
NUMBER(LAST_VERSION, 65535);                                    /* the highest number of a version */
NUMBER(LAST_CAUSE, 99);                                         /* the highest cause */
NUMBER(MOST_RETRIES, LUPINENBLATT_MOST_RETRIES);                /* R at most, and the retries that a system can have used */

/* The tray. */
NUMBER(MESSAGE, LUPINENBLATT_MESSAGE_BYTES);                    /* bytes of a message, which is a place of the tray */
NUMBER(PLACES, LUPINENBLATT_TRAY_PLACES);                       /* places of the smallest tray */
NUMBER(MOST_MESSAGES, 63);                                      /* messages of one event at most */

/* Provider list and books. */
NUMBER(PROVIDERS, LUPINENBLATT_PROVIDERS_BYTES);                /* providers, from 1; bytes of the longest list */
NUMBER(CLASS_PLACES, LUPINENBLATT_CLASSES);                     /* bytes of the slice for classes, one for each provider */
NUMBER(BOOKS, LUPINENBLATT_BOOKS_BYTES);                        /* bytes of the books */
NUMBER(CODES_AT, LUPINENBLATT_CODES_AT);                        /* where the codes begin */
NUMBER(FILTERS_AT, LUPINENBLATT_FILTERS_AT);                    /* where the filters begin */
NUMBER(SPLITS_AT, LUPINENBLATT_PAIRS_AT);                       /* where the split pairs begin */
NUMBER(CODES, LUPINENBLATT_CODE_PLACES);                        /* places for codes */
NUMBER(FILTERS, LUPINENBLATT_FILTER_PLACES);                    /* places for filters */
NUMBER(SPLITS, LUPINENBLATT_PAIR_PLACES);                       /* places for split pairs */

#undef NUMBER

/* Whether an event can have this outcome; and its place in what counts by number, the last for one that is none. */
static inline int isOutcome(uint64_t number)
{
    return number <= LUPINENBLATT_EXHAUSTED || number == LUPINENBLATT_ANOTHER_DUE;
}

static inline size_t placeOf(uint64_t outcome)
{
    return isOutcome(outcome) ? (size_t)outcome : OUTCOMES;
}

#endif
