/*
 * Lupinenblatt, as a C program calls it.
 *
 * Every call takes numbers and slices. A slice is a pointer and a length, one after the other: the bytes or numbers from the pointer on, as
 * many as the length says. The memory of a slice is the caller's: a call touches nothing outside it and keeps no pointer. The caller sees to
 * it that the pointer is not null, also where the length is 0, and that a slice that a call writes to overlaps no other slice of that call.
 *
 * Apart from that a call answers for every input: there are no bytes, numbers or lengths that it may not be given. The empty slice of a C++
 * container may have a null pointer: lend another one with length 0. What the built library does with null and 0 is tested, not promised.
 *
 * There is no state. The library keeps nothing between calls, has no variables, allocates nothing, and needs no other symbol but memset,
 * which C compilers ask of every environment: no C library else, and no start-up. A call uses at most 4 KiB of stack. Calls on several threads do not know of each other, so two calls may run at the same
 * time if neither writes to a slice that the other has; a caller who shares a table locks it for the whole call. To store the table and to
 * send the messages, both or neither, is the caller's.
 *
 * The functions that are `static inline` below are conveniences in C over the same bytes. They are tested and not proved.
 */
#ifndef LUPINENBLATT_H
#define LUPINENBLATT_H

#include <stddef.h>
#include <stdint.h>

#ifdef __cplusplus
extern "C" {
#endif

/* The version of header and library; docs/LAYOUTS.md says what each part counts. */
#define LUPINENBLATT_VERSION_MAJOR 0
#define LUPINENBLATT_VERSION_MINOR 7
#define LUPINENBLATT_VERSION_PATCH 0
#define LUPINENBLATT_VERSION "0.7.0"
#define LUPINENBLATT_VERSION_NUMBER (1000000 * LUPINENBLATT_VERSION_MAJOR + 1000 * LUPINENBLATT_VERSION_MINOR + LUPINENBLATT_VERSION_PATCH)

/*
 * Outcome numbers. 5, 7 to 12 and 14 are judged by the event's line: the versions under its TN and, where the TN's code stands in a split
 * pair, under the TN with the pair's other code and the same last four digits. An event may use either name of a line; a row, and every
 * message about it, has the name that it was created under. 4, and the owner where the line has no live version, go by the event's code.
 */
#define LUPINENBLATT_DONE 0
#define LUPINENBLATT_UNSOUND 1        /* table or books unsound, R above 7, or a tray below 64 whole places */
#define LUPINENBLATT_MALFORMED 2      /* record not 24 bytes or malformed */
#define LUPINENBLATT_ABSENT 3         /* sender or other is not 0 and not present */
#define LUPINENBLATT_UNLISTED 4       /* a create for a code not listed */
#define LUPINENBLATT_UNKNOWN 5        /* that TN and version not in the table */
#define LUPINENBLATT_STANDLESS 6      /* sender lacks the standing */
#define LUPINENBLATT_MISPLACED 7      /* status does not allow it */
#define LUPINENBLATT_EARLY 8          /* too early */
#define LUPINENBLATT_UNFIT 9          /* a worked version that this create does not fit */
#define LUPINENBLATT_BUSY 10          /* number busy */
#define LUPINENBLATT_UNAWAITED 11     /* not awaited */
#define LUPINENBLATT_NOT_CURRENT 12   /* the old side is not the current provider */
#define LUPINENBLATT_FULL 13          /* a fresh version and no free row */
#define LUPINENBLATT_EXHAUSTED 14     /* a fresh version and number 65,535 is used */
#define LUPINENBLATT_ANOTHER_DUE 18   /* a concurring create with another due date than the first */

/*
 * Kinds of events, and the fields that each takes besides TN and time, which every record has. A field that is not named is 0.
 *
 *   kind                  sender         other     further fields
 *   1  new side creates   1 to 63        1 to 63   LRN, due, within; sender and other differ, or are the same exactly with within 1
 *   2  old side creates   1 to 63        1 to 63   mark, cause with "no", due; sender and other differ
 *   3  new side modifies  0 to 63        -         version, LRN, due
 *   4  old side modifies  0 to 63        -         version, mark, cause with "no", due
 *   9  modify active      0 to 63        -         version, LRN
 *   11 reply              1 to 63        -         version, mark
 *   12 silence            0              1 to 63   version
 *   5 to 8, 10, 13 to 15  0 to 63        -         version
 *
 * A create that finds a version to concur with gives the due date that the other side has there, else it is refused with 18 (up to version
 * 0.3.0 it was done).
 *
 * Within is 1 for a move inside one provider: new and old side are then the same, which must be the current one (12), one create suffices,
 * nothing waits for an old side, and what goes to the old and the new side goes to it once. On such a version kind 4 is refused with 6 and
 * kind 13 with 7 (with 6 where the sender is not the NPAC). Up to version 0.6.0 no record had the field.
 */
#define LUPINENBLATT_NEW_CREATES 1
#define LUPINENBLATT_OLD_CREATES 2
#define LUPINENBLATT_NEW_MODIFIES 3
#define LUPINENBLATT_OLD_MODIFIES 4
#define LUPINENBLATT_ACTIVATE 5
#define LUPINENBLATT_CANCEL 6
#define LUPINENBLATT_ACKNOWLEDGE_CANCEL 7
#define LUPINENBLATT_RESOLVE_CONFLICT 8
#define LUPINENBLATT_MODIFY_ACTIVE 9
#define LUPINENBLATT_DISCONNECT 10
#define LUPINENBLATT_REPLY 11
#define LUPINENBLATT_SILENCE 12
#define LUPINENBLATT_WINDOW_RAN_OUT 13
#define LUPINENBLATT_RESEND 14
#define LUPINENBLATT_PURGE 15

/* The mark of an event: an authorization or a reply's result. */
#define LUPINENBLATT_YES 1            /* yes, success */
#define LUPINENBLATT_NO 2             /* no, failure */

/* An event record's bytes, and its fields in the places of lupinenblatt_record_read. */
#define LUPINENBLATT_RECORD_BYTES 24
#define LUPINENBLATT_RECORD_FIELDS 11
#define LUPINENBLATT_FIELD_KIND 0
#define LUPINENBLATT_FIELD_SENDER 1   /* a provider, 1 to 63, or 0 for the NPAC */
#define LUPINENBLATT_FIELD_OTHER 2    /* a provider, or 0 where the kind has none */
#define LUPINENBLATT_FIELD_MARK 3
#define LUPINENBLATT_FIELD_CAUSE 4    /* 1 to 99 with "no", otherwise 0 */
#define LUPINENBLATT_FIELD_TN 5       /* ten digits, the first and the fourth 2 to 9 */
#define LUPINENBLATT_FIELD_LRN 6      /* likewise, or 0 where the kind has none */
#define LUPINENBLATT_FIELD_VERSION 7  /* 1 to 65,535, or 0 where the kind has none */
#define LUPINENBLATT_FIELD_TIME 8     /* seconds, 1 to 4,294,967,295 */
#define LUPINENBLATT_FIELD_DUE 9      /* likewise, or 0 where the kind has none */
#define LUPINENBLATT_FIELD_WITHIN 10  /* 1 for a create within one provider, otherwise 0 */

/* Sizes in bytes, docs/LAYOUTS.md. A table is at most LUPINENBLATT_TABLE_ROWS whole rows; a tray needs LUPINENBLATT_TRAY_PLACES places. */
#define LUPINENBLATT_ROW_BYTES 80
#define LUPINENBLATT_TABLE_ROWS 4096
#define LUPINENBLATT_PROVIDERS_BYTES 63  /* at most: byte n - 1 is provider n */
#define LUPINENBLATT_BOOKS_BYTES 8712
#define LUPINENBLATT_MESSAGE_BYTES 24
#define LUPINENBLATT_TRAY_PLACES 64
#define LUPINENBLATT_TRAY_BYTES (LUPINENBLATT_TRAY_PLACES * LUPINENBLATT_MESSAGE_BYTES)  /* of a tray that is just large enough */
#define LUPINENBLATT_MOST_RETRIES 7     /* R at most */
#define LUPINENBLATT_DEFAULT_RETRIES 3  /* the R of lupinenblatt_step_default */

/* The books' lists: where each begins, and how many places it has. */
#define LUPINENBLATT_CODES_AT 8
#define LUPINENBLATT_FILTERS_AT 4104
#define LUPINENBLATT_PAIRS_AT 8200
#define LUPINENBLATT_CODE_PLACES 1024
#define LUPINENBLATT_FILTER_PLACES 1024
#define LUPINENBLATT_PAIR_PLACES 64

/* A byte of the provider list. */
#define LUPINENBLATT_PROVIDER_ABSENT 0
#define LUPINENBLATT_PROVIDER_PRESENT 1  /* runs a SOA */
#define LUPINENBLATT_PROVIDER_LOCAL 3    /* present, and runs a Local SMS */

/* Statuses of a version. */
#define LUPINENBLATT_PENDING 0
#define LUPINENBLATT_CONFLICT 1
#define LUPINENBLATT_CANCEL_PENDING 2
#define LUPINENBLATT_SENDING 3
#define LUPINENBLATT_FAILED 4
#define LUPINENBLATT_PARTIAL_FAILURE 5
#define LUPINENBLATT_ACTIVE 6
#define LUPINENBLATT_OLD 7
#define LUPINENBLATT_CANCELED 8

/* Sorts of messages. */
#define LUPINENBLATT_CREATION 1
#define LUPINENBLATT_STATUS 2
#define LUPINENBLATT_ATTRIBUTES 3
#define LUPINENBLATT_DOWNLOAD_CREATE 4
#define LUPINENBLATT_DOWNLOAD_MODIFY 5
#define LUPINENBLATT_DOWNLOAD_DELETE 6
#define LUPINENBLATT_WINDOW 7

/* Purposes of a broadcast, and who cancelled. */
#define LUPINENBLATT_PURPOSE_NONE 0
#define LUPINENBLATT_PURPOSE_ACTIVATE 1
#define LUPINENBLATT_PURPOSE_MODIFY 2
#define LUPINENBLATT_PURPOSE_DISCONNECT 3
#define LUPINENBLATT_CANCELLER_NOBODY 0
#define LUPINENBLATT_CANCELLER_NEW 1
#define LUPINENBLATT_CANCELLER_OLD 2

/* The classes that lupinenblatt_selection tells of the providers, and the bytes of its slice. */
#define LUPINENBLATT_CLASS_SELECTED 0      /* selected */
#define LUPINENBLATT_CLASS_NOT_PRESENT 1   /* not present */
#define LUPINENBLATT_CLASS_NO_LOCAL 2      /* no Local SMS */
#define LUPINENBLATT_CLASS_FILTER_ONLY 3   /* filter on the only code */
#define LUPINENBLATT_CLASS_FILTERS_BOTH 4  /* filters on both codes */
#define LUPINENBLATT_CLASSES 63            /* exactly: byte n - 1 is provider n */

/*
 * The clauses that lupinenblatt_table_fault tells, in the order in which they are judged of a row; docs/FAULTS.md says them in full. Up to
 * 31 they are of a row and of the rows of its TN, without the books, and so is 37, which is judged of a row behind these; 32 is told where
 * these are sound, and 33 to 36 where the books are sound too and a row clashes with an earlier one of its line. LUPINENBLATT_FAULT_NONE is
 * the clause where nothing is at fault, of a table as of books.
 */
#define LUPINENBLATT_FAULT_NONE 0
#define LUPINENBLATT_TABLE_FAULT_LENGTH 1              /* the length is no multiple of the row's 80 bytes */
#define LUPINENBLATT_TABLE_FAULT_ROWS 2                /* more than 4,096 rows */
#define LUPINENBLATT_TABLE_FAULT_HOLE 3                /* a used row right behind a free one, which is `second` */
#define LUPINENBLATT_TABLE_FAULT_SPARE 4               /* a spare bit is set */
#define LUPINENBLATT_TABLE_FAULT_TN 5                  /* the TN is no TN */
#define LUPINENBLATT_TABLE_FAULT_VERSION 6             /* the version number is 0 */
#define LUPINENBLATT_TABLE_FAULT_STATUS 7              /* the status is above 8 */
#define LUPINENBLATT_TABLE_FAULT_STAMP 8               /* the stamp is 0 */
#define LUPINENBLATT_TABLE_FAULT_NEW_PROVIDER 9        /* the new provider is 0 */
#define LUPINENBLATT_TABLE_FAULT_OLD_PROVIDER 10       /* the old provider is 0 */
#define LUPINENBLATT_TABLE_FAULT_CANCELLER 11          /* the canceller is 3, neither side */
#define LUPINENBLATT_TABLE_FAULT_SET 12                /* bit 0 of a set, which is nobody's, is set */
#define LUPINENBLATT_TABLE_FAULT_RETRIES 13            /* the highest bit of a word of retries, which is nobody's, is set */
#define LUPINENBLATT_TABLE_FAULT_SAME_PROVIDERS 14     /* new and old provider are the same, or, within one provider, differ */
#define LUPINENBLATT_TABLE_FAULT_NEW_SIDE 15           /* the new side's due date and LRN do not go with its having created */
#define LUPINENBLATT_TABLE_FAULT_OLD_SIDE 16           /* the old side's due date and authorization do not go with its having created */
#define LUPINENBLATT_TABLE_FAULT_NO_SIDE 17            /* neither side has created */
#define LUPINENBLATT_TABLE_FAULT_NEEDED_SIDE 18        /* a side that the status needs has not created */
#define LUPINENBLATT_TABLE_FAULT_CAUSE 19              /* the cause is not 1 to 99 with "no", or not 0 without */
#define LUPINENBLATT_TABLE_FAULT_CANCELLED 20          /* a canceller outside cancel-pending, or none in it */
#define LUPINENBLATT_TABLE_FAULT_SETS_MEET 21          /* a system stands in two of the three sets */
#define LUPINENBLATT_TABLE_FAULT_RETRIES_UNAWAITED 22  /* retries used by a system that is not waiting */
#define LUPINENBLATT_TABLE_FAULT_START 23              /* a broadcast start outside sending, or none in it */
#define LUPINENBLATT_TABLE_FAULT_WAITING 24            /* a waiting system outside sending, or none in it */
#define LUPINENBLATT_TABLE_FAULT_PURPOSE 25            /* the purpose does not go with the status */
#define LUPINENBLATT_TABLE_FAULT_LIVE 26               /* live where the status forbids it, or not live where it must be */
#define LUPINENBLATT_TABLE_FAULT_UNCONFIRMED 27        /* live by activate with a waiting or failed system and no confirmed one */
#define LUPINENBLATT_TABLE_FAULT_ORDER 28              /* not above the row before it, which is `second` */
#define LUPINENBLATT_TABLE_FAULT_SECOND_LIVE 29        /* a second live version of its TN; `second` is the other */
#define LUPINENBLATT_TABLE_FAULT_SECOND_SENDING 30     /* a second sending version of its TN; likewise */
#define LUPINENBLATT_TABLE_FAULT_SECOND_WORKED 31      /* a second worked version of its TN; likewise */
#define LUPINENBLATT_TABLE_FAULT_BOOKS 32              /* the rows are sound, provider list or books are not */
#define LUPINENBLATT_TABLE_FAULT_LINE_LIVE 33          /* a second live version of its line; `second` is the other */
#define LUPINENBLATT_TABLE_FAULT_LINE_SENDING 34       /* a second sending version of its line; likewise */
#define LUPINENBLATT_TABLE_FAULT_LINE_WORKED 35        /* a second worked version of its line; likewise */
#define LUPINENBLATT_TABLE_FAULT_LINE_NUMBER 36        /* its version number stands twice in its line; likewise */
#define LUPINENBLATT_TABLE_FAULT_WITHIN 37             /* within one provider, and the old side has created or the window mark is set */

/* The clauses that lupinenblatt_books_fault tells, likewise. */
#define LUPINENBLATT_BOOKS_FAULT_PROVIDERS 1         /* the provider list has more than 63 bytes */
#define LUPINENBLATT_BOOKS_FAULT_PROVIDER 2          /* a byte of the provider list is not 0, 1 or 3 */
#define LUPINENBLATT_BOOKS_FAULT_LENGTH 3            /* the books are not 8,712 bytes */
#define LUPINENBLATT_BOOKS_FAULT_HEAD 4              /* the first eight bytes are not zero */
#define LUPINENBLATT_BOOKS_FAULT_CODES_HOLE 5        /* a code right behind a free place, which is `second` */
#define LUPINENBLATT_BOOKS_FAULT_CODE 6              /* the code is no code */
#define LUPINENBLATT_BOOKS_FAULT_OWNER 7             /* the owner is 0 or absent */
#define LUPINENBLATT_BOOKS_FAULT_CODES_ORDER 8       /* not above the code before it, which is `second` */
#define LUPINENBLATT_BOOKS_FAULT_FILTERS_HOLE 9      /* a filter right behind a free place, which is `second` */
#define LUPINENBLATT_BOOKS_FAULT_FILTER_PROVIDER 10  /* the filter's provider is 0, above 63 or absent */
#define LUPINENBLATT_BOOKS_FAULT_FILTER_CODE 11      /* the filter's code is no code */
#define LUPINENBLATT_BOOKS_FAULT_FILTERS_ORDER 12    /* not above the filter before it, which is `second` */
#define LUPINENBLATT_BOOKS_FAULT_PAIRS_HOLE 13       /* a pair right behind a free place, which is `second` */
#define LUPINENBLATT_BOOKS_FAULT_PAIR_CODE 14        /* a code of the pair is no code */
#define LUPINENBLATT_BOOKS_FAULT_SAME_CODES 15       /* both codes of the pair are the same */
#define LUPINENBLATT_BOOKS_FAULT_PAIRED_TWICE 16     /* a code of the pair stands in a pair before it; `second` is the nearest */

/*
 * Reads an event record.
 *
 * If the bytes are 24 and a well-formed record, and the places are exactly eleven, it returns LUPINENBLATT_DONE, and the places hold the
 * eleven fields in the order of LUPINENBLATT_FIELD_KIND to LUPINENBLATT_FIELD_WITHIN. Otherwise it returns LUPINENBLATT_MALFORMED and writes
 * nothing. Written with lupinenblatt_record_write, the fields give the same 24 bytes. Up to version 0.6.0 there were ten, without the last.
 */
uint8_t lupinenblatt_record_read(const uint8_t *bytes, size_t bytes_length, uint64_t *fields, size_t fields_length);

/*
 * Writes an event record.
 *
 * If the eleven numbers are a well-formed event and the bytes are exactly 24, it returns LUPINENBLATT_DONE, and the bytes are the one record
 * of these fields. Otherwise it returns LUPINENBLATT_MALFORMED and writes nothing: also where a number is too wide for its field, whose low
 * bits are never taken for it. Read with lupinenblatt_record_read, the bytes give the same eleven numbers. Up to version 0.6.0 the call took
 * ten, without `within`; with `within` 0 it answers what it answered then.
 */
uint8_t lupinenblatt_record_write(uint64_t kind, uint64_t sender, uint64_t other, uint64_t mark, uint64_t cause, uint64_t tn, uint64_t lrn,
                                  uint64_t version, uint64_t time, uint64_t due, uint64_t within, uint8_t *out, size_t out_length);

/* The library's version: LUPINENBLATT_VERSION_NUMBER of the header that it was made with. */
uint64_t lupinenblatt_version(void);

/* What a step says: the outcome's number, and how many messages stand in the tray from its first place on. */
typedef struct {
    uint64_t outcome;
    uint64_t count;
} lupinenblatt_answer;

/*
 * One event on a table, with the provider list, the books, R (`retries`) and a tray.
 *
 * The answer's outcome is LUPINENBLATT_UNSOUND where the provider list or the books are unsound or the table is unsound with them (see
 * lupinenblatt_table_check), R is above 7, or the tray has fewer than 64 whole places; otherwise LUPINENBLATT_MALFORMED where the event is
 * no well-formed record; otherwise what the rules of document 01, with the requests that have landed, say of the event. With
 * LUPINENBLATT_DONE the table holds what the rules make of it, the first `count` places of the tray hold the event's messages in their
 * order, and the tray's other bytes are as they were; `count` is at most 63, and the table is sound again. With any other outcome `count`
 * is 0, and table and tray hold the bytes that they held before. Provider list, books and event are only read.
 */
lupinenblatt_answer lupinenblatt_step(uint8_t *table, size_t table_length, const uint8_t *providers, size_t providers_length,
                                      const uint8_t *books, size_t books_length, uint64_t retries, const uint8_t *event, size_t event_length,
                                      uint8_t *tray, size_t tray_length);

/*
 * The same call without R: it takes LUPINENBLATT_DEFAULT_RETRIES, which is 3, so that a Local SMS is asked up to three times more before its
 * silence counts as a failure. Up to version 0.2.0 it took 0; a caller that relied on that calls lupinenblatt_step with 0.
 */
lupinenblatt_answer lupinenblatt_step_default(uint8_t *table, size_t table_length, const uint8_t *providers, size_t providers_length,
                                              const uint8_t *books, size_t books_length, const uint8_t *event, size_t event_length,
                                              uint8_t *tray, size_t tray_length);

/* What a run says: the outcome of the whole, how many events it did, and how many messages stand in the tray from its first place on. */
typedef struct {
    uint64_t outcome;
    uint64_t events;
    uint64_t messages;
} lupinenblatt_ran;

/*
 * Many events on a table: records of 24 bytes, one after the other, done in order exactly as repeated calls of lupinenblatt_step would, each
 * event's messages behind those of the event before it. The soundness of table, provider list and books is checked once.
 *
 * The answer's outcome is LUPINENBLATT_UNSOUND where these are unsound as in a step, R is above 7, the tray has fewer than 64 whole places,
 * or `outcomes` has fewer than two bytes for each whole record; otherwise LUPINENBLATT_MALFORMED where the records are not whole. With
 * either nothing is done: `events` and `messages` are 0, and table, tray and outcomes hold the bytes that they held before.
 *
 * Otherwise it is LUPINENBLATT_DONE, and the events were done in order, up to the end or to the first event for which fewer than 64 whole
 * places of the tray were left. Of the event at place i (from 0) the bytes 2 i and 2 i + 1 of `outcomes` are the outcome and the count of its
 * messages, as lupinenblatt_step would answer them; an event that is refused, also a malformed record, changes nothing else, and the next one
 * goes on. `events` is how many were done, `messages` the sum of their counts. Bytes of the tray behind the messages and bytes of `outcomes`
 * behind the last event done are as they were, and the table is sound again. To go on, call again with the records from `events` on and an
 * empty tray.
 */
lupinenblatt_ran lupinenblatt_run(uint8_t *table, size_t table_length, const uint8_t *providers, size_t providers_length,
                                  const uint8_t *books, size_t books_length, uint64_t retries, const uint8_t *events, size_t events_length,
                                  uint8_t *tray, size_t tray_length, uint8_t *outcomes, size_t outcomes_length);

/*
 * Whether bytes are a sound table with the provider list and the books that it is lent with: LUPINENBLATT_DONE and the number of used rows
 * as `count`, or LUPINENBLATT_UNSOUND and 0, also where the provider list or the books are unsound. The books say which TNs name one line,
 * and in a line there is at most one live, one sending and one worked version, and no version number twice; so a split pair that is entered
 * may make a table unsound. A step makes this check itself. Up to version 0.5.0 the call took the table alone and judged each TN by itself.
 */
lupinenblatt_answer lupinenblatt_table_check(const uint8_t *table, size_t table_length, const uint8_t *providers, size_t providers_length,
                                             const uint8_t *books, size_t books_length);

/*
 * Whether bytes are a sound provider list and sound books: LUPINENBLATT_DONE or LUPINENBLATT_UNSOUND. A step makes this check itself.
 */
uint8_t lupinenblatt_books_check(const uint8_t *providers, size_t providers_length, const uint8_t *books, size_t books_length);

/*
 * Why a provider gets the downloads of a TN or does not: the class of each provider by this provider list and these books.
 *
 * It returns LUPINENBLATT_UNSOUND where the provider list or the books are unsound; otherwise LUPINENBLATT_MALFORMED where `tn` is no TN
 * (the low bits of a wider number are never taken for one) or `classes` is not exactly 63 bytes. With either nothing is written.
 *
 * Otherwise it returns LUPINENBLATT_DONE, and byte n - 1 of `classes` is the LUPINENBLATT_CLASS_.. of provider n. Told is the first that
 * holds: it is not present, as nobody is behind the end of the provider list; it runs no Local SMS; the TN's code stands in no pair and the
 * provider has a filter on it; the code stands in a pair and the provider has filters on both codes. Otherwise it is selected, also with a
 * filter on one code of a pair. An event that activates, modifies or disconnects a version of this TN sends its downloads to exactly the
 * selected providers, a resend to those of them that had failed. Both names of a line have the same classes. Provider list and books are only
 * read.
 */
uint8_t lupinenblatt_selection(const uint8_t *providers, size_t providers_length, const uint8_t *books, size_t books_length, uint64_t tn,
                               uint8_t *classes, size_t classes_length);

/*
 * Where something is at fault: the number of the clause that fails, the place of the row or entry at fault, and a second place. Places count
 * from 1; 0 says that there is none.
 */
typedef struct {
    uint64_t clause;
    uint64_t place;
    uint64_t second;
} lupinenblatt_fault;

/*
 * Where a table is unsound: of the first row at fault the smallest LUPINENBLATT_TABLE_FAULT_.. that it breaks, its place, and the place of an
 * earlier row where the clause ties it to one. Where the rows are sound it is LUPINENBLATT_TABLE_FAULT_BOOKS if provider list or books are
 * not, and otherwise that of the first row that breaks a clause with an earlier row of its line. All three numbers are 0 exactly where
 * lupinenblatt_table_check answers LUPINENBLATT_DONE. The slices are only read.
 */
lupinenblatt_fault lupinenblatt_table_fault(const uint8_t *table, size_t table_length, const uint8_t *providers, size_t providers_length,
                                            const uint8_t *books, size_t books_length);

/*
 * Where provider list or books are unsound: of the first place at fault the smallest LUPINENBLATT_BOOKS_FAULT_.. that it breaks, the place in
 * its own list (of the provider list it is the provider), and an earlier place where the clause ties it to one. The provider list is judged
 * first, then the books' length and head, then codes, filters and pairs. All three numbers are 0 exactly where lupinenblatt_books_check finds
 * nothing. The slices are only read.
 */
lupinenblatt_fault lupinenblatt_books_fault(const uint8_t *providers, size_t providers_length, const uint8_t *books, size_t books_length);

/*
 * Readers of a message and of a row: each takes a pointer to the first byte of a place of the tray (24 bytes) or of a row (80 bytes).
 */
static inline uint64_t lupinenblatt_word(const uint8_t *bytes, unsigned word)
{
    const uint8_t *b = bytes + 8 * (size_t)word;
    uint64_t w = 0;
    for (unsigned i = 0; i < 8; i++)
        w = w << 8 | b[i];
    return w;
}

static inline uint64_t lupinenblatt_bits(const uint8_t *bytes, unsigned word, unsigned low, unsigned width)
{
    return lupinenblatt_word(bytes, word) >> low & (((uint64_t)1 << width) - 1);
}

static inline uint64_t lupinenblatt_message_tn(const uint8_t *message) { return lupinenblatt_bits(message, 0, 30, 34); }
static inline uint16_t lupinenblatt_message_version(const uint8_t *message) { return (uint16_t)lupinenblatt_bits(message, 0, 14, 16); }
static inline uint8_t lupinenblatt_message_status(const uint8_t *message) { return (uint8_t)lupinenblatt_bits(message, 0, 10, 4); } /* the version's status after the event */
static inline uint8_t lupinenblatt_message_provider(const uint8_t *message) { return (uint8_t)lupinenblatt_bits(message, 0, 4, 6); }
static inline uint8_t lupinenblatt_message_sort(const uint8_t *message) { return (uint8_t)lupinenblatt_bits(message, 0, 0, 4); }
static inline uint64_t lupinenblatt_message_lrn(const uint8_t *message) { return lupinenblatt_bits(message, 1, 30, 34); }
static inline uint8_t lupinenblatt_message_local(const uint8_t *message) { return (uint8_t)lupinenblatt_bits(message, 1, 29, 1); } /* 1 for the Local SMS, 0 for the SOA */
static inline uint64_t lupinenblatt_message_failed(const uint8_t *message) { return lupinenblatt_word(message, 2); } /* provider n at bit n */

/* A free row is all zero: its TN is 0. */
static inline uint64_t lupinenblatt_row_tn(const uint8_t *row) { return lupinenblatt_bits(row, 0, 30, 34); }
static inline uint16_t lupinenblatt_row_version(const uint8_t *row) { return (uint16_t)lupinenblatt_bits(row, 0, 14, 16); }
static inline uint8_t lupinenblatt_row_status(const uint8_t *row) { return (uint8_t)lupinenblatt_bits(row, 0, 10, 4); }
static inline uint8_t lupinenblatt_row_live(const uint8_t *row) { return (uint8_t)lupinenblatt_bits(row, 0, 9, 1); }
static inline uint8_t lupinenblatt_row_new_created(const uint8_t *row) { return (uint8_t)lupinenblatt_bits(row, 0, 8, 1); }
static inline uint8_t lupinenblatt_row_old_created(const uint8_t *row) { return (uint8_t)lupinenblatt_bits(row, 0, 7, 1); }
static inline uint8_t lupinenblatt_row_window_ran_out(const uint8_t *row) { return (uint8_t)lupinenblatt_bits(row, 0, 6, 1); }
static inline uint8_t lupinenblatt_row_within(const uint8_t *row) { return (uint8_t)lupinenblatt_bits(row, 0, 5, 1); } /* 1 for a version within one provider */
static inline uint64_t lupinenblatt_row_lrn(const uint8_t *row) { return lupinenblatt_bits(row, 1, 30, 34); }
static inline uint8_t lupinenblatt_row_new_provider(const uint8_t *row) { return (uint8_t)lupinenblatt_bits(row, 1, 24, 6); }
static inline uint8_t lupinenblatt_row_old_provider(const uint8_t *row) { return (uint8_t)lupinenblatt_bits(row, 1, 18, 6); }
static inline uint8_t lupinenblatt_row_authorization(const uint8_t *row) { return (uint8_t)lupinenblatt_bits(row, 1, 16, 2); } /* 0 none, LUPINENBLATT_YES, LUPINENBLATT_NO */
static inline uint8_t lupinenblatt_row_cause(const uint8_t *row) { return (uint8_t)lupinenblatt_bits(row, 1, 9, 7); }
static inline uint8_t lupinenblatt_row_canceller(const uint8_t *row) { return (uint8_t)lupinenblatt_bits(row, 1, 7, 2); }
static inline uint8_t lupinenblatt_row_purpose(const uint8_t *row) { return (uint8_t)lupinenblatt_bits(row, 1, 5, 2); }
static inline uint32_t lupinenblatt_row_new_due(const uint8_t *row) { return (uint32_t)lupinenblatt_bits(row, 2, 32, 32); }
static inline uint32_t lupinenblatt_row_old_due(const uint8_t *row) { return (uint32_t)lupinenblatt_bits(row, 2, 0, 32); }
static inline uint32_t lupinenblatt_row_stamp(const uint8_t *row) { return (uint32_t)lupinenblatt_bits(row, 3, 32, 32); }
static inline uint32_t lupinenblatt_row_start(const uint8_t *row) { return (uint32_t)lupinenblatt_bits(row, 3, 0, 32); } /* when the broadcast began */
static inline uint64_t lupinenblatt_row_confirmed(const uint8_t *row) { return lupinenblatt_word(row, 4); } /* provider n at bit n */
static inline uint64_t lupinenblatt_row_waiting(const uint8_t *row) { return lupinenblatt_word(row, 5); } /* likewise */
static inline uint64_t lupinenblatt_row_failed(const uint8_t *row) { return lupinenblatt_word(row, 6); } /* likewise */

/* The retries that the Local SMS of provider 1 to 63 has used. */
static inline uint8_t lupinenblatt_row_retries(const uint8_t *row, unsigned provider)
{
    return (uint8_t)lupinenblatt_bits(row, 7 + (provider - 1) / 21, 3 * ((provider - 1) % 21), 3);
}

/*
 * An event with its fields by name, in the order of LUPINENBLATT_FIELD_KIND to LUPINENBLATT_FIELD_WITHIN. Each has 64 bits, so that a number
 * too wide for its field reaches the proved call and is refused there.
 */
typedef struct {
    uint64_t kind, sender, other, mark, cause, tn, lrn, version, time, due, within;
} lupinenblatt_event;

/* lupinenblatt_record_write of these fields. */
static inline uint8_t lupinenblatt_event_write(lupinenblatt_event e, uint8_t *out, size_t out_length)
{
    return lupinenblatt_record_write(e.kind, e.sender, e.other, e.mark, e.cause, e.tn, e.lrn, e.version, e.time, e.due, e.within, out,
                                     out_length);
}

/* lupinenblatt_record_read to these fields; with LUPINENBLATT_MALFORMED they stay as they were. */
static inline uint8_t lupinenblatt_event_read(const uint8_t *bytes, size_t bytes_length, lupinenblatt_event *e)
{
    uint64_t f[LUPINENBLATT_RECORD_FIELDS];
    uint8_t said = lupinenblatt_record_read(bytes, bytes_length, f, LUPINENBLATT_RECORD_FIELDS);
    if (said == LUPINENBLATT_DONE) {
        e->kind = f[LUPINENBLATT_FIELD_KIND];
        e->sender = f[LUPINENBLATT_FIELD_SENDER];
        e->other = f[LUPINENBLATT_FIELD_OTHER];
        e->mark = f[LUPINENBLATT_FIELD_MARK];
        e->cause = f[LUPINENBLATT_FIELD_CAUSE];
        e->tn = f[LUPINENBLATT_FIELD_TN];
        e->lrn = f[LUPINENBLATT_FIELD_LRN];
        e->version = f[LUPINENBLATT_FIELD_VERSION];
        e->time = f[LUPINENBLATT_FIELD_TIME];
        e->due = f[LUPINENBLATT_FIELD_DUE];
        e->within = f[LUPINENBLATT_FIELD_WITHIN];
    }
    return said;
}

/* Whether provider 1 to 63 is in a set (provider n at bit n); 0 for any other number. */
static inline int lupinenblatt_set_has(uint64_t set, unsigned provider)
{
    return provider >= 1 && provider <= LUPINENBLATT_PROVIDERS_BYTES && (set >> provider & 1) != 0;
}

/* A message with its fields by name. */
typedef struct {
    uint64_t tn, lrn;        /* the LRN is 0 where the message has none */
    uint64_t failed;         /* provider n at bit n */
    uint16_t version;
    uint8_t status;          /* of the version after the event */
    uint8_t sort, provider;
    uint8_t local;           /* 1 for the provider's Local SMS, 0 for its SOA */
} lupinenblatt_message_fields;

/* The message at place i of a tray, from 0; i is below the count that the call answered. */
static inline lupinenblatt_message_fields lupinenblatt_message(const uint8_t *tray, size_t i)
{
    const uint8_t *place = tray + i * LUPINENBLATT_MESSAGE_BYTES;
    lupinenblatt_message_fields m;
    m.tn = lupinenblatt_message_tn(place);
    m.lrn = lupinenblatt_message_lrn(place);
    m.failed = lupinenblatt_message_failed(place);
    m.version = lupinenblatt_message_version(place);
    m.status = lupinenblatt_message_status(place);
    m.sort = lupinenblatt_message_sort(place);
    m.provider = lupinenblatt_message_provider(place);
    m.local = lupinenblatt_message_local(place);
    return m;
}

/* A row with its fields by name; of a free row all are 0. */
typedef struct {
    uint64_t tn, lrn;
    uint64_t confirmed, waiting, failed;   /* provider n at bit n */
    uint32_t new_due, old_due, stamp, start;
    uint16_t version;
    uint8_t status, live, new_created, old_created, window_ran_out, within;
    uint8_t new_provider, old_provider, authorization, cause, canceller, purpose;
    uint8_t retries[LUPINENBLATT_PROVIDERS_BYTES + 1];   /* used by the system of provider n, at n; the first is 0 */
} lupinenblatt_row_fields;

/* The row at place i of a table, from 0. */
static inline lupinenblatt_row_fields lupinenblatt_row(const uint8_t *table, size_t i)
{
    const uint8_t *row = table + i * LUPINENBLATT_ROW_BYTES;
    lupinenblatt_row_fields r;
    r.tn = lupinenblatt_row_tn(row);
    r.lrn = lupinenblatt_row_lrn(row);
    r.confirmed = lupinenblatt_row_confirmed(row);
    r.waiting = lupinenblatt_row_waiting(row);
    r.failed = lupinenblatt_row_failed(row);
    r.new_due = lupinenblatt_row_new_due(row);
    r.old_due = lupinenblatt_row_old_due(row);
    r.stamp = lupinenblatt_row_stamp(row);
    r.start = lupinenblatt_row_start(row);
    r.version = lupinenblatt_row_version(row);
    r.status = lupinenblatt_row_status(row);
    r.live = lupinenblatt_row_live(row);
    r.new_created = lupinenblatt_row_new_created(row);
    r.old_created = lupinenblatt_row_old_created(row);
    r.window_ran_out = lupinenblatt_row_window_ran_out(row);
    r.within = lupinenblatt_row_within(row);
    r.new_provider = lupinenblatt_row_new_provider(row);
    r.old_provider = lupinenblatt_row_old_provider(row);
    r.authorization = lupinenblatt_row_authorization(row);
    r.cause = lupinenblatt_row_cause(row);
    r.canceller = lupinenblatt_row_canceller(row);
    r.purpose = lupinenblatt_row_purpose(row);
    r.retries[0] = 0;
    for (unsigned provider = 1; provider <= LUPINENBLATT_PROVIDERS_BYTES; provider++)
        r.retries[provider] = lupinenblatt_row_retries(row, provider);
    return r;
}

/*
 * Makers of a provider list and of books, and readers of the books' places. A maker returns 1 where it wrote its bytes, and 0, with nothing
 * written, where the place is not there or a number is too wide for it. Places of the books count from 0 (those of lupinenblatt_fault from 1).
 * Whether the lists are sound, with their order and their holes, lupinenblatt_books_fault says.
 */
static inline int lupinenblatt_providers_put(uint8_t *providers, size_t providers_length, unsigned provider, unsigned mark)
{
    if (provider < 1 || provider > providers_length || mark > 255)
        return 0;
    providers[provider - 1] = (uint8_t)mark;
    return 1;
}

static inline uint32_t lupinenblatt_books_four(const uint8_t *b)
{
    return (uint32_t)b[0] << 24 | (uint32_t)b[1] << 16 | (uint32_t)b[2] << 8 | b[3];
}

static inline void lupinenblatt_books_put_four(uint8_t *b, uint32_t number)
{
    b[0] = (uint8_t)(number >> 24);
    b[1] = (uint8_t)(number >> 16);
    b[2] = (uint8_t)(number >> 8);
    b[3] = (uint8_t)number;
}

/* Code and owner; the filter of a provider on a code; a pair of codes. With all numbers 0 the place is free. */
static inline int lupinenblatt_books_put_code(uint8_t *books, size_t i, uint32_t code, uint32_t owner)
{
    if (i >= LUPINENBLATT_CODE_PLACES || code >> 26 != 0 || owner > 63)
        return 0;
    lupinenblatt_books_put_four(books + LUPINENBLATT_CODES_AT + 4 * i, code << 6 | owner);
    return 1;
}

static inline int lupinenblatt_books_put_filter(uint8_t *books, size_t i, uint32_t provider, uint32_t code)
{
    if (i >= LUPINENBLATT_FILTER_PLACES || provider >> 12 != 0 || code >> 20 != 0)
        return 0;
    lupinenblatt_books_put_four(books + LUPINENBLATT_FILTERS_AT + 4 * i, provider << 20 | code);
    return 1;
}

static inline int lupinenblatt_books_put_pair(uint8_t *books, size_t i, uint32_t one, uint32_t two)
{
    if (i >= LUPINENBLATT_PAIR_PLACES)
        return 0;
    lupinenblatt_books_put_four(books + LUPINENBLATT_PAIRS_AT + 8 * i, one);
    lupinenblatt_books_put_four(books + LUPINENBLATT_PAIRS_AT + 8 * i + 4, two);
    return 1;
}

typedef struct {
    uint32_t code, owner;
} lupinenblatt_code;

typedef struct {
    uint32_t provider, code;
} lupinenblatt_filter;

typedef struct {
    uint32_t one, two;
} lupinenblatt_pair;

/* What stands at place i of each list; i is below the number of its places. */
static inline lupinenblatt_code lupinenblatt_books_code(const uint8_t *books, size_t i)
{
    uint32_t number = lupinenblatt_books_four(books + LUPINENBLATT_CODES_AT + 4 * i);
    lupinenblatt_code c;
    c.code = number >> 6;
    c.owner = number & 63;
    return c;
}

static inline lupinenblatt_filter lupinenblatt_books_filter(const uint8_t *books, size_t i)
{
    uint32_t number = lupinenblatt_books_four(books + LUPINENBLATT_FILTERS_AT + 4 * i);
    lupinenblatt_filter f;
    f.provider = number >> 20;
    f.code = number & 0xfffff;
    return f;
}

static inline lupinenblatt_pair lupinenblatt_books_pair(const uint8_t *books, size_t i)
{
    lupinenblatt_pair p;
    p.one = lupinenblatt_books_four(books + LUPINENBLATT_PAIRS_AT + 8 * i);
    p.two = lupinenblatt_books_four(books + LUPINENBLATT_PAIRS_AT + 8 * i + 4);
    return p;
}

/* Words for numbers. A number that is none of its kind has a text of its own: "no outcome", "no kind" and so on. */
static inline const char *lupinenblatt_outcome_name(uint64_t outcome)
{
    static const char *const names[] = {
        "done",
        "table or books unsound, R above 7, or a tray below 64 whole places",
        "record not 24 bytes or malformed",
        "sender or other is not 0 and not present",
        "a create for a code not listed",
        "that TN and version not in the table",
        "sender lacks the standing",
        "status does not allow it",
        "too early",
        "a worked version that this create does not fit",
        "number busy",
        "not awaited",
        "the old side is not the current provider",
        "a fresh version and no free row",
        "a fresh version and number 65,535 is used",
        "no outcome",
        "no outcome",
        "no outcome",
        "a concurring create with another due date than the first",
    };
    return outcome < sizeof names / sizeof *names ? names[outcome] : "no outcome";
}

static inline const char *lupinenblatt_kind_name(uint64_t kind)
{
    static const char *const names[] = {
        "no kind", "new side creates", "old side creates", "new side modifies", "old side modifies", "activate", "cancel",
        "acknowledge cancel", "resolve conflict", "modify active", "disconnect", "reply", "silence", "window ran out", "resend", "purge",
    };
    return kind < sizeof names / sizeof *names ? names[kind] : "no kind";
}

static inline const char *lupinenblatt_status_name(uint64_t status)
{
    static const char *const names[] = {
        "pending", "conflict", "cancel-pending", "sending", "failed", "partial-failure", "active", "old", "canceled",
    };
    return status < sizeof names / sizeof *names ? names[status] : "no status";
}

static inline const char *lupinenblatt_sort_name(uint64_t sort)
{
    static const char *const names[] = {
        "no sort", "creation", "status", "attributes", "download create", "download modify", "download delete", "window",
    };
    return sort < sizeof names / sizeof *names ? names[sort] : "no sort";
}

static inline const char *lupinenblatt_purpose_name(uint64_t purpose)
{
    static const char *const names[] = {"none", "activate", "modify", "disconnect"};
    return purpose < sizeof names / sizeof *names ? names[purpose] : "no purpose";
}

static inline const char *lupinenblatt_canceller_name(uint64_t canceller)
{
    static const char *const names[] = {"nobody", "new side", "old side"};
    return canceller < sizeof names / sizeof *names ? names[canceller] : "no canceller";
}

static inline const char *lupinenblatt_class_name(uint64_t number)
{
    static const char *const names[] = {"selected", "not present", "no Local SMS", "filter on the only code", "filters on both codes"};
    return number < sizeof names / sizeof *names ? names[number] : "no class";
}

/* Words for the clauses of lupinenblatt_table_fault and lupinenblatt_books_fault. */
static inline const char *lupinenblatt_table_fault_name(uint64_t clause)
{
    static const char *const names[] = {
        "nothing at fault",
        "the length is no multiple of the row's 80 bytes",
        "more than 4,096 rows",
        "a used row right behind a free one, which is the second place",
        "a spare bit is set",
        "the TN is no TN",
        "the version number is 0",
        "the status is above 8",
        "the stamp is 0",
        "the new provider is 0",
        "the old provider is 0",
        "the canceller is 3, neither side",
        "bit 0 of a set, which is nobody's, is set",
        "the highest bit of a word of retries, which is nobody's, is set",
        "new and old provider are the same, or, within one provider, differ",
        "the new side's due date and LRN do not go with its having created",
        "the old side's due date and authorization do not go with its having created",
        "neither side has created",
        "a side that the status needs has not created",
        "the cause is not 1 to 99 with \"no\", or not 0 without",
        "a canceller outside cancel-pending, or none in it",
        "a system stands in two of the three sets",
        "retries used by a system that is not waiting",
        "a broadcast start outside sending, or none in it",
        "a waiting system outside sending, or none in it",
        "the purpose does not go with the status",
        "live where the status forbids it, or not live where it must be",
        "live by activate with a waiting or failed system and no confirmed one",
        "not above the row before it, which is the second place",
        "a second live version of its TN; the second place is the other",
        "a second sending version of its TN; the second place is the other",
        "a second worked version of its TN; the second place is the other",
        "the rows are sound, provider list or books are not",
        "a second live version of its line; the second place is the other",
        "a second sending version of its line; the second place is the other",
        "a second worked version of its line; the second place is the other",
        "its version number stands twice in its line; the second place is the other",
        "within one provider, and the old side has created or the window mark is set",
    };
    return clause < sizeof names / sizeof *names ? names[clause] : "no clause";
}

static inline const char *lupinenblatt_books_fault_name(uint64_t clause)
{
    static const char *const names[] = {
        "nothing at fault",
        "the provider list has more than 63 bytes",
        "a byte of the provider list is not 0, 1 or 3",
        "the books are not 8,712 bytes",
        "the first eight bytes are not zero",
        "a code right behind a free place, which is the second place",
        "the code is no code",
        "the owner is 0 or absent",
        "not above the code before it, which is the second place",
        "a filter right behind a free place, which is the second place",
        "the filter's provider is 0, above 63 or absent",
        "the filter's code is no code",
        "not above the filter before it, which is the second place",
        "a pair right behind a free place, which is the second place",
        "a code of the pair is no code",
        "both codes of the pair are the same",
        "a code of the pair stands in a pair before it; the second place is the nearest",
    };
    return clause < sizeof names / sizeof *names ? names[clause] : "no clause";
}

#ifdef __cplusplus
}
#endif

#endif
