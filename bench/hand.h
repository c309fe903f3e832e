/*
 * The library's calls once more, written by hand in C for speed: what the benchmarks compare with. Same slices, same bytes, same answers.
 */
#ifndef LUPINENBLATT_BENCH_HAND_H
#define LUPINENBLATT_BENCH_HAND_H

#include "calls.h"

#ifdef __cplusplus
extern "C" {
#endif

lupinenblatt_answer hand_step(uint8_t *table, size_t table_len, const uint8_t *providers, size_t providers_len, const uint8_t *books,
                              size_t books_len, uint64_t retries, const uint8_t *event, size_t event_len, uint8_t *tray, size_t tray_len);

lupinenblatt_answer hand_step_default(uint8_t *table, size_t table_len, const uint8_t *providers, size_t providers_len, const uint8_t *books,
                                      size_t books_len, const uint8_t *event, size_t event_len, uint8_t *tray, size_t tray_len);

lupinenblatt_ran hand_run(uint8_t *table, size_t table_len, const uint8_t *providers, size_t providers_len, const uint8_t *books,
                          size_t books_len, uint64_t retries, const uint8_t *events, size_t events_len, uint8_t *tray, size_t tray_len,
                          uint8_t *outcomes, size_t outcomes_len);

/* 0 and the number of used rows, or 1 and 0, also where provider list or books are unsound. */
lupinenblatt_answer hand_table_check(const uint8_t *table, size_t table_len, const uint8_t *providers, size_t providers_len,
                                     const uint8_t *books, size_t books_len);

/* As lupinenblatt_convert; there where RELEASE_DATES of tests/sizes.h is 1. */
lupinenblatt_answer hand_convert(const uint8_t *older, size_t older_len, const uint8_t *providers, size_t providers_len,
                                 const uint8_t *books, size_t books_len, uint8_t *table, size_t table_len);

/* 0 sound, 1 not. */
uint8_t hand_books_check(const uint8_t *providers, size_t providers_len, const uint8_t *books, size_t books_len);

/* 0 and the class of provider n in byte n - 1, or 1 or 2. */
uint8_t hand_selection(const uint8_t *providers, size_t providers_len, const uint8_t *books, size_t books_len, uint64_t tn,
                       uint8_t *classes, size_t classes_len);

uint8_t hand_record_read(const uint8_t *bytes, size_t length, uint64_t *fields, size_t places);

uint8_t hand_record_write(uint64_t kind, uint64_t sender, uint64_t other, uint64_t mark, uint64_t cause, uint64_t tn, uint64_t lrn,
                          uint64_t version, uint64_t time, uint64_t due, uint64_t within, uint8_t *out, size_t length);

#ifdef __cplusplus
}
#endif

#endif
