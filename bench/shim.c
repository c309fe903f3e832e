/* The hand-written calls under the library's names, so that tests/compare and tests/fuzz hold them to the model. */
#include "hand.h"

lupinenblatt_answer lupinenblatt_step(uint8_t *table, size_t table_len, const uint8_t *providers, size_t providers_len, const uint8_t *books,
                                      size_t books_len, uint64_t retries, const uint8_t *event, size_t event_len, uint8_t *tray,
                                      size_t tray_len)
{
    return hand_step(table, table_len, providers, providers_len, books, books_len, retries, event, event_len, tray, tray_len);
}

lupinenblatt_answer lupinenblatt_step_default(uint8_t *table, size_t table_len, const uint8_t *providers, size_t providers_len,
                                              const uint8_t *books, size_t books_len, const uint8_t *event, size_t event_len, uint8_t *tray,
                                              size_t tray_len)
{
    return hand_step_default(table, table_len, providers, providers_len, books, books_len, event, event_len, tray, tray_len);
}

lupinenblatt_ran lupinenblatt_run(uint8_t *table, size_t table_len, const uint8_t *providers, size_t providers_len, const uint8_t *books,
                                  size_t books_len, uint64_t retries, const uint8_t *events, size_t events_len, uint8_t *tray,
                                  size_t tray_len, uint8_t *outcomes, size_t outcomes_len)
{
    return hand_run(table, table_len, providers, providers_len, books, books_len, retries, events, events_len, tray, tray_len, outcomes,
                    outcomes_len);
}

lupinenblatt_answer lupinenblatt_table_check(const uint8_t *table, size_t table_len, const uint8_t *providers, size_t providers_len,
                                             const uint8_t *books, size_t books_len)
{
    return hand_table_check(table, table_len, providers, providers_len, books, books_len);
}

uint8_t lupinenblatt_books_check(const uint8_t *providers, size_t providers_len, const uint8_t *books, size_t books_len)
{
    return hand_books_check(providers, providers_len, books, books_len);
}

uint8_t lupinenblatt_selection(const uint8_t *providers, size_t providers_len, const uint8_t *books, size_t books_len, uint64_t tn,
                               uint8_t *classes, size_t classes_len)
{
    return hand_selection(providers, providers_len, books, books_len, tn, classes, classes_len);
}

uint8_t lupinenblatt_record_read(const uint8_t *bytes, size_t length, uint64_t *fields, size_t places)
{
    return hand_record_read(bytes, length, fields, places);
}

uint8_t lupinenblatt_record_write(uint64_t kind, uint64_t sender, uint64_t other, uint64_t mark, uint64_t cause, uint64_t tn, uint64_t lrn,
                                  uint64_t version, uint64_t time, uint64_t due, uint64_t within, uint8_t *out, size_t length)
{
    return hand_record_write(kind, sender, other, mark, cause, tn, lrn, version, time, due, within, out, length);
}

#ifdef TEST_CONVERT
lupinenblatt_answer lupinenblatt_convert(const uint8_t *older, size_t older_length, const uint8_t *providers, size_t providers_length,
                                         const uint8_t *books, size_t books_length, uint8_t *table, size_t table_length)
{
    return hand_convert(older, older_length, providers, providers_length, books, books_length, table, table_length);
}
#endif
