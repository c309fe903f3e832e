// A stand-in for the library: its calls, made by a second copy of the model on bytes.
//
// It tests the tests alone: that the generators reach what they should, and (tests/mistakes) that a mistake is seen. A comparison with the
// stand-in says nothing about the library.
#define MODEL stand_in
#include "calls.h"
#include "faults.hpp"

using namespace stand_in;

extern "C" lupinenblatt_answer lupinenblatt_step(uint8_t *table, size_t tableLength, const uint8_t *providers, size_t providersLength,
                                                 const uint8_t *books, size_t booksLength, uint64_t retries, const uint8_t *event,
                                                 size_t eventLength, uint8_t *tray, size_t trayLength) {
    std::optional<Table> t = unpackTable(table, tableLength);
    std::optional<Books> b = unpackBooks(providers, providersLength, books, booksLength);
    Result r = step(t, b, retries, unpackEvent(event, eventLength), trayLength / MESSAGE);
    if (r.outcome == DONE) {
        Bytes after;
        packTable(*t, after);
        std::copy(after.begin(), after.end(), table);
        packTray(r.messages, tray);
    }
    lupinenblatt_answer answer;
    answer.outcome = r.outcome;
    answer.count = r.messages.size();
    return answer;
}

extern "C" lupinenblatt_answer lupinenblatt_step_default(uint8_t *table, size_t tableLength, const uint8_t *providers, size_t providersLength,
                                                         const uint8_t *books, size_t booksLength, const uint8_t *event, size_t eventLength,
                                                         uint8_t *tray, size_t trayLength) {
    return lupinenblatt_step(table, tableLength, providers, providersLength, books, booksLength, DEFAULT_R, event, eventLength, tray, trayLength);
}

extern "C" lupinenblatt_answer lupinenblatt_table_check(const uint8_t *table, size_t tableLength, const uint8_t *providers,
                                                        size_t providersLength, const uint8_t *books, size_t booksLength) {
    std::optional<Table> t = unpackTable(table, tableLength);
    std::optional<Books> b = unpackBooks(providers, providersLength, books, booksLength);
    lupinenblatt_answer answer = {UNSOUND, 0};
    if (b && sound(*b) && t && sound(*t, *b)) answer = {DONE, t->used.size()};
    return answer;
}

extern "C" uint8_t lupinenblatt_books_check(const uint8_t *providers, size_t providersLength, const uint8_t *books, size_t booksLength) {
    std::optional<Books> b = unpackBooks(providers, providersLength, books, booksLength);
    return b && sound(*b) ? DONE : UNSOUND;
}

extern "C" uint8_t lupinenblatt_selection(const uint8_t *providers, size_t providersLength, const uint8_t *books, size_t booksLength,
                                          uint64_t tn, uint8_t *classes, size_t classesLength) {
    Selection s = selection(unpackBooks(providers, providersLength, books, booksLength), tn, classesLength);
    std::copy(s.classes.begin(), s.classes.end(), classes);
    return uint8_t(s.outcome);
}

extern "C" lupinenblatt_fault lupinenblatt_table_fault(const uint8_t *table, size_t tableLength, const uint8_t *providers,
                                                       size_t providersLength, const uint8_t *books, size_t booksLength) {
    Fault f = tableFault(table, tableLength, providers, providersLength, books, booksLength);
    return {f.clause, f.place, f.second};
}

extern "C" lupinenblatt_fault lupinenblatt_books_fault(const uint8_t *providers, size_t providersLength, const uint8_t *books,
                                                       size_t booksLength) {
    Fault f = booksFault(providers, providersLength, books, booksLength);
    return {f.clause, f.place, f.second};
}

extern "C" lupinenblatt_ran lupinenblatt_run(uint8_t *table, size_t tableLength, const uint8_t *providers, size_t providersLength,
                                             const uint8_t *books, size_t booksLength, uint64_t retries, const uint8_t *events,
                                             size_t eventsLength, uint8_t *tray, size_t trayLength, uint8_t *outcomes,
                                             size_t outcomesLength) {
    lupinenblatt_ran ran = {UNSOUND, 0, 0};
    std::optional<Table> t = unpackTable(table, tableLength);
    std::optional<Books> b = unpackBooks(providers, providersLength, books, booksLength);
    size_t places = trayLength / MESSAGE, count = eventsLength / RECORD;
    if (!b || !sound(*b) || !t || !sound(*t, *b)) return ran;
    if (retries > 7) return ran;
    if (places < PLACES) return ran;
    if (outcomesLength < 2 * count) return ran;
    ran.outcome = MALFORMED;
    if (eventsLength % RECORD != 0) return ran;
    ran.outcome = DONE;
    while (ran.events < count && places - ran.messages >= PLACES) {
        Result r = step(t, b, retries, unpackEvent(events + ran.events * RECORD, RECORD), PLACES);
        packTray(r.messages, tray + ran.messages * MESSAGE);
        outcomes[2 * ran.events] = uint8_t(r.outcome);
        outcomes[2 * ran.events + 1] = uint8_t(r.messages.size());
        ran.events++;
        ran.messages += r.messages.size();
    }
    Bytes left;
    packTable(*t, left);
    std::copy(left.begin(), left.end(), table);
    return ran;
}

#ifdef TEST_CONVERT
extern "C" lupinenblatt_answer lupinenblatt_convert(const uint8_t *older, size_t olderLength, const uint8_t *providers,
                                                    size_t providersLength, const uint8_t *books, size_t booksLength, uint8_t *table,
                                                    size_t tableLength) {
    std::optional<Table> t = unpackTable(older, olderLength, OLDER_ROW);
    std::optional<Books> b = unpackBooks(providers, providersLength, books, booksLength);
    Converted c = convert(t, b, rowsIn(tableLength));
    lupinenblatt_answer answer = {c.outcome, c.table.used.size()};
    if (c.outcome != DONE) return answer;
    Bytes converted;
    packTable(c.table, converted);
    std::copy(converted.begin(), converted.end(), table);
    return answer;
}
#endif

extern "C" uint8_t lupinenblatt_record_read(const uint8_t *bytes, size_t length, uint64_t *fields, size_t places) {
    std::optional<Fields> f = readRecord(bytes, length);
    if (!f || places != f->size()) return MALFORMED;
    std::copy(f->begin(), f->end(), fields);
    return DONE;
}

extern "C" uint8_t lupinenblatt_record_write(uint64_t kind, uint64_t sender, uint64_t other, uint64_t mark, uint64_t cause, uint64_t tn,
                                             uint64_t lrn, uint64_t version, uint64_t time, uint64_t due, uint64_t within, uint8_t *out,
                                             size_t length) {
    std::optional<Bytes> bytes = writeRecord({kind, sender, other, mark, cause, tn, lrn, version, time, due, within}, length);
    if (!bytes) return MALFORMED;
    std::copy(bytes->begin(), bytes->end(), out);
    return DONE;
}
