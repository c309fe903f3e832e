// The bytes of docs/LAYOUTS.md: rows, provider list, books, messages and event records, packed and unpacked.
//
// Unpacking answers nothing where the bytes are the form of no value: spare bits, a wrong length, a used place behind a free one. What a
// value must be beyond its form (ranges, order, soundness) is asked by model.hpp.
#pragma once

#include <array>

#include "model.hpp"
#include "sizes.h"

namespace MODEL {

using Bytes = std::vector<uint8_t>;

// The model spells its own numbers, and this file has its own layouts; both must be those of sizes.h.
static_assert(ANOTHER_DUE + 1 == OUTCOMES && LAST_KIND == KINDS && LAST_STATUS + 1 == STATUSES && WINDOW_NOTICE == SORTS,
              "numbers of the model");
static_assert(DISCONNECT + 1 == PURPOSES && OLD_SIDE + 1 == CANCELLERS && NO + 1 == MARKS, "numbers of the model");
static_assert(FILTERS_ON_BOTH_CODES + 1 == CLASSES && CLASS_PLACES == 63, "numbers of the model");
static_assert(PROVIDERS == 63 && CODES == 1024 && FILTERS == 1024 && SPLITS == 64 && MOST_ROWS == 4096, "bounds of the model");
static_assert(PLACES == 64 && MOST_RETRIES == 7 && LAST_VERSION == 65535 && LAST_CAUSE == 99, "bounds of the model");
static_assert(CODES_AT == 8 && FILTERS_AT == CODES_AT + 4 * CODES && SPLITS_AT == FILTERS_AT + 4 * FILTERS, "places of the books");
static_assert(BOOKS == SPLITS_AT + 8 * SPLITS, "places of the books");

// Fields of a word of 64 bits, from the highest bit down.
class WordWriter {
    uint64_t word = 0;
  public:
    WordWriter &put(uint64_t value, int width) {
        word = width == 64 ? value : word << width | value;
        return *this;
    }
    void into(uint8_t *out) const {
        for (int i = 0; i < 8; i++) out[i] = uint8_t(word >> (56 - 8 * i));
    }
};

class WordReader {
    uint64_t word = 0;
    int left = 64;
  public:
    explicit WordReader(const uint8_t *in) {
        for (int i = 0; i < 8; i++) word = word << 8 | in[i];
    }
    uint64_t take(int width) {
        left -= width;
        return width == 64 ? word : word >> left & ((uint64_t(1) << width) - 1);
    }
};

inline uint64_t wordOf(const Systems &s) {
    uint64_t word = 0;
    for (Provider p : s) word += uint64_t(1) << p;
    return word;
}

inline Systems systemsIn(uint64_t word) {
    Systems s;
    for (Provider p = 0; p <= PROVIDERS; p++)
        if (word >> p & 1) s.insert(s.end(), p);
    return s;
}

// ---- Version row ----

static_assert(OLDER_ROW == 10 * 8 && ROW == (RELEASE_DATES ? 11 * 8 : 10 * 8), "ten words, and [A5] the date's, as they are packed here");
static_assert(PROVIDERS == 3 * 21 && STATUS_VALUES == 1 << 4, "as they are packed here");

// Words 7, 8 and 9: a zero bit, then the retries of 21 systems, the last system highest.
inline WordWriter retriesOf(const Version &v, Provider first) {
    WordWriter w;
    for (Provider p = first + 20; p >= first; p--) {
        auto found = v.retries.find(p);
        w.put(found == v.retries.end() ? 0 : found->second, 3);
    }
    return w;
}

// [A5] A row of the older form has no date.
inline void packRow(const Version &v, uint8_t *out, size_t row = ROW) {
    WordWriter().put(v.tn.digits, 34).put(v.number, 16).put(uint64_t(v.status), 4).put(v.live, 1).put(v.newCreated, 1).put(v.oldCreated, 1)
        .put(v.windowRanOut, 1).put(v.within, 1).put(0, 5).into(out);
    WordWriter().put(v.lrn.digits, 34).put(v.newProvider, 6).put(v.oldProvider, 6).put(uint64_t(v.authorization), 2).put(v.cause, 7)
        .put(uint64_t(v.canceller), 2).put(uint64_t(v.purpose), 2).put(0, 5).into(out + 8);
    WordWriter().put(v.newDue, 32).put(v.oldDue, 32).into(out + 16);
    WordWriter().put(v.stamp, 32).put(v.start, 32).into(out + 24);
    WordWriter().put(wordOf(v.confirmed), 64).into(out + 32);
    WordWriter().put(wordOf(v.waiting), 64).into(out + 40);
    WordWriter().put(wordOf(v.failed), 64).into(out + 48);
    retriesOf(v, 1).into(out + 56);
    retriesOf(v, 22).into(out + 64);
    retriesOf(v, 43).into(out + 72);
    if (row > OLDER_ROW) WordWriter().put(v.release, 32).put(0, 32).into(out + 80);
}

// What a row's words hold, be it a version or not: the fields, and whether a bit is set that no field has, a spare one or the highest of a
// word of retries.
struct Row : Version { bool spare = false, highest = false; };

inline void readRetries(Row &v, Provider first, const uint8_t *in) {
    WordReader w(in);
    if (w.take(1) != 0) v.highest = true;
    for (Provider p = first + 20; p >= first; p--)
        if (uint64_t n = w.take(3)) v.retries[p] = n;
}

inline void readDate(Row &v, const uint8_t *in) {
    WordReader w10(in);
    v.release = w10.take(32);
    if (w10.take(32) != 0) v.spare = true;
}

inline Row readRow(const uint8_t *in, size_t row = ROW) {
    Row v;
    WordReader w0(in), w1(in + 8), w2(in + 16), w3(in + 24);
    v.tn.digits = w0.take(34), v.number = w0.take(16), v.status = Status(w0.take(4)), v.live = w0.take(1), v.newCreated = w0.take(1);
    v.oldCreated = w0.take(1), v.windowRanOut = w0.take(1), v.within = w0.take(1);
    v.lrn.digits = w1.take(34), v.newProvider = w1.take(6), v.oldProvider = w1.take(6), v.authorization = Authorization(w1.take(2));
    v.cause = w1.take(7), v.canceller = Side(w1.take(2)), v.purpose = Purpose(w1.take(2));
    v.newDue = w2.take(32), v.oldDue = w2.take(32), v.stamp = w3.take(32), v.start = w3.take(32);
    v.confirmed = systemsIn(WordReader(in + 32).take(64));
    v.waiting = systemsIn(WordReader(in + 40).take(64));
    v.failed = systemsIn(WordReader(in + 48).take(64));
    v.spare = w0.take(5) != 0 || w1.take(5) != 0;
    readRetries(v, 1, in + 56);
    readRetries(v, 22, in + 64);
    readRetries(v, 43, in + 72);
    if (row > OLDER_ROW) readDate(v, in + 80);
    return v;
}

inline std::optional<Version> unpackRow(const uint8_t *in, size_t row = ROW) {
    Row v = readRow(in, row);
    if (v.spare || v.highest) return std::nullopt;
    return v;
}

inline bool allZero(const uint8_t *in, size_t length) {
    for (size_t i = 0; i < length; i++)
        if (in[i] != 0) return false;
    return true;
}

// ---- Table ----

inline void packTable(const Table &t, Bytes &out, size_t row = ROW) {
    out.assign((t.used.size() + t.freeRows) * row, 0);
    for (size_t i = 0; i < t.used.size(); i++) packRow(t.used[i], out.data() + i * row, row);
}

inline std::optional<Table> unpackTable(const uint8_t *in, size_t length, size_t row = ROW) {
    if (length % row != 0 || length / row > MOST_ROWS) return std::nullopt;
    Table t;
    for (size_t at = 0; at < length; at += row) {
        if (allZero(in + at, row)) {
            t.freeRows++;
            continue;
        }
        std::optional<Version> v = unpackRow(in + at, row);
        if (!v || t.freeRows > 0) return std::nullopt;
        t.used.push_back(*v);
    }
    return t;
}

// [A5] The whole rows of a target; nothing where it is another length.
inline std::optional<size_t> rowsIn(size_t length) {
    return length % ROW == 0 ? std::optional<size_t>(length / ROW) : std::nullopt;
}

// ---- Provider list and books ----

inline Bytes packProviders(const Books &b) {
    Bytes out;
    for (const ProviderRecord &r : b.providers) out.push_back(uint8_t(r.present + 2 * r.runsLocalSms));
    return out;
}

inline void putFour(Bytes &out, size_t at, uint64_t value) {
    for (size_t i = 0; i < 4; i++) out[at + i] = uint8_t(value >> (24 - 8 * i));
}

inline uint64_t takeFour(const uint8_t *in, size_t at) {
    return uint64_t(in[at]) << 24 | uint64_t(in[at + 1]) << 16 | uint64_t(in[at + 2]) << 8 | uint64_t(in[at + 3]);
}

inline Bytes packBooks(const Books &b) {
    Bytes out(BOOKS, 0);
    for (size_t i = 0; i < b.codes.size(); i++) putFour(out, CODES_AT + 4 * i, b.codes[i].code * 64 + b.codes[i].owner);
    for (size_t i = 0; i < b.filters.size(); i++) putFour(out, FILTERS_AT + 4 * i, b.filters[i].provider * 1048576 + b.filters[i].code);
    for (size_t i = 0; i < b.splits.size(); i++) {
        putFour(out, SPLITS_AT + 8 * i, b.splits[i].one);
        putFour(out, SPLITS_AT + 8 * i + 4, b.splits[i].two);
    }
    return out;
}

// How many places of a list are used; nothing where a used place stands behind a free one.
inline std::optional<size_t> usedPlaces(const uint8_t *list, size_t places, size_t width) {
    size_t used = 0;
    while (used < places && !allZero(list + used * width, width)) used++;
    if (!allZero(list + used * width, (places - used) * width)) return std::nullopt;
    return used;
}

inline std::optional<Books> unpackBooks(const uint8_t *providers, size_t providersLength, const uint8_t *in, size_t length) {
    Books b;
    for (size_t i = 0; i < providersLength; i++) {
        if (providers[i] > 3) return std::nullopt;
        b.providers.push_back({providers[i] % 2 == 1, providers[i] / 2 == 1});
    }
    if (length != BOOKS || !allZero(in, CODES_AT)) return std::nullopt;
    std::optional<size_t> codes = usedPlaces(in + CODES_AT, CODES, 4), filters = usedPlaces(in + FILTERS_AT, FILTERS, 4);
    std::optional<size_t> splits = usedPlaces(in + SPLITS_AT, SPLITS, 8);
    if (!codes || !filters || !splits) return std::nullopt;
    for (size_t i = 0; i < *codes; i++) {
        uint64_t entry = takeFour(in, CODES_AT + 4 * i);
        b.codes.push_back({entry / 64, entry % 64});
    }
    for (size_t i = 0; i < *filters; i++) {
        uint64_t entry = takeFour(in, FILTERS_AT + 4 * i);
        b.filters.push_back({entry / 1048576, entry % 1048576});
    }
    for (size_t i = 0; i < *splits; i++) b.splits.push_back({takeFour(in, SPLITS_AT + 8 * i), takeFour(in, SPLITS_AT + 8 * i + 4)});
    return b;
}

// ---- Message ----

static_assert(MESSAGE == 3 * 8, "three words, as they are packed here");

inline void packMessage(const Message &m, uint8_t *out) {
    WordWriter().put(m.tn.digits, 34).put(m.number, 16).put(uint64_t(m.status), 4).put(m.provider, 6).put(m.sort, 4).into(out);
    WordWriter().put(m.lrn.digits, 34).put(m.localSms, 1).put(0, 29).into(out + 8);
    WordWriter().put(wordOf(m.failed), 64).into(out + 16);
}

// A message of the tray, for printing and for keeping systems apart; the bytes themselves are compared elsewhere.
inline Message unpackMessage(const uint8_t *in) {
    Message m;
    WordReader w0(in), w1(in + 8);
    m.tn.digits = w0.take(34), m.number = w0.take(16), m.status = Status(w0.take(4)), m.provider = w0.take(6), m.sort = Sort(w0.take(4));
    m.lrn.digits = w1.take(34), m.localSms = w1.take(1);
    m.failed = systemsIn(WordReader(in + 16).take(64));
    return m;
}

// [Y8] The first n places hold the messages, the rest stays.
inline void packTray(const Messages &messages, uint8_t *tray) {
    for (size_t i = 0; i < messages.size(); i++) packMessage(messages[i], tray + i * MESSAGE);
}

// ---- Event record ----

// [E1] The widths, in order, the last that of the type [A14]; the spare bits end the record. The eleven fields as numbers, in this order.
constexpr std::array<int, FIELDS> WIDTHS = {8, 6, 6, 2, 8, 34, 34, 16, 32, 32, 1};
constexpr int SPARE = 13;
using Fields = std::array<uint64_t, FIELDS>;

constexpr size_t bitsOfRecord() {
    size_t bits = SPARE;
    for (size_t i = 0; i < FIELDS; i++) bits += size_t(WIDTHS[i]);
    return bits;
}
static_assert(RECORD * 8 == bitsOfRecord() && WIDTHS[FIELDS - 1] != 0, "a record of these widths");

inline Fields fieldsOf(const Event &e) {
    return {e.kind, e.sender, e.other, e.mark, e.cause, e.tn.digits, e.lrn.digits, e.version, e.time, e.due, e.within};
}

inline Event eventOf(const Fields &f) {
    Event e;
    e.kind = f[0], e.sender = f[1], e.other = f[2], e.mark = f[3], e.cause = f[4], e.tn.digits = f[5], e.lrn.digits = f[6];
    e.version = f[7], e.time = f[8], e.due = f[9], e.within = f[10];
    return e;
}

// Packs the low bits of any fields, well formed or not: the tests need records that are refused as well.
inline Bytes packFields(const Fields &f, uint64_t spare = 0) {
    Bytes out(RECORD, 0);
    size_t bit = 0;
    auto put = [&](uint64_t value, int width) {
        for (int i = width - 1; i >= 0; i--, bit++) out[bit / 8] = uint8_t(out[bit / 8] | (value >> i & 1) << (7 - bit % 8));
    };
    for (size_t i = 0; i < f.size(); i++) put(f[i], WIDTHS[i]);
    put(spare, SPARE);
    return out;
}

inline Bytes packEvent(const Event &e) { return packFields(fieldsOf(e)); }

// Nothing where the length or the spare bits are wrong; whether the event is well formed is asked of the model.
inline std::optional<Event> unpackEvent(const uint8_t *in, size_t length) {
    if (length != RECORD) return std::nullopt;
    size_t bit = 0;
    auto take = [&](int width) {
        uint64_t value = 0;
        for (int i = 0; i < width; i++, bit++) value = value << 1 | (in[bit / 8] >> (7 - bit % 8) & 1);
        return value;
    };
    Fields f;
    for (size_t i = 0; i < f.size(); i++) f[i] = take(WIDTHS[i]);
    if (take(SPARE) != 0) return std::nullopt;
    return eventOf(f);
}

inline bool formed(const uint8_t *in, size_t length) {
    std::optional<Event> e = unpackEvent(in, length);
    return e && wellFormed(*e);
}

// [E5] [E6] Reading and writing as the calls for C have them: 0 with the result, or 2 and nothing.
inline std::optional<Fields> readRecord(const uint8_t *in, size_t length) {
    if (!formed(in, length)) return std::nullopt;
    return fieldsOf(*unpackEvent(in, length));
}

inline std::optional<Bytes> writeRecord(const Fields &f, size_t length) {
    if (length != RECORD || !wellFormed(eventOf(f))) return std::nullopt;
    return packFields(f);
}

}  // namespace MODEL
