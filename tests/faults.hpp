// docs/FAULTS.md once more, as a plain program over the bytes: where a table, a provider list or books are unsound.
//
// Places are read from the first to the last, each judged by its clauses in the order of their numbers; the first that fails is told. A row
// is what its words hold, also where they are the form of no version. Lines come last: they need sound rows and sound books.
#pragma once

#include "layouts.hpp"

namespace MODEL {

// The clause's number, the place at fault and a second one, from 1; 0 where there is none.
struct Fault { uint64_t clause = 0, place = 0, second = 0; };
inline bool operator==(const Fault &a, const Fault &b) { return a.clause == b.clause && a.place == b.place && a.second == b.second; }

// ---- Table ----

// Numbers 4 to 27: a row by itself.
struct RowClause {
    uint64_t number;
    bool (*fails)(const Row &r);
};

inline const RowClause ROW_CLAUSES[] = {
    {4, [](const Row &r) { return r.spare; }},
    {5, [](const Row &r) { return !tenDigits(r.tn.digits); }},
    {6, [](const Row &r) { return r.number == 0; }},
    {7, [](const Row &r) { return r.status > LAST_STATUS; }},
    {8, [](const Row &r) { return r.stamp == 0; }},
    {9, [](const Row &r) { return r.newProvider == 0; }},
    {10, [](const Row &r) { return r.oldProvider == 0; }},
    {11, [](const Row &r) { return r.canceller > OLD_SIDE; }},
    {12, [](const Row &r) { return r.confirmed.count(0) || r.waiting.count(0) || r.failed.count(0); }},
    {13, [](const Row &r) { return r.highest; }},
    {14, [](const Row &r) { return (r.newProvider == r.oldProvider) != r.within; }},
    {15, [](const Row &r) { return !newSideWhole(r) || (r.newCreated && !tenDigits(r.lrn.digits)); }},
    {16, [](const Row &r) { return !oldSideWhole(r) || (r.oldCreated && r.authorization > NO); }},
    {17, [](const Row &r) { return !oneCreated(r); }},
    {18, [](const Row &r) { return !neededCreated(r); }},
    {19, [](const Row &r) { return !causeFits(r) || r.cause > 99; }},
    {20, [](const Row &r) { return !cancellerFits(r); }},
    {21, [](const Row &r) { return !setsApart(r); }},
    {22, [](const Row &r) { return !retriesAwaited(r); }},
    {23, [](const Row &r) { return !startFits(r); }},
    {24, [](const Row &r) { return !waitingFits(r); }},
    {25, [](const Row &r) { return !purposeFits(r); }},
    {26, [](const Row &r) { return !liveFits(r); }},
    {27, [](const Row &r) { return !confirmedFits(r); }},
};

// The place of the nearest one before that is like this, 0 where there is none.
template <class T, class Test> size_t nearest(const std::vector<T> &before, Test like) {
    size_t place = before.size();
    while (place > 0 && !like(before[place - 1])) place--;
    return place;
}

// Numbers 28 to 31: a row by those before it.
inline Fault faultBeside(const std::vector<Row> &before, const Row &r) {
    size_t place = before.size() + 1, other = 0;
    if (!before.empty() && !rising(before.back(), r)) return {28, place, place - 1};
    if (r.live) other = nearest(before, [&](const Row &o) { return o.tn == r.tn && o.live; });
    if (other > 0) return {29, place, other};
    if (r.status == SENDING) other = nearest(before, [&](const Row &o) { return o.tn == r.tn && o.status == SENDING; });
    if (other > 0) return {30, place, other};
    if (worked(r)) other = nearest(before, [&](const Row &o) { return o.tn == r.tn && worked(o); });
    if (other > 0) return {31, place, other};
    return {};
}

// A row by itself, then by those before it, then [A14] [A5] by itself again: numbers 37 to 39 are the largest of a row.
inline Fault rowFault(const std::vector<Row> &before, const Row &r) {
    for (const RowClause &c : ROW_CLAUSES)
        if (c.fails(r)) return {c.number, before.size() + 1, 0};
    Fault f = faultBeside(before, r);
    if (f.clause == 0 && !withinFits(r)) f = {37, before.size() + 1, 0};
    if (f.clause == 0 && !releaseFits(r)) f = {38, before.size() + 1, 0};
    if (f.clause == 0 && !nobodyFailed(r)) f = {39, before.size() + 1, 0};
    return f;
}

// Rows before the first free one are used; a used one behind it is at fault whatever it holds.
inline Fault rowsFault(const uint8_t *table, size_t rows) {
    std::vector<Row> before;
    for (size_t place = 1; place <= rows; place++) {
        const uint8_t *row = table + (place - 1) * ROW;
        if (allZero(row, ROW)) continue;
        if (place > 1 && allZero(row - ROW, ROW)) return {3, place, place - 1};
        Row r = readRow(row);
        Fault f = rowFault(before, r);
        if (f.clause != 0) return f;
        before.push_back(r);
    }
    return {};
}

// ---- Provider list and books ----

inline Fault providersFault(const uint8_t *providers, size_t length) {
    if (length > 63) return {1, 0, 0};
    for (size_t i = 0; i < length; i++)
        if (providers[i] != 0 && providers[i] != 1 && providers[i] != 3) return {2, i + 1, 0};
    return {};
}

// A free place of a list is zero.
inline bool usedPlace(const uint8_t *list, size_t place, size_t width) { return !allZero(list + (place - 1) * width, width); }

inline Fault codesFault(const Books &b, const uint8_t *list) {
    for (size_t place = 1; place <= CODES; place++) {
        if (!usedPlace(list, place, 4)) continue;
        if (place > 1 && !usedPlace(list, place - 1, 4)) return {5, place, place - 1};
        uint64_t entry = takeFour(list, 4 * (place - 1)), before = place > 1 ? takeFour(list, 4 * (place - 2)) : 0;
        if (!isCode(entry / 64)) return {6, place, 0};
        if (!present(b, entry % 64)) return {7, place, 0};
        if (place > 1 && entry / 64 <= before / 64) return {8, place, place - 1};
    }
    return {};
}

inline Fault filtersFault(const Books &b, const uint8_t *list) {
    auto filterOf = [](uint64_t entry) { return FilterEntry{entry / 1048576, entry % 1048576}; };
    for (size_t place = 1; place <= FILTERS; place++) {
        if (!usedPlace(list, place, 4)) continue;
        if (place > 1 && !usedPlace(list, place - 1, 4)) return {9, place, place - 1};
        FilterEntry f = filterOf(takeFour(list, 4 * (place - 1)));
        if (!present(b, f.provider)) return {10, place, 0};
        if (!isCode(f.code)) return {11, place, 0};
        if (place > 1 && !rising(filterOf(takeFour(list, 4 * (place - 2))), f)) return {12, place, place - 1};
    }
    return {};
}

inline Fault pairsFault(const uint8_t *list) {
    std::vector<SplitEntry> before;
    for (size_t place = 1; place <= SPLITS; place++) {
        if (!usedPlace(list, place, 8)) continue;
        if (place > 1 && !usedPlace(list, place - 1, 8)) return {13, place, place - 1};
        SplitEntry s = {takeFour(list, 8 * (place - 1)), takeFour(list, 8 * (place - 1) + 4)};
        if (!isCode(s.one) || !isCode(s.two)) return {14, place, 0};
        if (s.one == s.two) return {15, place, 0};
        auto shares = [&](const SplitEntry &o) { return o.one == s.one || o.one == s.two || o.two == s.one || o.two == s.two; };
        if (size_t other = nearest(before, shares)) return {16, place, other};
        before.push_back(s);
    }
    return {};
}

inline Fault booksFault(const uint8_t *providers, size_t providersLength, const uint8_t *books, size_t length) {
    Fault f = providersFault(providers, providersLength);
    if (f.clause != 0) return f;
    if (length != BOOKS) return {3, 0, 0};
    if (!allZero(books, CODES_AT)) return {4, 0, 0};
    Books b;
    for (size_t i = 0; i < providersLength; i++) b.providers.push_back({providers[i] != 0, providers[i] == 3});
    f = codesFault(b, books + CODES_AT);
    if (f.clause == 0) f = filtersFault(b, books + FILTERS_AT);
    if (f.clause == 0) f = pairsFault(books + SPLITS_AT);
    return f;
}

// ---- Lines ----

// [A3.5] Numbers 33 to 36: a row by those before it that are of its line.
inline Fault lineFault(const Books &b, const std::vector<Version> &before, const Version &v) {
    size_t place = before.size() + 1, other = 0;
    auto ofLine = [&](const Version &o) { return lineOf(b, o.tn) == lineOf(b, v.tn); };
    if (v.live) other = nearest(before, [&](const Version &o) { return ofLine(o) && o.live; });
    if (other > 0) return {33, place, other};
    if (v.status == SENDING) other = nearest(before, [&](const Version &o) { return ofLine(o) && o.status == SENDING; });
    if (other > 0) return {34, place, other};
    if (worked(v)) other = nearest(before, [&](const Version &o) { return ofLine(o) && worked(o); });
    if (other > 0) return {35, place, other};
    other = nearest(before, [&](const Version &o) { return ofLine(o) && o.number == v.number; });
    if (other > 0) return {36, place, other};
    return {};
}

inline Fault linesFault(const Books &b, const std::vector<Version> &used) {
    std::vector<Version> before;
    for (const Version &v : used) {
        Fault f = partnerOf(b, codeOf(v.tn)) ? lineFault(b, before, v) : Fault{};  // without a partner there is nothing behind number 31
        if (f.clause != 0) return f;
        before.push_back(v);
    }
    return {};
}

// ---- The two answers ----

inline Fault tableFault(const uint8_t *table, size_t tableLength, const uint8_t *providers, size_t providersLength, const uint8_t *books,
                        size_t booksLength) {
    if (tableLength % ROW != 0) return {1, 0, 0};
    if (tableLength / ROW > 4096) return {2, 0, 0};
    Fault f = rowsFault(table, tableLength / ROW);
    if (f.clause != 0) return f;
    f = booksFault(providers, providersLength, books, booksLength);
    if (f.clause != 0) return {32, 0, 0};
    Books b = unpackBooks(providers, providersLength, books, booksLength).value_or(Books());
    return linesFault(b, unpackTable(table, tableLength).value_or(Table()).used);
}

}  // namespace MODEL
