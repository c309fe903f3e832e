// Tables, provider lists and books in which chosen clauses of docs/FAULTS.md are broken: one of them, two neighbouring numbers at one place,
// the same at two places, several anywhere. What is then told follows from the order of places and numbers.
#pragma once

#include "generate.hpp"

namespace MODEL {

// A number to break, and the place, counted from 0, of the row or entry.
struct Break {
    size_t at;
    uint64_t number;
};

// A place of so many, often the last.
inline size_t anyPlace(Dice &d, size_t places) { return d.chance(15) ? places - 1 : d.below(places); }

inline std::vector<Break> anyBreaks(Dice &d, size_t places, uint64_t first, uint64_t last) {
    Break b{anyPlace(d, places), d.between(first, last)};
    std::vector<Break> out{b};
    for (uint64_t more = d.pick(std::vector<uint64_t>{0, 0, 1, 1, 2, 3}); more > 0; more--) {
        uint64_t way = d.below(4);
        if (way < 2) b.number = b.number == first || (b.number < last && d.chance(50)) ? b.number + 1 : b.number - 1;
        else if (way == 2) b.at = anyPlace(d, places);
        else b = {anyPlace(d, places), d.between(first, last)};
        out.push_back(b);
    }
    return out;
}

// ---- A row by itself ----

// Numbers 15 and 16: one thing of a side there or gone, or there and none.
inline void breakNewSide(Dice &d, Version &v) {
    switch (d.below(4)) {
    case 0: v.newCreated = !v.newCreated; break;
    case 1: v.newDue = v.newDue != 0 ? 0 : d.between(1, LAST_TIME); break;
    case 2: v.lrn.digits = v.lrn.digits != 0 ? 0 : anyTenDigits(d); break;
    default: v.lrn.digits = d.chance(70) ? badDigits(d, anyTenDigits(d)) : d.between(10000000000, 17179869183);
    }
}

inline void breakOldSide(Dice &d, Version &v) {
    switch (d.below(4)) {
    case 0: v.oldCreated = !v.oldCreated; break;
    case 1: v.oldDue = v.oldDue != 0 ? 0 : d.between(1, LAST_TIME); break;
    case 2: v.authorization = v.authorization != NONE ? NONE : d.chance(50) ? YES : NO; break;
    default: v.authorization = Authorization(MARKS);
    }
}

// Number 18: one side alone, in a status that needs the other.
inline void breakNeeded(Dice &d, Version &v) {
    if (d.chance(50)) {
        v.newCreated = true, v.lrn.digits = anyTenDigits(d), v.newDue = v.stamp;
        takeOldSide(v);
        if (v.status != CONFLICT && v.status != CANCEL_PENDING) v.status = d.chance(50) ? CONFLICT : CANCEL_PENDING;
    } else {
        v.oldCreated = true, v.authorization = YES, v.cause = 0, v.oldDue = v.stamp;
        takeNewSide(v);
        bool needs = (v.status >= CANCEL_PENDING && v.status <= OLD) || v.status == DISCONNECT_PENDING;
        if (!needs) v.status = Status(d.between(CANCEL_PENDING, OLD));
    }
}

// Number 14: a provider twice without the type, two with it, the type there or gone.
inline void breakSame(Dice &d, Version &v) {
    if (d.chance(50)) v.within = !v.within;
    else if (v.within) v.oldProvider = v.oldProvider % PROVIDERS + 1;
    else v.newProvider = v.oldProvider = d.chance(50) ? v.newProvider : v.oldProvider;
}

// Number 37: a row of the type, its old side has created or the window mark is set.
inline void breakWithin(Dice &d, Version &v) {
    v.within = true, v.oldProvider = v.newProvider;
    bool alone = v.newCreated && v.status != CONFLICT && v.status != CANCEL_PENDING;
    v.windowRanOut = alone ? d.chance(60) : d.chance(20);
    if (alone && v.windowRanOut) takeOldSide(v);
    else if (!v.oldCreated) v.oldCreated = true, v.authorization = YES, v.oldDue = v.stamp;
}

// A row in status 9, sound by itself but for what was broken before.
inline void makePending(Dice &d, Version &v) {
    v.status = DISCONNECT_PENDING, v.canceller = NOBODY, v.live = true, v.purpose = Purpose(d.between(ACTIVATE, DISCONNECT));
    v.start = 0, v.waiting.clear(), v.failed.clear(), v.retries.clear(), v.release = anyRelease(d, v.stamp);
    if (!v.newCreated) v.newCreated = true, v.lrn.digits = anyTenDigits(d), v.newDue = v.stamp;
}

// Number 38: a date outside status 9, or none in it.
inline void breakDate(Dice &d, Version &v) {
    if (v.status != DISCONNECT_PENDING && d.chance(40)) makePending(d, v);
    v.release = v.release != 0 ? 0 : anyRelease(d, v.stamp);
}

// Number 39: a failed system in status 9; beside a confirmed one, since of the purpose activate number 27 would be told.
inline void breakFailed(Dice &d, Version &v) {
    Provider p = d.between(1, PROVIDERS);
    if (v.status != DISCONNECT_PENDING) makePending(d, v);
    v.confirmed.erase(p), v.failed.insert(p);
    if (v.purpose == ACTIVATE && v.confirmed.empty()) v.confirmed.insert(p % PROVIDERS + 1);
}

// Now and then number 37 in a row that breaks one from 28 on: of these 37 is told last, [A5] but for 38 and 39.
inline void breakBesides(Dice &d, Version &v) {
    if (d.chance(10)) breakWithin(d, v);
    if (RELEASE_DATES && d.chance(10)) breakDate(d, v);
    if (RELEASE_DATES && d.chance(10)) breakFailed(d, v);
}

// Number 27, and nothing else that had not been broken before.
inline void breakConfirmed(Dice &d, Version &v, Provider p) {
    if (v.status != SENDING || d.chance(50)) {
        v.status = d.chance(50) ? ACTIVE : PARTIAL_FAILURE;
        v.start = 0, v.waiting.clear(), v.retries.clear(), v.canceller = NOBODY, v.release = 0;
    }
    if (!v.newCreated) v.newCreated = true, v.lrn.digits = anyTenDigits(d), v.newDue = v.stamp;
    v.purpose = ACTIVATE, v.live = true;
    v.confirmed.clear();
    if (v.waiting.empty()) v.failed.insert(p);
}

// A system into two of the sets.
inline void breakApart(Dice &d, Version &v, Provider p) {
    uint64_t without = d.below(3);
    if (without != 0) v.confirmed.insert(p);
    if (without != 1) v.waiting.insert(p);
    if (without != 2) v.failed.insert(p);
}

inline void breakMarks(Dice &d, Version &v, uint64_t number) {
    Provider p = d.between(1, PROVIDERS);
    while (number == 22 && v.waiting.count(p) && v.waiting.size() < PROVIDERS) p = p % PROVIDERS + 1;
    switch (number) {
    case 19: v.cause = v.authorization == NO && d.chance(50) ? 0 : d.between(v.authorization == NO ? LAST_CAUSE + 1 : 1, 127); break;
    case 20: v.canceller = v.status == CANCEL_PENDING ? NOBODY : d.chance(50) ? NEW_SIDE : OLD_SIDE; break;
    case 21: breakApart(d, v, p); break;
    case 22: v.retries[p] = d.between(1, MOST_RETRIES); break;
    case 23: v.start = v.start != 0 ? 0 : d.between(1, LAST_TIME); break;
    case 24:
        if (v.waiting.empty() && !v.confirmed.count(p) && !v.failed.count(p)) v.waiting.insert(p);
        else v.waiting.clear(), v.retries.clear();
        break;
    case 25:
        if (v.purpose == NO_PURPOSE) v.purpose = Purpose(d.between(ACTIVATE, DISCONNECT));
        else if ((v.status == FAILED || v.status == PARTIAL_FAILURE) && d.chance(50)) v.purpose = Purpose(d.between(MODIFY, DISCONNECT));
        else v.purpose = NO_PURPOSE;
        break;
    case 26: v.live = !v.live; break;
    default: breakConfirmed(d, v, p);
    }
}

// Numbers 5 to 27 and 37 to 39, but for 13, whose bits no version has.
inline void breakVersion(Dice &d, Version &v, uint64_t number) {
    bool speaksOfPending = number == 18 || number == 25 || number == 26;
    if (RELEASE_DATES && speaksOfPending && d.chance(30)) makePending(d, v);
    switch (number) {
    case 5: v.tn.digits = d.chance(80) ? badDigits(d, v.tn.digits) : d.chance(50) ? 0 : d.between(10000000000, 17179869183); break;
    case 6: v.number = 0; break;
    case 7: v.status = Status(d.between(STATUSES, STATUS_VALUES - 1)); break;
    case 8: v.stamp = 0; break;
    case 9: v.newProvider = 0; break;
    case 10: v.oldProvider = 0; break;
    case 11: v.canceller = Side(CANCELLERS); break;
    case 12: (d.chance(33) ? v.confirmed : d.chance(50) ? v.waiting : v.failed).insert(0); break;
    case 14: breakSame(d, v); break;
    case 15: breakNewSide(d, v); break;
    case 16: breakOldSide(d, v); break;
    case 17: takeNewSide(v), takeOldSide(v); break;
    case 18: breakNeeded(d, v); break;
    case 37: breakWithin(d, v); break;
    case 38: breakDate(d, v); break;
    case 39: breakFailed(d, v); break;
    default: breakMarks(d, v, number);
    }
}

// ---- Rows beside each other ----

// More numbers, so that places are high, some of them lines in split pairs; 4,096 rows at most.
inline void addNumbers(Dice &d, Table &t, const Books &b, size_t rows) {
    Situation s;
    s.books = b;
    std::set<Tn> known;  // lines, each by its smaller name
    for (const Version &v : t.used) known.insert(smallerName(b, v.tn));
    while (t.used.size() < rows) {
        Tn tn{(b.splits.empty() || d.chance(70) ? anyCode(d) : d.pick(b.splits).one) * 10000 + d.below(10000)};
        if (known.insert(smallerName(b, tn)).second) makeVersionsOf(d, s, namesOf(b, tn), t.used, mostVersions(d));
    }
    if (t.used.size() > MOST_ROWS) t.used.resize(MOST_ROWS);
    sortRows(t.used);
    t.freeRows = std::min(t.freeRows, MOST_ROWS - t.used.size());
}

// Number 28: the row and the one before it exchanged, or the key of the one before it or less, or that one twice.
inline void breakOrder(Dice &d, Table &t, size_t at) {
    at = std::max<size_t>(at, 1);
    Version &before = t.used[at - 1], &v = t.used[at];
    uint64_t way = d.below(4);
    if (way == 0) std::swap(before, v);
    if (way == 1) v.tn = before.tn, v.number = before.number;
    if (way == 2) v.tn = before.tn, v.number = d.between(1, before.number);
    if (way == 3) t.used.insert(t.used.begin() + long(at), Version(before));
    breakBesides(d, t.used[at]);
}

// Numbers 29 to 31: a live, sending or worked version once more behind the last of its TN, other versions of that TN between them.
inline void breakCounts(Dice &d, Table &t, uint64_t number) {
    std::vector<size_t> like;
    for (size_t i = 0; i < t.used.size(); i++)
        if (number == 29 ? t.used[i].live : number == 30 ? t.used[i].status == SENDING : worked(t.used[i])) like.push_back(i);
    if (like.empty()) return;
    size_t at = d.pick(like);
    Version again = t.used[at], other = again;
    while (at + 1 < t.used.size() && t.used[at + 1].tn == again.tn) at++;
    uint64_t between = d.chance(3) ? d.between(200, 300) : d.chance(40) ? d.between(1, 4) : 0, last = t.used[at].number;
    if (last + between >= LAST_VERSION || t.used.size() + between >= MOST_ROWS) return;
    other.status = CANCELED, other.live = false, other.canceller = NOBODY, other.start = 0, other.purpose = NO_PURPOSE;
    other.waiting.clear(), other.retries.clear(), other.release = 0;
    std::vector<Version> more(between + 1, other);
    more.back() = again;
    if (d.chance(25)) damageJointly(d, more.back());
    breakBesides(d, more.back());
    for (Version &v : more) v.number = ++last;
    t.used.insert(t.used.begin() + long(at) + 1, more.begin(), more.end());
    t.freeRows -= std::min<size_t>(t.freeRows, more.size());
}

// ---- Rows of one line ----

// Of the rows in split pairs those that a number from 33 on is about: live, sending, worked, any.
inline std::vector<size_t> inPairs(const Table &t, const Books &b, uint64_t number) {
    std::vector<size_t> out;
    for (size_t i = 0; i < t.used.size(); i++) {
        const Version &v = t.used[i];
        bool like = number == 33 ? v.live : number == 34 ? v.status == SENDING : number == 35 ? worked(v) : true;
        if (like && otherName(b, v.tn)) out.push_back(i);
    }
    return out;
}

// Numbers 33 to 36: a row once more under the other name of its line. For the first three it has mostly a number that the line has not, for
// the last the same number and nothing that a line may have only once.
inline void breakLine(Dice &d, Table &t, const Books &b, uint64_t number) {
    std::vector<size_t> like = inPairs(t, b, number);
    if (like.empty() || t.used.size() >= MOST_ROWS) return;
    Version again = t.used[d.pick(like)];
    again.tn = *otherName(b, again.tn);
    uint64_t last = 0;
    for (const Version &v : t.used)
        if (smallerName(b, v.tn) == smallerName(b, again.tn)) last = std::max(last, v.number);
    if (number < 36 && last < LAST_VERSION && d.chance(80)) again.number = last + 1;
    if (number == 34 && again.purpose == ACTIVATE) again.live = false;
    if (number == 36) {
        again.status = CANCELED, again.live = false, again.canceller = NOBODY, again.start = 0, again.purpose = NO_PURPOSE;
        again.waiting.clear(), again.retries.clear(), again.release = 0;
    }
    for (const Version &v : t.used)
        if (v.tn == again.tn && v.number == again.number) return;
    t.used.push_back(again);
    sortRows(t.used);
    t.freeRows -= std::min<size_t>(t.freeRows, 1);
}

// ---- Table ----

inline void flip(Bytes &out, size_t bit) { out[bit / 8] = uint8_t(out[bit / 8] ^ 128u >> bit % 8); }

// Number 3: the row before is free, or the row stands once more among the free rows.
inline void breakRows(Dice &d, Bytes &out, size_t at, size_t used) {
    size_t rows = out.size() / ROW, to = used + 1 + d.below(rows - std::min(rows, used + 1));
    if (to < rows && d.chance(40)) std::copy_n(out.begin() + long(at * ROW), ROW, out.begin() + long(to * ROW));
    else std::fill_n(out.begin() + long((std::max<size_t>(at, 1) - 1) * ROW), ROW, uint8_t(0));
}

// Numbers 1 and 2: part of a row too much or too little, too many rows, both.
inline void breakLength(Dice &d, Bytes &out) {
    size_t part = d.between(1, ROW - 1), too = (MOST_ROWS + 1 + d.below(3)) * ROW;
    switch (d.below(5)) {
    case 0: out.resize(out.size() + part); break;
    case 1: out.resize(out.size() - std::min(out.size(), part)); break;
    case 2: out.resize(MOST_ROWS * ROW + part); break;
    case 3: out.resize(too + part); break;
    default: out.resize(too);
    }
}

// One to three lines broken; mostly nothing else.
inline bool breakLines(Dice &d, Table &t, const Books &b) {
    static const std::vector<uint64_t> numbers = {33, 34, 34, 35, 36};
    for (uint64_t n = d.pick(std::vector<uint64_t>{1, 1, 1, 2, 3}); n > 0; n--) breakLine(d, t, b, d.pick(numbers));
    return d.chance(85);
}

inline Bytes brokenTable(Dice &d, Table t, const Books &b) {
    size_t more = d.chance(2) ? MOST_ROWS : d.chance(8) ? d.between(250, 300) : t.used.size() + d.between(2, 9);
    if (t.used.size() < 2 || d.chance(25)) addNumbers(d, t, b, more);
    bool linesAlone = !b.splits.empty() && d.chance(18) && breakLines(d, t, b);
    std::vector<Break> breaks = anyBreaks(d, t.used.size(), 3, TABLE_CLAUSES - 5), bits;  // 32 stands for 37, which of a row is next to 31
    if (linesAlone) breaks.clear();
    for (const Break &k : breaks) {
        if (k.number <= 4 || k.number == 13) bits.push_back(k);
        else if (k.number < 28) breakVersion(d, t.used[k.at], k.number);
        else if (k.number >= 32) breakVersion(d, t.used[k.at], k.number + 5);
        else if (k.number == 28) breakOrder(d, t, k.at);
        else breakCounts(d, t, k.number);
    }
    Bytes out;
    packTable(t, out);
    for (const Break &k : bits) {
        if (k.number == 3) breakRows(d, out, k.at, t.used.size());
        else flip(out, k.at * ROW * 8 + (k.number == 13 ? unusedRetriesBit(d) : spareBit(d)));
    }
    if (out.size() > MOST_ROWS * ROW) out.resize(MOST_ROWS * ROW);
    if (!linesAlone && d.chance(5)) breakLength(d, out);
    return out;
}

// ---- Provider list and books ----

// Numbers 1 and 2: too many bytes, bytes that are no marks.
inline Bytes brokenProviders(Dice &d, const Books &b) {
    Bytes out = packProviders(b);
    if (d.chance(30)) out.resize(d.chance(60) ? PROVIDERS + 1 : d.between(PROVIDERS + 1, 300));
    if (out.empty()) out.resize(d.between(1, PROVIDERS));
    for (uint64_t n = d.below(4); n > 0; n--) out[d.below(out.size())] = uint8_t(d.chance(40) ? 2 : d.between(4, 255));
    return out;
}

inline std::vector<Provider> presentIn(const Books &b, bool wanted) {
    std::vector<Provider> out;
    for (Provider p = 1; p <= PROVIDERS; p++)
        if (present(b, p) == wanted) out.push_back(p);
    return out;
}

// More codes, filters and pairs, sound ones; now and then as many as there are places.
inline void addEntries(Dice &d, Books &b) {
    bool brim = d.chance(10);
    std::vector<Provider> owners = presentIn(b, true);
    std::map<Code, Provider> codes;
    std::set<std::pair<Provider, Code>> filters;
    std::set<Code> paired;
    for (const CodeEntry &c : b.codes) codes[c.code] = c.owner;
    for (const FilterEntry &f : b.filters) filters.insert({f.provider, f.code});
    for (const SplitEntry &s : b.splits) paired.insert(s.one), paired.insert(s.two);
    if (!owners.empty()) {
        for (size_t n = brim ? CODES : d.between(2, 9); codes.size() < n;) codes[anyCode(d)] = d.pick(owners);
        for (size_t n = brim ? FILTERS : d.between(2, 9); filters.size() < n;) filters.insert({d.pick(owners), anyCode(d)});
    }
    for (size_t n = brim ? SPLITS : d.between(2, 9); b.splits.size() < n;) {
        Code one = anyCode(d), two = anyCode(d);
        if (one != two && !paired.count(one) && !paired.count(two)) b.splits.push_back({one, two}), paired.insert(one), paired.insert(two);
    }
    b.codes.clear(), b.filters.clear();
    for (const auto &[code, owner] : codes) b.codes.push_back({code, owner});
    for (const auto &[provider, code] : filters) b.filters.push_back({provider, code});
}

// A number of so many bits that is no code.
inline Code badCode(Dice &d, int bits) {
    Code c = anyCode(d);
    switch (d.below(4)) {
    case 0: return c / 1000 * 1000 + d.below(2) * 100 + c % 100;
    case 1: return c % 100000 + d.below(2) * 100000;
    case 2: return d.below(2) * 99999;
    default: return d.between(1000000, (uint64_t(1) << bits) - 1);
    }
}

inline Provider notPresent(Dice &d, const Books &b) {
    std::vector<Provider> absent = presentIn(b, false);
    return absent.empty() || d.chance(30) ? 0 : d.pick(absent);
}

// Numbers 6 to 8.
inline void breakCode(Dice &d, Books &b, size_t at, uint64_t number) {
    CodeEntry &c = b.codes[at];
    if (number == 6) c.code = badCode(d, 26);
    else if (number == 7) c.owner = notPresent(d, b);
    else if (at > 0 && d.chance(30)) std::swap(c.code, b.codes[at - 1].code);
    else if (at > 0) c.code = b.codes[d.chance(70) ? at - 1 : d.below(at)].code;
}

// Numbers 10 to 12.
inline void breakFilter(Dice &d, Books &b, size_t at, uint64_t number) {
    FilterEntry &f = b.filters[at];
    if (number == 10) f.provider = d.chance(30) ? d.between(PROVIDERS + 1, 4095) : notPresent(d, b);
    else if (number == 11) f.code = badCode(d, 20);
    else if (at > 0 && d.chance(30)) std::swap(f, b.filters[at - 1]);
    else if (at > 0) f = b.filters[d.chance(70) ? at - 1 : d.below(at)];
}

// Numbers 14 to 16: of the last, one code or both of one earlier pair or of two.
inline void breakPair(Dice &d, Books &b, size_t at, uint64_t number) {
    SplitEntry &s = b.splits[at];
    auto earlier = [&] {
        const SplitEntry &o = b.splits[d.below(at)];
        return d.chance(50) ? o.one : o.two;
    };
    uint64_t which = d.between(1, 3);
    if (number == 15) s.one = s.two = d.chance(50) ? s.one : s.two;
    if (number == 14 && which != 1) s.one = badCode(d, 32);
    if (number == 14 && which != 2) s.two = badCode(d, 32);
    if (number == 16 && at > 0 && which != 1) s.one = earlier();
    if (number == 16 && at > 0 && which != 2) s.two = earlier();
}

// Numbers 5, 9 and 13: the place before is free, or the entry stands once more among the free places.
inline void breakList(Dice &d, Bytes &out, size_t from, size_t places, size_t width, size_t at, size_t used) {
    size_t to = used + 1 + d.below(places - std::min(places, used + 1));
    if (to < places && d.chance(40)) std::copy_n(out.begin() + long(from + at * width), width, out.begin() + long(from + to * width));
    else if (at > 0) std::fill_n(out.begin() + long(from + (at - 1) * width), width, uint8_t(0));
}

inline Bytes brokenBooks(Dice &d, Books b) {
    if (d.chance(70)) addEntries(d, b);
    std::vector<Break> breaks = anyBreaks(d, CODES, 5, BOOKS_CLAUSES);
    auto sizeFor = [&](uint64_t number) { return number < 9 ? b.codes.size() : number < 13 ? b.filters.size() : b.splits.size(); };
    for (Break &k : breaks) {
        size_t used = sizeFor(k.number);
        if (used == 0) continue;
        k.at = k.at == CODES - 1 ? used - 1 : k.at % used;  // the last of all places stands for the last used one
        if (k.number > 5 && k.number < 9) breakCode(d, b, k.at, k.number);
        if (k.number > 9 && k.number < 13) breakFilter(d, b, k.at, k.number);
        if (k.number > 13) breakPair(d, b, k.at, k.number);
    }
    Bytes out = packBooks(b);
    for (const Break &k : breaks) {
        if (k.number == 5 && !b.codes.empty()) breakList(d, out, CODES_AT, CODES, 4, k.at, b.codes.size());
        if (k.number == 9 && !b.filters.empty()) breakList(d, out, FILTERS_AT, FILTERS, 4, k.at, b.filters.size());
        if (k.number == 13 && !b.splits.empty()) breakList(d, out, SPLITS_AT, SPLITS, 8, k.at, b.splits.size());
    }
    if (d.chance(6)) out[d.below(CODES_AT)] = uint8_t(d.between(1, 255));
    if (d.chance(5)) out.resize(d.chance(60) ? BOOKS - 1 - d.below(8) : d.chance(60) ? BOOKS + 1 + d.below(8) : d.below(20000));
    return out;
}

}  // namespace MODEL
