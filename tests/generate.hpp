// Random books, tables and events for the comparison and the fuzzing. Everything follows from one number, the seed.
#pragma once

#include <cstdio>
#include <cstdlib>

#include "layouts.hpp"

namespace MODEL {

class Dice {
    uint64_t state;
  public:
    explicit Dice(uint64_t seed) : state(seed) {}
    uint64_t next() {
        uint64_t z = state += 0x9e3779b97f4a7c15;
        z = (z ^ z >> 30) * 0xbf58476d1ce4e5b9;
        z = (z ^ z >> 27) * 0x94d049bb133111eb;
        return z ^ z >> 31;
    }
    uint64_t below(uint64_t n) { return n == 0 ? 0 : next() % n; }
    uint64_t between(uint64_t a, uint64_t b) { return a + below(b - a + 1); }
    bool chance(uint64_t percent) { return below(100) < percent; }
    template <class T> const T &pick(const std::vector<T> &from) { return from[below(from.size())]; }
};

struct Situation {
    Books books;
    Table table;
    uint64_t R = 0;
    std::vector<Tn> tns;               // those the events are about; of a line in a split pair mostly both names
    std::vector<Provider> present;     // in the books
    std::vector<Provider> systems;     // those of them with a Local SMS
    Time base = 1;                     // times begin about here
};

inline Code anyCode(Dice &d) { return d.between(2, 9) * 100000 + d.below(100) * 1000 + d.between(2, 9) * 100 + d.below(100); }
inline uint64_t anyTenDigits(Dice &d) { return anyCode(d) * 10000 + d.below(10000); }

inline Provider anyPresent(Dice &d, const Situation &s) { return s.present.empty() ? d.between(1, PROVIDERS) : d.pick(s.present); }

// The other name of a line in a split pair, by the split list alone, and the smaller of the two.
inline std::optional<Tn> otherName(const Books &b, Tn tn) {
    std::optional<Code> partner = partnerOf(b, codeOf(tn));
    return partner ? std::optional<Tn>(Tn{*partner * 10000 + tn.digits % 10000}) : std::nullopt;
}

inline Tn smallerName(const Books &b, Tn tn) { return std::min(tn, otherName(b, tn).value_or(tn)); }

// How often, in a hundred, an event for a version in a split pair has the other name.
constexpr uint64_t OTHER_NAME = 35;
inline Tn anyName(Dice &d, const Books &b, Tn tn) { return d.chance(OTHER_NAME) ? otherName(b, tn).value_or(tn) : tn; }

inline Time after(Time t, uint64_t more) { return std::max<Time>(1, std::min<Time>(LAST_TIME, t + more)); }

// [A5] A release date of a version with this stamp: mostly a few seconds behind it, now and then before it, far away, the last there is.
inline Time anyRelease(Dice &d, Time stamp) {
    uint64_t way = d.below(100);
    if (way < 75) return after(stamp, d.below(12));
    if (way < 92) return stamp > 12 ? stamp - d.between(1, 12) : 1;
    return way < 96 ? LAST_TIME : d.between(1, LAST_TIME);
}

// [A5] What a disconnect at this time has in its due field: no date, one that has come, this very time, mostly one that has not come.
inline Time anyDate(Dice &d, Time time) {
    uint64_t way = d.below(100);
    if (way < 20) return 0;
    if (way < 28) return time > 4 ? time - d.between(1, 4) : 1;
    if (way < 36) return time;
    if (way < 94) return after(time, d.between(1, 7));
    return way < 97 ? LAST_TIME : d.between(1, LAST_TIME);
}

// Whether a date is so near that a line's other events go on behind it.
inline bool soon(const Version &v) { return v.release <= after(v.stamp, 60); }

// ---- Books ----

// Few providers, a mix, many, nobody with a Local SMS, numbers at the edges of the layout.
inline void makeProviders(Dice &d, Situation &s) {
    std::set<Provider> present;
    uint64_t shape = d.below(100), localSms = 80;
    if (shape < 25) present = {1, 2, 3}, localSms = 100;
    else if (shape < 60) for (uint64_t n = d.between(3, 9); present.size() < n;) present.insert(d.between(1, 12));
    else if (shape < 70) for (uint64_t n = d.between(30, PROVIDERS); present.size() < n;) present.insert(d.between(1, PROVIDERS));
    else if (shape < 78) present = {1, 2, 5, 9}, localSms = 0;
    else if (shape < 92) present = {1, 2, 21, 22, 42, 43, PROVIDERS - 1, PROVIDERS};
    else if (shape < 98) for (uint64_t n = d.between(2, 6); present.size() < n;) present.insert(d.between(1, PROVIDERS));
    else if (d.chance(70)) {
        for (Provider p = 1; p <= PROVIDERS; p++) present.insert(p);
        localSms = 100;
    }
    Provider last = present.empty() ? 0 : *present.rbegin();
    s.books.providers.resize(d.chance(50) ? PROVIDERS : d.between(last, PROVIDERS));
    for (Provider p : present) {
        bool runs = d.chance(localSms);
        s.books.providers[p - 1] = {true, runs};
        s.present.push_back(p);
        if (runs) s.systems.push_back(p);
    }
}

// Codes of the TNs, listed or not, some in split pairs, their partners listed too, with the same owner or another, or not; filters on both
// codes of a pair, on one, on none; other entries around them.
inline void makeLists(Dice &d, Situation &s, std::vector<Code> &homes) {
    std::map<Code, Provider> codes;
    std::set<std::pair<Provider, Code>> filters;
    std::set<Code> paired;
    uint64_t filterShare = d.pick(std::vector<uint64_t>{0, 15, 30, 60, 90});
    for (uint64_t n = d.between(1, 3); homes.size() < n;) homes.push_back(anyCode(d));
    auto pair = [&](Code a, Code b) {
        if (a == b || paired.count(a) || paired.count(b) || s.books.splits.size() == SPLITS) return;
        paired.insert(a), paired.insert(b);
        s.books.splits.push_back(d.chance(50) ? SplitEntry{a, b} : SplitEntry{b, a});
    };
    bool brim = d.chance(3);
    for (size_t i = 0; i < homes.size(); i++) {
        if (d.chance(92) && !s.present.empty()) codes[homes[i]] = d.pick(s.present);
        if (d.chance(50)) pair(homes[i], d.chance(30) ? d.pick(homes) : anyCode(d));
        std::optional<Code> partner = partnerOf(s.books, homes[i]);
        if (!partner || !codes.count(homes[i]) || codes.count(*partner) || d.chance(15)) continue;
        codes[*partner] = d.chance(60) ? codes[homes[i]] : d.pick(s.present);
    }
    for (uint64_t n = brim ? SPLITS : d.below(5); n > 0; n--) pair(anyCode(d), anyCode(d));
    for (size_t i = s.books.splits.size(); i > 1; i--) std::swap(s.books.splits[i - 1], s.books.splits[d.below(i)]);
    for (Provider p : s.present)
        for (Code home : homes) {
            std::vector<Code> both{home};
            for (const SplitEntry &split : s.books.splits)
                if (split.one == home || split.two == home) both = {split.one, split.two};
            for (Code code : both)
                if (d.chance(filterShare)) filters.insert({p, code});
        }
    if (!s.present.empty()) {
        for (uint64_t n = brim ? CODES : d.below(6); codes.size() < n;) codes[anyCode(d)] = d.pick(s.present);
        for (uint64_t n = brim ? FILTERS : d.below(6); filters.size() < n;) filters.insert({d.pick(s.present), anyCode(d)});
    }
    for (const auto &[code, owner] : codes) s.books.codes.push_back({code, owner});
    for (const auto &[provider, code] : filters) s.books.filters.push_back({provider, code});
}

// ---- Tables ----

// A set of systems that none of the others has. Mostly systems of the books, now and then of a provider that runs none now, sometimes any.
inline Systems anySystems(Dice &d, const Situation &s, const Systems &a, const Systems &b, size_t atLeast) {
    Systems out;
    uint64_t share = d.pick(std::vector<uint64_t>{0, 0, 30, 60, 100});
    for (Provider p : s.present)
        if (d.chance(runsLocalSms(s.books, p) ? share : share / 10) && !a.count(p) && !b.count(p)) out.insert(p);
    while (out.size() < atLeast || d.chance(5)) {
        Provider p = d.chance(70) && !s.systems.empty() ? d.pick(s.systems) : d.between(1, PROVIDERS);
        if (!a.count(p) && !b.count(p)) out.insert(p);
        else if (a.size() + b.size() + out.size() + 3 >= PROVIDERS) break;
    }
    return out;
}

// How often, in a hundred, a version whose status allows it, and a create, are of the type "within one provider" (A14).
constexpr uint64_t OF_TYPE = 25;
inline bool anyType(Dice &d) { return d.chance(OF_TYPE); }

// The one side of a version within one provider.
inline void makeOneSide(Dice &d, const Situation &s, Version &v) {
    v.within = true, v.oldProvider = v.newProvider;
    v.newCreated = true, v.lrn.digits = anyTenDigits(d), v.newDue = after(s.base, d.below(30));
}

// The sides of a version in this status, also combinations that no event makes.
inline void makeSides(Dice &d, const Situation &s, Version &v) {
    v.newProvider = d.chance(95) ? anyPresent(d, s) : d.between(1, PROVIDERS);
    if (v.status != CONFLICT && v.status != CANCEL_PENDING && anyType(d)) return makeOneSide(d, s, v);
    do v.oldProvider = d.chance(80) && s.present.size() > 1 ? anyPresent(d, s) : d.between(1, PROVIDERS);
    while (v.oldProvider == v.newProvider);
    bool mustNew = v.status == CANCEL_PENDING || (v.status >= SENDING && v.status <= OLD) || v.status == DISCONNECT_PENDING;
    bool mustOld = v.status == CANCEL_PENDING || v.status == CONFLICT;
    v.newCreated = mustNew || d.chance(65);
    v.oldCreated = mustOld || !v.newCreated || d.chance(60);
    if (v.newCreated) v.lrn.digits = anyTenDigits(d), v.newDue = after(s.base, d.below(30));
    if (v.oldCreated) {
        v.oldDue = after(s.base, d.below(30));
        v.authorization = d.chance(v.status == CONFLICT ? 20 : 65) ? YES : NO;
        if (v.authorization == NO) v.cause = d.between(1, LAST_CAUSE);
    }
    if (v.status == CANCEL_PENDING) v.canceller = d.chance(50) ? NEW_SIDE : OLD_SIDE;
    v.windowRanOut = d.chance(25);
}

inline Version makeVersion(Dice &d, const Situation &s, Tn tn, uint64_t number, Status status, bool mayLive) {
    Version v;
    v.tn = tn, v.number = number, v.status = status;
    makeSides(d, s, v);
    v.stamp = after(s.base, d.below(25));
    bool leaves = status == DISCONNECT_PENDING;
    if ((status >= SENDING && status <= ACTIVE) || leaves) v.purpose = Purpose(d.between(ACTIVATE, DISCONNECT));
    if (status == FAILED || status == PARTIAL_FAILURE || (status == SENDING && !mayLive)) v.purpose = ACTIVATE;
    v.live = status == PARTIAL_FAILURE || status == ACTIVE || (status == SENDING && (v.purpose != ACTIVATE || (mayLive && d.chance(30))));
    if (leaves) v.live = true, v.release = anyRelease(d, v.stamp);
    bool sets = (status >= SENDING && status <= OLD) || leaves || d.chance(15);
    if (status == SENDING) v.waiting = anySystems(d, s, {}, {}, 1);
    if (sets) v.confirmed = anySystems(d, s, v.waiting, {}, v.live && v.purpose == ACTIVATE && d.chance(80) ? 1 : 0);
    if (status == SENDING) {
        v.start = after(s.base, d.below(30));
        for (Provider p : v.waiting)
            if (d.chance(60)) v.retries[p] = d.between(1, MOST_RETRIES);
    }
    bool needsConfirmed = v.live && v.purpose == ACTIVATE;
    if (sets && !leaves && !(needsConfirmed && v.confirmed.empty())) v.failed = anySystems(d, s, v.confirmed, v.waiting, 0);
    if (needsConfirmed && status == SENDING && v.confirmed.empty()) v.live = false;
    return v;
}

// The versions of a line with these names, under one of them or under both; by numbers and marks they are sound as versions of one line.
inline void makeVersionsOf(Dice &d, Situation &s, const std::vector<Tn> &names, std::vector<Version> &out, uint64_t most = 5) {
    bool live = false, sending = false, workedOne = false, mixed = d.chance(75);
    Tn name = d.pick(names);
    size_t first = out.size();
    uint64_t count = d.below(most + 1), number = d.chance(12) ? LAST_VERSION - 3 * count + d.below(3) : 0;
    for (uint64_t i = 0; i < count; i++) {
        number += i + 1 == count && d.chance(10) ? LAST_VERSION - number : d.between(1, 3);
        if (number > LAST_VERSION) break;
        Status status = Status(d.below(STATUSES));
        bool isWorked = status <= CANCEL_PENDING;
        bool needsLive = status == PARTIAL_FAILURE || status == ACTIVE || status == DISCONNECT_PENDING;
        if ((isWorked && workedOne) || (needsLive && live) || (status == SENDING && sending)) status = d.chance(50) ? OLD : CANCELED;
        out.push_back(makeVersion(d, s, mixed ? d.pick(names) : name, number, status, !live));
        live = live || out.back().live;
        sending = sending || out.back().status == SENDING;
        workedOne = workedOne || worked(out.back());
        if (number == LAST_VERSION) break;
    }
    // Mostly the worked version is taken from the current provider, so that creates come as far as 9.
    for (size_t i = first; i < out.size(); i++) {
        if (!worked(out[i])) continue;
        Provider current = ownerOf(s.books, codeOf(out[i].tn));
        for (size_t k = first; k < out.size(); k++)
            if (out[k].live && lineOf(s.books, out[k].tn) == lineOf(s.books, out[i].tn)) current = out[k].newProvider;
        if (current != 0 && current != out[i].newProvider && d.chance(75)) out[i].oldProvider = current;
        if (out[i].within) out[i].newProvider = out[i].oldProvider;
    }
}

// The names of a line, given by one of them.
inline std::vector<Tn> namesOf(const Books &b, Tn tn) {
    std::optional<Tn> other = otherName(b, tn);
    return other ? std::vector<Tn>{tn, *other} : std::vector<Tn>{tn};
}

// How many versions a line has at the most: a few, now and then so many that rows of one name stand far apart.
inline uint64_t mostVersions(Dice &d) { return d.chance(4) ? d.between(8, 60) : 5; }

inline void sortRows(std::vector<Version> &rows) {
    std::sort(rows.begin(), rows.end(), [](const Version &a, const Version &b) { return rising(a, b); });
}

inline void makeTable(Dice &d, Situation &s, const std::vector<Code> &homes, size_t freeRows) {
    std::set<Tn> lines;  // each by its smaller name
    auto add = [&](Tn tn) { return lines.insert(smallerName(s.books, tn)).second; };
    for (uint64_t n = d.between(1, 4); n > 0;) {
        Tn tn{d.pick(homes) * 10000 + d.below(10000)};
        if (!add(tn)) continue;
        s.tns.push_back(tn), n--;
        if (d.chance(85) && otherName(s.books, tn)) s.tns.push_back(*otherName(s.books, tn));
    }
    if (d.chance(25)) {  // empty, or with other numbers alone
        lines.clear();
    }
    for (uint64_t n = d.chance(30) ? d.below(8) : 0; n > 0; n--) add(Tn{anyTenDigits(d)});
    if (d.chance(1) && d.chance(30))
        while (lines.size() < 1800) add(Tn{anyTenDigits(d)});
    for (Tn line : lines) makeVersionsOf(d, s, namesOf(s.books, line), s.table.used, mostVersions(d));
    sortRows(s.table.used);
    size_t most = d.chance(50) ? MOST_ROWS : MOST_ROWS - 96;
    if (s.table.used.size() > most) s.table.used.resize(most);
    s.table.freeRows = std::min<size_t>(freeRows, MOST_ROWS - s.table.used.size());
}

// R: often none, often that of the calls without R, otherwise any.
inline uint64_t anyR(Dice &d) {
    uint64_t way = d.below(100);
    return way < 30 ? 0 : way < 60 ? DEFAULT_R : d.below(MOST_RETRIES + 1);
}

inline Situation makeSituation(Dice &d, size_t freeRows) {
    Situation s;
    std::vector<Code> homes;
    makeProviders(d, s);
    makeLists(d, s, homes);
    s.R = anyR(d);
    s.base = d.pick(std::vector<Time>{1, 1, 1000, 1700000000, LAST_TIME - 60, LAST_TIME - 5000});
    makeTable(d, s, homes, freeRows);
    if (!sound(s.books) || !sound(s.table, s.books)) {
        std::puts("generate: an unsound situation was made");
        std::exit(2);
    }
    return s;
}

// ---- Events ----

// A time that is not too early for this TN, often exactly the earliest.
inline Time goodTime(Dice &d, const Situation &s, Tn tn, Time atLeast) {
    Time least = std::max<Time>({largestStamp(s.table, s.books, tn), atLeast, 1});
    if (least == 1) least = s.base;
    return after(least, d.chance(35) ? 0 : d.chance(80) ? d.between(1, 3) : d.between(4, 40));
}

inline Event plain(uint64_t kind, const Version &v, Provider sender) {
    Event e;
    e.kind = kind, e.tn = v.tn, e.version = v.number, e.sender = sender;
    return e;
}

// Fills what the kind names besides TN, version and sender.
inline Event filled(Dice &d, const Situation &s, Event e, Time atLeast) {
    e.time = goodTime(d, s, e.tn, atLeast);
    Named named = fieldsOf(e.kind);
    if (named.lrn) e.lrn.digits = anyTenDigits(d);
    if (named.due) e.due = d.chance(90) ? after(e.time, d.below(6)) : d.between(1, LAST_TIME);
    if (mayBeDated(e)) e.due = anyDate(d, e.time);
    if (named.mark) e.mark = d.chance(65) ? 1 : 2;
    if (named.cause && e.mark == 2) e.cause = d.between(1, LAST_CAUSE);
    if (named.other && e.other == 0) e.other = anyPresent(d, s);
    if (e.kind == SILENCE) e.sender = 0;
    return e;
}

// A create within one provider, mostly the current one.
inline Event aCreateWithin(Dice &d, const Situation &s, Tn tn) {
    Event e;
    Provider current = currentProvider(s.table, s.books, tn);
    e.kind = NEW_CREATES, e.tn = tn, e.within = 1;
    e.sender = e.other = current != 0 && d.chance(85) ? current : anyPresent(d, s);
    return filled(d, s, e, 0);
}

// A create. Where the other side has created, nearly always with its due date, which a concurrence has to give.
inline Event aCreate(Dice &d, const Situation &s, Tn tn) {
    if (anyType(d)) return aCreateWithin(d, s, tn);
    Event e;
    e.tn = tn;
    const Version *v = workedVersion(s.table, s.books, tn);
    Provider oldSide = v ? v->oldProvider : currentProvider(s.table, s.books, tn), newSide = v ? v->newProvider : anyPresent(d, s);
    if (oldSide == 0) oldSide = anyPresent(d, s);
    for (int i = 0; i < 8 && newSide == oldSide; i++) newSide = anyPresent(d, s);
    if (newSide == oldSide) newSide = oldSide % PROVIDERS + 1;
    bool byNew = v && !v->within ? (!v->newCreated || (v->oldCreated && d.chance(50))) : d.chance(60);
    e.kind = byNew ? NEW_CREATES : OLD_CREATES;
    e.sender = byNew ? newSide : oldSide;
    e.other = byNew ? oldSide : newSide;
    e = filled(d, s, e, 0);
    Time first = v ? firstDue(*v, e) : 0;
    if (first != 0 && d.chance(97)) e.due = first;
    return e;
}

inline Event anAnswer(Dice &d, const Situation &s, const Version &v, Provider system) {
    Event e = plain(d.chance(60) ? REPLY : SILENCE, v, system);
    if (e.kind == SILENCE) e.other = system;
    e = filled(d, s, e, 0);
    if (v.start != 0) e.time = after(v.start, d.chance(30) ? 0 : d.below(8));
    return e;
}

// The events that a version waits for: most of them are accepted.
inline void movesOf(Dice &d, const Situation &s, const Version &v, std::vector<Event> &out) {
    auto add = [&](uint64_t kind, Provider sender, Time atLeast = 0) { out.push_back(filled(d, s, plain(kind, v, sender), atLeast)); };
    auto eitherSide = [&] { return v.newCreated && (!v.oldCreated || d.chance(50)) ? v.newProvider : v.oldProvider; };
    switch (v.status) {
    case PENDING:
        if (v.newCreated && (v.oldCreated || v.windowRanOut || v.within))
            for (int i = 0; i < 3; i++) add(ACTIVATES, v.newProvider, v.newDue);
        if (!v.newCreated || (!v.oldCreated && !v.windowRanOut && !v.within)) add(WINDOW_RAN_OUT, NPAC);
        [[fallthrough]];
    case CONFLICT:
        if (v.newCreated) add(NEW_MODIFIES, v.newProvider);
        if (v.oldCreated) add(OLD_MODIFIES, v.oldProvider);
        if (d.chance(50)) add(CANCELS, eitherSide());
        if (v.status == CONFLICT) add(RESOLVES, eitherSide());
        if (!v.newCreated || !v.oldCreated) out.push_back(aCreate(d, s, anyName(d, s.books, v.tn)));
        break;
    case CANCEL_PENDING:
        add(ACKNOWLEDGES, v.canceller == NEW_SIDE ? v.oldProvider : v.newProvider);
        add(WINDOW_RAN_OUT, NPAC);
        break;
    case SENDING:
        for (Provider p : v.waiting) out.push_back(anAnswer(d, s, v, p));
        break;
    case FAILED:
        if (v.number == newest(s.table, s.books, v.tn) || d.chance(10)) add(RESEND, NPAC);
        break;
    case PARTIAL_FAILURE:
        add(RESEND, NPAC);
        break;
    case ACTIVE:
        if (!v.failed.empty() && RELEASE_DATES && d.chance(5)) add(DISCONNECTS, v.newProvider);
        else if (!v.failed.empty()) add(RESEND, NPAC);
        else if (d.chance(RELEASE_DATES ? 30 : 60)) add(MODIFIES_ACTIVE, v.newProvider);
        else add(DISCONNECTS, v.newProvider);
        break;
    case DISCONNECT_PENDING:
        if (soon(v) || d.chance(10)) add(RELEASES, NPAC, v.release);
        add(WITHDRAWS, v.newProvider, soon(v) && d.chance(40) ? v.release : 0);
        break;
    default:
        if (v.number != newest(s.table, s.books, v.tn)) add(PURGE, NPAC);
    }
}

inline Event sensible(Dice &d, const Situation &s, Tn tn) {
    std::vector<Event> moves;
    for (const Version *v : versionsOf(s.table, s.books, tn)) movesOf(d, s, *v, moves);
    if (!workedVersion(s.table, s.books, tn) && !sendingBeside(s.table, s.books, tn, nullptr)) moves.push_back(aCreate(d, s, tn));
    if (moves.empty()) return aCreate(d, s, tn);
    return d.pick(moves);
}

inline Provider anySender(Dice &d, const Situation &s, const Version *v) {
    switch (d.below(6)) {
    case 0: return NPAC;
    case 1: if (v) return v->newProvider; break;
    case 2: if (v) return v->oldProvider; break;
    case 3: return d.between(1, PROVIDERS);
    default: break;
    }
    return anyPresent(d, s);
}

// A sender with the standing that the kind asks for.
inline Provider rightSender(Dice &d, const Version &v, uint64_t kind) {
    if (kind >= WINDOW_RAN_OUT && kind != WITHDRAWS) return NPAC;
    if (kind == OLD_MODIFIES) return v.oldProvider;
    bool either = kind >= CANCELS && kind <= RESOLVES;
    return either && (!v.newCreated || d.chance(50)) ? v.oldProvider : v.newProvider;
}

// A well-formed event of any kind for a version that exists, from any sender or from the right one.
inline Event anyEvent(Dice &d, const Situation &s, Tn tn) {
    std::vector<const Version *> versions = versionsOf(s.table, s.books, tn);
    uint64_t kind = d.between(1, KINDS);
    if (versions.empty() || kind <= OLD_CREATES) return aCreate(d, s, tn);
    const Version *chosen = d.pick(versions);
    for (const Version *o : versions)
        if (o->status == DISCONNECT_PENDING && d.chance(90)) chosen = o;
    const Version &v = *chosen;
    if (kind == REPLY || kind == SILENCE) return anAnswer(d, s, v, anyPresent(d, s));
    Provider sender = d.chance(60) ? rightSender(d, v, kind) : anySender(d, s, &v);
    return filled(d, s, plain(kind, v, sender), d.chance(50) ? v.newDue : 0);
}

// [A5] The time of a start before the date, or before a stamp of the line and, where it can be, not before the date.
inline Time earlyStart(Dice &d, const Situation &s, const Version &v) {
    Time stamp = largestStamp(s.table, s.books, v.tn);
    if (v.release > 1 && (v.release >= stamp || d.chance(40))) return d.chance(70) ? v.release - 1 : d.between(1, v.release - 1);
    return d.between(std::min(v.release, stamp - 1), stamp - 1);
}

// One thing wrong in an event that would be accepted, or at least another event than was meant; still well formed.
inline Event spoilt(Dice &d, const Situation &s, Event e) {
    const Version *v = findVersion(s.table, s.books, e.tn, e.version);
    if (v && e.kind == RELEASES && largestStamp(s.table, s.books, v->tn) > 1 && d.chance(60)) {
        e.time = earlyStart(d, s, *v);
        return e;
    }
    Named named = fieldsOf(e.kind);
    switch (d.below(10)) {
    case 0: case 1: {
        Time edge = largestStamp(s.table, s.books, e.tn);
        if (v && e.kind == ACTIVATES && d.chance(50)) edge = v->newDue;
        if (v && (e.kind == REPLY || e.kind == SILENCE)) edge = v->start;
        if (edge > 1) e.time = d.chance(70) ? edge - 1 : d.between(1, edge - 1);
        if (v && e.kind == REPLY && d.chance(25)) {  // early, and from a system that has answered
            if (!v->confirmed.empty()) e.sender = *v->confirmed.begin();
            else if (!v->failed.empty()) e.sender = *v->failed.rbegin();
        }
        break;
    }
    case 2:
        if (named.version) e.version = d.chance(50) ? e.version % LAST_VERSION + 1 : d.between(1, LAST_VERSION);
        break;
    case 3: case 4:
        if (named.sender) e.sender = anySender(d, s, v);
        break;
    case 5:
        if (named.other) e.other = d.chance(60) ? anyPresent(d, s) : d.between(1, PROVIDERS);
        break;
    case 7:  // the worked version once more: a second create, a second cancel, a second window
        v = workedVersion(s.table, s.books, e.tn);
        if (!v || d.chance(40)) {
            e = aCreate(d, s, e.tn);
            if (d.chance(50)) (e.kind == NEW_CREATES ? e.sender : e.other) = anyPresent(d, s);
            return e;
        }
        e = plain(d.chance(60) ? ACKNOWLEDGES : WINDOW_RAN_OUT, *v, NPAC);
        if (e.kind == ACKNOWLEDGES) e.sender = v->canceller == NEW_SIDE ? v->newProvider : v->oldProvider;
        e = filled(d, s, e, 0);
        if (d.chance(30)) e.time = std::max<Time>(1, largestStamp(s.table, s.books, e.tn) - 1);
        return e;
    case 6:
        e.tn.digits = d.chance(50) ? anyTenDigits(d) : e.tn.digits / 10 * 10 + d.below(10);
        break;
    case 8:  // a create with a due date a second beside the first's
        e = aCreate(d, s, e.tn);
        e.due = after(e.due - 1, d.chance(50) ? 0 : 2);
        break;
    default:
        e = aCreate(d, s, e.tn);
        std::swap(e.sender, e.other);
    }
    return e;
}

// [A5] Whether a version of the line waits for its release date: of nearly all kinds something is refused there.
inline bool hasPending(const Situation &s, Tn tn) {
    for (const Version *v : versionsOf(s.table, s.books, tn))
        if (v->status == DISCONNECT_PENDING) return true;
    return false;
}

// A well-formed event, accepted more often than not. Those for a version, now and then a create too, have any of its line's names.
inline Event nextEvent(Dice &d, const Situation &s, uint64_t good) {
    for (;;) {
        Tn tn = d.pick(s.tns);
        uint64_t share = RELEASE_DATES && hasPending(s, tn) ? good * 3 / 4 : good;
        Event e = d.chance(share) ? sensible(d, s, tn) : d.chance(40) ? anyEvent(d, s, tn) : spoilt(d, s, sensible(d, s, tn));
        if (e.kind > OLD_CREATES || d.chance(10)) e.tn = anyName(d, s.books, e.tn);
        if (wellFormed(e)) return e;
    }
}

// ---- Damage ----

// The type where it mostly does not belong: in another kind, with two providers; a provider twice without it, or in the other create.
inline Fields mistyped(Dice &d, const Event &e) {
    Fields f = fieldsOf(e);
    if (e.kind > OLD_CREATES || d.chance(50)) {
        f[10] = !e.within;
        return f;
    }
    f[2] = e.within ? f[1] % PROVIDERS + 1 : f[1];
    if (d.chance(30)) f[10] = 1;
    return f;
}

// [A5] A record of kind 16 or 17 in which one field is wrong: there and not named, or named and not there.
inline Fields oddRelease(Dice &d, const Event &e) {
    Event odd = plain(d.between(RELEASES, WITHDRAWS), Version(), e.sender);
    odd.tn = e.tn, odd.version = e.version != 0 ? e.version : 1, odd.time = e.time;
    switch (d.below(9)) {
    case 0: odd.other = d.between(1, PROVIDERS); break;
    case 1: odd.mark = d.between(1, MARKS); break;
    case 2: odd.cause = d.between(1, LAST_CAUSE + 1); break;
    case 3: odd.tn.digits = d.chance(50) ? 0 : odd.tn.digits % 1000000000; break;
    case 4: odd.lrn.digits = anyTenDigits(d); break;
    case 5: odd.version = 0; break;
    case 6: odd.time = 0; break;
    case 7: odd.due = d.chance(50) ? odd.time : after(odd.time, d.between(1, 5)); break;
    default: odd.within = 1;
    }
    return fieldsOf(odd);
}

// A record that is mostly malformed: one field or bit changed, another length.
inline Bytes damagedRecord(Dice &d, const Event &e) {
    if (RELEASE_DATES && d.chance(15)) return packFields(oddRelease(d, e));
    if (d.chance(30)) return packFields(mistyped(d, e));
    Fields f = fieldsOf(e);
    switch (d.below(5)) {
    case 0: {
        size_t i = d.below(FIELDS);
        static const uint64_t odd[] = {0, 1, 2, 3, KINDS + 1, PROVIDERS, PROVIDERS + 1, LAST_CAUSE, LAST_CAUSE + 1, 127, 255, LAST_VERSION,
                                       LAST_TIME, 9999999999, 10000000000, 1999999999, 2001999999};
        f[i] = d.chance(70) ? odd[d.below(std::size(odd))] : d.next();
        if (WIDTHS[i] < 64) f[i] &= (uint64_t(1) << WIDTHS[i]) - 1;
        return packFields(f);
    }
    case 1: return packFields(f, uint64_t(1) << d.below(SPARE));
    case 2: {
        Bytes out = packFields(f);
        out.resize(d.pick(std::vector<size_t>{0, 1, RECORD - 1, RECORD + 1, 2 * RECORD}));
        return out;
    }
    case 3: {
        f[0] = d.chance(80) ? d.below(KINDS + 3) : d.below(256);
        return packFields(f);
    }
    default: {
        Bytes out = packFields(f);
        size_t bit = d.below(RECORD * 8);
        out[bit / 8] = uint8_t(out[bit / 8] ^ 1u << bit % 8);
        return out;
    }
    }
}

// One field of one version set to anything its bits can hold, mostly near what it was.
inline void damageVersion(Dice &d, Version &v) {
    Provider p = d.between(1, PROVIDERS);
    if (d.chance(60) && !v.waiting.empty()) p = *v.waiting.begin();
    else if (d.chance(60) && !v.confirmed.empty()) p = *v.confirmed.rbegin();
    else if (d.chance(60) && !v.failed.empty()) p = *v.failed.begin();
    auto flip = [&](Systems &set) { if (!set.erase(p)) set.insert(p); };
    auto time = [&](Time &t) { t = d.chance(50) ? 0 : d.between(1, LAST_TIME); };
    switch (d.below(25 + RELEASE_DATES)) {
    case 0: case 1: case 2: v.status = Status(d.chance(90) ? d.below(STATUSES) : d.below(STATUS_VALUES)); break;
    case 3: v.live = !v.live; break;
    case 4: v.newCreated = !v.newCreated; break;
    case 5: v.oldCreated = !v.oldCreated; break;
    case 6: v.newProvider = d.chance(40) ? v.oldProvider : d.below(PROVIDERS + 1); break;
    case 7: v.oldProvider = d.chance(40) ? v.newProvider : d.below(PROVIDERS + 1); break;
    case 8: v.lrn.digits = d.chance(50) ? 0 : d.chance(50) ? v.lrn.digits % 1000000000 : d.below(uint64_t(1) << 34); break;
    case 9: v.authorization = Authorization(d.below(MARKS + 1)); break;
    case 10: v.cause = d.chance(50) ? 0 : d.between(LAST_CAUSE - 1, LAST_CAUSE + 2); break;
    case 11: v.canceller = Side(d.below(CANCELLERS + 1)); break;
    case 12: case 13: v.purpose = Purpose(d.below(PURPOSES)); break;
    case 14: time(v.newDue); break;
    case 15: time(v.oldDue); break;
    case 16: time(v.stamp); break;
    case 17: time(v.start); break;
    case 18: flip(v.confirmed); break;
    case 19: flip(v.waiting); break;
    case 20: flip(v.failed); break;
    case 21: v.retries[p] = d.between(1, MOST_RETRIES); break;
    case 22: v.number = d.chance(60) ? v.number + 1 - 2 * d.below(2) : d.below(LAST_VERSION + 1); v.number &= LAST_VERSION; break;
    case 24: v.within = !v.within; break;
    case 25: time(v.release); break;
    default: v.tn.digits = d.chance(50) ? v.tn.digits + 1 - 2 * d.below(2) : d.below(uint64_t(1) << 34);
    }
}

inline void takeNewSide(Version &v) { v.newCreated = false, v.lrn = Lrn{}, v.newDue = 0; }
inline void takeOldSide(Version &v) { v.oldCreated = false, v.authorization = NONE, v.cause = 0, v.oldDue = 0; }

// A whole side taken away or another status with all that belongs to it, so that at most one clause is broken.
inline void damageJointly(Dice &d, Version &v) {
    uint64_t way = d.below(8);
    if (way == 0 || way == 2) takeNewSide(v);
    if (way == 1 || way == 2) takeOldSide(v);
    if (way < 3) return;
    v.status = Status(d.below(STATUSES));
    v.canceller = v.status != CANCEL_PENDING ? NOBODY : d.chance(50) ? NEW_SIDE : OLD_SIDE;
    v.start = v.status == SENDING ? v.stamp : 0;
    v.retries.clear();
    v.waiting.clear();
    if (v.status == SENDING)
        for (Provider p = 1; v.waiting.empty(); p++)
            if (!v.confirmed.count(p) && !v.failed.count(p)) v.waiting.insert(p);
    bool leaves = v.status == DISCONNECT_PENDING, needed = (v.status >= SENDING && v.status <= ACTIVE) || leaves;
    v.purpose = !needed ? NO_PURPOSE : d.chance(60) ? ACTIVATE : Purpose(d.between(ACTIVATE, DISCONNECT));
    v.live = v.status == PARTIAL_FAILURE || v.status == ACTIVE || (v.status == SENDING && (v.purpose != ACTIVATE || d.chance(30)));
    v.release = 0;
    if (leaves) v.live = true, v.release = anyRelease(d, v.stamp);
    if (leaves && d.chance(70)) v.failed.clear();
}

// Ten digits, the first or the fourth of them 0 or 1.
inline uint64_t badDigits(Dice &d, uint64_t n) {
    if (d.chance(50)) return n % 1000000 + n / 10000000 * 10000000 + d.below(2) * 1000000;
    return n % 1000000000 + d.below(2) * 1000000000;
}

// One value just beyond its range, where everything else stays as it should be.
inline void damageEdge(Dice &d, Version &v) {
    for (;;) switch (d.below(9)) {
    case 0: if (v.status != CANCELED) continue; v.status = Status(d.between(STATUSES, STATUS_VALUES - 1)); return;
    case 1: if (v.status != CANCEL_PENDING) continue; v.canceller = Side(CANCELLERS); return;
    case 2: if (v.authorization != NO) continue; v.cause = d.chance(50) ? LAST_CAUSE + 1 : d.between(LAST_CAUSE + 1, 127); return;
    case 3: if (v.authorization != YES) continue; v.authorization = Authorization(MARKS); return;
    case 4: v.number = 0; return;
    case 5: (d.chance(50) ? v.newProvider : v.oldProvider) = 0; return;
    case 6: if (!v.newCreated) continue; v.lrn.digits = badDigits(d, v.lrn.digits); return;
    case 7: v.tn.digits = badDigits(d, v.tn.digits); return;
    default: if (!v.newCreated) continue; v.lrn.digits = d.between(10000000000, 17179869183); return;
    }
}

// A bit of a row that no value has: a spare one, the highest of a word of retries, one of these or nobody's in a set.
inline size_t spareBit(Dice &d) {
    if (RELEASE_DATES && d.chance(30)) return 640 + 32 + d.below(32);
    return d.chance(50) ? 59 + d.below(5) : 64 + 59 + d.below(5);
}
inline size_t unusedRetriesBit(Dice &d) { return 64 * d.between(7, 9); }
inline size_t unusedBit(Dice &d) { return d.chance(50) ? spareBit(d) : d.chance(50) ? 64 * d.between(4, 6) + 63 : unusedRetriesBit(d); }

// Two rows of a TN where there was one; equal keys; rows exchanged; a hole; an odd byte in a free row; a spare bit; another length.
inline Bytes damagedTable(Dice &d, Table t) {
    Bytes out;
    size_t used = t.used.size();
    uint64_t way = d.below(100);
    if (used > 0 && way < 28) {
        for (uint64_t n = d.chance(75) ? 1 : 2; n > 0; n--) damageVersion(d, t.used[d.below(used)]);
    } else if (used > 0 && way < 41) {
        damageJointly(d, t.used[d.below(used)]);
    } else if (used > 0 && way < 50) {
        damageEdge(d, t.used[d.below(used)]);
    } else if (used > 0 && way < 65) {
        size_t i = d.below(used);
        Version copy = t.used[i];
        copy.number = (copy.number + d.below(3)) & LAST_VERSION;
        if (d.chance(30)) copy.status = Status(d.below(STATUSES));
        t.used.insert(t.used.begin() + long(i) + 1, copy);
        if (t.freeRows > 0) t.freeRows--;
    } else if (used > 1 && way < 72) {
        size_t i = d.below(used - 1);
        std::swap(t.used[i], t.used[i + 1]);
    }
    packTable(t, out);
    if (way < 72 || out.empty()) {
        if (out.size() / ROW > MOST_ROWS) out.resize(MOST_ROWS * ROW);
    } else if (way < 80 && used > 0) {
        size_t i = d.below(used);
        std::fill(out.begin() + long(i * ROW), out.begin() + long((i + 1) * ROW), uint8_t(0));
    } else if (way < 88) {
        size_t from = used * ROW, length = out.size() - from;
        if (length > 0) out[from + d.below(length)] = uint8_t(d.between(1, 255));
    } else if (way < 95) {
        size_t row = d.below(used > 0 ? used : out.size() / ROW), bit = row * ROW * 8 + (d.chance(60) ? unusedBit(d) : d.below(ROW * 8));
        out[bit / 8] = uint8_t(out[bit / 8] ^ 128u >> bit % 8);
    } else {
        out.resize(d.chance(60) ? out.size() + d.below(ROW + 1)
                   : d.chance(80) ? out.size() - std::min<size_t>(out.size(), 1 + d.below(ROW - 1)) : (MOST_ROWS + 1) * ROW, 0);
    }
    return out;
}

// [A5] Bytes of a table in the older form: of each row its first ten words, of a part of a row less than a row.
inline Bytes narrowed(const Bytes &table) {
    Bytes out;
    for (size_t from = 0; from < table.size(); from += ROW) {
        size_t length = table.size() - from < ROW ? std::min(table.size() - from, OLDER_ROW - 1) : OLDER_ROW;
        out.insert(out.end(), table.begin() + long(from), table.begin() + long(from + length));
    }
    return out;
}

// [A5] The versions that a table of the older form can have; now and then none of them, or one.
inline Table olderTable(Dice &d, Table t) {
    auto leaves = [](const Version &v) { return v.status == DISCONNECT_PENDING; };
    t.used.erase(std::remove_if(t.used.begin(), t.used.end(), leaves), t.used.end());
    uint64_t way = d.below(10);
    if (way < 2) t.used.clear();
    else if (way < 4 && !t.used.empty()) t.used = {Version(d.pick(t.used))};
    return t;
}

inline Bytes damagedProviders(Dice &d, const Books &b) {
    Bytes out = packProviders(b);
    if (out.empty() || d.chance(15)) out.resize(d.chance(50) ? PROVIDERS + 1 : d.below(PROVIDERS + 3), 0);
    else if (d.chance(15)) out.resize(d.below(out.size() + 1));
    else out[d.below(out.size())] = uint8_t(d.chance(70) ? d.below(4) : d.below(256));
    return out;
}

// A list of the books out of order, with an equal or odd entry, with a hole; the head not zero; another length.
inline Bytes damagedBooks(Dice &d, Books b) {
    uint64_t way = d.below(12);
    if (way == 0 && !b.codes.empty()) b.codes[d.below(b.codes.size())].owner = d.below(PROVIDERS + 1);
    if (way == 1 && !b.codes.empty()) b.codes[d.below(b.codes.size())].code = d.chance(50) ? d.below(1000000) : d.pick(b.codes).code;
    if (way == 2 && b.codes.size() > 1) std::swap(b.codes[0], b.codes[1 + d.below(b.codes.size() - 1)]);
    if (way == 3 && !b.filters.empty()) b.filters[d.below(b.filters.size())].provider = d.below(d.chance(80) ? PROVIDERS + 1 : 4096);
    if (way == 4 && !b.filters.empty()) b.filters[d.below(b.filters.size())].code = d.chance(50) ? d.below(1048576) : d.pick(b.filters).code;
    if (way == 5 && b.filters.size() > 1) std::swap(b.filters[0], b.filters[1 + d.below(b.filters.size() - 1)]);
    if (way == 6 && !b.splits.empty()) (d.chance(50) ? b.splits.back().one : b.splits.back().two) = d.chance(50) ? d.pick(b.splits).one : d.below(1000000);
    if (way == 7 && b.splits.size() < SPLITS) b.splits.push_back({anyCode(d), b.splits.empty() || d.chance(50) ? 0 : d.pick(b.splits).two});
    if (way == 8 && b.codes.size() < CODES && !b.codes.empty()) b.codes.push_back(b.codes.back());
    Bytes out = packBooks(b);
    if (way == 9) {
        size_t list = d.below(3), used = list == 0 ? b.codes.size() : list == 1 ? b.filters.size() : b.splits.size();
        size_t from = list == 0 ? CODES_AT : list == 1 ? FILTERS_AT : SPLITS_AT, width = list == 2 ? 8 : 4;
        if (used > 0) std::fill_n(out.begin() + long(from + d.below(used) * width), width, uint8_t(0));
    }
    if (way == 10) out[d.chance(30) ? d.below(CODES_AT) : d.below(BOOKS)] ^= uint8_t(1u << d.below(8));
    if (way == 11) out.resize(d.chance(50) ? BOOKS - 1 - d.below(8) : BOOKS + 1 + d.below(8), 0);
    return out;
}

}  // namespace MODEL
