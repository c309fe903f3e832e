// Document 01 once more, as a plain program, with the requests of document 02 that have landed.
//
// It is written from the papers alone, section by section and in their words, over ordinary structs, lists and sets; it knows nothing of the
// library's code. The tests compare the library with it. Clause names stand in brackets as in docs/CLAUSES.md. The bytes of docs/LAYOUTS.md
// are in layouts.hpp.
#pragma once

#include <algorithm>
#include <cstddef>
#include <cstdint>
#include <map>
#include <optional>
#include <set>
#include <utility>
#include <vector>

#include "sizes.h"  // for the switch of request A5 alone

// The stand-in (stand_in.cpp) takes this file a second time, under another name and perhaps with a mistake in it.
#ifndef MODEL
#define MODEL paper
#endif

namespace MODEL {

// ---- Names and books ------------------------------------------------------------------------------------------------------------------

// [N1] Ten digits, the first and the fourth 2 to 9.
inline bool tenDigits(uint64_t n) {
    return n >= 1000000000 && n <= 9999999999 && n / 1000000000 >= 2 && n / 1000000 % 10 >= 2;
}

// [N2] A TN and an LRN: two types. An absent LRN is 0.
struct Tn { uint64_t digits = 0; };
struct Lrn { uint64_t digits = 0; };
inline bool operator==(Tn a, Tn b) { return a.digits == b.digits; }
inline bool operator!=(Tn a, Tn b) { return a.digits != b.digits; }
inline bool operator<(Tn a, Tn b) { return a.digits < b.digits; }

// [N3] The code is the first six digits.
using Code = uint64_t;
inline Code codeOf(Tn tn) { return tn.digits / 10000; }
inline bool isCode(uint64_t c) { return c >= 100000 && c <= 999999 && c / 100000 >= 2 && c / 100 % 10 >= 2; }

// [N4] Providers are 1 to 63, sender 0 is the NPAC. Times are whole seconds; 0 marks an absent due date.
using Provider = uint64_t;
using Systems = std::set<Provider>;
using Time = uint64_t;
constexpr Provider NPAC = 0;
constexpr Time LAST_TIME = 4294967295;
inline bool isProvider(Provider p) { return p >= 1 && p <= 63; }
inline bool isTime(Time t) { return t >= 1 && t <= LAST_TIME; }

struct ProviderRecord { bool present = false, runsLocalSms = false; };
struct CodeEntry { Code code; Provider owner; };
struct FilterEntry { Provider provider; Code code; };
struct SplitEntry { Code one, two; };

struct Books {
    std::vector<ProviderRecord> providers;  // provider n at place n, counted from 1
    std::vector<CodeEntry> codes;
    std::vector<FilterEntry> filters;
    std::vector<SplitEntry> splits;
};

inline bool present(const Books &b, Provider p) { return p >= 1 && p <= b.providers.size() && b.providers[p - 1].present; }
inline bool runsLocalSms(const Books &b, Provider p) { return present(b, p) && b.providers[p - 1].runsLocalSms; }

// [B1]
inline bool soundProviders(const Books &b) {
    for (const ProviderRecord &r : b.providers)
        if (r.runsLocalSms && !r.present) return false;
    return b.providers.size() <= 63;
}

// [B2]
inline bool soundCodes(const Books &b) {
    for (size_t i = 0; i < b.codes.size(); i++) {
        if (!isCode(b.codes[i].code) || !present(b, b.codes[i].owner)) return false;
        if (i > 0 && !(b.codes[i - 1].code < b.codes[i].code)) return false;
    }
    return b.codes.size() <= 1024;
}

// [B3]
inline bool rising(const FilterEntry &a, const FilterEntry &b) {
    return a.provider < b.provider || (a.provider == b.provider && a.code < b.code);
}

inline bool soundFilters(const Books &b) {
    for (size_t i = 0; i < b.filters.size(); i++) {
        const FilterEntry &f = b.filters[i];
        if (!present(b, f.provider) || !isCode(f.code)) return false;
        if (i > 0 && !rising(b.filters[i - 1], f)) return false;
    }
    return b.filters.size() <= 1024;
}

// [B4]
inline bool soundSplits(const Books &b) {
    std::set<Code> seen;
    for (const SplitEntry &s : b.splits) {
        if (!isCode(s.one) || !isCode(s.two)) return false;
        if (!seen.insert(s.one).second || !seen.insert(s.two).second) return false;
    }
    return b.splits.size() <= 64;
}

inline bool sound(const Books &b) { return soundProviders(b) && soundCodes(b) && soundFilters(b) && soundSplits(b); }

// The other code of a split pair.
inline std::optional<Code> partnerOf(const Books &b, Code code) {
    for (const SplitEntry &s : b.splits) {
        if (s.one == code) return s.two;
        if (s.two == code) return s.one;
    }
    return std::nullopt;
}

// [A3.1] The line that a TN names: the TN, or in a split pair the TN under the smaller of the two codes. By the split list alone.
inline Tn lineOf(const Books &b, Tn tn) {
    std::optional<Code> partner = partnerOf(b, codeOf(tn));
    if (!partner || codeOf(tn) < *partner) return tn;
    return Tn{*partner * 10000 + tn.digits % 10000};
}

// ---- The version table ----------------------------------------------------------------------------------------------------------------

// [V13] These may hold any number that bytes can: soundness says which are values.
enum Status : int { PENDING, CONFLICT, CANCEL_PENDING, SENDING, FAILED, PARTIAL_FAILURE, ACTIVE, OLD, CANCELED, DISCONNECT_PENDING };
constexpr int LAST_STATUS = RELEASE_DATES ? 9 : 8;  // [A5]
enum Authorization : int { NONE, YES, NO };
enum Side : int { NOBODY, NEW_SIDE, OLD_SIDE };
enum Purpose : int { NO_PURPOSE, ACTIVATE, MODIFY, DISCONNECT };

// [V0]
struct Version {
    Tn tn;
    uint64_t number = 0;
    Status status = PENDING;
    Provider newProvider = 0, oldProvider = 0;
    Lrn lrn;
    Time newDue = 0, oldDue = 0;
    Authorization authorization = NONE;
    uint64_t cause = 0;
    bool newCreated = false, oldCreated = false;
    Side canceller = NOBODY;
    bool windowRanOut = false;
    bool within = false;  // [A14] the type: within one provider
    bool live = false;
    Time stamp = 0;
    Time start = 0;
    Purpose purpose = NO_PURPOSE;
    Systems confirmed, waiting, failed;
    std::map<Provider, uint64_t> retries;  // only those above 0
    Time release = 0;  // [A5] the effective release date
};

// [T2] Used rows first, then free ones.
struct Table {
    std::vector<Version> used;
    size_t freeRows = 0;
};

inline bool worked(const Version &v) { return v.status == PENDING || v.status == CONFLICT || v.status == CANCEL_PENDING; }

// [V1] Every value in its range; [A14] the two providers are the same exactly in a version within one provider.
inline bool inRange(const Version &v) {
    auto systems = [](const Systems &s) { return s.empty() || (*s.begin() >= 1 && *s.rbegin() <= 63); };
    for (const auto &[p, n] : v.retries)
        if (!isProvider(p) || n < 1 || n > 7) return false;
    return tenDigits(v.tn.digits) && v.number >= 1 && v.number <= 65535 && v.status >= 0 && v.status <= LAST_STATUS
        && isProvider(v.newProvider) && isProvider(v.oldProvider) && (v.newProvider == v.oldProvider) == v.within
        && (v.lrn.digits == 0 || tenDigits(v.lrn.digits)) && v.newDue <= LAST_TIME && v.oldDue <= LAST_TIME
        && v.authorization >= 0 && v.authorization <= 2 && v.cause <= 99 && v.canceller >= 0 && v.canceller <= 2
        && isTime(v.stamp) && v.start <= LAST_TIME && v.release <= LAST_TIME && v.purpose >= 0 && v.purpose <= 3
        && systems(v.confirmed) && systems(v.waiting) && systems(v.failed);
}

// [V2] A side has its due date and its LRN or authorization, both exactly when it has created; one has.
inline bool newSideWhole(const Version &v) { return v.newCreated == (v.newDue != 0) && v.newCreated == (v.lrn.digits != 0); }
inline bool oldSideWhole(const Version &v) { return v.oldCreated == (v.oldDue != 0) && v.oldCreated == (v.authorization != NONE); }
inline bool oneCreated(const Version &v) { return v.newCreated || v.oldCreated; }

// [V3] [A5] The sides that the status needs have created.
inline bool neededCreated(const Version &v) {
    if (v.status == CONFLICT && !v.oldCreated) return false;
    if (v.status == CANCEL_PENDING && !(v.newCreated && v.oldCreated)) return false;
    if (v.status >= SENDING && v.status <= OLD && !v.newCreated) return false;
    if (v.status == DISCONNECT_PENDING && !v.newCreated) return false;
    return true;
}

// [V4] [V5]
inline bool causeFits(const Version &v) { return (v.authorization == NO) == (v.cause != 0); }
inline bool cancellerFits(const Version &v) { return (v.canceller != NOBODY) == (v.status == CANCEL_PENDING); }

// [A14] Within one provider only the new side has created and no window mark is set.
inline bool withinFits(const Version &v) {
    if (v.within && (v.oldCreated || v.windowRanOut)) return false;
    return true;
}

// [V2] to [V5] [A14] The sides.
inline bool soundSides(const Version &v) {
    return newSideWhole(v) && oldSideWhole(v) && oneCreated(v) && neededCreated(v) && causeFits(v) && cancellerFits(v) && withinFits(v);
}

inline bool disjoint(const Systems &a, const Systems &b) {
    for (Provider p : a)
        if (b.count(p)) return false;
    return true;
}

// [V6] No system in two sets; retries of waiting systems alone.
inline bool setsApart(const Version &v) {
    return disjoint(v.confirmed, v.waiting) && disjoint(v.confirmed, v.failed) && disjoint(v.waiting, v.failed);
}

inline bool retriesAwaited(const Version &v) {
    for (const auto &entry : v.retries)
        if (!v.waiting.count(entry.first)) return false;
    return true;
}

// [V7]
inline bool startFits(const Version &v) { return (v.start != 0) == (v.status == SENDING); }
inline bool waitingFits(const Version &v) { return !v.waiting.empty() == (v.status == SENDING); }

// [V8] [A5] A disconnect-pending version keeps the purpose that it had.
inline bool purposeFits(const Version &v) {
    bool needed = (v.status >= SENDING && v.status <= ACTIVE) || v.status == DISCONNECT_PENDING;
    if ((v.purpose != NO_PURPOSE) != needed) return false;
    if ((v.status == FAILED || v.status == PARTIAL_FAILURE) && v.purpose != ACTIVATE) return false;
    return true;
}

// [V9] [A5] Disconnect-pending is live.
inline bool liveFits(const Version &v) {
    bool sending = v.status == SENDING;
    bool must = v.status == PARTIAL_FAILURE || v.status == ACTIVE || (sending && v.purpose != ACTIVATE);
    if (v.status == DISCONNECT_PENDING) must = true;
    bool may = must || sending;
    return !(must && !v.live) && !(v.live && !may);
}

// [V10]
inline bool confirmedFits(const Version &v) {
    if (v.live && v.purpose == ACTIVATE && v.confirmed.empty() && !(v.waiting.empty() && v.failed.empty())) return false;
    return true;
}

// [V6] to [V10] The broadcast.
inline bool soundBroadcast(const Version &v) {
    return setsApart(v) && retriesAwaited(v) && startFits(v) && waitingFits(v) && purposeFits(v) && liveFits(v) && confirmedFits(v);
}

// [A5] The date is there exactly in disconnect-pending, and nobody has failed there.
inline bool releaseFits(const Version &v) { return (v.release != 0) == (v.status == DISCONNECT_PENDING); }
inline bool nobodyFailed(const Version &v) { return v.status != DISCONNECT_PENDING || v.failed.empty(); }
inline bool soundRelease(const Version &v) { return releaseFits(v) && nobodyFailed(v); }

inline bool sound(const Version &v) { return inRange(v) && soundSides(v) && soundBroadcast(v) && soundRelease(v); }

// [V11] [A3.5] Per line at most one live, one sending and one worked version.
struct Counts { int live = 0, sending = 0, worked = 0; };

inline bool soundCounts(const std::vector<Version> &used, const Books &b) {
    std::map<Tn, Counts> lines;
    for (const Version &v : used) {
        auto &[live, sending, workedOnes] = lines[lineOf(b, v.tn)];
        live += v.live;
        sending += v.status == SENDING;
        workedOnes += worked(v);
        if (live > 1 || sending > 1 || workedOnes > 1) return false;
    }
    return true;
}

// [A3.5] No two versions of a line share a number. Under one name the order of the rows sees to that.
inline bool soundNumbers(const std::vector<Version> &used, const Books &b) {
    std::map<std::pair<Tn, uint64_t>, Tn> names;
    for (const Version &v : used) {
        Tn name = names.insert({{lineOf(b, v.tn), v.number}, v.tn}).first->second;
        if (name != v.tn) return false;
    }
    return true;
}

// [T2] By TN and then version number.
inline bool rising(const Version &a, const Version &b) { return a.tn < b.tn || (a.tn == b.tn && a.number < b.number); }

// [T1] [T2] [A3.5] With sound books: they say what a line is.
inline bool sound(const Table &t, const Books &b) {
    if (t.used.size() + t.freeRows > 4096) return false;
    for (size_t i = 0; i < t.used.size(); i++) {
        if (!sound(t.used[i])) return false;
        if (i > 0 && !rising(t.used[i - 1], t.used[i])) return false;
    }
    return soundCounts(t.used, b) && soundNumbers(t.used, b);
}

// ---- The event record -----------------------------------------------------------------------------------------------------------------

enum Kind : uint64_t {
    NEW_CREATES = 1, OLD_CREATES, NEW_MODIFIES, OLD_MODIFIES, ACTIVATES, CANCELS, ACKNOWLEDGES, RESOLVES, MODIFIES_ACTIVE, DISCONNECTS,
    REPLY, SILENCE, WINDOW_RAN_OUT, RESEND, PURGE,
    RELEASES, WITHDRAWS  // [A5]
};
constexpr uint64_t LAST_KIND = RELEASE_DATES ? 17 : 15;

struct Event {
    uint64_t kind = 0;
    Provider sender = 0, other = 0;
    uint64_t mark = 0;  // authorization or result: 1 yes or success, 2 no or failure
    uint64_t cause = 0;
    Tn tn;
    Lrn lrn;
    uint64_t version = 0;
    Time time = 0, due = 0;
    uint64_t within = 0;  // [A14] the type of the version that it creates: 1 within one provider
};

// [E2] Which fields a kind names, besides TN and time.
struct Named { bool sender, other, mark, cause, lrn, version, due; };
inline Named fieldsOf(uint64_t kind) {
    switch (kind) {
    case NEW_CREATES: return {true, true, false, false, true, false, true};
    case OLD_CREATES: return {true, true, true, true, false, false, true};
    case NEW_MODIFIES: return {true, false, false, false, true, true, true};
    case OLD_MODIFIES: return {true, false, true, true, false, true, true};
    case MODIFIES_ACTIVE: return {true, false, false, false, true, true, false};
    case REPLY: return {true, false, true, false, false, true, false};
    case SILENCE: return {false, true, false, false, false, true, false};
    default: return {true, false, false, false, false, true, false};
    }
}

// [A5] A disconnect may have a release date in its due field.
inline bool mayBeDated(const Event &e) { return RELEASE_DATES && e.kind == DISCONNECTS; }

// [E2] [E3] [E4] Named fields are non-zero and in range, unused ones zero, but for the sender of kinds 3 to 10 and 13 to 17, the cause and
// [A5] the date. [A14] The type is 0 or 1 and stands in kind 1 alone; with it, and never without it, sender and other are the same.
inline bool wellFormed(const Event &e) {
    if (e.kind < 1 || e.kind > LAST_KIND || !tenDigits(e.tn.digits) || !isTime(e.time)) return false;
    Named named = fieldsOf(e.kind);
    bool senderMayBeNpac = (e.kind >= 3 && e.kind <= 10) || (e.kind >= 13 && e.kind <= 17);
    if (named.sender ? !(isProvider(e.sender) || (senderMayBeNpac && e.sender == NPAC)) : e.sender != 0) return false;
    if (named.other ? !isProvider(e.other) : e.other != 0) return false;
    if (named.mark ? !(e.mark == 1 || e.mark == 2) : e.mark != 0) return false;
    bool no = named.cause && e.mark == 2;
    if (no ? !(e.cause >= 1 && e.cause <= 99) : e.cause != 0) return false;
    if (named.lrn ? !tenDigits(e.lrn.digits) : e.lrn.digits != 0) return false;
    if (named.version ? !(e.version >= 1 && e.version <= 65535) : e.version != 0) return false;
    if (mayBeDated(e) ? e.due > LAST_TIME : named.due ? !isTime(e.due) : e.due != 0) return false;
    if (e.within > 1) return false;
    if (e.within != 0 && e.kind != NEW_CREATES) return false;
    if ((e.kind == NEW_CREATES || e.kind == OLD_CREATES) && (e.sender == e.other) != (e.within != 0)) return false;
    return true;
}

// ---- Looking at a line's versions -----------------------------------------------------------------------------------------------------

// [A3.2] [A3.3] A TN names its line: what is asked of a TN below is asked of all versions of the line, under whichever name each stands, in
// the order of the table.
inline std::vector<const Version *> versionsOf(const Table &t, const Books &b, Tn tn) {
    std::vector<const Version *> found;
    Tn line = lineOf(b, tn);
    for (const Version &v : t.used)
        if (lineOf(b, v.tn) == line) found.push_back(&v);
    return found;
}

inline const Version *findVersion(const Table &t, const Books &b, Tn tn, uint64_t number) {
    for (const Version *v : versionsOf(t, b, tn))
        if (v->number == number) return v;
    return nullptr;
}

inline Version *findVersion(Table &t, const Books &b, Tn tn, uint64_t number) {
    return const_cast<Version *>(findVersion(const_cast<const Table &>(t), b, tn, number));
}

inline const Version *workedVersion(const Table &t, const Books &b, Tn tn) {
    for (const Version *v : versionsOf(t, b, tn))
        if (worked(*v)) return v;
    return nullptr;
}

// The number of the newest version, 0 where there is none.
inline uint64_t newest(const Table &t, const Books &b, Tn tn) {
    uint64_t largest = 0;
    for (const Version *v : versionsOf(t, b, tn)) largest = std::max(largest, v->number);
    return largest;
}

inline Time largestStamp(const Table &t, const Books &b, Tn tn) {
    Time largest = 0;
    for (const Version *v : versionsOf(t, b, tn)) largest = std::max(largest, v->stamp);
    return largest;
}

// [C1] The current provider: the live version's new provider, else the code's owner. 0 where there is neither. [A3.4] The code is that of
// the TN as the event has it, whatever names the versions have.
inline Provider ownerOf(const Books &b, Code code) {
    for (const CodeEntry &c : b.codes)
        if (c.code == code) return c.owner;
    return 0;
}

inline Provider currentProvider(const Table &t, const Books &b, Tn tn) {
    for (const Version *v : versionsOf(t, b, tn))
        if (v->live) return v->newProvider;
    return ownerOf(b, codeOf(tn));
}

// ---- Rules by kind: refusals ----------------------------------------------------------------------------------------------------------

enum Outcome : uint64_t {
    DONE, UNSOUND, MALFORMED, ABSENT, UNLISTED, UNKNOWN, STANDLESS, MISPLACED, EARLY, UNFIT, BUSY, UNAWAITED, NOT_CURRENT, FULL, EXHAUSTED,
    ANOTHER_DUE = 18  // [A4.2]
};

// [R2] Too early, kinds other than 11 and 12. The new due date binds activation alone, [A5] the release date the start alone.
inline bool tooEarly(const Table &t, const Books &b, const Event &e, const Version *v) {
    if (e.time < largestStamp(t, b, e.tn)) return true;
    if (e.kind == RELEASES && e.time < v->release) return true;
    return e.kind == ACTIVATES && e.time < v->newDue;
}

// [G1] A side has standing if it has created.
inline Side standingOf(const Version &v, Provider sender) {
    if (v.newCreated && sender == v.newProvider) return NEW_SIDE;
    if (v.oldCreated && sender == v.oldProvider) return OLD_SIDE;
    return NOBODY;
}

inline bool standing(const Version &v, const Event &e) {
    Side side = standingOf(v, e.sender);
    switch (e.kind) {
    case NEW_MODIFIES: case ACTIVATES: case MODIFIES_ACTIVE: case DISCONNECTS: return side == NEW_SIDE;
    case OLD_MODIFIES: return side == OLD_SIDE;
    case CANCELS: case ACKNOWLEDGES: case RESOLVES: return side == NEW_SIDE || side == OLD_SIDE;
    case WITHDRAWS: return side == NEW_SIDE;
    default: return e.sender == NPAC;  // 13, 14, 15, 16
    }
}

// [G2] [G3] The statuses of a kind, with the finer conditions. [A14] Within one provider activation needs no old side, and there is no
// window in any status.
inline bool statusAllows(const Version &v, const Event &e) {
    switch (e.kind) {
    case NEW_MODIFIES: case OLD_MODIFIES: case CANCELS: return v.status == PENDING || v.status == CONFLICT;
    case ACTIVATES: return v.status == PENDING && (v.oldCreated || v.windowRanOut || v.within);
    case ACKNOWLEDGES: return v.status == CANCEL_PENDING;
    case RESOLVES: return v.status == CONFLICT;
    case MODIFIES_ACTIVE: case DISCONNECTS: return v.status == ACTIVE && v.failed.empty();
    case WINDOW_RAN_OUT: return !v.within && (v.status == PENDING || v.status == CANCEL_PENDING);
    case RESEND: return v.status == FAILED || v.status == PARTIAL_FAILURE || (v.status == ACTIVE && !v.failed.empty());
    case RELEASES: case WITHDRAWS: return v.status == DISCONNECT_PENDING;  // [A5] and no other kind there
    default: return v.status == OLD || v.status == CANCELED;  // purge
    }
}

// [Q1] A sending version of the line, other than the one given.
inline bool sendingBeside(const Table &t, const Books &b, Tn tn, const Version *self) {
    for (const Version *v : versionsOf(t, b, tn))
        if (v != self && v->status == SENDING) return true;
    return false;
}

inline bool busy(const Table &t, const Books &b, const Version &v, const Event &e) {
    switch (e.kind) {
    case ACTIVATES: case MODIFIES_ACTIVE: case DISCONNECTS: return sendingBeside(t, b, e.tn, &v);
    case RELEASES: return sendingBeside(t, b, e.tn, &v);
    case RESEND: return sendingBeside(t, b, e.tn, &v) || (v.status == FAILED && newest(t, b, e.tn) > v.number);
    case PURGE: return newest(t, b, e.tn) == v.number;
    default: return false;
    }
}

// [K2] [K4] What a kind 7 or 13 finds nothing to do for.
inline bool unawaited(const Version &v, const Event &e) {
    if (e.kind == ACKNOWLEDGES) return standingOf(v, e.sender) == v.canceller;
    if (e.kind == WINDOW_RAN_OUT && v.status == PENDING)
        return v.newCreated && !(!v.oldCreated && !v.windowRanOut);
    return false;
}

// [C3] A worked version that a create concurs with. [A14] None within one provider: its new side has created, and its providers are the
// same, as those of a create of two providers never are.
inline bool fits(const Version &v, const Event &e) {
    bool byNew = e.kind == NEW_CREATES;
    Provider newSide = byNew ? e.sender : e.other, oldSide = byNew ? e.other : e.sender;
    bool created = byNew ? v.newCreated : v.oldCreated;
    return v.status != CANCEL_PENDING && v.newProvider == newSide && v.oldProvider == oldSide && !created;
}

// [A4.1] The due date that a concurring create has to give: the one that the first side's create, or a modify since, left in the row.
inline Time firstDue(const Version &v, const Event &e) { return e.kind == NEW_CREATES ? v.oldDue : v.newDue; }

// [O6] [A4.2] Order for creates: 4, 10, 8, 12, 9, 18, 14, 13.
inline Outcome outcomeOfCreate(const Table &t, const Books &b, const Event &e) {
    if (ownerOf(b, codeOf(e.tn)) == 0) return UNLISTED;
    if (sendingBeside(t, b, e.tn, nullptr)) return BUSY;
    if (tooEarly(t, b, e, nullptr)) return EARLY;
    Provider oldSide = e.kind == NEW_CREATES ? e.other : e.sender;
    if (oldSide != currentProvider(t, b, e.tn)) return NOT_CURRENT;
    const Version *v = workedVersion(t, b, e.tn);
    if (v && !fits(*v, e)) return UNFIT;
    if (v && e.due != firstDue(*v, e)) return ANOTHER_DUE;
    if (v) return DONE;
    if (newest(t, b, e.tn) == 65535) return EXHAUSTED;
    if (t.freeRows == 0) return FULL;
    return DONE;
}

// [O7] Order for kinds 11 and 12: 5, 11, 8. [R1] [W1]
inline Outcome outcomeOfAnswer(const Table &t, const Books &b, const Event &e) {
    const Version *v = findVersion(t, b, e.tn, e.version);
    if (!v) return UNKNOWN;
    Provider system = e.kind == REPLY ? e.sender : e.other;
    if (!v->waiting.count(system)) return UNAWAITED;
    if (e.time < v->start) return EARLY;
    return DONE;
}

// [O8] Order for all others: 5, 6, 7, 10, 8, 11.
inline Outcome outcomeOfOther(const Table &t, const Books &b, const Event &e) {
    const Version *v = findVersion(t, b, e.tn, e.version);
    if (!v) return UNKNOWN;
    if (!standing(*v, e)) return STANDLESS;
    if (!statusAllows(*v, e)) return MISPLACED;
    if (busy(t, b, *v, e)) return BUSY;
    if (tooEarly(t, b, e, v)) return EARLY;
    if (unawaited(*v, e)) return UNAWAITED;
    return DONE;
}

// [O10] Everything from 3 on, for a sound table, sound books and a well-formed event.
inline Outcome outcomeOf(const Table &t, const Books &b, const Event &e) {
    if (e.sender != NPAC && !present(b, e.sender)) return ABSENT;
    if (e.other != 0 && !present(b, e.other)) return ABSENT;
    if (e.kind == NEW_CREATES || e.kind == OLD_CREATES) return outcomeOfCreate(t, b, e);
    if (e.kind == REPLY || e.kind == SILENCE) return outcomeOfAnswer(t, b, e);
    return outcomeOfOther(t, b, e);
}

// ---- The tray -------------------------------------------------------------------------------------------------------------------------

enum Sort : uint64_t {
    CREATION = 1, STATUS, ATTRIBUTES, DOWNLOAD_CREATE, DOWNLOAD_MODIFY, DOWNLOAD_DELETE, WINDOW_NOTICE
};

// [Y1] A provider's SOA and its Local SMS are systems apart.
struct Message {
    Provider provider = 0;
    bool localSms = false;
    Sort sort = CREATION;
    Tn tn;
    uint64_t number = 0;
    Status status = PENDING;
    Systems failed;
    Lrn lrn;
};
using Messages = std::vector<Message>;

// [A3.7] A message has the version's TN, whatever name the event used.
inline Message messageOf(const Version &v, Provider to, Sort sort) {
    Message m;
    m.provider = to;
    m.sort = sort;
    m.tn = v.tn;
    m.number = v.number;
    m.status = v.status;
    if (sort == ATTRIBUTES) m.lrn = v.lrn;  // [Y2]
    return m;
}

// [A14] Whom that is told which goes to old and new: both in this order, or once the provider that is both.
inline std::vector<Provider> sidesOf(const Version &v) {
    if (v.within) return {v.newProvider};
    return {v.oldProvider, v.newProvider};
}

inline void tellSides(Messages &out, const Version &v, Sort sort) {
    for (Provider p : sidesOf(v)) out.push_back(messageOf(v, p, sort));
}

// [Y4]
inline void tellChange(Messages &out, const Version &v, Status before) {
    if (v.status != before) tellSides(out, v, STATUS);
    tellSides(out, v, ATTRIBUTES);
}

// [Y5]
inline Message download(const Version &v, Provider to) {
    Message m = messageOf(v, to, v.purpose == ACTIVATE ? DOWNLOAD_CREATE : v.purpose == MODIFY ? DOWNLOAD_MODIFY : DOWNLOAD_DELETE);
    m.localSms = true;
    m.lrn = v.lrn;
    return m;
}

// [Y6] The only messages with a failed set.
inline void tellClosing(Messages &out, const Version &v, Purpose purpose) {
    for (Provider p : purpose == ACTIVATE ? sidesOf(v) : std::vector<Provider>{v.newProvider}) {
        out.push_back(messageOf(v, p, STATUS));
        out.back().failed = v.failed;
    }
}

// ---- Rules by kind: what is done ------------------------------------------------------------------------------------------------------

// [C2] [C3] [C4] A fresh version or a concurrence. [Y3] [Y4] [A3.3] A fresh one takes the event's TN, every other version keeps its own.
inline void takeValues(Version &v, const Event &e) {
    if (e.kind == NEW_CREATES) {
        v.newCreated = true;
        v.lrn = e.lrn;
        v.newDue = e.due;
    } else {
        v.oldCreated = true;
        v.authorization = Authorization(e.mark);
        v.cause = e.cause;
        v.oldDue = e.due;
    }
    v.stamp = e.time;
    if (v.authorization == NO) v.status = CONFLICT;
}

inline void putInOrder(Table &t, const Version &v) {
    size_t place = 0;
    while (place < t.used.size() && (t.used[place].tn < v.tn || (t.used[place].tn == v.tn && t.used[place].number < v.number))) place++;
    t.used.insert(t.used.begin() + long(place), v);
    t.freeRows--;
}

inline void create(Table &t, const Books &b, const Event &e, Messages &out) {
    if (const Version *found = workedVersion(t, b, e.tn)) {
        Version &v = *findVersion(t, b, e.tn, found->number);
        Status before = v.status;
        takeValues(v, e);
        tellChange(out, v, before);
        return;
    }
    Version v;
    v.tn = e.tn;
    v.number = newest(t, b, e.tn) + 1;
    v.status = PENDING;
    v.newProvider = e.kind == NEW_CREATES ? e.sender : e.other;
    v.oldProvider = e.kind == NEW_CREATES ? e.other : e.sender;
    v.within = e.within != 0;
    takeValues(v, e);
    putInOrder(t, v);
    tellSides(out, v, CREATION);
}

// [M1] [M2]
inline void modify(Version &v, const Event &e, Messages &out) {
    Status before = v.status;
    if (e.kind == NEW_MODIFIES) {
        v.lrn = e.lrn;
        v.newDue = e.due;
    } else {
        v.authorization = Authorization(e.mark);
        v.cause = e.cause;
        v.oldDue = e.due;
        v.status = v.authorization == NO ? CONFLICT : PENDING;
    }
    tellChange(out, v, before);
}

// Out of cancel-pending nobody is the canceller any more. [V5]
inline void leaveFor(Version &v, Status status) {
    v.status = status;
    v.canceller = NOBODY;
}

// [K1] [K2] [K3] Kinds 6, 7 and 8. [Y6]
inline void cancelOrResolve(Version &v, const Event &e, Messages &out) {
    if (e.kind == CANCELS) {
        if (v.newCreated && v.oldCreated) {
            v.status = CANCEL_PENDING;
            v.canceller = standingOf(v, e.sender);
        } else {
            v.status = CANCELED;
        }
    } else if (e.kind == ACKNOWLEDGES) {
        leaveFor(v, CANCELED);
    } else {
        v.status = PENDING;
        v.authorization = YES;
        v.cause = 0;
    }
    tellSides(out, v, STATUS);
}

// [K4] [K5] [Y7]
inline void windowRunsOut(Version &v, Messages &out) {
    if (v.status == PENDING && v.newCreated) {
        v.windowRanOut = true;
        out.push_back(messageOf(v, v.oldProvider, WINDOW_NOTICE));
        return;
    }
    if (v.status == PENDING) v.status = CANCELED;
    else leaveFor(v, v.canceller == NEW_SIDE ? CANCELED : CONFLICT);
    tellSides(out, v, STATUS);
}

// [D5] Skipped exactly when one of the provider's filters names the code and, if the code stands in a split pair, another the partner.
inline bool hasFilter(const Books &b, Provider p, Code code) {
    for (const FilterEntry &f : b.filters)
        if (f.provider == p && f.code == code) return true;
    return false;
}

// [A8.1] What selection gives a provider for a TN. Asked is whether it is present, then whether it runs a Local SMS, then its filters.
enum Class : uint8_t { SELECTED = 0, NOT_PRESENT = 1, NO_LOCAL_SMS = 2, FILTER_ON_THE_ONLY_CODE = 3, FILTERS_ON_BOTH_CODES = 4 };

inline Class classOf(const Books &b, Provider p, Tn tn) {
    Code code = codeOf(tn);
    if (!present(b, p)) return NOT_PRESENT;
    if (!runsLocalSms(b, p)) return NO_LOCAL_SMS;
    if (!hasFilter(b, p, code)) return SELECTED;
    std::optional<Code> partner = partnerOf(b, code);
    if (!partner) return FILTER_ON_THE_ONLY_CODE;
    if (!hasFilter(b, p, *partner)) return SELECTED;
    return FILTERS_ON_BOTH_CODES;
}

// [A8.2] Broadcast and resend take it.
inline bool selected(const Books &b, Provider p, Tn tn) { return classOf(b, p, tn) == SELECTED; }

// [A5] The date is cleared when disconnect-pending ends, however it ends.
inline void clearDate(Version &v) { v.release = 0; }

// Old is neither live nor for a purpose. [V8] [V9]
inline void becomeOld(Version &v) {
    v.status = OLD;
    v.live = false;
    v.purpose = NO_PURPOSE;
    if (v.release != 0) clearDate(v);
}

// [W3] [W4] The broadcast closes; the version's stamp is that of this event already. [A3.2] The other live version is the line's.
inline void close(Table &t, const Books &b, Version &v, Messages &out) {
    Purpose purpose = v.purpose;
    bool allDone = v.failed.empty(), allFailed = !allDone && v.confirmed.empty();
    v.start = 0;
    if (purpose == ACTIVATE) {
        v.status = allDone ? ACTIVE : allFailed ? FAILED : PARTIAL_FAILURE;
        if (!allFailed) {
            v.live = true;
            for (Version &other : t.used)
                if (lineOf(b, other.tn) == lineOf(b, v.tn) && other.number != v.number && other.live) {
                    becomeOld(other);
                    other.stamp = v.stamp;
                }
        }
    } else if (purpose == MODIFY || allFailed) {
        v.status = ACTIVE;
    } else {
        becomeOld(v);
    }
    tellClosing(out, v, purpose);
}

// [A5] A disconnect with a date after its time enters disconnect-pending, and a withdrawal makes active again. Everything else stays, and
// both tell status to new.
inline bool enters(const Event &e) { return e.kind == DISCONNECTS && e.due > e.time; }

inline void turn(Version &v, Status status, Time release, Messages &out) {
    v.status = status;
    v.release = release;
    out.push_back(messageOf(v, v.newProvider, STATUS));
}

// [D1] to [D4] Kinds 5, 9, 10 and 14; [A5] 16 is for the same purpose as 10.
inline void broadcast(Table &t, const Books &b, Version &v, const Event &e, Messages &out) {
    Systems asked;
    if (e.kind == RESEND) {
        for (Provider p : v.failed)
            if (selected(b, p, v.tn)) asked.insert(p);
    } else {
        v.purpose = e.kind == ACTIVATES ? ACTIVATE : e.kind == MODIFIES_ACTIVE ? MODIFY : DISCONNECT;
        if (e.kind == MODIFIES_ACTIVE) v.lrn = e.lrn;
        v.confirmed.clear();
        for (Provider p = 1; p <= 63; p++)
            if (selected(b, p, v.tn)) asked.insert(p);
    }
    v.failed.clear();
    v.status = SENDING;
    if (e.kind == RELEASES) clearDate(v);
    v.start = e.time;
    v.retries.clear();
    v.waiting = asked;
    for (Provider p : asked) out.push_back(download(v, p));
    if (asked.empty()) close(t, b, v, out);
}

// [W1] [W2]
inline void answer(Table &t, const Books &b, uint64_t R, Version &v, const Event &e, Messages &out) {
    Provider system = e.kind == REPLY ? e.sender : e.other;
    v.stamp = std::max(v.stamp, e.time);
    uint64_t used = v.retries.count(system) ? v.retries[system] : 0;
    if (e.kind == SILENCE && used < R) {
        v.retries[system] = used + 1;
        out.push_back(download(v, system));
        return;
    }
    v.waiting.erase(system);
    v.retries.erase(system);
    bool success = e.kind == REPLY && e.mark == 1;
    (success ? v.confirmed : v.failed).insert(system);
    if (v.waiting.empty()) close(t, b, v, out);
}

// [U1]
inline void purge(Table &t, const Version *v) {
    t.used.erase(t.used.begin() + (v - t.used.data()));
    t.freeRows++;
}

// An accepted event: the table after it, and its messages. [R3] sets the stamp; creates and answers see to it themselves.
inline Messages done(Table &t, const Books &b, uint64_t R, const Event &e) {
    Messages out;
    if (e.kind == NEW_CREATES || e.kind == OLD_CREATES) {
        create(t, b, e, out);
        return out;
    }
    Version &v = *findVersion(t, b, e.tn, e.version);
    if (e.kind != REPLY && e.kind != SILENCE && e.kind != PURGE) v.stamp = e.time;
    if (enters(e)) {
        turn(v, DISCONNECT_PENDING, e.due, out);
        return out;
    }
    switch (e.kind) {
    case NEW_MODIFIES: case OLD_MODIFIES: modify(v, e, out); break;
    case CANCELS: case ACKNOWLEDGES: case RESOLVES: cancelOrResolve(v, e, out); break;
    case WINDOW_RAN_OUT: windowRunsOut(v, out); break;
    case ACTIVATES: case MODIFIES_ACTIVE: case DISCONNECTS: case RESEND: broadcast(t, b, v, e, out); break;
    case RELEASES: broadcast(t, b, v, e, out); break;
    case WITHDRAWS: turn(v, ACTIVE, 0, out); break;
    case REPLY: case SILENCE: answer(t, b, R, v, e, out); break;
    default: purge(t, &v);
    }
    return out;
}

// ---- One step -------------------------------------------------------------------------------------------------------------------------

struct Result {
    Outcome outcome = DONE;
    Messages messages;
};

// A table or books that are no value at all are given as nothing, a record that is none likewise. [O2] comes before [O9].
inline Result step(std::optional<Table> &t, const std::optional<Books> &b, uint64_t R, const std::optional<Event> &e, size_t trayPlaces) {
    Result r;
    if (!b || !sound(*b) || !t || !sound(*t, *b) || R > 7 || trayPlaces < 64) r.outcome = UNSOUND;
    else if (!e || !wellFormed(*e)) r.outcome = MALFORMED;
    else r.outcome = outcomeOf(*t, *b, *e);
    if (r.outcome == DONE) r.messages = done(*t, *b, R, *e);
    return r;
}

// [A8.1] The call that gives the class of every provider: nothing with 1 or 2, which come in this order.
struct Selection {
    Outcome outcome = DONE;
    std::vector<Class> classes;  // provider n at place n, counted from 1
};

inline Selection selection(const std::optional<Books> &b, uint64_t number, size_t places) {
    Selection s;
    if (!b || !sound(*b)) s.outcome = UNSOUND;
    else if (!tenDigits(number) || places != 63) s.outcome = MALFORMED;
    if (s.outcome != DONE) return s;
    for (Provider p = 1; p <= 63; p++) s.classes.push_back(classOf(*b, p, Tn{number}));
    return s;
}

// [A5] The converter, for a table whose rows have no date: sound by what was asked before the request, that is in statuses up to 8. Its
// rows, used and free, are those of the target, each with date 0. Nothing where something is unsound or the target has not as many rows.
struct Converted {
    Outcome outcome = UNSOUND;
    Table table;
};

inline bool soundOlder(const Table &t, const Books &b) {
    for (const Version &v : t.used)
        if (v.status > 8) return false;
    return sound(t, b);
}

inline Converted convert(const std::optional<Table> &older, const std::optional<Books> &b, std::optional<size_t> rows) {
    Converted c;
    if (!b || !sound(*b)) return c;
    if (!older || !soundOlder(*older, *b)) return c;
    if (!rows || *rows != older->used.size() + older->freeRows) return c;
    c.outcome = DONE;
    c.table = *older;
    return c;
}

// [A9.1] The R of a call without R.
constexpr uint64_t DEFAULT_R = 3;

}  // namespace MODEL
