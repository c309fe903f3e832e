// The library beside the model, event by event: outcome, count, every byte of the table and every byte of the tray.
//
//     compare [events] [seed] [first sequence]
//
// Sequences of events over sound situations, with damaged slices between; neighbours exchanged as demand 3 allows; many events in one call;
// the checks of soundness alone, and where something is unsound; the class that selection gives each provider; lines with two names (A3);
// versions within one provider (A14); release dates and the converter (A5, where RELEASE_DATES of sizes.h is 1); records; the 35 flows, and
// those of lines, of versions within one provider and of release dates.
// Sequence n of a seed is always the same, so a difference is replayed with its seed and its number.
#include <cstdio>
#include <cstring>
#include <filesystem>
#include <fstream>

#include "breaks.hpp"
#include "calls.h"
#include "faults.hpp"
#include "scenario.hpp"

using namespace paper;

namespace {

// What is handed to a call, apart from the event.
struct Slices {
    Bytes table, providers, books, tray;
    uint64_t R = 0;
    bool shortCall = false;  // the call without R
};

// What selection was asked, and why a provider has its class, as far as they are counted apart.
enum Asked : size_t { TOLD, OF_UNSOUND, NO_TN, ANOTHER_LENGTH, UNSOUND_AND_NO_TN, UNSOUND_AND_ANOTHER_LENGTH, ASKED };
enum Reason : size_t { FREE, OWN_CODE_OF_PAIR, OTHER_CODE_OF_PAIR, ABSENT_IN_LIST, BEHIND_LIST, NO_SYSTEM, NO_SYSTEM_AND_FILTER,
                       NO_SYSTEM_AND_FILTERS, ONE_FILTER, TWO_FILTERS, REASONS };

// What happens on lines with two names, as far as it is counted apart.
enum OnLine : size_t { RETIRED, CONCURRED, NUMBERED, BUSY_BY_OTHER, EARLY_BY_OTHER, LIVE_BY_OTHER, OWN_OWNER, OTHER_OWNER, MANY, ON_LINE };

// What happens to versions within one provider and to the creates of them, as far as it is counted apart.
enum Within : size_t { CREATED, CREATED_ON_LINE, NOT_OF_CURRENT, BESIDE_WORKED, BESIDE_SENDING, TOO_EARLY, NO_WINDOW, NO_WINDOW_BY_PROVIDER,
                       NO_OLD_SIDE, CANCELED_AT_ONCE, ACTIVATED, CLOSED_ONCE, CLOSED_FAILED_ONCE, OTHER_CREATES, RETIRES, IS_RETIRED,
                       ACKNOWLEDGED, RESOLVED, IN_ANOTHER_KIND, OF_TWO, OF_ONE_WITHOUT, RECORD_READ, RECORD_WRITTEN, RECORD_REFUSED,
                       RECORD_TOO_WIDE, WITHIN };
enum WithinFault : size_t { TWO_WITH_TYPE, ONE_WITHOUT_TYPE, OLD_SIDE_WITH_TYPE, WINDOW_WITH_TYPE, WITHIN_FAULTS };

// [A5] What happens to disconnects and to disconnect-pending versions, as far as it is counted apart.
enum Dated : size_t { NO_DATE, DATE_BEFORE, DATE_NOW, ENTERED, ENTERED_ACTIVATE, ENTERED_MODIFY, ENTERED_DISCONNECT, ENTERED_LAST,
                      ENTERED_WITHIN, ENTERED_OTHER_NAME, NOT_ENTERED_6, NOT_ENTERED_7, NOT_ENTERED_7_FAILED, NOT_ENTERED_8,
                      NOT_ENTERED_10, STARTED, STARTED_CLOSED, STARTED_AT_DATE, STARTED_OTHER_NAME, NOT_STARTED_6, NOT_STARTED_6_ELSEWHERE,
                      NOT_STARTED_7, NOT_STARTED_8_DATE, NOT_STARTED_8_STAMP, NOT_STARTED_10, FAILED_EVERYWHERE, WITHDRAWN_BEFORE,
                      WITHDRAWN_AFTER, WITHDRAWN_BESIDE, NOT_WITHDRAWN_6, NOT_WITHDRAWN_6_ELSEWHERE, NOT_WITHDRAWN_7, NOT_WITHDRAWN_8,
                      TAKEN_OVER, TAKEN_OVER_OTHER_NAME, CREATED_BESIDE, NOT_AWAITED, DATED };
enum DatedFault : size_t { DATE_OUTSIDE, DATE_LACKS, FAILED_INSIDE, NEW_SIDE_LACKS, PURPOSE_LACKS, NOT_LIVE, DATE_SPARE, DATED_FAULTS };

// [A5] The fields by which a record of kind 16 or 17 is malformed: all but kind and sender, whose bits are all senders.
constexpr std::array<size_t, 9> ODD_FIELDS = {2, 3, 4, 5, 6, 7, 8, 9, 10};

// [A5] What the converter was given, by the one reason for which it refuses, or by the used rows that it converts; and the tables of the
// older form that were offered to check and step, by their used rows and by whether the length fits both forms.
enum Conversion : size_t { CONVERTED_NONE, CONVERTED_ONE, CONVERTED_MANY, OF_PROVIDERS, OF_BOOKS, OF_PART_ROW, OF_ROWS, OF_STATUS, OF_ROW,
                           OF_LINES, TO_FEWER, TO_MORE, TO_PART_ROW, TWO_REASONS, CONVERSIONS };
enum Older : size_t { FIT_NONE, FIT_ONE, FIT_MORE, FITS_NOT, OLDER };

struct Tally {
    uint64_t events = 0, differ = 0, records = 0, exchanged = 0, unsoundAfter = 0, checks = 0, runs = 0, stops = 0;
    uint64_t outcomes[KINDS + 2][OUTCOMES + 1] = {};  // by kind (the first and the last: no kind) and outcome (the last: no outcome)
    uint64_t tableFaults[TABLE_CLAUSES + 2] = {}, booksFaults[BOOKS_CLAUSES + 2] = {};  // by number (the last: no number)
    uint64_t shortCalls = 0, shortSilences[MOST_RETRIES + 1] = {};  // calls without R; their accepted silences by the retries used before
    uint64_t concurring[3][2] = {};  // creates that concur (by new in pending, by new in conflict, by old): done, another due date
    uint64_t selections[ASKED] = {}, reasons[REASONS] = {};  // calls of selection; the providers that it told a class of, by reason
    uint64_t broadcast[CLASSES] = {}, resent[CLASSES] = {};  // by class: providers at kinds 5, 9, 10; failed systems at a resend
    uint64_t splitLines = 0, underOther[KINDS + 1][2] = {};  // events on lines in split pairs; under another name by kind: done, refused
    uint64_t onLine[ON_LINE] = {};
    uint64_t creates[2][2] = {};  // well-formed creates, of two providers and within one: refused, done
    uint64_t within[WITHIN] = {}, withinFaults[WITHIN_FAULTS] = {};
    uint64_t dated[DATED] = {}, datedFaults[DATED_FAULTS] = {}, oddRecords[2][ODD_FIELDS.size()] = {};
    uint64_t misplaced[KINDS + 1][2] = {};  // other grid kinds on disconnect-pending versions: 7, 6
    uint64_t conversions[CONVERSIONS] = {}, older[OLDER] = {}, olderSteps[OLDER][2] = {};  // steps: refused, done
    uint64_t seed = 0, sequence = 0;
} tally;

// Counts an event by its kind, which is its record's first byte, and its outcome. False where tests/sizes.h lacks one of them: an outcome,
// or a kind that was not refused for its form.
bool counts(uint64_t kind, uint64_t outcome) {
    tally.outcomes[std::min<uint64_t>(kind, KINDS + 1)][placeOf(outcome)]++;
    bool none = kind == 0 || kind > KINDS;
    return isOutcome(outcome) && (!none || outcome == UNSOUND || outcome == MALFORMED);
}
const char *const UNCOUNTED = "an outcome or a kind that tests/sizes.h does not count";

std::string nonZeroLines(const Bytes &bytes) {
    std::string text = std::to_string(bytes.size()) + " bytes (lines not shown are zero)\n";
    for (size_t at = 0; at < bytes.size(); at += 40) {
        size_t length = std::min<size_t>(40, bytes.size() - at);
        if (!allZero(bytes.data() + at, length)) text += "    " + std::to_string(at) + ": " + hexOf(bytes.data() + at, length) + "\n";
    }
    return text;
}

void printSide(const char *who, uint64_t outcome, uint64_t count, const Bytes &table, const Bytes &tray) {
    std::printf("%s: outcome %llu, %llu messages\n", who, (unsigned long long)outcome, (unsigned long long)count);
    for (uint64_t i = 0; i < count && (i + 1) * MESSAGE <= tray.size(); i++)
        std::printf("    %s   %s\n", hexOf(tray.data() + i * MESSAGE, MESSAGE).c_str(), textOf(unpackMessage(tray.data() + i * MESSAGE)).c_str());
    std::printf("  table after: %s", nonZeroLines(table).c_str());
}

// The first difference with everything needed to replay it; of later ones a line.
void report(const char *what, const Slices &before, const Bytes &record) {
    tally.differ++;
    std::printf("DIFFERENCE %llu: %s; replay: tests/compare 1 %llu %llu\n", (unsigned long long)tally.differ, what,
                (unsigned long long)tally.seed, (unsigned long long)tally.sequence);
    if (tally.differ > 1) return;
    std::printf("event: %s\nR: %llu%s\n", hexOf(record.data(), record.size()).c_str(), (unsigned long long)before.R,
                before.shortCall ? " (the short call)" : "");
    std::printf("table: %sproviders: %s\nbooks: %stray: %s", nonZeroLines(before.table).c_str(),
                hexOf(before.providers.data(), before.providers.size()).c_str(), nonZeroLines(before.books).c_str(),
                nonZeroLines(before.tray).c_str());
    std::optional<Table> t = unpackTable(before.table.data(), before.table.size());
    std::optional<Books> b = unpackBooks(before.providers.data(), before.providers.size(), before.books.data(), before.books.size());
    if (!t || !b) return;
    std::printf("as a scenario:\n%s", textOf(Scenario{*b, *t, before.R, before.tray.size() / MESSAGE, {record}}).c_str());
}

uint8_t *at(const Bytes &bytes) {
    static uint8_t nothing[1];  // a slice's pointer is never null
    return bytes.empty() ? nothing : const_cast<uint8_t *>(bytes.data());
}

lupinenblatt_answer callLibrary(Slices &s, const Bytes &record) {
    if (s.shortCall)
        return lupinenblatt_step_default(at(s.table), s.table.size(), at(s.providers), s.providers.size(), at(s.books), s.books.size(),
                                         at(record), record.size(), at(s.tray), s.tray.size());
    return lupinenblatt_step(at(s.table), s.table.size(), at(s.providers), s.providers.size(), at(s.books), s.books.size(), s.R, at(record),
                             record.size(), at(s.tray), s.tray.size());
}

// The books, or none where the bytes are no form of any.
const Books &listsOf(const std::optional<Books> &books) {
    static const Books none;
    return books ? *books : none;
}

// The retries that a silence's system has used.
uint64_t retriesUsed(std::optional<Table> &table, const std::optional<Books> &books, const std::optional<Event> &e) {
    Version *v = table && e && e->kind == SILENCE ? findVersion(*table, listsOf(books), e->tn, e->version) : nullptr;
    return v && v->retries.count(e->other) ? v->retries[e->other] : 0;
}

// Counts a create that concurs, by its side, the version's status and the outcome; where there is no such event nothing.
void countConcurring(const std::optional<Version> &with, const std::optional<Event> &e, uint64_t outcome) {
    if (!with || (outcome != DONE && outcome != ANOTHER_DUE)) return;
    tally.concurring[e->kind == OLD_CREATES ? 2 : with->status == CONFLICT][outcome == ANOTHER_DUE]++;
}

// The worked version that a create fits.
std::optional<Version> concursWith(const std::optional<Table> &table, const std::optional<Books> &books, const std::optional<Event> &e) {
    bool create = table && e && (e->kind == NEW_CREATES || e->kind == OLD_CREATES);
    const Version *v = create ? workedVersion(*table, listsOf(books), e->tn) : nullptr;
    return v && fits(*v, *e) ? std::optional<Version>(*v) : std::nullopt;
}

// ---- Lines with two names ----

// What the table says of an event's line before it, where the line stands in a split pair.
struct LineBefore {
    bool split = false, other = false;      // in a pair; under another name than the row, or all rows, that it is for
    std::optional<Version> meant, live;     // the version that it is for (of a create the worked one); the live one
    bool fresh = false, create = false, newestOther = false, sendingOther = false;
    Time ownStamp = 0, otherStamp = 0;      // the largest of the versions under the event's name, and under the other
    Provider owner = 0, partnersOwner = 0;  // of the event's code, of its partner
    size_t own = 0, others = 0;             // versions under the event's name, and under the other
};

LineBefore lineBefore(const std::optional<Table> &table, const std::optional<Books> &books, const std::optional<Event> &e) {
    LineBefore l;
    if (!table || !books || !sound(*books) || !e || !wellFormed(*e) || !otherName(*books, e->tn)) return l;
    l.split = true, l.create = e->kind <= OLD_CREATES;
    const Version *v = l.create ? workedVersion(*table, *books, e->tn) : findVersion(*table, *books, e->tn, e->version);
    std::vector<const Version *> all = versionsOf(*table, *books, e->tn);
    uint64_t last = newest(*table, *books, e->tn);
    for (const Version *o : all) {
        bool apart = o->tn != (v && !l.create ? v->tn : e->tn);
        (o->tn == e->tn ? l.own : l.others)++;
        if (o->live) l.live = *o;
        if (o->number == last) l.newestOther = apart;
        if (o->status == SENDING && apart) l.sendingOther = true;
        Time &stamp = apart ? l.otherStamp : l.ownStamp;
        stamp = std::max(stamp, o->stamp);
    }
    if (v) l.meant = *v;
    l.fresh = l.create && !v;
    l.other = v ? v->tn != e->tn : !all.empty() && l.own == 0;
    l.owner = ownerOf(*books, codeOf(e->tn)), l.partnersOwner = ownerOf(*books, codeOf(*otherName(*books, e->tn)));
    return l;
}

// [A3.2] Whether the event turned the live version that stood under another name than the event's row old.
bool retiredOther(const LineBefore &l, const Table &after) {
    if (!l.meant || !l.live || l.create || l.live->tn == l.meant->tn) return false;
    for (const Version &v : after.used)
        if (v.tn == l.live->tn && v.number == l.live->number) return !v.live && v.status == OLD;
    return false;
}

void countLine(const LineBefore &l, const std::optional<Event> &e, uint64_t outcome, const std::optional<Table> &after) {
    if (!l.split || outcome == UNSOUND || outcome == MALFORMED) return;
    bool done = outcome == DONE, judged = l.create && !l.live && l.owner != 0 && l.partnersOwner != 0 && l.owner != l.partnersOwner;
    tally.splitLines++;
    if (l.other) tally.underOther[e->kind][!done]++;
    tally.onLine[RETIRED] += done && retiredOther(l, *after);
    tally.onLine[CONCURRED] += done && l.create && l.meant && l.other;
    tally.onLine[NUMBERED] += done && l.fresh && l.newestOther;
    tally.onLine[BUSY_BY_OTHER] += outcome == BUSY && l.sendingOther;
    bool early = outcome == EARLY && e->kind != REPLY && e->kind != SILENCE;
    tally.onLine[EARLY_BY_OTHER] += early && e->time >= l.ownStamp && e->time < l.otherStamp;
    tally.onLine[LIVE_BY_OTHER] += done && l.create && l.live && l.live->tn != e->tn;
    tally.onLine[OWN_OWNER] += judged && done;
    tally.onLine[MANY] += l.own > 12 && l.others > 12;
    tally.onLine[OTHER_OWNER] += judged && outcome == NOT_CURRENT && (e->kind == NEW_CREATES ? e->other : e->sender) == l.partnersOwner;
}

// ---- Versions within one provider ----

// The version that an event is for (of a create the worked one) and the live version of its line, before it.
struct TypesBefore {
    std::optional<Version> meant, live;
};

TypesBefore typesBefore(const std::optional<Table> &table, const std::optional<Books> &books, const std::optional<Event> &e) {
    TypesBefore t;
    if (!table || !books || !sound(*books) || !e) return t;
    const Version *v = e->kind <= OLD_CREATES ? workedVersion(*table, *books, e->tn) : findVersion(*table, *books, e->tn, e->version);
    if (v) t.meant = *v;
    for (const Version *o : versionsOf(*table, *books, e->tn))
        if (o->live) t.live = *o;
    return t;
}

// A create of the type, and one that a worked version of the type refuses.
void countCreateWithin(const TypesBefore &t, const std::optional<Books> &books, const Event &e, uint64_t outcome) {
    tally.creates[e.within][outcome == DONE]++;
    if (!e.within) {
        tally.within[OTHER_CREATES] += outcome == UNFIT && t.meant->within;
        return;
    }
    tally.within[CREATED] += outcome == DONE;
    tally.within[CREATED_ON_LINE] += outcome == DONE && otherName(*books, e.tn);
    tally.within[NOT_OF_CURRENT] += outcome == NOT_CURRENT;
    tally.within[BESIDE_WORKED] += outcome == UNFIT;
    tally.within[BESIDE_SENDING] += outcome == BUSY;
    tally.within[TOO_EARLY] += outcome == EARLY;
}

// What is left of a version after an event; of one that was purged nothing.
const Version *leftOf(const Table &after, const Version &v) {
    for (const Version &o : after.used)
        if (o.tn == v.tn && o.number == v.number) return &o;
    return nullptr;
}

// An activation that closes: its messages, and the live version that it turns old.
void countClosing(const TypesBefore &t, const Event &e, const Table &after, const Messages &told) {
    const Version *v = leftOf(after, *t.meant);
    bool answers = e.kind == REPLY || e.kind == SILENCE || e.kind == RESEND;
    bool activation = e.kind == ACTIVATES || (answers && t.meant->purpose == ACTIVATE);
    if (!activation || v->status == SENDING) return;
    size_t once = 0;
    for (const Message &m : told) once += m.sort == STATUS;
    tally.within[v->status == FAILED ? CLOSED_FAILED_ONCE : CLOSED_ONCE] += v->within && once == 1;
    if (!t.live || t.live->number == v->number || leftOf(after, *t.live)->live) return;
    tally.within[RETIRES] += v->within;
    tally.within[IS_RETIRED] += !v->within && t.live->within;
}

void countWithin(const TypesBefore &t, const std::optional<Books> &books, const std::optional<Event> &e, const Result &r,
                 const std::optional<Table> &after) {
    if (!e || r.outcome == UNSOUND) return;
    bool creates = e->kind == NEW_CREATES || e->kind == OLD_CREATES, malformed = r.outcome == MALFORMED;
    tally.within[IN_ANOTHER_KIND] += malformed && e->within && e->kind != NEW_CREATES;
    tally.within[OF_TWO] += malformed && e->within && e->kind == NEW_CREATES && e->sender != e->other;
    tally.within[OF_ONE_WITHOUT] += malformed && !e->within && creates && e->sender == e->other;
    if (malformed) return;
    if (creates) return countCreateWithin(t, books, *e, r.outcome);
    if (!t.meant) return;
    if (r.outcome == DONE && e->kind != PURGE) countClosing(t, *e, *after, r.messages);
    if (!t.meant->within) return;
    tally.within[NO_WINDOW] += e->kind == WINDOW_RAN_OUT && e->sender == NPAC && r.outcome == MISPLACED;
    tally.within[NO_WINDOW_BY_PROVIDER] += e->kind == WINDOW_RAN_OUT && r.outcome == STANDLESS;
    bool its = e->sender == t.meant->newProvider;
    tally.within[NO_OLD_SIDE] += e->kind == OLD_MODIFIES && its && r.outcome == STANDLESS;
    tally.within[ACKNOWLEDGED] += e->kind == ACKNOWLEDGES && its && r.outcome == MISPLACED;
    tally.within[RESOLVED] += e->kind == RESOLVES && its && r.outcome == MISPLACED;
    tally.within[CANCELED_AT_ONCE] += e->kind == CANCELS && r.outcome == DONE && leftOf(*after, *t.meant)->status == CANCELED;
    tally.within[ACTIVATED] += e->kind == ACTIVATES && r.outcome == DONE;
}

// ---- Release dates (A5) ----

// The version that an event is for and the disconnect-pending version of its line, before it; whether another version than the first is
// sending, and the largest stamp of the line.
struct DatesBefore {
    std::optional<Version> meant, pending;
    bool beside = false;
    Time stamp = 0;
};

DatesBefore datesBefore(const std::optional<Table> &table, const std::optional<Books> &books, const std::optional<Event> &e) {
    DatesBefore t;
    if (!RELEASE_DATES || !table || !books || !sound(*books) || !e) return t;
    const Version *v = findVersion(*table, *books, e->tn, e->version);
    if (v) t.meant = *v;
    for (const Version *o : versionsOf(*table, *books, e->tn))
        if (o->status == DISCONNECT_PENDING) t.pending = *o;
    t.beside = sendingBeside(*table, *books, e->tn, v), t.stamp = largestStamp(*table, *books, e->tn);
    return t;
}

void countDisconnect(const DatesBefore &t, const Event &e, uint64_t outcome) {
    const Version &v = *t.meant;
    bool done = outcome == DONE;
    if (!enters(e)) {
        tally.dated[e.due == 0 ? NO_DATE : e.due < e.time ? DATE_BEFORE : DATE_NOW] += done;
        return;
    }
    tally.dated[ENTERED] += done;
    tally.dated[v.purpose == ACTIVATE ? ENTERED_ACTIVATE : v.purpose == MODIFY ? ENTERED_MODIFY : ENTERED_DISCONNECT] += done;
    tally.dated[ENTERED_LAST] += done && e.due == LAST_TIME;
    tally.dated[ENTERED_WITHIN] += done && v.within;
    tally.dated[ENTERED_OTHER_NAME] += done && v.tn != e.tn;
    tally.dated[NOT_ENTERED_6] += outcome == STANDLESS;
    tally.dated[v.status == ACTIVE ? NOT_ENTERED_7_FAILED : NOT_ENTERED_7] += outcome == MISPLACED;
    tally.dated[NOT_ENTERED_8] += outcome == EARLY;
    tally.dated[NOT_ENTERED_10] += outcome == BUSY;
}

void countStart(const DatesBefore &t, const Event &e, uint64_t outcome, const Table &after) {
    const Version &v = *t.meant;
    bool done = outcome == DONE, early = outcome == EARLY;
    tally.dated[STARTED] += done;
    tally.dated[STARTED_CLOSED] += done && leftOf(after, v)->status == OLD;
    tally.dated[STARTED_AT_DATE] += done && e.time == v.release;
    tally.dated[STARTED_OTHER_NAME] += done && v.tn != e.tn;
    tally.dated[v.status == DISCONNECT_PENDING ? NOT_STARTED_6 : NOT_STARTED_6_ELSEWHERE] += outcome == STANDLESS;
    tally.dated[NOT_STARTED_7] += outcome == MISPLACED;
    tally.dated[NOT_STARTED_8_DATE] += early && e.time >= t.stamp;
    tally.dated[NOT_STARTED_8_STAMP] += early && e.time >= v.release;
    tally.dated[NOT_STARTED_10] += outcome == BUSY;
}

void countWithdrawal(const DatesBefore &t, const Event &e, uint64_t outcome) {
    bool done = outcome == DONE;
    tally.dated[e.time < t.meant->release ? WITHDRAWN_BEFORE : WITHDRAWN_AFTER] += done;
    tally.dated[WITHDRAWN_BESIDE] += done && t.beside;
    tally.dated[t.meant->status == DISCONNECT_PENDING ? NOT_WITHDRAWN_6 : NOT_WITHDRAWN_6_ELSEWHERE] += outcome == STANDLESS;
    tally.dated[NOT_WITHDRAWN_7] += outcome == MISPLACED;
    tally.dated[NOT_WITHDRAWN_8] += outcome == EARLY;
}

// A record of kind 16 or 17 that one field alone makes malformed.
void countOddRecord(const Event &e) {
    if (e.kind != RELEASES && e.kind != WITHDRAWS) return;
    Event good;
    good.kind = e.kind, good.tn.digits = 2002000000, good.version = 1, good.time = 1;
    for (size_t i = 0; i < ODD_FIELDS.size(); i++) {
        Fields f = fieldsOf(e);
        f[ODD_FIELDS[i]] = fieldsOf(good)[ODD_FIELDS[i]];
        tally.oddRecords[e.kind - RELEASES][i] += wellFormed(eventOf(f));
    }
}

void countDates(const DatesBefore &t, const std::optional<Event> &e, const Result &r, const std::optional<Table> &after) {
    if (!RELEASE_DATES || !e || r.outcome == UNSOUND) return;
    if (r.outcome == MALFORMED) return countOddRecord(*e);
    bool creates = e->kind == NEW_CREATES || e->kind == OLD_CREATES, answers = e->kind == REPLY || e->kind == SILENCE;
    tally.dated[CREATED_BESIDE] += creates && t.pending && r.outcome == DONE;
    if (creates || !t.meant) return;
    bool takes = t.pending && t.pending->number != t.meant->number && r.outcome == DONE && e->kind != PURGE;
    bool taken = takes && leftOf(*after, *t.pending)->status == OLD;
    tally.dated[TAKEN_OVER] += taken;
    tally.dated[TAKEN_OVER_OTHER_NAME] += taken && t.pending->tn != t.meant->tn;
    bool closes = answers && r.outcome == DONE && t.meant->purpose == DISCONNECT;
    tally.dated[FAILED_EVERYWHERE] += closes && leftOf(*after, *t.meant)->status == ACTIVE;
    if (e->kind == DISCONNECTS) countDisconnect(t, *e, r.outcome);
    if (e->kind == RELEASES) countStart(t, *e, r.outcome, *after);
    if (e->kind == WITHDRAWS) countWithdrawal(t, *e, r.outcome);
    if (t.meant->status != DISCONNECT_PENDING) return;
    tally.dated[NOT_AWAITED] += answers && r.outcome == UNAWAITED;
    if (r.outcome == MISPLACED || r.outcome == STANDLESS) tally.misplaced[e->kind][r.outcome == STANDLESS]++;
}

// ---- Selection ----

#ifdef TEST_SELECTION
// For what is asked beside the events' own numbers. It follows from the seed and the sequence; the events do not depend on it.
Dice asking(0);

Reason reasonOf(const Books &b, Provider p, Tn tn) {
    std::optional<Code> partner = partnerOf(b, codeOf(tn));
    bool own = hasFilter(b, p, codeOf(tn)), other = partner && hasFilter(b, p, *partner);
    if (p > b.providers.size()) return BEHIND_LIST;
    if (!present(b, p)) return ABSENT_IN_LIST;
    if (!runsLocalSms(b, p)) return own && !partner ? NO_SYSTEM_AND_FILTER : own && other ? NO_SYSTEM_AND_FILTERS : NO_SYSTEM;
    if (!partner) return own ? ONE_FILTER : FREE;
    return own && other ? TWO_FILTERS : own ? OWN_CODE_OF_PAIR : other ? OTHER_CODE_OF_PAIR : FREE;
}

// The class of a reason, which must be the one that the model gives.
constexpr Class CLASS_OF[REASONS] = {SELECTED, SELECTED, SELECTED, NOT_PRESENT, NOT_PRESENT, NO_LOCAL_SMS, NO_LOCAL_SMS, NO_LOCAL_SMS,
                                     FILTER_ON_THE_ONLY_CODE, FILTERS_ON_BOTH_CODES};

// Counts a call; false where the counts and the model disagree on a class.
bool countSelection(const std::optional<Books> &books, uint64_t tn, size_t places, const Selection &model) {
    bool noTn = !tenDigits(tn), length = places != CLASS_PLACES;
    if (model.outcome == UNSOUND) tally.selections[noTn ? UNSOUND_AND_NO_TN : length ? UNSOUND_AND_ANOTHER_LENGTH : OF_UNSOUND]++;
    else tally.selections[noTn ? NO_TN : length ? ANOTHER_LENGTH : TOLD]++;
    for (size_t i = 0; i < model.classes.size(); i++) {
        Reason reason = reasonOf(*books, i + 1, Tn{tn});
        tally.reasons[reason]++;
        if (CLASS_OF[reason] != model.classes[i]) return false;
    }
    return true;
}

// One call on these slices, the classes between guard bytes: its answer, the classes (then the library's), and that it writes nothing else.
bool compareSelection(const Slices &s, const std::optional<Books> &books, uint64_t tn, size_t places, Bytes &classes) {
    constexpr size_t EDGE = 16;
    Bytes providers = s.providers, lists = s.books, out(places + 2 * EDGE), out2;
    for (uint8_t &byte : out) byte = uint8_t(0xa0 + asking.below(64));
    out2 = out;
    uint64_t said = lupinenblatt_selection(at(providers), providers.size(), at(lists), lists.size(), tn, out.data() + EDGE, places);
    Selection model = selection(books, tn, places);
    std::copy(model.classes.begin(), model.classes.end(), out2.begin() + long(EDGE));
    classes.assign(out.begin() + long(EDGE), out.end() - long(EDGE));
    const char *what = said != model.outcome ? "selection: outcome" : out != out2 ? "selection: classes"
        : providers != s.providers || lists != s.books ? "selection: a slice that is only read was written to"
        : !countSelection(books, tn, places, model) ? "selection: counted as another class" : nullptr;
    if (!what) return true;
    report(what, s, Bytes());
    if (tally.differ > 1) return false;
    std::printf("TN %llu, %zu bytes\nmodel: outcome %llu, %s\nlibrary: outcome %llu, %s\n", (unsigned long long)tn, places,
                (unsigned long long)model.outcome, hexOf(out2.data(), out2.size()).c_str(), (unsigned long long)said,
                hexOf(out.data(), out.size()).c_str());
    return false;
}

// A number that is hardly ever a TN: higher bits before this one, digits before it, digits cut off, one of them 0 or 1; edges; any.
uint64_t hardlyTn(Dice &d, uint64_t tn) {
    static const std::vector<uint64_t> edges = {0, 1, 1999999999, 2000000000, 2001999999, 2002000000, 9991999999, 9999999999, 10000000000,
                                                ~uint64_t(0)};
    switch (d.below(6)) {
    case 0: return tn + (uint64_t(1) << d.between(34, 63));
    case 1: return tn + 10000000000 * d.between(1, 1844674406);
    case 2: return d.chance(50) ? tn / 10 : tn / 10000;
    case 3: return badDigits(d, tn);
    case 4: return d.pick(edges);
    default: return d.next() >> d.below(64);
    }
}

// A TN of another code: of a filter, of a pair, any.
uint64_t otherTn(Dice &d, const std::optional<Books> &books) {
    uint64_t line = d.below(10000);
    if (books && !books->filters.empty() && d.chance(50)) return d.pick(books->filters).code * 10000 + line;
    if (!books || books->splits.empty() || d.chance(20)) return anyTenDigits(d);
    const SplitEntry &pair = d.pick(books->splits);
    return (d.chance(50) ? pair.one : pair.two) * 10000 + line;
}

// The class of each provider for an event's number, and now and then for another, or with a slice of another length.
bool compareSelections(const Slices &s, const std::optional<Books> &books, uint64_t tn, Bytes &classes) {
    static const std::vector<size_t> lengths = {0, 1, 62, 62, 64, 64, 126};
    Bytes others;
    if (!compareSelection(s, books, tn, CLASS_PLACES, classes)) return false;
    if (asking.chance(75)) return true;
    uint64_t way = asking.below(100), other = way < 40 ? hardlyTn(asking, tn) : way < 75 ? otherTn(asking, books) : tn;
    size_t places = way < 30 || (way >= 40 && way < 70) ? CLASS_PLACES : asking.chance(90) ? asking.pick(lengths) : asking.below(200);
    return compareSelection(s, books, other, places, others);
}

// What selection says before an event, and the failed set that its version has then.
struct Before {
    Bytes classes;
    Systems failed;
};

// [A8.2] Of the library's own answers: downloads of kinds 5, 9 and 10, [A5] and 16, go to the selected, those of 14 to the selected that had
// failed.
const char *downloadsFault(uint64_t kind, const Before &before, const lupinenblatt_answer &library, const Bytes &tray) {
    Systems asked, chosen;
    for (uint64_t i = 0; i < library.count; i++) {
        Message m = unpackMessage(tray.data() + i * MESSAGE);
        if (m.localSms && m.sort >= DOWNLOAD_CREATE && m.sort <= DOWNLOAD_DELETE) asked.insert(m.provider);
    }
    for (Provider p = 1; p <= PROVIDERS; p++) {
        if (kind == RESEND && !before.failed.count(p)) continue;
        uint8_t number = before.classes[p - 1];
        if (number == SELECTED) chosen.insert(p);
        (kind == RESEND ? tally.resent : tally.broadcast)[number]++;
    }
    return asked == chosen ? nullptr : "selection and the downloads";
}

// The number of an event, whatever its record is.
uint64_t numberIn(const uint8_t *record, size_t length) {
    if (length < 8) return 0;
    WordReader w(record);
    w.take(30);
    return w.take(34);
}

bool lookBefore(const Slices &s, const Bytes &record, std::optional<Table> &table, const std::optional<Books> &books, Before &before) {
    std::optional<Event> e = unpackEvent(record.data(), record.size());
    const Version *v = table && e && e->kind == RESEND ? findVersion(*table, listsOf(books), e->tn, e->version) : nullptr;
    before.failed = v ? v->failed : Systems();
    return compareSelections(s, books, numberIn(record.data(), record.size()), before.classes);
}

// After it: whether a broadcast went where selection had said.
const char *lookAfter(const Slices &s, const Bytes &record, const Before &before, const lupinenblatt_answer &library) {
    uint64_t kind = record.empty() ? 0 : record[0];
    std::optional<Event> e = unpackEvent(record.data(), record.size());
    bool disconnects = (kind == DISCONNECTS && !(e && enters(*e))) || kind == RELEASES;
    bool broadcasts = kind == ACTIVATES || kind == MODIFIES_ACTIVE || disconnects || kind == RESEND;
    return broadcasts && library.outcome == DONE ? downloadsFault(kind, before, library, s.tray) : nullptr;
}

// The same for every number of these records, without an event.
bool lookAtAll(const Slices &s, const Bytes &records) {
    std::optional<Books> books = unpackBooks(s.providers.data(), s.providers.size(), s.books.data(), s.books.size());
    std::set<uint64_t> numbers;
    Bytes classes;
    for (size_t from = 0; from + RECORD <= records.size(); from += RECORD) numbers.insert(numberIn(records.data() + from, RECORD));
    for (uint64_t tn : numbers)
        if (!compareSelections(s, books, tn, classes)) return false;
    return true;
}
#else
struct Before {};
bool lookBefore(const Slices &, const Bytes &, std::optional<Table> &, const std::optional<Books> &, Before &) { return true; }
const char *lookAfter(const Slices &, const Bytes &, const Before &, const lupinenblatt_answer &) { return nullptr; }
bool lookAtAll(const Slices &, const Bytes &) { return true; }
#endif

// ---- Events ----

// One event through both. The slices are the library's, table and books the model's. False where they differ.
bool compareStep(Slices &s, const Bytes &record, std::optional<Table> &table, const std::optional<Books> &books, Result &model,
                 lupinenblatt_answer &library) {
    static Slices before;
    static Bytes table2, tray2;
    Before said;
    if (!lookBefore(s, record, table, books, said)) return false;
    before = s;
    library = callLibrary(s, record);
    std::optional<Event> e = unpackEvent(record.data(), record.size());
    uint64_t used = retriesUsed(table, books, e);
    std::optional<Version> with = concursWith(table, books, e);
    LineBefore line = lineBefore(table, books, e);
    TypesBefore types = typesBefore(table, books, e);
    DatesBefore dates = datesBefore(table, books, e);
    model = step(table, books, s.R, e, s.tray.size() / MESSAGE);
    tray2 = before.tray;
    if (model.outcome == DONE) {
        packTable(*table, table2);
        packTray(model.messages, tray2.data());
    } else {
        table2 = before.table;
    }
    tally.events++, tally.shortCalls += s.shortCall;
    if (s.shortCall && model.outcome == DONE && e->kind == SILENCE) tally.shortSilences[used]++;
    countConcurring(with, e, model.outcome);
    countLine(line, e, model.outcome, table);
    countWithin(types, books, e, model, table);
    countDates(dates, e, model, table);
    bool counted = counts(record.empty() ? 0 : record[0], model.outcome);
    const char *what = library.outcome != model.outcome ? "outcome" : library.count != model.messages.size() ? "count"
        : s.table != table2 ? "table" : s.tray != tray2 ? "tray" : s.providers != before.providers ? "providers written to"
        : s.books != before.books ? "books written to" : !counted ? UNCOUNTED : lookAfter(s, record, said, library);
    if (model.outcome == DONE && !sound(*table, *books)) what = "the model leaves an unsound table", tally.unsoundAfter++;
    if (!what) return true;
    report(what, before, record);
    if (tally.differ == 1) {
        printSide("model", model.outcome, model.messages.size(), table2, tray2);
        printSide("library", library.outcome, library.count, s.table, s.tray);
    }
    return false;
}

bool compareStep(Slices &s, const Bytes &record, std::optional<Table> &table, const std::optional<Books> &books) {
    Result model;
    lupinenblatt_answer library;
    return compareStep(s, record, table, books, model, library);
}

Slices slicesOf(Dice &d, const Situation &s) {
    Slices out;
    packTable(s.table, out.table);
    out.providers = packProviders(s.books);
    out.books = packBooks(s.books);
    out.R = s.R;
    out.shortCall = s.R == DEFAULT_R && d.chance(60);
    out.tray.resize(PLACES * MESSAGE + (d.chance(25) ? d.below(60) : 0));
    for (uint8_t &byte : out.tray) byte = uint8_t(d.next());
    return out;
}

// One of the slices or R damaged, now and then two slices.
void damage(Dice &d, Slices &s, const Situation &now) {
    static const std::vector<size_t> trayLengths = {0, 1, MESSAGE, (PLACES - 1) * MESSAGE, PLACES * MESSAGE - 1, PLACES * MESSAGE,
                                                    PLACES * MESSAGE + 1, (PLACES + 36) * MESSAGE};
    s.shortCall = false;
    uint64_t way = d.below(100);
    if (way < 27) s.table = damagedTable(d, now.table);
    else if (way < 55) s.table = brokenTable(d, now.table, now.books);
    else if (way < 65) s.books = damagedBooks(d, now.books);
    else if (way < 78) s.books = brokenBooks(d, now.books);
    else if (way < 82) s.providers = damagedProviders(d, now.books);
    else if (way < 86) s.providers = brokenProviders(d, now.books);
    else if (way < 93) s.tray.resize(d.pick(trayLengths));
    else s.R = d.chance(60) ? d.between(MOST_RETRIES, MOST_RETRIES + 2) : d.chance(50) ? d.next() : uint64_t(1) << d.between(3, 63);
    if (way < 86 && d.chance(8)) s.books = brokenBooks(d, now.books);
    if (way < 86 && d.chance(8)) s.providers = brokenProviders(d, now.books);
}

// The checks of soundness alone: what they answer of these slices, and that they write nothing.
bool compareChecks(const Slices &s, const std::optional<Table> &table, const std::optional<Books> &books) {
#ifdef TEST_CHECKS
    Slices kept = s;
    tally.checks++;
    lupinenblatt_answer a = lupinenblatt_table_check(at(kept.table), kept.table.size(), at(kept.providers), kept.providers.size(),
                                                     at(kept.books), kept.books.size());
    uint64_t b = lupinenblatt_books_check(at(kept.providers), kept.providers.size(), at(kept.books), kept.books.size());
    bool booksSound = books && sound(*books), tableSound = booksSound && table && sound(*table, *books);
    const char *what = a.outcome != (tableSound ? DONE : UNSOUND) ? "table_check: outcome"
        : a.count != (tableSound ? table->used.size() : 0) ? "table_check: used rows" : b != (booksSound ? DONE : UNSOUND) ? "books_check"
        : kept.table != s.table || kept.providers != s.providers || kept.books != s.books ? "a check wrote" : nullptr;
    if (what) report(what, s, Bytes());
    return !what;
#else
    return (void)s, (void)table, (void)books, true;
#endif
}

#ifdef TEST_FAULTS
void printFault(const char *who, const Fault &f) {
    std::printf("%s: number %llu, place %llu, second %llu\n", who, (unsigned long long)f.clause, (unsigned long long)f.place,
                (unsigned long long)f.second);
}

// Numbers 14 and 37 by what the row has.
void countWithinFault(const Bytes &table, const Fault &f) {
    if (f.clause != 14 && f.clause != 37) return;
    Row r = readRow(table.data() + (f.place - 1) * ROW);
    if (f.clause == 14) tally.withinFaults[r.within ? TWO_WITH_TYPE : ONE_WITHOUT_TYPE]++;
    else tally.withinFaults[r.oldCreated ? OLD_SIDE_WITH_TYPE : WINDOW_WITH_TYPE]++;
}

// [A5] Numbers 38 and 39, and those before them that speak of status 9 or of the date's word.
void countDatedFault(const Bytes &table, const Fault &f) {
    if (!RELEASE_DATES || f.place == 0) return;
    Row r = readRow(table.data() + (f.place - 1) * ROW);
    bool pending = r.status == DISCONNECT_PENDING;
    tally.datedFaults[pending ? DATE_LACKS : DATE_OUTSIDE] += f.clause == 38;
    tally.datedFaults[FAILED_INSIDE] += f.clause == 39;
    tally.datedFaults[NEW_SIDE_LACKS] += f.clause == 18 && pending;
    tally.datedFaults[PURPOSE_LACKS] += f.clause == 25 && pending;
    tally.datedFaults[NOT_LIVE] += f.clause == 26 && pending;
    tally.datedFaults[DATE_SPARE] += f.clause == 4 && !readRow(table.data() + (f.place - 1) * ROW, OLDER_ROW).spare;
}

// Whether the table's check finds nothing with this provider list and these books.
bool checked(const Bytes &table, const Bytes &providers, const Bytes &books) {
    return lupinenblatt_table_check(at(table), table.size(), at(providers), providers.size(), at(books), books.size()).outcome == DONE;
}

// The verdict of the calls that say where against that of the two checks. With nobody in empty books the table's check judges rows alone.
const char *verdictFault(const Slices &s, const Fault &table, const Fault &books) {
#ifdef TEST_CHECKS
    bool all = checked(s.table, s.providers, s.books), rows = checked(s.table, Bytes(), Bytes(BOOKS));
    bool lists = lupinenblatt_books_check(at(s.providers), s.providers.size(), at(s.books), s.books.size()) == DONE;
    bool ofLines = table.clause > 32 && table.clause < 37;
    if ((table.clause == 0) != all) return "table_fault and the table's check";
    if ((table.clause == 32) != (rows && !lists)) return "table_fault and the two checks";
    if (ofLines != (rows && lists && !all)) return "table_fault and the table's check of lines";
    if ((books.clause == 0) != lists) return "books_fault and books_check";
#endif
    return (void)s, (void)table, (void)books, nullptr;
}
#endif

// Where these slices are unsound: clause, place and second place; that the verdict is the checks'; and that nothing is written.
bool compareFaults(const Slices &s) {
#ifdef TEST_FAULTS
    Slices kept = s;
    lupinenblatt_fault t = lupinenblatt_table_fault(at(kept.table), kept.table.size(), at(kept.providers), kept.providers.size(),
                                                    at(kept.books), kept.books.size());
    lupinenblatt_fault b = lupinenblatt_books_fault(at(kept.providers), kept.providers.size(), at(kept.books), kept.books.size());
    Fault table = {t.clause, t.place, t.second}, books = {b.clause, b.place, b.second};
    Fault table2 = tableFault(s.table.data(), s.table.size(), s.providers.data(), s.providers.size(), s.books.data(), s.books.size());
    Fault books2 = booksFault(s.providers.data(), s.providers.size(), s.books.data(), s.books.size());
    bool counted = table2.clause <= TABLE_CLAUSES && books2.clause <= BOOKS_CLAUSES;
    tally.tableFaults[std::min<uint64_t>(table2.clause, TABLE_CLAUSES + 1)]++;
    tally.booksFaults[std::min<uint64_t>(books2.clause, BOOKS_CLAUSES + 1)]++;
    countWithinFault(s.table, table2);
    countDatedFault(s.table, table2);
    const char *what = !(table == table2) ? "table_fault" : !(books == books2) ? "books_fault"
        : kept.table != s.table || kept.providers != s.providers || kept.books != s.books ? "a call that says where wrote"
        : !counted ? "a clause that tests/sizes.h does not count" : verdictFault(kept, table, books);
    if (!what) return true;
    report(what, s, Bytes());
    printFault("model, table", table2), printFault("library, table", table);
    printFault("model, books", books2), printFault("library, books", books);
    return false;
#else
    return (void)s, true;
#endif
}

// An event on damaged copies of the slices; some damage leaves them sound, and then the event counts as any other.
bool compareDamaged(Dice &d, const Slices &sane, const Situation &now, const Event &e) {
    Slices s = sane;
    Bytes record = packEvent(e);
    damage(d, s, now);
    if (d.chance(10)) record = damagedRecord(d, e);
    std::optional<Table> table = unpackTable(s.table.data(), s.table.size());
    std::optional<Books> books = unpackBooks(s.providers.data(), s.providers.size(), s.books.data(), s.books.size());
    if (!compareChecks(s, table, books) || !compareFaults(s)) return false;
    return compareStep(s, record, table, books);
}

// ---- The older form (A5) ----

// How many rows of the older form are as many bytes as rows of today's.
constexpr size_t COMMON = 11;

// A table of the older form offered by mistake to the checks and the step, as they would take any bytes. With two used rows or more it is
// refused whatever its length; with none or one and a length that fits both forms it says the same versions.
bool compareOlder(Dice &d, const Slices &sane, const Situation &now) {
    Situation then = now;
    then.table = olderTable(d, now.table);
    size_t used = then.table.used.size(), rows = used + d.below(30);
    bool fits = d.chance(85);
    rows = rows / COMMON * COMMON + (fits ? COMMON : d.between(1, COMMON - 1));
    if (fits) rows = std::min<size_t>(rows, MOST_ROWS / COMMON * COMMON);
    if (rows < used) return true;
    then.table.freeRows = rows - used;
    Slices s = sane;
    packTable(then.table, s.table, OLDER_ROW);
    std::optional<Table> table = unpackTable(s.table.data(), s.table.size());
    std::optional<Books> books = unpackBooks(s.providers.data(), s.providers.size(), s.books.data(), s.books.size());
    bool same = fits && used < 2;
    if (same != (table && table->used.size() == used && (used == 0 || textOf(table->used[0]) == textOf(then.table.used[0])))) {
        report("older: another reading", s, Bytes());
        return false;
    }
    Older place = !fits ? FITS_NOT : used == 0 ? FIT_NONE : used == 1 ? FIT_ONE : FIT_MORE;
    tally.older[place]++;
    if (!compareChecks(s, table, books) || !compareFaults(s)) return false;
    Event e = nextEvent(d, then, 85);
    Result model;
    lupinenblatt_answer library;
    if (!compareStep(s, packEvent(e), table, books, model, library)) return false;
    tally.olderSteps[place][library.outcome == DONE]++;
    if (same == (library.outcome != UNSOUND)) return true;
    report("older: refused or taken wrongly", s, packEvent(e));
    return false;
}

#ifdef TEST_CONVERT
// Why the converter refuses this, or how many rows it converts.
Conversion conversionOf(const Slices &s, size_t length, const std::optional<Table> &older, uint64_t outcome) {
    if (outcome == DONE) return older->used.empty() ? CONVERTED_NONE : older->used.size() == 1 ? CONVERTED_ONE : CONVERTED_MANY;
    Bytes wide(s.table.size() / OLDER_ROW * ROW);
    for (size_t i = 0; i < s.table.size() / OLDER_ROW; i++)
        std::copy_n(s.table.begin() + long(i * OLDER_ROW), OLDER_ROW, wide.begin() + long(i * ROW));
    Fault rows = tableFault(wide.data(), wide.size(), s.providers.data(), s.providers.size(), s.books.data(), s.books.size());
    Fault lists = booksFault(s.providers.data(), s.providers.size(), s.books.data(), s.books.size());
    bool part = s.table.size() % OLDER_ROW != 0, table = rows.clause != 0 && rows.clause != 32, another = length != wide.size();
    if (part + table + (lists.clause != 0) + another > 1) return TWO_REASONS;
    if (lists.clause != 0) return lists.clause <= 2 ? OF_PROVIDERS : OF_BOOKS;
    if (part) return OF_PART_ROW;
    if (another) return length % ROW != 0 ? TO_PART_ROW : length < wide.size() ? TO_FEWER : TO_MORE;
    return rows.clause == 2 ? OF_ROWS : rows.clause == 38 ? OF_STATUS : rows.clause > 32 && rows.clause < 37 ? OF_LINES : OF_ROW;
}

// One call, the target between guard bytes: its answer, every byte of the target, and that it writes nothing else. What was converted is
// sound by the library's own check.
bool compareConversion(const Slices &s, const Bytes &target) {
    constexpr size_t EDGE = 16;
    Slices kept = s;
    Bytes out(EDGE, 0xa7), out2;
    out.insert(out.end(), target.begin(), target.end()), out.resize(out.size() + EDGE, 0x7a);
    out2 = out;
    std::optional<Table> older = unpackTable(s.table.data(), s.table.size(), OLDER_ROW);
    std::optional<Books> books = unpackBooks(s.providers.data(), s.providers.size(), s.books.data(), s.books.size());
    Converted model = convert(older, books, rowsIn(target.size()));
    if (model.outcome == DONE)
        for (size_t i = 0; i < model.table.used.size() + model.table.freeRows; i++) {
            std::fill_n(out2.begin() + long(EDGE + i * ROW), ROW, uint8_t(0));
            if (i < model.table.used.size()) packRow(model.table.used[i], out2.data() + EDGE + i * ROW);
        }
    lupinenblatt_answer a = lupinenblatt_convert(at(kept.table), kept.table.size(), at(kept.providers), kept.providers.size(),
                                                 at(kept.books), kept.books.size(), out.data() + EDGE, target.size());
    tally.conversions[conversionOf(s, target.size(), older, model.outcome)]++;
    const char *what = a.outcome != model.outcome ? "convert: outcome" : a.count != model.table.used.size() ? "convert: used rows"
        : out != out2 ? "convert: target"
        : kept.table != s.table || kept.providers != s.providers || kept.books != s.books ? "convert: a slice that is only read was written"
        : nullptr;
#ifdef TEST_CHECKS
    if (!what && a.outcome == DONE) {
        lupinenblatt_answer b = lupinenblatt_table_check(out.data() + EDGE, target.size(), at(s.providers), s.providers.size(), at(s.books),
                                                         s.books.size());
        if (b.outcome != DONE || b.count != a.count) what = "convert and the table's check";
    }
#endif
    if (!what) return true;
    report(what, s, Bytes());
    std::printf("target of %zu bytes; model: outcome %llu, %zu rows; library: outcome %llu, %llu rows\n", target.size(),
                (unsigned long long)model.outcome, model.table.used.size(), (unsigned long long)a.outcome, (unsigned long long)a.count);
    return false;
}

// A table of the older form, mostly sound, and a target, mostly of the right length.
bool compareConvert(Dice &d, const Slices &sane, const Situation &now) {
    Situation then = now;
    if (d.chance(92)) then.table = olderTable(d, now.table);
    if (!then.books.splits.empty() && d.chance(5)) breakLines(d, then.table, then.books);
    Slices s = sane;
    packTable(then.table, s.table);
    if (d.chance(45)) damage(d, s, then);
    s.table = narrowed(s.table);
    if (d.chance(2)) s.table.resize(d.chance(50) ? s.table.size() + d.between(1, OLDER_ROW - 1) : (MOST_ROWS + d.between(1, 3)) * OLDER_ROW);
    size_t rows = s.table.size() / OLDER_ROW, length = rows * ROW;
    if (d.chance(12)) {
        size_t more = (rows + d.between(1, 3)) * ROW, less = (rows - std::min<size_t>(rows, d.between(1, 3))) * ROW;
        size_t part = length + d.between(1, ROW - 1), shorter = length - std::min<size_t>(length, 1);
        length = d.pick(std::vector<size_t>{more, less, part, shorter, s.table.size()});
    }
    Bytes target(length);
    for (uint8_t &byte : target) byte = uint8_t(d.next());
    return compareConversion(s, target);
}
#else
bool compareConvert(Dice &, const Slices &, const Situation &) { return true; }
#endif

// ---- Records ----

bool recordsAgree(const Bytes &bytes, const Fields &f, size_t places, size_t length) {
    std::vector<uint64_t> fields(std::max<size_t>(places, 1), 0x5a5a), fields2 = fields;
    uint8_t nothing = 0;
    uint8_t said = lupinenblatt_record_read(bytes.empty() ? &nothing : bytes.data(), bytes.size(), fields.data(), places);
    std::optional<Fields> read = readRecord(bytes.data(), bytes.size());
    if (places != FIELDS) read = std::nullopt;
    if (read) std::copy(read->begin(), read->end(), fields2.begin());
    if (said != (read ? DONE : MALFORMED) || fields != fields2) return false;
    Bytes out(std::max<size_t>(length, 1), 0xa5), out2 = out;
    said = lupinenblatt_record_write(f[0], f[1], f[2], f[3], f[4], f[5], f[6], f[7], f[8], f[9], f[10], out.data(), length);
    std::optional<Bytes> written = writeRecord(f, length);
    if (written) out2 = *written;
    return said == (written ? DONE : MALFORMED) && out == out2;
}

// The type in the record that is read and in the fields that are written, but for other places and lengths.
void countRecords(const Bytes &bytes, const Fields &f, size_t places, size_t length) {
    std::optional<Fields> read = readRecord(bytes.data(), bytes.size());
    tally.within[RECORD_READ] += places == FIELDS && read && (*read)[FIELDS - 1] != 0;
    if (length != RECORD || f[FIELDS - 1] == 0) return;
    bool written = writeRecord(f, length).has_value();
    tally.within[written ? RECORD_WRITTEN : f[FIELDS - 1] == 1 ? RECORD_REFUSED : RECORD_TOO_WIDE]++;
}

void compareRecords(Dice &d, const Event &e) {
    tally.records++;
    Fields f = d.chance(20) ? mistyped(d, e) : fieldsOf(e);
    if (d.chance(50)) {  // one field too wide or otherwise odd
        size_t i = d.chance(10) ? FIELDS - 1 : d.below(FIELDS);
        f[i] = d.chance(40) ? f[i] + (uint64_t(1) << WIDTHS[i]) : d.chance(50) ? uint64_t(1) << d.below(64) : d.below(LAST_CAUSE + 2);
    }
    Bytes bytes = d.chance(50) ? packEvent(e) : damagedRecord(d, e);
    size_t places = d.chance(90) ? FIELDS : d.below(FIELDS + 3), length = d.chance(85) ? RECORD : d.below(2 * RECORD + 2);
    countRecords(bytes, f, places, length);
    if (recordsAgree(bytes, f, places, length)) return;
    tally.differ++;
    std::printf("DIFFERENCE %llu: record %s read to %zu places, or fields", (unsigned long long)tally.differ,
                hexOf(bytes.data(), bytes.size()).c_str(), places);
    for (uint64_t field : f) std::printf(" %llu", (unsigned long long)field);
    std::printf(" written to %zu bytes; replay: tests/compare 1 %llu %llu\n", length, (unsigned long long)tally.seed,
                (unsigned long long)tally.sequence);
}

// ---- Sequences ----

size_t anyFreeRows(Dice &d) {
    uint64_t way = d.below(100);
    return way < 8 ? 0 : way < 16 ? 1 : way < 97 ? d.between(2, 25) : way < 99 ? 256 : MOST_ROWS;
}

void runSequence(Dice &d) {
    Situation s = makeSituation(d, anyFreeRows(d));
    Slices slices = slicesOf(d, s);
    std::optional<Table> table = s.table;
    std::optional<Books> books = s.books;
    size_t length = s.table.used.size() + s.table.freeRows > 1000 ? 12 : d.between(20, 140);
    if (!compareChecks(slices, table, books) || !compareFaults(slices)) return;
    for (size_t i = 0; i < length; i++) {
        Event e = nextEvent(d, s, 75);
        if (d.chance(9) && !compareDamaged(d, slices, s, sensible(d, s, d.pick(s.tns)))) return;
        if (d.chance(8)) compareRecords(d, e);
        Bytes record = d.chance(3) ? damagedRecord(d, e) : packEvent(e);
        if (!compareStep(slices, record, table, books)) return;
        if (d.chance(3) && !compareFaults(slices)) return;
        if (RELEASE_DATES && d.chance(2) && !compareOlder(d, slices, s)) return;
        if (RELEASE_DATES && d.chance(2) && !compareConvert(d, slices, s)) return;
        s.table = *table;
    }
}

// ---- Exchanges (demand 3) ----

// Neighbours that may be exchanged: events on different lines, and answers for one version (line and number, [A3.6] whichever name each
// uses) from different Local SMSs.
bool exchangeable(const Books &books, const Event &a, const Event &b) {
    if (lineOf(books, a.tn) != lineOf(books, b.tn)) return true;
    bool answers = (a.kind == REPLY || a.kind == SILENCE) && (b.kind == REPLY || b.kind == SILENCE);
    Provider one = a.kind == REPLY ? a.sender : a.other, two = b.kind == REPLY ? b.sender : b.other;
    return answers && a.version == b.version && one != two;
}

// What a run of the library leaves: per event its outcome, per system and line its messages in order, the table.
struct Trace {
    std::vector<uint64_t> outcomes;
    std::map<std::pair<std::pair<Provider, bool>, Tn>, std::vector<Bytes>> told;
    Bytes table;
};

bool runTrace(const Situation &s, Slices slices, const std::vector<Event> &events, const std::vector<size_t> &order, Trace &trace) {
    std::optional<Table> table = s.table;
    std::optional<Books> books = s.books;
    trace.outcomes.assign(events.size(), OUTCOMES);
    for (size_t i : order) {
        Result model;
        lupinenblatt_answer library;
        if (!compareStep(slices, packEvent(events[i]), table, books, model, library)) return false;
        trace.outcomes[i] = library.outcome;
        for (uint64_t m = 0; m < library.count; m++) {
            const uint8_t *at = slices.tray.data() + m * MESSAGE;
            Message message = unpackMessage(at);
            trace.told[{{message.provider, message.localSms}, lineOf(s.books, message.tn)}].push_back(Bytes(at, at + MESSAGE));
        }
    }
    trace.table = slices.table;
    return true;
}

void runExchange(Dice &d) {
    size_t count = d.between(6, 40);
    Situation s = makeSituation(d, count + d.below(4));
    if (s.table.freeRows < count) return;
    Slices slices = slicesOf(d, s);
    slices.tray.resize(PLACES * MESSAGE);
    std::vector<Event> events;
    Situation now = s;
    std::optional<Table> table = s.table;
    std::optional<Books> books = s.books;
    for (size_t i = 0; i < count; i++) {
        events.push_back(nextEvent(d, now, 80));
        step(table, books, s.R, events.back(), PLACES);
        now.table = *table;
    }
    std::vector<size_t> order(count), other;
    for (size_t i = 0; i < count; i++) order[i] = i;
    other = order;
    uint64_t exchanges = 0;
    for (uint64_t n = d.chance(40) ? 1 : 6 * count; n > 0; n--) {
        size_t i = d.below(count - 1);
        if (!exchangeable(s.books, events[other[i]], events[other[i + 1]])) continue;
        std::swap(other[i], other[i + 1]);
        exchanges++;
    }
    tally.exchanged += exchanges;
    Trace one, two;
    if (!runTrace(s, slices, events, order, one) || !runTrace(s, slices, events, other, two)) return;
    const char *what = one.table != two.table ? "exchanged: the final table" : one.outcomes != two.outcomes ? "exchanged: an outcome"
        : one.told != two.told ? "exchanged: the messages to a system" : nullptr;
    if (!what) return;
    report(what, slices, packEvent(events[0]));
    std::printf("the events and, behind, their places in the other order:\n");
    for (size_t i = 0; i < count; i++) std::printf("event %s   %zu\n", hexOf(packEvent(events[i]).data(), RECORD).c_str(), other[i] + 1);
}

// ---- Many events in one call ----

#ifdef TEST_RUN
// What the model makes of the same call: step after step, each event's messages behind those before it.
struct ModelRan {
    uint64_t outcome = UNSOUND, events = 0, messages = 0;
    Bytes table, tray, outcomes;
    bool counted = true;
};

ModelRan modelRun(const Slices &s, const Bytes &events, const Bytes &outcomes) {
    ModelRan m;
    m.table = s.table, m.tray = s.tray, m.outcomes = outcomes;
    std::optional<Table> table = unpackTable(s.table.data(), s.table.size());
    std::optional<Books> books = unpackBooks(s.providers.data(), s.providers.size(), s.books.data(), s.books.size());
    bool good = books && sound(*books) && table && sound(*table, *books) && s.R <= MOST_RETRIES && s.tray.size() / MESSAGE >= PLACES;
    if (!good || outcomes.size() < events.size() / RECORD * 2) return m;
    m.outcome = events.size() % RECORD == 0 ? DONE : MALFORMED;
    if (m.outcome != DONE) return m;
    for (size_t from = 0; from < events.size(); from += RECORD) {
        size_t left = s.tray.size() / MESSAGE - m.messages;
        if (left < PLACES) break;
        Result r = step(table, books, s.R, unpackEvent(events.data() + from, RECORD), left);
        packTray(r.messages, m.tray.data() + m.messages * MESSAGE);
        m.outcomes[2 * m.events] = uint8_t(r.outcome), m.outcomes[2 * m.events + 1] = uint8_t(r.messages.size());
        m.events++, m.messages += r.messages.size();
        m.counted = counts(events[from], r.outcome) && m.counted;
    }
    packTable(*table, m.table);
    return m;
}

// One call. The table of the slices is then the one after it; done is how many events were.
bool compareRun(Slices &s, const Bytes &events, Bytes outcomes, uint64_t &done) {
    Slices before = s;
    Bytes events2 = events;
    if (!lookAtAll(s, events)) return false;
    ModelRan m = modelRun(s, events, outcomes);
    lupinenblatt_ran a = lupinenblatt_run(at(s.table), s.table.size(), at(s.providers), s.providers.size(), at(s.books), s.books.size(), s.R,
                                          at(events2), events2.size(), at(s.tray), s.tray.size(), at(outcomes), outcomes.size());
    done = m.events;
    tally.events += std::max<uint64_t>(m.events, 1), tally.runs++, tally.stops += m.outcome == DONE && m.events < events.size() / RECORD;
    const char *what = a.outcome != m.outcome ? "run: outcome" : a.events != m.events ? "run: events done"
        : a.messages != m.messages ? "run: messages" : outcomes != m.outcomes ? "run: outcome slice" : s.table != m.table ? "run: table" : s.tray != m.tray ? "run: tray"
        : s.providers != before.providers || s.books != before.books || events2 != events ? "run: a slice that is only read was written to"
        : !m.counted ? UNCOUNTED : nullptr;
    if (!what) return true;
    report(what, before, events);
    std::printf("model: outcome %llu, %llu events, %llu messages; library: outcome %llu, %llu events, %llu messages; outcome slice of %zu bytes\n",
                (unsigned long long)m.outcome, (unsigned long long)m.events, (unsigned long long)m.messages, (unsigned long long)a.outcome,
                (unsigned long long)a.events, (unsigned long long)a.messages, outcomes.size());
    return false;
}

// Records for events that fit the situation one after the other, some of them malformed.
Bytes anyRecords(Dice &d, const Situation &s, size_t count) {
    Bytes out;
    Situation now = s;
    std::optional<Table> table = s.table;
    std::optional<Books> books = s.books;
    for (size_t i = 0; i < count; i++) {
        Event e = nextEvent(d, now, 80);
        Bytes record = d.chance(7) ? damagedRecord(d, e) : packEvent(e);
        record.resize(RECORD);
        out.insert(out.end(), record.begin(), record.end());
        if (step(table, books, s.R, unpackEvent(record.data(), RECORD), PLACES).outcome == DONE) now.table = *table;
    }
    return out;
}

Bytes anyOutcomes(Dice &d, size_t events) {
    size_t need = 2 * events, less = d.chance(60) ? d.between(1, 2) : d.below(need + 1);
    Bytes out(d.chance(60) ? need : d.chance(60) ? need + d.between(1, 9) : need - std::min(need, less));
    for (uint8_t &byte : out) byte = uint8_t(d.next());
    return out;
}

// A list of events in as many calls as the tray makes of it: a stop is gone on from with the tray as it then is. Some calls are damaged.
void runRuns(Dice &d) {
    Situation s = makeSituation(d, anyFreeRows(d));
    Slices slices = slicesOf(d, s);
    slices.tray.resize(MESSAGE * (d.chance(30) ? PLACES : PLACES + d.below(60)) + d.below(30));
    Bytes events = anyRecords(d, s, s.table.used.size() + s.table.freeRows > 1000 ? 8 : d.below(70));
    for (int again = 0; again < 8; again++) {
        uint64_t done = 0;
        if (d.chance(40)) {
            Slices damaged = slices;
            damage(d, damaged, s);
            if (!compareFaults(damaged)) return;
            if (!compareRun(damaged, events, anyOutcomes(d, events.size() / RECORD), done)) return;
        }
        if (d.chance(15)) {
            Slices part = slices;
            Bytes cut = events;
            cut.resize(d.chance(50) ? d.below(events.size() + 1) : events.size() + d.between(1, 40));
            if (!compareRun(part, cut, anyOutcomes(d, cut.size() / RECORD), done)) return;
        }
        if (!compareRun(slices, events, anyOutcomes(d, events.size() / RECORD), done)) return;
        events.erase(events.begin(), events.begin() + long(done * RECORD));
        s.table = *unpackTable(slices.table.data(), slices.table.size());
        if (events.empty()) return;
    }
}
#endif

// ---- Flows ----

void runFlow(const std::filesystem::path &path) {
    std::ifstream in(path), expected(std::filesystem::path(path).replace_extension(".exp"));
    std::string wanted((std::istreambuf_iterator<char>(expected)), std::istreambuf_iterator<char>()), printed;
    Scenario s = readScenario(in);
    std::optional<Table> table = s.table;
    std::optional<Books> books = s.books;
    Slices slices;
    packTable(s.table, slices.table);
    slices.providers = packProviders(s.books);
    slices.books = packBooks(s.books);
    slices.R = s.R;
    slices.tray.resize(s.trayPlaces * MESSAGE);
    for (size_t i = 0; i < s.records.size(); i++) {
        Result model;
        lupinenblatt_answer library;
        if (!compareStep(slices, s.records[i], table, books, model, library)) return;
        Messages told;
        for (uint64_t m = 0; m < library.count; m++) told.push_back(unpackMessage(slices.tray.data() + m * MESSAGE));
        printed += textOf(i + 1, library.outcome, told);
    }
    std::optional<Table> left = unpackTable(slices.table.data(), slices.table.size());
    printed += left ? textOf(*left) : "no table\n";
    if (printed == wanted) return;
    tally.differ++;
    std::printf("DIFFERENCE %llu: flow %s\n%s", (unsigned long long)tally.differ, path.c_str(), printed.c_str());
}

void runFlows() {
    size_t flows = 0;
    std::vector<const char *> folders = {"tests/vectors", "tests/vectors-lines", "tests/vectors-within"};
    if (RELEASE_DATES) folders.push_back("tests/vectors-release");
    for (const char *folder : folders)
        for (const auto &entry : std::filesystem::directory_iterator(folder))
            if (entry.path().extension() == ".scn") runFlow(entry.path()), flows++;
    std::printf("%zu flows through the library\n", flows);
}

void printTally() {
    uint64_t sums[OUTCOMES + 1] = {}, all = 0;
    for (size_t k = 0; k < KINDS + 2; k++)
        for (size_t o = 0; o <= OUTCOMES; o++) sums[o] += tally.outcomes[k][o], all += tally.outcomes[k][o];
    size_t columns = sums[OUTCOMES] != 0 ? OUTCOMES + 1 : OUTCOMES;  // the last is shown where there is something in it
    std::printf("kind/outcome");
    for (size_t o = 0; o < OUTCOMES; o++)
        if (isOutcome(o)) std::printf("%9zu", o);
    std::printf(columns > OUTCOMES ? "    other\n" : "\n");
    for (size_t k = 0; k < KINDS + 2; k++) {
        if (k == 0 || k > KINDS) std::printf("no kind     ");
        else std::printf("%-12zu", k);
        for (size_t o = 0; o < columns; o++)
            if (isOutcome(o) || o == OUTCOMES) std::printf("%9llu", (unsigned long long)tally.outcomes[k][o]);
        std::printf("\n");
    }
    std::printf("all         ");
    for (size_t o = 0; o < columns; o++)
        if (isOutcome(o) || o == OUTCOMES) std::printf("%9llu", (unsigned long long)sums[o]);
    std::printf("\n%.1f%% done; %llu records compared; %llu neighbours exchanged; %llu checks; %llu runs, %llu of them stopped by the tray\n",
                100.0 * double(sums[0]) / double(all ? all : 1), (unsigned long long)tally.records, (unsigned long long)tally.exchanged,
                (unsigned long long)tally.checks, (unsigned long long)tally.runs, (unsigned long long)tally.stops);
}

// A count as it is printed; in a run of a million events or more it must be 50 at least. False where it is not.
bool seen(uint64_t count) {
    bool rare = tally.events >= 1000000 && count < 50;
    std::printf("%10llu%s", (unsigned long long)count, rare ? " (fewer than 50)" : "");
    return !rare;
}

// How often a silence was heard by a call without R after so many retries: with fewer than its R it asks again, else it gives the system up.
bool printShort() {
    bool good = true;
    std::printf("%llu calls without R; their silences after 0 to %zu retries:", (unsigned long long)tally.shortCalls, MOST_RETRIES);
    for (uint64_t count : tally.shortSilences) good = seen(count) && good;
    std::printf("\n");
    return good;
}

// How often a create concurred, and how often it would have but for its due date.
bool printConcurring() {
    static const char *const by[] = {"new side, pending", "new side, conflict", "old side"};
    bool good = true;
    std::printf("concurring creates          done  another due date\n");
    for (size_t i = 0; i < std::size(by); i++) {
        std::printf("%-22s", by[i]);
        for (uint64_t count : tally.concurring[i]) good = seen(count) && good;
        std::printf("\n");
    }
    return good;
}

// How often events were on lines in split pairs, and what happened there under the two names.
bool printLines() {
    static const char *const what[ON_LINE] = {
        "live version under the other name turned old by a closing", "concurrence under another name than the row's",
        "fresh version numbered above one under the other name", "busy by a sending version under the other name",
        "too early by the stamp under the other name alone", "create done, the current provider by a live version under the other name",
        "no live version, two owners: create done by the owner of the event's code",
        "no live version, two owners: the partner's owner gets 12", "more than twelve versions under each name"};
    bool good = true;
    std::printf("%llu events on lines in split pairs; under another name than the row's\nkind           done   refused\n",
                (unsigned long long)tally.splitLines);
    for (size_t k = 1; k <= KINDS; k++) {
        std::printf("%-9zu", k);
        for (uint64_t count : tally.underOther[k]) good = seen(count) && good;
        std::printf("\n");
    }
    for (size_t i = 0; i < ON_LINE; i++) {
        std::printf("    %-76s", what[i]);
        good = seen(tally.onLine[i]) && good;
        std::printf("\n");
    }
    return good;
}

// How often events met the type, and what happened then.
bool printWithin() {
    static const char *const what[WITHIN] = {
        "create done", "create done on a line with two names", "create: 12", "create: 9", "create: 10", "create: 8",
        "kind 13 from the NPAC: 7", "kind 13 from a provider: 6", "kind 4 from its provider: 6", "cancel acts at once", "activation done",
        "activation closed, told once", "activation failed, told once", "create of two providers, 9 by a worked version of the type",
        "a closing of one makes the live version old", "a closing of another makes one old", "kind 7 from its provider: 7",
        "kind 8 from its provider: 7", "malformed: the type in another kind", "malformed: the type with two providers",
        "malformed: a provider twice without the type", "a record of the type read", "a record of the type written",
        "fields with the type not written", "fields with more than 1 for the type not written"};
    bool good = true;
    const auto &[ofTwo, ofOne] = tally.creates;
    std::printf("within one provider: %llu of %llu creates, %llu of %llu done\n", (unsigned long long)(ofOne[0] + ofOne[1]),
                (unsigned long long)(ofTwo[0] + ofTwo[1] + ofOne[0] + ofOne[1]), (unsigned long long)ofOne[1],
                (unsigned long long)(ofTwo[1] + ofOne[1]));
    for (size_t i = 0; i < WITHIN; i++) {
        std::printf("    %-76s", what[i]);
        good = seen(tally.within[i]) && good;
        std::printf("\n");
    }
    return good;
}

#ifdef TEST_FAULTS
bool printWithinFaults() {
    static const char *const what[WITHIN_FAULTS] = {
        "14: two providers with the type", "14: a provider twice without the type", "37: the old side has created", "37: the window mark alone"};
    bool good = true;
    for (size_t i = 0; i < WITHIN_FAULTS; i++) {
        std::printf("    %-76s", what[i]);
        good = seen(tally.withinFaults[i]) && good;
        std::printf("\n");
    }
    return good;
}
#else
bool printWithinFaults() { return true; }
#endif

// A line for each of these counts.
bool printCounts(const uint64_t *counts, const char *const *what, size_t number) {
    bool good = true;
    for (size_t i = 0; i < number; i++) {
        std::printf("    %-76s", what[i]);
        good = seen(counts[i]) && good;
        std::printf("\n");
    }
    return good;
}

// [A5] How often disconnects had a date, and what happened to the versions that wait for one.
bool printDates() {
    static const char *const what[DATED] = {
        "disconnect done without a date", "disconnect done, the date has come", "disconnect done, the date is its time", "entered",
        "entered, purpose activate", "entered, purpose modify", "entered, purpose disconnect", "entered with the last date there is",
        "entered within one provider", "entered under the line's other name", "not entered: 6", "not entered: 7",
        "not entered: 7, active with failed systems", "not entered: 8", "not entered: 10", "started", "started and closed at once",
        "started at the very date", "started under the line's other name", "not started: 6 in status 9", "not started: 6 elsewhere",
        "not started: 7", "not started: 8 by the date alone", "not started: 8 by a stamp alone", "not started: 10",
        "a disconnect that failed everywhere: active", "withdrawn before the date", "withdrawn at or after the date",
        "withdrawn while another version is sending", "not withdrawn: 6 in status 9", "not withdrawn: 6 elsewhere", "not withdrawn: 7",
        "not withdrawn: 8",
        "a closing makes one old", "a closing makes one old that stands under the other name", "create done beside one",
        "kinds 11 and 12: 11"};
    static const char *const fields[ODD_FIELDS.size()] = {"other", "mark", "cause", "TN", "LRN", "version", "time", "due", "type"};
    if (!RELEASE_DATES) return true;
    std::printf("release dates\n");
    bool good = printCounts(tally.dated, what, DATED);
    std::printf("other kinds on disconnect-pending versions\nkind              7         6\n");
    for (size_t k = NEW_MODIFIES; k <= PURGE; k++) {
        if (k == REPLY || k == SILENCE) continue;
        std::printf("%-9zu", k);
        for (uint64_t count : tally.misplaced[k]) good = seen(count) && good;
        std::printf("\n");
    }
    std::printf("malformed by one field       16        17\n");
    for (size_t i = 0; i < ODD_FIELDS.size(); i++) {
        std::printf("    %-18s", fields[i]);
        for (const auto &kind : tally.oddRecords) good = seen(kind[i]) && good;
        std::printf("\n");
    }
    return good;
}

// [A5] Where rows were unsound by the date or in status 9.
bool printDatedFaults() {
#ifdef TEST_FAULTS
    static const char *const what[DATED_FAULTS] = {
        "38: a date outside status 9", "38: no date in status 9", "39: a failed system in status 9", "18: status 9 without the new side",
        "25: status 9 without a purpose", "26: status 9 that is not live", "4: a spare bit of the date's word"};
    return !RELEASE_DATES || printCounts(tally.datedFaults, what, DATED_FAULTS);
#else
    return true;
#endif
}

// [A5] Tables of the older form: offered by mistake, and given to the converter.
bool printOlder() {
    static const char *const offered[OLDER] = {
        "no used row, fits both", "one used row, fits both", "two or more, fits both", "another length"};
    if (!RELEASE_DATES) return true;
    bool good = true;
    std::printf("%-36s%10s%10s%10s\n", "rows of 80 bytes offered", "checked", "refused", "done");
    for (size_t i = 0; i < OLDER; i++) {
        std::printf("    %-32s", offered[i]);
        good = seen(tally.older[i]) && good;
        good = seen(tally.olderSteps[i][0]) && good;
        if (i <= FIT_ONE) good = seen(tally.olderSteps[i][1]) && good;
        std::printf("\n");
    }
#ifdef TEST_CONVERT
    static const char *const converted[CONVERSIONS] = {
        "done, no used row", "done, one used row", "done, more", "1: provider list", "1: books", "1: part of a row", "1: more than 4,096 rows",
        "1: status 9", "1: another clause of a row", "1: lines", "1: a target of fewer rows", "1: a target of more rows",
        "1: a target with part of a row", "1: two of these"};
    std::printf("converter\n");
    good = printCounts(tally.conversions, converted, CONVERSIONS) && good;
#endif
    return good;
}

#ifdef TEST_SELECTION
// How often selection was called how, and of how many providers it told what; what it said where a broadcast or a resend took it.
bool printSelection() {
    static const char *const asked[ASKED] = {
        "told", "unsound", "no TN", "another length", "unsound and no TN", "unsound and another length"};
    static const char *const why[REASONS] = {
        ": no filter on a code", ": a filter on the code, none on its partner", ": a filter on the partner, none on the code",
        ": in the list", ": behind the list", ": no filters that would skip it", ": a filter on the only code too",
        ": filters on both codes too", "", ""};
    bool good = true;
    std::printf("selection, calls\n");
    for (size_t i = 0; i < ASKED; i++) {
        std::printf("    %-66s", asked[i]);
        good = seen(tally.selections[i]) && good;
        std::printf("\n");
    }
    std::printf("selection, providers\n");
    for (size_t i = 0; i < REASONS; i++) {
        std::printf("    %-66s", (lupinenblatt_class_name(CLASS_OF[i]) + std::string(why[i])).c_str());
        good = seen(tally.reasons[i]) && good;
        std::printf("\n");
    }
    std::printf("%-70s%10s%10s\n", "selection, providers at a broadcast and failed systems at a resend", "5, 9, 10", "14");
    for (size_t i = 0; i < CLASSES; i++) {
        std::printf("    %-66s", lupinenblatt_class_name(i));
        good = seen(tally.broadcast[i]) && good;
        good = seen(tally.resent[i]) && good;
        std::printf("\n");
    }
    return good;
}
#else
bool printSelection() { return true; }
#endif

#ifdef TEST_FAULTS
// How often each number was seen. False where one was seen too rarely.
bool printFaults() {
    bool good = true;
    std::printf("where         table     books\n");
    static_assert(BOOKS_CLAUSES <= TABLE_CLAUSES, "a line for each number of either");
    for (size_t n = 0; n <= TABLE_CLAUSES; n++) {
        std::printf("%-9zu", n);
        good = seen(tally.tableFaults[n]) && good;
        if (n <= BOOKS_CLAUSES) good = seen(tally.booksFaults[n]) && good;
        std::printf("\n");
    }
    return good;
}
#else
bool printFaults() { return true; }
#endif

}  // namespace

int main(int argc, char **argv) {
    uint64_t wanted = argc > 1 ? std::strtoull(argv[1], nullptr, 10) : 1000000;
    tally.seed = argc > 2 ? std::strtoull(argv[2], nullptr, 10) : 1;
    tally.sequence = argc > 3 ? std::strtoull(argv[3], nullptr, 10) : 1;
    if (argc <= 3) runFlows();
    for (; tally.events < wanted && tally.differ < 10; tally.sequence++) {
        Dice d(tally.seed * 1000003 + tally.sequence * 0x2545f4914f6cdd1d);
#ifdef TEST_SELECTION
        asking = Dice(tally.seed * 15485863 + tally.sequence * 0xd1342543de82ef95);
#endif
        if (tally.sequence % 5 == 0) runExchange(d);
#ifdef TEST_RUN
        else if (tally.sequence % 5 == 3) runRuns(d);
#endif
        else runSequence(d);
        if (argc > 3) break;
    }
    bool enough = printFaults();
    enough = printShort() && enough;
    enough = printConcurring() && enough;
    enough = printLines() && enough;
    enough = printWithin() && enough;
    enough = printWithinFaults() && enough;
    enough = printDates() && enough;
    enough = printDatedFaults() && enough;
    enough = printOlder() && enough;
    enough = printSelection() && enough;
    printTally();
    std::printf("%llu events compared, %llu differ\n", (unsigned long long)tally.events, (unsigned long long)tally.differ);
    return tally.differ == 0 && enough ? 0 : 1;
}
