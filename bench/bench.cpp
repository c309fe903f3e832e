// The library beside the hand-written calls of hand.c and a plain pass over the table's bytes: ratios of times, all from one run.
//
//     bench [rounds]
//
// The three take turns (library, hand, pass, library, ..) on the same memory, which is put back to the same bytes before each turn; of each
// the shortest time counts. All rows are measured in rounds, default 5, so that no row depends on one moment. Before anything is timed, both
// calls must give the same answer, table and tray. README.md says what the rows are.
#include <chrono>
#include <cmath>
#include <cstring>
#include <functional>
#include <memory>
#include <string>

#include "generate.hpp"
#include "hand.h"
#include "plain.h"

using namespace paper;

namespace {

const std::vector<size_t> SIZES = {64, 512, MOST_ROWS};
volatile uint64_t sink;  // what is computed is wanted
std::vector<std::string> differing;

double now() {
    return std::chrono::duration<double, std::nano>(std::chrono::steady_clock::now().time_since_epoch()).count();
}

double emptyTime() {
    double least = 1e9;
    for (int i = 0; i < 2000; i++) {
        double a = now(), b = now();
        least = std::min(least, b - a);
    }
    return least;
}

using Work = std::function<void()>;

// A call that leaves everything as it was, often enough that the clock's own error does not matter.
Work often(size_t times, const Work &work) {
    return [=] {
        for (size_t i = 0; i < times; i++) work();
    };
}

// Some works to be timed in turns, each after `before`; of each the shortest time so far, the clock's own taken off.
struct Measure {
    size_t repetitions;
    Work before;
    std::vector<Work> works;
    std::vector<double> least;
    void round() {
        static const double clock = emptyTime();
        for (size_t i = 0; i < repetitions; i++)
            for (size_t k = 0; k < works.size(); k++) {
                before();
                double a = now();
                works[k]();
                double b = now();
                least[k] = std::min(least[k], std::max(b - a - clock, 0.1));
            }
    }
    double ratio(size_t one, size_t other) const { return least[one] / least[other]; }
};
using Measured = std::shared_ptr<Measure>;

// Everything is planned first, then measured in rounds, so that each row has its turn at several moments, and printed last.
std::vector<Measured> measures;
std::vector<Work> lines;

Measured plan(size_t repetitions, const Work &before, const std::vector<Work> &works) {
    measures.push_back(std::make_shared<Measure>(Measure{repetitions, before, works, std::vector<double>(works.size(), 1e18)}));
    return measures.back();
}

size_t repetitionsFor(size_t rows) { return rows <= 64 ? 500 : rows <= 512 ? 300 : 100; }

// ---- Situations ----

// Books with so many entries; the first code of the list is `home`, and every second provider has a filter on it where there are filters.
struct Lists { size_t providers, codes, filters, splits; bool homeSplit; };
const Lists STEP_LISTS = {20, 256, 64, 8, false};

void makeBooks(Dice &d, Situation &s, const Lists &l, std::vector<Code> &codes) {
    s.books = Books(), s.present.clear(), s.systems.clear();
    s.books.providers.resize(PROVIDERS);
    for (Provider p = 1; p <= l.providers; p++) {
        s.books.providers[p - 1] = {true, true};
        s.present.push_back(p), s.systems.push_back(p);
    }
    std::map<Code, Provider> listed;
    while (listed.size() < l.codes) listed[anyCode(d)] = d.pick(s.present);
    for (const auto &[code, owner] : listed) s.books.codes.push_back({code, owner}), codes.push_back(code);
    std::set<Code> paired;
    auto fresh = [&] {
        Code c = anyCode(d);
        while (listed.count(c) || paired.count(c)) c = anyCode(d);
        return c;
    };
    Code home = codes[0], partner = 0;
    if (l.homeSplit) {
        partner = fresh();
        paired.insert(partner);
    }
    while (s.books.splits.size() + l.homeSplit < l.splits) {
        Code a = fresh();
        paired.insert(a);
        Code b = fresh();
        paired.insert(b);
        s.books.splits.push_back({a, b});
    }
    if (l.homeSplit) s.books.splits.push_back({home, partner});
    std::set<std::pair<Provider, Code>> filters;
    for (Provider p = 2; p <= l.providers && filters.size() + 2 <= l.filters; p += 2) {
        filters.insert({p, home});
        if (partner && p % 4 == 0) filters.insert({p, partner});
    }
    while (filters.size() < l.filters) filters.insert({d.pick(s.present), fresh()});
    for (const auto &[p, c] : filters) s.books.filters.push_back({p, c});
}

// A table of exactly so many used rows: many numbers with up to five versions each, all statuses.
Situation makeRows(Dice &d, const Lists &l, size_t rows, Time base) {
    Situation s;
    std::vector<Code> codes;
    makeBooks(d, s, l, codes);
    s.R = 2, s.base = base;
    std::map<Tn, std::vector<Version>> numbers;
    size_t count = 0;
    while (count < rows) {
        Tn tn{d.pick(codes) * 10000 + d.below(10000)};
        if (numbers.count(tn)) continue;
        makeVersionsOf(d, s, {tn}, numbers[tn]);
        count += numbers[tn].size();
    }
    for (const auto &[tn, versions] : numbers) {
        s.tns.push_back(tn);
        for (const Version &v : versions)
            if (s.table.used.size() < rows) s.table.used.push_back(v);
    }
    if (!sound(s.books) || !sound(s.table, s.books)) std::puts("bench: an unsound situation was made"), std::exit(2);
    return s;
}

// What a call is given, and the bytes to begin from.
struct Lent {
    Bytes table, tray, providers, books, events, outcomes;
    Bytes tableAt, trayAt, outcomesAt;  // where the calls write
    uint64_t R = 0;
    Lent(const Situation &s, size_t rows, size_t places, const Bytes &records) {
        packTable(s.table, table);
        table.resize(rows * ROW, 0);
        providers = packProviders(s.books), books = packBooks(s.books), R = s.R, events = records;
        tray.assign(places * MESSAGE, 0x5a);
        outcomes.assign(2 * (records.size() / RECORD), 0);
        restore();
    }
    void restore() { tableAt = table, trayAt = tray, outcomesAt = outcomes; }
    bool same(const Lent &other) const { return tableAt == other.tableAt && trayAt == other.trayAt && outcomesAt == other.outcomesAt; }
};

lupinenblatt_answer ours(Lent &l, size_t event = 0) {
    return lupinenblatt_step(l.tableAt.data(), l.tableAt.size(), l.providers.data(), l.providers.size(), l.books.data(), l.books.size(), l.R,
                             l.events.data() + event * RECORD, RECORD, l.trayAt.data(), l.trayAt.size());
}

lupinenblatt_answer hand(Lent &l, size_t event = 0) {
    return hand_step(l.tableAt.data(), l.tableAt.size(), l.providers.data(), l.providers.size(), l.books.data(), l.books.size(), l.R,
                     l.events.data() + event * RECORD, RECORD, l.trayAt.data(), l.trayAt.size());
}

// ---- Printing ----

void printHead() {
    std::printf("\n%-52s", "");
    for (size_t n : SIZES) std::printf("|%14zu rows   ", n);
    std::printf("\n%-52s", "");
    for (size_t i = 0; i < SIZES.size(); i++) std::printf("|     /hand    /pass  ");
    std::printf("\n");
}

// Library to hand, and to each pass that was measured beside them; no measure where there was nothing to measure.
void printRow(const std::string &name, const std::vector<Measured> &cells) {
    std::printf("%-52s", name.c_str());
    for (const Measured &m : cells) {
        if (!m) {
            std::printf("|%10s%9s  ", "-", "-");
            continue;
        }
        std::printf("|%10.2f", m->ratio(0, 1));
        for (size_t k = 2; k < m->works.size(); k++) std::printf("%9.2f", m->ratio(0, k));
        std::printf("  ");
    }
    std::printf("\n");
}

void addRow(const std::string &name, const std::vector<Measured> &cells) {
    lines.push_back([=] { printRow(name, cells); });
}

void mustAgree(bool agree, const std::string &what) {
    if (!agree) differing.push_back(what);
}

// ---- Soundness ----

// The table's check on these slices.
Measured planCheck(const std::shared_ptr<Lent> &l, const std::string &name) {
    size_t length = l->tableAt.size(), times = MOST_ROWS * ROW / length;
    auto call = [l](auto check) {
        return check(l->tableAt.data(), l->tableAt.size(), l->providers.data(), l->providers.size(), l->books.data(), l->books.size());
    };
    lupinenblatt_answer a = call(lupinenblatt_table_check), b = call(hand_table_check);
    mustAgree(a.outcome == b.outcome && a.count == b.count, name);
    return plan(100, [l] {}, {often(times, [=] { sink = call(lupinenblatt_table_check).count; }),
                              often(times, [=] { sink = call(hand_table_check).count; }),
                              often(times, [=] { sink = plain_pass(l->tableAt.data(), length); })});
}

// All rows of a table used, the same with a spare bit in the last row, and all rows free.
void soundness(const std::vector<Situation> &situations) {
    const std::vector<std::string> names = {"soundness: all rows used", "soundness: unsound in the last row", "soundness: all rows free"};
    for (size_t way = 0; way < names.size(); way++) {
        std::vector<Measured> cells;
        for (size_t i = 0; i < SIZES.size(); i++) {
            Situation s = situations[i];
            if (way == 2) s.table.used.clear();
            auto l = std::make_shared<Lent>(s, SIZES[i], PLACES, Bytes());
            if (way == 1) l->tableAt[(SIZES[i] - 1) * ROW + 7] |= 1;
            cells.push_back(planCheck(l, names[way]));
        }
        addRow(names[way], cells);
    }
}

void booksRow(const char *name, const Lists &lists) {
    Dice d(5);
    auto l = std::make_shared<Lent>(makeRows(d, lists, 64, 1000), 64, PLACES, Bytes());
    const uint8_t *p = l->providers.data(), *b = l->books.data();
    mustAgree(lupinenblatt_books_check(p, PROVIDERS, b, BOOKS) == hand_books_check(p, PROVIDERS, b, BOOKS), name);
    addRow(name, {plan(100, [l] {}, {often(10, [=] { sink = lupinenblatt_books_check(p, PROVIDERS, b, BOOKS); }),
                                     often(10, [=] { sink = hand_books_check(p, PROVIDERS, b, BOOKS); }),
                                     often(10, [=] { sink = plain_pass(b, BOOKS); })})});
}

// ---- Records ----

void records() {
    Dice d(23);
    Situation s = makeRows(d, STEP_LISTS, 64, 1000);
    auto events = std::make_shared<std::vector<Event>>();
    auto bytes = std::make_shared<Bytes>();
    while (events->size() < 1000) {
        events->push_back(nextEvent(d, s, 60));
        Bytes record = packEvent(events->back());
        bytes->insert(bytes->end(), record.begin(), record.end());
    }
    auto readAll = [=](auto read) {
        return [=] {
            uint64_t fields[FIELDS];
            for (size_t i = 0; i < events->size(); i++) sink = read(bytes->data() + i * RECORD, RECORD, fields, FIELDS);
        };
    };
    auto writeAll = [=](auto write) {
        return [=] {
            uint8_t out[RECORD];
            for (const Event &e : *events)
                sink = write(e.kind, e.sender, e.other, e.mark, e.cause, e.tn.digits, e.lrn.digits, e.version, e.time, e.due, e.within, out,
                             RECORD);
        };
    };
    addRow("record read", {plan(100, [] {}, {readAll(lupinenblatt_record_read), readAll(hand_record_read)})});
    addRow("record write", {plan(100, [] {}, {writeAll(lupinenblatt_record_write), writeAll(hand_record_write)})});
}

// ---- Single steps ----

struct Wanted { const char *name; uint64_t kind, outcome; bool fresh, within = false, dated = false; };

// Kind 0: any kind. Fresh: a create with a new row. Within: a create within one provider. Dated: a disconnect with a release date that has
// not come.
const std::vector<Wanted> STEPS = {
    {"0 done: 1 new side creates, rows move", 1, DONE, true},
    {"0 done: 1 within one provider, rows move", 1, DONE, true, true},
    {"0 done: 2 old side creates, rows move", 2, DONE, true},
    {"0 done: 1 new side concurs", 1, DONE, false},
    {"0 done: 2 old side concurs", 2, DONE, false},
    {"0 done: 3 new side modifies", 3, DONE, false},
    {"0 done: 4 old side modifies", 4, DONE, false},
    {"0 done: 5 activate", 5, DONE, false},
    {"0 done: 6 cancel", 6, DONE, false},
    {"0 done: 7 acknowledge cancel", 7, DONE, false},
    {"0 done: 8 resolve conflict", 8, DONE, false},
    {"0 done: 9 modify active", 9, DONE, false},
    {"0 done: 10 disconnect", 10, DONE, false},
    {"0 done: 11 reply", 11, DONE, false},
    {"0 done: 12 silence", 12, DONE, false},
    {"0 done: 13 window ran out", 13, DONE, false},
    {"0 done: 14 resend", 14, DONE, false},
    {"0 done: 15 purge, rows move", 15, DONE, false},
    {"2 malformed", 0, MALFORMED, false},
    {"3 not present", 0, ABSENT, false},
    {"4 code not listed", 0, UNLISTED, false},
    {"5 version not in the table", 0, UNKNOWN, false},
    {"6 no standing", 0, STANDLESS, false},
    {"7 status", 0, MISPLACED, false},
    {"8 too early", 0, EARLY, false},
    {"9 does not fit", 0, UNFIT, false},
    {"10 busy", 0, BUSY, false},
    {"11 not awaited", 0, UNAWAITED, false},
    {"12 not the current provider", 0, NOT_CURRENT, false},
    {"13 no free row", 0, FULL, false},
    {"14 65,535 is used", 0, EXHAUSTED, false},
    {"18 another due date", 0, ANOTHER_DUE, false},
};

// [A5] Rows that there are where RELEASE_DATES of tests/sizes.h is 1.
const std::vector<Wanted> DATED_STEPS = {
    {"0 done: 10 disconnect with a release date", 10, DONE, false, false, true},
    {"0 done: 16 release", 16, DONE, false},
    {"0 done: 17 withdraw", 17, DONE, false},
};

// An event of this kind and outcome for the table, nothing where chance finds none.
std::optional<Event> findEvent(Dice &d, const Situation &s, const Wanted &w) {
    if (w.outcome == MALFORMED) {
        Event e = nextEvent(d, s, 100);
        e.time = 0;
        return e;
    }
    for (int i = 0; i < 4000; i++) {
        Event e = nextEvent(d, s, w.outcome == DONE ? 95 : 30);
        if (w.outcome == UNLISTED) e = aCreate(d, s, Tn{anyTenDigits(d)});
        if ((w.kind != 0 && e.kind != w.kind) || e.within != w.within || outcomeOf(s.table, s.books, e) != w.outcome) continue;
        if (w.outcome == DONE && enters(e) != w.dated) continue;
        if (w.outcome == DONE && e.kind <= OLD_CREATES && (workedVersion(s.table, s.books, e.tn) == nullptr) != w.fresh) continue;
        return e;
    }
    return std::nullopt;
}

Measured planStep(const std::shared_ptr<Lent> &l, size_t rows, uint64_t outcome, const std::string &name,
                  const std::vector<Work> &besides = {}) {
    Lent other = *l;
    lupinenblatt_answer a = ours(*l), b = hand(other);
    mustAgree(a.outcome == outcome && a.outcome == b.outcome && a.count == b.count && l->same(other), name);
    std::vector<Work> works = {[=] { sink = ours(*l).outcome; }, [=] { sink = hand(*l).outcome; },
                               [=] { sink = plain_pass(l->tableAt.data(), l->tableAt.size()); }};
    works.insert(works.end(), besides.begin(), besides.end());
    return plan(repetitionsFor(rows), [=] { l->restore(); }, works);
}

std::vector<Measured> stepRow(Dice &d, const Wanted &w, const std::vector<Situation> &situations) {
    std::vector<Measured> cells;
    for (size_t i = 0; i < SIZES.size(); i++) {
        Situation s;
        std::optional<Event> e;
        for (int tries = 0; tries < 20 && !e; tries++) {
            s = tries == 0 ? situations[i] : makeRows(d, STEP_LISTS, SIZES[i], 1000);
            s.table.freeRows = 0;
            if (w.fresh) s.table.used.pop_back(), s.table.freeRows = 1;
            e = findEvent(d, s, w);
        }
        cells.push_back(e ? planStep(std::make_shared<Lent>(s, SIZES[i], PLACES, packEvent(*e)), SIZES[i], w.outcome, w.name) : nullptr);
    }
    addRow(std::string("step, ") + w.name, cells);
    return cells;
}

// The geometric mean and the largest of the ratios to hand, for each size.
void meanRow(const char *name, const std::vector<std::vector<Measured>> &rows) {
    std::printf("%-52s", name);
    std::vector<double> largest(SIZES.size());
    for (size_t i = 0; i < SIZES.size(); i++) {
        double logs = 0, count = 0;
        for (const auto &cells : rows)
            if (cells[i]) logs += std::log(cells[i]->ratio(0, 1)), count++, largest[i] = std::max(largest[i], cells[i]->ratio(0, 1));
        std::printf("|%10.2f           ", std::exp(logs / std::max(count, 1.0)));
    }
    std::printf("\n%-52s", "  largest");
    for (double l : largest) std::printf("|%10.2f           ", l);
    std::printf("\n");
}

void steps(const std::vector<Situation> &situations) {
    Dice d(7);
    std::vector<std::vector<Measured>> done, refused;
    for (const Wanted &w : STEPS) (w.outcome == DONE ? done : refused).push_back(stepRow(d, w, situations));
    for (const Wanted &w : DATED_STEPS)
        if (RELEASE_DATES) done.push_back(stepRow(d, w, situations));
    lines.push_back([=] {
        meanRow("step, all done, geometric mean", done);
        meanRow("step, all refused, geometric mean", refused);
    });
}

// ---- The converter (A5) ----

#ifdef TEST_CONVERT
// A table of the older form with all rows used, as the situations are but for status 9; the pass is over its bytes.
void conversions(const std::vector<Situation> &situations) {
    const std::string name = "convert: all rows used";
    std::vector<Measured> cells;
    for (size_t i = 0; i < SIZES.size(); i++) {
        Situation s = situations[i];
        for (Version &v : s.table.used)
            if (v.status == DISCONNECT_PENDING) v.status = ACTIVE, v.release = 0;
        auto l = std::make_shared<Lent>(s, SIZES[i], PLACES, Bytes());
        auto older = std::make_shared<Bytes>(narrowed(l->table)), other = std::make_shared<Bytes>(l->table.size(), 0x5a);
        auto call = [=](auto convert, Bytes &to) {
            return convert(older->data(), older->size(), l->providers.data(), l->providers.size(), l->books.data(), l->books.size(), to.data(),
                           to.size());
        };
        lupinenblatt_answer a = call(lupinenblatt_convert, l->tableAt), b = call(hand_convert, *other);
        mustAgree(a.outcome == DONE && a.outcome == b.outcome && a.count == b.count && l->tableAt == *other && l->tableAt == l->table, name);
        cells.push_back(plan(100, [] {}, {[=] { sink = call(lupinenblatt_convert, l->tableAt).count; },
                                          [=] { sink = call(hand_convert, *other).count; },
                                          [=] { sink = plain_pass(older->data(), older->size()); }}));
    }
    addRow(name, cells);
}
#else
void conversions(const std::vector<Situation> &) {}
#endif

// ---- Lines in split pairs ----

// 4,096 used rows, so many of them of lines in so many split pairs, most of those lines under both names.
Situation makeLines(size_t pairs, size_t inPairs) {
    Dice d(29);
    Situation s;
    std::vector<Code> codes;
    std::set<Tn> known;
    makeBooks(d, s, {20, 256, 64, pairs, false}, codes);
    s.R = 2, s.base = 1000;
    while (s.table.used.size() < MOST_ROWS) {
        size_t most = s.table.used.size() < inPairs ? inPairs : MOST_ROWS;
        Tn tn{(most == inPairs ? d.pick(s.books.splits).one : d.pick(codes)) * 10000 + d.below(10000)};
        if (!known.insert(tn).second) continue;
        makeVersionsOf(d, s, namesOf(s.books, tn), s.table.used);
        if (s.table.used.size() > most) s.table.used.resize(most);
    }
    sortRows(s.table.used);
    if (!sound(s.books) || !sound(s.table, s.books)) std::puts("bench: an unsound situation was made"), std::exit(2);
    return s;
}

const std::vector<std::pair<std::string, std::pair<size_t, size_t>>> LINES = {
    {"0 pairs", {0, 0}},
    {"8 pairs, 512 rows in them", {8, 512}},
    {"64 pairs, no rows in them", {SPLITS, 0}},
    {"64 pairs, all rows in them", {SPLITS, MOST_ROWS}},
};

// An event of this kind that is done, on a line in a pair, under the row's other name.
std::optional<Event> onLine(const Situation &s, uint64_t kind) {
    Dice d(31);
    for (const Version &v : s.table.used) {
        std::vector<Event> moves;
        if (otherName(s.books, v.tn)) movesOf(d, s, v, moves);
        for (Event e : moves) {
            e.tn = *otherName(s.books, v.tn);
            if (e.kind == kind && outcomeOf(s.table, s.books, e) == DONE) return e;
        }
    }
    return std::nullopt;
}

void splitLines() {
    lines.push_back([] { std::printf("\n%-52s|     /hand    /pass\n", "lines in split pairs (at 4,096 rows)"); });
    for (const auto &[name, size] : LINES) {
        std::string title = "soundness: " + name;
        addRow(title, {planCheck(std::make_shared<Lent>(makeLines(size.first, size.second), MOST_ROWS, PLACES, Bytes()), title)});
    }
    const std::vector<std::pair<const char *, uint64_t>> kinds = {{"3 new side modifies", NEW_MODIFIES}, {"11 reply", REPLY}};
    for (const auto &[name, kind] : kinds) {
        std::string title = std::string("step, on a line in a pair, ") + name;
        Situation s = makeLines(8, 512);
        std::optional<Event> e = onLine(s, kind);
        auto l = std::make_shared<Lent>(s, MOST_ROWS, PLACES, e ? packEvent(*e) : Bytes(RECORD));
        addRow(title, {planStep(l, MOST_ROWS, DONE, title)});
    }
}

// ---- Selection ----

// So many numbers with one version each that its new side may activate, all of the first code.
Situation toActivate(const Lists &l, size_t numbers) {
    Dice d(11);
    Situation s;
    std::vector<Code> codes;
    makeBooks(d, s, l, codes);
    for (size_t i = 0; i < numbers; i++) {
        Version v;
        v.tn = Tn{codes[0] * 10000 + i}, v.number = 1, v.newProvider = 2, v.oldProvider = 1, v.lrn.digits = anyTenDigits(d);
        v.newCreated = v.oldCreated = true, v.newDue = v.oldDue = 50, v.authorization = YES, v.stamp = 40;
        s.table.used.push_back(v);
    }
    return s;
}

Bytes activations(const Situation &s) {
    Bytes out;
    for (const Version &v : s.table.used) {
        Event e = plain(ACTIVATES, v, v.newProvider);
        e.time = 60;
        Bytes record = packEvent(e);
        out.insert(out.end(), record.begin(), record.end());
    }
    return out;
}

const std::vector<std::pair<const char *, Lists>> SELECTIONS = {
    {"0 filters", {PROVIDERS, 256, 0, 8, false}},
    {"64 filters", {PROVIDERS, 256, 64, 8, false}},
    {"1,024 filters", {PROVIDERS, 256, FILTERS, 8, false}},
    {"1,024 filters, the code in a pair", {PROVIDERS, 256, FILTERS, SPLITS, true}},
};

// A plain pass over the filter list, all its places: what reading it once costs at the least.
Work filterPass(const std::shared_ptr<Lent> &l) {
    return [=] { sink = plain_pass(l->books.data() + FILTERS_AT, SPLITS_AT - FILTERS_AT); };
}

#ifdef TEST_SELECTION
// The class of each provider, with the pass over the books' bytes.
void selectionRow(const std::string &name, const Situation &s) {
    auto l = std::make_shared<Lent>(s, 64, PLACES, Bytes());
    auto classes = std::make_shared<Bytes>(CLASS_PLACES, 0x5a), other = std::make_shared<Bytes>(*classes);
    const uint8_t *p = l->providers.data(), *b = l->books.data();
    uint64_t tn = s.table.used[0].tn.digits;
    auto call = [=](auto select, const std::shared_ptr<Bytes> &out) {
        return select(p, l->providers.size(), b, BOOKS, tn, out->data(), out->size());
    };
    mustAgree(call(lupinenblatt_selection, classes) == 0 && call(hand_selection, other) == 0 && *classes == *other, name);
    addRow(name, {plan(100, [l] {}, {often(10, [=] { sink = call(lupinenblatt_selection, classes); }),
                                     often(10, [=] { sink = call(hand_selection, other); }),
                                     often(10, [=] { sink = plain_pass(b, BOOKS); }), often(10, filterPass(l))})});
}
#endif

void selections() {
    lines.push_back([] { std::printf("\n%-52s|     /hand    /pass /filters\n", "selection (at 64 rows)"); });
    for (const auto &[name, lists] : SELECTIONS) {
        Situation s = toActivate(lists, 64);
        auto l = std::make_shared<Lent>(s, 64, PLACES, activations(s));
        addRow(std::string("step, activate, ") + name, {planStep(l, 64, DONE, name, {filterPass(l)})});
    }
#ifdef TEST_SELECTION
    for (const auto &[name, lists] : SELECTIONS) selectionRow(std::string("selection, ") + name, toActivate(lists, 64));
#endif
}

// ---- Many events in one call ----

#ifdef TEST_RUN
uint64_t ourRun(Lent &l) {
    return lupinenblatt_run(l.tableAt.data(), l.tableAt.size(), l.providers.data(), l.providers.size(), l.books.data(), l.books.size(), l.R,
                            l.events.data(), l.events.size(), l.trayAt.data(), l.trayAt.size(), l.outcomesAt.data(), l.outcomesAt.size()).events;
}

uint64_t handRun(Lent &l) {
    return hand_run(l.tableAt.data(), l.tableAt.size(), l.providers.data(), l.providers.size(), l.books.data(), l.books.size(), l.R,
                    l.events.data(), l.events.size(), l.trayAt.data(), l.trayAt.size(), l.outcomesAt.data(), l.outcomesAt.size()).events;
}

// Events one after the other, as the generator finds them for the table that the last one left.
Bytes mixedEvents(Dice &d, Situation s, size_t count, size_t freeRows) {
    Bytes out;
    s.table.freeRows = freeRows;
    for (size_t i = 0; i < count; i++) {
        Event e = nextEvent(d, s, 80);
        if (outcomeOf(s.table, s.books, e) == DONE) done(s.table, s.books, s.R, e);
        Bytes record = packEvent(e);
        out.insert(out.end(), record.begin(), record.end());
    }
    return out;
}

// Modifications by either side, each done, none of which moves a row; the time stays the same.
Bytes stillEvents(Dice &d, const Situation &s, size_t count) {
    std::vector<const Version *> worked;
    for (const Version &v : s.table.used)
        if (v.status == PENDING || v.status == CONFLICT) worked.push_back(&v);
    Bytes out;
    for (size_t i = 0; i < count; i++) {
        const Version &v = *d.pick(worked);
        Event e = filled(d, s, plain(v.newCreated ? NEW_MODIFIES : OLD_MODIFIES, v, v.newCreated ? v.newProvider : v.oldProvider), 0);
        e.time = LAST_TIME;
        Bytes record = packEvent(e);
        out.insert(out.end(), record.begin(), record.end());
    }
    return out;
}

// Ours, by hand, the first 200 of the events by single steps of ours, and, where it is asked for, a pass over the filter list for each
// event.
struct Run {
    Measured times;
    double events, stepped;
    double oursToHand() const { return times->ratio(0, 1); }
    double stepToRun() const { return times->ratio(2, 0) * events / stepped; }
    double toFilterPass() const { return times->ratio(0, 3); }
    double each(size_t work) const { return times->least[work] / events; }
};

Run planRun(const std::string &name, const Situation &s, size_t rows, const Bytes &events, size_t repetitions, bool filterPasses = false) {
    size_t count = events.size() / RECORD, stepped = std::min<size_t>(count, 200);
    auto l = std::make_shared<Lent>(s, rows, PLACES + MOST_MESSAGES * std::min<size_t>(count, 64) + 4 * count, events);
    Lent other = *l;
    mustAgree(ourRun(*l) == count && handRun(other) == count && l->same(other), name);
    std::vector<Work> works = {[=] { sink = ourRun(*l); }, [=] { sink = handRun(*l); }, [=] {
        for (size_t i = 0; i < stepped; i++) sink = ours(*l, i).count;
    }};
    if (filterPasses) works.push_back(often(count, filterPass(l)));
    return {plan(repetitions, [=] { l->restore(); }, works), double(count), double(stepped)};
}

void printRuns(const std::string &name, const std::vector<Run> &runs, double (Run::*ratio)() const) {
    std::printf("%-70s", name.c_str());
    for (const Run &r : runs) std::printf("|%12.2f     ", (r.*ratio)());
    std::printf("\n");
}

void runs(const std::vector<Situation> &situations) {
    Dice d(17);
    std::vector<Run> still, mixed;
    for (size_t i = 0; i < SIZES.size(); i++) {
        size_t free = std::min<size_t>(300, MOST_ROWS - SIZES[i]);
        still.push_back(planRun("run, modifications", situations[i], SIZES[i], stillEvents(d, situations[i], 20000), 4));
        mixed.push_back(planRun("run, all kinds", situations[i], SIZES[i] + free, mixedEvents(d, situations[i], 1500, free), 8));
    }
    lines.push_back([=] {
        std::printf("\n%-70s", "many events in one call, time for each event");
        for (size_t n : SIZES) std::printf("|%10zu rows  ", n);
        std::printf("\n");
        printRuns("run, 20,000 modifications that move no row: ours / hand", still, &Run::oursToHand);
        printRuns("run, 1,500 events of all kinds, rows move: ours / hand", mixed, &Run::oursToHand);
        printRuns("ours: single step / run, the modifications", still, &Run::stepToRun);
        printRuns("ours: single step / run, all kinds", mixed, &Run::stepToRun);
        std::printf("%-70s|%12.2f\n", "ours: run at 4,096 rows / run at 64 rows, the modifications", still[2].each(0) / still[0].each(0));
        std::printf("%-70s|%12.2f\n", "hand: run at 4,096 rows / run at 64 rows, the modifications", still[2].each(1) / still[0].each(1));
    });
    lines.push_back([] { std::printf("\n%-56s|     /hand /filters\n", "many activations in one call (at 64 rows)"); });
    for (const auto &[name, lists] : SELECTIONS) {
        Situation s = toActivate(lists, 64);
        Run r = planRun(name, s, 64, activations(s), 80, true);
        std::string title = std::string("run, 64 activations, ") + name;
        lines.push_back([=] { std::printf("%-56s|%10.2f%9.2f\n", title.c_str(), r.oursToHand(), r.toFilterPass()); });
    }
}
#endif

}  // namespace

int main(int argc, char **argv) {
    size_t rounds = argc > 1 ? std::strtoull(argv[1], nullptr, 10) : 5;
    Dice d(3);
    std::vector<Situation> situations;
    for (size_t n : SIZES) situations.push_back(makeRows(d, STEP_LISTS, n, 1000));
    soundness(situations);
    steps(situations);
    conversions(situations);
    lines.push_back([] { std::printf("\n%-52s|     /hand    /pass\n", "books, records"); });
    booksRow("books check, 256 codes, 64 filters, 8 pairs", STEP_LISTS);
    booksRow("books check, all places used", {PROVIDERS, CODES, FILTERS, SPLITS, true});
    records();
    splitLines();
    selections();
#ifdef TEST_RUN
    runs(situations);
#endif
    for (size_t i = 0; i < rounds; i++)
        for (const Measured &m : measures) m->round();
    std::printf("ratios of times: ours / written by hand in C, ours / a plain pass over the table's bytes (books check and selection: the\n"
                "books'; /filters: the filter list's); below 1 ours is faster\n");
    printHead();
    for (const Work &line : lines) line();
    for (const std::string &what : differing) std::printf("THE TWO DIFFER: %s\n", what.c_str());
    return differing.empty() ? 0 : 1;
}
