// Random and damaged bytes as event, table, books, providers and tray of the library's calls.
//
//     fuzz [inputs] [seed] [first input]
//
// Each slice lies alone in memory, at any start: guard bytes stand before and behind it, and where it ends or begins a page, the next page
// may not be touched at all, not even read. A fault is: a byte changed by a refusal, or outside a slice, or of a slice that is only read, or
// of the tray behind its messages; an outcome that is none; outcome 1 or 2 where the model's checks say otherwise; outcome 0 with an
// unsound table left or more messages than an event has. Of many events in one call the same, and that it stops where the tray says so. Of
// the checks and of the calls that say where something is unsound: another answer than the model's, anything written. Of selection: another
// answer or other classes than the model's, anything else written. Of the converter (A5, where RELEASE_DATES of sizes.h is 1): another
// answer or other bytes than the model's, a byte changed by a refusal, anything else written. What an accepted event should do is asked by
// compare, not here.
#include <csignal>
#include <cstdio>
#include <cstring>
#include <sys/mman.h>
#include <unistd.h>

#include "breaks.hpp"
#include "calls.h"
#include "faults.hpp"
#include "scenario.hpp"

using namespace paper;

namespace {

uint64_t seed = 1, input = 1, faults = 0;

constexpr uint8_t GUARD = 0xa5;

// Memory for one slice between two pages that may not be touched; the longest slice is a table with some rows too many.
class Place {
    static constexpr size_t ROOM = (MOST_ROWS + 300) * ROW, EDGE = 256;
    size_t page = size_t(sysconf(_SC_PAGESIZE)), room = (ROOM + page - 1) / page * page;
    uint8_t *from;
    uint8_t *at = nullptr;
    Bytes before;
  public:
    Place() {
        void *all = mmap(nullptr, room + 2 * page, PROT_NONE, MAP_PRIVATE | MAP_ANONYMOUS, -1, 0);
        if (all == MAP_FAILED) std::exit(2);
        from = static_cast<uint8_t *>(all) + page;
        if (mprotect(from, room, PROT_READ | PROT_WRITE) != 0) std::exit(2);
        std::memset(from, GUARD, room);
    }
    uint8_t *lay(Dice &d, const Bytes &bytes) {
        if (bytes.size() > room) std::puts("fuzz: a slice for which there is no room"), std::exit(2);
        before = bytes;
        size_t slack = room - bytes.size(), middle = EDGE + d.below(64);
        uint64_t way = d.below(3);
        at = from + (way == 0 ? 0 : way == 1 ? slack : std::min(middle, slack));
        std::copy(bytes.begin(), bytes.end(), at);
        return at;
    }
    const Bytes &was() const { return before; }
    Bytes now() const { return Bytes(at, at + before.size()); }
    bool same(size_t first) const { return std::memcmp(at + first, before.data() + first, before.size() - first) == 0; }
    // The guard bytes around the slice, which is then given back.
    bool guarded() {
        size_t start = size_t(at - from), end = start + before.size();
        bool good = true;
        for (size_t i = start < EDGE ? 0 : start - EDGE; i < start; i++) good = good && from[i] == GUARD;
        for (size_t i = end; i < std::min(room, end + EDGE); i++) good = good && from[i] == GUARD;
        std::memset(at, GUARD, before.size());
        return good;
    }
};

void touched(int) {
    static const char text[] = "FAULT: memory outside a slice was touched\n";
    if (write(1, text, sizeof text - 1) < 0) _exit(3);
    char line[64];
    int length = std::snprintf(line, sizeof line, "replay: tests/fuzz 1 %llu %llu\n", (unsigned long long)seed, (unsigned long long)input);
    if (write(1, line, size_t(length)) < 0) _exit(3);
    _exit(1);
}

std::string shortHex(const Bytes &bytes) {
    return hexOf(bytes.data(), std::min<size_t>(bytes.size(), 2000)) + (bytes.size() > 2000 ? ".." : "") + " (" + std::to_string(bytes.size()) + " bytes)";
}

void fault(const char *what) {
    faults++;
    std::printf("FAULT %llu: %s; replay: tests/fuzz 1 %llu %llu\n", (unsigned long long)faults, what, (unsigned long long)seed,
                (unsigned long long)input);
}

// ---- Inputs ----

Bytes anyBytes(Dice &d, size_t length) {
    Bytes out(length);
    for (uint8_t &byte : out) byte = uint8_t(d.next());
    return out;
}

// A few bits or bytes of it changed, a piece moved or repeated, an end cut off or added.
void stir(Dice &d, Bytes &bytes) {
    for (uint64_t n = d.between(1, 3); n > 0 && !bytes.empty(); n--) {
        size_t i = d.below(bytes.size()), j = d.below(bytes.size()), length = std::min(d.between(1, 90), bytes.size() - std::max(i, j));
        switch (d.below(8)) {
        case 0: case 1: case 2: bytes[i] ^= uint8_t(1u << d.below(8)); break;
        case 3: bytes[i] = uint8_t(d.next()); break;
        case 4: std::memmove(bytes.data() + i, bytes.data() + j, length); break;
        case 5: std::memset(bytes.data() + i, d.chance(60) ? 0 : 255, length); break;
        case 6: bytes.resize(d.chance(50) ? i : bytes.size() - std::min<size_t>(bytes.size(), 1)); break;
        default: {
            uint8_t with = uint8_t(d.chance(70) ? 0 : d.next());
            bytes.resize(bytes.size() + d.between(1, 90), with);
        }
        }
    }
}

struct Input {
    Bytes table, providers, books, event, tray;
    uint64_t R = 0;
};

// Wholly random slices, now and then with the right length.
void wild(Dice &d, Input &in) {
    uint64_t which = d.below(5);
    if (which == 0) in.table = anyBytes(d, d.chance(70) ? ROW * d.below(9) : d.below(700));
    if (which == 1) in.books = anyBytes(d, d.chance(70) ? BOOKS : d.below(9000));
    if (which == 2 && d.chance(50)) in.providers = anyBytes(d, d.below(70));
    else if (which == 2) {
        uint8_t each = uint8_t(d.below(5));
        in.providers.assign(d.below(70), each);
    }
    if (which == 3) in.event = anyBytes(d, d.chance(80) ? RECORD : d.below(60));
    if (which == 4) in.table.assign(ROW * (d.chance(50) ? MOST_ROWS + 1 : MOST_ROWS) - (d.chance(20) ? 1 : 0), 0);
}

Input makeInput(Dice &d, const Situation &s) {
    Input in;
    Event e = nextEvent(d, s, 85);
    packTable(s.table, in.table);
    in.providers = packProviders(s.books);
    in.books = packBooks(s.books);
    in.event = d.chance(90) ? packEvent(e) : damagedRecord(d, e);
    in.tray = anyBytes(d, PLACES * MESSAGE + (d.chance(20) ? d.below(80) : 0));
    in.R = s.R;
    uint64_t way = d.below(100);
    if (way < 8) in.table = d.chance(50) ? damagedTable(d, s.table) : brokenTable(d, s.table, s.books);
    else if (way < 14) in.books = d.chance(50) ? damagedBooks(d, s.books) : brokenBooks(d, s.books);
    else if (way < 18) in.providers = d.chance(50) ? damagedProviders(d, s.books) : brokenProviders(d, s.books);
    else if (way < 28) stir(d, in.table);
    else if (way < 34) stir(d, in.books);
    else if (way < 38) stir(d, in.providers);
    else if (way < 48) stir(d, in.event);
    else if (way < 52) in.tray.resize(d.below(1700));
    else if (way < 55) in.R = d.chance(50) ? d.below(12) : d.next();
    else if (way < 62) wild(d, in);
    if (RELEASE_DATES && d.chance(3)) {  // rows of the older form, of a length that fits both
        in.table = narrowed(in.table);
        in.table.resize((in.table.size() / OLDER_ROW / 11 + 1) * 11 * OLDER_ROW);
    }
    return in;
}

// ---- Checks ----

struct Places { Place table, providers, books, event, tray, outcomes, classes, target; };

bool soundInput(const Input &in) {
    std::optional<Table> t = unpackTable(in.table.data(), in.table.size());
    std::optional<Books> b = unpackBooks(in.providers.data(), in.providers.size(), in.books.data(), in.books.size());
    return b && sound(*b) && t && sound(*t, *b) && in.R <= MOST_RETRIES && in.tray.size() / MESSAGE >= PLACES;
}

// A table that an event left, by the books that it was given.
bool soundAfter(const Bytes &table, const Input &in) {
    std::optional<Table> t = unpackTable(table.data(), table.size());
    std::optional<Books> b = unpackBooks(in.providers.data(), in.providers.size(), in.books.data(), in.books.size());
    return b && sound(*b) && t && sound(*t, *b);
}

void printInput(const Input &in) {
    std::printf("R %llu\nevent %s\ntable %s\nproviders %s\nbooks %s\ntray %s\n", (unsigned long long)in.R, shortHex(in.event).c_str(),
                shortHex(in.table).c_str(), shortHex(in.providers).c_str(), shortHex(in.books).c_str(), shortHex(in.tray).c_str());
}

const std::string MORE = "more than " + std::to_string(MOST_MESSAGES) + " messages";

// Counts the outcome; the last place is for one that is none, which is a fault. Half of the calls with the R of a call without R are made so.
void checkStep(Dice &d, Places &p, const Input &in, uint64_t (&outcomes)[OUTCOMES + 1], uint64_t &shortCalls) {
    uint8_t *table = p.table.lay(d, in.table), *providers = p.providers.lay(d, in.providers), *books = p.books.lay(d, in.books);
    uint8_t *event = p.event.lay(d, in.event), *tray = p.tray.lay(d, in.tray);
    bool shortCall = in.R == DEFAULT_R && d.chance(50);
    lupinenblatt_answer a = shortCall
        ? lupinenblatt_step_default(table, in.table.size(), providers, in.providers.size(), books, in.books.size(), event, in.event.size(), tray,
                                    in.tray.size())
        : lupinenblatt_step(table, in.table.size(), providers, in.providers.size(), books, in.books.size(), in.R, event, in.event.size(), tray,
                            in.tray.size());
    outcomes[placeOf(a.outcome)]++, shortCalls += shortCall;
    const char *what = nullptr;
    if (!isOutcome(a.outcome)) what = "an outcome that is none";
    else if (a.outcome != 0 && a.count != 0) what = "a refusal with messages";
    else if (a.outcome != 0 && !p.table.same(0)) what = "a refusal changed the table";
    else if (a.outcome != 0 && !p.tray.same(0)) what = "a refusal changed the tray";
    else if (!p.providers.same(0) || !p.books.same(0) || !p.event.same(0)) what = "a slice that is only read was changed";
    else if (a.count > MOST_MESSAGES) what = MORE.c_str();
    else if (a.outcome == 0 && !p.tray.same(a.count * MESSAGE)) what = "the tray was changed behind its messages";
    bool good = soundInput(in), form = formed(in.event.data(), in.event.size());
    if (good != (a.outcome != 1)) what = good ? "outcome 1 though everything is sound" : "not outcome 1 though something is unsound";
    else if (good && form != (a.outcome != 2)) what = form ? "outcome 2 for a well-formed record" : "not outcome 2 for a malformed record";
    if (a.outcome == 0 && !soundAfter(p.table.now(), in)) what = "outcome 0 left an unsound table";
    bool guarded = p.table.guarded();
    guarded = p.providers.guarded() && guarded;
    guarded = p.books.guarded() && guarded;
    guarded = p.event.guarded() && guarded;
    guarded = p.tray.guarded() && guarded;
    if (!guarded) what = "a byte outside a slice was changed";
    if (!what) return;
    fault(what);
    if (faults > 1) return;
    std::printf("outcome %llu, %llu messages\n", (unsigned long long)a.outcome, (unsigned long long)a.count);
    printInput(in);
}

#ifdef TEST_RUN
// One to twelve records instead of one, some of them stirred; now and then not whole; an outcome slice of any length; a tray for few of them.
Bytes makeRun(Dice &d, const Situation &s, Input &in) {
    for (uint64_t n = d.below(12); n > 0; n--) {
        Event e = nextEvent(d, s, 85);
        Bytes record = d.chance(85) ? packEvent(e) : damagedRecord(d, e);
        record.resize(RECORD);
        in.event.insert(d.chance(50) ? in.event.begin() : in.event.end(), record.begin(), record.end());
    }
    if (d.chance(90)) in.event.resize(in.event.size() / RECORD * RECORD);
    if (d.chance(50)) {
        uint8_t with = uint8_t(d.next());
        in.tray.resize(in.tray.size() + d.below(30 * MESSAGE), with);
    }
    size_t need = in.event.size() / RECORD * 2;
    return anyBytes(d, d.chance(60) ? need : d.chance(50) ? need + d.below(40) : d.below(need + 1));
}

// What may stand in the slices after so many events and messages.
const char *runFault(Places &p, const Input &in, const lupinenblatt_ran &a, const Bytes &outcomes) {
    size_t count = in.event.size() / RECORD, places = in.tray.size() / MESSAGE;
    uint64_t messages = 0;
    if (a.events > count || a.messages > places) return "run: more events than there are, or more messages than places";
    for (size_t i = 0; i < a.events; i++) {
        if (places - messages < PLACES) return "run: an event with too few places left";
        uint8_t outcome = outcomes[2 * i], sent = outcomes[2 * i + 1];
        bool form = formed(in.event.data() + i * RECORD, RECORD);
        bool known = isOutcome(outcome) && outcome != 1 && sent <= MOST_MESSAGES;
        if (!known || (outcome != 0 && sent != 0)) return "run: an outcome or count that no event has";
        if (form != (outcome != 2)) return "run: outcome 2 and the record's form disagree";
        messages += sent;
    }
    if (messages != a.messages) return "run: the counts are not the messages";
    if (a.events < count && places - messages >= PLACES) return "run: stopped with places left";
    if (!p.tray.same(a.messages * MESSAGE)) return "run: the tray was changed behind its messages";
    if (!p.outcomes.same(2 * a.events)) return "run: the outcome slice was changed behind the last event";
    return soundAfter(p.table.now(), in) ? nullptr : "run: left an unsound table";
}

void checkRun(Dice &d, Places &p, const Input &in, const Bytes &blank) {
    uint8_t *table = p.table.lay(d, in.table), *providers = p.providers.lay(d, in.providers), *books = p.books.lay(d, in.books);
    uint8_t *events = p.event.lay(d, in.event), *tray = p.tray.lay(d, in.tray), *outcomes = p.outcomes.lay(d, blank);
    lupinenblatt_ran a = lupinenblatt_run(table, in.table.size(), providers, in.providers.size(), books, in.books.size(), in.R, events,
                                          in.event.size(), tray, in.tray.size(), outcomes, blank.size());
    bool good = soundInput(in) && blank.size() >= in.event.size() / RECORD * 2, whole = in.event.size() % RECORD == 0;
    const char *what = nullptr;
    if (a.outcome != (!good ? 1u : !whole ? 2u : 0u)) what = "run: outcome";
    else if (!p.providers.same(0) || !p.books.same(0) || !p.event.same(0)) what = "run: a slice that is only read was changed";
    else if (a.outcome == 0) what = runFault(p, in, a, p.outcomes.now());
    else if (a.events != 0 || a.messages != 0) what = "run: a refusal with events or messages";
    else if (!p.table.same(0) || !p.tray.same(0) || !p.outcomes.same(0)) what = "run: a refusal changed a slice";
    bool guarded = true;
    for (Place *place : {&p.table, &p.providers, &p.books, &p.event, &p.tray, &p.outcomes}) guarded = place->guarded() && guarded;
    if (!guarded) what = "run: a byte outside a slice was changed";
    if (!what) return;
    fault(what);
    if (faults > 1) return;
    std::printf("outcome %llu, %llu events, %llu messages, outcome slice of %zu bytes\n", (unsigned long long)a.outcome,
                (unsigned long long)a.events, (unsigned long long)a.messages, blank.size());
    printInput(in);
}
#endif

#ifdef TEST_CHECKS
// The checks of soundness alone.
void checkChecks(Dice &d, Places &p, const Input &in) {
    uint8_t *table = p.table.lay(d, in.table), *providers = p.providers.lay(d, in.providers), *books = p.books.lay(d, in.books);
    lupinenblatt_answer a = lupinenblatt_table_check(table, in.table.size(), providers, in.providers.size(), books, in.books.size());
    uint8_t b = lupinenblatt_books_check(providers, in.providers.size(), books, in.books.size());
    std::optional<Table> t = unpackTable(in.table.data(), in.table.size());
    std::optional<Books> list = unpackBooks(in.providers.data(), in.providers.size(), in.books.data(), in.books.size());
    bool booksSound = list && sound(*list), tableSound = booksSound && t && sound(*t, *list);
    const char *what = nullptr;
    if (a.outcome != !tableSound || a.count != (tableSound ? t->used.size() : 0)) what = "table_check answers wrongly";
    else if (b != !booksSound) what = "books_check answers wrongly";
    else if (!p.table.same(0) || !p.providers.same(0) || !p.books.same(0)) what = "a check wrote";
    bool guarded = p.table.guarded();
    guarded = p.providers.guarded() && guarded;
    guarded = p.books.guarded() && guarded;
    if (!guarded) what = "a check wrote outside a slice";
    if (!what) return;
    fault(what);
    if (faults == 1) printInput(in);
}
#endif

#ifdef TEST_SELECTION
// A number for selection: a TN of the books, the event's, ten digits, any bits; now and then with higher bits before it.
uint64_t anyNumber(Dice &d, const Situation &s, const Input &in) {
    uint64_t way = d.below(100), number = d.next() >> d.below(64);
    if (way < 25 && !s.books.filters.empty()) number = d.pick(s.books.filters).code * 10000 + d.below(10000);
    else if (way < 45) number = d.pick(s.tns).digits;
    else if (way < 60 && in.event.size() == RECORD) number = unpackEvent(in.event.data(), RECORD).value_or(Event{}).tn.digits;
    else if (way < 70) number = d.chance(50) ? anyTenDigits(d) : badDigits(d, anyTenDigits(d));
    return d.chance(90) ? number : number | d.next() << d.between(34, 63);
}

// The class of each provider, on these slices and a slice of any length. Counts the answers.
void checkSelection(Dice &d, Places &p, const Situation &s, const Input &in, uint64_t (&answers)[MALFORMED + 1]) {
    uint64_t tn = anyNumber(d, s, in);
    size_t length = d.chance(80) ? CLASS_PLACES : d.chance(50) ? d.between(CLASS_PLACES - 1, CLASS_PLACES + 1) : d.below(300);
    Bytes blank = anyBytes(d, length), wanted = blank;
    uint8_t *providers = p.providers.lay(d, in.providers), *books = p.books.lay(d, in.books), *classes = p.classes.lay(d, blank);
    uint8_t said = lupinenblatt_selection(providers, in.providers.size(), books, in.books.size(), tn, classes, length);
    Selection model = selection(unpackBooks(in.providers.data(), in.providers.size(), in.books.data(), in.books.size()), tn, length);
    std::copy(model.classes.begin(), model.classes.end(), wanted.begin());
    answers[model.outcome]++;
    const char *what = nullptr;
    if (said != model.outcome) what = "selection: outcome";
    else if (said != 0 && !p.classes.same(0)) what = "selection: a refusal wrote";
    else if (p.classes.now() != wanted) what = "selection: classes";
    else if (!p.providers.same(0) || !p.books.same(0)) what = "selection: a slice that is only read was changed";
    bool guarded = true;
    for (Place *place : {&p.providers, &p.books, &p.classes}) guarded = place->guarded() && guarded;
    if (!guarded) what = "selection: a byte outside a slice was changed";
    if (!what) return;
    fault(what);
    if (faults > 1) return;
    std::printf("TN %llu, %zu bytes, outcome %u, model %llu\n", (unsigned long long)tn, length, said, (unsigned long long)model.outcome);
    printInput(in);
}
#endif

#ifdef TEST_FAULTS
// The calls that say where something is unsound.
void checkFaults(Dice &d, Places &p, const Input &in) {
    uint8_t *table = p.table.lay(d, in.table), *providers = p.providers.lay(d, in.providers), *books = p.books.lay(d, in.books);
    lupinenblatt_fault a = lupinenblatt_table_fault(table, in.table.size(), providers, in.providers.size(), books, in.books.size());
    lupinenblatt_fault b = lupinenblatt_books_fault(providers, in.providers.size(), books, in.books.size());
    Fault t = tableFault(in.table.data(), in.table.size(), in.providers.data(), in.providers.size(), in.books.data(), in.books.size());
    Fault l = booksFault(in.providers.data(), in.providers.size(), in.books.data(), in.books.size());
    const char *what = nullptr;
    if (!(Fault{a.clause, a.place, a.second} == t)) what = "table_fault answers wrongly";
    else if (!(Fault{b.clause, b.place, b.second} == l)) what = "books_fault answers wrongly";
    else if (t.clause > TABLE_CLAUSES || l.clause > BOOKS_CLAUSES) what = "a clause that is none";
    else if (!p.table.same(0) || !p.providers.same(0) || !p.books.same(0)) what = "a call that says where wrote";
    bool guarded = true;
    for (Place *place : {&p.table, &p.providers, &p.books}) guarded = place->guarded() && guarded;
    if (!guarded) what = "a call that says where wrote outside a slice";
    if (!what) return;
    fault(what);
    if (faults > 1) return;
    std::printf("table %llu %llu %llu, books %llu %llu %llu\n", (unsigned long long)a.clause, (unsigned long long)a.place,
                (unsigned long long)a.second, (unsigned long long)b.clause, (unsigned long long)b.place, (unsigned long long)b.second);
    printInput(in);
}
#endif

#ifdef TEST_CONVERT
// A table of the older form, sound, damaged or stirred, and a target of any length. Counts the answers.
void checkConvert(Dice &d, Places &p, const Situation &s, uint64_t (&answers)[UNSOUND + 1]) {
    Situation then = s;
    if (d.chance(90)) then.table = olderTable(d, s.table);
    Input in = makeInput(d, then);
    in.table = narrowed(in.table);
    if (d.chance(15)) stir(d, in.table);
    size_t right = in.table.size() / OLDER_ROW * ROW;
    Bytes blank = anyBytes(d, d.chance(80) ? right : d.chance(50) ? right + d.below(2 * ROW) : d.below(right + 2)), wanted = blank;
    std::optional<Table> older = unpackTable(in.table.data(), in.table.size(), OLDER_ROW);
    std::optional<Books> lists = unpackBooks(in.providers.data(), in.providers.size(), in.books.data(), in.books.size());
    Converted model = convert(older, lists, rowsIn(blank.size()));
    if (model.outcome == DONE) packTable(model.table, wanted);
    answers[model.outcome]++;
    uint8_t *table = p.table.lay(d, in.table), *providers = p.providers.lay(d, in.providers), *books = p.books.lay(d, in.books);
    uint8_t *target = p.target.lay(d, blank);
    lupinenblatt_answer a = lupinenblatt_convert(table, in.table.size(), providers, in.providers.size(), books, in.books.size(), target,
                                                 blank.size());
    const char *what = nullptr;
    if (a.outcome != model.outcome || a.count != model.table.used.size()) what = "convert answers wrongly";
    else if (a.outcome != 0 && !p.target.same(0)) what = "convert: a refusal changed the target";
    else if (p.target.now() != wanted) what = "convert: target";
    else if (!p.table.same(0) || !p.providers.same(0) || !p.books.same(0)) what = "convert: a slice that is only read was changed";
    bool guarded = true;
    for (Place *place : {&p.table, &p.providers, &p.books, &p.target}) guarded = place->guarded() && guarded;
    if (!guarded) what = "convert: a byte outside a slice was changed";
    if (!what) return;
    fault(what);
    if (faults > 1) return;
    std::printf("target of %zu bytes, outcome %llu, %llu rows\n", blank.size(), (unsigned long long)a.outcome, (unsigned long long)a.count);
    printInput(in);
}
#endif

// The record's two calls: 0 or 2, nothing written with 2, nothing outside. A guard number stands before and behind the fields.
void checkRecord(Dice &d, Places &p, const Input &in) {
    size_t length = d.chance(70) ? RECORD : d.below(60), places = d.chance(80) ? FIELDS : d.below(2 * FIELDS);
    uint8_t *event = p.event.lay(d, in.event);
    const uint64_t blankField = 0x0123456789abcdef;
    std::vector<uint64_t> fields(places + 2, blankField);
    uint8_t said = lupinenblatt_record_read(event, in.event.size(), fields.data() + 1, places);
    bool kept = std::all_of(fields.begin(), fields.end(), [=](uint64_t f) { return f == blankField; });
    bool reads = formed(in.event.data(), in.event.size()) && places == FIELDS;
    const char *what = nullptr;
    if (said != (reads ? 0 : 2)) what = "record_read answers wrongly";
    else if (said == 2 && !kept) what = "record_read refused and wrote";
    else if (fields[0] != blankField || fields[places + 1] != blankField) what = "record_read wrote beside the fields";
    else if (!p.event.same(0)) what = "record_read changed the bytes";
    if (!p.event.guarded()) what = "record_read wrote outside";
    Fields f;
    std::optional<Event> e = unpackEvent(in.event.data(), in.event.size());
    for (uint64_t &field : f) field = d.next() >> d.below(64);
    if (e && d.chance(80)) f = fieldsOf(*e);
    if (d.chance(30)) f[d.below(FIELDS)] = d.next() >> d.below(64);
    Bytes blank(length, 0x3c);
    uint8_t *out = p.tray.lay(d, blank);
    said = lupinenblatt_record_write(f[0], f[1], f[2], f[3], f[4], f[5], f[6], f[7], f[8], f[9], f[10], out, length);
    bool writes = writeRecord(f, length).has_value();
    if (said != (writes ? 0 : 2)) what = "record_write answers wrongly";
    else if (said == 2 && !p.tray.same(0)) what = "record_write refused and wrote";
    if (!p.tray.guarded()) what = "record_write wrote outside";
    if (!what) return;
    fault(what);
    std::printf("record %s, %zu places, %zu bytes, fields", shortHex(in.event).c_str(), places, length);
    for (uint64_t field : f) std::printf(" %llu", (unsigned long long)field);
    std::printf("\n");
}

}  // namespace

int main(int argc, char **argv) {
    uint64_t wanted = argc > 1 ? std::strtoull(argv[1], nullptr, 10) : 400000, outcomes[OUTCOMES + 1] = {}, shortCalls = 0, done = 0;
    uint64_t selections[MALFORMED + 1] = {};
    [[maybe_unused]] uint64_t conversions[UNSOUND + 1] = {};
    seed = argc > 2 ? std::strtoull(argv[2], nullptr, 10) : 1;
    input = argc > 3 ? std::strtoull(argv[3], nullptr, 10) : 1;
    std::signal(SIGSEGV, touched);
    std::signal(SIGBUS, touched);
    std::setvbuf(stdout, nullptr, _IOLBF, 0);
    Places places;
    for (; done < wanted && faults < 10; input++, done++) {
        // Every 40 inputs share a situation; it follows from their number alone, as everything else does.
        Dice common(seed * 7919 + input / 40 * 0x9e3779b97f4a7c15), own(seed * 104729 + input * 0xd1342543de82ef95);
        static Situation s;
        static uint64_t made = ~uint64_t(0);
        if (made != input / 40) made = input / 40, s = makeSituation(common, common.below(12));
        Input in = makeInput(own, s);
        uint64_t way = own.below(100);
        if (way < 12) checkRecord(own, places, in);
#ifdef TEST_CHECKS
        else if (way < 22) checkChecks(own, places, in);
#endif
#ifdef TEST_FAULTS
        else if (way < 32) checkFaults(own, places, in);
#endif
#ifdef TEST_RUN
        else if (way < 52) {
            Bytes blank = makeRun(own, s, in);
            checkRun(own, places, in, blank);
        }
#endif
        else checkStep(own, places, in, outcomes, shortCalls);
#ifdef TEST_SELECTION
        if (own.chance(25)) checkSelection(own, places, s, in, selections);
#endif
#ifdef TEST_CONVERT
        if (own.chance(10)) checkConvert(own, places, s, conversions);
#endif
    }
    std::printf("outcomes:");
    for (size_t i = 0; i < OUTCOMES; i++)
        if (isOutcome(i)) std::printf(" %zu: %llu,", i, (unsigned long long)outcomes[i]);
    std::printf(" other: %llu", (unsigned long long)outcomes[OUTCOMES]);
    std::printf("; calls without R: %llu", (unsigned long long)shortCalls);
    std::printf("; selections: 0: %llu, 1: %llu, 2: %llu", (unsigned long long)selections[DONE], (unsigned long long)selections[UNSOUND],
                (unsigned long long)selections[MALFORMED]);
#ifdef TEST_CONVERT
    std::printf("; conversions: 0: %llu, 1: %llu", (unsigned long long)conversions[DONE], (unsigned long long)conversions[UNSOUND]);
#endif
    std::printf("\n%llu inputs, %llu faults\n", (unsigned long long)done, (unsigned long long)faults);
    return faults == 0 ? 0 : 1;
}
