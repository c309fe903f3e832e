// text COUNT SEED FOLDER: writes COUNT generated files to FOLDER for tests/text, named N.SORT, and N.SORT.unsound where the file may be unsound:
// tables, provider lists, books and events of random situations, every fourth damaged.
#include <fstream>
#include <string>

#include "generate.hpp"

using namespace MODEL;

static Bytes eventsOf(Dice &d, const Situation &s, bool damaged) {
    Bytes out;
    for (uint64_t n = d.below(30); n > 0; n--) {
        Event e = nextEvent(d, s, 75);
        Bytes record = damaged && d.chance(20) ? damagedRecord(d, e) : packEvent(e);
        record.resize(RECORD);
        out.insert(out.end(), record.begin(), record.end());
    }
    if (damaged && d.chance(50)) out.resize(out.size() + d.between(1, RECORD - 1), 0x17);
    return out;
}

int main(int count, char **words) {
    if (count != 4) return 2;
    Dice d(std::stoull(words[2]));
    for (uint64_t n = 0, last = std::stoull(words[1]); n < last; n++) {
        Situation s = makeSituation(d, d.pick(std::vector<uint64_t>{0, 1, 5, 40}));
        uint64_t sort = n % 4;
        bool damaged = d.chance(25);
        Bytes bytes;
        if (sort == 0 && damaged) bytes = damagedTable(d, s.table);
        else if (sort == 0) packTable(s.table, bytes);
        else if (sort == 1) bytes = damaged ? damagedProviders(d, s.books) : packProviders(s.books);
        else if (sort == 2) bytes = damaged ? damagedBooks(d, s.books) : packBooks(s.books);
        else bytes = eventsOf(d, s, damaged);
        const char *names[] = {"table", "providers", "books", "events"};
        std::string name = std::string(words[3]) + "/" + std::to_string(n) + "." + names[sort] + (damaged ? ".unsound" : "");
        std::ofstream(name, std::ios::binary).write(reinterpret_cast<const char *>(bytes.data()), std::streamsize(bytes.size()));
    }
    return 0;
}
