// A scenario of vectors/PROTOCOL.md from standard input, run on the model; what the paper asks for on standard output.
#include "scenario.hpp"

using namespace paper;

int main() {
    Scenario s = readScenario(std::cin);
    std::optional<Table> table = s.table;
    std::optional<Books> books = s.books;
    for (size_t i = 0; i < s.records.size(); i++) {
        Result r = step(table, books, s.R, unpackEvent(s.records[i].data(), s.records[i].size()), s.trayPlaces);
        std::cout << textOf(i + 1, r.outcome, r.messages);
    }
    std::cout << textOf(*table);
}
