// The scenario text form of vectors/PROTOCOL.md: read, and written in the same words. A row of the type (A14) has one word more, "within",
// and one with a release date (A5) behind that "release=" with the date.
#pragma once

#include <iostream>
#include <sstream>
#include <string>

#include "layouts.hpp"

namespace MODEL {

struct Scenario {
    Books books;
    Table table;
    uint64_t R = 0;
    size_t trayPlaces = PLACES;
    std::vector<Bytes> records;
};

inline Systems readSystems(const std::string &text) {
    Systems s;
    std::stringstream in(text);
    for (std::string one; text != "-" && std::getline(in, one, ',');) s.insert(std::stoull(one));
    return s;
}

inline std::string textOf(const Systems &s) {
    std::string text;
    for (Provider p : s) text += (text.empty() ? "" : ",") + std::to_string(p);
    return text.empty() ? "-" : text;
}

inline Version readRow(std::istream &in) {
    Version v;
    int status, authorization, canceller, purpose;
    std::string confirmed, waiting, failed, retries;
    in >> v.tn.digits >> v.number >> status >> v.newProvider >> v.oldProvider >> v.lrn.digits >> v.newDue >> v.oldDue >> authorization
       >> v.cause >> v.newCreated >> v.oldCreated >> canceller >> v.windowRanOut >> v.live >> v.stamp >> v.start >> purpose >> confirmed
       >> waiting >> failed >> retries;
    for (std::string word; in >> word;) {
        if (word == "within") v.within = true;
        if (word.rfind("release=", 0) == 0) v.release = std::stoull(word.substr(8));
    }
    v.status = Status(status), v.authorization = Authorization(authorization), v.canceller = Side(canceller), v.purpose = Purpose(purpose);
    v.confirmed = readSystems(confirmed), v.waiting = readSystems(waiting), v.failed = readSystems(failed);
    std::stringstream list(retries);
    for (std::string one; retries != "-" && std::getline(list, one, ',');)
        v.retries[std::stoull(one)] = std::stoull(one.substr(one.find(':') + 1));
    return v;
}

inline std::string textOf(const Version &v) {
    std::string retries;
    for (const auto &[p, n] : v.retries) retries += (retries.empty() ? "" : ",") + std::to_string(p) + ":" + std::to_string(n);
    std::ostringstream out;
    out << "row " << v.tn.digits << ' ' << v.number << ' ' << int(v.status) << ' ' << v.newProvider << ' ' << v.oldProvider << ' '
        << v.lrn.digits << ' ' << v.newDue << ' ' << v.oldDue << ' ' << int(v.authorization) << ' ' << v.cause << ' ' << v.newCreated << ' '
        << v.oldCreated << ' ' << int(v.canceller) << ' ' << v.windowRanOut << ' ' << v.live << ' ' << v.stamp << ' ' << v.start << ' '
        << int(v.purpose) << ' ' << textOf(v.confirmed) << ' ' << textOf(v.waiting) << ' ' << textOf(v.failed) << ' '
        << (retries.empty() ? "-" : retries) << (v.within ? " within" : "");
    if (v.release != 0) out << " release=" << v.release;
    return out.str();
}

inline Bytes readHex(const std::string &text) {
    Bytes out;
    for (size_t i = 0; i + 1 < text.size(); i += 2) out.push_back(uint8_t(std::stoul(text.substr(i, 2), nullptr, 16)));
    return out;
}

inline std::string hexOf(const uint8_t *in, size_t length) {
    std::string text;
    for (size_t i = 0; i < length; i++) {
        text += "0123456789abcdef"[in[i] / 16];
        text += "0123456789abcdef"[in[i] % 16];
    }
    return text;
}

inline Scenario readScenario(std::istream &in) {
    Scenario s;
    size_t rows = 0;
    for (std::string line; std::getline(in, line);) {
        std::stringstream words(line);
        std::string what;
        if (!(words >> what)) continue;
        if (what == "R") words >> s.R;
        else if (what == "rows") words >> rows;
        else if (what == "tray") words >> s.trayPlaces;
        else if (what == "provider") {
            size_t n;
            ProviderRecord r;
            words >> n >> r.present >> r.runsLocalSms;
            if (s.books.providers.size() < n) s.books.providers.resize(n);
            s.books.providers[n - 1] = r;
        } else if (what == "code") {
            CodeEntry c;
            words >> c.code >> c.owner;
            s.books.codes.push_back(c);
        } else if (what == "filter") {
            FilterEntry f;
            words >> f.provider >> f.code;
            s.books.filters.push_back(f);
        } else if (what == "split") {
            SplitEntry p;
            words >> p.one >> p.two;
            s.books.splits.push_back(p);
        } else if (what == "row") s.table.used.push_back(readRow(words));
        else if (what == "event") {
            std::string hex;
            words >> hex;
            s.records.push_back(readHex(hex));
        }
    }
    s.table.freeRows = rows - std::min(rows, s.table.used.size());
    return s;
}

inline std::string textOf(const Message &m) {
    static const char *const sorts[] = {"?", "creation", "status", "attributes", "create", "modify", "delete", "window"};
    static_assert(std::size(sorts) == SORTS + 1, "a word for each sort");
    std::ostringstream out;
    out << "msg " << (m.localSms ? 'L' : 'S') << m.provider << ' ' << sorts[m.sort > SORTS ? 0 : size_t(m.sort)] << ' ' << m.tn.digits
        << ' ' << m.number << ' ' << int(m.status) << ' ' << textOf(m.failed) << ' ' << m.lrn.digits;
    return out.str();
}

inline std::string textOf(size_t place, uint64_t outcome, const Messages &messages) {
    std::ostringstream out;
    out << "ev " << place << ' ' << outcome << ' ' << messages.size() << '\n';
    for (const Message &m : messages) out << textOf(m) << '\n';
    return out.str();
}

inline std::string textOf(const Table &t) {
    std::string text;
    for (const Version &v : t.used) text += textOf(v) + "\n";
    return text + "free " + std::to_string(t.freeRows) + "\n";
}

// A situation and its events as a scenario, so that a difference can be looked at with tests/flows.
inline std::string textOf(const Scenario &s) {
    std::ostringstream out;
    out << "R " << s.R << "\nrows " << s.table.used.size() + s.table.freeRows << "\ntray " << s.trayPlaces << '\n';
    for (size_t i = 0; i < s.books.providers.size(); i++)
        out << "provider " << i + 1 << ' ' << s.books.providers[i].present << ' ' << s.books.providers[i].runsLocalSms << '\n';
    for (const CodeEntry &c : s.books.codes) out << "code " << c.code << ' ' << c.owner << '\n';
    for (const FilterEntry &f : s.books.filters) out << "filter " << f.provider << ' ' << f.code << '\n';
    for (const SplitEntry &p : s.books.splits) out << "split " << p.one << ' ' << p.two << '\n';
    for (const Version &v : s.table.used) out << textOf(v) << '\n';
    for (const Bytes &r : s.records) out << "event " << hexOf(r.data(), r.size()) << '\n';
    return out.str();
}

}  // namespace MODEL
