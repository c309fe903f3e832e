// The examples of docs/LAYOUTS.md: the same bytes written down here, packed by layouts.hpp, compared, and read back.
#include <cstdio>

#include "scenario.hpp"

using namespace paper;

namespace {

int examples = 0, differ = 0;

void example(const char *what, const Bytes &packed, const std::string &wanted, bool readBack) {
    examples++;
    std::string text = hexOf(packed.data(), packed.size());
    if (text == wanted && readBack) return;
    differ++;
    std::printf("%s:\n  packed %s\n  wanted %s%s\n", what, text.c_str(), wanted.c_str(), readBack ? "" : "\n  not read back to the same");
}

void record() {
    Event e;
    e.kind = NEW_CREATES, e.sender = 2, e.other = 1, e.tn = Tn{3035550100}, e.lrn = Lrn{3035550000}, e.due = 100, e.time = 10;
    Bytes packed = packEvent(e);
    std::optional<Fields> back = readRecord(packed.data(), packed.size());
    example("record", packed, "01081000b4eed1942d3bb44c000000000002800000190000", back && *back == fieldsOf(e));
    e.sender = 1, e.within = 1;
    packed = packEvent(e);
    back = readRecord(packed.data(), packed.size());
    example("record within", packed, "01041000b4eed1942d3bb44c000000000002800000192000", back && *back == fieldsOf(e));
}

// [A5] The word that a row has more, here of a version without a date.
const std::string NO_DATE = RELEASE_DATES ? "0000000000000000" : "";

void recordsOfDates() {
    if (!RELEASE_DATES) return;
    Event e;
    e.kind = DISCONNECTS, e.sender = 2, e.tn = Tn{3035550100}, e.version = 1, e.time = 200, e.due = 300;
    Bytes packed = packEvent(e);
    std::optional<Fields> back = readRecord(packed.data(), packed.size());
    example("record with a release date", packed, "0a080000b4eed194000000000000400000320000004b0000", back && *back == fieldsOf(e));
    e.kind = RELEASES, e.sender = 0, e.time = 300, e.due = 0;
    packed = packEvent(e);
    back = readRecord(packed.data(), packed.size());
    example("record of kind 16", packed, "10000000b4eed1940000000000004000004b000000000000", back && *back == fieldsOf(e));
    e.kind = WITHDRAWS, e.sender = 2, e.time = 250;
    packed = packEvent(e);
    back = readRecord(packed.data(), packed.size());
    example("record of kind 17", packed, "11080000b4eed1940000000000004000003e800000000000", back && *back == fieldsOf(e));
}

void rowOfDate() {
    if (!RELEASE_DATES) return;
    Version v;
    v.tn = Tn{3035550100}, v.number = 1, v.status = DISCONNECT_PENDING, v.live = true, v.newCreated = v.oldCreated = true;
    v.newProvider = 2, v.oldProvider = 1, v.lrn = Lrn{3035550000}, v.authorization = YES, v.purpose = ACTIVATE;
    v.newDue = v.oldDue = 100, v.stamp = 200, v.release = 300, v.confirmed = {1, 2, 3};
    Bytes packed;
    packTable(Table{{v}, 0}, packed);
    std::optional<Table> back = unpackTable(packed.data(), packed.size());
    example("row with a release date", packed,
            "2d3bb465000067802d3bb44c02050020" "0000006400000064000000c800000000" "000000000000000e0000000000000000"
            "00000000000000000000000000000000" "00000000000000000000000000000000" "0000012c00000000",
            back && sound(*back, Books()) && textOf(*back) == textOf(Table{{v}, 0}));
}

void row() {
    Version v;
    v.tn = Tn{3035550100}, v.number = 1, v.status = ACTIVE, v.live = true, v.newCreated = v.oldCreated = true, v.newProvider = 2;
    v.oldProvider = 1, v.lrn = Lrn{3035550000}, v.authorization = YES, v.purpose = ACTIVATE, v.newDue = v.oldDue = 100, v.stamp = 104;
    v.confirmed = {1, 2, 3};
    Bytes packed;
    packTable(Table{{v}, 0}, packed);
    std::optional<Table> back = unpackTable(packed.data(), packed.size());
    example("row", packed,
            "2d3bb46500005b802d3bb44c02050020" "00000064000000640000006800000000" "000000000000000e0000000000000000"
            "00000000000000000000000000000000" "00000000000000000000000000000000" + NO_DATE,
            back && sound(*back, Books()) && textOf(*back) == textOf(Table{{v}, 0}));
}

void rowWithin() {
    Version v;
    v.tn = Tn{3035550100}, v.number = 1, v.newCreated = v.within = true, v.newProvider = v.oldProvider = 1, v.lrn = Lrn{3035550000};
    v.newDue = 100, v.stamp = 10;
    Bytes packed;
    packTable(Table{{v}, 0}, packed);
    std::optional<Table> back = unpackTable(packed.data(), packed.size());
    example("row within", packed,
            "2d3bb465000041202d3bb44c01040000" "00000064000000000000000a00000000" "00000000000000000000000000000000"
            "00000000000000000000000000000000" "00000000000000000000000000000000" + NO_DATE,
            back && sound(*back, Books()) && textOf(*back) == textOf(Table{{v}, 0}));
}

void books() {
    Books b;
    b.providers = {{true, true}, {true, false}, {false, false}};
    b.codes = {{303555, 1}}, b.filters = {{3, 303555}}, b.splits = {{303555, 303556}};
    Bytes packed = packBooks(b), providers = packProviders(b);
    std::optional<Books> back = unpackBooks(providers.data(), providers.size(), packed.data(), packed.size());
    bool same = back && packBooks(*back) == packed && packProviders(*back) == providers && packed.size() == 8712;
    example("providers", providers, "030100", same);
    example("code", Bytes(packed.begin() + 8, packed.begin() + 12), "012870c1", same);
    example("filter", Bytes(packed.begin() + 4104, packed.begin() + 4108), "0034a1c3", same);
    example("pair", Bytes(packed.begin() + 8200, packed.begin() + 8208), "0004a1c30004a1c4", same);
}

void message() {
    Message m;
    m.provider = 2, m.localSms = true, m.sort = DOWNLOAD_CREATE, m.tn = Tn{3035550100}, m.number = 1, m.status = SENDING;
    m.lrn = Lrn{3035550000};
    Bytes packed(MESSAGE);
    packMessage(m, packed.data());
    example("message", packed, "2d3bb46500004c242d3bb44c200000000000000000000000", textOf(unpackMessage(packed.data())) == textOf(m));
}

}  // namespace

int main() {
    record();
    recordsOfDates();
    row();
    rowWithin();
    rowOfDate();
    books();
    message();
    std::printf("%d layout examples, %d differ\n", examples, differ);
    return differ == 0 ? 0 : 1;
}
