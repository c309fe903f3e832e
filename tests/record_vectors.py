#!/usr/bin/env python3
"""The event record once more, written from document 01 and request A14 of document 02 alone, to hold the proved code to it.

Makes what the program crates/records reads and what it must write:

    python3 tests/record_vectors.py crates/records

writes crates/records/stdin and crates/records/stdout.

A case is a frame of 96 bytes: a letter, a length, and from byte 8 on what the letter asks for.
    R  read: so many bytes, at most 56, are read as a record; the fields are then written to 24 bytes
    W  write: eleven fields of 8 bytes each are written to so many bytes, at most 56
    N  numbers: as W, through the calls for C, which take any number in any field
A line of output is the case's place from 1, its letter, and
    R  0, the eleven fields, and what writing them back says and leaves; or 2
    W  0 or 2, and the bytes afterwards (every byte was a5 before)
    N  as W; after 0 also what reading the bytes back says, and the eleven fields
Each case is made with the answer that it is made for, and judged once more by `well_formed`.

RELEASE_DATES=1 in the environment makes the cases of request A5 too (tests/sizes.h has the switch): kinds 16 and 17, and a release date in
the due field of kind 10. Without it there are none.
"""
import os
import sys

# 24 bytes, packed most significant bit first.
WIDTHS = [("kind", 8), ("sender", 6), ("other", 6), ("mark", 2), ("cause", 8), ("tn", 34), ("lrn", 34),
          ("version", 16), ("time", 32), ("due", 32), ("within", 1)]
NAMES = [name for name, _ in WIDTHS]
BITS = dict(WIDTHS)
SPARE = 13

# The kind decides among fifteen cases: the fields besides TN and time.
USES = {
    1: {"sender", "other", "lrn", "due", "within"},
    2: {"sender", "other", "mark", "cause", "due"},
    3: {"sender", "version", "lrn", "due"},
    4: {"sender", "version", "mark", "cause", "due"},
    9: {"sender", "version", "lrn"},
    11: {"sender", "version", "mark"},
    12: {"other", "version"},
}
for plain in (5, 6, 7, 8, 10, 13, 14, 15):
    USES[plain] = {"sender", "version"}
NPAC_MAY_SEND = {3, 4, 5, 6, 7, 8, 9, 10, 13, 14, 15}
AUTHORIZES = {2, 4}
# Beyond its bits each field is tried in these kinds.
WIDE = {1, 2, 11, 12}
DATED = set()
if os.environ.get("RELEASE_DATES", "0") == "1":
    USES.update({10: {"sender", "version", "due"}, 16: {"sender", "version"}, 17: {"sender", "version"}})
    NPAC_MAY_SEND |= {16, 17}
    WIDE |= {10, 16, 17}
    DATED = {10}


def may_be_absent(e, name):
    if name == "due":
        return e["kind"] in DATED
    return name == "sender" and e["kind"] in NPAC_MAY_SEND or name == "cause" and e["mark"] == 1 or name == "within"


def ten_digits(number):
    text = str(number)
    return len(text) == 10 and text[0] in "23456789" and text[3] in "23456789"


def well_formed(e):
    if e["kind"] not in USES:
        return False
    kind, uses = e["kind"], USES[e["kind"]] | {"kind", "tn", "time"}
    for name, bits in WIDTHS:
        value = e[name]
        if not 0 <= value < 1 << bits:
            return False
        if name not in uses and value != 0:
            return False
        if name in uses and value == 0 and not may_be_absent(e, name):
            return False
    if not ten_digits(e["tn"]) or ("lrn" in uses and not ten_digits(e["lrn"])):
        return False
    if "mark" in uses and e["mark"] not in (1, 2):
        return False
    if "cause" in uses:
        if e["mark"] == 1 and e["cause"] != 0 or e["mark"] == 2 and not 1 <= e["cause"] <= 99:
            return False
    return kind not in (1, 2) or (e["sender"] == e["other"]) == (e["within"] == 1)


def pack(e, spare=0):
    bits = "".join(format(e[name], "0%db" % width) for name, width in WIDTHS) + format(spare, "0%db" % SPARE)
    assert len(bits) == 192
    return bytes(int(bits[i:i + 8], 2) for i in range(0, 192, 8))


def unpack(record):
    bits = "".join(format(byte, "08b") for byte in record)
    e, at = {}, 0
    for name, width in WIDTHS:
        e[name], at = int(bits[at:at + width], 2), at + width
    return e, int(bits[at:], 2)


# ---- what a field may be, and what it may not, in a kind

LOW = {"sender": 1, "other": 1, "mark": 1, "cause": 0, "tn": 2002000000, "lrn": 2002000000, "version": 1,
       "time": 1, "due": 1, "within": 0}
HIGH = {"sender": 63, "other": 63, "mark": 2, "cause": 99, "tn": 9999999999, "lrn": 9999999999, "version": 65535,
        "time": 4294967295, "due": 4294967295, "within": 0}
NOT_TEN_DIGITS = [0, 1, 1999999999, 1992000000, 2001999999, 9991999999, 3030550100, 3031550100, 10000000000, 17179869183]


def usual(kind):
    """A usual event of a kind."""
    e = {name: 0 for name in NAMES}
    e.update(kind=kind, tn=3035550100, time=10)
    for name in USES[kind]:
        e[name] = {"sender": 2, "other": 1, "mark": 1, "cause": 0, "lrn": 3035550000, "version": 1, "due": 100, "within": 0}[name]
    return e


def within(e, provider=2):
    """A create of the new side made one within one provider."""
    return dict(e, sender=provider, other=provider, within=1)


def extremes(kind):
    """The well-formed events of a kind at the ends of each field's range, one field at a time and all at once."""
    base = usual(kind)
    uses = USES[kind] | {"tn", "time"}
    yield base
    for name in sorted(uses - {"cause", "within"}):
        for end in (LOW, HIGH):
            e = dict(base, **{name: end[name]})
            if name == "mark" and "cause" in uses and e["mark"] == 2:
                e["cause"] = 1
            if kind in (1, 2) and e["sender"] == e["other"]:
                e["other" if name == "sender" else "sender"] = 3
            yield e
    if kind in NPAC_MAY_SEND:
        yield dict(base, sender=0)
    if kind in DATED:
        for due in (0, base["time"] - 1, base["time"], base["time"] + 1):
            yield dict(base, due=due)
    if kind in AUTHORIZES:
        for cause in (1, 99):
            yield dict(base, mark=2, cause=cause)
    for end in (LOW, HIGH):
        e = dict(base, **{name: end[name] for name in uses})
        if kind in (1, 2):
            e["other"] = {1: 2, 63: 62}[e["sender"]]
        yield e
        if kind == 1:
            yield within(base, end["sender"])
            yield within(e, end["sender"])
    if kind == 1:
        yield within(base)


def malformed(kind):
    """A usual event of a kind made malformed in one field, each way that one can be, within the field's bits."""
    base = usual(kind)
    uses = USES[kind] | {"tn", "time"}
    for name in NAMES[1:]:
        if name not in uses:
            for value in sorted({1, (1 << BITS[name]) - 1}):
                yield dict(base, **{name: value})
        elif name in ("tn", "lrn"):
            for value in NOT_TEN_DIGITS:
                yield dict(base, **{name: value})
        elif name == "mark":
            for value in (0, 3):
                yield dict(base, mark=value)
                if kind in AUTHORIZES:
                    yield dict(base, mark=value, cause=1)
        elif name == "cause":
            for value in (1, 99, 255):
                yield dict(base, mark=1, cause=value)
            for value in (0, 100, 255):
                yield dict(base, mark=2, cause=value)
        elif not may_be_absent(base, name):
            yield dict(base, **{name: 0})
    if kind in (1, 2):
        for value in (1, 63):
            yield dict(base, sender=value, other=value)
    yield from mistyped(base)
    for value in (0, max(USES) + 1, 255):
        yield dict(base, kind=value)


def mistyped(base):
    """The type in another kind, also with a provider twice; in kind 1 with two providers, with none, or with another field at fault."""
    if base["kind"] != 1:
        yield within(base)
        yield within(dict(usual(1), kind=base["kind"]))
        return
    for sender, other in ((2, 1), (1, 2), (63, 62), (1, 63), (0, 0), (0, 2), (2, 0)):
        yield dict(base, sender=sender, other=other, within=1)
    yield dict(base, sender=0, other=0)
    for name, value in (("mark", 1), ("cause", 1), ("version", 1), ("lrn", 0), ("due", 0), ("time", 0), ("tn", 0)):
        yield dict(within(base), **{name: value})


def wide(kind):
    """A usual event of a kind with one number beyond its field's bits: next above them, the same low bits, and the largest."""
    for name in NAMES:
        base = usual(kind)[name]
        for value in sorted({1 << BITS[name], base + (1 << BITS[name]), base + (1 << 32 if BITS[name] < 32 else 1 << 63), (1 << 64) - 1}):
            yield dict(usual(kind), **{name: value})
    for value in (2, 3, 255, 256, 257, 1 << 32, (1 << 32) + 1, 1 << 63, (1 << 64) - 1) if kind == 1 else ():
        yield dict(within(usual(kind)), within=value)


# The bits that a case W has for each field.
TYPES = {"kind": 8, "sender": 8, "other": 8, "mark": 8, "cause": 8, "tn": 64, "lrn": 64, "version": 16, "time": 32, "due": 32,
         "within": 8}


# ---- frames and lines

frames, lines = bytearray(), []


def put(letter, length, body, words):
    frames.extend(letter.encode() + bytes([length]) + bytes(6) + body.ljust(88, b"\0"))
    lines.append(" ".join([str(len(lines) + 1), letter] + words))


def fields(e):
    return [str(e[name]) for name in NAMES]


def read(record, good):
    e, spare = unpack(record) if len(record) == 24 else (None, 0)
    assert good == (e is not None and spare == 0 and well_formed(e)), record.hex()
    put("R", len(record), record, ["0"] + fields(e) + ["0", record.hex()] if good else ["2"])


def write(e, length, good, letter="W"):
    assert good == (length == 24 and well_formed(e)), e
    after = pack(e).hex() if good else "a5" * length
    back = ["0"] + fields(e) if good and letter == "N" else []
    body = b"".join(e[name].to_bytes(8, "big") for name in NAMES)
    put(letter, length, body, (["0"] if good else ["2"]) + ([after] if after else []) + back)


for kind in sorted(USES):
    for e in extremes(kind):
        read(pack(e), True)
        write(e, 24, True)
    for e in malformed(kind):
        read(pack(e), False)
        write(e, 24, False)
    for bit in range(SPARE):
        read(pack(usual(kind), 1 << bit), False)
        if kind == 1:
            read(pack(within(usual(kind)), 1 << bit), False)
    for length in (0, 23, 25, 48):
        read((pack(usual(kind)) * 2)[:length], False)
        write(usual(kind), length, False)
    for e in wide(kind) if kind in WIDE else ():
        if all(e[name] < 1 << TYPES[name] for name in NAMES):
            write(e, 24, False)
        write(e, 24, False, "N")
    for length in (0, 23, 24, 25, 48):
        write(usual(kind), length, length == 24, "N")
        if kind == 1:
            write(within(usual(kind)), length, length == 24, "N")

if len(sys.argv) != 2:
    sys.exit(__doc__)
with open(sys.argv[1] + "/stdin", "wb") as out:
    out.write(frames)
with open(sys.argv[1] + "/stdout", "w", encoding="ascii") as out:
    out.write("\n".join(lines) + "\n")
