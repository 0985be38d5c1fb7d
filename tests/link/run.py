#!/usr/bin/env python3
"""run.py: the C interface of the archive target/staticlib/libexports.a.

Two C programs link it through include/m2m.h and check sheet S. Then the declarations of the header, of the comparison in
Rust and of the front end in Python are held against what the archive leaves in memory: where each field stands, how long
it is, and how long the whole is. Planted wrong declarations must be found.
"""
import os
import random
import re
import struct
import subprocess
import sys
import tempfile

import declared
import drafts
from declared import ROOT, compiled, said

HERE = os.path.dirname(os.path.abspath(__file__))
ARCHIVE = os.path.join(ROOT, "target/staticlib/libexports.a")
HEADER = os.path.join(ROOT, "include/m2m.h")
FUNCTIONS = (
    "m2m_settle",
    "m2m_report",
    "m2m_read",
    "m2m_entitlement",
    "m2m_hour_open",
    "m2m_hour_add",
    "m2m_hour_totals",
    "m2m_read_draft",
    "m2m_write_draft",
    "m2m_explain",
)
# Answers of 16 bytes, which come in two registers.
IN_REGISTERS = ("m2m_entitlement", "m2m_write_draft")
# The fields of each function's answer, as the crates name them.
STATEMENT = (
    "refusal name has_paths gtl first_remainder second_remainder parallel shadow common noncommon market settled entitlement"
    " price amount nyiso pjm"
).split()
FIELDS = {
    "m2m_settle": STATEMENT,
    "m2m_report": STATEMENT + ["length"],
    "m2m_read": "refusal place zones units points pars factors paths circulations".split(),
    "m2m_entitlement": ["refusal", "value"],
    "m2m_hour_open": [],  # all zeros: it stands as in the answer of m2m_hour_add
    "m2m_hour_add": "refusal amounts seconds count name monitoring_rto".split(),
    "m2m_hour_totals": "seconds amount nyiso pjm".split(),
    "m2m_read_draft": drafts.FIELDS,
    "m2m_write_draft": ["refusal", "length"],
    "m2m_explain": ["refusal", "reason", "from", "to"],
}
# So many sheets tell each byte of a draft from all others.
DRAFTS = 40


class Wrong(Exception):
    pass


# Sheets whose figures are all different.


def name(word):
    return word.encode().ljust(16, b"\0")


def interval(chance, monitoring):
    """A sheet of three zones, five units, four points and two PARs, some with paths; a list, and the tenths of a MW in it."""
    some = chance.randrange
    prices = some(1, 9999), some(10000, 99999)
    sheet = struct.pack(">B16sBHII", 1, name("F%d" % some(10**9)), monitoring, some(300, 900), *prices)
    for k in range(3):
        sheet += struct.pack(">B16sII", 2, name("Z%d" % k), some(1000, 90000), some(100))
    for k in range(5):
        sheet += struct.pack(">B16sBI", 3, name("U%d" % k), 1 + k % 3, some(10000, 90000))
    for k in range(4):
        place = k % 2 and 1 + k // 2
        schedule = (some(100) for _ in range(4))
        sheet += struct.pack(">B16sBB4I", 4, name("P%d" % k), 1 + k // 2, place, *schedule)
    for k in range(2):
        sheet += struct.pack(">B16sBii", 5, name("T%d" % k), 1 + k, some(-9999, 9999), some(-9999, 9999))
    for target in range(3):
        for subject, count in enumerate((5, 3, 4, 2 if target == 0 else 0), 1):
            for k in range(count):
                sheet += struct.pack(">BBBHh", 6, target, subject, 1 + k, some(-9999, 9999))
    if some(3):
        for k in range(4):
            sheet += struct.pack(">B16sih", 7, name("J%d" % k), some(-9999, 9999), some(-9999, 9999))
        sheet += struct.pack(">Bi", 8, some(-9999, 9999))
    value = some(-1000, 1000)
    return sheet, struct.pack(">B16si", 0x10, sheet[1:17], value), value


def expected(sheet, listing, value):
    """What each function says of an accepted interval, by the listing's own words; nothing of a refused one."""
    if not listing:
        return None
    lines = dict(line.split(" ", 1) for line in listing.splitlines())
    gtl, first, second = lines.pop("gtl").split()
    values = {"refusal": bytes(1), "name": bytes.fromhex(lines.pop("flowgate")).ljust(16, b"\0")}
    values.update(gtl=int(gtl), first_remainder=int(first), second_remainder=int(second))
    values.update((label.lower(), int(figure)) for label, figure in lines.items())
    paths = "settled" in lines
    values.update(has_paths=bytes([paths]), settled=values["settled" if paths else "market"])
    counts = dict(refusal=bytes(1), place=0, zones=3, units=5, points=4, pars=2, factors=14 + 24)
    counts.update(paths=4 * paths, circulations=int(paths))
    return {
        "m2m_settle": values,
        "m2m_report": dict(values, length=len(listing)),
        "m2m_read": counts,
        "m2m_entitlement": dict(refusal=bytes(1), value=value),
        "m2m_explain": explained(0, reason(values), len(sheet), len(sheet)),
        **hour_of([values] * 2, sheet),
    }


def reason(values):
    """Where the flow paid on is: 1 above the entitlement, 2 below it, 3 at it."""
    difference = values["settled"] - values["entitlement"]
    return 1 if difference > 0 else 2 if difference < 0 else 3


def explained(refusal, why, start, end):
    """What m2m_explain says."""
    return {"refusal": bytes([refusal]), "reason": bytes([why]), "from": start, "to": end}


def hour_of(taken, sheet, refusal=0):
    """What the hour's functions say of an hour that took these intervals of the sheet."""
    monitoring, seconds = struct.unpack(">BH", sheet[17:20])
    cells = [one["amount"] for one in taken] + [0] * (60 - len(taken))
    times = [seconds] * len(taken) + [0] * (60 - len(taken))
    return {
        "m2m_hour_open": {},
        "m2m_hour_add": dict(
            refusal=bytes([refusal]),
            amounts=struct.pack("<60q", *cells),
            seconds=struct.pack("<60H", *times),
            count=len(taken),
            name=sheet[1:17] if taken else bytes(16),
            monitoring_rto=bytes([monitoring if taken else 0]),
        ),
        "m2m_hour_totals": dict(
            seconds=struct.pack("<I", sum(times)),
            **{word: sum(one[word] for one in taken) for word in ("amount", "nyiso", "pjm")},
        ),
    }


def encoded(value):
    return value if isinstance(value, bytes) else struct.pack("<q", value)


class Seen:
    """Of each function: where the archive may put each field, how long it is, and which bytes are always written."""

    def __init__(self, raw, folder):
        self.raw, self.folder = raw, folder
        self.places = {function: {} for function in FUNCTIONS}
        self.sizes = {function: {} for function in FUNCTIONS}
        self.written = {function: None for function in FUNCTIONS}

    def meet(self, sheet, entitlements, values_of):
        """Takes what the functions leave in memory, unless nothing is to be said of it."""
        paths = []
        for file, content in (("sheet", sheet), ("list", entitlements)):
            paths.append(os.path.join(self.folder, file))
            with open(paths[-1], "wb") as out:
                out.write(content)
        lines, _, listing = said(self.raw, *paths).partition("listing ")
        values = values_of(listing)
        for line in lines.splitlines() if values else ():
            function, low, high = line.split()
            if function in values:
                self.take(function, bytes.fromhex(low), bytes.fromhex(high), values[function])
        return values is not None

    def take(self, function, low, high, values):
        same = {at for at in range(len(low)) if low[at] == high[at]}
        written, places = self.written, self.places[function]
        written[function] = same if written[function] is None else written[function] & same
        for field, value in values.items():
            wanted = encoded(value)
            places[field] = {at for at in places.get(field, same) if low.startswith(wanted, at) and at in same}
            self.sizes[function][field] = len(wanted)


def seen(raw, folder):
    """Of each function: where the archive puts each field, and which bytes it always writes."""
    chance = random.Random(1)
    memory = Seen(raw, folder)
    accepted = 0
    while accepted < 12:
        sheet, entitlements, value = interval(chance, 1 + accepted % 2)
        accepted += memory.meet(sheet, entitlements, lambda listing: expected(sheet, listing, value))
    for _ in range(DRAFTS):
        head, records = drafts.drawn(chance)
        drafted = drafts.sheet(head, records)
        memory.meet(drafted, b"", lambda listing: drafts.expected(head, records, len(drafted)))

    # Refusals tell the number and the place apart from zeros, and both ends of the part that is refused.
    def refused(number, place, end):
        zeros = {function: dict.fromkeys(fields, 0) for function, fields in FIELDS.items()}
        for function in FUNCTIONS[:2]:
            zeros[function].update(refusal=bytes([number]), name=bytes(16), has_paths=bytes(1))
        zeros["m2m_read"].update(refusal=bytes([number]), place=place)
        zeros["m2m_entitlement"].update(refusal=b"\x0e")
        zeros["m2m_explain"] = explained(number, 0, place, end)
        return {**zeros, **hour_of([], sheet, number), **drafts.refused(number)}

    sheet = bytearray(sheet)
    sheet[28 + 25] = 9
    memory.meet(bytes(sheet), b"\x11", lambda listing: refused(2, 28 + 25, 28 + 25 + 1))
    memory.meet(bytes(sheet[: 28 + 10]), b"\x11", lambda listing: refused(3, 28, 28 + 10))
    return laid(memory.places, memory.sizes), memory.written


def in_order(found, before, behind):
    """Those places of a field that lie behind the one before it and before the next: padding may keep bytes of a record."""
    low = before[-1][1] + before[-1][2] if before else 0
    high = min((at for at in behind or () if at > low), default=low)
    return {at for at in found if low <= at < high}


def laid(places, sizes):
    """The fields of each function's answer, each with its place and size."""
    layout = {}
    for function in FUNCTIONS:
        layout[function] = []
        for field, behind in zip(FIELDS[function], [*FIELDS[function][1:], None]):
            found = places[function][field]
            if len(found) > 1:
                found = in_order(found, layout[function], places[function].get(behind))
            if len(found) != 1:
                raise Wrong("%s: %s may stand at %s" % (function, field, sorted(found)[:8]))
            layout[function].append((field, found.pop(), sizes[function][field]))
    _, *hour = layout["m2m_hour_add"]
    layout["m2m_hour_open"] = [(field, at - hour[0][1], size) for field, at, size in hour]
    return layout


def hold(told, layout, written):
    """The declarations against the archive: each field where it is, and as long as it is; the whole as long as it is."""
    for function, (fields, whole) in told.items():
        if fields != layout[function]:
            wrong = [pair for pair in zip(fields, layout[function]) if pair[0] != pair[1]]
            raise Wrong("%s: declared and found differ, %s" % (function, wrong[:1] or "in the number of fields"))
        if function in IN_REGISTERS:
            end = 16
        else:
            covered = {at for _, offset, size in fields for at in range(offset, offset + size)}
            if not covered <= written[function]:
                raise Wrong("%s: bytes %s are never written" % (function, sorted(covered - written[function])[:8]))
            end = max(written[function]) + 1
        if whole != (end + 7) // 8 * 8:
            raise Wrong("%s: %d bytes are declared, the archive's answer has %d" % (function, whole, end))


def swapped(text, one, other):
    """The text with two words that occur in it in each other's place."""
    parts = re.split(r"\b(%s|%s)\b" % (one, other), text)
    return "".join({one: other, other: one}.get(part, part) for part in parts)


def called(text):
    """What the archive calls of the C library; the header names it."""
    told = " ".join(re.search(r"calls nothing but (.*?), so", text, re.S).group(1).replace("*", " ").split())
    listed = said("nm", "--format=posix", "--undefined-only", ARCHIVE)
    calls = {line.split()[0] for line in listed.splitlines() if " U" in line}
    if calls - set(told.split(" and ")):
        raise Wrong("the archive calls %s, and the header says %s" % (sorted(calls), told))
    names = said("nm", "--format=posix", "--defined-only", "--extern-only", ARCHIVE)
    defined = {line.split()[0] for line in names.splitlines() if " T " in line}
    if defined != set(FUNCTIONS):
        raise Wrong("the archive defines %s" % sorted(defined ^ set(FUNCTIONS)))


def planted(text, edits, layout_of, layout, written, folder):
    for edit in edits:
        wrong = swapped(text, *edit) if edit[0].isidentifier() else text.replace(*edit, 1)
        if wrong == text:
            raise Wrong("nothing to plant a fault in: %r" % (edit,))
        try:
            hold(layout_of(FUNCTIONS, wrong, folder), layout, written)
        except Wrong:
            continue
        raise Wrong("a wrong declaration passed: %r" % (edit,))
    return len(edits)


# Two names in each other's place, or a text for a text.
HEADER_EDITS = (
    ("nyiso", "pjm"),
    ("first_remainder", "second_remainder"),
    ("common", "noncommon"),
    ("units", "points"),
    ("    int64_t shadow; ", "    "),
    ("int64_t gtl; ", "int32_t gtl; "),
    ("uint8_t refusal;\n    uint8_t name[16];", "uint8_t name[16];\n    uint8_t refusal;"),
    ("uint8_t name[16];", "uint8_t name[17];"),
    ("    m2m_statement statement;\n    size_t length;", "    size_t length;\n    m2m_statement statement;"),
    ("    size_t circulations;\n", "    size_t circulations;\n    size_t wheels;\n"),
    ("    size_t paths;\n    size_t circulations;\n", "    size_t circulations;\n    size_t paths;\n"),
    ("    uint8_t has_paths; ", "    "),
    ("uint8_t has_paths; ", "uint32_t has_paths; "),
    ("market", "settled"),
    ("    int64_t settled; ", "    "),
    ("uint8_t refusal;\n    size_t place;", "uint32_t refusal;\n    size_t place;"),
    ("uint8_t refusal;\n    int64_t value;", "int64_t value;\n    uint8_t refusal;"),
    ("amounts", "seconds"),
    ("M2M_HOUR_INTERVALS 60", "M2M_HOUR_INTERVALS 61"),
    ("    size_t count; ", "    uint32_t count; "),
    ("uint8_t monitoring_rto; ", "uint16_t monitoring_rto; "),
    ("    uint8_t refusal;\n    m2m_hour hour;", "    m2m_hour hour;\n    uint8_t refusal;"),
    ("    uint32_t seconds;\n", "    uint64_t seconds;\n"),
    ("    uint32_t seconds;\n", ""),
    ("load", "losses"),
    ("import_", "export_"),
    ("wheel_in", "wheel_out"),
    ("export_", "wheel_in"),
    ("    uint32_t wheel_out;\n", ""),
    ("uint32_t wheel_in; ", "uint16_t wheel_in; "),
    ("monitoring_price", "nonmonitoring_price"),
    ("uint8_t line; ", "uint16_t line; "),
    ("int16_t factor;", "int32_t factor;"),
    ("    uint16_t index;\n    int16_t factor;", "    int16_t factor;\n    uint16_t index;"),
    ("M2M_MOST_UNITS 256", "M2M_MOST_UNITS 255"),
    ("M2M_MOST_FACTORS 2888", "M2M_MOST_FACTORS 2889"),
    ("    size_t point_count;\n", ""),
    ("int16_t factor;\n} m2m_path", "int32_t factor;\n} m2m_path"),
    ("int32_t flow;\n} m2m_circulation", "int64_t flow;\n} m2m_circulation"),
    ("M2M_MOST_PATHS 4", "M2M_MOST_PATHS 5"),
    ("    size_t circulation_count;\n", ""),
    ("    uint8_t refusal;\n    m2m_draft draft;", "    m2m_draft draft;\n    uint8_t refusal;"),
    ("    uint8_t refusal;\n    size_t length;", "    size_t length;\n    uint8_t refusal;"),
    ("from", "to"),
    ("uint8_t reason;", "uint16_t reason;"),
    ("    uint8_t reason;  /* M2M_REASON_.. */\n", ""),
    ("    size_t from; ", "    uint32_t from; "),
    (
        "uint8_t refusal; /* the settlement's own number; 0: accepted */\n    uint8_t reason;",
        "uint8_t reason; /* the settlement's own number; 0: accepted */\n    uint8_t refusal;",
    ),
)
RUST_EDITS = (
    ("nyiso", "pjm"),
    ("units", "points"),
    ("market: i64,", "market: i32,"),
    ("shadow: i64,", ""),
    ("settled: i64,", "settled: i32,"),
    ("has_paths: u8,", "has_paths: u16,"),
    ("place: usize,", "place: u32,"),
    ("value: i64,", "value: i64, more: i64,"),
    ("amounts: [i64; 60],", "amounts: [i64; 59],"),
    ("monitoring_rto: u8,", "monitoring_rto: u16,"),
    ("seconds: u32,", "seconds: u64,"),
    ("    pub hour: Hour,\n", ""),
    ("import", "export"),
    ("wheel_in", "wheel_out"),
    ("    pub wheel_out: u32,\n", ""),
    ("load", "losses"),
    ("zones: [Zone; 33],", "zones: [Zone; 32],"),
    ("factors: [Factor; 2889],", "factors: [Factor; 2888],"),
    ("index: u16,", "index: u32,"),
    ("actual: i32,", "actual: i64,"),
    ("par_count: usize,", "par_count: u32,"),
    ("path_count: usize,", "path_count: u32,"),
    ("    pub draft: Draft,\n", ""),
    ("from", "to"),
    ("    pub refusal: u8,\n    pub reason: u8,", "    pub reason: u8,\n    pub refusal: u8,"),
    ("    pub reason: u8,", "    pub reason: u16,"),
    ("    pub to: usize,", "    pub to: u32,"),
)


def main():
    with open(HEADER) as file:
        text = file.read()
    with tempfile.TemporaryDirectory() as folder:
        for language in ("c", "c++"):
            subprocess.run(["cc", "-x", language, "-fsyntax-only", "-Wall", "-Wextra", "-Werror", HEADER], check=True)
        data = os.path.join(ROOT, "crates/settle")
        files = [os.path.join(data, file) for file in ("data/sheet.bin", "data/entitle.bin", "stdout")]
        for name, words in (("sheet_s", files), ("altered", files[:2])):
            source = os.path.join(HERE, name + ".c")
            said(compiled(folder, name, "-I" + os.path.dirname(HEADER), source, ARCHIVE), *words)
        layout, written = seen(compiled(folder, "raw", os.path.join(HERE, "raw.c"), ARCHIVE), folder)
        rust_text = declared.rust_text()
        hold(declared.header(FUNCTIONS, text, folder), layout, written)
        hold(declared.rust(FUNCTIONS, rust_text, folder), layout, written)
        hold(declared.python(), layout, written)
        called(text)
        faults = planted(text, HEADER_EDITS, declared.header, layout, written, folder)
        faults += planted(rust_text, RUST_EDITS, declared.rust, layout, written, folder)
        with open(os.path.join(ROOT, "crates/report/proofs/Longest.antt")) as file:
            room = re.search(r"row_23_not_met : .* (\d+) ≤ length out", file.read()).group(1)
        if "#define M2M_LISTING_ROOM %s\n" % room not in text:
            raise Wrong("M2M_LISTING_ROOM is not what the theorem row_23_not_met has, %s" % room)
    fields = sum(map(len, layout.values()))
    print("sheet S from C; %d fields stand where C, Rust and Python declare them; %d planted faults found" % (fields, faults))


try:
    main()
except Wrong as wrong:
    sys.exit("the C interface: %s" % wrong)
