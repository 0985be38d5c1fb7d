"""Sheets for the draft's functions, and what these leave in memory of them."""
import struct

from declared import looked_at

# A record of each kind: its fields and how they stand on a sheet, and in memory.
ARRAYS = {
    "zones": (("name", "16s"), ("load", "I"), ("losses", "I")),
    "units": (("name", "16s"), ("zone", "B"), ("output", "I")),
    "points": (
        ("name", "16s"),
        ("sort", "B"),
        ("line", "B"),
        ("zone", "B"),
        ("import", "I"),
        ("export", "I"),
        ("wheel_in", "I"),
        ("wheel_out", "I"),
    ),
    "pars": (("name", "16s"), ("class", "B"), ("actual", "i"), ("target", "i")),
    "factors": (("target", "B"), ("subject", "B"), ("index", "H"), ("factor", "h")),
    "paths": (("name", "16s"), ("flow", "i"), ("factor", "h")),
    "circulations": (("flow", "i"),),
}
HEAD = (
    ("name", "16s"),
    ("monitoring_rto", "B"),
    ("seconds", "H"),
    ("monitoring_price", "I"),
    ("nonmonitoring_price", "I"),
)


def elements():
    """The fields of the records that are looked at, in the order of the draft."""
    for array, fields in ARRAYS.items():
        yield array[:-1] + "_count", "Q", None
        for k in looked_at(array):
            yield from (("%s[%d].%s" % (array, k, field), form, (array, k, at)) for at, (field, form) in enumerate(fields))


FIELDS = ["refusal", *(field for field, _ in HEAD), *(field for field, _, _ in elements())]


def drawn(chance):
    """The records of a sheet of two or more of each kind, half of them with paths, that passes rows 1 to 13 and 28."""
    some = chance.randrange

    def name():
        return bytes(some(1, 256) for _ in range(16))

    counts = [some(2, 6) for _ in range(4)]
    zones, units, points, pars = (range(count) for count in counts)
    records = {
        "zones": [(name(), some(2000000), some(2000000)) for _ in zones],
        "units": [(name(), some(1, 1 + len(zones)), some(2000000)) for _ in units],
        "points": [],
        "pars": [(name(), some(1, 3), some(-200000, 200000), some(-200000, 200000)) for _ in pars],
        "factors": [],
        "paths": [],
        "circulations": [],
    }
    if some(2):
        records["paths"] = [(name(), some(-200000, 200000), some(-10000, 10000)) for _ in range(4)]
        records["circulations"] = [(some(-200000, 200000),)]
    for _ in points:
        line = some(2)
        place = (line, some(1, 1 + len(zones)) if line else 0)
        records["points"].append((name(), some(1, 3), *place, *(some(200000) for _ in range(4))))
    for target in range(1 + len(pars)):
        for subject, count in enumerate((units, zones, points, pars if target == 0 else ()), 1):
            records["factors"] += [(target, subject, 1 + k, some(-10000, 10000)) for k in range(len(count))]
    return (name(), some(1, 3), some(1, 901), some(400000), some(400000)), records


def sheet(head, records):
    """The bytes of these records; a point's place is one byte of line and zone."""
    out = struct.pack(">B16sBHII", 1, *head)
    for kind, (array, fields) in enumerate(ARRAYS.items(), 2):
        for record in records[array]:
            forms = [form for _, form in fields]
            if array == "points":
                record, forms = record[:2] + record[3:], forms[:2] + forms[3:]
            out += struct.pack(">B" + "".join(forms), kind, *record)
    return out


def zero(form):
    return b"" if form == "16s" else 0


def expected(head, records, length):
    """What the draft's functions say of an accepted sheet."""
    values = {"refusal": bytes(1)}
    for (field, form), value in zip(HEAD, head):
        values[field] = struct.pack("<" + form, value)
    for field, form, place in elements():
        if place is None:
            value = len(records[field.replace("_count", "s")])
        else:
            array, k, at = place
            value = records[array][k][at] if k < len(records[array]) else zero(form)
        values[field] = struct.pack("<" + form, value)
    return {"m2m_read_draft": values, "m2m_write_draft": {"refusal": bytes(1), "length": length}}


def refused(number):
    """What they say of a refused sheet; the draft of zeros is refused too, by its name."""
    zeros = {field: struct.pack("<" + form, zero(form)) for field, form in HEAD}
    zeros.update((field, struct.pack("<" + form, zero(form))) for field, form, _ in elements())
    return {
        "m2m_read_draft": dict(zeros, refusal=bytes([number])),
        "m2m_write_draft": {"refusal": b"\x06", "length": 0},
    }
