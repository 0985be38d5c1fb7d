"""The proved library (crate exports), called by ctypes. Every figure comes from here."""

import ctypes
from typing import NamedTuple

from . import build
from .trouble import Trouble

ROOM = 316  # include/m2m.h: no listing is longer
INTERVALS = 60  # include/m2m.h: no hour holds more
LONGEST_SHEET = 28_101  # docs/FORMAT.md, 'The longest sheet'


class Figure(NamedTuple):
    """A figure of the statement: its unit, what it is, and its everyday unit with the digits behind its point."""

    name: str
    unit: str = ""
    meaning: str = ""
    digits: int = 0
    everyday: str = ""


def flow(name, meaning):
    return Figure(name, "W", meaning, 6, "MW")


def money(name, meaning):
    return Figure(name, "thousandths of a cent", meaning, 5, "$")


FIGURES = (
    flow("gtl", "generation-to-load flow"),
    Figure("first_remainder", meaning="its first remainder"),
    Figure("second_remainder", meaning="its second remainder"),
    flow("parallel", "parallel flow"),
    flow("shadow", "shadow flow"),
    flow("common", "redirect of the common PARs"),
    flow("noncommon", "redirect of the non-common PARs"),
    flow("market", "market flow"),
    flow("settled", "settlement flow"),
    flow("entitlement", "entitlement"),
    Figure("price", "cents per MWh", "price taken", 2, "$/MWh"),
    money("amount", "amount"),
    money("nyiso", "NYISO"),
    money("pjm", "PJM"),
)
HOUR_FIGURES = (Figure("seconds", meaning="seconds", everyday="min"), *FIGURES[-3:])


class Statement(ctypes.Structure):
    """A refusal's number or 0, the flowgate's name, whether there are paths, the figures in order (include/m2m.h)."""

    _fields_ = [
        ("refusal", ctypes.c_uint8),
        ("name", ctypes.c_uint8 * 16),
        ("has_paths", ctypes.c_uint8),
        *((figure.name, ctypes.c_int64) for figure in FIGURES),
    ]


class Printed(ctypes.Structure):
    """A statement and how many bytes of the output buffer were printed."""

    _fields_ = [("statement", Statement), ("length", ctypes.c_size_t)]


COUNTED = ("place", "zones", "units", "points", "pars", "factors", "paths", "circulations")


class Sheet(ctypes.Structure):
    """What the reader says: a refusal's number and the offending record's place, or the counts of records."""

    _fields_ = [
        ("refusal", ctypes.c_uint8),
        *((word, ctypes.c_size_t) for word in COUNTED),
    ]


REASONS = {1: "above", 2: "below", 3: "at"}  # where the flow paid on is; a refusal has 0


class Explanation(ctypes.Structure):
    """A refusal's number and the part of the sheet that it means, or 0 and the reason for the price."""

    _fields_ = [
        ("refusal", ctypes.c_uint8),
        ("reason", ctypes.c_uint8),
        ("from_", ctypes.c_size_t),
        ("to", ctypes.c_size_t),
    ]


class Hour(ctypes.Structure):
    """The amounts and seconds of its intervals, how many there are, their flowgate's name and Monitoring RTO."""

    _fields_ = [
        ("amounts", ctypes.c_int64 * INTERVALS),
        ("seconds", ctypes.c_uint16 * INTERVALS),
        ("count", ctypes.c_size_t),
        ("name", ctypes.c_uint8 * 16),
        ("monitoring_rto", ctypes.c_uint8),
    ]


class Changed(ctypes.Structure):
    """0 and the hour with the interval, or a refusal's number and the hour as it was."""

    _fields_ = [("refusal", ctypes.c_uint8), ("hour", Hour)]


class Totals(ctypes.Structure):
    """An hour's seconds, amount and payments."""

    _fields_ = [
        ("seconds", ctypes.c_uint32),
        *((figure.name, ctypes.c_int64) for figure in HOUR_FIGURES[1:]),
    ]


NAME = ctypes.c_uint8 * 16


class Head(ctypes.Structure):
    """The head of a draft."""

    _fields_ = [
        ("name", NAME),
        ("monitoring_rto", ctypes.c_uint8),
        ("seconds", ctypes.c_uint16),
        ("monitoring_price", ctypes.c_uint32),
        ("nonmonitoring_price", ctypes.c_uint32),
    ]


class Zone(ctypes.Structure):
    """A zone of a draft."""

    _fields_ = [("name", NAME), ("load", ctypes.c_uint32), ("losses", ctypes.c_uint32)]


class Unit(ctypes.Structure):
    """A unit of a draft."""

    _fields_ = [("name", NAME), ("zone", ctypes.c_uint8), ("output", ctypes.c_uint32)]


class Point(ctypes.Structure):
    """A scheduling point of a draft: its type, and 0 for a proxy or else a line and its zone."""

    _fields_ = [
        ("name", NAME),
        ("sort", ctypes.c_uint8),
        ("line", ctypes.c_uint8),
        ("zone", ctypes.c_uint8),
        ("import_", ctypes.c_uint32),
        ("export", ctypes.c_uint32),
        ("wheel_in", ctypes.c_uint32),
        ("wheel_out", ctypes.c_uint32),
    ]


class Par(ctypes.Structure):
    """A PAR of a draft."""

    _fields_ = [
        ("name", NAME),
        ("class_", ctypes.c_uint8),
        ("actual", ctypes.c_int32),
        ("target", ctypes.c_int32),
    ]


class Factor(ctypes.Structure):
    """A factor of a draft."""

    _fields_ = [
        ("target", ctypes.c_uint8),
        ("subject", ctypes.c_uint8),
        ("index", ctypes.c_uint16),
        ("factor", ctypes.c_int16),
    ]


class Path(ctypes.Structure):
    """A path of a draft."""

    _fields_ = [("name", NAME), ("flow", ctypes.c_int32), ("factor", ctypes.c_int16)]


class Circulation(ctypes.Structure):
    """The Lake Erie circulation of a draft."""

    _fields_ = [("flow", ctypes.c_int32)]


class Draft(ctypes.Structure):
    """What a sheet holds: of each array as many as are counted. Each is one longer than a sheet may have."""

    _fields_ = [
        ("head", Head),
        ("zone_count", ctypes.c_size_t),
        ("zones", Zone * 33),
        ("unit_count", ctypes.c_size_t),
        ("units", Unit * 257),
        ("point_count", ctypes.c_size_t),
        ("points", Point * 33),
        ("par_count", ctypes.c_size_t),
        ("pars", Par * 9),
        ("factor_count", ctypes.c_size_t),
        ("factors", Factor * 2889),
        ("path_count", ctypes.c_size_t),
        ("paths", Path * 5),
        ("circulation_count", ctypes.c_size_t),
        ("circulations", Circulation * 2),
    ]


class Drafted(ctypes.Structure):
    """0 and what a sheet holds, or the reader's refusal and zeros."""

    _fields_ = [("refusal", ctypes.c_uint8), ("draft", Draft)]


class Written(ctypes.Structure):
    """0 and the length of the sheet that was written, or a refusal's number and 0."""

    _fields_ = [("refusal", ctypes.c_uint8), ("length", ctypes.c_size_t)]


class Library:
    """The library, built if need be."""

    def __init__(self):
        path = build.library()
        try:
            library = ctypes.CDLL(path)
            self.report, self.read = library.m2m_report, library.m2m_read
            self.explanation = library.m2m_explain
            self.hour_open, self.hour_add = library.m2m_hour_open, library.m2m_hour_add
            self.hour_totals = library.m2m_hour_totals
            self.draft_read, self.draft_write = library.m2m_read_draft, library.m2m_write_draft
        except (OSError, AttributeError) as error:
            raise Trouble(f"{path}: {error}") from None
        part = [ctypes.c_char_p, ctypes.c_size_t]
        self.report.argtypes, self.report.restype = part * 3, Printed
        self.read.argtypes, self.read.restype = part, Sheet
        self.explanation.argtypes, self.explanation.restype = part * 2, Explanation
        self.hour_open.argtypes, self.hour_open.restype = [], Hour
        self.hour_add.argtypes, self.hour_add.restype = [Hour, *part * 2], Changed
        self.hour_totals.argtypes, self.hour_totals.restype = [Hour], Totals
        self.draft_read.argtypes, self.draft_read.restype = part, Drafted
        self.draft_write.argtypes, self.draft_write.restype = [Draft, *part], Written

    def settle(self, sheet, entitlements):
        """The statement of an interval and its listing; a refusal has its one line."""
        out = ctypes.create_string_buffer(ROOM)
        printed = self.report(sheet, len(sheet), entitlements, len(entitlements), out, ROOM)
        if printed.statement.refusal:
            return printed.statement, b"refused %d\n" % printed.statement.refusal
        return printed.statement, out.raw[: printed.length]

    def explain(self, sheet, entitlements=b""):
        """Which part of the sheet a refusal means, or why the price is taken; no list tells the reader's refusals."""
        return self.explanation(sheet, len(sheet), entitlements, len(entitlements))

    def add(self, hour, sheet, entitlements):
        """The hour with the interval, or a refusal's number and the hour as it was."""
        return self.hour_add(hour, sheet, len(sheet), entitlements, len(entitlements))

    def read_draft(self, sheet):
        """What a sheet holds, or the reader's refusal."""
        return self.draft_read(sheet, len(sheet))

    def write_draft(self, draft, room=LONGEST_SHEET):
        """A refusal's number or 0, and the bytes of the sheet that a draft makes in a buffer of so many bytes."""
        out = ctypes.create_string_buffer(max(room, 1))
        written = self.draft_write(draft, out, room)
        return written.refusal, out.raw[: written.length]
