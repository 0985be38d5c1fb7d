"""What is printed of settled intervals: the listing, words, JSON or CSV."""

import csv
import io
import json
import textwrap

from .files import encoded
from .library import FIGURES
from .refusals import words_of
from .words import everyday, name_text, record_at, refusal_words

LABELS = {"nyiso": "NYISO", "pjm": "PJM"}
PATHS = "has_paths"
REMAINDERS = ("first_remainder", "second_remainder")


class Listing:
    """The listing, byte for byte document 01's; where there are several each has a head line."""

    def __init__(self, count):
        self.count, self.done = count, 0

    def begin(self):
        return b""

    def head(self, name):
        self.done += 1
        if self.count == 1:
            return b""
        blank = "\n" if self.done > 1 else ""
        return encoded(f"{blank}==> {name} <==\n")

    def row(self, result):
        return self.head(result.name) + self.body(result)

    def body(self, result):
        return result.listing

    def end(self):
        return b""


class Words(Listing):
    """For people: everyday units beside the exact figures, and refusals explained."""

    def body(self, result):
        return as_lines(refused_words(result) if result.refusal else accepted_words(result.statement))


class Json(Listing):
    """An array with one object, on one line, an interval."""

    def begin(self):
        return b"["

    def row(self, result):
        self.done += 1
        return json_row(columns(result), self.done)

    def end(self):
        return b"\n]\n"


class Csv(Listing):
    """A line of headings, then one line an interval."""

    def begin(self):
        return csv_line(HEADINGS)

    def row(self, result):
        return csv_line(columns(result).values())


FORMATS = {"--words": Words, "--json": Json, "--csv": Csv}
ANSWER = ("interval", "refusal", "reason", "place", "record")
FLOWGATE = ("flowgate", "flowgate_hex")


def as_lines(lines):
    return encoded("".join(line + "\n" for line in lines))


def json_row(values, number):
    """An object on a line of its own in an array."""
    return encoded(("," if number > 1 else "") + "\n" + json.dumps(values))


def csv_line(values):
    line = io.StringIO()
    csv.writer(line, lineterminator="\n").writerow(values)
    return encoded(line.getvalue())


def heading(figure):
    return "_".join([LABELS.get(figure.name, figure.name), *figure.unit.split()])


HEADINGS = [*ANSWER, *FLOWGATE, PATHS, *map(heading, FIGURES)]


def answer(result):
    """An interval's name, and of a refusal its number, reason, place and record."""
    record = record_at(result.sheet.data, result.place) if result.place is not None else None
    reason = words_of(result.refusal).title if result.refusal else None
    return dict(zip(ANSWER, (result.name, result.refusal, reason, result.place, record)))


def flowgate(name):
    """A flowgate's name as text and in hexadecimal digits; no name has neither."""
    plain = name.rstrip(b"\0")
    return dict(zip(FLOWGATE, (name_text(name), plain.hex()) if plain else (None, None)))


def figures_of(values, figures):
    """Figures by headings; where there are no values they are None."""
    return {heading(figure): getattr(values, figure.name) if values else None for figure in figures}


def columns(result):
    """One interval by headings; a refused one has no figures."""
    statement = result.statement
    values = None if result.refusal else statement
    paths = {PATHS: values and values.has_paths}
    return {**answer(result), **flowgate(bytes(statement.name)), **paths, **figures_of(values, FIGURES)}


def listed(holder):
    """The figures that a listing has: the settlement flow is one where the sheet has paths."""
    return [figure for figure in FIGURES if figure.name != "settled" or holder.has_paths]


def accepted_words(statement):
    """The listing's lines with their units: exact figure, everyday figure, meaning."""
    return [name_line(statement)] + [
        figure_line(figure, statement) for figure in listed(statement) if figure.name not in REMAINDERS
    ]


def name_line(holder):
    name = bytes(holder.name)
    return f"flowgate     {name_text(name)}  (bytes {name.rstrip(bytes(1)).hex()})"


def meaning(figure, holder):
    """What a figure is; of a payment, who pays; of the settlement flow, which of three flows it is."""
    if figure.name == "gtl":
        first, second = (getattr(holder, name) for name in REMAINDERS)
        return f"{figure.meaning}, remainders {first} and {second}"
    if figure.name == "settled":
        return f"{figure.meaning}: {middle_one(holder)}"
    if figure.name in LABELS:
        value = getattr(holder, figure.name)
        return f"{figure.meaning} {'receives' if value > 0 else 'pays' if value < 0 else 'pays nothing'}"
    return figure.meaning


def middle_one(statement):
    """Which flow lies in the middle: one that the settlement flow equals, else the adjusted one."""
    flows = ("market flow", statement.market), ("entitlement", statement.entitlement)
    same = [f"the {word}" for word, value in flows if value == statement.settled]
    return " and ".join(same) or "the adjusted flow, market flow and impact"


def figure_line(figure, holder, told=meaning):
    value = getattr(holder, figure.name)
    label, exact = LABELS.get(figure.name, figure.name), f"{value} {figure.unit}"
    return f"{label:<12} {everyday(value, figure):>20}   {exact:<34} {told(figure, holder)}"


def refused_words(result):
    return wrapped(refusal_words(result.refusal, result.sheet, result.place, result.entitlements))


def wrapped(lines):
    """Lines with their labels, none too long."""
    for label, words in lines:
        start = f"{label + ':':<10}" if label else ""
        yield from textwrap.wrap(start + words, 100, subsequent_indent=" " * len(start)) or [start]
