"""The records of sheets and lists: the one table of their bytes, ranges and words.

A record is one byte of kind, then its fields in order. Body lengths and offsets follow from the
sizes here and stand nowhere else; docs/FORMAT.md has them for a reader, and a test compares.
"""

from dataclasses import dataclass
from functools import cached_property
from itertools import accumulate

RTOS = {"NYISO": 1, "PJM": 2}
CLASSES = {"common": 1, "noncommon": 2}
SUBJECTS = {"unit": 1, "zone": 2, "point": 3, "par": 4}

TENTHS = "whole tenths of a MW are wanted (120 MW is 1200)"
CENTS = "whole cents per MWh are wanted (50.00 $/MWh is 5000)"
SECONDS = "whole seconds are wanted (5 minutes are 300)"
FACTOR = "whole ten-thousandths are wanted (0.3 is 3000)"
COUNT = "a whole number is wanted"


@dataclass(frozen=True)
class Field:
    """One field: how many bytes, how it stands in the text, and which values are in order."""

    name: str
    size: int
    form: str  # in the text: a label word, if it has one, and what kind of value it is
    low: int = 0
    high: int = 0
    wanted: str = COUNT
    codes: dict = None
    default: int = None  # what it is where a line leaves it out; None: it never may

    @cached_property
    def label(self):
        return self.form.rpartition(" ")[0]

    @cached_property
    def value(self):
        """NAME, CODE, ZONE, PLACE or N."""
        return "CODE" if self.codes else self.form.rpartition(" ")[2]

    @cached_property
    def signed(self):
        return self.low < 0

    @cached_property
    def row(self):
        """The refusal of a number outside its range."""
        return 11 if self.wanted == FACTOR else 9


@dataclass(frozen=True)
class Kind:
    """One kind of record."""

    number: int
    word: str
    most: int  # records of this kind; 0: as many as are due
    fields: tuple

    @cached_property
    def offsets(self):
        """Where each field begins, counted from the kind byte, and where the record ends."""
        return tuple(accumulate((field.size for field in self.fields), initial=1))

    @cached_property
    def length(self):
        return self.offsets[-1]

    @cached_property
    def form(self):
        """The form of a line; both that a point has, parted by a line feed."""
        forms = (field.form if field.default is None else f"[{field.form}]" for field in self.fields)
        line = " ".join([self.word, *forms])
        if "PLACE" not in line:
            return line
        return line.replace("PLACE", "proxy") + "\n" + line.replace("PLACE", "line ZONE")

    @cached_property
    def named(self):
        return self.fields[0].value == "NAME"


NAME = Field("name", 16, "NAME")


def power(name, most, least=0, default=None):
    return Field(name, 4, name.replace(" ", "-") + " N", least, most, TENTHS, default=default)


def factor(form):
    return Field("factor", 2, form, -10_000, 10_000, FACTOR)


KINDS = (
    Kind(1, "head", 1, (
        NAME,
        Field("Monitoring RTO", 1, "monitoring RTO", codes=RTOS),
        Field("seconds", 2, "seconds N", 1, 900, SECONDS),
        Field("Monitoring price", 4, "prices N", 0, 400_000, CENTS),
        Field("Non-Monitoring price", 4, "N", 0, 400_000, CENTS),
    )),
    Kind(2, "zone", 32, (NAME, power("load", 2_000_000), power("losses", 2_000_000))),
    Kind(3, "unit", 256, (
        NAME,
        Field("zone number", 1, "zone ZONE"),
        power("output", 2_000_000),
    )),
    Kind(4, "point", 32, (
        NAME,
        Field("type", 1, "CLASS", codes=CLASSES),
        Field("place", 1, "PLACE"),
        power("import", 200_000),
        power("export", 200_000),
        power("wheel in", 200_000, default=0),
        power("wheel out", 200_000, default=0),
    )),
    Kind(5, "par", 8, (
        NAME,
        Field("class", 1, "CLASS", codes=CLASSES),
        power("actual", 200_000, -200_000),
        power("target", 200_000, -200_000),
    )),
    Kind(6, "factor", 0, (
        Field("target", 1, "TARGET"),
        Field("subject", 1, "SUBJECT", codes=SUBJECTS),
        Field("index", 2, "INDEX"),
        factor("VALUE"),
    )),
    Kind(7, "path", 4, (NAME, power("flow", 200_000, -200_000), factor("factor N"))),
    Kind(8, "circulation", 1, (Field("circulation", 4, "VALUE", -200_000, 200_000, TENTHS),)),
    Kind(0x10, "entitlement", 2_500, (
        NAME,
        Field("entitlement", 4, "VALUE", -100_000, 100_000, TENTHS),
    )),
)

BY_NUMBER = {kind.number: kind for kind in KINDS}
BY_WORD = {kind.word: kind for kind in KINDS}
SHEET = tuple(kind.number for kind in KINDS if kind.number < 0x10)
LIST = tuple(kind.number for kind in KINDS if kind.number >= 0x10)
ZONE, FACTORS = BY_WORD["zone"].number, BY_WORD["factor"].number


def whole_kind(record):
    """The kind of a whole record, or None."""
    kind = BY_NUMBER.get(record[0]) if record else None
    return kind if kind and kind.length == len(record) else None


def split(data, kinds):
    """The whole records of these kinds from the start on, and the rest as one piece."""
    at = 0
    while at < len(data):
        end = at + BY_NUMBER[data[at]].length if data[at] in kinds else len(data) + 1
        if end > len(data):
            yield data[at:]
            return
        yield data[at:end]
        at = end


def values(record):
    """A whole record's values by field: bytes of a name, else numbers."""
    kind = BY_NUMBER[record[0]]
    for field, at in zip(kind.fields, kind.offsets):
        part = record[at : at + field.size]
        is_name = field.value == "NAME"
        yield field, part if is_name else int.from_bytes(part, "big", signed=field.signed)


def factors_due(counts):
    """Target, subject and index of all factors that so many records, by word, make due."""
    for target in range(counts["par"] + 1):
        for word, subject in SUBJECTS.items():
            if word != "par" or target == 0:
                for index in range(1, counts[word] + 1):
                    yield target, subject, index


def kinds_of(data):
    """The kinds that may stand in such bytes: those of a list if they begin like one."""
    return LIST if data[:1] and data[0] in LIST else SHEET
