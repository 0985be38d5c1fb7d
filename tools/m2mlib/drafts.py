"""Drafts, which the proved reader makes of sheets and the proved writer makes sheets of: their records by name."""

from .faults import factor_words
from .forms import field_bytes
from .lines import name_bytes, name_word
from .records import BY_NUMBER, BY_WORD, SHEET
from .trouble import Fault, shown

WORDS = tuple(BY_NUMBER[number].word for number in SHEET)
NAMED = tuple(word for word in WORDS if BY_WORD[word].named)
ATTRIBUTES = {
    "Monitoring RTO": "monitoring_rto",
    "Monitoring price": "monitoring_price",
    "Non-Monitoring price": "nonmonitoring_price",
    "zone number": "zone",
    "type": "sort",
    "import": "import_",
    "class": "class_",
    "circulation": "flow",
}
SOME = 8


def count(draft, word):
    """How many records of a kind a draft has."""
    return 1 if word == "head" else getattr(draft, word + "_count")


def cell(draft, word, index):
    """A record of a draft by its kind and place in it, from 0."""
    return draft.head if word == "head" else getattr(draft, word + "s")[index]


def alter(draft, word, index, field, value):
    """Sets a field to a number or a name's bytes; a place to a line's zone, or to None for a proxy."""
    record = cell(draft, word, index)
    if field.value == "NAME":
        record.name[:] = value
    elif field.value == "PLACE":
        record.line, record.zone = value is not None, value or 0
    else:
        setattr(record, ATTRIBUTES.get(field.name, field.name.replace(" ", "_")), value)


class Records:
    """The records of a draft by what they are called."""

    def __init__(self, draft):
        self.places = {
            word: {bytes(cell(draft, word, k).name): k for k in range(count(draft, word))} for word in NAMED
        }
        factors = (cell(draft, "factor", k) for k in range(count(draft, "factor")))
        self.factors = {(factor.target, factor.subject, factor.index): k for k, factor in enumerate(factors)}
        self.circulations = count(draft, "circulation")

    def find(self, kind, word):
        """The place of the record of this kind and name."""
        known, name = self.places[kind], name_bytes(word)
        if name not in known:
            are = f"there are {self.listed(kind)}" if known else "there is none at all"
            raise Fault(f"there is no {kind} {shown(word)}; {are}")
        return known[name]

    def listed(self, kind):
        """The first names of a kind."""
        names = [name_word(name) for name in self.places[kind]]
        more = [f".. ({len(names)} in all)"] if len(names) > SOME else []
        return ", ".join(names[:SOME] + more)

    def only(self, word, kinds):
        """The kind and place of the record of this name, if it is one of the kinds."""
        name = name_bytes(word)
        called = [kind for kind in NAMED if name in self.places[kind]]
        fit = [kind for kind in called if kind in kinds]
        if len(fit) > 1:
            ways = " or ".join("head" if kind == "head" else f"{kind} {word}" for kind in fit)
            raise Fault(f"{shown(word)} is the name of several records: {shown(ways)} is wanted")
        if not called and len(kinds) > 1:
            there = (f"\n    {kind}: {self.listed(kind)}" for kind in kinds if self.places[kind])
            raise Fault(f"there is no record {shown(word)}; there are" + "".join(there))
        kind = (fit or called or kinds)[0]
        return kind, self.find(kind, word)

    def circulation(self):
        """The place of the one circulation."""
        if not self.circulations:
            raise Fault("the sheet has no circulation")
        return 0

    def is_target(self, left):
        """Whether the next word is a factor's target: a number, or no path can be meant."""
        return not left or is_numeric(left[-1]) or not self.places["path"] and left[-1].lower() != "path"

    def factor(self, left):
        """The place of the factor that the next three words (the next one last) name."""
        if len(left) < 3:
            raise Fault("target, subject and index of the factor are missing")
        fields = BY_WORD["factor"].fields[:3]
        key = tuple(int.from_bytes(field_bytes(field, left, list), "big") for field in fields)
        if key not in self.factors:
            alike = [other for other in self.factors if other[:2] == key[:2]] or list(self.factors)
            raise Fault(f"there is no factor {factor_words(key)}; there are {factor_words(alike[0])}"
                        f" to {factor_words(alike[-1])}")
        return self.factors[key]

    def zone(self, word):
        """A zone's number as a word, from that or from its name."""
        return word if is_numeric(word) else str(self.find("zone", word) + 1)


def is_numeric(word):
    """Whether a word begins like a number; a name that does stands in quotes where either may."""
    return word[0].isdigit() or word[0] in "+-"
