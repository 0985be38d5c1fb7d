"""Changes of single fields in words, such as 'import of P1 600': the field, its record and its new value."""

from typing import NamedTuple

from .drafts import NAMED, WORDS, Records
from .forms import field_bytes
from .lines import split_words
from .records import BY_WORD, Field
from .trouble import Fault, Trouble, shown

FORM = "FIELD of RECORD VALUE is wanted, as in 'import of P1 600'"


class Change(NamedTuple):
    """A field of a record, and its new value: in words, and as a number or a name's bytes; None is a proxy."""

    said: str
    kind: str
    index: int  # within its kind, from 0
    field: Field
    words: list
    value: object


def field_word(field):
    """What a field is called: as the word before it in a text, or by its name."""
    return field.name if field.label in ("", "prices") else field.label


def fields_of(kind):
    """The fields of a kind that can be set. Which factors there are follows from the other records."""
    fields = BY_WORD[kind].fields
    return fields[-1:] if kind == "factor" else fields


def listed(kind):
    return ", ".join(field_word(field) for field in fields_of(kind))


def plain(words):
    """Words without what does not matter: case and hyphens."""
    return words.lower().replace("-", "")


def by_word():
    """For what a field may be called, the field of each kind that has it."""
    fields = {}
    for kind in WORDS:
        for field in fields_of(kind):
            for word in (field.name, field_word(field)):
                fields.setdefault(plain(word), {})[kind] = field
    return fields


FIELDS = by_word()


def read_changes(texts, draft):
    """The changes that texts mean, their records called as they are in the draft. All faults are told at once."""
    if len(texts) > 1 and not any(text.split()[1:] for text in texts):
        raise Trouble(f"a change is one argument and stands in quotes: '{shown(' '.join(texts))}'")
    records, changes, wrong = Records(draft), {}, []
    for said in texts:
        try:
            change = read_change(said, records)
            first = changes.setdefault((change.kind, change.index, change.field.name), change)
            if first is not change:
                raise Fault(f"'{shown(first.said)}' sets the same field")
        except Fault as fault:
            wrong.append(f"'{shown(said)}': {fault.message}")
    if wrong:
        raise Trouble("\nm2m: ".join(wrong))
    return list(changes.values())


def read_change(said, records):
    """The change that a text means."""
    left = split_words(said)[::-1]
    if not left:
        raise Fault(FORM)
    asked, fields = take_field(left)
    kind, index = take_record(left, fields, records)
    if kind not in fields:
        raise Fault(f"a {kind} has no {asked}; it has {listed(kind)}")
    words, value = take_value(left, fields[kind], records)
    if left:
        raise Fault(f"'{shown(left[-1])}' is one word too many")
    return Change(said, kind, index, fields[kind], words, value)


def take_field(left):
    """The field that the next words (the next one last) name, and which kinds have it."""
    for count in (2, 1):
        asked = " ".join(left[::-1][:count])
        if plain(asked) in FIELDS:
            del left[-count:]
            return asked, FIELDS[plain(asked)]
    there = (f"\n    {kind}: {listed(kind)}" for kind in WORDS)
    raise Fault(f"'{shown(asked)}' is no field; there are" + "".join(there))


def take_record(left, fields, records):
    """The kind and place of the record that the next words name; the circulation and the head's own need none."""
    if "circulation" in fields:
        return "circulation", records.circulation()
    if left and left[-1].lower() == "of":
        left.pop()
    elif list(fields) == ["head"]:
        return "head", 0
    else:
        raise Fault(f"'of' is missing: {FORM}")
    if "factor" in fields and records.is_target(left):
        return "factor", records.factor(left)
    if not left:
        raise Fault(f"the record is missing: {FORM}")
    word = left.pop()
    if word.lower() == "head":
        return "head", 0
    if word.lower() not in NAMED:
        return records.only(word, [kind for kind in fields if kind in NAMED])
    if not left:
        raise Fault(f"the {word.lower()}'s name is missing")
    return word.lower(), records.find(word.lower(), left.pop())


def take_value(left, field, records):
    """The words of the value that is next, and what they stand for."""
    if not left:
        raise Fault(f"the value is missing: {FORM}")
    given, line = left[::-1], field.value == "PLACE" and left[-1].lower() == "line"
    at = 0 if field.value == "ZONE" else 1 if line else len(given)
    given[at : at + 1] = map(records.zone, given[at : at + 1])
    rest = given[::-1]
    data = field_bytes(field, rest, list)
    words = [left.pop() for _ in range(len(left) - len(rest))]
    if field.value == "NAME":
        return words, data
    if field.value == "PLACE" and not line:
        return words, None
    return words, int.from_bytes(data, "big", signed=field.signed)
