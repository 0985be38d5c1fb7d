"""An altered sheet as text: the old text, comments and all, with other words where a value is altered.

A record without a line of its own (it comes from a repeat, say, or an included text) is altered by a line
'replace N LINE' behind the others. What is made here is read again and must mean the sheet that the
proved writer wrote.
"""

import re
from collections import Counter
from typing import NamedTuple

from .forms import left_out, show_record
from .lines import word_spans
from .records import BY_NUMBER, BY_WORD, SHEET, split
from .text import Text
from .trouble import Trouble

MARK = b"\xef\xbb\xbf"
LINE_END = re.compile(r"(\r\n|\r|\n)")
BEFORE = {"replace": 2, "insert": 2}  # how many words stand before the record's


class Edit(NamedTuple):
    """Other words from one place of a line to another; of several at one place the order tells which is first."""

    at: int
    end: int
    order: int
    words: str


def edited(text, changes, data, path):
    """The text with these changes. As a file at this path it means these bytes."""
    why, records = "raw bytes in it are more or less than one record", list(split(data, SHEET))
    if [piece.data for piece in text.pieces] == list(split(text.data(), SHEET)):
        for in_place in (True, False):
            new = with_changes(text, changes, records, in_place)
            why = differs(new, data, path)
            if not why:
                return new
    more = f"'m2m text sheet < {text.name}' makes bytes of the old one, which can be altered"
    raise Trouble(f"{path}: the altered sheet can't be written as text: {why}\n    {more}")


def differs(new, data, path):
    """Why a text does not mean these bytes; nothing where it does."""
    try:
        return "" if Text(path).read(new).data() == data else "the text would mean another sheet"
    except Trouble as trouble:
        return str(trouble)


def with_changes(text, changes, records, in_place):
    """The text with the changes: each in place, where that is wanted and can be, or behind the text."""
    found, edits, behind = places(records), {}, {}
    uses = Counter((piece.line.name, piece.line.number) for piece in text.pieces)
    for change in changes:
        place = found[change.kind, change.index]
        line, edit = text.pieces[place].line, None
        if in_place and line.name == text.name:
            edit = edit_of(line, uses[line.name, line.number], change, records[place])
        if edit:
            edits.setdefault(line.number, []).append(edit)
        else:
            behind[place] = f"replace {place + 1} {show_record(records[place])}"
    return joined(text.source, edits, behind.values())


def places(records):
    """The place of each record among all, by the word of its kind and its place in that, from 0."""
    counts, found = Counter(), {}
    for place, record in enumerate(records):
        word = BY_NUMBER[record[0]].word
        found[word, counts[word]] = place
        counts[word] += 1
    return found


def edit_of(line, uses, change, record):
    """What a change is in the line of a record, or None where the record has none of its own."""
    words, field = line.words, change.field
    if words[0].lower() == "factors" and uses == len(words) - 3:
        first = last = 2 + int.from_bytes(record[3:5], "big")
    elif uses == 1:
        first, last = value_words(words, field)
    else:
        return None
    spans, new = word_spans(line.text), " ".join(change.words)
    if not 0 < last < len(spans):
        return None
    order = BY_WORD[change.kind].fields.index(field)
    if last < first:
        return Edit(spans[last][1], spans[last][1], order, f" {field.label} {new}")
    return Edit(spans[first][0], spans[last][1], order, new)


def value_words(words, field):
    """The first and last word of a field in a record's line; 0 where the line is none.

    Where the field is left out the last is the word behind which it belongs, and the first the next one.
    """
    at = BEFORE.get(words[0].lower(), 0)
    kind = BY_WORD.get(words[at].lower())
    for other in kind.fields if kind else ():
        if left_out(other, words[at + 1 : at + 2]):
            if other == field:
                return at + 1, at
            continue
        at += 2 if other.label else 1
        last = at + (other.value == "PLACE" and words[at].lower() == "line")
        if other == field:
            return at, last
        at = last
    return 0, 0


def joined(source, edits, behind):
    """The source with these edits of its lines, and lines behind it."""
    mark = MARK if source.startswith(MARK) else b""
    parts = LINE_END.split(source[len(mark) :].decode("latin-1"))
    for number, changed in edits.items():
        for edit in sorted(changed, reverse=True):
            line = parts[2 * number - 2]
            parts[2 * number - 2] = line[: edit.at] + edit.words + line[edit.end :]
    line_end = parts[1] if parts[1:] else "\n"
    if behind and parts[-1]:
        parts.append(line_end)
    parts += [line + line_end for line in behind]
    return mark + "".join(parts).encode("latin-1")


def patched(data, changes):
    """A sheet's bytes with the changed values in them."""
    records = list(split(data, SHEET))
    found = places(records)
    for change in changes:
        place, kind, size = found[change.kind, change.index], BY_WORD[change.kind], change.field.size
        at, value = kind.offsets[kind.fields.index(change.field)], change.value or 0
        if not isinstance(value, bytes):
            value = value.to_bytes(size, "big", signed=change.field.signed)
        records[place] = records[place][:at] + value + records[place][at + size :]
    return b"".join(records)
