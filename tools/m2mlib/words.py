"""Answers in words: names as text, figures in everyday units, and which record a refusal means."""

from collections import Counter

from .lines import name_word
from .records import BY_NUMBER, SHEET, split, whole_kind
from .refusals import words_of
from .trouble import shown

READER = (*range(1, 14), 28)  # refusals that the sheet alone decides
LIST_FAULT = 14


def name_text(name):
    """A name as text where it is printable, else as the text form quotes it."""
    plain = name.rstrip(b"\0")
    try:
        text = plain.decode("utf-8")
    except UnicodeDecodeError:
        return name_word(name)
    return text if text.isprintable() and text.strip() else name_word(name)


def everyday(value, figure):
    """A figure in its everyday unit, exactly: the point moved, nothing rounded; seconds as minutes and seconds."""
    if figure.everyday == "min":
        return f"{value // 60} min {value % 60} s"
    whole, part = divmod(abs(value), 10**figure.digits)
    sign = "-" if value < 0 else ""
    return f"{sign}{whole}.{part:0{figure.digits}} {figure.everyday}"


def record_at(data, place, kinds=SHEET):
    """The record that begins at this place: its kind, number within its kind, and name."""
    counts, at = Counter(), 0
    for piece in split(data, kinds):
        counts[piece[0]] += 1
        if at == place:
            return record_words(piece, counts[piece[0]], kinds)
        at += len(piece)
    return "the end"


def record_words(piece, number, kinds):
    """A record's kind, number and name in words."""
    if piece[0] not in kinds:
        return f"a byte 0x{piece[0]:02x} where a record should begin"
    kind = BY_NUMBER[piece[0]]
    words = kind.word if kind.most == number == 1 else f"{kind.word} {number}"
    name = f", {name_text(piece[1:17])}" if kind.named and len(piece) >= 17 else ""
    left = "" if whole_kind(piece) else f", of which {len(piece)} of {kind.length} bytes are there"
    return words + name + left


def line_at(text, place):
    """The line of the text that the byte at this place comes from; none where the text ends before it."""
    for piece in text.pieces:
        if place < len(piece.data):
            return piece.line
        place -= len(piece.data)
    return None


def place_of(explanation):
    """Where the reader refuses a sheet: at a record, or at the sheet's end; None where it is not the sheet."""
    return explanation.from_ if explanation.refusal in READER else None


def refusal_words(number, sheet, place, entitlements):
    """A refusal's lines: what it is, where, what it means and how it is mended."""
    lines = [("", f"refused {number}: {words_of(number).title}")]
    if place is not None:
        lines.append(("where", f"byte {place} of the sheet: {record_at(sheet.data, place)}"))
    return lines + line_words(sheet, place) + help_words(number, sheet, entitlements)


def line_words(sheet, place):
    """The line of the text, where there is one, that the record at this place comes from."""
    line = line_at(sheet.text, place) if sheet.text and place is not None else None
    return [("line", f"{line.where}: {shown(line.text.strip())}")] if line else []


def help_words(number, sheet, entitlements):
    """What a refusal means, how it is mended, and what tells more of the file that it is about."""
    refusal = words_of(number)
    lines = [("meaning", refusal.meaning), ("mend", refusal.mend)]
    given = sheet if number in READER else entitlements if number == LIST_FAULT else None
    if given and given.path:
        lines.append(("", f"'m2m check {given.path}' tells every fault of it"))
    return lines
