"""The forms of lines, and a record as a line by the table of records: words to bytes, bytes to words."""

import difflib

from .lines import hex_bytes, name_bytes, name_word, number
from .records import BY_NUMBER, BY_WORD, split, values, whole_kind
from .trouble import Fault, shown


FORMS = {
    "factors": "factors TARGET SUBJECT VALUE ..",
    "due": "due VALUE",
    "repeat": "repeat VAR FROM TO",
    "end": "end",
    "include": "include PATH",
    "raw": "raw HEX ..",
    "replace": "replace N LINE",
    "insert": "insert N LINE",
    "drop": "drop N",
    "swap": "swap N M",
    "patch": "patch PLACE HEX ..",
    "cut": "cut N",
}


def form_of(word):
    """The form of a line that begins so, if it is known."""
    return BY_WORD[word].form if word in BY_WORD else FORMS.get(word, "")


def write_record(words, zones):
    """The bytes of a record line; zones() are the names of the zones that stand above it."""
    word = words[0].lower() if words else ""
    if word == "raw":
        return hex_bytes(words[1:])
    kind = BY_WORD.get(word)
    if not kind:
        near = difflib.get_close_matches(word, BY_WORD, 1)
        raise Fault(f"'{shown(word)}' begins no line that is known", BY_WORD[near[0]].form if near else "")
    try:
        return write_fields(kind, words[1:], zones)
    except Fault as fault:
        fault.form = kind.form
        raise


def write_fields(kind, words, zones):
    """The record of these words; all values that are wrong are told at once."""
    record, left, wrong = bytearray([kind.number]), words[::-1], []
    for field in kind.fields:
        if left_out(field, left[-1:]):
            record += field.default.to_bytes(field.size, "big")
            continue
        if field.label:
            expect(field.label, left)
        if not left:
            raise Fault(f"the {field.name} is missing")
        try:
            record += field_bytes(field, left, zones)
        except Fault as fault:
            wrong.append(fault.message)
    if left:
        wrong.append(f"'{shown(left[-1])}' is one word too many")
    if wrong:
        raise Fault("; ".join(wrong))
    return bytes(record)


def left_out(field, words):
    """Whether a field that may be left out is, where this word or none stands next."""
    return field.default is not None and [word.lower() for word in words] != [field.label]


def expect(wanted, left):
    """Takes the word that must stand here."""
    if not left:
        raise Fault(f"'{wanted}' is missing")
    if left[-1].lower() != wanted:
        raise Fault(f"'{wanted}' is expected instead of '{shown(left[-1])}'")
    left.pop()


def field_bytes(field, left, zones):
    """The bytes of a field, from the words that are left (the next one last)."""
    word = left.pop()
    if field.value == "NAME":
        return name_bytes(word)
    if field.value == "PLACE":
        value = place(word, left, zones)
    elif field.value == "ZONE":
        value = zone(word, zones)
    else:
        listed = code(word, field.codes) if field.codes else None
        value = number(word, wanted(field)) if listed is None else listed
    try:
        return value.to_bytes(field.size, "big", signed=field.signed)
    except OverflowError:
        raise Fault(f"{field.name} {value} does not fit its {8 * field.size} bits: {wanted(field)}") from None


def wanted(field):
    if not field.codes:
        return field.wanted
    return "one of " + ", ".join(field.codes) + " is wanted, or a code's number"


def code(word, codes):
    """A code's number; case and hyphens do not matter."""
    if word in codes:
        return codes[word]
    plain = word.lower().replace("-", "")
    return next((value for listed, value in codes.items() if listed.lower() == plain), None)


def place(word, left, zones):
    """'proxy', or 'line' and its zone."""
    if word.lower() == "proxy":
        return 0
    if word.lower() != "line":
        raise Fault(f"'proxy' or 'line' is expected instead of '{shown(word)}'")
    if not left:
        raise Fault("the line's zone is missing")
    return zone(left.pop(), zones)


def zone(word, zones):
    """A zone by its number, or by its name if it stands above."""
    if word[0].isdigit() or word[0] in "+-":
        return number(word, "a zone's number or name is wanted; a name that begins so stands in quotes")
    name, known = name_bytes(word), zones()
    if name not in known:
        some = ", ".join(name_word(other) for other in known[:8])
        raise Fault(f"no zone {shown(word)} stands above" + (f"; there are {some}" if known else ""))
    return known.index(name) + 1


def show_record(record):
    """The line of a whole record of a known kind."""
    words = [BY_NUMBER[record[0]].word]
    for field, value in values(record):
        if value == field.default:
            continue
        words += [field.label] if field.label else []
        if field.value == "NAME":
            words.append(name_word(value))
        elif field.value == "PLACE":
            words += ["line", str(value)] if value else ["proxy"]
        else:
            words.append(code_word(value, field.codes or {}))
    return " ".join(words)


def code_word(value, codes):
    return next((word for word, listed in codes.items() if listed == value), str(value))


def show(data, kinds):
    """The text of any bytes; what is no whole record of these kinds is raw."""
    lines = []
    for piece in split(data, kinds):
        if piece[0] in kinds and whole_kind(piece):
            lines.append(show_record(piece))
        else:
            lines += ["raw " + piece[at : at + 32].hex() for at in range(0, len(piece), 32)]
    return "".join(line + "\n" for line in lines)
