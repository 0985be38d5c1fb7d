"""Sheets given as bytes of the earlier form, in which a point ends with its export."""

from .records import BY_NUMBER, BY_WORD, SHEET
from .trouble import warn

HEAD, POINT = BY_WORD["head"], BY_WORD["point"]
ADDED = [field for field in POINT.fields if field.default is not None]
MORE = sum(field.size for field in ADDED)
NAMES = " and ".join(field.name for field in ADDED)
WORDS = (
    f"its points are of the earlier form, {POINT.length - 1 - MORE} bytes without {NAMES}; a point has"
    f" {POINT.length - 1} today: make the bytes again from the text (m2m text sheet), or put {MORE} zero bytes"
    " behind each point's export"
)


def is_earlier(data):
    """Whether bytes are whole records of the earlier form: a head first, kinds that never fall, a point or more.

    The reader refuses each of these. Behind the first point's export wheel in begins, of which the first byte
    is 0 on an accepted sheet; here a kind stands there, or nothing.
    """
    kinds, at = [], 0
    while at < len(data):
        if data[at] not in SHEET:
            return False
        kinds.append(data[at])
        at += BY_NUMBER[data[at]].length - (MORE if data[at] == POINT.number else 0)
    return at == len(data) and kinds[:1] == [HEAD.number] and kinds == sorted(kinds) and POINT.number in kinds


def tell_earlier(name, data):
    """Says on standard error where a sheet's bytes are of the earlier form."""
    if is_earlier(data):
        warn(f"{name}: {WORDS}")
