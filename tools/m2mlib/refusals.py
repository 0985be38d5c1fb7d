"""The refusals in words, read out of docs/REFUSALS.md: its table, and of each title, meaning and how to mend."""

import os
import re
from functools import lru_cache
from typing import NamedTuple

from .files import ROOT, read_file
from .trouble import Trouble

PAGE = os.path.join(ROOT, "docs", "REFUSALS.md")
ROW = re.compile(r"^\| (\d+) \| (.*?) \| (.*?) \|$", re.M)
SECTION = re.compile(r"^## (\d+): (.*?)\n(.*?)(?=^## |\Z)", re.M | re.S)
PARTS = re.compile(r"\A\s*(.*?)\n\n.*^Mend: (.*?)(?:\sMore:.*)?\Z", re.M | re.S)
EXAMPLE = re.compile(r"^```text\n(# .*?)^```", re.M | re.S)


class Refusal(NamedTuple):
    """A row of the table: where it is checked, in which case it is met; its section's title, paragraph and examples."""

    checked: str
    met: str
    title: str
    meaning: str
    mend: str
    examples: list


@lru_cache(maxsize=None)
def refusals():
    """All refusals by number."""
    text = read_file(PAGE).decode("utf-8", "replace")
    rows = {number: row for number, *row in ROW.findall(text)}
    return {int(k): refusal(k, rows, title, body) for k, title, body in SECTION.findall(text)}


def refusal(number, rows, title, body):
    if number not in rows:
        raise Trouble(f"{PAGE}: the table has no row {number}")
    parts = PARTS.match(body)
    if not parts:
        raise Trouble(f"{PAGE}: section {number} has no paragraph, or no 'Mend:'")
    meaning, mend = (plain(part) for part in parts.groups())
    return Refusal(*rows[number], title, meaning, mend, EXAMPLE.findall(body))


def words_of(number):
    """The words of one refusal."""
    if number not in refusals():
        raise Trouble(f"{PAGE}: no section tells of refusal {number}")
    return refusals()[number]


def plain(text):
    """A paragraph as one line without marks."""
    return " ".join(text.replace("`", "").split())
