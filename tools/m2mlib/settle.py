"""The verb settle: intervals in one process through the proved library."""

import sys
import time
from functools import lru_cache
from typing import NamedTuple

from . import against
from .inputs import LISTS, Input, intervals, load_one
from .library import Explanation, Library, Statement
from .outputs import FORMATS, Listing
from .trouble import Trouble, warn
from .words import place_of

load_list = lru_cache(maxsize=1)(load_one)


class Result(NamedTuple):
    """A settled interval."""

    name: str
    sheet: Input
    entitlements: Input
    statement: Statement
    listing: bytes
    explanation: Explanation

    @property
    def refusal(self):
        return self.statement.refusal

    @property
    def place(self):
        """Where the sheet is refused, or None."""
        return place_of(self.explanation)


class Progress:
    """One line on standard error, only on a terminal and only where there are many."""

    def __init__(self, count):
        self.count, self.shown = count, 0
        self.wanted = count > 1 and sys.stderr is not None and sys.stderr.isatty()

    def tell(self, done):
        now = time.monotonic()
        if self.wanted and (done == self.count or now > self.shown + 0.2):
            self.shown = now
            end = "\r\x1b[K" if done == self.count else ""
            sys.stderr.write(f"\rm2m: {done} of {self.count} settled{end}")
            sys.stderr.flush()


def settle(call):
    """Settles all intervals; the status."""
    path = call.options.get("--against")
    form = chosen(call, FORMATS, Listing) if path is None else chosen(call, against.FORMATS, against.Listing)
    todo = intervals(call.arguments, call.options.get("--list"))
    old = None if path is None else against.old_sheets(path, call.arguments, todo)
    library = Library()
    return each(todo, lambda interval: settle_one(interval, library, old), form(len(todo)), call.output)


def chosen(call, forms, plain):
    """What the options ask to be printed."""
    options = [option for option in call.options if option in forms]
    if len(options) > 1:
        *others, last = forms
        raise Trouble(f"one of {', '.join(others)} and {last} is wanted, not several")
    return forms[options[0]] if options else plain


def each(todo, take, form, output):
    """Takes all intervals and prints what comes of them; 0 all accepted, 1 some refused, 2 some could not be taken."""
    progress, status = Progress(len(todo)), 0
    output.write(form.begin())
    for done, interval in enumerate(todo, 1):
        try:
            result = take(interval)
            output.write(form.row(result))
            status = max(status, int(result.refusal > 0))
        except Trouble as trouble:
            warn(str(trouble))
            status = 2
        progress.tell(done)
    output.write(form.end())
    return status


def load_interval(interval):
    """The sheet and the list of an interval."""
    if not interval.lists:
        warn(f"{interval.name}: no {' or '.join(LISTS)} in it; the list counts as empty")
    return load_one(interval.sheets), load_list(interval.lists)


def settle_one(interval, library, old=None):
    """The interval settled; where there are old sheets, its old one too, against the same list."""
    sheet, entitlements = load_interval(interval)
    new = settled(interval.name, sheet, entitlements, library)
    if old is None:
        return new
    before = old[interval]
    if before is None:
        raise Trouble(f"{interval.name}: no old sheet has the same path")
    return against.Pair(settled(before.name, load_one(before.sheets), entitlements, library), new)


def settled(name, sheet, entitlements, library):
    statement, listing = library.settle(sheet.data, entitlements.data)
    explanation = library.explain(sheet.data, entitlements.data)
    return Result(name, sheet, entitlements, statement, listing, explanation)
