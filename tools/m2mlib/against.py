"""What settle --against prints: an old statement, a new one, and the difference of each figure."""

import os
from types import SimpleNamespace
from typing import NamedTuple

from . import outputs
from .inputs import SHEETS, Interval, below
from .library import FIGURES
from .outputs import (
    HEADINGS, LABELS, REMAINDERS, as_lines, columns, csv_line, figure_line, figures_of, heading, json_row, listed,
)
from .trouble import Trouble, warn


class Pair(NamedTuple):
    """Two settled intervals."""

    old: object
    new: object

    @property
    def refusal(self):
        return self.old.refusal or self.new.refusal

    @property
    def difference(self):
        """New less old of each figure, and whether one has paths; None where one of the two is refused."""
        if self.refusal:
            return None
        old, new = self.old.statement, self.new.statement
        values = {f.name: getattr(new, f.name) - getattr(old, f.name) for f in FIGURES}
        return SimpleNamespace(**values, has_paths=old.has_paths or new.has_paths)


def old_sheets(path, arguments, todo):
    """The old sheet of each interval: the only one at the path, or of a folder's the one with the same path in it."""
    if not os.path.exists(path):
        raise Trouble(f"{path}: there is no such file or folder")
    found = list(below(path, ())) if os.path.isdir(path) else [Interval(path, (path,), ())]
    if not found:
        raise Trouble(f"{path}: no {' or '.join(SHEETS)} in it or below it")
    if len(found) == 1:
        return dict.fromkeys(todo, found[0])
    root, *others = arguments
    if others or not os.path.isdir(root):
        raise Trouble(f"{path}: has several sheets; one folder is wanted that has new ones of the same paths")
    by_path = {os.path.relpath(old.name, path): old for old in found}
    pairs = {interval: by_path.pop(os.path.relpath(interval.name, root), None) for interval in todo}
    for old in by_path.values():
        warn(f"{old.name}: no interval below {root} has the same path")
    return pairs


class Both:
    """The two statements and the difference, each below a head line."""

    def __init__(self, _):
        super().__init__(0)

    def row(self, pair):
        parts = [(f"old: {pair.old.name}", self.body(pair.old)), (f"new: {pair.new.name}", self.body(pair.new))]
        if not pair.refusal:
            parts.append(("new - old", as_lines(self.difference(pair.difference))))
        return b"".join(self.head(name) + body for name, body in parts)


class Listing(Both, outputs.Listing):
    """Listings; the difference has their lines without the flowgate's."""

    def difference(self, values):
        lines = []
        for figure in listed(values):
            value = str(getattr(values, figure.name))
            if figure.name in REMAINDERS:
                lines[-1] += " " + value
            else:
                lines.append(f"{LABELS.get(figure.name, figure.name)} {value}")
        return lines


class Words(Both, outputs.Words):
    """For people: everyday units beside the exact figures."""

    def difference(self, values):
        figures = (figure for figure in listed(values) if figure.name not in REMAINDERS)
        return [figure_line(figure, values, gained) for figure in figures]


class Json(outputs.Json):
    """An array with one object, on one line, an interval: old, new and difference."""

    def row(self, pair):
        self.done += 1
        difference = None if pair.refusal else figures_of(pair.difference, FIGURES)
        values = {"old": columns(pair.old), "new": columns(pair.new), "difference": difference}
        return json_row(values, self.done)


class Csv(outputs.Csv):
    """A line of headings, then one line an interval: all columns of old, of new, and the differences."""

    def begin(self):
        parts = ("old", HEADINGS), ("new", HEADINGS), ("difference", map(heading, FIGURES))
        return csv_line(f"{part}_{name}" for part, names in parts for name in names)

    def row(self, pair):
        difference = figures_of(pair.difference, FIGURES)
        return csv_line([*columns(pair.old).values(), *columns(pair.new).values(), *difference.values()])


def gained(figure, values):
    """What a figure is; of a payment, whose gain or loss the difference is."""
    if figure.name not in LABELS:
        return figure.meaning
    value = getattr(values, figure.name)
    return f"{figure.meaning} {'gains' if value > 0 else 'loses' if value < 0 else 'has the same'}"


FORMATS = {"--words": Words, "--json": Json, "--csv": Csv}
