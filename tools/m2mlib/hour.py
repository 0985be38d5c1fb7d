"""The verb hour: intervals added to one hour through the proved library."""

from typing import NamedTuple

from .hour_outputs import FORMATS, Lines
from .inputs import Input, intervals
from .library import Library
from .settle import chosen, each, load_interval
from .words import place_of


class Added(NamedTuple):
    """What an hour answered to an interval: its seconds and amount, or a refusal."""

    name: str
    sheet: Input
    entitlements: Input
    refusal: int
    place: int = None  # where the sheet is refused, or None
    seconds: int = None
    amount: int = None


class Growing:
    """An hour that grows from an empty one."""

    def __init__(self, library):
        self.library, self.hour = library, library.hour_open()

    def totals(self):
        return self.library.hour_totals(self.hour)

    def add(self, interval):
        sheet, entitlements = load_interval(interval)
        changed = self.library.add(self.hour, sheet.data, entitlements.data)
        added = Added(interval.name, sheet, entitlements, changed.refusal)
        if changed.refusal:
            return added._replace(place=place_of(self.library.explain(sheet.data, entitlements.data)))
        self.hour = changed.hour
        last = self.hour.count - 1
        return added._replace(seconds=self.hour.seconds[last], amount=self.hour.amounts[last])


def hour(call):
    """Adds all intervals in order; the status."""
    form = chosen(call, FORMATS, Lines)
    todo = intervals(call.arguments, call.options.get("--list"))
    growing = Growing(Library())
    return each(todo, growing.add, form(growing, len(todo)), call.output)
