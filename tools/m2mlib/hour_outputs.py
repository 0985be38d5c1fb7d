"""What is printed of an hour: the lines of the program hour, words or JSON."""

import json

from .files import encoded
from .forms import code_word
from .library import HOUR_FIGURES
from .outputs import (
    LABELS, Listing, answer, as_lines, figure_line, figures_of, flowgate, json_row, name_line, refused_words,
)
from .records import RTOS

INTERVAL_FIGURES = HOUR_FIGURES[:2]
HEAD = "the hour"


class Lines(Listing):
    """The lines of the program hour; where there are several intervals each has a head line, and so has the hour."""

    def __init__(self, growing, count):
        super().__init__(count)
        self.growing = growing

    def row(self, added):
        line = f"refused {added.refusal}" if added.refusal else f"amount {added.amount}"
        return self.head(added.name) + as_lines([line])

    def end(self):
        totals = self.growing.totals()
        lines = [f"{LABELS.get(f.name, f.name)} {getattr(totals, f.name)}" for f in HOUR_FIGURES]
        return self.head(HEAD) + as_lines(lines)


class Words(Lines):
    """For people: everyday units beside the exact figures, and refusals explained."""

    def row(self, added):
        figures = [] if added.refusal else [figure_line(figure, added) for figure in INTERVAL_FIGURES]
        return self.head(added.name) + as_lines(figures or refused_words(added))

    def end(self):
        hour, totals = self.growing.hour, self.growing.totals()
        lines = [name_line(hour)] if hour.count else []
        lines += [figure_line(figure, totals) for figure in HOUR_FIGURES]
        return self.head(HEAD) + as_lines(lines)


class Object(Lines):
    """An object: an array with one object, on one line, an interval, and an object of the hour."""

    def begin(self):
        return b'{"intervals": ['

    def row(self, added):
        self.done += 1
        figures = figures_of(None if added.refusal else added, INTERVAL_FIGURES)
        return json_row({**answer(added), **figures}, self.done)

    def end(self):
        hour = self.growing.hour
        values = {
            "count": hour.count,
            **flowgate(bytes(hour.name)),
            "monitoring_RTO": code_word(hour.monitoring_rto, RTOS) if hour.count else None,
            **figures_of(self.growing.totals(), HOUR_FIGURES),
        }
        return encoded('\n],\n"hour": ' + json.dumps(values) + "}\n")


FORMATS = {"--words": Words, "--json": Object}
