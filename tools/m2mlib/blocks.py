"""The lines of a text as a tree: a repeat holds its lines down to its end."""

from typing import NamedTuple

from .forms import FORMS, form_of
from .lines import lines_of, split_words
from .trouble import Fault

DEEPEST = 20


class Line(NamedTuple):
    """A line with its place, text and words; a repeat has its inner lines too."""

    name: str
    number: int
    text: str
    words: list
    inner: list = None

    @property
    def where(self):
        return f"{self.name} line {self.number}"


class Reader:
    """Reads lines. A fault is raised, or kept where all are to be told."""

    def __init__(self, name, keep_faults):
        self.name = name
        self.faults = {} if keep_faults else None

    def lines(self, name, data):
        """The lines of a text as a tree."""
        return self.tree(self.numbered(name, data), None, 0)

    def numbered(self, name, data):
        """The lines of a text that hold words."""
        for k, text in enumerate(lines_of(name, data), 1):
            line = Line(name, k, text, [])
            try:
                words = split_words(text)
            except Fault as fault:
                fault.form = form_of((text.split() or [""])[0].lower())
                self.fault(fault, line)
                continue
            if words:
                yield line._replace(words=words)

    def tree(self, lines, opened, depth):
        """The lines down to the 'end' of the repeat that was opened, other repeats in it whole."""
        tree = []
        for line in lines:
            word = line.words[0].lower()
            if word == "end" and (not opened or line.words[1:]):
                said = "nothing stands behind 'end'" if opened else "no repeat is open"
                self.fault(Fault(said, FORMS["end"]), line)
            if word == "end" and opened:
                return tree
            if word == "repeat" and depth == DEEPEST:
                self.fault(Fault("repeats nested too deep", final=True), line)
            if word == "repeat":
                line = line._replace(inner=self.tree(lines, line, depth + 1))
            if word != "end":
                tree.append(line)
        if opened:
            self.fault(Fault("its 'end' is missing", FORMS["repeat"]), opened)
        return tree

    def fault(self, fault, line):
        """Raises a fault of a line, or keeps it."""
        fault.at(line)
        if self.faults is None or fault.final:
            raise fault
        self.faults.setdefault(str(fault), fault)
