"""Case files: a sheet and a list, an hour's, or a sheet to write, and what is expected, printed for a program."""

import os
from typing import NamedTuple

from .blocks import Line
from .files import read_file
from .lines import number
from .text import Text
from .trouble import Fault, Trouble

SECTIONS = ("sheet", "entitlements")
SETTINGS = ("expect", "buffer", "every-truncation", "every-buffer")
TASKS = ("hour", "write")
MOST_TIMES = 1000


class Section(NamedTuple):
    """A sheet or list, by the lines that stand below its name."""

    name: str
    begin: Line
    lines: list

    def data(self, path):
        text = Text(path)
        text.run(text.tree(iter(self.lines), None, 0), {})
        return text.data()

    def times(self):
        """How often an hour is given it."""
        words = self.begin.words[1:]
        count = number(words[0]) if words else 1
        if words and (self.name != "sheet" or words[1:] or not 1 <= count <= MOST_TIMES):
            raise Fault(f"'sheet' or 'sheet TIMES' is expected, 1 to {MOST_TIMES} times").at(self.begin)
        return count


class Case(NamedTuple):
    """Its task, if not to settle; the sheets in order, each with its list; what is expected, and of which sweep."""

    task: str
    intervals: list
    settings: list

    @property
    def hour(self):
        return self.task == "hour"


def case_lines(path):
    """A case file as lines for a program: its bytes in hexadecimal digits."""
    data = read_file(path)
    if not data.startswith(b"#"):
        raise Trouble(f"{path}: a comment must tell what the case shows")
    case = case_of(path, data)
    if not any(setting.startswith("expect ") for setting in case.settings):
        raise Trouble(f"{path}: nothing is expected")
    yield f"case {path}"
    if case.task:
        yield case.task
    for interval in case.intervals:
        for name, part in zip(SECTIONS, interval):
            yield f"{name} {part.hex()}".strip()
    yield from case.settings
    yield "end"


def case_of(path, data):
    """The case that a text tells."""
    task, sections, settings, below = "", [], [], None
    for line in Text(path).numbered(path, data):
        if line.words[0] in SECTIONS:
            below = Section(line.words[0], line, [])
            sections.append(below)
        elif line.words[0] in SETTINGS:
            below = None
            settings.append(" ".join(line.words))
        elif line.words[0] in TASKS and not (line.words[1:] or task or sections or settings):
            task = line.words[0]
        elif below is None:
            raise Fault("the line belongs to no section").at(line)
        else:
            below.lines.append(line)
    intervals = in_order(path, sections) if task == "hour" else [alone(path, sections)]
    return Case(task, list(intervals), settings)


def alone(path, sections):
    """The one sheet and the one list; what is missing is empty."""
    parts = {}
    for section in sections:
        if section.name in parts or section.begin.words[1:]:
            raise Fault(f"one section '{section.name}' is expected").at(section.begin)
        parts[section.name] = section.data(path)
    return tuple(parts.get(name, b"") for name in SECTIONS)


def in_order(path, sections):
    """Each sheet of an hour with the list that stands next below it; where none does the list is empty."""
    waiting = []
    for section in sections:
        data, times = section.data(path), section.times()
        if section.name == "sheet":
            waiting += [data] * times
        else:
            yield from ((sheet, data) for sheet in waiting)
            waiting = []
    yield from ((sheet, b"") for sheet in waiting)


def case_files(paths):
    """The case files among these paths and below them, in order."""
    for path in paths:
        if not os.path.isdir(path):
            yield path
        for folder, folders, files in os.walk(path):
            folders.sort()
            for file in sorted(files):
                if file.endswith(".case"):
                    yield os.path.join(folder, file)
