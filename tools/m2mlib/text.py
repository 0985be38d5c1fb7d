"""Whole texts: the records that their lines stand for, and what shortens or damages them."""

import os
from collections import Counter
from itertools import islice
from typing import NamedTuple

from .blocks import DEEPEST, Line, Reader
from .files import ROOT, read_file
from .forms import FORMS, form_of, write_record
from .lines import fill_in, hex_bytes, name_bytes, number
from .records import BY_NUMBER, BY_WORD, ZONE, factors_due, whole_kind
from .trouble import Fault, Trouble, shown

MOST_STEPS = 100_000


class Piece(NamedTuple):
    """A record's bytes, or raw ones, and the line that they come from."""

    data: bytes
    line: Line
    faulty: bool = False


class Text(Reader):
    """The records of a text. A fault is raised, or kept where all are to be told."""

    def __init__(self, path="", keep_faults=False):
        super().__init__(path or "text", keep_faults)
        self.open = [path] if path else []
        self.source, self.pieces, self.steps = b"", [], 0

    def data(self):
        return b"".join(piece.data for piece in self.pieces)

    def read(self, data):
        """Takes the lines of a text."""
        self.source = data
        self.run(self.lines(self.name, data), {})
        return self

    def run(self, lines, variables):
        for line in lines:
            try:
                self.step(line, variables)
            except Fault as fault:
                self.fault(fault, line)

    def count_step(self):
        self.steps += 1
        if self.steps > MOST_STEPS:
            raise Fault(f"the text stands for more than {MOST_STEPS} lines", final=True)

    def step(self, line, variables):
        self.count_step()
        word = line.words[0].lower()
        if line.inner is not None:
            self.repeat(line, variables)
        elif word == "due":
            self.due(line, variables)
        elif word in DIRECTIVES:
            try:
                DIRECTIVES[word](self, self.filled(line.words[1:], line, variables), line, variables)
            except Fault as fault:
                fault.form = fault.form or FORMS[word]
                raise
        else:
            self.record(line, variables)

    def filled(self, words, line, variables):
        """Words of a line with what $ stands for."""
        return [fill_in(word, variables) for word in words] if "$" in line.text else words

    def record(self, line, variables):
        """A record line. A faulty one still counts as a record of its kind where faults are kept."""
        word = line.words[0].lower()
        try:
            words = self.filled(line.words, line, variables)
            self.pieces.append(Piece(write_record(words, self.zones), line))
        except Fault as fault:
            fault.form = fault.form or form_of(word)
            if word in BY_WORD and self.faults is not None:
                self.pieces.append(Piece(stand_in(BY_WORD[word], line.words[1:2]), line, True))
            raise

    def zones(self):
        """The names of the zones that stand above."""
        return [p.data[1:17] for p in self.pieces if p.data[:1] == ZONE_BYTE and whole_kind(p.data)]

    def counts(self):
        """How many whole records there are, by word."""
        kinds = Counter(piece.data[:1] for piece in self.pieces if whole_kind(piece.data))
        return {kind.word: kinds[bytes([number])] for number, kind in BY_NUMBER.items()}

    def repeat(self, line, variables):
        name, *bounds = form(line.words[1:], 3, "repeat")
        if not name.isascii() or not name.isalpha() or not name.islower():
            raise Fault(f"'{shown(name)}' is no variable: lower-case letters are wanted", FORMS["repeat"])
        first, last = (number(word) for word in self.filled(bounds, line, variables))
        for value in range(first, last + 1):
            self.count_step()
            self.run(line.inner, {**variables, name: value})

    def due(self, line, variables):
        (value,) = form(line.words[1:], 1, "due")
        counts = self.counts()
        for target, subject, index in islice(factors_due(counts), counts["factor"], None):
            self.count_step()
            known = {**variables, "target": target, "subject": subject, "index": index}
            self.factor(target, subject, index, fill_in(value, known), line)

    def factor(self, target, subject, index, value, line):
        """One factor. Where faults are kept, one with a faulty value still stands in its place."""
        words = ["factor", str(target), str(subject), str(index), value]
        try:
            self.pieces.append(Piece(write_record(words, self.zones), line))
        except Fault as fault:
            fault.form = FORMS.get(line.words[0].lower(), "")
            self.fault(fault, line)
            self.pieces.append(Piece(write_record(words[:4] + ["0"], self.zones), line, True))

    def do_factors(self, words, line, variables):
        if len(words) < 3:
            raise Fault("target, subject and values are expected")
        for index, value in enumerate(words[2:], 1):
            self.factor(words[0], words[1], index, value, line)

    def do_include(self, words, line, variables):
        (path,) = form(words, 1)
        path = path[1:-1] if path.startswith('"') else path
        if "\0" in path:
            raise Fault("a path holds no zero byte")
        path = included(os.fsdecode(path.encode("latin-1")), self.open[-1] if self.open else "")
        if path in map(os.path.realpath, self.open):
            raise Fault("the text includes itself")
        if len(self.open) > DEEPEST:
            raise Fault("includes nested too deep")
        self.open.append(path)
        try:
            self.run(self.lines(path, read_file(path)), variables)
        except Trouble as trouble:
            raise trouble if isinstance(trouble, Fault) else Fault(str(trouble)) from None
        finally:
            self.open.pop()

    def do_replace(self, words, line, variables):
        self.pieces[self.place(words)] = Piece(write_record(words[1:], self.zones), line)

    def do_insert(self, words, line, variables):
        self.pieces.insert(self.place(words), Piece(write_record(words[1:], self.zones), line))

    def do_drop(self, words, line, variables):
        del self.pieces[self.place(form(words, 1))]

    def do_swap(self, words, line, variables):
        one, other = self.place(form(words, 2)), self.place(words[1:])
        pieces = self.pieces
        pieces[one], pieces[other] = pieces[other], pieces[one]

    def do_patch(self, words, line, variables):
        """Other bytes in place; the records keep their bounds."""
        place, patch = number(words[0] if words else ""), hex_bytes(words[1:])
        data = self.data()
        if place < 0 or place + len(patch) > len(data):
            raise Fault(f"the patch lies outside the {len(data)} bytes")
        for k, piece in enumerate(self.pieces):
            end = place + len(patch)
            if place < len(piece.data) and end > 0:
                front, back = piece.data[: max(place, 0)], piece.data[max(end, 0) :]
                middle = patch[max(-place, 0) : len(piece.data) - place]
                self.pieces[k] = piece._replace(data=front + middle + back)
            place -= len(piece.data)

    def do_cut(self, words, line, variables):
        left = number(*form(words, 1))
        if not 0 <= left <= len(self.data()):
            raise Fault(f"there are {len(self.data())} bytes only")
        while left:
            piece = self.pieces.pop()
            if left < len(piece.data):
                self.pieces.append(piece._replace(data=piece.data[:-left]))
            left -= min(left, len(piece.data))

    def place(self, words):
        at = number(words[0] if words else "")
        if not 1 <= at <= len(self.pieces):
            raise Fault(f"there is no record {at}: {len(self.pieces)} stand above")
        return at - 1


DIRECTIVES = {
    name[3:]: function for name, function in vars(Text).items() if name.startswith("do_")
}
ZONE_BYTE = bytes([ZONE])


def stand_in(kind, words):
    """Bytes for a faulty line: its kind, its name where that is sound, else zeros."""
    try:
        name = name_bytes(words[0]) if kind.named and words else b""
    except Fault:
        name = b""
    return (bytes([kind.number]) + name).ljust(kind.length, b"\0")


def form(words, count, directive=""):
    """So many words, behind the line's first."""
    if len(words) != count:
        said = f"{count} words are wanted behind the first, {len(words)} are there"
        raise Fault(said, FORMS.get(directive, ""))
    return words


def included(path, by):
    """A path beside the text that includes it, else below the repository's root."""
    beside = os.path.join(os.path.dirname(by), path)
    return os.path.realpath(beside if os.path.exists(beside) else os.path.join(ROOT, path))
