"""Every fault of a sheet or list at once, each with its line or place.

The settlement stops at the first faulty record; whoever mends a text wants all of them. What is
told here is advice: the library alone decides. Nothing is told exactly where its reader finds
nothing (a test compares the two).
"""

from bisect import bisect
from collections import Counter
from itertools import groupby
from typing import NamedTuple

from .forms import code_word
from .records import (
    BY_NUMBER, BY_WORD, FACTORS, LIST, SHEET, SUBJECTS, factors_due, split, values, whole_kind,
)
from .refusals import words_of
from .words import record_words

END = 1 << 62
LAKE = ("path", "circulation")


class Record(NamedTuple):
    """A record, or the bytes behind the last whole one."""

    data: bytes
    where: str
    order: int  # by which faults are sorted
    number: int  # within its kind
    faulty: bool  # a line whose fault has been told


class Told(NamedTuple):
    """A fault with what sorts it."""

    order: int
    words: str


def records_of(data, kinds, text):
    """The records of these bytes with their places; their lines where they come from a text."""
    starts, at = {}, 0
    for piece in text.pieces if text else ():
        starts.setdefault(at, piece)
        at += len(piece.data)
    records, counts, at = [], Counter(), 0
    for part in split(data, kinds):
        counts[part[0]] += 1
        piece = starts.get(at)
        where, order = line_of(piece.line, text) if piece else (f"byte {at}", at)
        faulty = bool(piece and piece.faulty)
        records.append(Record(part, where, order, counts[part[0]], faulty))
        at += len(part)
    return records


def line_of(line, text):
    """How a line is named, and what sorts it: included ones come last."""
    return (f"line {line.number}", line.number) if line.name == text.name else (line.where, END)


def faults(data, kinds, text=None):
    """All faults of a sheet or list in words, those that a text's own lines have among them."""
    check = Check(records_of(data, kinds, text), kinds)
    check.run()
    for fault in text.faults.values() if text else ():
        where, order = line_of(fault.line, text)
        check.told.append(Told(order, fault.told(where)))
    return [told.words for told in sorted(check.told, key=lambda told: told.order)]


class Check:
    """Goes through the records and tells what is wrong."""

    def __init__(self, records, kinds):
        self.records, self.kinds, self.told = records, kinds, []
        whole = [record for record in records if self.is_whole(record)]
        self.all_whole = len(whole) == len(records)
        self.counts = Counter(BY_NUMBER[record.data[0]].word for record in whole)

    def is_whole(self, record):
        return record.data[0] in self.kinds and whole_kind(record.data)

    def tell(self, record, row, detail):
        row = 14 if self.kinds == LIST else row
        words = record_words(record.data, record.number, self.kinds)
        line = f"{record.where}: {words}: {words_of(row).title}: {detail} (refusal {row})"
        self.told.append(Told(record.order, line))

    def tell_end(self, row, detail):
        self.told.append(Told(END, f"the end: {words_of(row).title}: {detail} (refusal {row})"))

    def run(self):
        highest, names = 0, {}
        if self.kinds == SHEET:
            self.begins_well()
        for record in self.records:
            kind = self.is_whole(record)
            if not kind:
                self.tell_broken(record)
                continue
            self.order(record, kind, highest)
            highest = max(highest, kind.number)
            if not record.faulty:
                self.name(record, kind, names)
                self.fields(record)
        if self.kinds == SHEET:
            self.factors()
            self.ends_well()

    def begins_well(self):
        if not self.records:
            self.tell_end(1, "there is no record")
        elif self.records[0].data[0] != BY_WORD["head"].number:
            self.tell(self.records[0], 1, "the head must be the first record")

    def tell_broken(self, record):
        known = record.data[0] in self.kinds
        detail = "the bytes end within it" if known else "no record begins so; what follows is not judged"
        self.tell(record, 3 if known else 2, detail)

    def order(self, record, kind, highest):
        if kind.number < highest or kind.word == "head" and record.number > 1:
            after = BY_NUMBER[max(highest, 1)].word
            self.tell(record, 4, f"it stands behind a {after}")
        elif kind.most and record.number > kind.most:
            self.tell(record, 5, f"{kind.most} are allowed")

    def name(self, record, kind, names):
        if not kind.named:
            return
        name = record.data[1:17]
        plain = name.rstrip(b"\0")
        if not plain or b"\0" in plain:
            self.tell(record, 6, "it is empty" if not plain else "a byte stands behind a zero byte")
        first = names.setdefault((kind.number, name), record)
        if first is not record:
            self.tell(record, 7, f"{first.where} has it already")

    def fields(self, record):
        for field, value in values(record.data):
            if field.codes and record.data[0] != FACTORS and value not in field.codes.values():
                listed = ", ".join(f"{code} {word}" for word, code in field.codes.items())
                self.tell(record, 8, f"{field.name} {value} is none of {listed}")
            if field.value in ("ZONE", "PLACE"):
                self.zone(record, field, value)
            if field.low != field.high and not field.low <= value <= field.high:
                self.tell(record, field.row, f"{field.name} {value} is not in {field.low}..{field.high}")

    def zone(self, record, field, value):
        count = self.counts["zone"]
        if value > count or value == 0 and field.value == "ZONE":
            self.tell(record, 8, f"there is no zone {value}; the sheet has {count}")

    def factors(self):
        """Factors that are not due, stand twice or out of order, and those that are missing."""
        if any(self.counts[word] > BY_WORD[word].most for word in SUBJECTS):
            return
        due = list(factors_due(self.counts))
        places = {key: place for place, key in enumerate(due)}
        seen, highest = {}, -1
        for record in self.records:
            if record.data[0] != FACTORS or not self.is_whole(record):
                continue
            key = tuple(value for _, value in values(record.data))[:3]
            place = places.get(key)
            if place is None:
                if not record.faulty:
                    self.tell(record, 10, f"no factor {factor_words(key)} is due")
            elif place in seen:
                self.tell(record, 10, f"{seen[place].where} has the factor {factor_words(key)} already")
            else:
                if place < highest:
                    self.tell(record, 10, f"{factor_words(key)} belongs before {seen[highest].where}")
                seen[place] = record
                highest = max(highest, place)
        if self.all_whole:
            self.missing(due, seen)

    def missing(self, due, seen):
        """Runs of factors that are due and not there, told where the next one stands."""
        absent = [place for place in range(len(due)) if place not in seen]
        present = sorted(seen)
        for _, run in groupby(enumerate(absent), lambda pair: (pair[1] - pair[0], due[pair[1]][:2])):
            places = [place for _, place in run]
            first, last = due[places[0]], due[places[-1]]
            words = factor_words(first) + (f" to {last[2]}" if last != first else "")
            after = bisect(present, places[-1])
            if after < len(present):
                self.tell(seen[present[after]], 10, f"before it the factor {words} is missing")
            else:
                self.tell_end(13, f"the factor {words} is missing")

    def ends_well(self):
        if self.all_whole and self.records:
            for word in ("zone", "unit"):
                if not self.counts[word]:
                    self.tell_end(12, f"there is no {word}")
            self.lake()

    def lake(self):
        """Four paths and one circulation, or neither."""
        if not any(self.counts[word] for word in LAKE):
            return
        for word in LAKE:
            if self.counts[word] < BY_WORD[word].most:
                self.tell_end(28, f"the sheet has {self.counts[word]} of {BY_WORD[word].most} {word}s")


def factor_words(key):
    target, subject, index = key
    return f"{target} {code_word(subject, SUBJECTS)} {index}"
