"""The verbs check and show: one file looked at, its faults or its records."""

import os
from collections import Counter

from .earlier import WORDS, is_earlier
from .faults import faults
from .files import encoded, read_file
from .forms import show
from .inputs import LISTS, SHEETS, is_text, load
from .records import LIST, SHEET, kinds_of, split
from .text import Text
from .trouble import Fault, Trouble


def check(call):
    """Prints every fault of every file; 0 where there is none, else 1."""
    files = [file for path in call.arguments for file in files_of(path)]
    found = 0
    for path in files:
        told, count = faults_of(path)
        lines = [f"{path}: {line}" for line in told]
        lines = lines or [f"{path}: no fault in {count} records"]
        call.output.write(encoded("".join(line + "\n" for line in lines)))
        found += len(told)
    return int(found > 0)


def files_of(path):
    """A file itself, or the sheet and list of a folder."""
    if not os.path.isdir(path):
        return [path]
    files = [os.path.join(path, name) for name in SHEETS + LISTS]
    files = [file for file in files if os.path.isfile(file)]
    if not files:
        raise Trouble(f"{path}: no {', '.join(SHEETS + LISTS)} in it")
    return files


def faults_of(path):
    """The faults of a file in words, and how many records it has."""
    data, text = read_file(path), None
    if is_text(path, data):
        text = Text(path, keep_faults=True)
        try:
            data = text.read(data).data()
        except Fault as fault:
            return [str(kept) for kept in (*text.faults.values(), fault)], 0
    kinds = LIST if os.path.basename(path) in LISTS else kinds_of(data)
    first = [WORDS] if not text and kinds == SHEET and is_earlier(data) else []
    return first + faults(data, kinds, text), len(list(split(data, kinds)))


def show_file(call):
    """Prints the records of a file, each with its offset and its number within its kind."""
    data = load(*call.arguments).data
    kinds, counts, at = kinds_of(data), Counter(), 0
    call.output.write(b"    at   no.  record\n" if data else b"")
    for piece in split(data, kinds):
        counts[piece[0]] += 1
        lines = show(piece, kinds).splitlines()
        number = "" if lines[0].startswith("raw ") else counts[piece[0]]
        for k, line in enumerate(lines):
            call.output.write(f"{at + 32 * k:>6}  {number:>4}  {line}\n".encode("ascii"))
        at += len(piece)
    call.output.write(f"{at:>6}        the end\n".encode("ascii"))
    return 0
