"""The verb set: single fields of a sheet altered, through the proved reader and writer."""

import os
import re
from itertools import count

from .changes import read_changes
from .drafts import alter
from .edits import edited, patched
from .faults import faults
from .files import encoded, store
from .inputs import Input, load
from .library import Library
from .outputs import as_lines, wrapped
from .records import SHEET
from .trouble import Trouble
from .words import place_of, refusal_words

NOTHING = Input("", b"")
NEW = re.compile(r"\.new(-[0-9]+)?\Z")


def set_fields(call):
    """Writes the altered sheet and prints its path; the status."""
    path, *texts = call.arguments
    sheet, library = load(path), Library()
    drafted = library.read_draft(sheet.data)
    if drafted.refusal:
        return tell(refusal_words(drafted.refusal, sheet, place_of(library.explain(sheet.data)), NOTHING), call)
    changes = read_changes([os.fsencode(text).decode("latin-1") for text in texts], drafted.draft)
    for change in changes:
        alter(drafted.draft, change.kind, change.index, change.field, change.value)
    refusal, data = library.write_draft(drafted.draft)
    if refusal:
        return tell(unwritten(refusal, patched(sheet.data, changes)), call)
    to = target(call, sheet)
    if sheet.text:
        data = edited(sheet.text, changes, data, to or path)
    call.output.write(encoded(stored(to, data, call) + "\n"))
    return 0


def unwritten(refusal, data):
    """The lines of a writer's refusal, with the faults that the sheet would have had."""
    title, *more = refusal_words(refusal, NOTHING, None, NOTHING)
    return [title, *(("fault", fault.partition(": ")[2]) for fault in faults(data, SHEET)), *more]


def tell(words, call):
    """Prints a refusal in words; the status."""
    call.output.write(as_lines(wrapped(words)))
    return 1


def target(call, sheet):
    """The path that the options ask for; None where it is to be a new one beside the old sheet."""
    to = call.options.get("--to", sheet.path if "--over" in call.options else None)
    if sheet.text and to and to.endswith(".bin"):
        raise Trouble(f"{to}: a name that ends so means bytes, and {sheet.path} is text")
    return to


def stored(to, data, call):
    """Writes the sheet; its path."""
    path, over = call.arguments[0], "--over" in call.options
    if to is None:
        return next(new for new in free_names(path) if store(new, data, path))
    if not store(to, data, path, over):
        raise Trouble(f"{to}: is there already; --over writes over it")
    return to


def free_names(path):
    """Names beside a file: sheet.new.txt, sheet.new-2.txt and so on."""
    root, ending = os.path.splitext(path)
    root = NEW.sub("", root)
    yield f"{root}.new{ending}"
    yield from (f"{root}.new-{k}{ending}" for k in count(2))
