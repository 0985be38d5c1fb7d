"""What is to be settled: sheets and lists in files and folders, as text or bytes."""

import os
import re
from typing import NamedTuple

from .earlier import tell_earlier
from .files import read_file
from .text import Text
from .trouble import Trouble

CONTROL = re.compile(rb"[\x00-\x08\x0e-\x1f]")
UTF16 = (b"\xff\xfe", b"\xfe\xff")
SHEETS = ("sheet.txt", "sheet.bin")
LISTS = ("entitle.txt", "entitle.bin")


class Input(NamedTuple):
    """The bytes of a sheet or list; where they come from a text, the text too."""

    path: str
    data: bytes
    text: Text = None


class Interval(NamedTuple):
    """One sheet and its list, by the paths that may hold them: a folder has each as text, bytes or both."""

    name: str
    sheets: tuple
    lists: tuple


def is_text(path, data):
    """Whether a file is text. Every record begins with a control byte; .bin is always bytes."""
    if path.endswith(".bin"):
        return False
    return data.startswith(UTF16) or not CONTROL.search(data)


def load(path):
    """A sheet or list, from text or bytes; of a sheet's bytes in the earlier form that is said."""
    data = read_file(path)
    if not is_text(path, data):
        tell_earlier(path, data)
        return Input(path, data)
    text = Text(path).read(data)
    return Input(path, text.data(), text)


def load_one(paths):
    """What these paths hold; where there are several they must say the same, where there is none it is empty."""
    loaded = [load(path) for path in paths] or [Input("", b"")]
    if any(other.data != loaded[0].data for other in loaded):
        raise Trouble(f"{' and '.join(paths)} say different things: take one away, or name the files")
    return loaded[0]


def intervals(paths, entitlements=None):
    """The intervals that the arguments of 'settle' name, in order; folders are searched."""
    for path in (*paths, entitlements or os.curdir):
        if not os.path.exists(path):
            raise Trouble(f"{path}: there is no such file or folder")
    if entitlements is None and not any(map(os.path.isdir, paths)):
        if len(paths) != 2:
            raise Trouble("a sheet and a list are wanted, or folders")
        return [Interval(paths[0], (paths[0],), (paths[1],))]
    lists = () if entitlements is None else (entitlements,)
    found = []
    for path in paths:
        if os.path.isdir(path):
            inside = list(below(path, lists))
            if not inside:
                raise Trouble(f"{path}: no {' or '.join(SHEETS)} in it or below it")
            found += inside
        elif lists:
            found.append(Interval(path, (path,), lists))
        else:
            raise Trouble(f"{path}: is no folder; a sheet is named with its list, or with --list")
    return found


def below(path, lists):
    """The intervals of a folder and all folders in it, in the order of their names."""
    for folder, folders, files in os.walk(path):
        folders.sort()
        sheets = present(folder, SHEETS, files)
        if sheets:
            yield Interval(folder, sheets, lists or present(folder, LISTS, files))


def present(folder, names, files):
    return tuple(os.path.join(folder, name) for name in names if name in files)
