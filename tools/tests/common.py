"""What the tests of tools/m2m share."""

import os
import subprocess
import sys

ROOT = os.path.dirname(os.path.dirname(os.path.dirname(os.path.abspath(__file__))))
TOOL = os.path.join(ROOT, "tools", "m2m")
SAMPLE = os.path.join(ROOT, "samples", "sheet-s")
sys.path.insert(0, os.path.join(ROOT, "tools"))
sys.dont_write_bytecode = True

from m2mlib.drafts import alter  # noqa: E402
from m2mlib.library import Draft  # noqa: E402
from m2mlib.records import BY_NUMBER, SHEET, split, values  # noqa: E402
from m2mlib.text import Text  # noqa: E402

LONGEST = b"""
head F monitoring PJM seconds 900 prices 400_000 0
repeat i 1 32
  zone Z$i load 100 losses 0
end
repeat i 1 256
  unit U$i zone $((i - 1) % 32 + 1) output 10
end
repeat i 1 32
  point P$i noncommon proxy import 1 export 0
end
repeat i 1 8
  par T$i common actual 0 target 0
end
due $(target * 1000 + subject * 100 + index % 10)
repeat i 1 4
  path J$i flow $(i * 10) factor -$i
end
circulation -5
"""


def content(*path):
    with open(os.path.join(ROOT, *path), "rb") as file:
        return file.read()


def to_bytes(text, **named):
    """The bytes of a text."""
    return Text(**named).read(text.encode() if isinstance(text, str) else text).data()


def earlier(data):
    """A sheet's bytes in the earlier form, in which a point has 26 bytes behind its kind."""
    return b"".join(record[:27] if record[0] == 4 else record for record in split(data, SHEET))


def draft_of(data):
    """The draft of an accepted sheet."""
    draft = Draft()
    for record in split(data, SHEET):
        word, index = BY_NUMBER[record[0]].word, 0
        if word != "head":
            index = getattr(draft, word + "_count")
            setattr(draft, word + "_count", index + 1)
        for field, value in values(record):
            alter(draft, word, index, field, None if field.value == "PLACE" and not value else value)
    return draft


def run(*arguments, data=b"", **named):
    """Runs tools/m2m."""
    named = {"input": data, "capture_output": True, "check": False, **named}
    return subprocess.run([TOOL, *arguments], **named)


def write(folder, **files):
    """Files sheet.txt, entitle.txt and so on in a folder."""
    os.makedirs(folder, exist_ok=True)
    for name, data in files.items():
        with open(os.path.join(folder, name.replace("_", ".")), "wb") as file:
            file.write(data.encode() if isinstance(data, str) else data)
    return folder
