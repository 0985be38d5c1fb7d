"""20,000 damaged texts: each gives bytes or a fault, and its faults can be told. Nothing else happens.

So with damaged changes: each is understood and the altered text means it, or a fault is told.
"""

import os
import random
import unittest

from common import ROOT, content, draft_of
from m2mlib.cases import case_files
from m2mlib.changes import read_changes
from m2mlib.edits import edited, patched
from m2mlib.faults import faults
from m2mlib.forms import FORMS, show
from m2mlib.records import kinds_of
from m2mlib.text import DIRECTIVES, Text
from m2mlib.trouble import Trouble
from test_changes import EACH_FIELD, EACH_PATH_FIELD, LAKE_TEXT

COUNT = 20_000
WORDS = [
    *(word.encode() for word in (*FORMS, *DIRECTIVES)), b"head", b"zone", b"unit", b"point", b"par",
    b"factor", b"entitlement", b"line", b"proxy", b"wheel-in", b" wheel-out 1",
    b"path", b"circulation", b"flow", b"circulation 1\n",
    b"$i", b"$(i", b"$((1)", b")", b'"', b'"$', b"\\x",
    b"#", b"\r", b"\n", b"\r\n", b"\0", b"\xff", b"\xef\xbb\xbf", b"\xc3\xbc", b"-", b"-1", b"0x", b"1e9",
    b"120.0", b"1,200", b"99999999999999999999", b"1 99", b"due $(target)", b"end", b"repeat i 1 3\n",
    b"include samples/sheet-s/sheet.txt\n", b"\n" * 3, b" ", b"\t", b"(" * 60, b"NYISO", b"non-common",
]


def texts():
    """Sound texts to begin with: the samples', and the sections of the cases that are short."""
    names = "sheet-s/sheet.txt", "sheet-s/entitle.txt", "wheels/sheet.txt", "lake/sheet.txt"
    sound = [content("samples", name) for name in names]
    for path in case_files([os.path.join(ROOT, "tests/cases")]):
        lines = content(path).splitlines(True)
        text = b"".join(line for line in lines if line.startswith(b" "))
        if len(Text(path).read(text).data()) < 1000:
            sound.append(text)
    return sound


def damaged(text, chance):
    """A text with a few of its bytes, words or lines changed."""
    text = bytearray(text)
    for _ in range(chance.choice((1, 1, 1, 2, 6))):
        at = chance.randrange(len(text) + 1)
        end = min(len(text), at + chance.choice((0, 1, 1, 4, 30)))
        kind = chance.randrange(5)
        if kind == 0:
            text[at:end] = chance.choice(WORDS)
        elif kind == 1:
            text[at:end] = b""
        elif kind == 2:
            text[at:end] = chance.randbytes(end - at)
        elif kind == 3:
            text[at:at] = text[end : end + chance.randrange(80)]
        elif at < len(text):
            text[at] ^= 1 << chance.randrange(8)
    return bytes(text)


class Fuzz(unittest.TestCase):
    def test_damaged_texts(self):
        chance, sound = random.Random(12), texts()
        accepted = refused = 0
        for _ in range(COUNT):
            text = damaged(chance.choice(sound), chance)
            try:
                data = Text("/fuzz/text").read(text).data()
                show(data, kinds_of(data))
                accepted += 1
            except Trouble as trouble:
                self.assertTrue(str(trouble))
                refused += 1
            self.told(text)
        self.assertGreater(min(accepted, refused), COUNT // 10)

    def test_damaged_changes(self):
        chance, text = random.Random(13), Text("/fuzz/text").read(LAKE_TEXT.encode())
        draft, sound = draft_of(text.data()), [change.encode() for change, _, _ in EACH_FIELD + EACH_PATH_FIELD]
        accepted = refused = 0
        for _ in range(COUNT // 2):
            said = [damaged(chance.choice(sound), chance).decode("latin-1") for _ in range(chance.choice((1, 1, 2)))]
            try:
                changes = read_changes(said, draft)
                accepted += 1
            except Trouble as trouble:
                self.assertTrue(str(trouble))
                refused += 1
                continue
            data = patched(text.data(), changes)
            new = edited(text, changes, data, text.name)
            self.assertEqual(Text("/fuzz/text").read(new).data(), data, said)
        self.assertGreater(min(accepted, refused), COUNT // 40)

    def told(self, text):
        """All faults of a text can be told."""
        reader = Text("/fuzz/text", keep_faults=True)
        try:
            data = reader.read(text).data()
            self.assertTrue(all(faults(data, kinds_of(data), reader)))
        except Trouble as trouble:
            self.assertTrue(str(trouble))


if __name__ == "__main__":
    unittest.main()
