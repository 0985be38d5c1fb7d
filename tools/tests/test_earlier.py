"""Bytes of the earlier form, whose points have no wheels, are called so; nothing else is."""

import os
import random
import tempfile
import unittest

from common import LONGEST, ROOT, content, earlier, run, to_bytes, write
from m2mlib.cases import case_files, case_of
from m2mlib.earlier import is_earlier
from m2mlib.faults import faults
from m2mlib.records import SHEET

SHEET_S = content("crates/settle/data/sheet.bin")
EARLIER_S = earlier(SHEET_S)
WORDS = (
    "its points are of the earlier form, 26 bytes without wheel in and wheel out; a point has 34 today: make the"
    " bytes again from the text (m2m text sheet), or put 8 zero bytes behind each point's export\n"
)
WITHOUT_POINTS = "head F monitoring PJM seconds 300 prices 5000 2000\ninclude tests/parts/plain.txt\n"
LAKE = to_bytes(content("samples/lake/sheet.txt"))
ONE_POINT = "head F monitoring PJM seconds 300 prices 5000 2000\npoint P common proxy import 0 export 0\n"


class Decided(unittest.TestCase):
    def test_the_earlier_form(self):
        self.assertEqual((len(EARLIER_S), EARLIER_S[149:152]), (293, b"\x04P2"))
        for sheet in (SHEET_S, to_bytes(LONGEST), to_bytes(ONE_POINT), LAKE):
            self.assertTrue(is_earlier(earlier(sheet)))
            self.assertFalse(is_earlier(sheet))
            self.assertTrue(faults(earlier(sheet), SHEET))

    def test_what_the_words_advise(self):
        mended, at = EARLIER_S, 122
        for _ in range(2):
            mended = mended[: at + 27] + bytes(8) + mended[at + 27 :]
            at += 35
        self.assertEqual(mended, SHEET_S)

    def test_other_bytes(self):
        without = to_bytes(WITHOUT_POINTS)
        for data in (
            b"", without, without[:-1], without + LAKE[309:], without + LAKE[309:332], without + LAKE[401:],
            SHEET_S[:-1], EARLIER_S[:-1], EARLIER_S[28:], EARLIER_S + b"\0",
            EARLIER_S + EARLIER_S[28:53], b"\x10" + EARLIER_S, EARLIER_S[:122] + EARLIER_S[149:] + EARLIER_S[122:149],
        ):
            self.assertFalse(is_earlier(data), data.hex())

    def test_no_sound_sheet_is_called_so(self):
        for path in case_files([os.path.join(ROOT, "tests/cases")]):
            sheet = case_of(path, content(path)).intervals[0][0]
            self.assertFalse(is_earlier(sheet) and not faults(sheet, SHEET), path)
        chance = random.Random(6)
        for _ in range(2000):
            at = chance.randrange(28, len(SHEET_S))
            sheet = SHEET_S[:at] + chance.randbytes(1) + SHEET_S[at + 1 :]
            self.assertFalse(is_earlier(sheet) and not faults(sheet, SHEET), sheet.hex())


class Told(unittest.TestCase):
    def assert_told(self, sheet, words, name="sheet.bin"):
        """What check and show say of a file: the first line that check tells, and what show warns of."""
        with tempfile.TemporaryDirectory() as folder:
            write(folder, **{name.replace(".", "_"): sheet})
            path = os.path.join(folder, name)
            lines = run("check", path).stdout.decode().splitlines(True)
            self.assertEqual([line for line in lines if WORDS in line], [f"{path}: {words}"] if words else [])
            self.assertEqual(lines[0] == f"{path}: {words}", bool(words))
            self.assertEqual(run("show", path).stderr.decode(), f"m2m: {path}: {words}" if words else "")

    def test_check_and_show(self):
        self.assert_told(EARLIER_S, WORDS)
        self.assert_told(EARLIER_S, WORDS, name="other")
        for sheet in (SHEET_S, to_bytes(WITHOUT_POINTS), EARLIER_S[:-1]):
            self.assert_told(sheet, "")
        self.assert_told("raw " + EARLIER_S.hex(), "", name="sheet.txt")
        self.assert_told(content("samples/sheet-s/sheet.txt"), "", name="sheet.txt")

    def test_the_faults_stand_behind_it(self):
        with tempfile.TemporaryDirectory() as folder:
            write(folder, sheet_bin=EARLIER_S)
            outcome = run("check", folder)
        first, second, *_ = outcome.stdout.decode().splitlines()
        self.assertEqual((outcome.returncode, outcome.stderr), (1, b""))
        self.assertIn("earlier form", first)
        self.assertIn("byte 122: point 1, P1: number out of range: wheel in", second)

    def test_standard_input(self):
        outcome = run("text", "show-sheet", data=EARLIER_S)
        self.assertEqual((outcome.returncode, outcome.stderr.decode()), (0, "m2m: standard input: " + WORDS))
        self.assertEqual(run("text", "sheet", data=outcome.stdout).stdout, EARLIER_S)
        self.assertEqual(run("text", "show-sheet", data=SHEET_S).stderr, b"")


if __name__ == "__main__":
    unittest.main()
