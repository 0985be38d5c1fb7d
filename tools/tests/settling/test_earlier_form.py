"""Bytes of the earlier form given to settle, hour and set: refused, and called so on standard error."""

import io
import json
import os
import shutil
import sys
import tempfile
import unittest
from contextlib import ExitStack, redirect_stderr
from unittest import mock

sys.path.insert(0, os.path.dirname(os.path.dirname(os.path.abspath(__file__))))

from common import SAMPLE, content, earlier, to_bytes, write  # noqa: E402
from m2mlib.earlier import is_earlier  # noqa: E402
from m2mlib.library import Library  # noqa: E402
from m2mlib.verbs import call_verb  # noqa: E402
from test_earlier import EARLIER_S, SHEET_S, WITHOUT_POINTS, WORDS  # noqa: E402

LIST = os.path.join(SAMPLE, "entitle.txt")
HOUR = b"seconds 0\namount 0\nNYISO 0\nPJM 0\n"
library = Library()


def called(*arguments):
    """A verb in this process, on the library that is loaded: its status, output, and what it tells."""
    output, told = io.BytesIO(), io.StringIO()
    with ExitStack() as stack:
        stack.enter_context(redirect_stderr(told))
        for module in ("settle", "hour", "setting"):
            stack.enter_context(mock.patch(f"m2mlib.{module}.Library", lambda: library))
        status = call_verb(arguments, output)
    return status, output.getvalue(), told.getvalue()


class Told(unittest.TestCase):
    def setUp(self):
        self.folder = tempfile.mkdtemp()
        self.addCleanup(shutil.rmtree, self.folder)
        self.sheet = self.path("sheet.bin", EARLIER_S)

    def path(self, name, data):
        write(self.folder, **{name.replace(".", "_"): data})
        return os.path.join(self.folder, name)

    def said(self, *paths):
        return "".join(f"m2m: {path}: {WORDS}" for path in paths)

    def test_settle(self):
        self.assertEqual(called("settle", self.sheet, LIST), (1, b"refused 9\n", self.said(self.sheet)))
        self.assertEqual(called("settle", "--list", LIST, self.folder)[1:], (b"refused 9\n", self.said(self.sheet)))
        status, output, told = called("settle", "--json", self.sheet, LIST)
        (row,) = json.loads(output)
        self.assertEqual((status, told), (1, self.said(self.sheet)))
        self.assertEqual((row["refusal"], row["place"], row["record"]), (9, 122, "point 1, P1"))

    def test_against(self):
        for old, new in ((self.sheet, SAMPLE), (SAMPLE, self.sheet)):
            status, output, told = called("settle", "--against", old, "--list", LIST, new)
            self.assertEqual((status, output.count(b"refused 9\n"), told), (1, 1, self.said(self.sheet)))

    def test_hour(self):
        self.assertEqual(called("hour", self.sheet, LIST), (1, b"refused 9\n" + HOUR, self.said(self.sheet)))

    def test_set(self):
        status, output, told = called("set", self.sheet, "seconds 5")
        first = b"refused 9: number out of range\nwhere:    byte 122 of the sheet: point 1, P1\n"
        self.assertEqual((status, output.startswith(first), told), (1, True, self.said(self.sheet)))
        self.assertEqual(os.listdir(self.folder), ["sheet.bin"])

    def test_other_sheets_say_nothing(self):
        for name, data in (
            ("sound.bin", SHEET_S), ("short.bin", SHEET_S[:-1]), ("plain.bin", to_bytes(WITHOUT_POINTS)),
            ("raw.txt", "raw " + EARLIER_S.hex()), ("sheet.txt", content("samples/sheet-s/sheet.txt")),
        ):
            path = self.path(name, data)
            for arguments in (["settle", path, LIST], ["hour", path, LIST], ["set", path, "seconds 5"]):
                self.assertEqual(called(*arguments)[2], "", arguments)

    def test_beside_its_text(self):
        self.path("sheet.txt", content("samples/sheet-s/sheet.txt"))
        status, output, told = called("settle", "--list", LIST, self.folder)
        self.assertEqual((status, output), (2, b""))
        self.assertTrue(told.startswith(self.said(self.sheet)), told)
        self.assertIn("say different things", told)

    def test_the_reader_refuses_each(self):
        for text in (content("samples/sheet-s/sheet.txt"), content("samples/wheels/sheet.txt")):
            for length in range(len(SHEET_S) + 1):
                sheet = earlier(to_bytes(text))[:length]
                self.assertFalse(is_earlier(sheet) and not library.read(sheet, len(sheet)).refusal, length)


if __name__ == "__main__":
    unittest.main()
