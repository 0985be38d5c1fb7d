"""Bytes back to text: whatever the bytes, the text gives them again."""

import random
import unittest

from common import LONGEST, content, to_bytes
from m2mlib.forms import show
from m2mlib.records import BY_NUMBER, LIST, SHEET


class Shown(unittest.TestCase):
    def assert_identity(self, data, kinds):
        text = show(data, kinds)
        self.assertEqual(to_bytes(text), data)
        self.assertEqual(show(to_bytes(text), kinds), text)

    def test_sheet_s(self):
        text = content("samples/sheet-s/sheet.txt").decode()
        shown = show(to_bytes(text), SHEET)
        self.assertEqual(shown.split("\n"), [x for x in text.split("\n") if x[:1] != "#"])

    def test_wheels_are_shown_where_they_are_not_0(self):
        line = "point P common proxy import 1 export 2"
        for words in ("", " wheel-in 3", " wheel-out 4", " wheel-in 3 wheel-out 4", " wheel-out 4294967295"):
            self.assertEqual(show(to_bytes(line + words), SHEET), line + words + "\n")
        self.assertEqual(show(to_bytes(line + " wheel-in 0 wheel-out 0"), SHEET), line + "\n")

    def test_paths(self):
        lines = "path J5D flow -200000 factor 0\npath \"\\x01\" flow 0 factor -32768\ncirculation 0\ncirculation -1\n"
        self.assertEqual(show(to_bytes(lines), SHEET), lines)

    def test_any_bytes(self):
        chance = random.Random(1)
        for length in range(200):
            data = chance.randbytes(length)
            self.assert_identity(data, SHEET)
            self.assert_identity(data, LIST)

    def test_any_record_and_any_cut(self):
        chance = random.Random(2)
        for _ in range(300):
            data = b"".join(
                bytes([kind]) + chance.randbytes(BY_NUMBER[kind].length - 1)
                for kind in chance.choices(SHEET, k=5)
            )
            self.assert_identity(data[: chance.randrange(len(data) + 1)], SHEET)

    def test_all_bytes_in_names(self):
        for first in range(256):
            name = bytes([first, 0, first, ord("$"), ord("i")]).ljust(16, b"\0")
            self.assert_identity(b"\x10" + name + bytes(4), LIST)

    def test_flipped_longest_sheet(self):
        chance = random.Random(3)
        data = bytearray(to_bytes(LONGEST))
        for _ in range(20):
            data[chance.randrange(len(data))] ^= 1 << chance.randrange(8)
            self.assert_identity(bytes(data), SHEET)


if __name__ == "__main__":
    unittest.main()
