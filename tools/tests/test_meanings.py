"""The proved program's words for refusals and kinds are those of docs/REFUSALS.md and docs/FORMAT.md."""

import os
import re
import unittest

from common import ROOT, content
from m2mlib.records import SHEET
from m2mlib.refusals import refusals

SOURCE = "crates/meanings/src/lib.rt"
FUNCTION = r'\bfn %s\b.*?text_of\(\s*b"(.*?)"'
NEXT_LINE = re.compile(r"\\\n\s*")
KINDS = re.compile(r"^The words of the kinds are (.*?) for any other byte\.", re.M | re.S)


def texts(function):
    """The texts of a function by their numbers: the source has them in one string, each ended by a zero byte."""
    found = re.search(FUNCTION % function, content(SOURCE).decode(), re.S)
    if not found:
        raise AssertionError(f"{SOURCE}: no text_of(b\"..\") in {function}")
    *words, rest = NEXT_LINE.sub("", found.group(1)).split("\\0")
    if rest:
        raise AssertionError(f"{SOURCE}: {function}: no zero byte behind '{rest}'")
    return words


class Meanings(unittest.TestCase):
    def setUp(self):
        self.assertTrue(os.path.isfile(os.path.join(ROOT, SOURCE)), f"{SOURCE} is missing")

    def test_refusals(self):
        words = texts("meaning")
        self.assertEqual(len(words), max(refusals()) + 1, f"{SOURCE}: a text for each number from 0 on")
        self.assertEqual(words[0], "")
        for number, refusal in refusals().items():
            self.assertEqual(words[number], refusal.met, f"{SOURCE}: the words of {number}")

    def test_kinds(self):
        *kinds, unknown = re.findall("`(.*?)`", KINDS.search(content("docs/FORMAT.md").decode()).group(1))
        self.assertEqual(texts("kind_word"), [unknown, *kinds])
        self.assertEqual(len(kinds), len(SHEET))


class Table(unittest.TestCase):
    def test_the_words_are_ascii_and_one_line(self):
        for number, refusal in refusals().items():
            self.assertTrue(refusal.met.isascii() and refusal.met.isprintable(), f"{number}: {refusal.met}")
            self.assertFalse(set('"\\`') & set(refusal.met), f"{number}: {refusal.met}")


if __name__ == "__main__":
    unittest.main()
