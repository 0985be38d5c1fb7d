"""The text of an altered sheet: what is not altered stays, and it means the sheet's bytes or is not made."""

import os
import tempfile
import unittest

from common import SAMPLE, content, draft_of, to_bytes, write
from m2mlib.changes import read_changes
from m2mlib.edits import edited, patched
from m2mlib.text import Text
from m2mlib.trouble import Trouble
from test_changes import EACH_FIELD, EACH_PATH_FIELD, LAKE_TEXT, TEXT

PATH = os.path.join(SAMPLE, "sheet.txt")
MANY = """# Many
head F monitoring PJM seconds 300 prices 5000 2000
zone A load 100 losses 0 # the first
zone B load 200 losses 0
repeat i 1 3
  unit U$i zone $(i % 2 + 1) output 100
end
repeat i 1 1
  point P$i common line B import $(i * 10) export 0
end
"""
FACTORS = "factors 0 unit 1 2 3 # units\nfactors 0 zone 4 5\nfactors 0 point 6\n"


def with_changes(text, *changes, path=PATH, to=PATH):
    """The text with changes, as it is at another path."""
    text = text.encode() if isinstance(text, str) else text
    text = Text(path).read(text)
    read = read_changes([change.encode().decode("latin-1") for change in changes], draft_of(text.data()))
    data = patched(text.data(), read)
    new = edited(text, read, data, to)
    assert Text(to).read(new).data() == data
    return new


class InPlace(unittest.TestCase):
    def assert_edited(self, text, expected, *changes):
        self.assertEqual(with_changes(text, *changes).decode(), expected)

    def test_every_field(self):
        for change, old, new in EACH_FIELD:
            self.assert_edited(TEXT, TEXT.replace(old, new), change)
        for change, old, new in EACH_PATH_FIELD:
            self.assert_edited(LAKE_TEXT, LAKE_TEXT.replace(old, new), change)

    def test_paths_as_they_were_typed(self):
        text = LAKE_TEXT.replace("path J5D flow 200", "\tPATH  J5D FLOW  $(2 * 100)  ")
        text = text.replace("circulation 400", "circulation  0x190# MW")
        for old, new, change in (
            ("$(2 * 100)", "7", "flow of J5D 7"), ("-300", "7", "factor of J5D 7"), ("0x190", "7", "circulation 7"),
        ):
            self.assert_edited(text, text.replace(old, new), change)

    def test_several_of_a_line(self):
        line = 'head "A\\\\B" monitoring PJM seconds 300 prices 5000 2000'
        new = "head F monitoring NYISO seconds 5 prices 1 2"
        changes = ["Non-Monitoring price 2", "name of head F", "monitoring price 1", "seconds 5", "monitoring NYISO"]
        self.assert_edited(TEXT, TEXT.replace(line, new), *changes)

    def test_blanks_and_comments_stay(self):
        for line in (
            "\tpoint  P1 noncommon line  2 import  500   export 0# import 500",
            '  POINT "P1" 2 LINE Z2 IMPORT 0x1f4 EXPORT 0 # "',
            "point P1 non-common line 2 import $(5 * 100) export 0 # $(",
        ):
            text = TEXT.replace("point P1 noncommon line 2 import 500 export 0", line)
            for old, new, change in (
                ("500 ", "600 ", "import of P1 600"), ("0x1f4", "600", "import of P1 600"),
                ("$(5 * 100)", "600", "import of P1 600"), ("line  2", "proxy", "place of P1 proxy"),
                ("LINE Z2", "proxy", "place of P1 proxy"), ("line 2", "proxy", "place of P1 proxy"),
            ):
                if old in line:
                    self.assert_edited(text, text.replace(line, line.replace(old, new, 1)), change)

    def test_wheels_are_put_in_their_place(self):
        for tail, new, *changes in (
            ("0", "0 wheel-in 100", "wheel-in of P1 100"),
            ("0", "0 wheel-out 100", "wheel-out of P1 100"),
            ("0", "0 wheel-in 1 wheel-out 2", "wheel-out of P1 2", "wheel-in of P1 1"),
            ("0", "7 wheel-in 1 wheel-out 2", "wheel-in of P1 1", "export of P1 7", "wheel-out of P1 2"),
            ("0# export 0", "0 wheel-in 100# export 0", "wheel-in of P1 100"),
            ("$(1 - 1)  # $(", "$(1 - 1) wheel-out 100  # $(", "wheel-out of P1 100"),
            ("0  wheel-out 5 # out", "0 wheel-in 100  wheel-out 5 # out", "wheel-in of P1 100"),
            ("0  wheel-out 5 # out", "0 wheel-in 1  wheel-out 2 # out", "wheel-in of P1 1", "wheel-out of P1 2"),
            ("0 WHEEL-IN  5 # in", "0 WHEEL-IN  6 wheel-out 7 # in", "wheel-in of P1 6", "wheel-out of P1 7"),
            ("0 wheel-in 5 wheel-out 6", "0 wheel-in 0 wheel-out 6", "wheel-in of P1 0"),
            ("0", "0 wheel-in 0", "wheel-in of P1 0"),
        ):
            old, line = (f"point P1 noncommon line 2 import 500 export {words}" for words in (tail, new))
            text = TEXT.replace("point P1 noncommon line 2 import 500 export 0", old)
            self.assert_edited(text, text.replace(old, line), *changes)

    def test_ends_of_lines_and_marks_stay(self):
        for end in ("\r\n", "\r", "\n"):
            for last in (end, ""):
                text = TEXT.rstrip("\n").replace("\n", end).encode() + last.encode()
                new = with_changes(text, "import of P1 600", "factor of 1 point 2 5")
                expected = text.replace(b"import 500", b"import 600").replace(b"1 point 2 0", b"1 point 2 5")
                self.assertEqual(new, expected)
        marked = b"\xef\xbb\xbf" + TEXT.split("\n", 1)[1].encode()
        self.assertEqual(with_changes(marked, "seconds 5"), marked.replace(b"seconds 300", b"seconds 5"))

    def test_names_as_they_were_typed(self):
        self.assert_edited(TEXT, TEXT.replace("zone Z1", 'zone "Zürich"'), 'name of Z1 "Zürich"')

    def test_factors_of_a_line(self):
        text = MANY + FACTORS
        self.assert_edited(text, text.replace("1 2 3 #", "1 -2 3 #"), "factor of 0 unit 2 -2")
        self.assert_edited(text, text.replace("zone 4 5", "zone 8 9"), "factor of 0 zone 2 9", "factor of 0 zone 1 8")

    def test_a_line_in_a_repeat_that_is_taken_once(self):
        text = MANY + "due 0\n"
        self.assert_edited(text, text.replace("$(i * 10)", "7"), "import of P1 7")


class Behind(unittest.TestCase):
    def assert_behind(self, text, *lines, changes, **paths):
        new = with_changes(text, *changes, **paths).decode()
        self.assertEqual(new, text + "".join(line + "\n" for line in lines))

    def test_a_line_for_several_records(self):
        text = MANY + "due 0\n"
        self.assert_behind(text, "replace 5 unit U2 zone 1 output 5", changes=["output of U2 5"])
        self.assert_behind(
            text, "replace 4 unit U1 zone 1 output 5", "replace 12 factor 0 zone 2 -1",
            changes=["zone of U1 A", "factor of 0 zone 2 -1", "output of U1 5"],
        )

    def test_both(self):
        text = MANY + "due 0\n"
        new = with_changes(text, "load of A 5", "output of U2 5").decode()
        self.assertEqual(new, text.replace("load 100", "load 5") + "replace 5 unit U2 zone 1 output 5\n")

    def test_again(self):
        text = MANY + "due 0\n"
        once = with_changes(text, "output of U2 5").decode()
        self.assertEqual(with_changes(once, "output of U2 6").decode(), once.replace("output 5", "output 6"))
        self.assertEqual(with_changes(once, "zone of U2 B").decode(), once.replace("U2 zone 1", "U2 zone B"))

    def test_wheels(self):
        text = MANY.replace("repeat i 1 1", "repeat i 1 2") + "due 0\n"
        line = "replace 8 point P2 common line 2 import 20 export 0 wheel-in 100"
        self.assert_behind(text, line, changes=["wheel-in of P2 100"])
        self.assert_behind(text, line + " wheel-out 7", changes=["wheel-out of P2 7", "wheel-in of P2 100"])
        once = text + line + " # more\n"
        again = once.replace("100 #", "100 wheel-out 7 #")
        self.assertEqual(with_changes(once, "wheel-out of P2 7").decode(), again)

    def test_paths(self):
        text = TEXT + "repeat i 1 4\npath J$i flow 0 factor 0\nend\ncirculation 4\n"
        line = "replace 23 path J2 flow 5 factor -6"
        self.assert_behind(text, line, changes=["flow of J2 5", "factor of path J2 -6"])
        again = (text + line + "\n").replace("circulation 4", "circulation -1").replace("flow 5", "flow 9")
        self.assertEqual(with_changes(text + line + "\n", "circulation -1", "flow of J2 9").decode(), again)

    def test_included_texts(self):
        text = "include samples/sheet-s/sheet.txt # as it is\n"
        line = "replace 6 point P1 noncommon line 2 import 600 export 0"
        with tempfile.TemporaryDirectory() as folder:
            path = os.path.join(folder, "sheet.txt")
            self.assert_behind(text, line, changes=["import of P1 600"], path=path, to=path)

    def test_the_last_line_has_no_end(self):
        text = (MANY + "due 0").encode()
        self.assertEqual(with_changes(text, "output of U2 5"), text + b"\nreplace 5 unit U2 zone 1 output 5\n")
        text = text.replace(b"\n", b"\r\n")
        self.assertEqual(with_changes(text, "output of U2 5"), text + b"\r\nreplace 5 unit U2 zone 1 output 5\r\n")

    def test_a_zone_that_lines_below_name(self):
        text = MANY + "due 0\n"
        self.assert_behind(text, "replace 3 zone C load 200 losses 0", changes=["name of B C"])
        self.assert_behind(
            text, "replace 2 zone B load 100 losses 0", "replace 3 zone A load 200 losses 0",
            changes=["name of A B", "name of B A"],
        )

    def test_a_name_that_no_line_can_hold(self):
        changes = ['name of T1 "a\nb"']
        self.assert_behind(TEXT, 'replace 8 par "a\\x0ab" common actual 400 target 380', changes=changes)


class Told(unittest.TestCase):
    def assert_told(self, words, text, *changes, **paths):
        with self.assertRaises(Trouble) as caught:
            with_changes(text, *changes, **paths)
        self.assertIn(words, str(caught.exception))
        self.assertIn("makes bytes of the old one", str(caught.exception))

    def test_records_that_stand_together(self):
        zones = to_bytes("zone A load 100 losses 0\nzone B load 200 losses 0").hex()
        text = MANY.replace("zone A load 100 losses 0 # the first\nzone B", f"raw {zones}\n#")
        text = text.replace("line B", "line 2") + FACTORS
        self.assert_told("raw bytes in it are more or less than one record", text, "seconds 5")

    def test_a_text_that_includes_another_can_not_go_elsewhere(self):
        with tempfile.TemporaryDirectory() as folder:
            write(folder, sheet_txt="include rest.txt\n", rest_txt=TEXT)
            path = os.path.join(folder, "sheet.txt")
            with_changes("include rest.txt\n", "seconds 5", path=path, to=os.path.join(folder, "new.txt"))
            other = os.path.join(folder, "other", "sheet.txt")
            self.assert_told("rest.txt", "include rest.txt\n", "seconds 5", path=path, to=other)

    def test_other_bytes_than_those_written(self):
        text = Text(PATH).read(TEXT.encode())
        changes = read_changes(["seconds 5"], draft_of(text.data()))
        for data in (patched(text.data(), changes)[:-7], to_bytes(TEXT.replace("load 900", "load 901"))):
            with self.assertRaises(Trouble) as caught:
                edited(text, changes, data, PATH)
            self.assertIn("can't be written as text", str(caught.exception))


class Sample(unittest.TestCase):
    def test_there_and_back(self):
        there = with_changes(content("samples/sheet-s/sheet.txt"), "import of P1 600")
        self.assertEqual(with_changes(there, "import of P1 500"), content("samples/sheet-s/sheet.txt"))


if __name__ == "__main__":
    unittest.main()
