"""Drafts through the proved library, and tools/m2m set on them."""

import ctypes
import errno
import io
import os
import random
import shutil
import sys
import tempfile
import unittest
from contextlib import redirect_stderr
from unittest import mock

sys.path.insert(0, os.path.dirname(os.path.dirname(os.path.abspath(__file__))))

from common import LONGEST, ROOT, SAMPLE, content, draft_of, run, to_bytes, write  # noqa: E402
from m2mlib.cases import case_files, case_of  # noqa: E402
from m2mlib.library import LONGEST_SHEET, Draft, Library  # noqa: E402
from m2mlib.refusals import refusals  # noqa: E402
from m2mlib.trouble import Trouble  # noqa: E402
from m2mlib.verbs import call_verb  # noqa: E402
from test_changes import EACH_FIELD, EACH_PATH_FIELD, LAKE, LAKE_TEXT, TEXT  # noqa: E402
from test_fuzz import damaged  # noqa: E402

SHEET_S = content("crates/settle/data/sheet.bin")
library = Library()


def sheets():
    """The sheets of all case files."""
    for path in case_files([os.path.join(ROOT, "tests/cases")]):
        yield path, case_of(path, content(path)).intervals[0][0]


class Drafts(unittest.TestCase):
    def test_sheets_are_read_and_written_again(self):
        accepted = refused = 0
        for path, sheet in (("longest", to_bytes(LONGEST)), *sheets()):
            drafted, answer = library.read_draft(sheet), library.read(sheet, len(sheet))
            self.assertEqual(drafted.refusal, answer.refusal, path)
            expected = Draft() if drafted.refusal else draft_of(sheet)
            if (refused if drafted.refusal else accepted) % 16 == 0:
                self.assertEqual(fields(drafted.draft), fields(expected), path)
            if not drafted.refusal:
                self.assertEqual(library.write_draft(drafted.draft), (0, sheet), path)
            accepted, refused = accepted + (not drafted.refusal), refused + (drafted.refusal > 0)
        self.assertGreater(min(accepted, refused), 50)

    def test_every_buffer_around_the_sheet(self):
        for sheet in (SHEET_S, to_bytes(LONGEST)):
            draft = library.read_draft(sheet).draft
            for room in (0, 1, len(sheet) - 1):
                self.assertEqual(library.write_draft(draft, room), (27, b""))
            for room in (len(sheet), len(sheet) + 1):
                self.assertEqual(library.write_draft(draft, room), (0, sheet))
        self.assertEqual(len(sheet), LONGEST_SHEET)

    def test_the_buffer_is_as_before_but_for_the_sheet(self):
        draft = library.read_draft(SHEET_S).draft
        for seconds, room, front in ((300, 320, SHEET_S), (300, 308, b""), (901, 320, b"")):
            draft.head.seconds = seconds
            out = ctypes.create_string_buffer(b"\x5a" * 320, 320)
            library.draft_write(draft, out, room)
            self.assertEqual(out.raw, front.ljust(320, b"\x5a"))

    def test_the_examples_of_refusals(self):
        for example in refusals()[27].examples:
            case = case_of("REFUSALS.md", example.encode())
            (sheet, _), room = case.intervals[0], int(case.settings[0].removeprefix("buffer "))
            self.assertEqual((case.task, case.settings[1]), ("write", "expect refused 27"))
            self.assertEqual(library.write_draft(library.read_draft(sheet).draft, room), (27, b""))

    def test_refusals(self):
        for name, word, value, number in (
            ("zone_count", "", 33, 6), ("unit_count", "", 258, 6), ("par_count", "", 0, 10),
            ("factor_count", "", 12, 13), ("factor_count", "", 14, 10), ("unit_count", "", 0, 10),
            ("head", "seconds", 0, 9),
            ("head", "monitoring_rto", 3, 8), ("zones", "load", 2_000_001, 9), ("units", "zone", 3, 8),
            ("points", "sort", 0, 8), ("points", "import_", 200_001, 9), ("pars", "class_", 3, 8),
            ("points", "wheel_in", 200_001, 9), ("points", "wheel_out", 0xFFFF_FFFF, 9),
            ("pars", "actual", -200_001, 9), ("factors", "target", 1, 10), ("factors", "factor", 10_001, 11),
        ):
            draft = library.read_draft(SHEET_S).draft
            if word:
                record = getattr(draft, name)
                setattr(record if name == "head" else record[0], word, value)
            else:
                setattr(draft, name, value)
            self.assertEqual(library.write_draft(draft), (number, b""), (name, word))
            self.assertEqual(library.write_draft(draft, 0), (number, b""), (name, word))

    def test_refusals_of_paths(self):
        for paths, circulations, number in (
            (0, 1, 28), (1, 0, 28), (3, 1, 28), (4, 0, 28), (5, 1, 5), (4, 2, 5), (4, 1, 0),
        ):
            draft = library.read_draft(LAKE).draft
            draft.path_count, draft.circulation_count = paths, circulations
            self.assertEqual(library.write_draft(draft), (number, b"" if number else LAKE), (paths, circulations))
            self.assertEqual(library.write_draft(draft, 405), (number or 27, b""), (paths, circulations))
        draft.path_count = draft.circulation_count = 0
        self.assertEqual(library.write_draft(draft), (0, SHEET_S))
        for array, word, value, number in (
            ("paths", "flow", 200_001, 9), ("paths", "flow", -200_001, 9), ("paths", "factor", -10_001, 11),
            ("circulations", "flow", -200_001, 9), ("circulations", "flow", 200_001, 9), ("factors", "target", 1, 10),
        ):
            draft = library.read_draft(LAKE).draft
            setattr(getattr(draft, array)[0], word, value)
            draft.circulation_count = 1 if array == "circulations" else 0
            self.assertEqual(library.write_draft(draft, 0), (number, b""), (array, word))

    def test_records_too_many(self):
        for word, most in (("zone", 32), ("unit", 256), ("point", 32), ("par", 8), ("path", 4), ("circulation", 1)):
            draft = library.read_draft(to_bytes(LONGEST)).draft
            for count in (most + 1, most + 2, 1 << 62):
                setattr(draft, word + "_count", count)
                self.assertEqual(library.write_draft(draft), (5, b""), word)
        draft = library.read_draft(to_bytes(LONGEST)).draft
        draft.factor_count = 2889
        self.assertEqual(library.write_draft(draft), (10, b""))

    def test_lines_and_proxies(self):
        draft = library.read_draft(SHEET_S).draft
        for line, zone, answer in (
            (0, 255, (0, to_bytes(TEXT.replace("line 2", "proxy")))), (1, 0, (8, b"")), (1, 3, (8, b"")),
            (255, 1, (0, to_bytes(TEXT.replace("line 2", "line 1")))),
        ):
            draft.points[0].line, draft.points[0].zone = line, zone
            self.assertEqual(library.write_draft(draft), answer)


def fields(value):
    """All values of a structure, without what lies between them."""
    if isinstance(value, ctypes.Structure):
        return [fields(getattr(value, name)) for name, _ in value._fields_]
    return [fields(cell) for cell in value] if isinstance(value, ctypes.Array) else value


def called(*arguments):
    """The verb in this process, on the library that is loaded: its status and output."""
    output = io.BytesIO()
    with redirect_stderr(io.StringIO()), mock.patch("m2mlib.setting.Library", lambda: library):
        status = call_verb(["set", *arguments], output)
    return status, output.getvalue().decode()


class Command(unittest.TestCase):
    def setUp(self):
        self.folder = tempfile.mkdtemp()
        self.addCleanup(shutil.rmtree, self.folder)
        write(self.folder, sheet_txt=TEXT, sheet_bin=SHEET_S)
        self.text, self.data = (os.path.join(self.folder, name) for name in ("sheet.txt", "sheet.bin"))

    def inside(self, *names):
        return [os.path.join(self.folder, name) for name in names]

    def assert_set(self, new, *arguments, content_is):
        self.assertEqual(called(*arguments), (0, new + "\n"))
        self.assertEqual(content(new), content_is)

    def assert_nothing_new(self):
        self.assertEqual(sorted(os.listdir(self.folder)), ["sheet.bin", "sheet.txt"])
        self.assertEqual((content(self.text), content(self.data)), (TEXT.encode(), SHEET_S))

    def test_every_field_of_text_and_bytes(self):
        new_text, new_data = self.inside("sheet.new.txt", "sheet.new.bin")
        for change, old, new in EACH_FIELD:
            text = TEXT.replace(old, new)
            self.assert_set(new_text, self.text, change, content_is=text.encode())
            self.assert_set(new_data, self.data, change, content_is=to_bytes(text))
            self.assertEqual(fields(library.read_draft(content(new_data)).draft), fields(draft_of(to_bytes(text))))
            os.unlink(new_text)
            os.unlink(new_data)

    def test_every_field_of_paths(self):
        write(self.folder, lake_txt=LAKE_TEXT, lake_bin=LAKE)
        text, data, new_text, new_data = self.inside("lake.txt", "lake.bin", "lake.new.txt", "lake.new.bin")
        for change, old, new in EACH_PATH_FIELD:
            altered = LAKE_TEXT.replace(old, new)
            self.assert_set(new_text, text, change, content_is=altered.encode())
            self.assert_set(new_data, data, change, content_is=to_bytes(altered))
            os.unlink(new_text)
            os.unlink(new_data)
        for change, number, detail in (
            ("flow of J5D 200001", 9, "flow 200001 is not in -200000..200000"), ("name of J5D B3N", 7, "name repeated"),
            ("circulation -200001", 9, "circulation -200001 is not in"), ('name of J5D ""', 6, "it is empty"),
            ("factor of J5D 10001", 11, "factor 10001 is not in -10000..10000"),
        ):
            status, told = called(text, change)
            self.assertEqual((status, told.startswith(f"refused {number}: ")), (1, True), told)
            self.assertIn(detail, " ".join(told.split()))

    def test_a_sheet_without_its_circulation(self):
        write(self.folder, sheet_txt=LAKE_TEXT + "drop 26\n")
        status, told = called(self.text, "seconds 5")
        where = "refused 28: paths or circulation missing\nwhere:    byte 401 of the sheet: the end\n"
        self.assertEqual((status, told.startswith(where)), (1, True), told)

    def test_the_command_itself(self):
        outcome = run("set", self.text, "import of P1 600", 'name of T1 "Zürich"')
        self.assertEqual((outcome.returncode, outcome.stderr), (0, b""))
        new = TEXT.replace("import 500", "import 600").replace("par T1", 'par "Zürich"')
        self.assertEqual(outcome.stdout.decode(), self.inside("sheet.new.txt")[0] + "\n")
        self.assertEqual(content(self.folder, "sheet.new.txt").decode(), new)

    def test_there_and_back(self):
        there = ["seconds 9", "import of P1 1", "place of P1 proxy", 'name of T1 "\\x01"', "factor of 0 unit 1 1"]
        back = ["seconds 300", "import of P1 500", "place of P1 line 2", 'name of "\\x01" T1', "factor of 0 unit 1 3000"]
        for path, ending in ((self.text, "txt"), (self.data, "bin")):
            once, twice = self.inside(f"sheet.new.{ending}", f"sheet.new-2.{ending}")
            self.assertEqual(called(path, *there), (0, once + "\n"))
            self.assertNotEqual(content(once), content(path))
            self.assert_set(twice, once, *back, content_is=content(path))

    def test_wheels_there_and_back(self):
        there, back = (["wheel-in of P1 %d" % k, "wheel-out of P2 %d" % k] for k in (150, 0))
        once, twice = self.inside("sheet.new.txt", "sheet.new-2.txt")
        wheeled = TEXT.replace("export 0", "export 0 wheel-in 150").replace("export 200", "export 200 wheel-out 150")
        self.assert_set(once, self.text, *there, content_is=wheeled.encode())
        self.assert_set(twice, once, *back, content_is=wheeled.replace(" 150\n", " 0\n").encode())
        self.assertEqual(to_bytes(content(twice)), SHEET_S)
        once, twice = self.inside("sheet.new.bin", "sheet.new-2.bin")
        self.assert_set(once, self.data, *there, content_is=to_bytes(wheeled))
        self.assert_set(twice, once, *back, content_is=SHEET_S)

    def test_names_that_are_free(self):
        names = self.inside("sheet.new.bin", "sheet.new-2.bin", "sheet.new-3.bin")
        for new in names:
            self.assertEqual(called(self.data, "seconds 5"), (0, new + "\n"))
        self.assertEqual(called(names[2], "seconds 6"), (0, self.inside("sheet.new-4.bin")[0] + "\n"))
        with open(os.path.join(self.folder, "sheet"), "wb") as file:
            file.write(SHEET_S)
        self.assertEqual(called(*self.inside("sheet"), "seconds 5"), (0, self.inside("sheet.new")[0] + "\n"))

    def test_to_and_over(self):
        (other,) = self.inside("other.txt")
        five, six = (TEXT.replace("seconds 300", f"seconds {k}").encode() for k in (5, 6))
        self.assert_set(other, "--to", other, self.text, "seconds 5", content_is=five)
        with self.assertRaisesRegex(Trouble, "is there already; --over"):
            called("--to", other, self.text, "seconds 6")
        self.assertEqual(content(other), five)
        self.assert_set(other, "--over", "--to", other, self.text, "seconds 6", content_is=six)
        self.assertEqual(content(self.text), TEXT.encode())
        self.assert_set(self.text, self.text, "seconds 6", "--over", content_is=six)
        with self.assertRaisesRegex(Trouble, "is text"):
            called("--to", *self.inside("other.bin"), self.text, "seconds 6")
        self.assertEqual(sorted(os.listdir(self.folder)), ["other.txt", "sheet.bin", "sheet.txt"])

    def test_refusals_of_the_writer(self):
        for change, number, detail in (
            ('name of Z1 ""', 6, "it is empty"), ("name of Z2 Z1", 7, "name repeated"),
            ("monitoring 3", 8, "3 is none of"),
            ("zone of U1 3", 8, "there is no zone 3; the sheet has 2"), ("place of P1 line 3", 8, "there is no zone 3"),
            ("place of P1 line 0", 8, "a line into zone 0 is 8"), ("type of P1 0", 8, "0 is none of"),
            ("class of T1 9", 8, "9 is none of"), ("seconds 901", 9, "seconds 901 is not in 1..900"),
            ("monitoring price 400001", 9, "not in 0..400000"), ("losses of Z1 2000001", 9, "not in 0..2000000"),
            ("output of U1 2000001", 9, "not in 0..2000000"), ("export of P1 200001", 9, "not in 0..200000"),
            ("wheel-in of P1 200001", 9, "wheel in 200001 is not in 0..200000"),
            ("wheel-out of P2 0xffffffff", 9, "wheel out 4294967295 is not in 0..200000"),
            ("actual of T1 -200001", 9, "not in -200000..200000"),
            ("factor of 0 unit 1 10001", 11, "not in -10000..10000"),
        ):
            for path in (self.text, self.data):
                status, told = called(path, change)
                self.assertEqual(status, 1, change)
                self.assertTrue(told.startswith(f"refused {number}: {refusals()[number].title}\n"), told)
                self.assertIn(detail, " ".join(told.split()))
                self.assertIn("\nmend:     ", told)
        self.assert_nothing_new()

    def test_a_refused_sheet(self):
        write(self.folder, sheet_txt=TEXT.replace("seconds 300", "seconds 901"))
        status, told = called(self.text, "seconds 300")
        self.assertEqual(status, 1)
        where = "refused 9: number out of range\nwhere:    byte 0 of the sheet: head, A\\B\nline:     "
        self.assertTrue(told.startswith(where), told)
        self.assertIn(f"'m2m check {self.text}' tells every fault of it", " ".join(told.split()))
        status, told = called(os.path.join(SAMPLE, "entitle.txt"), "seconds 300")
        self.assertEqual((status, told.splitlines()[0]), (1, "refused 1: empty, or not a sheet"))
        self.assertEqual(sorted(os.listdir(self.folder)), ["sheet.bin", "sheet.txt"])

    def test_what_can_not_be_done(self):
        write(os.path.join(self.folder, "faulty"), sheet_txt="zone Z\n")
        shutil.move(os.path.join(self.folder, "faulty"), self.folder + ".faulty")
        self.addCleanup(shutil.rmtree, self.folder + ".faulty")
        for arguments, words in (
            ([self.text, "import of P9 5"], "there is no point P9"),
            ([self.text, "seconds 5", "seconds 6"], "same field"), (["--to", "", self.text, "seconds 5"], "No such"),
            ([self.folder, "seconds 5"], "directory"), ([self.folder + ".faulty/sheet.txt", "seconds 5"], "line 1"),
            (["--to", self.folder + "/no/sheet.txt", self.text, "seconds 5"], "No such file"),
            (["--over", "--to", self.folder, self.text, "seconds 5"], "no plain file"),
            (["--over", "--to", "/dev/full", self.text, "seconds 5"], "no plain file"),
        ):
            with self.assertRaisesRegex(Trouble, words):
                called(*arguments)
            self.assert_nothing_new()

    def test_writes_that_fail_leave_nothing(self):
        full = mock.Mock(side_effect=OSError(errno.ENOSPC, "No space left on device"))
        for arguments in ([], ["--over"], ["--to", *self.inside("other.txt")]):
            with mock.patch("os.fsync", full), self.assertRaisesRegex(Trouble, "No space left"):
                called(*arguments, self.text, "seconds 5")
            self.assert_nothing_new()

    def test_the_longest_sheet(self):
        write(self.folder, long_txt=LONGEST)
        (path, new) = self.inside("long.txt", "long.new.txt")
        line = b"replace 327 par T6 common actual 5 target 0\nreplace 3217 factor 8 point 32 -1\n"
        self.assert_set(new, path, "actual of T6 5", "factor of 8 point 32 -1", content_is=LONGEST + line)

    def test_damaged_changes(self):
        chance, sound = random.Random(14), [change.encode() for change, _, _ in EACH_FIELD]
        statuses = set()
        with mock.patch("m2mlib.setting.store", lambda *_: True):
            for _ in range(3000):
                said = damaged(chance.choice(sound), chance)
                try:
                    statuses.add(called(chance.choice((self.text, self.data)), os.fsdecode(said))[0])
                except Trouble as trouble:
                    self.assertTrue(str(trouble))
                    statuses.add(2)
        self.assertEqual(statuses, {0, 1, 2})


if __name__ == "__main__":
    unittest.main()
