"""tools/m2m settle through the proved library: python3 -m unittest discover tools/tests/settling"""

import csv
import io
import json
import os
import pty
import random
import shutil
import subprocess
import sys
import tempfile
import time
import unittest

sys.path.insert(0, os.path.dirname(os.path.dirname(os.path.abspath(__file__))))

from common import LONGEST, ROOT, SAMPLE, content, run, to_bytes, write  # noqa: E402
from m2mlib.cases import case_files, case_of  # noqa: E402
from m2mlib.faults import faults  # noqa: E402
from m2mlib.library import Library  # noqa: E402
from m2mlib.outputs import listed  # noqa: E402
from m2mlib.records import BY_NUMBER, LIST, SHEET, split  # noqa: E402
from m2mlib.refusals import refusals  # noqa: E402

LISTING = content("samples/sheet-s/listing.txt")
SHEET_S = content("crates/settle/data/sheet.bin")
LIST_S = content("crates/settle/data/entitle.bin")
TWICE = to_bytes("include samples/sheet-s/sheet.txt\nreplace 5 unit U1 zone 2 output 2000")
LAKE = to_bytes(content("samples/lake/sheet.txt"))
library = Library()


def cases():
    """Sheet, list and settings of all case files."""
    for path in case_files([os.path.join(ROOT, "tests/cases")]):
        yield path, *interval_of(case_of(path, content(path)))


def examples():
    """Number, sheet, list and settings of the examples of REFUSALS, those of hours and of writing left out."""
    for number, refusal in refusals().items():
        for example in refusal.examples:
            case = case_of("REFUSALS.md", example.encode())
            if not case.task:
                yield number, *interval_of(case)


def place_of(sheet):
    """Where the reader refuses a sheet, or None."""
    answer = library.read(sheet, len(sheet))
    return answer.place if answer.refusal else None


def interval_of(case):
    (interval,) = case.intervals
    return *interval, case.settings


class Answers(unittest.TestCase):
    def assert_met(self, path, sheet, entitlements, settings):
        if any(setting.startswith("buffer") for setting in settings):
            return
        statement, listing = library.settle(sheet, entitlements)
        place = place_of(sheet)
        for setting in settings:
            word, _, rest = setting.removeprefix("expect ").partition(" ")
            if word == "refused":
                self.assertEqual(listing, f"refused {rest}\n".encode(), path)
            elif word == "accepted":
                self.assertEqual(statement.refusal, 0, path)
            elif word == "place":
                self.assertEqual(place or 0, int(rest), path)
            elif setting.startswith("expect "):
                self.assertIn(f"{word} {rest}", listing.decode().splitlines(), path)

    def test_all_cases(self):
        for case in cases():
            self.assert_met(*case)

    def test_the_examples_of_refusals(self):
        for number, sheet, entitlements, settings in examples():
            self.assertIn(f"expect refused {number}", settings)
            self.assert_met(f"example of {number}", sheet, entitlements, settings)

    def test_statement_and_listing_agree(self):
        for path, sheet, entitlements, _ in cases():
            statement, listing = library.settle(sheet, entitlements)
            if statement.refusal == 0:
                figures = [int(word) for line in listing.decode().splitlines()[1:] for word in line.split()[1:]]
                self.assertEqual([getattr(statement, figure.name) for figure in listed(statement)], figures, path)
                paths = library.read(sheet, len(sheet)).paths
                self.assertEqual((statement.has_paths, b"\nsettled " in listing), (paths > 0, paths > 0), path)
                if not paths:
                    self.assertEqual(statement.settled, statement.market, path)

    def test_faults_are_told_exactly_where_the_reader_refuses(self):
        chance = random.Random(4)
        for path, sheet, _, _ in cases():
            self.assertEqual(bool(faults(sheet, SHEET)), place_of(sheet) is not None, path)
        for _ in range(3000):
            sheet = damaged(chance.choice((SHEET_S, LAKE)), SHEET, chance)
            self.assertEqual(bool(faults(sheet, SHEET)), place_of(sheet) is not None, sheet.hex())

    def test_faults_of_a_list_are_told_exactly_where_row_14_is_met(self):
        chance = random.Random(5)
        for path, _, entitlements, _ in cases():
            self.assertEqual(bool(faults(entitlements, LIST)), self.meets_14(entitlements), path)
        sound = to_bytes("entitlement F 1\ninclude samples/sheet-s/entitle.txt\nentitlement G -100000")
        for _ in range(3000):
            entitlements = damaged(sound, LIST, chance)
            told = bool(faults(entitlements, LIST))
            self.assertEqual(told, self.meets_14(entitlements), entitlements.hex())

    def meets_14(self, entitlements):
        return library.settle(SHEET_S, entitlements)[0].refusal == 14


def damaged(data, kinds, chance):
    """A sheet or list with a field, a byte or a record changed."""
    records = list(split(data, kinds))
    k = chance.randrange(len(records))
    kind = BY_NUMBER[records[k][0]]
    field = chance.randrange(len(kind.fields))
    at, size = kind.offsets[field], kind.fields[field].size
    change = chance.randrange(4)
    if change == 0:
        value = chance.choice((0, 1, 2, 3, 900, 10_000, 100_000, 100_001, 200_000, 2_000_000))
        value = chance.choice((value, -value)) % (1 << 8 * size)
        records[k] = records[k][:at] + value.to_bytes(size, "big") + records[k][at + size :]
    elif change == 1:
        records[k] = records[chance.randrange(len(records))]
    elif change == 2:
        del records[k]
    else:
        return data[: chance.randrange(len(data))] + chance.randbytes(chance.randrange(3)) + data[at:]
    return b"".join(records)


class Command(unittest.TestCase):
    def setUp(self):
        self.folder = tempfile.mkdtemp()
        self.addCleanup(shutil.rmtree, self.folder)

    def inside(self, name, **files):
        return write(os.path.join(self.folder, name), **files)

    def assert_settled(self, *arguments, output=LISTING, status=0):
        outcome = run("settle", *arguments)
        self.assertEqual((outcome.returncode, outcome.stdout), (status, output), outcome.stderr)
        return outcome

    def test_sheet_s_from_text_and_bytes(self):
        text = [os.path.join(SAMPLE, name) for name in ("sheet.txt", "entitle.txt")]
        data = [os.path.join(ROOT, "crates/settle/data", name) for name in ("sheet.bin", "entitle.bin")]
        for arguments in ([SAMPLE], text, data, [text[0], data[1]], [os.path.dirname(data[0])],
                          ["--list", text[1], data[0]]):
            self.assertEqual(self.assert_settled(*arguments).stderr, b"")

    def test_the_sample_with_wheels(self):
        folder = os.path.join(ROOT, "samples", "wheels")
        self.assertEqual(self.assert_settled(folder, output=content(folder, "listing.txt")).stderr, b"")

    def test_the_sample_with_paths(self):
        folder = os.path.join(ROOT, "samples", "lake")
        self.assertEqual(self.assert_settled(folder, output=content(folder, "listing.txt")).stderr, b"")
        self.assert_settled("--words", folder, output=content(folder, "words.txt"))

    def test_words_of_the_settlement_flow(self):
        for number, (flow, factor, words) in enumerate((
            (0, 0, "the market flow"), (400, 250, "the market flow"), (-400, 1000, "the entitlement"),
            (-400, 250, "the adjusted flow, market flow and impact"),
        )):
            text = f"include samples/sheet-s/sheet.txt\npath J flow {flow} factor {factor}\n"
            text += "repeat i 1 3\npath J$i flow 0 factor 0\nend\ncirculation 0\n"
            folder = self.inside(str(number), sheet_txt=text, entitle_bin=LIST_S)
            lines = run("settle", "--words", folder).stdout.decode().splitlines()
            self.assertTrue(lines[7].startswith("settled "), lines)
            self.assertTrue(lines[7].endswith("settlement flow: " + words), lines)
        text = "head F monitoring PJM seconds 300 prices 5000 2000\ninclude tests/parts/plain.txt\n"
        text += "repeat i 1 4\npath J$i flow 1 factor 1\nend\ncirculation 0\n"
        both = self.inside("both", sheet_txt=text, entitle_txt="entitlement F 0\n")
        told = run("settle", "--words", both).stdout.decode()
        self.assertIn("settlement flow: the market flow and the entitlement\n", told)
        self.assertNotIn(b"settle", run("settle", "--words", SAMPLE).stdout)

    def test_words_of_28(self):
        folder = self.inside("a", sheet_txt=content("samples/lake/sheet.txt") + b"drop 26\n", entitle_bin=LIST_S)
        told = run("settle", "--words", folder).stdout.decode()
        where = "refused 28: paths or circulation missing\nwhere:    byte 401 of the sheet: the end\n"
        self.assertTrue(told.startswith(where), told)
        self.assertIn("tells every fault of it", " ".join(told.split()))

    def test_bytes_are_told_by_content(self):
        folder = self.inside("a", sheet=SHEET_S, list=LIST_S)
        self.assert_settled(os.path.join(folder, "sheet"), os.path.join(folder, "list"))
        folder = self.inside("b", sheet_bin=b"zone Z load 1 losses 1\n", entitle_bin=b"")
        self.assert_settled(folder, output=b"refused 1\n", status=1)

    def test_several_folders(self):
        self.inside("day/1", sheet_bin=SHEET_S, entitle_bin=LIST_S)
        self.inside("day/2", sheet_bin=SHEET_S, entitle_bin=b"")
        heads = [f"==> {self.folder}/day/{k} <==\n".encode() for k in (1, 2)]
        both = heads[0] + LISTING + b"\n" + heads[1] + b"refused 15\n"
        self.assert_settled(os.path.join(self.folder, "day"), output=both, status=1)

    def test_a_missing_list_is_told(self):
        outcome = self.assert_settled(self.inside("a", sheet_bin=SHEET_S), output=b"refused 15\n", status=1)
        self.assertIn(b"the list counts as empty", outcome.stderr)

    def test_what_could_not_be_settled(self):
        self.inside("1", sheet_txt="zone Z\n", entitle_txt="")
        self.inside("2", sheet_bin=SHEET_S, entitle_bin=LIST_S)
        outcome = run("settle", self.folder)
        self.assertEqual(outcome.returncode, 2)
        self.assertTrue(outcome.stdout.endswith(LISTING))
        self.assertIn(b"1/sheet.txt line 1: 'load' is missing", outcome.stderr)
        both = self.inside("3", sheet_bin=SHEET_S, sheet_txt="head F monitoring PJM seconds 1 prices 0 0")
        self.assertIn(b"say different things", run("settle", both).stderr)
        empty = self.inside("4")
        self.assertEqual(run("settle", empty).returncode, 2)

    def test_words(self):
        told = self.assert_settled("--words", SAMPLE, output=content("samples/sheet-s/words.txt"))
        self.assertEqual(told.stderr, b"")

    def test_words_of_a_refusal(self):
        folder = self.inside("a", sheet_txt=content("samples/sheet-s/sheet.txt").replace(b"U2", b"U1"))
        outcome = run("settle", "--words", folder)
        lines = outcome.stdout.decode().splitlines()
        self.assertEqual(lines[0], "refused 7: name repeated")
        self.assertEqual(lines[1], "where:    byte 100 of the sheet: unit 2, U1")
        self.assertIn("sheet.txt line 6: unit U1 zone 2 output 2000", lines[2])
        self.assertTrue(any(line.startswith("mend:     rename the later record") for line in lines))

    def test_words_of_every_refusal(self):
        for number, sheet, entitlements, _ in examples():
            self.inside(f"{number:02}", sheet_bin=sheet, entitle_bin=entitlements)
        told = run("settle", "--words", self.folder).stdout.decode()
        for number in (*range(1, 23), 28):
            self.assertIn(f"refused {number}: {refusals()[number].title}\n", told)

    def test_names_that_are_no_text(self):
        for k, (name, shown) in enumerate((
            ("Zürich".encode(), "Zürich"), (b"\xff\x01", '"\\xff\\x01"'), (b"\x1b[31m", '"\\x1b[31m"'),
            (b" ", '" "'),
        )):
            name = name.ljust(16, b"\0")
            folder = self.inside(str(k), sheet_bin=SHEET_S[:1] + name + SHEET_S[17:],
                                 entitle_bin=LIST_S[:1] + name + LIST_S[17:])
            first = run("settle", "--words", folder).stdout.decode().splitlines()[0]
            self.assertTrue(first.startswith(f"flowgate     {shown}  (bytes "), first)

    def test_rows(self):
        self.inside("1", sheet_bin=SHEET_S, entitle_bin=LIST_S)
        self.inside("2", sheet_bin=TWICE, entitle_bin=LIST_S)
        self.inside("3", sheet_bin=LAKE, entitle_bin=LIST_S)
        outcome = run("settle", "--json", self.folder)
        rows = json.loads(outcome.stdout)
        self.assertEqual((outcome.returncode, len(rows)), (1, 3))
        told = [(row["has_paths"], row["market_W"], row["settled_W"]) for row in rows]
        self.assertEqual(told, [(0, 13187500, 13187500), (None, None, None), (1, 13187500, 12807500)])
        self.assertEqual(rows[0]["flowgate"], "A\\B")
        self.assertEqual((rows[0]["market_W"], rows[0]["NYISO_thousandths_of_a_cent"]), (13187500, -1328125))
        self.assertEqual((rows[1]["refusal"], rows[1]["place"], rows[1]["record"]), (7, 100, "unit 2, U1"))
        self.assertIsNone(rows[1]["market_W"])
        table = csv.DictReader(io.StringIO(run("settle", "--csv", self.folder).stdout.decode()))
        texts = [{key: "" if value is None else str(value) for key, value in row.items()} for row in rows]
        self.assertEqual(list(table), texts)

    def test_output_that_fails(self):
        with open("/dev/full", "wb") as full:
            outcome = run("settle", SAMPLE, capture_output=False, stdout=full, stderr=subprocess.PIPE)
        self.assertEqual((outcome.returncode, b"Traceback" in outcome.stderr), (2, False))
        self.assertIn(b"No space left", outcome.stderr)

    def test_progress_only_on_a_terminal(self):
        for k in range(3):
            self.inside(str(k), sheet_bin=SHEET_S, entitle_bin=LIST_S)
        self.assertEqual(run("settle", self.folder).stderr, b"")
        ours, theirs = pty.openpty()
        outcome = run("settle", self.folder, capture_output=False, stdout=subprocess.PIPE, stderr=theirs)
        os.close(theirs)
        self.assertEqual(outcome.returncode, 0)
        self.assertIn(b"3 of 3 settled", os.read(ours, 4096))
        os.close(ours)

    def test_ten_thousand_sheets(self):
        for k in range(100):
            write(os.path.join(self.folder, "all", f"{k:03}"), sheet_bin=SHEET_S, entitle_bin=LIST_S)
        folders = [os.path.join(self.folder, "all")] * 100
        began = time.monotonic()
        outcome = run("settle", "--csv", *folders)
        self.assertEqual((outcome.returncode, outcome.stdout.count(b"\n")), (0, 10_001))
        self.assertLess(time.monotonic() - began, 60)

    def test_the_longest_sheet(self):
        folder = self.inside("a", sheet_txt=LONGEST, entitle_txt="repeat i 1 2500\nentitlement F$i 0\nend\nreplace 1 entitlement F 1")
        self.assertEqual(run("settle", folder).returncode, 0)


if __name__ == "__main__":
    unittest.main()
