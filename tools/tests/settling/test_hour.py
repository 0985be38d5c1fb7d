"""tools/m2m hour through the proved library, and the program hour beside it."""

import io
import json
import os
import shutil
import subprocess
import sys
import tempfile
import unittest
from contextlib import redirect_stderr
from unittest import mock

sys.path.insert(0, os.path.dirname(os.path.dirname(os.path.abspath(__file__))))

from common import ROOT, SAMPLE, content, run, to_bytes, write  # noqa: E402
from m2mlib.cases import case_files, case_of  # noqa: E402
from m2mlib.library import HOUR_FIGURES, INTERVALS, Library  # noqa: E402
from m2mlib.outputs import LABELS  # noqa: E402
from m2mlib.refusals import refusals  # noqa: E402
from m2mlib.verbs import call_verb  # noqa: E402

PROGRAM = os.path.join(ROOT, "target", "bin", "hour")
SHEET_S = content("crates/settle/data/sheet.bin")
LIST_S = content("crates/settle/data/entitle.bin")
OTHER_RTO = SHEET_S[:17] + b"\1" + SHEET_S[18:]
AMOUNT = 1328125
ONE = b"amount 1328125\nseconds 300\namount 1328125\nNYISO -1328125\nPJM 1328125\n"
library = Library()


def cases():
    """The hours of tests/hours, and those of REFUSALS with the refusal that each shows."""
    for path in case_files([os.path.join(ROOT, "tests/hours")]):
        yield path, case_of(path, content(path))
    for number in (24, 25, 26):
        for example in refusals()[number].examples:
            case = case_of("REFUSALS.md", example.encode())
            assert f"expect refused {number}" in case.settings, number
            yield f"example of {number}", case


def lines_of(hour):
    totals = library.hour_totals(hour)
    return [f"{LABELS.get(f.name, f.name)} {getattr(totals, f.name)}" for f in HOUR_FIGURES]


class Answers(unittest.TestCase):
    def grown(self, path, intervals):
        """The answers of an hour that is given these, and the hour. Each answer is checked against settling alone."""
        hour, answers = library.hour_open(), []
        for sheet, entitlements in intervals:
            changed = library.add(hour, sheet, entitlements)
            alone, _ = library.settle(sheet, entitlements)
            if changed.refusal:
                self.assertIn(changed.refusal, {alone.refusal} if alone.refusal else {24, 25, 26}, path)
                self.assertEqual(fields(changed.hour), fields(hour), path)
            else:
                self.assertEqual(alone.refusal, 0, path)
                amounts, seconds, count, _, _ = fields(hour)
                amounts[count], seconds[count] = alone.amount, int.from_bytes(sheet[18:20], "big")
                now = amounts, seconds, count + 1, bytes(alone.name), sheet[17]
                self.assertEqual(fields(changed.hour), now, path)
            hour = changed.hour
            answers.append(f"refused {changed.refusal}" if changed.refusal else f"amount {alone.amount}")
        return answers, hour

    def test_all_cases(self):
        for path, case in cases():
            self.assertTrue(case.hour, path)
            answers, hour = self.grown(path, case.intervals)
            last = "".join(answers[-1:])
            expected = [setting.removeprefix("expect ") for setting in case.settings]
            if "accepted" in expected:
                expected.remove("accepted")
                self.assertTrue(last.startswith("amount "), path)
            self.assertLessEqual(set(expected), {last, *lines_of(hour)}, path)

    def test_an_hour_opens_empty(self):
        zeros = [0] * INTERVALS
        self.assertEqual(fields(library.hour_open()), (zeros, zeros, 0, bytes(16), 0))

    def test_the_program_prints_the_same(self):
        self.assertTrue(os.path.exists(PROGRAM), "'tools/build hour' makes the program")
        for path, case in cases():
            lists = {entitlements for _, entitlements in case.intervals}
            if len(lists) < 2:
                answers, hour = self.grown(path, case.intervals)
                lines = printed(lists.pop() if lists else b"", case.intervals)
                self.assertEqual(lines, answers + lines_of(hour), path)

    def test_the_example_of_the_documents(self):
        lines = printed(LIST_S, [(sheet, LIST_S) for sheet in (SHEET_S, OTHER_RTO, SHEET_S)])
        self.assertIn("```text\n" + "\n".join(lines) + "\n```\n", content("docs/FORMAT.md").decode())
        shown = content("docs/hour.1").decode().replace("\\-", "-").split(".nf\n")[1].split(".fi")[0]
        self.assertEqual([" ".join(line.split()[:2]) for line in shown.splitlines()], lines)


def printed(entitlements, intervals):
    """The lines that the program prints."""
    with tempfile.TemporaryDirectory() as folder:
        files = {f"{k}_bin": sheet for k, (sheet, _) in enumerate(intervals)}
        write(folder, list_bin=entitlements, **files)
        names = ["list.bin", *(name.replace("_", ".") for name in files)]
        outcome = subprocess.run([PROGRAM, *names], cwd=folder, capture_output=True, text=True, check=True)
        assert outcome.stderr == "", outcome.stderr
        return outcome.stdout.splitlines()


def called(*arguments):
    """The verb in this process, on the library that is loaded: its status, output, and what it tells."""
    output, told = io.BytesIO(), io.StringIO()
    with redirect_stderr(told), mock.patch("m2mlib.hour.Library", lambda: library):
        status = call_verb(["hour", *arguments], output)
    return status, output.getvalue(), told.getvalue()


def fields(hour):
    return list(hour.amounts), list(hour.seconds), hour.count, bytes(hour.name), hour.monitoring_rto


class Command(unittest.TestCase):
    def setUp(self):
        self.folder = tempfile.mkdtemp()
        self.addCleanup(shutil.rmtree, self.folder)

    def inside(self, name, **files):
        return write(os.path.join(self.folder, name), **files)

    def three(self):
        """Sheet S, the same under another Monitoring RTO, and sheet S again."""
        for name, sheet in (("1", SHEET_S), ("2", OTHER_RTO), ("3", SHEET_S)):
            self.inside(name, sheet_bin=sheet, entitle_bin=LIST_S)
        return [os.path.join(self.folder, name) for name in ("1", "2", "3")]

    def assert_added(self, *arguments, output, status=0, told=""):
        outcome = called(*arguments)
        self.assertEqual(outcome[:2], (status, output), outcome[2])
        self.assertIn(told, outcome[2])
        self.assertEqual(bool(told), bool(outcome[2]))

    def test_one_interval(self):
        text = [os.path.join(SAMPLE, name) for name in ("sheet.txt", "entitle.txt")]
        for arguments in ([SAMPLE], text, ["--list", text[1], text[0]]):
            self.assert_added(*arguments, output=ONE)

    def test_the_sample(self):
        for options, page in ([], "lines.txt"), (["--words"], "words.txt"):
            outcome = run("hour", *options, "samples/hour-s", cwd=ROOT)
            self.assertEqual((outcome.returncode, outcome.stderr), (1, b""))
            self.assertEqual(outcome.stdout, content("samples/hour-s", page))

    def test_in_the_order_named(self):
        first, second, _ = self.three()
        for folders, nyiso in (([first, second], -AMOUNT), ([second, first], AMOUNT)):
            heads = [f"==> {name} <==" for name in (*folders, "the hour")]
            lines = [heads[0], f"amount {AMOUNT}", "", heads[1], "refused 26", "", heads[2], "seconds 300"]
            lines += [f"amount {AMOUNT}", f"NYISO {nyiso}", f"PJM {-nyiso}", ""]
            self.assert_added(*folders, output="\n".join(lines).encode(), status=1)

    def test_status(self):
        one, two, three = self.three()
        self.assertEqual(called(one, three)[0], 0)
        self.assertEqual(called(one, two, three)[0], 1)

    def test_what_could_not_be_added(self):
        one, two, _ = self.three()
        write(two, sheet_txt="zone Z\n")
        os.remove(os.path.join(two, "sheet.bin"))
        output = f"==> {one} <==\namount 1328125\n\n==> the hour <==\n".encode() + ONE.split(b"\n", 1)[1]
        self.assert_added(one, two, output=output, status=2, told="sheet.txt line 1: 'load' is missing")
        missing = self.inside("4", sheet_bin=SHEET_S)
        empty = b"refused 15\nseconds 0\namount 0\nNYISO 0\nPJM 0\n"
        self.assert_added(missing, output=empty, status=1, told="the list counts as empty")

    def test_json(self):
        status, output, _ = called("--json", *self.three())
        told = json.loads(output)
        self.assertEqual((status, len(output.splitlines())), (1, 6))
        answers = [(row["refusal"], row["seconds"], row["amount_thousandths_of_a_cent"]) for row in told["intervals"]]
        self.assertEqual(answers, [(0, 300, AMOUNT), (26, None, None), (0, 300, AMOUNT)])
        self.assertEqual(told["intervals"][1]["reason"], refusals()[26].title)
        hour = told["hour"]
        self.assertEqual((hour["count"], hour["seconds"], hour["PJM_thousandths_of_a_cent"]), (2, 600, 2 * AMOUNT))
        self.assertEqual((hour["flowgate"], hour["flowgate_hex"], hour["monitoring_RTO"]), ("A\\B", "415c42", "PJM"))

    def test_an_empty_hour(self):
        folder = self.inside("a", sheet_txt="", entitle_txt="")
        told = json.loads(called("--json", folder)[1])
        self.assertEqual([row["refusal"] for row in told["intervals"]], [1])
        hour = told["hour"]
        self.assertEqual((hour["count"], hour["flowgate"], hour["monitoring_RTO"], hour["seconds"]), (0, None, None, 0))
        words = called("--words", folder)[1].decode()
        self.assertIn("refused 1: empty, or not a sheet\n", words)
        self.assertNotIn("flowgate  ", words)
        self.assertIn("PJM pays nothing\n", words)

    def test_words_of_every_refusal(self):
        entries = 'entitlement F 1\nentitlement "A\\\\B" 100\n'
        second = to_bytes("head F monitoring PJM seconds 1 prices 1 1\ninclude tests/parts/plain.txt")
        sheets = {"second": second, "s": SHEET_S, "other": OTHER_RTO}
        folders = {name: self.inside(name, sheet_bin=sheet, entitle_txt=entries) for name, sheet in sheets.items()}
        for number, names in ((24, ["second"] * 61), (25, ["s"] * 13), (26, ["s", "other"])):
            told = called("--words", *(folders[name] for name in names))[1].decode()
            self.assertIn(f"refused {number}: {refusals()[number].title}\nmeaning:  ", told)
            self.assertIn("\nmend:     ", told)

    def test_output_that_fails(self):
        with open("/dev/full", "wb") as full:
            outcome = run("hour", SAMPLE, capture_output=False, stdout=full, stderr=subprocess.PIPE)
        self.assertEqual((outcome.returncode, b"Traceback" in outcome.stderr), (2, False))
        self.assertIn(b"No space left", outcome.stderr)


if __name__ == "__main__":
    unittest.main()
