"""tools/m2m explain and the program explain, on the library: python3 -m unittest discover tools/tests/settling"""

import io
import os
import random
import shutil
import subprocess
import sys
import tempfile
import unittest
from collections import Counter
from contextlib import redirect_stderr
from unittest import mock

sys.path.insert(0, os.path.dirname(os.path.dirname(os.path.abspath(__file__))))

from common import ROOT, SAMPLE, content, run, to_bytes, write  # noqa: E402
from m2mlib.explain import Explained  # noqa: E402
from m2mlib.inputs import Input  # noqa: E402
from m2mlib.library import REASONS, Library  # noqa: E402
from m2mlib.records import BY_NUMBER, SHEET, split  # noqa: E402
from m2mlib.refusals import refusals  # noqa: E402
from m2mlib.settle import settled  # noqa: E402
from m2mlib.verbs import call_verb  # noqa: E402
from test_settle import LAKE, LIST_S, SHEET_S, TWICE, cases, damaged, examples, place_of  # noqa: E402

PROGRAM = os.path.join(ROOT, "target", "bin", "explain")
KINDS = ("unknown", "head", "zone", "unit", "scheduling point", "PAR", "factor", "path", "circulation")
HEAD = "head F monitoring PJM seconds 300 prices 5000 2000\n"
LIST_F = "entitlement F 100\n"
# What is refused in the examples of REFUSALS, and the line that it comes from.
RECORDS = {
    1: [("A byte 0x10 where a record should begin", "entitlement F 100")],
    2: [("A byte 0x00 where a record should begin", "raw 00")],
    3: [("Factor 2, of which 6 of 7 bytes are there,", "due 0")],
    4: [("Zone 2, Z2,", "zone Z2 load 500 losses 0")],
    5: [("Par 9, T9,", "par T$i common actual 0 target 0"), ("Circulation 2", "circulation 400")],
    6: [('Unit 1, "",', 'unit "" zone 1 output 1000'), ('Zone 1, "Z\\x00A",', 'zone "Z\\x00A" load 1000 losses 0')],
    7: [("Unit 2, U,", "unit U zone 1 output 400")],
    8: [("Point 1, P,", "point P noncommon line 3 import 0 export 0")],
    9: [
        ("Head, F,", "head F monitoring PJM seconds 901 prices 5000 2000"),
        ("Point 1, P,", "raw 04 50000000000000000000000000000000 01 00 00000000 00000000"),
    ],
    10: [("Factor 1", "factor 0 zone 1 0")],
    11: [("Factor 1", "factor 0 unit 1 10001")],
}
OTHERS = {
    **dict.fromkeys((12, 13, 28), "sheet's end"), **dict.fromkeys((14, 15), "entitlement list"),
    **dict.fromkeys(range(16, 22), "balance"), 22: "flow",
}
library = Library()


def called(*arguments):
    """The verb in this process, on the library that is loaded: its status, output, and what it tells."""
    output, told = io.BytesIO(), io.StringIO()
    with redirect_stderr(told), mock.patch("m2mlib.explain.Library", lambda: library):
        status = call_verb(["explain", *arguments], output)
    return status, output.getvalue().decode(), told.getvalue()


def part_of(refusal, sheet):
    """The part that a refusal means, by the place that the reader tells."""
    place = place_of(sheet)
    if not sheet or refusal not in range(1, 12):
        return len(sheet), len(sheet)
    return place, place + 1 if refusal < 3 else min(place + BY_NUMBER[sheet[place]].length, len(sheet))


def printed_of(sheet, answer):
    """The lines that the program prints of an answer."""
    if not answer.refusal:
        return ["accepted", f"reason the flow paid on is {REASONS[answer.reason]} the entitlement"]
    data = sheet[answer.from_ : answer.to]
    lines = [f"refused {answer.refusal}", f"meaning {refusals()[answer.refusal].met}"]
    lines += [f"from {answer.from_}", f"to {answer.to}"]
    if data:
        before = Counter(record[0] for record in split(sheet[: answer.from_], SHEET))
        lines += [f"kind {data[0]} {KINDS[data[0] if data[0] in SHEET else 0]}", f"record {before[data[0]] + 1}"]
        if data[0] in SHEET and BY_NUMBER[data[0]].named and len(data) >= 17:
            lines.append("name " + data[1:17].partition(b"\0")[0].hex())
        lines.append("bytes " + data.hex())
    return lines


def printed(*intervals):
    """What the program prints of each sheet with its list."""
    with tempfile.TemporaryDirectory() as folder:
        for sheet, entitlements in intervals:
            write(folder, sheet_bin=sheet, entitle_bin=entitlements)
            outcome = subprocess.run([PROGRAM], cwd=folder, capture_output=True, text=True, check=True)
            assert outcome.stderr == "", outcome.stderr
            yield outcome.stdout


class Answers(unittest.TestCase):
    def assert_explained(self, sheet, entitlements, of):
        statement, _ = library.settle(sheet, entitlements)
        answer = library.explain(sheet, entitlements)
        part = part_of(statement.refusal, sheet)
        self.assertEqual((answer.refusal, answer.from_, answer.to), (statement.refusal, *part), of)
        difference = statement.settled - statement.entitlement
        reason = "above" if difference > 0 else "below" if difference else "at"
        self.assertEqual(REASONS.get(answer.reason), None if statement.refusal else reason, of)
        told = Explained(1).row(settled("x", Input("", sheet), Input("", entitlements), library)).decode()
        said = f"is refused by row {statement.refusal}: " if statement.refusal else f", is {reason} the entitlement, so "
        self.assertIn(said, " ".join(told.split()), of)

    def test_all_cases(self):
        for path, sheet, entitlements, _ in cases():
            self.assert_explained(sheet, entitlements, path)

    def test_cut_sheets(self):
        for length in range(len(LAKE) + 1):
            self.assert_explained(LAKE[:length], LIST_S, length)

    def test_damaged_sheets(self):
        chance = random.Random(7)
        for _ in range(3000):
            sheet = damaged(chance.choice((SHEET_S, LAKE)), SHEET, chance)
            self.assert_explained(sheet, LIST_S, sheet.hex())


class Program(unittest.TestCase):
    def test_the_lines(self):
        self.assertTrue(os.path.exists(PROGRAM), "'tools/build explain' makes the program")
        intervals = [interval[1:3] for interval in (*cases(), *examples())]
        intervals += [(LAKE[:length], LIST_S) for length in range(len(LAKE))]
        for (sheet, entitlements), output in zip(intervals, printed(*intervals)):
            lines = printed_of(sheet, library.explain(sheet, entitlements))
            self.assertEqual(output, "".join(line + "\n" for line in lines), sheet.hex())

    def test_the_examples_of_the_documents(self):
        sheet = to_bytes(content("samples/refused/sheet.txt"))
        sample, no_list, accepted = printed((sheet, LIST_S), (SHEET_S, b""), (SHEET_S, LIST_S))
        self.assertEqual(sample, content("samples/refused/explained.txt").decode())
        for output in (sample, no_list, accepted):
            self.assertIn(f"```text\n{output}```", content("docs/FORMAT.md").decode())

    def test_the_example_of_the_man_page(self):
        text = HEAD + "zone Z load 1 losses 0\nunit U zone 1 output 1\npoint P1 common proxy import 200001 export 0\n"
        page = content("docs/explain.1").decode().replace("\\(aq", "'").replace("\\-", "-")
        refused, accepted = (part.split(".fi")[0] for part in page.split(".nf\n")[1:3])
        outputs = printed((to_bytes(text), b""), (SHEET_S, LIST_S))
        for shown, output in zip((refused, accepted), outputs):
            self.assertEqual(len(shown.splitlines()), len(output.splitlines()))
            for line, words in zip(shown.splitlines(), output.splitlines()):
                self.assertTrue(line == words or line.startswith(words + "  "), line)


class Command(unittest.TestCase):
    def setUp(self):
        self.folder = tempfile.mkdtemp()
        self.addCleanup(shutil.rmtree, self.folder)

    def inside(self, name, **files):
        return write(os.path.join(self.folder, name), **files)

    def told(self, sheet, entitlements=LIST_F, status=1):
        """What is told of a sheet and a list, texts or bytes: its lines."""
        files = zip(("sheet", "entitle"), (sheet, entitlements))
        files = {f"{name}_{'bin' if isinstance(data, bytes) else 'txt'}": data for name, data in files}
        folder = self.inside(str(len(os.listdir(self.folder))), **files)
        found, output, told = called(folder)
        self.assertEqual((found, told), (status, ""))
        return output.replace(folder + "/", "").splitlines()

    def test_the_sample(self):
        outcome = run("explain", "samples/refused", cwd=ROOT)
        self.assertEqual((outcome.returncode, outcome.stderr), (1, b""))
        self.assertEqual(outcome.stdout, content("samples/refused/sentence.txt"))

    def test_the_examples_of_refusals(self):
        for number in (*range(1, 23), 28):
            expected = RECORDS.get(number) or [(f"The {OTHERS[number]}", None)] * len(refusals()[number].examples)
            self.assertEqual(len(refusals()[number].examples), len(expected), number)
            for example, (subject, words) in zip(refusals()[number].examples, expected):
                sheet, entitlements = example.split("\nsheet\n")[1].split("\nexpect ")[0].split("\nentitlements\n")
                lines = self.told(sheet, entitlements)
                said = f"{subject} is refused by row {number}: {refusals()[number].title}."
                self.assertTrue(" ".join(lines[:2]).startswith(said), lines)
                texts = [line.strip() for line in sheet.splitlines()]
                number_of = {text: k for k, text in enumerate(texts, 1)}
                where = f"line: sheet.txt line {number_of[words]}: {words} meaning:" if words else "blame. "
                self.assertIn(where, " ".join(" ".join(lines).split()))
                self.assertEqual(any(line.startswith("line:") for line in lines), words is not None, number)

    def test_bytes_without_a_text(self):
        lines = self.told(TWICE, LIST_S)
        self.assertEqual(lines[:4], [
            "Unit 2, U1, is refused by row 7: name repeated.",
            "where:    22 bytes of the sheet, from byte 100 to before byte 122",
            "bytes:    " + TWICE[100:122].hex(),
            "reads:    unit U1 zone 2 output 2000",
        ])
        self.assertEqual(lines[-1], "'m2m check sheet.bin' tells every fault of it")

    def test_names(self):
        for name, words in (
            ('"Zürich"', "Zürich"), (r'"\xff\x01"', r'"\xff\x01"'), (r'"A\"B"', 'A"B'), (r'"A\\B"', "A\\B"),
            ('" "', '" "'),
        ):
            text = HEAD + f"zone {name} load 1 losses 0\n" * 2
            lines = self.told(text)
            self.assertEqual(lines[0], f"Zone 2, {words}, is refused by row 7: name repeated.")
            self.assertEqual(lines[3], f"line:     sheet.txt line 3: zone {name} load 1 losses 0")
        lines = self.told(HEAD + 'zone "\\x00Z" load 1 losses 0\n')
        self.assertEqual(lines[0], 'Zone 1, "\\x00Z", is refused by row 6: not a name.')

    def test_a_record_of_a_repeat(self):
        text = HEAD + "zone Z load 9 losses 0\nrepeat i 1 3\n  unit U$i zone $i output 1\nend\ndue 0\n"
        lines = self.told(text)
        self.assertEqual(lines[0], "Unit 2, U2, is refused by row 8: code not listed.")
        self.assertEqual(lines[3:5], [
            "reads:    unit U2 zone 2 output 1", "line:     sheet.txt line 4: unit U$i zone $i output 1",
        ])

    def test_a_record_of_an_include(self):
        parts = self.inside("parts", units_txt="# two\nunit U zone 1 output 1\nunit V zone 2 output 1\n")
        path = os.path.join(os.path.realpath(parts), "units.txt")
        lines = self.told(HEAD + f'zone Z load 9 losses 0\ninclude "{path}"\ndue 0\n')
        self.assertEqual(lines[0], "Unit 2, V, is refused by row 8: code not listed.")
        self.assertIn(f"line: {path} line 3: unit V zone 2 output 1", " ".join(" ".join(lines).split()))

    def test_accepted(self):
        sheet = content("samples/sheet-s/sheet.txt").decode()
        flow = HEAD + "include tests/parts/plain.txt\n"
        for text, entitlements, where, price in (
            (sheet, 'entitlement "A\\\\B" 131\n', "above", "the Monitoring price is taken, 50.00 $/MWh"),
            (sheet, 'entitlement "A\\\\B" 132\n', "below", "the Non-Monitoring price is taken, 20.00 $/MWh"),
            (flow, "entitlement F 0\n", "at", "no price is taken"),
            (flow.replace("5000", "0"), "entitlement F -1\n", "above", "the Monitoring price is taken, 0.00 $/MWh"),
        ):
            said = f"The flow paid on, the market flow, is {where} the entitlement, so {price}."
            self.assertTrue(" ".join(self.told(text, entitlements, 0)).startswith(said), where)

    def test_paths(self):
        paths = "repeat i 1 3\npath J$i flow 0 factor 0\nend\ncirculation 0\n"
        for flow, factor, which in (
            (400, 250, "the market flow"), (-400, 1000, "the entitlement"),
            (-400, 250, "the adjusted flow, market flow and impact"),
        ):
            text = f"include samples/sheet-s/sheet.txt\npath J flow {flow} factor {factor}\n" + paths
            lines = self.told(text, LIST_S, 0)
            where = "at" if which == "the entitlement" else "above"
            said = f"The flow paid on, the settlement flow, is {where} the entitlement"
            self.assertTrue(lines[0].startswith(said), lines)
            told = [line for line in lines if line.startswith("settled ")]
            self.assertTrue(told[0].endswith("settlement flow: " + which), lines)

    def test_no_list(self):
        folder = self.inside("a", sheet_bin=SHEET_S)
        status, output, told = called(folder)
        said = f"m2m: {folder}: no entitle.txt or entitle.bin in it; the list counts as empty\n"
        self.assertEqual((status, told), (1, said))
        self.assertTrue(output.startswith("The entitlement list is refused by row 15: no entitlement."), output)

    def test_several(self):
        one, other = self.inside("1", sheet_bin=SHEET_S), self.inside("2", sheet_bin=TWICE)
        sheets = [os.path.join(folder, "sheet.bin") for folder in (one, other)]
        entitlements = os.path.join(SAMPLE, "entitle.txt")
        for arguments, names in (([self.folder], (one, other)), (sheets, sheets)):
            status, output, _ = called("--list", entitlements, *arguments)
            first, second = output.split("\n\n")
            self.assertEqual(status, 1)
            self.assertTrue(first.startswith(f"==> {names[0]} <==\nThe flow paid on, the market flow, is above"), first)
            self.assertTrue(second.startswith(f"==> {names[1]} <==\nUnit 2, U1, is refused by row 7"), second)
        status, output, _ = called(sheets[0], entitlements)
        self.assertEqual((status, output + "\n"), (0, first.partition("\n")[2] + "\n\n"))

    def test_what_could_not_be_explained(self):
        self.inside("1", sheet_txt="zone Z\n", entitle_txt="")
        self.inside("2", sheet_bin=SHEET_S, entitle_bin=LIST_S)
        status, output, told = called(self.folder)
        self.assertEqual(status, 2)
        self.assertIn("The flow paid on", output)
        self.assertIn("1/sheet.txt line 1: 'load' is missing", told)


if __name__ == "__main__":
    unittest.main()
