"""Every fault of a text at once, each with its line."""

import os
import tempfile
import unittest

from common import content, run, write
from m2mlib.looks import faults_of

SOUND = """head F monitoring PJM seconds 300 prices 5000 2000
zone Z load 1000 losses 0
unit U zone 1 output 1000
due 0
"""
PATHS = """path J1 flow 0 factor 1
path J2 flow 0 factor 2
path J3 flow 0 factor 3
path J4 flow 0 factor 4
circulation 4
"""


class Faults(unittest.TestCase):
    def faults(self, text, name="sheet.txt"):
        with tempfile.TemporaryDirectory() as folder:
            write(folder, **{name: text})
            return faults_of(os.path.join(folder, name))[0]

    def assert_told(self, text, *expected, name="sheet.txt"):
        told = self.faults(text, name)
        self.assertEqual(len(told), len(expected), told)
        for line, start in zip(told, expected):
            self.assertTrue(line.startswith(start), f"{line}\nis not\n{start}")

    def test_sound_texts(self):
        self.assert_told(SOUND)
        self.assert_told(content("samples/sheet-s/sheet.txt"))
        self.assert_told(content("samples/lake/sheet.txt"))
        self.assert_told(content("samples/sheet-s/entitle.txt"), name="entitle.txt")
        self.assert_told("", name="entitle.txt")

    def test_all_at_once(self):
        self.assert_told(
            """head F monitoring PJM seconds 901 prices 5000 2000
zone Z load 1000 losses 0
zone Y load 1000,0 losses 0
unit U zone 1 output 600
unit U zone 3 output 400
unit V zone Y output 400
point P common line Q import 1 export 2000000
par T 3 actual 0 target 0
factors 0 unit 1 2 3
factors 0 zone 1 20000
""",
            "line 1: head, F: number out of range: seconds 901 is not in 1..900 (refusal 9)",
            "line 3: 1000,0 is no whole number",
            "line 5: unit 2, U: name repeated: line 4 has it already (refusal 7)",
            "line 5: unit 2, U: code not listed: there is no zone 3; the sheet has 2 (refusal 8)",
            "line 7: no zone Q stands above; there are Z, Y",
            "line 8: par 1, T: code not listed: class 3 is none of 1 common, 2 noncommon (refusal 8)",
            "line 10: factor 5: factor out of range: factor 20000 is not in -10000..10000 (refusal 11)",
            "the end: factors still due: the factor 0 point 1 is missing (refusal 13)",
            "the end: factors still due: the factor 0 par 1 is missing (refusal 13)",
            "the end: factors still due: the factor 1 unit 1 to 3 is missing (refusal 13)",
            "the end: factors still due: the factor 1 zone 1 to 2 is missing (refusal 13)",
            "the end: factors still due: the factor 1 point 1 is missing (refusal 13)",
        )

    def test_factors(self):
        before = SOUND.replace("due 0\n", "unit V zone 1 output 1\n")
        self.assert_told(
            before + "factor 0 zone 1 0\nfactor 0 unit 1 0\nfactor 0 unit 1 0\nfactor 1 unit 1 0",
            "line 5: factor 1: not the factor due: before it the factor 0 unit 2 is missing (refusal 10)",
            "line 6: factor 2: not the factor due: 0 unit 1 belongs before line 5 (refusal 10)",
            "line 7: factor 3: not the factor due: line 6 has the factor 0 unit 1 already (refusal 10)",
            "line 8: factor 4: not the factor due: no factor 1 unit 1 is due (refusal 10)",
        )

    def test_order_and_counts(self):
        self.assert_told("", "the end: empty, or not a sheet: there is no record (refusal 1)")
        self.assert_told(
            "zone Z load 1 losses 0",
            "line 1: zone 1, Z: empty, or not a sheet: the head must be the first record (refusal 1)",
            "the end: factors still due: the factor 0 zone 1 is missing (refusal 13)",
            "the end: no zone, or no unit: there is no unit (refusal 12)",
        )
        self.assert_told(
            SOUND + "zone Y load 1 losses 0\nhead G monitoring PJM seconds 1 prices 0 0\nfactor 0 zone 2 0",
            "line 5: zone 2, Y: out of order, or a second head: it stands behind a factor (refusal 4)",
            "line 6: head 2, G: out of order, or a second head: it stands behind a factor (refusal 4)",
        )
        pars = "repeat i 1 9\npar T$i common actual 0 target 0\nend\ndue 0"
        self.assert_told(
            SOUND.replace("due 0", pars), "line 5: par 9, T9: one too many: 8 are allowed (refusal 5)"
        )

    def test_paths(self):
        self.assert_told(SOUND + PATHS)
        faulty = PATHS.replace("J2 flow 0", "J1 flow 200_001").replace("factor 3", "factor -10001")
        self.assert_told(
            SOUND + faulty + "circulation x\n",
            "line 6: path 2, J1: name repeated: line 5 has it already (refusal 7)",
            "line 6: path 2, J1: number out of range: flow 200001 is not in -200000..200000 (refusal 9)",
            "line 7: path 3, J3: factor out of range: factor -10001 is not in -10000..10000 (refusal 11)",
            "line 10: circulation 2: one too many: 1 are allowed (refusal 5)",
            "line 10: x is no whole number: whole tenths of a MW are wanted",
        )
        more = 'path "" flow 0 factor 0\ncirculation -200_001'
        self.assert_told(
            SOUND + PATHS.replace("circulation 4", more) + "factor 0 unit 1 0\n",
            "line 9: path 5, \"\": one too many: 4 are allowed (refusal 5)",
            "line 9: path 5, \"\": not a name: it is empty (refusal 6)",
            "line 10: circulation: number out of range: circulation -200001 is not in -200000..200000 (refusal 9)",
            "line 11: factor 3: out of order, or a second head: it stands behind a circulation (refusal 4)",
            "line 11: factor 3: not the factor due: line 4 has the factor 0 unit 1 already (refusal 10)",
        )

    def test_paths_or_circulation_missing(self):
        first, second, third, fourth, circulation = PATHS.splitlines(True)
        fewer, none = "the sheet has %d of 4 paths (refusal 28)", "the sheet has 0 of 1 circulations (refusal 28)"
        for lines, *told in (
            (first, fewer % 1, none), (first + second, fewer % 2, none), (first + circulation, fewer % 1),
            (first + second + third + circulation, fewer % 3), (first + second + third, fewer % 3, none),
            (first + second + third + fourth, none), (circulation, fewer % 0),
        ):
            self.assert_told(SOUND + lines, *(f"the end: paths or circulation missing: {words}" for words in told))
        self.assert_told(
            SOUND.replace("due 0\n", "") + first + second + third + "circulation 4.0",
            "line 7: 4.0 is no whole number",
            "the end: factors still due: the factor 0 unit 1 is missing (refusal 13)",
            "the end: factors still due: the factor 0 zone 1 is missing (refusal 13)",
            "the end: paths or circulation missing: " + fewer % 3,
        )

    def test_factors_are_judged_beside_five_paths(self):
        self.assert_told(
            SOUND.replace("due 0\n", "factor 0 unit 1 0\n") + PATHS.replace("circ", "path J5 flow 0 factor 0\ncirc"),
            "line 9: path 5, J5: one too many: 4 are allowed (refusal 5)",
            "the end: factors still due: the factor 0 zone 1 is missing (refusal 13)",
        )

    def test_damaged_bytes(self):
        self.assert_told(SOUND + "raw 07", "line 5: path 1, of which 1 of 23 bytes are there: body cut short")
        self.assert_told(SOUND + "raw 08", "line 5: circulation, of which 1 of 5 bytes are there: body cut short")
        self.assert_told(SOUND + "raw 09", "line 5: a byte 0x09 where a record should begin: unknown kind")
        self.assert_told(SOUND + "cut 1", "line 4: factor 2, of which 6 of 7 bytes are there: body cut short")
        self.assert_told(
            SOUND.replace("zone Z", 'zone "Z\\x00A"'), 'line 2: zone 1, "Z\\x00A": not a name: a byte stands'
        )

    def test_lists(self):
        self.assert_told(
            'entitlement F 100\nentitlement F 100001\nentitlement "" 0\nraw 01',
            "line 2: entitlement 2, F: a fault in the list: line 1 has it already (refusal 14)",
            "line 2: entitlement 2, F: a fault in the list: entitlement 100001 is not in",
            'line 3: entitlement 3, "": a fault in the list: it is empty (refusal 14)',
            "line 4: a byte 0x01 where a record should begin: a fault in the list",
            name="entitle.txt",
        )

    def test_bytes_have_places(self):
        data = content("crates/settle/data/sheet.bin")
        twice = data[:53] + data[28:53] + data[78:]
        self.assert_told(twice, "byte 53: zone 2, Z1: name repeated: byte 28 has it", name="sheet.bin")

    def test_status(self):
        with tempfile.TemporaryDirectory() as folder:
            write(folder, sheet_txt=SOUND, entitle_txt="entitlement F 100\n")
            sound = run("check", folder)
            self.assertEqual((sound.returncode, sound.stderr), (0, b""))
            self.assertIn(b"sheet.txt: no fault in 5 records\n", sound.stdout)
            write(folder, sheet_txt=SOUND + "due\n")
            self.assertEqual(run("check", os.path.join(folder, "sheet.txt")).returncode, 1)
            self.assertEqual(run("check", os.path.join(folder, "none.txt")).returncode, 2)


if __name__ == "__main__":
    unittest.main()
