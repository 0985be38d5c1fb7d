"""What m2m explain says of explanations that the library may give; the library itself is not asked."""

import unittest

from common import content, to_bytes
from m2mlib.explain import Explained
from m2mlib.inputs import Input
from m2mlib.library import Explanation, Statement
from m2mlib.refusals import refusals
from m2mlib.settle import Result
from m2mlib.text import Text

HEAD = "head F monitoring PJM seconds 300 prices 5000 2000\n"
TEXT = HEAD + "zone Z load 1 losses 0\nunit U zone 1 output 1 # so much\npoint P common proxy import 1 export 0\n"
LIST = Input("l.txt", b"")


def sheet_of(text):
    read = Text("s.txt").read(text.encode() if isinstance(text, str) else text)
    return Input("s.txt", read.data(), read)


def told(refusal, start, end, sheet, statement=None, reason=0):
    """The lines that are printed of an interval."""
    statement = statement or Statement(refusal=refusal)
    result = Result("x", sheet, LIST, statement, b"", Explanation(refusal, reason, start, end))
    return Explained(1).row(result).decode().splitlines()


class Refused(unittest.TestCase):
    def test_a_record_of_a_text(self):
        lines = told(9, 53, 75, sheet_of(TEXT))
        self.assertEqual(lines[:4], [
            "Unit 1, U, is refused by row 9: number out of range.",
            "where:    22 bytes of the sheet, from byte 53 to before byte 75",
            "bytes:    03550000000000000000000000000000000100000001",
            "line:     s.txt line 3: unit U zone 1 output 1 # so much",
        ])
        self.assertTrue(lines[4].startswith("meaning:  A number field of the head"), lines)
        self.assertTrue(any(line.startswith("mend:     check the unit (tenths of a MW") for line in lines), lines)
        self.assertEqual(lines[-1], "'m2m check s.txt' tells every fault of it")

    def test_a_record_of_bytes(self):
        lines = told(9, 53, 75, Input("s.bin", to_bytes(TEXT)))
        self.assertEqual(lines[3], "reads:    unit U zone 1 output 1")
        self.assertFalse(any(line.startswith("line:") for line in lines), lines)

    def test_a_kind_byte_alone(self):
        lines = told(2, 53, 54, sheet_of(HEAD + "zone Z load 1 losses 0\nraw 09 01\n"))
        self.assertEqual(lines[:4], [
            "A byte 0x09 where a record should begin is refused by row 2: unknown kind.",
            "where:    1 byte of the sheet, from byte 53 to before byte 54",
            "bytes:    09",
            "line:     s.txt line 3: raw 09 01",
        ])
        lines = told(1, 0, 1, sheet_of("zone Z load 1 losses 0\n"))
        self.assertEqual(lines[0], "Zone 1, Z, is refused by row 1: empty, or not a sheet.")
        self.assertEqual(lines[2:4], ["bytes:    02", "line:     s.txt line 1: zone Z load 1 losses 0"])

    def test_what_is_left_of_a_record(self):
        for length, name, left in ((74, " U,", "035500"), (70, " U,", "035500"), (69, "", "035500"), (54, "", "03")):
            lines = told(3, 53, length, sheet_of(TEXT + f"cut {110 - length}\n"))
            words = f"Unit 1,{name} of which {length - 53} of 22 bytes are there, is refused by row 3: body cut short."
            self.assertEqual(lines[0], words)
            self.assertTrue(lines[2].startswith(f"bytes:    {left}"), lines)
            self.assertTrue(lines[3].startswith("line:     s.txt line 3: unit U"), lines)

    def test_what_the_bytes_read_is_told_where_the_line_does_not_say_it(self):
        for line, is_told in (
            ('zone "Z\xe4" load 0x1_0 LOSSES 0', False), (r'zone "Z\xe4" load 16 losses 0', False),
            (f"raw {to_bytes(HEAD + 'zone Z load 1 losses 0')[28:].hex()}", True),
            ("zone Z load $(8 + 8) losses 0", True), ("zone Z load 1 losses 0\npatch 48 02", True),
            ("zone Y load 1 losses 0\nreplace 2 zone Z load 1 losses 0", True),
        ):
            lines = told(9, 28, 53, sheet_of((HEAD + line).encode("latin-1")))
            self.assertEqual(any(line.startswith("reads:") for line in lines), is_told, lines)

    def test_a_record_in_the_middle_of_a_line(self):
        data = to_bytes(TEXT)
        lines = told(9, 53, 75, sheet_of(f"raw {data[:28].hex()}\nraw {data[28:].hex()}\n"))
        self.assertEqual(lines[3], "reads:    unit U zone 1 output 1")
        self.assertIn("line:     s.txt line 2: raw ", lines[4])

    def test_lines_that_stand_for_several_records(self):
        text = HEAD + "repeat i 1 3\nzone Z$i load 1 losses 0\nend\nunit U zone 1 output 1\ndue 0\n"
        lines = told(9, 53, 78, sheet_of(text))
        self.assertEqual(lines[0], "Zone 2, Z2, is refused by row 9: number out of range.")
        self.assertEqual(lines[3], "reads:    zone Z2 load 1 losses 0")
        self.assertEqual(lines[4], "line:     s.txt line 3: zone Z$i load 1 losses 0")
        lines = told(11, 132, 139, sheet_of(text))
        self.assertEqual(lines[0], "Factor 2 is refused by row 11: factor out of range.")
        self.assertEqual(lines[3:5], ["reads:    factor 0 zone 1 0", "line:     s.txt line 6: due 0"])

    def test_names(self):
        for name, words in (
            (b"Z\xc3\xbcrich", "Zürich"), (b"\xff\x01", r'"\xff\x01"'), (b"", '""'), (b"\0A", r'"\x00A"'),
            (b'A"B', 'A"B'), (b" ", '" "'), (b"\x1b[31m", r'"\x1b[31m"'), (b"x" * 16, "x" * 16),
        ):
            data = to_bytes(HEAD) + b"\2" + name.ljust(16, b"\0") + bytes(8)
            lines = told(6, 28, 53, Input("s.bin", data))
            self.assertEqual(lines[0], f"Zone 1, {words}, is refused by row 6: not a name.")

    def test_a_line_is_shown_without_control_bytes(self):
        line = 'zone "Zürich \x85\xa0" load 1 losses 0'
        lines = told(6, 28, 53, sheet_of((HEAD + line).encode()))
        self.assertIn('line:     s.txt line 2: zone "Zürich ', "\n".join(lines))
        self.assertNotIn("\x85", "".join(lines))

    def test_no_record_is_to_blame(self):
        sheet, end = sheet_of(TEXT), 110
        for numbers, what in (
            ((12, 13, 28), "sheet's end"), ((14, 15), "entitlement list"), (range(16, 22), "balance"), ((22,), "flow"),
        ):
            for number in numbers:
                lines = told(number, end, end, sheet)
                said = " ".join(lines[:2])
                words = f"The {what} is refused by row {number}: {refusals()[number].title}."
                self.assertTrue(said.startswith(words + " No single record of the sheet is to blame."), lines)
                self.assertEqual("where:    byte 110, the sheet's end" in lines, what == "sheet's end")
                self.assertFalse(any(line.startswith(("bytes:", "line:", "reads:")) for line in lines), lines)
        self.assertEqual(told(14, end, end, sheet)[-1], "'m2m check l.txt' tells every fault of it")

    def test_an_empty_sheet(self):
        lines = told(1, 0, 0, Input("s.bin", b""))
        self.assertTrue(lines[0].startswith("The sheet, which is empty, is refused by row 1: empty, or not a sheet."))
        self.assertIn("where:    byte 0, the sheet's end", lines)


class Accepted(unittest.TestCase):
    def told(self, reason, **figures):
        figures = {"settled": figures.get("market", 0), **figures}
        return told(0, 110, 110, sheet_of(TEXT), Statement(**figures), reason)

    def test_above(self):
        lines = self.told(1, market=13187500, entitlement=10000000, price=5000)
        said = "The flow paid on, the market flow, is above the entitlement, so the Monitoring price is taken,"
        self.assertEqual(lines[0], said + " 50.00 $/MWh.")
        self.assertEqual([line.split()[0] for line in lines[1:]], ["market", "entitlement", "difference", "price"])
        self.assertEqual(lines[3].split(maxsplit=5)[1:5], ["3.187500", "MW", "3187500", "W"])
        self.assertTrue(lines[4].endswith("price taken: the Monitoring price"), lines)

    def test_below_at_a_price_of_zero(self):
        lines = self.told(2, market=-1, entitlement=0, price=0)
        said = "The flow paid on, the market flow, is below the entitlement, so the Non-Monitoring price is taken,"
        self.assertEqual(lines[0], said + " 0.00 $/MWh.")
        self.assertIn("-0.000001 MW   -1 W", lines[3])

    def test_at(self):
        lines = self.told(3, market=5, entitlement=5)
        self.assertEqual(lines[0], "The flow paid on, the market flow, is at the entitlement, so no price is taken.")
        self.assertIn("0.000000 MW   0 W", lines[3])

    def test_paths(self):
        for settled, words in (
            (12807500, "the adjusted flow, market flow and impact"), (13187500, "the market flow"),
            (10000000, "the entitlement"),
        ):
            lines = self.told(1, has_paths=1, market=13187500, settled=settled, entitlement=10000000, price=5000)
            self.assertTrue(lines[0].startswith("The flow paid on, the settlement flow, is above the entitlement"))
            self.assertTrue(lines[1].startswith("settled ") and lines[1].endswith("settlement flow: " + words), lines)
            self.assertIn(f" {settled - 10000000} W ", lines[3])


class Samples(unittest.TestCase):
    def test_formats_example_is_the_sample(self):
        sample = content("samples/refused/explained.txt").decode()
        self.assertIn(f"```text\n{sample}```", content("docs/FORMAT.md").decode())

    def test_the_sample_is_sheet_s_but_for_the_zone(self):
        sheet, sound = (to_bytes(content("samples", name, "sheet.txt")) for name in ("refused", "sheet-s"))
        self.assertEqual([(at, sheet[at]) for at in range(len(sound)) if sheet[at] != sound[at]], [(117, 3)])
        self.assertEqual(len(sheet), len(sound))


if __name__ == "__main__":
    unittest.main()
