"""Text to bytes: each record, what shortens a text, what damages it, and what is refused with its line."""

import os
import tempfile
import unittest

from common import LONGEST, SAMPLE, content, to_bytes, write
from m2mlib.cases import case_lines
from m2mlib.trouble import Fault, Trouble

ZONES = "zone A load 1 losses 1\nzone B load 2 losses 2\n"


class Records(unittest.TestCase):
    def test_each_record(self):
        for text, digits in (
            (
                'head "A\\\\B" monitoring PJM seconds 300 prices 5000 2000',
                "01 415c4200000000000000000000000000 02 012c 00001388 000007d0",
            ),
            ("zone Z1 load 900 losses 100", "02 5a310000000000000000000000000000 00000384 00000064"),
            ("unit U1 zone 1 output 1200", "03 55310000000000000000000000000000 01 000004b0"),
            (
                "point P1 noncommon line 2 import 500 export 0",
                "04 50310000000000000000000000000000 02 02 000001f4 00000000 00000000 00000000",
            ),
            (
                "point P2 common proxy import 300 export 200",
                "04 50320000000000000000000000000000 01 00 0000012c 000000c8 00000000 00000000",
            ),
            (
                "point P3 common proxy import 1 export 2 wheel-in 200000 wheel-out 4",
                "04 50330000000000000000000000000000 01 00 00000001 00000002 00030d40 00000004",
            ),
            (
                "par T1 common actual -1 target 380",
                "05 54310000000000000000000000000000 01 ffffffff 0000017c",
            ),
            ("factor 8 point 32 -10000", "06 08 03 0020 d8f0"),
            ("path J5D flow 200000 factor -300", "07 4a354400000000000000000000000000 00030d40 fed4"),
            ("path L51D flow -1 factor 10000", "07 4c353144000000000000000000000000 ffffffff 2710"),
            ("circulation -200000", "08 fffcf2c0"),
            ('entitlement "\\x01\\xff\\"" -100', "10 01ff2200000000000000000000000000 ffffff9c"),
        ):
            self.assertEqual(to_bytes(text), bytes.fromhex(digits))

    def test_sheet_s(self):
        for text, data in (("sheet.txt", "sheet.bin"), ("entitle.txt", "entitle.bin")):
            self.assertEqual(
                to_bytes(content("samples/sheet-s", text)), content("crates/settle/data", data)
            )

    def test_unusual_codes_and_numbers(self):
        text = "head F monitoring 9 seconds 0xffff prices 4_294_967_295 0"
        self.assertEqual(to_bytes(text)[17:20], b"\x09\xff\xff")
        self.assertEqual(to_bytes("factor 255 7 65535 32767")[1:3], b"\xff\x07")
        self.assertEqual(to_bytes('zone "" load 0 losses 0')[1:17], bytes(16))

    def test_codes_and_words_in_any_case(self):
        head = "head F monitoring PJM seconds 1 prices 1 1\n"
        plain = to_bytes(head + "point P noncommon proxy import 1 export 1")
        other = "HEAD F Monitoring pjm Seconds 1 PRICES 1 1\nPoint P Non-Common Proxy import 1 export 1"
        self.assertEqual(to_bytes(other), plain)
        self.assertEqual(to_bytes("par T Common actual 0 target 0")[17], 1)
        self.assertNotEqual(to_bytes("zone z load 0 losses 0"), to_bytes("zone Z load 0 losses 0"))

    def test_wheels_that_are_left_out_are_0(self):
        line = "point P common proxy import 1 export 2"
        for words, wheels in (
            ("", "00000000 00000000"), (" wheel-in 3", "00000003 00000000"), (" wheel-out 4", "00000000 00000004"),
            (" wheel-in 3 wheel-out 4", "00000003 00000004"), (" WHEEL-IN 0 Wheel-Out 0x4", "00000000 00000004"),
        ):
            self.assertEqual(to_bytes(line + words)[27:], bytes.fromhex(wheels), words)
            self.assertEqual(to_bytes(line + words)[:27], to_bytes(line)[:27], words)
        self.assertEqual(to_bytes('point wheel-in 1 line 1 import 1 export 2 # wheel-in 3')[27:], bytes(8))

    def test_the_sample_with_paths(self):
        data, sheet_s = to_bytes(content("samples/lake/sheet.txt")), content("crates/settle/data/sheet.bin")
        self.assertEqual((len(data), data[:309]), (406, sheet_s))
        self.assertEqual([data[at] for at in (309, 332, 355, 378, 401)], [7, 7, 7, 7, 8])

    def test_paths_make_no_factor_due(self):
        paths = "path J flow 0 factor 0\ncirculation 0\n"
        self.assertEqual(to_bytes(ZONES + paths + "due 0")[50 + 28 :], to_bytes(ZONES + "due 0")[50:])

    def test_zones_by_name(self):
        for line in ("unit U zone B output 1", 'unit U zone "B" output 1', "unit U zone 2 output 1"):
            self.assertEqual(to_bytes(ZONES + line)[50:], to_bytes("unit U zone 2 output 1"))
        by_name = to_bytes(ZONES + "point P common line B import 0 export 0")
        self.assertEqual(by_name[50:], to_bytes("point P common line 2 import 0 export 0"))
        self.assertEqual(to_bytes('zone "2" load 0 losses 0\nunit U zone "2" output 0')[25 + 17], 1)

    def test_names(self):
        self.assertEqual(to_bytes('zone "A$i#" load 0 losses 0')[1:5], b"A$i#")
        self.assertEqual(to_bytes('zone "Zürich" load 0 losses 0')[1:8], "Zürich".encode())
        self.assertEqual(to_bytes('zone "a b" load 0 losses 0')[1:4], b"a b")
        self.assertEqual(to_bytes("zone ABCDEFGHIJKLMNOP load 0 losses 0")[1:17], b"ABCDEFGHIJKLMNOP")

    def test_ends_of_lines_and_marks(self):
        lines = ["zone A load 1 losses 1", "zone B load 2 losses 2"]
        for end in ("\n", "\r\n", "\r"):
            self.assertEqual(to_bytes(end.join(lines)), to_bytes(ZONES))
        self.assertEqual(to_bytes(b"\xef\xbb\xbf" + ZONES.encode()), to_bytes(ZONES))

    def test_comments_behind_words(self):
        text = ZONES + 'due 1 # " $( end\nrepeat i 1 2# x\nraw 0$i#y\nend#z'
        self.assertEqual(to_bytes(text)[50:], bytes.fromhex("06000200010001060002000200010102"))


class Shortened(unittest.TestCase):
    def test_the_longest_sheet_in_a_few_lines(self):
        self.assertEqual(len(to_bytes(LONGEST)), 28_101)

    def test_a_full_list(self):
        self.assertEqual(len(to_bytes("repeat k 1 2500\nentitlement F$k $(k - 1)\nend")), 2500 * 21)

    def test_repeats(self):
        text = "repeat i 1 2\nrepeat j $i 2\nraw 0$(i)0$j\nend\nend"
        self.assertEqual(to_bytes(text), bytes.fromhex("010101020202"))
        self.assertEqual(to_bytes("repeat i 1 $( 1 + 1 )\nraw 0$i\nend"), b"\x01\x02")
        self.assertEqual(to_bytes("repeat i 2 1\nraw 0$i\nend"), b"")

    def test_expressions(self):
        for expression, value in (
            ("((((1))))", 1), ("2 + 3 * 4", 14), ("-(2 - 3)", 1), ("7 // 2 % 2", 1), ("0x10", 16),
            ("- - 2", 2), ("((1 + 2) * (3 + (4 - 5)))", 6),
        ):
            self.assertEqual(to_bytes(f"factor 0 0 0 $({expression})")[5:], value.to_bytes(2, "big"))

    def test_include(self):
        sheet = content("samples/sheet-s/sheet.txt")
        self.assertEqual(to_bytes("include samples/sheet-s/sheet.txt"), to_bytes(sheet))
        beside = to_bytes("include entitle.txt", path=os.path.join(SAMPLE, "other.txt"))
        self.assertEqual(beside, content("crates/settle/data/entitle.bin"))

    def test_include_in_a_repeat_knows_the_variables(self):
        with tempfile.TemporaryDirectory() as folder:
            write(folder, part_txt="raw 0$i\n")
            text = "repeat i 1 3\ninclude part.txt\nend"
            self.assertEqual(to_bytes(text, path=os.path.join(folder, "x.txt")), b"\x01\x02\x03")

    def test_damage(self):
        a, b = to_bytes(ZONES)[:25], to_bytes(ZONES)[25:]
        for edit, expected in (
            ("swap 1 2", b + a),
            ("drop 1", b),
            ("insert 2 raw ff", a + b"\xff" + b),
            ("replace 2 raw 00 11", a + b"\x00\x11"),
            ("cut 26", a[:-1]),
            ("cut 0", a + b),
            ("cut 50", b""),
            ("patch 0 0708", b"\x07\x08" + (a + b)[2:]),
            ("patch 24 0708", a[:24] + b"\x07\x08" + b[1:]),
            ("patch 49 09", a + b[:24] + b"\x09"),
            ("due -1", a + b + bytes.fromhex("0600020001ffff0600020002ffff")),
            ("factors 0 zone 5 -1", a + b + bytes.fromhex("06000200010005060002 0002ffff")),
        ):
            self.assertEqual(to_bytes(ZONES + edit), expected, edit)

    def test_due_behind_damage(self):
        one, two = bytes.fromhex("06000200010000"), bytes.fromhex("06000200020000")
        self.assertEqual(to_bytes(ZONES + "patch 1 43\ndue 0")[50:], one + two)
        self.assertEqual(to_bytes(ZONES + "cut 25\ndue 0")[25:], one)
        self.assertEqual(to_bytes(ZONES + "cut 1\ndue 0")[49:], one)
        self.assertEqual(to_bytes(ZONES + "due 0\ncut 7\ndue 0")[50:], one + two)


class Refused(unittest.TestCase):
    def fault(self, text, **named):
        with self.assertRaises(Fault, msg=text) as caught:
            to_bytes(text, **named)
        return str(caught.exception)

    def test_faults_tell_their_line(self):
        for line in (
            "zone Z load 1", "zone Z load 1 losses x", "zone Z load -1 losses 0",
            "zone Z load 4294967296 losses 0", "zone ABCDEFGHIJKLMNOPQ load 0 losses 0",
            'zone "\\q" load 0 losses 0', 'zone "A load 0 losses 0', 'zone A"B" load 0 losses 0',
            "zone A\\B load 0 losses 0", "town Z", "raw 0", "raw xy", "cut 1", "drop 1", "drop", "swap 1",
            "due", "due 0 0", "zone Z$j load 0 losses 0", "zone Z$ load 0 losses 0", "repeat i 1 2",
            "repeat I 1 2\nend", "repeat i 1\nend", "end", "end 1", "patch", "patch 0 00", "include",
            "include no/such/file", "include samples", "factors 0 unit", "factor 0 unit 1 $(1",
            "factor 0 unit 1 $(1 // 0)", "factor 0 unit 1 $(2 +)", "factor 0 unit 1 $()",
            "unit U zone Q output 1", "unit U zone 300 output 1", "point P common beside import 1 export 1",
            "path J flow 1", "path J flow x factor 1", "path J 1 1", "path J factor 1 flow 1",
            "path J flow 1 factor 32768", "path J flow 2147483648 factor 1", "path J flow 1 factor 1 1",
            "path ABCDEFGHIJKLMNOPQ flow 0 factor 0",
            "circulation", "circulation 1 1", "circulation flow 1", "circulation 2147483648", "circulation C 1",
            "point P common line", "zone Z load 1 losses 1 more", "sheet", "zone Z load 0x losses 0",
            "point P common proxy import 1 export 1 wheel-in", "point P common proxy import 1 export 1 wheel-out x",
            "point P common proxy import 1 export 1 wheel-out 1 wheel-in 1",
            "point P common proxy import 1 export 1 wheel-in 1 wheel-in 1", "zone Z load 1 losses 1 wheel-in 1",
            "point P common proxy import 1 wheel-in 1", "point P common proxy import 1 export 1 wheel in 1",
            "factor 0 unit 1 $(" + "(" * 200 + "1" + ")" * 200 + ")",
            "factor 0 unit 1 " + "9" * 5000, "factor 0 unit 1 $(" + "9" * 5000 + ")",
            "factor 0 unit 1 $(" + "9999999999*" * 50 + "1)", "zone \xa0Z load 0 losses 0",
        ):
            told = self.fault("# first\n\n" + line)
            self.assertTrue(told.startswith("text line 3: "), told)
            self.assertIn("it reads: ", told)

    def test_a_wrong_line_shows_its_form(self):
        for line, form in (
            ("zone Z load 1 loses 2", "zone NAME load N losses N"),
            ("zoen Z load 1 losses 2", "zone NAME load N losses N"),
            ('unit "U zone 1 output 1', "unit NAME zone ZONE output N"),
            ("point P common", "point NAME CLASS line ZONE import N export N [wheel-in N] [wheel-out N]"),
            ("path J flow 1", "path NAME flow N factor N"), ("circulation", "circulation VALUE"),
            ("paht J flow 1 factor 1", "path NAME flow N factor N"), ("circulaton 1", "circulation VALUE"),
            ("cut", "cut N"),
            ("repeat i", "repeat VAR FROM TO"),
        ):
            self.assertIn("its form: " + form, self.fault(line), line)

    def test_whole_units_are_wanted(self):
        for line, sentence in (
            ("zone Z load 120.0 losses 0", "120.0 is no whole number: whole tenths of a MW are wanted"),
            ("zone Z load 1,200 losses 0", "1,200 is no whole number: whole tenths of a MW are wanted"),
            ("path J flow 12.5 factor 1", "12.5 is no whole number: whole tenths of a MW are wanted"),
            ("path J flow 125 factor 0.3", "0.3 is no whole number: whole ten-thousandths are wanted"),
            ("circulation 40.0", "40.0 is no whole number: whole tenths of a MW are wanted"),
            ("factor 0 unit 1 0.3", "whole ten-thousandths are wanted (0.3 is 3000)"),
            ("head F monitoring PJM seconds 300 prices 50.00 1", "whole cents per MWh are wanted"),
            ("head F monitoring ERCOT seconds 300 prices 50 1", "one of NYISO, PJM is wanted"),
        ):
            self.assertIn(sentence, self.fault(line))

    def test_all_wrong_values_of_a_line(self):
        told = self.fault("zone Z load 120.0 losses 1,200")
        self.assertIn("120.0 is no", told)
        self.assertIn("1,200 is no", told)

    def test_too_long(self):
        for text in ("repeat i 1 999999999\nend", "repeat i 1 999999999\nraw 00\nend",
                     "repeat i 1 99999\nrepeat j 1 99999\nend\nend"):
            self.assertIn("more than 100000 lines", self.fault(text))
        self.assertIn("nested too deep", self.fault("repeat i 1 2\n" * 2000))

    def test_a_text_that_includes_itself(self):
        with tempfile.TemporaryDirectory() as folder:
            write(folder, one_txt="\ninclude two.txt\n", two_txt="include one.txt\n")
            path = os.path.join(folder, "one.txt")
            told = self.fault("include two.txt\n", path=path)
            self.assertIn("two.txt line 1: the text includes itself", told)

    def test_utf_16(self):
        self.assertIn("UTF-16", self.fault("zone".encode("utf-16")))

    def test_control_bytes_are_not_printed(self):
        self.assertNotIn("\x1b", self.fault("zone \x1b[31m load 0 losses 0"))


class Cases(unittest.TestCase):
    def case(self, text):
        with tempfile.TemporaryDirectory() as folder:
            write(folder, one_case=text)
            return list(case_lines(os.path.join(folder, "one.case")))[1:]

    def test_a_case(self):
        lines = self.case(
            "# Shows it\nsheet\n  raw 01 # bytes\nentitlements\n"
            "expect refused 3\nexpect  place 0\nevery-truncation\n"
        )
        expected = ["sheet 01", "entitlements", "expect refused 3", "expect place 0"]
        self.assertEqual(lines, expected + ["every-truncation", "end"])

    def test_faulty_cases(self):
        for text in (
            "sheet\nexpect refused 1\n",
            "# nothing expected\nsheet\n",
            "# stray\nraw 01\nexpect refused 1\n",
            "# two sheets\nsheet\nraw 01\nsheet\nraw 02\nexpect refused 1\n",
            "# open\nsheet\nrepeat i 1 2\nentitlements\nend\nexpect refused 1\n",
            "# a sheet twice, and no hour\nsheet 2\nraw 01\nexpect refused 1\n",
            "# a list twice\nhour\nsheet\nraw 01\nentitlements 2\nexpect refused 1\n",
            "# never\nhour\nsheet 0\nraw 01\nexpect refused 1\n",
            "# two hours\nhour\nhour\nexpect seconds 0\n",
            "# an hour behind a sheet\nsheet\nhour\nexpect seconds 0\n",
            "# an hour to write\nhour\nwrite\nsheet\nexpect refused 27\n",
            "# two sheets to write\nwrite\nsheet\nsheet\nexpect refused 27\n",
        ):
            with self.assertRaises(Trouble):
                self.case(text)

    def test_an_hour(self):
        lines = self.case(
            "# Shows it\nhour\nsheet 2\n  raw 01\nsheet\n  raw 02\nentitlements\n  raw 10\n"
            "sheet\n  raw 03\nentitlements\nsheet\n  raw 04\nexpect refused 1\nexpect seconds 0\n"
        )
        pairs = [("01", " 10"), ("01", " 10"), ("02", " 10"), ("03", ""), ("04", "")]
        expected = [line for pair in pairs for line in (f"sheet {pair[0]}", f"entitlements{pair[1]}")]
        self.assertEqual(lines, ["hour", *expected, "expect refused 1", "expect seconds 0", "end"])

    def test_a_sheet_to_write(self):
        lines = self.case("# Shows it\nwrite\nsheet\n  raw 01\nbuffer 0\nexpect refused 27\n")
        self.assertEqual(lines, ["write", "sheet 01", "entitlements", "buffer 0", "expect refused 27", "end"])

    def test_an_empty_hour(self):
        self.assertEqual(self.case("# Nothing\nhour\nexpect seconds 0\n"), ["hour", "expect seconds 0", "end"])


if __name__ == "__main__":
    unittest.main()
