"""Changes in words: every field of every record, and what is told of those that are none."""

import unittest

from common import LONGEST, content, draft_of, to_bytes
from m2mlib.changes import read_changes
from m2mlib.drafts import alter
from m2mlib.edits import patched
from m2mlib.trouble import Trouble

TEXT = content("samples/sheet-s/sheet.txt").decode()
SHEET_S = to_bytes(TEXT)
# A change, and the words of the sheet's text for which others stand then.
EACH_FIELD = (
    ('name of head "G H"', 'head "A\\\\B"', 'head "G H"'),
    ("monitoring of head NYISO", "PJM", "NYISO"),
    ("seconds of head 900", "seconds 300", "seconds 900"),
    ("Monitoring price of head 400_000", "5000 2000", "400_000 2000"),
    ("Non-Monitoring price of head 0", "5000 2000", "5000 0"),
    ("name of Z1 Z9", "zone Z1", "zone Z9"),
    ("load of Z1 2000000", "load 900", "load 2000000"),
    ("losses of zone Z2 0", "losses 50", "losses 0"),
    ("name of U2 P1", "unit U2", "unit P1"),
    ("zone of U2 1", "unit U2 zone 2", "unit U2 zone 1"),
    ("output of unit U1 0x10", "output 1200", "output 0x10"),
    ("name of P1 P3", "point P1", "point P3"),
    ("type of P2 non-common", "P2 common", "P2 non-common"),
    ("place of P1 proxy", "line 2", "proxy"),
    ("place of P1 line 1", "line 2", "line 1"),
    ("place of point P2 line Z2", "proxy", "line Z2"),
    ("import of P1 600", "import 500", "import 600"),
    ("export of P2 0", "export 200", "export 0"),
    ("wheel-in of P1 100", "import 500 export 0", "import 500 export 0 wheel-in 100"),
    ("wheel-out of point P2 200_000", "export 200", "export 200 wheel-out 200_000"),
    ("name of T1 Z1", "par T1", "par Z1"),
    ("class of T1 noncommon", "T1 common", "T1 noncommon"),
    ("actual of par T1 -200000", "actual 400", "actual -200000"),
    ("target of T1 -1", "target 380", "target -1"),
    ("factor of 0 unit 2 -10000", "unit 2 -1000", "unit 2 -10000"),
    ("factor of 1 point 2 7", "1 point 2 0", "1 point 2 7"),
)
LAKE_TEXT = TEXT + """path J5D flow 200 factor -300
path B3N flow 50 factor -200
path L4D flow 30 factor 100
path L51D flow -10 factor 100
circulation 400
"""
LAKE = to_bytes(LAKE_TEXT)
EACH_PATH_FIELD = (
    ("name of J5D T1", "path J5D", "path T1"),
    ("flow of B3N -200000", "flow 50", "flow -200000"),
    ("flow of path L4D 0x10", "flow 30", "flow 0x10"),
    ("factor of L4D 10000", "flow 30 factor 100", "flow 30 factor 10000"),
    ("factor of path L51D -1200", "flow -10 factor 100", "flow -10 factor -1200"),
    ("circulation -200_000", "circulation 400", "circulation -200_000"),
)


def altered(*changes, data=SHEET_S):
    """A sheet's draft with changes, and its bytes with them."""
    draft = draft_of(data)
    read = read_changes(changes, draft)
    for change in read:
        alter(draft, change.kind, change.index, change.field, change.value)
    return draft, patched(data, read)


class Understood(unittest.TestCase):
    def assert_altered(self, expected, *changes, data=SHEET_S):
        draft, new = altered(*changes, data=data)
        self.assertEqual(new, expected, changes)
        self.assertEqual(bytes(draft), bytes(draft_of(expected)), changes)

    def test_every_field(self):
        for change, old, new in EACH_FIELD:
            self.assertEqual(TEXT.count(old), 1, old)
            self.assert_altered(to_bytes(TEXT.replace(old, new)), change)
            self.assert_altered(to_bytes(LAKE_TEXT.replace(old, new)), change, data=LAKE)
        for change, old, new in EACH_PATH_FIELD:
            self.assertEqual(LAKE_TEXT.count(old), 1, old)
            self.assert_altered(to_bytes(LAKE_TEXT.replace(old, new)), change, data=LAKE)

    def test_all_at_once(self):
        changes = [change for change, _, _ in EACH_FIELD if change != "place of P1 line 1"]
        together = bytearray(SHEET_S)
        for change in changes:
            for at, byte in enumerate(altered(change)[1]):
                together[at] = byte if byte != SHEET_S[at] else together[at]
        self.assert_altered(bytes(together), *changes)

    def test_other_words_for_the_same(self):
        for change, same in (
            ("seconds of head 5", "Seconds 5"), ("seconds of head 5", 'seconds of "A\\\\B" 5'),
            ("monitoring of head 1", "MONITORING RTO nyiso"), ("zone of U1 2", "Zone Number Of Unit U1 Z2"),
            ("Monitoring price of head 5", "monitoring price 5"),
            ("Non-Monitoring price of head 5", "nonmonitoring price of HEAD 5"),
            ("place of P2 line 2", 'place of "P2" LINE "Z2"'), ("type of P1 1", "type of point P1 Common"),
            ("factor of 0 unit 1 5", "Factor of 0 1 1 5  # of U1"), ("import of P1 600", "\timport  of P1 +6_00"),
            ("wheel-in of P1 100", "Wheel In of P1 100"), ("wheel-out of P1 100", "wheelout of point P1 0x64"),
        ):
            self.assertEqual(altered(change)[1], altered(same)[1], same)
        for change, same in (
            ("factor of path J5D 5", 'Factor Of "J5D" 5'), ("flow of path J5D 5", "FLOW of PATH J5D +5"),
            ("circulation 5", "Circulation  0x5 # MW"),
        ):
            self.assertEqual(altered(change, data=LAKE)[1], altered(same, data=LAKE)[1], same)

    def test_paths_that_are_called_like_numbers_or_words(self):
        text = LAKE_TEXT.replace("path J5D", 'path "0"').replace("path B3N", "path path")
        text = text.replace("path L4D", "path unit")
        data = to_bytes(text)
        for change, old, new in (
            ("factor of path 0 5", "factor -300", "factor 5"), ('factor of "0" 5', "factor -300", "factor 5"),
            ("factor of 0 unit 1 5", "unit 1 3000", "unit 1 5"), ("factor of path path 5", "factor -200", "factor 5"),
            ('factor of "unit" 5', "30 factor 100", "30 factor 5"), ("flow of 0 5", "flow 200", "flow 5"),
        ):
            self.assert_altered(to_bytes(text.replace(old, new)), change, data=data)

    def test_names_are_those_of_the_old_sheet(self):
        exchanged = TEXT.replace("zone Z1", "zone Z0").replace("zone Z2", "zone Z1").replace("zone Z0", "zone Z2")
        self.assert_altered(to_bytes(exchanged), "name of Z1 Z2", "name of Z2 Z1")
        self.assert_altered(
            to_bytes(TEXT.replace("zone Z1 load 900", "zone Q load 1")), "name of Z1 Q", "load of Z1 1"
        )

    def test_names_that_are_words_of_changes(self):
        text = TEXT.replace("zone Z1", "zone zone").replace("unit U1", "unit head").replace("point P1", "point of")
        data = to_bytes(text)
        for change, old, new in (
            ("load of zone zone 5", "load 900", "load 5"), ('load of "zone" 5', "load 900", "load 5"),
            ("output of unit head 5", "output 1200", "output 5"), ('output of "head" 5', "output 1200", "output 5"),
            ("import of of 5", "import 500", "import 5"), ("zone of unit head zone", "head zone 1", "head zone 1"),
        ):
            self.assert_altered(to_bytes(text.replace(old, new)), change, data=data)

    def test_names_of_any_bytes(self):
        for name in ('"\\x01\\xff"', '" "', '"Zürich"', '"#"', '"$i"', '"\\""', "0x1", "-", "-1"):
            name = name.encode().decode("latin-1")
            data = to_bytes(TEXT.encode().replace(b"point P1", b"point " + name.encode("latin-1")))
            self.assertEqual(altered(f"name of P1 {name}")[1], data)
            self.assertEqual(altered(f"name of point {name} P1", data=data)[1], SHEET_S)
            self.assertEqual(altered(f"import of {name} 500", data=data)[1], data)

    def test_a_line_into_zone_0_is_no_proxy(self):
        point = altered("place of P2 line 0")[0].points[1]
        self.assertEqual((point.line, point.zone), (1, 0))
        point = altered("place of P1 proxy")[0].points[0]
        self.assertEqual((point.line, point.zone), (0, 0))

    def test_the_longest_sheet(self):
        text = LONGEST.decode()
        changes = [f"factor of {k % 9} unit {k % 256 + 1} {k}" for k in range(2304)]
        draft, data = altered(*changes, data=to_bytes(text))
        self.assertEqual(bytes(draft), bytes(draft_of(data)))
        self.assertEqual(sum(factor.factor for factor in draft.factors if factor.subject == 1), sum(range(2304)))


class Told(unittest.TestCase):
    def assert_told(self, change, *words, data=SHEET_S):
        with self.assertRaises(Trouble, msg=change) as caught:
            altered(change, data=data)
        for word in ("'" + change.split()[0] if change.split() else "''", *words):
            self.assertIn(word, str(caught.exception))

    def test_fields(self):
        all_fields = "\n    zone: name, load, losses\n    unit: name, zone, output\n    point: name, type, place"
        for change, *words in (
            ("imports of P1 6", "'imports' is no field", all_fields), ("head", "'head' is no field"),
            ("prices of head 1", "'prices' is no field", "Monitoring price"), ("subject of P1 6", "is no field"),
            ("index of 0 unit 1 2", "'index' is no field"), ("5", "'5' is no field"),
            ('"load" of Z1 5', "is no field"),
            ("load of U1 5", "a unit has no load; it has name, zone, output"),
            ("class of P1 1", "a point has no class; it has name, type, place, import, export, wheel-in, wheel-out"),
            ("wheel-in of T1 5", "a par has no wheel-in"), ("wheel of P1 5", "'wheel' is no field"),
            ("load of head 5", "a head has no load"), ("import of unit U1 5", "a unit has no import"),
            ("target of unit U1 5", "a unit has no target"), ("", "FIELD of RECORD VALUE is wanted"),
            ("# load of Z1 5", "FIELD of RECORD VALUE is wanted"),
        ):
            self.assert_told(change, *words)

    def test_records(self):
        for change, *words in (
            ("load of Z3 5", "there is no zone Z3; there are Z1, Z2"), ("load of zone U1 5", "there is no zone U1"),
            ("load of zone 1 5", "there is no zone 1; there are Z1, Z2"), ("load of z1 5", "there is no zone z1"),
            ("name of Q R", "there is no record Q; there are", "\n    unit: U1, U2\n    point: P1, P2"),
            ("load Z1 5", "'of' is missing"), ("load of", "the record is missing"), ("name Q", "'of' is missing"),
            ("load of zone", "the zone's name is missing"), ("load", "'of' is missing"),
            ("load of A\\B 5", "must stand in double quotes"), ('load of "Z1 5', "a quote is not closed"),
            ("factor of 0 unit 3 5", "there is no factor 0 unit 3; there are 0 unit 1 to 0 unit 2"),
            ("factor of 1 par 1 5", "there is no factor 1 par 1; there are 0 unit 1 to 1 point 2"),
            ("factor of 0 unit", "target, subject and index of the factor are missing"),
            ("factor of T1 unit 1 5", "T1 is no whole number"),
            ("factor of 0 town 1 5", "one of unit, zone, point, par"),
            ("factor of 256 unit 1 5", "target 256 does not fit its 8 bits"),
        ):
            self.assert_told(change, *words)
        for change, *words in (
            ("flow of J5D 5", "there is no path J5D; there is none at all"),
            ("circulation 5", "the sheet has no circulation"),
            ("factor of path J5D 5", "there is no path J5D; there is none at all"),
        ):
            self.assert_told(change, *words)
        for change, *words in (
            ("factor of J5E 5", "there is no path J5E; there are J5D, B3N, L4D, L51D"),
            ("factor of Z1 5", "a zone has no factor; it has name, load, losses"),
            ("flow of Z1 5", "a zone has no flow"), ("flow of path", "the path's name is missing"),
            ("factor of zone Z1 5", "a zone has no factor"), ("factor of path", "the path's name is missing"),
            ("factor of", "target, subject and index of the factor are missing"), ("factor J5D 5", "'of' is missing"),
            ("factor of 0 unit 3 5", "there is no factor 0 unit 3"),
            ("load of path J5D 5", "a path has no load; it has name, flow, factor"),
            ("circulation of lake 5", "of is no whole number"), ("circulation", "the value is missing"),
        ):
            self.assert_told(change, *words, data=LAKE)
        self.assert_told("load of Q 5", "Z1, Z2, Z3, Z4, Z5, Z6, Z7, Z8, .. (32 in all)", data=to_bytes(LONGEST))

    def test_names_of_several_kinds(self):
        data = to_bytes(TEXT.replace("unit U1", "unit Z1").replace('head "A\\\\B"', "head Z1"))
        self.assert_told("name of Z1 Q", "Z1 is the name of several records: head or zone Z1 or unit Z1", data=data)
        for change in ("load of Z1 5", "output of Z1 5", "name of zone Z1 Q", "name of unit Z1 Q", "seconds of Z1 5"):
            altered(change, data=data)

    def test_values(self):
        for change, *words in (
            ("load of Z1", "the value is missing"), ("load of Z1 5 6", "'6' is one word too many"),
            ("load of Z1 5.0", "5.0 is no whole number: whole tenths of a MW"),
            ("load of Z1 x", "x is no whole number"),
            ("load of Z1 -1", "load -1 does not fit its 32 bits"), ("load of Z1 $i", "is no whole number"),
            ("load of Z1 4294967296", "does not fit its 32 bits"), ("seconds 65536", "does not fit its 16 bits"),
            ("actual of T1 -2147483649", "does not fit its 32 bits"), ("monitoring 256", "does not fit its 8 bits"),
            ("factor of 0 unit 1 32768", "factor 32768 does not fit its 16 bits"),
            ("monitoring X", "one of NYISO, PJM"),
            ("zone of U1 Q", "there is no zone Q; there are Z1, Z2"), ("zone of U1 256", "does not fit its 8 bits"),
            ("place of P1", "the value is missing"), ("place of P1 Z1", "'proxy' or 'line' is expected"),
            ("place of P1 line", "the line's zone is missing"), ("place of P1 line Q", "there is no zone Q"),
            ("place of P1 proxy Z1 Z2", "'Z1' is one word too many"), ("place of P1 line 300", "does not fit its 8"),
            ("wheel-in of P1", "the value is missing"), ("wheel out of P1 -1", "wheel out -1 does not fit its 32 bits"),
            ("name of Z1 ABCDEFGHIJKLMNOPQ", "more than 16"), ("name of Z1 A B", "'B' is one word too many"),
            ('name of Z1 "\\q"', "unknown escape"), ("load of Z1 " + "9" * 5000, "does not fit any field"),
        ):
            self.assert_told(change, *words)
        for change, *words in (
            ("flow of J5D 12.5", "12.5 is no whole number: whole tenths of a MW"),
            ("flow of J5D 2147483648", "flow 2147483648 does not fit its 32 bits"),
            ("factor of J5D", "the value is missing"), ("circulation 5 6", "one word too many"),
            ("factor of J5D -32769", "factor -32769 does not fit its 16 bits"),
            ("circulation 1.0", "is no whole number"),
            ("circulation -2147483649", "circulation -2147483649 does not fit its 32 bits"),
        ):
            self.assert_told(change, *words, data=LAKE)

    def test_words_without_quotes(self):
        with self.assertRaisesRegex(Trouble, "a change is one argument and stands in quotes: 'import of P1 600'"):
            altered("import", "of", "P1", "600")

    def test_all_faults_at_once(self):
        with self.assertRaises(Trouble) as caught:
            altered("import of P9 1", "load of Z1 5", "seconds x", "load of zone Z1 5")
        told = str(caught.exception).split("\nm2m: ")
        self.assertEqual(len(told), 3)
        self.assertIn("'load of zone Z1 5': 'load of Z1 5' sets the same field", told[2])


if __name__ == "__main__":
    unittest.main()
