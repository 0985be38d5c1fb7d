"""tools/m2m settle --against through the proved library: both statements and their difference."""

import csv
import io
import json
import os
import shutil
import sys
import tempfile
import unittest
from contextlib import redirect_stderr
from unittest import mock

sys.path.insert(0, os.path.dirname(os.path.dirname(os.path.abspath(__file__))))

from common import ROOT, SAMPLE, content, run, to_bytes, write  # noqa: E402
from m2mlib.library import FIGURES, Library  # noqa: E402
from m2mlib.outputs import LABELS, REMAINDERS, heading  # noqa: E402
from m2mlib.verbs import call_verb  # noqa: E402

TEXT = content("samples/sheet-s/sheet.txt").decode()
LISTING = content("samples/sheet-s/listing.txt").decode()
OLD, LIST = (os.path.join(SAMPLE, name) for name in ("sheet.txt", "entitle.txt"))
MORE = TEXT.replace("import 500", "import 600")
OTHERS = (
    MORE, TEXT, TEXT.replace("PJM", "NYISO"), TEXT.replace("output 2000", "output 3001"),
    TEXT.replace("par 1 2500", "par 1 -2500"), TEXT.replace("seconds 300", "seconds 7"),
)
LAKE = content("samples/lake/sheet.txt").decode()
library = Library()


def called(*arguments):
    """The verb in this process, on the library that is loaded: its status, output, and what it tells."""
    output, told = io.BytesIO(), io.StringIO()
    with redirect_stderr(told), mock.patch("m2mlib.settle.Library", lambda: library):
        status = call_verb(["settle", *arguments], output)
    return status, output.getvalue().decode(), told.getvalue()


def parts_of(output):
    """The parts of an output by their head lines."""
    heads_and_bodies = [part.split(" <==\n", 1) for part in ("\n" + output).split("\n==> ")[1:]]
    return [(head, body) for head, body in heads_and_bodies]


def numbers(listing):
    """The figures of a listing, or of a difference, in order."""
    lines = (line.split() for line in listing.splitlines())
    return [int(word) for line in lines if line and line[0] != "flowgate" for word in line[1:]]


class Against(unittest.TestCase):
    def setUp(self):
        self.folder = tempfile.mkdtemp()
        self.addCleanup(shutil.rmtree, self.folder)

    def new(self, text, name="new.txt"):
        write(self.folder, **{name.replace(".", "_"): text})
        return os.path.join(self.folder, name)

    def test_sums_hold(self):
        for text in OTHERS:
            new = self.new(text)
            status, output, told = called("--against", OLD, new, LIST)
            self.assertEqual((status, told), (0, ""))
            (old_head, old), (new_head, other), (head, difference) = parts_of(output)
            self.assertEqual((old_head, new_head, head), (f"old: {OLD}", f"new: {new}", "new - old"))
            self.assertEqual(old.rstrip("\n"), LISTING.rstrip("\n"))
            self.assertEqual(other.rstrip("\n"), called(new, LIST)[1].rstrip("\n"))
            sums = [one + by for one, by in zip(numbers(old), numbers(difference))]
            self.assertEqual((sums, len(sums)), (numbers(other), len(FIGURES) - 1))

    def test_rows(self):
        for text in (*OTHERS, LAKE):
            new = self.new(text)
            (row,) = json.loads(called("--json", "--against", OLD, new, LIST)[1])
            for part, path in (("old", OLD), ("new", new)):
                self.assertEqual([row[part]], json.loads(called("--json", path, LIST)[1]))
            for figure in map(heading, FIGURES):
                self.assertEqual(row["old"][figure] + row["difference"][figure], row["new"][figure])
            (line,) = csv.DictReader(io.StringIO(called("--csv", "--against", OLD, new, LIST)[1]))
            flat = {f"{part}_{key}": value for part, values in row.items() for key, value in values.items()}
            self.assertEqual(line, {key: "" if value is None else str(value) for key, value in flat.items()})

    def test_paths(self):
        """The difference has a line 'settled' where one of the two has paths; the other's is its market flow."""
        plain, lake = OLD, self.new(LAKE, "lake.txt")
        more = self.new(LAKE.replace("circulation 400", "circulation 0"), "more.txt")
        for old, new, market, settled in (
            (plain, lake, 0, -380000), (lake, plain, 0, 380000), (lake, more, 0, -300000), (lake, lake, 0, 0),
        ):
            status, output, _ = called("--against", old, new, LIST)
            (_, _), (_, _), (head, difference) = parts_of(output)
            self.assertEqual((status, head), (0, "new - old"))
            self.assertIn(f"\nmarket {market}\nsettled {settled}\nentitlement 0\n", difference)
            words = parts_of(called("--words", "--against", old, new, LIST)[1])[2][1].splitlines()
            line = f"settled {settled / 10**6:.6f} MW {settled} W settlement flow"
            self.assertEqual(" ".join(words[6].split()), line)

    def test_words(self):
        status, output, _ = called("--words", "--against", OLD, self.new(MORE), LIST)
        (_, old), _, (_, difference) = parts_of(output)
        self.assertEqual((status, old.rstrip("\n")), (0, content("samples/sheet-s/words.txt").decode().rstrip("\n")))
        lines = difference.splitlines()
        self.assertEqual(len(lines), len(FIGURES) - 3)
        for line in (
            "market 0.150000 MW 150000 W market flow", "gtl -0.350000 MW -350000 W generation-to-load flow",
            "NYISO -0.62500 $ -62500 thousandths of a cent NYISO loses",
            "PJM 0.62500 $ 62500 thousandths of a cent PJM gains",
        ):
            self.assertIn(line, [" ".join(line.split()) for line in lines])
        same = called("--words", "--against", OLD, OLD, LIST)[1]
        self.assertIn("NYISO has the same", same)

    def test_a_refused_one(self):
        short = self.new(TEXT.replace("seconds 300", "seconds 901"), "short.txt")
        sound = self.new(MORE)
        for old, new, listings in ((short, sound, ("refused 9\n", None)), (sound, short, (None, "refused 9\n")),
                                   (short, short, ("refused 9\n", "refused 9\n"))):
            status, output, _ = called("--against", old, new, LIST)
            parts = parts_of(output)
            self.assertEqual((status, [head for head, _ in parts]), (1, [f"old: {old}", f"new: {new}"]))
            for (_, body), listing in zip(parts, listings):
                self.assertEqual(body.strip("\n"), (listing or called(sound, LIST)[1]).strip("\n"))
            (row,) = json.loads(called("--json", "--against", old, new, LIST)[1])
            self.assertIsNone(row["difference"])
            (line,) = csv.DictReader(io.StringIO(called("--csv", "--against", old, new, LIST)[1]))
            self.assertEqual({line["difference_" + heading(figure)] for figure in FIGURES}, {""})
            words = called("--words", "--against", old, new, LIST)[1]
            self.assertIn("refused 9: number out of range\nwhere:    byte 0 of the sheet: head, A\\B\n", words)
            self.assertNotIn("new - old", words)

    def test_one_old_sheet_for_several(self):
        for k, text in enumerate(OTHERS):
            write(os.path.join(self.folder, "day", str(k)), sheet_txt=text)
        for old in (OLD, SAMPLE, os.path.join(ROOT, "crates/settle/data")):
            status, output, told = called("--json", "--against", old, "--list", LIST, os.path.join(self.folder, "day"))
            rows = json.loads(output)
            self.assertEqual((status, told, len(rows)), (0, "", len(OTHERS)))
            self.assertEqual({row["old"]["interval"] for row in rows}, {old})
            self.assertEqual({row["old"]["market_W"] for row in rows}, {13187500})

    def test_folders_by_the_same_paths(self):
        old, new = (os.path.join(self.folder, name) for name in ("old", "new"))
        for k, text in enumerate(OTHERS):
            write(os.path.join(old, str(k), "a"), sheet_bin=to_bytes(TEXT if k else MORE))
            write(os.path.join(new, str(k), "a"), sheet_txt=text, entitle_txt=content(LIST))
        status, output, told = called("--json", "--against", old, new)
        rows = json.loads(output)
        self.assertEqual((status, told, len(rows)), (0, "", len(OTHERS)))
        for row in rows:
            self.assertEqual(os.path.relpath(row["old"]["interval"], old), os.path.relpath(row["new"]["interval"], new))
        self.assertEqual([row["difference"]["market_W"] for row in rows[:2]], [0, 0])
        shutil.move(os.path.join(new, "1"), os.path.join(new, "9"))
        status, output, told = called("--json", "--against", old, new)
        self.assertEqual((status, len(json.loads(output))), (2, len(OTHERS) - 1))
        self.assertIn(f"m2m: {new}/9/a: no old sheet has the same path\n", told)
        self.assertIn(f"m2m: {old}/1/a: no interval below {new} has the same path\n", told)

    def test_the_same_list(self):
        write(os.path.join(self.folder, "old"), sheet_txt=TEXT, entitle_txt='entitlement "A\\\\B" 7\n')
        _, output, _ = called("--against", os.path.join(self.folder, "old"), SAMPLE)
        self.assertEqual(output.count("entitlement 10000000\n"), 2)
        self.assertIn("\nentitlement 0\n", output)
        write(os.path.join(self.folder, "new"), sheet_txt=MORE)
        status, output, told = called("--against", SAMPLE, os.path.join(self.folder, "new"))
        self.assertEqual((status, output.count("refused 15\n"), told.count("counts as empty")), (1, 2, 1))

    def test_what_could_not_be_settled(self):
        status, output, told = called("--against", self.new("zone Z\n"), SAMPLE)
        self.assertEqual((status, output), (2, ""))
        self.assertIn("new.txt line 1: 'load' is missing", told)

    def test_the_readme(self):
        new = self.new(MORE, "sheet.new.txt")
        outcome = run("settle", "--against", SAMPLE, new, LIST)
        difference = parts_of(outcome.stdout.decode())[2][1]
        self.assertEqual(outcome.returncode, 0)
        self.assertIn("\nmarket 150000\n", difference)
        self.assertIn("\namount 62500\n", difference)
        self.assertEqual([line.split()[0] for line in difference.splitlines()],
                         [LABELS.get(f.name, f.name) for f in FIGURES if f.name not in ("settled", *REMAINDERS)])


if __name__ == "__main__":
    unittest.main()
