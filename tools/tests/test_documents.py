"""The documents say what the tool says."""

import re
import unittest

from common import content, draft_of, to_bytes
from m2mlib.changes import listed, read_changes
from m2mlib.drafts import WORDS
from m2mlib.forms import FORMS
from m2mlib.library import FIGURES, HOUR_FIGURES, INTERVALS, LONGEST_SHEET, REASONS, ROOM
from m2mlib.manual import manual
from m2mlib.records import BY_NUMBER, KINDS
from m2mlib.refusals import refusals
from m2mlib.text import DIRECTIVES
from m2mlib.verbs import TEXT_JOBS, VERBS

HELP = content("tools/m2mlib/help.txt").decode()
FORMAT = content("docs/FORMAT.md").decode()
TABLE = re.compile(r"^\*\*Kind (\S+), [^\n]*\*\*\n\n(.*?)\n\n", re.M | re.S)
LIST_TABLE = re.compile(r"^## The entitlement list\n.*?(\| Offset .*?)\n\n", re.M | re.S)


def rows(table):
    """Offset, size and range of each line of a table of FORMAT."""
    for line in table.splitlines()[2:]:
        offset, size, _, bounds = (cell.strip() for cell in line.strip("|").split("|"))
        yield int(offset), size, bounds.replace("−", "-").replace(",", "")


class Documents(unittest.TestCase):
    def test_the_man_page_is_made_from_the_help(self):
        self.assertEqual(content("docs/m2m.1").decode(), manual(HELP))

    def test_the_help_tells_all(self):
        forms = [form for kind in KINDS for form in kind.form.split("\n")] + list(FORMS.values())
        for form in forms:
            self.assertTrue(f"\n        {form}\n" in HELP, form)
            self.assertTrue(f"\n{form}\n" in FORMAT, form)
        for word in [*VERBS, *TEXT_JOBS, *(x.strip("=") for verb in VERBS.values() for x in verb.options)]:
            self.assertTrue(word in HELP, word)
        self.assertLessEqual(set(DIRECTIVES), set(FORMS))

    def test_changes(self):
        for kind in WORDS:
            self.assertTrue(f"\n        {kind}: {listed(kind)}\n" in HELP, kind)
            self.assertTrue(f"\n{kind}: {listed(kind)}\n" in FORMAT, kind)
        draft = draft_of(to_bytes(content("samples/lake/sheet.txt")))
        shown = HELP.split("Some changes:\n\n")[1].split("\n\n")[0].splitlines()
        self.assertEqual(len(read_changes([line.strip() for line in shown], draft)), len(shown))
        for line in shown:
            self.assertIn(f"\n| `{line.strip()}` |", FORMAT)

    def test_the_table_of_records_is_formats(self):
        tables = {int(kind): table for kind, table in TABLE.findall(FORMAT)}
        tables[0x10] = LIST_TABLE.search(FORMAT).group(1)
        self.assertEqual(set(tables), set(BY_NUMBER))
        for number, table in tables.items():
            kind = BY_NUMBER[number]
            listed = list(rows(table))
            self.assertEqual(len(listed), len(kind.fields))
            for (offset, size, bounds), field, at in zip(listed, kind.fields, kind.offsets):
                self.assertEqual(offset + 1, at)
                self.assertEqual(size, f"{field.size}, signed" if field.signed else str(field.size))
                if field.low != field.high:
                    self.assertEqual(bounds, f"{field.low}..{field.high}")

    def test_lengths_and_counts_are_formats(self):
        for kind in KINDS[:-1]:
            most = {1: "1", 6: "as many", 7: "0 or 4", 8: "0 or 1"}.get(kind.number, f"..{kind.most}")
            line = next(line for line in FORMAT.splitlines() if line.startswith(f"| {kind.number} |"))
            self.assertIn(f"| {kind.length - 1} | {kind.length} |", line)
            self.assertIn(most, line)

    def test_every_refusal_has_its_words(self):
        self.assertEqual(sorted(refusals()), list(range(1, 29)))
        for refusal in refusals().values():
            for words in (refusal.title, refusal.meaning, refusal.mend):
                self.assertNotIn("|", words)
                self.assertNotIn("More:", words)
                self.assertGreater(len(words), 8)
            self.assertTrue(refusal.examples)

    def test_figures_are_those_of_the_header(self):
        header = content("include/m2m.h").decode()
        for struct, figures in (("statement", FIGURES), ("totals", HOUR_FIGURES)):
            fields = re.search(r"struct m2m_%s \{(.*?)\}" % struct, header, re.S).group(1)
            declared = re.findall(r"\bu?int\d+_t (\w+);", fields)
            declared = [field for field in declared if field not in ("refusal", "has_paths")]
            self.assertEqual(declared, [f.name for f in figures])
        for name, value in (
            ("HOUR_INTERVALS", INTERVALS), ("LISTING_ROOM", ROOM), ("SHEET_ROOM", LONGEST_SHEET),
            ("MOST_PATHS", BY_NUMBER[7].most), ("MOST_CIRCULATIONS", BY_NUMBER[8].most), ("REASON_NONE", 0),
            *((f"REASON_{word.upper()}", value) for value, word in REASONS.items()),
        ):
            self.assertIn(f"#define M2M_{name} {value}\n", header)
        self.assertEqual(FORMAT.count(f"{ROOM} bytes"), 3)
        self.assertIn(f"a buffer of {ROOM} bytes", refusals()[23].mend)
        self.assertIn(f"| all | | {LONGEST_SHEET:,} |\n", FORMAT)
        self.assertIn(f"the first {LONGEST_SHEET + BY_NUMBER[4].length:,} bytes of a sheet", FORMAT)


if __name__ == "__main__":
    unittest.main()
