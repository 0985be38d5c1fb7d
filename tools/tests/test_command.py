"""The command: verbs, help, statuses, and no traceback whatever its input and output are."""

import os
import subprocess
import tempfile
import unittest

from common import LONGEST, SAMPLE, TOOL, content, run, to_bytes, write


class Command(unittest.TestCase):
    def assert_told(self, outcome, status, words):
        self.assertEqual(outcome.returncode, status, outcome)
        self.assertTrue(outcome.stderr.startswith(b"m2m: "), outcome.stderr)
        self.assertIn(words, outcome.stderr)
        self.assertNotIn(b"Traceback", outcome.stderr)

    def test_both_directions(self):
        sheet = run("text", "sheet", data=content("samples/sheet-s/sheet.txt"))
        self.assertEqual((sheet.returncode, sheet.stdout), (0, content("crates/settle/data/sheet.bin")))
        shown = run("text", "show-sheet", data=sheet.stdout)
        self.assertEqual(run("text", "sheet", data=shown.stdout).stdout, sheet.stdout)
        entries = run("text", "entitlements", data=content("samples/sheet-s/entitle.txt"))
        shown = run("text", "show-entitlements", data=entries.stdout)
        self.assertEqual(shown.stdout, b'entitlement "A\\\\B" 100\n')

    def test_a_fault_fails(self):
        outcome = run("text", "sheet", data=b"zone\n")
        self.assert_told(outcome, 2, b"line 1")
        self.assertEqual(outcome.stdout, b"")

    def test_help(self):
        for arguments in (["--help"], ["-h"], ["help"], ["settle", "--help"], ["text", "-h"]):
            outcome = run(*arguments)
            self.assertEqual((outcome.returncode, outcome.stderr), (0, b""))
            self.assertEqual(outcome.stdout, content("tools/m2mlib/help.txt"))

    def test_wrong_calls(self):
        for arguments in (
            [], ["sheets"], ["settle"], ["settle", "--loud", SAMPLE], ["text"], ["text", "sheet", "x"],
            ["text", "cases"], ["text", "pages"], ["show"], ["show", "a", "b"], ["check"],
            ["settle", "--list"], ["settle", "a.txt"], ["settle", "no", "such"], ["show", "no-such"],
            ["settle", "--words", "--csv", SAMPLE], ["show", SAMPLE], ["text", "cases", "no-such"],
            ["hour"], ["hour", "--csv", SAMPLE], ["hour", "--words", "--json", SAMPLE], ["hour", "no-such"],
            ["set"], ["set", "a.txt"], ["set", "no-such", "seconds 1"], ["set", SAMPLE, "seconds 1"],
            ["set", "--to"], ["settle", "--against", "no-such", SAMPLE], ["settle", "--against", SAMPLE],
            ["settle", "--against", os.path.dirname(SAMPLE), SAMPLE, SAMPLE], ["hour", "--against", SAMPLE, SAMPLE],
            ["explain"], ["explain", "--words", SAMPLE], ["explain", "a.txt"], ["explain", "no", "such"],
        ):
            outcome = run(*arguments, env={"PATH": os.environ["PATH"], "RT_JOBS": "1"})
            self.assertEqual(outcome.stdout, b"")
            self.assert_told(outcome, 2, b"")

    def test_show(self):
        outcome = run("show", os.path.join(SAMPLE, "sheet.txt"))
        lines = outcome.stdout.decode().splitlines()
        self.assertIn("    53     2  zone Z2 load 1950 losses 50", lines)
        self.assertIn("   302    13  factor 1 point 2 0", lines)
        self.assertEqual(lines[-1].split(), ["309", "the", "end"])

    def test_show_damaged_bytes(self):
        with tempfile.TemporaryDirectory() as folder:
            write(folder, sheet_bin=content("crates/settle/data/sheet.bin")[:60])
            outcome = run("show", os.path.join(folder, "sheet.bin"))
            self.assertIn(b"    53        raw 025a320000000", outcome.stdout)

    def test_closed_pipe(self):
        command = [TOOL, "text", "show-sheet"]
        with subprocess.Popen(command, stdin=-1, stdout=-1, stderr=-1) as process:
            process.stdout.close()
            process.stdin.write(to_bytes(LONGEST))
            process.stdin.close()
            self.assertEqual(process.stderr.read(), b"")
        self.assertEqual(process.returncode, 2)

    def test_full_disk(self):
        with open("/dev/full", "wb") as full:
            for arguments in (["--help"], ["show", os.path.join(SAMPLE, "sheet.txt")], ["check", SAMPLE]):
                outcome = run(*arguments, capture_output=False, stdout=full, stderr=subprocess.PIPE)
                self.assert_told(outcome, 2, b"No space left")

    def test_closed_input_and_output(self):
        for redirection in ("<&-", ">&-", "<&- >&-", "2>&- <&-", "2>/dev/full <&-"):
            command = f"'{TOOL}' text sheet {redirection}"
            outcome = subprocess.run(["sh", "-c", command], capture_output=True, check=False)
            self.assertEqual(outcome.returncode, 2, redirection)
            self.assertNotIn(b"Traceback", outcome.stderr)

    def test_names_that_are_no_text(self):
        with tempfile.TemporaryDirectory() as folder:
            path = os.path.join(os.fsencode(folder), b"\xff\x1b.txt")
            with open(path, "wb") as file:
                file.write(b"zone Z load 1\n")
            for verb in ("check", "show"):
                outcome = run(verb, path)
                self.assertNotIn(b"Traceback", outcome.stderr)
                self.assertIn(outcome.returncode, (1, 2))


if __name__ == "__main__":
    unittest.main()
