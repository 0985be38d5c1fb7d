"""The library is made when it must be and only then: tools/shared-library and tools/build with stand-ins for rt and cc."""

import os
import shutil
import subprocess
import sys
import tempfile
import unittest

from common import ROOT, SAMPLE, TOOL

RT = """#!/bin/sh
# Two crates, of which one changes. The archive is the source.
case "$1 ${PWD##*/}" in
"version "*) echo "rattle-kit" ;;
"lib exports_c")
    echo "crate one: modules loaded=70 checked=0"
    echo "logic=proved functions=2"
    echo "crate exports_c: modules loaded=8 checked=70"
    if grep -q wrong src/lib.rt; then echo "note: it is not proved"; echo "logic=not-proved"; exit 1; fi
    echo "axioms libc: none"
    echo "logic=proved functions=10"
    mkdir -p out && cp src/lib.rt out/libexports_c.a
    echo "$*" >>../../calls ;;
*) echo "unknown: $*"; exit 2 ;;
esac
"""
CC = """#!/bin/sh
while [ "$1" != -o ]; do shift; done
cp target/staticlib/libexports.a "$2"
"""
FIRST = "The first time every proof is checked, which takes a while; after that a second is enough."


class Build(unittest.TestCase):
    def setUp(self):
        self.folder = tempfile.mkdtemp()
        self.addCleanup(shutil.rmtree, self.folder)
        os.mkdir(os.path.join(self.folder, "tools"))
        os.makedirs(os.path.join(self.folder, "crates", "exports_c", "src"))
        self.write("crates.txt", "exports_c staticlib:\n")
        for tool in ("build", "shared-library"):
            shutil.copy(os.path.join(ROOT, "tools", tool), os.path.join(self.folder, "tools"))
        for name, script in (("rt", RT), ("cc", CC)):
            self.write(name, script)
            os.chmod(os.path.join(self.folder, name), 0o755)

    def write(self, name, text):
        with open(os.path.join(self.folder, name), "w", encoding="ascii") as file:
            file.write(text)

    def read(self, name):
        with open(os.path.join(self.folder, name), encoding="ascii") as file:
            return file.read()

    def make(self, source):
        self.write("crates/exports_c/src/lib.rt", source)
        path = self.folder + os.pathsep + os.environ["PATH"]
        return subprocess.run(
            ["tools/shared-library"], cwd=self.folder, env={"PATH": path, "CC": "cc"},
            capture_output=True, text=True, check=False,
        )

    def test_a_changed_source_never_runs_an_old_library(self):
        for source, said in (
            ("one", [FIRST, "proved exports_c", "making the library"]),
            ("one", []),
            ("two", ["proved exports_c", "making the library"]),
            ("two", []),
        ):
            made = self.make(source)
            self.assertEqual((made.returncode, made.stdout), (0, ""), made.stderr)
            self.assertEqual(made.stderr.splitlines(), said)
            self.assertEqual(self.read("target/m2m/libm2m.so"), source)
        self.assertEqual(self.read("calls"), "lib\n" * 2)

    def test_what_is_not_proved_is_told(self):
        self.make("one")
        made = self.make("wrong")
        self.assertNotEqual(made.returncode, 0)
        self.assertIn("it is not proved", made.stderr)

    def test_without_the_kit(self):
        command = [sys.executable, TOOL, "settle", SAMPLE]
        outcome = subprocess.run(command, env={"PATH": "/none"}, capture_output=True, text=True, check=False)
        self.assertEqual((outcome.returncode, outcome.stdout), (2, ""))
        self.assertIn("rt is not to be found", outcome.stderr)


if __name__ == "__main__":
    unittest.main()
