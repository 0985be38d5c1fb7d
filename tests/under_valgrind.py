#!/usr/bin/env python3
"""under_valgrind.py PROGRAM.. COUNT: the settlement under valgrind.

The library settles and explains every case file in one process, each input in a block of memory of just its length, and
adds it to hours. Each program, `settle`, `explain` or `hour`, runs on COUNT of its case files, spread over all of them, and
on what it meets otherwise: missing files, a folder, usage.
"""
import os
import subprocess
import sys
import tempfile

ROOT = os.path.dirname(os.path.dirname(os.path.abspath(__file__)))
ARCHIVE = os.path.join(ROOT, "target/staticlib/libexports.a")


def cases(folder):
    """The name of each case below a folder of tests/, and its sheets, each with its list."""
    text = subprocess.run(
        [os.path.join(ROOT, "tools/m2m"), "text", "cases", os.path.join(ROOT, "tests", folder)],
        check=True,
        capture_output=True,
        text=True,
    ).stdout
    name, intervals = None, []
    for line in text.splitlines():
        word, _, rest = line.partition(" ")
        if word == "case":
            name, intervals = rest, []
        elif word == "sheet":
            intervals.append([bytes.fromhex(rest)])
        elif word == "entitlements":
            intervals[-1].append(bytes.fromhex(rest))
        elif word == "end":
            yield name, intervals


def watched(what, program, *arguments, told="", **how):
    """Runs a program under valgrind, which must find nothing; standard error holds what the program itself says."""
    run = subprocess.run(
        ["valgrind", "-q", "--error-exitcode=99", "--leak-check=full", program, *arguments],
        capture_output=True,
        text=True,
        env=dict(os.environ, LC_ALL="C"),
        **how,
    )
    if run.returncode != 0 or told not in run.stderr or run.stderr.count("\n") != told.count("\n"):
        sys.exit("%s: status %d\n%s" % (what, run.returncode, run.stderr))
    return run.stdout


def library(every, folder):
    program = os.path.join(folder, "every_case")
    source = os.path.join(ROOT, "tests/link/every_case.c")
    include = "-I" + os.path.join(ROOT, "include")
    subprocess.run(
        ["cc", "-std=c11", "-D_GNU_SOURCE", "-g", "-Wall", "-Wextra", "-Werror", include, "-o", program, source, ARCHIVE],
        check=True,
    )
    lines = []
    for _, intervals in every:
        lines += ["hour\n", *(" ".join(part.hex() or "-" for part in interval) + "\n" for interval in intervals)]
    watched("the library", program, input="".join(lines))


def write(folder, name, content):
    with open(os.path.join(folder, name), "wb") as out:
        out.write(content)


def spread(every, count):
    return every[:: -(-len(every) // count)]


def interval(program, count, folder):
    """A program that takes a sheet and a list: `settle` or `explain`."""
    chosen = spread(list(cases("cases")), count)
    for name, [(sheet, entitlements)] in chosen:
        write(folder, "sheet.bin", sheet)
        write(folder, "entitle.bin", entitlements)
        watched(name, program, cwd=folder)
    watched("two names", program, "sheet.bin", "entitle.bin", cwd=folder)
    name = os.path.basename(program)
    missing = "%s: none: No such file or directory\n" % name
    watched("missing", program, "none", "entitle.bin", told=missing, cwd=folder)
    watched("a folder", program, "sheet.bin", ".", told="%s: .: Is a directory\n" % name, cwd=folder)
    usage = subprocess.run([program, "--help"], capture_output=True, text=True).stderr
    watched("usage", program, "--help", told=usage, cwd=folder)
    return len(chosen)


def hour(program, count, folder):
    """The program takes one list: that of the case's last sheet."""
    chosen = spread(list(cases("hours")), count)
    for name, intervals in chosen:
        names = ["%d.bin" % k for k in range(len(intervals))]
        for file, (sheet, entitlements) in zip(names, intervals):
            write(folder, file, sheet)
            write(folder, "entitle.bin", entitlements)
        watched(name, program, "entitle.bin", *names, cwd=folder)
    missing = "hour: none: No such file or directory\n"
    watched("a missing list", program, "none", "0.bin", told=missing, cwd=folder)
    watched("a missing sheet", program, "entitle.bin", "none", "0.bin", told=missing, cwd=folder)
    watched("a folder", program, "entitle.bin", ".", told="hour: .: Is a directory\n", cwd=folder)
    usage = subprocess.run([program], capture_output=True, text=True).stderr
    watched("usage", program, told=usage, cwd=folder)
    return len(chosen)


RUNS = {"settle": interval, "explain": interval, "hour": hour}


def main(programs, count):
    every = [*cases("cases"), *cases("hours")]
    with tempfile.TemporaryDirectory() as folder:
        library(every, folder)
        done = ["%d cases in the library" % len(every)]
        for program in map(os.path.abspath, programs):
            name = os.path.basename(program)
            done.append("%d in %s" % (RUNS[name](program, count, folder), name))
    print(", ".join(done) + ", nothing found")


main(sys.argv[1:-1], int(sys.argv[-1]))
