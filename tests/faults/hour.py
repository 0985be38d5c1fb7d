#!/usr/bin/env python3
"""hour.py PROGRAM: the program `hour` on files and outputs that fail.

Whatever fails must be told on standard error, and the hour takes no interval from a part of a file.
"""
import errno
import os
import sys
from functools import partial

sys.dont_write_bytecode = True

from runs import LIST, REPEATED, SHEET, failing_outputs, interrupted_calls, pipe, run_all, said_by_page, same, told_by, why

AMOUNT = 1328125
TAKEN = b"amount %d\n" % AMOUNT
told = partial(told_by, "hour")


def hour(*answers, seconds=300):
    """What is printed of an hour that answers so; of sheet S each amount, of so many seconds."""
    count = answers.count(TAKEN)
    amount = AMOUNT * count
    lines = b"seconds %d\namount %d\nNYISO %d\nPJM %d\n" % (seconds * count, amount, -amount, amount)
    return b"".join(answers) + lines


def refused(number):
    return b"refused %d\n" % number


BOTH = hour(TAKEN, TAKEN)
NO_LIST = hour(refused(15), refused(15))
NO_FIRST, NO_SECOND = hour(refused(1), TAKEN), hour(TAKEN, refused(1))
ARGUMENTS = ["entitle.bin", "sheet.bin", "sheet.bin"]


def reading(run):
    """A read that fails, at whatever byte, leaves nothing of its file; the others stand."""
    run.put(entitlements=REPEATED)
    same(run(), hour(refused(14), refused(14)), of="a name stands twice")
    for k in range(len(REPEATED) + 1):
        faults = "read:%d:5 read:*:short=1" % (1 + k)
        same(run(faults), NO_LIST, told("entitle.bin", errno.EIO), of="the list, behind byte %d" % k)
    run.put()
    same(run(), BOTH, of="no fault")
    to_the_end = len(SHEET) + 1
    for k in range(0, to_the_end, 3):
        first = len(LIST) + 1 + k
        for at, output in ((first, NO_FIRST), (first + to_the_end, NO_SECOND)):
            faults = "read:%d:5 read:*:short=1" % (1 + at)
            same(run(faults), output, told("sheet.bin", errno.EIO), of="a sheet, behind byte %d" % k)
    for number in (errno.EIO, errno.EISDIR, errno.ENOMEM, errno.EAGAIN, errno.ESTALE, errno.EBADF, errno.ETIMEDOUT):
        for call, output in enumerate((NO_LIST, NO_LIST, NO_FIRST, NO_FIRST, NO_SECOND, NO_SECOND)):
            name = ARGUMENTS[call // 2]
            same(run("read:%d:%d" % (1 + call, number)), output, told(name, number), of=why(number))
        every = b"".join(told(name, number) for name in ARGUMENTS)
        same(run("read:*:%d" % number), hour(refused(1), refused(1)), every, of=why(number))
    same(run("close:1:5 close:2:5 close:3:5"), BOTH, of="closing the input")


def interrupted(run):
    interrupted_calls(run, files=3)


def writing(run):
    """A write that fails is told, once; what stands before it is the output's beginning."""
    run.put()
    for number in (errno.EIO, errno.ENOSPC, errno.EPIPE, errno.EFBIG, errno.EDQUOT):
        same(run("write:1:%d" % number), b"", told("standard output", number), of=why(number))
    for k in range(len(BOTH)):
        faults = "write:%d:28 write:*:short=1" % (1 + k)
        same(run(faults), BOTH[:k], told("standard output", errno.ENOSPC), of="behind byte %d" % k)
    same(run("read:1:5 tell:*:5"), NO_LIST, b"", of="standard error fails")
    same(run("read:1:5 tell:*:short=1"), NO_LIST, told("entitle.bin", errno.EIO), of="told byte by byte")
    same(run("read:1:5", preexec_fn=lambda: os.close(2)), NO_LIST, of="closed standard error")


def unreadable(run):
    """A file that is missing, a folder, or not to be read counts as empty, and is told."""
    run.put(entitlements=None)
    same(run(), NO_LIST, told("entitle.bin", errno.ENOENT), of="no list")
    os.mkdir(run.path("entitle.bin"))
    same(run(), NO_LIST, told("entitle.bin", errno.EISDIR), of="a folder for the list")
    run.put()
    long = "x" * 5000
    for name, number in (("none", errno.ENOENT), (".", errno.EISDIR), ("", errno.ENOENT), (long, errno.ENAMETOOLONG)):
        for sheets, output in (([name, "sheet.bin"], NO_FIRST), (["sheet.bin", name], NO_SECOND)):
            found = run(arguments=["entitle.bin", *sheets])
            same(found, output, told(name[:4096], number), of="a sheet named %r" % name[:9])
    for number in (errno.EACCES, errno.EMFILE, errno.ENXIO, errno.EIO):
        for call, output in enumerate((NO_LIST, NO_FIRST, NO_SECOND), 1):
            found = run("open:%d:%d" % (call, number))
            same(found, output, told(ARGUMENTS[call - 1], number), of="open: %s" % why(number))


def named(run):
    """hour LIST SHEET..: any number of sheets, each read once and in its order."""
    run.put()
    same(run(arguments=["entitle.bin"]), hour(), of="no sheet")
    same(run(arguments=["none"]), hour(), told("none", errno.ENOENT), of="no sheet, and no list")
    same(run(arguments=["sheet.bin", "entitle.bin"]), hour(refused(1)), of="the other way round")
    same(run(arguments=["./entitle.bin", run.path("sheet.bin")]), hour(TAKEN))
    with open(run.path("long"), "wb") as file:
        file.write(SHEET + b"\6" * 70000)
    same(run(arguments=["entitle.bin", "long", "sheet.bin"]), hour(refused(10), TAKEN), of="a long file")
    for count in (13, 2000):
        answers = [TAKEN] * 12 + [refused(25)] * (count - 12)
        same(run(arguments=["entitle.bin", *["sheet.bin"] * count]), hour(*answers), of="%d sheets" % count)
    answers = [refused(1), TAKEN] * 12 + [refused(1), refused(25)] * 488
    found = run(arguments=["entitle.bin", *["none", "sheet.bin"] * 500])
    same(found, hour(*answers), told("none", errno.ENOENT) * 500, of="each second of 1000 missing")
    with open(run.path("sheet.bin"), "rb") as sheet:
        same(run(arguments=["entitle.bin", "/dev/stdin", "sheet.bin"], stdin=sheet), BOTH, of="standard input by name")
    with pipe(run.path("pipe"), SHEET):
        same(run(arguments=["entitle.bin", "sheet.bin", "pipe"]), BOTH, of="a named pipe")


def manual(run):
    said_by_page(run, "docs/hour.1", [])


run_all(sys.argv[1], ARGUMENTS, BOTH, (reading, interrupted, writing, failing_outputs, unreadable, named, manual))
