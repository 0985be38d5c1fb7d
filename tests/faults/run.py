#!/usr/bin/env python3
"""run.py PROGRAM: `settle` or `explain`, which take the same two files, on files and outputs that fail.

Whatever fails must be told on standard error, and nothing may be accepted from a part of a file.
"""
import errno
import os
import stat
import sys
from functools import partial
from typing import NamedTuple

sys.dont_write_bytecode = True

from runs import (
    LIST, REPEATED, SHEET, content, failing_outputs, interrupted_calls, meaning, pipe, run_all, said_by_page, same, told_by,
    why,
)

LONG = SHEET + b"\6" * 70000
END = len(SHEET)


class Prints(NamedTuple):
    """What a program prints of sheet S and its list, and of what is refused."""

    accepted: bytes
    no_sheet: bytes
    no_list: bytes
    repeated: bytes  # the list has a name twice
    exchanged: bytes  # the sheet is given as the list, and the list as the sheet
    long: bytes  # the sheet goes on with surplus factors


def explained(number, start, end, *record):
    """A refusal as `explain` prints it: its meaning, its part of the sheet, and the record that stands there."""
    lines = [b"refused %d" % number, b"meaning %s" % meaning(number), b"from %d" % start, b"to %d" % end, *record]
    return b"".join(line + b"\n" for line in lines)


PRINTS = {
    "settle": Prints(content("crates/settle/stdout"), *(b"refused %d\n" % number for number in (1, 15, 14, 1, 10))),
    "explain": Prints(
        b"accepted\nreason the flow paid on is above the entitlement\n",
        explained(1, 0, 0),
        explained(15, END, END),
        explained(14, END, END),
        explained(1, 0, 1, b"kind 16 unknown", b"record 1", b"bytes 10"),
        explained(10, END, END + 7, b"kind 6 factor", b"record 14", b"bytes " + b"06" * 7),
    ),
}
NAME = os.path.basename(sys.argv[1])
prints, told = PRINTS[NAME], partial(told_by, NAME)


def reading(run):
    """A read that fails, at whatever byte, leaves nothing of its file."""
    run.put()
    same(run(), prints.accepted, of="no fault")
    run.put(entitlements=REPEATED)
    same(run(), prints.repeated, of="a name stands twice")
    same(run("read:3:short=21 read:4:5"), prints.no_list, told("entitle.bin", errno.EIO), of="behind the 21st byte")
    # Byte by byte up to each byte of the list, and of the sheet; the last place is where the end would be met.
    for k in range(len(REPEATED) + 1):
        faults = "read:%d:5 read:1:short=65536 read:2:short=65536 read:*:short=1" % (3 + k)
        same(run(faults), prints.no_list, told("entitle.bin", errno.EIO), of="the list, behind byte %d" % k)
    run.put()
    for k in range(len(SHEET) + 1):
        same(
            run("read:%d:5 read:*:short=1" % (1 + k)),
            prints.no_sheet,
            told("sheet.bin", errno.EIO),
            of="the sheet, behind byte %d" % k,
        )
    for number in (errno.EIO, errno.EISDIR, errno.ENOMEM, errno.EAGAIN, errno.ESTALE, errno.EBADF, errno.ETIMEDOUT):
        same(run("read:1:%d" % number), prints.no_sheet, told("sheet.bin", number), of=why(number))
        same(run("read:2:%d" % number), prints.no_sheet, told("sheet.bin", number), of=why(number))
        same(run("read:3:%d" % number), prints.no_list, told("entitle.bin", number), of=why(number))
        both = told("sheet.bin", number) + told("entitle.bin", number)
        same(run("read:*:%d" % number), prints.no_sheet, both, of=why(number))
    # Input is only read: that it can't be closed well takes nothing from it.
    same(run("close:1:5 close:2:5"), prints.accepted, of="closing the input")


def interrupted(run):
    interrupted_calls(run, files=2)


def writing(run):
    """A write that fails is told; what stands before it is the output's beginning."""
    run.put()
    for number in (errno.EIO, errno.ENOSPC, errno.EPIPE, errno.EFBIG, errno.EDQUOT):
        same(run("write:1:%d" % number), b"", told("standard output", number), of=why(number))
    for k in range(1, len(prints.accepted)):
        faults = "write:1:short=%d write:2:28" % k
        same(run(faults), prints.accepted[:k], told("standard output", errno.ENOSPC), of="the output, behind byte %d" % k)
    out, err, status = run("write:1:short=3 write:2:zero")
    assert (out, status) == (prints.accepted[:3], 0) and err.startswith(b"%s: standard output: " % NAME.encode()), err
    run.put(sheet=b"")
    same(run(), prints.no_sheet)
    for k in range(1, len(prints.no_sheet)):
        same(run("write:1:short=%d write:2:28" % k), prints.no_sheet[:k], told("standard output", errno.ENOSPC))
    # Standard error fails too: standard output is as before.
    run.put()
    same(run("read:3:5 tell:*:5"), prints.no_list, b"", of="standard error fails")
    same(run("read:3:5 tell:*:short=1"), prints.no_list, told("entitle.bin", errno.EIO), of="told byte by byte")


def outputs(run):
    failing_outputs(run)
    same(run("read:3:5", preexec_fn=lambda: os.close(2)), prints.no_list, of="closed standard error")


def unreadable(run):
    """A file that is missing, a folder, or not to be read counts as empty, and is told."""
    run.put(sheet=None)
    same(run(), prints.no_sheet, told("sheet.bin", errno.ENOENT), of="no sheet")
    run.put(entitlements=None)
    same(run(), prints.no_list, told("entitle.bin", errno.ENOENT), of="no list")
    run.put(sheet=None, entitlements=None)
    same(run(), prints.no_sheet, told("sheet.bin", errno.ENOENT) + told("entitle.bin", errno.ENOENT), of="neither")
    run.put(entitlements=None)
    os.mkdir(run.path("entitle.bin"))
    same(run(), prints.no_list, told("entitle.bin", errno.EISDIR), of="a folder")
    run.put(entitlements=None)
    os.symlink("entitle.bin", run.path("entitle.bin"))
    same(run(), prints.no_list, told("entitle.bin", errno.ELOOP), of="a link to itself")
    run.put()
    for number in (errno.EACCES, errno.EMFILE, errno.ENXIO, errno.EIO):
        same(run("open:1:%d" % number), prints.no_sheet, told("sheet.bin", number), of="open: %s" % why(number))
        same(run("open:2:%d" % number), prints.no_list, told("entitle.bin", number), of="open: %s" % why(number))
    if os.geteuid() == 0:
        os.chmod(run.path("sheet.bin"), 0)
        os.chmod(run.folder, os.stat(run.folder).st_mode | stat.S_IXOTH)
        same(run(user=65534), prints.no_sheet, told("sheet.bin", errno.EACCES), of="not readable")
    run.put()


def named(run):
    """SHEET LIST; any other count of arguments prints usage alone."""
    run.put(sheet=None, entitlements=None)
    for name, bytes_ in (("a sheet", SHEET), ("-", LIST), ("long", LONG), ("list", LIST)):
        with open(run.path(name), "wb") as file:
            file.write(bytes_)
    same(run(arguments=["a sheet", "-"]), prints.accepted)
    same(run(arguments=["./a sheet", run.path("-")]), prints.accepted)
    same(run(arguments=["-", "a sheet"]), prints.exchanged, of="the other way round")
    same(run(arguments=["a sheet", "none"]), prints.no_list, told("none", errno.ENOENT))
    same(run(arguments=["none", "nor this"]), prints.no_sheet, told("none", errno.ENOENT) + told("nor this", errno.ENOENT))
    same(run(arguments=["", "-"]), prints.no_sheet, told("", errno.ENOENT), of="an empty name")
    name = os.fsdecode(b"sheet\xff")
    with open(run.path(name), "wb") as file:
        file.write(SHEET)
    same(run(arguments=[name, "-"]), prints.no_sheet, told(name, errno.EILSEQ), of="a name that is no UTF-8")
    for length in (4095, 4096, 5000):
        name = "x" * length
        same(run(arguments=[name, "-"]), prints.no_sheet, told(name[:4096], errno.ENAMETOOLONG), of="a name of %d" % length)
    # More bytes than the buffer are not read: the one behind them can't fail. The bytes that were read decide.
    same(run("read:2:5", arguments=["long", "list"]), prints.long, told("list", errno.EIO), of="a long file")
    same(run(arguments=["long", "list"]), prints.long, of="a long file")
    usage = b"usage: %s [SHEET LIST]\n" % NAME.encode()
    for arguments in (["--help"], ["-h"], ["a sheet"], ["a sheet", "-", "list"], ["--help", "-", "list", "long"]):
        out, err, status = run(arguments=arguments)
        assert (out, status) == (b"", 0) and err.startswith(usage) and err.count(b"\n") == 5, (arguments, err)
        same(run("open:*:5 read:*:5", arguments=arguments), b"", err, of="usage opens no file")
    with pipe(run.path("pipe"), SHEET):
        same(run(arguments=["pipe", "list"]), prints.accepted, of="a named pipe")
    with open(run.path("a sheet"), "rb") as sheet:
        same(run(arguments=["/dev/stdin", "list"], stdin=sheet), prints.accepted, of="standard input by name")


def manual(run):
    said_by_page(run, "docs/%s.1" % NAME, ["--help"])


run_all(sys.argv[1], [], prints.accepted, (reading, interrupted, writing, outputs, unreadable, named, manual))
