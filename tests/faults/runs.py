"""What the programs' runs share: a preloaded shared object (shim.c) that makes chosen calls fail, and what must hold of
every program then."""
import errno
import os
import re
import resource
import signal
import subprocess
import tempfile
import threading
from contextlib import contextmanager

HERE = os.path.dirname(os.path.abspath(__file__))
ROOT = os.path.dirname(os.path.dirname(HERE))


def content(path):
    with open(os.path.join(ROOT, path), "rb") as file:
        return file.read()


SHEET, LIST = content("crates/settle/data/sheet.bin"), content("crates/settle/data/entitle.bin")
# The list that made an accepted statement from its first 21 bytes: the flowgate's name stands in it twice.
REPEATED = LIST + LIST


def meaning(number):
    """What a refusal means: the words of its row of docs/REFUSALS.md."""
    return re.search(rb"^\| %d \| .*? \| (.*) \|$" % number, content("docs/REFUSALS.md"), re.M).group(1)


def why(number):
    return os.strerror(number).encode()


def told_by(program, name, number):
    """The line that tells a failure."""
    return b"%s: %s: %s\n" % (program.encode(), os.fsencode(name), why(number))


class Runs:
    """Runs of a program in a folder of its own; what it prints on the files of `put` where nothing fails is `whole`."""

    def __init__(self, program, shim, folder, arguments, whole):
        self.program, self.shim, self.folder, self.count = program, shim, folder, 0
        self.arguments, self.whole = arguments, whole

    def told(self, name, number):
        return told_by(os.path.basename(self.program), name, number)

    def __call__(self, faults="", arguments=None, **how):
        """The run's standard output, standard error and status."""
        self.count += 1
        environment = {"PATH": os.environ.get("PATH", ""), "LC_ALL": "C"}
        if faults:
            environment.update(LD_PRELOAD=self.shim, FAULTS=faults)
        run = subprocess.run(
            [self.program, *(self.arguments if arguments is None else arguments)],
            cwd=self.folder,
            env=environment,
            stdin=how.pop("stdin", subprocess.DEVNULL),
            stdout=how.pop("stdout", subprocess.PIPE),
            stderr=how.pop("stderr", subprocess.PIPE),
            timeout=60,
            **how,
        )
        return run.stdout, run.stderr, run.returncode

    def put(self, sheet=SHEET, entitlements=LIST):
        for name, bytes_ in (("sheet.bin", sheet), ("entitle.bin", entitlements)):
            path = os.path.join(self.folder, name)
            if os.path.lexists(path):
                os.rmdir(path) if os.path.isdir(path) and not os.path.islink(path) else os.unlink(path)
            if bytes_ is not None:
                with open(path, "wb") as file:
                    file.write(bytes_)

    def path(self, name):
        return os.path.join(self.folder, name)


def same(found, out, err=b"", status=0, of=""):
    if found != (out, err, status):
        raise AssertionError("%s\nexpected %r\nfound    %r" % (of, (out, err, status), found))


@contextmanager
def pipe(path, data):
    """A named pipe, fed in pieces."""
    os.mkfifo(path)

    def feed():
        with open(path, "wb", buffering=0) as fed:
            for at in range(0, len(data), 50):
                fed.write(data[at : at + 50])

    feeder = threading.Thread(target=feed)
    feeder.start()
    yield
    feeder.join()


def interrupted_calls(run, files):
    """A call that a signal interrupts is made again, and short ones go on: nothing is to be seen of it."""
    run.put()
    calls = ["open:%d" % n for n in range(1, files + 1)] + ["read:%d" % n for n in range(1, 2 * files + 1)]
    for call in [*calls, "write:1"]:
        same(run(call + ":4"), run.whole, of=call + " interrupted")
    many = ["%s:%d:4" % (call, n) for call in ("open", "read", "write") for n in range(1, 40)]
    same(run(" ".join(many)), run.whole, of="many calls interrupted")
    for k in (1, 2, 3, 7, 20, 21, 22, 100, 329, 330, 331):
        same(run("read:*:short=%d write:*:short=%d" % (k, k)), run.whole, of="%d bytes a call" % k)
    twice = ["%s:%d:4" % (call, n) for call in ("read", "write") for n in range(1, 700, 2)]
    same(run(" ".join(twice + ["read:*:short=1", "write:*:short=1"])), run.whole, of="interrupted between bytes")


def storing(run):
    """A regular file that was written to is stored, and what fails then is told. Other outputs have nothing to store."""
    run.put()
    for numbers, told in (((errno.EIO, errno.ENOSPC, errno.EDQUOT), run.told), ((errno.EINTR, errno.EINVAL), lambda *_: b"")):
        for number in numbers:
            with open(run.path("out"), "w+b") as file:
                _, err, status = run("sync:1:%d" % number, stdout=file)
                file.seek(0)
                same((file.read(), err, status), run.whole, told("standard output", number), of="storing: %s" % why(number))
    same(run("sync:*:5"), run.whole, of="a pipe is not stored")


def failing_outputs(run):
    """A full disk, a closed output, a pipe that nobody reads, a limit on the file's size, a file that can't be stored."""
    storing(run)
    run.put()
    with open("/dev/full", "wb") as full:
        same(run(stdout=full), None, run.told("standard output", errno.ENOSPC), of="a full disk")
    for closed in ((1,), (0, 1)):
        same(
            run(preexec_fn=lambda: [os.close(fd) for fd in closed]),
            b"",
            run.told("standard output", errno.EBADF),
            of="closed output",
        )
    for closed in ((0,), (2,), (0, 2)):
        same(run(preexec_fn=lambda: [os.close(fd) for fd in closed]), run.whole, of="closed %r" % (closed,))
    for name, limit, by in (("pipe", None, signal.SIGPIPE), ("size", 50, signal.SIGXFSZ)):
        for ignored in (False, True):

            def begin():
                signal.signal(by, signal.SIG_IGN if ignored else signal.SIG_DFL)
                if limit is not None:
                    resource.setrlimit(resource.RLIMIT_FSIZE, (limit, limit))

            if limit is None:
                reader, writer = os.pipe()
                os.close(reader)
                out, err, status = run(stdout=writer, preexec_fn=begin, restore_signals=False)
                os.close(writer)
                number, left = errno.EPIPE, b""
            else:
                with open(run.path("out"), "w+b") as file:
                    out, err, status = run(stdout=file, preexec_fn=begin, restore_signals=False)
                    file.seek(0)
                    left = file.read()
                number = errno.EFBIG
                assert left == run.whole[:limit], left
            # By default the system ends the program at a file's limit, which its status tells. std ignores SIGPIPE.
            if ignored or name == "pipe":
                assert (err, status) == (run.told("standard output", number), 0), (name, err, status)
            else:
                assert status == -by, (name, err, status)


def said_by_page(run, page, arguments):
    """Usage says what the man page says, and opens no file."""
    text = content(page).decode()
    described = text.split(".SH DESCRIPTION\n")[1].split("\n.PP")[0].replace("\\(aq", "'").split()
    synopsis = re.sub(r"\\f.|\.B ", "", text.split(".SH SYNOPSIS\n")[1].split("\n.SH")[0]).split()
    out, err, status = run(arguments=arguments)
    usage, rest = err.decode().split("\n", 1)
    assert (out, status) == (b"", 0) and usage.split() == ["usage:", *synopsis], usage
    assert rest.split() == described, rest
    same(run("open:*:5 read:*:5", arguments=arguments), b"", err, of="usage")


def run_all(program, arguments, whole, parts):
    """Runs the parts, each handed the runs of the program."""
    with tempfile.TemporaryDirectory() as folder:
        os.chmod(folder, 0o755)
        shim = os.path.join(folder, "shim.so")
        source = os.path.join(HERE, "shim.c")
        subprocess.run(["cc", "-shared", "-fPIC", "-O1", "-Wall", "-Werror", "-o", shim, source], check=True)
        files = os.path.join(folder, "files")
        os.mkdir(files)
        run = Runs(os.path.abspath(program), shim, files, arguments, whole)
        for part in parts:
            part(run)
        print("%s: %d runs, every failure told and nothing accepted from a part of a file" % (program, run.count))
