"""The verbs of m2m and how they are called. A new verb is a row of VERBS and its words in help.txt."""

import getopt
import os
import sys
from typing import Callable, NamedTuple

from .cases import case_files, case_lines
from .earlier import tell_earlier
from .explain import explain
from .files import read_file, read_input
from .forms import show
from .hour import hour
from .looks import check, show_file
from .manual import manual
from .records import LIST, SHEET
from .setting import set_fields
from .settle import settle
from .text import Text
from .trouble import Trouble, warn

HELP = os.path.join(os.path.dirname(os.path.abspath(__file__)), "help.txt")


class Call(NamedTuple):
    """The arguments of a verb, its options, and where it prints."""

    arguments: list
    options: dict
    output: object


class Verb(NamedTuple):
    """What a verb does; how many arguments it takes at least and at most; its options."""

    run: Callable
    least: int
    most: int
    options: tuple = ()


def text(call):
    """The verb text: its jobs, both ways."""
    job, *paths = call.arguments
    if job not in TEXT_JOBS or bool(paths) != (job == "cases"):
        raise Trouble(f"'text' wants one of {', '.join(TEXT_JOBS)}; 'cases' alone takes paths")
    for part in TEXT_JOBS[job](paths):
        call.output.write(part)
    return 0


def to_bytes(paths):
    yield Text().read(read_input()).data()


def shown_sheet(paths):
    data = read_input()
    tell_earlier("standard input", data)
    yield show(data, SHEET).encode("ascii")


def cases(paths):
    for path in case_files(paths):
        for line in case_lines(path):
            yield os.fsencode(line + "\n")


TEXT_JOBS = {
    "sheet": to_bytes,
    "entitlements": to_bytes,
    "show-sheet": shown_sheet,
    "show-entitlements": lambda paths: [show(read_input(), LIST).encode("ascii")],
    "cases": cases,
}


def tell_help(call):
    call.output.write(read_file(HELP))
    return 0


def tell_manual(call):
    call.output.write(manual(read_file(HELP).decode("utf-8")).encode("utf-8"))
    return 0


SEE = "'m2m --help' tells all"
ANY = 1 << 62
VERBS = {
    "settle": Verb(settle, 1, ANY, ("words", "json", "csv", "list=", "against=")),
    "explain": Verb(explain, 1, ANY, ("list=",)),
    "hour": Verb(hour, 1, ANY, ("words", "json", "list=")),
    "set": Verb(set_fields, 2, ANY, ("to=", "over")),
    "check": Verb(check, 1, ANY),
    "show": Verb(show_file, 1, 1),
    "text": Verb(text, 1, ANY),
    "help": Verb(tell_help, 0, ANY),
    "manual": Verb(tell_manual, 0, 0),
}


def call_verb(arguments, output):
    """Runs what the arguments ask for; the status."""
    word, *rest = arguments or [""]
    word = "help" if word in ("-h", "--help") else word
    if word not in VERBS:
        said = f"'{word}' is no verb" if word else "a verb is wanted"
        raise Trouble(f"{said}: there are {', '.join(VERBS)}; {SEE}")
    verb = VERBS[word]
    try:
        options, rest = getopt.gnu_getopt(rest, "h", ["help", *verb.options])
    except getopt.GetoptError as error:
        raise Trouble(f"{word}: {error.msg}; {SEE}") from None
    if any(option in ("-h", "--help") for option, _ in options):
        verb, rest = VERBS["help"], []
    if not verb.least <= len(rest) <= verb.most:
        count = "more" if len(rest) < verb.least else "fewer"
        raise Trouble(f"{word}: {count} arguments are wanted; {SEE}")
    return verb.run(Call(rest, dict(options), output))


def main(arguments):
    """The whole run: its status, and no traceback whatever happens to the input or the output."""
    output = sys.stdout.buffer if sys.stdout is not None else None
    try:
        if output is None:
            raise Trouble("standard output is closed")
        status = call_verb(arguments, output)
        output.flush()
        return status
    except Trouble as trouble:
        status, said = 2, str(trouble)
    except BrokenPipeError:
        status, said = 2, ""
    except OSError as error:
        status, said = 2, f"can't write: {error.strerror}"
    except KeyboardInterrupt:
        status, said = 130, ""
    if said:
        warn(said)
    abandon(output)
    return status


def abandon(output):
    """Prints what is still to be printed; where that fails nothing more is tried at the end."""
    try:
        if output is not None:
            output.flush()
    except OSError:
        os.dup2(os.open(os.devnull, os.O_WRONLY), output.fileno())
