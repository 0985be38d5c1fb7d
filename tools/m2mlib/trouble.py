"""What ends a run, and how bytes that are no plain text are shown in a message."""


import sys
from contextlib import suppress


class Trouble(Exception):
    """Why something can't be done, in a sentence."""


class Fault(Trouble):
    """A line that can't be turned into bytes: what is wrong, the form it should have, and the line."""

    def __init__(self, message, form="", final=False):
        super().__init__(message)
        self.message, self.form, self.final, self.line = message, form, final, None

    def at(self, line):
        """The fault with its line, unless an inner line has told its own already."""
        self.line = self.line or line
        return self

    def __str__(self):
        return self.told(self.line.where) if self.line else self.message

    def told(self, where):
        """The fault in words, with its line and the form it should have."""
        parts = [f"{where}: {self.message}", "it reads: " + shown(self.line.text.strip())]
        parts += ["its form: " + form for form in self.form.split("\n") if form]
        return "\n    ".join(parts)


def warn(line):
    """Tells a line on standard error, if that can be written to."""
    with suppress(OSError, AttributeError):
        sys.stderr.write(f"m2m: {line}\n")
        sys.stderr.flush()


def shown(text, most=200):
    """Text whose characters are bytes, for a message: as UTF-8, without control bytes, not too long."""
    plain = text.encode("latin-1", "replace").decode("utf-8", "backslashreplace")
    plain = "".join(c if c.isprintable() else c.encode("unicode_escape").decode() for c in plain)
    return plain if len(plain) <= most else plain[:most] + " .."
