"""The man page, made from the help text: tools/m2m manual > docs/m2m.1

In the help text a line at the margin is a heading, four blanks begin a paragraph's line, and eight
a line that is printed as it stands.
"""

from itertools import groupby

TITLE = '.\\" Made by: tools/m2m manual > docs/m2m.1\n.TH M2M 1\n'


def manual(text):
    """The help text as troff."""
    parts = [TITLE]
    for kind, lines in groupby(text.splitlines(), kind_of):
        if kind == "heading":
            parts += [f".SH {line}\n" for line in lines]
        elif kind == "paragraph":
            parts += [".PP\n", *(escaped(line[4:]) for line in lines)]
        elif kind == "as it stands":
            parts += [".PP\n.RS\n.nf\n", *(escaped(line[8:]) for line in lines), ".fi\n.RE\n"]
    return "".join(parts)


def kind_of(line):
    if not line:
        return "blank"
    if not line.startswith(" "):
        return "heading"
    return "as it stands" if line.startswith(" " * 8) else "paragraph"


def escaped(line):
    """A line that troff prints as it is."""
    line = line.replace("\\", "\\e").replace("-", "\\-").replace("'", "\\(aq")
    return ("\\&" if line[:1] == "." else "") + line + "\n"
