#!/usr/bin/env python3
"""Whether docs/TRACE.md names only what there is, and names every must-fail edit.

Each reference stands between backquotes, in one of the forms that the beginning of TRACE gives; words of the
code stand between double ones. A function under 'Contract' must have one. Prints how many references there
are; one that leads nowhere fails, and so does a line that is too long to read.
"""
import re
import sys
from pathlib import Path

ROOT = Path(__file__).resolve().parent.parent
TRACE = ROOT / "docs" / "TRACE.md"
LONGEST_LINE = 115
FOLDERS_OF_EDITS = re.compile(r"\w+/must-fail|second/mistakes")


def text_of(path):
    return path.read_text(encoding="utf-8") if path.is_file() else None


def antt_has(text, name):
    """A definition, a theorem, or a field or constructor of a type."""
    word = re.escape(name)
    return re.search(r"(?m)^\s*(?:(?:abbrev|unfoldable|pub|data|record|mod) )*%s(?=[ :]|$)" % word, text)


def rust_has(text, name):
    return re.search(r"\b(?:fn|struct|enum|const|mod|type|trait)\s+%s\b" % re.escape(name), text)


def python_has(text, name):
    return re.search(r"\b(?:def|class)\s+%s\b" % re.escape(name), text)


def sources(crate):
    return [text_of(s) for s in (ROOT / "crates" / crate / "src").glob("**/*.rt")]


def source_has(crate, name):
    return any(rust_has(text, name) for text in sources(crate))


def has_contract(crate, function):
    """Whether a function of a crate has an `ensures` between its name and its body."""
    head = r"\bfn %s\b(?:(?!\bfn )[\s\S])*?^\s*ensures\*?(?: \w+)? \{" % re.escape(function)
    return any(re.search(head, text, re.M) for text in sources(crate))


HAS = {".antt": antt_has, ".rs": rust_has, ".py": python_has}


def in_file(path, names):
    """The names that a file does not have; the file itself, where it is missing."""
    text = text_of(path)
    if text is None:
        return [str(path.relative_to(ROOT))]
    return [n for n in names if not HAS[path.suffix](text, n)]


def edits(place, names):
    """The files of edits that are named, below crates/ or in second/mistakes."""
    folder = ROOT / place if place == "second/mistakes" else ROOT / "crates" / place
    return [folder / (name + ".edit") for name in names]


def parts(reference):
    place, _, rest = reference.partition(": ")
    return place, [n.strip() for n in rest.split(",")] if rest else []


def missing(reference):
    """What of a reference can't be found."""
    place, names = parts(reference)
    if FOLDERS_OF_EDITS.fullmatch(place) and names:
        return [str(e.relative_to(ROOT)) for e in edits(place, names) if not e.is_file()]
    if re.fullmatch(r"\w+/(?:specs|proofs)/[\w/+]+\.antt", place):
        return in_file(ROOT / "crates" / place, names)
    if re.fullmatch(r"\w+\.rs", place):
        return in_file(ROOT / "second" / "tests" / place, names)
    if re.fullmatch(r"[\w/.-]+\.(?:rs|py)", place):
        return in_file(ROOT / place, names)
    if (ROOT / "crates" / place / "src").is_dir():
        return [f"{place}: {n}" for n in names if not source_has(place, n)]
    if re.fullmatch(r"[\w-]+(?:/[\w.-]+)*", place) and not names:
        known = [ROOT / "tests" / "cases" / place, ROOT / place]
        return [] if any(p.exists() for p in known) else [place]
    return [reference]


def without_contract(trace):
    """The functions under 'Contract' that have none."""
    for item in re.findall(r"(?m)^- Contract: (.*(?:\n  .*)*)", trace):
        for reference in references_of(item):
            place, names = parts(reference)
            if (ROOT / "crates" / place / "src").is_dir():
                yield from (f"{place}: {n}" for n in names if not has_contract(place, n))


def landmarks_missing(trace):
    """The landmarks that no list of them in the comparison has."""
    lists = [path for path in (ROOT / "compare" / "src").glob("**/*.rs") if "landmarks" in path.with_suffix("").parts]
    told = "".join("".join(re.findall(r"const \w+: \[&str; \d+\] = \[(.*?)\];", text_of(p), re.S)) for p in lists)
    for named in re.findall(r'landmarks? ((?:"[^"]+"(?:, )?)+)', trace):
        yield from (name for name in re.findall(r'"([^"]+)"', named) if f'"{name}"' not in told)


def references_of(text):
    """What stands between single backquotes, white space made even."""
    return re.findall(r"`([^`]+)`", re.sub(r"\s+", " ", re.sub(r"``.*?``", "", text, flags=re.S)))


def main():
    trace = text_of(TRACE)
    body = trace.split("## Demands", 1)[1]
    references = references_of(body)
    lines = enumerate(trace.splitlines(), 1)
    wrong = [f"line {n}: {len(line)} characters" for n, line in lines if len(line) > LONGEST_LINE]
    wrong += [f"not found: {m} (in `{r}`)" for r in references for m in missing(r)]
    wrong += [f"no contract: {name}" for name in without_contract(body)]
    wrong += [f"no landmark: {name}" for name in landmarks_missing(re.sub(r"\s+", " ", body))]
    named = {e for r in references for e in edits(*parts(r)) if FOLDERS_OF_EDITS.fullmatch(parts(r)[0])}
    every = set(ROOT.glob("crates/*/must-fail/*.edit"))
    wrong += [f"not named: {e.relative_to(ROOT)}" for e in sorted(every - named)]
    counts = f"{len(named & every)} of {len(every)} must-fail edits are named"
    print(f"{len(references)} references of docs/TRACE.md; {counts}")
    if wrong:
        sys.exit("\n".join(wrong))


if __name__ == "__main__":
    main()
