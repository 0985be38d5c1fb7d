#!/usr/bin/env python3
"""What a reader must believe, by following the imports from the contracts of the entry points, and of the parts of
the generation-to-load routine, which are read beside the schedule.

A contract names definitions; a definition's file imports others. Every file so reached must stand in a
crate's specs/, and no other (specs/inner/ is for what only inner contracts cite); README's reading list must name
each, and name no other, and say how many lines they have. Prints the files with their lines.
"""
import re
import sys
from pathlib import Path

ROOT = Path(__file__).resolve().parent.parent
C_FUNCTIONS = (
    "settle", "report", "read", "entitlement", "hour_open", "hour_add", "hour_totals", "read_draft", "write_draft",
    "explain",
)
ENTRY_POINTS = [
    ("settlement", "settle"),
    ("settlement", "settle_interval"),
    ("report", "report"),
    ("report", "write_output"),
    ("sheet", "read"),
    ("entitlements", "find"),
    ("listing", "print"),
    ("generation_to_load", "loads"),
    ("generation_to_load", "generation"),
    ("generation_to_load", "flow"),
    ("hour_cells", "seconds_of"),
    ("hour_cells", "amount_of"),
    ("hours", "open"),
    ("hours", "take"),
    ("hours", "add"),
    ("hours", "totals"),
    ("grown_hours", "totals"),
    ("hour_report", "add_sheet"),
    ("hour_report", "write_hour"),
    ("exports", "m2m_settle"),
    ("exports", "m2m_report"),
    ("exports", "m2m_read"),
    ("exports", "m2m_entitlement"),
    ("exports", "m2m_hour_open"),
    ("exports", "m2m_hour_add"),
    ("exports", "m2m_hour_totals"),
    ("draft_reader", "read_draft"),
    ("sheet_writer", "write_draft"),
    ("exports", "m2m_read_draft"),
    ("exports", "m2m_write_draft"),
    ("explanation", "locate"),
    ("explanation", "explain"),
    ("explanation_report", "write_explanation"),
    ("exports", "m2m_explain"),
    *(("exports_c", f"m2m_{name}") for name in C_FUNCTIONS),
    ("transfers", "read_all"),
    ("transfers", "write_all"),
    ("files", "load"),
    ("files", "load_pair"),
    ("files", "send"),
]
OF_CRATE = re.compile(r"\buse Rattle\.(\w+)\.specs\.([\w.']+?)(?:\.\{([^}]*)\}| as (\S+?))?;?$", re.M)


def imports(text):
    """(crate, module path, names) of each import from a crate's specs, the names as they are used here."""
    for crate, module, names, alias in OF_CRATE.findall(text):
        items = names.split(",") if names else [alias or module.split(".")[-1]]
        yield crate, module, [item.split(" as ")[-1].strip() for item in items]


def spec_file(crate, module):
    """The file of a module; none for the kit's, and for the types that it makes from the source's structs."""
    if module.split(".")[0] == "declared" or not (ROOT / "crates" / crate).is_dir():
        return None
    return ROOT / "crates" / crate / "specs" / (module.replace(".", "/") + ".antt")


def contract(crate, function):
    """The source file of a function, and the words of its contract."""
    for source in sorted((ROOT / "crates" / crate / "src").glob("**/*.rt")):
        text = source.read_text(encoding="utf-8")
        found = re.search(r"^\s*pub (?:extern \"C\" )?fn %s\b.*?^\s*\{$" % function, text, re.M | re.S)
        if found:
            return text, set(re.findall(r"[^\s(){},;]+", found.group(0)))
    sys.exit(f"reading list: no public function {crate}::{function}")


def reached():
    """Every spec file that the entry points' contracts rest on."""
    waiting = []
    for crate, function in ENTRY_POINTS:
        text, words = contract(crate, function)
        for of, module, names in imports(text):
            if words.intersection(names) and spec_file(of, module):
                waiting.append(spec_file(of, module))
    found = set()
    while waiting:
        path = waiting.pop()
        if path in found:
            continue
        found.add(path)
        if not path.is_file():
            sys.exit(f"reading list: no file {path.relative_to(ROOT)}")
        for of, module, _ in imports(path.read_text(encoding="utf-8")):
            if spec_file(of, module):
                waiting.append(spec_file(of, module))
    return {str(p.relative_to(ROOT)) for p in found}


def listed():
    """The spec files that README's reading list names."""
    readme = (ROOT / "README.md").read_text(encoding="utf-8")
    part = readme.split("## How to read the proof")[1].split("\n## ")[0]
    return set(re.findall(r"crates/\w+/specs/[\w/]+\.antt", part))


def outside():
    """The spec files that stand outside specs/inner/, but for those that only declare others."""
    found = ROOT.glob("crates/*/specs/*.antt")
    return {str(p.relative_to(ROOT)) for p in found if p.name not in ("Lib.antt", "inner.antt")}


def lines(path):
    """Lines of definitions: no blank ones, no comments, no imports."""
    return sum(
        1
        for line in (ROOT / path).read_text(encoding="utf-8").splitlines()
        if line.strip() and not re.match(r"(?:pub )?use ", line) and not line.strip().startswith("--")
    )


def main():
    believed, named = reached(), listed()
    wrong = [f"{p}: an entry point's contract rests on it, so it belongs into specs/" for p in believed if "/inner/" in p]
    wrong += [f"{p}: not in README's reading list" for p in believed - named]
    wrong += [f"{p}: in README's reading list, and no entry point's contract rests on it" for p in named - believed]
    wrong += [f"{p}: only inner contracts cite it, so it belongs below specs/inner/" for p in outside() - believed]
    for path in sorted(believed):
        print(f"{lines(path):5} {path}")
    size = f"{sum(map(lines, believed))} lines of definitions in {len(believed)} files"
    print(f"to believe: {size}")
    if size not in " ".join((ROOT / "README.md").read_text(encoding="utf-8").split()):
        wrong.append(f"README does not say '{size}'")
    if wrong:
        sys.exit("\n".join(sorted(wrong)))


if __name__ == "__main__":
    main()
