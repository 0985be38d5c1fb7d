#!/usr/bin/env python3
"""Respells the repository's own definitions and lemmas as today's Rattle spells names; run once, after port.py.

usage: tools/port_names.py [--list]    at the top of the repository

What is declared at the head of a line (or in a `module _` block) of specs/ and of the files of laws in proofs/, and the
fields of records there, goes to snake case: `readSheet` to `read_sheet`, `tie-away` to `tie_away`. Types and facts keep
their capital. Where a law would get a definition's name it gets `_lem`. Names are respelled where they are meant: in
files that declare or import them, and behind the name of a module of the repository's own. Code is left alone.
"""
import collections
import glob
import os
import re
import sys

WORD = r"[^\s(){}\[\];,.«»@\"`]+"
NAME = re.compile(r"(?<![^\s(){}\[\];,.«»@\"`])(" + WORD + ")")
HEAD = re.compile(r"((?:pub |abbrev |unfoldable |ruleset )*)(" + WORD + r")((?: (?!:)" + WORD + r")*?) ?(:(?= |$)|\(|\{|$)")
NOT = {"use", "unfolding", "infixl", "infixr", "infix", "mod", "open", "where", "module", "mutual", "record", "data"}
CRATES = [line.split(":")[0].split()[0] for line in open("crates.txt", encoding="utf-8") if line.strip() and not line.startswith("#")]


def spelled(name):
    parts = []
    for part in name.split("-"):
        part = {"getD": "get_or"}.get(part, part)
        if re.match(r"[a-zα-ω]", part):
            part = re.sub(r"(?<=[a-z0-9])([A-Zℤℕ])", lambda m: ("_" + m.group(1).lower()) if m.group(1).isascii() else "_" + m.group(1), part)
        parts.append(re.sub(r"_([A-Z])$", lambda m: "_" + m.group(1).lower(), part))
    return "_".join(parts) if all(parts) else name


def module_of(path):
    crate, rest = re.match(r"crates/([^/]+)/(.*)\.antt$", path).groups()
    return "Rattle." + crate + "." + rest.replace("/", ".")


def is_lemma_file(path):
    # proofs/F/Proof.antt and its like are a function's; proofs/X.antt are laws
    m = re.match(r"crates/[^/]+/proofs/(.*)\.antt$", path)
    return bool(m) and not re.search(r"(^|/)[a-z+][^/]*/[^/]*$", m.group(1))


def declared(path):
    """The names that a file declares: name -> 'lem' (proofs) or 'def' (specs); and its records' fields."""
    names, fields, mode = {}, set(), None
    for line in open(path, encoding="utf-8"):
        s = line.rstrip("\n")
        if not s.strip() or s.strip().startswith("--"):
            continue
        ind = len(s) - len(s.lstrip())
        if ind == 0:
            mode = None
            m = re.match(r"(?:pub |abbrev |unfoldable )*(record|data|module) ", s)
            if m:
                mode = m.group(1)
                continue
            m = HEAD.match(s)
            if m and m.group(2) not in NOT and (m.group(4) or "ruleset" in m.group(1)) and "=" not in m.group(3):
                for n in [m.group(2)] + m.group(3).split():
                    names[n] = "def" if "/specs/" in path else "lem"
        elif ind == 2 and mode:
            m = HEAD.match(s.strip())
            if m and m.group(2) not in NOT and m.group(4) and "=" not in m.group(3):
                for n in [m.group(2)] + m.group(3).split():
                    if mode == "record":
                        fields.add(n)
                    else:
                        names[n] = "def" if "/specs/" in path else "lem"
    return names, fields


files = sorted(p for p in glob.glob("crates/*/**/*.antt", recursive=True) if re.match(r"crates/[^/]+/(specs|proofs)/", p) and "/out/" not in p)
codes = sorted(p for p in glob.glob("crates/*/src/**/*.rt", recursive=True))
own, fields = {}, set()
for p in files:
    if "/specs/" in p or is_lemma_file(p):
        names, fs = declared(p)
        own[module_of(p)] = names
        fields |= fs

# one new name for each old name, the same everywhere; a law that would fall together with a definition gets _lem
kinds = collections.defaultdict(set)
for names in own.values():
    for n, k in names.items():
        kinds[n].add(k)
wanted = collections.defaultdict(set)
for n in kinds:
    wanted[spelled(n)].add(n)
new = {}
for to, olds in wanted.items():
    for n in sorted(olds):
        clash = len(olds) > 1 and kinds[n] == {"lem"} and any(o != n and ("def" in kinds[o] or o == to) for o in olds)
        new[n] = to + "_lem" if clash else to
    if len({new[n] for n in olds}) != len(olds):
        print("falls together:", to, sorted(olds), [m for m in own if any(n in own[m] for n in olds)])
newfields = {f: spelled(f) for f in fields if spelled(f) != f}
if "--list" in sys.argv:
    for n in sorted(new):
        if new[n] != n:
            print(n, new[n], "/".join(sorted(kinds[n])))
    for f in sorted(newfields):
        print("field", f, newfields[f])
    raise SystemExit
USE = re.compile(r"^(\s*(?:ghost )?(?:pub )?use )(Rattle\.(\w+)\.(?:specs|proofs)\.[^\s{;]*?)(?:\.\{([^}]*)\}|( as (\S+?)))?(;?)\s*$", re.M)
PATH = re.compile(r"Rattle\.(\w+)\.(?:specs|proofs)(?:\.[\w+'-]+)+")


def turned(path):
    text = open(path, encoding="utf-8").read()
    here, alias = {}, {}
    if path.endswith(".antt") and module_of(path) in own:
        here.update({n: new[n] for n in own[module_of(path)]})
    for m in USE.finditer(text):
        mod = m.group(2)
        if m.group(3) not in CRATES:
            continue
        if m.group(4) is not None:
            for item in m.group(4).split(","):
                item = item.strip()
                first = item.split(" as ")[0].strip()
                if mod in own and first in own[mod]:
                    if " as " in item:
                        continue
                    here[first] = new[first]
        elif m.group(6):
            alias[m.group(6)] = mod
        else:
            alias[mod.rsplit(".", 1)[1]] = mod

    def use(m):
        if m.group(3) not in CRATES or m.group(4) is None or m.group(2) not in own:
            return m.group(0)
        items = []
        for item in m.group(4).split(","):
            first, *rest = item.strip().split(" as ")
            items.append(" as ".join([new.get(first, first) if first in own[m.group(2)] else first] + rest))
        return m.group(1) + m.group(2) + ".{" + ", ".join(items) + "}" + m.group(7)

    def word(m):
        w = m.group(1)
        before = m.string[max(0, m.start() - 1):m.start()]
        if before == ".":
            q = re.search(r"(?<![\w.'-])([\w'-]+)\.$", m.string[:m.start()][-80:])
            if q and q.group(1) in alias:
                return new.get(w, w) if alias[q.group(1)] in own and w in own[alias[q.group(1)]] else w
            return newfields.get(w, w)
        if w in here:
            return here[w]
        return newfields.get(w, w)

    def line(s):
        if re.match(r"\s*(ghost )?(pub )?use ", s):
            return USE.sub(use, s)
        s = re.sub(r"(Rattle\.\w+\.(?:specs|proofs)(?:\.[A-Z]\w*|\.inner)+)\.(" + WORD + ")", lambda m: m.group(1) + "." + (new[m.group(2)] if m.group(1) in own and m.group(2) in own[m.group(1)] else m.group(2)), s)
        return NAME.sub(word, s)

    if path.endswith(".antt"):
        out = "\n".join(line(s) for s in text.split("\n"))
    else:
        # code: imports, clauses and comments alone
        lines, depth = [], 0
        for s in text.split("\n"):
            t = s.strip()
            if t.startswith("//") or re.match(r"(ghost )?use ", t) or depth or re.match(r"(requires|ensures|ghost)\b.*\{", t):
                if not t.startswith("//") and not re.match(r"(ghost )?use ", t):
                    depth += s.count("{") - s.count("}")
                lines.append(line(s))
            else:
                lines.append(s)
        out = "\n".join(lines)
    if out != text:
        open(path, "w", encoding="utf-8").write(out)
        return 1
    return 0


print("turned", sum(turned(p) for p in files + codes), "files,", sum(new[n] != n for n in new), "names,", len(newfields), "fields")
