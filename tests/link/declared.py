"""What C, Rust and Python declare: of each function's answer the fields with offset and size, and the size of the whole.

Of an array of records two are looked at, which tell where a record's fields stand and how far the next one is; of the
circulations the one that a sheet may have.
"""
import ctypes
import glob
import os
import re
import subprocess
import sys

ROOT = os.path.dirname(os.path.dirname(os.path.dirname(os.path.abspath(__file__))))
# The first factors are alike on all sheets.
LOOKED_AT = {"factors": (17, 18), "circulations": (0,)}


def looked_at(array):
    return LOOKED_AT.get(array, (0, 1))


def said(*command, **how):
    return subprocess.run(command, check=True, capture_output=True, text=True, **how).stdout


def compiled(folder, name, *words):
    program = os.path.join(folder, name)
    subprocess.run(["cc", "-std=c11", "-O1", "-Wall", "-Wextra", "-Werror", "-o", program, *words], check=True)
    return program


def by_lines(text):
    declared = {}
    for line in text.splitlines():
        function, field, offset, size = line.split()
        fields, _ = declared.setdefault(function, ([], 0))
        if field == "whole":
            declared[function] = (fields, int(size))
        else:
            fields.append((field, int(offset), int(size)))
    return declared


def leaves(structs, kind, path="", label=""):
    """Each field that is no struct: what it is called, and its path from the whole."""
    for type_, field, array in structs[kind]:
        if type_ not in structs:
            yield label + field.rstrip("_"), path + field
        elif not array:
            yield from leaves(structs, type_, path + field + ".", label)
        else:
            for k in looked_at(field):
                one = "%s[%d]." % (field, k)
                yield from leaves(structs, type_, path + one, label + one)


def structs_of_c(text):
    """The fields of each struct, by the name of its type, with whether they are arrays."""
    plain = re.sub(r"/\*.*?\*/", "", text, flags=re.S)
    structs = {}
    for body, kind in re.findall(r"typedef struct \w+ \{(.*?)\} (\w+);", plain, re.S):
        fields = re.findall(r"(\w+) (\w+)(\[.*?\])?;", body)
        structs[kind] = [(type_, field, bool(array)) for type_, field, array in fields]
    answers = {function: kind for kind, function in re.findall(r"(\w+) (m2m_\w+)\(", plain)}
    return structs, answers


def header(functions, text, folder):
    """The layout of the header's structs, as the C compiler has it."""
    structs, answers = structs_of_c(text)
    with open(os.path.join(folder, "m2m.h"), "w") as out:
        out.write(text)
    lines = []
    for function in functions:
        kind = answers[function]
        for field, path in leaves(structs, kind):
            lines.append('P("%s", "%s", offsetof(%s, %s), sizeof(((%s *)0)->%s));' % (function, field, kind, path, kind, path))
        lines.append('P("%s", "whole", (size_t)0, sizeof(%s));' % (function, kind))
    source = os.path.join(folder, "header.c")
    with open(source, "w") as out:
        out.write('#include "m2m.h"\n#include <stdio.h>\n#define P(f, n, o, s) printf("%s %s %zu %zu\\n", f, n, o, s)\n')
        out.write("int main(void) {\n%s\nreturn 0;\n}\n" % "\n".join(lines))
    return by_lines(said(compiled(folder, "header", "-I" + folder, source)))


def structs_of_rust(text):
    """The fields of each struct, as of C, and the declarations that they need."""
    structs, sources = {}, []
    for kind, body in re.findall(r"#\[repr\(C\)\]\s*struct (\w+) \{(.*?)\n\}", text, re.S):
        structs[kind] = []
        for field, type_ in re.findall(r"(\w+): ((?:\[[^\]]*\]|[^,\[])+),", body):
            array = re.match(r"\[(\w+); ", type_)
            structs[kind].append((array.group(1) if array else type_.strip(), field, bool(array)))
        sources.append("#[repr(C)] struct %s {%s}" % (kind, body))
    used = {type_ for fields in structs.values() for type_, _, _ in fields}
    for alias, type_ in dict(re.findall(r"\btype (\w+) = (\[[^\]]*\]|[^;\[]+);", text)).items():
        if alias in used:
            sources.append("type %s = %s;" % (alias, type_))
    return structs, sources


def rust(functions, text, folder):
    """The layout of the Rust declarations, as the Rust compiler has it."""
    plain = re.sub(r"\bpub ", "", text)
    structs, sources = structs_of_rust(plain)
    answers = dict(re.findall(r"fn (m2m_\w+)\([^)]*\) -> (\w+);", plain))
    lines = []
    for function in functions:
        kind = answers[function]
        for field, path in leaves(structs, kind):
            lines.append('p("%s", "%s", |s: *const %s| unsafe { &raw const (*s).%s });' % (function, field, kind, path))
        lines.append('p("%s", "whole", |s: *const %s| s);' % (function, kind))
    source = os.path.join(folder, "rust.rs")
    with open(source, "w") as out:
        out.write("#![allow(dead_code)]\nuse std::mem::{size_of, MaybeUninit};\n%s\n" % "\n".join(sources))
        out.write("fn p<S, T>(f: &str, n: &str, field: impl Fn(*const S) -> *const T) {\n")
        out.write("    let whole = MaybeUninit::<S>::uninit();\n")
        out.write("    let offset = field(whole.as_ptr()) as usize - whole.as_ptr() as usize;\n")
        out.write('    println!("{f} {n} {offset} {}", size_of::<T>());\n}\n')
        out.write("fn main() {\n%s\n}\n" % "\n".join(lines))
    program = os.path.join(folder, "rust")
    subprocess.run(["rustc", "--edition", "2021", "-o", program, source], check=True)
    return by_lines(said(program))


def rust_text():
    """The sources that declare structs or functions, without their comments."""
    paths = glob.glob(os.path.join(ROOT, "compare/src/**/*.rs"), recursive=True)
    paths += glob.glob(os.path.join(ROOT, "second/src/*.rs"))
    texts = []
    for path in sorted(paths):
        with open(path) as file:
            text = file.read()
        if "repr(C)" in text or 'extern "C"' in text or "pub type" in text:
            texts.append(re.sub(r"^ *//[^\n]*\n|//[^\n]*", "", text, flags=re.M))
    return "\n".join(texts)


def python():
    """The layout of the front end's declarations."""
    sys.path.insert(0, os.path.join(ROOT, "tools"))
    from m2mlib import library

    def fields(kind, base=0, label=""):
        for field, type_ in kind._fields_:
            at = getattr(kind, field)
            record = getattr(type_, "_type_", None)
            if issubclass(type_, ctypes.Structure):
                yield from fields(type_, base + at.offset, label)
            elif isinstance(record, type) and issubclass(record, ctypes.Structure):
                for k in looked_at(field):
                    one = base + at.offset + k * ctypes.sizeof(record)
                    yield from fields(record, one, "%s%s[%d]." % (label, field, k))
            else:
                yield label + field.rstrip("_"), base + at.offset, at.size

    answers = {
        "m2m_settle": library.Statement,
        "m2m_report": library.Printed,
        "m2m_read": library.Sheet,
        "m2m_hour_open": library.Hour,
        "m2m_hour_add": library.Changed,
        "m2m_hour_totals": library.Totals,
        "m2m_read_draft": library.Drafted,
        "m2m_write_draft": library.Written,
        "m2m_explain": library.Explanation,
    }
    return {function: (list(fields(kind)), ctypes.sizeof(kind)) for function, kind in answers.items()}
