#!/usr/bin/env python3
"""Counts, in the sources of a checkout, forms that have a shorter one in Rattle (docs/DESIGN-PASS.md).

    python3 tools/count_forms.py [TOP] [-v]

A line for each form: its number on that page, how often it stands, what is counted. With -v the places follow.
"""
import re
import sys
from collections import defaultdict
from pathlib import Path

args = [a for a in sys.argv[1:] if a != "-v"]
top = Path(args[0] if args else ".")
verbose = "-v" in sys.argv
files = sorted(p for p in top.glob("crates/*/src/**/*.rt"))
text = {p: p.read_text() for p in files}


def show(point, what, places):
    print(f"{point}  {len(places):4}  {what}")
    if verbose:
        for place in places:
            print(f"          {place}")


def name(path):
    return str(path.relative_to(top / "crates")).replace("/src", "")


def grep(pattern):
    return [
        f"{name(p)}:{i}: {line.strip()}"
        for p in files
        for i, line in enumerate(text[p].split("\n"), 1)
        if re.search(pattern, line) and not line.lstrip().startswith("//")
    ]


def enums():
    """Each own enum: its name, and the variants with what they hold."""
    for p in files:
        for m in re.finditer(r"^(?:pub )?enum (\w+)[^{]*\{\n(.*?)^\}", text[p], re.M | re.S):
            yield name(p), m.group(1), re.findall(r"^    (\w+)(?:\(([^\n]*)\))?,", m.group(2), re.M)


def functions():
    """Each function: its file, its name and its text."""
    for p in files:
        for m in re.finditer(r"^( *)(?:pub(?:\(crate\))? )?(?:extern \"C\" )?fn (\w+).*?^\1\}\n", text[p], re.M | re.S):
            yield name(p), m.group(2), m.group(0)


def is_option(variants):
    return len(variants) == 2 and sorted(bool(held) for _, held in variants) == [False, True]


def is_result(variants):
    return any(held == "Error" for _, held in variants)


# 1. Answers, flags, numbers for kinds.
show(1, "own enums of the shape of Option or Result", [f"{f}: {n}" for f, n, v in enums() if is_option(v) or is_result(v)])
show(1, "arms that only pass an error on", grep(r"(Failed|Err)\((\w+)\) => (\w+::)?(Failed|Err)\(\2\)"))
show(1, "parameters and fields of type u8 for a kind", grep(r"\b(kind|instance|datatype|byteorder|compression|order|asked|class|index): u8\b"))

# 2. Functions that are equal but for numbers, widths and their own names.
alike = defaultdict(list)
for f, n, body in functions():
    lines = body.split("{\n", 1)[-1].count("\n")
    form = re.sub(r"\b" + n + r"\b", "F", body)
    form = re.sub(r"\bu(8|16|32|64)\b", "U", form)
    form = re.sub(r"(?<![A-Za-z])\d[\d_]*|(?<=[a-z])\d+", "N", form)
    if lines > 1:
        alike[form].append(f"{f}: {n}")
show(2, "functions that differ from another in numbers and types alone", [x for group in alike.values() if len(group) > 1 for x in group])
show(2, "functions named by a width", [f"{f}: {n}" for f, n, _ in functions() if re.search(r"(\D(1|2|4|8|16)|_u(8|16|32|64))$", n) and n != "proves_kind_2"])

# 3. Loops.
show(3, "loops that count by hand, `while` and `loop`", grep(r"^\s*(while|loop)\b"))

# 4. What derives, std and patterns write.
show(4, "fields set to a variable of the same name", grep(r"^\s*(\w+): \1,$"))
show(4, "variables that only hold a field", grep(r"^\s*let (\w+) = \w+\.\1;$"))
show(4, "ladders of `if .. { return ..; }` that end in a test", [f"{f}: {n}" for f, n, b in functions() if "-> bool" in b and len(re.findall(r"return (true|false);", b)) > 1])

# 5. Facts in three or more contracts, parameters that travel together.
facts = defaultdict(list)
for p in files:
    for m in re.finditer(r"^\s*requires(?: \w+)? (\{.*\})$", text[p], re.M):
        facts[m.group(1)].append(name(p))
show(5, "`requires` clauses whose fact stands in three or more contracts", [f"{fact} ({len(at)})" for fact, at in facts.items() if len(at) > 2 for _ in at])
together = [
    "out: &mut [u8], at: usize", "at: usize, up: usize, down: usize, n: usize", "order: u8, asked: u8, s: Shift",
    "dim1: usize, dim2: usize, dim3: usize", "s: &[u8], from: usize", "sequence: i64, instance: u8, memory: i64",
]
flat = {p: re.sub(r"\s+", " ", re.sub(r"//[^\n]*", "", text[p])) for p in files}
show(5, "functions with parameters that travel together", [f"{name(p)}: {x}" for p in files for x in together for _ in range(flat[p].count(x))])

# 6, 7.
show(6, "tables in constants, a number for each place", grep(r"const [A-Z_]+: \[(u8|usize);"))
show(7, "tests of a width that choose the step", grep(r"if w == \d"))

# 8. Answers.
answers = sorted(top.glob("crates/*/proofs/**/Answers.antt"))
show(8, "answers in proofs", [f"{name(p)}: {g}" for p in answers for g in re.findall(r"^pub (\S+) : goal\.", p.read_text(), re.M)])
