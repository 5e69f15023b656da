#!/usr/bin/env python3
"""Brings the repository's own definitions and lemmas to today's spelling, after port.py: snake case, `_` before a plain word, `-` between two names.

usage: respell.py [--check]      at the top of the repository, right after port.py, before any edit by hand

It goes by text. A name is a top-level declaration or a record's field of specs/ or proofs/ (not of a function's own proof). Functions of src/ keep their
names. Names that would fall together are printed, and stop it. It also turns what docs/ and must-fail/ cite of these names.
"""
import collections
import glob
import os
import re
import sys

TOKEN = re.compile(r"[^\s(){}\[\];,.λ@|⌜⌝\"`⟨⟩:→=]+")
LIBRARY = "length take drop map append reverse replicate set get concat all any sum zero suc cond some none ok failed true false tt refl".split()
SMALL = "is of at by in no from to as not on up out or and one two three first last all some none next end".split()
# Where the plain rule would give a name that is taken.
KEPT = {"is-nan": "is_nan_lem", "rendered-header": "rendered_header_lem", "place-of": "place_of_lem"}


def lines_of(paths):
    for p in paths:
        with open(p, encoding="utf-8") as f:
            for l in f:
                yield p, l


def antt(kind):
    return sorted(glob.glob(f"crates/*/{kind}/**/*.antt", recursive=True))


def own_proof(path):
    return "/proofs/" in path and os.path.basename(path) in ("Proof.antt", "Answers.antt", "Invariants.antt") and path.count("/") > 3


def declared(paths):
    """The names declared at top level, and those of records' fields."""
    names, fields = collections.OrderedDict(), collections.OrderedDict()
    where = ""
    for p, l in lines_of(paths):
        if own_proof(p):
            continue
        m = re.match(r"( *)((?:unfoldable |abbrev |pub |data |record |ruleset )*)([^\s:(){}]+)(?: [^:]*)? : ", l)
        if re.match(r" *(pub )?(record|module|data) ", l):
            where = re.match(r" *(?:pub )?(record|module|data) ", l).group(1)
        elif re.match(r"[^\s-]", l) or re.match(r" +where", l):
            where = ""
        if m and m.group(3) not in ("use", "--"):
            if m.group(1) and where == "record":
                fields.setdefault(m.group(3), []).append(p)
            elif not m.group(1) or where == "module":
                names.setdefault(m.group(3), []).append(p)
    return names, fields


def snake(word):
    return re.sub(r"(?<=[a-z0-9])([A-Z])", lambda m: "_" + m.group(1).lower(), word)


def table():
    specs, spec_fields = declared(antt("specs"))
    proofs, proof_fields = declared(antt("proofs"))
    names = list(specs) + [n for n in proofs if n not in specs]
    fields = list(spec_fields) + list(proof_fields)
    words = {snake(n) if n[0].islower() else n for n in specs if "-" not in n} | set(LIBRARY)
    words -= set(SMALL)

    def plain(name):
        if not re.match(r"[A-Za-z]", name) or "◌" in name:
            return name
        if re.match(r"[A-Z]", name) and "-" not in name:
            return name
        parts = [snake(p) if p and p[0].islower() else p for p in name.split("-")]
        out = parts[0]
        for a, b in zip(parts, parts[1:]):
            out += ("-" if a in words and b in words else "_") + b
        return KEPT.get(name, out)

    turned = {n: plain(n) for n in names}
    # Of names that would be one, the definition that was in camel case has it, else the one that has it now; a lemma beside it ends in `_lem`.
    groups = collections.defaultdict(list)
    for a, b in turned.items():
        groups[b].append(a)
    for b, olds in groups.items():
        if len(olds) > 1:
            olds.sort(key=lambda a: (not re.search(r"[a-z][A-Z]", a) or "-" in a, a != b, a))
            for a in olds[1:]:
                turned[a] = b + "_lem"
    for f in fields:
        if f not in turned and not f[0].isupper():
            turned[f] = KEPT.get(f, snake(f).replace("-", "_"))
    return {a: b for a, b in turned.items() if a != b}, set(names) | set(fields), set(fields)


def files():
    out = antt("specs") + antt("proofs") + sorted(glob.glob("crates/*/src/**/*.rt", recursive=True)) + sorted(glob.glob("crates/*/must-fail/*.edit"))
    return out


def main():
    check = "--check" in sys.argv
    turned, names, fields = table()
    back = collections.defaultdict(set)
    for a, b in turned.items():
        back[b].add(a)
    bad = 0
    for b, olds in sorted(back.items()):
        if all(a in fields for a in olds if a != min(olds, key=lambda x: x in fields)) and not (b in names - fields and b not in turned):
            continue
        if len(olds) > 1 or (b in names and b not in turned):
            print("fall together:", b, sorted(olds), "taken" if b in names else "")
            bad += 1
    # a new name that already stands in a file where the old one stands
    for p in files():
        text = open(p, encoding="utf-8").read()
        tokens = set(TOKEN.findall(text))
        for t in tokens:
            if t in turned and turned[t] in tokens:
                print("taken in", p, ":", t, "->", turned[t])
    if bad or check:
        print(len(turned), "names;", bad, "fall together")
        return 1 if bad else 0
    n = 0
    for p in files():
        text = open(p, encoding="utf-8").read()
        aliases = set(re.findall(r"^(?:ghost )?use [^\n]* as ([\w-]+);?$", text, re.M)) - {"tie"}
        aliases |= set(re.findall(r"^(?:ghost )?use [\w.]*\.(\w+);?$", text, re.M))

        def sub(m):
            w = m.group(0)
            if p.endswith(".rt") and not re.search(r"[a-z][A-Z]|-", w):
                return w
            before = text[m.start() - 1] if m.start() else " "
            if before == "." and w not in fields:
                prefix = re.search(r"([\w-]+)\.$", text[max(0, m.start() - 40): m.start()])
                return turned.get(w, w) if prefix and prefix.group(1) in aliases else w
            return turned.get(w, w)

        new = TOKEN.sub(sub, text)
        if new != text:
            open(p, "w", encoding="utf-8").write(new)
            n += 1
    for p in ["README.md"] + sorted(glob.glob("docs/**/*.md", recursive=True)):
        text = open(p, encoding="utf-8").read()

        def span(m):
            return TOKEN.sub(lambda t: turned.get(t.group(0), t.group(0)), m.group(0))

        new = re.sub(r"`[^`\n]+`", span, text)
        if new != text:
            open(p, "w", encoding="utf-8").write(new)
            n += 1
    print(len(turned), "names,", n, "files")
    return 0


raise SystemExit(main())
