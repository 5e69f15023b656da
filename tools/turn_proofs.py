#!/usr/bin/env python3
"""Turns a crate's Proof.antt files of the older form (`tie.Need-..`, `tie.spec`) into Invariants.antt and Answers.antt.

usage: turn_proofs.py CRATE NAMES.json [FUNCTION..]      at the top of the repository

NAMES.json is what `rt check --generated DIR --old-names` writes in the crate's folder. It proves nothing: rt check decides.
"""
import json
import os
import re
import sys

LOG = []


def norm(name):
    name = name.replace("_", "-").lower()
    name = re.sub(r"-lem(?=$|-?\d*$)", "", name)
    name = re.sub(r"^overflow-", "", name)
    name = re.sub(r"^slice-bounds-", "part-", name)
    name = re.sub(r"-lem$", "", name.lower()).replace("is-isbody", "is-body")
    return name.replace("loop-less", "loop-smaller").replace("loop-again", "loop-preserved").replace("loop-holds", "loop-init")


def blocks(text):
    out, now = [], []
    for l in text.split("\n"):
        if l.strip() == "":
            if now:
                out.append("\n".join(now))
                now = []
        else:
            now.append(l)
    if now:
        out.append("\n".join(now))
    return out


SOURCES = {}


def clauses_of(crate, rel, kind):
    """The names of a function's clauses of a kind, in order; rel is as `value::trimmed_span`."""
    parts = rel.split("::")
    name, mods = parts[-1], parts[:-1]
    base = os.path.join("crates", crate, "src")
    tries = [os.path.join(base, *mods) + ".rt", os.path.join(base, *mods, "mod.rt")] if mods else [os.path.join(base, "lib.rt"), os.path.join(base, "main.rt")]
    if mods and mods[-1][:1].isupper():
        tries += [os.path.join(base, *mods[:-1]) + ".rt", os.path.join(base, "lib.rt")]
    for p in tries:
        if not os.path.exists(p):
            continue
        if p not in SOURCES:
            SOURCES[p] = open(p).read()
        m = re.search(r"\bfn " + re.escape(name) + r"\s*[(<]", SOURCES[p])
        if m:
            rest = SOURCES[p][m.end():]
            rest = rest[: (re.search(r"\n\{|\n\s+\{\n|\n\}", rest) or re.search("$", rest)).start()]
            return [x or "" for x in re.findall(r"^\s+" + kind + r"(?: (\w+))? \{", rest, re.M)]
    return []


def picked(tail, names):
    """tail is what follows .ensures or .requires: positions of nested pairs become the clauses' names."""
    if len(names) < 2 or not tail or not tail[0].isdigit():
        return tail
    k = 0
    t = list(tail)
    while t and t[0] == "1" and k < len(names) - 1:
        k += 1
        t = t[1:]
    if k < len(names) - 1:
        if not t or t[0] != "0":
            if t and t[0].isdigit() and int(t[0]) < len(names) and k == 0:
                return [names[int(t[0])]] + t[1:]
            LOG.append(f"  clause {tail} of {names}")
            return tail
        t = t[1:]
    return [names[k]] + t


def top_tuple(term):
    """(before, items, after) of the tuple that ends the term, or None."""
    t = term.rstrip()
    if not t.endswith(")"):
        return None
    depth = 0
    for i in range(len(t) - 1, -1, -1):
        if t[i] in ")]}":
            depth += 1
        elif t[i] in "([{":
            depth -= 1
            if depth == 0:
                break
    before = t[:i]
    if before.strip() and not re.search(r"(\bin|↦|=)\s*$", before):
        return None
    items, depth, now = [], 0, ""
    for ch in t[i + 1: -1]:
        if ch in "([{":
            depth += 1
        elif ch in ")]}":
            depth -= 1
        if ch == "," and depth == 0:
            items.append(now.strip())
            now = ""
        else:
            now += ch
    if now.strip():
        items.append(now.strip())
    return (before, items, "") if len(items) > 1 else None


def recorded(term, names):
    """A tuple for several clauses becomes a record of them by name."""
    if len(names) < 2:
        return term
    got = top_tuple(term)
    if not got:
        if "[" in term and "↦" in term:
            LOG.append(f"  a branch for {names}")
            return term
        last = term.rfind(" in\n")
        last2 = term.rfind(" in ")
        cut = max(last, last2)
        head, tail = (term[: cut + 4], term[cut + 4:]) if cut >= 0 else ("", term)
        return head + f"\n    let both = {tail.strip()} in record {{ " + "; ".join(f"{n} = both." + ".".join(["1"] * k + (["0"] if k < len(names) - 1 else [])) for k, n in enumerate(names)) + " }"
    before, items, after = got
    while len(items) < len(names):
        last = top_tuple(items[-1])
        if not last or last[0].strip():
            break
        items = items[:-1] + last[1]
    if items and items[-1] == "tt" and len(items) == len(names) + 1:
        items = items[:-1]
    if len(items) < len(names):
        # the last part proves the remaining clauses together
        n = len(names) - len(items) + 1
        before += f"\n    let rest = {items[-1]} in "
        items = items[:-1] + ["rest." + ".".join(["1"] * k + (["0"] if k < n - 1 else [])) for k in range(n)]
    if len(items) != len(names):
        LOG.append(f"  {len(items)} parts for {names}")
        return term
    return before + "record { " + "; ".join(f"{n} = {i}" for n, i in zip(names, items)) + " }"


SEG = r"[^\s(){}\[\];,.λ]+"
PATH = re.compile(r"(?<![\w'.-])c((?:\." + SEG + r")+)")


class Function:
    def __init__(self, entry):
        self.entry = entry
        self.needs = entry["needs"]
        self.asked = entry["asked_at"]
        self.index = {}
        for i, p in enumerate(entry["places"]):
            self.index.setdefault(norm(p[0]), i)
        self.places = entry["places"]
        self.arms = entry["arms"]
        self.bynames = entry["places_by_name"]
        self.args = {}
        for old, new in entry.get("args", []):
            o, n = old.split(), new.split()
            if len(o) == 2 and len(n) == 2 and o[0] in (".args", ".ranges"):
                self.args[(o[0][1:], o[1][1:])] = (n[0][1:], n[1][1:])

    def chain(self, place):
        """Indexes of the places from here up."""
        while place is not None and norm(place) in self.index:
            i = self.index[norm(place)]
            yield i
            place = self.places[i][1]


def nested(items):
    return items[0] if len(items) == 1 else f"({items[0]}, {nested(items[1:])})"


def path_of(fn, place, segs):
    """The new path for c.SEGS at a place."""
    chain = list(fn.chain(place))
    b = 0
    while b < len(segs) and segs[b] == "before":
        b += 1
    rest = segs[b:]
    if not rest:
        return None
    step = rest[0]
    tail = rest[1:]
    if step in ("args", "requires", "ranges", "type_inv", "type-inv"):
        if step == "requires":
            n = len(fn.requires)
            if n > 1 and len(tail) < n - 1 and all(t == "1" for t in tail):
                # several clauses at once: a tuple of the rest
                return [nested([f"c.requires.{x}" for x in fn.requires[len(tail):]])]
            tail = picked(tail, fn.requires)
        if tail and (step, tail[0]) in fn.args:
            step, first = fn.args[(step, tail[0])]
            tail = [first] + tail[1:]
        return ["c", step.replace("-", "_")] + tail
    ks = list(range(b, len(chain))) + list(range(0, b))
    for k in ks:
        i = chain[k]
        old, new = fn.places[i][2]
        arm = fn.arms[i] if i < len(fn.arms) else None
        if arm:
            best = None
            for field, ostep, opath in arm[2]:
                if norm(ostep) == norm(step) and tail[: len(opath)] == opath:
                    if best is None or len(opath) > len(best[1]):
                        best = (field, opath)
            if best and not (best[1] == [] and norm(old) != norm(step)):
                if best[1] or tail:
                    return ["c", arm[0], best[0]] + tail[len(best[1]):]
        if old and norm(old) == norm(step):
            if arm is None or not re.search(r"-\d+$", new):
                callee = fn.places[i][3]
                if callee and tail and tail[0] == "ensures":
                    crate, rel = callee.split("::", 1)
                    names = clauses_of(crate, rel, "ensures")
                    if len(names) > 1 and len(tail) < len(names) and all(t == "1" for t in tail[1:]):
                        return [nested(["c." + new + ".ensures." + n for n in names[len(tail) - 1:]])]
                    tail = tail[:1] + picked(tail[1:], names)
                if callee and tail and tail[0] == "new" and callee in fn.entry["params"] and len(tail) > 1 and tail[1].isdigit():
                    k, t = 0, tail[1:]
                    while t and t[0] == "1":
                        k += 1
                        t = t[1:]
                    if t and t[0] == "0" and k < len(fn.entry["params"][callee]):
                        tail = ["new", fn.entry["params"][callee][k]] + t[1:]
                return ["c", new] + tail
    for k in ks:
        i = chain[k]
        old, new = fn.places[i][2]
        if old and norm(old) == norm(step):
            return ["c", new] + tail
    if re.search(r"\d$", step):
        return path_of(fn, place, segs[:b] + [re.sub(r"\d+$", "", step)] + tail)
    LOG.append(f"  step {'.'.join(segs)} at {place}")
    return ["c", step] + tail


def rename_steps(body, fn, place):
    def turn(m):
        segs = m.group(1)[1:].split(".")
        new = path_of(fn, place, segs)
        if new is None:
            LOG.append(f"  bare {m.group(0)} at {place}")
            return m.group(0)
        return ".".join(s.replace("type-inv", "type_inv") for s in new)

    return PATH.sub(turn, body)


def unalias(term):
    """let l = c.before.before in .. l.x .. -> .. c.before.before.x .."""
    while True:
        m = re.search(r"let ([^\s:(){}]+) = (c(?:\.[^\s(){}\[\];,.λ]+)*) in\s*", term)
        if not m:
            return term
        name, path = m.group(1), m.group(2)
        rest = term[m.end():]
        rest = re.sub(r"(?<![\w'.-])" + re.escape(name) + r"(?=\.)", path, rest)
        rest = re.sub(r"(?<![\w'.-])" + re.escape(name) + r"(?![\w'.-]| = )", path, rest)
        term = term[: m.start()] + rest


def shifted(text, path):
    """The text with c for the context at `path` (c.before..)."""
    return re.sub(r"(?<![\w'.-])c(?![\w'-])", path, text)


def flat_of(varnames, changed, args):
    first = [(f"l.initial.{v}" if c else f"l.{v}") for v, c in zip(varnames, changed)]
    second = [f"l.{v}" for v, c in zip(varnames, changed) if c]
    return first + second


def convert(path, modpath, entry):
    text = open(path).read()
    fn = Function(entry)
    _, crate, _, rel = modpath.split(".", 3)
    rel = rel.replace(".", "::")
    fn.requires = clauses_of(crate, rel, "requires")
    ensures = clauses_of(crate, rel, "ensures")
    parts = blocks(text)
    head = parts[0]
    comments = [l for l in head.split("\n") if l.startswith("--")]
    uses = [l for l in head.split("\n") if l.startswith("use ")]
    invs, answers = [], []
    macros = {}
    opened = {}
    loops = entry["loops"]

    def expand(term):
        """Calls of local lemmas over a context become lets in front."""
        lets, seen = [], {}
        changed = True
        while changed:
            changed = False
            for name, (typ, body) in macros.items():
                pat = re.compile(r"(?<![\w'.-])" + re.escape(name) + r" (c(?:\.before)*)(?![\w'.-])")
                m = pat.search(term)
                while m:
                    p = m.group(1)
                    key = (name, p)
                    if key not in seen:
                        local = name if not any(k[0] == name for k in seen) else f"{name}-{len(seen)}"
                        seen[key] = local
                        lets.insert(0, (local, shifted(typ, p), shifted(body, p)))
                    term = term[: m.start()] + seen[key] + term[m.end():]
                    term = re.sub(r"\(" + re.escape(seen[key]) + r"\)", seen[key], term)
                    changed = True
                    m = pat.search(term)
            # inside the lets too, until nothing is left
            while True:
                found = False
                for i, (local, typ, body) in enumerate(lets):
                    for name, (mt, mb) in macros.items():
                        pat = re.compile(r"(?<![\w'.-])" + re.escape(name) + r" (c(?:\.before)*)(?![\w'.-])")
                        for which, s in ((0, typ), (1, body)):
                            m = pat.search(s)
                            if not m:
                                continue
                            found = True
                            key = (name, m.group(1))
                            if key not in seen:
                                nm = name if not any(k[0] == name for k in seen) else f"{name}-{len(seen)}"
                                seen[key] = nm
                                lets.insert(0, (nm, shifted(mt, m.group(1)), shifted(mb, m.group(1))))
                                i += 1
                            s = s[: m.start()] + seen[key] + s[m.end():]
                            s = re.sub(r"\(" + re.escape(seen[key]) + r"\)", seen[key], s)
                            lets[i] = (local, s, body) if which == 0 else (local, typ, s)
                            break
                        if found:
                            break
                    if found:
                        break
                if not found:
                    break
        order = {local: list(macros).index(key[0]) for key, local in seen.items()}
        lets.sort(key=lambda x: order[x[0]])
        out = ""
        for local, typ, body in lets:
            if typ.strip() == "!":
                out += f"let {local} = {body.strip()} in\n    "
            else:
                out += f"let {local} : {typ.strip()} = {body.strip()} in\n    "
        return ("\n    " + out + term.strip()) if out else term

    for d in parts[1:]:
        body_lines = d.split("\n")
        note = [l for l in body_lines if l.startswith("--")]
        code = [l for l in body_lines if not l.startswith("--")]
        if not code:
            answers.append("\n".join(note))
            continue
        sig = code[0]
        if sig.startswith("use "):
            uses += code
            continue
        m = re.match(r"abbrev (?:pub )?(\S+) : tie\.(invariant|decreases)-(\S+)", sig)
        if m:
            name, kind, loop = m.groups()
            k = [i for i, l in enumerate(loops) if norm(l[0][0]) == norm(loop)]
            if not k:
                LOG.append(f"  no loop {loop}")
                continue
            k = k[0]
            new = loops[k][0][1]
            rest = "\n".join(code[1:])
            mm = re.search(r"^" + re.escape(name) + r"((?: \S+)*?) =(.*)$", rest, re.S | re.M)
            pre = rest[: mm.start()]
            args = mm.group(1).split()
            body = mm.group(2)
            flat = flat_of(loops[k][1], entry["changed"][k], args)
            if len(flat) != len(args):
                LOG.append(f"  loop {loop}: {args} for {flat}")
            ren = dict(zip(args, flat))
            body = re.sub(r"(?<![\w'₀.-])[^\W\d][\w'₀-]*", lambda t: ren.get(t.group(0), t.group(0)), body)
            invs.append("\n".join(note + [f"abbrev pub {kind}-{new} : goal.{kind}-{new}"]) + ("\n" + pre.rstrip() if pre.strip() else "") + f"\n{kind}-{new} l ={body}")
            continue
        m = re.match(r"(?:pub )?(\S+) : tie\.Need-(\S+)", sig)
        if m:
            name, need = m.group(1), m.group(2)
            idx = [i for i, n in enumerate(fn.needs) if norm(n[0]) == norm(need)]
            rest = code[1:]
            unf = [l for l in rest if l.startswith("unfolding ")]
            body = "\n".join(l for l in rest if not l.startswith("unfolding "))
            mm = re.match(re.escape(name) + r"((?: \S+)*?) =(.*)$", body, re.S)
            if not mm:
                LOG.append(f"  cannot read {name}")
                continue
            args, term = mm.group(1).split(), mm.group(2)
            if term.strip() in ("search rules", "search needs", "refl", "omega arith") and not unf:
                continue
            if not idx:
                LOG.append(f"  no need {need}: dropped: {term.strip()[:160]}")
                continue
            idx = idx[0]
            new = fn.needs[idx][1]
            place = fn.asked[idx][0] if idx < len(fn.asked) else None
            if args[:1] != ["c"]:
                LOG.append(f"  {name}: argument {args}")
            if "κs" in args and not re.search(r"(?<![\w'])κs", term):
                args.remove("κs")
            term = re.sub(r"(?<=\s)\((c(?:\.before)*)\)", r"\1", term)
            term = expand(unalias(term))
            term = rename_steps(term, fn, place)
            term = re.sub(r"(?:flipped _|not-true \S+|not-false \S+|not_true \S+|not_false \S+) (c\.if-not-[^\s()]+)", r"\1", term)
            if new.startswith("returns"):
                term = recorded(term, ensures)
            elif "-requires" in new:
                callee = next((p[3] for i in fn.chain(place) for p in [fn.places[i]] if False), None)
                step = new.split("-requires")[0]
                for c in entry["params"]:
                    if norm(step).startswith(norm(c.split("::")[-1])):
                        callee = c
                if callee:
                    term = recorded(term, clauses_of(callee.split("::")[0], callee.split("::", 1)[1], "requires"))
            for nm, words in opened.items():
                if re.search(r"\blet " + re.escape(nm) + r"(?![\w'])", term):
                    unf = [(unf[0] if unf else "unfolding") + " " + " ".join(w for w in words if not unf or w not in unf[0].split())]
            answers.append("\n".join(note + [f"pub {new} : goal.{new}"] + unf + [f"{new} {' '.join(args)} ={term}".rstrip()]))
            continue
        if "{M : Type 1} → statement M" in d:
            continue
        if re.search(r"tie\.", d):
            joined = "\n".join(code)
            mm = re.match(r"(?:abbrev )?(\S+) :\s+\(?(?:(\S+) : )?tie\.([^\s)]+)(?: [^)→]*)?\)?\s*(?:→\s*)?((?:.|\n)*?)\n((?:unfolding [^\n]*\n)?)\1 (\S+)((?: \S+)*?) =((?:.|\n)*)$", joined)
            if mm:
                name, var, place, typ, unf, var2, more, body = mm.groups()
                if unf:
                    opened[name] = unf.split()[1:]
                typ = unalias(typ)
                typ = re.sub(r"(?<![\w'.-])" + re.escape(var or var2) + r"(?![\w'-])", "c", typ) if (var or var2) != "c" else typ
                body = re.sub(r"(?<![\w'.-])" + re.escape(var2) + r"(?![\w'-])", "c", body) if var2 != "c" else body
                body = unalias(body)
                if more.strip():
                    body = f"(λ {more.strip()}. {body.strip()})"
                if sig.startswith("abbrev"):
                    typ = typ
                macros[name] = (typ, body)
                continue
            LOG.append(f"  local over a place: {sig[:120]}")
        answers.append(d)
    folder = os.path.dirname(path)
    # definitions of the file that an invariant cites stand in Invariants.antt too
    local = {}
    for a in answers:
        code = [l for l in a.split("\n") if not l.startswith("--")]
        m = re.match(r"(?:abbrev )?(?:pub )?(\S+) :", code[0]) if code else None
        if m and not re.match(r"pub \S+ : goal\.", code[0]):
            local[m.group(1)] = a
    wanted, text_of = [], "\n".join(invs)
    while True:
        more = [n for n in local if n not in wanted and re.search(r"(?<![\w'.-])" + re.escape(n) + r"(?![\w'-])", text_of)]
        if not more:
            break
        wanted += more
        text_of += "\n" + "\n".join(local[n] for n in more)
    invs = [local[n] for n in local if n in wanted] + invs
    uses = [u for u in uses if " as tie" not in u and ".Statement.{statement}" not in u]
    if invs:
        with open(os.path.join(folder, "Invariants.antt"), "w") as f:
            f.write("\n".join(comments + uses + [f"use {modpath}.Given as goal", "", "\n\n".join(invs), ""]))
        comments = []
    answers = [a for a in answers if a.strip()]
    if any(re.match(r"(?:--[^\n]*\n)*pub \S+ : goal\.", a) for a in answers):
        with open(os.path.join(folder, "Answers.antt"), "w") as f:
            f.write("\n".join(comments + uses + [f"use {modpath}.Goals as goal", "", "\n\n".join(answers), ""]))
    elif answers:
        LOG.append(f"  left out: {[a[:80] for a in answers]}")
    os.remove(path)


def main(argv):
    crate, names = argv[0], json.load(open(argv[1]))
    only = argv[2:]
    root = os.path.join("crates", crate, "proofs")
    n = 0
    for folder, dirs, files in os.walk(root):
        dirs.sort()
        if "Proof.antt" not in files:
            continue
        rel = os.path.relpath(folder, root).replace("/", ".")
        if only and rel not in only:
            continue
        path = os.path.join(folder, "Proof.antt")
        if " as tie" not in open(path).read():
            print(f"{path}: by hand")
            continue
        key = f"Rattle-{crate}-proofs.{rel}.Lts"
        if key not in names:
            print(f"{path}: no entry {key}")
            continue
        del LOG[:]
        convert(path, f"Rattle.{crate}.proofs.{rel}", names[key])
        if LOG:
            print(path)
            print("\n".join(LOG))
        n += 1
    print(n, "turned")


main(sys.argv[1:])
