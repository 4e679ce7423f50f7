#!/usr/bin/env python3
"""Turns proofs that gave their answers by place (Proof.antt) to Invariants.antt and Answers.antt.

usage: python3 tools/turn_proofs.py CRATE NAMES     in the repository; NAMES is the folder of
       `rt check --generated NAMES --old-names`, run in the crate's folder

An answer that was `search rules` alone goes: the check finds it. What the script cannot place is said, with `left:`.
"""

import json
import os
import re
import sys

CRATE, NAMES = sys.argv[1:3]
ROOT = os.path.join("crates", CRATE, "proofs")
TABLE = json.load(open(os.path.join(NAMES, "names.json")))
ONLY = sys.argv[3:]


def flat(s):
    return s.replace("-", "_")


def args_of(text):
    """The arguments of an application: words and what stands in parentheses."""
    out, depth, cur = [], 0, ""
    for ch in text:
        if ch in "([{":
            depth += 1
        if ch in ")]}":
            depth -= 1
        if ch.isspace() and depth == 0:
            if cur:
                out.append(cur)
            cur = ""
        else:
            cur += ch
    if cur:
        out.append(cur)
    return out


def signature(path):
    """The parameters of a function, as (name, type), by its path in Rust: crate::module::f."""
    parts = path.split("::")
    src = os.path.join("crates", parts[0], "src")
    files = [os.path.join(src, m + ".rt") for m in parts[1:-1]] + [os.path.join(src, f) for f in ("lib.rt", "main.rt")]
    for f in files:
        if not os.path.exists(f):
            continue
        m = re.search(r"fn " + re.escape(parts[-1]) + r"(?:<[^>]*>)?\(([^{]*?)\)\s*(?:->|requires|ensures|where|\{)", open(f).read(), re.S)
        if m:
            out = []
            for a in re.split(r",(?![^\[(<]*[\])>])", m.group(1)):
                if ":" in a:
                    n, ty = a.split(":", 1)
                    out.append((n.strip().removeprefix("mut ").strip(), ty.strip()))
                elif a.strip():
                    out.append((a.strip().split()[-1].lstrip("&"), a.strip()))
            return out
    return []


def lent(path):
    return [n for n, ty in signature(path) if ty.startswith("&mut") or re.match(r"&'\w+ mut", ty)]


class Said(Exception):
    pass


def blocks(text):
    """(head comments and use lines, declarations as lists of lines)"""
    head, decls, notes = [], [], []
    lines = text.split("\n")
    i = 0
    while i < len(lines):
        l = lines[i]
        if l.startswith("use "):
            use = l
            if notes and not decls:
                head += notes
                notes = []
            while use.count("{") > use.count("}"):
                i += 1
                use += "\n" + lines[i]
            head.append(use)
        elif l.startswith("--"):
            notes.append(l)
        elif l.strip() == "":
            if notes and not decls and not head:
                head += notes
                notes = []
        elif not l[0].isspace():
            d = notes + [l]
            notes = []
            i += 1
            # its clauses: until a blank line
            while i < len(lines) and lines[i].strip() != "":
                d.append(lines[i])
                i += 1
            decls.append(d)
            continue
        i += 1
    if notes and not decls:
        head += notes
    return head, decls


def steps(t):
    """How a step and its fields of the form by place are called today: (step, fields) -> path, and step -> name."""
    fields, names, typed, parent, of = {}, {}, {}, {}, {}
    for i, p in enumerate(t["places"]):
        old, new = p[2]
        names.setdefault(flat(old), new)
        parent[p[0]] = p[1]
        of[p[0]] = flat(old)
        arm = t["arms"][i]
        if arm:
            for f, step, path in arm[2]:
                fields.setdefault((flat(step), tuple(path)), arm[0] + "." + f)
    for i, vs in enumerate(t["typed"]):
        for v, step in vs:
            typed[flat(step)] = v
    calls = {flat(p[2][0]): p[3] for p in t["places"] if p[3]}
    return fields, names, typed, calls


def inlined(term, fields):
    """Writes out each let of a step whose fields have names of their own today."""
    while True:
        for m in re.finditer(r"let (\S+) = ((\w+)((?:\.before)*)\.([\w'-]+)(?:\.[\w'-]+)*) in\s+", term):
            if m.group(1) != m.group(3) and (flat(m.group(5)) in {s for s, _ in fields} or re.search(r"(?<![\w.'-])" + re.escape(m.group(1)) + r"\.(new|auto)\.", term)):
                rest = term[m.end():]
                rest = re.sub(r"(?<![\w.'-])" + re.escape(m.group(1)) + r"(?=[.\s)])", m.group(2), rest)
                term = term[: m.start()] + rest
                break
        else:
            return term


def turned(term, t, var, where, said, mine):
    fields, names, typed, calls = steps(t)
    term = inlined(term, fields)
    names = dict(names)
    for (old, new), _ in t["loops"]:
        names[flat(old)] = new

    # lets of a prefix: let b = c.before.before in
    prefixes = {var}
    for m in re.finditer(r"let (\S+) = (\S+?)((?:\.before)+) in", term):
        if m.group(2) in prefixes:
            prefixes.add(m.group(1))

    def path(m):
        v, before, rest = m.group(1), m.group(2), m.group(3)
        if v not in prefixes:
            return m.group(0)
        segs = [s for s in rest.split(".") if s]
        if not segs:
            return var
        step = flat(segs[0])
        if step not in names:
            step = re.sub(r"_(\d+)$", r"\1", step)
        if segs[0] == "args" and len(segs) > 1 and flat(segs[1]) in {n for n, _ in mine}:
            segs[1] = flat(segs[1])
        if segs[0] in ("args", "requires", "lifetimes", "ranges", "well_formed", "type_inv"):
            return var + "." + ".".join(segs)
        for n in range(len(segs), 0, -1):
            key = (step, tuple(segs[1:n]))
            if key in fields and not (n == 1):
                return var + "." + fields[key] + "".join("." + s for s in segs[n:])
        if segs[0] == "given" or not segs:
            pass
        if step in calls and segs[1:2] in (["new"], ["auto"]):
            n, k = 0, 2
            while k < len(segs) and segs[k] == "1":
                n, k = n + 1, k + 1
            who = lent(calls[step])
            n = 0 if len(who) == 1 else n
            if k < len(segs) and segs[k] == "0" and n < len(who):
                return var + "." + names[step] + "." + segs[1] + "." + who[n] + "".join("." + s for s in segs[k + 1:])
        if step in typed and segs[1:2] == ["given"]:
            return var + ".type_inv." + typed[step] + "".join("." + s for s in segs[2:])
        if step in names:
            return var + "." + names[step] + "".join("." + s for s in segs[1:])
        said.add(f"{where}: {m.group(0)}")
        return m.group(0)

    out = re.sub(r"(?<![\w.'-])([a-z][\w-]*'?)((?:\.before)*)((?:\.[\w'-]+)*)", lambda m: path(m) if m.group(1) in prefixes and (m.group(2) or m.group(3)) else m.group(0), term)
    out = re.sub(r"let (\S+) = " + var + r"((?:\.before)*) in\s+", lambda m: "", out)
    for v in prefixes - {var}:
        out = re.sub(r"(?<![\w.'-])" + re.escape(v) + r"(?=\.)", var, out)
    return out


def turn(folder):
    rel = os.path.relpath(folder, ROOT)
    key = f"Rattle-{CRATE}-proofs.{rel.replace('/', '.')}.Lts"
    if key not in TABLE:
        raise Said("no names")
    t = TABLE[key]
    text = open(os.path.join(folder, "Proof.antt")).read()
    head, decls = blocks(text)
    by, order, final = {}, [], None
    for d in decls:
        body = "\n".join(d)
        sig = next(l for l in d if not l.startswith("--"))
        m = re.match(r"(?:abbrev |unfoldable |pub )*(\S+) : (.*)", sig, re.S)
        if "statement M" in body and "tie.close" in body:
            final = body
            continue
        if not m:
            raise Said(f"a declaration without a signature: {sig[:60]}")
        by[m.group(1)] = (d, body)
        order.append(m.group(1))
    if final is None:
        raise Said("no tie.close")
    m = re.search(r"tie\.close\s*\(tie\.spec(.*)\)\s*$", final, re.S)
    if not m:
        m = re.search(r"tie\.close\s+tie\.spec\s*$", final, re.S)
        args = []
        if not m:
            raise Said("tie.spec is not as expected")
    else:
        args = args_of(m.group(1))
    mine = signature(CRATE + "::" + rel.replace("/", "::"))
    loops = t["loops"]
    invs = args[: 2 * len(loops)]
    rest = args[2 * len(loops):]
    needs = t["needs"]
    said = set()
    inv_text, ans = [], []
    used = set()
    for k, ((old, new), vs) in enumerate(loops):
        changed = t["changed"][k]
        for which, name in zip(("invariant", "decreases"), invs[2 * k: 2 * k + 2]):
            if name not in by:
                raise Said(f"{which} of {old} is {name}")
            used.add(name)
            d, body = by[name]
            lines = body.split("\n")
            at = next(i for i, l in enumerate(lines) if l.startswith(name + " ") and " : " not in l.split("=")[0])
            eq = "\n".join(lines[at:])
            lhs, rhs = eq.split("=", 1)
            params = lhs.split()[1:]
            want = [("l." if not c else "l.initial.") + v for v, c in zip(vs, changed)] + ["l." + v for v, c in zip(vs, changed) if c]
            if len(params) != len(want):
                raise Said(f"{which} of {old} has {len(params)} parameters for {want}")
            sub = dict(zip(params, want))
            rhs = re.sub(r"(?<![\w.'₀-])([A-Za-z_][\w']*₀?)(?![\w'₀-])", lambda m: sub.get(m.group(1), m.group(1)), rhs)
            extra = [l for l in lines[1:at] if l.startswith("unfolding")]
            inv_text.append("\n".join([l for l in lines if l.startswith("--")] + [f"abbrev pub {which}-{new} : goal.{which}-{new}"] + extra + [f"{which}-{new} l ={rhs}"]))
    if len(rest) != len(needs):
        # by the goals' old names then; what was given in place is said
        olds = {flat(o): (o, n) for o, n in needs}
        pairs = []
        for n in order:
            m = re.search(r": tie\.Need-(\S+)", by[n][1])
            if m and n in rest:
                k = flat(m.group(1))
                k = next((x for x in (k, k.removeprefix("overflow_")) if x in olds), None)
                if k is None:
                    raise Said(f"{len(rest)} answers for {len(needs)} goals, and {m.group(1)} is none of {list(olds)}")
                pairs.append((n, olds[k]))
        for a in rest:
            if a.startswith("(") and "search rules" not in a:
                said.add(f"{rel}: {len(rest)} answers for {len(needs)} goals; left out {a}")
        rest, needs = [p[0] for p in pairs], [p[1] for p in pairs]
    if len(rest) != len(needs):
        raise Said(f"{len(rest)} answers for {len(needs)} goals: {[n[0] for n in needs]}")
    for a, (old, new) in zip(rest, needs):
        if a.startswith("("):
            m = re.match(r"\(λ ([^.]*?)\. (.*)\)$", a, re.S)
            if not m:
                raise Said(f"an answer that is no λ: {a[:50]}")
            params, term = m.group(1).split(), m.group(2).strip()
            extra, notes = [l for l in final.split("\n") if l.startswith("unfolding")], []
        else:
            if a not in by:
                raise Said(f"no declaration {a}")
            used.add(a)
            d, body = by[a]
            lines = body.split("\n")
            at = next(i for i, l in enumerate(lines) if i > 0 and re.match(re.escape(a) + r"(\s|$)", l) and " : " not in l.split("=")[0])
            eq = "\n".join(lines[at:])
            lhs, term = eq.split("=", 1)
            params, term = lhs.split()[1:], term.strip()
            extra = [l for l in lines[:at] if l.startswith("unfolding")]
            notes = [l for l in lines if l.startswith("--")]
        if re.fullmatch(r"search rules", term):
            continue
        var = params[0]
        term = turned(term, t, var, f"{rel} {new}", said, mine)
        term = re.sub(r"(\bargs|(?<![\w.'-])a)\.t([0-9]+)\b", lambda m: m.group(1) + "." + mine[int(m.group(2)) - 1][0] if int(m.group(2)) <= len(mine) else m.group(0), term)
        if any(re.search(r"(?<![\w'-])" + re.escape(p) + r"(?![\w'-])", term) for p in params[1:]):
            said.add(f"{rel} {new}: uses {params[1:]}")
        sep = "\n    " if "\n" in term or len(term) > 100 else " "
        ans.append("\n".join(notes + [f"pub {new} : goal.{new}"] + extra + [f"{new} {var} ={sep}{term}"]))
    own = [by[n][1] for n in order if n not in used]
    module = f"Rattle.{CRATE}.proofs.{rel.replace('/', '.')}"
    notes = [h for h in head if h.startswith("--")]
    uses = [h for h in head if h.startswith("use ") and ".Statement.{" not in h and not h.endswith(".Tie as tie")]

    def needed(uses, body):
        out = []
        for u in uses:
            m = re.match(r"use (\S+?)\.\{(.*)\}$", u, re.S)
            if not m:
                out.append(u)
                continue
            items = [i.strip() for i in m.group(2).split(",") if i.strip()]
            keep = []
            for i in items:
                name = i.split(" as ")[-1]
                parts = [p for p in name.split("◌") if p]
                ok = all(p in body for p in parts) if "◌" in name else re.search(r"(?<![\w'-])" + re.escape(name) + r"(?![\w'-])", body)
                if ok:
                    keep.append(i)
            if keep:
                out.append(f"use {m.group(1)}.{{{', '.join(keep)}}}")
        return out

    for name, parts, goals in (("Invariants", inv_text, "Given"), ("Answers", ans, "Goals")):
        if not parts:
            continue
        mine = own if name == "Answers" or any(re.search(r"(?<![\w'-])" + re.escape(n) + r"(?![\w'-])", "\n".join(parts)) for n in order if n not in used) else []
        body = "\n\n".join(mine + parts)
        file = "\n".join((notes if name == "Answers" or not ans else []) + needed(uses, body) + [f"use {module}.{goals} as goal", "", body]) + "\n"
        with open(os.path.join(folder, name + ".antt"), "w") as f:
            f.write(file)
    os.remove(os.path.join(folder, "Proof.antt"))
    if not inv_text and not ans:
        try:
            os.rmdir(folder)
        except OSError:
            pass
    for s in sorted(said):
        print("left:", s)
    return len(ans), len(rest)


def main():
    done = kept = 0
    for folder, dirs, names in os.walk(ROOT):
        if "Proof.antt" not in names or "/+" in folder:
            continue
        rel = os.path.relpath(folder, ROOT)
        if ONLY and rel not in ONLY:
            continue
        try:
            a, n = turn(folder)
            done += 1
            kept += a
        except Said as e:
            print(f"left: {rel}: {e}")
    print(f"{done} functions turned, {kept} answers kept")


main()
