#!/usr/bin/env python3
"""Sends the same calls to the port and to the Rust, and compares every answer.

  oracle/compare.py KLEM ORACLE [--full] [--seed N] [--sample FILE]

KLEM is the port's program, ORACLE the shell that oracle/build makes. Without --full some 1.5 million calls are made; with it, all inputs of
up to 3 bytes too. An answer is equal, or both sides refuse (a run that ends in 23: with the same cells), or the call is outside the compared domain
(and why is counted), or the difference is one of docs/DIFFERENCES.md; any other difference is printed and fails the run. A difference has a label only
if the port's answer is what oracle/model.py's reading of 01 gives and the Rust's is what its model of the Rust gives, and that model met the difference.
A run that spends its budget has no counterpart in the Rust, which has none: the terms that were evaluated before that moment, one after the other, are
given to the Rust, and the cells must be the same.
Besides, every answer of the port but those to the exhaustive inputs of 3 bytes is held to the reading of 01 (places, units and scopes asked included).
Runs in frames of 32 bits (R-2 of 02), which the Rust has not, are held to the reading alone; oracle/acpica.py has another judge for them.
--sample writes some thousands of calls on which the two agreed, with the answers, for the gate to replay with no Rust at hand.
"""
import argparse
import collections
import os
import random
import re
import subprocess
import sys

sys.path.insert(0, os.path.dirname(os.path.abspath(__file__)))
import generate as g
import model

WIDTHS = ("run32 ", "width ", "ssdt-width ")
EDITS = ("level ", "remove ", "value ", "value-at ", "alias ", "set ", "set-object ")
STRIP = re.compile(r" (?:units|asked) \d+")
AGREED = ("equal", "both refuse", "both refuse, same cells")


def run(program, lines):
    if not lines:
        return []
    out = subprocess.run([program], input="\n".join(lines) + "\n", capture_output=True, text=True, errors="surrogateescape").stdout.split("\n")[:-1]
    if len(out) != len(lines):
        sys.exit("compare: %s answered %d of %d lines" % (program, len(out), len(lines)))
    return out


def outside(line, port):
    """why a call is not compared, or None: 01 compares within the limits, blocks that the check accepts"""
    if port.startswith(("refused 9 ", "refused 5 ", "refused 18 ", "refused 19 ", "refused 20 ")):
        return "over a limit"
    if port.startswith("refused 26 ") and not line.startswith("seg "):
        return "no path"
    if line.startswith("run ") and port.startswith("refused ") and not port.startswith(("refused 22 ", "refused 23 ")):
        return "block refused"
    return None


def to_rust(line, rust_line, port):
    """the line that the Rust is sent, or None where there is nothing to compare"""
    if line.startswith(WIDTHS):
        return None
    if not line.startswith("run "):
        return rust_line
    if port.startswith("refused 22 "):
        return model.unrolled(line)
    return None if outside(line, port) else rust_line


def known(line, rust_line, port, rust, paper):
    """the labels of docs/DIFFERENCES.md that a difference belongs to, or None; `paper` has the table before the call"""
    r = model.Rust(paper.table)
    told = r.answer(rust_line)
    if told is None or not r.met or not (rust == told or told.startswith("error ") and " cells " not in told and rust.startswith(told)):
        return None
    return "+".join(sorted(r.met))


def verdict(line, rust_line, port, rust, paper):
    """one of AGREED, `outside: ..`, `difference ..` or UNMATCHED"""
    if line.startswith("run ") and port.startswith("refused 22 "):
        return "cells at 22 equal" if rust.startswith("finished ") and model.cells_of(port) == model.cells_of(rust) else "UNMATCHED"
    if STRIP.sub("", port) == rust:
        return "equal"
    if rust == "panic":
        return "outside: the Rust panics"
    if port.startswith("refused") and rust.startswith("error"):
        if not line.startswith("run "):
            return "both refuse"
        if model.cells_of(port) == model.cells_of(rust):
            return "both refuse, same cells"
    if outside(line, port):
        return "outside: " + outside(line, port)
    label = known(line, rust_line, port, rust, paper)
    return "difference " + label if label else "UNMATCHED"


class Count:
    def __init__(self, read_again):
        self.n = collections.Counter()
        self.unmatched = []
        self.sample = []
        self.read_again = read_again

    def batch(self, pairs, keep=0.0, r=None):
        """`keep` is the part of the calls on which the two agreed that goes into the sample; of a table's calls, all until the two tables differ"""
        ports = run(ARGS.klem, [a for a, _ in pairs])
        sent = [(a, to_rust(a, b, p), p) for (a, b), p in zip(pairs, ports)]
        rusts = iter(run(ARGS.oracle, [("-" if p.startswith("refused") else "+") + b for _, b, p in sent if b]))
        paper, apart = model.Paper(), False
        for line, rust_line, port in sent:
            self.n["calls"] += 1
            if line == "new":
                apart = False
            if rust_line is None:
                said = "outside: the Rust has 64 bits alone" if line.startswith(WIDTHS) else "outside: block refused"
            else:
                rust = next(rusts)
                said = "outside: the tables differ since a known difference" if apart else verdict(line, rust_line, port, rust, paper)
                apart = apart or line.startswith(EDITS) and port.startswith("ok") and not rust.startswith("ok")
            self.n[said] += 1
            if said == "UNMATCHED":
                self.unmatched.append((line, port, "Rust " + rust))
            if self.read_again or said.startswith("difference"):
                self.hold(line, port, paper.answer(line))
            if keep and said in AGREED and len(line) < 400 and (r is None or r.random() < keep):
                self.sample.append((line, port))

    def hold(self, line, port, read):
        """the port's answer to the reading of 01"""
        self.n["as 01 reads" if port == read else "UNMATCHED"] += 1
        if port != read:
            self.unmatched.append((line, port, "01   " + read))

    def add(self, other):
        self.n.update(other.n)
        self.unmatched += other.unmatched
        self.sample += other.sample


def batches(pairs, size=200000):
    buf = []
    for p in pairs:
        buf.append(p)
        if len(buf) == size:
            yield buf
            buf = []
    if buf:
        yield buf


def main():
    r = random.Random(ARGS.seed)
    most = 3 if ARGS.full else 2
    sources = [
        ("packages of up to %d bytes" % most, g.packages(most), .002),
        ("names of up to %d bytes" % most, g.names(most), .002),
        ("blocks of up to %d bytes" % most, g.blocks(most), .5),
        ("raw lengths of up to 2 bytes", g.raws(2), .002),
        ("fits and still parsing", g.lengths(), .2),
        ("characters and segments", g.chars(), .2),
        ("components", g.components(), .5),
        ("paths of up to 3 components", g.paths_exhaustive(), .2),
        ("packages", g.random_packages(r, 200000), .001),
        ("names", g.random_names(r, 200000), .003),
        ("texts", g.random_texts(r, 200000), .003),
        ("blocks from trees", g.random_blocks(r, 200000), .005),
    ]
    total = Count(True)
    for name, pairs, keep in sources:
        whole = name.endswith("up to 3 bytes")
        c = Count(not whole)
        for b in batches(pairs):
            c.batch(b, keep / 200 if whole else keep, r)
        report(name, c)
        total.add(c)
    c = Count(True)
    for i in range(10):
        c.batch(list(g.table_calls(r, 40000)), i == 0)
    c.sample = c.sample[:3000]
    report("table calls", c)
    total.add(c)
    # what the Rust has not: held to the reading of 01 and 02 alone
    r = random.Random(ARGS.seed)
    for name, pairs in (("widths", g.widths()), ("blocks of up to 2 bytes, 32 bits", g.narrow_short(2)), ("blocks from trees, 32 bits", g.narrow_blocks(r, 100000))):
        c = Count(True)
        for b in batches(pairs):
            c.batch(b)
        report(name, c)
        total.add(c)
    report("ALL", total)
    if ARGS.sample:
        for ending, column in ((".in", 0), (".out", 1)):
            with open(ARGS.sample + ending, "w", errors="surrogateescape") as f:
                f.write("".join(row[column] + "\n" for row in total.sample))
    for line, port, other in total.unmatched[:20]:
        print("UNMATCHED %s\n  port %s\n  %s" % (line[:300], port[:300], other[:300]))
    sys.exit(1 if total.unmatched else 0)


def report(name, c):
    print("%-32s %s" % (name, ", ".join("%s %d" % kv for kv in sorted(c.n.items()))), flush=True)


if __name__ == "__main__":
    ap = argparse.ArgumentParser()
    ap.add_argument("klem")
    ap.add_argument("oracle")
    ap.add_argument("--full", action="store_true")
    ap.add_argument("--seed", type=int, default=1)
    ap.add_argument("--sample")
    ARGS = ap.parse_args()
    main()
