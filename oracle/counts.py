#!/usr/bin/env python3
"""Writes the counts of docs/DIFFERENCES.md from what oracle/compare.py printed.

  oracle/compare.py KLEM ORACLE --full >LOG; oracle/counts.py LOG
"""
import os
import re
import sys

PAGE = os.path.dirname(os.path.abspath(__file__)) + "/../docs/DIFFERENCES.md"
START, END = "<!-- counts -->\n", "<!-- end of counts -->\n"
WHAT = {"packages of up to 3 bytes": "all package lengths of up to 3 bytes", "names of up to 3 bytes": "all names of up to 3 bytes", "blocks of up to 3 bytes": "all blocks of up to 3 bytes, run",
        "paths of up to 3 components": "all paths of up to 3 components over two segments", "packages": "package lengths around each limit", "blocks from trees": "blocks made from trees, and damaged copies",
        "table calls": "table calls, in sequences", "widths": "the width of a revision", "blocks of up to 2 bytes, 32 bits": "all blocks of up to 2 bytes, run in 32 bits",
        "blocks from trees, 32 bits": "blocks made from trees, and damaged copies, run in 32 bits", "raw lengths of up to 2 bytes": "all raw lengths of up to 2 bytes"}


def rows(log):
    """name and counts of each source, `ALL` last"""
    for line in open(log):
        m = re.match(r"^(.{32}) (.* \d+)$", line.rstrip("\n"))
        if m:
            yield m[1].strip(), {k: int(n) for k, n in re.findall(r"([^,]*(?:, same cells)?) (\d+)(?:, |$)", m[2])}


def sums(counts, start):
    return sum(n for k, n in counts.items() if k.startswith(start))


def main():
    found = list(rows(sys.argv[1]))
    if not found or found[-1][0] != "ALL":
        sys.exit("counts: %s does not end in a line of all counts" % sys.argv[1])
    everything = found.pop()[1]
    parts = lambda start: ", ".join("%s %s" % (k[len(start):], format(n, ",")) for k, n in sorted(everything.items()) if k.startswith(start))
    n = lambda k: format(sums(everything, k), ",")
    text = [START.rstrip("\n"), "The last comparison made %s calls: %s equal, %s refused by both, %s runs that spent their budget with equal cells, %s known differences (%s), %s outside the compared domain (%s), and %s unmatched. %s of the port's answers" % (
        n("calls"), n("equal"), n("both refuse"), n("cells at 22"), n("difference "), parts("difference "), n("outside: "), parts("outside: "), n("UNMATCHED") if sums(everything, "UNMATCHED") else "none", n("as 01 reads")),
        "were held to the second reading of 01 besides, places, units and scopes asked included, and are what it gives. By kind:", "",
        "| calls | number | equal | both refuse | equal cells at 22 | known differences | outside | as 01 reads |", "|---|---|---|---|---|---|---|---|"]
    for name, c in found:
        cells = [format(sums(c, k), ",") for k in ("calls", "equal", "both refuse", "cells at 22", "difference ", "outside: ", "as 01 reads")]
        text.append("| %s | %s |" % (WHAT.get(name, name), " | ".join(cells)))
    page = open(PAGE).read()
    before, rest = page.split(START)
    with open(PAGE, "w") as f:
        f.write(before + "\n".join(text) + "\n" + END + rest.split(END)[1])


main()
