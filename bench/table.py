#!/usr/bin/env python3
"""What bench/run measured: kept as a table, shown, put into the page and drawn. bench/run calls it.

  table.py keep FIGURES     the table with commas, on standard output: of FIGURES, FIGURES.rows and FIGURES.about
  table.py show TABLE.csv   the table as the page has it, and on how many rows the port is ahead
  table.py page             fills docs/SPEED.md from docs/speed/*.csv, and draws docs/speed/ratio.svg and growth.svg

A table's name is SET-rustc-VERSION.csv. The page has the sets `nanoseconds`, `before` and, where it is there, `after`; the plots have the last two, by
the newest compiler. What a call takes beside the test of memory is in the sets `beside-before` and `beside-after`.
"""
import csv
import glob
import math
import os
import re
import sys

DOCS = os.path.dirname(os.path.abspath(__file__)) + "/../docs"
PAGE = DOCS + "/SPEED.md"


def keep(path):
    """rows and their figures. Where a side has two lines, of N calls and of 2N, a call's share is their difference's: what every run pays once falls out."""
    about = open(path + ".about").read().splitlines()
    found = {}
    for line in open(path):
        row, side, calls, figure = line.split()
        found.setdefault((int(row), side), []).append((int(calls), int(figure)))

    def share(row, side):
        (calls, figure), *more = sorted(found[row, side])
        if more:
            calls, figure = more[0][0] - calls, more[0][1] - figure
        return calls, "%.2f" % (figure / calls)

    for line in about:
        print("# " + line)
    out = csv.writer(sys.stdout, lineterminator="\n")
    out.writerow(["row", "kind", "calls", "port", "rust"])
    for line in open(path + ".rows"):
        number, _, kind, name = line.rstrip("\n").split(" ", 3)
        if (int(number), "port") not in found:
            continue
        (calls, port), rust = share(int(number), "port"), "" if kind in ("alone", "port") else share(int(number), "rust")[1]
        out.writerow([name, kind, calls, port, rust])


class Table:
    def __init__(self, path):
        lines = open(path).read().splitlines()
        self.about = [l[2:] for l in lines if l.startswith("# ")]
        self.unit = self.about[0].split()[0]
        version = re.search(r"-rustc-([\d.]+)\.csv$", path)
        self.version = version[1] if version else ""
        rows = list(csv.DictReader(l for l in lines if not l.startswith("# ")))
        self.rows = [r for r in rows if r["kind"] in ("both", "apart")]
        self.single = [r for r in rows if r["kind"] == "port"]
        self.of = {r["row"]: (float(r["port"]), float(r["rust"])) for r in self.rows}
        self.alone = {r["row"]: float(r["port"]) for r in rows if r["kind"] == "alone"}

    def ratio(self, row):
        port, rust = self.of[row]
        return rust / port

    def counts(self):
        """the last line: the rows in which both sides do the same, and the others apart"""
        both = [r["row"] for r in self.rows if r["kind"] == "both"]
        ahead = sum(self.ratio(r) >= 1 for r in both)
        apart = [r["row"] for r in self.rows if r["kind"] == "apart"]
        checks = [r for r in apart if r.startswith("check ")]
        said = "%d rows in which both sides answer the same call: the port is ahead on %d and behind on %d." % (len(both), ahead, len(both) - ahead)
        if checks:
            said += " Apart from these, %d rows of the check, which the Rust has not: it runs the block (%s to %s times the check)." % (
                len(checks), figure(min(map(self.ratio, checks))), figure(max(map(self.ratio, checks))))
        for r in apart:
            if r not in checks:
                said += " Apart too: %s, %s times." % (r, figure(self.ratio(r)))
        return said


def figure(x, unit="ratio"):
    """three digits that mean something; instructions are whole"""
    if unit == "instructions" or x >= 100:
        return format(round(x), ",")
    return "%.*f" % (3 if x < 0.1 else 2 if x < 10 else 1, x)


def verdict(table, row):
    ratio = table.ratio(row["row"])
    return figure(ratio) + (" (behind)" if ratio < 1 and row["kind"] == "both" else " (apart)" if row["kind"] == "apart" else "")


def grid(heads, rows):
    yield "| " + " | ".join(heads) + " |"
    yield "|---|" + "---:|" * (len(heads) - 1)
    for r in rows:
        yield "| " + " | ".join(r) + " |"


def show(t):
    """one table"""
    heads = ["row", "calls", "port, %s a call" % t.unit, "Rust, %s a call" % t.unit, "Rust / port"]
    yield from ("- " + a for a in t.about)
    yield ""
    yield from grid(heads, ([r["row"], r["calls"], *(figure(x, t.unit) for x in t.of[r["row"]]), verdict(t, r)] for r in t.rows))
    yield ""
    yield t.counts()
    yield from single(t)


def single(t):
    """the rows that the port alone has"""
    if t.single:
        yield ""
        yield from grid(["row", "calls", "port, %s a call" % t.unit], ([r["row"], r["calls"], figure(float(r["port"]), t.unit)] for r in t.single))


def tables(name):
    """the tables of a set, that of the newest compiler first"""
    found = [Table(p) for p in glob.glob("%s/speed/%s.csv" % (DOCS, name)) + glob.glob("%s/speed/%s-rustc-*.csv" % (DOCS, name))]
    return sorted(found, key=lambda t: [int(n) for n in re.findall(r"\d+", t.version)], reverse=True)


def drawn_sets():
    """before, and after where it is there: by one compiler, the newest that measured the last of them"""
    before, after = tables("before"), tables("after")
    if not after:
        return {"before": before[0]}
    return {"before": next((t for t in before if t.version == after[0].version), before[0]), "after": after[0]}


def instructions():
    """before, and after where it is there; the last columns are of the other compilers"""
    before, after = tables("before"), tables("after")
    if not after:
        t, others = before[0], before[1:]
        heads = ["row", "port", "Rust", "Rust / port"] + ["by rustc " + o.version for o in others]
        rows = ([r["row"], *(figure(x, t.unit) for x in t.of[r["row"]]), verdict(t, r)] + [verdict(o, r) for o in others] for r in t.rows)
    else:
        b, t, others = *drawn_sets().values(), after[1:]
        heads = ["row", "port, before", "port, after", "Rust", "Rust / port, before", "after"] + ["after, by rustc " + o.version for o in others]
        rows = ([r["row"], figure(b.of[r["row"]][0], b.unit) if r["row"] in b.of else "", *(figure(x, t.unit) for x in t.of[r["row"]]),
                 verdict(b, r) if r["row"] in b.of else "", verdict(t, r)] + [verdict(o, r) if r["row"] in o.of else "" for o in others] for r in t.rows)
    for name, sets in (("Before", before), ("After", after)):
        for s in sets:
            yield "- %s: %s" % (name, "; ".join(s.about))
    yield ""
    yield from grid(heads, rows)
    yield ""
    for name, sets in (("Before", before), ("After", after)):
        for s in sets:
            yield "%s, by rustc %s: %s" % (name, s.version, s.counts())
            yield ""
    yield from single(t)


CALLS = {"an exact lookup": "lookup", "a search of a value": "search", "a search of a level": "level search"}


def beside_rows(t):
    """board, the test of memory, and what each call takes beside it"""
    for name, test in t.alone.items():
        what, board = name.split(", ", 1)
        if what == "the test of memory":
            yield board, test, [t.alone["%s, %s" % (call, board)] - test for call in CALLS]


def beside():
    """before, and after where it is there"""
    sets = [(n, t) for n in ("before", "after") for t in tables("beside-" + n)[:1]]
    for name, t in sets:
        yield "- %s: %s" % (name.capitalize(), "; ".join(t.about))
    yield ""
    found = {n: {board: (test, calls) for board, test, calls in beside_rows(t)} for n, t in sets}
    heads = ["board"] + ["test, " + n for n in found] + ["%s, %s" % (c, n) for c in CALLS.values() for n in found]
    last = list(found.values())[-1]
    yield from grid(heads, ([board] + [figure(f[board][0], "instructions") for f in found.values()]
                            + [figure(f[board][1][i], "instructions") for i in range(len(CALLS)) for f in found.values()] for board in last))


def page():
    text = open(PAGE).read()
    parts = {"instructions": instructions, "beside": beside, "nanoseconds": lambda: show(tables("nanoseconds")[0])}
    for name, lines in parts.items():
        start, end = "<!-- %s -->\n" % name, "<!-- end of %s -->\n" % name
        head, rest = text.split(start)
        tail = rest.split(end)[1]
        text = head + start + "\n".join(lines()).rstrip("\n") + "\n" + end + tail
    open(PAGE, "w").write(text)
    drawn = drawn_sets()
    open(DOCS + "/speed/ratio.svg", "w").write(ratio_plot(drawn))
    open(DOCS + "/speed/growth.svg", "w").write(growth_plot(drawn))


# Plain SVG: a list of elements on a white ground.
BLUE, ORANGE, GREY, INK, PALE = "#1f6feb", "#d4622a", "#8a8f98", "#24292f", "#d0d7de"


def text(x, y, words, size=12, anchor="start", fill=INK, more=""):
    words = words.replace("&", "&amp;").replace("<", "&lt;")
    return '<text x="%.1f" y="%.1f" font-size="%d" text-anchor="%s" fill="%s"%s>%s</text>' % (x, y, size, anchor, fill, more, words)


def line(x1, y1, x2, y2, stroke=PALE, width=1.0, more=""):
    return '<line x1="%.1f" y1="%.1f" x2="%.1f" y2="%.1f" stroke="%s" stroke-width="%.1f"%s/>' % (x1, y1, x2, y2, stroke, width, more)


def svg(width, height, title, parts):
    head = '<svg xmlns="http://www.w3.org/2000/svg" viewBox="0 0 %d %d" width="%d" height="%d" font-family="sans-serif">' % (width, height, width, height)
    return "\n".join([head, "<title>%s</title>" % title, '<rect width="%d" height="%d" fill="white"/>' % (width, height)] + parts + ["</svg>", ""])


def ratio_plot(drawn):
    """a bar for each row and set, from 1 to the ratio, on a scale of powers of ten"""
    newest = list(drawn.values())[-1]
    left, right, top, each = 470, 1010, 66, 24
    low, high = -3, 2
    at = lambda r: left + (min(max(math.log10(r), low), high) - low) / (high - low) * (right - left)
    bottom = top + each * len(newest.rows)
    title = "Instructions: how many times as many the Rust takes"
    parts = [text(16, 26, title, 16, more=' font-weight="bold"'),
             text(16, 46, "right of 1 the port is ahead, left of 1 behind; grey: the Rust has no check, and no 32 bits; rustc %s" % newest.version, 12, fill=GREY)]
    for p in range(low, high + 1):
        parts.append(line(at(10 ** p), top, at(10 ** p), bottom, INK if p == 0 else PALE))
        parts.append(text(at(10 ** p), bottom + 16, "%g" % 10 ** p, 11, "middle", GREY))
    for i, row in enumerate(newest.rows):
        y = top + i * each
        parts.append(text(left - 12, y + 16, row["row"], 12, "end"))
        sets = [(n, t) for n, t in drawn.items() if row["row"] in t.of]
        high_of = (each - 8) / len(sets)
        for k, (name, t) in enumerate(sets):
            r = t.ratio(row["row"])
            colour = GREY if row["kind"] == "apart" else BLUE if r >= 1 else ORANGE
            x1, x2 = sorted((at(1), at(r)))
            fade = ' fill-opacity="0.35"' if k < len(sets) - 1 else ""
            parts.append('<rect x="%.1f" y="%.1f" width="%.1f" height="%.1f" fill="%s"%s/>' % (x1, y + 4 + k * high_of, max(x2 - x1, 1), high_of - 1, colour, fade))
        # the last set's figure, clear of every bar
        ends = [at(t.ratio(row["row"])) for _, t in sets] + [at(1)]
        parts.append(text(max(ends) + 5 if r >= 1 else min(ends) - 5, y + 16, figure(r), 11, "start" if r >= 1 else "end", colour))
    if len(drawn) > 1:
        parts.append(text(16, bottom + 16, "pale: before", 11, fill=GREY))
    return svg(right + 60, bottom + 30, title, parts)


def port_lines(drawn, name, colour, rows):
    """a line for each set, the older ones pale; one alone where they lie within one percent of one another"""
    lines = {n: [(x, t.of[r][0]) for x, r in rows] for n, t in drawn.items()}
    last = list(lines)[-1]
    apart = [n for n in lines if any(abs(y / z - 1) > 0.01 for (_, y), (_, z) in zip(lines[n], lines[last]))]
    if not apart:
        return [(name, colour, "", lines[last])]
    return [(name + ", " + n, colour, ' stroke-opacity="0.4"', lines[n]) for n in apart] + [(name + ", " + last, colour, "", lines[last])]


def growth_plot(drawn):
    """left: a block's check and run by its length, both scales of powers; right: a search by the table's levels, plain scales"""
    newest = list(drawn.values())[-1]
    sizes = (1, 4, 16, 64)
    levels = [(int(m[1]), r["row"]) for r in newest.rows for m in [re.match(r"the same search with (\d+) levels", r["row"])] if m]
    check = {s: next(r["row"] for r in newest.rows if r["row"].startswith("check a block of %d KiB" % s)) for s in sizes}
    blocks = [("run, Rust", ORANGE, "", [(s, newest.of["run a block of %d KiB" % s][1]) for s in sizes])]
    blocks += port_lines(drawn, "run, port", BLUE, [(s, "run a block of %d KiB" % s) for s in sizes])
    blocks += port_lines(drawn, "check, port", GREY, list(check.items()))
    searches = [("Rust", ORANGE, "", [(n, newest.of[r][1]) for n, r in levels])] + port_lines(drawn, "port", BLUE, levels)
    top, bottom, wide = 80, 400, 330

    def panel(left, words, below, lines, x_at, y_at, x_marks, y_marks):
        parts = [text(left - 50, 60, words, 13, more=' font-weight="bold"'), text(left + wide / 2, bottom + 36, below, 11, "middle", GREY)]
        for y in y_marks:
            parts += [line(left, y_at(y), left + wide, y_at(y)), text(left - 6, y_at(y) + 4, short(y), 11, "end", GREY)]
        for x in x_marks:
            parts += [line(left + x_at(x), bottom, left + x_at(x), bottom + 4, GREY), text(left + x_at(x), bottom + 18, str(x), 11, "middle", GREY)]
        ends = []
        for name, colour, more, points in lines:
            path = " ".join("%.1f,%.1f" % (left + x_at(x), y_at(y)) for x, y in points)
            parts.append('<polyline points="%s" fill="none" stroke="%s" stroke-width="2"%s/>' % (path, colour, more))
            parts += ['<circle cx="%.1f" cy="%.1f" r="3" fill="%s"%s/>' % (left + x_at(x), y_at(y), colour, more.replace("stroke", "fill")) for x, y in points]
            ends.append([y_at(points[-1][1]) + 4, left + x_at(points[-1][0]) + 8, name, colour])
        # names that would lie on one another are moved apart
        ends.sort()
        for a, b in zip(ends, ends[1:]):
            b[0] = max(b[0], a[0] + 14)
        return parts + [text(x, y, name, 12, fill=colour) for y, x, name, colour in ends]

    tens = lambda low, high: (lambda y: bottom - (math.log10(y) - low) / (high - low) * (bottom - top))
    most = max(y for _, _, _, points in searches for _, y in points)
    step = next(s for s in (1000, 2000, 5000, 10000, 20000, 50000) if most / s < 8)
    ceiling = (int(most / step) + 1) * step
    title = "Instructions: how a call grows"
    parts = [text(16, 26, title, 16, more=' font-weight="bold"')]
    parts += panel(76, "A block, by its length", "KiB (both scales by powers)", blocks, lambda x: math.log10(x) / math.log10(64) * wide, tens(4, 8), sizes, [10 ** p for p in range(4, 9)])
    parts += panel(76 + wide + 210, "A search, by the levels of its table", "levels, four values to each below the root (plain scales)", searches,
                   lambda x: x / 128 * wide, lambda y: bottom - y / ceiling * (bottom - top), [n for n, _ in levels],
                   range(0, ceiling + 1, step))
    return svg(76 + 2 * wide + 210 + 110, bottom + 56, title, parts)


def short(n):
    """10000 as 10 k"""
    for by, name in ((10 ** 6, " M"), (10 ** 3, " k")):
        if n >= by:
            return "%g%s" % (n / by, name)
    return "%g" % n


def main():
    what, paths = sys.argv[1:2], sys.argv[2:]
    if what == ["show"] and len(paths) == 1 and Table(paths[0]).alone and not Table(paths[0]).rows:
        t = Table(paths[0])
        print("\n".join(grid(["board", "test", *CALLS.values()], ([b] + [figure(x, t.unit) for x in [test] + calls] for b, test, calls in beside_rows(t)))))
    elif what == ["keep"] and len(paths) == 1:
        keep(paths[0])
    elif what == ["show"] and len(paths) == 1:
        print("\n".join(show(Table(paths[0]))))
    elif what == ["page"] and not paths:
        page()
    else:
        sys.exit(__doc__)


if __name__ == "__main__":
    main()
