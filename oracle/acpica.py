#!/usr/bin/env python3
"""Compares runs of control blocks with ACPICA, a second and independent reading of the specification, at both widths.

  oracle/acpica.py KLEM [--blocks N] [--seed N]       needs acpiexec (Debian's package acpica-tools)

Blocks are methods of a DSDT, N of one of revision 2, whose numbers have 64 bits, and N of one of revision 1, whose numbers have 32: `run` and `run32` of klem,
after `width` has said so. Of the second, every fourth is the method of an SSDT of revision 2 beside an empty DSDT of revision 1, whose width is the DSDT's.
ACPICA cannot judge, and so they leave out: a cell read beside an operand that writes it (it reads cells late), reads of unset cells, Break and Continue outside
a While, BreakPoint (it enters its debugger), malformed blocks (it lets them pass), and a frame that is given with numbers in it.
Each block ends by returning a sum over the cells that it wrote, or returns earlier. Constants are often at the edges of a width.
"""
import argparse
import concurrent.futures
import os
import random
import re
import shutil
import struct
import subprocess
import sys
import tempfile

sys.path.insert(0, os.path.dirname(os.path.abspath(__file__)))
import generate as g

SIZE = 12  # blocks in one table: acpiexec takes a short command line
AT_ONCE = 8  # acpiexec waits for a second before it ends
CELLS = [0x60, 0x61, 0x62]


def constant(r):
    op, n = r.choice([(0x0A, 1), (0x0B, 2), (0x0C, 4), (0x0E, 8)])
    edge = [0x0E] + list(r.choice(g.EDGES).to_bytes(8, "little"))
    return r.choice([[0x00], [0x01], [0xFF], edge, [op] + [r.choice([0, 1, 255, r.randrange(256)]) for _ in range(n)]])


# two operands and a target
TWO = (0x72, 0x74, 0x7B, 0x7D, 0x7F)


def pure(r, deep):
    """a term that writes nothing: its cells may stand anywhere"""
    k = r.random()
    if deep <= 0 or k < .3:
        return constant(r) if k < .15 or deep <= 0 and k < .5 else [r.choice(CELLS)]
    op = r.choice([0x72, 0x74, 0x7B, 0x7D, 0x7F, 0x80, 0x81, 0x82, 0x90, 0x91, 0x92, 0x93, 0x94, 0x95])
    if op in (0x80, 0x81, 0x82):
        return [op] + pure(r, deep - 1) + [0x00]
    if op == 0x92:
        return [op] + pure(r, deep - 1)
    return [op] + pure(r, deep - 1) + pure(r, deep - 1) + ([0x00] if op in TWO else [])


def statement(r, deep, looped):
    k = r.random()
    cell = [r.choice(CELLS)]
    if k < .2:
        return [0x70] + pure(r, 2) + cell
    if k < .35:
        op = r.choice(TWO + (0x80, 0x81, 0x82))
        return [op] + pure(r, 2) + (pure(r, 2) if op in TWO else []) + r.choice([[0x00], cell])
    if k < .45:
        return [r.choice([0x75, 0x76])] + cell
    if k < .5:
        return [0xA3]
    if k < .55:
        return [0xA4] + pure(r, 2)
    if looped and k < .6:
        return [r.choice([0xA5, 0x9F])]
    if deep <= 0:
        return [0xA3]
    body = [x for _ in range(r.randrange(3)) for x in statement(r, deep - 1, looped)]
    if k < .85:
        b = [0xA0] + g.package(r, pure(r, 2) + body)
        if r.random() < .5:
            b += [0xA1] + g.package(r, [x for _ in range(r.randrange(3)) for x in statement(r, deep - 1, looped)])
        return b
    body = [x for _ in range(r.randrange(3)) for x in statement(r, deep - 1, True)]
    return [0x70, 0x0A, r.randrange(6), 0x67] + [0xA2] + g.package(r, [0x67, 0x76, 0x67] + body)


def block(r):
    b = [x for c in CELLS for x in [0x70] + constant(r) + [c]]
    b += [x for _ in range(r.randrange(1, 6)) for x in statement(r, 2, False)]
    return b + [0xA4, 0x72, 0x60, 0x72, 0x61, 0x62, 0x00, 0x00]


def methods(blocks):
    body = b""
    for i, code in enumerate(blocks):
        c = b"M%03X" % i + b"\x00" + bytes(code)
        n = len(c)
        for extra in (0, 1, 2, 3):
            t = n + 1 + extra
            if t < 64 and extra == 0:
                size = bytes([t])
                break
            if extra and t < 16 << (8 * extra):
                size = bytes([extra << 6 | t & 15]) + bytes(t >> (4 + 8 * j) & 255 for j in range(extra))
                break
        body += b"\x14" + size + c
    return body


def table(signature, revision, body):
    h = bytearray(signature + struct.pack("<IBB", 36 + len(body), revision, 0) + b"KLEM  " + b"COMPARE " + struct.pack("<I", 1) + b"KLEM" + struct.pack("<I", 1))
    h[9] = -(sum(h) + sum(body)) & 255
    return bytes(h) + body


def acpica(blocks, revision, apart):
    """what acpiexec says of the blocks, in a DSDT of that revision, or, apart, in an SSDT of revision 2 beside it"""
    body = methods(blocks)
    tables = [table(b"DSDT", revision, b""), table(b"SSDT", 2, body)] if apart else [table(b"DSDT", revision, body)]
    with tempfile.TemporaryDirectory() as folder:
        names = [os.path.join(folder, "%d.aml" % i) for i in range(len(tables))]
        for name, t in zip(names, tables):
            with open(name, "wb") as f:
                f.write(t)
        commands = ";".join("evaluate \\M%03X" % i for i in range(len(blocks)))
        said = subprocess.run(["acpiexec", "-dr", "-to", "2", "-b", commands] + names, capture_output=True, text=True, errors="replace").stdout
    told = [None] * len(blocks)
    for i, part in re.findall(r"Evaluating \\M([0-9A-F]{3})(.*?)(?=Evaluating \\M|\Z)", said, flags=re.S):
        m = re.search(r"\[Integer\] = ([0-9A-F]+)", part)
        told[int(i, 16)] = "returned %d" % int(m.group(1), 16) if m else "no number: " + " ".join(part.split())[:120]
    return told


def klem(lines):
    return subprocess.run([ARGS.klem], input="".join(line + "\n" for line in lines), capture_output=True, text=True).stdout.split("\n")[:-1]


def compared(revision, bits, command):
    """the same blocks on both sides; how many differ"""
    if klem(["width %d" % revision]) != ["ok %d" % bits]:
        sys.exit("acpica: klem does not say %d bits of revision %d" % (bits, revision))
    r = random.Random(ARGS.seed)
    blocks = [block(r) for _ in range(ARGS.blocks)]
    batches = [blocks[i:i + SIZE] for i in range(0, len(blocks), SIZE)]
    apart = [bits == 32 and i % 4 == 3 for i in range(len(batches))]
    with concurrent.futures.ThreadPoolExecutor(AT_ONCE) as pool:
        theirs = [told for batch in pool.map(acpica, batches, [revision] * len(batches), apart) for told in batch]
    asked = [g.hexed(b) for b in blocks]
    ports, wide = ([said.split(" units ")[0] for said in klem("%s 5000 %s" % (c, h) for h in asked)] for c in (command, "run"))
    equal = spent = 0
    bad = []
    for h, port, there in zip(asked, ports, theirs):
        if port.startswith("refused 22 "):
            spent += 1
        elif port == there:
            equal += 1
        else:
            bad.append((h, port, there))
    print("%d bits: blocks %d, equal %d, budget spent %d, different %d; %d end otherwise in 64 bits; %d in an SSDT" % (
        bits, len(blocks), equal, spent, len(bad), sum(a != b for a, b in zip(ports, wide)), sum(len(b) for b, a in zip(batches, apart) if a)), flush=True)
    for b in sorted(bad, key=lambda x: len(x[0]))[:10]:
        print("DIFFERENT %s\n  port   %s\n  ACPICA %s" % b)
    return len(bad)


def main():
    if not shutil.which("acpiexec"):
        sys.exit("acpica: acpiexec is missing (Debian's package acpica-tools)")
    sys.exit(1 if compared(2, 64, "run") + compared(1, 32, "run32") else 0)


if __name__ == "__main__":
    ap = argparse.ArgumentParser()
    ap.add_argument("klem")
    ap.add_argument("--blocks", type=int, default=5000)
    ap.add_argument("--seed", type=int, default=1)
    ARGS = ap.parse_args()
    main()
