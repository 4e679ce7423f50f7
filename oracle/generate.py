"""Inputs for both sides: pairs of a klem line for the port and one for the Rust.

The two lines differ only for control blocks made from a tree: there the Rust is given the same tree in a spelling that avoids two of its
known differences (an If without an else gets an empty one, `92 t` becomes `93 t 00`), so that the meaning can be compared all the same.
"""
import itertools
import random


def hexed(b):
    return "".join("%02X" % x for x in b) or "-"


def same(line):
    return line, line


# ---- short inputs, exhaustively

def all_bytes(most):
    yield ()
    for n in range(1, most + 1):
        yield from itertools.product(range(256), repeat=n)


def packages(most):
    return (same("pkg " + hexed(t)) for t in all_bytes(most))


def names(most):
    return (same("name " + hexed(t)) for t in all_bytes(most))


def blocks(most):
    return (same("run 60 " + hexed(t) + " 0=5 8=7") for t in all_bytes(most))


def raws(most):
    return (same("raw " + hexed(t)) for t in all_bytes(most))


def lengths():
    """fitting a raw length, and "still parsing", around each other and around the limits"""
    sizes = list(range(6)) + [62, 63, 64, 65, 4095, 4096, 65535, 65536, 65537, 99999, 100000]
    for n in sizes:
        for k in sizes + [1048575, 2 ** 31, 2 ** 32 - 1]:
            yield same("fit %d %d" % (n, k))
            yield same("still %d %d" % (k, n))


def chars():
    yield same("root")
    for c in range(256):
        yield same("char %02X" % c)
        for k in range(4):
            yield same("seg " + hexed([0x41] * k + [c] + [0x5F] * (3 - k)))


def components():
    for p in small_paths():
        count, mem = p[1:].split(":")
        yield same("components %s %s" % (count, mem or "-"))


def small_paths():
    """all paths of up to 3 components over two segments, as memory, so that every order of kinds is met"""
    kinds = ["5C000000", "5E000000", "41414141", "42424242"]
    return ["=%d:%s" % (n, "".join(t)) for n in range(4) for t in itertools.product(kinds, repeat=n)]


def paths_exhaustive():
    ps = small_paths()
    for p in ps:
        for c in ("normal", "parent", "kind"):
            yield same("%s %s" % (c, p))
        yield same("write %s 159" % p)
    for p in ps:
        for s in ps:
            yield same("resolve %s %s" % (p, s))


# ---- random ones around each limit, and damaged copies of good ones

LEAD, CHAR = b"AZ_", b"A_09Z"


def seg(r):
    return [r.choice(LEAD)] + [r.choice(CHAR) for _ in range(3)]


def good_name(r):
    b = [0x5C] if r.random() < .3 else [0x5E] * r.choice([0, 0, 1, 2, 30, 31, 32, 33])
    k = r.random()
    if k < .15:
        return b + [0]
    if k < .4:
        return b + [0x2E] + seg(r) + seg(r)
    if k < .8:
        n = r.choice([0, 1, 2, 3, 30, 31, 32, 33, 255])
        return b + [0x2F, n] + [x for _ in range(n) for x in seg(r)]
    return b + seg(r)


def damaged(r, b):
    b = list(b)
    k = r.random()
    if b and k < .25:
        b[r.randrange(len(b))] = r.randrange(256)
    elif b and k < .4:
        b = b[:r.randrange(len(b))]
    elif k < .55:
        b += [r.randrange(256) for _ in range(r.randrange(1, 5))]
    return b


def random_names(r, n):
    for _ in range(n):
        yield same("name " + hexed(damaged(r, good_name(r))))


def random_packages(r, n):
    for _ in range(n):
        size = r.choice([1, 2, 3, 4, 5, 15, 62, 63, 64, 65, 255, 256, 4000])
        lead = r.choice([r.randrange(64), 0x40 | r.randrange(16), 0x80 | r.randrange(64), 0xC0 | r.randrange(16), 0x70])
        yield same(r.choice(["pkg ", "pkg ", "raw "]) + hexed([lead] + [r.choice([0, 0, 1, 4, 15, 16, r.randrange(256)]) for _ in range(size - 1)]))


def random_texts(r, n):
    for _ in range(n):
        if r.random() < .4:
            t = "".join(r.choice("\\^^..AB_09a") for _ in range(r.choice([0, 1, 2, 3, 4, 5, 9, 30])))
        else:
            k = r.choice([1, 2, 3, 30, 31, 32, 33])
            t = r.choice(["", "\\"]) + ".".join("^" * r.choice([0, 0, 0, 1, 2]) + "".join(map(chr, seg(r)[:r.randrange(1, 5)])) for _ in range(k))
        yield same("text " + t)


# ---- table calls

def path_text(r, deep=3):
    n = r.choice(range(1, deep + 1))
    t = ".".join("^" * (r.random() < .08) + r.choice("ABCD") for _ in range(n))
    return r.choice(["\\", "\\", "\\", "", "^"]) + t if r.random() < .96 else "\\"


def absolute(r, deep=3):
    return "\\" + ".".join(r.choice("ABCD") for _ in range(r.randrange(1, deep + 1))) if r.random() < .9 else "\\"


def table_calls(r, n):
    made = 0
    for i in range(n):
        if i % 400 == 0:
            made = 0
            yield same("new")
        k = r.random()
        if k < .2:
            line = "level %s %d" % (r.choice([absolute(r), path_text(r)]), r.randrange(6))
        elif k < .26:
            line = "remove " + r.choice([absolute(r), path_text(r)])
        elif k < .42:
            made += 1
            line = "value %s %d" % (r.choice([absolute(r), path_text(r)]), r.getrandbits(64))
        elif k < .48:
            line = "value-at %s %s %d" % (path_text(r), absolute(r), r.getrandbits(64))
        elif k < .54:
            line = "alias %s %s %s" % (path_text(r), absolute(r), path_text(r))
        elif k < .58:
            line = "get %d" % r.randrange(made + 2)
        elif k < .62:
            line = "set %d %d" % (r.randrange(made + 2), r.getrandbits(64))
        elif k < .68:
            line = "handle " + r.choice([absolute(r), path_text(r)])
        elif k < .72:
            line = "object " + r.choice([absolute(r), path_text(r)])
        elif k < .75:
            line = "set-object %s %d" % (r.choice([absolute(r), path_text(r)]), r.getrandbits(64))
        elif k < .79:
            line = "levels %s %d" % (r.choice([absolute(r), path_text(r), "\\"]), r.choice([0, 1, 4, 16, 128]))
        elif k < .9:
            line = "search %s %s" % (r.choice(["A", "B", "C", path_text(r)]), r.choice([absolute(r, 5), path_text(r)]))
        else:
            line = "search-level %s %s" % (r.choice(["A", "B", "C", path_text(r)]), r.choice([absolute(r, 5), path_text(r)]))
        yield same(line)


# ---- control blocks from trees

EXPRESSIONS = (0x70, 0x72, 0x7B, 0x75, 0x76, 0x90, 0x91, 0x92, 0x93, 0x94, 0x95)


def term(r, deep):
    if deep <= 0 or r.random() < .45:
        k = r.randrange(8)
        if k < 3:
            return ("bytes", [(0x00,), (0x01,), (0xFF,)][k])
        if k < 7:
            op, n = [(0x0A, 1), (0x0B, 2), (0x0C, 4), (0x0E, 8)][k - 3]
            return ("bytes", (op,) + tuple(r.choice([0, 1, 255, r.randrange(256)]) for _ in range(n)))
        return ("bytes", (r.choice([0x60, 0x61, 0x62, 0x68, 0x69, r.randrange(0x60, 0x6F)]),))
    return expression(r, deep)


def expression(r, deep):
    cell = lambda: r.choice([0x60, 0x61, 0x62, 0x68, 0x69])
    target = lambda: r.choice([0x00, cell()])
    op = r.choice(EXPRESSIONS)
    if op == 0x70:
        return ("op", op, [term(r, deep - 1)], (cell(),))
    if op in (0x72, 0x7B):
        return ("op", op, [term(r, deep - 1), term(r, deep - 1)], (target(),))
    if op in (0x75, 0x76):
        return ("op", op, [], (cell(),))
    if op == 0x92:
        return ("op", op, [term(r, deep - 1)], ())
    return ("op", op, [term(r, deep - 1), term(r, deep - 1)], ())


def statement(r, deep):
    k = r.random()
    if k < .35:
        return ("expr", expression(r, 3))
    if k < .45:
        return ("return", term(r, 3))
    if k < .58 or deep <= 0:
        return ("plain", r.choice([0xA3, 0xCC, 0xA5, 0x9F]) if deep < 3 else r.choice([0xA3, 0xCC]))
    if k < .85:
        other = statements(r, deep - 1) if r.random() < .5 else None
        return ("if", term(r, 2), statements(r, deep - 1), other)
    cell = r.choice([0x60, 0x61])
    return ("loop", cell, r.randrange(5), statements(r, deep - 1))


def statements(r, deep):
    return [statement(r, deep) for _ in range(r.randrange(4))]


def package(r, b):
    """one of the spellings of the length"""
    for extra in (r.choice([0, 0, 0, 1, 2, 3]), 1, 2, 3):
        n = len(b) + 1 + extra
        if extra == 0 and n < 64:
            return [n] + b
        if extra and n < 16 << (8 * extra):
            return [extra << 6 | n & 15] + [n >> (4 + 8 * i) & 255 for i in range(extra)] + b


class Spelling:
    """one tree to bytes; the Rust's copy is spelled around its known differences, with the same draws"""

    def __init__(self, seed, rust):
        self.r, self.rust = random.Random(seed), rust

    def term(self, t):
        if t[0] == "bytes":
            return list(t[1])
        _, op, ts, tail = t
        if self.rust and op == 0x92:
            return [0x93] + self.term(ts[0]) + [0x00]
        return [op] + [x for u in ts for x in self.term(u)] + list(tail)

    def statement(self, s):
        kind = s[0]
        if kind == "expr":
            return self.term(s[1])
        if kind == "return":
            return [0xA4] + self.term(s[1])
        if kind == "plain":
            return [s[1]]
        if kind == "if":
            b = [0xA0] + package(self.r, self.term(s[1]) + self.list(s[2]))
            if s[3] is not None:
                b += [0xA1] + package(self.r, self.list(s[3]))
            elif self.rust:
                b += [0xA1, 0x01]
            return b
        _, cell, count, body = s
        return [0x70, 0x0A, count, cell, 0xA2] + package(self.r, [cell, 0x76, cell] + self.list(body))

    def list(self, ss):
        return [x for s in ss for x in self.statement(s)]


EDGES = (0, 1, 2 ** 31 - 1, 2 ** 31, 2 ** 32 - 1, 2 ** 32, 2 ** 32 + 1, 2 ** 63, 2 ** 64 - 1)


def narrow_blocks(r, n):
    """for a frame of 32 bits, which the Rust has not: blocks from trees, with numbers around the edges of both widths in the cells and in front of some"""
    for line, _ in random_blocks(r, n):
        w = line.split(" ")
        cells = ["%d=%d" % (i, r.choice(EDGES + (r.getrandbits(64),))) for i in range(15) if r.random() < .8]
        first = [0x70, 0x0E] + list(r.choice(EDGES).to_bytes(8, "little")) + [0x60] if r.random() < .5 else []
        yield same(" ".join(["run32", w[1], hexed(first) * bool(first) + w[2] * (w[2] != "-") or "-"] + cells))


def narrow_short(most):
    return (same("run32 60 %s 0=%d 8=%d" % (hexed(t), 2 ** 32 + 5, 2 ** 63)) for t in all_bytes(most))


def widths():
    for dsdt in range(256):
        yield same("width %d" % dsdt)
        for ssdt in (0, 1, 2, 3, 255):
            yield same("ssdt-width %d %d" % (dsdt, ssdt))


def random_blocks(r, n):
    for _ in range(n):
        tree = statements(r, 3) + [statement(r, 3)]
        cells = " ".join("%d=%d" % (i, r.choice([0, 1, 5, 2 ** 64 - 1, r.getrandbits(64)])) for i in range(15) if r.random() < .7)
        seed = r.getrandbits(32)
        port, rust = (Spelling(seed, rust).list(tree) for rust in (False, True))
        if r.random() < .15:
            port = rust = damaged(r, port)
        tail = (" " + cells).rstrip()
        budget = "run %d " % r.choice([3000, 3000, 3000, r.randrange(40)])
        yield budget + hexed(port) + tail, budget + hexed(rust) + tail
