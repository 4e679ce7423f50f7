"""Two models in Python: what documents 01 and 02 say that a call answers, and what the Rust answers where the two are known to differ.

`Paper` is 01 (and R-1, R-2, R-3, R-6, R-7 and R-8 of 02) written once more, from its sentences and in another language; it uses nothing of the port, but was written with the port's definitions
known. `Rust` follows the published source where
docs/DIFFERENCES.md has a difference, panics included. oracle/compare.py asks both where the port and the Rust disagree: a difference is known only if
each side's answer is the one that its model computes, and the Rust's model says which difference it met on the way.
"""
import re

NAMES = ["UnexpectedEndOfStream", "InvalidPkgLength", "BadOpcode", "TooDeep", "BlockTooLong", "BadNameByte", "EmptyNamesAreInvalid", "InvalidNameSeg",
         "TooManyComponents", "InvalidNormalizedName", "NotAbsolute", "RootHasNoParent", "RootNotAllowed", "TriedToRemoveRootNamespace", "LevelDoesNotExist",
         "ValueDoesNotExist", "NameCollision", "LevelsFull", "BindingsFull", "ObjectsFull", "NoSuchHandle", "BudgetSpent", "Unset", "BadTable", "OutTooSmall", "BadPath",
         "TableTooShort", "BadSignature", "BadTableLength", "BadChecksum", "PackageEndsEarly",
         "ImageEndedEarly", "ImageEdition", "ImageCount", "ImageDepth", "ImageType", "ImageSegment", "ImageOrder", "ImageDeepBindings", "ImageBindingsOver", "ImageBindingsShort",
         "ImageHandle", "ImageSpareBits", "ImageBytesLeft"]
COMPONENTS, LEVELS, BINDINGS, OBJECTS, LONGEST, DEPTH = 32, 128, 512, 512, 65536, 16
ONES = 2 ** 64 - 1


class Refused(Exception):
    def __init__(self, number, place=0):
        self.number, self.place = number, place

    def __str__(self):
        return "refused %d at %d %s" % (self.number, self.place, NAMES[self.number - 1])


class RustError(Exception):
    """an error of the Rust, by its kind"""


class Panic(Exception):
    pass


def hexed(b):
    return "".join("%02X" % x for x in b) or "-"


def unhexed(w):
    return [] if w == "-" else list(bytes.fromhex(w))


# ---- package lengths

def raw_length(b, end=None):
    """the raw length at the front of b, and the bytes used; `end` is the place of refusal 1"""
    end = len(b) if end is None else end
    if not b:
        raise Refused(1, end)
    extra = b[0] >> 6
    if extra == 0:
        return b[0] & 63, 1
    if len(b) < 1 + extra:
        raise Refused(1, end)
    return (b[0] & 15) + sum(b[1 + i] << (4 + 8 * i) for i in range(extra)), 1 + extra


# ---- whole tables

HEADER, LONGEST_BODY = 36, 2 ** 32 - 37


def signature(b):
    if bytes(b) not in (b"DSDT", b"SSDT"):
        raise Refused(28)
    return bytes(b).decode()


def header(b):
    """the signature, the revision and the stated length at the front of b"""
    if len(b) < HEADER:
        raise Refused(27)
    name = signature(b[:4])
    length = int.from_bytes(bytes(b[4:8]), "little")
    if not HEADER <= length <= len(b):
        raise Refused(29)
    if sum(b[:length]) % 256:
        raise Refused(30)
    return name, b[8], length


def table_bytes(letters, revision, rest, body, room):
    """the table of these fields, where `room` bytes hold it"""
    signature(letters)
    if len(body) > LONGEST_BODY:
        raise Refused(29)
    if HEADER + len(body) > room:
        raise Refused(25)
    b = letters + list((HEADER + len(body)).to_bytes(4, "little")) + [revision, 0] + rest + body
    b[9] = -sum(b) % 256
    return b


# ---- names and paths: a list of "\\", "^" and segments of four characters

def lead(c):
    return 65 <= c <= 90 or c == 95


def digit(c):
    return 48 <= c <= 57


def name_string(b):
    at, out = 0, []

    def byte():
        if at >= len(b):
            raise Refused(1, len(b))
        return b[at]

    if byte() == 0x5C:
        out, at = ["\\"], 1
    else:
        while byte() == 0x5E:
            out.append("^")
            at += 1
    head = byte()
    if head == 0:
        count, at = 0, at + 1
    elif head == 0x2E:
        count, at = 2, at + 1
    elif head == 0x2F:
        at += 1
        count = byte()
        at += 1
    else:
        count = 1
    for _ in range(count):
        for k in range(4):
            c = byte()
            if not (lead(c) or k and digit(c)):
                raise Refused(6, at)
            at += 1
        out.append("".join(map(chr, b[at - 4:at])))
    return limited(out, True), at


def limited(out, some=False):
    if some and not out:
        raise Refused(7)
    if len(out) > COMPONENTS:
        raise Refused(9)
    return out


def from_text(t):
    if t == "":
        raise Refused(7)
    out, at = [], 0
    if t[0] == "\\":
        out, at = ["\\"], 1
    if at < len(t):
        for part in t[at:].split("."):
            while part.startswith("^"):
                out.append("^")
                part, at = part[1:], at + 1
            codes = [ord(c) for c in part]
            if not 1 <= len(part) <= 4 or not lead(codes[0]) or not all(lead(c) or digit(c) for c in codes):
                raise Refused(8, at)
            out.append(part.ljust(4, "_"))
            at += len(part) + 1
    return limited(out)


def from_memory(count, mem):
    mem = (mem + [0] * 128)[:128]
    if count > COMPONENTS or any(mem[4 * count:]):
        raise Refused(26)
    out = []
    for i in range(count):
        c = mem[4 * i:4 * i + 4]
        if c == [0x5C, 0, 0, 0] and i == 0:
            out.append("\\")
        elif c == [0x5E, 0, 0, 0]:
            out.append("^")
        elif lead(c[0]) and all(lead(x) or digit(x) for x in c):
            out.append("".join(map(chr, c)))
        else:
            raise Refused(26)
    return out


def paths(words):
    """path words: texts are read left to right first, memory is judged by the call, in argument order"""
    read = [w if w.startswith("=") else from_text(w) for w in words]
    return [from_memory(int(w[1:].split(":")[0]), unhexed(w.split(":")[1] or "-")) if isinstance(w, str) else w for w in read]


def shown(p):
    text = ""
    for i, c in enumerate(p):
        text += c + ("." if len(c) == 4 and i + 1 < len(p) else "")
    return text or "(empty)"


def absolute(p):
    return p[:1] == ["\\"]


def walked(p):
    out = []
    for c in p:
        if c == "^":
            if not out or out[-1] == "\\":
                raise Refused(10)
            out.pop()
        else:
            out.append(c)
    return out


def normal(p):
    return limited(walked(p))


def resolved(p, scope):
    if not absolute(scope):
        raise Refused(11)
    return normal(p if absolute(p) else scope + p)


def settled(p):
    if not absolute(p):
        raise Refused(11)
    return normal(p)


# ---- the namespace: levels by their segments, bindings by level and segment

class Table:
    def __init__(self):
        self.levels, self.bound, self.objects = {(): 0}, {}, []

    def level_of(self, p):
        """the level that holds the last segment of the normal absolute path p, and that segment"""
        keys = tuple(p[1:])
        if not keys:
            raise Refused(13)
        for i in range(1, len(keys)):
            if keys[:i] not in self.levels:
                raise Refused(15, i)
        return keys[:-1], keys[-1]

    def look_up(self, p):
        at = self.level_of(p)
        if at not in self.bound:
            raise Refused(16)
        return self.bound[at]

    def bind(self, p, handle, made):
        at = self.level_of(p)
        if at in self.bound:
            raise Refused(17)
        if len(self.bound) >= BINDINGS:
            raise Refused(19)
        if made and len(self.objects) >= OBJECTS:
            raise Refused(20)
        self.bound[at] = handle
        return handle


# ---- images

def image_fields(t):
    """the fields of a table's image, each its width and its number"""
    four = lambda seg: int.from_bytes(seg.encode(), "big")
    levels = sorted(k for k in t.levels if k)  # a level before those below it, children in byte order
    yield from ((4, 1), (8, len(levels)), (10, len(t.bound)), (10, len(t.objects)))
    for k in levels:
        yield from ((6, len(k)), (3, t.levels[k]), (32, four(k[-1])))
    for level in [(), *levels]:
        own = sorted((seg, handle) for (at, seg), handle in t.bound.items() if at == level)
        yield 10, len(own)
        for seg, handle in own:
            yield from ((32, four(seg)), (10, handle))
    for value in t.objects:
        yield 64, value


def packed(fields):
    """the bytes of fields, with zero bits to the byte end"""
    bits = "".join(format(n, "0%db" % width) for width, n in fields)
    bits += "0" * (-len(bits) % 8)
    return [int(bits[i:i + 8], 2) for i in range(0, len(bits), 8)]


def image_of(t):
    return packed(image_fields(t))


class Fields:
    """an image from left to right"""

    def __init__(self, b):
        self.bits, self.at = "".join(format(x, "08b") for x in b), 0

    def next(self, width):
        """a field's number; `place` is then where it stands"""
        self.place = self.at
        if len(self.bits) < self.at + width:
            raise Refused(32, self.place)
        self.at += width
        return int(self.bits[self.place:self.at] or "0", 2)

    def must(self, holds, number):
        if not holds:
            raise Refused(number, self.place)

    def count(self, width, limit):
        n = self.next(width)
        self.must(n <= limit, 34)
        return n

    def segment(self, before):
        """a segment that rises behind the one before it, which may be None"""
        b = self.next(32).to_bytes(4, "big")
        self.must(lead(b[0]) and all(lead(c) or digit(c) for c in b[1:]), 37)
        self.must(before is None or before < b.decode(), 38)
        return b.decode()


def image_in(b):
    """the table of an image, and its three counts"""
    f, t = Fields(b), Table()
    f.must(f.next(4) == 1, 33)
    counts = levels, bindings, objects = f.count(8, LEVELS - 1), f.count(10, BINDINGS), f.count(10, OBJECTS)
    at, order, last = (), [()], {}  # the record before; all records; by parent, its last child so far
    for _ in range(levels):
        depth = f.next(6)
        f.must(1 <= depth <= COMPONENTS - 1 and depth <= len(at) + 1, 35)
        typ = f.next(3)
        f.must(typ <= 5, 36)
        parent = at[:depth - 1]
        seg = f.segment(last.get(parent))
        last[parent], at = seg, (*parent, seg)
        t.levels[at] = typ
        order.append(at)
    left = bindings
    for i, at in enumerate(order):
        n = f.next(10)
        f.must(n == 0 or len(at) < COMPONENTS - 1, 39)
        f.must(n <= left, 40)
        left -= n
        f.must(left == 0 or i < levels, 41)
        seg = None
        for _ in range(n):
            seg = f.segment(seg)
            handle = f.next(10)
            f.must(handle < objects, 42)
            t.bound[at, seg] = handle
    t.objects = [f.next(64) for _ in range(objects)]
    f.must(f.next(-f.at % 8) == 0, 43)
    f.place = f.at
    f.must(f.at == len(f.bits), 44)
    return t, counts


class Paper:
    """what 01 says that a klem line answers"""

    def __init__(self):
        self.table = Table()

    def answer(self, line):
        w = line.split(" ")
        try:
            call = "whole_table" if w[0] == "table" else w[0].replace("-", "_")
            return getattr(self, call)(*([line[5:]] if w[0] == "text" else w[1:]))
        except Refused as r:
            return str(r)

    def pkg(self, h):
        b = unhexed(h)
        if len(b) > LONGEST:
            raise Refused(5)
        raw, used = raw_length(b)
        if raw > len(b):
            raise Refused(2)
        return "ok raw %d end %d used %d" % (raw, len(b) - raw, used)

    def raw(self, h):
        b = unhexed(h)
        if len(b) > LONGEST:
            raise Refused(5)
        return "ok raw %d used %d" % raw_length(b)

    def fit(self, length, raw):
        if int(raw) > int(length):
            raise Refused(2)
        return "ok raw %d end %d" % (int(raw), int(length) - int(raw))

    def still(self, end, length):
        return "ok %d" % (int(length) > int(end))

    def char(self, h):
        c = int(h, 16)
        return "ok lead %d digit %d name %d" % (lead(c), digit(c), lead(c) or digit(c))

    def name(self, h):
        p, used = name_string(unhexed(h))
        return "ok %s used %d" % (shown(p), used)

    def text(self, t):
        return "ok " + shown(from_text(t))

    def write(self, p, size):
        t = shown(paths([p])[0])
        if t != "(empty)" and len(t) > int(size):
            raise Refused(25)
        return "ok " + t

    def root(self):
        return "ok \\"

    def seg(self, h):
        p = from_memory(1, unhexed(h))
        if len(p[0]) != 4:
            raise Refused(26)
        return "ok " + shown(p)

    def components(self, count, h):
        p = from_memory(int(count), unhexed(h))
        return "ok " + shown(p)

    def normal(self, p):
        return "ok " + shown(normal(paths([p])[0]))

    def parent(self, p):
        n = normal(paths([p])[0])
        if n in ([], ["\\"]):
            raise Refused(12)
        return "ok " + shown(n[:-1])

    def kind(self, p):
        p = paths([p])[0]
        return "ok absolute %d normal %d bare %d" % (absolute(p), "^" not in p, len(p) == 1 and len(p[0]) == 4)

    def resolve(self, p, s):
        return "ok " + shown(resolved(*paths([p, s])))

    def new(self):
        self.table = Table()
        return "ok"

    def level(self, p, typ):
        keys = tuple(settled(paths([p])[0])[1:])
        if keys:
            self.table.level_of(["\\", *keys])
            if keys not in self.table.levels:
                if len(self.table.levels) >= LEVELS:
                    raise Refused(18)
                self.table.levels[keys] = int(typ)
        return "ok"

    def remove(self, p):
        keys = tuple(settled(paths([p])[0])[1:])
        if not keys:
            raise Refused(14)
        for i in range(1, len(keys) + 1):
            if keys[:i] not in self.table.levels:
                raise Refused(15, i)
        t, n = self.table, len(keys)
        t.levels = {k: v for k, v in t.levels.items() if k[:n] != keys}
        t.bound = {k: v for k, v in t.bound.items() if k[0][:n] != keys}
        return "ok"

    def added(self, p, number):
        h = self.table.bind(p, len(self.table.objects), True)
        self.table.objects.append(int(number))
        return "ok handle %d" % h

    def value(self, p, number):
        return self.added(settled(paths([p])[0]), number)

    def value_at(self, p, s, number):
        return self.added(resolved(*paths([p, s])), number)

    def alias(self, p, s, target):
        p, s, target = paths([p, s, target])
        p, target = resolved(p, s), resolved(target, s)
        return "ok handle %d" % self.table.bind(p, self.table.look_up(target), False)

    def get(self, h):
        if int(h) >= len(self.table.objects):
            raise Refused(21)
        return "ok %d" % self.table.objects[int(h)]

    def set(self, h, number):
        self.get(h)
        self.table.objects[int(h)] = int(number)
        return "ok"

    def handle(self, p):
        return "ok handle %d" % self.table.look_up(settled(paths([p])[0]))

    def object(self, p):
        return self.get(self.table.look_up(settled(paths([p])[0])))

    def set_object(self, p, number):
        return self.set(self.table.look_up(settled(paths([p])[0])), number)

    def outward(self, p, scope, holds):
        """the innermost scope, from the normal scope outwards, that holds the segment: its name and the scopes asked"""
        for n in range(len(scope), 0, -1):
            if n < COMPONENTS and holds(tuple(scope[1:n]), p[0]):
                return scope[:n] + p, len(scope) - n + 1
        return None

    def search(self, p, s):
        p, s = paths([p, s])
        s = settled(s)
        if len(p) == 1 and len(p[0]) == 4:
            found = self.outward(p, s, lambda level, seg: level in self.table.levels and (level, seg) in self.table.bound)
            if not found:
                raise Refused(16)
            name, asked = found
        else:
            name, asked = resolved(p, s), 1
        return "ok %s handle %d asked %d" % (shown(name), self.table.look_up(name), asked)

    def search_level(self, p, s):
        p, s = paths([p, s])
        if not (len(p) == 1 and len(p[0]) == 4):
            return "ok %s asked 0" % shown(p)
        found = self.outward(p, settled(s), lambda level, seg: (*level, seg) in self.table.levels)
        if not found:
            raise Refused(15, 1)
        return "ok %s asked %d" % (shown(found[0]), found[1])

    def levels(self, p, room):
        keys = tuple(settled(paths([p])[0])[1:])
        for i in range(1, len(keys) + 1):
            if keys[:i] not in self.table.levels:
                raise Refused(15, i)
        found = sorted(k for k in self.table.levels if k[:len(keys)] == keys)
        if int(room) < len(found):
            raise Refused(25, len(found))
        return "ok %d" % len(found) + "".join(" %d/%d/%s" % (len(k), self.table.levels[k], k[-1] if k else "-") for k in found)

    def image(self, room):
        b = image_of(self.table)
        if int(room, 0) < len(b):
            raise Refused(25)
        return "ok " + hexed(b)

    def load(self, h):
        self.table, counts = image_in(unhexed(h))
        return "ok levels %d bindings %d objects %d" % counts

    def whole_table(self, h):
        return "ok %s revision %d body 36 to %d" % header(unhexed(h))

    def write_table(self, sig, rev, rest, body, room):
        return "ok " + hexed(table_bytes(unhexed(sig), int(rev, 0), unhexed(rest), unhexed(body), int(room, 0)))

    def check(self, h):
        Reader(unhexed(h)).block()
        return "ok"

    def run(self, budget, h, *cells):
        return Run(unhexed(h), cells, int(budget)).answer()

    def run32(self, budget, h, *cells):
        return Run(unhexed(h), cells, int(budget), ones=2 ** 32 - 1).answer()

    def width(self, revision):
        return "ok %d" % (32 if int(revision) < 2 else 64)

    def ssdt_width(self, dsdt, ssdt):
        return self.width(dsdt)


class Rust:
    """what the Rust answers where it is known to differ, on the table of a `Paper`; `met` names the differences on the way"""

    def __init__(self, table):
        self.table, self.met = table, set()

    def answer(self, line):
        w = line.split(" ")
        try:
            if w[0] == "run":
                r = Run(unhexed(w[2]), w[3:], None, self.met)
                return r.answer()
            return getattr(self, w[0].replace("-", "_"))(*paths([p for p in w[1:] if not p.isdigit()]))
        except RustError as e:
            return "error %s" % e
        except Panic:
            return "panic"
        except Refused:
            return "error"
        except AttributeError:
            return None

    def resolved(self, p, scope):
        if not absolute(scope):
            raise Panic()
        if absolute(p):
            if "^" in p:
                self.met.add("absolute-not-normalised")
            return p
        return walked(scope + p)

    def level_for(self, p):
        """get_level_for_path: the first component is skipped, whatever it is, and a `^` on the way panics"""
        if p == ["\\"] or len(p) < 2 or len(p[-1]) != 4:
            raise Panic()
        if not absolute(p):
            self.met.add("relative-lookup")
        elif "^" in p and "absolute-not-normalised" not in self.met:
            self.met.add("lookup-not-normalised")
        for i in range(2, len(p)):
            if len(p[i - 1]) != 4:
                raise Panic()
            if tuple(p[1:i]) not in self.table.levels:
                raise RustError("LevelDoesNotExist")
        return tuple(p[1:-1]), p[-1]

    def handle_of(self, p):
        at = self.level_for(p)
        if at not in self.table.bound:
            raise RustError("ValueDoesNotExist")
        return self.table.bound[at]

    def resolve(self, p, s):
        return "ok " + shown(self.resolved(p, s))

    def handle(self, p):
        return "ok handle %d" % self.handle_of(p)

    def object(self, p):
        return "ok %d" % self.table.objects[self.handle_of(p)]

    def set_object(self, p):
        self.handle_of(p)
        return "ok"

    def alias(self, p, s, target):
        p, target = self.resolved(p, s), self.resolved(target, s)
        h = self.handle_of(target)
        if self.level_for(p) in self.table.bound:
            raise RustError("NameCollision")
        return "ok handle %d" % h

    def search(self, p, s):
        if absolute(p) and not absolute(s):
            raise Panic()
        if absolute(p) and ("^" in s):
            self.met.add("scope-ignored")
        name = self.resolved(p, s)
        return "ok %s handle %d" % (shown(name), self.handle_of(name))


# ---- control blocks: read to a tree, then run. A term is (opcode, operands, written cell or None, bytes)

EXPRESSIONS = {0x70: 1, 0x72: 2, 0x74: 2, 0x7B: 2, 0x7D: 2, 0x7F: 2, 0x75: 0, 0x76: 0, 0x80: 1, 0x81: 1, 0x82: 1, 0x90: 2, 0x91: 2, 0x92: 1, 0x93: 2, 0x94: 2, 0x95: 2}
ARITHMETIC = (0x74, 0x7D, 0x7F, 0x80, 0x81, 0x82)  # R-7's, which the Rust has not
TARGETS = (0x72, 0x7B) + ARITHMETIC
WIDTHS = {0x0A: 1, 0x0B: 2, 0x0C: 4, 0x0E: 8}


class Reader:
    def __init__(self, b):
        self.b = b

    def block(self):
        if len(self.b) > LONGEST:
            raise Refused(5)
        return self.statements(0, len(self.b), 1)

    def statements(self, at, end, depth):
        out = []
        while at < end:
            s, at = self.statement(at, end, depth)
            out.append(s)
        return out

    def package(self, at, end):
        raw, used = raw_length(self.b[at:end], end)
        if raw < used:
            raise Refused(31, at)
        if at + raw > end:
            raise Refused(2, at)
        return at + used, at + raw

    def head(self, at, end, depth):
        """predicate and body in their package"""
        start, stop = self.package(at, end)
        t, body = self.term(start, end, 1)
        if body > stop:
            raise Refused(31, stop)
        return t, self.statements(body, stop, depth + 1), stop

    def statement(self, at, end, depth):
        if depth > DEPTH:
            raise Refused(4, at)
        b = self.b[at]
        if b in (0xA5, 0x9F, 0xCC, 0xA3):
            return (b,), at + 1
        if b == 0xA4:
            t, at = self.term(at + 1, end, 1)
            return (b, t), at
        if b == 0xA0:
            t, body, at = self.head(at + 1, end, depth)
            if at < end and self.b[at] == 0xA1:
                start, stop = self.package(at + 1, end)
                return (b, t, body, self.statements(start, stop, depth + 1), False), stop
            return (b, t, body, [], at == end), at
        if b == 0xA2:
            t, body, at = self.head(at + 1, end, depth)
            return (b, t, body), at
        if b not in EXPRESSIONS:
            raise Refused(3, at)
        t, at = self.term(at, end, 1)
        return ("term", t), at

    def byte(self, at, end):
        if at >= end:
            raise Refused(1, end)
        return self.b[at]

    def term(self, at, end, depth):
        if depth > DEPTH:
            raise Refused(4, at)
        start, b = at, self.byte(at, end)
        at += 1
        if b in (0x00, 0x01, 0xFF):
            return ("number", ONES if b == 0xFF else b), at
        if b in WIDTHS:
            if at + WIDTHS[b] > end:
                raise Refused(1, end)
            return ("number", int.from_bytes(bytes(self.b[at:at + WIDTHS[b]]), "little")), at + WIDTHS[b]
        if 0x60 <= b <= 0x6E:
            return ("cell", b - 0x60), at
        if b not in EXPRESSIONS:
            raise Refused(3, start)
        ts, cell = [], None
        for _ in range(EXPRESSIONS[b]):
            t, at = self.term(at, end, depth + 1)
            ts.append(t)
        if b in (0x70, 0x75, 0x76) + TARGETS:
            c = self.byte(at, end)
            if not 0x60 <= c <= 0x6E and not (c == 0 and b in TARGETS):
                raise Refused(3, at)
            cell, at = (c - 0x60 if c else None), at + 1
        return (b, ts, cell, self.b[start:at]), at


class End(Exception):
    """how a list ends before its end: break, continue, or returned with a number"""

    def __init__(self, kind, number=None):
        self.kind, self.number = kind, number


class Run:
    """the run of a block. With `met`, as the Rust runs it: no budget, and its two differences as errors. `trace` has the bytes of each term that was evaluated whole.
    `ones` is all ones in the frame's width (R-2): any number that is larger keeps its low bits"""

    def __init__(self, block, cells, budget, met=None, ones=ONES):
        self.block, self.budget, self.met, self.units, self.trace, self.ones = block, budget, met, 0, [], ones
        self.cells = [None] * 15
        for w in cells:
            i, v = w.split("=")
            self.cells[int(i)] = int(v)

    def answer(self):
        try:
            end = self.ended(Reader(self.block).block())
        except Refused as r:
            end = str(r)
        units = "" if self.met is not None else " units %d" % self.units
        return "%s%s cells %s" % (end, units, self.shown())

    def shown(self):
        return " ".join("-" if c is None else str(c) for c in self.cells)

    def ended(self, tree):
        # execution begins
        self.cells = [c if c is None else c & self.ones for c in self.cells]
        try:
            self.list(tree)
            return "finished"
        except End as e:
            return e.kind if e.number is None else "%s %d" % (e.kind, e.number)
        except Refused as r:
            return str(r) if self.met is None else "error"
        except RustError as e:
            return "error %s" % e

    def spend(self):
        if self.budget is not None and self.units >= self.budget:
            raise Refused(22)
        self.units += 1

    def list(self, ss):
        for s in ss:
            self.statement(s)

    def statement(self, s):
        self.spend()
        if s[0] == "term":
            self.whole(s[1])
        elif s[0] == 0xA5:
            raise End("break")
        elif s[0] == 0x9F:
            raise End("continue")
        elif s[0] == 0xA4:
            raise End("returned", self.whole(s[1]))
        elif s[0] == 0xA0:
            holds = self.whole(s[1])
            if s[4] and self.met is not None:
                self.met.add("if-ends-part")
                raise RustError("UnexpectedEndOfStream")
            self.list(s[2] if holds else s[3])
        elif s[0] == 0xA2:
            self.loop(s)

    def loop(self, s):
        while True:
            self.spend()
            if not self.whole(s[1]):
                return
            try:
                self.list(s[2])
            except End as e:
                if e.kind == "break":
                    return
                if e.kind != "continue":
                    raise

    def whole(self, t):
        n = self.term(t)
        if len(t) == 4:
            self.trace.append(t)
        return n

    def read(self, c):
        if self.cells[c] is None:
            raise Refused(23, c)
        return self.cells[c]

    def term(self, t):
        if t[0] == "number":
            return t[1] & self.ones
        if t[0] == "cell":
            return self.read(t[1])
        op, ts, cell, _ = t
        if op == 0x92 and self.met is not None and ts[0][0] not in (0x93, 0x94, 0x95):
            self.met.add("lnot-alone")
            raise RustError("UnexpectedByte(146)")
        if op in ARITHMETIC and self.met is not None:
            self.met.add("arithmetic")
            raise RustError("UnexpectedByte(%d)" % op)
        if op in (0x75, 0x76):
            n = self.read(cell) + (1 if op == 0x75 else -1)
        else:
            a = [self.term(u) for u in ts]
            n = VALUES[op](*a)
        n &= self.ones
        if cell is not None:
            self.cells[cell] = n
        return n


TRUTH = lambda b: -1 if b else 0
VALUES = {0x70: lambda a: a, 0x72: lambda a, b: a + b, 0x74: lambda a, b: a - b, 0x7B: lambda a, b: a & b, 0x7D: lambda a, b: a | b, 0x7F: lambda a, b: a ^ b,
          0x80: lambda a: ~a, 0x81: int.bit_length, 0x82: lambda a: (a & -a).bit_length(), 0x90: lambda a, b: TRUTH(a and b), 0x91: lambda a, b: TRUTH(a or b),
          0x92: lambda a: TRUTH(not a), 0x93: lambda a, b: TRUTH(a == b), 0x94: lambda a, b: TRUTH(a > b), 0x95: lambda a, b: TRUTH(a < b)}


def spelled(t):
    """a term's bytes, for the Rust: `92 t` is written `93 t 00`, which it reads"""
    if t[0] == "number":
        return [0x0E] + list(t[1].to_bytes(8, "little"))
    if t[0] == "cell":
        return [0x60 + t[1]]
    op, ts, cell, _ = t
    tail = [] if op in (0x90, 0x91, 0x92, 0x93, 0x94, 0x95) else [0 if cell is None else 0x60 + cell]
    if op == 0x92:
        op, tail = 0x93, [0x00]
    return [op] + [x for u in ts for x in spelled(u)] + tail


def unrolled(line):
    """for a run that spent its budget: a line that runs, one after the other, every term that was evaluated before that moment. Its cells must be the cells at 22"""
    w = line.split(" ")
    r = Run(unhexed(w[2]), w[3:], int(w[1]))
    r.answer()
    return " ".join(["run", w[1], hexed([x for t in r.trace for x in spelled(t)])] + w[3:])


CELLS = re.compile(r" cells (.*)$")


def cells_of(answer):
    m = CELLS.search(answer)
    return m and m.group(1)
