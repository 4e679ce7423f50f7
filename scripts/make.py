#!/usr/bin/env python3
"""Writes what the gate runs klem on, and what it must answer: crates/klem/stdin and crates/klem/stdout.

  scripts/make.py            from the repository's root

Nine parts, in this order:
1. document 01's cases that are not in crate `cases`, and its impostors' inputs: the answers are the paper's, written here by hand beside each line;
2. every limit: the answers follow from the limit, by the rules in this file, not from the program;
3. request R-1 of document 02, whole tables: the answers are those of oracle/model.py's second reading, and by hand where they are short;
4. request R-2 of document 02, the width of a frame: the answers follow from the width, by the rules in this file;
5. request R-3 of document 02, the two bad lengths: by hand, then every package of a few leads and contents as oracle/model.py's second reading has it;
6. request R-7 of document 02, six operators more, at both widths: the answers are worked out in this file;
7. request R-6 of document 02, images: each refusal by hand; then a small image with each bit flipped, each prefix of it and each byte behind it, and a full table, as
   oracle/model.py's second reading has them;
8. the shell's own words: its help is the list of docs/KLEM.md, and the examples of that page are true;
9. the replay: calls on which the port and the Rust agreed (oracle/compare.py --sample), with those answers (scripts/replay.in, replay.out).
"""
import os
import re
import sys

HERE = os.path.dirname(os.path.abspath(__file__))
sys.path.insert(0, HERE + "/../oracle")
sys.dont_write_bytecode = True
import model

out = []


def case(line, answer):
    out.append((line, answer))


def note(text):
    out.append(("# " + text, None))


NAMES = ["UnexpectedEndOfStream", "InvalidPkgLength", "BadOpcode", "TooDeep", "BlockTooLong", "BadNameByte", "EmptyNamesAreInvalid", "InvalidNameSeg",
         "TooManyComponents", "InvalidNormalizedName", "NotAbsolute", "RootHasNoParent", "RootNotAllowed", "TriedToRemoveRootNamespace", "LevelDoesNotExist",
         "ValueDoesNotExist", "NameCollision", "LevelsFull", "BindingsFull", "ObjectsFull", "NoSuchHandle", "BudgetSpent", "Unset", "BadTable", "OutTooSmall", "BadPath",
         "TableTooShort", "BadSignature", "BadTableLength", "BadChecksum", "PackageEndsEarly", "ImageEndedEarly", "ImageEdition", "ImageCount", "ImageDepth", "ImageType", "ImageSegment",
         "ImageOrder", "ImageDeepBindings", "ImageBindingsOver", "ImageBindingsShort", "ImageHandle", "ImageSpareBits", "ImageBytesLeft"]


def refused(n, place=0):
    return "refused %d at %d %s" % (n, place, NAMES[n - 1])


def cells(**set_cells):
    return " ".join(str(set_cells.get("c%d" % i, "-")) for i in range(15))


def ran(end, units, **set_cells):
    return "%s units %d cells %s" % (end, units, cells(**set_cells))


def paper():
    note("document 01: package lengths")
    case("pkg 7004" + "00" * 62, "ok raw 64 end 0 used 2")
    case("pkg 00", "ok raw 0 end 1 used 1")
    case("raw 7004", "ok raw 64 used 2")
    case("raw 3F", "ok raw 63 used 1")
    case("raw CFFFFFFF", "ok raw %d used 4" % (2 ** 28 - 1))
    case("raw 41", refused(1, 1))
    case("raw -", refused(1, 0))
    note("the end offset is the length minus the raw length; still parsing: what remains is more than the end offset")
    case("fit 64 64", "ok raw 64 end 0")
    case("fit 64 0", "ok raw 0 end 64")
    case("fit 63 64", refused(2))
    case("fit 0 18446744073709551615", refused(2))
    case("still 3 4", "ok 1")
    case("still 3 3", "ok 0")
    case("still 18446744073709551615 100000", "ok 0")
    note("a lead is A-Z or _, a name character a lead or a digit")
    for c in "/09:@AZ[^_`a":
        lead, digit = c in "AZ_", c in "09"
        case("char %02X" % ord(c), "ok lead %d digit %d name %d" % (lead, digit, lead or digit))
    note("names and paths")
    case("name 5C2F00", "ok \\ used 3")
    case("name 30", refused(6, 0))
    case("text \\", "ok \\")
    case("text ^", refused(8, 1))
    case("text ", refused(7))
    case("normal \\_SB_.PCI0.^ISA_", "ok \\_SB_.ISA_")
    case("parent FOO", "ok (empty)")
    case("parent \\", refused(12))
    case("parent =0:", refused(12))
    case("resolve X Y", refused(11))
    case("write \\A 5", "ok \\A___")
    case("write \\A 4", refused(25))
    case("root", "ok \\")
    case("seg 50434930", "ok PCI0")
    case("seg 30434950", refused(26))
    case("seg 5C000000", refused(26))
    case("components 2 5C00000050434930", "ok \\PCI0")
    case("components 0 -", "ok (empty)")
    case("components 1 5C00000050434930", refused(26))
    case("components 2 504349305C000000", refused(26))
    note("control blocks")
    case("check A00200A100", refused(31, 4))  # 01: 2 at 4; 02, R-3: 31
    case("check 60", refused(3, 0))
    case("check A101", refused(3, 0))
    for n in (0, 1, 2, 7, 1000):
        case("run %d A20201" % n, ran(refused(22), n))
    case("run 1 A460", ran(refused(23, 0), 1))
    case("run 0 A460", ran(refused(22), 0))
    note("a predicate is read against the enclosing part: here it ends outside its package")
    case("check A0020A05", refused(31, 3))  # 01: 2 at 1; 02, R-3: 31 at the byte that was needed
    note("both operands are always evaluated: LAnd of 0 and an Increment")
    case("run 9 90007560 0=5", ran("finished", 1, c0=6))
    note("Add, Increment and Decrement wrap; true is all ones; comparison is unsigned")
    case("run 9 7560 0=18446744073709551615", ran("finished", 1, c0=0))
    case("run 9 7660 0=0", ran("finished", 1, c0=18446744073709551615))
    case("run 9 72FF0A0260", ran("finished", 1, c0=1))
    case("run 9 A493000000", refused(3, 4) + " units 0 cells " + cells())
    case("run 9 A4930000", ran("returned 18446744073709551615", 1))
    case("run 9 A494FF00", ran("returned 18446744073709551615", 1))
    case("run 9 A4920A05", ran("returned 0", 1))
    note("the statement after an If is not its else")
    case("run 9 A00200A401", ran("returned 1", 2))
    note("a malformed branch that is not taken is refused before anything runs")
    case("run 9 7560A0040030A400 0=5", refused(3, 5) + " units 0 cells " + cells(c0=5))
    note("Break and Continue outside a While end the block; inside, they act on the innermost")
    case("run 9 A5", ran("break", 1))
    case("run 9 9F", ran("continue", 1))
    case("run 9 A20301A5A5", ran("break", 4))
    case("run 99 A20901A20301A57560A5 0=0", ran("finished", 7, c0=1))
    note("23 leaves what the effects before it made")
    case("run 9 75607561 0=3", ran(refused(23, 1), 2, c0=4))
    note("22 comes before the effect")
    case("run 1 75607560 0=3", ran(refused(22), 1, c0=4))


def pkg_spelling(n, size):
    """the shortest spelling of the raw length n"""
    if n < 64:
        return [n]
    extra = 1 if n < 4096 else 2 if n < 1 << 20 else 3
    return [extra << 6 | n & 15] + [n >> (4 + 8 * i) & 255 for i in range(extra)]


def hexed(b):
    return "".join("%02X" % x for x in b) or "-"


def limits_of_lengths():
    note("lengths of 0, 1, 63, 64, 65,535, 65,536 and 65,537 bytes")
    case("pkg -", refused(1, 0))
    for size in (1, 63, 64, 65535, 65536, 65537):
        b = pkg_spelling(size, size)
        b += [0] * (size - len(b))
        case("pkg " + hexed(b), refused(5) if size > 65536 else "ok raw %d end 0 used %d" % (size, len(pkg_spelling(size, size))))
        case("check " + "A3" * size, refused(5) if size > 65536 else "ok")
    case("check -", "ok")
    b = pkg_spelling(65535, 0)
    case("check A2" + hexed(b) + "00" + "A3" * (65535 - len(b) - 1), "ok")
    case("check A2" + hexed(pkg_spelling(65536, 0)) + "00" + "A3" * (65535 - len(b) - 1), refused(2, 1))


def limits_of_components():
    note("31, 32 and 33 components, as bytes, as text, as memory and as a result")
    for n in (31, 32, 33):
        path = "\\" + ".".join(["ABCD"] * (n - 1))
        case("name 5C2F%02X%s" % (n - 1, "41424344" * (n - 1)), "ok %s used %d" % (path, 3 + 4 * (n - 1)) if n <= 32 else refused(9))
        case("name " + "5E" * n + "00", "ok %s used %d" % ("^" * n, n + 1) if n <= 32 else refused(9))
        case("text " + path, "ok " + path if n <= 32 else refused(9))
        case("normal =%d:%s" % (n, ("5C000000" + "41424344" * 31)[:8 * min(n, 32)]), "ok " + path if n <= 32 else refused(26))
        case("resolve ABCD " + "\\" + ".".join(["ABCD"] * (n - 2)), "ok " + path if n <= 32 else refused(9))
    case("name 2FFF" + "41424344" * 255, refused(9))
    case("name 2FFF" + "41424344" * 254 + "41424330", "refused 9 at 0 TooManyComponents")
    case("name 2FFF" + "41424344" * 254 + "41424340", refused(6, 2 + 255 * 4 - 1))
    case("write =32:" + "5C000000" + "41424344" * 31 + " 155", "ok \\" + ".".join(["ABCD"] * 31))
    case("write =32:" + "41424344" * 32 + " 159", "ok " + ".".join(["ABCD"] * 32))
    case("write =32:" + "41424344" * 32 + " 158", refused(25))
    note("a join may pass through more than 32 components: 9 is judged on the result")
    deep = "\\" + ".".join(["ABCD"] * 31)
    case("resolve =2:5E00000041424344 " + deep, "ok " + deep)
    case("resolve =2:41424344" + "5E000000 " + deep, "ok " + deep)
    note("26: a root that is not first, a component of no kind, a spare byte that is not zero")
    case("normal =2:414243445C000000", refused(26))
    case("normal =1:41424300", refused(26))
    case("normal =1:5C000001", refused(26))
    case("normal =0:" + "00" * 127 + "01", refused(26))
    case("normal =18446744073709551615:", refused(26))


def nested(n, inner):
    """n Ifs, one in the other, around the inner bytes"""
    b = inner
    for _ in range(n):
        body = [0x01] + b
        size = len(body) + 1
        spelled = [size] if size < 64 else None
        if spelled is None:
            size = len(body) + 2
            spelled = [0x40 | size & 15, size >> 4]
        b = [0xA0] + spelled + body
    return b


def limits_of_depth():
    note("depth 15, 16 and 17 of statements and of terms, also at a part's end")
    for n in (15, 16, 17):
        b = nested(n - 1, [0xA3])
        case("check " + hexed(b), "ok" if n <= 16 else refused(4, len(b) - 1))
        t = [0xA4] + [0x92] * (n - 1) + [0x01]
        case("check " + hexed(t), "ok" if n <= 16 else refused(4, n))
        t = [0xA4] + [0x92] * (n - 1)
        case("check " + hexed(t), refused(1, n) if n <= 16 else refused(4, n))
    note("an empty body at depth 16 holds no statement")
    case("check " + hexed(nested(16, [])), "ok")


def limits_of_budget():
    note("budgets of 0, one less than is needed, and what is needed")
    block = "700A0360A204607660A460"
    case("run 0 " + block, ran(refused(22), 0))
    case("run 9 " + block, ran(refused(22), 9, c0=0))
    case("run 10 " + block, ran("returned 0", 10, c0=0))
    case("run 11 " + block, ran("returned 0", 10, c0=0))


def bad_lengths():
    note("request R-3: 2 for a length that passes its part, at its lead byte")
    case("check A00300", refused(2, 1))
    case("check A00200A102", refused(2, 4))
    case("check A3A00401A20300A3", refused(2, 5))
    note("31 for one that ends before its contents, at the first byte beyond its end that was needed")
    case("check A00100", refused(31, 2))
    case("check A2420001", refused(31, 3))
    case("check A20372606100", refused(31, 4))
    case("check A3A00601A2020A05", refused(31, 7))
    case("check A00200A105A2020A05", refused(31, 8))
    note("and at the lead byte, where it does not hold its own length's bytes")
    case("check A000", refused(31, 1))
    case("check A04000", refused(31, 1))
    case("check A2410001", refused(31, 1))
    case("check A00200A14000", refused(31, 4))
    note("the predicate is read against the enclosing part first: 1 at that part's end")
    case("check A001", refused(1, 2))
    case("check A0020A", refused(1, 3))
    note("the frame stays as it was")
    case("run 9 7560A0020A05 0=5", refused(31, 5) + " units 0 cells " + cells(c0=5))
    note("a few leads and contents, in an If, a While, a body and an else")
    paper = model.Paper()
    for before in ("A0", "A2", "A00200A1", "body"):
        for length in ("00", "01", "02", "03", "04", "05", "3F", "40", "4000", "4100", "4200", "4300", "4400", "CF000000"):
            for contents in ("", "00", "0A05", "926001", "7260610000"):
                inner = "A2" + length + contents
                line = "check " + ("A0%02X01%s" % (2 + len(inner) // 2, inner) if before == "body" else before + length + contents)
                case(line, paper.answer(line))


def whole_tables():
    paper, rest = model.Paper(), list(range(10, 36))

    def asked(line):
        case(line, paper.answer(line))
        return paper.answer(line)

    def spoilt(table, at, by):
        return table[:at] + by + table[at + len(by):]

    def read(table):
        return asked("table " + hexed(table))

    note("request R-1: a header is 36 bytes; 27 before 28 before 29 before 30")
    good = model.table_bytes(list(b"DSDT"), 2, rest, [0xA3, 0xA4, 0x00], 39)
    case("table -", refused(27))
    case("table " + hexed(good[:35]), refused(27))
    case("table " + "00" * 35, refused(27))
    case("table " + "00" * 36, refused(28))
    case("table 44534454" + "00" * 32, refused(29))
    case("table 4453445424" + "00" * 31, refused(30))
    case("table " + hexed(good), "ok DSDT revision 2 body 36 to 39")
    case("table " + hexed(good + [1, 2, 3]), "ok DSDT revision 2 body 36 to 39")
    note("DSDT or SSDT, nothing else")
    for letters in (b"SSDT", b"dsdt", b"DSDS", b"TDSD", b"XSDT", b"FACP", b"DSD\0"):
        read(list(letters) + good[4:])
        asked("write-table %s 2 %s - 36" % (hexed(letters), hexed(rest)))
    note("the stated length: at least 36, and no more than the bytes given")
    for length in (0, 35, 36, 37, 38, 39, 40, 255, 256, 2 ** 31, 2 ** 32 - 1):
        t = spoilt(good, 4, list(length.to_bytes(4, "little")))
        read(t)
        read(spoilt(t, 9, [(t[9] - sum(t[:length])) % 256]))
    note("the bytes of that length sum to 0, every byte once")
    for at in (0, 8, 9, 10, 35, 36, 38):
        read(spoilt(good, at, [good[at] ^ 1]))
    for c in (0, 1, good[9] - 1, good[9] + 1, 255):
        read(spoilt(good, 9, [c % 256]))
    note("writing: 28, then 25; and what was written is read")
    for letters in ("DSDT", "SSDT"):
        for revision in (0, 1, 255):
            for body in ([], [0], [255] * 7, [0xA4, 0x0A, 5], list(range(256)) * 2):
                for room in (0, 35 + len(body), 36 + len(body), 100000):
                    answer = asked("write-table %s %d %s %s %d" % (hexed(letters.encode()), revision, hexed(rest), hexed(body), room))
                case("table " + answer[3:], "ok %s revision %d body 36 to %d" % (letters, revision, 36 + len(body)))
    case("write-table 00000000 0 %s - 0" % ("00" * 26), refused(28))
    note("as long as a line may be")
    asked("write-table 44534454 2 %s %s 100000" % ("00" * 26, "A5" * 99950))


EDGES = (0, 1, 2**31, 2**32 - 1, 2**32, 2**63, 2**64 - 1)


def widths():
    note("request R-2: numbers have 32 bits below revision 2 of the DSDT, else 64; an SSDT's own revision says nothing")
    for revision in (0, 1, 2, 3, 255):
        bits = 32 if revision in (0, 1) else 64
        case("width %d" % revision, "ok %d" % bits)
        for ssdt in (0, 1, 2, 255):
            case("ssdt-width %d %d" % (revision, ssdt), "ok %d" % bits)
    for bits, run in ((32, "run32"), (64, "run")):
        frames_of(bits, run)


def frames_of(bits, run):
    """the same lines at both widths: an answer has the low bits of what it would be without a width"""
    low = lambda n: n % 2**bits
    ones = 2**bits - 1

    def gives(term, number, **given):
        words = "".join(" %s=%d" % (c[1:], n) for c, n in given.items())
        case("%s 1 A4%s%s" % (run, term, words), ran("returned %d" % number, 1, **{c: low(n) for c, n in given.items()}))

    note("%d bits: all ones, and true" % bits)
    for term in ("FF", "930000", "94FF00", "9500FF", "9200", "90FF01", "910001"):
        gives(term, ones)
    note("%d bits: a constant of eight bytes keeps its low bits, shorter ones all of theirs" % bits)
    for n in EDGES:
        gives("0E" + hexed(n.to_bytes(8, "little")), low(n))
        for op, size in (("0A", 1), ("0B", 2), ("0C", 4)):
            gives(op + hexed((n % 256**size).to_bytes(size, "little")), n % 256**size)
    note("%d bits: Increment, Decrement and Add wrap; Store and And; a cell that is larger keeps its low bits" % bits)
    for n in EDGES:
        for op, by in (("75", 1), ("76", -1)):
            case("%s 9 %s60 0=%d" % (run, op, n), ran("finished", 1, c0=low(n + by)))
        case("%s 9 706061 0=%d" % (run, n), ran("finished", 1, c0=low(n), c1=low(n)))
        case("%s 9 700E%s60" % (run, hexed(n.to_bytes(8, "little"))), ran("finished", 1, c0=low(n)))
        gives("60", low(n), c0=n)
        for m in EDGES:
            case("%s 9 72686E67 8=%d 14=%d" % (run, n, m), ran("finished", 1, c7=low(n + m), c8=low(n), c14=low(m)))
            gives("72606100", low(n + m), c0=n, c1=m)
            gives("7B606100", low(n & m), c0=n, c1=m)
    note("%d bits: what is compared, and what holds, are the low bits" % bits)
    for n in EDGES:
        case("%s 9 A00460A401A103A400 0=%d" % (run, n), ran("returned %d" % (low(n) != 0), 2, c0=low(n)))
        case("%s 2 A20260 0=%d" % (run, n), ran(refused(22), 2, c0=low(n)) if low(n) else ran("finished", 2, c0=0))
        gives("9260", 0 if low(n) else ones, c0=n)
        for m in EDGES:
            for op, holds in (("90", low(n) and low(m)), ("91", low(n) or low(m)), ("93", low(n) == low(m)), ("94", low(n) > low(m)), ("95", low(n) < low(m))):
                gives(op + "6061", ones if holds else 0, c0=n, c1=m)
    note("%d bits: cut from the moment that execution begins: an empty block, a first 22, a first 23; not where the block is refused" % bits)
    for n in EDGES:
        words = " 0=%d 7=5 8=%d 14=%d" % (n, n, n)
        left, kept = dict(c0=low(n), c7=5, c8=low(n), c14=low(n)), cells(c0=n, c7=5, c8=n, c14=n)
        for budget in (0, 1):
            case("%s %d -%s" % (run, budget, words), ran("finished", 0, **left))
        case("%s 0 A3%s" % (run, words), ran(refused(22), 0, **left))
        case("%s 1 A401A3%s" % (run, words), ran("returned 1", 1, **left))
        case("%s 1 A461%s" % (run, words), ran(refused(23, 1), 1, **left))
        for budget in (0, 9):
            case("%s %d 30%s" % (run, budget, words), refused(3, 0) + " units 0 cells " + kept)
            case("%s %d A375607A%s" % (run, budget, words), refused(3, 3) + " units 0 cells " + kept)
            case("%s %d A4%s" % (run, budget, words), refused(1, 1) + " units 0 cells " + kept)
    note("%d bits: a loop that comes around: from all ones it is 0 after one turn" % bits)
    case("%s 99 A204607560A460 0=%d" % (run, 2**64 - 1), ran("returned 0", 5, c0=0))


def arithmetic():
    note("request R-7: 74 Subtract, 7D Or, 7F XOr, 80 Not, 81 FindSetLeftBit, 82 FindSetRightBit, placed as ACPI writes them")
    for block, number, place in (("74", 1, 1), ("7401", 1, 2), ("740101", 1, 3), ("74010170", 3, 3), ("7D0101", 1, 3), ("7F010101", 3, 3), ("80", 1, 1), ("8001", 1, 2), ("800101", 3, 2),
                                 ("81016F", 3, 2), ("8201FF", 3, 2), ("73010100", 3, 0), ("7E010100", 3, 0), ("830100", 3, 0)):
        case("check %s" % block, refused(number, place))
    for op in ("80", "81", "82"):
        case("check A4%s01%s" % (op * 15, "00" * 15), "ok")
        case("check A4%s01%s" % (op * 16, "00" * 16), refused(4, 17))
    for op in ("74", "7D", "7F"):
        case("check A4%s01%s" % (op * 15, "0100" * 15), "ok")
        case("check A4%s01%s" % (op * 16, "0100" * 16), refused(4, 17))
    for bits, run in ((32, "run32"), (64, "run")):
        worked_out(bits, run)


def worked_out(bits, run):
    low = lambda n: n % 2**bits
    highest = lambda n: next((k + 1 for k in reversed(range(bits)) if n >> k & 1), 0)
    lowest = lambda n: next((k + 1 for k in range(bits) if n >> k & 1), 0)
    note("%d bits: Not, FindSetLeftBit, FindSetRightBit: the complement within the width, and one-based positions; 0 for zero" % bits)
    for n in EDGES + tuple(2**k for k in range(0, 64, 7)):
        for op, number in (("80", low(~n)), ("81", highest(n)), ("82", lowest(n))):
            case("%s 1 A4%s6000 0=%d" % (run, op, n), ran("returned %d" % number, 1, c0=low(n)))
            case("%s 1 %s6061 0=%d" % (run, op, n), ran("finished", 1, c0=low(n), c1=number))
    note("%d bits: Subtract wraps, the first operand less the second; Or and XOr" % bits)
    for n in EDGES:
        for m in EDGES:
            for op, number in (("74", low(n - m)), ("7D", low(n | m)), ("7F", low(n ^ m))):
                case("%s 9 %s686E67 8=%d 14=%d" % (run, op, n, m), ran("finished", 1, c7=number, c8=low(n), c14=low(m)))
    note("%d bits: both operands always, left to right, and then the target" % bits)
    case("%s 9 747560756061 0=5" % run, ran("finished", 1, c0=7, c1=low(-1)))
    case("%s 9 7D6160%s 0=1" % (run, "62"), ran(refused(23, 1), 1, c0=1))
    case("%s 9 7F607561%s 0=1" % (run, "62"), ran(refused(23, 1), 1, c0=1))


def wrong_lines():
    note("lines that are no command")

    def wrong(line, why):
        case(line, "? %d %s" % (len(out) + 1, why))

    wrong("foo", "no such command")
    wrong("pkg", "wants pkg HEX")
    wrong("pkg 00 00", "wants pkg HEX")
    wrong("new 1", "wants new")
    wrong("level \\A", "wants level PATH TYPE")
    wrong("run 1", "wants run BUDGET HEX [CELL=NUMBER ..]")
    wrong("run32 1", "wants run32 BUDGET HEX [CELL=NUMBER ..]")
    wrong("width", "wants width REV")
    wrong("width 1 1", "wants width REV")
    wrong("ssdt-width 1", "wants ssdt-width REV REV")
    wrong("help foo", "no such command")
    wrong("pkg 0", "bad hex")
    wrong("pkg 0G", "bad hex")
    wrong("char -", "wants 1 byte")
    wrong("seg 414243", "wants 4 bytes")
    wrong("components 1 " + "00" * 129, "bad hex")
    wrong("fit 100001 1", "length over 100000")
    wrong("write \\A x", "bad number")
    wrong("write \\A 0x", "bad number")
    wrong("write \\A 0x10000000000000000", "bad number")
    wrong("get 18446744073709551616", "bad number")
    wrong("level \\A 6", "bad type")
    wrong("normal =x:", "bad path")
    wrong("run 1 A3 15=1", "bad cell")
    wrong("run32 1 A3 15=1", "bad cell")
    wrong("run32 1 A", "bad hex")
    wrong("width 256", "bad number")
    wrong("width x", "bad number")
    wrong("ssdt-width 256 2", "bad number")
    wrong("ssdt-width 2 256", "bad number")
    wrong("poke 1153 0", "no such word")
    wrong("image", "wants image ROOM")
    wrong("image 100001", "length over 100000")
    wrong("load", "wants load HEX")
    wrong("load 1", "bad hex")
    usage = "wants write-table SIG REV REST BODY ROOM"
    wrong("write-table 44534454 2 %s -" % ("00" * 26), usage)
    wrong("write-table 44534454 2 %s - 36 1" % ("00" * 26), usage)
    wrong("write-table 445344 2 %s - 36" % ("00" * 26), "wants 4 bytes")
    wrong("write-table - 2 %s - 36" % ("00" * 26), "wants 4 bytes")
    wrong("write-table 4453445G 2 %s - 36" % ("00" * 26), "bad hex")
    wrong("write-table 44534454 256 %s - 36" % ("00" * 26), "bad number")
    wrong("write-table 44534454 2 %s - 36" % ("00" * 25), "wants 26 bytes")
    wrong("write-table 44534454 2 %s - 36" % ("00" * 27), "wants 26 bytes")
    wrong("write-table 44534454 2 %s 0 36" % ("00" * 26), "bad hex")
    wrong("write-table 44534454 2 %s - 100001" % ("00" * 26), "length over 100000")
    out.append(("", None))
    out.append(("  \t", None))
    wrong("x" * 200000, "no such command")
    wrong("x" * 200001, "line over 200000 bytes")
    note("blanks and a carriage return at the end are dropped; numbers may be hexadecimal")
    case("pkg 00  \t", "ok raw 0 end 1 used 1")
    case("text \\A\r", "ok \\A___")
    case("run 0x9 a460 0=0xfF\r", ran("returned 255", 1, c0=255))
    case("normal =0x1:50434930", "ok PCI0")


def helped():
    """the commands as docs/KLEM.md lists them"""
    page = open(HERE + "/../docs/KLEM.md").read()
    listed = re.search(r"<!-- commands -->\n```\n(.*?)```\n<!-- end of commands -->", page, re.S).group(1)
    usages = [row.split("  ")[0] for row in listed.splitlines()]
    note("the help is what docs/KLEM.md lists")
    case("help", "ok " + " ".join(u.split(" ")[0] for u in usages))
    for u in usages:
        case("help " + u.split(" ")[0], "ok " + u)
    note("the examples of docs/KLEM.md, in its order")
    case("new", "ok")
    for examples in re.findall(r"\| ([^|]*` gives `[^|]*) \|$", page, re.M):
        for line, answer in re.findall(r"`([^`]*)` gives `([^`]*)`", examples):
            case(line, answer)


WORDS = 1153
ROOT = 1 << 45


def digest(words):
    """the two digests of klem, stirred here anew"""
    p, a, b = 2147483647, 1, 1
    for w in words:
        for half in (w >> 32, w & 0xFFFFFFFF):
            a, b = (a * 65599 + half) % p, (b * 1000003 + half) % p
    return a << 31 | b


def segment(text):
    """four characters in base 37, numbered in byte order"""
    n = 0
    for c in text.ljust(4, "_"):
        n = n * 37 + "0123456789ABCDEFGHIJKLMNOPQRSTUVWXYZ_".index(c)
    return n


def table_words(levels, bindings, values):
    """levels as (rank, type, bindings, segment), bindings as (segment, handle), in their order"""
    ws = [r << 45 | t << 42 | n << 32 | s for r, t, n, s in levels]
    ws += [0] * (128 - len(ws)) + [s << 32 | h for s, h in bindings]
    return ws + [0] * (640 - len(ws)) + [len(values)] + values + [0] * (512 - len(values))


def listed():
    note("document 02, R-8: the levels from one down; 25 with the number needed")
    case("levels \\ 3", "ok 3 0/0/- 1/0/A___ 2/1/B___")
    case("levels \\ 128", "ok 3 0/0/- 1/0/A___ 2/1/B___")
    case("levels \\ 2", refused(25, 3))
    case("levels \\ 0", refused(25, 3))
    case("levels \\A 2", "ok 2 1/0/A___ 2/1/B___")
    case("levels \\A 1", refused(25, 2))
    case("levels \\A.B 1", "ok 1 2/1/B___")
    case("levels \\Q.^A.B 1", "ok 1 2/1/B___")
    case("levels \\A.B 0", refused(25, 1))
    case("levels A 9", refused(11))
    case("levels \\^A 9", refused(10))
    case("levels \\Q.R 0", refused(15, 1))
    case("levels \\A.Q 0", refused(15, 2))
    case("levels =33: 9", refused(26))
    case("tree", "\n".join(["ok 3", "\\ Scope", "  X___ = 5 handle 0", "  A___ Scope", "    X___ = 6 handle 1", "    B___ Device"]))


def tables():
    note("document 01: the table")
    fresh = table_words([(1, 0, 0, 0)], [], [])
    case("new", "ok")
    case("digest", "ok %d" % digest(fresh))
    case("level \\A 0", "ok")
    case("level \\A.B 1", "ok")
    case("value \\X 5", "ok handle 0")
    case("value \\A.X 6", "ok handle 1")
    words = table_words([(1, 0, 1, 0), (2, 0, 1, segment("A")), (3, 1, 0, segment("B"))], [(segment("X"), 0), (segment("X"), 1)], [5, 6])
    case("digest", "ok %d" % digest(words))
    case("search X \\A.B.C", "ok \\A___.X___ handle 1 asked 3")
    case("search X \\A.B", "ok \\A___.X___ handle 1 asked 2")
    case("search X \\A", "ok \\A___.X___ handle 1 asked 1")
    case("search X \\", "ok \\X___ handle 0 asked 1")
    case("search Y \\A.B", refused(16))
    case("search X A", refused(11))
    case("search X \\^A", refused(10))
    case("search \\ \\", refused(13))
    case("search ^X \\A.B", "ok \\A___.X___ handle 1 asked 1")
    case("search-level B \\A.B.C", "ok \\A___.B___ asked 3")
    case("search-level Z \\A", refused(15, 1))
    case("search-level ^Z nowhere", refused(8, 0))
    case("search-level ^Z A", "ok ^Z___ asked 0")
    listed()
    note("each refusal in its order, and a refused edit leaves the memory as it was")
    for line, answer in [("level A 0", refused(11)), ("level \\^A 0", refused(10)), ("level \\ 5", "ok"), ("level \\Q.R 0", refused(15, 1)), ("level \\A.Q.R 0", refused(15, 2)),
                         ("level \\A.B 5", "ok"), ("remove A", refused(11)), ("remove \\", refused(14)), ("remove \\A.Q", refused(15, 2)), ("remove \\Q.R", refused(15, 1)),
                         ("value X 1", refused(11)), ("value \\ 1", refused(13)), ("value \\Q.X 1", refused(15, 1)), ("value \\A.X 1", refused(17)), ("handle X", refused(11)),
                         ("object X", refused(11)), ("object \\^X", refused(10)), ("object \\", refused(13)), ("object \\Q.X", refused(15, 1)), ("object \\A.Y", refused(16)),
                         ("set-object X 1", refused(11)), ("set-object \\^X 1", refused(10)), ("set-object \\ 1", refused(13)), ("set-object \\Q.X 1", refused(15, 1)), ("set-object \\A.Y 1", refused(16)),
                         ("handle \\", refused(13)), ("handle \\Q.X", refused(15, 1)), ("handle \\A.Y", refused(16)), ("get 2", refused(21)), ("set 2 1", refused(21)),
                         ("value-at X A 1", refused(11)), ("value-at ^^X \\A 1", refused(10)), ("alias Y \\A Z", refused(16)), ("alias X \\A ^X", refused(17)),
                         ("alias \\ \\A X", refused(13)), ("alias Y \\A \\", refused(13)), ("alias \\Q.Y \\A X", refused(15, 1))]:
        case(line, answer)
        case("digest", "ok %d" % digest(words))
    case("alias Y \\A ^X", "ok handle 0")
    case("handle \\A.Y", "ok handle 0")
    case("value-at ^Z \\A.B 7", "ok handle 2")
    case("set 2 8", "ok")
    case("get 2", "ok 8")
    case("object \\A.X", "ok 6")
    case("set-object \\A.Z 9", "ok")
    case("get 2", "ok 9")
    case("object \\A.Z", "ok 9")
    note("removing frees levels and bindings; objects stay")
    case("remove \\A", "ok")
    case("get 1", "ok 6")
    case("handle \\A.X", refused(15, 1))
    case("digest", "ok %d" % digest(table_words([(1, 0, 1, 0)], [(segment("X"), 0)], [5, 6, 9])))
    note("one segment may be a level and a binding")
    case("new", "ok")
    case("level \\A 2", "ok")
    case("value \\A 5", "ok handle 0")
    case("value \\A.A 6", "ok handle 1")
    both = table_words([(1, 0, 1, 0), (2, 2, 1, segment("A"))], [(segment("A"), 0), (segment("A"), 1)], [5, 6])
    case("digest", "ok %d" % digest(both))
    case("handle \\A", "ok handle 0")
    case("search A \\A", "ok \\A___.A___ handle 1 asked 1")
    case("search-level A \\A", "ok \\A___ asked 2")
    case("value \\A 7", refused(17))
    case("digest", "ok %d" % digest(both))
    case("remove \\A", "ok")
    case("object \\A", "ok 5")
    case("handle \\A.A", refused(15, 1))
    case("search A \\A", "ok \\A___ handle 0 asked 2")
    case("digest", "ok %d" % digest(table_words([(1, 0, 1, 0)], [(segment("A"), 0)], [5, 6])))


def kept(line, answer, words):
    """a refused edit, and the table's memory as it was"""
    case(line, answer)
    case("digest", "ok %d" % digest(words))


def table_limits():
    name = lambda i: "L%03d" % i
    note("127, 128 and 129 levels")
    case("new", "ok")
    for i in range(127):
        case("level \\%s 0" % name(i), "ok")
    full = table_words([(1, 0, 0, 0)] + [(2, 0, 0, segment(name(i))) for i in range(127)], [], [])
    kept("level \\%s 0" % name(127), refused(18), full)
    case("level \\%s 3" % name(5), "ok")
    case("digest", "ok %d" % digest(full))
    case("remove \\%s" % name(0), "ok")
    case("level \\%s 0" % name(127), "ok")
    kept("level \\%s 0" % name(0), refused(18), table_words([(1, 0, 0, 0)] + [(2, 0, 0, segment(name(i))) for i in range(1, 128)], [], []))
    note("511, 512 and 513 bindings and objects")
    case("new", "ok")
    case("level \\A 0", "ok")
    for i in range(512):
        case("value %s%s %d" % ("\\A." if i % 2 else "\\", name(i), i), "ok handle %d" % i)
    at = lambda odd: [(segment(name(i)), i) for i in range(odd, 512, 2)]
    full = table_words([(1, 0, 256, 0), (2, 0, 256, segment("A"))], at(0) + at(1), list(range(512)))
    kept("value \\%s 1" % name(512), refused(19), full)
    kept("alias \\%s \\ %s" % (name(512), name(0)), refused(19), full)
    case("remove \\A", "ok")
    kept("value \\%s 1" % name(512), refused(20), table_words([(1, 0, 256, 0)], at(0), list(range(512))))
    case("alias \\%s \\ %s" % (name(512), name(0)), "ok handle 0")
    deepest()
    damaged()


def chain(n, bound=(), values=()):
    """n levels, one in the other, the root among them; `bound` are the ranks that hold a binding of X"""
    levels = [(rank, 0, int(rank in bound), segment("D") if rank > 1 else 0) for rank in range(1, n + 1)]
    return table_words(levels, [(segment("X"), 0) for _ in bound], list(values))


def deepest():
    note("31 and 32 components: the deepest level holds no binding and no level, and a scope of 32 holds none")
    case("new", "ok")
    path = "\\"
    for i in range(31):
        path += (".D" if i else "D")
        case("level %s 0" % path, "ok")
    case("value \\X 0", "ok handle 0")
    words = chain(32, (1,), (0,))
    case("digest", "ok %d" % digest(words))
    kept("level %s.D 0" % path, refused(9), words)
    kept("value %s.X 0" % path, refused(9), words)
    kept("value-at X %s 0" % path, refused(9), words)
    kept("alias Y %s \\X" % path, refused(9), words)
    kept("alias \\Y %s X" % path, refused(9), words)
    case("search ^D.X %s" % path, refused(9))
    case("search X %s" % path, "ok \\X___ handle 0 asked 32")
    case("search-level D %s" % path, "ok \\%s asked 2" % ".".join(["D___"] * 31))
    case("value-at ^X %s 7" % path, "ok handle 1")
    case("search X %s" % path, "ok \\%s.X___ handle 1 asked 2" % ".".join(["D___"] * 30))


CALLS = ("levels \\ 0", "tree", "image 0", "level \\B 0", "remove \\A", "value \\Y 1", "value-at Y \\ 1", "alias Y \\ \\A.X", "get 0", "set 0 1", "handle \\A.X", "object \\A.X", "set-object \\A.X 1", "search X \\A",
         "search-level A \\")


def poked(good, bad, answers):
    """pokes the words in which the two differ, asks each call, sees the memory as it was, and pokes the good words back"""
    differ = [i for i in range(WORDS) if good[i] != bad[i]]
    for i in differ:
        case("poke %d %d" % (i, bad[i]), "ok")
    for line, answer in answers:
        kept(line, answer, bad)
    for i in differ:
        case("poke %d %d" % (i, good[i]), "ok")


REFUSED = [("well-formed", "ok 0")] + [(line, refused(24)) for line in CALLS]


def damaged():
    note("memory that is damaged at each kind of word: 24, and it stays as it is")
    case("new", "ok")
    case("level \\A 1", "ok")
    case("value \\A.X 9", "ok handle 0")
    good = table_words([(1, 0, 0, 0), (2, 1, 1, segment("A"))], [(segment("X"), 0)], [9])
    case("digest", "ok %d" % digest(good))
    for index, word in [(0, 0), (0, ROOT + 1), (0, ROOT | 1 << 42), (1, good[1] + (1 << 45)), (1, good[1] | 6 << 42), (1, good[1] + (1 << 32)), (1, good[1] - (1 << 32)), (1, good[1] - segment("A") + 10 * 37**3 - 1), (2, 1),
                        (127, 1), (128, 0), (128, good[128] + 1), (128, good[128] | 0x80 << 56), (129, good[128]), (639, 1), (640, 0), (640, 513), (642, 1), (1152, 1)]:
        bad = list(good)
        bad[index] = word
        poked(good, bad, REFUSED)
    case("digest", "ok %d" % digest(good))
    case("search X \\A", "ok \\A___.X___ handle 0 asked 1")
    note("ranks, siblings and bindings: the good neighbour of each damage is taken")
    levels = lambda *ls: [(1, 0, 0, 0)] + [(r, 0, n, segment(s)) for r, n, s in ls]
    bound = lambda *ss: [(segment(s), 0) for s in ss]
    for taken, why in [
            (chain(32, (31,), (9,)), None), (chain(32, (32,), (9,)), "a binding at rank 32"), (chain(32, (), (9,)), None), (chain(33, (), (9,)), "rank 33"),
            (table_words(levels((2, 0, "A"), (2, 0, "B")), [], [9]), None), (table_words(levels((2, 0, "A"), (2, 0, "A")), [], [9]), "twin siblings"),
            (table_words(levels((2, 0, "B"), (2, 0, "A")), [], [9]), "falling siblings"), (table_words(levels((2, 0, "A"), (3, 0, "A")), [], [9]), None),
            (table_words(levels((2, 0, "A"), (4, 0, "A")), [], [9]), "a rank that jumps"),
            (table_words(levels((2, 2, "A")), bound("X", "Y"), [9]), None), (table_words(levels((2, 2, "A")), bound("X", "X"), [9]), "twin bindings"),
            (table_words(levels((2, 2, "A")), bound("Y", "X"), [9]), "falling bindings"), (table_words(levels((2, 1, "A"), (2, 1, "B")), bound("Y", "X"), [9]), None)]:
        note(why or "well-formed")
        poked(good, taken, REFUSED if why else [("well-formed", "ok 1"), ("get 0", "ok 9")])
    case("digest", "ok %d" % digest(good))


def spelled(*fields):
    """an image of fields, each a width and a number or the four characters of a segment, with zero bits to the byte end"""
    bits = "".join(format(n if isinstance(n, int) else int.from_bytes(n.encode(), "big"), "0%db" % w) for w, n in fields)
    return "%0*X" % (2 * -(-len(bits) // 8), int(bits + "0" * (-len(bits) % 8), 2))


def head(levels, bindings, objects):
    return (4, 1), (8, levels), (10, bindings), (10, objects)


def record(depth, typ, seg):
    return (6, depth), (3, typ), (32, seg)


def images():
    note("request R-6: a table is saved and read back")
    case("new", "ok")
    case("image 6", "ok 100000000000")
    case("image 5", refused(25))
    case("image 100000", "ok 100000000000")
    for line, answer in [("level \\_SB 0", "ok"), ("level \\_PR 0", "ok"), ("level \\_SB.PCI0 1", "ok"), ("value \\_SB.PCI0._ADR 0x1F0000", "ok handle 0"), ("value \\_OS 7", "ok handle 1"),
                         ("alias _UID \\_SB.PCI0 \\_OS", "ok handle 1")]:
        case(line, answer)
    worked = spelled(*head(3, 3, 2), *record(1, 0, "_PR_"), *record(1, 0, "_SB_"), *record(2, 1, "PCI0"), (10, 1), (32, "_OS_"), (10, 1), (10, 0), (10, 0), (10, 2), (32, "_ADR"), (10, 0),
                     (32, "_UID"), (10, 1), (64, 0x1F0000), (64, 7))
    words = table_words([(1, 0, 1, 0), (2, 0, 0, segment("_PR")), (2, 0, 0, segment("_SB")), (3, 1, 2, segment("PCI0"))], [(segment("_OS"), 1), (segment("_ADR"), 0), (segment("_UID"), 1)], [0x1F0000, 7])
    case("digest", "ok %d" % digest(words))
    case("image 57", "ok " + worked)
    case("image 56", refused(25))
    case("new", "ok")
    case("load " + worked, "ok levels 3 bindings 3 objects 2")
    case("digest", "ok %d" % digest(words))
    note("each refusal at its field, and the table as it was")
    a, b = record(1, 0, "A___"), record(1, 0, "B___")
    for image, number, place in [
            ("-", 32, 0), ("10", 32, 4), ("100000", 32, 22), ("00000000", 33, 0), ("20000000", 33, 0), ("F0", 33, 0), (spelled((4, 1), (8, 128), (10, 1023), (10, 1023)), 34, 4),
            (spelled((4, 1), (8, 0), (10, 513), (10, 1023)), 34, 12), (spelled((4, 1), (8, 0), (10, 512), (10, 513)), 34, 22), (spelled(*head(1, 0, 0)), 32, 32),
            (spelled(*head(1, 0, 0), *record(0, 7, 0)), 35, 32), (spelled(*head(1, 0, 0), *record(2, 7, 0)), 35, 32), (spelled(*head(2, 0, 0), *a, *record(3, 7, 0)), 35, 73),
            (spelled(*head(1, 0, 0), *record(1, 6, 0)), 36, 38), (spelled(*head(1, 0, 0), *record(1, 5, 0)), 37, 41), (spelled(*head(1, 0, 0), *record(1, 5, "0A__")), 37, 41),
            (spelled(*head(1, 0, 0), *record(1, 5, "Aa__")), 37, 41), (spelled(*head(2, 0, 0), *a, *a), 38, 82), (spelled(*head(2, 0, 0), *b, *a), 38, 82),
            (spelled(*head(3, 0, 0), *b, *record(2, 0, "Z___"), *a), 38, 123), (spelled(*head(0, 1, 1), (10, 2)), 40, 32), (spelled(*head(0, 1, 1), (10, 0)), 41, 32), (spelled(*head(1, 2, 1), *a, (10, 1), (32, "A___"), (10, 0), (10, 0)), 41, 125),
            (spelled(*head(0, 1, 1), (10, 1), (32, 0), (10, 1)), 37, 42), (spelled(*head(0, 2, 1), (10, 2), (32, "B___"), (10, 0), (32, "B___"), (10, 0)), 38, 84), (spelled(*head(0, 1, 1), (10, 1), (32, "A___"), (10, 1)), 42, 74),
            (spelled(*head(0, 1, 0), (10, 1), (32, "A___"), (10, 0)), 42, 74), (spelled(*head(0, 0, 1), (10, 0)), 32, 42), (spelled(*head(0, 0, 0), (10, 0), (6, 1)), 43, 42), (spelled(*head(0, 0, 0), (10, 0), (6, 32), (8, 0)), 43, 42),
            (spelled(*head(0, 0, 0), (10, 0), (6, 0), (8, 0)), 44, 48)]:
        kept("load " + image, refused(number, place), words)
    case("load 100000000000", "ok levels 0 bindings 0 objects 0")
    case("digest", "ok %d" % digest(table_words([(1, 0, 0, 0)], [], [])))
    note("the deepest levels hold no binding, and none stands below them")
    down = [f for d in range(1, 32) for f in record(d, 0, "D___")]
    case("load " + spelled(*head(31, 0, 0), *down, *[(10, 0)] * 32), "ok levels 31 bindings 0 objects 0")
    kept("load " + spelled(*head(32, 0, 0), *down, *record(32, 0, "D___")), refused(35, 32 + 31 * 41), chain(32))
    kept("load " + spelled(*head(31, 1, 1), *down, *[(10, 0)] * 31, (10, 1)), refused(39, 32 + 31 * 41 + 310), chain(32))
    kept("load " + spelled(*head(31, 0, 0), *down, *[(10, 0)] * 31, (10, 1)), refused(39, 32 + 31 * 41 + 310), chain(32))
    case("load " + spelled(*head(31, 1, 1), *down, *[(10, 0)] * 30, (10, 1), (32, "X___"), (10, 0), (10, 0), (64, 9)), "ok levels 31 bindings 1 objects 1")
    case("digest", "ok %d" % digest(chain(32, (31,), (9,))))
    note("a table of damaged memory is no table to save, and one to load into")
    case("poke 0 0", "ok")
    case("image 100000", refused(24))
    case("load 10", refused(32, 4))
    case("well-formed", "ok 0")
    case("load " + worked, "ok levels 3 bindings 3 objects 2")
    case("digest", "ok %d" % digest(words))
    damaged_images(list(bytes.fromhex(worked)))
    full_image()


def damaged_images(image):
    paper = model.Paper()

    def read(b):
        for line in ("load " + hexed(b), "image 100"):
            case(line, paper.answer(line))

    read(image)
    note("each bit of a small image flipped")
    for i in range(8 * len(image)):
        read(image[:i // 8] + [image[i // 8] ^ 128 >> i % 8] + image[i // 8 + 1:])
    note("each prefix of it")
    for i in range(len(image)):
        read(image[:i])
    note("each byte behind it")
    for i in range(256):
        read(image + [i])


def full_image():
    note("a full table, and one of each kind more")
    name = lambda i: "L%03d" % i
    t = model.Table()
    for i in range(127):
        t.levels[name(i),] = i % 6
    for i in range(512):
        t.bound[(name(i % 127),) if i % 3 else (), "B%03d" % i] = 511 - i
    t.objects = [i * 0x0123456789ABCDEF % 2 ** 64 for i in range(512)]
    image = model.image_of(t)
    case("load " + hexed(image), "ok levels 127 bindings 512 objects 512")
    case("image 7598", refused(25))
    case("image 7599", "ok " + hexed(image))
    case("get 511", "ok %d" % t.objects[511])
    case("level \\A 0", refused(18))
    case("value \\A 0", refused(19))
    case("load " + hexed(image + [0]), refused(44, 8 * 7599))
    case("load " + hexed(image[:-1]), refused(32, 32 + 127 * 41 + 1280 + 512 * 42 + 511 * 64))
    case("new", "ok")


PARTS = [paper, limits_of_lengths, limits_of_components, limits_of_depth, limits_of_budget, tables, table_limits, whole_tables, widths, bad_lengths, arithmetic, images, wrong_lines, helped]


def main():
    for part in PARTS:
        part()
    note("the replay")
    asked, told = (open(HERE + "/replay" + ending, errors="surrogateescape").read().split("\n")[:-1] for ending in (".in", ".out"))
    out.extend(zip(asked, told))
    base = HERE + "/../crates/klem/"
    with open(base + "stdin", "w", errors="surrogateescape") as f:
        f.write("".join(a + "\n" for a, _ in out))
    with open(base + "stdout", "w", errors="surrogateescape") as f:
        f.write("".join(b + "\n" for _, b in out if b is not None))


if __name__ == "__main__":
    main()
