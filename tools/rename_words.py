#!/usr/bin/env python3
"""Brings this repository's own definitions and lemmas to the spelling of today's Rattle: words in snake case.

usage: python3 tools/rename_words.py   (once, at the top, after the port.py of the kit)

It renames what specs/ and proofs/ declare: a word in camel case becomes snake case, a part at a time where a dash joins
two, and a constructor or a field that a dash joined takes an underscore. Where a definition would fall together with a
function of src/ or with another name, it takes the name below. Contracts, edits and pages follow.
"""

import os
import re

# Where the plain respelling is taken already: by a function of src/, a field, a parameter or another lemma.
TAKEN = {
    "addAlias": "add_alias_answer",
    "addLevel": "add_level_answer",
    "addValue": "add_value_answer",
    "removeLevel": "remove_level_answer",
    "lookUp": "look_up_answer",
    "levelUp": "level_up_answer",
    "searchOnce": "search_once_answer",
    "searchUp": "search_up_answer",
    "namePath": "name_path_answer",
    "nameString": "name_string_answer",
    "pathIn": "path_in_answer",
    "pkgLength": "pkg_length_answer",
    "rawLength": "raw_length_answer",
    "loadCell": "load_cell_answer",
    "asStmt": "stmt_op_of",
    "stmtOp": "stmt_op_at",
    "termOp": "term_op_at",
    "charNumber": "number_of_char",
    "charOf": "char_of_number",
    "charsOk": "are_chars_ok",
    "depthOk": "is_depth_ok",
    "fourBytes": "number_of_four",
    "goneAt": "placed_gone_at",
    "isCell": "is_cell_byte",
    "isNormal": "is_normal_path",
    "isWidth": "is_width_bits",
    "levelType": "type_of_level",
    "levelWord": "word_of_level",
    "pieceLength": "length_of_piece",
    "segOk": "is_seg_ok",
    "segmentBytes": "bytes_of_segment",
    "turnsOn": "does_turn_on",
    "wellFormed": "is_well_formed",
    "whileOut": "out_of_while",
    "widthWord": "word_of_width",
    "typeNumber": "number_of_type",
    "pathOf": "path_of_name",
    "allOnes": "ones_of_width",
    "listLeft": "left_of_list",
    "plainEnd": "end_of_plain",
    "recordOf": "record_of_word",
    "sameBytes": "bytes_same",
    "turnAt": "turn_part_at",
    "valueIn": "value_held_in",
    "wordFields": "fields_of_word",
}
# What is declared inside another declaration, or in a mutual block.
INSIDE = """
atA atRoot belowA bodyFrom doStmt doStmts elseBy evOne evSecond evTwo nearLevel oneTurn pkgOf ranOf readElse readIf
readOne readTwo spellStmt spellStmts stepDo stmtAt stmtBy turnsBy whileDo
""".split()
# A lemma's name that is taken by another stays as it is.
STAYS = {"is-set"}
PLACES = ("crates", "wrong", "docs", "README.md", "bindings/lists")
ENDINGS = (".rt", ".antt", ".edit", ".md")
WORD = re.compile(r"[^\s(){}\[\],.;:«»=λ→×⊎`'\"!?/\\|+*<>≡≤∙$^&%@#~]+(?:'+)?")


def files():
    for place in PLACES:
        if os.path.isfile(place):
            yield place
        for folder, dirs, names in os.walk(place):
            dirs[:] = sorted(d for d in dirs if d != "out")
            yield from (os.path.join(folder, n) for n in sorted(names) if n.endswith(ENDINGS))


def read(path):
    with open(path, encoding="utf-8", newline="") as f:
        return f.read()


def declared():
    """Every name that an .antt file declares at its left edge, and the fields and constructors of its records and data."""
    tops, inner = set(), set()
    for path in files():
        if not path.endswith(".antt"):
            continue
        block = False
        for line in read(path).splitlines():
            top = re.match(r"(?:unfoldable |abbrev |pub )*([^\s:(){}]+)\s*:(?!=)", line)
            if top:
                tops.add(top.group(1))
            local = re.match(r" +([^\s:(){}=]+) : ", line)
            if local:
                tops.add(local.group(1))
            if line and not line[0].isspace():
                block = bool(re.match(r"(?:pub )*(?:data|record) ", line))
            field = re.match(r"  +(?:pub )?([^\s:(){}]+)((?: [^\s:(){}]+)*) : ", line)
            if block and field:
                inner.update(field.group(1).split() + field.group(2).split())
    return tops | set(INSIDE), inner


def is_camel(part):
    return part[:1].islower() and re.search(r"[a-z0-9][A-Z]", part) and not re.fullmatch(r"[0-9A-F]+", part)


def snake(part):
    if part in TAKEN:
        return TAKEN[part]
    if not is_camel(part):
        return part
    # klem_c's calls have these names: a definition says what a call answers and leaves, its type `After`.
    if part.startswith("klem") and part[4:5].isupper():
        return plain(part) + "_after"
    return plain(part)


def plain(part):
    return re.sub(r"(?<=[a-z0-9])([A-Z])", lambda m: "_" + m.group(1).lower(), part)


def main():
    tops, inner = declared()
    table = {}
    for name in (tops | inner) - STAYS:
        to = "-".join(snake(p) for p in name.split("-"))
        if name in inner and "-" in name and not name[0].isupper():
            to = to.replace("-", "_")
        if to != name:
            table[name] = to
    # 'getD' is the library's old word, in names of lemmas
    table = {k: v.replace("get_d", "get_or") for k, v in table.items()}
    words = set()
    texts = {p: read(p) for p in files()}
    for p, t in texts.items():
        if p.endswith((".rt", ".antt")):
            words.update(WORD.findall(re.sub(r"(?:--|//).*", "", t)))
    fallen = sorted({v for v in table.values() if v in words or list(table.values()).count(v) > 1})
    for v in fallen:
        print("falls together:", v, sorted(k for k in table if table[k] == v))
    for p, t in texts.items():
        new = WORD.sub(lambda m: table.get(m.group(0), m.group(0)), t)
        if new != t:
            with open(p, "w", encoding="utf-8", newline="") as f:
                f.write(new)
    print(len(table), "names")
    for k in sorted(table):
        print(" ", k, table[k])


if __name__ == "__main__":
    main()
