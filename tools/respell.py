#!/usr/bin/env python3
"""Brings the repository's own names to today's spelling, and names each clause of a contract that has several.

usage: tools/respell.py [ROOT]

It ran once, right after the toolchain's port.py, on the commit that docs/PORT.md names. ROOT is the checkout, this one if left out.

- A definition, a lemma, a constructor or a field of specs/ and proofs/ is in snake case: `dayNumber` is `day_number`, `fill-less` is
  `fill_less`. A fact, which is a type, is in upper camel case. LATER says where two names would have fallen together, and what each is called.
- A clause that port.py called `fact_1` is called for what it says, by CLAUSES.

Names of Rust, the toolchain's names, comments' plain words and strings stay. It rewrites files in place. It is run once: a second run would
take the definitions that LATER made way for as the lemmas of those names.
"""

import collections
import glob
import os
import re
import sys

WORD = r'[^\s(){}.;,@"«»]+'
DECLARED = re.compile(
    r"^ *(?:(?:abbrev|unfoldable|pub|data|record|mutual) )*([^\s(){}.;,@\"«»:]+)"
    r"((?: \{[^{}\n]*\}| \([^()\n]*\))*)\s*:(?!:)",
    re.M,
)
# A comment of either language, a string, or a word.
TOKEN = re.compile(r'--[^\n]*|//[^\n]*|"(?:\\.|[^"\\\n])*"|' + WORD)
CAMEL = re.compile(r"[a-z0-9][A-Z]")

# A fact is spelled as a type. A number in a name is a word of its own.
FACTS = {
    "numeralBehind": "NumeralBehind",
    "roomFor1": "RoomFor1",
    "Item-bound": "ItemBound",
    "Same-pair": "SamePair",
    "atMost63": "at_most_63",
}

# Where a lemma's name would fall together with that of what it is about, or with another name in one file.
LATER = {
    "date-of": "date_of_lem",
    "day-of": "day_of_lem",
    "number-of": "number_of_lem",
    "month-on": "month_on_lem",
    "is-date": "is_date_lem",
    "one_more": "one_more_lem",
    "month-end": "month_end_lem",
    "unsigned-value": "unsigned_value_lem",
    "value-of": "value_of_lem",
    "list-bound": "list_bound_row",
    "up_to_zero": "up_to_zero_lem",
    "big-total": "big_total_lem",
    "field-of": "field_of_lem",
    "number-natural": "number_natural_lem",
    "natural-by": "natural_by_lem",
    "op-by": "op_by_lem",
    "op-with": "op_with_lem",
    "first-list": "first_list_lem",
    "with-sign": "with_sign_lem",
    "read-on": "read_on_lem",
    "step-of": "step_of_lem",
    "fill-of": "fill_of_lem",
    "any-size": "any_size_lem",
    "reading-values": "reading_values_lem",
    "unpack-values": "unpack_values_lem",
    "of_field": "of_field_lem",
    "in-turn": "in_turn_row",
    "one_by_one": "one_by_one_lem",
    "by-scan": "by_scan_lem",
    "counted-bytes": "counted_bytes_lem",
    "is-nan": "is_nan_lem",
}

CLAUSES = [
    (r"Limited ", "limited"),
    (r"Sound ", "sound"),
    (r"Within ", "within"),
    (r"Stands ", "stands"),
    (r"Proper ", "proper"),
    (r"Sizes ", "sizes"),
    (r"T \(valid_?[sS]ize ", "valid_size"),
    (r"T \(valid_?[fF]ield ", "valid_field"),
    (r"T \(valid_?[oO]p ", "valid_op"),
    (r"T \(is_?[uU]naligned ", "unaligned"),
    (r"\(put ≡ true →", "room"),
    (r"RecordFits |Fits |at \+ 3 \+ n ≤|at \+ size_of r ≤", "room"),
    (r"start \+ n ≤|(?:p\.)?at ≤ length pairs|at < length list|Inside ", "inside"),
    (r"is_?[aA]ccepted \(values ", "list_sound"),
    (r"states\.padding ", "padded"),
    (r"1 ≤ (?:natural|n|size) |0 < k ", "positive"),
    (r"k < 64 ", "below_64"),
    (r"zeros ≤ 1 ", "one_zero"),
    (r"p < 16 ", "small_fill"),
    (r"n \+ zeros ≤|p\.state\.length \+ n ≤", "length_fits"),
    (r"n ≤ 65535 ", "short"),
    (r"size ≤ 16 ", "small_size"),
    (r"beside ≤ 16 ", "small_beside"),
    (r"p\.least ≤", "ordered"),
    (r"p\.items <", "items_fit"),
    (r"p\.used <", "used_fit"),
    (r"table_at table\.now ≡", "table"),
    (r"\(\(holds : |extents_?[oO]f ", "extents"),
    (r"LeftInside ", "left_inside"),
    (r"\(\(q : List ℕ\) → moved_?[oO]f |moved_?[oO]f ", "moved"),
    (r"\(\(q : List ℕ\) → (?:p\.)?at ≤|PlaceInside ", "place_inside"),
]


def texts(root, folders, ending):
    for crate in sorted(glob.glob(os.path.join(root, "crates", "*"))):
        for folder in folders:
            for path in sorted(glob.glob(os.path.join(crate, folder, "**", "*" + ending), recursive=True)):
                yield path


def read(path):
    with open(path, encoding="utf-8") as f:
        return f.read()


def in_snake_case(name):
    return re.sub(r"(?<=[a-z0-9])[A-Z]", lambda m: "_" + m[0].lower(), name).replace("-", "_")


def table(root):
    """The new spelling of each name that specs/ and proofs/ declare and that changes."""
    found = collections.OrderedDict()
    for path in texts(root, ["specs", "proofs"], ".antt"):
        for m in DECLARED.finditer(read(path)):
            name = m[1]
            if "◌" in name or name[0] in "+μ":
                continue
            if name in FACTS:
                found[name] = FACTS[name]
            elif name in LATER:
                found[name] = LATER[name]
            elif "-" in name or CAMEL.search(name) and name[0].islower():
                found[name] = in_snake_case(name)
    return found


def turned(text, names):
    def word(m):
        it = m[0]
        if it.startswith(("--", "//")):
            # In a comment a name stands between spaces or back quotes, and only one in camel case is no plain word.
            return re.sub(r"\b[a-z][a-z0-9]*(?:[A-Z][A-Za-z0-9]*)+\b", lambda w: names.get(w[0], w[0]), it)
        return it if it.startswith('"') else names.get(it, it)

    return TOKEN.sub(word, text)


def named_clauses(text):
    def label(m):
        for begins, name in CLAUSES:
            if re.match(begins, m[3]):
                return f"{m[1]}{m[2]} {name} {{ {m[3]}"
        return m[0]

    return re.sub(r"(?m)^( *)(requires|ensures) fact_\d+ \{ ([^\n]*)", label, text)


def main(argv):
    root = argv[0] if argv else os.path.join(os.path.dirname(os.path.abspath(__file__)), "..")
    names = table(root)
    for path in list(texts(root, ["specs", "proofs"], ".antt")) + list(texts(root, ["src"], ".rt")):
        old = read(path)
        # In Rust's files a name with no capital and no dash is Rust's.
        rust = path.endswith(".rt")
        new = turned(old, {k: v for k, v in names.items() if not rust or "-" in k or CAMEL.search(k)})
        if path.endswith(".rt"):
            new = named_clauses(new)
        if new != old:
            with open(path, "w", encoding="utf-8") as f:
                f.write(new)
    print(f"{len(names)} names")


if __name__ == "__main__":
    main(sys.argv[1:])
