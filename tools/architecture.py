#!/usr/bin/env python3
"""Writes docs/architecture.svg: how a call flows through the crates.

usage: tools/architecture.py > docs/architecture.svg
"""
from xml.sax.saxutils import escape

WIDTH, HEIGHT = 980, 666

STYLE = """
text { font-family: sans-serif; font-size: 12px; fill: #1f2328 }
.title { font-size: 16px; font-weight: bold }
.name { font-size: 13px; font-weight: bold }
.small { font-size: 11px }
.middle { text-anchor: middle }
.page { fill: #ffffff }
.box { stroke-width: 1.5 }
.proved { fill: #ddf4ff; stroke: #0969da }
.leaf { fill: #f6f8fa; stroke: #0969da }
.definition { fill: #dafbe1; stroke: #1a7f37 }
.host { fill: #fff1e5; stroke: #bc4c00; stroke-dasharray: 5 3 }
.arrow { stroke: #59636e; stroke-width: 1.5; fill: none; marker-end: url(#head) }
.head { fill: #59636e }
@media (prefers-color-scheme: dark) {
text { fill: #f0f6fc }
.page { fill: #0d1117 }
.proved { fill: #10233d; stroke: #4493f8 }
.leaf { fill: #151b23; stroke: #4493f8 }
.definition { fill: #12261e; stroke: #3fb950 }
.host { fill: #2a1a10; stroke: #db6d28 }
.arrow { stroke: #9198a1 }
.head { fill: #9198a1 }
}
"""

# class, left, top, width, height, name, lines
BOXES = [
    ("definition", 20, 60, 146, 258, "definition", [
        "specs/: what each call", "gives, a file for each", "part, with tables", "",
        "src/: the types that", "specs and code share", "",
        "Each contract to the", "right says that the", "answer and the lent", "bytes are what a",
        "definition here gives."]),
    ("definition", 20, 338, 146, 166, "laws", [
        "specs/: the claims,", "that measuring, writing", "and reading agree", "",
        "proofs/: their proofs,", "and laws that the", "code's proofs cite"]),
    ("definition", 20, 524, 146, 122, "lengths, calendar", [
        "specs/: record lengths;", "dates, last days; what", "is claimed of each", "", "proofs/: their proofs"]),
    ("proved", 186, 146, 130, 260, "format", [
        "hands out one item", "after the other, by", "a cursor by value"]),
    ("leaf", 198, 226, 106, 48, "options", ["the option table"]),
    ("leaf", 198, 282, 106, 48, "operand", ["size, limit, X"]),
    ("leaf", 198, 338, 106, 58, "numeral", ["digits, by", "recursion"]),
    ("proved", 356, 236, 130, 68, "plan", ["what writing puts", "for an item"]),
    ("leaf", 186, 60, 80, 58, "word", ["for plan:", "12 and 13"]),
    ("leaf", 276, 60, 80, 58, "decode", ["for fetch:", "17 to 20"]),
    ("proved", 356, 326, 130, 68, "fetch", ["what reading takes", "for an item"]),
    ("proved", 526, 146, 130, 78, "measure, range", ["string_packsize,", "packsize_range;", "bound: list_bound"]),
    ("proved", 526, 236, 130, 78, "write, tray", ["string_pack,", "pack_continued;", "pack_tray"]),
    ("proved", 526, 326, 130, 68, "read", ["string_unpack;", "read_pass"]),
    ("proved", 526, 416, 130, 68, "dates", ["day_number,", "date_of, last_day"]),
    ("proved", 696, 146, 110, 338, "digribbon", [
        "the calls", "under C names:", "0, or a refusal's", "number"]),
    ("host", 846, 146, 114, 68, "C", ["header, example"]),
    ("host", 846, 236, 114, 68, "Rust", ["crate, and a", "pack.rs for lua-rs"]),
    ("host", 846, 326, 114, 68, "Lua", ["module"]),
    ("proved", 376, 60, 180, 58, "agreement", ["calls made in turn, by", "measure, write and read"]),
    ("proved", 696, 60, 110, 58, "line", ["the line printed"]),
    ("proved", 846, 60, 114, 58, "packsize", ["the program"]),
    ("leaf", 186, 542, 118, 104, "align, items", ["the state, padding;", "sizes as types; for", "format, measure,", "range, plan, fetch"]),
    ("leaf", 318, 542, 118, 104, "values, fields", ["the value list, and", "runs of them; for", "numbers, word, plan,", "write, tray, read"]),
    ("leaf", 450, 542, 118, 104, "numbers", ["a value as integer", "or as number;", "for word"]),
    ("leaf", 582, 542, 118, 104, "single", ["f64 to f32, and", "back; for word,", "numbers, decode"]),
    ("leaf", 714, 542, 118, 104, "load, store", ["integers as bytes,", "with words;", "for values, fields,", "decode, emit"]),
    ("leaf", 846, 542, 114, 104, "position", ["starts, offsets,", "positions; for", "fetch, read"]),
]

# from, to
ARROWS = [
    ((316, 180), (526, 180)),
    ((316, 270), (356, 270)),
    ((316, 360), (356, 360)),
    ((486, 270), (526, 270)),
    ((486, 360), (526, 360)),
    ((656, 180), (696, 180)),
    ((656, 270), (696, 270)),
    ((656, 360), (696, 360)),
    ((656, 450), (696, 450)),
    ((806, 180), (846, 180)),
    ((806, 270), (846, 270)),
    ((806, 360), (846, 360)),
    ((591, 146), (591, 89), (696, 89)),
    ((806, 89), (846, 89)),
]

LABELS = [
    ("title", 20, 34, "How a call flows through the crates"),
    ("small middle", 421, 172, "items"),
    ("small", 186, 528, "Leaves, which call nothing but each other:"),
]


def text(kind, x, y, words):
    return f'<text class="{kind}" x="{x}" y="{y}">{escape(words)}</text>'


def box(kind, left, top, width, height, name, lines):
    yield f'<rect class="box {kind}" x="{left}" y="{top}" width="{width}" height="{height}" rx="6"/>'
    yield text("name", left + 10, top + 21, name)
    for at, line in enumerate(lines):
        if line:
            yield text("small", left + 10, top + 39 + 16 * at, line)


def arrow(points):
    path = " L ".join(f"{x} {y}" for x, y in points)
    return f'<path class="arrow" d="M {path}"/>'


def legend():
    for left, kind, words in [(420, "proved", "proved"), (510, "definition", "what it is proved against"),
                              (700, "host", "host code, tested and not proved")]:
        yield f'<rect class="box {kind}" x="{left}" y="22" width="24" height="14" rx="3"/>'
        yield text("small", left + 32, 33, words)


def picture():
    yield f'<svg xmlns="http://www.w3.org/2000/svg" viewBox="0 0 {WIDTH} {HEIGHT}" width="{WIDTH}" height="{HEIGHT}" role="img">'
    yield "<title>How a call flows through the crates</title>"
    yield f"<style>{STYLE}</style>"
    yield ('<defs><marker id="head" viewBox="0 0 8 8" refX="8" refY="4" markerWidth="8" markerHeight="8" '
           'markerUnits="userSpaceOnUse" orient="auto"><path class="head" d="M 0 0 L 8 4 L 0 8 z"/></marker></defs>')
    yield f'<rect class="page" width="{WIDTH}" height="{HEIGHT}" rx="8"/>'
    for each in BOXES:
        yield from box(*each)
    yield from (arrow(points) for points in ARROWS)
    yield from (text(*label) for label in LABELS)
    yield from legend()
    yield "</svg>"


if __name__ == "__main__":
    print("\n".join(picture()))
