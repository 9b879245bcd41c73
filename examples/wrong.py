#!/usr/bin/env python3
"""Whether check.py --why names the place of what is wrong: 38 manifests, each made wrong in one place.

  wrong.py           says of each whether status and place are told
  wrong.py FOLDER    the same, and writes them there, for `rt try --cases FOLDER -- scan` in crates/siblaguur

The right manifest is made by the Python of docs/MANIFEST.md, as the page stands. Ends with 1 where a place is not named.
"""
import copy
import json
import re
import sys
from pathlib import Path

from check import DOCS, explain

MAKE = {}
exec(re.search(r"```python\n(.*?)```", (DOCS / "MANIFEST.md").read_text(), re.S).group(1), MAKE)

POINT = {"struct": [["x", "i64"], ["y", "utf8?"]], "nullable": True}
DTYPE = {"struct": [["id", "u32"], ["v", "i32?"], ["t", "utf8"], ["keep", "bool"],
                    ["l", {"list": "u8?", "nullable": True}], ["p", POINT]]}
KEYS = [name for name, _ in DTYPE["struct"]]
ROWS = [(0, 5, "ä", True, [1, None], {"x": -1, "y": None}), (1, None, "", False, None, None), (2, -3, "bc", True, [], {"x": 7, "y": "z"}),
        (3, 4, "d", True, [9, 255, 0], {"x": 0, "y": ""}), (250, 2**31 - 1, "e", False, [2], None)]
V, T, L, P = ({"get": [name, "$"]} for name in "vtlp")
PARTS = [["id", {"get": ["id", "$"]}], ["sum", {"add": [V, V]}], ["n", {"list_length": L}], ["x", {"get": ["x", P]}],
         ["at", "#row_idx"], ["t", {"mask": [T, {"get": ["keep", "$"]}]}], ["p", {"select": [["y"], P]}]]


def number(value):
    return {"lit": value, "type": "i32"}


def right():
    values = [dict(zip(KEYS, row)) for row in ROWS]
    return {"dtype": DTYPE, "workers": 2, "cache": {"bytes": 4096, "entries": 16, "eviction": "lru"},
            "files": [MAKE["file"]("A", DTYPE, values), MAKE["file"]("B", DTYPE, values[:3], 2)],
            "request": {"projection": {"pack": PARTS}, "filter": {"and": [{"lt": [V, number(100)]}, {"is_not_null": V}]},
                        "range": [0, 3], "exclude": [1], "limit": 6}}


PACK = "$.request.projection.pack"
ONE = "$.files[0]"
NODE = f"{ONE}.layout.struct"
GONE = object()

# What is wrong, the place that is changed, what stands there then, the status, and the place that is told where it is another.
# Children of the layout: 0 id, 1 v, 2 t, 3 keep, 4 l (elements 4, offsets 5, validity 6), 5 p (validity 7, x 8, y 9);
# the numbers that are not children are segments.
WRONG = [
    ("a number with a fraction", "$.workers", 1.5, 2),
    ("a number past u64", "$.request.limit", 2**64, 2),
    ("a missing key of a file", f"{ONE}.id", GONE, 2, ONE),
    ("a key of another name", "$.request.where", {"lit": True, "type": "bool"}, 2),
    ("a dtype that is none", "$.dtype.struct[1][1]", "f64", 2),
    ("a field without a dtype", "$.dtype.struct[5][1].struct[0]", ["x"], 2),
    ("a layout without rows", f"{NODE}[4].list[0].rows", GONE, 2, f"{NODE}[4].list[0]"),
    ("offsets that may be null", f"{NODE}[4].offsets", "u32?", 2),
    ("a spelling that is none", f"{NODE}[0].spelling", 3, 2),
    ("half a byte of hex", f"{ONE}.segments[0][1]", lambda text: text[1:], 2),
    ("a segment that stands twice", f"{ONE}.segments[1][0]", 0, 2, f"{ONE}.segments"),
    ("files of one id that differ", "$.files[1].id", "A", 2, "$.files[1].segments"),
    ("a literal without a type", "$.request.filter.and[0].lt[1]", {"lit": 100}, 2),
    ("an operator of one part", f"{PACK}[1][1].add", [V], 2),
    ("an operator that is none", f"{PACK}[2][1]", {"length": L}, 2, f"{PACK}[2][1].length"),
    ("rows that do not rise", "$.request.exclude", [2, 1], 2),
    ("rows to take beside rows to leave", "$.request.include", [0], 2, "$.request"),
    ("an eviction that is none", "$.cache.eviction", "fifo", 2),
    ("no null for a limit", "$.request.limit", None, 2),

    ("operands of two widths", f"{PACK}[1][1].add[1]", {"get": ["x", P]}, 3, f"{PACK}[1][1].add"),
    ("a literal that does not fit", "$.request.filter.and[0].lt[1]", number(2**31), 3, "$.request.filter.and[0].lt[1].lit"),
    ("a row's number beside an i32", "$.request.filter.and[0].lt[0]", "#row_idx", 3, "$.request.filter.and[0].lt"),
    ("a field that is not there", f"{PACK}[3][1].get[0]", "z", 3),
    ("the length of a text", f"{PACK}[2][1].list_length", T, 3),
    ("a name that a pack has twice", f"{PACK}[4][0]", "n", 3, f"{PACK}[4]"),
    ("a mask that may be null", f"{PACK}[5][1].mask[1]", {"eq": [V, number(5)]}, 3),
    ("a truth value of a text", "$.request.filter.and[1]", T, 3),
    ("a filter that is a number", "$.request.filter", V, 3),
    ("a range from its end", "$.request.range", [3, 0], 3),

    ("a leaf for a struct", f"{NODE}[5]", {"leaf": [[8, 5]], "rows": 5}, 4),
    ("a validity that is not there", f"{NODE}[5].struct", lambda children: children[1:], 4, f"{NODE}[5]"),
    ("rows that do not add up", f"{NODE}[2].leaf", [[2, 4]], 4, f"{NODE}[2]"),
    ("offsets with a row too few", f"{NODE}[4].list[1]", {"leaf": [[5, 5]], "rows": 5}, 4),
    ("a range past the rows", "$.request.range", [0, 4], 4),
    ("a segment that is not there", f"{NODE}[0].leaf[0][0]", 77, 4, f"{NODE}[0].leaf[0]: the segment 77"),
    ("a byte too few", f"{ONE}.segments[1][1]", lambda text: text[2:], 4, f"{NODE}[1].leaf[0]: the segment 1"),
    ("a text that is no UTF-8", f"{ONE}.segments[2][1]", lambda text: text.replace("c3a4", "c328"), 4,
     f"{NODE}[2].leaf[0]: the segment 2"),
    ("an opener that fails", f"{ONE}.open", {"fail": [0]}, 5, f"{ONE}.open.fail"),
]


def changed(manifest, place, value):
    """The manifest with one place changed: gone, made of what stands there, or another value."""
    *way, last = [int(key) if key.isdigit() else key for key in re.findall(r"\w+", place)]
    at = manifest
    for key in way:
        at = at[key]
    if value is GONE:
        del at[last]
    else:
        at[last] = value(at[last]) if callable(value) else value
    return manifest


def main(words):
    bad, base = 0, right()
    cases = [("right", "$", None, 0)] + WRONG
    for at, (what, place, value, status, *told) in enumerate(cases):
        manifest = base if status == 0 else changed(copy.deepcopy(base), place, value)
        data = json.dumps(manifest).encode()
        said, named = explain(data), told[0] if told else place
        is_named = re.match(rf"status {status}: (no JSON of the form: |no manifest: )?" + ("" if status == 0 else re.escape(named) + " "), said)
        bad += is_named is None
        print(f"{'' if is_named else f'NOT NAMED ({named}): '}{what}: {said}")
        if words:
            (Path(words[0]) / f"w{at:02}").write_bytes(data)
    print(f"{len(WRONG)} manifests made wrong in one place, {bad} of them not named")
    return 1 if bad else 0


if __name__ == "__main__":
    sys.exit(main(sys.argv[1:]))
