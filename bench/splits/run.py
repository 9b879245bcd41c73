#!/usr/bin/env python3
"""What the program takes as splits grow finer than a segment, from N to 10 N splits of one row: instructions.

    python3 bench/splits/run.py [PROGRAM]

A struct of two columns, `$`: one of numbers in N segments of one row, which make the splits, and beside it one of N rows in
one segment, of texts or of numbers, nullable and not, in both spellings. Each split reads a row of that segment. Where
the segment is tested once for all splits ten times as many take ten times as much, and where each split tests it a hundred
times; twelve times are allowed. The script ends with 1 where something takes more.

Instructions are callgrind's count, which no other work on the machine changes. Needs valgrind, and the program as `rt run`
leaves it in crates/siblaguur/out/siblaguur; another program may be named as the first word.
"""
import json
import re
import struct
import subprocess
import sys
import tempfile
from pathlib import Path

TOP = Path(__file__).resolve().parent.parent.parent
PROGRAM = TOP / "crates/siblaguur/out/siblaguur"
SMALL, LARGE = 1_000, 10_000
MOST = 12.0
# dtype, spelling
CASES = [("utf8", 1), ("utf8?", 1), ("utf8?", 2), ("i32", 1), ("i32?", 1)]


def slot(dtype, row):
    """The bytes of a row's slot."""
    if dtype.startswith("utf8"):
        text = f"text {row}".encode()
        return struct.pack("<I", len(text)) + text
    return struct.pack("<i", row)


def flags(spelling, rows):
    """The flags of rows that are all there: a byte each, or a bit each."""
    if spelling == 1:
        return b"\1" * rows
    return bytes(sum(1 << bit for bit in range(8) if first + bit < rows) for first in range(0, rows, 8))


def segment(dtype, spelling, rows):
    """All rows of a column, in one segment."""
    front = flags(spelling, rows) if dtype.endswith("?") else b""
    return front + b"".join(slot(dtype, row) for row in range(rows))


def manifest(dtype, spelling, rows):
    """A file of splits of one row over one segment of all rows."""
    fine = {"leaf": [[row, 1] for row in range(rows)], "rows": rows}
    wide = {"leaf": [[rows, rows]], "rows": rows}
    segments = [[row, struct.pack("<i", row).hex()] for row in range(rows)]
    if spelling == 2:
        fine["spelling"], wide["spelling"] = 2, 2
    segments.append([rows, segment(dtype, spelling, rows).hex()])
    return json.dumps({"dtype": {"struct": [["k", "i32"], ["t", dtype]]},
                       "files": [{"id": "A", "layout": {"struct": [fine, wide], "rows": rows}, "segments": segments}],
                       "request": {"projection": "$"}}, separators=(",", ":")).encode()


def count(program, path, rows, folder):
    """The instructions of a run, which gives so many lines."""
    with open(path, "rb") as text:
        ran = subprocess.run(["valgrind", "--tool=callgrind", f"--callgrind-out-file={folder}/out", program, "scan"],
                             stdin=text, stdout=subprocess.PIPE, stderr=subprocess.PIPE, check=True)
    if ran.stdout.count(b"\n") != rows:
        raise ValueError(f"{ran.stdout.count(10)} lines, wanted {rows}")
    return int(re.search(rb"Collected : (\d+)", ran.stderr)[1])


def main():
    program = Path(sys.argv[1]).resolve() if len(sys.argv) > 1 else PROGRAM
    if not program.exists() and program == PROGRAM:
        subprocess.run(["rt", "run", "--", "generate", "1"], cwd=TOP / "crates/siblaguur", check=True)
    print("| One segment of N rows | Spelling | N | Million instructions | | Times | |\n|---|---|---|---|---|---|---|")
    well = True
    with tempfile.TemporaryDirectory() as folder:
        path = Path(folder) / "manifest"
        for dtype, spelling in CASES:
            taken = []
            for rows in [SMALL, LARGE]:
                path.write_bytes(manifest(dtype, spelling, rows))
                taken.append(count(str(program), path, rows, folder))
            times = taken[1] / taken[0]
            well &= times <= MOST
            print(f"| {dtype} | {spelling} | {SMALL:,} to {LARGE:,} | {taken[0] / 1e6:,.1f} | {taken[1] / 1e6:,.1f} | {times:.2f} | "
                  f"{'ok' if times <= MOST else 'too dear'} |", flush=True)
    sys.exit(0 if well else 1)


if __name__ == "__main__":
    main()
