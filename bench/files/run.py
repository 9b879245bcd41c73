#!/usr/bin/env python3
"""Instructions of the program over many files, with a limit and without, by the number of files.

Each file has a struct of two i32 columns, `a` and `b`, in segments of 1,000 rows; the request has a filter on `a` that
half of the rows pass, and projects `b`. Needs valgrind, and the program as `rt run` leaves it in
crates/siblaguur/out/siblaguur; another program may be named as the first word.
"""
import json
import re
import struct
import subprocess
import sys
import tempfile
from pathlib import Path

TOP = Path(__file__).resolve().parent.parent.parent
ROWS, SEGMENT, LIMIT = 10_000, 1_000, 10
FILES = [1, 10, 100]


def segments():
    """The segments of a file: those of `a`, which counts 0 to 999 in each, then those of `b`, the row's number."""
    made = []
    for first in range(0, ROWS, SEGMENT):
        made.append(struct.pack(f"<{SEGMENT}i", *range(SEGMENT)).hex())
    for first in range(0, ROWS, SEGMENT):
        made.append(struct.pack(f"<{SEGMENT}i", *range(first, first + SEGMENT)).hex())
    return [[number, text] for number, text in enumerate(made)]


def manifest(files, limit):
    """A manifest of so many files."""
    count = ROWS // SEGMENT
    leaf = lambda start: {"leaf": [[start + i, SEGMENT] for i in range(count)], "rows": ROWS}
    layout = {"struct": [leaf(0), leaf(count)], "rows": ROWS}
    request = {"projection": {"get": ["b", "$"]},
               "filter": {"ge": [{"get": ["a", "$"]}, {"lit": SEGMENT // 2, "type": "i32"}]}}
    if limit:
        request["limit"] = limit
    file = lambda k: {"id": f"F{k}", "layout": layout, "segments": segments()}
    return json.dumps({"dtype": {"struct": [["a", "i32"], ["b", "i32"]]}, "files": [file(k) for k in range(files)],
                       "request": request}, separators=(",", ":"))


def count(program, folder, text, lines):
    """The instructions of a scan of a manifest, which gives so many lines."""
    ran = subprocess.run(["valgrind", "--tool=callgrind", f"--callgrind-out-file={folder}/out", program, "scan"],
                         input=text.encode(), capture_output=True, check=True)
    if ran.stdout.count(b"\n") != lines:
        raise ValueError(f"{ran.stdout.count(10)} lines, wanted {lines}")
    return int(re.search(rb"Collected : (\d+)", ran.stderr)[1])


def main():
    program = sys.argv[1] if len(sys.argv) > 1 else str(TOP / "crates/siblaguur/out/siblaguur")
    with tempfile.TemporaryDirectory() as folder:
        for files in FILES:
            # what reading the manifest takes is in a scan that may give nothing
            read = count(program, folder, manifest(files, None).replace('"request":{', '"request":{"limit":0,'), 0)
            limited = count(program, folder, manifest(files, LIMIT), LIMIT) - read
            whole = count(program, folder, manifest(files, None), files * ROWS // 2) - read
            print(f"{files} files of {ROWS:,} rows: {read:,} instructions to read the manifest; "
                  f"{limited:,} more with a limit of {LIMIT}, {whole:,} more without")


if __name__ == "__main__":
    main()
