#!/usr/bin/env python3
"""What the program takes of files of an older schema that are read under a wider dtype, beside the scan of the same files as
they are: instructions, and the greatest memory.

    python3 bench/union/run.py [UNION [SCAN]]

Each file is a struct of i32, from standard input to standard output. Under the wider dtype each field is an i64, so both runs
print the same lines; what is written is compared with lines that are made here. Where fields are counted, the wider dtype has
them in the other order, and as many more that the files lack. Instructions are callgrind's count; memory is of a run without
it. A line says where 1,000,000 rows take more than 1.5 times the instructions of their scan, and where ten times the rows,
files, fields or segments take more than twelve times the instructions; then the script ends with 1. Needs valgrind and GNU
time, and the programs as `rt run` leaves them in crates/siblaguur_union/out/siblaguur_union and
crates/siblaguur/out/siblaguur; others may be named as the first and the second word.
"""
import json
import re
import struct
import subprocess
import sys
import tempfile
from pathlib import Path
from typing import NamedTuple

CRATES = Path(__file__).resolve().parent.parent.parent / "crates"
UNION, SCAN = CRATES / "siblaguur_union/out/siblaguur_union", CRATES / "siblaguur/out/siblaguur"
MOST, GROWTH = 1.5, 12.0


class Size(NamedTuple):
    """So many rows of all files, files, fields, and rows of a segment."""
    rows: int
    files: int = 1
    fields: int = 1
    each: int = 1_000
    absent: bool = False


WHOLE = Size(1_000_000)
# what is ten times as many, a size, and that of ten times as many
GROWN = [
    ("rows", Size(100_000), WHOLE),
    ("files", Size(1_000, files=100), Size(10_000, files=1_000)),
    ("fields", Size(10, fields=1_000, absent=True), Size(10, fields=10_000, absent=True)),
    ("segments", Size(10_000, each=10), Size(100_000, each=10)),
]


def value(row, field):
    """The number in a field of a row."""
    return (row * 7_919 + field * 31) % 1_000_003 - 500_000


def leaf(rows, field, size, segments):
    """A leaf of a field, whose segments are added."""
    places = []
    for at in range(0, len(rows), size.each):
        part = [value(row, field) for row in rows[at:at + size.each]]
        places.append([len(segments), len(part)])
        segments.append([len(segments), struct.pack(f"<{len(part)}i", *part).hex()])
    return {"leaf": places, "rows": len(rows)}


def file_of(place, size):
    """One of the files."""
    count, segments = size.rows // size.files, []
    rows = range(place * count, (place + 1) * count)
    leaves = [leaf(rows, field, size, segments) for field in range(size.fields)]
    return {"id": f"f{place}", "dtype": own_dtype(size), "layout": {"struct": leaves, "rows": count}, "segments": segments}


def own_dtype(size):
    return {"struct": [[f"a{field}", "i32"] for field in range(size.fields)]}


def wider_dtype(size):
    """Each field as an i64; where some are absent, in the other order, and one behind each that the files lack."""
    if not size.absent:
        return {"struct": [[f"a{field}", "i64"] for field in range(size.fields)]}
    pairs = [[[f"a{field}", "i64"], [f"b{field}", "utf8?"]] for field in reversed(range(size.fields))]
    return {"struct": [field for pair in pairs for field in pair]}


def lines(dtype, size):
    """What is to be written under a dtype."""
    count, text = size.rows // size.files, []
    names = [name for name, _ in dtype["struct"]]
    for row in range(size.rows):
        cells = {name: None if name[0] == "b" else value(row, int(name[1:])) for name in names}
        line = {"file": row // count, "row": row % count, "value": cells}
        text.append(json.dumps(line, separators=(",", ":")) + "\n")
    return "".join(text).encode()


def measure(program, word, manifest, folder):
    """The bytes that a run writes, its instructions and its kilobytes."""
    path = Path(folder) / "manifest"
    path.write_bytes(json.dumps(manifest, separators=(",", ":")).encode())
    with open(path, "rb") as given:
        ran = subprocess.run(["time", "-f", "%M", "-o", f"{folder}/taken", program, word], stdin=given, stdout=subprocess.PIPE,
                             check=True)
    kilobytes = int(Path(f"{folder}/taken").read_text(encoding="ascii"))
    with open(path, "rb") as given:
        counted = subprocess.run(["valgrind", "--tool=callgrind", f"--callgrind-out-file={folder}/out", program, word],
                                 stdin=given, stdout=subprocess.DEVNULL, stderr=subprocess.PIPE, check=True)
    return ran.stdout, int(re.search(rb"Collected : (\d+)", counted.stderr)[1]), kilobytes


def both(union, scan, size, folder):
    """Instructions of a size under the wider dtype and as it is, and what is bad of them."""
    files = [file_of(place, size) for place in range(size.files)]
    wider, own = wider_dtype(size), own_dtype(size)
    counts, bad = [], []
    for program, word, dtype in [(union, "union", wider), (scan, "scan", own)]:
        manifest = {"dtype": dtype, "files": files, "request": {"projection": "$"}}
        written, count, kilobytes = measure(program, word, manifest, folder)
        counts += [(count, kilobytes)]
        bad += [f"{size}: other lines by `{word}`"] if written != lines(dtype, size) else []
    (count, memory), (plain, plain_memory) = counts
    segments = size.files * size.fields * -(-(size.rows // size.files) // size.each)
    print(f"| {size.rows:,} | {size.files:,} | {size.fields:,} | {segments:,} | {count / 1e6:,.1f} million | "
          f"{plain / 1e6:,.1f} million | {count / plain:.2f} | {memory / 1024:.1f} MB | {plain_memory / 1024:.1f} MB |", flush=True)
    bad += [f"{size}: more than {MOST} times"] if size == WHOLE and count > MOST * plain else []
    return count, bad


def main():
    union, scan = ([str(word) for word in sys.argv[1:3]] + [str(UNION), str(SCAN)][len(sys.argv) - 1:])[:2]
    bad, grown = [], []
    with tempfile.TemporaryDirectory() as folder:
        print("| Rows | Files | Fields | Segments | As i64 | As they are | Times | Memory | As they are |")
        print("|---|---|---|---|---|---|---|---|---|")
        for what, one, ten in GROWN:
            counts = []
            for size in (one, ten):
                count, worse = both(union, scan, size, folder)
                counts.append(count)
                bad += worse
            grown.append((what, counts[1] / counts[0]))
    for what, times in grown:
        print(f"ten times the {what}: {times:.2f} times the instructions")
        bad += [f"ten times the {what}: more than {GROWTH} times"] if times > GROWTH else []
    print("\n".join(bad))
    return 1 if bad else 0


if __name__ == "__main__":
    sys.exit(main())
