#!/usr/bin/env python3
"""What a place costs the program `lookup`, by places, rows and files, beside a scan that includes the same rows:
instructions past those of reading the input.

    python3 bench/lookup/run.py [LOOKUP SCAN]

Each file is a struct of two i32 in segments of 1,000 rows. Places are spread over all rows, in no order, and none is
repeated. Counted is callgrind's number of a run less that of a run on the same files with no place, so what reading the
manifest takes is left out; the scan's is less that of a scan that includes no row. The scan is of one file, by one worker.
Both have to write the same lines, but for their order. A line says where ten times the places, rows or files take more
than GROWTH times the instructions, or where 1,000 places of 1,000,000 rows take more than MOST times those of the scan;
then the script ends with 1. Needs valgrind, and the programs as `rt run` leaves them in crates/siblaguur_lookup/out and
crates/siblaguur/out; others may be named as the first two words.
"""
import json
import re
import struct
import subprocess
import sys
import tempfile
from pathlib import Path

ROOT = Path(__file__).resolve().parent.parent.parent
LOOKUP = ROOT / "crates/siblaguur_lookup/out/siblaguur_lookup"
SCAN = ROOT / "crates/siblaguur/out/siblaguur"
MOST, GROWTH = 2.0, 12.0
# places, rows of all files, and files
WHOLE = (1_000, 1_000_000, 1)
SIZES = [(100, 100_000, 1), (1_000, 100_000, 1), (10_000, 100_000, 1), WHOLE, (1_000, 100_000, 10), (1_000, 100_000, 100)]
# a size, and one that is ten times it in one of the three
GROWN = [((100, 100_000, 1), (1_000, 100_000, 1)), ((1_000, 100_000, 1), (10_000, 100_000, 1)),
         ((1_000, 100_000, 1), WHOLE), ((1_000, 100_000, 1), (1_000, 100_000, 10)),
         ((1_000, 100_000, 10), (1_000, 100_000, 100))]
EACH = 1_000


def leaf(values, first):
    """A leaf of some values cut into segments, whose numbers begin with the first, and the segments."""
    parts = [values[at:at + EACH] for at in range(0, len(values), EACH)]
    places = [[first + k, len(part)] for k, part in enumerate(parts)]
    texts = [[first + k, struct.pack(f"<{len(part)}i", *part).hex()] for k, part in enumerate(parts)]
    return {"leaf": places, "rows": len(values)}, texts


def file_of(name, rows):
    """A file of these rows."""
    ids, id_texts = leaf(list(rows), 0)
    values, value_texts = leaf([(i * 31) % 1_000_003 - 500_000 for i in rows], len(id_texts))
    layout = {"struct": [ids, values], "rows": len(rows)}
    return {"id": name, "layout": layout, "segments": id_texts + value_texts}


def files_of(size):
    """The files of a run."""
    _, rows, files = size
    each = rows // files
    return [file_of(f"f{k}", range(k * each, (k + 1) * each)) for k in range(files)]


def places_of(size):
    """Places all over the rows, in no order: the multiples of a prime that divides no number of rows."""
    places, rows, files = size
    each = rows // files
    return [divmod(k * 611_953 % rows, each) for k in range(places)]


def text_of(job):
    """A job as bytes."""
    return json.dumps(job, separators=(",", ":")).encode()


def manifest(files, request):
    """A manifest of files of two i32."""
    return {"dtype": {"struct": [["k", "i32"], ["v", "i32"]]}, "files": files, "request": request}


def look_up(files, places):
    """The input of the program `lookup`."""
    return text_of({"manifest": manifest(files, {"projection": "$"}), "lookups": [places] if places else []})


def include(files, rows):
    """The input of the program `scan`."""
    return text_of(manifest(files, {"projection": "$", "include": sorted(rows)}))


def run(program, word, path):
    """The lines of a run, and its instructions."""
    with open(path, "rb") as given:
        ran = subprocess.run([program, word], stdin=given, stdout=subprocess.PIPE, check=True)
    with open(path, "rb") as given:
        counted = subprocess.run(["valgrind", "--tool=callgrind", "--callgrind-out-file=/dev/null", program, word],
                                 stdin=given, stdout=subprocess.DEVNULL, stderr=subprocess.PIPE, check=True)
    return sorted(ran.stdout.splitlines()), int(re.search(rb"Collected : (\d+)", counted.stderr)[1])


def measure(program, word, path, whole, none):
    """The lines of a job, and its instructions less those of one that asks for nothing."""
    path.write_bytes(none)
    _, empty = run(program, word, path)
    path.write_bytes(whole)
    lines, count = run(program, word, path)
    return lines, count - empty


def main():
    lookup, scan = sys.argv[1:3] if len(sys.argv) > 2 else (str(LOOKUP), str(SCAN))
    bad, counts = [], {}
    with tempfile.TemporaryDirectory() as folder:
        path = Path(folder) / "job"
        print("| Places | Rows | Files | Instructions | A place | Scan with `include` | Times |")
        print("|---|---|---|---|---|---|---|")
        for size in SIZES:
            count, rows, files = size
            made, places = files_of(size), places_of(size)
            lines, taken = measure(lookup, "lookup", path, look_up(made, places), look_up(made, []))
            counts[size] = taken
            bad += [f"{size}: {len(lines)} lines"] if len(lines) != count else []
            scanned, times = "", ""
            if files == 1:
                same, other = measure(scan, "scan", path, include(made, [row for _, row in places]), include(made, []))
                scanned, times = f"{other / 1e6:,.1f} million", f"{taken / other:.2f}"
                bad += [f"{size}: other lines"] if lines != same else []
                bad += [f"{size}: more than {MOST} times"] if size == WHOLE and taken > MOST * other else []
            print(f"| {count:,} | {rows:,} | {files:,} | {taken / 1e6:,.1f} million | {taken / count:,.0f} | {scanned} | {times} |",
                  flush=True)
    for one, ten in GROWN:
        times = counts[ten] / counts[one]
        print(f"from {one} to {ten}: {times:.2f} times the instructions")
        bad += [f"from {one} to {ten}: more than {GROWTH} times"] if times > GROWTH else []
    print("\n".join(bad))
    return 1 if bad else 0


if __name__ == "__main__":
    sys.exit(main())
