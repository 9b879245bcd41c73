#!/usr/bin/env python3
"""What the program takes of a count and a sum by a key, by rows, groups and files, beside plain Rust that does the whole
work (main.rs): instructions, and the greatest memory.

    python3 bench/table/run.py [PROGRAM]

Each file is a struct of two i32, the first the key and the second what is summed, from standard input to standard output.
Both have to write the same bytes. Instructions are callgrind's count; memory is of a run without it. A line says where
1,000,000 rows of 1,000 groups take more than twice the instructions of plain Rust, and where ten times the rows, groups or
files take more than twelve times the instructions; then the script ends with 1. Needs rustc, valgrind and GNU time, and
the program as `rt run` leaves it in crates/siblaguur_table/out/siblaguur_table; another program may be named as the first
word.
"""
import hashlib
import json
import re
import struct
import subprocess
import sys
import tempfile
from pathlib import Path

HERE = Path(__file__).resolve().parent
PROGRAM = HERE.parent.parent / "crates/siblaguur_table/out/siblaguur_table"
MOST, GROWTH = 2.0, 12.0
# rows of all files, groups and files
WHOLE = (1_000_000, 1_000, 1)
SIZES = [(100_000, 1_000, 1), WHOLE, (1_000_000, 10_000, 1), (100_000, 1_000, 10), (100_000, 1_000, 100)]
# a size, and one that is ten times it in one of the three
GROWN = [((100_000, 1_000, 1), WHOLE), (WHOLE, (1_000_000, 10_000, 1)), ((100_000, 1_000, 10), (100_000, 1_000, 100))]
EACH = 1_000


def leaf(values, first):
    """A leaf of some values cut into segments, whose numbers begin with the first, and the segments."""
    parts = [values[at:at + EACH] for at in range(0, len(values), EACH)]
    places = [[first + k, len(part)] for k, part in enumerate(parts)]
    texts = [[first + k, struct.pack(f"<{len(part)}i", *part).hex()] for k, part in enumerate(parts)]
    return {"leaf": places, "rows": len(values)}, texts


def file_of(name, rows, groups):
    """A file of these rows, whose keys come in no order."""
    keys, key_texts = leaf([i * 7919 % groups - groups // 2 for i in rows], 0)
    values, value_texts = leaf([(i * 31) % 1_000_003 - 500_000 for i in rows], len(key_texts))
    layout = {"struct": [keys, values], "rows": len(rows)}
    return {"id": name, "layout": layout, "segments": key_texts + value_texts}


def job(size):
    """The input of a run."""
    rows, groups, files = size
    each = rows // files
    made = [file_of(f"f{k}", range(k * each, (k + 1) * each), groups) for k in range(files)]
    manifest = {"dtype": {"struct": [["k", "i32"], ["v", "i32"]]}, "files": made, "request": {"projection": "$"}}
    keys, measures = [["k", {"get": ["k", "$"]}]], [["n", "count"], ["s", "sum", {"get": ["v", "$"]}]]
    whole = {"manifest": manifest, "keys": keys, "measures": measures}
    return json.dumps(whole, separators=(",", ":")).encode()


def measure(program, path, folder):
    """The bytes that a run writes, by their checksum, its instructions and its kilobytes."""
    with open(path, "rb") as given:
        ran = subprocess.run(["time", "-f", "%M", "-o", f"{folder}/taken", program, "table"], stdin=given,
                             stdout=subprocess.PIPE, check=True)
    kilobytes = int(Path(f"{folder}/taken").read_text(encoding="ascii"))
    with open(path, "rb") as given:
        counted = subprocess.run(["valgrind", "--tool=callgrind", f"--callgrind-out-file={folder}/out", program, "table"],
                                 stdin=given, stdout=subprocess.DEVNULL, stderr=subprocess.PIPE, check=True)
    return hashlib.sha256(ran.stdout).digest(), int(re.search(rb"Collected : (\d+)", counted.stderr)[1]), kilobytes


def main():
    program = sys.argv[1] if len(sys.argv) > 1 else str(PROGRAM)
    bad, counts = [], {}
    with tempfile.TemporaryDirectory() as folder:
        plain, path = f"{folder}/plain", Path(folder) / "job"
        subprocess.run(["rustc", "--edition", "2024", "-O", "-o", plain, HERE / "main.rs"], check=True)
        print("| Rows | Groups | Files | Job in | Instructions | By hand | Times | Memory | By hand | Times |")
        print("|---|---|---|---|---|---|---|---|---|---|")
        for size in SIZES:
            path.write_bytes(job(size))
            lines, count, kilobytes = measure(program, path, folder)
            same, plain_count, plain_kilobytes = measure(plain, path, folder)
            counts[size] = count
            rows, groups, files = size
            print(f"| {rows:,} | {groups:,} | {files:,} | {path.stat().st_size / 1e6:.1f} MB | {count / 1e6:,.0f} million | "
                  f"{plain_count / 1e6:,.0f} million | {count / plain_count:.2f} | {kilobytes / 1024:.1f} MB | "
                  f"{plain_kilobytes / 1024:.1f} MB | {kilobytes / plain_kilobytes:.2f} |", flush=True)
            bad += [f"{size}: other lines"] if lines != same else []
            bad += [f"{size}: more than {MOST} times"] if size == WHOLE and count > MOST * plain_count else []
    for one, ten in GROWN:
        times = counts[ten] / counts[one]
        print(f"from {one} to {ten}: {times:.2f} times the instructions")
        bad += [f"from {one} to {ten}: more than {GROWTH} times"] if times > GROWTH else []
    print("\n".join(bad))
    return 1 if bad else 0


if __name__ == "__main__":
    sys.exit(main())
