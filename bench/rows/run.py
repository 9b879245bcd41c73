#!/usr/bin/env python3
"""What the program takes of one file, by its columns, rows and segments, beside plain Rust that does the whole work
(main.rs): instructions, and the greatest memory.

    python3 bench/rows/run.py [PROGRAM]

The file is a struct of one i32, of four i32, or of a text and a list of u8, the projection is `$`, from standard input to
standard output. Both have to write the same bytes. Instructions are callgrind's count; memory is of a run without it. A
line says where one takes more than twice what plain Rust takes, and then the script ends with 1. Needs rustc, valgrind and
GNU time, and the program as `rt run` leaves it in crates/siblaguur/out/siblaguur; another program may be named as the
first word.
"""
import hashlib
import json
import re
import struct
import subprocess
import sys
import tempfile
from pathlib import Path

HERE = Path(__file__).resolve().parent
PROGRAM = HERE.parent.parent / "crates/siblaguur/out/siblaguur"
MOST = 2.0
# columns, rows, and rows a segment
SIZES = [("one i32", 100_000, 1_000), ("one i32", 1_000_000, 1_000), ("one i32", 1_000_000, 100),
         ("four i32", 1_000_000, 1_000), ("a text and a list", 1_000_000, 1_000)]
WORDS = ["", "a", "of bread", "forty-two", "said \"no\"", "über", "a\\b"]


def text(i):
    """The text of a row: some five letters and its number."""
    return (WORDS[i % len(WORDS)] + str(i % 1000)).encode()


class Segments:
    """Segments by their numbers, as they are made."""

    def __init__(self, each):
        self.each, self.texts = each, []

    def leaf(self, values, write):
        """The leaf of some values, cut into segments of so many."""
        places = []
        for at in range(0, len(values), self.each):
            part = values[at:at + self.each]
            places.append([len(self.texts), len(part)])
            self.texts.append([len(self.texts), write(part).hex()])
        return {"leaf": places, "rows": len(values)}


def numbers(letter):
    return lambda part: struct.pack(f"<{len(part)}{letter}", *part)


def texts(part):
    return b"".join(struct.pack("<I", len(t)) + t for t in part)


def columns(kind, rows, segments):
    """The fields of a dtype, and their layouts."""
    if kind == "a text and a list":
        ends = [0]
        for i in range(rows):
            ends.append(ends[-1] + i % 4)
        elements = [(i * 7) % 256 for i in range(ends[-1])]
        lists = {"list": [segments.leaf(elements, bytes), segments.leaf(ends, numbers("I"))], "offsets": "u32", "rows": rows}
        return [["name", "utf8"], ["marks", {"list": "u8"}]], [segments.leaf([text(i) for i in range(rows)], texts), lists]
    leaves = [segments.leaf(range(rows), numbers("i"))]
    for k in range(1, 4 if kind == "four i32" else 1):
        leaves.append(segments.leaf([(i * 31 + k) % 1_000_003 - 500_000 for i in range(rows)], numbers("i")))
    return [["abcd"[k], "i32"] for k in range(len(leaves))], leaves


def manifest(kind, rows, each):
    segments = Segments(each)
    fields, layouts = columns(kind, rows, segments)
    files = [{"id": "A", "layout": {"struct": layouts, "rows": rows}, "segments": segments.texts}]
    return json.dumps({"dtype": {"struct": fields}, "files": files, "request": {"projection": "$"}},
                      separators=(",", ":")).encode()


def measure(program, path, folder):
    """The bytes that a run writes, by their checksum, its instructions and its kilobytes."""
    with open(path, "rb") as given:
        ran = subprocess.run(["time", "-f", "%M", "-o", f"{folder}/taken", program, "scan"], stdin=given,
                             stdout=subprocess.PIPE, check=True)
    kilobytes = int(Path(f"{folder}/taken").read_text(encoding="ascii"))
    with open(path, "rb") as given:
        counted = subprocess.run(["valgrind", "--tool=callgrind", f"--callgrind-out-file={folder}/out", program, "scan"],
                                 stdin=given, stdout=subprocess.DEVNULL, stderr=subprocess.PIPE, check=True)
    return hashlib.sha256(ran.stdout).digest(), int(re.search(rb"Collected : (\d+)", counted.stderr)[1]), kilobytes


def main():
    program = sys.argv[1] if len(sys.argv) > 1 else str(PROGRAM)
    bad = []
    with tempfile.TemporaryDirectory() as folder:
        plain, path = f"{folder}/plain", Path(folder) / "manifest"
        subprocess.run(["rustc", "--edition", "2024", "-O", "-o", plain, HERE / "main.rs"], check=True)
        print("| Columns | Rows | A segment | Manifest in | Instructions | By hand | Times | Memory | By hand | Times |")
        print("|---|---|---|---|---|---|---|---|---|---|")
        for kind, rows, each in SIZES:
            path.write_bytes(manifest(kind, rows, each))
            lines, count, kilobytes = measure(program, path, folder)
            same, plain_count, plain_kilobytes = measure(plain, path, folder)
            times, room = count / plain_count, kilobytes / plain_kilobytes
            print(f"| {kind} | {rows:,} | {each:,} | {path.stat().st_size / 1e6:.1f} MB | {count / 1e6:,.0f} million | "
                  f"{plain_count / 1e6:,.0f} million | {times:.2f} | {kilobytes / 1024:.1f} MB | "
                  f"{plain_kilobytes / 1024:.1f} MB | {room:.2f} |", flush=True)
            bad += [f"{rows:,} rows of {kind}: other lines"] if lines != same else []
            bad += [f"{rows:,} rows of {kind}: more than {MOST} times"] if max(times, room) > MOST else []
    print("\n".join(bad))
    return 1 if bad else 0


if __name__ == "__main__":
    sys.exit(main())
