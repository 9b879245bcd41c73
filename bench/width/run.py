#!/usr/bin/env python3
"""What the program takes as a manifest grows wide, from N to 10 N: instructions, and the greatest memory.

    python3 bench/width/run.py [PROGRAM]

Wide are: a pack of N comparisons of two fields; a struct of N fields, nullable and not, by `$`, by a select and a pack of
all, and by an exclude of one; and N files whose names had one number each under the sum of bytes by powers of
1099511628211 that names were once hashed by. Ten times as wide may take twelve times as much; what names that collided
take is held to what plain names of the same lengths take. Each scan gives two rows a file, or one of names.

Instructions are callgrind's count, which no other work on the machine changes; memory and processor seconds are of a run
without it. A run that takes more than ten minutes of processor time or 8 GB is stopped, and told as too dear.

Needs valgrind and GNU time, and the program as `rt run` leaves it in crates/siblaguur/out/siblaguur (it is built so where it is not
there); another program may be named as the first word.
"""
import json
import re
import subprocess
import sys
import tempfile
from pathlib import Path

TOP = Path(__file__).resolve().parent.parent.parent
PROGRAM = TOP / "crates/siblaguur/out/siblaguur"
SMALL, LARGE = 1_000, 10_000
# names of zeros are as long as their number, so that the manifest itself grows with the square
ZEROS = [100, 1_000]
MOST, SAME = 12.0, 1.2
SECONDS, BYTES = 600, 8 << 30
# two texts of one number by powers of 1099511628211, found by reduction of a lattice, and two of different numbers
PAIR = ("jdheahadaaarab", "aaaagalakcmaea")
PLAIN = ("jdheahadaaarab", "aaaagalakcmaeb")


# ---- manifests
def write(manifest):
    return json.dumps(manifest, separators=(",", ":")).encode()


def leaf(segment, rows):
    return {"leaf": [[segment, rows]], "rows": rows}


def field(name):
    return {"get": [name, "$"]}


def comparisons(count):
    """A pack of so many comparisons of two fields."""
    parts = [[f"p{i:05}", {"lt": [field("x"), field("y")]}] for i in range(count)]
    return write({"dtype": {"struct": [["x", "i32"], ["y", "i32"]]},
                  "files": [{"id": "a", "layout": {"struct": [leaf(0, 2), leaf(1, 2)], "rows": 2},
                             "segments": [[0, "0100000002000000"], [1, "0200000001000000"]]}],
                  "request": {"projection": {"pack": parts}}})


def fields(count, kind, nullable):
    """A struct of so many numbers, projected by a kind of expression."""
    names = [f"field_{i:05}" for i in range(count)]
    expressions = {"$": lambda: "$",
                   "select": lambda: {"select": [names, "$"]},
                   "exclude": lambda: {"exclude": [names[:1], "$"]},
                   "pack": lambda: {"pack": [[name, field(name)] for name in names]}}
    texts = (["0101"] if nullable else []) + ["0100000002000000"] * count
    dtype = {"struct": [[name, "i32"] for name in names]}
    if nullable:
        dtype["nullable"] = True
    layout = {"struct": [leaf(i, 2) for i in range(len(texts))], "rows": 2}
    return write({"dtype": dtype,
                  "files": [{"id": "a", "layout": layout, "segments": [[i, text] for i, text in enumerate(texts)]}],
                  "request": {"projection": expressions[kind]()}})


def named(names):
    """Files of one row each, of these names."""
    files = [{"id": name, "layout": leaf(0, 1), "segments": [[0, "01"]]} for name in names]
    return write({"dtype": "u8", "files": files, "request": {"projection": "$"},
                  "cache": {"bytes": 1 << 20, "entries": 65536, "eviction": "lru"}})


def paired(count, pair):
    """So many names of the same length, each of fourteen texts of a pair."""
    return named("".join(pair[number >> bit & 1] for bit in range(14)) for number in range(count))


def repeated(count, character):
    """So many names of one character, repeated once to so many times."""
    return named(character * (number + 1) for number in range(count))


# ---- runs
def run(program, path, lines, folder):
    """The processor seconds and the kilobytes of a run, or None where it was stopped or gave other lines.

    It is begun by `time`, since a child of this process would be told at least this one's memory.
    """
    limited = f'ulimit -t {SECONDS}; ulimit -v {BYTES >> 10}; exec "$0" scan'
    words = ["time", "-f", "%U %S %M", "-o", f"{folder}/taken", "sh", "-c", limited, program]
    with open(path, "rb") as text:
        ran = subprocess.run(words, stdin=text, stdout=subprocess.PIPE, check=False)
    if ran.returncode or ran.stdout.count(b"\n") != lines:
        return None
    user, system, kilobytes = Path(f"{folder}/taken").read_text(encoding="ascii").split()
    return float(user) + float(system), int(kilobytes)


def count(program, path, folder):
    """The instructions of a run."""
    with open(path, "rb") as text:
        ran = subprocess.run(["valgrind", "--tool=callgrind", f"--callgrind-out-file={folder}/out", program, "scan"],
                             stdin=text, stdout=subprocess.DEVNULL, stderr=subprocess.PIPE, check=True)
    return int(re.search(rb"Collected : (\d+)", ran.stderr)[1])


def measure(program, manifest, lines, folder):
    """Instructions, kilobytes and processor seconds of the scan of a manifest, or None."""
    path = Path(folder) / "manifest"
    path.write_bytes(manifest)
    ran = run(program, path, lines, folder)
    return ran and (count(program, path, folder), ran[1], ran[0])


# ---- the table
def verdict(small, large, most):
    """The two ratios of two measures, and what to say of them."""
    if small is None or large is None:
        return "-", "-", "too dear (stopped)"
    ratios = [large[i] / small[i] for i in range(2)]
    return *(f"{ratio:.2f}" for ratio in ratios), "ok" if max(ratios) <= most else "too dear"


def tell(label, sizes, small, large, most):
    """A line of the table. Whether it is well."""
    million = lambda it: f"{it[0] / 1e6:,.1f}" if it else "-"
    megabytes = lambda it: f"{it[1] / 1024:,.1f}" if it else "-"
    instructions, memory, said = verdict(small, large, most)
    print(f"| {label} | {sizes} | {million(small)} | {million(large)} | {instructions} | {megabytes(small)} | "
          f"{megabytes(large)} | {memory} | {said} |", flush=True)
    return said == "ok"


def widths(program, folder):
    """What grows with fields and parts. Whether all is well, and the seconds of the widest exclude."""
    cases = [("pack of N comparisons", comparisons)]
    for nullable in [False, True]:
        for kind in ["$", "select", "exclude", "pack"]:
            make = lambda width, kind=kind, nullable=nullable: fields(width, kind, nullable)
            cases.append((f"{'nullable ' * nullable}struct of N fields by `{kind}`", make))
    well, seconds = True, None
    for label, make in cases:
        small, large = (measure(program, make(width), 2, folder) for width in [SMALL, LARGE])
        well &= tell(label, f"{SMALL:,} to {LARGE:,}", small, large, MOST)
        if label == "struct of N fields by `exclude`":
            seconds = large and large[2]
    return well, seconds


def names(program, folder):
    """What names take. Whether all is well."""
    well = True
    found = {}
    for label, pair in [("N files of names that collided", PAIR), ("N files of plain names as long", PLAIN)]:
        small, large = (measure(program, paired(files, pair), files, folder) for files in [SMALL, LARGE])
        well &= tell(label, f"{SMALL:,} to {LARGE:,}", small, large, MOST)
        found[pair] = large
    well &= tell("plain names to names that collided", f"{LARGE:,}", found[PLAIN], found[PAIR], SAME)
    for files in ZEROS:
        plain, zeros = (measure(program, repeated(files, it), files, folder) for it in ["\1", "\0"])
        well &= tell("names of ones to names of zeros, as long", f"{files:,}", plain, zeros, SAME)
    return well


def main():
    program = Path(sys.argv[1]).resolve() if len(sys.argv) > 1 else PROGRAM
    if not program.exists() and program == PROGRAM:
        subprocess.run(["rt", "run", "--", "generate", "1"], cwd=TOP / "crates/siblaguur", check=True)
    print("| What | N | Million instructions | | Times | Memory, MB | | Times | |\n|---|---|---|---|---|---|---|---|---|")
    with tempfile.TemporaryDirectory() as folder:
        well, seconds = widths(str(program), folder)
        well &= names(str(program), folder)
    taken = f"{seconds:.2f} s" if seconds is not None else "stopped"
    print(f"\nA struct of {LARGE:,} fields by `exclude`: {taken} of processor time. Ten times as wide may take {MOST:g} times as "
          f"much, and names that collided {SAME:g} times as much as plain ones.")
    sys.exit(0 if well else 1)


if __name__ == "__main__":
    main()
