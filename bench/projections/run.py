#!/usr/bin/env python3
"""Instructions of a projection of a leaf, to a column and to an array, by the segments before its range, those that it
touches, and their rows.

Builds bench/projections/main.rt.txt as a program in a copy of the repository (`rt run`, which proves it first) and
counts it by callgrind: what a hundred projections take is what the run takes beyond `setup`, which makes the reader,
the plan and the inbox. The rows are of i32. Needs rt and valgrind.
"""
import re
import shutil
import subprocess
import tempfile
from pathlib import Path

HERE = Path(__file__).resolve().parent
TOP = HERE.parent.parent
# the segments before the range, those that it touches, and the rows of each
SIZES = [(10, 1, 100), (10, 10, 100), (100, 1, 100), (1000, 1, 100), (10, 1, 1000), (10, 10, 1000), (100, 1, 1000)]
PROJECTIONS = 100
USES = "scan_values scan_expr scan_partition scan_segments scan_layout scan_columns scan_splits scan_plans scan_readers"


def build(folder):
    """The program."""
    for name in ["crates", "crates.txt", "HANDLES"]:
        source = TOP / name
        if source.is_dir():
            shutil.copytree(source, folder / name)
        else:
            shutil.copy(source, folder / name)
    crate = folder / "crates" / "bench_projections"
    (crate / "src").mkdir(parents=True)
    shutil.copy(HERE / "main.rt.txt", crate / "src" / "main.rt")
    with open(folder / "crates.txt", "a", encoding="utf-8") as lines:
        lines.write(f"bench_projections: {USES}\n")
    subprocess.run(["rt", "run", "--", "setup", "1", "1", "100"], cwd=crate, check=True)
    return crate / "out" / "bench_projections"


def count(program, kind, size, folder):
    """The instructions of a run."""
    words = ["valgrind", "--tool=callgrind", f"--callgrind-out-file={folder}/{kind}", program, kind, *map(str, size)]
    ran = subprocess.run(words, capture_output=True, text=True, check=True)
    return int(re.search(r"Collected : (\d+)", ran.stderr)[1])


def main():
    with tempfile.TemporaryDirectory() as made:
        folder = Path(made)
        program = build(folder)
        for size in SIZES:
            before, touched, rows = size
            column, array, setup = [count(program, kind, size, folder) for kind in ["column", "array", "setup"]]
            for kind, taken in [("a column", column), ("an array", array)]:
                each = (taken - setup) / PROJECTIONS
                print(f"{before} before, {touched} touched of {rows:,} rows, to {kind}: {each:,.0f} instructions, "
                      f"{each / touched / rows:,.1f} a row", flush=True)


if __name__ == "__main__":
    main()
