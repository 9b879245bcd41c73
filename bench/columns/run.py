#!/usr/bin/env python3
"""Instructions of work over columns of a million rows, beside plain Rust over vectors.

Builds bench/columns/main.rt.txt as a program in a copy of the repository (`rt run`, which proves it first) and
main.rs by `rustc -O`, and counts each by callgrind: what a work takes is what it takes beyond `setup` or `lists`,
which only make the columns. Needs rt, rustc and valgrind.
"""
import re
import shutil
import subprocess
import tempfile
from pathlib import Path

HERE = Path(__file__).resolve().parent
TOP = HERE.parent.parent
# each work, and what it begins with
WORKS = {"mask": "setup", "filter": "setup", "pack": "setup", "lengths": "lists"}


def build(folder):
    """The two programs."""
    for name in ["crates", "crates.txt", "HANDLES"]:
        source = TOP / name
        if source.is_dir():
            shutil.copytree(source, folder / name)
        else:
            shutil.copy(source, folder / name)
    crate = folder / "crates" / "bench_columns"
    (crate / "src").mkdir(parents=True)
    shutil.copy(HERE / "main.rt.txt", crate / "src" / "main.rt")
    for name in ["dtypes_of", "are_long", "ends"]:
        (crate / "proofs" / name).mkdir(parents=True)
        shutil.copy(HERE / f"{name}.antt.txt", crate / "proofs" / name / "Invariants.antt")
    shutil.copy(HERE / "ends.answers.antt.txt", crate / "proofs" / "ends" / "Answers.antt")
    with open(folder / "crates.txt", "a", encoding="utf-8") as lines:
        lines.write("bench_columns: scan_values scan_expr scan_columns\n")
    subprocess.run(["rt", "run", "--", "setup"], cwd=crate, check=True)
    subprocess.run(["rustc", "-O", HERE / "main.rs", "-o", folder / "plain"], check=True)
    return [crate / "out" / "bench_columns", folder / "plain"]


def count(program, word, folder):
    """The instructions of a run."""
    words = ["valgrind", "--tool=callgrind", f"--callgrind-out-file={folder}/out", program, word]
    ran = subprocess.run(words, capture_output=True, text=True, check=True)
    return int(re.search(r"Collected : (\d+)", ran.stderr)[1])


def main():
    with tempfile.TemporaryDirectory() as made:
        folder = Path(made)
        programs = build(folder)
        for word, first in WORKS.items():
            ours, plain = [count(it, word, folder) - count(it, first, folder) for it in programs]
            print(f"{word}: {ours:,} instructions, plain Rust {plain:,}: {ours / plain:.2f} times")


if __name__ == "__main__":
    main()
