#!/usr/bin/env python3
"""Instructions and memory of a stream of a struct's rows, to columns and to arrays of values, by its rows and by the
segments in which they lie.

Builds bench/streams/main.rt.txt as a program in a copy of the repository (`rt run`, which proves it first), counts it
by callgrind and takes its greatest memory by GNU time. What a stream takes is what a run takes beyond `setup`, which
makes the layout, the reader and the segments. Needs rt, valgrind and /usr/bin/time.
"""
import re
import shutil
import subprocess
import tempfile
from pathlib import Path

HERE = Path(__file__).resolve().parent
TOP = HERE.parent.parent
COLUMNS = 3
# the segments of a column, and the rows of a segment
SIZES = [(100, 1000), (1000, 1000), (1000, 100)]
USES = "scan_values scan_expr scan_partition scan_segments scan_layout scan_columns scan_readers scan_streams scan_core"


def build(folder):
    """The program."""
    for name in ["crates", "crates.txt", "HANDLES"]:
        source = TOP / name
        if source.is_dir():
            shutil.copytree(source, folder / name)
        else:
            shutil.copy(source, folder / name)
    crate = folder / "crates" / "bench_streams"
    (crate / "src").mkdir(parents=True)
    shutil.copy(HERE / "main.rt.txt", crate / "src" / "main.rt")
    for name in ["given", "given_columns"]:
        (crate / "proofs" / name).mkdir(parents=True)
        shutil.copy(HERE / f"{name}.antt.txt", crate / "proofs" / name / "Invariants.antt")
    with open(folder / "crates.txt", "a", encoding="utf-8") as lines:
        lines.write(f"bench_streams: {USES}\n")
    subprocess.run(["rt", "run", "--", "setup", "1", "1"], cwd=crate, check=True)
    return crate / "out" / "bench_streams"


def run(words):
    """What a run writes to its standard error, where it gives half of the rows or, for `setup`, none."""
    ran = subprocess.run(words, capture_output=True, text=True, check=True)
    kind, segments, rows = words[-3:]
    wanted = 0 if kind == "setup" else int(segments) * int(rows) // 2
    if ran.stdout != f"{wanted}\n":
        raise ValueError(f"{words}: {ran.stdout}")
    return ran.stderr


def count(program, folder, words):
    """The instructions of a run."""
    told = run(["valgrind", "--tool=callgrind", f"--callgrind-out-file={folder}/{words[0]}", program, *words])
    return int(re.search(r"Collected : (\d+)", told)[1])


def memory(program, words):
    """The greatest memory of a run, in KiB."""
    return int(run(["/usr/bin/time", "-f", "%M", program, *words]))


def main():
    with tempfile.TemporaryDirectory() as made:
        folder = Path(made)
        program = build(folder)
        first = {}
        for segments, rows in SIZES:
            size = [str(segments), str(rows)]
            before, held = count(program, folder, ["setup", *size]), memory(program, ["setup", *size])
            for kind, given in [("columns", "columns"), ("stream", "arrays")]:
                taken = count(program, folder, [kind, *size]) - before
                most = memory(program, [kind, *size])
                first.setdefault(kind, taken)
                print(f"{segments * rows:,} rows in {COLUMNS * segments:,} segments of {rows:,}, to {given}: "
                      f"{taken:,} instructions, {taken / segments / rows:,.0f} a row, "
                      f"{taken / segments / COLUMNS:,.0f} a segment, {taken / first[kind]:.2f} times the first; "
                      f"{most - held:,} KiB beyond the {held:,} of setup", flush=True)


if __name__ == "__main__":
    main()
