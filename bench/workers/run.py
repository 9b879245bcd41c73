#!/usr/bin/env python3
"""Times of a scan by one worker, two and four: a filter over a column of numbers and one of texts.

Builds bench/workers/main.rt.txt as a program in a copy of the repository (`rt run`, which proves it first), and runs it
several times for each number of workers, in turn. Times are by the clock, of the scan alone: other work on the machine
changes them, so that the least of the runs is told beside the middle one. With the word `--ahead` the program runs ahead
of other work, at a real-time priority, which needs the right to do so. Needs rt and chrt; a program that was built
before may be named as the last word.
"""
import os
import shutil
import statistics
import subprocess
import sys
import tempfile
from pathlib import Path

HERE = Path(__file__).resolve().parent
TOP = HERE.parent.parent
WORKERS = [1, 2, 4]
RUNS = 9
# the segments of a column, and the rows of a segment
SIZES = [(1000, 1000), (100, 10000)]
AHEAD = ["chrt", "--fifo", "1"] if "--ahead" in sys.argv else []
USES = "scan_values scan_expr scan_segments scan_caches scan_layout scan_multi"


def build(folder):
    """The program."""
    for name in ["crates", "crates.txt", "HANDLES"]:
        source = TOP / name
        if source.is_dir():
            shutil.copytree(source, folder / name)
        else:
            shutil.copy(source, folder / name)
    crate = folder / "crates" / "bench_workers"
    (crate / "src").mkdir(parents=True)
    shutil.copy(HERE / "main.rt.txt", crate / "src" / "main.rt")
    with open(folder / "crates.txt", "a", encoding="utf-8") as lines:
        lines.write(f"bench_workers: {USES}\n")
    subprocess.run(["rt", "run", "--", "1", "1", "1"], cwd=crate, check=True)
    return crate / "out" / "bench_workers"


def measure(program, workers, segments, rows):
    """How many rows a scan gives, and its milliseconds."""
    words = [*AHEAD, str(program), str(workers), str(segments), str(rows)]
    ran = subprocess.run(words, capture_output=True, text=True, check=True)
    count, micros = ran.stdout.split()
    return int(count), int(micros) / 1000


def table(program):
    for segments, rows in SIZES:
        times = {workers: [] for workers in WORKERS}
        counts = set()
        for _ in range(RUNS):
            for workers in WORKERS:
                count, taken = measure(program, workers, segments, rows)
                times[workers].append(taken)
                counts.add(count)
        if len(counts) != 1:
            raise ValueError(f"rows given: {counts}")
        least, middle = min(times[1]), statistics.median(times[1])
        print(f"{segments * rows:,} rows in {segments:,} segments a column, {counts.pop():,} given")
        for workers in WORKERS:
            low, mid = min(times[workers]), statistics.median(times[workers])
            print(f"  {workers} workers: {low:.0f} ms at least, {mid:.0f} ms in the middle; "
                  f"{least / low:.2f} and {middle / mid:.2f} times as fast as one")
        print(f"  load: {os.getloadavg()[0]:.1f} on {os.cpu_count()} processors")


def main():
    words = [word for word in sys.argv[1:] if word != "--ahead"]
    if words:
        table(words[-1])
        return
    with tempfile.TemporaryDirectory() as made:
        table(build(Path(made)))


if __name__ == "__main__":
    main()
