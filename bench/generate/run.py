#!/usr/bin/env python3
"""Seconds and instructions of `generate N`, beside the same two scans written by hand in Rust (main.rs).

Needs rustc, valgrind, and the program as `rt run` leaves it in crates/siblaguur/out/siblaguur; another program may be
named as the first word.
"""
import re
import subprocess
import sys
import tempfile
import time
from pathlib import Path

HERE = Path(__file__).resolve().parent
SIZES = [10_000, 100_000]


def measure(words, folder):
    """The line that a program prints, its seconds, and its instructions."""
    start = time.perf_counter()
    line = subprocess.run(words, capture_output=True, check=True, stdin=subprocess.DEVNULL).stdout.decode()
    seconds = time.perf_counter() - start
    ran = subprocess.run(["valgrind", "--tool=callgrind", f"--callgrind-out-file={folder}/out", *words],
                         capture_output=True, check=True, stdin=subprocess.DEVNULL)
    return line, seconds, int(re.search(r"Collected : (\d+)", ran.stderr.decode()).group(1))


def main():
    program = sys.argv[1] if len(sys.argv) > 1 else HERE.parent.parent / "crates/siblaguur/out/siblaguur"
    with tempfile.TemporaryDirectory() as folder:
        plain = f"{folder}/plain"
        subprocess.run(["rustc", "--edition", "2021", "-O", "-o", plain, HERE / "main.rs"], check=True)
        before = None
        for rows in SIZES:
            line, seconds, count = measure([str(program), "generate", str(rows)], folder)
            same, plain_seconds, plain_count = measure([plain, str(rows)], folder)
            print(line.strip())
            if line != same:
                print(f"by hand: {same.strip()}")
            print(f"{rows}: {seconds:.3f} s and {count:,} instructions, by hand {plain_seconds:.3f} s and {plain_count:,}: "
                  f"{count / plain_count:.1f} times")
            if before:
                print(f"growth from the size before: {count / before:.2f} times")
            before = count


if __name__ == "__main__":
    main()
