#!/usr/bin/env python3
"""What the programs answer where memory is refused: each allocation of a run in turn, alone and with all behind it.

    python3 bench/memory/run.py

Each input is run once whole, and then with refuse.rs loaded before the program, which refuses the first allocation, the
second and so on, until a run asks for none that would be refused. A run may end with status 0 and the same lines as the
whole one, where it went on without what it asked for (an entry of the cache, say), or with status 7; then nothing is
written, or by `scan` and `generate` a front of the lines. The script says of each input how many runs ended so, names each
that ended otherwise, and ends with 1 where there is one. Needs rustc, and the programs as `rt run` leaves them in
crates/siblaguur/out/siblaguur and crates/siblaguur_table/out/siblaguur_table.
"""
import json
import os
import subprocess
import sys
import tempfile
from pathlib import Path

HERE = Path(__file__).resolve().parent
CRATES = HERE.parent.parent / "crates"
SCAN, TABLE = CRATES / "siblaguur/out/siblaguur", CRATES / "siblaguur_table/out/siblaguur_table"
LAST = 1 << 62
MOST = 100_000


def several():
    """A manifest of two files of one name: texts and numbers, nulls among them, in segments of one and two rows."""
    leaf = lambda segments: {"leaf": [[number, rows] for number, rows in segments], "rows": sum(n for _, n in segments)}
    file = lambda keys, numbers: {
        "id": "A", "layout": {"struct": [leaf(keys), leaf(numbers)], "rows": sum(n for _, n in keys)},
        "segments": [[0, "0100010000006200000000"], [1, "010101000000610100000062"], [2, "010100000063"],
                     [3, "010101000200"], [4, "0100fbff0000"], [5, "000000"]]}
    files = [file([(0, 2), (1, 2), (2, 1)], [(3, 2), (4, 2), (5, 1)]), file([(0, 2), (2, 1)], [(4, 2), (5, 1)])]
    return {"dtype": {"struct": [["k", "utf8?"], ["v", "i16?"]]}, "files": files, "workers": 4,
            "request": {"projection": "$", "filter": {"not": {"is_null": {"get": ["k", "$"]}}}}}


def table():
    """Keys and measures over it."""
    field = lambda name: {"get": [name, "$"]}
    measures = [["n", "count"]] + [[kind, kind, field("v")] for kind in ["values", "sum", "least", "greatest"]]
    return {"manifest": several(), "keys": [["k", field("k")]], "measures": measures}


# what a run is of, its program, its words, its input, and whether a front of its lines may be written with status 7
RUNS = [("scan, the stored input", SCAN, ["scan"], (CRATES / "siblaguur/stdin").read_bytes(), True),
        ("scan, two files by four workers", SCAN, ["scan"], json.dumps(several()).encode(), True),
        ("generate 10", SCAN, ["generate", "10"], b"", True),
        ("table, the stored input", TABLE, ["table"], (CRATES / "siblaguur_table/stdin").read_bytes(), False),
        ("table, two files by four workers", TABLE, ["table"], json.dumps(table()).encode(), False)]


def run(program, words, given, environment):
    """The status of a run and what it writes, and whether something was refused."""
    seen, told = os.pipe()
    environment = {**environment, "REFUSE_TOLD": str(told)}
    ran = subprocess.run([program, *words], input=given, stdout=subprocess.PIPE, stderr=subprocess.PIPE, pass_fds=[told],
                         env=environment, check=False, timeout=60)
    os.close(told)
    refused = os.read(seen, 1)
    os.close(seen)
    return ran.returncode, ran.stdout, refused != b""


def kind_of(status, written, whole, may_be_front):
    """What a run came to."""
    if (status, written) == (0, whole):
        return "lines"
    if (status, written) == (7, b""):
        return "nothing"
    is_front = status == 7 and may_be_front and whole.startswith(written)
    return "front" if is_front else "else"


def main():
    bad = 0
    with tempfile.TemporaryDirectory() as folder:
        library = f"{folder}/librefuse.so"
        subprocess.run(["rustc", "--edition", "2024", "-O", "--crate-type", "cdylib", "-o", library, HERE / "refuse.rs"],
                       check=True)
        print("| Run | Refused | Runs | Status 7, nothing written | 7, a front | 0, all lines |")
        print("|---|---|---|---|---|---|")
        for name, program, words, given, may_be_front in RUNS:
            status, whole, _ = run(program, words, given, {})
            if status != 0:
                sys.exit(f"{name}: status {status} where nothing is refused")
            for what, last in [("one alone", None), ("that and all behind it", LAST)]:
                counts = dict.fromkeys(["nothing", "front", "lines", "else"], 0)
                for first in range(1, MOST):
                    environment = {"LD_PRELOAD": library, "REFUSE_FROM": str(first), "REFUSE_TO": str(last or first)}
                    status, written, is_refused = run(program, words, given, environment)
                    if not is_refused:
                        break
                    kind = kind_of(status, written, whole, may_be_front)
                    counts[kind] += 1
                    if kind == "else":
                        print(f"{name}, allocation {first}, {what}: status {status}, {len(written)} bytes")
                bad += counts["else"]
                print(f"| {name} | {what} | {sum(counts.values()):,} | {counts['nothing']:,} | {counts['front']:,} | "
                      f"{counts['lines']:,} |", flush=True)
    return 1 if bad else 0


if __name__ == "__main__":
    sys.exit(main())
