#!/usr/bin/env python3
"""How often the bounded cache hashes a key in one call, under each eviction.

Makes bench/caches/main.rt.txt a program in a copy of the crates that it stands on, and tries it (`rt try`, which proves
nothing): it counts how often the hasher begins. The crates are those of this tree, or of another whose folder is given.
Needs rt.
"""
import shutil
import subprocess
import sys
import tempfile
from pathlib import Path

HERE = Path(__file__).resolve().parent
BELOW = ["scan_values", "scan_segments", "scan_caches"]


def copy(top, folder):
    """The crates, and the program over them."""
    shutil.copy(top / "HANDLES", folder)
    lines = (top / "crates.txt").read_text(encoding="utf-8").splitlines()
    kept = [line for line in lines if line.split(":")[0] in BELOW]
    kept.append("bench_caches: " + " ".join(BELOW))
    (folder / "crates.txt").write_text("\n".join(kept) + "\n", encoding="utf-8")
    for name in BELOW:
        for part in ["src", "specs", "proofs"]:
            shutil.copytree(top / "crates" / name / part, folder / "crates" / name / part)
    crate = folder / "crates" / "bench_caches"
    (crate / "src").mkdir(parents=True)
    shutil.copy(HERE / "main.rt.txt", crate / "src" / "main.rt")
    return crate


def main():
    top = Path(sys.argv[1]) if len(sys.argv) > 1 else HERE.parent.parent
    with tempfile.TemporaryDirectory() as made:
        subprocess.run(["rt", "try"], cwd=copy(top, Path(made)), check=True)


if __name__ == "__main__":
    main()
