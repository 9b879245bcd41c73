#!/usr/bin/env python3
"""Tries the wrong bodies of bench/wrong-bodies: the prover has to refuse each.

    python3 bench/wrong-bodies/try.py [CRATE..]

Copies the repository as it stands to a folder of its own, puts the edits of a crate (of each crate that has some, where
none is named) in place of those in its must-fail/, which the gate tries, and runs `rt must-fail CRATE` there, one crate
after another. Prints what each edit came to; ends with 1 where one was not refused. Needs rt; a crate whose libraries
were proved on this machine takes its own check and some seconds for each edit, otherwise more.
"""
import shutil
import subprocess
import sys
import tempfile
from pathlib import Path

HERE = Path(__file__).resolve().parent
TOP = HERE.parent.parent
LONGEST = 200


def crates():
    """The names of the crates that have wrong bodies here, sorted."""
    return sorted(folder.name for folder in HERE.iterdir() if any(folder.glob("*.edit")))


def copy_repository(folder):
    """Copies what a check reads, without what checks have left."""
    shutil.copytree(TOP / "crates", folder / "crates", ignore=shutil.ignore_patterns("out", "must-fail"))
    for name in ["crates.txt", "HANDLES"]:
        shutil.copy(TOP / name, folder / name)


def try_crate(folder, crate):
    """The number of the crate's wrong bodies, and how many of them were refused."""
    edits = sorted((HERE / crate).glob("*.edit"))
    place = folder / "crates" / crate / "must-fail"
    place.mkdir()
    for edit in edits:
        shutil.copy(edit, place / edit.name)
    ran = subprocess.run(["rt", "must-fail", crate], cwd=folder, stdout=subprocess.PIPE, stderr=subprocess.STDOUT, text=True,
                         check=False)
    lines = [line.removeprefix("rt: ") for line in ran.stdout.splitlines()]
    refused = 0
    for edit in edits:
        label = f"must-fail {crate}/{edit.name}: "
        told = next((line.removeprefix(label) for line in lines if line.startswith(label)), "nothing was said of it")
        refused += told.startswith("refused, as it must be")
        print(f"{crate} {edit.stem}: {told[:LONGEST]}", flush=True)
    if refused < len(edits):
        print(ran.stdout, end="", flush=True)
    return len(edits), refused


def main():
    known = crates()
    names = sys.argv[1:] or known
    lacking = [name for name in names if name not in known]
    if lacking:
        sys.exit(f"no wrong bodies of {lacking[0]} stand here")
    tried = refused = 0
    with tempfile.TemporaryDirectory() as made:
        folder = Path(made)
        copy_repository(folder)
        for name in names:
            of, those = try_crate(folder, name)
            tried, refused = tried + of, refused + those
    print(f"{refused} of {tried} wrong bodies refused")
    sys.exit(0 if refused == tried else 1)


if __name__ == "__main__":
    main()
