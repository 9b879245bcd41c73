#!/usr/bin/env python3
"""Processor seconds of the gate by crate: its library, its wrong bodies and its tests.

    python3 bench/gate/run.py                 runs `rt ci` at the top of the repository, and ends with its status
    python3 bench/gate/run.py must-fail X     the same of another command of rt
    python3 bench/gate/run.py --of PID        samples a run of rt that has begun, until it ends

rt tells no times, so the processes below it are looked at in /proc twice a second: what each has taken when it was last
seen counts for the crate that its words name. What a process takes after that, at most half a second, is lost; the last
line says how much the kernel counted in all, where the run was begun here. A run begins from nothing where nothing is kept
(`rt ci --anew`, or a machine on which `rt ci` has not passed these crates).
"""
import os
import subprocess
import sys
import time
from pathlib import Path

TOP = Path(__file__).resolve().parent.parent.parent
TICK = os.sysconf("SC_CLK_TCK")
EVERY = 0.5
LIBRARY, BODIES, TESTS, REST = "library", "wrong bodies", "tests", "rest"


def read(path):
    """What a file of /proc has, or nothing where the process has ended."""
    try:
        return Path(path).read_bytes()
    except OSError:
        return b""


def processes():
    """Of each process its id, its parent's, the moment it began, and the ticks that it has taken."""
    for name in os.listdir("/proc"):
        if name.isdigit():
            # the name of a program stands in parentheses and may hold any character
            fields = read(f"/proc/{name}/stat").rpartition(b")")[2].split()
            if fields:
                yield int(name), int(fields[1]), int(fields[19]), int(fields[11]) + int(fields[12])


def kind(pid):
    """The crate and the kind of work of a process, by its words and its folder."""
    words = read(f"/proc/{pid}/cmdline").decode(errors="replace").split("\0")
    if "--crate-name" not in words[:-1]:
        return None, REST
    crate = words[words.index("--crate-name") + 1]
    try:
        folder = os.readlink(f"/proc/{pid}/cwd")
    except OSError:
        folder = ""
    if "/rt-edit" in folder:
        return crate, BODIES
    return crate, TESTS if "--test" in words else LIBRARY


class Samples:
    """What was seen of the processes below one."""

    def __init__(self, root):
        self.root = root
        self.seen = {}

    def look(self):
        """Looks once at all of them."""
        rows = list(processes())
        known = {pid for pid, _, begun, _ in rows if (pid, begun) in self.seen} | {self.root}
        grew = True
        while grew:
            more = {pid for pid, parent, _, _ in rows if parent in known} - known
            known |= more
            grew = bool(more)
        for pid, _, begun, ticks in rows:
            if pid in known:
                before = self.seen.get((pid, begun), (0, (None, REST)))
                work = kind(pid)
                # a process that has just ended has no words any more
                self.seen[pid, begun] = max(ticks, before[0]), before[1] if work == (None, REST) else work

    def sums(self):
        """The seconds by crate and kind."""
        found = {}
        for ticks, work in self.seen.values():
            found[work] = found.get(work, 0) + ticks / TICK
        return found


def names():
    """The crates, as crates.txt lists them."""
    lines = (line.split("#")[0] for line in (TOP / "crates.txt").read_text(encoding="utf-8").splitlines())
    return [line.split(":")[0].split()[0] for line in lines if ":" in line]


def tell(sums, seconds, counted):
    """Prints the table."""
    kinds = [LIBRARY, BODIES, TESTS]
    print("| Crate | Library | Wrong bodies (how many) | Tests |\n|---|---|---|---|")
    for crate in names():
        found = [sums.get((crate, it), 0) for it in kinds]
        if any(found):
            edits = len(list((TOP / "crates" / crate / "must-fail").glob("*.edit")))
            told = [f"{it:,.0f}" if it else "" for it in found]
            told[1] += f" ({edits})" if found[1] else ""
            print(f"| {crate} | {' | '.join(told)} |")
    whole = [sum(taken for (_, it), taken in sums.items() if it == wanted) for wanted in kinds]
    print(f"| Sum | {' | '.join(f'{it:,.0f}' for it in whole)} |")
    rest = sums.get((None, REST), 0)
    print(f"\n{sum(whole) + rest:,.0f} processor seconds were seen ({rest:,.0f} of them in rt, linking and runs) in {seconds:,.0f} s "
          f"by the clock, on {os.cpu_count()} processors.")
    if counted:
        print(f"The kernel counted {counted:,.0f}.")


def watch(root, is_over):
    """Samples until it is over. The seconds by crate and kind, and by the clock."""
    samples, start = Samples(root), time.monotonic()
    while not is_over():
        samples.look()
        time.sleep(EVERY)
    return samples.sums(), time.monotonic() - start


def main():
    words = sys.argv[1:]
    if words[:1] == ["--of"]:
        pid = int(words[1])
        sums, seconds = watch(pid, lambda: not read(f"/proc/{pid}/stat"))
        tell(sums, seconds, None)
        return 0
    with subprocess.Popen(["rt", *(words or ["ci"])], cwd=TOP) as run:
        sums, seconds = watch(run.pid, lambda: run.poll() is not None)
    taken = os.times()
    tell(sums, seconds, taken.children_user + taken.children_system)
    return run.returncode


if __name__ == "__main__":
    sys.exit(main())
