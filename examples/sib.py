#!/usr/bin/env python3
"""Runs the commands on `sib` in README.md as they stand there, and compares what they print with what stands there.

    python3 examples/sib.py [PROGRAM]

Below the heading 'From a CSV of your own' it takes the block whose lines begin with `sib`, gives it to a shell as it is, in a
folder where people.csv of crates/sib/data lies, and compares what it prints with the block behind it; the block before it has
to be that CSV. A command that stands in the text with a file's name has to end with 0 too. Then it asks `sib explain` with
the words of each scan there: it has to tell no fewer segments than `--report` says were asked for, and to give the same when
every byte of the segments is another. Last it makes a file by the Python of docs/FILES.md and docs/MANIFEST.md, which has to
have as many bytes as is said there, and be scanned with the digests compared, and imports lines of JSON that show their
dtype. PROGRAM is crates/sib/out/sib, which `rt run` leaves there, where no other is named.
"""
import json, os, pathlib, re, shlex, shutil, subprocess, sys, tempfile, time

TOP = pathlib.Path(__file__).resolve().parent.parent
PROGRAM = str(pathlib.Path(sys.argv[1]).resolve()) if len(sys.argv) > 1 else str(TOP / "crates/sib/out/sib")


def readme():
    """The CSV, the commands, what they print, and the commands in the text that name a file."""
    part = (TOP / "README.md").read_text().split("## From a CSV of your own\n")[1].split("\n## ")[0]
    blocks = re.findall(r"```\n(.*?)```", part, re.S)
    at = next(i for i, block in enumerate(blocks) if all(line.startswith("sib ") for line in block.splitlines()))
    beside = re.findall(r"`(sib [^`]*\.sib[^`]*)`", re.sub(r"```\n.*?```", "", part, flags=re.S))
    return blocks[at - 1], blocks[at], blocks[at + 1], beside


def shell(folder, text):
    """What a text of commands prints, each of which has to end with 0 and tell nothing on standard error."""
    path = f"{folder}/bin:{os.environ.get('PATH', '')}"
    done = subprocess.run(["sh", "-ec", text], cwd=folder, env={**os.environ, "PATH": path}, capture_output=True, text=True, timeout=120)
    if done.returncode or done.stderr:
        sys.exit(f"{text.strip()}: status {done.returncode}: {done.stderr}")
    return done.stdout


def run(folder, words):
    done = subprocess.run([PROGRAM, *words], cwd=folder, capture_output=True, text=True, timeout=120)
    if done.returncode:
        sys.exit(f"sib {shlex.join(words)}: status {done.returncode}: {done.stderr}")
    return done


def explained(folder, words):
    """What `explain` says of the words of a scan, and how many segments at most it tells of all files."""
    out = run(folder, ["explain", *words]).stdout
    return out, sum(int(n) for n in re.findall(r"^at most (\d+) segments", out, re.M))


def check_explain(folder, words):
    path = pathlib.Path(folder, words[0])
    whole = path.read_bytes()
    footer = int.from_bytes(whole[-16:-8], "little") + 48
    told, most = explained(folder, words)
    asked = int(re.search(r"(\d+) asked for", run(folder, ["scan", *words, "--report"]).stderr).group(1))
    if asked > most:
        sys.exit(f"explain {shlex.join(words)}: {most} segments, and the scan asked for {asked}")
    path.write_bytes(whole[:8] + bytes(b ^ 0xFF for b in whole[8:-footer]) + whole[-footer:])
    if explained(folder, words)[0] != told:
        sys.exit(f"explain {shlex.join(words)} reads segments")
    path.write_bytes(whole)


def check_file_by_hand(folder):
    """The file of docs/FILES.md's example, made by the Python that stands there."""
    page, names = (TOP / "docs/FILES.md").read_text(), {}
    for text in ((TOP / "docs/MANIFEST.md").read_text(), page):
        for block in re.findall(r"```python\n(.*?)```", text, re.S):
            exec(block, names)
    call, size = re.search(r"^`(file_of\(.*\))` has (\d+) bytes", page, re.M).groups()
    made = eval(call, names)
    if len(made) != int(size):
        sys.exit(f"docs/FILES.md says {size} bytes, and it makes {len(made)}")
    pathlib.Path(folder, "hand.sib").write_bytes(made)
    values = [json.loads(line)["value"] for line in run(folder, ["scan", "hand.sib", "--check"]).stdout.splitlines()]
    if values != [1, None, -3]:
        sys.exit(f"the file of docs/FILES.md has {values}")


def check_lines(folder):
    """Lines of JSON that show their dtype come back as they were."""
    rows = [{"id": 1, "at": {"x": 1, "y": None}, "tags": ["a"]}, {"id": -2, "at": {"x": 2, "y": 18446744073709551615}, "tags": [], "more": True}]
    pathlib.Path(folder, "rows.ndjson").write_text("".join(json.dumps(row) + "\n" for row in rows))
    told = run(folder, ["import", "rows.ndjson", "rows.sib"]).stdout
    wanted = "rows.sib: 2 rows of {at: {x: i64, y: u64?}, id: i64, tags: [utf8], more: bool?}\n"
    values = [json.loads(line)["value"] for line in run(folder, ["scan", "rows.sib"]).stdout.splitlines()]
    if told != wanted or values != [{"more": None, **rows[0]}, rows[1]]:
        sys.exit(f"lines of JSON: {told}{values}")


def main():
    csv, commands, printed, beside = readme()
    if csv != (TOP / "crates/sib/data/people.csv").read_text():
        sys.exit("README has another people.csv than crates/sib/data")
    with tempfile.TemporaryDirectory() as folder:
        os.mkdir(f"{folder}/bin")
        os.symlink(PROGRAM, f"{folder}/bin/sib")
        shutil.copy(TOP / "crates/sib/data/people.csv", folder)
        began = time.perf_counter()
        found = shell(folder, commands)
        took = time.perf_counter() - began
        if found != printed:
            sys.exit(f"README says\n{printed}\nand the program\n{found}")
        for command in beside:
            if not shell(folder, command):
                sys.exit(f"{command} prints nothing")
        scans = [words[2:] for words in map(shlex.split, commands.splitlines()) if words[1] == "scan"]
        for words in scans:
            check_explain(folder, words)
        check_file_by_hand(folder)
        check_lines(folder)
    count = len(commands.splitlines())
    print(f"{count} commands of README print what stands there, in {took:.2f} s; {len(beside)} in its text end with 0;")
    print(f"{len(scans)} scans ask for no more than is explained; docs/FILES.md makes the file that it says")


if __name__ == "__main__":
    main()
