#!/usr/bin/env python3
"""The program `sib` beside `sqlite3` and plain Rust, over the same rows.

Makes rows of five columns (two ints, an int that may be null, a text, a list) as CSVs of a million rows each, imports them
by `sib import` and into a table of sqlite3 (the list as its JSON text), and prints four tables:

- what an import of the first million takes;
- questions side by side, each by the least of five rounds in which the programs take turns: filters and columns of the rows
  that pass, a count, ten rows, and rows by place. What all print is compared, but for the names that `sib` sets around its
  values; a count is the number of its lines. `sib` is asked as it is without more words, when it compares no digest of a
  segment, and with `--check`; main.rs beside this is plain Rust over the same files. Seconds that pass, and in brackets
  seconds of processor, which other work on the machine changes little; how many times as long sqlite3 takes; and the most
  memory that each program held;
- what a scan of one column reads, by `--report` and by strace: it ends with 1 where a read of a segment is not one whole
  segment of that column, or one is read twice;
- the memory of scans of one file and of all, their rows into a pipe.

    python3 bench/disk/run.py [MILLIONS] [PROGRAM] [FOLDER]

Needs sqlite3, time and strace (Debian's packages), rustc, and the program as `rt run` leaves it in crates/sib/out/sib. Ten
million rows take some 1.2 GB of disk under /tmp while it runs, or in FOLDER, where they stay and are taken again.
"""
import json, os, pathlib, re, struct, subprocess, sys, tempfile, time

TOP = pathlib.Path(__file__).resolve().parent.parent.parent
MILLIONS = int(sys.argv[1]) if len(sys.argv) > 1 else 10
PROGRAM = sys.argv[2] if len(sys.argv) > 2 else str(TOP / "crates/sib/out/sib")
FOLDER = sys.argv[3] if len(sys.argv) > 3 else None
ROWS, ROUNDS = 1_000_000, 5
DTYPE = "id: i64, score: i32, age: i32?, name: utf8, tags: [u8]"
NAMES = ["Ada", "Grace", "Edsger", "Barbara", "Alan", "Donald", "Leslie", "Tony"]


def rows_of(first):
    """Rows by their numbers: a fixed rule, so that each run has the same."""
    for i in range(first, first + ROWS):
        k = (i * 2654435761) % 4294967296
        age = "" if k % 7 == 0 else str(k % 100)
        tags = "[" + ",".join(str((k >> s) % 256) for s in range(0, 8 * (k % 4), 8)) + "]"
        yield f'{i},{k % 2000001 - 1000000},{age},{NAMES[k % 8]} {k % 1000},"{tags}"\n'


def write_csv(path, first):
    if not os.path.exists(path):
        with open(path + ".part", "w") as it:
            it.write("id,score,age,name,tags\n")
            it.writelines(rows_of(first))
        os.rename(path + ".part", path)


def into_table(db, csvs):
    """The rows of CSVs as a table of sqlite3."""
    part = db + ".part"
    subprocess.run(["sqlite3", part, "create table t (id integer primary key, score integer, age integer, name text, tags text)"], check=True)
    for csv in csvs:
        script = f".mode csv\n.import --skip 1 {csv} t\n"
        subprocess.run(["sqlite3", part], input=script, text=True, check=True)
    subprocess.run(["sqlite3", part, "update t set age = null where age = ''"], check=True)
    os.rename(part, db)


def make(folder, db):
    """The files and the table, where they are not there yet. Gives the paths of the CSVs and of the files."""
    csvs = [os.path.join(folder, f"rows{m}.csv") for m in range(MILLIONS)]
    files = [csv.removesuffix("csv") + "sib" for csv in csvs]
    for m, csv in enumerate(csvs):
        write_csv(csv, m * ROWS)
    for csv, out in zip(csvs, files):
        if not os.path.exists(out):
            subprocess.run([PROGRAM, "import", csv, out, "--dtype", DTYPE], check=True, stdout=subprocess.DEVNULL)
    if not os.path.exists(db):
        into_table(db, csvs)
    return csvs, files


class Run:
    """The least seconds and the least of processor of some runs of a command, the most memory in KB, and what it prints."""

    def __init__(self, command, text=None):
        self.command, self.text, self.least, self.work, self.memory = command, text, float("inf"), float("inf"), 0

    def once(self):
        start = time.perf_counter()
        done = subprocess.run(["/usr/bin/time", "-f", "%M %U %S", *self.command], input=self.text, capture_output=True, text=True)
        took = time.perf_counter() - start
        if done.returncode:
            sys.exit(f"{' '.join(self.command[:3])}: status {done.returncode}: {done.stderr[:300]}")
        kept, user, system = done.stderr.split()[-3:]
        self.least, self.work = min(self.least, took), min(self.work, float(user) + float(system))
        self.memory, self.out = max(self.memory, int(kept)), done.stdout
        return self

    def shown(self):
        return f"{self.least:8.3f} ({self.work:6.2f})"


def values_of(lines):
    """The values of lines of `sib`, as sqlite3 prints them."""
    def cell(v):
        return "" if v is None else json.dumps(v, separators=(",", ":")) if isinstance(v, list) else str(v)
    return ["|".join(cell(v) for v in json.loads(line)["value"].values()) for line in lines]


def footer_of(path):
    with open(path, "rb") as it:
        it.seek(-16, 2)
        length = struct.unpack("<Q", it.read(8))[0]
        it.seek(-48 - length, 2)
        return json.loads(it.read(length))


def leaves_of(path):
    """The leaves of a file's columns, and where each of their segments stands: its offset, length and rows."""
    footer = footer_of(path)
    at = {place[0]: place[1:3] for place in footer["segments"]}
    found = {}
    for (name, _), column in zip(footer["dtype"]["struct"], footer["layout"]["struct"]):
        parts = {name: column} if "leaf" in column else dict(zip((f"{name}.elements", f"{name}.offsets"), column["list"]))
        for part, leaf in parts.items():
            found[part] = [(*at[id], rows) for id, rows in leaf["leaf"]]
    return found


def places_of(paths):
    """Where the segments of files stand, as main.rs takes it."""
    lines = []
    for path in paths:
        lines.append(f"file {path}")
        lines += [f"{name} {offset} {length} {rows}" for name, leaf in leaves_of(path).items() for offset, length, rows in leaf]
    return "".join(line + "\n" for line in lines)


def show_import(folder, csv, file, db):
    """What an import of the first million rows takes."""
    there = os.path.join(folder, "again.sib"), os.path.join(folder, "again.db")
    a = Run([PROGRAM, "import", csv, there[0], "--dtype", DTYPE]).once()
    if pathlib.Path(there[0]).read_bytes() != pathlib.Path(file).read_bytes():
        sys.exit("an import made another file than the one that is there: empty the folder")
    create = "create table t (id integer primary key, score integer, age integer, name text, tags text)"
    b = Run(["sqlite3", there[1]], f"{create};\n.mode csv\n.import --skip 1 {csv} t\n").once()
    print(f"import of {ROWS:,} rows: sib {a.shown()} s, {a.memory:,} KB; sqlite3 {b.shown()} s, {b.memory:,} KB")
    for path in there:
        os.remove(path)


def questions_of(files):
    """Each by its name: the words of `sib`, the query, and the word of main.rs and its files, where it has one."""
    some, last = ["scan", *files], (MILLIONS - 1) * ROWS + 500000
    two = [*some, "--where", "score >= 990000", "--select", "id,name"]
    return [
        ("a filter, two columns", two, "select id, name from t where score >= 990000", ("filter", files)),
        ("the same, 4 workers", [*two, "--workers", "4"], "select id, name from t where score >= 990000", None),
        ("a filter that few pass", [*some, "--where", "age = 7 and score > 999000", "--select", "id"], "select id from t where age = 7 and score > 999000", ("few", files)),
        ("a count", [*some, "--where", "score > 999900", "--select", "score"], "select count(*) from t where score > 999900", ("count", files)),
        ("ten rows", [*some, "--limit", "10"], "select * from t limit 10", ("ten", files)),
        ("rows by place", ["scan", files[-1], "--range", "500000..500010"], f"select * from t where id between {last} and {last + 9}", ("place", files[-1:])),
    ]


def ask(plain, db, name, words, query, by_hand):
    sib, checked, sqlite = Run([PROGRAM, *words]), Run([PROGRAM, *words, "--check"]), Run(["sqlite3", db, query])
    runs = [sib, checked, sqlite]
    if by_hand:
        runs.append(Run([plain, by_hand[0]], places_of(by_hand[1])))
    for _ in range(ROUNDS):
        for run in runs:
            run.once()
    rows, wanted = values_of(sib.out.splitlines()), sqlite.out.splitlines()
    if (str(len(rows)) != wanted[0]) if name == "a count" else (rows != wanted):
        sys.exit(f"{name}: the rows differ")
    if any(run.out != sib.out for run in (checked, *runs[3:])):
        sys.exit(f"{name}: checked, or by plain Rust, the lines differ")
    times = f"{sqlite.least / sib.least:7.2f}{sqlite.least / checked.least:7.2f}"
    print(f"{name:24}{sib.shown()}{checked.shown()}{sqlite.shown()}{times}{sib.memory:9}{sqlite.memory:9}", *(run.shown() for run in runs[3:]), flush=True)


def ask_all(plain, files, db):
    print(f"{'':24}{'sib':>17}{'with --check':>17}{'sqlite3':>17}{'times':>7}{'check':>7}{'sib KB':>9}{'sqlite':>9}{'plain Rust':>17}")
    for name, words, query, by_hand in questions_of(files):
        ask(plain, db, name, words, query, by_hand)


def reads_of(folder, words):
    """Where `sib` reads its files: (path, offset, length) of each read, by strace."""
    log = os.path.join(folder, "strace.log")
    subprocess.run(["strace", "-f", "-s", "0", "-e", "trace=openat,read,pread64", "-o", log, PROGRAM, *words], check=True, stdout=subprocess.DEVNULL)
    names, reads = {}, []
    for line in pathlib.Path(log).read_text().splitlines():
        if found := re.search(r'openat\(\w+, "(.*)", .* = (\d+)$', line):
            names[found[2]] = found[1]
        elif found := re.search(r"\b(pread64|read)\((\d+), .* = (\d+)$", line):
            offset = re.search(r", (\d+)\) += ", line) if found[1] == "pread64" else None
            reads.append((names.get(found[2], "?"), int(offset[1]) if offset else None, int(found[3])))
    os.remove(log)
    return [read for read in reads if read[0].endswith(".sib")]


def show_reads(folder, files, column):
    """What a scan of one column reads. Ends where it is another part of a file's segments than that column's, or is read twice."""
    words = ["scan", *files, "--select", column]
    report = subprocess.run([PROGRAM, *words, "--report"], stdout=subprocess.DEVNULL, stderr=subprocess.PIPE, text=True, check=True).stderr.strip()
    leaves = {path: leaves_of(path) for path in files}
    own = {(path, offset, length) for path in files for name, leaf in leaves[path].items() for offset, length, _ in leaf if name.split(".")[0] == column}
    ends = {path: max(offset + length for leaf in leaves[path].values() for offset, length, _ in leaf) for path in files}
    reads = reads_of(folder, words)
    of_segments = [read for read in reads if read[1] is None or 8 <= read[1] < ends[read[0]]]
    others = [read for read in reads if read not in own]
    if sorted(of_segments) != sorted(own):
        sys.exit(f"{column}: {len(of_segments)} reads of segments, and the column has {len(own)}: {sorted(set(of_segments) ^ own)[:3]}")
    size = sum(os.path.getsize(path) for path in files)
    every = sum(len(leaf) for path in files for leaf in leaves[path].values())
    print(f"--select {column}: {len(own):,} of {every:,} segments, each by one read, {sum(n for _, _, n in of_segments):,} of {size:,} bytes; "
          f"of magics and footers {len(others):,} reads, {sum(n for _, _, n in others):,} bytes; {report}")


def memory_of(folder, words):
    """The most memory in KB that a scan holds whose rows go into a pipe, and how many rows there are."""
    log = os.path.join(folder, "time.log")
    scan = subprocess.Popen(["/usr/bin/time", "-f", "%M", "-o", log, PROGRAM, "scan", *words], stdout=subprocess.PIPE)
    count = int(subprocess.run(["wc", "-l"], stdin=scan.stdout, capture_output=True, text=True, check=True).stdout)
    scan.stdout.close()
    if scan.wait():
        sys.exit(f"scan {' '.join(words[-3:])}: status {scan.returncode}")
    kept = int(pathlib.Path(log).read_text().split()[-1])
    os.remove(log)
    return kept, count


def show_memory(folder, files):
    print(f"{'':44}{'1 file':>10}{len(files):>8} files, KB")
    for name, words in (
        ("a filter, two columns", ["--where", "score >= 990000", "--select", "id,name"]),
        ("one column", ["--select", "score"]),
        ("all columns", []),
        ("all columns, unordered, 4 workers", ["--unordered", "--workers", "4"]),
        ("all columns, digests compared", ["--check"]),
    ):
        (one, rows), (all, more) = memory_of(folder, [files[0], *words]), memory_of(folder, [*files, *words])
        if "--where" not in words and (rows, more) != (ROWS, ROWS * len(files)):
            sys.exit(f"{name}: {rows} and {more} rows")
        print(f"{name:44}{one:10,}{all:8,}", flush=True)


def main():
    with tempfile.TemporaryDirectory() as temporary:
        folder, plain = FOLDER or temporary, os.path.join(temporary, "plain")
        os.makedirs(folder, exist_ok=True)
        subprocess.run(["rustc", "--edition", "2024", "-O", "-o", plain, pathlib.Path(__file__).with_name("main.rs")], check=True)
        db = os.path.join(folder, "rows.db")
        csvs, files = make(folder, db)
        print(f"{MILLIONS * ROWS:,} rows: {len(files)} files of sib, {sum(map(os.path.getsize, files)):,} bytes; sqlite3 {os.path.getsize(db):,} bytes; "
              f"{os.cpu_count()} processors, load {os.getloadavg()[0]:.1f}")
        show_import(temporary, csvs[0], files[0], db)
        ask_all(plain, files, db)
        show_reads(temporary, files, "score")
        show_reads(temporary, files, "tags")
        show_memory(temporary, files)


if __name__ == "__main__":
    main()
