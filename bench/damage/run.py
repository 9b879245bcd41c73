#!/usr/bin/env python3
"""What the program `sib` does with files that are damaged, and with input that gives none.

Makes a small file of a CSV, and then cuts it at each byte, changes each byte of it in turn, and makes footers that lie. Each
such file is scanned with `--check` and without, and verified, shown and explained. A scan that checks may give the right rows
or be refused by status 2, 4 or 5, with the path in what it tells on standard error; before it is refused it may have given
the first of the right rows. It may give no wrong row and end in no other way. One that does not check ends in no other way
either, but compares no digest of a segment, so where a byte of one was changed its rows may be others; such files are counted.
Neither may the other commands end in another way; and where `verify` finds nothing, each scan gives the right rows, but for
footers that say other rows of a segment than its bytes spell, which a scan refuses. Also tried: a directory, a file that is not
there, one that is empty, a device, a footer that is no UTF-8, and a file that is cut, emptied or overwritten while it is read.
Last come inputs that give no file and an output that takes nothing: each has its status and names its cause, and nothing new
stands in the folder. Prints a table of statuses and causes, and ends with 1 where something else came.

Needs the program as `rt run` leaves it in crates/sib/out/sib; another program may be named as the first word.
"""
import collections, hashlib, json, os, pathlib, struct, subprocess, sys, tempfile, time

TOP = pathlib.Path(__file__).resolve().parent.parent.parent
PROGRAM = sys.argv[1] if len(sys.argv) > 1 else str(TOP / "crates/sib/out/sib")
CSV = 'id,name,age,tags\n1,Ada,36,"[""x"",""y""]"\n2,,,[]\n3,"Grace, H.",85,[null]\n'
DTYPE = "id: i64, name: utf8?, age: u8?, tags: [utf8?]"
bad = []


def run(*words):
    done = subprocess.run([PROGRAM, *words], capture_output=True, text=True, timeout=60)
    return done.returncode, done.stdout, done.stderr


def scanned(path, *words):
    return run("scan", path, *words)


def cause_of(err, path):
    """What is told behind the path, without numbers."""
    line = err.strip().splitlines()[-1] if err.strip() else ""
    line = line.removeprefix("sib: ").replace(path, "FILE")
    return "".join("N" if c.isdigit() else c for c in line).replace("NN", "N").replace("NN", "N")


def look(what, path, right, told, spelt=True):
    """What the commands make of a file. Where it is not `spelt`, `verify` need not see that a scan is refused."""
    checked, unchecked = scanned(path, "--check"), scanned(path)
    look_checked(what, path, right, told, *checked)
    look_unchecked(what, path, right, told, *unchecked)
    for command in ("verify", "show", "explain"):
        status, out, err = run(command, path)
        told[(f"{what}: {command}", status, cause_of(err, path) if status else "done")] += 1
        named = status in (2, 4, 5) and path in err and out == ""
        if not (status == 0 or named):
            bad.append((what, command, status, out[:80], err[:200]))
        if command == "verify" and status == 0 and spelt and not (checked[:2] == unchecked[:2] == (0, right)):
            bad.append((what, "verified, and a scan does not give the rows", checked[0], unchecked[0]))


def look_checked(what, path, right, told, status, out, err):
    rows = out.splitlines()
    fine = (status == 0 and out == right) or (status in (2, 4, 5) and right.splitlines()[: len(rows)] == rows and path in err)
    told[(what, status, cause_of(err, path) if status else "the right rows")] += 1
    if not fine:
        bad.append((what, status, out[:80], err[:200]))


def look_unchecked(what, path, right, told, status, out, err):
    """A scan that compares no digest of a segment: it is refused by name or gives rows, which may be others."""
    rows = "the right rows" if out == right else "other rows"
    told[(f"{what}: unchecked", status, cause_of(err, path) if status else rows)] += 1
    if status not in (0, 2, 4, 5) or (status and path not in err):
        bad.append((what, "unchecked", status, out[:80], err[:200]))


def while_read(folder, told):
    """Files that are cut or changed while a scan reads them: its rows go into a pipe that is not emptied before."""
    source, path = os.path.join(folder, "many.csv"), os.path.join(folder, "many.sib")
    with open(source, "w") as it:
        it.write("id,name\n")
        it.writelines(f"{i},name {i} {'x' * 40}\n" for i in range(100_000))
    status, _, err = run("import", source, path, "--dtype", "id: i64, name: utf8", "--rows", "1000")
    assert status == 0, err
    data = pathlib.Path(path).read_bytes()
    right = scanned(path)[1].splitlines()
    assert len(right) == 100_000
    middle = len(data) // 2
    for what, words, damage in (
        ("cut while it is read", ["--check"], lambda: os.truncate(path, middle)),
        ("cut while it is read: unchecked", [], lambda: os.truncate(path, middle)),
        ("emptied while it is read", ["--check"], lambda: os.truncate(path, 0)),
        ("emptied while it is read: unchecked", [], lambda: os.truncate(path, 0)),
        ("overwritten while it is read", ["--check"], lambda: overwrite(path, middle, len(data) - middle)),
    ):
        pathlib.Path(path).write_bytes(data)
        scan = subprocess.Popen([PROGRAM, "scan", path, *words], stdout=subprocess.PIPE, stderr=subprocess.PIPE, text=True)
        first = scan.stdout.readline()
        time.sleep(0.2)
        damage()
        rows, err = [first, *scan.stdout], scan.stderr.read()
        rows, status = [row.rstrip("\n") for row in rows], scan.wait(timeout=120)
        told[(what, status, cause_of(err, path) if status else "the right rows")] += 1
        if right[: len(rows)] != rows or not ((status == 0 and rows == right) or (status in (4, 5) and path in err)):
            bad.append((what, status, len(rows), err[:200]))


def overwrite(path, at, count):
    with open(path, "r+b") as it:
        it.seek(at)
        it.write(b"\0" * count)


def footer_of(data):
    length = struct.unpack("<Q", data[-16:-8])[0]
    return json.loads(data[-48 - length : -48]), data[: len(data) - 48 - length]


def with_bytes(body, text):
    return body + text + hashlib.sha256(text).digest() + struct.pack("<Q", len(text)) + b"SIBLAG02"


def with_footer(body, footer):
    return with_bytes(body, json.dumps(footer, separators=(",", ":")).encode())


def lies(data):
    """Footers that say what is not so, by name."""
    footer, body = footer_of(data)
    first = footer["segments"][0]
    size, length = len(data), struct.unpack("<Q", data[-16:-8])[0]

    def changed(**new):
        return with_footer(body, {**footer, **new})

    def segments(*new):
        return changed(segments=[list(new), *footer["segments"][1:]])

    def leaf(**new):
        columns = footer["layout"]["struct"]
        return changed(layout={**footer["layout"], "struct": [{**columns[0], **new}, *columns[1:]]})

    yield "a place off by one", segments(first[0], first[1] + 1, first[2], first[3])
    yield "a place before the first segment", segments(first[0], 0, first[2], first[3])
    yield "a place behind the file", segments(first[0], size, first[2], first[3])
    yield "a place in the footer", segments(first[0], size - 48 - length, 8, first[3])
    yield "an offset of 2^64 - 1", segments(first[0], (1 << 64) - 1, first[2], first[3])
    yield "an offset below 0", segments(first[0], -1, first[2], first[3])
    yield "a length that is too great", segments(first[0], first[1], 1 << 63, first[3])
    yield "another digest", segments(first[0], first[1], first[2], "0" * 64)
    yield "a digest of 63 digits", segments(first[0], first[1], first[2], "0" * 63)
    yield "an id of 2^32", segments(1 << 32, first[1], first[2], first[3])
    yield "an id twice", changed(segments=[*footer["segments"], first])
    yield "a segment that lacks", changed(segments=footer["segments"][1:])
    yield "another dtype", changed(dtype={"struct": [["id", "i64"]]})
    yield "a dtype that is none", changed(dtype="i65")
    yield "a key more", changed(more=1)
    yield "a third spelling", leaf(spelling=3)
    yield "a leaf of more rows", leaf(rows=4)
    yield "a file of 2^64 - 1 rows", changed(layout={**footer["layout"], "rows": (1 << 64) - 1})
    yield "a layout of 200 levels", changed(layout=json.loads('{"struct":[' * 200 + "0" + '],"rows":3}' * 200))
    yield "no layout", with_footer(body, {k: v for k, v in footer.items() if k != "layout"})
    yield "a footer that is no UTF-8", with_bytes(body, b'{"dtype":"\xff"}')
    yield "a footer that is no object", with_bytes(body, b"[]")
    yield "a footer of many brackets", with_bytes(body, b"[" * 100_000)
    yield "another digest of the footer", data[:-48] + bytes(32) + data[-16:]
    yield "another magic at the end", data[:-1] + b"1"
    yield "a footer's length of 2^64 - 1", data[:-16] + struct.pack("<Q", (1 << 64) - 1) + data[-8:]
    yield "a footer's length of 0", data[:-16] + struct.pack("<Q", 0) + data[-8:]


def lies_of_rows(data):
    """Footers that say other rows of a segment than its bytes spell."""
    footer, body = footer_of(data)
    first, column = footer["segments"][0], footer["layout"]["struct"][0]
    (one, rows), (other, more) = column["leaf"]
    cut = {**column, "leaf": [[one, rows + more], [other, 0]]}
    yield "a segment of more rows", with_footer(body, {**footer, "layout": {**footer["layout"], "struct": [cut, *footer["layout"]["struct"][1:]]}})
    none = [first[0], first[1], 0, hashlib.sha256(b"").hexdigest()]
    yield "a segment of no bytes", with_footer(body, {**footer, "segments": [none, *footer["segments"][1:]]})


def inputs(folder, told):
    """Inputs that give no file, each with the status that is wanted and what is told. Nothing is left in the folder."""
    source, out = os.path.join(folder, "in.csv"), os.path.join(folder, "out.sib")
    for what, data, dtype, status, cause in (
        ("a number that is too great", "id,age\n1,300\n", "id: i64, age: u8", 2, "line 2: 'age' is not of u8"),
        ("a cell that is no number", "id,age\n1,2\n2,x\n", "id: i64, age: u8", 2, "line 3: 'age' is not of u8"),
        ("a null where none may be", "id,age\n1,\n", "id: i64, age: u8", 2, "line 2: 'age' is not of u8"),
        ("a cell more", "id,age\n1,2,3\n", "id: i64, age: u8", 2, "line 2"),
        ("a column that lacks", "id\n1\n", "id: i64, age: u8", 2, "line 1"),
        ("a column more", "id,age,more\n1,2,3\n", "id: i64, age: u8", 2, "line 1"),
        ("an empty input", "", "id: i64", 2, "line 1"),
        ("a cell that is no UTF-8", b"id,name\n1,\xff\n", "id: i64, name: utf8", 2, "line 2"),
        ("a dtype that is none", "id\n1\n", "id: i65", 3, "--dtype 'id: i65'"),
    ):
        pathlib.Path(source).write_bytes(data if isinstance(data, bytes) else data.encode())
        before = sorted(os.listdir(folder))
        found, printed, err = run("import", source, out, "--dtype", dtype)
        told[(f"import: {what}", found, cause_of(err, source))] += 1
        if (found, printed) != (status, "") or cause not in err or sorted(os.listdir(folder)) != before:
            bad.append(("import", what, found, printed[:80], err[:200], os.listdir(folder)))
    lines = os.path.join(folder, "in.ndjson")
    for what, data, cause in (
        ("a line that is no JSON", '{"a":1}\n{"a":\n', "line 2: it is no JSON"),
        ("a line that is no object", '{"a":1}\n\n[1]\n', "line 3: it is no JSON object"),
        ("a text behind a number", '{"a":1}\n{"a":"x"}\n', "line 2: it has a value that no dtype has"),
        ("a number that is not whole", '{"a":[1,2]}\n{"a":[1.5]}\n', "line 2: it has a value that no dtype has"),
        ("no line", "\n", "there is no row that shows a dtype"),
    ):
        pathlib.Path(lines).write_text(data)
        before = sorted(os.listdir(folder))
        found, printed, err = run("import", lines, out)
        told[(f"import: {what}", found, cause_of(err, lines))] += 1
        if (found, printed) != (2, "") or cause not in err or sorted(os.listdir(folder)) != before:
            bad.append(("import", what, found, printed[:80], err[:200], os.listdir(folder)))
    taken, rows = os.path.join(folder, "taken"), os.path.join(folder, "rows.csv")
    os.mkdir(taken)
    for what, words, status in (
        ("no input", (os.path.join(folder, "none.csv"), out), 5),
        ("a directory for an input", (folder, out), 6),
        ("a folder that is not there", (rows, os.path.join(folder, "none", "out.sib")), 6),
        ("a directory where the file should stand", (rows, taken), 6),
    ):
        before = sorted(os.listdir(folder))
        found, printed, err = run("import", *words, "--dtype", DTYPE)
        told[(f"import: {what}", found, cause_of(err, words[1] if found == 6 and words[0] != folder else words[0]))] += 1
        if (found, printed) != (status, "") or not err.startswith("sib: ") or sorted(os.listdir(folder)) != before:
            bad.append(("import", what, found, printed[:80], err[:200], os.listdir(folder)))
    with open("/dev/full", "w") as full:
        done = subprocess.run([PROGRAM, "scan", os.path.join(folder, "good.sib")], stdout=full, stderr=subprocess.PIPE, text=True, timeout=60)
    told[("scan: an output that takes nothing", done.returncode, cause_of(done.stderr, "/dev/full"))] += 1
    if done.returncode != 6:
        bad.append(("an output that takes nothing", done.returncode, done.stderr[:200]))


def main():
    told = collections.Counter()
    with tempfile.TemporaryDirectory() as folder:
        source, good, path = (os.path.join(folder, name) for name in ("rows.csv", "good.sib", "bad.sib"))
        pathlib.Path(source).write_text(CSV)
        status, _, err = run("import", source, good, "--dtype", DTYPE, "--rows", "2")
        assert status == 0, err
        data = pathlib.Path(good).read_bytes()
        status, right, err = scanned(good, "--check")
        assert status == 0 and len(right.splitlines()) == 3, err
        assert run("verify", good)[0] == 0
        for end in range(len(data)):
            pathlib.Path(path).write_bytes(data[:end])
            look("cut", path, right, told)
        for i in range(len(data)):
            for flip in (1, 0x80, 0xFF):
                pathlib.Path(path).write_bytes(data[:i] + bytes([data[i] ^ flip]) + data[i + 1 :])
                look("a byte changed", path, right, told)
        for spelt, made in ((True, lies(data)), (False, lies_of_rows(data))):
            for name, lie in made:
                pathlib.Path(path).write_bytes(lie)
                look(name, path, right, told, spelt)
        pathlib.Path(path).write_bytes(b"")
        look("an empty file", path, right, told)
        for name, other in (("a directory", folder), ("no file", os.path.join(folder, "none")), ("a device", "/dev/zero")):
            look(name, other, right, told)
        inputs(folder, told)
        while_read(folder, told)
    width = max(len(key[0]) for key in told)
    for (what, status, cause), count in sorted(told.items()):
        print(f"{what:{width}}  status {status}  {count:6}  {cause}")
    for one in bad:
        print("not as it should be:", *one, sep="  ")
    return 1 if bad else 0


if __name__ == "__main__":
    sys.exit(main())
