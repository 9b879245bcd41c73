#!/usr/bin/env python3
"""Holds manifests against the schema in docs/, and the schema and the examples against the program.

  check.py FILE..      says where each manifest leaves the form
  check.py --why FILE.. says that, and of one that keeps the form where its request does not type, a layout or
                       segment does not fit, or a sum overflows (why.py)
  check.py             the cases of crates/siblaguur_examples/data/runs.txt against the schema and their statuses, and the schema
                       against the texts that the manifest's reader takes or refuses (texts.txt beside it)
  check.py --case WORDS.. the manifest of the first case of runs.txt whose words begin so, with all names written out
  check.py --run       the same as without a word, and the program on each case: its status and its lines
  check.py --variants  the program on some hundred manifests that are made wrong in one place:
                       it has status 2 exactly where the schema refuses, and the others' status is why.py's
                       where no order of polls decides it

The last two build the program once by `rt try`, in about a minute. wrong.py tries --why on manifests that it makes wrong. Needs
python3.8 alone.
"""
import functools
import json
import re
import subprocess
import sys
import tempfile
from pathlib import Path
from typing import NamedTuple

from why import why_refused

HERE = Path(__file__).resolve().parent
DATA = HERE.parent / "crates" / "siblaguur_examples" / "data"
DOCS = HERE.parent / "docs"
FORM = json.loads((DOCS / "manifest.schema.json").read_text())


# ---- JSON as the program reads it

class NoNumber:
    """What stands where the form has no such number, and why."""

    def __init__(self, text, why):
        self.text, self.why = text, why


def read(data):
    """The JSON value; a ValueError tells the place of a number that the form has not."""
    found = []

    def no_number(text, why="a number has no fraction and no exponent"):
        found.append(NoNumber(text, why))
        return found[-1]

    def whole(text):
        is_one = text != "-0" and -2**63 <= int(text) < 2**64
        return int(text) if is_one else no_number(text, "it is -0, or past 64 bits")

    value = json.loads(data.decode("utf-8"), parse_int=whole, parse_float=no_number, parse_constant=no_number)
    if nesting(value) > 127:
        raise ValueError("more than 127 arrays and objects stand in one another")
    for part, place in walk(value) if found else ():
        if isinstance(part, NoNumber):
            raise ValueError(f"{place} is {part.text}: {part.why}")
    if found:  # under a key that stands again behind it
        raise ValueError(f"{found[0].text}: {found[0].why}")
    return value


def nesting(value):
    """How many arrays and objects stand in one another."""
    parts = value.values() if isinstance(value, dict) else value if isinstance(value, list) else None
    return 0 if parts is None else 1 + max(map(nesting, parts), default=0)


# ---- a validator for the words that the schema uses: the first place that does not fit, or None

KINDS = {
    "null": lambda v: v is None,
    "boolean": lambda v: isinstance(v, bool),
    "integer": lambda v: isinstance(v, int) and not isinstance(v, bool),
    "string": lambda v: isinstance(v, str),
    "array": lambda v: isinstance(v, list),
    "object": lambda v: isinstance(v, dict),
}


def same(a, b):
    return type(a) is type(b) and a == b


def fault(schema, value, root, place="$"):
    """(place, why) of the first fault."""
    if schema is True:
        return None
    if schema is False:
        return place, "is not allowed here"
    for word, arg in schema.items():
        found = WORDS[word](arg, value, root, place, schema) if word in WORDS else None
        if found:
            return found
    return None


def resolved(ref, root):
    schema = root
    for part in ref.lstrip("#/").split("/"):
        schema = schema[part]
    return schema


def check_ref(ref, value, root, place, _):
    return fault(resolved(ref, root), value, root, place)


def check_type(kinds, value, root, place, _):
    kinds = kinds if isinstance(kinds, list) else [kinds]
    return None if any(KINDS[k](value) for k in kinds) else (place, f"is no {' or '.join(kinds)}")


def keys_known(branch, value, root):
    schema = resolved(branch["$ref"], root) if "$ref" in branch else branch
    return len(schema.get("properties", {}).keys() & value) if isinstance(value, dict) else 0


def check_any(branches, value, root, place, _):
    faults = [fault(b, value, root, place) for b in branches]
    if None in faults:
        return None
    known = [keys_known(b, value, root) for b in branches]
    return max(zip(known, faults), key=lambda f: (f[0], len(f[1][0])))[1]  # the branch with most of its keys, that went furthest


def check_items(schema, value, root, place, around):
    if not isinstance(value, list):
        return None
    for i in range(len(around.get("prefixItems", [])), len(value)):
        found = fault(schema, value[i], root, f"{place}[{i}]")
        if found:
            return found
    return None


def check_prefix(schemas, value, root, place, _):
    if not isinstance(value, list):
        return None
    for i, (schema, item) in enumerate(zip(schemas, value)):
        found = fault(schema, item, root, f"{place}[{i}]")
        if found:
            return found
    return None


def check_properties(schemas, value, root, place, _):
    if not isinstance(value, dict):
        return None
    for key, item in value.items():
        found = fault(schemas[key], item, root, f"{place}.{key}") if key in schemas else None
        if found:
            return found
    return None


def check_additional(allowed, value, root, place, around):
    assert allowed is False
    more = [k for k in value if k not in around["properties"]] if isinstance(value, dict) else []
    return (f"{place}.{more[0]}", "is no key of this form") if more else None


def check_required(keys, value, root, place, _):
    missing = [k for k in keys if k not in value] if isinstance(value, dict) else []
    return (place, f"lacks {json.dumps(missing[0])}") if missing else None


def check_unique(wanted, value, root, place, _):
    twice = isinstance(value, list) and len({json.dumps(v) for v in value}) < len(value)
    return (place, "has an item twice") if wanted and twice else None


def on(kind, test, why):
    return lambda arg, value, root, place, _: (place, why(arg)) if KINDS[kind](value) and not test(arg, value) else None


WORDS = {
    "$ref": check_ref,
    "type": check_type,
    "anyOf": check_any,
    "not": lambda s, v, root, place, _: None if fault(s, v, root, place) else (place, f"has {' and '.join(s['required'])}, of which one may stand"),
    "const": lambda c, v, root, place, _: None if same(c, v) else (place, f"is not {json.dumps(c)}"),
    "enum": lambda cs, v, root, place, _: None if any(same(c, v) for c in cs) else (place, f"is none of {cs}"),
    "items": check_items,
    "prefixItems": check_prefix,
    "uniqueItems": check_unique,
    "properties": check_properties,
    "additionalProperties": check_additional,
    "required": check_required,
    "minItems": on("array", lambda n, v: len(v) >= n, lambda n: f"has fewer items than {n}"),
    "maxItems": on("array", lambda n, v: len(v) <= n, lambda n: f"has more items than {n}"),
    "minProperties": on("object", lambda n, v: len(v) >= n, lambda n: f"has fewer keys than {n}"),
    "maxProperties": on("object", lambda n, v: len(v) <= n, lambda n: f"has more keys than {n}"),
    "minimum": on("integer", lambda n, v: v >= n, lambda n: f"is below {n}"),
    "maximum": on("integer", lambda n, v: v <= n, lambda n: f"is above {n}"),
    "pattern": on("string", lambda p, v: re.fullmatch(p.strip("^$"), v), lambda p: f"does not match {p}"),
}
PLAIN = {"$schema", "$defs", "title", "description"}


def unknown_words(schema):
    """Words of a schema that this validator does not know."""
    if isinstance(schema, list):
        return [w for s in schema for w in unknown_words(s)]
    if not isinstance(schema, dict):
        return []
    found = [w for w in schema if w not in WORDS and w not in PLAIN]
    for word, arg in schema.items():
        if word in ("properties", "$defs"):
            found += unknown_words(list(arg.values()))
        elif word not in ("enum", "const"):
            found += unknown_words(arg)
    return found


# ---- what a schema can't say

def depth(dtype):
    if isinstance(dtype, str):
        return 1
    inner = [dtype["list"]] if "list" in dtype else [d for _, d in dtype["struct"]]
    return 1 + max(map(depth, inner), default=0)


def walk(value, place="$"):
    yield value, place
    items = value.items() if isinstance(value, dict) else enumerate(value) if isinstance(value, list) else ()
    for key, item in items:
        yield from walk(item, f"{place}.{key}" if isinstance(value, dict) else f"{place}[{key}]")


def beyond(manifest):
    for value, place in walk(manifest):
        if re.search(r"\.(fail|pending|include|exclude)$", place) and all(KINDS["integer"](v) for v in value):
            if value != sorted(set(value)):
                return place, "does not rise"
        if re.search(r"\.(dtype|type)$", place) and depth(value) > 66:
            return place, "is a dtype deeper than 66"
    segments = {}
    for i, file in enumerate(manifest["files"]):
        own = {id: bytes.fromhex(text) for id, text in file["segments"]}
        if len(own) < len(file["segments"]):
            return f"$.files[{i}].segments", "has an id twice"
        if segments.setdefault(file["id"], own) != own:
            return f"$.files[{i}].segments", "differs from that of a file of the same id"
    return None


def judge(data):
    """Why these bytes are no manifest and are refused by status 2, or None."""
    try:
        manifest = read(data)
    except (ValueError, RecursionError) as e:
        return f"no JSON of the form: {e}"
    at = fault(FORM, manifest, FORM) or beyond(manifest)
    return at and f"no manifest: {at[0]} {at[1]}"


def explain(data):
    """Which status these bytes have and why, at which place, or that rows come."""
    form = judge(data)
    if form:
        return f"status 2: {form}"
    refused = why_refused(read(data))
    return "status {}: {} {}".format(*refused) if refused else "status 0: rows come"


def is_sure(data):
    """Whether no order of polls decides which of several faults the program tells, or whether it comes to one."""
    text = data.decode(errors="replace")
    return '"ordered": false' not in text and '"fail"' not in text


# ---- the cases and texts that the gate runs

class Case(NamedTuple):
    """What is wanted of a run on some words and an input, with one worker; `how` is of its lines."""
    status: int
    words: str
    how: str
    shows: str
    given: str
    lines: str


def blocks(name):
    """The blocks of a file of data/ that are not for a reader."""
    return [block for block in (DATA / name).read_text().rstrip().split("\n\n") if not block.startswith("#")]


def cases():
    names, *rest = blocks("runs.txt")
    for block in rest:
        head, _, block = block.partition("\n")
        status, words, how, shows = head.split("; ", 3)
        for name, text in (line.split(" ", 1) for line in names.splitlines()):
            block = block.replace(name, text)
        given, _, lines = block.replace("<each>", "1").partition("\n")
        yield Case(int(status), words, how, shows, given, lines and lines + "\n")


def scans():
    return [case for case in cases() if case.words == "scan"]


def reader_rows():
    """Texts of whole manifests, and whether the reader takes each."""
    for block in blocks("texts.txt"):
        head, *lines = block.splitlines()
        kind, _, around = head.partition("; ")
        for text, taken in (line.split(" -> ") for line in lines if kind == "manifest"):
            text = re.sub(r"«(.*?)\*(\d+)»", lambda part: part[1] * int(part[2]), text)
            yield around.replace("@", text, 1), taken == "yes"


# ---- against jsonschema, where it is installed

@functools.lru_cache(None)
def other_validator():
    """That of jsonschema, where it is installed."""
    try:
        from jsonschema import Draft202012Validator
    except ImportError:
        return None
    Draft202012Validator.check_schema(FORM)
    return Draft202012Validator(FORM)


def agrees_with_jsonschema(data):
    try:
        manifest = read(data)
    except (ValueError, RecursionError):
        return True
    if other_validator() is None or nesting(manifest) > 20:  # it takes twice as long for each level of an expression
        return True
    return other_validator().is_valid(manifest) == (fault(FORM, manifest, FORM) is None)


# ---- the program

def run(folder):
    """The status of each case of a folder, and whether all lines are the wanted ones."""
    words = ["rt", "try", "--cases", str(folder), "--", "scan"]
    crate = HERE.parent / "crates" / "siblaguur"
    done = subprocess.run(words, cwd=crate, stdout=subprocess.PIPE, stderr=subprocess.STDOUT, text=True)
    statuses = dict(re.findall(r"^case=(\S+) run=ended status=(\d+)", done.stdout, re.M))
    if not statuses or done.returncode:
        print(done.stdout)
    return {name: int(status) for name, status in statuses.items()}, done.returncode == 0


def changed(value):
    """A value with one part taken away, replaced or added, each in turn."""
    for other in (None, 0, 2, -1, 2**64, "x", "$", "i32?", "00", [], {}, [0], True):
        if not same(other, value):
            yield other
    if isinstance(value, dict):
        yield {**value, "more": 1}
        for key in value:
            yield {k: v for k, v in value.items() if k != key}
            for item in changed(value[key]):
                yield {**value, key: item}
    if isinstance(value, list):
        yield value + [1]
        for i in range(len(value)):
            yield value[:i] + value[i + 1:]
            for item in changed(value[i]):
                yield value[:i] + [item] + value[i + 1:]


def variants(most):
    """Evenly many of all changes of each case that is a manifest."""
    found = {}
    for case in scans():
        try:
            base = read(case.given.encode())
        except (ValueError, RecursionError):
            continue
        for manifest in changed(base):
            found.setdefault(json.dumps(manifest), None)
    texts = list(found)
    return [t.encode() for t in texts[::max(1, len(texts) // most)]]


def run_cases():
    """What is bad of the program on each case whose lines have an order."""
    with tempfile.TemporaryDirectory() as folder:
        tried = {f"c{at}": case for at, case in enumerate(scans()) if not case.how}
        for name, case in tried.items():
            (Path(folder) / name).write_text(case.given)
            (Path(folder) / f"{name}.stdout").write_text(case.lines)
        statuses, right = run(folder)
    bad = [] if right else ["the program wrote other lines"]
    found = [(case, statuses.get(name)) for name, case in tried.items()]
    return bad + [f"{case.shows}: wanted status {case.status}, found {status}" for case, status in found if status != case.status]


def check_case(case):
    """What the schema and why.py say of a case that is not so."""
    data = case.given.encode()
    why, told = judge(data), explain(data)
    if (why is not None) != (case.status == 2):
        yield f"{case.shows}: wanted status {case.status}, and the schema says: {why}"
    if not agrees_with_jsonschema(data):
        yield f"{case.shows}: jsonschema judges otherwise"
    if not told.startswith(f"status {case.status}: "):
        yield f"{case.shows}: wanted status {case.status}, and why.py says: {told}"


def main(words):
    bad = []
    unknown = unknown_words(FORM)
    if unknown:
        bad.append(f"the schema uses words that are not known here: {unknown}")
    if words and (words[0] == "--why" or not words[0].startswith("--")):
        is_why = words[0] == "--why"
        for word in words[is_why:]:
            print(f"{word}: {explain(Path(word).read_bytes()) if is_why else judge(Path(word).read_bytes()) or 'a manifest'}")
        return 0
    if words and words[0] == "--case":
        print(next(case.given for case in cases() if case.shows.startswith(" ".join(words[1:]))))
        return 0
    tried = scans()
    bad += [told for case in tried for told in check_case(case)]
    rows = list(reader_rows())
    bad += [f"the reader says {taken} of: {text}" for text, taken in rows if (judge(text.encode()) is None) != taken]
    bad += [f"jsonschema judges otherwise: {text}" for text, _ in rows if not agrees_with_jsonschema(text.encode())]
    bad += run_cases() if "--run" in words else []
    if "--variants" in words:
        with tempfile.TemporaryDirectory() as folder:
            texts = variants(400)
            for i, text in enumerate(texts):
                (Path(folder) / f"v{i}").write_bytes(text)
            statuses, _ = run(folder)
            for i, text in enumerate(texts):
                why, status = judge(text), statuses.get(f"v{i}")
                if (why is not None) != (status == 2) or not agrees_with_jsonschema(text):
                    bad.append(f"status {status}, and the schemas say: {why}: {text.decode()}")
                elif is_sure(text) and not explain(text).startswith(f"status {status}: "):
                    bad.append(f"status {status}, and why.py says: {explain(text)}: {text.decode()}")
            print(f"{len(texts)} variants, {sum(s == 2 for s in statuses.values())} of them refused by status 2")
    print("\n".join(bad) or f"{len(tried)} cases and {len(rows)} texts of the reader agree")
    return 1 if bad else 0


if __name__ == "__main__":
    sys.exit(main(sys.argv[1:]))
