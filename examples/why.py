"""Where a manifest that keeps the form is refused all the same: why_refused(manifest) gives the status (3, 4 or 5), the place and
the cause of the first thing that is wrong, or None where rows come. check.py --why prints it.

It types the request over the dtype, holds each file's layout against the dtype, and evaluates filter and projection row by row,
reading a segment when a row of it is needed. It does not follow polls, so of several things that are wrong the program may tell
another; that a poll fails is told wherever a script says so.
"""
import json

RANGES = {f"{sign}{bits}": (0, 2**bits - 1) if sign == "u" else (-2**(bits - 1), 2**(bits - 1) - 1)
          for sign in "ui" for bits in (8, 16, 32, 64)}
DEEPEST, DEEPEST_EXPRESSION = 64, 100


class Refused(Exception):
    """A status, a place and a cause."""


def refuse(status, place, cause):
    raise Refused(status, place, cause)


# ---- dtypes, as (kind, nullable, inner)

def dtype_of(form):
    if isinstance(form, str):
        return form.rstrip("?"), form.endswith("?"), None
    nullable = form.get("nullable", False)
    if "list" in form:
        return "list", nullable, dtype_of(form["list"])
    return "struct", nullable, [(name, dtype_of(inner)) for name, inner in form["struct"]]


def said(dtype):
    kind, nullable, inner = dtype
    mark = "?" if nullable else ""
    if kind == "list":
        return f"list of {said(inner)}{mark}"
    if kind == "struct":
        return "struct{" + ", ".join(f"{name} {said(field)}" for name, field in inner) + "}" + mark
    return kind + mark


def nullable_if(dtype, nullable):
    return dtype[0], dtype[1] or nullable, dtype[2]


def check_once(names, place, is_scope):
    for at, name in enumerate(names):
        if is_scope and name == "#validity":
            refuse(3, f"{place}[{at}]", "the name #validity is kept for the nulls of a struct")
        if name in names[:at]:
            refuse(3, f"{place}[{at}]", f"the name {name!r} stands twice")


def check_scope(dtype, place, depth=1):
    kind, _, inner = dtype
    if depth > DEEPEST:
        refuse(3, place, f"is deeper than {DEEPEST}")
    if kind == "list":
        check_scope(inner, f"{place}.list", depth + 1)
    if kind == "struct":
        check_once([name for name, _ in inner], f"{place}.struct", True)
        for at, (_, field) in enumerate(inner):
            check_scope(field, f"{place}.struct[{at}][1]", depth + 1)


# ---- the type of an expression over a dtype

def field_type(dtype, name, place):
    if dtype[0] != "struct":
        refuse(3, place, f"{said(dtype)} is no struct, so it has no field {name!r}")
    for own, field in dtype[2]:
        if own == name:
            return nullable_if(field, dtype[1])
    refuse(3, place, f"no field {name!r} in {said(dtype)}")


def literal_type(form, place):
    dtype, value = dtype_of(form["type"]), form["lit"]
    kind, nullable, _ = dtype
    fits = {"bool": isinstance(value, bool), "utf8": isinstance(value, str)}.get(kind, False)
    if kind in RANGES and isinstance(value, int) and not isinstance(value, bool):
        fits = RANGES[kind][0] <= value <= RANGES[kind][1]
    is_scalar = kind in RANGES or kind in ("bool", "utf8")
    if not (nullable and is_scalar if value is None else fits):
        refuse(3, f"{place}.lit", f"{json.dumps(value)} is no {said(dtype)}")
    return dtype


def chosen_type(op, names, dtype, place):
    check_once(names, f"{place}[0]", False)
    if dtype[0] != "struct":
        refuse(3, f"{place}[1]", f"{said(dtype)} is no struct")
    plain = ("struct", False, dtype[2])
    chosen = [(name, field_type(plain, name, f"{place}[0][{at}]")) for at, name in enumerate(names)]
    if op == "exclude":
        chosen = [field for field in dtype[2] if field[0] not in names]
    return "struct", dtype[1], chosen


def one_type(op, dtype, place):
    kind, nullable, _ = dtype
    if op == "not":
        return dtype if kind == "bool" else refuse(3, place, f"{said(dtype)} is no bool")
    if op == "list_length":
        return ("u64", nullable, None) if kind == "list" else refuse(3, place, f"{said(dtype)} is no list")
    return "bool", False, None


def two_type(op, first, second, place):
    nullable = first[1] or second[1]
    if op == "mask":
        if second[:2] != ("bool", False):
            refuse(3, f"{place}[1]", f"{said(second)} is no bool without nulls, as a mask has to be")
        return nullable_if(first, True)
    if op in ("and", "or"):
        for at, dtype in enumerate((first, second)):
            if dtype[0] != "bool":
                refuse(3, f"{place}[{at}]", f"{said(dtype)} is no bool")
        return "bool", nullable, None
    is_sum = op in ("add", "sub")
    if first[0] != second[0] or first[0] in ("list", "struct") or (is_sum and first[0] not in RANGES):
        wanted = "one integer type" if is_sum else "bool, of utf8 or of one integer type"
        refuse(3, place, f"{said(first)} and {said(second)}: both have to be of {wanted}")
    return first[0] if is_sum else "bool", nullable, None


def check_depth(form, place, depth=1):
    """An expression is no deeper than it may be."""
    if depth > DEEPEST_EXPRESSION:
        refuse(3, place, f"is deeper than {DEEPEST_EXPRESSION}")
    if isinstance(form, dict) and "lit" not in form:
        op, args = operator(form)
        parts = [part for _, part in args] if op == "pack" else args[1:] if op in ("get", "select", "exclude") else args
        for part in parts if isinstance(parts, list) else [parts]:
            check_depth(part, place, depth + 1)


def operator(form):
    return next((key, value) for key, value in form.items() if key != "nullable")


def type_of(form, root, place):
    if form == "$":
        return root
    if form == "#row_idx":
        return "u64", False, None
    if "lit" in form:
        return literal_type(form, place)
    op, args = operator(form)
    here = f"{place}.{op}"
    if op == "get":
        return field_type(type_of(args[1], root, f"{here}[1]"), args[0], f"{here}[0]")
    if op in ("select", "exclude"):
        return chosen_type(op, args[0], type_of(args[1], root, f"{here}[1]"), here)
    if op == "pack":
        parts = [(name, type_of(part, root, f"{here}[{at}][1]")) for at, (name, part) in enumerate(args)]
        check_once([name for name, _ in parts], here, True)
        return "struct", form.get("nullable", False), parts
    if op in ("not", "is_null", "is_not_null", "list_length"):
        return one_type(op, type_of(args, root, here), here)
    return two_type(op, type_of(args[0], root, f"{here}[0]"), type_of(args[1], root, f"{here}[1]"), here)


# ---- the values of a layout

def flags_of(part, rows, spelling, what, place, there=None):
    """Truth values; in bytes, those of rows that are not there are ignored."""
    if spelling == 1:
        if any(byte > 1 for byte, is_there in zip(part, there or [True] * rows) if is_there):
            refuse(4, place, f"has a {what} that is neither 00 nor 01")
        return [byte == 1 for byte in part]
    if part and rows % 8 and part[-1] >> rows % 8:
        refuse(4, place, f"has a bit behind its last {what}")
    return [part[row // 8] >> row % 8 & 1 == 1 for row in range(rows)]


def texts_of(data, there, place):
    values, at = [], 0
    for row, is_there in enumerate(there):
        head, start = data[at:at + 4], at + 4
        at = start + int.from_bytes(head, "little")
        if len(head) < 4 or at > len(data):
            refuse(4, place, f"ends before the text of its row {row}")
        try:
            values.append(data[start:at].decode() if is_there else None)
        except UnicodeDecodeError:
            refuse(4, place, f"the text of its row {row} is no UTF-8")
    if at != len(data):
        refuse(4, place, f"has {len(data) - at} bytes behind its texts")
    return values


def segment_values(dtype, rows, spelling, data, place):
    kind, nullable, _ = dtype
    flags = rows if spelling == 1 else (rows + 7) // 8
    head = flags if nullable else 0
    if kind != "utf8":
        width = flags if kind == "bool" else rows * int(kind[1:]) // 8
        if len(data) != head + width:
            refuse(4, place, f"has {len(data)} bytes, and {rows} rows of {said(dtype)} in spelling {spelling} have {head + width}")
    there = flags_of(data[:head], rows, spelling, "flag", place) if nullable else [True] * rows
    if len(data) < head:
        refuse(4, place, f"has {len(data)} bytes, fewer than its flags")
    data = data[head:]
    if kind == "utf8":
        return texts_of(data, there, place)
    if kind == "bool":
        values = flags_of(data, rows, spelling, "bool", place, there)
    else:
        width = int(kind[1:]) // 8
        values = [int.from_bytes(data[k:k + width], "little", signed=kind[0] == "i") for k in range(0, len(data), width)]
    return [value if is_there else None for value, is_there in zip(values, there)]


class Leaf:
    """A column of a leaf, each of whose segments is read when one of its rows is."""

    def __init__(self, dtype, node, segments, place):
        if dtype[0] in ("list", "struct"):
            refuse(4, place, f"is a leaf, where the dtype is {said(dtype)}")
        count = sum(rows for _, rows in node["leaf"])
        if count != node["rows"]:
            refuse(4, place, f"its segments have {count} rows, and it has {node['rows']}")
        self.dtype, self.node, self.segments, self.place, self.read_ones = dtype, node, segments, place, {}

    def read(self, row):
        start = 0
        for at, (name, count) in enumerate(self.node["leaf"]):
            if row < start + count:
                return self.segment(at, name, count)[row - start]
            start += count
        return None

    def segment(self, at, name, count):
        here = f"{self.place}.leaf[{at}]: the segment {name}"
        if at not in self.read_ones:
            if name not in self.segments:
                refuse(4, here, "is not there")
            self.read_ones[at] = segment_values(self.dtype, count, self.node.get("spelling", 1), self.segments[name], here)
        return self.read_ones[at]

    def is_null(self, row):
        return self.dtype[1] and self.read(row) is None


class Struct:
    def __init__(self, dtype, children):
        self.there = children.pop(0) if dtype[1] else None
        self.fields = {name: child for (name, _), child in zip(dtype[2], children)}

    def is_null(self, row):
        return self.there is not None and not self.there.read(row)

    def read(self, row):
        return None if self.is_null(row) else {name: field.read(row) for name, field in self.fields.items()}


class List:
    def __init__(self, dtype, children, place):
        self.elements, self.ends, self.place = children[0], children[1], place
        self.there = children[2] if dtype[1] else None
        self.elements_rows = None

    def is_null(self, row):
        return self.there is not None and not self.there.read(row)

    def span(self, row):
        start, end = self.ends.read(row), self.ends.read(row + 1)
        if start > end or (row == 0 and start):
            refuse(4, self.place, f"its offsets {row} and {row + 1} are {start} and {end}: they start at 0 and none falls")
        if end > self.elements_rows:
            refuse(4, self.place, f"its offset {row + 1} is {end}, and there are {self.elements_rows} elements")
        return start, end

    def length(self, row):
        start, end = self.span(row)
        return None if self.is_null(row) else end - start

    def read(self, row):
        start, end = self.span(row)
        return None if self.is_null(row) else [self.elements.read(at) for at in range(start, end)]


def children_of(dtype, node):
    """The dtype of each child, and its rows where they are told by the node."""
    kind, nullable, inner = dtype
    there = [(("bool", False, None), node["rows"])] if nullable else []
    if kind == "struct":
        return there + [(field, node["rows"]) for _, field in inner]
    return [(inner, None), ((node["offsets"], False, None), node["rows"] + 1)] + there


def column_of(dtype, node, segments, place):
    """The column of a layout, which has to have the dtype's form; its segments are read later."""
    if "leaf" in node:
        return Leaf(dtype, node, segments, place)
    kind = "struct" if "struct" in node else "list"
    if dtype[0] != kind:
        refuse(4, place, f"is a {kind}, where the dtype is {said(dtype)}")
    wanted, made = children_of(dtype, node), []
    if len(node[kind]) != len(wanted):
        first = ", its validity the first" if kind == "struct" and dtype[1] else ""
        refuse(4, place, f"has {len(node[kind])} children, and {said(dtype)} has {len(wanted)}{first}")
    for at, (child, (inner, rows)) in enumerate(zip(node[kind], wanted)):
        here = f"{place}.{kind}[{at}]"
        if rows is not None and child["rows"] != rows:
            refuse(4, here, f"has {child['rows']} rows, where it has to have {rows}")
        made.append(column_of(inner, child, segments, here))
    if kind == "struct":
        return Struct(dtype, made)
    lists = List(dtype, made, f"{place}.list[1]")
    lists.elements_rows = node[kind][0]["rows"]
    return lists


# ---- the value of an expression on a row

class Overflow(Exception):
    """A place and a cause."""


def sum_of(op, first, second, kind, place):
    value = first + second if op == "add" else first - second
    if not RANGES[kind][0] <= value <= RANGES[kind][1]:
        raise Overflow(place, f"{first} {'+' if op == 'add' else '-'} {second} is past {kind}")
    return value


def both_of(op, first, second):
    stops = op == "or"
    if stops in (first, second):
        return stops
    return None if None in (first, second) else not stops


def compare(op, first, second):
    if isinstance(first, str):
        first, second = first.encode(), second.encode()
    return {"eq": first == second, "ne": first != second, "lt": first < second, "le": first <= second,
            "gt": first > second, "ge": first >= second}[op]


class Cell:
    """A row of a column, of which only what is asked for is read."""

    def __init__(self, column, row):
        self.column, self.row = column, row

    def field(self, name):
        return None if self.column.is_null(self.row) else Cell(self.column.fields[name], self.row)


def read(value):
    return value.column.read(value.row) if isinstance(value, Cell) else value


def is_null(value):
    return value.column.is_null(value.row) if isinstance(value, Cell) else value is None


def field_of(value, name):
    return value.field(name) if isinstance(value, Cell) else None if value is None else value[name]


def value_of(form, cell, root, place):
    """The value of an expression that types over the dtype root, on a row: a value, or a cell that is not read yet."""
    if form in ("$", "#row_idx"):
        return cell if form == "$" else cell.row
    if "lit" in form:
        return form["lit"]
    op, args = operator(form)
    here = f"{place}.{op}"
    inner = lambda part, at: value_of(part, cell, root, f"{here}{at}")
    if op == "get":
        return field_of(inner(args[1], "[1]"), args[0])
    if op in ("select", "exclude"):
        names = [name for name, _ in type_of(args[1], root, here)[2] if name not in args[0]] if op == "exclude" else args[0]
        of = inner(args[1], "[1]")
        return None if is_null(of) else {name: read(field_of(of, name)) for name in names}
    if op == "pack":
        return {name: read(inner(part, f"[{at}][1]")) for at, (name, part) in enumerate(args)}
    if op in ("is_null", "is_not_null"):
        return is_null(inner(args, "")) == (op == "is_null")
    if op == "list_length":
        of = inner(args, "")
        return of.column.length(of.row) if isinstance(of, Cell) else None if of is None else len(of)
    if op == "not":
        of = read(inner(args, ""))
        return None if of is None else not of
    return value_of_two(op, lambda at: inner(args[at], f"[{at}]"), lambda: type_of(args[0], root, here)[0], here)


def is_damaged(part):
    """Whether a second side can't be read. One that overflows tells so, whatever the first side is."""
    try:
        read(part(1))
    except Refused:
        return True
    return False


def value_of_two(op, part, kind, place):
    if op == "mask":
        return part(0) if read(part(1)) else None
    first = read(part(0))
    if op == "and":
        return first if first is False else both_of(op, first, read(part(1)))
    if op == "or":
        return both_of(op, first, True if first is True and is_damaged(part) else read(part(1)))
    second = read(part(1))
    if first is None or second is None:
        return None
    return sum_of(op, first, second, kind(), place) if op in ("add", "sub") else compare(op, first, second)


# ---- a manifest

def check_request(manifest):
    request, root = manifest["request"], dtype_of(manifest["dtype"])
    if manifest.get("workers", 1) == 0:
        refuse(3, "$.workers", "has to be 1 at least")
    if "partitions" in request:
        refuse(3, "$.request.partitions", "a scan of files has no partitions")
    if "range" in request and request["range"][0] > request["range"][1]:
        refuse(3, "$.request.range", "starts after its end")
    check_scope(root, "$.dtype")
    check_depth(request["projection"], "$.request.projection")
    type_of(request["projection"], root, "$.request.projection")
    if "filter" in request:
        check_depth(request["filter"], "$.request.filter")
        dtype = type_of(request["filter"], root, "$.request.filter")
        if dtype[0] != "bool":
            refuse(3, "$.request.filter", f"is {said(dtype)}, and a filter is bool")
    return root


def asked_rows(request, count):
    first, end = request.get("range", [0, count])
    rows, left_out = range(first, end), set(request.get("exclude", []))
    if "include" in request:
        return (row for row in request["include"] if row in rows)
    return (row for row in rows if row not in left_out)


def passes(manifest, cell, root):
    """Whether a row passes the filter; if so, its projection is read."""
    request = manifest["request"]
    for part in ("filter", "projection"):
        if part in request:
            try:
                found = read(value_of(request[part], cell, root, f"$.request.{part}"))
            except Overflow as overflow:
                place, cause = overflow.args
                refuse(4, place, f"in row {cell.row} {cause}")
            if part == "filter" and not found:
                return False
    return True


def check_file(manifest, at, root, left):
    """How many rows the file gives, of so many that are left."""
    file, request, here = manifest["files"][at], manifest["request"], f"$.files[{at}]"
    if file.get("open", {}).get("fail"):
        refuse(5, f"{here}.open.fail", "a poll of the opener fails, if it comes to that one")
    if "dtype" in file and dtype_of(file["dtype"]) != root:
        refuse(4, f"{here}.dtype", "is another dtype than the manifest's")
    rows = file["layout"]["rows"]
    segments = {name: bytes.fromhex(text) for name, text in file["segments"]}
    column = column_of(root, file["layout"], segments, f"{here}.layout")
    if "range" in request and request["range"][1] > rows:
        refuse(4, "$.request.range", f"ends at {request['range'][1]}, and the file {at} has {rows} rows")
    given = 0
    for row in asked_rows(request, rows):
        if given == left:
            break
        given += passes(manifest, Cell(column, row), root)
    if file.get("source", {}).get("fail"):
        refuse(5, f"{here}.source.fail", "a poll of the source fails, if it comes to that one")
    return given


def why_refused(manifest):
    """(status, place, cause), or None."""
    request, left = manifest["request"], manifest["request"].get("limit")
    try:
        root, before = check_request(manifest), 0
        for at, file in enumerate(manifest["files"]):
            if file.get("skip") or left == 0:
                continue
            before += file["layout"]["rows"]
            if before >= 2**64:
                refuse(4, f"$.files[{at}].layout.rows", "with the rows of the files before it are more than a u64 counts")
            given = check_file(manifest, at, root, left)
            left = None if left is None else left - given
    except Refused as refused:
        return refused.args
    return None
