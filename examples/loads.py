"""Loads made-up CSV files with the program, and compares the blocks with a second reading of the rules.

    python3 examples/loads.py [--files N] [--seed S] PROGRAM [WORDS]

The rules are those of docs/FORMATS.md, "Loaded files" and "Picks", written here once more in Python over
Python's own `csv` module, which gives the records. Each file is loaded once, with types, a repair and
picks that are drawn for it. `.ci/run` leaves it out. The last line is `N passed, M failed`, and the
status is 1 where a block differs.
"""
import csv
import io
import json
import os
import random
import subprocess
import sys
import tempfile

SECONDS = 120
TYPES = ["bool", "int", "fixed", "text"]
ZEROS = {"bool": False, "int": 0, "fixed": 0, "text": b""}


# ---- values

def read_int(text):
    body = text[1:] if text[:1] in (b"+", b"-") else text
    if not body or not body.isdigit():
        return None
    number = int(text)
    return number if -2**63 <= number < 2**63 else None


def read_fixed(text):
    body = text[1:] if text[:1] in (b"+", b"-") else text
    whole, point, part = body.partition(b".")
    if not whole.isdigit() or (point and (not part.isdigit() or len(part) > 4)):
        return None
    count = int(whole) * 10000 + int(part.ljust(4, b"0") or b"0")
    count = -count if text[:1] == b"-" else count
    return count if -2**63 <= count < 2**63 else None


def read_bool(text):
    return {b"true": True, b"false": False}.get(text.lower())


def read_text(text):
    try:
        text.decode("utf-8")
        return text
    except UnicodeDecodeError:
        return None


READERS = {"bool": read_bool, "int": read_int, "fixed": read_fixed, "text": read_text}


def quoted(text):
    out = b'"'
    for byte in text:
        plain = {34: b'\\"', 92: b"\\\\", 10: b"\\n", 13: b"\\r", 9: b"\\t"}.get(byte)
        out += plain or (b"\\u00%02x" % byte if byte < 32 else bytes([byte]))
    return out + b'"'


def literal(kind, value):
    if value is None:
        return b"null"
    if kind == "bool":
        return b"true" if value else b"false"
    if kind == "int":
        return b"%d" % value
    if kind == "text":
        return quoted(value)
    return b"%s%d.%04d" % (b"-" if value < 0 else b"", abs(value) // 10000, abs(value) % 10000)


# ---- the load

def column_name(field, taken):
    name = b""
    for byte in field.lower():
        name += bytes([byte]) if chr(byte).isalnum() and byte < 128 else b"_"
    while b"__" in name:
        name = name.replace(b"__", b"_")
    name = name.strip(b"_")[:24].rstrip(b"_") or b"c"
    if name[:1].isdigit():
        name = b"c_" + name
    free, number = name, 2
    while free in taken:
        free, number = b"%s_%d" % (name, number), number + 1
    return free


def guessed(fields):
    filled = [field.strip(b" ") for field in fields if field is not None and field.strip(b" ")]
    for kind in ("int", "fixed", "bool"):
        readable = sum(READERS[kind](field) is not None for field in filled)
        if filled and 10 * readable >= 9 * len(filled):
            return kind
    return "text"


def own_value(kind, field):
    """Whether a field can be read as the type, and its value."""
    if field is None:
        return False, None
    if kind != "text":
        field = field.strip(b" ")
        if not field:
            return True, None
    value = READERS[kind](field)
    return value is not None, value


def picked(kind, pick):
    """Whether a pick fits the type, and its value."""
    if pick is None:
        return True, None
    if isinstance(pick, bool):
        return kind == "bool", pick
    if isinstance(pick, int):
        fits = kind == "int" or kind == "fixed" and -2**63 <= pick * 10000 < 2**63
        return fits, pick * 10000 if kind == "fixed" else pick
    if isinstance(pick, str):
        return kind == "text", pick.encode()
    return kind == "fixed", read_fixed(pick["fixed"].encode())


def block(data, types, repair, picks):
    """The block of the load `t` of a file, as cell 1 of version 1."""
    if data.startswith(b"\xef\xbb\xbf"):
        data = data[3:]
    rows = csv.reader(io.StringIO(data.decode("latin-1"), newline=""))
    records = [[field.encode("latin-1") for field in row] for row in rows if row]
    if not records:
        return b"version 1 main\ncell 1 #1 error NoHeader\nend 1\n"
    header, records = records[0], records[1:]
    names, kinds = [], []
    for at, field in enumerate(header):
        names.append(column_name(field, names))
        declared = types[at] if types and at < len(types) else "guess"
        fields = [record[at] if at < len(record) else None for record in records]
        kinds.append(guessed(fields) if declared == "guess" else declared)
    out, is_open = [], False
    for number, record in enumerate(records, 1):
        surplus = len(record) > len(header)
        is_open = is_open or surplus
        if surplus and picks.get((number, None)) is False:
            continue
        values = []
        for at, kind in enumerate(kinds):
            readable, value = own_value(kind, record[at] if at < len(record) else None)
            if not readable:
                value = ZEROS[kind] if repair == "zero" else None
                if (number, at + 1) in picks:
                    fits, pick = picked(kind, picks[(number, at + 1)])
                    value = pick if fits else value
            values.append((b"" if readable else b"~") + literal(kind, value))
        out.append(b"  %s#%d: %s\n" % (b"?" if surplus else b"", number, b", ".join(values)))
    columns = b", ".join(b"%s %s" % (name, kind.encode()) for name, kind in zip(names, kinds))
    return (b"version 1 main\ncell 1 #1 ok\ndataset t%s\n  columns %s\n%send 1\n"
            % (b" open" if is_open else b"", columns, b"".join(out)))


# ---- made-up files

def some_field(draw):
    kind = draw.randrange(9)
    if kind < 3:
        return b"%d" % draw.randrange(-1000, 1000)
    if kind == 3:
        return b"%d.%d" % (draw.randrange(-99, 99), draw.randrange(100000))
    if kind == 4:
        return draw.choice([b"true", b"False", b"TRUE", b"yes"])
    if kind == 5:
        return b" " * draw.randrange(3) + b"%d" % draw.randrange(100) + b" " * draw.randrange(3)
    if kind == 6:
        return draw.choice([b"", b" ", b"   ", b"\xff\xfe", "été".encode(), b"9223372036854775808"])
    return bytes(draw.choice(b'abz "\n,\\\t_') for _ in range(draw.randrange(6)))


def written(field, draw):
    if any(byte in b'",\r\n' for byte in field) or draw.randrange(5) == 0:
        return b'"' + field.replace(b'"', b'""') + b'"'
    return field


def some_file(draw):
    width = draw.randrange(2, 7)
    flavour = [draw.randrange(3) for _ in range(width)]
    plain = [lambda: b"%d" % draw.randrange(500), lambda: b"%d.5" % draw.randrange(50), lambda: b"true"]
    end = draw.choice([b"\n", b"\r\n"])
    lines = [[some_field(draw) or b"x" for _ in range(width)]]
    for _ in range(draw.randrange(25)):
        more = draw.choice([0, 0, 0, 0, 0, 1, 2, -1])
        fields = [plain[kind]() if draw.randrange(8) else some_field(draw) for kind in flavour]
        fields = fields[:width + more] + [some_field(draw) for _ in range(more)]
        lines.append(fields if len(fields) > 1 or fields[0] else [b"x"])
    text = end.join(b",".join(written(field, draw) for field in line) for line in lines)
    text += draw.choice([b"", end])
    return draw.choice([b"", b"", b"", b"\xef\xbb\xbf"]) + text, width, len(lines) - 1


def some_picks(draw, width, count):
    picks = {}
    for _ in range(draw.randrange(4)):
        number = draw.randrange(1, max(2, count + 1))
        if draw.randrange(3) == 0:
            picks[(number, None)] = draw.randrange(2) == 0
        else:
            value = draw.choice([None, True, 7, -3, "text", {"fixed": "2.5"}, 2**62])
            picks[(number, draw.randrange(1, width + 1))] = value
    return picks


def line_of_pick(place, value):
    number, column = place
    pick = {"cell": 1, "record": number}
    pick.update({"keep": value} if column is None else {"column": column, "value": value})
    return json.dumps(pick).encode() + b"\n"


def compare(command, draw, place):
    data, width, count = some_file(draw)
    types = draw.choice([None, [draw.choice(TYPES + ["guess"]) for _ in range(draw.randrange(width + 1))]])
    repair = draw.choice(["null", "zero"])
    picks = some_picks(draw, width, count)
    cell = {"load": "t", "file": "f.csv", "repair": repair}
    if types is not None:
        cell["types"] = types
    with open(os.path.join(place, "f.csv"), "wb") as file:
        file.write(data)
    with open(os.path.join(place, "k"), "wb") as file:
        file.write(b"".join(line_of_pick(at, value) for at, value in picks.items()))
    line = json.dumps({"edit": "append", "branch": "main", "cell": cell}).encode()
    run = subprocess.run(command + ["serial", "--picks", "k"], input=line, cwd=place,
                         stdout=subprocess.PIPE, stderr=subprocess.PIPE, timeout=SECONDS)
    wanted = block(data, types, repair, picks)
    if run.returncode == 0 and run.stdout == wanted:
        return True
    print(f"the file {data!r}\nwith the line {line.decode()}\nand the picks {picks}\nis wanted as")
    print(wanted.decode("utf-8", "backslashreplace") + f"and came with status {run.returncode} as")
    print(run.stdout.decode("utf-8", "backslashreplace"))
    return False


def main(words):
    files, seed = 1000, 1
    while words[:1] and words[0] in ("--files", "--seed"):
        files, seed = (int(words[1]), seed) if words[0] == "--files" else (files, int(words[1]))
        words = words[2:]
    if not words:
        sys.exit(__doc__)
    command = [os.path.abspath(words[0])] + words[1:]
    draw = random.Random(seed)
    with tempfile.TemporaryDirectory() as place:
        passed = sum(compare(command, draw, place) for _ in range(files))
    print(f"{passed} passed, {files - passed} failed")
    sys.exit(0 if passed == files else 1)


if __name__ == "__main__":
    main(sys.argv[1:])
