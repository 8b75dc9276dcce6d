"""Measures the program on inputs that it makes itself, and prints times, ratios and peak memory.

    python3 bench/bench.py PROGRAM [WORDS]

A time is processor time, user's and system's, of the whole process; of Python's loops that of the loop
alone. Each number is the best of several runs, and what is compared takes turns, so that what else the
machine does is in both. This process stays small, since the peak memory that the system tells of a
child is at least that of the process which started it.
"""
import os
import random
import subprocess
import sys
import tempfile
from collections import namedtuple

MB = 1_000_000
STREAM_LIMIT = 16_777_216
LINE_LIMIT = 65_536
CELLS = 40
EDITS = 200

Run = namedtuple("Run", "seconds peak")

# What Python does with the lines: its own time goes to standard output.
JSON_LOADS = """
import json, sys, time
start = time.process_time()
for line in sys.stdin.buffer:
    json.loads(line)
print(time.process_time() - start)
"""

# What Python does with a file: its own time goes to standard output.
CSV_LOADS = """
import csv, sys, time
start = time.process_time()
with open(sys.argv[1], newline="") as file:
    rows = csv.reader(file)
    next(rows)
    for row in rows:
        for at in range(0, 8, 2):
            row[at] = int(row[at])
            row[at + 1] = float(row[at + 1])
print(time.process_time() - start)
"""


# ---- runs

def run_once(command, stream, output):
    with open(stream, "rb") as source:
        process = subprocess.Popen(command, stdin=source, stdout=output)
        _, status, used = os.wait4(process.pid, 0)
    process.returncode = os.waitstatus_to_exitcode(status)
    if process.returncode != 0:
        sys.exit(f"{command} ended with status {process.returncode}")
    return Run(used.ru_utime + used.ru_stime, used.ru_maxrss * 1024 / MB)


def to_file(command, stream, path):
    with open(path, "wb") as output:
        return run_once(command, stream, output)


def to_pipe(command, stream):
    cat = subprocess.Popen(["cat"], stdin=subprocess.PIPE, stdout=subprocess.DEVNULL)
    try:
        return run_once(command, stream, cat.stdin)
    finally:
        cat.stdin.close()
        cat.wait()


def in_turns(count, *sides):
    """The least time and the least peak of each of these sides, which run in turns so many times."""
    rounds = [[side() for side in sides] for _ in range(count)]
    return [Run(min(it.seconds for it in runs), min(it.peak for it in runs)) for runs in zip(*rounds)]


def json_loads(stream):
    """The time of Python's own loop over the lines, and the peak of that process."""
    with open(stream, "rb") as source:
        process = subprocess.Popen([sys.executable, "-c", JSON_LOADS], stdin=source,
                                   stdout=subprocess.PIPE)
        seconds = float(process.stdout.read())
        process.stdout.close()
        _, status, used = os.wait4(process.pid, 0)
        process.returncode = os.waitstatus_to_exitcode(status)
    return Run(seconds, used.ru_maxrss * 1024 / MB)


def csv_loads(path):
    """The time of Python's own loop over the records of a file, and the peak of that process."""
    process = subprocess.Popen([sys.executable, "-c", CSV_LOADS, path], stdout=subprocess.PIPE)
    seconds = float(process.stdout.read())
    process.stdout.close()
    _, status, used = os.wait4(process.pid, 0)
    process.returncode = os.waitstatus_to_exitcode(status)
    return Run(seconds, used.ru_maxrss * 1024 / MB)


# ---- streams

def write_lines(path, lines):
    """Writes the lines, and tells how many there are and how long the stream is."""
    count = size = 0
    with open(path, "w", encoding="ascii") as file:
        for line in lines:
            file.write(line + "\n")
            count += 1
            size += len(line) + 1
    return count, size


def no_edits():
    """Lines of about 3,000 bytes that are JSON objects but no edits, up to the stream's limit."""
    numbers = random.Random(16)
    left = STREAM_LIMIT
    while True:
        items = []
        while sum(map(len, items)) < 2900:
            items.append('{"id":%d,"name":"customer %d","price":%d.%02d,"tags":["new","paid"],"open":%s,"note":null}'
                         % (numbers.randrange(10**9), numbers.randrange(10**6), numbers.randrange(1000),
                            numbers.randrange(100), numbers.choice(("true", "false"))))
        line = '{"edit":"note","branch":"main","items":[%s]}' % ",".join(items)
        left -= len(line) + 1
        if left < 0:
            return
        yield line


def lines_of(shape):
    """Lines of one shape that are JSON but no edits, about 4 MB."""
    numbers, left = random.Random(2), 4 * MB
    while left > 0:
        if shape == "short objects":
            line = '{"edit":"note","at":%d}' % numbers.randrange(1000)
        elif shape == "whole numbers":
            line = "[%s]" % ",".join("%d" % numbers.randrange(10**6) for _ in range(400))
        elif shape == "numbers with points":
            line = "[%s]" % ",".join("%.6f" % numbers.uniform(-180, 180) for _ in range(250))
        elif shape == "a plain text":
            line = '{"edit":"note","text":"%s"}' % ("a plain text of many words " * 100)
        else:
            line = '{"edit":"note","text":"%s"}' % (r"a\n\u00e9\"b " * 200)
        left -= len(line) + 1
        yield line


def make_cell(name, rows):
    return '{"make":"%s","columns":[["n","int"],["t","text"]],"rows":[%s]}' % (name, ",".join(rows))


def appended(name, rows):
    return '{"edit":"append","branch":"main","cell":%s}' % make_cell(name, rows)


def long_report():
    """Appends of 48 cells, each of nearly as many rows as a line has room for."""
    rows, room = [], LINE_LIMIT - len(appended("t48", []))
    while True:
        row = '[%d,"row %d"]' % (len(rows) * 7919, len(rows))
        room -= len(row) + 1
        if room < 0:
            break
        rows.append(row)
    for number in range(1, 49):
        yield appended("t%d" % number, rows)


def versions(place, count):
    """Appends of 40 cells, and then so many edits that change the cell at a place."""
    rows = ['[%d,"row %d"]' % (n, n) for n in range(50)]
    for number in range(1, CELLS + 1):
        yield appended("t%d" % number, rows)
    for _ in range(count):
        yield '{"edit":"update","branch":"main","at":%d,"cell":%s}' % (place, make_cell("t%d" % place, rows))


def short_versions(cells, count):
    """Appends of so many cells with one row and one name, and then so many edits of the last one."""
    for _ in range(cells):
        yield appended("t", ['[1,"row"]'])
    for _ in range(count):
        yield '{"edit":"update","branch":"main","at":%d,"cell":%s}' % (cells, make_cell("t", ['[1,"row"]']))


def write_file(path, records):
    """Writes a CSV file of eight columns, whole numbers beside fixed ones, and tells how long it is."""
    numbers = random.Random(8)
    with open(path, "w", encoding="ascii") as file:
        file.write(",".join("c%d" % column for column in range(8)) + "\n")
        for _ in range(records):
            file.write(",".join(
                "%d" % numbers.randrange(10**13, 10**14) if column % 2 == 0
                else "%d.%04d" % (numbers.randrange(10**9, 10**10), numbers.randrange(10**4))
                for column in range(8)) + "\n")
    return os.path.getsize(path)


# ---- measurements

def measure_lines(command, folder):
    stream, output = os.path.join(folder, "stream"), os.path.join(folder, "output")
    count, size = write_lines(stream, no_edits())
    ours, python = in_turns(5, lambda: to_file(command, stream, output), lambda: json_loads(stream))
    with open(output, "rb") as file:
        refused = sum(line.endswith(b" refused E2 BadEdit\n") for line in file)
    if refused != count:
        sys.exit(f"{refused} of {count} lines were refused as no edit")
    print(f"lines that are no edit: {count} lines, {size / MB:.1f} MB")
    print(f"  program     {ours.seconds:8.3f} s  {size / MB / ours.seconds:8.0f} MB/s  peak {ours.peak:6.1f} MB")
    print(f"  json.loads  {python.seconds:8.3f} s  {size / MB / python.seconds:8.0f} MB/s  peak {python.peak:6.1f} MB")
    print(f"  ratio of times, program to json.loads: {ours.seconds / python.seconds:.2f}")


def measure_shapes(command, folder):
    stream, output = os.path.join(folder, "stream"), os.path.join(folder, "output")
    print("lines of other shapes that are no edit, about 4 MB of each")
    for shape in ("short objects", "whole numbers", "numbers with points", "a plain text", "a text of escapes"):
        _, size = write_lines(stream, lines_of(shape))
        ours, python = in_turns(9, lambda: to_file(command, stream, output), lambda: json_loads(stream))
        print(f"  {shape:20} program {1000 * ours.seconds:7.1f} ms  {size / MB / ours.seconds:6.0f} MB/s; "
              f"json.loads {1000 * python.seconds:7.1f} ms; ratio {ours.seconds / python.seconds:.2f}")


def measure_report(command, folder):
    stream, output = os.path.join(folder, "stream"), os.path.join(folder, "output")
    count, size = write_lines(stream, long_report())
    file, pipe = in_turns(3, lambda: to_file(command, stream, output), lambda: to_pipe(command, stream))
    written = os.path.getsize(output)
    print(f"a long report: {count} versions, {size / MB:.1f} MB in, {written / MB:.1f} MB out")
    for name, it in (("to a file", file), ("to a pipe", pipe)):
        print(f"  {name}   {it.seconds:8.3f} s  {written / MB / it.seconds:8.0f} MB/s  peak {it.peak:6.1f} MB")


def measure_versions(command, folder):
    """Edits of the last cell beside edits of the first one, of which a notebook has room for 18."""
    names = {"base": (1, 0), "first": (1, 18), "last": (CELLS, 18), "many": (CELLS, 160)}
    paths = {name: os.path.join(folder, name) for name in names}
    for name, (place, count) in names.items():
        write_lines(paths[name], versions(place, count))
    base, first, last, many = in_turns(
        15, *[lambda it=path: to_file(command, it, it + ".out") for path in paths.values()])
    written, as_much, in_all = (os.path.getsize(paths[name] + ".out") for name in ("first", "last", "many"))
    if abs(written - as_much) > written // 1000:
        sys.exit("the two reports are not of about one length")
    by_first, by_last = first.seconds - base.seconds, last.seconds - base.seconds
    print(f"versions of {CELLS} cells, after {CELLS} appends that take {1000 * base.seconds:.1f} ms")
    print(f"  18 edits of the first cell  {1000 * by_first:8.2f} ms more, {written / MB:.1f} MB out in all")
    print(f"  18 edits of the last cell   {1000 * by_last:8.2f} ms more, as much out")
    print(f"  ratio, first to last: {by_first / by_last:.2f}")
    print(f"  200 versions, each edit of the last cell: {1000 * many.seconds:.1f} ms, "
          f"{in_all / MB:.1f} MB out, peak {many.peak:.1f} MB")


def measure_edits(command, folder):
    """The time of one accepted edit of the last cell, by the number of cells; all write one small dataset."""
    print(f"one edit of the last cell, by the cells of its version, of {EDITS} edits")
    before = None
    for cells in (12, 24, 48):
        streams = [os.path.join(folder, name) for name in ("without", "with")]
        for stream, count in zip(streams, (0, EDITS)):
            write_lines(stream, short_versions(cells, count))
        without, all_edits = in_turns(
            15, *[lambda it=stream: to_file(command, it, it + ".out") for stream in streams])
        with open(streams[1] + ".out", "rb") as file:
            if file.read().count(b"version ") != cells + EDITS:
                sys.exit("not every edit was accepted")
        each = (all_edits.seconds - without.seconds) / EDITS
        growth = "" if before is None else f"; growth {each / before:.2f}"
        print(f"  {cells} cells  {1e6 * each:8.1f} us{growth}")
        before = each


def measure_loads(command, folder):
    """Loads of a file, beside Python's `csv` over the same file; the block that the program prints is in its time."""
    stream, output, path = (os.path.join(folder, name) for name in ("stream", "output", "f.csv"))
    os.chdir(folder)
    print("a loaded file of eight columns, whole and fixed numbers, printed as a block")
    for records in (1024, 2048, 4096, 8192):
        size = write_file(path, records)
        write_lines(stream, ['{"edit":"append","branch":"main","cell":{"load":"f","file":"f.csv"}}'])
        ours, python = in_turns(9, lambda: to_file(command, stream, output), lambda: csv_loads(path))
        print(f"  {size / MB:5.2f} MB, {8 * records:6} values: program {1000 * ours.seconds:7.1f} ms, "
              f"peak {ours.peak:5.1f} MB; csv {1000 * python.seconds:7.1f} ms; ratio {ours.seconds / python.seconds:.2f}")
    os.chdir("/")


def main(words):
    if not words:
        print(__doc__)
        return 2
    command = [os.path.abspath(word) if os.path.exists(word) else word for word in words] + ["serial"]
    room = "/dev/shm" if os.path.isdir("/dev/shm") else None
    for measure in (measure_lines, measure_shapes, measure_report, measure_versions, measure_edits, measure_loads):
        with tempfile.TemporaryDirectory(dir=room) as folder:
            measure(command, folder)
    return 0


if __name__ == "__main__":
    sys.exit(main(sys.argv[1:]))
