#!/usr/bin/env python3
"""What it costs in memory that a spreadsheet command changes nothing.

    python3 bench/sharing.py PROGRAM

A notebook loads a dataset near the limit of 65,536 values and then has thirty cells, each of which sets a value that
stands there, sorts what is in order or computes what stands. Beside it runs a notebook with as many cells of the same
commands that do change something. Both peaks are printed, and their ratio. This process stays small, since the peak
memory that the system tells of a child is at least that of the process which started it.
"""
import json
import os
import random
import subprocess
import sys
import tempfile

MB = 1_000_000
ROWS = 21_845
CELLS = 30

LOAD = {"load": "t", "file": "t.csv", "types": ["int", "text", "fixed"]}


def command(vizual, **fields):
    return dict(vizual=vizual, dataset="t", **fields)


# ---- cells, of which the first is number 0

def unchanging(number):
    """A command on the loaded file that leaves everything as it is."""
    return [
        command("set_value", row="#1", column="name", value="name1"),
        command("sort", by=[["id", "asc"]]),
        command("formula", column="price", text="price + 0"),
    ][number % 3]


def changing(number):
    """A command that leaves the dataset other than the cells before it did."""
    return [
        command("set_value", row="#1", column="name", value="name%d" % (number + 2)),
        command("sort", by=[["id", "desc" if number % 2 else "asc"]]),
        command("formula", column="price", text="price + 1"),
    ][number % 3]


# ---- runs

def write_file(path):
    numbers = random.Random(11)
    with open(path, "w", encoding="ascii") as file:
        file.write("id,name,price\n")
        for row in range(1, ROWS + 1):
            file.write("%d,name%d,%d.%02d\n" % (row, row, numbers.randrange(100), numbers.randrange(100)))


def write_stream(path, cell):
    with open(path, "w", encoding="ascii") as file:
        for one in [LOAD] + [cell(number) for number in range(CELLS)]:
            file.write(json.dumps({"edit": "append", "branch": "main", "cell": one}) + "\n")


def look_at(report):
    """Ends everything where a version is missing or a cell didn't give a dataset."""
    versions = 0
    with open(report, "rb") as file:
        for line in file:
            versions += line.startswith(b"version ")
            if line.startswith(b"cell ") and not line.endswith(b" ok\n"):
                sys.exit("a cell failed: %s" % line)
    if versions != CELLS + 1:
        sys.exit("%d versions in place of %d" % (versions, CELLS + 1))


def peak(program, folder, cell):
    """The peak memory of the program over the notebook of these cells, in MB."""
    stream = os.path.join(folder, "stream")
    report = os.path.join(folder, "report")
    write_stream(stream, cell)
    with open(stream, "rb") as source, open(report, "wb") as output:
        process = subprocess.Popen([program, "serial"], cwd=folder, stdin=source, stdout=output)
        _, status, used = os.wait4(process.pid, 0)
        process.returncode = os.waitstatus_to_exitcode(status)
    if process.returncode != 0:
        sys.exit("the program ended with status %d" % process.returncode)
    look_at(report)
    return used.ru_maxrss * 1024 / MB


def main():
    if len(sys.argv) != 2:
        sys.exit(__doc__)
    program = os.path.abspath(sys.argv[1])
    with tempfile.TemporaryDirectory(dir="/dev/shm" if os.path.isdir("/dev/shm") else None) as folder:
        write_file(os.path.join(folder, "t.csv"))
        same = peak(program, folder, unchanging)
        other = peak(program, folder, changing)
    print("%d cells over %d values" % (CELLS, 3 * ROWS))
    print("  that change nothing    peak %6.1f MB" % same)
    print("  that change something  peak %6.1f MB" % other)
    print("  ratio %.2f" % (same / other))


if __name__ == "__main__":
    main()
