#!/usr/bin/env python3
"""Queries and spreadsheet commands on up to 20,000 rows of three columns, the queries beside Python's sqlite3.

    python3 bench/queries.py PROGRAM

The program runs twice for each: with a notebook that loads the tables and drops them again, and with the cell that is
measured put between the two. The difference of the best times is the cell and the printing of what it leaves. sqlite3
has the same tables in memory, its prices as whole hundredths, and the time is that of the query and the fetch of its
rows. Times are processor time, user's and system's, and the three take turns. Before a query is timed, both must give
as many rows. Each is measured on a quarter of its rows too, and the
growth told. A command is set beside `rename_column`, which copies each row of its dataset once and does no more.
"""
import json
import os
import random
import resource
import shutil
import sqlite3
import subprocess
import sys
import tempfile
import time

RUNS = 15

# A dataset has room for 65,536 values: 20,000 rows of three columns, but 13,000 with the two columns more that a join
# has before its items are taken, and 16,000 with one column more.
ROWS = 20_000
JOINED = 13_000
WIDER = 16_000

QUERIES = [
    ("WHERE", ROWS, "SELECT id FROM t WHERE price > 90"),
    ("a computed column", ROWS, "SELECT id, price * 2 + 1 AS p FROM t"),
    ("GROUP BY with COUNT and SUM", ROWS, "SELECT shop, COUNT(*) AS n, SUM(price) AS total FROM t GROUP BY shop"),
    ("GROUP BY of as many groups as rows", ROWS, "SELECT id, COUNT(*) AS n FROM t GROUP BY id"),
    ("ORDER BY", ROWS, "SELECT id, price FROM t ORDER BY price DESC"),
    ("a join with eight rows", JOINED, "SELECT t.id AS id, u.name AS name FROM t JOIN u ON t.shop = u.shop"),
]

# What sqlite3 is asked for the same answer where its prices, in hundredths, want another text.
IN_HUNDREDTHS = {
    "WHERE": "SELECT id FROM t WHERE price > 9000",
    "a computed column": "SELECT id, price * 2 + 100 AS p FROM t",
}

COMMANDS = [
    ("rename_column", ROWS, {"name": "price", "to": "cost"}),
    ("copy_dataset", ROWS, {"to": "q"}),
    ("insert_column", WIDER, {"name": "c", "type": "int", "at": 1}),
    ("delete_column", ROWS, {"name": "shop"}),
    ("move_column", ROWS, {"name": "price", "at": 1}),
    ("keep_columns", ROWS, {"names": ["id"]}),
    ("insert_row", ROWS, {"row": "z", "after": None}),
    ("delete_row", ROWS, {"row": "#1"}),
    ("move_row", ROWS, {"row": "#2", "after": None}),
    ("set_value", ROWS, {"row": "#1", "column": "price", "value": 1}),
    ("formula", ROWS, {"column": "price", "text": "price * 2 + 1"}),
    ("sort", ROWS, {"by": [["price", "desc"]]}),
]


def line(kind, cell, **more):
    return json.dumps(dict(edit=kind, branch="main", cell=cell, **more)) + "\n"


def report(program, folder, stream):
    """What the program writes for a stream."""
    out = subprocess.run([program, "serial"], input=stream.encode(), cwd=folder, stdout=subprocess.PIPE)
    if out.returncode != 0 or b" error " in out.stdout:
        sys.exit("the program failed: %s" % [l for l in out.stdout.split(b"\n") if b" error " in l])
    return out.stdout


def of_children():
    """The processor time of all programs that were started and have ended."""
    used = resource.getrusage(resource.RUSAGE_CHILDREN)
    return used.ru_utime + used.ru_stime


def seconds(program, folder, stream):
    """The time in which the program reads a stream and writes its report."""
    before = of_children()
    report(program, folder, stream)
    return of_children() - before


def count_in_last_block(written, name):
    """The number of rows of a dataset in the last block of a report."""
    last = written[written.rindex(b"version "):]
    dataset = last[last.index(b"dataset " + name.encode()):].split(b"\n")
    rows = dataset[2:]
    return next(place for place, line in enumerate(rows) if not line.startswith(b"  "))


def tables(rows):
    """The rows of t, with prices in hundredths, and those of u."""
    numbers = random.Random(7)
    t = [(i + 1, numbers.randrange(8), numbers.randrange(10000)) for i in range(rows)]
    u = [(i, "shop%d" % i) for i in range(8)]
    return t, u


def base(names):
    loads = [{"load": "t", "file": "t.csv", "types": ["int", "int", "fixed"]},
             {"load": "u", "file": "u.csv", "types": ["int", "text"]}]
    drops = [{"vizual": "drop_dataset", "dataset": name} for name in names]
    return "".join(line("append", cell) for cell in loads + drops)


class Tables:
    """The tables of so many rows: files in a folder, the same in sqlite3, and the time of the notebook without a cell more."""

    def __init__(self, program, rows):
        self.program = program
        self.folder = tempfile.mkdtemp(prefix="vizier-queries-", dir="/dev/shm" if os.path.isdir("/dev/shm") else None)
        t, u = tables(rows)
        with open(os.path.join(self.folder, "t.csv"), "w") as file:
            file.write("id,shop,price\n" + "".join("%d,%d,%d.%02d\n" % (i, s, p // 100, p % 100) for i, s, p in t))
        with open(os.path.join(self.folder, "u.csv"), "w") as file:
            file.write("shop,name\n" + "".join("%d,%s\n" % row for row in u))
        self.beside = sqlite3.connect(":memory:")
        self.beside.execute("CREATE TABLE t (id INTEGER, shop INTEGER, price INTEGER)")
        self.beside.execute("CREATE TABLE u (shop INTEGER, name TEXT)")
        self.beside.executemany("INSERT INTO t VALUES (?, ?, ?)", t)
        self.beside.executemany("INSERT INTO u VALUES (?, ?)", u)
        self.start = base(["t", "u"])

    def with_cell(self, cell):
        """The stream with a cell before the tables are dropped; what it makes of them is not dropped."""
        return self.start + line("insert", cell, at=3)

    def query(self, text):
        """The time of sqlite3 for a query."""
        before = time.process_time()
        self.beside.execute(text).fetchall()
        return time.process_time() - before

    def times(self, cell, text):
        """The time that a cell adds, and that of sqlite3 for a text: runs with it, without it and of the text take turns."""
        with_it, without, beside = [], [], []
        for _ in range(RUNS):
            with_it.append(seconds(self.program, self.folder, self.with_cell(cell)))
            without.append(seconds(self.program, self.folder, self.start))
            beside.append(0 if text is None else self.query(text))
        return min(with_it) - min(without), min(beside)

    def agree(self, name, cell, text):
        """Ends everything where a query and that of sqlite3 don't give as many rows."""
        ours = count_in_last_block(report(self.program, self.folder, self.with_cell(cell)), cell["into"])
        theirs = len(self.beside.execute(text).fetchall())
        if ours != theirs:
            sys.exit("%s: the program gives %d rows and sqlite3 %d, so their times can't be compared\n  %s\n  %s"
                     % (name, ours, theirs, cell["sql"], text))

    def close(self):
        self.beside.close()
        shutil.rmtree(self.folder)


def measured(program):
    """The name, the number of rows, the times of a cell on a quarter of them and on all, and that of sqlite3 on all."""
    cells = [(name, rows, {"sql": text, "into": "q"}, IN_HUNDREDTHS.get(name, text)) for name, rows, text in QUERIES]
    cells += [(name, rows, dict(vizual=name, dataset="t", **more), None) for name, rows, more in COMMANDS]
    there = {}
    try:
        for name, rows, cell, text in cells:
            for count in (rows // 4, rows):
                if count not in there:
                    there[count] = Tables(program, count)
                if text is not None:
                    there[count].agree(name, cell, text)
            few, _ = there[rows // 4].times(cell, text)
            many, beside = there[rows].times(cell, text)
            yield name, rows, few, many, None if text is None else beside
    finally:
        for it in there.values():
            it.close()


def main():
    if len(sys.argv) != 2:
        print(__doc__)
        return 2
    print("rows of three columns; growth is the time for them to that for a quarter of them")
    copy = None
    for name, rows, few, many, other in measured(os.path.abspath(sys.argv[1])):
        print("  %-36s %6d rows %8.2f ms, growth %4.1f" % (name, rows, many * 1000, many / max(few, 1e-6)), end="")
        if other is not None:
            print("; sqlite3 %7.2f ms, ratio %5.2f" % (other * 1000, many / other), flush=True)
            continue
        if name == "rename_column":
            copy = many / rows
        print("; of a copy %5.2f" % (many / (copy * rows)), flush=True)
    return 0


if __name__ == "__main__":
    sys.exit(main())
