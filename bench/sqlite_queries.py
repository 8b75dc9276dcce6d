#!/usr/bin/env python3
"""Compares queries with SQLite: generated SELECTs over small generated tables of whole numbers, texts and NULLs.

    python3 bench/sqlite_queries.py PROGRAM [COUNT] [SEED]

It makes COUNT queries (5000), the same for the same SEED (1), and compares the columns and rows that PROGRAM makes of
each with those of Python's `sqlite3`, the rows in their order. Each query has some of WHERE, computed columns, up to
three joins, GROUP BY, HAVING, aggregates, DISTINCT, UNION ALL, ORDER BY and LIMIT. Where SQLite leaves the order of rows
open, the one of docs/SELECT.md is wanted: each core is asked with an ORDER BY of its own that says it, and rows with
equal keys stay in the order of their cores.

What the two mean to differ in isn't made: what `bench/sqlite_expressions.py` leaves out, numbers that pass 64 bits,
and columns of NULL alone in a UNION ALL.
"""
import json
import random
import re
import sqlite3
import subprocess
import sys
from collections import Counter
from typing import NamedTuple

from sqlite_expressions import ATOM, COMPARISON, JOINED, Maker, literal, quoted

# A notebook has 256 versions: three tables, and one for each query.
QUERIES_A_STREAM = 200
MOST_ROWS = 7

TABLES = {
    "t": [("a", "number"), ("b", "number"), ("s", "text")],
    "u": [("a", "number"), ("c", "number"), ("p", "text")],
    "v": [("d", "number"), ("q", "text"), ("s", "text")],
}
TYPES = {"number": "int", "text": "text"}
NUMBERS = [-7, -2, -1, 0, 1, 2, 3, 10]
LITERALS = [0, 1, 2, 3, 7, 10]
TEXTS = ["", "a", "A", "ab", "b", " a ", "it's", "100%", "née", "日本", "\\", 'a "b": c']
COMPARED = ["=", "<>", "!=", "<", "<=", ">", ">="]

STRING = r'"(?:\\.|[^"\\])*"'
VALUE = re.compile(rf"{STRING}|null|true|false|-?\d+")
ROW = re.compile(rf'  (?:{STRING}|[^":])+:(.*)')


class Core(NamedTuple):
    """One SELECT of a query: its columns, and the order of its rows as SQLite's ORDER BY."""

    text: str
    names: list
    kinds: list
    order: list


class QueryMaker(Maker):
    """Makes SELECTs. `columns` are those in reach; `keys`, in a grouped core, those outside its aggregates."""

    def __init__(self, seed):
        super().__init__(seed)
        self.columns = []
        self.keys = None
        self.nulls = 0.0

    def column(self, kind, of=None):
        return self.random.choice([name for name, its in (of or self.columns) if its == kind])

    def aggregate(self, kind):
        """An aggregate of a kind over an expression on the rows of the group."""
        keys, self.keys = self.keys, None
        form = self.random.choice(["COUNT(*)", "COUNT", "SUM", "MIN", "MAX"] if kind == "number" else ["MIN", "MAX"])
        if form == "COUNT":
            make = self.random.choice([self.number, self.text, self.truth])
            form = f"COUNT({make(1)[0]})"
        elif form != "COUNT(*)":
            make = self.number if kind == "number" else self.text
            form = f"{form}({make(self.random.randint(0, 1))[0]})"
        self.keys = keys
        return form, ATOM

    def leaf(self, kind, literals):
        chance = self.random.random()
        if chance < self.nulls:
            return "NULL", ATOM
        if chance < 0.25:
            value = self.random.choice(literals)
            return (quoted(value) if kind == "text" else str(value)), ATOM
        if self.keys is None:
            return self.column(kind), ATOM
        if chance < 0.55 and any(its == kind for _, its in self.keys):
            return self.column(kind, self.keys), ATOM
        return self.aggregate(kind)

    def number_leaf(self):
        return self.leaf("number", LITERALS)

    def text_leaf(self):
        return self.leaf("text", TEXTS)

    def truth_leaf(self):
        kind = self.random.choice(["number", "text"])
        make = self.number_leaf if kind == "number" else self.text_leaf
        if self.random.random() < 0.2:
            return f"{make()[0]} IS {self.random.choice(['', 'NOT '])}NULL", COMPARISON
        return f"{make()[0]} {self.random.choice(COMPARED)} {make()[0]}", COMPARISON

    def text(self, depth):
        if depth > 0 and self.random.random() < 0.1:
            left = self.operand(self.text, depth, JOINED)
            return f"{left} || {self.operand(self.number, 1, ATOM)}", JOINED
        return super().text(depth)

    def condition(self, depth):
        return self.truth(self.random.randint(0, depth))[0]

    def sources(self):
        """FROM with its joins, and the names by which its tables are called; `columns` are then theirs."""
        seen = Counter()
        self.columns = []
        called = []
        text = ""
        for at in range(self.random.choice([1, 1, 1, 2, 2, 3, 4])):
            table = self.random.choice(sorted(TABLES))
            name = table if table not in called and self.random.random() < 0.5 else f"{table}{at + 1}"
            named = table if name == table else f"{table} {self.random.choice(['', 'AS '])}{name}"
            before = list(self.columns)
            self.columns = before + [(f"{name}.{column}", kind) for column, kind in TABLES[table]]
            seen.update(column for column, _ in TABLES[table])
            called.append(name)
            if at == 0:
                text = named
                continue
            if self.random.random() < 0.75:
                kind = self.random.choice(["number", "text"])
                new = self.columns[len(before):]
                on = f"{self.column(kind, before)} = {self.column(kind, new)}"
                if self.random.random() < 0.3:
                    on += f" {self.random.choice(['AND', 'OR'])} {self.operand(self.truth, 2, COMPARISON)}"
            else:
                on = self.condition(2)
            text += f" {self.random.choice(['JOIN', 'INNER JOIN', 'LEFT JOIN', 'LEFT OUTER JOIN'])} {named} ON {on}"
        # A bare name will do where no other table in reach has it.
        self.columns = [
            (name.split(".")[1] if seen[name.split(".")[1]] == 1 and self.random.random() < 0.6 else name, kind)
            for name, kind in self.columns
        ]
        return text, called

    def item(self, kind, first):
        if first and self.keys == []:
            return self.aggregate("number" if kind == "truth" else kind)[0]
        make = {"number": self.number, "text": self.text, "truth": self.truth}[kind]
        return make(self.random.choice([0, 1, 2]))[0]

    def items(self, kinds):
        """The texts of items, and the names of the output columns."""
        texts, names = [], []
        for at, kind in enumerate(kinds):
            text = self.item(kind, at == 0)
            alone = re.fullmatch(r"\(*(?:[a-z]\d?\.)?([a-z])\)*", text)
            name = alone[1] if alone else f"c{at + 1}"
            if name in names or self.random.random() < 0.3:
                name = f"o{at + 1}"
                text += f" AS {name}"
            texts.append(text)
            names.append(name)
        return ", ".join(texts), names

    def core(self, kinds):
        """A core with columns of these kinds, or of any."""
        self.keys = None
        source, called = self.sources()
        where = f" WHERE {self.condition(3)}" if self.random.random() < 0.5 else ""
        distinct = self.random.random() < 0.2
        tail = ""
        order = [f"{name}.rowid" for name in called]
        if self.random.random() < 0.35:
            self.keys = self.random.sample(self.columns, self.random.choice([0, 1, 1, 2]))
            order = [name for name, _ in self.keys]
            if self.keys:
                tail = f" GROUP BY {', '.join(order)}"
        elif len(called) == 1 and kinds is None and self.random.random() < 0.15:
            columns = TABLES[source.split()[0]]
            text = f"SELECT {'DISTINCT ' * distinct}* FROM {source}{where}"
            order = ["1", "2", "3"] if distinct else order
            return Core(text, [name for name, _ in columns], [kind for _, kind in columns], order)
        if kinds is None:
            kinds = [self.random.choice(["number", "number", "text", "truth"]) for _ in range(self.random.randint(1, 4))]
        if self.keys == [] and kinds[0] == "truth":
            kinds[0] = "number"
        items, names = self.items(kinds)
        if self.keys is not None and self.random.random() < 0.4:
            tail += f" HAVING {self.condition(2)}"
        if distinct:
            order = [str(at + 1) for at in range(len(kinds))]
        return Core(f"SELECT {'DISTINCT ' * distinct}{items} FROM {source}{where}{tail}", names, kinds, order)

    def select(self):
        count = self.random.choice([1, 1, 1, 1, 1, 2, 3, 4])
        kinds = None
        if count > 1:
            kinds = [self.random.choice(["number", "text"]) for _ in range(self.random.randint(1, 3))]
        self.nulls = 0.05 if kinds is None else 0.0
        cores = [self.core(None if kinds is None else list(kinds)) for _ in range(count)]
        query = Query(cores)
        if self.random.random() < 0.5:
            picked = self.random.sample(range(len(query.names)), self.random.randint(1, len(query.names)))
            query.keys = [(at, self.random.choice(["", " ASC", " DESC"])) for at in picked]
        if self.random.random() < 0.3:
            query.limit = self.random.choice([0, 1, 2, 3, 5, 20])
        query.write()
        return query


class Query:
    """A SELECT, the columns that it should give, and what SQLite is asked."""

    def __init__(self, cores):
        self.cores = cores
        self.names = cores[0].names
        self.kinds = cores[0].kinds
        self.keys = []
        self.limit = None

    def write(self):
        """`text` is for the program, and `asked` the same for SQLite, without LIMIT."""
        self.text = self.asked = " UNION ALL ".join(core.text for core in self.cores)
        if self.keys:
            self.text += " ORDER BY " + ", ".join(f"{self.names[at]}{way}" for at, way in self.keys)
            self.asked += " ORDER BY " + ", ".join(f"{at + 1}{way}" for at, way in self.keys)
        if self.limit is not None:
            self.text += f" LIMIT {self.limit}"

    def rows(self, base):
        """SQLite's rows: those of each core in the core's order, then in the order that SQLite gives to the keys."""
        rows = []
        for core in self.cores:
            rows += base.execute(core.text + (f" ORDER BY {', '.join(core.order)}" if core.order else ""))
        told = base.execute(self.asked).fetchall()
        if Counter(told) != Counter(rows):
            sys.exit(f"SQLite gives other rows for the cores of {self.asked}")
        places = {}
        for place, row in enumerate(told):
            places.setdefault(tuple(row[at] for at, _ in self.keys), place)
        rows.sort(key=lambda row: places[tuple(row[at] for at, _ in self.keys)])
        return [tuple(literal(value, kind) for value, kind in zip(row, self.kinds)) for row in rows][: self.limit]


def made_tables(seed):
    """The rows of each table."""
    choose = random.Random(seed)
    values = {"number": NUMBERS, "text": TEXTS}
    rows = {}
    for table, columns in TABLES.items():
        count = 0 if choose.random() < 0.08 else choose.randint(1, MOST_ROWS)
        rows[table] = [
            [None if choose.random() < 0.2 else choose.choice(values[kind]) for _, kind in columns]
            for _ in range(count)
        ]
    return rows


def stream_of(tables, queries):
    """A stream that makes the tables and then has a version for each query."""
    lines = []
    for table, rows in tables.items():
        columns = [[name, TYPES[kind]] for name, kind in TABLES[table]]
        lines.append({"edit": "append", "cell": {"make": table, "columns": columns, "rows": rows}})
    for at, query in enumerate(queries):
        edit = {"edit": "append"} if at == 0 else {"edit": "update", "at": len(tables) + 1}
        lines.append({**edit, "cell": {"sql": query.text, "into": "z"}})
    return "".join(json.dumps({**line, "branch": "main"}) + "\n" for line in lines)


def answers_of(report):
    """Of each version after the tables: its status, the columns' names of `z`, and its rows."""
    answers = []
    for block in re.split(r"^version \d+ main\n", report, flags=re.M)[1 + len(TABLES):]:
        lines = block.split("\n")
        status = lines[len(TABLES)].split(" ", 3)[3]
        names, rows = [], []
        if "dataset z" in lines:
            at = lines.index("dataset z") + 1
            names = [column.split()[0] for column in lines[at].split("columns", 1)[1].split(",")]
            while lines[at + 1].startswith("  "):
                at += 1
                told = ROW.fullmatch(lines[at])[1]
                values = VALUE.findall(told)
                rows.append(tuple(values) if told == " " + ", ".join(values) else told)
        answers.append((status, names, rows))
    return answers


def base_of(tables):
    base = sqlite3.connect(":memory:")
    base.execute("PRAGMA case_sensitive_like = ON")
    kinds = {"number": "INTEGER", "text": "TEXT"}
    for table, rows in tables.items():
        base.execute(f"CREATE TABLE {table} ({', '.join(f'{name} {kinds[kind]}' for name, kind in TABLES[table])})")
        base.executemany(f"INSERT INTO {table} VALUES (?, ?, ?)", rows)
    return base


def compared(tables, queries, report):
    """Prints each query that differs; gives how many do, and how many have rows."""
    answers = answers_of(report)
    if len(answers) != len(queries):
        sys.exit(f"{len(answers)} answers to {len(queries)} queries")
    base = base_of(tables)
    wrong = filled = 0
    for query, (status, names, rows) in zip(queries, answers):
        wanted = query.rows(base)
        filled += bool(wanted)
        if status != "ok" or names != query.names or rows != wanted:
            wrong += 1
            print(f"{status}: {query.text}\n  over {json.dumps(tables, ensure_ascii=False)}")
            print(f"  SQLite: {', '.join(query.names)}: {wanted}\n  here:   {', '.join(names)}: {rows}")
    return wrong, filled


def main():
    if sqlite3.sqlite_version_info < (3, 39):
        sys.exit("SQLite 3.39 or later is needed, for HAVING without GROUP BY")
    program = sys.argv[1]
    count = int(sys.argv[2]) if len(sys.argv) > 2 else 5000
    seed = int(sys.argv[3]) if len(sys.argv) > 3 else 1
    maker = QueryMaker(seed)
    wrong = filled = 0
    queries = [maker.select() for _ in range(count)]
    for at in range(0, count, QUERIES_A_STREAM):
        part = queries[at : at + QUERIES_A_STREAM]
        tables = made_tables(f"{seed} {at}")
        ran = subprocess.run([program, "serial"], input=stream_of(tables, part).encode(), stdout=subprocess.PIPE)
        if ran.returncode != 0:
            sys.exit(f"the program ended with status {ran.returncode}")
        counts = compared(tables, part, ran.stdout.decode())
        wrong += counts[0]
        filled += counts[1]
    forms = ", ".join(
        f"{sum(word in query.text for query in queries)} with {word}"
        for word in ["WHERE", "JOIN", "GROUP BY", "HAVING", "DISTINCT", "UNION ALL", "ORDER BY", "LIMIT"]
    )
    print(f"SQLite {sqlite3.sqlite_version}: {count} queries, {filled} of them with rows ({forms}): {wrong} differ")
    sys.exit(1 if wrong else 0)


if __name__ == "__main__":
    main()
