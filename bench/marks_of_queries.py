#!/usr/bin/env python3
"""Compares what queries leave uncertain with a second reading of the rules in docs/SELECT.md.

    python3 bench/marks_of_queries.py PROGRAM [QUERIES] [SEED]

It makes QUERIES queries (3000), the same for the same SEED (1), over two loaded tables of whole numbers. Some of their
fields can't be read, so that values are marked; some records are surplus, so that rows are unsure and tables open; and
one table may be sorted by a column with marks, so that it is loose. Each query has some of JOIN, LEFT JOIN, WHERE,
GROUP BY, HAVING, aggregates, CAVEAT, DISTINCT, UNION ALL, ORDER BY and LIMIT. What PROGRAM makes of it is compared with
what the rules give, which stand once more in Python in `rules_of_queries.py`: rows with their ids and values, marks,
unsure rows, and whether the result is open or loose. Each difference is printed whole, and the status is 1 where there
is one.
"""
import json
import os
import random
import re
import subprocess
import sys
import tempfile

from rules_of_queries import (
    AGGREGATES, COMPARISONS, Aggregate, Case, Caveat, Coalesce, Column, Comparison, Connective, CountAll, IsNull,
    Literal, Marked, Not, Plus, Relation, Row, distinct, filtered, grouped, has_aggregate, joined, limited, literal,
    ordered, output_names, projected, united)

QUERIES_A_STREAM = 60
TABLES = {"t": ["a", "b"], "u": ["c", "d"]}
NUMBERS = [0, 1, 2, 3]


# ---- making tables and queries

class Maker:
    """Makes tables, and queries with what they give. `inner`, in a core with groups, are the columns in aggregates."""

    def __init__(self, seed):
        self.random = random.Random(seed)

    def number(self, columns, depth, inner=None):
        chance = self.random.random()
        if depth <= 0 or chance < 0.45:
            return self.number_leaf(columns, inner)
        if chance < 0.6:
            return Plus(self.number(columns, depth - 1, inner), self.number(columns, depth - 1, inner))
        if chance < 0.7:
            return Caveat(self.number(columns, depth - 1, inner))
        if chance < 0.85:
            count = self.random.choice([1, 2])
            return Coalesce(tuple(self.number(columns, depth - 1, inner) for _ in range(count)))
        condition, answer = self.truth(columns, depth - 1, inner), self.number(columns, depth - 1, inner)
        otherwise = self.number(columns, depth - 1, inner)
        return Case(condition, answer, self.random.choice([None, otherwise]))

    def number_leaf(self, columns, inner):
        if inner is not None and (self.random.random() < 0.6 or not columns):
            word = self.random.choice(["COUNT(*)", *AGGREGATES])
            if word == "COUNT(*)":
                return CountAll()
            return Aggregate(word, self.number(inner, self.random.choice([0, 0, 1])))
        if columns and self.random.random() < 0.8:
            return Column(self.random.choice(columns))
        return Literal(self.random.choice(NUMBERS))

    def truth(self, columns, depth, inner=None):
        chance = self.random.random()
        if depth <= 0 or chance < 0.5:
            sign = self.random.choice(list(COMPARISONS))
            return Comparison(sign, self.number(columns, 0, inner), self.number(columns, 0, inner))
        if chance < 0.6:
            return IsNull(self.number(columns, depth - 1, inner))
        if chance < 0.7:
            return Not(self.truth(columns, depth - 1, inner))
        word = self.random.choice(["AND", "OR"])
        return Connective(word, self.truth(columns, depth - 1, inner), self.truth(columns, depth - 1, inner))

    def sources(self, tables):
        """FROM with its joins."""
        text, relation = "", None
        for place in range(self.random.choice([1, 1, 1, 2, 2, 3])):
            name = self.random.choice(["t", "u"])
            columns = [f"x{place}.{column}" for column in TABLES[name]]
            table = tables[name]._replace(columns=columns)
            if relation is None:
                text, relation = f"{name} AS x{place}", table
                continue
            keeps_left = self.random.random() < 0.5
            on = self.on(relation.columns, columns)
            text += f" {'LEFT JOIN' if keeps_left else 'JOIN'} {name} AS x{place} ON {on.text()}"
            relation = joined(relation, table, on, keeps_left)
        return text, relation

    def on(self, left, right):
        if self.random.random() < 0.6:
            return Comparison("=", Column(self.random.choice(left)), Column(self.random.choice(right)))
        return self.truth(left + right, 2)

    def groups(self, relation, width):
        """GROUP BY and HAVING, the items, and what they give."""
        columns = relation.columns
        keys = self.random.sample(columns, self.random.choice([0, 1, 1, 2]))
        having = None
        if self.random.random() < 0.5:
            having = self.truth(keys, self.random.choice([1, 2]), columns)
        items = [self.number(keys, self.random.choice([0, 1, 2]), columns) for _ in range(width)]
        if not keys and having is None and not any(map(has_aggregate, items)):
            items[0] = CountAll()
        text = f" GROUP BY {', '.join(keys)}" if keys else ""
        text += f" HAVING {having.text()}" if having is not None else ""
        return text, items, grouped(relation, keys, having, items)

    def core(self, tables, width):
        """A core with so many items, and what it gives."""
        text, relation = self.sources(tables)
        if self.random.random() < 0.5:
            condition = self.truth(relation.columns, 2)
            text += f" WHERE {condition.text()}"
            relation = filtered(relation, condition)
        if self.random.random() < 0.45:
            grouping, items, relation = self.groups(relation, width)
            text += grouping
        else:
            items = [self.number(relation.columns, self.random.choice([0, 0, 1, 2])) for _ in range(width)]
            relation = projected(relation, items)
        word = ""
        if self.random.random() < 0.25:
            word, relation = "DISTINCT ", distinct(relation)
        listed = ", ".join(f"{item.text()} AS {name}" for item, name in zip(items, output_names(items)))
        return f"SELECT {word}{listed} FROM {text}", relation

    def query(self, tables):
        """A query, and what it gives."""
        width = self.random.choice([1, 2, 3])
        cores = [self.core(tables, width) for _ in range(self.random.choice([1, 1, 1, 2, 3]))]
        text = " UNION ALL ".join(core for core, _ in cores)
        relation = cores[0][1]
        for _, further in cores[1:]:
            relation = united(relation, further)
        if self.random.random() < 0.5:
            places = self.random.sample(range(width), self.random.randint(1, width))
            keys = [(place, self.random.random() < 0.5) for place in places]
            text += " ORDER BY " + ", ".join(f"o{place}{' DESC' if down else ''}" for place, down in keys)
            relation = ordered(relation, keys)
        if self.random.random() < 0.35:
            most = self.random.choice([0, 1, 2, 3, 9])
            text += f" LIMIT {most}"
            relation = limited(relation, most)
        return text, relation

    def field(self, badness):
        """A field of a file, and its value: one that can't be read, an empty one, or a number."""
        chance = self.random.random()
        if chance < badness:
            return "x", Marked(None, True)
        if chance < badness + 0.1:
            return "", Marked(None, False)
        number = self.random.choice(NUMBERS)
        return str(number), Marked(number, False)

    def table(self, columns, badness):
        """A file, and the table that it loads as: a surplus record is an unsure row and opens the table."""
        rows, lines = [], [",".join(columns)]
        for place in range(self.random.choice([0, 1, 2, 3, 4, 5])):
            fields, values = map(list, zip(*[self.field(badness) for _ in columns]))
            is_surplus = self.random.random() < badness * 0.7
            lines.append(",".join(fields + ["9"] * is_surplus))
            rows.append(Row(f"#{place + 1}", not is_surplus, values))
        return "\n".join(lines) + "\n", Relation(columns, rows, not all(row.sure for row in rows), False)


class Notebook:
    """Two files, the cells that make tables of them, and queries over these with what they give."""

    def __init__(self, maker, count):
        self.files, tables, self.cells = {}, {}, []
        for name, columns in TABLES.items():
            self.files[name], tables[name] = maker.table(columns, maker.random.choice([0, 0.1, 0.3]))
            self.cells.append({"load": name, "file": name + ".csv", "types": ["int", "int"]})
        if maker.random.random() < 0.4:
            place = maker.random.choice([0, 1])
            self.cells.append({"vizual": "sort", "dataset": "t", "by": [[TABLES["t"][place], "asc"]]})
            tables["t"] = ordered(tables["t"], [(place, False)])
        self.queries = [maker.query(tables) for _ in range(count)]

    def stream(self):
        lines = [dict(edit="append", cell=cell) for cell in self.cells]
        for place, (text, _) in enumerate(self.queries):
            edit = dict(edit="update", at=len(self.cells) + 1) if place else dict(edit="append")
            lines.append(dict(edit, cell={"sql": text, "into": "zz"}))
        return "".join(json.dumps(dict(line, branch="main")) + "\n" for line in lines)

    def blocks(self, program):
        """The lines of the block of each query."""
        with tempfile.TemporaryDirectory() as folder:
            for name, text in self.files.items():
                with open(os.path.join(folder, name + ".csv"), "w") as file:
                    file.write(text)
            out = subprocess.run([program, "serial"], input=self.stream().encode(), stdout=subprocess.PIPE, cwd=folder)
        blocks = re.split(r"^version \d+ main\n", out.stdout.decode(), flags=re.M)[1 + len(self.cells):]
        if len(blocks) != len(self.queries):
            sys.exit(f"{len(blocks)} blocks for {len(self.queries)} queries, status {out.returncode}:\n{self.stream()}")
        return [block.split("\n") for block in blocks]


# ---- comparing

def shown(relation):
    """The lines that a block has of a dataset, but for its columns."""
    flags = (" open" if relation.is_open else "") + (" loose" if relation.is_loose else "")
    lines = ["dataset zz" + flags]
    for row in relation.rows:
        values = ", ".join(("~" if marked.marked else "") + literal(marked.value) for marked in row.values)
        lines.append(f"  {'' if row.sure else '?'}{row.id}: {values}")
    return lines


def printed(block, cells):
    """What a block has of the query: the status of its cell, and the lines of its dataset but for the columns."""
    status = block[cells].split(" ", 3)[3]
    begin = next((place for place, line in enumerate(block) if line.startswith("dataset zz")), None)
    if status != "ok" or begin is None:
        return [status]
    end = next(place for place in range(begin + 1, len(block)) if not block[place].startswith("  "))
    return [block[begin]] + block[begin + 2:end]


def differences(program, notebook):
    """How many queries of a notebook differ; each is printed."""
    count = 0
    for (text, relation), block in zip(notebook.queries, notebook.blocks(program)):
        wanted, got = shown(relation), printed(block, len(notebook.cells))
        if got != wanted:
            count += 1
            parts = ["DIFFERS: " + text, *notebook.files.values(), *map(json.dumps, notebook.cells[2:])]
            print("\n".join([*parts, "by the rules:", *wanted, "by the program:", *got, ""]), flush=True)
    return count


def told(relations):
    """How much of what is compared the results have."""
    rows = [row for relation in relations for row in relation.rows]
    marks = sum(marked.marked for row in rows for marked in row.values)
    is_open = sum(relation.is_open for relation in relations)
    is_loose = sum(relation.is_loose for relation in relations)
    unsure = sum(not row.sure for row in rows)
    return f"{is_open} open, {is_loose} loose, {len(rows)} rows of which {unsure} unsure, {marks} marked values"


def main():
    if len(sys.argv) not in (2, 3, 4):
        print(__doc__)
        return 2
    program, numbers = os.path.abspath(sys.argv[1]), list(map(int, sys.argv[2:]))
    count, seed = numbers[0] if numbers else 3000, numbers[1] if len(numbers) > 1 else 1
    maker, relations, differ = Maker(seed), [], 0
    while len(relations) < count:
        notebook = Notebook(maker, min(QUERIES_A_STREAM, count - len(relations)))
        differ += differences(program, notebook)
        relations += [relation for _, relation in notebook.queries]
    print(f"{count} queries, {told(relations)}: {differ} differ")
    return 1 if differ else 0


if __name__ == "__main__":
    sys.exit(main())
