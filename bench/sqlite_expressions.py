#!/usr/bin/env python3
"""Compares expressions with SQLite: truth with NULL, comparisons, CASE, COALESCE, IN and texts.

    python3 bench/sqlite_expressions.py [COUNT] [SEED]

It makes COUNT expressions (5000), the same for the same SEED (1), on whole numbers, texts, truths and NULL, with
parentheses only where the grammar wants them, and compares what `expr_parse` and `expr_meaning` make of each with
what Python's `sqlite3` answers. What the two mean to differ in isn't made: a comparison beside a comparison without
parentheses, `||` beside arithmetic, operands of different types, and division by zero.
"""
import random
import re
import sqlite3
import sys

from expression_program import ExpressionProgram

DEPTH = 5
MOST_TOKENS = 1000
TOKEN = re.compile(r"'(?:[^']|'')*'|\w+|<>|!=|<=|>=|\|\||\S")

# How strongly a form binds, from the grammar: an operand that binds less stands in parentheses.
OR, AND, NOT, COMPARISON, JOINED, SUM, PRODUCT, SIGNED, ATOM = range(9)

TEXTS = ["", " ", "a", "A", "ab", "b", "ba", " a ", "it's", "100%", "a_b", "é", "née", "日本語", "\\", 'say "a"']
PATTERNS = ["", "%", "_", "a%", "%a", "%a%", "_b", "n_e", "__", "a\\%", "日%", "%é%", "100%", "a_b"]
NUMBERS = [0, 1, 2, 3, 7, 10, 99, 1000]


def quoted(text):
    return "'" + text.replace("'", "''") + "'"


class Maker:
    """Makes expressions of one type; each is its text and how strongly it binds."""

    def __init__(self, seed):
        self.random = random.Random(seed)

    def operand(self, make, depth, least):
        text, level = make(depth - 1)
        return text if level >= least else f"({text})"

    def listed(self, make, depth):
        return ", ".join(make(depth - 1)[0] for _ in range(self.random.randint(1, 4)))

    def number_leaf(self):
        return ("NULL" if self.random.random() < 0.2 else str(self.random.choice(NUMBERS))), ATOM

    def text_leaf(self):
        return ("NULL" if self.random.random() < 0.2 else quoted(self.random.choice(TEXTS))), ATOM

    def truth_leaf(self):
        return self.random.choice(["TRUE", "FALSE", "NULL"]), ATOM

    def either(self, make, depth):
        """A form that any type has, or none where a leaf is due."""
        form = self.random.randrange(8) if depth > 0 else 7
        if form == 0:
            arms = " ".join(
                f"WHEN {self.truth(depth - 1)[0]} THEN {make(depth - 1)[0]}"
                for _ in range(self.random.randint(1, 3))
            )
            other = f" ELSE {make(depth - 1)[0]}" if self.random.random() < 0.7 else ""
            return f"CASE {arms}{other} END", ATOM
        if form == 1:
            return f"COALESCE({make(depth - 1)[0]}, {self.listed(make, depth)})", ATOM
        if form == 2:
            return f"({make(depth - 1)[0]})", ATOM
        return None

    def number(self, depth):
        made = self.either(self.number, depth)
        if made is not None:
            return made
        if depth <= 0 or self.random.random() < 0.3:
            return self.number_leaf()
        form = self.random.randrange(6)
        if form == 0:
            sign = self.random.choice("+-")
            left = self.operand(self.number, depth, SUM)
            return f"{left} {sign} {self.operand(self.number, depth, PRODUCT)}", SUM
        if form == 1:
            left = self.operand(self.number, depth, PRODUCT)
            return f"{left} * {self.operand(self.number, 1, SIGNED)}", PRODUCT
        if form == 2:
            left = self.operand(self.number, depth, PRODUCT)
            divisor = self.random.choice([1, 2, 3, 7])
            return f"{left} {self.random.choice('/%')} {divisor}", PRODUCT
        if form == 3:
            return f"- {self.operand(self.number, depth, SIGNED)}", SIGNED
        if form == 4:
            return f"ABS({self.number(depth - 1)[0]})", ATOM
        return f"LENGTH({self.text(depth - 1)[0]})", ATOM

    def text(self, depth):
        made = self.either(self.text, depth)
        if made is not None:
            return made
        if depth <= 0 or self.random.random() < 0.5:
            return self.text_leaf()
        if self.random.random() < 0.5:
            return f"TRIM({self.text(depth - 1)[0]})", ATOM
        left = self.operand(self.text, depth, JOINED)
        return f"{left} || {self.operand(self.text, depth, ATOM)}", JOINED

    def truth(self, depth):
        made = self.either(self.truth, depth)
        if made is not None:
            return made
        if depth <= 0:
            return self.truth_leaf()
        make = self.random.choice([self.number, self.text, self.truth])
        form = self.random.randrange(8)
        if form == 0:
            return f"{self.operand(self.truth, depth, OR)} OR {self.operand(self.truth, depth, AND)}", OR
        if form == 1:
            return f"{self.operand(self.truth, depth, AND)} AND {self.operand(self.truth, depth, NOT)}", AND
        if form == 2:
            return f"NOT {self.operand(self.truth, depth, NOT)}", NOT
        negated = self.random.choice(["", "NOT "])
        left = self.operand(make, depth, JOINED)
        if form == 3:
            return f"{left} IS {negated}NULL", COMPARISON
        if form == 4:
            return f"{left} {negated}IN ({self.listed(make, depth)})", COMPARISON
        if form == 5:
            left = self.operand(self.text, depth, JOINED)
            return f"{left} {negated}LIKE {quoted(self.random.choice(PATTERNS))}", COMPARISON
        sign = self.random.choice(["=", "<>", "!=", "<", "<=", ">", ">="])
        return f"{left} {sign} {self.operand(make, depth, JOINED)}", COMPARISON


def literal(value, kind):
    """A value of SQLite as the program prints it."""
    if value is None:
        return "null"
    if kind == "truth":
        return "true" if value else "false"
    if kind == "number":
        return str(value)
    return '"' + value.replace("\\", "\\\\").replace('"', '\\"') + '"'


def main():
    count = int(sys.argv[1]) if len(sys.argv) > 1 else 5000
    seed = int(sys.argv[2]) if len(sys.argv) > 2 else 1
    maker = Maker(seed)
    kinds = [("truth", maker.truth), ("number", maker.number), ("text", maker.text), ("truth", maker.truth)]
    cases = []
    for at in range(count):
        kind, make = kinds[at % len(kinds)]
        text = make(DEPTH)[0]
        while len(TOKEN.findall(text)) > MOST_TOKENS:
            text = make(DEPTH)[0]
        cases.append((text, kind))
    with ExpressionProgram() as program:
        answers = program.values([text for text, _ in cases])
    if len(answers) != count:
        sys.exit(f"{len(answers)} answers to {count} expressions")
    base = sqlite3.connect(":memory:")
    base.execute("PRAGMA case_sensitive_like = ON")
    nulls = wrong = 0
    for (text, kind), answer in zip(cases, answers):
        want = literal(base.execute(f"SELECT {text}").fetchone()[0], kind)
        nulls += want == "null"
        if answer != want:
            wrong += 1
            print(f"{text}\n  SQLite: {want}\n  here:   {answer}")
    longest = max(len(text) for text, _ in cases)
    print(f"SQLite {sqlite3.sqlite_version}: {count} expressions of up to {longest} bytes, {nulls} of them NULL: {wrong} differ")
    sys.exit(1 if wrong else 0)


if __name__ == "__main__":
    main()
