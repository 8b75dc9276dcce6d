#!/usr/bin/env python3
"""Measures the reading and the evaluation of expressions.

    python3 bench/expressions.py

It builds a thin program over the crates (`expression_program.py`), makes its inputs itself and prints times, growths
and ratios. A time is the processor time, user's and system's, that a run with the work takes more than one without it:
the least of several runs of each, which take turns, and with them those of CPython where it is beside.
"""
import random
import resource
import subprocess
import sys

from expression_program import ExpressionProgram

RUNS = 25
ROUNDS = 20
ROWS = 20_000

FORMULA = "(a + b * c - 7) * 3 / 2 + a % 11 - b * 2 + c - 1"

# The same arithmetic, so many times over so many rows; where an operand of / is negative, Python rounds down.
BY_PYTHON = """
import sys
rows = [(a, a % 1000 + 1, a % 7 + 1) for a in range(int(sys.argv[1]))]
last = None
for _ in range(int(sys.argv[2])):
    for a, b, c in rows:
        last = (a + b * c - 7) * 3 // 2 + a % 11 - b * 2 + c - 1
print(last)
"""


# ---- runs

def run(command, text=""):
    """What a command prints, and its processor time in seconds."""
    before = resource.getrusage(resource.RUSAGE_CHILDREN)
    done = subprocess.run(command, input=text.encode(), capture_output=True, check=True)
    after = resource.getrusage(resource.RUSAGE_CHILDREN)
    return done.stdout.decode(), after.ru_utime + after.ru_stime - before.ru_utime - before.ru_stime


def in_turns(*sides):
    """The time of each side, which is a run with the work and a run without it."""
    rounds = [[[run(*which)[1] for which in side] for side in sides] for _ in range(RUNS)]
    return [min(it[0] for it in times) - min(it[1] for it in times) for times in zip(*rounds)]


def told(output):
    """What the program prints in each line after a number."""
    return [line.split(" ", 1)[1] for line in output.splitlines()]


# ---- inputs

def sentence(source, tokens):
    """A text of about so many tokens, on several levels."""
    pieces, count = ["a"], 1
    while count < tokens - 12:
        form = source.randrange(5)
        if form == 0:
            pieces.append(f"+ {source.randrange(100_000)}")
            count += 2
        elif form == 1:
            pieces.append("* (b - t.total)")
            count += 9
        elif form == 2:
            pieces.append("- COALESCE(c, 12.5)")
            count += 7
        elif form == 3:
            pieces.append("+ LENGTH('it''s')")
            count += 5
        else:
            pieces.append("/ CASE WHEN b THEN c ELSE 1 END")
            count += 9
    return " ".join(pieces)


def sentences(size):
    source = random.Random(7)
    lines, bytes_made = [], 0
    while bytes_made < size:
        lines.append(sentence(source, 980))
        bytes_made += len(lines[-1]) + 1
    return "".join(f"{line}\n" for line in lines)


# ---- parts

def reading(program):
    """Tokens and trees of a text and of four times as much, each read several times."""
    for word in ("tokens", "trees"):
        before = None
        for copies in (1, 4):
            text = sentences(65_536) * copies
            read = told(run([program, word, "1"], text)[0])[0]
            seconds, = in_turns((([program, word, str(ROUNDS)], text), ([program, word, "0"], text)))
            growth = "" if before is None else f"; growth {seconds / before:.2f} for four times the text"
            print(f"{word} of {len(text) / 1000:.1f} kB in {text.count(chr(10))} texts ({read} of them): "
                  f"{len(text) * ROUNDS / seconds / 1e6:.1f} MB/s{growth}", flush=True)
            before = seconds


def rows(program):
    """The formula over all rows, several times, beside CPython."""
    text = f"{FORMULA}\n" * ROUNDS
    python = [sys.executable, "-c", BY_PYTHON, str(ROWS)]
    want = run([*python, "1"])[0].strip()
    answers = told(run([program, "rows", str(ROWS)], text)[0])
    assert answers == [want] * ROUNDS, (answers, want)
    ours, theirs = in_turns((([program, "rows", str(ROWS)], text), ([program, "rows", str(ROWS)], "")),
                            (([*python, str(ROUNDS)],), ([*python, "0"],)))
    print(f"{FORMULA} over {ROWS} rows: {1e3 * ours / ROUNDS:.2f} ms, CPython {1e3 * theirs / ROUNDS:.2f} ms; "
          f"ratio {ours / theirs:.2f}", flush=True)


def repeated(program, line, times):
    """The time of one evaluation of a line, from that over so many rows; reading it and making the rows is taken off."""
    many, one = [program, "rows", str(times + 1)], [program, "rows", "1"]
    with_line, without = in_turns(((many, line), (one, line)), ((many, ""), (one, "")))
    return (with_line - without) / times


def likes(program):
    for length in (16_384, 65_536):
        for parts in (8, 32):
            seconds = repeated(program, f"'{'a' * length}' LIKE '{'%a' * parts}%b'", 20)
            steps = length * (2 * parts + 2)
            print(f"LIKE, {length} characters, {2 * parts + 2} in the pattern: {1e3 * seconds:.2f} ms, "
                  f"{1e9 * seconds / steps:.2f} ns a step", flush=True)


def chains(program):
    for operands in (125, 250, 500):
        seconds = repeated(program, " || ".join(["'" + "x" * 128 + "'"] * operands), 1000)
        print(f"|| of {operands} texts of 128 bytes: {1e6 * seconds:.1f} us, "
              f"{1e9 * seconds / (operands * 128):.2f} ns a byte", flush=True)


def main():
    with ExpressionProgram() as made:
        program = made.build()
        reading(program)
        rows(program)
        likes(program)
        chains(program)


main()
