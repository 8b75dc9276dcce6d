"""A stream that meets every refusal twice, but for those of long and failing files."""
import sys

CELL = '{"make":"t","columns":[["a","int"]],"rows":[]}'
LOAD = '{"load":"t","file":"none.csv"}'


def edit(word, branch, **fields):
    more = "".join(f',"{name}":{value}' for name, value in fields.items())
    return f'{{"edit":"{word}","branch":"{branch}"{more}}}'


LINES = [
    "{", "[1", "{}", "1",
    edit("append", "b", cell=CELL), edit("delete", "b", at=1),
    edit("branch", "b", **{"from": 1}), edit("branch", "main", **{"from": 0}),
    edit("delete", "main", at=1), edit("insert", "main", at=2, cell=CELL),
    edit("append", "main", cell=CELL),
    edit("branch", "main", **{"from": 1}), edit("branch", "main", **{"from": 1}),
    *[edit("append", "main", cell=CELL)] * 47,
    edit("append", "main", cell=CELL), edit("insert", "main", at=1, cell=CELL),
    edit("update", "main", at=1, cell=LOAD), edit("update", "main", at=48, cell=LOAD),
    "x" * 65537, " " * 65537,
]
sys.stdout.write("\n".join(LINES) + "\n")
