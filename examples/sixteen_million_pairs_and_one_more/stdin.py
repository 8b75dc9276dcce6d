"""Joins at the limit of pairs: one of 24,961 by 641 rows, and then one of 4,000 by 4,000."""
import json


def line(kind, cell, **more):
    print(json.dumps(dict(edit=kind, branch="main", cell=cell, **more)))


def table(name, rows):
    return {"make": name, "columns": [["n", "int"]], "rows": [[n] for n in range(1, rows + 1)]}


line("append", table("a", 109))
line("append", table("b", 229))
line("append", table("c", 641))
line("append", {"sql": "SELECT COUNT(*) AS n FROM a JOIN b ON TRUE JOIN c ON 1 / 0 = 1", "into": "j"})
line("update", table("t", 4000), at=4)
line("append", {"sql": "SELECT COUNT(*) AS n FROM t JOIN t AS u ON t.n = u.n", "into": "j"})
