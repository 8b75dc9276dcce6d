"""Queries of 65,536 values and of a row more. 65,537 is a prime number, so that many values alone no rows have."""
import json


def line(kind, cell, **more):
    print(json.dumps(dict(edit=kind, branch="main", cell=cell, **more)))


def table(name, rows):
    return {"make": name, "columns": [["n", "int"]], "rows": [[n] for n in range(1, rows + 1)]}


def query(text):
    return {"sql": text, "into": "r"}


PAIRS = "FROM s JOIN t ON TRUE"
line("append", table("t", 256))
line("append", table("s", 128))
line("append", table("o", 1))
line("append", query("SELECT COUNT(*) AS n, SUM(x) AS x FROM r"))
line("insert", query(f"SELECT s.n AS x, t.n AS y {PAIRS}"), at=4)
line("update", query(f"SELECT s.n AS x, t.n AS y {PAIRS} UNION ALL SELECT n AS x, n AS y FROM o"), at=4)
line("update", query(f"SELECT s.n AS x {PAIRS} UNION ALL SELECT n AS x FROM o"), at=4)
line("update", query(f"SELECT s.n AS x, t.n AS y, 1 AS z {PAIRS}"), at=4)
line("update", query(f"SELECT s.n AS x {PAIRS} JOIN o ON TRUE"), at=4)
line("update", query(f"SELECT COUNT(*) AS x {PAIRS} JOIN o ON TRUE"), at=4)
