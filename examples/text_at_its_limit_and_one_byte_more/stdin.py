"""Queries whose texts and row ids have 1,048,576 bytes in all, and one more.

16 rows have ids of 39 bytes, fifteen of them a text of 65,536 bytes, the most that || makes, and the last what is left.
"""
import json


def line(kind, cell, **more):
    print(json.dumps(dict(edit=kind, branch="main", cell=cell, **more)))


def query(text):
    return {"sql": text, "into": "u"}


def long_texts(left):
    """A query that makes the texts, the last of so many bytes, of those of 512 bytes."""
    last = " || ".join(["s"] * 127 + ["'" + "x" * (left - 127 * 512) + "'"])
    return f"SELECT CASE WHEN n < 16 THEN {LONGEST} ELSE {last} END AS s FROM u"


LONGEST = " || ".join(["s"] * 128)
LEFT = 1048576 - 39 - 15 * 65536
line("append", {"make": "t", "columns": [["n", "int"]], "rows": [[n] for n in range(1, 17)]})
line("append", query("SELECT COUNT(*) AS n, MAX(LENGTH(s)) AS longest, SUM(LENGTH(s)) AS total FROM u"))
line("insert", query(f"SELECT n, '{'x' * 512}' AS s FROM t"), at=2)
line("insert", query(long_texts(LEFT)), at=3)
line("update", query(long_texts(LEFT + 1)), at=3)
line("update", query(long_texts(LEFT) + " UNION ALL SELECT s FROM u WHERE FALSE"), at=3)
line("update", query(f"SELECT CAST(LENGTH({LONGEST}) AS text) AS s FROM u"), at=3)
line("update", query(f"SELECT CAST(LENGTH({LONGEST} || 'x') AS text) AS s FROM u"), at=3)
