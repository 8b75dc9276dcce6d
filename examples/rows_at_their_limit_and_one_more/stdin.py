"""Queries of 65,536 rows and of one more; without columns they have no values, so that no other limit is near."""
import json


def line(kind, cell, **more):
    print(json.dumps(dict(edit=kind, branch="main", cell=cell, **more)))


def table(name, rows):
    line("append", {"make": name, "columns": [["n", "int"]], "rows": [[n] for n in range(1, rows + 1)]})
    line("append", {"vizual": "delete_column", "dataset": name, "name": "n"})


def query(text):
    return {"sql": text, "into": "r"}


ALL = "SELECT * FROM t AS a JOIN t AS b ON TRUE"
BUT_A_ROW_OF_T = "SELECT * FROM s JOIN t ON TRUE"
table("t", 256)
table("s", 255)
table("o", 1)
line("append", query("SELECT COUNT(*) AS n FROM r"))
line("insert", query(ALL), at=7)
line("update", query(f"{ALL} UNION ALL SELECT * FROM o"), at=7)
line("update", query(f"{BUT_A_ROW_OF_T} UNION ALL SELECT * FROM t"), at=7)
line("update", query(f"{BUT_A_ROW_OF_T} UNION ALL SELECT * FROM t UNION ALL SELECT * FROM o LIMIT 1"), at=7)
