"""Lines of 65,536 and of 65,537 bytes: of letters, of spaces, and edits with spaces after them."""
import sys

EDIT = '{"edit":"append","branch":"main","cell":{"make":"u","columns":[["a","int"]],"rows":[]}}'
MOST = 65536
lines = [
    MOST * "x",
    (MOST + 1) * "x",
    MOST * " ",
    (MOST + 1) * " ",
    EDIT.ljust(MOST),
    EDIT.ljust(MOST + 1),
    EDIT.rjust(MOST),
    300000 * "y",
    EDIT,
]
sys.stdout.write("".join(line + "\n" for line in lines))
