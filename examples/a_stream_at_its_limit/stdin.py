"""16,777,216 bytes: an edit, line ends, and a last edit without one."""
import sys

FIRST = '{"edit":"append","branch":"main","cell":{"make":"t","columns":[["a","int"]],"rows":[[1]]}}\n'
LAST = '{"edit":"delete","branch":"main","at":1}'
MOST = 16777216
sys.stdout.write(FIRST + (MOST - len(FIRST) - len(LAST)) * "\n" + LAST)
