"""An edit, line ends, and a last edit whose line end is byte 16,777,217."""
import sys

FIRST = '{"edit":"append","branch":"main","cell":{"make":"t","columns":[["a","int"]],"rows":[[1]]}}\n'
LAST = '{"edit":"delete","branch":"main","at":1}'
MOST = 16777216
sys.stdout.write(FIRST + (MOST - len(FIRST) - len(LAST)) * "\n" + LAST + "\n")
