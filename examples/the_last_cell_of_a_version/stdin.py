"""48 cells in a version; one more is refused, but a cell can be replaced, and taken out for another."""
import sys

CELL = '"cell":{"make":"t","columns":[["a","int"]],"rows":[]}'
lines = 48 * ['{"edit":"append","branch":"main",%s}' % CELL]
lines += [
    '{"edit":"append","branch":"main",%s}' % CELL,
    '{"edit":"insert","branch":"main","at":49,%s}' % CELL,
    '{"edit":"insert","branch":"main","at":50,%s}' % CELL,
    '{"edit":"update","branch":"main","at":48,%s}' % CELL,
    '{"edit":"delete","branch":"main","at":1}',
    '{"edit":"insert","branch":"main","at":48,%s}' % CELL,
]
sys.stdout.write("".join(line + "\n" for line in lines))
