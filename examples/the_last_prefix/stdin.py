"""768 distinct prefixes over 64 versions; an edit that would add one more, and edits that add none."""
import sys

CELL = '"cell":{"make":"t","columns":[["a","int"]],"rows":[[1]]}'
APPEND = '{"edit":"append","branch":"main",' + CELL + '}\n'


def update(at):
    return '{"edit":"update","branch":"main","at":%d,%s}\n' % (at, CELL)


lines = 47 * [APPEND]       # 47 prefixes
lines += 15 * [update(1)]   # each 47 more: 752
lines += [update(33)]       # 15 more, from the place 33 to the place 47: 767
lines += [APPEND]           # one more: 768
lines += [update(48)]       # would be one more
lines += ['{"edit":"delete","branch":"main","at":48}\n']
lines += ['{"edit":"branch","branch":"b","from":64}\n']
sys.stdout.write("".join(lines))
