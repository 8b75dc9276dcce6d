"""256 versions, then edits that are refused by something else first, and two for which there is no room."""
import sys

lines = ['{"edit":"append","branch":"main","cell":{"make":"t","columns":[["a","int"]],"rows":[[1]]}}']
lines += ['{"edit":"branch","branch":"b%d","from":1}' % n for n in range(1, 256)]
lines += [
    '{"edit":"delete","branch":"b256","at":1}',
    '{"edit":"branch","branch":"b1","from":257}',
    '{"edit":"delete","branch":"main","at":2}',
    '{"edit":"branch","branch":"b1","from":256}',
    '{"edit":"branch","branch":"b256","from":256}',
    '{"edit":"delete","branch":"main","at":1}',
]
sys.stdout.write("".join(line + "\n" for line in lines))
