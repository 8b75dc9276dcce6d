"""Lines that are no edit at the numbers 65,535 to 65,537 and 131,073, all others but one edit blank."""
import sys

EDIT = '{"edit":"append","branch":"main","cell":{"make":"t","columns":[["a","int"]],"rows":[[1]]}}'
REFUSED = '{"edit":"delete","branch":"main","at":2}'
BLANKS = ["", " ", "\t", "\r"]
WRITTEN = {65535: "x", 65536: "{}", 65537: REFUSED, 100000: EDIT, 131073: REFUSED}
for number in range(1, 131074):
    sys.stdout.write(WRITTEN.get(number, BLANKS[number % 4]) + "\n")
