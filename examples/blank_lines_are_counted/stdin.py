"""Lines of spaces, tabs and carriage returns between others, and line ends of two bytes."""
import sys

EDIT = b'{"edit":"append","branch":"main","cell":{"make":"u","columns":[["a","int"]],"rows":[]}}'
lines = [b"", b"  ", b"\t \t", b"\r", EDIT + b"\r", b" \r\r", b"\t" + EDIT + b" ", b"\x0c", b"\xc2\xa0", b"x"]
sys.stdout.buffer.write(b"".join(line + b"\n" for line in lines) + b"   ")
