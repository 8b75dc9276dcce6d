"""Lines from which no JSON value can be read, and one string that is a value but no edit."""
import sys

lines = [
    b"append",
    b'{"edit":"append"',
    b"{'edit':'append'}",
    b'{"edit":"append",}',
    b"{edit:1}",
    b"{} {}",
    b"{}x",
    b"[1,2",
    b"[1 2]",
    b"01",
    b"1.",
    b"+1",
    b"True",
    b'"\\x"',
    b'"a tab\tas it is"',
    b'"\xff"',
    b'"\xc3"',
    b'"no end',
    b'"a value"',
]
sys.stdout.buffer.write(b"".join(line + b"\n" for line in lines))
