"""Runs the program over inputs and outputs that fail and in little memory, and compares its status and what it says.

    python3 examples/faults.py PROGRAM [WORDS]

The last line is `N passed, M failed`, and the status is 1 where a check failed.
"""
import json
import os
import resource
import shutil
import subprocess
import sys
import tempfile

SECONDS = 120
STREAM_LIMIT = 16777216
FILE_LIMIT = 1048576
CELL_LIMIT = 48
MEMORY = 1 << 30
LINE = (b'{"edit":"append","branch":"main","cell":{"make":"t",'
        b'"columns":[["a","int"],["b","text"]],"rows":[[1,"x"],[2,null]]}}\n')
WIDE = (b'{"edit":"append","branch":"main","cell":{"make":"t",'
        b'"columns":[["b","text"]],"rows":[["' + 50000 * b"x" + b'"]]}}\n')


def ended(status, errors, wanted, name):
    """What is wrong with the status, or with the line on standard error where it isn't 0."""
    wrong = []
    if status != wanted:
        wrong.append(f"the status is {status}, and {wanted} is wanted")
    line = f"vizier: {name}"
    if name and line not in errors.decode("utf-8", "backslashreplace").split("\n"):
        wrong.append(f"not on standard error: {line}")
    return wrong


def to_a_full_disk(command, stream):
    with open("/dev/full", "wb") as full:
        run = subprocess.run(command + ["serial"], input=stream, stdout=full,
                             stderr=subprocess.PIPE, timeout=SECONDS)
    return run.returncode, run.stderr


def a_report_to_a_full_disk_is_a_write_fault(command):
    status, errors = to_a_full_disk(command, LINE)
    return ended(status, errors, 3, "WriteFault")


def a_write_fault_comes_before_a_stream_that_is_too_long(command):
    status, errors = to_a_full_disk(command, LINE + STREAM_LIMIT * b"\n")
    return ended(status, errors, 3, "WriteFault")


def nothing_to_write_is_no_fault_of_a_full_disk(command):
    status, errors = to_a_full_disk(command, b"\n \n")
    return ended(status, errors, 0, None)


def a_reader_that_leaves_is_a_write_fault(command):
    """The reader takes ten bytes of a report that is longer than any pipe holds, and closes.

    The program is started with SIGPIPE ignored: else that signal ends it before a write can fail.
    """
    with tempfile.TemporaryFile() as stream:
        stream.write(40 * WIDE)
        stream.seek(0)
        run = subprocess.Popen(command + ["serial"], stdin=stream, stdout=subprocess.PIPE,
                               stderr=subprocess.PIPE, bufsize=0, restore_signals=False)
        first = b""
        while len(first) < 10 and (more := run.stdout.read(10 - len(first))):
            first += more
        run.stdout.close()
        errors = run.stderr.read()
        run.stderr.close()
        status = run.wait(SECONDS)
    wrong = ended(status, errors, 3, "WriteFault")
    if first != b"version 1 ":
        wrong.append(f"the first ten bytes are {first}")
    return wrong


def on_a_folder(command, words):
    """The program over a standard input that is a folder, which no read of bytes can read."""
    with tempfile.TemporaryDirectory() as folder:
        handle = os.open(folder, os.O_RDONLY)
        try:
            return subprocess.run(command + words, stdin=handle, stdout=subprocess.PIPE,
                                  stderr=subprocess.PIPE, timeout=SECONDS)
        finally:
            os.close(handle)


def an_input_that_cannot_be_read_is_a_read_fault(command):
    run = on_a_folder(command, ["serial"])
    wrong = ended(run.returncode, run.stderr, 2, "ReadFault")
    if run.stdout:
        wrong.append(f"it wrote {run.stdout}")
    return wrong


def nothing_is_read_where_the_words_are_wrong(command):
    run = on_a_folder(command, ["serial", "serial"])
    return ended(run.returncode, run.stderr, 1, "BadWords")


LOAD = b'{"edit":"append","branch":"main","cell":{"load":"t","file":"f","types":["int"]}}\n'


def at_a_load(command, words, prepared, stream=LOAD, before_run=None):
    """The program in a folder of its own, which is prepared first, over one append of a load of `f`, or another stream."""
    with tempfile.TemporaryDirectory() as place:
        prepared(os.path.join(place, "f"))
        return subprocess.run(command + words, input=stream, cwd=place, stdout=subprocess.PIPE,
                              stderr=subprocess.PIPE, timeout=SECONDS, preexec_fn=before_run)


def wrote(run, text, status=0, name=None):
    wrong = ended(run.returncode, run.stderr, status, name)
    return wrong if run.stdout == text else wrong + [f"it wrote {run.stdout[:200]}"]


def bytes_of(count):
    """Makes a file of a header and one long number, with so many bytes."""
    def write(path):
        with open(path, "wb") as file:
            file.write(b"n\n" + (count - 2) * b"1")
    return write


def a_folder_that_is_loaded_is_a_file_fault(command):
    return wrote(at_a_load(command, ["serial"], os.mkdir), b"line 1 refused E10 FileFault\n")


def a_file_of_one_byte_too_many_is_refused(command):
    run = at_a_load(command, ["serial"], bytes_of(FILE_LIMIT + 1))
    return wrote(run, b"line 1 refused E9 FileTooLong\n")


def a_file_at_the_limit_is_loaded(command):
    run = at_a_load(command, ["serial"], bytes_of(FILE_LIMIT))
    return wrote(run, b"version 1 main\ncell 1 #1 ok\ndataset t\n  columns n int\n  #1: ~null\nend 1\n")


def edit(word, branch, cell, **place):
    return json.dumps(dict(edit=word, branch=branch, cell=cell, **place)).encode() + b"\n"


def loads_before_and_after_a_full_version():
    """Loads of `f` that are refused whatever the file is, and at lines 5 and 58 two that are in order but for the file."""
    make, load = {"make": "t", "columns": [["a", "int"]], "rows": []}, {"load": "t", "file": "f"}
    return b"".join([
        edit("append", "b", load), edit("insert", "main", load, at=0), edit("insert", "main", load, at=2),
        edit("update", "main", load, at=1), edit("append", "main", load),
        *[edit("append", "main", make)] * CELL_LIMIT,
        edit("append", "main", load), edit("insert", "main", load, at=CELL_LIMIT),
        edit("insert", "main", load, at=CELL_LIMIT + 2), edit("update", "main", load, at=CELL_LIMIT + 1),
        edit("update", "main", load, at=CELL_LIMIT)])


def before_the_file(command, prepared, fault):
    """What is wrong with the report of these loads, where the file has this fault."""
    lines = [f"line {line} refused {name}" for line, name in enumerate(
        ["E3 NoBranch", "E5 NoCell", "E5 NoCell", "E5 NoCell", fault], 1)]
    for version in range(1, CELL_LIMIT + 1):
        lines += [f"version {version} main", *[f"cell {cell} #{cell} ok" for cell in range(1, version + 1)],
                  "dataset t", "  columns a int", f"end {version}"]
    lines += [f"line {line} refused {name}" for line, name in enumerate(
        ["E7 TooMany", "E7 TooMany", "E5 NoCell", "E5 NoCell", fault], 54)]
    run = at_a_load(command, ["serial"], prepared, loads_before_and_after_a_full_version())
    return wrote(run, "".join(line + "\n" for line in lines).encode())


def what_refuses_an_edit_comes_before_a_missing_file(command):
    return before_the_file(command, lambda path: None, "E8 NoFile")


def what_refuses_an_edit_comes_before_a_file_that_is_too_long(command):
    return before_the_file(command, bytes_of(FILE_LIMIT + 1), "E9 FileTooLong")


def what_refuses_an_edit_comes_before_a_file_that_cannot_be_read(command):
    return before_the_file(command, os.mkdir, "E10 FileFault")


def a_picks_file_that_is_a_folder_is_a_fault(command):
    return wrote(at_a_load(command, ["serial", "--picks", "f"], os.mkdir), b"", 7, "PicksFault")


def a_picks_file_of_one_byte_too_many_is_bad(command):
    run = at_a_load(command, ["serial", "--picks", "f"], bytes_of(FILE_LIMIT + 1))
    return wrote(run, b"", 5, "BadPicks 0")


def a_long_text_and_many_numbers(path):
    """Makes two files: `f` with one text of 1,000,000 bytes, and `fs` with 60,000 numbers."""
    with open(path, "wb") as file:
        file.write(b"a\n" + 1000000 * b"x" + b"\n")
    with open(path + "s", "wb") as file:
        file.write(b"b\n" + 60000 * b"1\n")


def limit_memory():
    """Leaves 1 GB of memory, in which a quick unproved build can't begin: these checks need the proved one."""
    resource.setrlimit(resource.RLIMIT_AS, (MEMORY, MEMORY))


def a_join_that_repeats_a_long_text_takes_little_memory(command):
    """Its pairs have 60 GB of text, and the program has 1 GB of memory."""
    stream = b"".join(edit("append", "main", cell) for cell in [
        {"load": "t", "file": "f", "types": ["text"]}, {"load": "u", "file": "fs", "types": ["int"]},
        {"sql": "SELECT u.b FROM t JOIN u ON TRUE", "into": "j"}])
    for tables in "u JOIN t", "u LEFT JOIN t":
        stream += edit("update", "main", {"sql": f"SELECT u.b FROM {tables} ON TRUE", "into": "j"}, at=3)
    run = at_a_load(command, ["serial"], a_long_text_and_many_numbers, stream, limit_memory)
    wrong = ended(run.returncode, run.stderr, 0, None)
    for version in b"3", b"4", b"5":
        if b"version %s main\ncell 1 #1 ok\ncell 2 #2 ok\ncell 3 #%s error TooLarge\n" % (version, version) not in run.stdout:
            wrong.append(f"version {version} isn't there with its error")
    return wrong


def numbers(path):
    """Makes a file of 60,000 numbers, each once."""
    with open(path, "w", encoding="ascii") as file:
        file.write("a\n" + "".join(f"{number}\n" for number in range(60000)))


def a_query_of_many_items_takes_little_memory(command):
    """Its rows would have 60,000,000 values, once without groups and once in a group each, and the program has 1 GB of memory."""
    items = ", ".join(f"a AS x{number}" for number in range(1000))
    stream = (edit("append", "main", {"load": "t", "file": "f", "types": ["int"]})
              + edit("append", "main", {"sql": f"SELECT {items} FROM t", "into": "q"})
              + edit("update", "main", {"sql": f"SELECT {items} FROM t GROUP BY a", "into": "q"}, at=2))
    run = at_a_load(command, ["serial"], numbers, stream, limit_memory)
    wrong = ended(run.returncode, run.stderr, 0, None)
    for version in b"2", b"3":
        if b"version %s main\ncell 1 #1 ok\ncell 2 #%s error TooLarge\n" % (version, version) not in run.stdout:
            wrong.append(f"version {version} isn't there with its error")
    return wrong


CHECKS = (
    a_join_that_repeats_a_long_text_takes_little_memory,
    a_query_of_many_items_takes_little_memory,
    a_folder_that_is_loaded_is_a_file_fault,
    a_file_of_one_byte_too_many_is_refused,
    a_file_at_the_limit_is_loaded,
    what_refuses_an_edit_comes_before_a_missing_file,
    what_refuses_an_edit_comes_before_a_file_that_is_too_long,
    what_refuses_an_edit_comes_before_a_file_that_cannot_be_read,
    a_picks_file_that_is_a_folder_is_a_fault,
    a_picks_file_of_one_byte_too_many_is_bad,
    a_report_to_a_full_disk_is_a_write_fault,
    a_write_fault_comes_before_a_stream_that_is_too_long,
    nothing_to_write_is_no_fault_of_a_full_disk,
    a_reader_that_leaves_is_a_write_fault,
    an_input_that_cannot_be_read_is_a_read_fault,
    nothing_is_read_where_the_words_are_wrong,
)


def main(words):
    if not words:
        print(__doc__)
        return 2
    command = [os.path.abspath(word) if os.path.exists(word) else word for word in words]
    if shutil.which(command[0]) is None:
        print(f"there is no program {words[0]}\n0 passed, {len(CHECKS)} failed")
        return 1
    passed = failed = 0
    for check in CHECKS:
        try:
            wrong = check(command)
        except (OSError, subprocess.TimeoutExpired) as fault:
            wrong = [str(fault)]
        if wrong:
            failed += 1
            print(f"FAILED {check.__name__}")
            print("\n".join("    " + line for line in wrong))
        else:
            passed += 1
    print(f"{passed} passed, {failed} failed")
    return 1 if failed else 0


if __name__ == "__main__":
    sys.exit(main(sys.argv[1:]))
