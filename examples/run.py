"""Runs the examples beside this file and prints what differs.

    python3 examples/run.py [--only NAME] PROGRAM [WORDS]

Each folder here that has a file `args` is a run of PROGRAM with WORDS and then the words of `args`, in
an empty folder of its own:

    args     the words, one a line
    stdin    what the program reads; or stdin.py, a program that prints it
    stdout   what it must write, whole; or stdout.py, a program that prints it by the rules of
             docs/FORMATS.md
    status   the status that it must end with, where that isn't 0
    stderr   lines that must stand on standard error
    data/    files that lie in the folder in which it runs

The last line is `N passed, M failed`, and the status is 1 where a run failed.
"""
import difflib
import os
import shutil
import subprocess
import sys
import tempfile

HERE = os.path.dirname(os.path.abspath(__file__))
SECONDS = 120


def read(path):
    with open(path, "rb") as file:
        return file.read()


def text_of(folder, name):
    """The bytes of a file of a run, or what the program NAME.py beside it prints."""
    made_by = os.path.join(folder, name + ".py")
    if os.path.exists(made_by):
        return subprocess.run([sys.executable, made_by], stdout=subprocess.PIPE, check=True).stdout
    return read(os.path.join(folder, name))


def lines_of(folder, name):
    path = os.path.join(folder, name)
    return read(path).decode().split("\n")[:-1] if os.path.exists(path) else []


def run(folder, command):
    """The status, the output and the standard error of the run of a folder."""
    words = lines_of(folder, "args")
    with tempfile.TemporaryDirectory() as place:
        data = os.path.join(folder, "data")
        if os.path.isdir(data):
            shutil.copytree(data, place, dirs_exist_ok=True)
        ended = subprocess.run(command + words, input=text_of(folder, "stdin"), cwd=place,
                               stdout=subprocess.PIPE, stderr=subprocess.PIPE, timeout=SECONDS)
    return ended.returncode, ended.stdout, ended.stderr


def shown(text):
    """The lines of an output, in which bytes that are no text are escaped."""
    return text.decode("utf-8", "backslashreplace").split("\n")


def differences(folder, command):
    """What is wrong with the run of a folder, a line each."""
    try:
        status, output, errors = run(folder, command)
    except subprocess.TimeoutExpired:
        return [f"it ran for more than {SECONDS} seconds"]
    except OSError as fault:
        return [str(fault)]
    wrong = []
    wanted = int((lines_of(folder, "status") or ["0"])[0])
    if status != wanted:
        wrong.append(f"the status is {status}, and {wanted} is wanted")
    for line in lines_of(folder, "stderr"):
        if line not in shown(errors):
            wrong.append(f"not on standard error: {line}")
    wanted_output = text_of(folder, "stdout")
    if output != wanted_output:
        wrong.append("the output differs:")
        wrong += list(difflib.unified_diff(shown(wanted_output), shown(output), "wanted", "written",
                                           lineterm="", n=1))[:24]
    if wrong and errors:
        wrong += ["on standard error:"] + shown(errors)[-5:]
    return wrong


def runs(only):
    names = sorted(os.listdir(HERE))
    return [name for name in names
            if os.path.isfile(os.path.join(HERE, name, "args")) and only in (None, name)]


def main(words):
    only = None
    if words[:1] == ["--only"] and len(words) > 1:
        only, words = words[1], words[2:]
    if not words:
        print(__doc__)
        return 2
    command = [os.path.abspath(word) if os.path.exists(word) else word for word in words]
    names = runs(only)
    if shutil.which(command[0]) is None:
        print(f"there is no program {words[0]}\n0 passed, {len(names)} failed")
        return 1
    passed = failed = 0
    for name in names:
        wrong = differences(os.path.join(HERE, name), command)
        if wrong:
            failed += 1
            print(f"FAILED {name}")
            print("\n".join("    " + line for line in wrong))
        else:
            passed += 1
    print(f"{passed} passed, {failed} failed")
    return 1 if failed or not passed else 0


if __name__ == "__main__":
    sys.exit(main(sys.argv[1:]))
