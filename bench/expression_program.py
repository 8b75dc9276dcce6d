"""A thin program over the crates of expressions, for `bench/expressions.py` and `bench/sqlite_expressions.py`.

The program itself has expressions in cells alone, among much else; this one does nothing beside them. Its source is
`bench/expression_bench/main.txt`, which says what it does. It is no crate of the repository: for a run it is set beside
a copy of the crates, in a folder that goes away. `values` runs it unproved; `build` proves it and gives the built
program.
"""
import os
import shutil
import subprocess
import sys
import tempfile

ROOT = os.path.dirname(os.path.dirname(os.path.abspath(__file__)))
NAME = "expression_bench"
LIBRARIES = "value_types dataset_types cell_errors expr_lang expr_parse expr_meaning"


class ExpressionProgram:
    """Use it in a `with`: its folder goes away at the end."""

    def __enter__(self):
        self.folder = tempfile.mkdtemp(prefix="expressions-")
        crates = os.path.join(self.folder, "crates")
        source = os.path.join(crates, NAME, "src")
        os.makedirs(source)
        for crate in os.listdir(os.path.join(ROOT, "crates")):
            shutil.copytree(
                os.path.join(ROOT, "crates", crate), os.path.join(crates, crate), ignore=shutil.ignore_patterns("out")
            )
        shutil.copy(os.path.join(ROOT, "bench", NAME, "main.txt"), os.path.join(source, "main.rt"))
        with open(os.path.join(ROOT, "crates.txt"), encoding="utf-8") as listed:
            lines = listed.read()
        with open(os.path.join(self.folder, "crates.txt"), "w", encoding="utf-8") as listed:
            listed.write(f"{lines}\n{NAME}: {LIBRARIES}\n")
        self.crate = os.path.join(crates, NAME)
        return self

    def __exit__(self, *failure):
        shutil.rmtree(self.folder)

    def rt(self, words, text=""):
        done = subprocess.run(["rt", *words], cwd=self.crate, input=text.encode(), capture_output=True)
        if done.returncode != 0:
            sys.stderr.buffer.write(done.stdout + done.stderr)
            sys.exit(f"rt {' '.join(words)} ended with status {done.returncode}")
        return done.stdout.decode()

    def values(self, lines):
        """What the program tells of each line."""
        told = self.rt(["try", "--", "values"], "".join(f"{line}\n" for line in lines)).splitlines()
        return told[: len(lines)]

    def build(self):
        """The path of the program, proved and built."""
        self.rt(["run", "--", "none"])
        return os.path.join(self.crate, "out", NAME)
