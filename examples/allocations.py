"""Refuses each allocation of the program in turn, on a run.

    python3 examples/allocations.py [--only NAME] PROGRAM

A small library that is put before the C library's makes the Nth allocation fail, for N from 1 up to the
number of allocations of the run. Each run must give the whole report and status 0, or status 4 with a
first part of the report, or of a starved report. It needs a C compiler (`cc`), so it isn't among the
checks of `.ci/run`. Its last line is `N passed, M failed`."""
import os
import shutil
import subprocess
import sys
import tempfile

HERE = os.path.dirname(os.path.abspath(__file__))

SHIM = r"""
#define _GNU_SOURCE
#include <dlfcn.h>
#include <errno.h>
#include <stdlib.h>
#include <unistd.h>
static long count, refused = -1;
static int refuse(void) {
    if (refused < 0) { const char *at = getenv("REFUSED"); refused = at ? atol(at) : 0; }
    return ++count == refused;
}
void *malloc(size_t size) {
    static void *(*next)(size_t);
    if (!next) next = dlsym(RTLD_NEXT, "malloc");
    if (refuse()) { errno = ENOMEM; return NULL; }
    return next(size);
}
void *realloc(void *old, size_t size) {
    static void *(*next)(void *, size_t);
    if (!next) next = dlsym(RTLD_NEXT, "realloc");
    if (refuse()) { errno = ENOMEM; return NULL; }
    return next(old, size);
}
int posix_memalign(void **out, size_t align, size_t size) {
    static int (*next)(void **, size_t, size_t);
    if (!next) next = dlsym(RTLD_NEXT, "posix_memalign");
    if (refuse()) return ENOMEM;
    return next(out, align, size);
}
void *aligned_alloc(size_t align, size_t size) {
    static void *(*next)(size_t, size_t);
    if (!next) next = dlsym(RTLD_NEXT, "aligned_alloc");
    if (refuse()) { errno = ENOMEM; return NULL; }
    return next(align, size);
}
__attribute__((destructor)) static void told(void) {
    const char *to = getenv("COUNTED");
    if (to) { FILE_WRITE }
}
""".replace("FILE_WRITE", 'char text[32]; int n = 0; long c = count; do { text[n++] = (char)(48 + c % 10); c /= 10; } while (c); '
            'char turned[32]; for (int i = 0; i < n; i++) turned[i] = text[n - 1 - i]; '
            'extern int open(const char *, int, ...); int f = open(to, 01 | 0100 | 01000, 0600); '
            'if (f >= 0) { if (write(f, turned, n) < 0) {} close(f); }')


def run(program, words, stdin, shim, number, folder, place):
    counted = os.path.join(folder, "counted")
    env = dict(os.environ, LD_PRELOAD=shim, REFUSED=str(number), COUNTED=counted)
    p = subprocess.run([program] + words, input=stdin, stdout=subprocess.PIPE, stderr=subprocess.PIPE, env=env, timeout=60, cwd=place)
    made = int(open(counted).read()) if os.path.exists(counted) else 0
    return p.returncode, p.stdout, made


def is_front(text, whole):
    """Whether the text is a first part of the report, or of one that ends in a starved block."""
    if whole.startswith(text):
        return True
    lines, report = text.split(b"\n"), whole.split(b"\n")
    at = 0
    while at < len(lines) and at < len(report) and lines[at] == report[at]:
        at += 1
    left = b"\n".join(lines[at:])
    starved = left.startswith(b"starved cell ") or b"starved cell ".startswith(left)
    return starved and at > 0 and report[at - 1].startswith(b"version ")


def main(argv):
    name = "a_version_with_its_dataset"
    if argv[:1] == ["--only"]:
        name, argv = argv[1], argv[2:]
    if len(argv) != 1:
        print(__doc__)
        return 2
    program = os.path.abspath(argv[0])
    case = os.path.join(HERE, name)
    words = open(os.path.join(case, "args")).read().split("\n")[:-1]
    stdin = open(os.path.join(case, "stdin"), "rb").read()
    whole = open(os.path.join(case, "stdout"), "rb").read()
    passed = failed = done = wanting = 0
    with tempfile.TemporaryDirectory() as folder:
        source, shim = os.path.join(folder, "refuse.c"), os.path.join(folder, "refuse.so")
        with open(source, "w") as f:
            f.write(SHIM)
        subprocess.run(["cc", "-shared", "-fPIC", "-O1", "-o", shim, source, "-ldl"], check=True)
        place, data = os.path.join(folder, "place"), os.path.join(case, "data")
        shutil.copytree(data, place) if os.path.isdir(data) else os.mkdir(place)
        _, _, all_made = run(program, words, stdin, shim, 0, folder, place)
        for number in range(1, all_made + 1):
            status, text, _ = run(program, words, stdin, shim, number, folder, place)
            if status == 0 and text == whole:
                passed, done = passed + 1, done + 1
            elif status == 4 and is_front(text, whole):
                passed, wanting = passed + 1, wanting + 1
            else:
                failed += 1
                print("allocation %d refused: status %d, wrote %r" % (number, status, text[:200]))
    print("%s: %d allocations; refused one at a time, %d runs found no memory and %d ended with the whole report" % (name, all_made, wanting, done))
    print("%d passed, %d failed" % (passed, failed))
    return 1 if failed or not passed else 0


if __name__ == "__main__":
    sys.exit(main(sys.argv[1:]))
