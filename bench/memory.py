#!/usr/bin/env python3
"""Refuses an allocation in each build, and checks what that build and the next one make of it: memory.py [STEP [FIRST]]

Two projects are built, each anew for every number: one command that copies a file, with -j1, and the program and its library of
examples/demo, with `-j4 release`, where scripts stand in place of the compiler and the archiver. The first build is refused the allocation
with the number FIRST, FIRST + STEP, FIRST + 2 * STEP and so on, until none is refused, since the build takes fewer; FIRST and STEP are 1
where they are not given. It must end with status 5, having written a beginning of what it writes otherwise, or as it does otherwise; and no
process that it started may be left. The second build has all memory. It must end with status 0 and leave the bytes of a build in a new
folder, and a third one must start nothing.

A refused allocation is one of the C library's `malloc` and its like, which a library that is loaded before it stands for. It needs cc,
and runs the program ./b2 that setup.sh leaves, or the one that B2 names. With STEP 1 it takes about twenty minutes. Its status is 1
where something was wrong; the folder is then kept."""
import os
import shutil
import subprocess
import sys
import tempfile

from runs import LONGEST, differing, files, fresh, program, report_of, run, write

NAMES = ("join", "gcc.compile.c++", "gcc.archive", "gcc.link")

# Refuses the allocation with the number REFUSED, and tells so by the file REFUSED_AT. The programs that are started from here know
# nothing of this.
REFUSING = r"""
#include <errno.h>
#include <fcntl.h>
#include <stddef.h>
#include <stdlib.h>
#include <string.h>
#include <unistd.h>
extern void *__libc_malloc(size_t), *__libc_calloc(size_t, size_t), *__libc_realloc(void *, size_t), *__libc_memalign(size_t, size_t);
static long left;
static char told[4096];
__attribute__((constructor)) static void begin(void) {
    const char *number = getenv("REFUSED"), *path = getenv("REFUSED_AT");
    long first = number ? atol(number) : 0;
    if (path) strncpy(told, path, sizeof told - 1);
    unsetenv("LD_PRELOAD"), unsetenv("REFUSED"), unsetenv("REFUSED_AT");
    left = first;
}
static int is_refused(void) {
    if (left == 0 || --left > 0) return 0;
    close(open(told, O_CREAT | O_WRONLY, 0600));
    errno = ENOMEM;
    return 1;
}
void *malloc(size_t size) { return is_refused() ? NULL : __libc_malloc(size); }
void *calloc(size_t count, size_t size) { return is_refused() ? NULL : __libc_calloc(count, size); }
void *realloc(void *old, size_t size) { return is_refused() ? NULL : __libc_realloc(old, size); }
void *aligned_alloc(size_t align, size_t size) { return is_refused() ? NULL : __libc_memalign(align, size); }
int posix_memalign(void **made, size_t align, size_t size) {
    if (is_refused()) return ENOMEM;
    return (*made = __libc_memalign(align, size)) ? 0 : ENOMEM;
}
"""

# In place of g++ and ar: the output has the bytes of the inputs.
COMPILER = """#!/bin/sh
while [ "$1" != -o ]; do shift; done
out=$2; shift 2; cat "$@" > "$out"
"""
ARCHIVER = """#!/bin/sh
out=$2; shift 2; cat "$@" > "$out"
"""


def one_command(folder):
    """Writes the project of one command, and gives the words of its build."""
    write(folder, "Jamroot", "actions join { cat $(>) > $(<) }\nmake out.txt : in.txt : @join ;\n")
    write(folder, "in.txt", "hello\n")
    return ["-j1"]


def demo(folder):
    """Copies examples/demo, and gives the words of its build."""
    top = os.path.dirname(os.path.dirname(os.path.abspath(__file__)))
    shutil.copytree(os.path.join(top, "examples", "demo"), folder, dirs_exist_ok=True)
    return ["-j4", "release"]


def refused(folder, words, number, library):
    """Builds with this allocation refused. Gives the report, whether one was refused, and whether a process is left."""
    told = folder + ".refused"
    environment = dict(os.environ, LD_PRELOAD=library, REFUSED=str(number), REFUSED_AT=told)
    with tempfile.TemporaryFile() as printed:
        started = subprocess.Popen([program()] + words, cwd=folder, stdin=subprocess.DEVNULL, stdout=printed,
                                   stderr=subprocess.DEVNULL, env=environment, start_new_session=True)
        try:
            status = started.wait(timeout=LONGEST)
        except subprocess.TimeoutExpired:
            status = -1
        try:
            os.killpg(started.pid, 9)
            is_left = True
        except ProcessLookupError:
            is_left = False
        printed.seek(0)
        report = report_of(status, printed.read().decode(errors="replace"), NAMES)
    is_refused = os.path.exists(told)
    if is_refused:
        os.unlink(told)
    return report, is_refused, is_left


def wrong_of_first(report, is_left, otherwise):
    """What is wrong with a build that was refused an allocation, where it ends otherwise with that report."""
    if is_left:
        return "a process is left"
    if report.status == 5:
        return None if otherwise.text.startswith(report.text) else "it wrote something else"
    if (report.status, report.text) == (otherwise.status, otherwise.text):
        return None
    return f"it ended with status {report.status}"


def wrong_of_next(folder, words, built):
    """What is wrong with the builds that follow, where a build in a new folder leaves these files."""
    second = run(folder, words, NAMES)
    if second.status != 0:
        return f"the next build ended with status {second.status}"
    others = differing(built, files(folder))
    if others:
        return "the next build left other bytes: " + " ".join(others)
    third = run(folder, words, NAMES)
    if third.status != 0 or third.started:
        return "the build after it started something"
    return None


def attempt(make, work, library, number):
    """One number. Gives what is wrong, the status of the first build, and whether it was refused an allocation."""
    folder = os.path.join(work, "project")
    os.mkdir(folder)
    words = make(folder)
    otherwise, built = fresh(folder, words, NAMES)
    first, is_refused, is_left = refused(folder, words, number, library)
    wrong = wrong_of_first(first, is_left, otherwise) or wrong_of_next(folder, words, built)
    if wrong is None:
        shutil.rmtree(folder)
    return wrong, first.status, is_refused


def main():
    step = int(sys.argv[1]) if len(sys.argv) > 1 else 1
    first = int(sys.argv[2]) if len(sys.argv) > 2 else 1
    work = tempfile.mkdtemp()
    library = os.path.join(work, "refusing.so")
    source = os.path.join(work, "refusing.c")
    with open(source, "w") as file:
        file.write(REFUSING)
    subprocess.run(["cc", "-shared", "-fPIC", "-O1", "-o", library, source], check=True)
    for name, text in [("g++", COMPILER), ("ar", ARCHIVER)]:
        path = os.path.join(work, "tools", name)
        write(work, os.path.join("tools", name), text)
        os.chmod(path, 0o755)
    os.environ["PATH"] = os.path.join(work, "tools") + os.pathsep + os.environ["PATH"]
    for name, make in [("one command", one_command), ("examples/demo", demo)]:
        number, statuses, is_refused = first, {}, True
        while is_refused:
            wrong, status, is_refused = attempt(make, work, library, number)
            if wrong:
                print(f"{name}, allocation {number}: {wrong}; see {work}/project")
                return 1
            if is_refused:
                statuses[status] = statuses.get(status, 0) + 1
            number += step
        told = ", ".join(f"{count} with status {status}" for status, count in sorted(statuses.items()))
        print(f"{name}: {sum(statuses.values())} builds were refused an allocation: {told}; each next build was right")
    shutil.rmtree(work)
    return 0


if __name__ == "__main__":
    sys.exit(main())
