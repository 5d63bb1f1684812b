#!/usr/bin/env python3
"""Has each allocation of a program fail in turn, and sees that the program says so.

Usage: tools/no_memory.py PROGRAM < INPUT

PROGRAM is a built program, as `rt run` leaves it in crates/NAME/out/NAME; it is given INPUT each time. It is run once as it is, and once for each of
its allocations, which then gets no memory: a C library is put before the system's (cc builds it). Such a run has to end with a status above 0 and
words on standard error, and what it has printed has to be a beginning, by whole lines, of what it prints where there is memory. Or, where the program
can do without that memory (a list that is filled without room reserved), all has to be as it is where there is memory. The exit status is 1 where
neither is so.
"""
import os
import subprocess
import sys
import tempfile

FAILING = r"""
#define _GNU_SOURCE
#include <dlfcn.h>
#include <errno.h>
#include <stdlib.h>
#include <unistd.h>

static long left = -1;

/* Whether this is the allocation that gets nothing; it is told on the descriptor that the variable names. */
static int fails(void) {
    if (left == -1) {
        const char *number = getenv("FAILING_ALLOCATION");
        left = number ? atol(number) : 0;
    }
    if (left == 0 || --left > 0)
        return 0;
    const char *told = getenv("TOLD_ON");
    if (told && write(atoi(told), "!", 1) != 1)
        _exit(99);
    errno = ENOMEM;
    return 1;
}

void *malloc(size_t size) {
    static void *(*real)(size_t);
    if (!real)
        real = (void *(*)(size_t))dlsym(RTLD_NEXT, "malloc");
    return fails() ? NULL : real(size);
}

void *realloc(void *old, size_t size) {
    static void *(*real)(void *, size_t);
    if (!real)
        real = (void *(*)(void *, size_t))dlsym(RTLD_NEXT, "realloc");
    return fails() ? NULL : real(old, size);
}
"""


def library(folder):
    source, built = os.path.join(folder, "failing.c"), os.path.join(folder, "failing.so")
    with open(source, "w") as out:
        out.write(FAILING)
    subprocess.run(["cc", "-shared", "-fPIC", "-O1", "-o", built, source, "-ldl"], check=True)
    return built


def run(program, given, built, number):
    """What the program comes to, and whether its allocation of that number was made and failed."""
    there, here = os.pipe()
    env = dict(os.environ, LD_PRELOAD=built, FAILING_ALLOCATION=str(number), TOLD_ON=str(here))
    came = subprocess.run([program], input=given, capture_output=True, env=env, pass_fds=[here], timeout=60)
    os.close(here)
    with os.fdopen(there, "rb") as told:
        return came, told.read() != b""


def amiss(came, whole):
    if came.returncode == 0 and came.stdout == whole and not came.stderr:
        return None
    if came.returncode <= 0:
        return "ends with status %d" % came.returncode
    if not came.stderr:
        return "says nothing on standard error"
    if not whole.startswith(came.stdout) or (came.stdout and not came.stdout.endswith(b"\n")):
        return "prints what it does not print where there is memory"
    return None


def main():
    if len(sys.argv) != 2 or not os.path.isfile(sys.argv[1]):
        sys.exit(__doc__.strip())
    program, given = os.path.abspath(sys.argv[1]), sys.stdin.buffer.read()
    with tempfile.TemporaryDirectory() as folder:
        built = library(folder)
        whole, failed = run(program, given, built, 0)
        if failed or whole.returncode != 0:
            sys.exit("the program fails as it is: status %d" % whole.returncode)
        number, wrong, spared = 0, 0, 0
        while True:
            came, failed = run(program, given, built, number + 1)
            if not failed:
                break
            number += 1
            words = amiss(came, whole.stdout)
            if words:
                wrong += 1
                print("without its allocation %d it %s" % (number, words))
            elif came.returncode == 0:
                spared += 1
    print("%d allocations: %d are told, %d are done without, %d are amiss" % (number, number - spared - wrong, spared, wrong))
    sys.exit(1 if wrong or not number else 0)


if __name__ == "__main__":
    main()
