#!/usr/bin/env python3
"""Runs the pool's test of a refused mini-transaction with one allocation refused, for each one that it makes.

The test `a_refused_change_changes_nothing` makes 64 changes of 64 pages. Whichever allocation is refused in that call,
the call answers OutOfMemory and the pool is as it was. The tests are built once, by `rt test`, and run with a library
in front of the C library whose `malloc` and `realloc` refuse the allocation of a number and count all. Without rt, or
without a C compiler, nothing runs.

    tests/page_pool_memory.py [PROGRAM]
"""
import os
import shutil
import subprocess
import sys
import tempfile

TOP = os.path.dirname(os.path.dirname(os.path.abspath(__file__)))
BUILT = os.path.join(TOP, "crates/page_pool/out/page_pool_tests")
TEST = "tests::a_refused_change_changes_nothing"

# The allocation whose number is in REFUSED is refused. At the end COUNTED names a file for the count of all.
SHIM = r"""
#include <fcntl.h>
#include <stddef.h>
#include <stdio.h>
#include <stdlib.h>
#include <unistd.h>

extern void *__libc_malloc(size_t size);
extern void *__libc_realloc(void *at, size_t size);

static long count = 0;
static long refused = -1;

static int is_refused(void) {
    if (refused < 0) {
        const char *word = getenv("REFUSED");
        refused = word ? atol(word) : 0;
    }
    count += 1;
    return count == refused;
}

void *malloc(size_t size) { return is_refused() ? NULL : __libc_malloc(size); }

void *realloc(void *at, size_t size) { return is_refused() ? NULL : __libc_realloc(at, size); }

__attribute__((destructor)) static void tell(void) {
    char text[32];
    const char *name = getenv("COUNTED");
    int file = name ? open(name, O_WRONLY | O_CREAT | O_TRUNC, 0600) : -1;
    if (file >= 0) {
        int length = snprintf(text, sizeof text, "%ld", count);
        if (write(file, text, length) != length) _exit(99);
        close(file);
    }
}
"""


def compiled(folder, compiler):
    source = os.path.join(folder, "refuse.c")
    with open(source, "w") as file:
        file.write(SHIM)
    library = os.path.join(folder, "refuse.so")
    subprocess.run([compiler, "-O1", "-shared", "-fPIC", "-o", library, source], check=True)
    return library


def run(program, library, folder, number):
    """The run's status and output, and how many allocations it made."""
    counted = os.path.join(folder, "counted")
    if os.path.exists(counted):
        os.remove(counted)
    env = {"LD_PRELOAD": library, "REFUSED": str(number), "COUNTED": counted}
    ran = subprocess.run([program, TEST], cwd=folder, env=env, capture_output=True, text=True, timeout=60, check=False)
    count = 0
    if os.path.exists(counted):
        with open(counted) as file:
            count = int(file.read())
    return ran.returncode, ran.stdout + ran.stderr, count


def main():
    compiler = shutil.which("cc") or shutil.which("clang") or shutil.which("gcc")
    if compiler is None:
        print("skipped: no C compiler")
        return 77
    if len(sys.argv) > 1:
        program = sys.argv[1]
    elif shutil.which("rt") is None:
        print("skipped: no rt")
        return 77
    else:
        program = BUILT
        subprocess.run(["rt", "test"], cwd=os.path.join(TOP, "crates/page_pool"), stdout=subprocess.DEVNULL, check=True)
    with tempfile.TemporaryDirectory() as folder:
        library = compiled(folder, compiler)
        status, said, count = run(program, library, folder, 0)
        failed = [0] if status != 0 or count < 64 else []
        for number in range(1, count + 1):
            status, said, _ = run(program, library, folder, number)
            if status != 0:
                failed.append(number)
                print(f"allocation {number} of {count}: status {status}: {said.strip()[-200:]}")
    print(f"{count} allocations, each refused once, {len(failed)} failed")
    return 1 if failed else 0


if __name__ == "__main__":
    sys.exit(main())
