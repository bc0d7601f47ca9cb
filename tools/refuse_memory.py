#!/usr/bin/env python3
"""Runs one test so many times over, and lets one allocation find no memory: the first, then the second, and so on to the last.

    tools/refuse_memory.py CRATE TEST       as rl_book tests::due::a_page_goes_on

The tests are proved and built first, by `rt test`. A run may pass, or the test may give up with want of memory; a run that ends
otherwise is told, and the status is then 1. Which allocation fails is counted in the C library's `malloc` and `realloc`, which
a small library that is loaded before it stands in for. `rt try --test --fail-alloc N` does the same for one N, and builds the
tests anew for each.
"""
import os
import subprocess
import sys
import tempfile
from pathlib import Path

TOP = Path(__file__).resolve().parent.parent
SECONDS = 60

# With REFUSED=0 nothing is refused, and the count of allocations is written to standard error at the end.
LIBRARY = r"""
#include <stddef.h>
#include <stdio.h>
#include <stdlib.h>

void *__libc_malloc(size_t);
void *__libc_realloc(void *, size_t);

static long refused, count;

__attribute__((constructor)) static void begin(void) {
    const char *text = getenv("REFUSED");
    refused = text ? atol(text) : 0;
    count = 0;
}

__attribute__((destructor)) static void end(void) {
    if (!refused) fprintf(stderr, "allocations %ld\n", count);
}

void *malloc(size_t size) { return ++count == refused ? NULL : __libc_malloc(size); }

void *realloc(void *at, size_t size) { return ++count == refused ? NULL : __libc_realloc(at, size); }
"""

WANT = (b"NoMemory", b"AllocFailed", b"AllocError")


def compiled(folder):
    """The library, compiled into a folder."""
    source, library = os.path.join(folder, "refuse.c"), os.path.join(folder, "refuse.so")
    with open(source, "w", encoding="utf-8") as file:
        file.write(LIBRARY)
    subprocess.run(["cc", "-O1", "-shared", "-fPIC", "-o", library, source], check=True)
    return library


def run(program, test, library, refused):
    """The status of a test with this allocation refused, and what it wrote."""
    done = subprocess.run(
        [program, test], env={**os.environ, "LD_PRELOAD": library, "REFUSED": str(refused)},
        stdin=subprocess.DEVNULL, stdout=subprocess.PIPE, stderr=subprocess.STDOUT, timeout=SECONDS,
    )
    return done.returncode, done.stdout


def main():
    if len(sys.argv) != 3:
        sys.exit("refuse_memory.py: the words are CRATE TEST")
    crate, test = sys.argv[1:]
    folder = TOP / "crates" / crate
    if subprocess.run(["rt", "test", "--", test], cwd=folder, stdout=subprocess.DEVNULL).returncode != 0:
        sys.exit(f"refuse_memory.py: rt test in crates/{crate} does not pass")
    program = folder / "out" / f"{crate}_tests"
    passed, gave_up, last, wrong = 0, 0, 0, 0
    with tempfile.TemporaryDirectory() as scratch:
        library = compiled(scratch)
        status, wrote = run(program, test, library, 0)
        if status != 0 or not wrote.split()[-2:-1] == [b"allocations"]:
            sys.exit(f"refuse_memory.py: {test} does not pass where nothing is refused")
        count = int(wrote.split()[-1])
        for refused in range(1, count + 1):
            status, wrote = run(program, test, library, refused)
            if status == 0:
                passed += 1
            elif status > 0 and any(word in wrote for word in WANT):
                gave_up, last = gave_up + 1, refused
            else:
                wrong += 1
                print(f"allocation {refused}: status {status}\n{wrote.decode(errors='replace')}")
    print(f"{crate} {test}: {count} allocations; {passed} runs passed, {gave_up} gave up, the last at {last}, {wrong} are wrong")
    sys.exit(1 if wrong or not count else 0)


main()
