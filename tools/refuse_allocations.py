#!/usr/bin/env python3
"""Refuses each allocation of a program in turn.

    tools/refuse_allocations.py [--program FILE] [--first N] WORD.. < INPUT

The words are those of the command. With --first N only the first N allocations are refused. A run with a refused allocation must end with status 8
and nothing written, or as the run without one. A small library, compiled by gcc for each call, replaces the allocator of the C library and answers one
call by "out of memory". The last line is `refused allocations: N passed, M failed`.
"""
import argparse
import concurrent.futures
import itertools
import os
import pathlib
import subprocess
import sys
import tempfile

from worked_runs import BUILT, has_form, shown

OUT_OF_MEMORY = 8
LIBRARY = r"""
#include <errno.h>
#include <stdlib.h>
#include <unistd.h>

extern void *__libc_malloc(size_t), *__libc_calloc(size_t, size_t), *__libc_realloc(void *, size_t), *__libc_memalign(size_t, size_t);

static long made, refused = -1;

static int is_refused(void) {
    if (refused < 0) {
        const char *number = getenv("REFUSED_ALLOCATION");
        refused = number ? atol(number) : 0;
    }
    if (__sync_add_and_fetch(&made, 1) != refused) return 0;
    write(atoi(getenv("REFUSED_TOLD")), "x", 1);
    errno = ENOMEM;
    return 1;
}

void *malloc(size_t size) { return is_refused() ? NULL : __libc_malloc(size); }
void *calloc(size_t count, size_t size) { return is_refused() ? NULL : __libc_calloc(count, size); }
void *realloc(void *old, size_t size) { return is_refused() ? NULL : __libc_realloc(old, size); }
void *memalign(size_t align, size_t size) { return is_refused() ? NULL : __libc_memalign(align, size); }
void *aligned_alloc(size_t align, size_t size) { return is_refused() ? NULL : __libc_memalign(align, size); }
int posix_memalign(void **to, size_t align, size_t size) {
    if (is_refused()) return ENOMEM;
    *to = __libc_memalign(align, size);
    return *to ? 0 : ENOMEM;
}
"""


def compiled(room):
    source, library = f"{room}/refuse.c", f"{room}/refuse.so"
    pathlib.Path(source).write_text(LIBRARY)
    subprocess.run(["gcc", "-O1", "-w", "-fno-builtin", "-shared", "-fPIC", "-o", library, source], check=True)
    return library


def refused(command, data, library, number):
    """A run with that allocation refused, and whether the run reached that allocation."""
    told, tell = os.pipe()
    names = {"LD_PRELOAD": library, "REFUSED_ALLOCATION": str(number), "REFUSED_TOLD": str(tell)}
    ran = subprocess.run(command, input=data, capture_output=True, env={**os.environ, **names}, pass_fds=[tell], check=False)
    os.close(tell)
    with os.fdopen(told, "rb") as it:
        return ran, it.read() == b"x"


def ended(command, data, library, number):
    """The status and the text of a run with that allocation refused, and whether the run reached that allocation."""
    ran, met = refused(command, data, library, number)
    return ran.returncode, ran.stdout, met


def main():
    options = argparse.ArgumentParser(description=__doc__, formatter_class=argparse.RawDescriptionHelpFormatter)
    options.add_argument("--program", type=pathlib.Path, default=BUILT)
    options.add_argument("--first", type=int)
    options.add_argument("words", nargs="+")
    given = options.parse_args()
    command, data = [given.program.resolve(), *given.words], sys.stdin.buffer.read()
    passed, statuses, failed = 0, {}, 0
    with tempfile.TemporaryDirectory() as room, concurrent.futures.ThreadPoolExecutor(len(os.sched_getaffinity(0))) as pool:
        library = compiled(room)
        whole = ended(command, data, library, 0)[:2]
        if not has_form(*whole):
            failed += 1
            print(f"FAILED without a refusal: no text of status {whole[0]}: {shown(whole[1])}")
        for first in itertools.count(1, 64):
            numbers = [number for number in range(first, first + 64) if given.first is None or number <= given.first]
            runs = list(pool.map(lambda number: ended(command, data, library, number), numbers))
            for number, (status, text, met) in zip(numbers, runs):
                if not met:
                    continue
                statuses[status] = statuses.get(status, 0) + 1
                is_well = (status, text) == whole or (status, text) == (OUT_OF_MEMORY, b"")
                passed, failed = passed + is_well, failed + (not is_well)
                if not is_well:
                    print(f"FAILED at allocation {number}: status {status}, {len(text)} bytes written")
            if len(numbers) < 64 or not all(met for *_, met in runs):
                break
    print("statuses: " + ", ".join(f"{status} of {count}" for status, count in sorted(statuses.items())))
    print(f"refused allocations: {passed} passed, {failed} failed")
    return 1 if failed or not passed else 0


if __name__ == "__main__":
    sys.exit(main())
