#!/usr/bin/env python3
"""Counts the threads that `threads N` and `pool N` start. N workers are the thread that begins and N - 1 others.

    tools/threads_made.py [--program FILE]

No contract and no text of a run shows how many workers there are. A small library, compiled by gcc for each call, counts the calls of `pthread_create`
that succeed. The last line is `threads made: N passed, M failed`.
"""
import argparse
import os
import pathlib
import subprocess
import sys
import tempfile

from worked_runs import BUILT, TOP

INPUT = TOP / "runs/turns/a-shop-of-eight-sessions.in"
WORKERS = (1, 2, 3, 8, 16)
LIBRARY = r"""
#define _GNU_SOURCE
#include <dlfcn.h>
#include <pthread.h>
#include <stdlib.h>
#include <unistd.h>

typedef int create(pthread_t *, const pthread_attr_t *, void *(*)(void *), void *);

int pthread_create(pthread_t *thread, const pthread_attr_t *attributes, void *(*begin)(void *), void *given) {
    create *next = (create *)dlsym(RTLD_NEXT, "pthread_create");
    int failed = next(thread, attributes, begin, given);
    if (!failed) write(atoi(getenv("THREADS_TOLD")), "x", 1);
    return failed;
}
"""


def compiled(room):
    source, library = f"{room}/count.c", f"{room}/count.so"
    pathlib.Path(source).write_text(LIBRARY)
    subprocess.run(["gcc", "-O1", "-w", "-shared", "-fPIC", "-o", library, source, "-ldl", "-lpthread"], check=True)
    return library


def made(command, data, library):
    """The status of a run, and how many threads it started."""
    told, tell = os.pipe()
    names = {"LD_PRELOAD": library, "THREADS_TOLD": str(tell)}
    ran = subprocess.run(command, input=data, stdout=subprocess.DEVNULL, env={**os.environ, **names}, pass_fds=[tell], check=False)
    os.close(tell)
    with os.fdopen(told, "rb") as it:
        return ran.returncode, len(it.read())


def main():
    options = argparse.ArgumentParser(description=__doc__, formatter_class=argparse.RawDescriptionHelpFormatter)
    options.add_argument("--program", type=pathlib.Path, default=BUILT)
    program, data = options.parse_args().program.resolve(), INPUT.read_bytes()
    passed, failed = 0, 0
    with tempfile.TemporaryDirectory() as room:
        library = compiled(room)
        for word in ("threads", "pool"):
            for workers in WORKERS:
                status, threads = made([program, word, str(workers)], data, library)
                is_well = (status, threads) == (0, workers - 1)
                passed, failed = passed + is_well, failed + (not is_well)
                if not is_well:
                    print(f"FAILED: {word} {workers}: status {status}, {threads} threads started")
    print(f"threads made: {passed} passed, {failed} failed")
    return 1 if failed else 0


if __name__ == "__main__":
    sys.exit(main())
