#!/usr/bin/env python3
"""Runs `crash K` for every K on scripts of each kind of tree, and compares with what `replay` writes of the same scripts.

    tools/crash_all.py [--program FILE] [FILE..]      these inputs, or if none is given, one for each kind of tree

Creating the journal takes two calls of the disk, and each commit takes four. So for each K, the replies are those of `replay` up to the commit
at whose call the disk fails, and the rows are the final ones of `replay` on the script cut before that commit.
The last line is `crashes: N passed, M failed`.
"""
import argparse
import concurrent.futures
import functools
import pathlib
import re
import sys

from worked_runs import BUILT, TOP, difference, ended

OF_EACH_KIND = [
    "locks/the-order-is-that-of-the-commits.in",
    "pipelines/orders-run-step-by-step.in",
    "timestamps/*.in",
    "snapshots/*.in",
    "trees/*.in",
    "parts/*.in",
    "scans/*.in",
    "crash/*.in",
]
MOST_LINES = 200


@functools.lru_cache(maxsize=None)
def reported(program, data):
    """The replies and the rows that `replay` writes, or None if it refuses the input."""
    status, text = ended(program, ["replay"], data)
    if status:
        return None
    lines = text.splitlines(True)
    order = next(i for i, line in enumerate(lines) if re.match(rb"order\b", line))
    return lines[:order], [line for line in lines[order + 1 :] if line.startswith(b"row ")]


def asking(script):
    """The places of the lines that ask something."""
    return [i for i, line in enumerate(script) if line.split() and not line.startswith(b"#")]


def wanted(program, data, stop):
    """The text of `crash stop`, worked out from what `replay` writes."""
    head, separator, script = data.partition(b"%%\n")
    replies, rows = reported(program, data)
    commits = [i for i, line in enumerate(replies) if line.endswith(b" committed\n")]
    if stop == 0 or stop > 4 * len(commits) + 2:
        given, kept, halt = replies, len(commits), b""
    elif stop <= 2:
        given, kept, halt = [], 0, b"stopped\n"
    else:
        kept = (stop - 3) // 4
        given, halt = replies[: commits[kept]], b"stopped\n"
    if halt:
        lines = script.splitlines(True)
        front = lines[: asking(lines)[len(given)]] if given else []
        _, rows = reported(program, head + separator + b"".join(front))
    return b"".join(given) + halt + b"recovered %d\n" % kept + b"".join(rows) + b"end\n"


def differs(program, file, stop):
    data = file.read_bytes()
    status, text = ended(program, ["crash", str(stop)], data)
    want = wanted(program, data, stop)
    if (status, text) == (0, want):
        return None
    return f"{file.relative_to(TOP)}, crash {stop}: status {status}, {difference(want, text)}"


def main():
    options = argparse.ArgumentParser(description=__doc__, formatter_class=argparse.RawDescriptionHelpFormatter)
    options.add_argument("--program", type=pathlib.Path, default=BUILT)
    options.add_argument("files", nargs="*", type=pathlib.Path)
    given = options.parse_args()
    program = given.program.resolve()
    files = [it.resolve() for it in given.files] or [file for kind in OF_EACH_KIND for file in sorted((TOP / "runs").glob(kind))]
    cases = []
    for file in files:
        data = file.read_bytes()
        report = reported(program, data) if data.count(b"\n") <= MOST_LINES else None
        if report:
            commits = sum(line.endswith(b" committed\n") for line in report[0])
            cases += [(file, stop) for stop in [*range(4 * commits + 5), 2**31 - 1]]
    with concurrent.futures.ThreadPoolExecutor() as pool:
        wrong = [why for why in pool.map(lambda case: differs(program, *case), cases) if why]
    for why in wrong:
        print(f"FAILED {why}")
    print(f"crashes: {len(cases) - len(wrong)} passed, {len(wrong)} failed")
    return 1 if wrong or not cases else 0


if __name__ == "__main__":
    sys.exit(main())
