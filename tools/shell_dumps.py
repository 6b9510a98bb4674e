#!/usr/bin/env python3
"""Opens a store under each tree of the worked runs and examples, dumps it, opens another under the dump, and dumps that.

    tools/shell_dumps.py [--program FILE]

Each tree that a `replay` takes is tried, with its starting rows. Both dumps and the rows of both stores are compared. The last line is `dumps: N passed, M failed`.
"""
import argparse
import concurrent.futures
import os
import pathlib
import re
import sys
import tempfile

from worked_runs import SHELL, Run, all_runs, difference, ended


def trees():
    """The tree parts of the worked runs, each once."""
    found = {}
    for run in all_runs([]):
        if isinstance(run, Run) and isinstance(run.input, bytes) and run.statuses == [0]:
            parts = re.split(rb"(?m)^%%\r?(?:\n|\Z)", run.input, maxsplit=1)
            if len(parts) == 2:
                found.setdefault(parts[0], run.name)
    return found


def why(program, tree):
    """Why the store under a tree and the one under its dump differ, or None. A tree that is refused is none."""
    with tempfile.TemporaryDirectory() as room:
        given, dumped = pathlib.Path(room, "given"), pathlib.Path(room, "dumped")
        given.write_bytes(tree)
        status, first = ended(program, [f"{room}/first", str(given)], b".dump\n")
        if status == 6:
            return None
        dumped.write_bytes(first)
        again, second = ended(program, [f"{room}/second", str(dumped)], b".dump\n")
        if status or again:
            return f"status {status} and {again}"
        rows = [ended(program, [f"{room}/{name}", str(text)], b".rows\n.tables\n.types\n.tree\n.guarantees\n") for name, text in [("first", given), ("second", dumped)]]
        return difference(first, second) if first != second else None if rows[0] == rows[1] else difference(rows[0][1], rows[1][1])


def compared(program, found):
    """Tries them side by side, and yields the name of each with why its stores differ."""
    with concurrent.futures.ThreadPoolExecutor(len(os.sched_getaffinity(0))) as pool:
        yield from zip(found.values(), pool.map(lambda tree: why(program, tree), found))


def main():
    options = argparse.ArgumentParser(description=__doc__, formatter_class=argparse.RawDescriptionHelpFormatter)
    options.add_argument("--program", type=pathlib.Path, default=SHELL)
    given = options.parse_args()
    passed = failed = 0
    for name, said in compared(given.program, trees()):
        passed, failed = passed + (not said), failed + bool(said)
        if said:
            print(f"FAILED the tree of {name}: {said}")
    print(f"dumps: {passed} passed, {failed} failed")
    return 1 if failed or not passed else 0


if __name__ == "__main__":
    sys.exit(main())
