#!/usr/bin/env python3
"""Gives the scripts of the worked runs of `replay` to the shell, each on a new file, and compares the replies.

    tools/shell_replies.py [--program FILE] [WORD..]     those with one of the words in their names, or all

The replies of `replay` are the lines before its report. Left out are lines that are too long for the shell, and a run in which more transactions begin than an
epoch has: there the shell goes on in the next one. The last line is `replies: N passed, M failed`.
"""
import argparse
import pathlib
import re
import sys
import tempfile

from worked_runs import SHELL, Run, all_runs, difference, ended

MOST_LINE_BYTES = 65_536
MOST_TXNS = 8_192


def replies(text):
    """What `replay` writes before its report."""
    return re.split(rb"(?m)^order\b", text)[0]


def is_for_shell(run):
    """Whether it is a whole run of `replay` on an input that the shell takes as one epoch."""
    if not isinstance(run, Run) or run.words != [b"replay"] or run.statuses != [0] or run.output or run.breaks or run.room is not None:
        return False
    fits = isinstance(run.input, bytes) and max(map(len, run.input.split(b"\n"))) <= MOST_LINE_BYTES
    return fits and isinstance(run.text, bytes) and len(re.findall(rb"(?m)^\d+ begun ", run.text)) < MOST_TXNS


def why(program, run):
    tree, _, script = re.split(rb"(?m)^(%%\r?(?:\n|\Z))", run.input, maxsplit=1)
    with tempfile.TemporaryDirectory() as room:
        pathlib.Path(room, "tree").write_bytes(tree)
        status, text = ended(program, [f"{room}/store", f"{room}/tree"], script)
    wanted = replies(run.text)
    if status:
        return f"status {status}"
    return None if text == wanted else difference(wanted, text)


def main():
    options = argparse.ArgumentParser(description=__doc__, formatter_class=argparse.RawDescriptionHelpFormatter)
    options.add_argument("--program", type=pathlib.Path, default=SHELL)
    options.add_argument("words", nargs="*")
    given = options.parse_args()
    passed = failed = 0
    for run in all_runs(given.words):
        if not is_for_shell(run):
            continue
        said = why(given.program, run)
        passed, failed = passed + (not said), failed + bool(said)
        if said:
            print(f"FAILED {run.name}: {said}")
    print(f"replies: {passed} passed, {failed} failed")
    return 1 if failed or not passed else 0


if __name__ == "__main__":
    sys.exit(main())
