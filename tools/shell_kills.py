#!/usr/bin/env python3
"""Kills the shell amid a long input, again and again, and opens its file each time.

    tools/shell_kills.py [--program FILE] [--count N] [--seed N]

Each round makes up a script of one session that writes and commits, gives it to the shell on one file that is kept from round to round, and kills the
process at some moment. The next round begins with `.rows`: these are the rows after all commits that were answered, or after one more, the commit that was
being made. One round in five is killed at some moment of its start. If it has answered nothing by then, it shows nothing, and is not counted. The others are
killed after their first answer, and some of them amid their commits: if there is no such round, the trial has failed. The last line is
`kills: N passed, M failed`.
"""
import argparse
import os
import pathlib
import random
import subprocess
import sys
import tempfile
import time

TOP = pathlib.Path(__file__).resolve().parent.parent
SHELL = TOP / "crates/tebaldi_shell/out/tebaldi_shell"
COMMITS = 400  # of a round
KEYS = 8
SECONDS = 60  # for the first answer of a round


def script(draw):
    """The lines of a round, and the rows that each commit puts."""
    lines, puts = [".rows"], []
    for _ in range(COMMITS):
        lines.append("1 begin any")
        rows = {draw.randrange(KEYS): draw.randrange(1000) for _ in range(draw.randrange(1, 4))}
        lines += [f"1 write t {key} {value}" for key, value in rows.items()]
        lines.append("1 commit")
        puts.append(rows)
    return "".join(f"{line}\n" for line in lines).encode(), puts


def killed(program, file, data, waits, after):
    """What the shell wrote before it was killed, after so many seconds; if it `waits`, they begin with the first answer."""
    with tempfile.TemporaryFile() as out:
        shell = subprocess.Popen([program, file], stdin=subprocess.PIPE, stdout=out)
        shell.stdin.write(data)
        shell.stdin.flush()
        until = time.monotonic() + (SECONDS if waits else 0)
        while time.monotonic() < until and os.fstat(out.fileno()).st_size == 0:
            time.sleep(0.001)
        time.sleep(after)
        shell.kill()
        shell.wait()
        out.seek(0)
        return out.read().decode()


def rows_in(text):
    """The rows that the first lines show, up to `end`; None if there is no such line."""
    head, end, _ = text.partition("end\n")
    return {int(key): int(value) for _, _, key, value in (line.split() for line in head.splitlines())} if end else None


def play(program, file, draw, waits, may_be):
    """Plays a round on a file whose rows may be these.

    Returns the rows that it shows, how many of its commits were answered, and the rows that there may be after it. The rows are None if it was
    killed before it had answered anything.
    """
    data, puts = script(draw)
    text = killed(program, file, data, waits, draw.uniform(0.0, 0.2 if waits else 0.05))
    rows = rows_in(text)
    if rows is None:
        return None, 0, may_be
    shown, answered = rows, text.count(" committed\n")
    for put in puts[:answered]:
        rows = rows | put
    return shown, answered, [rows] + [rows | put for put in puts[answered : answered + 1]]


def main():
    options = argparse.ArgumentParser(description=__doc__, formatter_class=argparse.RawDescriptionHelpFormatter)
    options.add_argument("--program", type=pathlib.Path, default=SHELL)
    options.add_argument("--count", type=int, default=100)
    options.add_argument("--seed", type=int, default=1)
    given = options.parse_args()
    draw, passed, failed, amid, silent = random.Random(given.seed), 0, 0, 0, 0
    with tempfile.TemporaryDirectory() as room:
        may_be = [{}]
        for _ in range(given.count + 1):
            before, waits = may_be, draw.random() < 0.8
            rows, answered, may_be = play(given.program, f"{room}/store", draw, waits, before)
            passed += rows in before
            amid += 0 < answered < COMMITS
            if rows is None and waits:
                failed += 1
                print(f"FAILED: there was no answer within {SECONDS} seconds")
                break
            if rows is None:
                silent += 1
            elif rows not in before:
                failed += 1
                print(f"FAILED: the rows are {rows} in place of {' or '.join(map(str, before))}")
    print(f"kills: {amid} of {given.count + 1} came amid the commits, {silent} before any answer")
    if not amid:
        failed += 1
        print("FAILED: no round was killed amid its commits")
    print(f"kills: {passed} passed, {failed} failed")
    return 1 if failed else 0


if __name__ == "__main__":
    sys.exit(main())
