#!/usr/bin/env python3
"""Measures the program on large inputs: instructions, by callgrind of valgrind, processor time and peak memory.

    tools/measure.py [--program FILE] [--transactions N] [--quick] [NAME..]
    tools/measure.py --table [--program FILE] [NAME..]     the lines of the table in docs/PERFORMANCE.md

The inputs are those of tools/inputs.py, all or those whose names have one of the words. The mixed ones run by replay, all others by turns. Each is
measured with N transactions and with half as many. The last column, the instructions of the whole divided by those of the half, tells how the cost
grows: it is 2 if the cost is in proportion. --quick leaves out callgrind, and then that column is of the processor time.
Each run must end with status 0; if one does not, neither does this tool.
"""
import argparse
import contextlib
import dataclasses
import pathlib
import re
import subprocess
import sys
import tempfile

from inputs import SET, TABLE, made
from worked_runs import BUILT

LOAD = ["load", "7", "2000"]


# Runs a program on a file, and prints its status, its seconds of processor time and its kilobytes at the peak. The peak that the system reports for a
# process is at least what its parent held when the process began, so the parent is this small one.
SMALL_PARENT = """
import os, subprocess, sys
with open(sys.argv[1], "rb") as source:
    process = subprocess.Popen(sys.argv[2:], stdin=source, stdout=subprocess.DEVNULL)
_, status, usage = os.wait4(process.pid, 0)
print(os.waitstatus_to_exitcode(status), usage.ru_utime + usage.ru_stime, usage.ru_maxrss)
"""


def used(program, words, file):
    """The status, the seconds of processor time and the megabytes at the peak."""
    ran = subprocess.run([sys.executable, "-S", "-c", SMALL_PARENT, file, program, *words], capture_output=True, text=True, check=True)
    status, seconds, kilobytes = ran.stdout.split()
    return int(status), float(seconds), int(kilobytes) / 1024


def instructions(program, words, file):
    """The status, and how many instructions were executed."""
    with open(file, "rb") as source:
        whole = ["valgrind", "--tool=callgrind", "--callgrind-out-file=/dev/null", program, *words]
        ran = subprocess.run(whole, stdin=source, stdout=subprocess.DEVNULL, stderr=subprocess.PIPE, text=True)
    return ran.returncode, int(re.search(r"Collected : (\d+)", ran.stderr)[1])


def words_of(plan):
    return ["replay" if plan.shape == "mixed" else "turns"]


@contextlib.contextmanager
def stored(plan):
    """The input of a plan, in a file."""
    with tempfile.NamedTemporaryFile("w") as file:
        file.write(made(plan))
        file.flush()
        yield file.name


def table(program, is_asked):
    """Prints the lines of the table, and returns whether each run ended with status 0."""
    are_well = True
    for name, told in TABLE.items():
        if not is_asked(name):
            continue
        words = words_of(SET[name])
        with stored(SET[name]) as file:
            status, count = instructions(program, words, file)
        are_well &= status == 0
        print(f"| `{name}`: {told}, `{words[0]}` | {count / 1e6:.0f} |", flush=True)
    if is_asked("load"):
        status, count = instructions(program, LOAD, "/dev/null")
        are_well &= status == 0
        print(f"| `{' '.join(LOAD)}` | {count / 1e6:.0f} |")
    return are_well


def growth(program, is_asked, transactions, quick):
    """Prints what each input takes, beside one of half the size, and returns whether each run ended with status 0."""
    are_well = True
    print(f"{'input':30}{'words':8}{'lines':>7}{'status':>7}{'seconds':>9}{'MB':>7}{'millions':>10}{'growth':>8}")
    for name, plan in SET.items():
        if not is_asked(name):
            continue
        words, costs = words_of(plan), []
        for count in (transactions // 2, transactions):
            with stored(dataclasses.replace(plan, transactions=count)) as file:
                status, seconds, peak = used(program, words, file)
                lines = pathlib.Path(file).read_bytes().count(b"\n")
                costs.append(seconds if quick else instructions(program, words, file)[1])
            are_well &= status == 0
        millions = "" if quick else f"{costs[1] / 1e6:.0f}"
        print(f"{name:30}{words[0]:8}{lines:7}{status:7}{seconds:9.2f}{peak:7.0f}{millions:>10}{costs[1] / max(costs[0], 1e-9):8.1f}", flush=True)
    return are_well


def main():
    options = argparse.ArgumentParser(description=__doc__, formatter_class=argparse.RawDescriptionHelpFormatter)
    options.add_argument("--program", type=pathlib.Path, default=BUILT)
    options.add_argument("--transactions", type=int, default=4_000)
    options.add_argument("--quick", action="store_true")
    options.add_argument("--table", action="store_true")
    options.add_argument("names", nargs="*")
    given = options.parse_args()

    def is_asked(name):
        return not given.names or any(word in name for word in given.names)

    program = given.program.resolve()
    are_well = table(program, is_asked) if given.table else growth(program, is_asked, given.transactions, given.quick)
    return 0 if are_well else 1


if __name__ == "__main__":
    sys.exit(main())
