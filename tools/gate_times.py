#!/usr/bin/env python3
"""Runs a command of the kit, and reports where its processor time goes, crate by crate.

    tools/gate_times.py [--table FILE] rt ci [CRATE..]     at the top of the repository
    tools/gate_times.py [--table FILE] tools/prove.py

`./check --times` runs the gate so. The table has the processor minutes of each crate, as rows of docs/ARCHITECTURE.md:

    Check    the proof of the crate, and the build of its library or program
    Tests    the proof of the crate with its tests
    Seed     the proof that the must-fail edits of the crate begin with, and the one after them
    Edits    the checks of the crate with each edit
    Tried    the number of those checks

It is on standard output, or in FILE. Once a second the tool notes what each of the prover's processes below the command has used. What a process
uses in its last second is missed, so the last row compares the sum with what the system counted for all processes of the command.
The status is that of the command.
"""
import argparse
import collections
import os
import resource
import subprocess
import sys
import threading
import time

TICKS = os.sysconf("SC_CLK_TCK")
COLUMNS = ("Check", "Tests", "Seed", "Edits")


def stat_of(process):
    """Returns the parent of a process, the seconds that it used, and its start, which tells it from a later one of the same number."""
    with open(f"/proc/{process}/stat", encoding="utf-8", errors="replace") as it:
        words = it.read().rpartition(")")[2].split()
    return words[1], (int(words[11]) + int(words[12])) / TICKS, words[19]


def is_below(process, top):
    """Whether a process was started by top, or by one that top started."""
    while process not in ("0", "1", top):
        process = stat_of(process)[0]
    return process == top


def column_of(words, folder):
    """Returns the column of a process of the prover by its words and its folder, or None if it proves nothing."""
    if "--start" in words:
        return None
    if "/rt-edit-" in folder:
        kept = words[words.index("--incremental") + 1] if "--incremental" in words else ""
        return "Seed" if kept.endswith("/seed") else "Edits"
    return "Tests" if "--test" in words else "Check"


def provers(top):
    """Yields each process of the prover below top: what names it, its crate, its column and its seconds."""
    for process in filter(str.isdigit, os.listdir("/proc")):
        try:
            with open(f"/proc/{process}/cmdline", encoding="utf-8", errors="replace") as it:
                words = it.read().split("\0")
            if os.path.basename(words[0]) != "rattle" or "--crate-name" not in words or not is_below(process, top):
                continue
            column = column_of(words, os.readlink(f"/proc/{process}/cwd"))
            _, used, start = stat_of(process)
        except (OSError, ValueError, IndexError):
            # (it has ended)
            continue
        if column:
            yield (process, start), words[words.index("--crate-name") + 1], column, used


def watched(command):
    """Runs the command. Returns its status, and the crate, the column and the seconds of each process of the prover."""
    seen, ended = {}, threading.Event()
    ran = subprocess.Popen(command)

    def watch():
        while not ended.wait(1):
            seen.update((key, found) for key, *found in provers(str(ran.pid)))

    watcher = threading.Thread(target=watch)
    watcher.start()
    try:
        status = ran.wait()
    finally:
        ended.set()
        watcher.join()
    return status, seen.values()


def table(found, minutes):
    """Returns the rows, the dearest crate first."""
    used, tried = collections.defaultdict(collections.Counter), collections.Counter()
    for crate, column, seconds in found:
        used[crate][column] += seconds / 60
        tried[crate] += column == "Edits"
    shown = lambda it: f"{it:.1f}" if it >= 0.05 else ""
    rows = [["Crate", *COLUMNS, "All", "Tried"], ["---"] * 7]
    for crate, of in sorted(used.items(), key=lambda it: -sum(it[1].values())):
        rows.append([f"`{crate}`", *[shown(of[it]) for it in COLUMNS], shown(sum(of.values())), str(tried[crate] or "")])
    total = sum(used.values(), collections.Counter())
    rows.append(["all", *[shown(total[it]) for it in COLUMNS], shown(sum(total.values())), str(sum(tried.values()) or "")])
    usage = resource.getrusage(resource.RUSAGE_CHILDREN)
    whole = (usage.ru_utime + usage.ru_stime) / 60
    lines = [f"| {' | '.join(row)} |" for row in rows]
    return "\n".join(lines) + f"\n\n{whole:.1f} processor minutes by the count of the system, {minutes:.1f} minutes by the clock\n"


def main():
    parser = argparse.ArgumentParser(description=__doc__, formatter_class=argparse.RawDescriptionHelpFormatter)
    parser.add_argument("--table", metavar="FILE")
    parser.add_argument("command", nargs=argparse.REMAINDER)
    given = parser.parse_args()
    if not given.command:
        parser.error("name a command, as in: tools/gate_times.py rt ci")
    start = time.time()
    status, found = watched(given.command)
    text = table(found, (time.time() - start) / 60)
    if given.table:
        with open(given.table, "w", encoding="utf-8") as it:
            it.write(text)
    else:
        print(text, end="")
    return status if status >= 0 else 128 - status


if __name__ == "__main__":
    sys.exit(main())
