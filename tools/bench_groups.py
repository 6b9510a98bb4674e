#!/usr/bin/env python3
"""Measures commits in groups with two syncs for each group, as the shared store writes them, and pipelined, with one: a program that is not proved (bench_groups.cpp).

    tools/bench_groups.py [--sync MICROSECONDS] [--spread] [--seconds N] [--rounds N] [--sessions N..] [--think MICROSECONDS..] [--folder FOLDER]

Sessions think for so many microseconds of processor time, and commit. With --sync a sync sleeps for so long; else it is fdatasync, on a file in FOLDER. With --spread, sessions think for 0 to twice as long. Each
way is tried with each rule for how long a session waits for others before it writes. The runs take turns, round after round, and medians are told: in a row those of two syncs under the store's rule, and under the
best rule of two syncs and of pipelining. A cell has the commits a second, the syncs for each commit, the milliseconds of a commit, and the commits of each session in the time of two syncs. The medians of all rules go to standard error. It needs g++.
"""
import argparse
import os
import pathlib
import statistics
import subprocess
import sys
import tempfile

SOURCE = pathlib.Path(__file__).resolve().parent / "bench_groups.cpp"
STORE = ("two", "gather")
SCHEMES = (STORE, ("two", "brief"), ("two", "none"), ("pipelined", "gather"), ("pipelined", "brief"), ("pipelined", "none"))


def medians(command, sessions, think, given):
    """Returns, for each scheme with its rule, the medians of what the runs print."""
    runs = {scheme: [] for scheme in SCHEMES}
    words = [str(it) for it in (sessions, think, think if given.spread else 0, given.seconds, given.sync)]
    for _ in range(given.rounds):
        for scheme, found in runs.items():
            done = subprocess.run([*command, *scheme, *words], capture_output=True, text=True, check=True)
            found.append([float(it) for it in done.stdout.split()])
    return {scheme: [statistics.median(column) for column in zip(*found)] for scheme, found in runs.items()}


def cell(values, sessions):
    """Returns the cell of a scheme with these medians."""
    rate, syncs, latency, sync = values
    return f"{rate:,.0f}; {syncs:.2f}; {latency / 1000:.1f}; {rate / sessions * 2 * sync / 1e6:.2f}"


def main():
    words = argparse.ArgumentParser(description=__doc__, formatter_class=argparse.RawDescriptionHelpFormatter)
    words.add_argument("--sync", type=int, default=0, help="microseconds that a simulated sync takes; 0 calls fdatasync")
    words.add_argument("--spread", action="store_true", help="sessions do not all think for the same time")
    words.add_argument("--seconds", type=float, default=1.5, help="how long a run takes")
    words.add_argument("--rounds", type=int, default=3, help="how many runs each scheme makes for each row")
    words.add_argument("--sessions", type=int, nargs="+", default=[1, 2, 4, 8, 16, 32])
    words.add_argument("--think", type=int, nargs="+", default=[0, 20, 200, 1000], help="microseconds of processor time before each commit")
    words.add_argument("--folder", default=SOURCE.parent, help="where the file is, on a disk")
    given = words.parse_args()
    with tempfile.TemporaryDirectory(dir=given.folder) as folder:
        subprocess.run(["g++", "-O2", "-std=c++17", SOURCE, "-o", f"{folder}/program", "-lpthread"], check=True)
        print("| Thinks, µs | Sessions | As the store | Two syncs, best rule | Pipelined, best rule | Pipelined against the store | A sync, µs |")
        print("|---|---|---|---|---|---|---|")
        for think in given.think:
            for sessions in given.sessions:
                found = medians([f"{folder}/program", f"{folder}/file"], sessions, think, given)
                best = {name: max((it for it in SCHEMES if it[0] == name), key=lambda it: found[it][0]) for name in ("two", "pipelined")}
                cells = [f"{cell(found[it], sessions)} ({it[1]})" for it in best.values()]
                sync = statistics.median(it[3] for it in found.values())
                gain = found[best["pipelined"]][0] / found[STORE][0]
                print(f"| {think} | {sessions} | {cell(found[STORE], sessions)} | {cells[0]} | {cells[1]} | {gain:.2f} | {sync:.0f} |", flush=True)
                print(think, sessions, {"/".join(scheme): [round(it, 3) for it in values] for scheme, values in found.items()}, file=sys.stderr, flush=True)
    print(f"(load of the machine at the end: {os.getloadavg()[0]:.1f})")


if __name__ == "__main__":
    main()
