#!/usr/bin/env python3
"""Measures commits a second of clients in threads on one file: the example embedded_shared, SQLite and RocksDB, each on the same transfers.

    tools/bench_threads.py [--seconds N] [--rounds N] [--folder FOLDER]

Each client has a thread, and makes transfers between accounts: it counts the transfer, and adds to two accounts, in a transaction that is on the disk before it
is answered. SQLite has a write-ahead log and synchronous=FULL, RocksDB pessimistic transactions and a synced write (bench_threads.cpp). For each number of
clients the number of transfers is such that a run takes at least N seconds. The stores take turns, round after round, since the speed of a disk changes; the median of the rounds is printed. The calls of fsync and
fdatasync are counted by strace in another run. It needs g++, strace and the packages libsqlite3-dev and librocksdb-dev; what is missing is left out.
"""
import argparse
import os
import pathlib
import re
import shutil
import statistics
import subprocess
import sys
import tempfile
import time

TOP = pathlib.Path(__file__).resolve().parent.parent
TEBALDI = TOP / "crates/embedded_shared/out/embedded_shared"
SOURCE = TOP / "tools/bench_threads.cpp"
BYTES = 67_108_864
CLIENTS = (1, 2, 4, 8, 32)
# (the transfers of a first run, which are doubled until it takes long enough, and of the run whose calls are counted)
FIRST = 320
TRACED = 3200


def stores(folder):
    """Returns the command of each store: from a path, a number of clients and a number of transfers of each."""
    found = {}
    if TEBALDI.exists():
        found["Tebaldi"] = lambda path, clients, count: [TEBALDI, path, str(BYTES), str(clients), str(count)]
    others = f"{folder}/others"
    made = subprocess.run(["g++", "-O2", "-std=c++17", SOURCE, "-o", others, "-lrocksdb", "-lsqlite3", "-lpthread"], capture_output=True, text=True, check=False)
    if made.returncode:
        print(f"left out: SQLite and RocksDB: {made.stderr.splitlines()[:1]}", file=sys.stderr)
        return found
    for name, word in (("SQLite", "sqlite"), ("RocksDB", "rocksdb")):
        found[name] = lambda path, clients, count, word=word: [others, word, path, str(clients), str(count)]
    return found


def removed(path):
    """Removes what a store has left there."""
    for it in (path, f"{path}-wal", f"{path}-shm"):
        if os.path.isdir(it):
            shutil.rmtree(it)
        elif os.path.exists(it):
            os.unlink(it)


def seconds_of(command, path, clients, count):
    """Returns the seconds of a run on a new file, in which each client makes so many transfers."""
    removed(path)
    start = time.time()
    done = subprocess.run(command(path, clients, count), capture_output=True, text=True, check=True)
    if f"{clients * count} transfers, and 0 in all accounts\n" not in done.stdout:
        sys.exit(f"the sums are wrong: {done.stdout}")
    return time.time() - start


def syncs_of(command, path, clients, count):
    """Returns how often a run on a new file syncs, by strace; None without strace."""
    if not shutil.which("strace"):
        return None
    removed(path)
    traced = subprocess.run(["strace", "-f", "-c", "-e", "trace=fsync,fdatasync", *command(path, clients, count)], capture_output=True, text=True, check=True)
    return sum(int(calls) for calls in re.findall(r"^ *[\d.]+ +[\d.]+ +\d+ +(\d+) .*sync$", traced.stderr, re.MULTILINE))


def count_for(command, path, clients, seconds):
    """Returns how many transfers of each client take at least so many seconds."""
    count = -(-FIRST // clients)
    while seconds_of(command, path, clients, count) < seconds:
        count *= 2
    return count


def measured(found, folder, clients, seconds, rounds):
    """Yields, for each store, its name, the median of its commits a second, and the syncs of a commit."""
    rates = {name: [] for name in found}
    counts = {name: count_for(command, f"{folder}/{name}", clients, seconds) for name, command in found.items()}
    for _ in range(rounds):
        for name, command in found.items():
            rates[name].append(clients * counts[name] / seconds_of(command, f"{folder}/{name}", clients, counts[name]))
    traced = -(-TRACED // clients)
    for name, command in found.items():
        syncs = syncs_of(command, f"{folder}/{name}", clients, traced)
        yield name, statistics.median(rates[name]), None if syncs is None else syncs / (clients * traced)


def bare_syncs(path, seconds):
    """How many calls of fdatasync, each after a short write, the disk makes in a second."""
    handle, start, count = os.open(path, os.O_CREAT | os.O_WRONLY), time.time(), 0
    while time.time() - start < seconds:
        os.pwrite(handle, bytes(48), 48 * count)
        os.fdatasync(handle)
        count += 1
    os.close(handle)
    return count / (time.time() - start)


def main():
    words = argparse.ArgumentParser(description=__doc__, formatter_class=argparse.RawDescriptionHelpFormatter)
    words.add_argument("--seconds", type=float, default=1, help="how long each run takes at least, or nearly")
    words.add_argument("--rounds", type=int, default=5, help="how many runs each store makes for each number of clients")
    words.add_argument("--folder", default="/var/tmp", help="where the files are, on a disk")
    given = words.parse_args()
    with tempfile.TemporaryDirectory(dir=given.folder) as folder:
        print(f"bare calls of fdatasync a second: {bare_syncs(f'{folder}/bare', given.seconds):.0f}")
        found = stores(folder)
        for clients in CLIENTS:
            for name, rate, syncs in measured(found, folder, clients, given.seconds, given.rounds):
                print(f"{name}, {clients} clients: {rate:.0f} commits a second, {'-' if syncs is None else f'{syncs:.2f}'} syncs a commit", flush=True)
    return 0


if __name__ == "__main__":
    sys.exit(main())
