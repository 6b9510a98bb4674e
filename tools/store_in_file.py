#!/usr/bin/env python3
"""Tries and measures the store in a file, by the example program embedded_file, on real files.

    tools/store_in_file.py trials [--kills N]     the program is killed, runs out of disk and of memory, and is started twice, and its calls of the system are
                                                  listed; the last line is `N passed, M failed`
    tools/store_in_file.py speed                  commits a second, memory, and how long a file with 1,000,000 rows takes to open

The program makes transfers between accounts, each in a transaction of its own, and prints the number of each once it is committed. When it starts it
prints how many transfers it finds, and the sum of all accounts, which is 0. So after a kill it must find the last one that was printed, and at most one more.
A full disk is a small file system in memory; only root can make one, and without it that trial is skipped. So is the list of calls, without strace.
"""
import argparse
import itertools
import os
import pathlib
import random
import re
import shutil
import struct
import subprocess
import sys
import tempfile
import time

from refuse_allocations import compiled, refused

TOP = pathlib.Path(__file__).resolve().parent.parent
PROGRAM = TOP / "crates/embedded_file/out/embedded_file"
SHELL = TOP / "crates/tebaldi_shell/out/tebaldi_shell"
FOUND = re.compile(r"found (\d+) transfers, and (-?\d+) in all accounts\n")
CAPACITY = 67_108_864
SECONDS = 120


class Trials:
    """Counts what passes, and says what fails."""

    def __init__(self):
        self.passed = self.failed = 0

    def expect(self, what, holds, seen=""):
        if holds:
            self.passed += 1
        else:
            self.failed += 1
            print(f"FAILED {what}: {seen}")


def run(path, count):
    """Runs the program to its end; returns the status, the lines and what it complained."""
    done = subprocess.run([PROGRAM, path, str(count)], capture_output=True, text=True, timeout=SECONDS, check=False)
    return done.returncode, done.stdout.splitlines(True), done.stderr


def found_in(path):
    """Returns how many transfers the file has, and the sum of the accounts, or None if it is not opened."""
    _, lines, _ = run(path, 0)
    match = FOUND.fullmatch(lines[0]) if lines else None
    return match and (int(match[1]), int(match[2]))


def last_printed(lines):
    """The number of the last transfer that was printed whole; 0 if there is none."""
    whole = [line for line in lines if line.startswith("transfer ") and line.endswith("\n")]
    return int(whole[-1].split()[1]) if whole else 0


def try_kills(trials, folder, kills, least):
    """Kills the program at random moments of its life, and looks each time what the file has; at the end at least so many transfers."""
    path, acknowledged, choice = f"{folder}/kills", 0, random.Random(7)
    for n in range(kills):
        with tempfile.TemporaryFile("w+") as out:
            with subprocess.Popen([PROGRAM, path, "100000000"], stdout=out, stderr=subprocess.DEVNULL) as it:
                time.sleep(choice.uniform(0.001, 0.4))
                it.kill()
            out.seek(0)
            acknowledged = max(acknowledged, last_printed(out.readlines()))
        found = found_in(path)
        right = found is not None and acknowledged <= found[0] <= acknowledged + 1 and found[1] == 0
        trials.expect(f"kill {n}", right, f"{found} after {acknowledged}")
        acknowledged = found[0] if found else acknowledged
    trials.expect("how far it came", acknowledged >= least, acknowledged)


def try_twice(trials, folder):
    """A second process on the file is refused, and the first one is not disturbed."""
    path = f"{folder}/twice"
    with subprocess.Popen([PROGRAM, path, "100000000"], stdout=subprocess.PIPE, text=True) as first:
        first.stdout.readline()
        status, lines, complaint = run(path, 1)
        trials.expect("a second process", status != 0 and not lines and "in use" in complaint, (status, lines, complaint))
        trials.expect("the first process", first.poll() is None)
        first.kill()
        first.stdout.read()


def try_full_disk(trials, folder):
    """The file system is full amid commits or a checkpoint: the program says so, and what it printed is there once there is room."""
    disk = f"{folder}/disk"
    os.mkdir(disk)
    mount = ["mount", "-t", "tmpfs", "-o", "size=64k", "tebaldi", disk]
    if subprocess.run(mount, capture_output=True, check=False).returncode:
        print("skipped: a full disk (only root can mount one)")
        return
    try:
        acknowledged, path = 0, f"{disk}/bank"
        for size in ("128k", "400k", "2m"):
            status, lines, complaint = run(path, 100_000)
            acknowledged = max(acknowledged, last_printed(lines))
            trials.expect(f"below {size}", status != 0 and "disk" in complaint, (status, complaint))
            subprocess.run([*mount[:4], f"remount,size={size}", disk], check=True)
            found = found_in(path)
            trials.expect(f"with {size}", found is not None and acknowledged <= found[0] <= acknowledged + 1 and found[1] == 0, f"{found} after {acknowledged}")
            acknowledged = found[0] if found else acknowledged
        status, lines, complaint = run(path, 20_000)
        trials.expect("with room again", status == 0 and last_printed(lines) == acknowledged + 20_000, complaint)
    finally:
        subprocess.run(["umount", disk], check=False)


def try_refusals(trials, folder):
    """Refuses each allocation of a life in turn, on a new file and on one that has transfers: what was printed is there, and no more. Once the file is open, the only complaint is of memory."""
    library, count, stopped = compiled(folder), 3, 0
    new, old, path = f"{folder}/new", f"{folder}/old", f"{folder}/refused"
    pathlib.Path(new).touch()
    run(old, 40)
    for start, before in ((new, 0), (old, 40)):
        for number in itertools.count(1):
            shutil.copyfile(start, path)
            ran, met = refused([PROGRAM, path, str(count)], b"", library, number)
            if not met:
                break
            lines = ran.stdout.decode().splitlines(True)
            printed, complaint = max(before, last_printed(lines)), ran.stderr.decode()
            trials.expect(f"refusal {number} after {before}: what is there", found_in(path) == (printed, 0), f"{found_in(path)} after {printed}")
            if ran.returncode and lines:
                trials.expect(f"refusal {number} after {before}: the complaint", "out of memory" in complaint, complaint)
                stopped += 1
    trials.expect("refusals amid transfers", stopped > 0, stopped)


def try_shell_refusals(trials, folder):
    """Refuses each allocation of a run of the shell in turn, an epoch with a checkpoint among it: what it answered is there, or one commit more whose answer found no memory, and once it has answered, it ends early only if it is out of memory."""
    if not SHELL.exists():
        print("skipped: refusals in the shell (./check build builds it)")
        return
    library, path = compiled(folder), f"{folder}/shell"
    data = b"1 begin any\n1 write t 1 5\n1 commit\n.checkpoint\n1 begin any\n1 write t 2 6\n1 commit\n"
    for number in itertools.count(1):
        pathlib.Path(path).unlink(missing_ok=True)
        ran, met = refused([SHELL, path], data, library, number)
        if not met:
            break
        committed = ran.stdout.count(b" committed\n")
        rows = subprocess.run([SHELL, path], input=b".rows\n", capture_output=True, timeout=SECONDS, check=False).stdout
        all_rows = [b"row t 1 5\n", b"row t 2 6\n"]
        there = [b"".join(all_rows[:count]) + b"end\n" for count in (committed, committed + 1)]
        trials.expect(f"refusal {number} in the shell: what is there", rows == there[0] or (ran.returncode == 8 and rows == there[1]), (rows, committed))
        if ran.stdout:
            trials.expect(f"refusal {number} in the shell: the status", ran.returncode in (0, 8), ran.returncode)


def try_calls(trials, folder):
    """Lists what the program asks of the system: at the opening a lock and then what is written, each write made safe; for each commit two writes, each made safe before it is printed."""
    if not shutil.which("strace"):
        print("skipped: the calls of the system (apt install strace)")
        return
    log, count = f"{folder}/calls.log", 20
    traced = "flock,fsync,fdatasync,pwrite64,write"
    subprocess.run(["strace", "-f", "-e", f"trace={traced}", "-o", log, PROGRAM, f"{folder}/calls", str(count)], stdout=subprocess.DEVNULL, check=True, timeout=SECONDS)
    calls = re.findall(r"(?m)^\d+ +(\w+)\(.* = \d+$", pathlib.Path(log).read_text())
    commit = ["pwrite64", "fdatasync"] * 2 + ["write"]
    opening = ["flock", "fsync", "fsync", "fdatasync"] + ["pwrite64", "fdatasync"] * 4 + ["write"]
    trials.expect("the calls of an opening", calls[: len(opening)] == opening, calls[: len(opening)])
    trials.expect("the calls of each commit", calls[len(opening) :] == commit * count, calls[len(opening) :][:12])


def write_rows(path, rows):
    """Writes a file as docs/FORMATS.md describes it, with this many rows in the checkpoint of its first half."""
    label = b"account\ntransfers\n"
    changes = b"".join(struct.pack(">BIBq", 0, key, 1, 0) for key in reversed(range(rows)))
    half = struct.pack(">I", len(label)) + label + b"\x01" + struct.pack(">I", rows) + changes + b"\x00"
    pathlib.Path(path).write_bytes(b"\x01TEB1" + struct.pack(">Q", CAPACITY) + half)


def bare_syncs(path, seconds):
    """How many pairs of a write and an fdatasync, two for a commit, the disk makes in a second."""
    handle, start, count = os.open(path, os.O_CREAT | os.O_WRONLY), time.time(), 0
    while time.time() - start < seconds:
        for _ in range(2):
            os.pwrite(handle, bytes(48), 48 * count)
            os.fdatasync(handle)
        count += 1
    os.close(handle)
    return count / (time.time() - start)


def timed(path, count):
    """Returns the seconds and the peak memory in MiB of a run."""
    start = time.time()
    with subprocess.Popen([PROGRAM, path, str(count)], stdout=subprocess.DEVNULL) as it:
        _, status, used = os.wait4(it.pid, 0)
        it.returncode = os.waitstatus_to_exitcode(status)
    return time.time() - start, used.ru_maxrss / 1024


def measure(folder, memory):
    """Prints the figures of docs/PERFORMANCE.md."""
    seconds, _ = timed(f"{folder}/commits", 5000)
    print(f"commits a second on a file: {5000 / seconds:.0f}; pairs of bare fdatasync calls on it: {bare_syncs(f'{folder}/bare', 5):.0f}")
    for count in (20_000, 1_000_000):
        seconds, peak = timed(f"{memory}/{count}", count)
        print(f"{count} transactions, in memory: {seconds:.1f} seconds, peak {peak:.1f} MiB")
    write_rows(f"{folder}/rows", 1_000_000)
    seconds, peak = timed(f"{folder}/rows", 0)
    print(f"a file with 1000000 rows opens in {seconds:.2f} seconds, peak {peak:.1f} MiB")


def main():
    words = argparse.ArgumentParser(description=__doc__, formatter_class=argparse.RawDescriptionHelpFormatter)
    words.add_argument("what", choices=("trials", "speed"))
    words.add_argument("--kills", type=int, default=100)
    words.add_argument("--program", type=pathlib.Path)
    given = words.parse_args()
    global PROGRAM
    PROGRAM = (given.program or PROGRAM).resolve()
    if not PROGRAM.exists():
        print(f"{PROGRAM} is not built: ./check build builds it", file=sys.stderr)
        return 2
    with tempfile.TemporaryDirectory(dir=os.environ.get("TMPDIR", "/var/tmp")) as folder, tempfile.TemporaryDirectory(dir="/dev/shm") as memory:
        if given.what == "speed":
            measure(folder, memory)
            return 0
        trials = Trials()
        try_kills(trials, folder, given.kills, 1)
        # (a file in memory is so quick that kills come amid checkpoints, too)
        try_kills(trials, memory, given.kills, 10_000)
        try_twice(trials, folder)
        try_calls(trials, folder)
        try_refusals(trials, memory)
        try_shell_refusals(trials, memory)
        try_full_disk(trials, folder)
    print(f"{trials.passed} passed, {trials.failed} failed")
    return int(trials.failed != 0)


if __name__ == "__main__":
    sys.exit(main())
