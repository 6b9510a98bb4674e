#!/usr/bin/env python3
"""Tries the store that sessions share, by the example program embedded_shared, on real files.

    tools/store_in_threads.py [--kills N] [--transfers N]    8 clients in threads make transfers, and the sums are compared; they make as many again, and
                                                             the printed run of each epoch is audited; the program is killed again and again amid
                                                             transfers; each call of its disk fails once, under 4 clients. The last line is
                                                             `N passed, M failed`

A client makes transfer number n of its session from an account of the session to the account n places further on. So the number of transfers of each session
says what every account has. The program prints each transfer once it is committed. After a kill it must find, for each session, the last transfer that was
printed, and at most one more, and the accounts that go with them. After a call that failed it makes no further one, and the file has each transfer that was
printed, and of each session at most one more: the commits that were written together may be there or not.

With the word `runs` the program prints the run of each epoch. `tebaldi audit` must accept each, and refuse one in which a value that was read is another.
An epoch begins with the rows that the last one left, and the epochs together have as many commits as there were transfers. The program closes its store with
a checkpoint, unless a call of the disk fails: so the last epoch of a life has no commit.
"""
import argparse
import itertools
import os
import pathlib
import random
import re
import shutil
import subprocess
import sys
import tempfile
import time

TOP = pathlib.Path(__file__).resolve().parent.parent
PROGRAM = TOP / "crates/embedded_shared/out/embedded_shared"
AUDITOR = TOP / "crates/tebaldi/out/tebaldi"
ROW = re.compile(r"(session|account) (\d+) has (-?\d+)\n")
TOLD = re.compile(r"session (\d+) transfer (\d+)\n")
CHECKPOINTED = "closed with a checkpoint: true\n"
NOT_CHECKPOINTED = "closed with a checkpoint: false\n"
GOT = re.compile(r"(got (t\d+) .* )(\S+)")
CLIENTS = 8
FEW = 4
ACCOUNTS = 500
STRIDE = 15
BYTES = 65_536
# (so few that epochs end within a few transfers)
FEW_BYTES = 2048
SECONDS = 600

# A library that is loaded before the program: the call of the disk with the number FAILED_CALL fails. The file TOLD_CALLS gets a byte for each call.
FAILING = r"""
#define _GNU_SOURCE
#include <dlfcn.h>
#include <errno.h>
#include <fcntl.h>
#include <stdatomic.h>
#include <stdlib.h>
#include <unistd.h>
static atomic_long calls;
static int fails(void) {
    int told = open(getenv("TOLD_CALLS"), O_WRONLY | O_CREAT | O_APPEND, 0600);
    if (write(told, "x", 1) != 1) abort();
    close(told);
    if (atomic_fetch_add(&calls, 1) + 1 != atol(getenv("FAILED_CALL"))) return 0;
    errno = EIO;
    return 1;
}
ssize_t pwrite(int file, const void *bytes, size_t count, off_t place) {
    ssize_t (*next)(int, const void *, size_t, off_t) = dlsym(RTLD_NEXT, "pwrite");
    return fails() ? -1 : next(file, bytes, count, place);
}
ssize_t pwrite64(int file, const void *bytes, size_t count, off64_t place) {
    ssize_t (*next)(int, const void *, size_t, off64_t) = dlsym(RTLD_NEXT, "pwrite64");
    return fails() ? -1 : next(file, bytes, count, place);
}
int fdatasync(int file) {
    int (*next)(int) = dlsym(RTLD_NEXT, "fdatasync");
    return fails() ? -1 : next(file);
}
"""


class Trials:
    """Counts what passes, and says what fails."""

    def __init__(self):
        self.passed = self.failed = 0

    def expect(self, what, holds, seen=""):
        if holds:
            self.passed += 1
        else:
            self.failed += 1
            print(f"FAILED {what}: {seen}")


def command_of(path, count, *words, clients=CLIENTS, size=BYTES):
    """Returns the command by which so many clients make so many transfers each."""
    return [PROGRAM, path, str(size), str(clients), str(count), *words]


def run(command, **variables):
    """Runs the program to its end; returns the status, the lines and what it complained."""
    done = subprocess.run(command, capture_output=True, text=True, timeout=SECONDS, check=False, env={**os.environ, **variables})
    return done.returncode, done.stdout.splitlines(True), done.stderr


def rows_in(path, size=BYTES):
    """Returns the transfers of each session and the balance of each account that the file has."""
    status, lines, complaint = run(command_of(path, 0, "loud", size=size))
    if status:
        sys.exit(f"the file is not opened: {complaint}")
    # (nobody makes a transfer, so the program prints what it finds)
    end = next(i for i, line in enumerate(lines) if " transfers, and " in line)
    rows = {"session": {}, "account": {}}
    for what, key, value in (row.groups() for row in map(ROW.fullmatch, lines[:end]) if row):
        rows[what][int(key)] = int(value)
    return rows["session"], rows["account"]


def balances_of(made):
    """Returns the balance of each account that any transfer has changed."""
    balances = {}
    for session, count in made.items():
        first = session * STRIDE
        for number in range(1, count + 1):
            for place, amount in ((first, -1), (first + number, 1)):
                balances[place % ACCOUNTS] = balances.get(place % ACCOUNTS, 0) + amount
    return balances


def told_in(lines):
    """Returns the last transfer of each session that was printed; the last line may be cut off."""
    return {int(match[1]): int(match[2]) for match in map(TOLD.fullmatch, lines) if match}


def has_each(made, told):
    """Whether each transfer that was printed was made, and of each session at most one more."""
    return all(told.get(session, 0) <= made.get(session, 0) <= told.get(session, 0) + 1 for session in made | told)


def try_totals(trials, folder, transfers):
    """8 clients make so many transfers together, over many epochs."""
    path, each = f"{folder}/totals", transfers // CLIENTS
    status, lines, complaint = run(command_of(path, each))
    wanted = [CHECKPOINTED, f"{each * CLIENTS} transfers, and 0 in all accounts\n"]
    trials.expect("the sums", status == 0 and lines == wanted, (status, lines, complaint))
    made, accounts = rows_in(path)
    trials.expect("the transfers of each session", made == {session: each for session in range(1, CLIENTS + 1)}, made)
    trials.expect("the accounts", accounts == balances_of(made), accounts)


def audit(text):
    """Returns the status and the answer of the audit of a text."""
    done = subprocess.run([AUDITOR, "audit"], input=text, capture_output=True, text=True, timeout=SECONDS, check=False)
    return done.returncode, done.stdout


def spoiled(text):
    """Returns a printed run in which the first value that a committed transaction read is another, and the number of that line."""
    lines = text.splitlines(True)
    committed = {line.split()[1] for line in lines if line.startswith("done ")}
    for number, line in enumerate(lines, 1):
        match = GOT.match(line)
        if match and match[2] in committed:
            lines[number - 1] = f"{match[1]}{1 if match[3] == 'none' else int(match[3]) + 1}\n"
            return "".join(lines), number
    return text, 0


def rows_of(text, word):
    """Returns the rows of a printed run that begin with a word, `start` or `row`."""
    return [line.split()[1:] for line in text.splitlines() if line.startswith(f"{word} ")]


def try_runs(trials, folder, transfers):
    """8 clients make so many transfers together, and the run of each epoch is audited."""
    path, each = f"{folder}/runs", transfers // CLIENTS
    status, lines, complaint = run(command_of(path, each, "runs"))
    runs = [text[: text.index("\nend\n") + 5] for text in "".join(lines).split("epoch\n")[1:]]
    # (the last run is that of the epoch that begins with the checkpoint of the closing: it is empty)
    trials.expect("the runs", status == 0 and len(runs) > 2 and CHECKPOINTED in lines, (status, len(runs), complaint))
    left, commits = [], 0
    for number, text in enumerate(runs, 1):
        answer = audit(text)
        trials.expect(f"epoch {number}: the audit", answer == (0, "audit yes\n"), answer)
        trials.expect(f"epoch {number}: the rows that it begins with", rows_of(text, "start") == left)
        left, done = rows_of(text, "row"), len(re.findall("^done ", text, re.MULTILINE))
        trials.expect(f"epoch {number}: whether it has commits", (done > 0) == (number < len(runs)), done)
        commits += done
    trials.expect("the commits", commits == each * CLIENTS, commits)
    made, accounts = rows_in(path)
    rows = {("transfers", key): value for key, value in made.items()} | {("account", key): value for key, value in accounts.items()}
    trials.expect("the rows in the end", {(table, int(key)): int(value) for table, key, value in left} == rows, left)
    text, wrong = spoiled(runs[len(runs) // 2])
    answer = audit(text)
    trials.expect("a value that was read is another", answer == (11, f"audit no line {wrong} read\n"), (wrong, answer))
    print(f"{commits} commits in {len(runs) - 1} epochs are audited")


def try_kills(trials, folder, kills):
    """Kills the program at random moments of its life, and looks each time what the file has; at the end at least one transfer of each session."""
    path, before, choice = f"{folder}/kills", {}, random.Random(11)
    for n in range(kills):
        told = dict(before)
        with tempfile.TemporaryFile("w+") as out:
            with subprocess.Popen(command_of(path, 100_000_000, "loud"), stdout=out, stderr=subprocess.DEVNULL) as it:
                time.sleep(choice.uniform(0.001, 0.4))
                it.kill()
            out.seek(0)
            told |= told_in(out.readlines())
        made, accounts = rows_in(path)
        trials.expect(f"kill {n}: the transfers", has_each(made, told), f"{made} after {told}")
        trials.expect(f"kill {n}: the accounts", accounts == balances_of(made) and sum(accounts.values()) == 0, accounts)
        before = made
    trials.expect("how far it came", len(before) == CLIENTS, before)
    print(f"{sum(before.values())} transfers, {kills} kills")


def try_faults(trials, folder):
    """Fails each call of the disk in turn, on a file that has transfers: it is the last call, and what was printed is there."""
    source, library, start, path, calls = (f"{folder}/{name}" for name in ("failing.c", "failing.so", "some", "failed", "calls"))
    pathlib.Path(source).write_text(FAILING, encoding="utf-8")
    subprocess.run(["cc", "-O1", "-shared", "-fPIC", "-o", library, source, "-ldl"], check=True)
    run(command_of(start, 2, clients=FEW, size=FEW_BYTES))
    for number in itertools.count(1):
        shutil.copyfile(start, path)
        pathlib.Path(calls).write_bytes(b"")
        command = command_of(path, 6, "loud", clients=FEW, size=FEW_BYTES)
        status, lines, complaint = run(command, LD_PRELOAD=library, FAILED_CALL=str(number), TOLD_CALLS=calls)
        made_calls = os.path.getsize(calls)
        if made_calls < number:
            break
        told = {session: 2 for session in range(1, FEW + 1)} | told_in(lines)
        made, accounts = rows_in(path, FEW_BYTES)
        trials.expect(f"call {number}: the last one", made_calls == number, made_calls)
        trials.expect(f"call {number}: the transfers", has_each(made, told), f"{made} after {told}")
        trials.expect(f"call {number}: the accounts", accounts == balances_of(made), accounts)
        # (a call that fails at the opening ends the program; any other stops the store, and it is closed without a checkpoint)
        trials.expect(f"call {number}: what is said", status != 0 or NOT_CHECKPOINTED in lines, lines)
    done = status == 0 and CHECKPOINTED in lines and told_in(lines) == {session: 8 for session in range(1, FEW + 1)}
    trials.expect("without a failure", done, (lines, complaint))
    print(f"{number - 1} calls of the disk failed")


def main():
    words = argparse.ArgumentParser(description=__doc__, formatter_class=argparse.RawDescriptionHelpFormatter)
    words.add_argument("--kills", type=int, default=100, help="how often the program is killed")
    words.add_argument("--transfers", type=int, default=100_000, help="how many transfers are made without a kill")
    words.add_argument("--program", type=pathlib.Path, help="another build of the program")
    given = words.parse_args()
    global PROGRAM
    PROGRAM = (given.program or PROGRAM).resolve()
    for program in (PROGRAM, AUDITOR):
        if not program.exists():
            print(f"{program} is not built: ./check builds it", file=sys.stderr)
            return 2
    trials = Trials()
    # (a kill loses nothing that a file has been told, so a file system in memory is as good, and faster)
    memory = "/dev/shm" if pathlib.Path("/dev/shm").is_dir() else None
    with tempfile.TemporaryDirectory(dir=memory) as folder:
        try_totals(trials, folder, given.transfers)
        try_runs(trials, folder, given.transfers)
        try_kills(trials, folder, given.kills)
        try_faults(trials, folder)
    print(f"{trials.passed} passed, {trials.failed} failed")
    return trials.failed != 0


if __name__ == "__main__":
    sys.exit(main())
