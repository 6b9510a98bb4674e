#!/usr/bin/env python3
"""Proves the crates, the lowest first, as many at once as processors and memory allow, and tells how far it is.

    tools/prove.py [CRATE..]     these crates and those below them, or all

Of the crates that are ready, the one with the longest chain of others above it is first. A crate that is proved already, by the work that checks
on this machine kept, takes seconds. The kit's `rt all check` does the same, but first it reads the sources of every program and of every library
that no crate uses, and walks every path through the dependencies. This is no gate: it takes kept work as it is, and runs no test and no edit.
The status is 0 if all are proved.
"""
import os
import pathlib
import sys
import tempfile
import threading
import time

import kit_rt

TOP = pathlib.Path(__file__).resolve().parent.parent
EVERY = 30  # seconds between two lines of progress
SHOWN = 40  # lines of what a failed proof said


class Progress:
    """What is said of a run: a line for each crate that is done, and one from time to time."""

    def __init__(self, number):
        self.number, self.done, self.at_work, self.start = number, 0, {}, time.time()
        self.lock, self.ended = threading.Lock(), threading.Event()
        self.teller = threading.Thread(target=self.tell, daemon=True)

    def say(self, text):
        print(f"check: {text}", flush=True)

    def tell(self):
        while not self.ended.wait(EVERY):
            with self.lock:
                self.say(f"{self.done} of {self.number} crates done after {self.seconds()} seconds; at work on {', '.join(self.at_work) or 'none'}")

    def seconds(self):
        return round(time.time() - self.start)

    def begins(self, name):
        with self.lock:
            self.at_work[name] = time.time()

    def ends(self, name, is_proved, log):
        with self.lock:
            self.done += 1
            took = time.time() - self.at_work.pop(name)
            self.say(f"{name} is {'proved' if is_proved else 'NOT PROVED'}, {self.done} of {self.number}, in {took:.0f} seconds")
            if not is_proved:
                log.seek(0)
                print(*log.read().splitlines()[-SHOWN:], sep="\n", file=sys.stderr, flush=True)

    def skips(self, name, lacking):
        with self.lock:
            self.done += 1
            self.say(f"{name} is not tried, since {lacking} failed, {self.done} of {self.number}")


def proved(crate, is_library, progress, given, jobs):
    """Proves a crate once those below it are done: builds it if another crate uses it, and else only checks it."""
    lacking = next((it.name for it in crate.below() if not given[it.name, "proof"]), None)
    if lacking:
        progress.skips(crate.name, lacking)
        return False
    progress.begins(crate.name)
    os.makedirs(f"{crate.folder}/out", exist_ok=True)
    with tempfile.TemporaryFile("w+", errors="replace") as crate.out:
        flags, status = ["--jobs", str(jobs)], 1
        try:
            status = crate.build_rlib(flags, anew=False) if is_library else crate.check(flags)
        except SystemExit:
            pass
        progress.ends(crate.name, status == 0, crate.out)
    return status == 0


def main():
    names = sys.argv[1:]
    rt = kit_rt.load()
    os.chdir(TOP)
    # (its first call sets a signal's handler, which only the main thread may)
    rt.rtlib.guarded()
    # (only some kits share the work of one clone with others)
    if hasattr(rt, "share_work"):
        rt.share_work(True)
    every = rt.rtlib.crates_below(str(TOP))
    unknown = [it for it in names if it not in [crate.name for crate in every]]
    if unknown:
        print(f"{__doc__}\nprove: crates.txt has no crate {unknown[0]}", file=sys.stderr)
        return 2
    wanted = {below for it in every if not names or it.name in names for below in [it, *it.below()]}
    crates = [it for it in every if it in wanted]
    used = {dep.name for it in every for dep in it.deps}
    held, progress, tasks = rt.rtlib.lock(crates), Progress(len(crates)), {}
    progress.say(f"proving {len(crates)} crates on {rt.processors()} processors")
    for crate in sorted(crates, key=lambda it: len(it.below())):
        waits = [(it.name, "proof") for it in crate.below()]
        call = lambda given, jobs, it=crate: proved(it, it.name in used, progress, given, jobs)
        tasks[crate.name, "proof"] = (waits, crate.count(rb"\n"), rt.need(crate), call)
    progress.teller.start()
    given = rt.in_lanes(tasks)
    progress.ended.set()
    for it in held:
        os.close(it)
    failed = [name for (name, _), is_proved in given.items() if not is_proved]
    progress.say(f"{len(crates) - len(failed)} of {len(crates)} crates are proved, in {progress.seconds() / 60:.1f} minutes")
    if failed:
        progress.say(f"not proved: {' '.join(failed)}")
    return 1 if failed else 0


if __name__ == "__main__":
    sys.exit(main())
