#!/usr/bin/env python3
"""Uses the shell on a terminal: the prompts, the end of the input by Ctrl-D, and the end of the process by Ctrl-C.

    tools/shell_terminal.py [--program FILE]

The last line is `terminal: N passed, M failed`.
"""
import argparse
import os
import pathlib
import pty
import select
import signal
import subprocess
import sys
import tempfile
import time

from worked_runs import SHELL

SECONDS = 60


def take_terminal():
    """Makes standard input the terminal of the process, where Ctrl-C ends it, also if this tool runs in the background."""
    signal.signal(signal.SIGINT, signal.SIG_DFL)
    os.close(os.open(os.ttyname(0), os.O_RDWR))


class Terminal:
    """The shell on a terminal of its own."""

    def __init__(self, program, file):
        self.master, slave = pty.openpty()
        self.process = subprocess.Popen([program, file], stdin=slave, stdout=slave, stderr=slave, start_new_session=True, preexec_fn=take_terminal)
        os.close(slave)
        self.shown = b""

    def wait_for(self, text):
        """Reads until the text is shown; false if it does not come."""
        end = time.monotonic() + SECONDS
        while text not in self.shown and time.monotonic() < end:
            if not select.select([self.master], [], [], 0.2)[0]:
                continue
            try:
                more = os.read(self.master, 4096)
            except OSError:
                break
            if not more:
                break
            self.shown += more.replace(b"\r\n", b"\n")
        found = text in self.shown
        self.shown = self.shown.partition(text)[2] if found else self.shown
        return found

    def send(self, text):
        os.write(self.master, text)

    def ended(self):
        try:
            return self.process.wait(SECONDS)
        finally:
            os.close(self.master)


def with_prompts(program, file):
    it = Terminal(program, file)
    for prompt, line, answer in [
        (b"tebaldi> ", b"1 begin any\n", b"1 begun t1\n"),
        (b"tebaldi 1:t1> ", b"3 begin any\n", b"3 begun t2\n"),
        (b"tebaldi 1:t1 3:t2> ", b"1 write t 7 4\n", b"1 done\n"),
        (b"tebaldi 1:t1 3:t2> ", b"1 commit\n", b"1 committed\n"),
    ]:
        if not it.wait_for(prompt):
            return f"no prompt {prompt}"
        it.send(line)
        if not it.wait_for(answer):
            return f"no answer {answer}"
    it.wait_for(b"tebaldi 3:t2> ")
    it.send(b"\x04")
    told = it.wait_for(b"3 aborted ended\n")
    status = it.ended()
    return None if told and status == 0 else f"Ctrl-D ends with status {status}"


def with_an_interrupt(program, file):
    it = Terminal(program, file)
    for line, answer in [(b"1 begin any\n", b"1 begun t1\n"), (b"1 write t 8 5\n", b"1 done\n"), (b"1 commit\n", b"1 committed\n"), (b"2 begin any\n", b"2 begun t2\n"), (b"2 write t 9 6\n", b"2 done\n")]:
        it.send(line)
        if not it.wait_for(answer):
            return f"no answer {answer}"
    it.send(b"\x03")
    status = it.ended()
    return None if status == -2 else f"Ctrl-C ends with status {status}"


def on_a_pipe(program, file):
    ran = subprocess.run([program, file], input=b".rows\n", stdout=subprocess.PIPE, stderr=subprocess.PIPE, timeout=SECONDS)
    wanted = b"row t 7 4\nrow t 8 5\nend\n"
    return None if (ran.returncode, ran.stdout, ran.stderr) == (0, wanted, b"") else f"on a pipe: {ran.stdout} {ran.stderr}"


def main():
    options = argparse.ArgumentParser(description=__doc__, formatter_class=argparse.RawDescriptionHelpFormatter)
    options.add_argument("--program", type=pathlib.Path, default=SHELL)
    given = options.parse_args()
    passed = failed = 0
    with tempfile.TemporaryDirectory() as room:
        for trial in [with_prompts, with_an_interrupt, on_a_pipe]:
            said = trial(given.program, f"{room}/store")
            passed, failed = passed + (not said), failed + bool(said)
            if said:
                print(f"FAILED {trial.__name__}: {said}")
    print(f"terminal: {passed} passed, {failed} failed")
    return 1 if failed else 0


if __name__ == "__main__":
    sys.exit(main())
