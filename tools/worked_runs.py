#!/usr/bin/env python3
"""Runs the program on its worked runs, and compares every byte and status.

    tools/worked_runs.py [--program FILE] [WORD..]     the runs with one of the words in their names, or all if none is given
    tools/worked_runs.py --tried [WORD..]              the short ones, by rt try, which proves nothing: for work on a program that is not proved yet

A run is a line of the table in runs/FOLDER/README.md. Its columns:

    Run      its name. NAME.in is its input, NAME.out the text; if they are long, NAME.in.py and NAME.out.py write them.
             If there is no such file, it is empty
    Words    the words of the command
    Status   the status, or several of them
    Text     the text, if it is one line: then there is no NAME.out. Or the word `form`: any text that such a status has. Or the word `audit`:
             a text to which the command audit answers yes
    Input    another file for the input, relative to the folder. A folder cannot be read. "prefixes of FILE": a run for each of them
    Output   another file for the output
    Fails    `read`: the read after the last byte of the input fails, instead of finding the end
    Room     how many bytes the output takes before each write fails; `less than the text`: a run for each such number
    Formats  the formats in which the run is made: each replaces the format of the input
    Times    how often it is run
    Line     the last line of the input, so that it can be read beside the text
    File     the run is one of ./tebaldi_shell, on a file of this name; the runs of a folder with the same name are made in order, on one file, which is kept
             from run to run. It is empty before the first
    Tree     the tree text of such a run, relative to the folder
    Reads    the files of the folder that its lines read; they name them from the top of the repository

The commands that README.md and the pages of docs/ show are runs too: each line that begins with `$`, with the text below it.
The last line is `runs: N passed, M failed`.
"""
import argparse
import concurrent.futures
import dataclasses
import os
import pathlib
import re
import resource
import shlex
import socket
import subprocess
import sys
import tempfile

from pages import PAGES, TOP, name_of

BUILT = TOP / "crates/tebaldi/out/tebaldi"
SHELL = TOP / "crates/tebaldi_shell/out/tebaldi_shell"
SECONDS = 120
SHORT = 50_000  # bytes of an input that rt try is given
LINE = rb"[^\n]+\n"
FORMS = {
    0: rb"(?:%s)*end\n|audit yes\n" % LINE,
    2: rb"bad words\n",
    3: rb"",
    5: rb"too long\n",
    6: rb"bad tree: %s" % LINE,
    7: rb"bad script: line \d+ (?:session|verb|count|name|number)\n",
    8: rb"",
    10: rb"",
    11: rb"audit no line \d+ %s" % LINE,
    12: rb"bad phase: \d+ %s" % LINE,
}


def has_form(status, text):
    """Whether a run may end with this status, which is in the table, and this text, which goes with it."""
    return status in FORMS and re.fullmatch(FORMS[status], text) is not None


@dataclasses.dataclass
class Run:
    name: str
    words: list
    statuses: list
    text: object  # the bytes, or "form" or "audit"
    input: object  # the bytes, or the path of a folder, which cannot be read
    output: pathlib.Path = None
    times: int = 1
    breaks: bool = False  # whether the input ends in a fault
    room: int = None  # how many bytes the output takes

    def differs(self, program):
        """Runs it, and returns why it failed, or None."""
        for _ in range(self.times):
            why = self.wrong(*ended(program, self.words, self.input, self.output, self.breaks, self.room), program)
            if why:
                return why
        return None

    def wrong(self, status, text, program=None):
        if status not in self.statuses:
            return f"status {status} in place of {' or '.join(map(str, self.statuses))}: {shown(text)}"
        if self.text == "form":
            return None if has_form(status, text) else f"no text of status {status}: {shown(text)}"
        if self.text == "audit":
            answer = ended(program, ["audit"], text)
            return None if answer == (0, b"audit yes\n") else f"audit answers {shown(answer[1])}"
        return None if text == self.text else difference(self.text, text)


@dataclasses.dataclass
class OnFile:
    """Runs of the shell, one after another, on one file."""

    name: str
    runs: list = dataclasses.field(default_factory=list)

    def differs(self, program):
        """Makes the runs, and returns why the first that failed did, or None."""
        with tempfile.TemporaryDirectory() as room:
            for run in self.runs:
                why = run.wrong(*ended(SHELL, [f"{room}/store", *run.words], run.input))
                if why:
                    return f"{run.name}: {why}"
        return None


def ended(program, words, data=b"", output=None, breaks=False, room=None):
    """Runs the program, and returns its status and what it wrote. A status below 0 is the signal that ended it."""
    if room is not None:
        return ended_in(program, words, data, room)
    if breaks:
        source = {"stdin": broken_off(data)}
    else:
        source = {"input": data} if isinstance(data, bytes) else {"stdin": os.open(data, os.O_RDONLY)}
    sink = open(output, "wb") if output else subprocess.PIPE
    try:
        ran = subprocess.run([program, *words], cwd=TOP, stdout=sink, stderr=subprocess.DEVNULL, timeout=SECONDS, **source)
        return ran.returncode, ran.stdout or b""
    except subprocess.TimeoutExpired:
        return f"none after {SECONDS} seconds", b""
    finally:
        if "stdin" in source:
            os.close(source["stdin"])
        if output:
            sink.close()


def ended_in(program, words, data, room):
    """The same with an output file that takes `room` bytes. A write beyond them does not end the process."""
    with tempfile.TemporaryFile() as sink:
        ran = subprocess.run(
            [program, *words], input=data, stdout=sink, stderr=subprocess.DEVNULL, timeout=SECONDS, restore_signals=False,
            preexec_fn=lambda: resource.setrlimit(resource.RLIMIT_FSIZE, (room, room)),
        )
        sink.seek(0)
        return ran.returncode, sink.read()


def broken_off(data):
    """A descriptor that gives these bytes, and then fails: a socket whose other end was closed with bytes unread."""
    near, far = socket.socketpair()
    near.send(b"unread")
    far.sendall(data)
    far.close()
    return near.detach()


def shown(text):
    return repr(text.decode(errors="replace"))[:200]


def difference(wanted, got):
    wanted, got = wanted.splitlines(True), got.splitlines(True)
    at = next((i for i, (one, other) in enumerate(zip(wanted, got)) if one != other), min(len(wanted), len(got)))
    there = [shown(it[at]) if at < len(it) else "nothing" for it in (got, wanted)]
    return f"line {at + 1} is {there[0]} in place of {there[1]}"


def tables(text):
    """The lines of the tables of a Markdown text, each as a dictionary by the table's head."""
    head = None
    for line in text.splitlines():
        cells = [it.strip() for it in line.split("|")[1:-1]]
        if not cells:
            head = None
        elif head is None:
            head = cells
        elif not set(line) <= set("|-: "):
            yield dict(zip(head, cells))


def plain(cell):
    return cell.strip("`").encode().decode("unicode_escape").encode("latin-1") if "\\" in cell else cell.strip("`").encode()


def made(folder, name, ending, used):
    """The bytes of NAME.in or NAME.out, or what NAME.in.py or NAME.out.py writes; None if there is neither."""
    file, script = folder / f"{name}.{ending}", folder / f"{name}.{ending}.py"
    used.update({file, script})
    if script.exists():
        return subprocess.run([sys.executable, script], stdout=subprocess.PIPE, check=True).stdout
    return file.read_bytes() if file.exists() else None


def inputs_of(folder, row, used):
    """The inputs of a line of a table: one, or every prefix of one."""
    cell = row.get("Input", "").replace("`", "")
    if not cell:
        return [made(folder, row["Run"].strip("`"), "in", used) or b""]
    of, path = cell.startswith("prefixes of "), folder / cell.removeprefix("prefixes of ")
    if path.is_dir():
        return [path]
    data = path.read_bytes()
    return [data[:end] for end in range(len(data) + 1)] if of else [data]


def text_of(folder, row, used):
    """The text that a line of a table expects."""
    cell, written = row.get("Text", ""), made(folder, row["Run"].strip("`"), "out", used)
    if cell.startswith("`"):
        return plain(cell) + b"\n"
    return cell or written or b""


def variants(row, name, data):
    """An input in each of the formats that a line of a table names, each with the name of the run."""
    formats = re.findall(r"\d", row.get("Formats", ""))
    if not formats:
        yield name, data
    for number in formats:
        yield f"{name} in format {number}", re.sub(rb"(?m)^format = \d$", b"format = " + number.encode(), data, count=1)


def runs_of(folder):
    """The runs of a folder. Each of its files must belong to one."""
    used, files = {folder / "README.md"}, {}
    for row in tables((folder / "README.md").read_text()):
        if "Run" not in row:
            continue
        if "File" in row:
            file = f"{folder.name}/{row['File'].strip('`')}"
            files.setdefault(file, OnFile(file)).runs.append(run_on_file(folder, row, used))
            continue
        name = f"{folder.name}/{row['Run'].strip('`')}"
        common = {
            "words": plain(row["Words"]).split(),
            "statuses": [int(it) for it in re.findall(r"\d+", row["Status"])],
            "text": text_of(folder, row, used),
            "output": folder / row["Output"].strip("`") if row.get("Output") else None,
            "times": int(row.get("Times") or 1),
            "breaks": row.get("Fails") == "`read`",
        }
        if row.get("Room"):
            yield from in_rooms(Run(name, input=inputs_of(folder, row, used)[0], **common), row["Room"])
            continue
        for data in inputs_of(folder, row, used):
            if "Line" in row and plain(row["Line"]) != data.removesuffix(b"\n").split(b"\n")[-1]:
                yield broken(f"{name}: the last line of its input is another one than the table says")
            of = f"{name} cut at {len(data)}" if row.get("Input", "").startswith("prefixes") else name
            yield from (Run(named, input=changed, **common) for named, changed in variants(row, of, data))
    yield from files.values()
    for file in sorted(set(folder.iterdir()) - used):
        yield broken(f"{folder.name}/{file.name} belongs to no run")


def run_on_file(folder, row, used):
    """A run of the shell, without the name of its file."""
    tree = [folder / row["Tree"].strip("`")] if row.get("Tree") else []
    used.update(tree)
    used.update(folder / it for it in re.findall(r"`([^`]+)`", row.get("Reads", "")))
    name, statuses = row["Run"].strip("`"), [int(it) for it in re.findall(r"\d+", row["Status"])]
    return Run(f"{folder.name}/{name}", tree, statuses, text_of(folder, row, used), inputs_of(folder, row, used)[0])


def in_rooms(run, room):
    """A run whose output takes `room` bytes, or a run for each number below the length of its text."""
    for room in range(len(run.text)) if room == "less than the text" else [int(room)]:
        yield dataclasses.replace(run, name=f"{run.name} with room for {room}", text=run.text[:room], room=room)


def broken(why):
    return Run(why, [], [], b"", b"")


class Shown:
    """A command of a page, with the text that is shown below it."""

    def __init__(self, page, command, text):
        self.name, self.command, self.text = f"{name_of(page)}: {command}", command, text

    def differs(self, program):
        command = self.command.replace("./tebaldi_shell", shlex.quote(str(SHELL)))
        command = re.sub(r"\./tebaldi\b", lambda _: shlex.quote(str(program)), command)
        ran = subprocess.run(["bash", "-c", command], cwd=TOP, stdin=subprocess.DEVNULL, stdout=subprocess.PIPE, timeout=SECONDS)
        return None if ran.stdout == self.text else difference(self.text, ran.stdout)


def shown_in(page):
    """The commands of a page that show a text, except those of rt."""
    for language, block in re.findall(r"(?ms)^```(\w*)\n(.*?)^```$", page.read_text()):
        if language:
            continue
        for command, text in re.findall(r"(?m)^\$ (.*)\n((?:[^$\n].*\n|\n)*)", block):
            if not command.startswith("rt "):
                yield Shown(page, command.partition("   #")[0], text.encode())


def all_runs(words):
    found = [run for folder in sorted((TOP / "runs").iterdir()) if (folder / "README.md").exists() for run in runs_of(folder)]
    found += [run for page in PAGES for run in shown_in(page)]
    return [it for it in found if not words or any(word in it.name for word in words)]


def compared(runs, program):
    """Runs them all on a built program, side by side, and yields each with why it failed."""
    with concurrent.futures.ThreadPoolExecutor(len(os.sched_getaffinity(0))) as pool:
        yield from zip(runs, pool.map(lambda it: it.differs(program), runs))


def tried(runs):
    """Runs those that read a short input and write an output, all by one call of rt try, and yields each with why it failed."""
    runs = [it for it in runs if isinstance(it, Run) and isinstance(it.input, bytes) and not it.output and not it.breaks and it.room is None and len(it.input) < SHORT and it.times == 1 and it.text != "form"]
    with tempfile.TemporaryDirectory() as room:
        for number, run in enumerate(runs):
            pathlib.Path(room, str(number)).write_bytes(run.input)
            pathlib.Path(room, f"{number}.args").write_bytes(b"".join(it + b"\n" for it in run.words))
            if isinstance(run.text, bytes):
                pathlib.Path(room, f"{number}.stdout").write_bytes(run.text)
        ran = subprocess.run(["rt", "try", "--cases", room], cwd=BUILT.parent.parent, stdin=subprocess.DEVNULL, capture_output=True, text=True, errors="replace")
    lines = dict(re.findall(r"(?m)^case=(\d+) (.*)$", ran.stderr))
    if not lines:
        print(ran.stderr[-2000:], file=sys.stderr)
    for number, run in enumerate(runs):
        line = lines.get(str(number), "no answer")
        status = re.search(r"run=ended status=(\d+)", line)
        is_well = status and int(status[1]) in run.statuses and "output=differs" not in line
        yield run, None if is_well else line


def main():
    options = argparse.ArgumentParser(description=__doc__, formatter_class=argparse.RawDescriptionHelpFormatter)
    options.add_argument("--program", type=pathlib.Path, default=BUILT)
    options.add_argument("--shell", type=pathlib.Path, help="the program of the runs on a file, if it is not the one that is built")
    options.add_argument("--tried", action="store_true")
    options.add_argument("words", nargs="*")
    given = options.parse_args()
    if given.shell:
        global SHELL
        SHELL = given.shell.resolve()
    runs = all_runs(given.words)
    if not given.tried and not os.access(given.program, os.X_OK):
        print(f"runs: there is no program {os.path.relpath(given.program)}: ./check build proves and builds it", file=sys.stderr)
        print(f"runs: 0 passed, {len(runs)} failed")
        return 1
    passed = failed = 0
    for run, why in tried(runs) if given.tried else compared(runs, given.program.resolve()):
        passed, failed = passed + (not why), failed + bool(why)
        if why:
            print(f"FAILED {run.name}: {why}")
    print(f"runs: {passed} passed, {failed} failed")
    return 1 if failed or not passed else 0


if __name__ == "__main__":
    sys.exit(main())
