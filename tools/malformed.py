#!/usr/bin/env python3
"""Runs the program on broken inputs, and reports each run that ends in a way that is not allowed.

    tools/malformed.py [--program FILE] [--from N] [--count N] [--commands WORDS,..]
    tools/malformed.py --show N        writes the input of that number

The inputs are numbered, and the same number always gives the same input: first a few of great size or of odd bytes, by name; then those
of runs/ and examples/, each with one to six changes. Each run must end with a status of README.md's table and a text that goes with it,
not by a signal, and within a second of processor time. The last line is `malformed: N passed, M failed`.
"""
import argparse
import concurrent.futures
import itertools
import os
import pathlib
import random
import resource
import subprocess
import sys
import tempfile

from worked_runs import BUILT, TOP, has_form, shown

MOST = 4_194_304
SECONDS = 1.0
LIMIT = 20  # seconds of processor time, at which a run is ended
TREE = b'format = 1\ntables = ["t"]\n[[type]]\nname = "any"\n[[node]]\nname = "root"\ncontrol = "locks"\ntypes = ["any"]\n'
ONE = b"%%\n1 begin any\n1 write t 1 5\n1 commit\n"
ODD = {
    "brackets up to the limit": b"[" * MOST,
    "an array as deep as the input": b"x = " + b"[" * (MOST // 2 - 10) + b"]" * (MOST // 2 - 10) + b"\n%%\n",
    "an array of a thousand levels": b"x = " + b"[" * 1000 + b"]" * 1000 + b"\n%%\n",
    "inline tables of a thousand levels": b"x = " + b"{ a = " * 1000 + b"1" + b" }" * 1000 + b"\n%%\n",
    "inline tables up to the limit": b"x = " + b"{a=" * (MOST // 3 - 10),
    "a key of many parts": b"a" + b".a" * (MOST // 2 - 10) + b" = 1\n%%\n",
    "a table of many parts": b"[a" + b".a" * (MOST // 2 - 10) + b"]\n%%\n",
    "one line up to the limit": b"a" * MOST,
    "one line of a script up to the limit": b"%%\n" + b"a" * (MOST - 3),
    "one line of words up to the limit": b"%%\n" + b"1 " * (MOST // 2 - 2),
    "a number up to the limit": b"%%\n1 read t " + b"1" * (MOST - 13),
    "a name up to the limit in a script": b"%%\n1 begin " + b"a" * (MOST - 12),
    "a name up to the limit in a tree": b'format = 1\ntables = ["' + b"a" * (MOST - 30) + b'"]\n%%\n',
    "a text that does not end": b'format = 1\ntables = ["""' + b"a\n" * (MOST // 2 - 20),
    "an integer up to the limit": b"format = " + b"1" * (MOST - 20) + b"\n%%\n",
    "comments alone": b"# no tree\n" * (MOST // 10) + b"%%\n",
    "sixty thousand tables": b"format = 1\ntables = [" + b'"t",' * 60_000 + b"]\n%%\n",
    "three hundred thousand entries": b"[[row]]\n" * 300_000 + b"%%\n",
    "sixty thousand lines that wait": b"%%\n1 begin any\n1 write t 1 1\n2 begin any\n" + b"2 read t 1\n" * 65_000,
    "sixty thousand lines that are refused": b"%%\n" + b"1 commit\n" * 65_536,
    "NUL bytes alone": b"\0" * 1000,
    "NUL bytes before the separator": b"\0\n" + ONE,
    "NUL bytes in a line": b"%%\n1 \0begin any\n",
    "a NUL byte in a name": TREE.replace(b'"any"', b'"a\0y"') + ONE,
    "no UTF-8 before the separator": b"\xff\xfe\n" + ONE,
    "a surrogate in a tree": TREE.replace(b'"any"', b'"\xed\xa0\x80"') + ONE,
    "no UTF-8 in a line": b"%%\n1 begin \xff\n",
    "an escape of a surrogate": TREE.replace(b'"any"', b'"\\ud800"') + ONE,
    "carriage returns alone": b"\r" * 1000,
    "carriage returns in place of line feeds": (TREE + ONE).replace(b"\n", b"\r"),
    "a carriage return at each line": (TREE + ONE).replace(b"\n", b"\r\n"),
    "a byte-order mark": b"\xef\xbb\xbf" + TREE + ONE,
    "a byte-order mark before a blank tree": b"\xef\xbb\xbf" + ONE,
    "a byte-order mark before the separator": b"\xef\xbb\xbf%%\n",
    "nothing": b"",
    "a per cent sign": b"%",
}
NUMBERS = "0 1 -1 2 32 33 255 256 65535 65536 4294967295 4294967296 9223372036854775807 9223372036854775808 -9223372036854775808 -9223372036854775809 18446744073709551615 18446744073709551616 00000000000000000001 1.5 1e9 0x10 +5 -0 nan".encode().split(b" ")
PIECES = [b"%%\n", b"%%", b"\n", b"\r", b"\r\n", b"\0", b"\xff", b"\xc3\xa9", b"#", b" ", b"\t", b'"', b"'", b'"""', b"[", b"]", b"[[", b"]]", b"{", b"}", b"=", b",", b".", b"\\", b"\\u0000", b"1 begin any\n", b"1 commit\n", b"33 commit\n", b"1 scan t 1 17\n", b"1 read t 1\n", b"[[row]]\n", b"[[node]]\n", b"[[type]]\n", b"[node]\n", b"[row]\n", b"batch = 0\n", b"of = 17\n", b'parent = "root"\n', b'commit = "free"\n', b"format = 3\n", b"true", b"1979-05-27"]


def kept():
    """The inputs of the worked runs and of the examples that are not long."""
    files = sorted([*(TOP / "runs").glob("*/*.in"), *(TOP / "examples").glob("*.script")])
    return [file.read_bytes() for file in files]


def changed(draw, data, others):
    """The bytes with one change."""
    at, end = sorted(draw.choices(range(len(data) + 1), k=2))
    lines = data.splitlines(True)
    match draw.randrange(10):
        case 0:
            return data[:at] + bytes([draw.randrange(256)]) + data[at + 1 :]
        case 1:
            return data[:at] + data[min(end, at + draw.choice([1, 2, 8, 64])) :]
        case 2:
            return data[:end] + data[at:]
        case 3 | 4:
            return data[:at] + draw.choice(PIECES) + data[at:]
        case 5:
            draw.shuffle(lines)
            return b"".join(lines)
        case 6:
            return data[:at]
        case 7:
            other = draw.choice(others)
            return data[:at] + other[draw.randrange(len(other) + 1) :]
        case 8:
            if lines:
                lines.insert(draw.randrange(len(lines) + 1), draw.choice(lines))
            return b"".join(lines)
        case 9:
            words = data.split(b" ")
            words[draw.randrange(len(words))] = draw.choice(NUMBERS)
            return b" ".join(words)


def broken(number, inputs):
    """The input of a number, and its name."""
    if number < len(ODD):
        return next(itertools.islice(ODD.items(), number, None))
    draw = random.Random(number)
    data = draw.choice(inputs)
    for _ in range(draw.randrange(1, 7)):
        data = changed(draw, data, inputs)
    return f"changes by {number}", data[:MOST]


def why(program, words, data):
    """Why the end of a run on these bytes is not allowed, or None if it is."""
    with tempfile.TemporaryFile() as source, tempfile.TemporaryFile() as sink:
        source.write(data)
        source.seek(0)
        process = subprocess.Popen([program, *words], stdin=source, stdout=sink, stderr=subprocess.DEVNULL, preexec_fn=lambda: resource.setrlimit(resource.RLIMIT_CPU, (LIMIT, LIMIT)))
        _, status, used = os.wait4(process.pid, 0)
        process.returncode = os.waitstatus_to_exitcode(status)
        sink.seek(0)
        text, seconds = sink.read(), used.ru_utime + used.ru_stime
    if seconds >= LIMIT:
        return f"took more than {LIMIT} seconds"
    if process.returncode < 0:
        return f"ended by signal {-process.returncode}"
    if not has_form(process.returncode, text):
        return f"no text of status {process.returncode}: {shown(text)}"
    return f"took {seconds:.1f} seconds" if seconds > SECONDS else None


def main():
    options = argparse.ArgumentParser(description=__doc__, formatter_class=argparse.RawDescriptionHelpFormatter)
    options.add_argument("--program", type=pathlib.Path, default=BUILT)
    options.add_argument("--from", type=int, default=0, dest="first")
    options.add_argument("--count", type=int, default=10_000)
    options.add_argument("--commands", default="replay,turns")
    options.add_argument("--show", type=int)
    given = options.parse_args()
    inputs, commands, program = kept(), given.commands.split(","), given.program.resolve()
    if given.show is not None:
        sys.stdout.buffer.write(broken(given.show, inputs)[1])
        return 0

    def tried(number):
        name, data = broken(number, inputs)
        # Each command meets each odd input.
        words = [commands[number % len(commands)]] if number >= len(ODD) else commands
        return [(name, it, found) for it in words if (found := why(program, it.split(), data))]

    numbers, failed = range(given.first, given.first + given.count), 0
    with concurrent.futures.ThreadPoolExecutor(len(os.sched_getaffinity(0))) as pool:
        for number, found in zip(numbers, pool.map(tried, numbers)):
            failed += bool(found)
            for name, words, reason in found:
                print(f"FAILED {number} ({name}) by {words}: {reason}", flush=True)
    print(f"malformed: {given.count - failed} passed, {failed} failed")
    return 1 if failed else 0


if __name__ == "__main__":
    sys.exit(main())
