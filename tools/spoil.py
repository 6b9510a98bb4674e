#!/usr/bin/env python3
"""Spoils one line of a printed run, and compares the answer of the command audit with what the rules say.

    tools/spoil.py [--program FILE] [--input FILE | --run FILE] [--from N] [--count N]
    tools/spoil.py --show N        writes the spoiled run of that number

The printed run is that of the command `threads 1` on an input, or a file; it must keep the rules, and audit must accept it. The spoilings are
numbered, and the same number always spoils the same run in the same way: a line is dropped, doubled, swapped with the next one, or one of its
numbers is changed. The rules of docs/FORMATS.md, section Audit, are implemented here independently. If a spoiled run still keeps them, audit must
answer yes. The last line is `spoil: N passed, M failed`.
"""
import argparse
import collections
import pathlib
import random
import re
import subprocess
import sys

from worked_runs import BUILT, TOP

INPUT = TOP / "runs/turns/a-shop-of-eight-sessions.in"
COUNT = 200
PARTS = {"start": 0, "order": 2, "row": 3, "end": 4}

NUMBER = r"(?:0|[1-9]\d*)"
TXN = rf"t{NUMBER}"
NAME = r"[a-z][a-z0-9_]{0,31}"
CELL = rf"{NAME} {NUMBER}"
INTEGER = rf"(?:0|-?[1-9]\d*)"
VALUE = rf"(?:none|{INTEGER})"
CAUSE = rf"(?:(?:late|first) {NAME} {TXN} {CELL}|pivot {NAME}(?: {TXN}){{4}}|newer {NAME} {TXN}|after {TXN}|asked|ended)"
LINE = re.compile(
    rf"start {CELL} {INTEGER}|row {CELL} {INTEGER}|order(?: {TXN})*|end"
    rf"|began {TXN} {NUMBER} {NAME}(?: {NUMBER})?|got {TXN} {CELL} {TXN} {VALUE}|put {TXN} {CELL} {VALUE}"
    rf"|(?:ready|done|told) {TXN}|gone {TXN} {CAUSE}",
    re.ASCII,
)


def in_range(words):
    """Whether the numbers of a line of the right form fit their types."""
    txns = [int(word[1:]) for word in words if re.fullmatch(TXN, word)]
    if any(txn >= 2**32 for txn in txns):
        return False
    if words[0] == "began":
        instance = int(words[4]) if len(words) == 5 else 1
        return 1 <= int(words[2]) <= 32 and 1 <= instance < 2**32
    cell, value = {
        "start": (1, 3),
        "row": (1, 3),
        "got": (2, 5),
        "put": (2, 4),
    }.get(words[0], (None, None))
    if words[0] == "gone" and words[2] in ("late", "first"):
        cell = 5
    if cell is not None and int(words[cell + 1]) >= 2**32:
        return False
    return value is None or words[value] == "none" or -(2**63) <= int(words[value]) < 2**63


def read(text):
    """The lines of a printed run as lists of words, or the number of the first line that may not be there."""
    lines = text.split("\n")
    past, rows = -1, set()
    items = []
    for number, line in enumerate(lines[:-1], 1):
        words = line.split(" ")
        part = PARTS.get(words[0], 1)
        once = part in (2, 4)
        if not LINE.fullmatch(line) or not in_range(words) or part < past or (once and part == past):
            return None, number
        if (part in (3, 4) and past < 2) or past == 4:
            return None, number
        if part in (0, 3):
            if tuple(words[:3]) in rows:
                return None, number
            rows.add(tuple(words[:3]))
        past = part
        items.append(words)
    if past != 4 or lines[-1]:
        return None, len(lines)
    return items, None


def wrong_txn(items):
    begun, finished, gone = 0, set(), set()
    for number, words in enumerate(items, 1):
        if PARTS.get(words[0], 1) != 1:
            continue
        txn = int(words[1][1:])
        if words[0] == "began":
            begun += 1
            if txn != begun:
                return number
        elif words[0] == "told":
            if txn not in gone:
                return number
        elif not 1 <= txn <= begun or txn in finished:
            return number
        if words[0] in ("done", "gone"):
            finished.add(txn)
        if words[0] == "gone":
            gone.add(txn)
    return None


def wrong_after(items):
    sources, done = collections.defaultdict(set), set()
    for number, words in enumerate(items, 1):
        if words[0] == "got" and words[4] not in (words[1], "t0"):
            sources[words[1]].add(words[4])
        elif words[0] == "done":
            if sources[words[1]] - done:
                return number
            done.add(words[1])
    return None


def wrong_order(items):
    done = sorted(words[1] for words in items if words[0] == "done")
    for number, words in enumerate(items, 1):
        if words[0] == "order" and sorted(words[1:]) != done:
            return number
    return None


def replay(items):
    """The first line with a wrong read, and the last table, when the transactions run serially in the order."""
    table = {tuple(words[1:3]): words[3] for words in items if words[0] == "start"}
    order = next(words[1:] for words in items if words[0] == "order")
    wrong = []
    for txn in order:
        for number, words in enumerate(items, 1):
            if words[0] == "got" and words[1] == txn and table.get(tuple(words[2:4]), "none") != words[5]:
                wrong.append(number)
            elif words[0] == "put" and words[1] == txn:
                table[tuple(words[2:4])] = words[4]
    return min(wrong, default=None), {cell: value for cell, value in table.items() if value != "none"}


def wrong_row(items, table):
    rows = {}
    for number, words in enumerate(items, 1):
        if words[0] == "row":
            if table.get(tuple(words[1:3])) != words[3]:
                return number
            rows[tuple(words[1:3])] = words[3]
        elif words[0] == "end" and rows != table:
            return number
    return None


def audit(text):
    """What the rules say of a text: nothing if it is right, else the first wrong line and why."""
    items, number = read(text)
    if items is None:
        return number, "form"
    for why, test in (("txn", wrong_txn), ("order", wrong_order), ("after", wrong_after)):
        if test(items) is not None:
            return test(items), why
    number, table = replay(items)
    if number is not None:
        return number, "read"
    number = wrong_row(items, table)
    return None if number is None else (number, "row")


def changed(line, chance):
    """The line with one of its numbers changed, or the line itself if it has none."""
    numbers = list(re.finditer(r"(?<![a-z_])-?\d+|(?<=\bt)\d+", line))
    if not numbers:
        return line
    number = chance.choice(numbers)
    other = int(number.group()) + chance.choice([-2, -1, 1, 2, 10, 2**32, 2**63])
    return line[: number.start()] + str(other) + line[number.end() :]


def spoiled_once(lines, chance):
    """The lines with one of them spoiled. They stay the same if a number of a line without numbers was to change."""
    place = chance.randrange(len(lines))
    kind = chance.choice(["drop", "double", "swap", "change"])
    here = lines[place : place + 2]
    if kind == "drop":
        here = here[1:]
    elif kind == "double":
        here = here[:1] + here
    elif kind == "swap":
        here = here[::-1]
    else:
        here = [changed(here[0], chance)] + here[1:]
    return lines[:place] + here + lines[place + 2 :]


def spoiled(text, number):
    """The text with one line spoiled, by the number; it differs from the text."""
    chance = random.Random(number)
    lines = text.splitlines(keepends=True)
    other = lines
    while other == lines:
        other = spoiled_once(lines, chance)
    return "".join(other)


def answer(text):
    """What the command audit must write, and its status."""
    fault = audit(text)
    return ("audit yes\n", 0) if fault is None else (f"audit no line {fault[0]} {fault[1]}\n", 11)


def ran(program, words, text):
    done = subprocess.run([program, *words], input=text.encode(), stdout=subprocess.PIPE, check=False)
    return done.stdout.decode(errors="replace"), done.returncode


def run_of(program, given):
    """The printed run, and why it cannot be spoiled, or None: the program ends with status 0, and the run keeps the rules."""
    if given.run:
        text, status = given.run.read_text(), 0
    else:
        text, status = ran(program, ["threads", "1"], given.input.read_text())
    fault = audit(text)
    if status:
        return text, f"threads 1 ended with status {status}"
    return text, fault and f"line {fault[0]} of the run breaks a rule: {fault[1]}"


def main():
    options = argparse.ArgumentParser(description=__doc__, formatter_class=argparse.RawDescriptionHelpFormatter)
    options.add_argument("--program", type=pathlib.Path, default=BUILT)
    options.add_argument("--input", type=pathlib.Path, default=INPUT)
    options.add_argument("--run", type=pathlib.Path)
    options.add_argument("--from", type=int, default=0, dest="first")
    options.add_argument("--count", type=int, default=COUNT)
    options.add_argument("--show", type=int)
    given = options.parse_args()
    program = given.program.resolve()
    text, why = run_of(program, given)
    if why:
        print(f"FAILED: {why}\nspoil: 0 passed, 1 failed")
        return 1
    if given.show is not None:
        sys.stdout.write(spoiled(text, given.show))
        return 0
    texts = {"as it is": text}
    texts.update({str(number): spoiled(text, number) for number in range(given.first, given.first + given.count)})
    failed = 0
    for name, one in texts.items():
        wanted, got = answer(one), ran(program, ["audit"], one)
        if wanted != got:
            failed += 1
            print(f"FAILED {name}: wanted {wanted}, got {got}")
    print(f"spoil: {len(texts) - failed} passed, {failed} failed")
    return 1 if failed else 0


if __name__ == "__main__":
    sys.exit(main())
