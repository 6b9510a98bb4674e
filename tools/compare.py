#!/usr/bin/env python3
"""Runs the same scripts under several trees with `turns`, and prints what each tree did, and what it guarantees.

    tools/compare.py --workload NAME [OPTION..]              under every tree of examples/trees/NAME-*.toml
    tools/compare.py --workload NAME --trees FILE..          under these trees, to which the workload's rows are added
    tools/compare.py --script FILE --trees FILE..            your own scripts and trees, as they are
    tools/compare.py .. --batches 1,8,64                     under each tree, with every `batch` of it set to these sizes
    tools/compare.py .. --markdown | --svg FILE              as Markdown, or as a chart

Commits, aborts by cause, waits by node and type, requests and ticks for each commit, and the longest wait. A wait is a request that is answered
`again`. A tick is one pass in which every session asks once: the ticks of a run are the requests of its busiest session. A request is
*lost* if it was granted to a transaction that was aborted later, or told of its abort. Ticks measure how much the controls let run side by side, not time:
the work of the program itself differs from control to control. The last column says what a tree guarantees beyond what every tree does, as the line
`.guarantees` of the shell tells it; without the program of the shell it is left out. This tool measures, and chooses nothing.
"""
import argparse
import collections
import concurrent.futures
import dataclasses
import os
import pathlib
import re
import subprocess
import sys

import followed
import guaranteed
import workload
from svg import Drawing
from worked_runs import BUILT, SHELL, TOP

CAUSES = ("newer", "late", "first", "pivot", "after")


@dataclasses.dataclass
class Measured:
    name: str
    commits: int = 0
    ticks: int = 0
    requests: int = 0
    waits: int = 0
    lost: int = 0
    refused: int = 0
    longest: int = 0  # how often in a row the same request was answered `again`
    guarantees: str = None  # what the tree guarantees, if a shell told it
    aborts: collections.Counter = dataclasses.field(default_factory=collections.Counter)  # by cause
    waits_at: collections.Counter = dataclasses.field(default_factory=collections.Counter)  # by node and type

    def per_commit(self, count):
        return count / self.commits if self.commits else 0.0

    @property
    def commits_in_100_ticks(self):
        return 100 * self.commits / self.ticks if self.ticks else 0.0


def measured(name, steps):
    """What a run did, by its steps."""
    made, asked, waiting = Measured(name, requests=len(steps)), collections.Counter(), collections.Counter()
    granted = collections.Counter()
    for step in steps:
        asked[step.session] += 1
        word = step.reply[0]
        waiting[step.session] = waiting[step.session] + 1 if word == "again" else 0
        made.longest = max(made.longest, waiting[step.session])
        if word == "again":
            made.waits += 1
            made.waits_at[step.reply[3], step.kind] += 1
        elif word == "aborted":
            made.aborts[step.reply[1]] += 1
            made.lost += 1 + granted.pop(step.session, 0)
        elif word == "committed":
            made.commits += 1
            granted.pop(step.session, None)
        elif word == "refused":
            made.refused += 1
        else:
            granted[step.session] += 1
    made.ticks = max(asked.values(), default=0)
    return made


def ran(program, tree, script):
    """The text of `turns` over a tree text and script lines."""
    text = tree + "%%\n" + "".join(f"{line}\n" for line in script)
    done = subprocess.run([program, "turns"], input=text, capture_output=True, text=True)
    if done.returncode:
        raise SystemExit(f"compare: status {done.returncode}: {done.stdout.strip()}")
    return done.stdout


def compared(program, trees, script, shell=None):
    """Measures the scripts under each of the trees, which are pairs of a name and a text. With a shell, tells what each tree guarantees."""
    asked = followed.asked_lines(script)

    def one(named):
        name, tree = named
        replies, _, _ = followed.replies_and_report(ran(program, tree, script))
        made = measured(name, followed.turns(asked, replies))
        made.guarantees = guaranteed.told(shell, tree) if shell else None
        return made

    with concurrent.futures.ThreadPoolExecutor(len(os.sched_getaffinity(0))) as pool:
        return list(pool.map(one, trees))


def with_batch(tree, size):
    """The tree text, with `size` as the `batch` of every timestamp and snapshot node."""
    tree = re.sub(r"(?m)^batch *=.*\n", "", tree)
    return re.sub(r'(?m)^(control = "(?:timestamp|snapshot)".*\n)', rf"\1batch = {size}\n", tree)


def trees_of(name, files=None):
    """The names and texts of these tree files, or of all of a workload: those of one node first, then by the number of nodes."""
    files = files or sorted((TOP / "examples/trees").glob(f"{name}-*.toml"))
    found = [(file.stem.removeprefix(f"{name}-"), file.read_text()) for file in files]
    return sorted(found, key=lambda it: it[1].count("[[node]]"))


HEAD = ("Tree", "Commits", "In 100 ticks", "Ticks", "Requests", "Waits", "Lost", "Aborts", "Longest wait")


def cells(one):
    """A line of the table: numbers for each commit have two digits after the point."""
    aborts = ", ".join(f"{one.aborts[cause]} {cause}" for cause in CAUSES if one.aborts[cause]) or "none"
    per = [f"{one.per_commit(count):.2f}" for count in (one.ticks, one.requests, one.waits, one.lost)]
    return [one.name, str(one.commits), f"{one.commits_in_100_ticks:.0f}", *per, aborts, str(one.longest)]


def lines(found):
    """The table of what each tree did for each commit, with its head, and what each guarantees, if a shell told it."""
    rows = [list(HEAD), *map(cells, found)]
    told = [one.guarantees for one in found]
    return [[*row, word] for row, word in zip(rows, ["Guarantees", *told])] if all(told) else rows


def waits_cells(one, nodes=5):
    """Where a tree's transactions waited: the node and the type, the most frequent first."""
    found = sorted(one.waits_at.items(), key=lambda it: (-it[1], it[0]))
    more = sum(count for _, count in found[nodes:])
    listed = [f"{count} {kind} at {node}" for (node, kind), count in found[:nodes]] + ([f"{more} others"] if more else [])
    return [one.name, ", ".join(listed) or "none"]


def aligned(rows):
    widths = [max(len(row[at]) for row in rows) for at in range(len(rows[0]))]
    return "".join("  ".join(cell.ljust(width) for cell, width in zip(row, widths)).rstrip() + "\n" for row in rows)


def markdown(rows):
    head, *lines = rows
    listed = [head, ["---"] * len(head), *lines]
    return "".join("| " + " | ".join(row) + " |\n" for row in listed)


def tables(found, form=aligned):
    """The two tables: what each tree did for each commit and guarantees, and where its transactions waited."""
    refused = sum(one.refused for one in found)
    told = f"{refused} requests were refused: the scripts and the trees do not fit.\n" if refused else ""
    return told + form(lines(found)) + "\n" + form([["Tree", "Waits"], *map(waits_cells, found)])


LEFT, WIDTH, BAR, GAP = 150, 860, 16, 10


def chart(found, title):
    """A chart of the trees: commits in 100 ticks, and the requests for each commit, which are granted, waits, or lost."""
    drawing = Drawing(WIDTH, 74 + len(found) * (BAR + GAP))
    rates = max([one.commits_in_100_ticks for one in found] + [1])
    asks = max([one.per_commit(one.requests) for one in found] + [1])
    middle = 470
    drawing.text(16, 26, title, "title")
    drawing.text(LEFT, 50, "commits in 100 ticks", "label")
    drawing.text(middle, 50, "requests for each commit:", "label")
    for at, (name, colour) in enumerate((("granted", "blue"), ("waits", "amber"), ("lost", "red"))):
        drawing.box(middle + 172 + 74 * at, 41, 10, 10, colour)
        drawing.text(middle + 186 + 74 * at, 50, name, "label")
    for at, one in enumerate(found):
        top = 62 + at * (BAR + GAP)
        drawing.text(LEFT - 10, top + 12, one.name, "label", "end")
        width = 240 * one.commits_in_100_ticks / rates
        drawing.box(LEFT, top, width, BAR, "green")
        drawing.text(LEFT + width + 6, top + 12, f"{one.commits_in_100_ticks:.0f}", "label")
        left = middle
        for count, colour in ((one.requests - one.waits - one.lost, "blue"), (one.waits, "amber"), (one.lost, "red")):
            width = 310 * one.per_commit(count) / asks
            drawing.box(left, top, width, BAR, colour)
            left += width
        drawing.text(left + 6, top + 12, f"{one.per_commit(one.requests):.1f}", "label")
    return drawing.whole(f"{title}: commits in 100 ticks and requests for each commit, by tree")


def inputs_of(given):
    """The trees and the script lines that the words ask for."""
    if given.script:
        if not given.trees:
            raise SystemExit("compare: --script wants --trees")
        return trees_of("", given.trees), followed.parts(given.script.read_text())[1]
    rows = workload.rows_of(given)
    return [(name, text + rows) for name, text in trees_of(given.workload, given.trees)], workload.script_of(given).splitlines()


def main():
    parser = argparse.ArgumentParser(description=__doc__, formatter_class=argparse.RawDescriptionHelpFormatter, parents=[workload.options()])
    source = parser.add_mutually_exclusive_group(required=True)
    source.add_argument("--workload", choices=workload.WORKLOADS)
    source.add_argument("--script", type=pathlib.Path)
    parser.add_argument("--trees", type=pathlib.Path, nargs="+")
    parser.add_argument("--batches", help="sizes, with commas between them")
    parser.add_argument("--markdown", action="store_true")
    parser.add_argument("--svg", type=pathlib.Path)
    parser.add_argument("--program", type=pathlib.Path, default=BUILT)
    parser.add_argument("--shell", type=pathlib.Path, default=SHELL, help="the program of the shell, which tells what a tree guarantees")
    given = parser.parse_args()
    if not os.access(given.program, os.X_OK):
        raise SystemExit(f"compare: there is no program {os.path.relpath(given.program)}: ./check build proves and builds it")
    shell = given.shell.resolve() if os.access(given.shell, os.X_OK) else None
    if not shell:
        print(f"compare: there is no program {os.path.relpath(given.shell)}: the column Guarantees is left out; ./check build proves and builds it", file=sys.stderr)
    trees, script = inputs_of(given)
    if given.batches:
        trees = [(f"{name}, {size} a batch", with_batch(text, size)) for name, text in trees for size in given.batches.split(",")]
    found = compared(given.program, trees, script, shell)
    if given.svg:
        given.svg.write_text(chart(found, given.workload or given.script.stem))
    sys.stdout.write(tables(found, markdown if given.markdown else aligned))
    return 0


if __name__ == "__main__":
    sys.exit(main())
