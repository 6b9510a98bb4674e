#!/usr/bin/env python3
"""Makes the pictures and tables of the docs anew, and compares them with what is committed.

    tools/docs.py [--program FILE] [--shell FILE]            compares
    tools/docs.py [--program FILE] [--shell FILE] --write    writes them

A table is between the lines `<!-- made: NAME -->` and `<!-- end -->` of a page; a picture is a file of docs/pictures. Each comes from a run of the
programs or from files of runs/ and examples/. The last line is `docs: N passed, M failed`.
"""
import argparse
import functools
import os
import pathlib
import re
import sys

import compare
import followed
import picture
import workload
from worked_runs import BUILT, SHELL, TOP, tables

PAGES = ("docs/CHOOSING.md", "docs/ANOMALIES.md")
PICTURES = TOP / "docs/pictures"
MADE = r"(?ms)^<!-- made: ([a-z -]+) -->\n(.*?)^<!-- end -->\n"

# What docs/CHOOSING.md measures: the options of each workload.
SETS = {
    "tpcc": "--sessions 16 --scale 2",
    "seats": "--sessions 16 --scale 2",
    "smallbank": "--sessions 16 --scale 2",
    "transfers": "--sessions 16 --scale 2",
}
RUNS = (
    "lost-update-locks",
    "aborted-read-pipeline",
    "intermediate-read-timestamp",
    "write-skew-snapshot",
    "read-only-anomaly-snapshot",
    "dirty-write-pipeline",
    "observed-transaction-vanishes-tree",
)
TREES = ("tpcc-groups", "tpcc-reports-apart", "seats-groups")
CONTROLS = ("locks", "pipeline", "timestamp", "snapshot", "tree")
ANOMALIES = {
    "dirty-write": "dirty write (G0)",
    "aborted-read": "aborted read (G1a)",
    "intermediate-read": "intermediate read (G1b)",
    "circular-information-flow": "circular information flow (G1c)",
    "observed-transaction-vanishes": "observed transaction vanishes (OTV)",
    "predicate-many-preceders": "predicate-many-preceders, by scans (PMP)",
    "lost-update": "lost update (P4)",
    "read-skew": "read skew (G-single)",
    "write-skew": "write skew on items (G2-item)",
    "write-skew-by-scans": "write skew by scans (G2)",
    "read-only-anomaly": "read-only anomaly",
}


class Made:
    """The pictures and tables, by their names. A run that several of them need is made once."""

    def __init__(self, program, shell):
        self.program, self.shell = program, shell

    @functools.lru_cache(maxsize=None)
    def set_of(self, name, words, trees=None):
        """Measures a workload with these options, under all its trees or these pairs of a name and a text."""
        given = workload.options().parse_args(words.split())
        given.workload = name
        rows = workload.rows_of(given)
        listed = [(named, text + rows) for named, text in trees or compare.trees_of(name)]
        return compare.compared(self.program, listed, workload.script_of(given).splitlines(), self.shell)

    def pictures(self):
        for name, words in SETS.items():
            yield f"{name}.svg", compare.chart(self.set_of(name, words), f"{name} {words}")
        for name in TREES:
            yield f"{name}.svg", picture.drawn("tree", [TOP / f"examples/trees/{name}.toml"], name)
        for name in RUNS:
            yield f"{name}.svg", picture.drawn("run", [TOP / f"runs/anomalies/{name}.in", TOP / f"runs/anomalies/{name}.out"], name)
        yield "shop-tree.svg", picture.drawn("tree", [TOP / "examples/shop.script"], "the tree of examples/shop.script")
        yield "turns-run.svg", picture.drawn("turns", [TOP / "examples/turns.script", TOP / "runs/examples/turns.out"], "turns < examples/turns.script")

    def table(self, name):
        """The table of this name."""
        if name == "anomalies":
            return anomalies()
        if name.startswith("why "):
            return why(name.removeprefix("why "))
        if name in SETS:
            return compare.tables(self.set_of(name, SETS[name]), compare.markdown)
        return compare.markdown(getattr(self, name.replace(" ", "_"))())

    def batches(self):
        """Batch sizes of two trees."""
        sizes = (1, 4, 16, 64)
        rows = [["Tree", *(f"{size} a batch" for size in sizes)]]
        for name, tree in (("tpcc", "reports-apart"), ("seats", "searches-apart")):
            text = dict(compare.trees_of(name))[tree]
            found = self.set_of(name, SETS[name], tuple((str(size), compare.with_batch(text, size)) for size in sizes))
            rows.append([f"{name}-{tree}", *(f"{one.commits_in_100_ticks:.0f} ({one.per_commit(one.waits):.1f} waits)" for one in found)])
        return rows

    def guards(self):
        """Without and with guard rows."""
        rows = [["Tree", "Without", "With guards"]]
        for name, words in SETS.items():
            for without, guarded in zip(self.set_of(name, words), self.set_of(name, f"{words} --guards")):
                rows.append([f"{name}-{without.name}", short(without), short(guarded)])
        return rows

    def hot_first(self):
        """The hot table of `seats` last and first in the profiles, without and with guards."""
        last, first = '["seat"], ["customer"], ["reservation"], ["flight"]', '["flight"], ["seat"], ["customer"], ["reservation"]'
        early = tuple((name, text.replace(last, first)) for name, text in compare.trees_of("seats"))
        words = SETS["seats"]
        columns = (
            self.set_of("seats", words),
            self.set_of("seats", f"{words} --guards"),
            self.set_of("seats", f"{words} --hot-first", early),
            self.set_of("seats", f"{words} --hot-first --guards", early),
        )
        head = ["Tree", "Flights last", "last, guards", "Flights first", "first, guards"]
        return [head, *([line[0].name, *map(short, line)] for line in zip(*columns))]

    def parts(self):
        """One, two and four parts of an ordered timestamp leaf under locks."""
        head = compare.trees_of("transfers")[0][1].partition("[[node]]")[0]
        found = self.set_of("transfers", "--sessions 16 --scale 4", tuple((f"{count} part{'s' * (count > 1)}", head + in_parts(count)) for count in (1, 2, 4)))
        return compare.lines(found)

    def calm(self):
        """Few sessions over many rows."""
        return compare.lines(self.set_of("smallbank", "--sessions 4 --scale 16"))


def short(one):
    return f"{one.commits_in_100_ticks:.0f} ({one.per_commit(one.lost):.1f} lost)"


def in_parts(count):
    nodes = '[[node]]\nname = "root"\ncontrol = "locks"\n'
    for part in range(count):
        nodes += f'[[node]]\nname = "part_{part}"\nparent = "root"\ncontrol = "timestamp"\ncommit = "ordered"\ntypes = ["transfer", "deposit", "audit"]\n'
        nodes += f"of = {count}\npart = {part}\n" if count > 1 else ""
    return nodes


def prevented(name):
    """The replies by which a run stopped a transaction, each once, in their order; `none` if all was granted."""
    text = (TOP / f"runs/anomalies/{name}.out").read_text()
    words = []
    for reply in followed.replies_and_report(text)[0]:
        word = reply[1] if reply[1] == "again" else reply[2] if reply[1] == "aborted" else None
        if word and word != "asked" and word not in words:
            words.append(word)
    return ", ".join(f"`{word}`" for word in words) or "none"


def anomalies():
    """Which reply prevents each anomaly under each tree."""
    rows = ([told, *(prevented(f"{name}-{control}") for control in CONTROLS)] for name, told in ANOMALIES.items())
    return compare.markdown([["Anomaly", *CONTROLS], *rows])


def why(name):
    """Why an anomaly does not happen under each tree, by the table of its runs."""
    told = {row["Run"].strip("`"): row["Why the anomaly does not happen"] for row in tables((TOP / "runs/anomalies/README.md").read_text()) if "Run" in row}
    return compare.markdown([["Tree", "Reply", "Why"], *([it, prevented(f"{name}-{it}"), told[f"{name}-{it}"]] for it in CONTROLS)])


def checked(made, write):
    """Yields each picture and table with whether it is as committed."""
    names = set()
    for name, text in made.pictures():
        file = PICTURES / name
        names.add(file)
        yield f"docs/pictures/{name}", kept(file, text, write)
    for file in sorted(set(PICTURES.glob("*")) - names):
        yield f"{file.relative_to(TOP)} belongs to nothing", False
    for page in PAGES:
        text = (TOP / page).read_text()
        for name, old in re.findall(MADE, text):
            new = made.table(name)
            text = text.replace(f"<!-- made: {name} -->\n{old}<!-- end -->\n", f"<!-- made: {name} -->\n{new}<!-- end -->\n")
            yield f"{page}: {name}", write or old == new
        if write:
            (TOP / page).write_text(text)
    yield from linked()


def kept(file, text, write):
    if write:
        file.parent.mkdir(exist_ok=True)
        file.write_text(text)
    return file.exists() and file.read_text() == text


def linked():
    """Each picture that a page shows is there."""
    for page in ("README.md", *PAGES):
        for name in re.findall(r"!\[[^\]]*\]\(([^)]+\.svg)\)", (TOP / page).read_text()):
            yield f"{page} shows {name}", ((TOP / page).parent / name).exists()


def main():
    parser = argparse.ArgumentParser(description=__doc__, formatter_class=argparse.RawDescriptionHelpFormatter)
    parser.add_argument("--program", type=pathlib.Path, default=BUILT)
    parser.add_argument("--shell", type=pathlib.Path, default=SHELL)
    parser.add_argument("--write", action="store_true")
    given = parser.parse_args()
    missing = [os.path.relpath(it) for it in (given.program, given.shell) if not os.access(it, os.X_OK)]
    if missing:
        print(f"docs: there is no program {' and no '.join(missing)}: ./check build proves and builds both", file=sys.stderr)
        print("docs: 0 passed, 1 failed")
        return 1
    passed = failed = 0
    for name, is_well in checked(Made(given.program.resolve(), given.shell.resolve()), given.write):
        passed, failed = passed + is_well, failed + (not is_well)
        if not is_well:
            print(f"{name} is not as it is made: tools/docs.py --write")
    print(f"docs: {passed} passed, {failed} failed")
    return int(failed > 0)


if __name__ == "__main__":
    sys.exit(main())
