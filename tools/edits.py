#!/usr/bin/env python3
"""Tries the second tier of must-fail edits, crates/NAME/edits/*.edit: the prover must refuse each.

    tools/edits.py [--jobs N] [CRATE..]     the edits of these crates, or of all
    tools/edits.py --read [CRATE..]         proves nothing, and reports each edit of both tiers that cannot be applied

An edit has a line `file: PATH` (below src/, specs/ or proofs/ of its crate) and then pairs of lines `old: TEXT` and `new: TEXT`. Each old text
must be in the file exactly once. The first tier, crates/NAME/must-fail/, has the same form, and `rt ci` tries it.

The edits are tried on a copy of the working tree in a temporary folder, where the edits of a crate are its must-fail edits. For each crate,
lowest first: `rt check` proves it as it is, beginning with the libraries and the work that earlier checks kept in `out/`, and then `rt must-fail`
checks it with each edit. A crate has a line when it is done, and each edit that was not refused has one. An edit that cannot be applied, is not valid code,
or was not tried counts as failed; so do all edits of a crate that is not proved. The last line is `N passed, M failed`.
"""
import argparse
import os
import pathlib
import re
import shutil
import subprocess
import sys
import tempfile
import time

from crate_graph import Graph

TOP = pathlib.Path(__file__).resolve().parent.parent
TIERS = ("must-fail", "edits")
WEAK = re.compile(r"refused, as it must be \(only ")


def fault(edit, crate):
    """Returns why the edit cannot be applied to the files of its crate, or None."""
    path, old, texts, pairs = None, None, {}, 0
    for line in edit.read_text(encoding="utf-8").split("\n"):
        if line.startswith("file: "):
            path = line[len("file: ") :].strip()
            if os.path.normpath(path) != path or path.split("/")[0] not in ("src", "specs", "proofs"):
                return f"{path} is not below src/, specs/ or proofs/"
            if not (crate / path).is_file():
                return f"there is no file {path}"
            texts.setdefault(path, (crate / path).read_text(encoding="utf-8"))
        elif line.startswith("old: "):
            old = line[len("old: ") :]
        elif line.startswith("new:"):
            if path is None or old is None:
                return "a line `new:` has no `file:` or no `old:` above it"
            new, found = line[len("new:") :].removeprefix(" "), texts[path].count(old)
            if found != 1:
                return f"an old text is {found} times in {path}: {old.strip()}"
            if old == new:
                return f"an old text is its own new text: {old.strip()}"
            texts[path], old, pairs = texts[path].replace(old, new), None, pairs + 1
        elif line.strip():
            return f"a line is not read: {line.strip()}"
    return None if pairs else "it has no pair of `old:` and `new:`"


def edits_of(name, tier):
    return sorted((TOP / "crates" / name / tier).glob("*.edit"))


def read(names):
    """Reports the edits of both tiers that cannot be applied."""
    passed, failed = 0, 0
    for name in names:
        for tier in TIERS:
            for edit in edits_of(name, tier):
                why = fault(edit, TOP / "crates" / name)
                passed, failed = passed + (why is None), failed + (why is not None)
                if why:
                    print(f"edits: {edit.relative_to(TOP)}: {why}")
    print(f"edits that can be applied: {passed} passed, {failed} failed")
    return failed == 0


def linked(source, target):
    """Links a file, or copies it if the folders are on different disks."""
    try:
        os.link(source, target)
    except OSError:
        shutil.copy2(source, target)


def copied(names, below, to):
    """Copies the crates, with the second tier of the named ones in the place of their must-fail edits.

    The libraries that are built come along, if they are below a named crate: nothing writes to them. So does the kept work of the named crates.
    """
    for at in ("crates.txt", "HANDLES"):
        shutil.copyfile(TOP / at, to / at)
    left_out = shutil.ignore_patterns("out", *TIERS)
    shutil.copytree(TOP / "crates", to / "crates", ignore=left_out)
    for name in names:
        shutil.copytree(TOP / "crates" / name / "edits", to / "crates" / name / "must-fail")
    for part, crates, copy in (("rlib", below, linked), ("incremental", names, shutil.copy2)):
        for name in crates:
            kept = TOP / "crates" / name / "out" / part
            if kept.is_dir():
                shutil.copytree(kept, to / "crates" / name / "out" / part, copy_function=copy)


def run(words, folder, environment):
    ran = subprocess.run(words, cwd=folder, env=environment, stdin=subprocess.DEVNULL, stdout=subprocess.PIPE, stderr=subprocess.STDOUT, text=True, errors="replace")
    return ran.returncode, ran.stdout.splitlines()


def tried(name, repository, jobs):
    """Tries the edits of a crate. Returns how many were refused, how many were not, and the lines to print."""
    environment = {**os.environ, "RT_JOBS": str(jobs)} if jobs else dict(os.environ)
    number = len(edits_of(name, "edits"))
    check = [str(TOP / "tools/rt_quick"), "check", *(["--jobs", str(jobs)] if jobs else [])]
    status, lines = run(check, repository / "crates" / name, environment)
    if status:
        return 0, number, [f"{name} is not proved as it is (status {status}), so its edits say nothing:", *lines[-6:]]
    _, lines = run(["rt", "must-fail", name], repository, environment)
    found = {it[1]: it[2] for line in lines if (it := re.match(rf"rt: must-fail {name}/(\S+\.edit): (.*)", line))}
    told, refused = [], 0
    for edit in edits_of(name, "edits"):
        said = found.get(edit.name, "NOT TRIED: " + " ".join(lines[-1:]))
        is_refused = said.startswith("refused, as it must be")
        refused += is_refused
        if not is_refused or WEAK.match(said):
            told.append(f"{edit.relative_to(TOP)}: {said}")
    return refused, number - refused, told


def main():
    parser = argparse.ArgumentParser(description=__doc__, formatter_class=argparse.RawDescriptionHelpFormatter)
    parser.add_argument("--read", action="store_true")
    parser.add_argument("--jobs", type=int, metavar="N")
    parser.add_argument("crates", nargs="*", metavar="CRATE")
    given = parser.parse_args()
    graph = Graph.read(TOP / "crates.txt")
    order = graph.lowest_first()
    unknown = [it for it in given.crates if it not in order]
    if unknown:
        parser.error(f"crates.txt has no crate {unknown[0]}")
    names = [it for it in order if not given.crates or it in given.crates]
    if given.read:
        return 0 if read(names) else 1
    names = [it for it in names if edits_of(it, "edits")]
    passed, failed = 0, 0
    with tempfile.TemporaryDirectory(prefix="tebaldi-edits-") as room:
        repository = pathlib.Path(room)
        copied(names, sorted(graph.all_below(names)), repository)
        for at, name in enumerate(names, 1):
            start = time.time()
            good, bad, lines = tried(name, repository, given.jobs)
            passed, failed = passed + good, failed + bad
            print(f"edits: {name}: {good} refused, {bad} failed, in {time.time() - start:.0f} seconds ({at} of {len(names)} crates)")
            for line in lines:
                print(f"edits:   {line}")
            sys.stdout.flush()
    print(f"{passed} passed, {failed} failed")
    return 1 if failed else 0


if __name__ == "__main__":
    sys.exit(main())
