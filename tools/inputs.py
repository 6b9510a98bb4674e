#!/usr/bin/env python3
"""Large inputs that the program accepts, always the same for the same words.

    tools/inputs.py NAME               writes one of the inputs of SET, which tools/measure.py takes
    tools/inputs.py TREE [OPTION..]    an input of other sizes; --help lists the options

Shape `scripts` is for turns, threads and pool: a session's lines are whole transactions, and the sessions' lines alternate.
Shape `mixed` is for replay: one interleaving of random sessions, drawn without the answers. So a session whose transaction was aborted
goes on with its next lines, and these are refused. With --old N the first N sessions begin first, ask now and then, and commit last, so that
each batch and version since then stays alive. Shape `convoy`: session 1 writes one cell and then reads up to the limit of lines; all others wait for that cell.
"""
import argparse
import dataclasses
import pathlib
import random
import sys

MOST_LINES, MOST_BYTES, MOST_TRANSACTIONS = 65_536, 4_194_304, 8_192
SHOP = pathlib.Path(__file__).resolve().parent.parent / "runs/turns/a-shop-of-eight-sessions.in"


@dataclasses.dataclass
class Kind:
    """A type of transactions, the tables that it may use in the order of its steps, and its share among the types."""

    name: str
    tables: list
    share: int = 1
    only_reads: bool = False


@dataclasses.dataclass
class Plan:
    tree: str = "locks"
    shape: str = "scripts"
    keys: str = "uniform"  # uniform, hot (half of all accesses go to four keys), skewed, or own (each session has its own)
    transactions: int = MOST_TRANSACTIONS
    sessions: int = 32
    cells: int = 1_000
    accesses: int = 6
    lines: int = MOST_LINES
    prepares: int = 5  # of a hundred transactions
    reads: int = 50  # of a hundred accesses
    old: int = 0
    seed: int = 1


def head(tables, number=1):
    return f"format = {number}\ntables = [{', '.join(map(quoted, tables))}]\n"


def quoted(name):
    return f'"{name}"'


def kind(name, steps=None):
    listed = ", ".join(f"[{', '.join(map(quoted, step))}]" for step in steps or [])
    return f'[[type]]\nname = "{name}"\n' + (f"steps = [{listed}]\n" if steps else "")


def node(name, control, parent=None, types=(), **more):
    text = f'[[node]]\nname = "{name}"\ncontrol = "{control}"\n'
    text += f'parent = "{parent}"\n' if parent else ""
    text += f"types = [{', '.join(map(quoted, types))}]\n" if types else ""
    return text + "".join(f"{key} = {value if isinstance(value, int) else quoted(value)}\n" for key, value in more.items())


def rows(cells):
    return "".join(f'[[row]]\ntable = "{table}"\nkey = {key}\nvalue = {value}\n' for table, key, value in cells)


def pair(root, leaf, **more):
    """A root over two leaves, with a type each."""
    at_leaf = {"commit": "ordered"} if leaf == "timestamp" else {}
    text = head(["t"]) + kind("x") + kind("y") + node("root", root, **more)
    return text + node("g", leaf, "root", ["x"], **at_leaf) + node("h", leaf, "root", ["y"], **at_leaf), [Kind("x", ["t"]), Kind("y", ["t"])]


def alone(control, number=1):
    return head(["t"], number) + kind("any") + node("root", control, types=["any"]), [Kind("any", ["t"])]


def pipeline(_):
    tables = ["a", "b", "c", "d"]
    steps = [[table] for table in tables]
    text = head(tables) + kind("pay", steps) + kind("get", steps[1:]) + node("root", "pipeline", types=["pay", "get"])
    return text, [Kind("pay", tables, 2), Kind("get", tables[1:])]


def deep(_):
    text = head(["a", "b"]) + kind("x", [["a"], ["b"]]) + kind("y", [["a"], ["b"]]) + node("n0", "snapshot", batch=32)
    for depth in range(1, 7):
        text += node(f"n{depth}", "locks" if depth % 2 else "pipeline", f"n{depth - 1}")
    return text + node("x", "pipeline", "n6", ["x"]) + node("y", "locks", "n6", ["y"]), [Kind("x", ["a", "b"]), Kind("y", ["a", "b"])]


def scans(cells):
    text, kinds = alone("locks", 3)
    return text + rows(("t", key, key) for key in range(min(cells, 4_000))), kinds


def shop(cells):
    text = SHOP.read_text().partition("[[row]]")[0]
    stocked = [(table, key, value) for table, value in (("stock", 100), ("orders", 0), ("acct", 1000)) for key in range(1, min(cells, 5_000) + 1)]
    kinds = [Kind("report", ["stock", "orders"], only_reads=True), Kind("new_order", ["stock", "orders"]), Kind("payment", ["acct", "orders"]), Kind("delivery", ["orders", "acct"])]
    return text + rows(stocked), kinds


TREES = {
    "locks": lambda _: ("", alone("locks")[1]),
    "timestamps": lambda _: alone("timestamp"),
    "snapshot": lambda _: alone("snapshot"),
    "scans": scans,
    "lock-pair": lambda _: pair("locks", "locks"),
    "ordered": lambda _: pair("locks", "timestamp"),
    "batches": lambda _: pair("timestamp", "locks", batch=64),
    "snapshot-batches": lambda _: pair("snapshot", "locks", batch=64),
    "pipeline": pipeline,
    "deep": deep,
    "shop": shop,
}


def key_of(plan, draw, session):
    match plan.keys:
        case "uniform":
            return draw.randrange(1, plan.cells + 1)
        case "hot":
            return draw.randrange(1, 5) if draw.random() < 0.5 else draw.randrange(1, plan.cells + 1)
        case "skewed":
            return min(plan.cells, int(plan.cells ** draw.random()))
        case "own":
            return session * 10_000 + draw.randrange(1, plan.cells + 1)


def transaction(plan, draw, kinds, session):
    """The lines of one transaction, without its session."""
    one = draw.choices(kinds, [it.share for it in kinds])[0]
    lines, last = ["begin " + one.name], None
    for number, key in sorted((draw.randrange(len(one.tables)), key_of(plan, draw, session)) for _ in range(plan.accesses)):
        cell, what = f"{one.tables[number]} {key}", draw.randrange(100)
        if one.only_reads or what < plan.reads:
            is_scan = plan.tree == "scans" and what < plan.reads // 2
            lines.append(f"scan {cell} {draw.randrange(1, 17)}" if is_scan else f"read {cell}")
            last = None if is_scan else cell
        elif last == cell:
            lines.append(f"add {cell} 1")
        elif what >= 90:
            lines += [f"read {cell}", f"add {cell} {draw.randrange(1, 9)}"]
        elif plan.tree == "scans" and what < plan.reads + 5:
            lines.append(f"delete {cell}")
        else:
            lines.append(f"write {cell} {draw.randrange(1, 10**6)}")
    return lines + ["prepare"] * (draw.randrange(100) < plan.prepares) + ["commit"]


def scripts_of(plan, draw, kinds):
    """The lines of each session."""
    scripts, total = {session: [] for session in range(1, plan.sessions + 1)}, 0
    for number in range(min(plan.transactions, MOST_TRANSACTIONS)):
        session = 1 + number % plan.sessions
        lines = transaction(plan, draw, kinds, session)
        total += len(lines)
        if total > min(plan.lines, MOST_LINES):
            break
        scripts[session] += lines
    return scripts


def in_rounds(scripts):
    for at in range(max(map(len, scripts.values()))):
        yield from (f"{session} {lines[at]}" for session, lines in scripts.items() if at < len(lines))


def mixed(plan, draw, kinds, scripts):
    """One interleaving, in which the transactions of the old sessions are active from the first line to the last."""
    old = {}
    for session in range(1, plan.old + 1):
        one = kinds[session % len(kinds)]
        accesses = [f"{draw.choice(['read', 'read', 'write'])} {one.tables[0]} {key_of(plan, draw, session)}" for _ in scripts.pop(session)[2:]]
        old[session] = [f"{it} 7" if it.startswith("write") else it for it in accesses]
        yield f"{session} begin {one.name}"
    left = {session: lines[::-1] for session, lines in scripts.items() if lines}
    while left:
        if old and draw.random() < len(old) / 40:
            session = draw.choice(list(old))
            if old[session]:
                yield f"{session} {old[session].pop()}"
        session = draw.choice(list(left))
        for _ in range(min(draw.randrange(1, 4), len(left[session]))):
            yield f"{session} {left[session].pop()}"
        if not left[session]:
            del left[session]
    yield from (f"{session} commit" for session in old)


def convoy(plan, kinds):
    table, last = kinds[0].tables[0], kinds[-1].name
    rest = [f"{session} {line}" for session in range(2, plan.sessions + 1) for line in (f"begin {last}", f"write {table} 1 {session}", "commit")]
    reads = min(MOST_LINES, 8 * plan.transactions) - len(rest) - 3
    yield from (f"1 begin {kinds[0].name}", f"1 write {table} 1 1")
    yield from (f"1 read {table} {2 + number % plan.cells}" for number in range(reads))
    yield "1 commit"
    yield from rest


def made(plan):
    """The input of a plan."""
    draw = random.Random(repr(plan))
    tree, kinds = TREES[plan.tree](plan.cells)
    if plan.shape == "convoy":
        lines = list(convoy(plan, kinds))
    else:
        scripts = scripts_of(plan, draw, kinds)
        lines = list(in_rounds(scripts) if plan.shape == "scripts" else mixed(plan, draw, kinds, scripts))
    text = f"{tree}%%\n" + "".join(f"{line}\n" for line in lines)
    assert len(text) <= MOST_BYTES and len(lines) <= MOST_LINES
    return text


SET = {
    "locks-uniform": Plan("locks", cells=20_000),
    "locks-hot": Plan("locks", keys="hot"),
    "locks-own": Plan("locks", keys="own"),
    "lock-pair-skewed": Plan("lock-pair", keys="skewed"),
    "pipeline-uniform": Plan("pipeline", cells=5_000),
    "pipeline-hot": Plan("pipeline", keys="hot"),
    "timestamps-uniform": Plan("timestamps", cells=20_000),
    "timestamps-hot": Plan("timestamps", keys="hot", reads=80),
    "ordered-skewed": Plan("ordered", keys="skewed"),
    "batches-skewed": Plan("batches", keys="skewed"),
    "snapshot-uniform": Plan("snapshot", cells=20_000),
    "snapshot-hot": Plan("snapshot", keys="hot", reads=80),
    "snapshot-batches-skewed": Plan("snapshot-batches", keys="skewed", reads=70),
    "deep-uniform": Plan("deep", cells=5_000),
    "scans-uniform": Plan("scans", cells=4_000),
    "shop-uniform": Plan("shop", cells=5_000),
    "shop-hot": Plan("shop", keys="hot", cells=100),
    "locks-uniform-mixed": Plan("locks", "mixed", cells=20_000),
    "locks-hot-mixed": Plan("locks", "mixed", keys="hot"),
    "timestamps-uniform-mixed": Plan("timestamps", "mixed", cells=20_000),
    "scans-uniform-mixed": Plan("scans", "mixed", cells=4_000),
    "snapshot-uniform-mixed": Plan("snapshot", "mixed", cells=20_000),
    "snapshot-batches-skewed-mixed": Plan("snapshot-batches", "mixed", keys="skewed", reads=70),
    "shop-uniform-mixed": Plan("shop", "mixed", cells=5_000),
    **{f"{tree}-old": Plan(tree, "mixed", keys="hot", cells=40, accesses=4, old=8, reads=70) for tree in ("locks", "timestamps", "snapshot", "batches", "snapshot-batches", "ordered", "pipeline", "shop")},
    **{f"{tree}-convoy": Plan(tree, "convoy") for tree in ("locks", "ordered", "snapshot", "batches")},
}

# The inputs of the table in docs/PERFORMANCE.md, and what it says of them.
TABLE = {
    "locks-uniform-mixed": "locks, cells drawn evenly",
    "locks-hot-mixed": "locks, half of all accesses on four cells",
    "pipeline-old": "a pipeline, with eight transactions that stay open to the end",
    "timestamps-uniform-mixed": "a leaf of timestamps",
    "scans-uniform-mixed": "locks with scans",
    "snapshot-uniform-mixed": "a leaf of snapshots",
    "snapshot-batches-skewed-mixed": "a snapshot root with batches over leaves of locks, skewed keys",
    "snapshot-batches-old": "the same tree, with eight transactions that stay open to the end",
    "deep-uniform": "eight levels, under a snapshot root",
    "locks-convoy": "two million replies: 31 sessions wait for one that reads 65,000 times",
    "shop-old": "a shop (a snapshot root over locks and pipelines), with eight transactions that stay open to the end",
    "shop-uniform-mixed": "the same tree, where none stays open, with 15,000 starting rows",
}


def main():
    options = argparse.ArgumentParser(description=__doc__, formatter_class=argparse.RawDescriptionHelpFormatter)
    options.add_argument("name", choices=[*SET, *TREES], metavar="NAME")
    for field in dataclasses.fields(Plan)[1:]:
        options.add_argument(f"--{field.name}", type=field.type, default=field.default)
    given = vars(options.parse_args())
    name = given.pop("name")
    sys.stdout.write(made(SET[name] if name in SET else Plan(name, **given)))


if __name__ == "__main__":
    main()
