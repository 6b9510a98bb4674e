#!/usr/bin/env python3
"""Draws a run or a tree as SVG, readable on a light and on a dark page.

    tools/picture.py run INPUT REPLIES       a run of `replay`: an input, and the text that it gave
    tools/picture.py turns INPUT REPLIES     the same for `turns`: a column is a pass in which every session asks once
    tools/picture.py printed RUN             what `threads` or `pool` printed
    tools/picture.py tree INPUT              the tree of a tree text or of an input

Each session has a lane, and each transaction is a bar from its Begin to its end, green if it committed and red if it was aborted. An arrow goes
from a request that waits to the transaction that it waits for, and a dashed arrow goes from a request that is aborted to the transaction that
the cause names, if that one is active. The serial order is below. The picture is written to standard output, or with --out to a file.
"""
import argparse
import dataclasses
import pathlib
import sys

import followed
from svg import Drawing

PLAIN = 'format = 1\ntables = ["t"]\n[[type]]\nname = "any"\n[[node]]\nname = "root"\ncontrol = "locks"\ntypes = ["any"]\n'


@dataclasses.dataclass
class Cell:
    """What a session does in a column: at most four short lines."""

    session: int
    column: int
    lines: list
    txn: int = None
    mark: str = None  # wait, abort, commit
    to: int = None  # the transaction that an arrow goes to


@dataclasses.dataclass
class Bar:
    session: int
    first: int
    last: int = None
    end: str = None  # commit or abort


def cause_lines(cause):
    """The two lines that say the cause of an abort, and the transaction that it names."""
    word, rest = cause[0], cause[1:]
    if word == "pivot":
        a, b, c, d = rest[1:]
        return [f"pivot {a}→{b}", f"{c}→{d}"], None
    if word in ("late", "first"):
        return [f"{word} {rest[1]}", f"at {rest[0]}"], int(rest[1][1:])
    if word == "newer":
        return [f"newer {rest[1]}", f"at {rest[0]}"], int(rest[1][1:])
    if word == "after":
        return [f"after {rest[0]}", ""], int(rest[0][1:])
    return [word, ""], None


def cell_of(step, column):
    """The cell of a request and its reply."""
    asked, reply = step.asked, step.reply
    lines, mark, to = [asked[0], " ".join(asked[1:])], None, None
    if reply[0] == "begun":
        lines += [reply[1], ""]
    elif reply[0] == "again":
        lines, mark, to = lines + [f"again {reply[1]}", f"at {reply[3]}"], "wait", int(reply[1][1:])
    elif reply[0] == "aborted":
        told, to = cause_lines(reply[1:])
        lines, mark = lines + told, "abort"
    elif reply[0] == "committed":
        lines, mark = lines + ["committed", ""], "commit"
    elif reply[0] == "refused":
        lines += ["refused", reply[1]]
    else:
        words = reply[1:] if reply[0] in ("value", "values") else reply
        lines += [" ".join(words), ""]
    return Cell(step.session, column, lines, step.txn, mark, to)


def columns_of(steps, is_turns):
    """The column of each step: its place, or in `turns` the number of its pass."""
    column, last = -1, None
    for step in steps:
        if not is_turns or last is None or step.session <= last:
            column += 1
        last = step.session
        yield column


def cells_of_printed(lines):
    """The cells of the events of a printed run, and its serial order."""
    cells, session, order = [], {}, []
    for words in (line.split() for line in lines):
        if words[0] == "order":
            order = words[1:]
        if words[0] in ("start", "order", "row", "end"):
            continue
        txn = int(words[1][1:])
        if words[0] == "began":
            session[txn] = int(words[2])
        listed, mark, to = event_lines(words)
        cells.append(Cell(session[txn], len(cells), listed, txn, mark, to))
    return cells, order


def event_lines(words):
    kind, rest = words[0], words[2:]
    if kind == "began":
        return ["begin", " ".join(rest[1:]), words[1], ""], None, None
    if kind == "got":
        return ["read", " ".join(rest[:2]), rest[3], "" if rest[2] == "t0" else f"from {rest[2]}"], None, None
    if kind == "put":
        return ["delete" if rest[2] == "none" else "write", " ".join(rest[: 2 if rest[2] == "none" else 3]), "done", ""], None, None
    if kind == "done":
        return ["commit", "", "committed", ""], "commit", None
    if kind == "gone":
        told, to = cause_lines(rest)
        return ["abort", "", *told], "abort", to
    return [{"ready": "prepare", "told": "told"}[kind], "", "", ""], None, None


def bars_of(cells):
    """The bar of each transaction, by its number."""
    bars = {}
    for cell in cells:
        if cell.txn is None or cell.lines[0] == "told":
            continue
        bar = bars.setdefault(cell.txn, Bar(cell.session, cell.column))
        bar.last = cell.column
        if cell.mark in ("commit", "abort"):
            bar.end = cell.mark
    return bars


LEFT, TOP, LANE, BAR = 84, 44, 78, 64


class Run:
    """The drawing of a run."""

    def __init__(self, cells, order, title):
        self.cells, self.order, self.title = cells, order, title
        self.bars = bars_of(cells)
        self.lanes = {session: at for at, session in enumerate(sorted({cell.session for cell in cells}))}
        self.lefts = [LEFT]
        for column in range(1 + max((cell.column for cell in cells), default=0)):
            self.lefts.append(self.lefts[-1] + max([44] + [6.7 * len(line) + 18 for cell in cells if cell.column == column for line in cell.lines]))
        self.drawing = Drawing(max(round(self.lefts[-1] + 16), 420), TOP + len(self.lanes) * LANE + 46)

    def x(self, column):
        """The left edge of a column, each of which is as wide as its widest line."""
        return self.lefts[column]

    def y(self, session):
        return TOP + self.lanes[session] * LANE

    def draw(self):
        self.drawing.text(16, 26, self.title, "title")
        for session in self.lanes:
            middle = self.y(session) + BAR / 2
            self.drawing.text(16, middle + 4, f"session {session}", "label muted")
            self.drawing.line([(LEFT - 8, middle), (self.drawing.width - 12, middle)], "lane")
        for txn, bar in self.bars.items():
            self.draw_bar(bar)
        for cell in self.cells:
            self.draw_cell(cell)
        for cell in self.cells:
            self.draw_arrow(cell)
        self.draw_order()
        return self.drawing.whole(f"{self.title}: a lane for each session, with its transactions and the serial order")

    def draw_bar(self, bar):
        kind = {"commit": "pale-green", "abort": "pale-red", None: "pale-blue"}[bar.end]
        self.drawing.box(self.x(bar.first) + 2, self.y(bar.session), self.x(bar.last + 1) - self.x(bar.first) - 4, BAR, kind, 5)

    def draw_cell(self, cell):
        left, top = self.x(cell.column), self.y(cell.session)
        if cell.mark == "wait":
            self.drawing.box(left + 3, top + 1, self.x(cell.column + 1) - left - 6, BAR - 2, "pale-amber", 4)
        for at, line in enumerate(cell.lines):
            tone = " amber-text" if cell.mark == "wait" and at > 1 else " red-text" if cell.mark == "abort" and at > 1 else " muted" if at < 1 else ""
            if line:
                self.drawing.text(left + 8, top + 14 + 14 * at, line, "mono" + tone)

    def draw_arrow(self, cell):
        """An arrow to the lane of the transaction that is waited for, if that one is active in this column."""
        bar = self.bars.get(cell.to)
        if bar is None or bar.session == cell.session or not bar.first <= cell.column <= bar.last:
            return
        x = self.x(cell.column + 1) - 10
        up = self.lanes[bar.session] < self.lanes[cell.session]
        start = self.y(cell.session) + (0 if up else BAR)
        end = self.y(bar.session) + (BAR if up else 0)
        waits = cell.mark == "wait"
        self.drawing.line([(x, start), (x, end)], "amber-line" if waits else "red-line", not waits, "amber" if waits else "red")

    def draw_order(self):
        y, x = TOP + len(self.lanes) * LANE + 8, LEFT
        self.drawing.text(16, y + 15, "order", "label muted")
        for at, name in enumerate(self.order):
            width = 12 + 7 * len(name)
            if at:
                self.drawing.line([(x, y + 11), (x + 16, y + 11)], "edge", arrow="grey")
                x += 20
            self.drawing.box(x, y, width, 22, "pale-green", 5)
            self.drawing.text(x + width / 2, y + 15, name, "mono", "middle")
            x += width + 4
        if not self.order:
            self.drawing.text(x, y + 15, "nobody committed", "label muted")


@dataclasses.dataclass
class Node:
    name: str
    control: str
    lines: list
    parent: str = None
    below: list = dataclasses.field(default_factory=list)
    x: float = 0
    width: float = 0

    @property
    def own_width(self):
        return max([104] + [7.4 * len(self.name) + 24] + [6.7 * len(line) + 24 for line in self.lines])

    @property
    def height(self):
        return 28 + 14 * len(self.lines) + 6


TINTS = {"locks": "pale-blue", "pipeline": "pale-green", "timestamp": "pale-amber", "snapshot": "pale-violet"}
APART, DOWN = 16, 34


def nodes_of(text):
    """The root of a tree text, whose nodes have their children."""
    import tomllib  # (since Python 3.11; the other pictures do without)

    found = {}
    for row in tomllib.loads(text if text.strip() else PLAIN)["node"]:
        told = [row["control"]] + [f"batch {row['batch']}" for _ in [0] if "batch" in row] + ["ordered"] * (row.get("commit") == "ordered")
        part = [f"part {row['part']} of {row['of']}"] if "of" in row else []
        node = Node(row["name"], row["control"], [", ".join(told)] + part + row.get("types", []), row.get("parent"))
        found[node.name] = node
        if node.parent:
            found[node.parent].below.append(node)
    return next(iter(found.values()))


def place(node, left):
    """Gives each node its place: children beside each other, a parent in the middle above them."""
    inner = sum(place(one, 0) for one in node.below) + APART * max(len(node.below) - 1, 0)
    node.width = max(node.own_width, inner)
    node.x = left + node.width / 2
    start = left + (node.width - inner) / 2
    for one in node.below:
        place_at(one, start)
        start += one.width + APART
    return node.width


def place_at(node, left):
    moved = left + node.width / 2 - node.x
    node.x += moved
    for one in node.below:
        place_at(one, one.x + moved - one.width / 2)


def levels_of(root):
    level = [root]
    while level:
        yield level
        level = [one for node in level for one in node.below]


def tree_picture(text, title):
    root = nodes_of(text)
    place(root, 20)
    levels, top = list(levels_of(root)), [44]
    for level in levels:
        top.append(top[-1] + max(node.height for node in level) + DOWN)
    drawing = Drawing(round(max(root.width + 40, 7.8 * len(title) + 40)), top[-1] - DOWN + 20)
    drawing.text(16, 26, title, "title")
    for depth, level in enumerate(levels):
        for node in level:
            for one in node.below:
                drawing.line([(node.x, top[depth] + node.height), (one.x, top[depth + 1])], "edge")
            draw_node(drawing, node, top[depth])
    return drawing.whole(f"{title}: a tree of concurrency controls")


def draw_node(drawing, node, top):
    drawing.box(node.x - node.own_width / 2, top, node.own_width, node.height, TINTS[node.control], 6)
    drawing.text(node.x, top + 18, node.name, "label strong", "middle")
    for at, line in enumerate(node.lines):
        drawing.text(node.x, top + 34 + 14 * at, line, "small muted" if at == 0 else "mono", "middle")


def run_picture(text, replies, is_turns, title):
    _, script = followed.parts(text)
    lines, order, _ = followed.replies_and_report(replies)
    asked = followed.asked_lines(script)
    steps = followed.turns(asked, lines) if is_turns else followed.replay(asked, lines)
    cells = [cell_of(step, column) for step, column in zip(steps, columns_of(steps, is_turns))]
    return Run(cells, order, title).draw()


def printed_picture(text, title):
    return Run(*cells_of_printed(text.splitlines()), title).draw()


def drawn(form, files, title):
    if form == "tree":
        text = files[0].read_text()
        return tree_picture(followed.parts(text)[0] if "%%" in text.splitlines() else text, title)
    if form == "printed":
        return printed_picture(files[0].read_text(), title)
    return run_picture(files[0].read_text(), files[1].read_text(), form == "turns", title)


def main():
    parser = argparse.ArgumentParser(description=__doc__, formatter_class=argparse.RawDescriptionHelpFormatter)
    parser.add_argument("form", choices=["run", "turns", "printed", "tree"])
    parser.add_argument("files", type=pathlib.Path, nargs="+")
    parser.add_argument("--title")
    parser.add_argument("--out", type=pathlib.Path)
    given = parser.parse_args()
    if len(given.files) != (2 if given.form in ("run", "turns") else 1):
        parser.error("run and turns take an input and the text that it gave, printed and tree take one file")
    picture = drawn(given.form, given.files, given.files[0].stem if given.title is None else given.title)
    if given.out:
        given.out.write_text(picture)
    else:
        sys.stdout.write(picture)
    return 0


if __name__ == "__main__":
    sys.exit(main())
