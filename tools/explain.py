#!/usr/bin/env python3
"""Says in plain words, on standard error, why a run of the program was refused, or that requests of it were.

    tools/explain.py STATUS INPUT OUTPUT WORD..     the exit status, the files with the input and the output, the words of the command

`./tebaldi` calls it after a run. It decides nothing: the status and the text are the program's. Each hint names the thing, what is
allowed, and the line of the input.
"""
import pathlib
import re
import sys
import tomllib

CONTROLS = ("locks", "pipeline", "timestamp", "snapshot")
VERBS = {
    "begin": "S begin TYPE", "read": "S read TABLE KEY", "write": "S write TABLE KEY VALUE", "add": "S add TABLE KEY VALUE",
    "prepare": "S prepare", "commit": "S commit", "abort": "S abort",
}
LATER_VERBS = {"delete": "S delete TABLE KEY", "scan": "S scan TABLE KEY COUNT"}  # format 3
KEYS = {
    "top": ("format", "tables", "type", "node", "row"),
    "type": ("name", "steps"),
    "node": ("name", "control", "parent", "types"),
    "row": ("table", "key", "value"),
}
NAME = "a name is 1 to 32 characters: a letter from a to z, then letters, digits and _"
FORMS = {
    "format": "an integer", "tables": "an array of strings", "type": "written as [[type]] tables", "node": "written as [[node]] tables",
    "row": "written as [[row]] tables", "name": "a string", "steps": "an array of arrays of strings", "control": "a string",
    "parent": "a string", "types": "an array of strings", "batch": "an integer", "commit": "a string", "of": "an integer",
    "part": "an integer", "table": "a string", "key": "an integer", "value": "an integer",
}
RANGES = {
    "format": "1, 2 or 3", "batch": "1 to 1024", "of": "2 to 16, together with part", "part": "0 to of - 1", "key": "0 to 4294967295",
}
COUNTS = {
    "tables": "1 to 64 tables", "type": "1 to 64 types", "node": "1 to 64 nodes", "row": "at most 16384 rows",
    "steps": "1 to 16 steps, none of them empty",
}
SHAPES = {
    "root": "the first node is the root and has no parent; every other node has one",
    "parent": "a node's parent has to be listed before it",
    "depth": "a tree has at most 8 levels",
    "mixed": "a node has children or types, not both",
    "empty": "a node without children needs types = [..], with at least one type",
    "twice": "a type may be in one leaf, or in several with the same `of`, each with a different `part`",
}
RULES = {
    "P1": "a snapshot node can only be the root",
    "P2": 'a timestamp node below a locks node needs commit = "ordered"',
    "P3": "a timestamp node cannot be below a pipeline node",
}
REASONS = {
    "session": "a line begins with the session's number, 1 to 32",
    "name": NAME,
    "number": "keys and instances are 0 to 4294967295, values are 64-bit integers, the count of a scan is 1 to 16",
}
REFUSALS = {
    "unknown-table": "the tree has no such table",
    "unknown-type": "the tree has no such type",
    "no-txn": "the session has no open transaction",
    "in-txn": "the session already has an open transaction",
    "prepared": "the transaction is prepared and takes no more accesses",
    "not-in-profile": "no step from the current one on has this table",
    "not-read": "`add` needs a row that the transaction has read or written (a missing row counts as 0)",
    "overflow": "the sum does not fit 64 bits",
    "range": "the keys of the scan go past 4294967295",
    "full": "8192 transactions have begun in this run",
    "bad-session": "sessions are 1 to 32",
}


class Input:
    """The lines of an input, divided at its first line `%%`, or in `phases` at every such line."""

    def __init__(self, data, is_of_phases):
        self.lines = [it.removesuffix("\r") for it in data.decode("utf-8", "replace").split("\n")]
        marks = [at for at, line in enumerate(self.lines) if line == "%%"]
        self.marks = marks if is_of_phases else marks[:1]

    def part(self, number):
        """The place of a part's first line, and its lines. Trees have even numbers, scripts odd ones."""
        first = self.marks[number - 1] + 1 if number else 0
        last = self.marks[number] if number < len(self.marks) else len(self.lines)
        return first, self.lines[first:last]


def entry_line(lines, kind, index):
    """The place of the head of entry number `index` of a list of tables."""
    heads = [at for at, line in enumerate(lines) if re.match(rf"\s*\[\[\s*{kind}\s*\]\]", line)]
    return heads[index] if index < len(heads) else None


def key_line(lines, start, key):
    """The place of a key of the entry that begins at `start` (None: the top)."""
    for at in range(0 if start is None else start + 1, len(lines)):
        if re.match(r"\s*\[", lines[at]):
            break
        if re.match(rf"\s*{re.escape(key)}\s*=", lines[at]):
            return at
    return start


def tree_hint(text, given, number):
    """The hint for a fault of the tree of part `number`."""
    if text == "no separator":
        return "no line is exactly %%: the input is a tree text (or nothing), a line %%, then the script"
    first, lines = given.part(number)
    try:
        tree = tomllib.loads("\n".join(lines))
    except tomllib.TOMLDecodeError as fault:
        at = re.search(r"at line (\d+)", str(fault))
        return f"{in_line(first + int(at[1]) - 1) if at else ''}{re.sub(r' [(]at .*', '', str(fault))}"
    if text == "not toml":
        return "the tree text is not UTF-8, or has an integer of more than 64 bits"
    shape = re.fullmatch(r"node\[(\d+)\] (?:shape (\w+)|breaks (P\d))", text)
    if shape:
        return shape_hint(tree, lines, first, int(shape[1]), shape[2], shape[3])
    field = re.fullmatch(r"(\w+)(?:\[(\d+)\])?(?:\.(\w+))? (\w+)", text)
    return field and field_hint(tree, lines, first, *field.groups())


def shape_hint(tree, lines, first, index, shape, rule):
    node = tree["node"][index]
    if shape == "homeless":
        used = [it for node in tree["node"] for it in node.get("types", [])]
        lost = ", ".join(it["name"] for it in tree["type"] if it["name"] not in used)
        return f"no leaf has type {lost}: name each type in the types = [..] of a leaf" if lost else "a type has a leaf with `of` and `part`, but not one for each part"
    place = in_line(first + (entry_line(lines, "node", index) or 0))
    return f"{place}node {node.get('name')!r}: {SHAPES[shape] if shape else RULES[rule]}"


def field_hint(tree, lines, first, kind, index, key, why):
    entry, start = tree, None
    if key or (index and kind != "tables") or kind not in (*KEYS["top"], "top"):
        entry, start = tree[kind][int(index)], entry_line(lines, kind, int(index))
    name = key or kind
    place = in_line(first + (key_line(lines, start, name) or 0))
    if why == "unknown":
        return place + unknown_hint(tree, entry, kind if start is not None else "top")
    if kind == "tables" and index:
        return f"{place}tables[{index}] is {tree['tables'][int(index)]!r}: {value_hint(tree, 'tables', why, tree['tables'][int(index)])}"
    return place + f"{name}: " + value_hint(tree, name, why, entry.get(name) if isinstance(entry, dict) else entry)


def unknown_hint(tree, entry, kind):
    allowed = list(KEYS[kind])
    if kind == "node":
        control = entry.get("control")
        allowed += ["batch"] * (control in ("timestamp", "snapshot")) + ["commit"] * (control == "timestamp")
        allowed += ["of", "part"] * (tree.get("format") in (2, 3))
    wrong = [it for it in entry if it not in allowed]
    return f"unknown key {', '.join(wrong) or '?'}: allowed here: {', '.join(allowed)}"


def value_hint(tree, name, why, value):
    if why == "missing":
        return "this key is required"
    if why == "form":
        return f"has to be {FORMS.get(name, 'of another type')}"
    if why == "name":
        return f"{NAME} (given: {value!r})"
    if why == "repeated":
        return f"{value!r} is given twice" if isinstance(value, str) else "the same entry is given twice"
    if why == "range":
        return f"allowed: {RANGES.get(name, 'a smaller range')} (given: {value!r})"
    if why == "many":
        return f"allowed: {COUNTS.get(name, 'another number of entries')}"
    return nosuch_hint(tree, name, value)


def nosuch_hint(tree, name, value):
    allowed = {
        "control": CONTROLS, "commit": ("free", "ordered"), "parent": [it.get("name") for it in tree.get("node", [])],
        "types": [it.get("name") for it in tree.get("type", [])],
    }.get(name, tree.get("tables", []))
    words = [it for step in value for it in (step if isinstance(step, list) else [step])] if isinstance(value, list) else [value]
    wrong = [repr(it) for it in words if it not in allowed]
    return f"{', '.join(dict.fromkeys(wrong)) or repr(value)} does not exist: allowed: {', '.join(map(str, allowed))}"


def script_hint(number, why, given, part):
    first, lines = given.part(part)
    line = lines[number - 1]
    words = line.split()
    verbs = VERBS | (LATER_VERBS if format_of(given, part - 1) == 3 else {})
    hint = REASONS.get(why)
    if why == "verb":
        hint = f"the verbs are {', '.join(verbs)}"
        if len(words) > 1 and words[1] in LATER_VERBS:
            hint = f"`{words[1]}` needs a tree text with format = 3"
    elif why == "count":
        hint = f"the form is `{verbs.get(words[1], '')}`"
    return f"{in_line(first + number - 1)}`{line.strip()}`: {hint}"


def format_of(given, part):
    found = re.search(r"(?m)^\s*format\s*=\s*(\d)", "\n".join(given.part(part)[1]))
    return int(found[1]) if found else 1


def phase_hint(number, why):
    return {
        "many": "at most 16 pairs of a tree and a script",
        "script": f"pair {number} has a tree but no script: parts are tree, %%, script, %%, tree, %%, script",
        "tables": f"the tree of pair {number} has to list the same tables as the one before",
        "rows": f"the tree of pair {number} has starting rows: only the first may",
    }.get(why)


def audit_hint(why, given):
    if re.match(r"\d+ ", given.lines[0]) or given.lines[0].startswith("%%"):
        return "audit reads what `threads` or `pool` writes (start, began, got, put, .. lines), not the replies of `replay` or `turns`"
    return {
        "form": "not a line of a printed run, or out of order: start lines, events, one order line, row lines, end",
        "txn": "an event of a transaction that has not begun or has finished, or a number out of order",
        "order": "the order line has to list each transaction with a `done` line exactly once",
        "after": "a transaction committed before one that it had read from",
        "read": "run serially in the printed order, this read gives another value",
        "row": "run serially in the printed order, the final tables are different",
    }.get(why)


def refused(lines, replies, words):
    """Each refused reply with the place of its line, by following each session along its lines."""
    asks = [(at, line.split()) for at, line in lines if line.split() and not line.lstrip().startswith("#")]
    if words[0] != "turns":
        yield from ((at, asked, reply) for (at, asked), reply in zip(asks, replies) if reply[1] == "refused")
        return
    scripts, at, begun = {}, {}, {}
    for ask in asks:
        scripts.setdefault(int(ask[1][0]), []).append(ask)
    for reply in replies:
        session = int(reply[0])
        here = at.get(session, 0)
        if here >= len(scripts.get(session, [])):
            continue
        place, asked = scripts[session][here]
        if reply[1] == "begun":
            begun[session] = here
        if reply[1] == "refused":
            yield place, asked, reply
        back = reply[1] == "aborted" and reply[2:] != ["asked"]
        at[session] = begun.get(session, here) if back else here + (reply[1] != "again")


def refusal_hints(given, output, words):
    replies = [it.split() for it in output.decode("utf-8", "replace").split("\n") if re.match(r"\d+ \w", it)]
    many = sum(it[1] == "refused" for it in replies)
    if not many or not given.marks or words[0] == "phases":
        return [f"{many} requests were refused"] if many else []
    first, lines = given.part(1)
    found = next(refused(list(enumerate(lines, first)), replies, words), None)
    hint = f"{many} request{'s were' if many > 1 else ' was'} refused, and the transaction went on without {'them' if many > 1 else 'it'}"
    if found:
        place, asked, reply = found
        hint += f"; the first: {in_line(place)}`{' '.join(asked)}`: {REFUSALS.get(reply[2], reply[2])}"
    return [hint]


def in_line(place):
    return f"line {place + 1}: "


def hints(status, data, output, words):
    given, text = Input(data, words[0] == "phases"), output.decode("utf-8", "replace").strip()
    if status == 0 and words[0] in ("replay", "turns", "crash", "phases"):
        return refusal_hints(given, output, words)
    if status == 3:
        return ["standard input could not be read"]
    if status == 4:
        return ["standard output could not be written"]
    if status == 5:
        return ["an input has at most 4194304 bytes, and at most 65536 lines after the first %%"]
    if status == 8:
        return ["out of memory"]
    if status == 6:
        # (in `phases`: the first tree that has this fault)
        parts = range(0, len(given.marks) + 1, 2) if words[0] == "phases" else [0]
        return [next(filter(None, (try_hint(text.removeprefix("bad tree: "), given, it) for it in parts)), None)]
    found = re.fullmatch(r"(?:bad script: line|bad phase:|audit no line) (\d+) (\w+)", text)
    if found and status == 7:
        parts = range(1, len(given.marks) + 1, 2) if words[0] == "phases" else [1]
        return [script_hint(int(found[1]), found[2], given, it) for it in parts if int(found[1]) <= len(given.part(it)[1])][:1]
    if found and status == 12:
        return [phase_hint(int(found[1]), found[2])]
    if found and status == 11:
        return [audit_hint(found[2], given)]
    return []


def try_hint(text, given, part):
    try:
        return tree_hint(text, given, part)
    except (KeyError, IndexError, TypeError, AttributeError):
        return None


def main(status, given, output, *words):
    for hint in hints(int(status), pathlib.Path(given).read_bytes(), pathlib.Path(output).read_bytes(), words):
        if hint:
            print(f"tebaldi: {hint}", file=sys.stderr)


if __name__ == "__main__":
    main(*sys.argv[1:])
