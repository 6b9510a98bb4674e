"""Runs a script over a store, as `./tebaldi replay` does: the tree text, a line `%%`, then a line for each request."""

import sys
from typing import Dict, List, Optional, Tuple

from tebaldi import BadTree, NoSuchName, Store


def split(text: bytes) -> Optional[Tuple[bytes, bytes]]:
    """The tree text and the script, or None if no line is `%%`."""
    start = 0
    for line in text.split(b"\n"):
        end = start + len(line) + 1
        if line.rstrip(b"\r") == b"%%" and len(line) <= 3:
            return text[:start], text[end:]
        start = end
    return None


def number(store: Store, list: str, name: str) -> int:
    """The number of a name, or 255 if the tree has no such name."""
    try:
        return store.number(list, name)
    except NoSuchName:
        return 255


def fields(store: Store, verb: str, words: List[str]) -> Dict[str, int]:
    if verb == "begin":
        return {"type": number(store, "type", words[0]), "instance": int(words[1]) if len(words) > 1 else 0}
    if not words:
        return {}
    cell = {"table": number(store, "table", words[0]), "key": int(words[1])}
    return cell if len(words) == 2 else {**cell, "count" if verb == "scan" else "value": int(words[2])}


def run(store: Store, script: str) -> None:
    for line in script.split("\n"):
        words = line.split()
        if words and not words[0].startswith("#"):
            print(store.ask(int(words[0]), words[1], **fields(store, words[1], words[2:])).line)
    for session in range(1, 33):
        reply = store.ask(session, "end")
        if reply.kind == "aborted":
            print(reply.line)
    print("order" + "".join(f" t{txn}" for txn in store.order()))
    for table, key, value in store.rows():
        print("row", table, key, value)
    print("end")


def main() -> int:
    parts = split(sys.stdin.buffer.read())
    if parts is None:
        print("bad tree: no separator")
        return 6
    try:
        store = Store(parts[0])
    except BadTree as fault:
        print(fault)
        return 6
    with store:
        run(store, parts[1].decode())
    return 0


if __name__ == "__main__":
    sys.exit(main())
