"""What a call raises. Out of memory is Python's own MemoryError, and a file that cannot be used is an OSError."""

import os
from typing import Optional


class TebaldiError(Exception):
    """The base of this package's exceptions."""


class BadTree(TebaldiError, ValueError):
    """The tree text has a fault: its line."""


class NoSuchName(TebaldiError, KeyError):
    """The tree has no table, type or node of this name."""

    def __str__(self) -> str:
        return f"the tree has no {self.args[0]}"


class Again(TebaldiError):
    """A request has waited as long as it may for the transaction `txn` at the node `node`. Nothing has changed.

    `txn` is 0 and `node` empty if a transaction has waited for one of the 32 sessions, which were all taken.
    """

    def __init__(self, txn: int, node: str):
        super().__init__(txn, node)
        self.txn = txn
        self.node = node

    def __str__(self) -> str:
        return f"has to wait for transaction {self.txn} at node {self.node}" if self.txn else "all 32 sessions are taken"


class Aborted(TebaldiError):
    """The transaction was aborted, and is over.

    `cause` is "late", "first", "pivot", "newer", "after", "asked" or "ended" (docs/FORMATS.md explains each); `line` is the store's reply in words.
    """

    def __init__(self, cause: str, line: str):
        super().__init__(cause, line)
        self.cause = cause
        self.line = line

    def __str__(self) -> str:
        return self.line


class Refused(TebaldiError):
    """A request cannot be answered. Its transaction, if it has one, was aborted, and is over.

    `why` is "bad-session", "in-txn", "unknown-type", "full" (8,192 transactions have begun: Store.next_epoch goes on), "no-txn",
    "unknown-table", "prepared", "not-in-profile", "range", "not-read" or "overflow": docs/FORMATS.md explains each.
    """

    def __init__(self, why: str):
        super().__init__(why)
        self.why = why


class TransactionOver(TebaldiError):
    """The transaction is over, and answers no request."""


class BadRun(TebaldiError, ValueError):
    """The printed run is wrong at the line `line`, counted from 1; `why` is "form", "txn", "order", "after", "read" or "row"."""

    def __init__(self, line: int, why: str):
        super().__init__(line, why)
        self.line = line
        self.why = why

    def __str__(self) -> str:
        return f"line {self.line} is wrong: {self.why}"


class OtherTables(TebaldiError, ValueError):
    """The tables of the tree are not those of the store."""


class Unfinished(TebaldiError):
    """A transaction is unfinished: `txn`. If its session was not told that it was aborted, `txn` is 0, and `session` is its number."""

    def __init__(self, txn: int, session: int):
        super().__init__(txn, session)
        self.txn = txn
        self.session = session

    def __str__(self) -> str:
        return f"transaction {self.txn} is unfinished" if self.txn else f"session {self.session} was not told of its abort"


class Busy(TebaldiError):
    """The file is open as a store already, in this process or another."""


class BadFile(TebaldiError):
    """The file is no store, a damaged one (at the byte `place`), one of another capacity, or too long."""

    def __init__(self, why: str, place: Optional[int] = None):
        super().__init__(why, place)
        self.why = why
        self.place = place

    def __str__(self) -> str:
        return self.why if self.place is None else f"{self.why} at byte {self.place}"


class NoRoom(TebaldiError):
    """The commit does not fit what is left of its epoch, or the rows do not fit the file. Nothing has changed.

    After a commit Store.next_epoch makes room, unless the rows alone fill their half of the file. See Store.left.
    """


class Unsure(TebaldiError):
    """A call on the file failed: the file may have this commit, or the new epoch, or not. The store is stopped.

    What the store still tells, its rows among it, has the commit. Close it and open the file anew, to see what the file has.
    `errno` is the number of the system's error.
    """

    def __init__(self, why: str, errno: int):
        super().__init__(why, errno)
        self.why = why
        self.errno = errno

    def __str__(self) -> str:
        return f"{self.why}: {os.strerror(self.errno)}"


class Stopped(TebaldiError):
    """A call on the file has failed earlier. Opened anew, the file has every commit that was told."""
