"""Tebaldi, a proved transactional key-value store of whole numbers.

A Store is opened from a tree text, which says how each type of transaction is controlled:

    from tebaldi import Store

    store = Store(tree)
    with store.transaction("transfer") as t:
        balance = t.read("account", 1)
        t.write("account", 1, balance - 30)

The transaction commits at the end of the block. It is aborted if the block raises an exception. A request that has to wait for
another transaction sleeps until that one has gone on. An aborted transaction raises Aborted; Store.run starts it anew.

open_file(path, tree) opens a store in a file: a commit is in the file before its block ends, and is there after a crash if the
file keeps what was synced.

An epoch of a store has room for 8,192 transactions; Store.next_epoch goes on with its rows.

Threads share a store: a lock admits one call at a time. What the store answers is proved in its own language; this package is not
proved, and keeps the rules of the library (tebaldi.h) for its callers.
"""

from ._errors import (Aborted, Again, BadFile, BadRun, BadTree, Busy, NoRoom, NoSuchName, OtherTables, Refused, Stopped, TebaldiError,
                      TransactionOver, Unfinished, Unsure)
from ._store import Event, Reply, Store, Transaction, audit, open_file, version

__all__ = [
    "Aborted",
    "Again",
    "BadFile",
    "BadRun",
    "BadTree",
    "Busy",
    "Event",
    "NoRoom",
    "NoSuchName",
    "OtherTables",
    "Refused",
    "Reply",
    "Stopped",
    "Store",
    "TebaldiError",
    "Transaction",
    "TransactionOver",
    "Unfinished",
    "Unsure",
    "audit",
    "open_file",
    "version",
]
