"""Stores and transactions."""

from __future__ import annotations

import contextlib
import os
import threading
import time
import weakref
from ctypes import byref, c_size_t, c_uint8, c_uint32, c_uint64, get_errno
from dataclasses import dataclass
from functools import partial
from types import TracebackType
from typing import Any, Callable, Dict, Iterator, List, Optional, Tuple, Type, TypeVar, Union

from . import _native as native
from ._errors import (Aborted, Again, BadFile, BadRun, BadTree, Busy, NoRoom, NoSuchName, OtherTables, Refused, Stopped, TebaldiError,
                      TransactionOver, Unfinished, Unsure)
from ._native import LIBRARY

T = TypeVar("T")
_BEGIN, _READ, _WRITE, _ADD, _DELETE, _SCAN, _PREPARE, _COMMIT, _ABORT = range(1, 10)
_WHAT = ("table", "type", "node")


@dataclass(frozen=True)
class Reply:
    """A reply of Store.ask.

    `kind` is "begun", "value", "values", "done", "prepared", "committed", "again", "aborted" or "refused". `txn` is the transaction
    that began, or the one to wait for; `values` are those that were read, None for a row that is absent; `why` is the cause of an
    abort, or the reason of a refusal; `line` is the whole reply in words, as `tebaldi replay` prints it.
    """

    kind: str
    txn: int
    values: Tuple[Optional[int], ...]
    why: str
    line: str


@dataclass(frozen=True)
class Event:
    """An event of the history.

    `happened` is "began", "got", "put", "ready", "done", "gone" or "told". `session` and `type` are those of a transaction that
    began; `table`, `key` and `value` are what it got or put, None for no value; `origin` is the transaction whose value it got, 0
    for a starting row; `cause` says why it was aborted.
    """

    happened: str
    txn: int
    session: int = 0
    type: str = ""
    instance: int = 0
    table: str = ""
    key: int = 0
    value: Optional[int] = None
    origin: int = 0
    cause: str = ""


_WHY = {
    native.NO_ROOM: (NoRoom, "it does not fit the file"),
    native.STOPPED: (Stopped, "a call on the file has failed"),
    native.OTHER_TABLES: (OtherTables, "the tree has other tables than the store"),
    native.BUSY: (Busy, "the file is open as a store already"),
    native.OTHER_CAPACITY: (BadFile, "the file has a store of another capacity"),
    native.TOO_LONG: (BadFile, "the file is too long"),
}


def _check(status: int) -> None:
    if status == native.OUT_OF_MEMORY:
        raise MemoryError
    if status == native.UNSURE:
        raise Unsure("a call on the file failed: it may have this or not", get_errno())
    if status in _WHY:
        error, why = _WHY[status]
        raise error(why)
    if status == native.NOT_OPEN:
        raise ValueError("the store is closed")
    if status != native.OK:
        raise RuntimeError(f"the library returned status {status}, which this call does not have")


def _check_tree(status: int, fault: Any, length: c_size_t) -> None:
    if status == native.BAD_TREE:
        raise BadTree(bytes(fault[: min(length.value, 256)]).decode().rstrip("\n"))


def _bytes(text: Union[str, bytes]) -> bytes:
    return text.encode() if isinstance(text, str) else bytes(text)


def _verb(verb: str) -> int:
    if verb not in native.VERBS[1:]:
        raise ValueError(f"{verb!r} is no verb")
    return native.VERBS.index(verb)


def _within(name: str, number: int, bits: int) -> int:
    if not 0 <= number < 1 << bits:
        raise OverflowError(f"{name} {number} is not within 0 and {(1 << bits) - 1}")
    return number


def _value(value: int) -> int:
    if not -(1 << 63) <= value < 1 << 63:
        raise OverflowError(f"value {value} is no number of 64 bits")
    return value


_STORES: weakref.WeakSet[Store] = weakref.WeakSet()


def _forget_stores() -> None:
    for store in list(_STORES):
        store._forget()


os.register_at_fork(after_in_child=_forget_stores)


class Store:
    """A store, opened from a tree text. The blank text is a table `t` and a type `any` under locks.

    A store is closed by close(), at the end of a `with` block, or when it is forgotten. In the child of os.fork() each store of the parent is
    closed, and the parent goes on with it.

    Raises BadTree if the text has a fault.
    """

    def __init__(self, tree: Union[str, bytes] = b""):
        fault, length = (c_uint8 * 256)(), c_size_t()
        text = self._begin(tree)
        status = LIBRARY.tebaldi_open(self._at, text, len(text), fault, 256, byref(length))
        _check_tree(status, fault, length)
        _check(status)

    @classmethod
    def open_file(cls, path: Union[str, "os.PathLike[str]"], tree: Union[str, bytes] = b"") -> Store:
        """Opens the store that a file has, or makes the file, and locks it until the store is closed.

        A commit is in the file before its block ends: if the file keeps what was synced, it is there after a crash of the program or the
        system. Each commit waits for two syncs, and the other threads wait meanwhile. The tree has the tables that the file has, in their
        order, and its rows count only if the file is new. A file of at most 13 bytes counts as new, whatever they are. The file is kept in
        memory too.

        Raises Busy if the file is open as a store already, OSError if it cannot be used, BadFile if it is no store, a damaged one or too
        long, OtherTables, NoRoom if the rows of the tree do not fit, BadTree and MemoryError.
        """
        name = os.fsencode(path)
        if b"\0" in name:
            raise ValueError("the path has a null byte")
        store = cls.__new__(cls)
        text = store._begin(tree)
        fault, length, place = (c_uint8 * 256)(), c_size_t(), c_uint64()
        status = LIBRARY.tebaldi_file_open(store._file, name, text, len(text), fault, 256, byref(length), byref(place))
        if status == native.IO:
            number = get_errno()
            raise OSError(number, os.strerror(number), os.fsdecode(name))
        if status == native.DAMAGED:
            raise BadFile("the file is damaged", place.value)
        _check_tree(status, fault, length)
        _check(status)
        store._admit(native.FILE_ASK, store._file)
        return store

    def _begin(self, tree: Union[str, bytes]) -> bytes:
        """Sets the fields of a store that is not open yet."""
        self._tree = text = _bytes(tree)
        self._raw = native.RawFile(native.RawStore(), -1)
        self._file, self._at = byref(self._raw), byref(self._raw.store)
        self._begin_calls()
        self._numbers: List[Dict[str, int]] = [{}, {}, {}]
        self._admit(native.ASK, self._at)
        _STORES.add(self)
        return text

    def _begin_calls(self) -> None:
        """Makes the lock that admits one call at a time, and a place to sleep until a call has changed something."""
        self._lock = threading.Lock()
        self._changed = threading.Condition(self._lock)
        self._changes = 0
        self._waiters = 0

    def _forget(self) -> None:
        """Closes the store in the child of a fork, without a call of the library: the parent goes on with it.

        A thread of the parent may have held the lock, and a child that kept the descriptor would keep the file locked.
        """
        self._begin_calls()
        kept, self._raw.fd = self._raw.fd, -1
        self._raw.store.is_open, self._raw.store.at = False, None
        if kept > 0:
            with contextlib.suppress(OSError):
                os.close(kept)

    def _admit(self, ask: Callable[..., int], asked: Any) -> None:
        """Makes the sessions, which are all free. They ask by a function of the library: of a store, or of a store and its file."""
        self._ask, self._asked = ask, asked
        self._free = [_Session(number, ask, asked) for number in range(32, 0, -1)]

    def next_epoch(self, tree: Union[str, bytes, None] = None) -> None:
        """Ends the present epoch, and begins the next one with the rows that it leaves. An epoch has room for 8,192 transactions.

        The history begins anew, and transactions count from 1 again. `tree` has the same tables, and its rows are not used; by default
        it is the one that the store has.

        Raises Unfinished as long as a transaction is, BadTree, OtherTables, MemoryError, and NoRoom if the rows do not fit the file: the store
        is then as it was. A store in a file also raises Unsure and Stopped: it is stopped then, and its file has the rows.
        """
        text = self._tree if tree is None else _bytes(tree)
        fault, length, who = (c_uint8 * 256)(), c_size_t(), c_uint32()
        with self._changed:
            status = LIBRARY.tebaldi_file_next_epoch(self._file, text, len(text), fault, 256, byref(length), byref(who))
            _check_tree(status, fault, length)
            if status == native.UNFINISHED or status == native.UNTOLD:
                raise Unfinished(who.value, 0) if status == native.UNFINISHED else Unfinished(0, who.value)
            self._check(status)
            self._tree = text
            self._numbers = [{}, {}, {}]
            self._note_change()

    def close(self) -> None:
        """Closes the store, and frees its memory. A closed store raises ValueError at each call."""
        with self._changed:
            LIBRARY.tebaldi_file_close(self._file)
            self._note_change()

    @property
    def kept(self) -> Optional[int]:
        """The number of commits of this epoch that are in the file; None if the store has no file."""
        state = self._state()
        return state and state.kept

    @property
    def left(self) -> Optional[int]:
        """The number of bytes that are left in the file for the commits of this epoch; None if the store has no file."""
        state = self._state()
        return state and state.left

    def _state(self) -> Optional[native.RawFileState]:
        state = native.RawFileState()
        with self._lock:
            status = LIBRARY.tebaldi_file_state(self._at, byref(state))
        if status == native.NO_SUCH:
            return None
        _check(status)
        return state

    def _check(self, status: int) -> None:
        """Raises what a status means. If it stops the store, the threads that sleep wake up, and find it stopped. The lock is held."""
        if status == native.UNSURE:
            self._note_change()
        _check(status)

    def _note_change(self) -> None:
        """Wakes the threads that sleep, if there are any, since a call has changed something. The lock is held."""
        self._changes += 1
        if self._waiters:
            self._changed.notify_all()

    def _sleep(self, until: Callable[[], Any], timeout: float) -> bool:
        """Sleeps until this holds, and returns False if the time is over before. The lock is held, and is free meanwhile."""
        self._waiters += 1
        try:
            return bool(self._changed.wait_for(until, timeout))
        finally:
            self._waiters -= 1

    def __enter__(self) -> Store:
        return self

    def __exit__(self, *_: Any) -> None:
        self.close()

    def __del__(self) -> None:
        if hasattr(self, "_changed"):
            self.close()

    def transaction(self, type: str, instance: int = 0, *, timeout: float = 10.0) -> Transaction:
        """Returns a transaction for a `with` block, which begins it, and commits it at its end.

        A request that has to wait sleeps, for `timeout` seconds at most: then it raises Again. `instance` says in which leaf of the
        type the transaction runs. Raises NoSuchName if there is no such type, as the `with` block does if the tree has another one by then.
        """
        self._number(native.TYPES, type)
        return Transaction(self, type, _within("instance", instance, 32), timeout)

    def run(self, type: str, body: Callable[[Transaction], T], *, instance: int = 0, attempts: int = 100, timeout: float = 10.0) -> T:
        """Runs body(transaction) as a transaction, commits it, and returns what the body returns.

        After an abort the body is called anew, in a new transaction, with at most `attempts` calls: then Aborted is raised. It also raises
        what a Transaction raises, and what the body does. So the body does nothing that may not happen twice, and nothing that assumes a
        commit.
        """
        for left in range(attempts - 1, -1, -1):
            transaction = self.transaction(type, instance, timeout=timeout)
            try:
                with transaction:
                    return body(transaction)
            except Aborted:
                if left == 0 or not transaction.was_aborted:
                    raise
        raise ValueError("attempts is at least 1")

    def ask(self, session: int, verb: str, *, type: int = 0, instance: int = 0, table: int = 0, key: int = 0, value: int = 0,
            count: int = 0) -> Reply:
        """Answers one request of a session, 1 to 32, with the tables and types by number, and without waiting.

        `verb` is "begin", "read", "write", "add", "delete", "scan", "prepare", "commit", "abort" or "end". transaction() takes from the
        same sessions, whichever are free to it: in a program that calls both, it finds the transactions that are begun here.

        Raises MemoryError, and then nothing was asked. Of a store in a file it also raises Stopped, and at a commit NoRoom and Unsure.
        """
        asked = native.RawRequest(_verb(verb), _within("type", type, 8), _within("table", table, 8),
                                  _within("count", count, 8), _within("instance", instance, 32), _within("key", key, 32), _value(value))
        told = native.RawReply()
        with self._changed:
            self._check(self._ask(self._asked, _within("session", session, 8), byref(asked), byref(told)))
            if told.kind != native.AGAIN and told.kind != native.REFUSED:
                self._note_change()
            return self._reply(session, told)

    def number(self, list: str, name: str) -> int:
        """Returns the number of a name; `list` is "table", "type" or "node". Raises NoSuchName if it is not there.

        After next_epoch() with another tree, a type or a node may have another number; tables keep theirs.
        """
        return self._number(_WHAT.index(list), name)

    def name(self, list: str, number: int) -> str:
        """Returns the name of a number; `list` is "table", "type" or "node". Raises NoSuchName if it is not there."""
        with self._lock:
            return self._name(_WHAT.index(list), _within(list, number, 8))

    def order(self) -> List[int]:
        """Returns the committed transactions, in the serial order."""
        return self._filled(LIBRARY.tebaldi_order, c_uint32)

    def rows(self) -> List[Tuple[str, int, int]]:
        """Returns the committed rows, each with its table, its key and its value, in ascending order of tables and keys."""
        rows = self._filled(LIBRARY.tebaldi_rows, native.RawRow)
        tables = {number: self.name("table", number) for number in {row.table for row in rows}}
        return [(tables[row.table], row.key, row.value) for row in rows]

    def run_text(self) -> str:
        """Returns the printed run of the present epoch: its starting rows, events, serial order and final rows.

        audit() accepts it, if it has fewer than 2^32 - 1 bytes.
        """
        return bytes(self._filled(LIBRARY.tebaldi_run_text, c_uint8)).decode()

    def events(self) -> Iterator[Event]:
        """Goes over the history, the oldest event first. Events that happen meanwhile are part of it."""
        place, raw = 0, native.RawEvent()
        while True:
            with self._lock:
                status = LIBRARY.tebaldi_event(self._at, place, byref(raw))
                if status == native.NO_SUCH:
                    return
                _check(status)
                event = self._event(raw)
            yield event
            place += 1

    def _event(self, raw: native.RawEvent) -> Event:
        happened = native.HAPPENED[raw.happened]
        if happened == "began":
            return Event(happened, raw.txn, session=raw.session, type=self._name(native.TYPES, raw.type), instance=raw.instance)
        if happened in ("got", "put"):
            value = raw.value if raw.present else None
            return Event(happened, raw.txn, table=self._name(native.TABLES, raw.table), key=raw.key, value=value, origin=raw.origin)
        return Event(happened, raw.txn, cause=native.CAUSES[raw.cause.why])

    def _number(self, which: int, name: str) -> int:
        known = self._numbers[which].get(name)
        if known is not None:
            return known
        with self._lock:
            return self._number_locked(which, name)

    def _number_locked(self, which: int, name: str) -> int:
        """The number of a name in the present epoch. The lock is held."""
        known = self._numbers[which]
        if name not in known:
            text, found = name.encode(), c_uint8()
            status = LIBRARY.tebaldi_number(self._at, which, text, len(text), byref(found))
            if status == native.NO_SUCH:
                raise NoSuchName(f"{_WHAT[which]} {name}")
            _check(status)
            known[name] = found.value
        return known[name]

    def _name(self, which: int, number: int) -> str:
        out, length = (c_uint8 * 32)(), c_size_t()
        status = LIBRARY.tebaldi_name(self._at, which, number, out, 32, byref(length))
        if status == native.NO_SUCH:
            raise NoSuchName(f"{_WHAT[which]} {number}")
        _check(status)
        return bytes(out[: length.value]).decode()

    def _reply(self, session: int, told: native.RawReply) -> Reply:
        kind, why = native.KINDS[told.kind], ""
        if told.kind == native.ABORTED:
            why = native.CAUSES[told.cause.why]
        elif told.kind == native.REFUSED:
            why = native.REFUSALS[told.refusal]
        values = tuple(told.values[i] if told.present[i] else None for i in range(told.len))
        return Reply(kind, told.txn, values, why, self._line(session, told))

    def _line(self, session: int, told: native.RawReply) -> str:
        out, length = (c_uint8 * 512)(), c_size_t()
        _check(LIBRARY.tebaldi_line(self._at, session, byref(told), out, 512, byref(length)))
        return bytes(out[: length.value]).decode().rstrip("\n")

    def _filled(self, call: Callable[..., int], form: Type[Any]) -> List[Any]:
        length = c_size_t()
        with self._lock:
            _check(call(self._at, (form * 1)(), 0, byref(length)))
            out = (form * max(length.value, 1))()
            _check(call(self._at, out, length.value, byref(length)))
        return out[: length.value]


class _Session:
    """A session's number, the request and the reply of its calls, and the call itself, which takes no more arguments."""

    __slots__ = ("number", "request", "reply", "values", "present", "ask", "is_left_open")

    def __init__(self, number: int, ask: Callable[..., int], asked: Any):
        self.number = number
        self.request, self.reply = native.RawRequest(), native.RawReply()
        # (they share the memory of the reply)
        self.values, self.present = self.reply.values, self.reply.present
        self.ask = partial(ask, asked, number, byref(self.request), byref(self.reply))
        # Whether memory was out when its last transaction was to be aborted.
        self.is_left_open = False


class Transaction:
    """A transaction of a `with` block. Tables are named as in the tree; a value is None if there is no row.

    Each request raises Aborted if the transaction was aborted, Refused if it cannot be answered, and Again if it has waited as long
    as it may. At the first two the transaction is over; if the block goes on nevertheless, they are raised again at its end, since nothing
    is committed. At Again and at MemoryError nothing has changed. Of a store in a file each request may also raise Stopped, and the commit
    at the end of the block NoRoom and Unsure.

    One thread at a time uses a transaction. `number` is its number, and `was_aborted` says whether the store has aborted it.
    """

    __slots__ = ("_store", "_type", "_instance", "_timeout", "_session", "_ended_by", "number", "was_aborted")

    def __init__(self, store: Store, type: str, instance: int, timeout: float):
        self._store, self._type, self._instance, self._timeout = store, type, instance, timeout
        self._session: Optional[_Session] = None
        self._ended_by: Optional[TebaldiError] = None
        self.number = 0
        self.was_aborted = False

    def __enter__(self) -> Transaction:
        if self._session is not None:
            raise RuntimeError("the transaction has begun already")
        self._ended_by, self.was_aborted = None, False
        store = self._store
        with store._lock:
            if not store._free and not store._sleep(lambda: store._free, self._timeout):
                raise Again(0, "")
            self._session = store._free.pop()
        try:
            self._begin(self._session)
        except BaseException:
            self._ended_by = None
            # (an interrupt may come once it has begun)
            self._end(self._session is not None and self._session.reply.kind == native.BEGUN)
            raise
        return self

    def __exit__(self, type: Optional[Type[BaseException]], error: Optional[BaseException], trace: Optional[TracebackType]) -> None:
        ended_by, self._ended_by = self._ended_by, None
        if self._session is None:
            if type is None and ended_by is not None:
                raise ended_by
            return
        committed = False
        try:
            if type is None:
                self._call(_COMMIT)
                committed = True
        finally:
            self._end(not committed)

    def read(self, table: str, key: int) -> Optional[int]:
        """Returns the value of a row."""
        session = self._at(_READ, table, key)
        return session.values[0] if session.present[0] else None

    def write(self, table: str, key: int, value: int) -> None:
        """Writes a value to a row, which need not exist."""
        self._at(_WRITE, table, key, value)

    def add(self, table: str, key: int, by: int) -> None:
        """Adds to the value that the transaction last wrote or read there. An absent row counts as 0."""
        self._at(_ADD, table, key, by)

    def delete(self, table: str, key: int) -> None:
        """Deletes a row, which need not exist."""
        self._at(_DELETE, table, key)

    def scan(self, table: str, key: int, count: int) -> List[Optional[int]]:
        """Returns the values of `count` rows, 1 to 16, with consecutive keys from `key` on."""
        self._open().request.count = _within("count", count, 8)
        session = self._at(_SCAN, table, key)
        return [session.values[i] if session.present[i] else None for i in range(session.reply.len)]

    def prepare(self) -> None:
        """Makes sure that the transaction can commit. It can then read and write no more."""
        self._call(_PREPARE)

    def abort(self) -> None:
        """Aborts the transaction. The `with` block then has nothing to commit."""
        self._open()
        self._end(True)

    def _open(self) -> _Session:
        if self._session is None:
            raise TransactionOver("the transaction is over")
        return self._session

    def _at(self, verb: int, table: str, key: int, value: int = 0) -> _Session:
        session = self._session or self._open()
        number = self._store._numbers[0].get(table)
        request = session.request
        request.table = self._store._number(native.TABLES, table) if number is None else number
        request.key = key if 0 <= key <= 0xFFFFFFFF else _within("key", key, 32)
        request.value = value if -0x8000000000000000 <= value <= 0x7FFFFFFFFFFFFFFF else _value(value)
        return self._call(verb)

    def _begin(self, session: _Session) -> None:
        """Begins, by the number that the type has in the present epoch."""
        store, request = self._store, session.request
        with store._lock:
            if session.is_left_open:
                request.verb = _ABORT
                store._check(session.ask())
                session.is_left_open = False
            request.verb, request.instance = _BEGIN, self._instance
            request.type = store._number_locked(native.TYPES, self._type)
            status = session.ask()
            if status or session.reply.kind >= native.AGAIN:
                self._other(session, status)
            else:
                store._note_change()
        self.number = session.reply.txn

    def _call(self, verb: int) -> _Session:
        """Asks, sleeps as long as the answer is to ask again, and returns the session, which has the reply."""
        session = self._session or self._open()
        store = self._store
        session.request.verb = verb
        with store._lock:
            status = session.ask()
            if status or session.reply.kind >= native.AGAIN:
                return self._other(session, status)
            store._note_change()
        return session

    def _other(self, session: _Session, status: int) -> _Session:
        """What a reply comes to that is no success. The lock is held."""
        store, told = self._store, session.reply
        until = time.monotonic() + self._timeout
        while not status and told.kind == native.AGAIN:
            seen = store._changes
            if not store._sleep(lambda: store._changes != seen, until - time.monotonic()):
                raise Again(told.txn, store._name(native.NODES, told.node))
            if session.request.verb == _BEGIN:
                # (the next epoch may have begun meanwhile)
                session.request.type = store._number_locked(native.TYPES, self._type)
            status = session.ask()
        store._check(status)
        if told.kind == native.REFUSED:
            self._ended_by = Refused(native.REFUSALS[told.refusal])
            self._end_locked(session, session.request.verb != _BEGIN)
            raise self._ended_by
        store._note_change()
        if told.kind == native.ABORTED:
            self._ended_by = Aborted(native.CAUSES[told.cause.why], store._line(session.number, told))
            self.was_aborted = True
            self._end_locked(session, False)
            raise self._ended_by
        return session

    def _end(self, aborts: bool) -> None:
        with self._store._lock:
            if self._session is not None:
                self._end_locked(self._session, aborts)

    def _end_locked(self, session: _Session, aborts: bool) -> None:
        """Gives the session back, behind an abort if the transaction is not over. The lock is held."""
        store = self._store
        if aborts:
            session.request.verb = _ABORT
            session.is_left_open = session.ask() == native.OUT_OF_MEMORY
        self._session = None
        store._free.append(session)
        store._note_change()


def open_file(path: Union[str, "os.PathLike[str]"], tree: Union[str, bytes] = b"") -> Store:
    """Opens the store that a file has, or makes the file. See Store.open_file."""
    return Store.open_file(path, tree)


def audit(text: Union[str, bytes]) -> None:
    """Checks a printed run, as `tebaldi audit` does. Raises BadRun at the first line that is wrong."""
    run = _bytes(text)
    line, why = c_uint32(), c_uint8()
    status = LIBRARY.tebaldi_audit(run, len(run), byref(line), byref(why))
    if status == native.BAD_RUN:
        raise BadRun(line.value, native.RUN_FAULTS[why.value])
    if status == native.TOO_LONG:
        raise ValueError("the text is too long")
    _check(status)


def version() -> Tuple[int, int, int]:
    """Returns the version of the library: major, minor and patch."""
    version = native.RawVersion()
    LIBRARY.tebaldi_version(byref(version))
    return version.major, version.minor, version.patch
