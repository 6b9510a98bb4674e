"""The structs and functions of tebaldi.h."""

import ctypes
import os
import pathlib
from ctypes import POINTER, Structure, c_bool, c_char_p, c_int, c_int64, c_size_t, c_uint8, c_uint32, c_uint64, c_void_p
from typing import Any

OK, NOT_OPEN, BAD_TREE, BAD_VERB, NO_SUCH, OUT_OF_MEMORY, BAD_RUN, TOO_LONG = 0, 1, 3, 4, 5, 6, 7, 8
OTHER_TABLES, UNFINISHED, UNTOLD = 9, 10, 11
STOPPED, UNSURE, NO_ROOM, WAITING, DAMAGED, OTHER_CAPACITY, BUSY, IO = range(12, 20)
TABLES, TYPES, NODES = 0, 1, 2

VERBS = ("", "begin", "read", "write", "add", "delete", "scan", "prepare", "commit", "abort", "end")
KINDS = ("", "begun", "value", "values", "done", "prepared", "committed", "again", "aborted", "refused")
BEGUN, VALUE, VALUES, DONE, PREPARED, COMMITTED, AGAIN, ABORTED, REFUSED = range(1, 10)
CAUSES = ("", "late", "first", "pivot", "newer", "after", "asked", "ended")
REFUSALS = ("", "bad-session", "in-txn", "unknown-type", "full", "no-txn", "unknown-table", "prepared", "not-in-profile", "range",
            "not-read", "overflow")
HAPPENED = ("", "began", "got", "put", "ready", "done", "gone", "told")
RUN_FAULTS = ("", "form", "txn", "order", "after", "read", "row")


class RawStore(Structure):
    _fields_ = [("is_open", c_bool), ("at", c_void_p)]


class RawFile(Structure):
    _fields_ = [("store", RawStore), ("fd", c_int)]


class RawFileState(Structure):
    _fields_ = [("kept", c_uint64), ("left", c_uint64), ("waiting", c_size_t), ("stopped", c_bool)]


class RawRequest(Structure):
    _fields_ = [("verb", c_uint8), ("type", c_uint8), ("table", c_uint8), ("count", c_uint8), ("instance", c_uint32),
                ("key", c_uint32), ("value", c_int64)]


class RawCause(Structure):
    _fields_ = [("why", c_uint8), ("node", c_uint8), ("table", c_uint8), ("key", c_uint32), ("txn", c_uint32),
                ("second", c_uint32), ("third", c_uint32), ("fourth", c_uint32)]


class RawReply(Structure):
    _fields_ = [("kind", c_uint8), ("refusal", c_uint8), ("node", c_uint8), ("txn", c_uint32), ("cause", RawCause),
                ("values", c_int64 * 16), ("present", c_bool * 16), ("len", c_size_t)]


class RawEvent(Structure):
    _fields_ = [("happened", c_uint8), ("session", c_uint8), ("type", c_uint8), ("table", c_uint8), ("present", c_bool),
                ("txn", c_uint32), ("instance", c_uint32), ("key", c_uint32), ("origin", c_uint32), ("value", c_int64),
                ("cause", RawCause)]


class RawRow(Structure):
    _fields_ = [("table", c_uint8), ("key", c_uint32), ("value", c_int64)]


class RawVersion(Structure):
    _fields_ = [("major", c_uint32), ("minor", c_uint32), ("patch", c_uint32)]


def library_path() -> str:
    """The path of libtebaldi.so: the one that TEBALDI_SO names, or beside this package, or where `./check bindings` puts it."""
    here = pathlib.Path(__file__).resolve().parent
    built = here.parent.parent / "out" / "libtebaldi.so"
    named = os.environ.get("TEBALDI_SO")
    places = [pathlib.Path(named)] if named else [here / "libtebaldi.so", built]
    for place in places:
        if place.is_file():
            return str(place)
    raise ImportError(f"there is no {places[-1]}: `./check bindings` builds it, or TEBALDI_SO names another")


def load() -> ctypes.CDLL:
    library = ctypes.CDLL(library_path(), use_errno=True)
    store, file, size, byte = POINTER(RawStore), POINTER(RawFile), POINTER(c_size_t), POINTER(c_uint8)
    for name, arguments, result in [
        ("version", [POINTER(RawVersion)], None),
        ("open", [store, c_char_p, c_size_t, byte, c_size_t, size], c_uint32),
        ("number", [store, c_uint8, c_char_p, c_size_t, byte], c_uint32),
        ("name", [store, c_uint8, c_uint8, byte, c_size_t, size], c_uint32),
        ("line", [store, c_uint8, POINTER(RawReply), byte, c_size_t, size], c_uint32),
        ("order", [store, POINTER(c_uint32), c_size_t, size], c_uint32),
        ("rows", [store, POINTER(RawRow), c_size_t, size], c_uint32),
        ("run_text", [store, byte, c_size_t, size], c_uint32),
        ("event", [store, c_size_t, POINTER(RawEvent)], c_uint32),
        ("file_open", [file, c_char_p, c_char_p, c_size_t, byte, c_size_t, size, POINTER(c_uint64)], c_uint32),
        ("file_next_epoch", [file, c_char_p, c_size_t, byte, c_size_t, size, POINTER(c_uint32)], c_uint32),
        ("file_close", [file], None),
        ("file_state", [store, POINTER(RawFileState)], c_uint32),
        ("audit", [c_char_p, c_size_t, POINTER(c_uint32), byte], c_uint32),
    ]:
        call = getattr(library, "tebaldi_" + name)
        call.argtypes, call.restype = arguments, result
    return library


LIBRARY = load()


def plain(name: str) -> Any:
    """A function of the library whose arguments are not checked, which is faster: its caller gives it references and small numbers."""
    call = LIBRARY["tebaldi_" + name]
    call.restype = c_uint32
    return call


ASK, FILE_ASK = plain("ask"), plain("file_ask")
