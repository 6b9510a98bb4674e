"""What stores, transactions and exceptions do."""

import ctypes
import errno
import json
import os
import pathlib
import pickle
import pydoc
import tempfile
import threading
import time
import unittest

import tebaldi
from tebaldi import (_native, _store, Aborted, Again, BadFile, BadRun, BadTree, Busy, NoSuchName, OtherTables, Refused, Stopped, Store,
                     TebaldiError, TransactionOver, Unfinished, Unsure)

ACCOUNTS = """
format = 1
tables = ["account"]
[[type]]
name = "transfer"
[[node]]
name = "root"
control = "locks"
types = ["transfer"]
[[row]]
table = "account"
key = 1
value = 100
"""


def of_types(*names: str) -> str:
    """A tree with these types under one node of locks."""
    types = "".join(f'[[type]]\nname = "{name}"\n' for name in names)
    return f'format = 1\ntables = ["t"]\n{types}[[node]]\nname = "root"\ncontrol = "locks"\ntypes = {json.dumps(names)}\n'


class StoreTest(unittest.TestCase):
    def setUp(self) -> None:
        self.store = Store(ACCOUNTS)
        self.addCleanup(self.store.close)

    def test_commits_at_the_end_of_the_block(self) -> None:
        with self.store.transaction("transfer") as t:
            self.assertEqual(t.read("account", 1), 100)
            t.write("account", 1, 70)
            t.write("account", 2, 30)
        self.assertEqual(self.store.rows(), [("account", 1, 70), ("account", 2, 30)])
        self.assertEqual(self.store.order(), [1])

    def test_aborts_at_an_exception(self) -> None:
        with self.assertRaises(KeyError), self.store.transaction("transfer") as t:
            t.write("account", 1, 0)
            raise KeyError
        self.assertEqual(self.store.rows(), [("account", 1, 100)])
        self.assertEqual([e.happened for e in self.store.events()], ["began", "put", "gone"])

    def test_aborts_by_hand(self) -> None:
        with self.store.transaction("transfer") as t:
            t.write("account", 1, 0)
            t.abort()
            with self.assertRaises(TransactionOver):
                t.read("account", 1)
        self.assertEqual(self.store.order(), [])

    def test_scans_adds_and_deletes(self) -> None:
        with self.store.transaction("transfer") as t:
            t.write("account", 2, 3)
            t.add("account", 2, 4)
            t.delete("account", 1)
            self.assertEqual(t.scan("account", 0, 4), [None, None, 7, None])
            t.prepare()
        self.assertEqual(self.store.rows(), [("account", 2, 7)])

    def test_a_refused_request_aborts_its_transaction(self) -> None:
        with self.assertRaises(Refused) as caught, self.store.transaction("transfer") as t:
            t.add("account", 9, 1)
        self.assertEqual(caught.exception.why, "not-read")
        self.assertEqual([e.cause for e in self.store.events() if e.happened == "gone"], ["asked"])

    def test_a_block_that_goes_on_after_a_refusal_is_not_taken_for_a_commit(self) -> None:
        def body(t: tebaldi.Transaction) -> str:
            with self.assertRaises(Refused):
                t.add("account", 9, 1)
            return "done"

        with self.assertRaises(Refused):
            self.store.run("transfer", body)
        self.assertEqual(self.store.order(), [])

    def test_a_run_starts_over_after_an_abort_that_its_body_catches(self) -> None:
        starts = []

        def body(t: tebaldi.Transaction) -> int:
            starts.append(t.number)
            if len(starts) == 1:
                with self.store.transaction("transfer") as newer:
                    newer.write("account", 1, 9)
                    with self.assertRaises(Aborted):
                        t.write("account", 1, 5)
                return 0
            t.write("account", 1, 6)
            return len(starts)

        self.assertEqual(self.store.run("transfer", body), 2)
        self.assertEqual(self.store.rows(), [("account", 1, 6)])

    def test_an_abort_without_memory_is_made_up_for(self) -> None:
        with self.store.transaction("transfer") as t:
            session, ask = t._session, t._session.ask
            t.write("account", 1, 5)
            session.ask = lambda: _native.OUT_OF_MEMORY
            t.abort()
        session.ask = ask
        with self.store.transaction("transfer") as t:
            self.assertEqual(t.read("account", 1), 100)
        self.assertEqual(self.store.order(), [2])

    def test_an_interrupt_leaves_nothing_open(self) -> None:
        session = self.store._free[-1]
        ask = session.ask

        def interrupted() -> int:
            session.ask = ask
            ask()
            raise KeyboardInterrupt

        session.ask = interrupted
        with self.assertRaises(KeyboardInterrupt), self.store.transaction("transfer"):
            pass
        with self.store.transaction("transfer") as t:
            t.write("account", 1, 5)
        self.assertEqual([e.happened for e in self.store.events()], ["began", "gone", "began", "put", "done"])

    def test_a_transaction_begins_once_at_a_time(self) -> None:
        transaction = self.store.transaction("transfer")
        with transaction, self.assertRaises(RuntimeError):
            transaction.__enter__()
        with transaction as t:
            self.assertEqual(t.number, 2)

    def test_a_stopped_store_wakes_those_that_wait(self) -> None:
        with self.store.transaction("transfer") as t:
            t.read("account", 1)
            raised = []

            def newer() -> None:
                try:
                    with self.store.transaction("transfer") as other:
                        other.write("account", 1, 5)
                except TebaldiError as error:
                    raised.append(error)

            thread = threading.Thread(target=newer)
            thread.start()
            while not self.store._waiters:
                time.sleep(0.001)
            seen = self.store._changes
            with self.assertRaises(Unsure), self.store._lock:
                self.store._check(_native.UNSURE)
            self.assertGreater(self.store._changes, seen)
        thread.join()
        self.assertEqual(raised, [])

    def test_exceptions_are_copied(self) -> None:
        for error in [Again(3, "root"), Aborted("newer", "1 aborted newer root t2"), Refused("full"), BadRun(4, "row"), Unfinished(0, 7),
                      BadFile("the file is damaged", 1), Unsure("a call on the file failed", errno.EIO), NoSuchName("table u")]:
            copy = pickle.loads(pickle.dumps(error))
            self.assertEqual((type(copy), str(copy), vars(copy)), (type(error), str(error), vars(error)))

    def test_waits_until_the_other_commits(self) -> None:
        done = []

        def newer() -> None:
            with self.store.transaction("transfer") as t:
                t.write("account", 1, 5)
            done.append(True)

        with self.store.transaction("transfer") as t:
            t.read("account", 1)
            thread = threading.Thread(target=newer)
            thread.start()
            time.sleep(0.05)
            self.assertEqual(done, [])
        thread.join()
        self.assertEqual(self.store.rows(), [("account", 1, 5)])

    def test_a_wait_ends_at_its_timeout(self) -> None:
        with self.store.transaction("transfer") as older:
            older.read("account", 1)
            with self.assertRaises(Again) as caught, self.store.transaction("transfer", timeout=0.02) as newer:
                newer.write("account", 1, 5)
            self.assertEqual((caught.exception.txn, caught.exception.node), (older.number, "root"))

    def test_a_run_starts_over_after_an_abort(self) -> None:
        starts = []

        def body(t: tebaldi.Transaction) -> int:
            starts.append(t.number)
            if len(starts) < 3:
                with self.store.transaction("transfer") as newer:
                    newer.write("account", 1, 9)
                    t.write("account", 1, 5)
            t.write("account", 1, 6)
            return 4

        self.assertEqual(self.store.run("transfer", body), 4)
        self.assertEqual(len(starts), 3)
        starts.clear()
        with self.assertRaises(Aborted) as caught:
            self.store.run("transfer", body, attempts=2)
        self.assertEqual(caught.exception.cause, "newer")
        self.assertIn("aborted newer root", str(caught.exception))

    def test_names_and_numbers(self) -> None:
        self.assertEqual(self.store.number("type", "transfer"), 0)
        self.assertEqual(self.store.name("node", 0), "root")
        with self.assertRaises(NoSuchName):
            self.store.transaction("audit")
        with self.assertRaises(NoSuchName):
            self.store.name("table", 1)
        with self.store.transaction("transfer") as t, self.assertRaises(OverflowError):
            t.read("account", 1 << 32)

    def test_bad_trees_and_closed_stores(self) -> None:
        with self.assertRaises(BadTree) as caught:
            Store("format = 9")
        self.assertTrue(str(caught.exception).startswith("bad tree: "))
        closed = Store()
        closed.close()
        with self.assertRaises(ValueError):
            closed.rows()

    def test_epochs_follow_one_another(self) -> None:
        with self.store.transaction("transfer") as t:
            t.write("account", 1, 5)
            with self.assertRaises(Unfinished) as caught:
                self.store.next_epoch()
            self.assertEqual(caught.exception.txn, t.number)
        self.store.next_epoch()
        self.assertEqual((list(self.store.events()), self.store.rows()), ([], [("account", 1, 5)]))
        with self.assertRaises(OtherTables):
            self.store.next_epoch("")
        with self.store.transaction("transfer") as t:
            self.assertEqual((t.number, t.read("account", 1)), (1, 5))

    def test_a_transaction_has_its_type_in_the_next_epoch(self) -> None:
        with Store(of_types("a", "b")) as store:
            kept, lost = store.transaction("a"), store.transaction("b")
            store.next_epoch(of_types("c", "a"))
            with kept as t:
                t.write("t", 1, 5)
            self.assertEqual([event.type for event in store.events() if event.happened == "began"], ["a"])
            self.assertEqual((store.number("type", "a"), store.number("table", "t")), (1, 0))
            for _ in range(33):
                with self.assertRaises(NoSuchName), lost:
                    pass

    def test_asks_only_by_a_verb(self) -> None:
        for verb in ("", "wait"):
            with self.assertRaises(ValueError):
                self.store.ask(1, verb)
        self.assertEqual(self.store.ask(1, "begin").kind, "begun")
        self.assertEqual(self.store.ask(1, "end").why, "ended")

    def test_tells_a_closed_store_from_other_statuses(self) -> None:
        with self.assertRaisesRegex(ValueError, "closed"):
            _store._check(_native.NOT_OPEN)
        for status in (_native.BAD_VERB, _native.NO_SUCH, _native.WAITING):
            with self.assertRaisesRegex(RuntimeError, f"status {status}\\b"):
                _store._check(status)

    def test_audits(self) -> None:
        tebaldi.audit("order\nend\n")
        with self.assertRaises(BadRun) as caught:
            tebaldi.audit("order t1\nend\n")
        self.assertEqual((caught.exception.line, caught.exception.why), (1, "order"))
        self.assertEqual(tebaldi.version()[0], 1)

    def test_the_audit_accepts_the_run_of_each_epoch(self) -> None:
        self.assertEqual(self.store.run_text(), "start account 1 100\norder\nrow account 1 100\nend\n")
        for value in range(40):
            with self.store.transaction("transfer") as t:
                t.write("account", value % 7, (t.read("account", value % 5) or 0) + value)
            with self.store.transaction("transfer") as t:
                t.write("account", 9, value)
                t.abort()
        run = self.store.run_text()
        tebaldi.audit(run)
        with self.assertRaises(BadRun) as caught:
            tebaldi.audit(run.replace("start account 1 100", "start account 1 101"))
        self.assertEqual(caught.exception.why, "read")
        self.store.next_epoch()
        starts = "".join(f"start {table} {key} {value}\n" for table, key, value in self.store.rows())
        self.assertEqual(self.store.run_text(), starts + "order\n" + starts.replace("start", "row") + "end\n")
        tebaldi.audit(self.store.run_text())

    def test_structs_have_their_sizes(self) -> None:
        forms = [_native.RawStore, _native.RawRequest, _native.RawCause, _native.RawReply, _native.RawEvent, _native.RawRow]
        self.assertEqual([ctypes.sizeof(form) for form in forms], [16, 24, 24, 184, 56, 16])

    def test_help_reads_well(self) -> None:
        text = pydoc.plain(pydoc.render_doc(tebaldi))
        for words in ["transaction(self, type: 'str'", "Aborted", "with store.transaction"]:
            self.assertIn(words, text)
        for name in tebaldi.__all__:
            self.assertTrue(getattr(tebaldi, name).__doc__, name)


class FileTest(unittest.TestCase):
    def setUp(self) -> None:
        folder = tempfile.TemporaryDirectory()
        self.addCleanup(folder.cleanup)
        self.path = pathlib.Path(folder.name) / "store"

    def test_keeps_its_commits(self) -> None:
        for told in range(1, 4):
            with tebaldi.open_file(self.path, ACCOUNTS) as store:
                with store.transaction("transfer") as t:
                    t.write("account", 2, (t.read("account", 2) or 0) + 1)
                self.assertEqual(store.kept, 1)
                store.next_epoch()
                self.assertEqual(store.kept, 0)
                self.assertEqual(store.rows(), [("account", 1, 100), ("account", 2, told)])

    def test_refuses(self) -> None:
        with tebaldi.open_file(self.path, ACCOUNTS), self.assertRaises(Busy):
            tebaldi.open_file(self.path, ACCOUNTS)
        with self.assertRaises(OtherTables):
            tebaldi.open_file(self.path)
        self.path.write_text("hello, this is no store")
        with self.assertRaises(BadFile) as damaged:
            tebaldi.open_file(self.path)
        self.assertEqual(damaged.exception.place, 1)
        with self.assertRaises(FileNotFoundError):
            tebaldi.open_file(self.path.parent / "no" / "such")
        self.assertIsNone(Store().kept)

    def test_a_fork_has_no_store(self) -> None:
        store = tebaldi.open_file(self.path, ACCOUNTS)
        begun, ended = os.pipe(), os.pipe()
        store._lock.acquire()
        child = os.fork()
        if child == 0:
            try:
                with self.assertRaisesRegex(ValueError, "closed"):
                    store.rows()
                store.close()
                os.write(begun[1], b".")
                # (it lives until the parent has opened the file anew, or has ended)
                os.close(ended[1])
                os.read(ended[0], 1)
                os._exit(0)
            finally:
                os._exit(1)
        os.close(begun[1])
        store._lock.release()
        with store.transaction("transfer") as t:
            t.write("account", 1, 5)
        store.close()
        self.assertEqual(os.read(begun[0], 1), b".")
        with tebaldi.open_file(self.path, ACCOUNTS) as again:
            self.assertEqual(again.rows(), [("account", 1, 5)])
        os.close(ended[1])
        self.assertEqual(os.waitstatus_to_exitcode(os.waitpid(child, 0)[1]), 0)
        os.close(begun[0])
        os.close(ended[0])

    def test_a_path_is_not_cut(self) -> None:
        with self.assertRaises(ValueError):
            tebaldi.open_file(f"{self.path}\0.old")
        self.assertFalse(self.path.exists())

    def test_says_why_it_is_unsure(self) -> None:
        with tebaldi.open_file(self.path, ACCOUNTS) as store:
            with open(os.devnull) as none:
                os.dup2(none.fileno(), store._raw.fd)
            with self.assertRaises(Unsure) as caught, store.transaction("transfer") as t:
                t.write("account", 1, 5)
            self.assertEqual(caught.exception.errno, errno.EBADF)
            with self.assertRaises(Stopped), store.transaction("transfer"):
                pass


if __name__ == "__main__":
    unittest.main()
