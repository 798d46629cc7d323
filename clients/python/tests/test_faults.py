"""A server that misbehaves, and each refusal once. It runs over the toy alone."""
from __future__ import annotations

import socket
import threading
import time
import unittest
from typing import Any
from unittest import mock

import cjc
from cjc import refusals

from . import toy
from .served import OverToy

CHANGE = "INSERT INTO t VALUES (1)"
SELECT = "SELECT * FROM t"
# The classes of docs/CLIENTS.md.
CLASSES = {
    cjc.InterfaceError: [1, 2, 4],
    cjc.OperationalError: [3, 20, 25, 29, 30, 40, 41, 42, 43, 44, 45, 46],
    cjc.ProgrammingError: [10, 13, 21, 22, 23, 24],
    cjc.InternalError: [11, 12],
    cjc.DataError: [26, 28],
    cjc.IntegrityError: [27],
    cjc.DatabaseError: [99],
}
ROWS = toy.rows_frame(["k", "v"], [(1, "a"), (2, "bc")])
GARBAGE = {
    "no frame": b"HTTP/1.1 400 Bad Request\r\n\r\n",
    "length 0": b"\0\0\0\0",
    "length over 1 MiB": b"\0\x10\0\x01\x81",
    "unknown kind": toy.framed(0x99, b"abc"),
    "a client's kind": toy.framed(0x02, b"SELECT"),
    "short Done": toy.framed(0x81, b"\0\0\0"),
    "long Done": toy.framed(0x81, bytes(9)),
    "short Refused": toy.framed(0x8F, b"\0\x0a"),
    "no columns": toy.framed(0x82, b"\0\0\0\0\0\0"),
    "no rows' number": toy.framed(0x82, b"\0\x01\0\x01k"),
    "rows cut short": toy.framed(0x82, ROWS[5:-1]),
    "bytes after the rows": toy.framed(0x82, ROWS[5:] + b"\0"),
    "more rows than there are": toy.framed(0x82, b"\0\x01\0\x01k\xff\xff\xff\xff" + b"\x01" + bytes(8)),
    "unknown value": toy.framed(0x82, b"\0\x01\0\x01k\0\0\0\x01\x03" + bytes(8)),
    "text that is no UTF-8": toy.framed(0x82, b"\0\x01\0\x01k\0\0\0\x01\x02\0\0\0\x01\xff"),
    "name that is no UTF-8": toy.framed(0x82, b"\0\x01\0\x01\xff\0\0\0\0"),
    "two replies": toy.done() + toy.done(),
    "Rows for a change": ROWS,
    "Stats for a change": toy.framed(0x83, bytes(16)),
}


class Faults(OverToy):
    """What the driver does with a server that fails."""

    def misbehave(self, text: str, trick: toy.Trick, **more: object) -> tuple[cjc.Error, cjc.Connection]:
        """The error of a statement at which the server does this."""
        connection = self.connect(**{"autocommit": True, **more})
        self.toy.tricks[text] = trick
        with self.assertRaises(cjc.Error) as caught:
            connection.cursor().execute(text)
        return caught.exception, connection

    def assert_broken(self, connection: cjc.Connection) -> None:
        """The connection says that it broke, and sends nothing."""
        asked = len(self.toy.asked)
        self.assertTrue(connection.closed)
        for call in (connection.commit, connection.rollback, connection.cursor, connection.stats):
            with self.assertRaisesRegex(cjc.OperationalError, "broke before"):
                call()
        self.assertEqual(len(self.toy.asked), asked)
        connection.close()
        with self.assertRaises(cjc.InterfaceError):
            connection.commit()

    def test_each_refusal(self) -> None:
        listed = {code for codes in CLASSES.values() for code in codes} - {99}
        self.assertEqual(listed, set(refusals.MEANINGS))
        for kind, codes in CLASSES.items():
            for code in codes:
                with self.subTest(code=code):
                    error, connection = self.misbehave(SELECT, toy.answers(toy.refused(code, 5, 2)))
                    self.assertIs(type(error), kind)
                    self.assertEqual((error.code, error.a, error.b), (code, 5, 2))
                    self.assertTrue(str(error).startswith(str(code)))
                    self.assertTrue(error.advice)
                    self.assertEqual(error.outcome_unknown, code in (40, 44))
                    # The server ends a session after a faulty frame alone.
                    self.assertEqual(connection.closed, code == 1)
                    connection.close()

    def test_numbers_in_words(self) -> None:
        for code, a, b, words in ((25, 8, 0, "transaction 8"), (29, 65537, 0, "65537"), (30, 2000000, 0, "2000000"),
                                  (40, 5, 2, "(backends 0 and 2; backend 1 ran out of memory)"), (41, 1, 0, "backend 0"),
                                  (44, 0, 7, "(backends 0, 1 and 2)"), (1, 2, 0, "over 1,048,576"), (46, 9, 0, "9 sess")):
            error, _ = self.misbehave(SELECT, toy.answers(toy.refused(code, a, b)))
            self.assertIn(words, str(error))

    def test_sizes_of_replies(self) -> None:
        """Replies around the room that is there at first, and the longest of all."""
        cursor = self.connect(autocommit=True).cursor()
        rest = len(toy.rows_frame(["v"], [("",)]))
        for size in (*range(16_382, 16_387), 1_048_575 + 4, 1_048_576 + 4):
            frame = toy.rows_frame(["v"], [("x" * (size - rest),)])
            self.assertEqual(len(frame), size)
            self.toy.tricks[SELECT] = toy.answers(frame)
            self.assertEqual(cursor.execute(SELECT).fetchall(), [("x" * (size - rest),)])

    def test_garbage(self) -> None:
        for name, data in GARBAGE.items():
            with self.subTest(name):
                error, connection = self.misbehave(CHANGE, toy.answers(data))
                self.assertIs(type(error), cjc.InterfaceError)
                self.assertTrue(error.outcome_unknown)
                self.assert_broken(connection)

    def test_garbage_that_nobody_asked_for(self) -> None:
        connection = self.connect(autocommit=True)
        self.toy.tricks["BEGIN"] = toy.answers(toy.done())
        cursor = connection.cursor()
        self.toy.tricks[SELECT] = toy.answers(ROWS)
        self.assertEqual(cursor.execute(SELECT).fetchall(), [(1, "a"), (2, "bc")])

        def twice(one: socket.socket) -> bool:
            one.sendall(toy.done())
            time.sleep(0.05)
            one.sendall(toy.done())
            return True

        self.toy.tricks[CHANGE] = twice
        cursor.execute(CHANGE)
        time.sleep(0.3)
        with self.assertRaisesRegex(cjc.InterfaceError, "nothing was changed"):
            cursor.execute(CHANGE)
        self.assertEqual(self.toy.asked.count(CHANGE), 1 + self.asked_before)
        self.assert_broken(connection)

    def setUp(self) -> None:
        super().setUp()
        self.asked_before = self.toy.asked.count(CHANGE)

    def test_close_in_a_fetch(self) -> None:
        for cut in (0, 3, 4, 5, 20, len(ROWS) - 1):
            error, connection = self.misbehave(SELECT, toy.closes(ROWS[:cut]))
            self.assertIs(type(error), cjc.OperationalError)
            self.assertIn("nothing was changed", str(error))
            self.assertFalse(error.outcome_unknown)
            self.assert_broken(connection)

    def test_close_in_a_large_fetch(self) -> None:
        rows = toy.rows_frame(["k"], [(n,) for n in range(65536)])
        error, connection = self.misbehave(SELECT, toy.closes(rows[:500_000]))
        self.assertIn("in the middle of a reply", str(error))
        self.assert_broken(connection)

    def test_close_in_a_change(self) -> None:
        for trick in (toy.closes(), toy.closes(toy.done()[:7]), toy.resets):
            for change in (CHANGE, "UPDATE t SET k = 1", "DELETE FROM t", "CREATE TABLE t (k INTEGER PRIMARY KEY)",
                           "DROP TABLE t"):
                error, connection = self.misbehave(change, trick)
                self.assertIs(type(error), cjc.OperationalError)
                self.assertTrue(error.outcome_unknown)
                self.assertRegex(str(error), "outcome isn't known")
                self.assert_broken(connection)

    def test_close_in_a_transaction(self) -> None:
        table = self.create("lost", "k INTEGER PRIMARY KEY")
        change = f"INSERT INTO {table} VALUES (1)"
        error, connection = self.misbehave(change, toy.closes(), autocommit=False)
        self.assertIn("the open transaction is rolled back", str(error))
        self.assertFalse(error.outcome_unknown or connection.in_transaction)
        self.assert_broken(connection)
        connection = self.connect()
        connection.cursor().execute(change)
        self.toy.tricks["COMMIT"] = toy.closes()
        with self.assertRaisesRegex(cjc.OperationalError, "the COMMIT may have been executed") as caught:
            connection.commit()
        self.assertTrue(caught.exception.outcome_unknown)
        self.assert_broken(connection)

    def test_close_while_idle(self) -> None:
        connection = self.connect(autocommit=True)
        cursor = connection.cursor()
        self.toy.tricks[SELECT] = lambda one: one.sendall(ROWS) or False  # type: ignore[func-returns-value]
        self.assertEqual(len(cursor.execute(SELECT).fetchall()), 2)
        time.sleep(0.2)
        with self.assertRaisesRegex(cjc.OperationalError, "had closed the connection; nothing was changed") as caught:
            cursor.execute(CHANGE)
        self.assertFalse(caught.exception.outcome_unknown)
        self.assertEqual(self.toy.asked.count(CHANGE), self.asked_before)
        self.assert_broken(connection)

    def test_timeout(self) -> None:
        event = threading.Event()
        self.addCleanup(event.set)
        start = time.monotonic()
        error, connection = self.misbehave(CHANGE, toy.waits(event), timeout=0.3)
        self.assertLess(time.monotonic() - start, 5)
        self.assertIs(type(error), cjc.OperationalError)
        self.assertRegex(str(error), "within 0.3 seconds; the outcome isn't known")
        self.assertTrue(error.outcome_unknown)
        self.assert_broken(connection)
        error, _ = self.misbehave(SELECT, toy.waits(event), timeout=0.3)
        self.assertIn("nothing was changed", str(error))

    def test_timeout_of_a_slow_reply(self) -> None:
        # Each byte comes soon, but the reply as a whole doesn't.
        error, connection = self.misbehave(CHANGE, toy.drips(toy.done(), 0.1), timeout=0.5)
        self.assertTrue(error.outcome_unknown)
        self.assert_broken(connection)
        connection = self.connect(autocommit=True)
        self.toy.tricks[SELECT] = toy.drips(ROWS, 0.001)
        self.assertEqual(connection.cursor().execute(SELECT).fetchall(), [(1, "a"), (2, "bc")])

    def test_timeout_of_sending(self) -> None:
        with socket.create_server(("127.0.0.1", 0)) as deaf:
            def login() -> None:
                one = deaf.accept()[0]
                one.recv(100)
                one.sendall(toy.done())
                held.append(one)

            held: list[socket.socket] = []
            thread = threading.Thread(target=login)
            thread.start()
            connection = cjc.connect("127.0.0.1", deaf.getsockname()[1], "a", "b", timeout=0.5, autocommit=True)
            thread.join()
            connection._link._socket.setsockopt(socket.SOL_SOCKET, socket.SO_SNDBUF, 4096)
            with self.assertRaises(cjc.OperationalError) as caught:
                for _ in range(20):
                    connection.cursor().execute(CHANGE + " " * 1_000_000)
            connection.close()
            held[0].close()
        self.assertRegex(str(caught.exception), "0.5 seconds")

    def test_interrupt(self) -> None:
        connection = self.connect(autocommit=True)
        with mock.patch.object(connection._link, "_begin", side_effect=KeyboardInterrupt):
            with self.assertRaises(KeyboardInterrupt):
                connection.cursor().execute("BEGIN")
        self.assert_broken(connection)

    def test_never_twice(self) -> None:
        for trick in (toy.closes(), toy.resets, toy.answers(GARBAGE["no frame"])):
            before = len(self.toy.asked)
            self.misbehave(CHANGE, trick)
            time.sleep(0.02)
            self.assertEqual(self.toy.asked[before:], [CHANGE])

    def test_unsettled_commit(self) -> None:
        for code, stays in ((42, True), (43, True), (40, False), (44, False)):
            table = self.create(f"unsettled{code}", "k INTEGER PRIMARY KEY")
            connection = self.connect()
            connection.cursor().execute(f"INSERT INTO {table} VALUES (1)")
            self.toy.tricks["COMMIT"] = toy.answers(toy.refused(code, 1, 1))
            with self.assertRaises(cjc.OperationalError):
                connection.commit()
            self.assertEqual(connection.in_transaction, stays)
            connection.close()

    def test_refused_begin(self) -> None:
        connection = self.connect()
        before = len(self.toy.asked)
        self.toy.tricks["BEGIN"] = toy.answers(toy.refused(45, 1, 0))
        with self.assertRaises(cjc.OperationalError):
            connection.cursor().execute(CHANGE)
        self.assertEqual(self.toy.asked[before:], ["BEGIN"])
        self.assertFalse(connection.in_transaction or connection.closed)

    def test_many_tuples(self) -> None:
        connection, before = self.connect(autocommit=True), len(self.toy.asked)
        table = self.create("tuples")
        before = len(self.toy.asked)
        cursor = connection.cursor()
        cursor.executemany(f"insert into {table} (v, k) values (?, ?) ; ", [("?'", n) for n in range(4097)])
        self.assertEqual([text.count("'?'''") for text in self.toy.asked[before:]], [4096, 1])
        self.assertEqual(cursor.rowcount, 4097)
        before = len(self.toy.asked)
        cursor.executemany(f"INSERT INTO {table} VALUES (?, ?)", [(n, "y" * 4096) for n in range(5000, 5512)])
        self.assertEqual([text.count("y" * 4096) for text in self.toy.asked[before:]], [255, 255, 2])
        self.assertEqual(cursor.execute(f"SELECT COUNT(*) FROM {table}").fetchone(), (4097 + 512,))
        with self.assertRaises(cjc.IntegrityError):
            cursor.executemany(f"INSERT INTO {table} VALUES (?, ?)",
                               [(n, "z") for n in range(6000, 10096)] + [(0, "z")])
        self.assertEqual(cursor.rowcount, 4096)


class NoServer(unittest.TestCase):
    """Where no server answers."""

    def test_nobody_listens(self) -> None:
        with socket.create_server(("127.0.0.1", 0)) as taken:
            port = taken.getsockname()[1]
        with self.assertRaisesRegex(cjc.OperationalError, "can't connect to 127.0.0.1") as caught:
            cjc.connect("127.0.0.1", port, "a", "b", timeout=5)
        self.assertIn("cjc serve", caught.exception.advice)

    def test_a_refusal_before_the_login(self) -> None:
        with socket.create_server(("127.0.0.1", 0)) as listening:
            def serve() -> None:
                with listening.accept()[0] as one:
                    one.sendall(toy.refused(46, 1024))

            thread = threading.Thread(target=serve)
            thread.start()
            create = socket.create_connection

            def late(*arguments: Any) -> socket.socket:
                """A connection that is used only after the server has closed it."""
                one = create(*arguments)
                thread.join()
                return one

            with mock.patch.object(socket, "create_connection", late):
                with self.assertRaisesRegex(cjc.OperationalError, "46 SessionsFull: 1024 sessions"):
                    cjc.connect("127.0.0.1", listening.getsockname()[1], "a", "b", timeout=5)

    def test_early_ends(self) -> None:
        """A server that closes, sends garbage, refuses or is silent in place of the answer to the login."""
        for data, kind, words in ((b"", cjc.OperationalError, "before it replied"),
                                  (b"\0\0", cjc.OperationalError, "in the middle"),
                                  (b"SSH-2.0-OpenSSH\r\n", cjc.InterfaceError, "a frame of"),
                                  (toy.framed(0x83, bytes(16)), cjc.InterfaceError, "no reply"),
                                  (toy.refused(46, 3), cjc.OperationalError, "3 sessions"),
                                  (None, cjc.OperationalError, "no whole reply came within")):
            with self.subTest(data), socket.create_server(("127.0.0.1", 0)) as listening:
                ended = threading.Event()

                def serve() -> None:
                    with listening.accept()[0] as one:
                        one.recv(1000)
                        if data is None:
                            ended.wait(10)
                        else:
                            one.sendall(data)

                thread = threading.Thread(target=serve)
                thread.start()
                with self.assertRaisesRegex(kind, words):
                    cjc.connect("127.0.0.1", listening.getsockname()[1], "a", "b", timeout=0.5)
                ended.set()
                thread.join()
