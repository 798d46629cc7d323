"""The driver over a server: values, transactions, refusals and threads. test_pep249 has the calls of that text."""
from __future__ import annotations

import threading
from urllib.parse import quote

import cjc

from .served import OverServer

LOWEST, HIGHEST = -(2 ** 63), 2 ** 63 - 1
# Quotes, line feeds, characters of one to four bytes, question marks, and what other dialects read as escapes.
TEXTS = ["", "it's", "''", "a\nb\r\n\tc", "é日本🙂", "what? 'no?' ?", "back\\slash", "--", ";", "NULL", "%_",
         "x" * 4096, "🙂" * 1024, "\u200b\x01\x7f"]


class Driver(OverServer):
    """Calls of connections and cursors."""

    def test_connects_by_url(self) -> None:
        user, password = quote(self.user, safe=""), quote(self.password, safe="")
        with cjc.connect(f"cjc://{user}:{password}@{self.host}:{self.port}") as connection:
            self.assertFalse(connection.closed)
        with cjc.connect(f"cjc://{self.host}:{self.port}", user=self.user, password=self.password):
            pass

    def test_wrong_arguments(self) -> None:
        for arguments in (("localhost",), ("localhost", 0, "a", "b"), ("localhost", 70000, "a", "b"),
                          ("cjc://x", None, "a", "b"), ("cjc://a:b@x:1", 1), ("cjc://a:b@x:port",),
                          ("localhost", self.port), ("localhost", self.port, "a" * 65536, "b"), (b"localhost", 1, "a", "b"),
                          (None,), ("localhost", self.port, b"a", "b"), ("localhost", self.port, "a", 5)):
            with self.assertRaises(cjc.InterfaceError):
                cjc.connect(*arguments)
        for timeout in (0, -1, float("nan"), float("inf"), 1_000_001, "5"):
            with self.assertRaises(cjc.InterfaceError):
                cjc.connect("localhost", self.port, "a", "b", timeout=timeout)
        for timeout in (1_000_000, 60, None):
            self.assertIsNone(self.connect(timeout=timeout).commit())
        for host in ("a" * 70, "a..b", "xn--\u00e9"):
            with self.assertRaisesRegex(cjc.OperationalError, "can't connect to"):
                cjc.connect(host, self.port, "a", "b")

    def test_wrong_password(self) -> None:
        with self.assertRaises(cjc.OperationalError) as caught:
            cjc.connect(self.host, self.port, self.user, self.password + "x")
        self.assertEqual((caught.exception.code, caught.exception.name), (3, "BadLogin"))
        self.assertNotIn(self.password, str(caught.exception))

    def test_fetches(self) -> None:
        table = self.create("fetches")
        cursor = self.connect().cursor()
        rows = [(n, str(n)) for n in range(10)]
        self.assertIs(cursor.executemany(f"INSERT INTO {table} VALUES (?, ?)", rows), cursor)
        self.assertEqual(cursor.rowcount, 10)
        self.assertIsNone(cursor.description)
        cursor.execute(f"SELECT k, v FROM {table} WHERE k < ?", (7,))
        self.assertEqual(cursor.rowcount, 7)
        self.assertEqual(cursor.description, (("k", cjc.NUMBER, None, None, None, None, False),
                                              ("v", cjc.STRING, None, None, None, None, False)))
        self.assertEqual((cursor.arraysize, cursor.rownumber), (1, 0))
        self.assertEqual(cursor.fetchone(), (0, "0"))
        self.assertEqual(cursor.fetchmany(), [(1, "1")])
        self.assertEqual(cursor.fetchmany(2), [(2, "2"), (3, "3")])
        cursor.arraysize = 2
        self.assertEqual(cursor.fetchmany(), [(4, "4"), (5, "5")])
        self.assertEqual(cursor.rownumber, 6)
        self.assertEqual(cursor.fetchall(), [(6, "6")])
        self.assertEqual((cursor.fetchone(), cursor.fetchmany(5), cursor.fetchall(), list(cursor)), (None, [], [], []))
        cursor.scroll(-2)
        self.assertEqual([k for k, _ in cursor], [5, 6])
        cursor.scroll(1, mode="absolute")
        self.assertEqual(cursor.fetchone(), (1, "1"))
        with self.assertRaises(IndexError):
            cursor.scroll(100)
        with self.assertRaises(cjc.ProgrammingError):
            cursor.scroll(1, mode="sideways")
        with self.assertRaises(cjc.ProgrammingError):
            cursor.fetchmany(-1)
        self.assertIsNone(cursor.nextset())
        self.assertEqual(cursor.fetchall(), [])

    def test_other_calls(self) -> None:
        connection = self.connect()
        with connection.cursor() as cursor:
            self.assertIs(cursor.connection, connection)
            self.assertIsNone(cursor.lastrowid)
            cursor.setinputsizes([None])
            cursor.setoutputsize(10)
            cursor.setoutputsize(10, 0)
            with self.assertRaises(cjc.NotSupportedError):
                cursor.callproc("p", [1])
            for fetch in (cursor.fetchone, cursor.fetchmany, cursor.fetchall, cursor.nextset):
                with self.assertRaises(cjc.ProgrammingError):
                    fetch()
        for call in (lambda: cursor.execute("SELECT 1"), cursor.fetchone, lambda: cursor.executemany("x", [])):
            with self.assertRaises(cjc.InterfaceError):
                call()
        self.assertIsInstance(connection.stats(), cjc.Stats)

    def test_closed(self) -> None:
        connection = self.connect()
        cursor = connection.cursor()
        connection.close()
        connection.close()
        self.assertTrue(connection.closed)
        for call in (connection.commit, connection.rollback, connection.cursor, connection.stats,
                     lambda: cursor.execute("BEGIN"), connection.__enter__):
            with self.assertRaises(cjc.InterfaceError):
                call()

    def test_counts(self) -> None:
        table = self.create("counts")
        cursor = self.connect(autocommit=True).cursor()
        self.assertEqual(cursor.rowcount, -1)
        self.assertEqual(cursor.execute(f"INSERT INTO {table} VALUES (1, 'a'), (2, 'b');").rowcount, 2)
        self.assertEqual(cursor.execute(f"UPDATE {table} SET v = ? WHERE k >= ?", ["c", 1]).rowcount, 2)
        self.assertEqual(cursor.execute(f"SELECT COUNT(*), SUM(k) FROM {table}").fetchall(), [(2, 3)])
        self.assertEqual([column[0] for column in cursor.description or ()], ["count", "sum"])
        self.assertEqual(cursor.execute(f"DELETE FROM {table} WHERE k = 2").rowcount, 1)
        self.assertEqual(cursor.execute(f"SELECT * FROM {table} WHERE k = 2").rowcount, 0)
        self.assertEqual([column[1] for column in cursor.description or ()], [None, None])
        self.assertEqual(cursor.execute("BEGIN").rowcount, -1)
        self.assertEqual(cursor.executemany(f"UPDATE {table} SET v = ?", []).rowcount, 0)
        self.assertEqual(cursor.executemany(f"UPDATE {table} SET v = ?", iter([("x",), ("y",)])).rowcount, 2)
        with self.assertRaises(cjc.ProgrammingError):
            cursor.executemany(f"SELECT * FROM {table} WHERE k = ?", [(1,)])

    def test_values(self) -> None:
        table = self.create("numbers", "k INTEGER PRIMARY KEY, n INTEGER")
        cursor = self.connect().cursor()
        numbers = [0, 1, -1, LOWEST, LOWEST + 1, HIGHEST, True]
        cursor.executemany(f"INSERT INTO {table} VALUES (?, ?)", enumerate(numbers))
        self.assertEqual(cursor.execute(f"SELECT n FROM {table}").fetchall(), [(n,) for n in numbers])
        self.assertEqual(cursor.execute(f"SELECT k FROM {table} WHERE n = ?", (LOWEST,)).fetchall(), [(3,)])
        cursor.execute(f"UPDATE {table} SET n = n-? WHERE k = ?", (-5, 0))
        self.assertEqual(cursor.execute(f"SELECT n FROM {table} WHERE k=?", (0,)).fetchall(), [(5,)])

    def test_texts(self) -> None:
        table = self.create("texts")
        cursor = self.connect().cursor()
        cursor.executemany(f"INSERT INTO {table} VALUES (?, ?)", enumerate(TEXTS))
        self.assertEqual(cursor.execute(f"SELECT v FROM {table}").fetchall(), [(text,) for text in TEXTS])
        for k, text in enumerate(TEXTS):
            self.assertEqual(cursor.execute(f"SELECT k FROM {table} WHERE v = ?", (text,)).fetchall(), [(k,)])
        cursor.execute(f"UPDATE {table} SET v = 'a?''?' WHERE k = ?", (0,))
        self.assertEqual(cursor.execute(f"SELECT v FROM {table} WHERE k = 0").fetchone(), ("a?'?",))

    def test_65536_rows(self) -> None:
        table = self.create("many", "k INTEGER PRIMARY KEY")
        cursor = self.connect().cursor()
        cursor.executemany(f"INSERT INTO {table} VALUES (?)", ((n,) for n in range(65536)))
        self.assertEqual(cursor.rowcount, 65536)
        rows = cursor.execute(f"SELECT k FROM {table}").fetchall()
        self.assertEqual(rows, [(n,) for n in range(65536)])
        for statement, code, a in ((f"SELECT k, k FROM {table}", 30, 1 + 2 + 3 + 3 + 4 + 65536 * 18),
                                   (f"INSERT INTO {table} VALUES (65536), (-1)", 29, 65538)):
            with self.assertRaises(cjc.OperationalError) as caught:
                cursor.execute(statement)
            self.assertEqual((caught.exception.code, caught.exception.a), (code, a))

    def test_largest_statement(self) -> None:
        table = self.create("large")
        cursor = self.connect(autocommit=True).cursor()
        head, tail = f"INSERT INTO {table} VALUES (1, 'x')", ";"
        room = 1_048_575 - len(head) - len(tail)
        self.assertEqual(cursor.execute(head + " " * room + tail).rowcount, 1)
        with self.assertRaises(cjc.DataError):
            cursor.execute(head + " " * (room + 1) + tail)
        self.assertEqual(cursor.execute(f"SELECT * FROM {table}").fetchall(), [(1, "x")])

    def test_transactions(self) -> None:
        table = self.create("transactions")
        one, two = self.connect(), self.connect()
        cursor, other = one.cursor(), two.cursor()
        self.assertEqual((one.autocommit, one.in_transaction), (False, False))
        cursor.execute(f"SELECT * FROM {table}")
        self.assertFalse(one.in_transaction)
        cursor.execute(f"INSERT INTO {table} VALUES (1, 'a')")
        self.assertTrue(one.in_transaction)
        self.assertEqual(cursor.execute(f"SELECT COUNT(*) FROM {table}").fetchone(), (1,))
        self.assertEqual(other.execute(f"SELECT COUNT(*) FROM {table}").fetchone(), (0,))
        one.rollback()
        self.assertFalse(one.in_transaction)
        self.assertEqual(cursor.execute(f"SELECT COUNT(*) FROM {table}").fetchone(), (0,))
        cursor.execute(f"INSERT INTO {table} VALUES (1, 'a')")
        one.commit()
        one.commit()
        one.rollback()
        self.assertEqual(other.execute(f"SELECT COUNT(*) FROM {table}").fetchone(), (1,))
        cursor.execute(f"DELETE FROM {table}")
        one.close()
        self.assertEqual(other.execute(f"SELECT COUNT(*) FROM {table}").fetchone(), (1,))

    def test_autocommit(self) -> None:
        table = self.create("autocommit")
        one, two = self.connect(autocommit=True), self.connect()
        cursor = one.cursor()
        cursor.execute(f"INSERT INTO {table} VALUES (1, 'a')")
        self.assertFalse(one.in_transaction)
        self.assertEqual(two.cursor().execute(f"SELECT v FROM {table}").fetchall(), [("a",)])
        one.autocommit = False
        cursor.execute(f"UPDATE {table} SET v = 'b'")
        with self.assertRaises(cjc.ProgrammingError):
            one.autocommit = True
        one.autocommit = False
        one.rollback()
        one.autocommit = True
        cursor.execute("BEGIN")
        self.assertTrue(one.in_transaction)
        cursor.execute(f"UPDATE {table} SET v = 'c'")
        one.commit()
        self.assertFalse(one.in_transaction)
        self.assertEqual(two.cursor().execute(f"SELECT v FROM {table}").fetchall(), [("c",)])

    def test_context_manager(self) -> None:
        table = self.create("context")
        with self.connect() as one:
            one.cursor().execute(f"INSERT INTO {table} VALUES (1, 'a')")
        self.assertTrue(one.closed)
        with self.assertRaises(ZeroDivisionError), self.connect() as one:
            one.cursor().execute(f"INSERT INTO {table} VALUES (2, 'b')")
            raise ZeroDivisionError
        self.assertTrue(one.closed)
        self.assertEqual(self.connect().cursor().execute(f"SELECT k FROM {table}").fetchall(), [(1,)])

    def test_refusals_of_statements(self) -> None:
        table = self.create("refusals", "k INTEGER PRIMARY KEY, v TEXT, n INTEGER")
        one, two = self.connect(), self.connect()
        cursor = one.cursor()
        cursor.execute(f"INSERT INTO {table} VALUES (1, 'a', {HIGHEST})")
        for statement, kind, code in (
                ("SELECT * FROM t WHERE v LIKE 'a'", cjc.ProgrammingError, 10),
                ("BEGIN", cjc.InternalError, 11),
                (f"CREATE TABLE {table}_2 (k INTEGER PRIMARY KEY)", cjc.ProgrammingError, 13),
                (f"SELECT * FROM {table}_none", cjc.ProgrammingError, 21),
                (f"SELECT x FROM {table}", cjc.ProgrammingError, 23),
                (f"INSERT INTO {table} VALUES (1, 'a')", cjc.ProgrammingError, 24),
                (f"UPDATE {table} SET n = n + 1", cjc.DataError, 26),
                (f"INSERT INTO {table} VALUES (1, 'a', 0)", cjc.IntegrityError, 27),
                (f"INSERT INTO {table} VALUES (2, 2, 2)", cjc.DataError, 28)):
            with self.assertRaises(kind) as caught:
                cursor.execute(statement)
            self.assertEqual(caught.exception.code, code, statement)
            self.assertTrue(one.in_transaction)
        with self.assertRaises(cjc.OperationalError) as caught:
            two.cursor().execute(f"DELETE FROM {table}")
        self.assertEqual(caught.exception.code, 25)
        self.assertGreater(caught.exception.a, 0)
        one.commit()
        self.assertEqual(two.cursor().execute(f"DELETE FROM {table}").rowcount, 1)
        two.commit()
        for statement, kind, code in (("COMMIT", cjc.InternalError, 12),
                                      (f"CREATE TABLE {table} (k INTEGER PRIMARY KEY)", cjc.ProgrammingError, 22)):
            with self.assertRaises(kind) as caught:
                cursor.execute(statement)
            self.assertEqual(caught.exception.code, code)

    def test_parameters(self) -> None:
        table = self.create("parameters")
        cursor = self.connect(autocommit=True).cursor()
        insert = f"INSERT INTO {table} VALUES (?, ?)"
        for parameters, kind in (
                ((1,), cjc.ProgrammingError), ((1, "a", 2), cjc.ProgrammingError), ("ab", cjc.ProgrammingError),
                ({"k": 1}, cjc.ProgrammingError), (None, cjc.ProgrammingError), ((1, None), cjc.NotSupportedError),
                ((1, 1.5), cjc.NotSupportedError), ((1, b"x"), cjc.NotSupportedError),
                ((1, cjc.Date(2026, 1, 1)), cjc.NotSupportedError), ((1, [1]), cjc.NotSupportedError),
                ((1, "a\0b"), cjc.DataError), ((1, "x" * 4097), cjc.DataError), ((1, "é" * 2049), cjc.DataError),
                ((1, "\ud800"), cjc.DataError), ((HIGHEST + 1, "a"), cjc.DataError),
                ((LOWEST - 1, "a"), cjc.DataError)):
            with self.assertRaises(kind):
                cursor.execute(insert, parameters)
            with self.assertRaises(kind):
                cursor.executemany(insert, [(1, "good"), parameters])
        with self.assertRaises(cjc.ProgrammingError):
            cursor.execute(insert)
        self.assertEqual(cursor.execute(f"SELECT COUNT(*) FROM {table}").fetchone(), (0,))

    def test_32_threads(self) -> None:
        table = self.create("threads", "k INTEGER PRIMARY KEY, who INTEGER")
        failed: list[BaseException] = []

        def work(who: int) -> None:
            try:
                with cjc.connect(self.host, self.port, self.user, self.password, autocommit=True) as one:
                    cursor = one.cursor()
                    for n in range(8):
                        cursor.execute(f"INSERT INTO {table} VALUES (?, ?)", (8 * who + n, who))
                        found = cursor.execute(f"SELECT COUNT(*), SUM(who) FROM {table} WHERE who = ?", (who,))
                        assert found.fetchall() == [(n + 1, (n + 1) * who)]
            except BaseException as error:
                failed.append(error)

        threads = [threading.Thread(target=work, args=(who,)) for who in range(32)]
        for thread in threads:
            thread.start()
        for thread in threads:
            thread.join()
        self.assertEqual(failed, [])
        self.assertEqual(self.connect().cursor().execute(f"SELECT COUNT(*) FROM {table}").fetchone(), (256,))
