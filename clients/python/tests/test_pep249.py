"""PEP 249 point by point: what any driver has to do, in the order of that text. Nothing here is about cjc alone."""
from __future__ import annotations

import datetime
import time
import unittest
from typing import Any

import cjc

from .served import OverServer

NAMES = ["Ulm", "Land's End", "Łódź", "Nîmes", "Aarhus C", "Redhill"]


class Module(unittest.TestCase):
    """The module's interface."""

    def test_globals(self) -> None:
        self.assertTrue(callable(cjc.connect))
        self.assertEqual(cjc.apilevel, "2.0")
        self.assertIn(cjc.threadsafety, (0, 1, 2, 3))
        self.assertIn(cjc.paramstyle, ("qmark", "numeric", "named", "format", "pyformat"))

    def test_exceptions(self) -> None:
        """The tree of the text's exceptions."""
        tree = {"Warning": Exception, "Error": Exception, "InterfaceError": cjc.Error, "DatabaseError": cjc.Error,
                "DataError": cjc.DatabaseError, "OperationalError": cjc.DatabaseError,
                "IntegrityError": cjc.DatabaseError, "InternalError": cjc.DatabaseError,
                "ProgrammingError": cjc.DatabaseError, "NotSupportedError": cjc.DatabaseError}
        for name, parent in tree.items():
            self.assertEqual(getattr(cjc, name).__bases__, (parent,), name)

    def test_type_constructors(self) -> None:
        """Those with ticks take seconds of time.time(), in local time."""
        self.assertEqual(cjc.Date(2002, 12, 25), datetime.date(2002, 12, 25))
        self.assertEqual(cjc.Time(13, 45, 30), datetime.time(13, 45, 30))
        self.assertEqual(cjc.Timestamp(2002, 12, 25, 13, 45, 30), datetime.datetime(2002, 12, 25, 13, 45, 30))
        ticks = time.mktime((2002, 12, 25, 13, 45, 30, 0, 0, -1))
        self.assertEqual(cjc.DateFromTicks(ticks), cjc.Date(2002, 12, 25))
        self.assertEqual(cjc.TimeFromTicks(ticks), cjc.Time(13, 45, 30))
        self.assertEqual(cjc.TimestampFromTicks(ticks), cjc.Timestamp(2002, 12, 25, 13, 45, 30))
        self.assertEqual(bytes(cjc.Binary(b"bytes")), b"bytes")

    def test_type_objects(self) -> None:
        """Each is equal to itself alone."""
        kinds = [cjc.STRING, cjc.BINARY, cjc.NUMBER, cjc.DATETIME, cjc.ROWID]
        for kind in kinds:
            self.assertEqual([other for other in kinds if other == kind], [kind])


class Connections(OverServer):
    """The objects that `connect` gives."""

    def test_close(self) -> None:
        """A closed connection and its cursors raise Error, whatever is tried."""
        connection = self.connect()
        cursor = connection.cursor()
        connection.close()
        for call in (connection.commit, connection.rollback, connection.cursor,
                     lambda: cursor.execute("SELECT COUNT(*) FROM t")):
            with self.assertRaises(cjc.Error):
                call()

    def test_close_rolls_back(self) -> None:
        table = self.create("closed")
        connection = self.connect()
        connection.cursor().execute(f"INSERT INTO {table} VALUES (1, 'lost')")
        connection.close()
        self.assertEqual(self.connect().cursor().execute(f"SELECT k FROM {table}").fetchall(), [])

    def test_commit_and_rollback(self) -> None:
        """A connection isn't in autocommit at first. Both calls do without a transaction too."""
        table = self.create("ends")
        connection, other = self.connect(), self.connect().cursor()
        connection.commit()
        connection.rollback()
        for end, left in ((connection.rollback, []), (connection.commit, [(1,)])):
            connection.cursor().execute(f"INSERT INTO {table} VALUES (1, 'a')")
            self.assertEqual(other.execute(f"SELECT k FROM {table}").fetchall(), [])
            end()
            self.assertEqual(other.execute(f"SELECT k FROM {table}").fetchall(), left)

    def test_cursors_are_not_isolated(self) -> None:
        """The changes of a cursor are seen at once by the others of its connection."""
        table = self.create("cursors")
        connection = self.connect()
        one, two = connection.cursor(), connection.cursor()
        one.execute(f"INSERT INTO {table} VALUES (1, 'seen')")
        self.assertEqual(two.execute(f"SELECT v FROM {table}").fetchall(), [("seen",)])

    def test_exceptions_as_attributes(self) -> None:
        connection = self.connect()
        for name in ("Warning", "Error", "InterfaceError", "DatabaseError", "DataError", "OperationalError",
                     "IntegrityError", "InternalError", "ProgrammingError", "NotSupportedError"):
            self.assertIs(getattr(connection, name), getattr(cjc, name))


class Cursors(OverServer):
    """The objects that `cursor` gives."""

    def setUp(self) -> None:
        super().setUp()
        self.table = self.create("station")
        self.cursor: Any = self.connect().cursor()
        self.cursor.executemany(f"INSERT INTO {self.table} VALUES (?, ?)", list(enumerate(NAMES)))

    def select(self) -> None:
        self.cursor.execute(f"SELECT v FROM {self.table}")

    def test_description(self) -> None:
        """Seven items for each column; None after a statement that gives no rows."""
        self.assertIsNone(self.cursor.description)
        self.cursor.execute(f"SELECT v, k FROM {self.table}")
        self.assertEqual([len(column) for column in self.cursor.description], [7, 7])
        self.assertEqual([column[:2] for column in self.cursor.description], [("v", cjc.STRING), ("k", cjc.NUMBER)])
        self.cursor.execute(f"DELETE FROM {self.table}")
        self.assertIsNone(self.cursor.description)

    def test_rowcount(self) -> None:
        self.assertEqual(self.connect().cursor().rowcount, -1)
        self.assertEqual(self.cursor.rowcount, len(NAMES))
        self.select()
        self.assertEqual(self.cursor.rowcount, len(NAMES))
        self.cursor.execute(f"UPDATE {self.table} SET v = 'sold' WHERE k < 2")
        self.assertEqual(self.cursor.rowcount, 2)

    def test_callproc(self) -> None:
        """The method is optional: a driver for a database without procedures raises NotSupportedError."""
        with self.assertRaises(cjc.NotSupportedError):
            self.cursor.callproc("lower", ("FOO",))

    def test_close(self) -> None:
        self.select()
        self.cursor.close()
        for call in (lambda: self.cursor.execute("SELECT COUNT(*) FROM t"), self.cursor.fetchone,
                     self.cursor.fetchmany, self.cursor.fetchall, self.cursor.nextset):
            with self.assertRaises(cjc.Error):
                call()

    def test_execute(self) -> None:
        self.cursor.execute(f"SELECT k FROM {self.table} WHERE v = ?", ["Land's End"])
        self.assertEqual(self.cursor.fetchall(), [(1,)])
        self.cursor.execute(f"SELECT k FROM {self.table} WHERE v = ?", ("Land's End",))
        self.assertEqual(self.cursor.fetchall(), [(1,)])

    def test_executemany(self) -> None:
        """Any sequence of sequences. One that gives rows raises an Error, as the text leaves open."""
        insert = f"INSERT INTO {self.table} VALUES (?, ?)"
        for sets in ([(10, "a"), [11, "b"]], ((12, "c"),), []):
            self.cursor.executemany(insert, sets)
        self.assertEqual(self.cursor.execute(f"SELECT v FROM {self.table} WHERE k > 9").fetchall(),
                         [("a",), ("b",), ("c",)])
        with self.assertRaises(cjc.Error):
            self.cursor.executemany(f"SELECT v FROM {self.table} WHERE k = ?", [(1,)])

    def test_fetches_need_rows(self) -> None:
        """Before a statement, and after one that gives none, a fetch raises Error."""
        for cursor in (self.connect().cursor(), self.cursor):
            for fetch in (cursor.fetchone, cursor.fetchmany, cursor.fetchall):
                with self.assertRaises(cjc.Error):
                    fetch()

    def test_fetchone(self) -> None:
        self.select()
        self.assertEqual([self.cursor.fetchone() for _ in NAMES], [(name,) for name in NAMES])
        self.assertIsNone(self.cursor.fetchone())
        self.cursor.execute(f"SELECT v FROM {self.table} WHERE k < 0")
        self.assertIsNone(self.cursor.fetchone())

    def test_fetchmany(self) -> None:
        self.assertEqual(self.cursor.arraysize, 1)
        self.select()
        self.assertEqual(len(self.cursor.fetchmany()), 1)
        self.assertEqual([len(self.cursor.fetchmany(3)) for _ in range(3)], [3, 2, 0])
        self.cursor.arraysize = 4
        self.select()
        self.assertEqual([len(self.cursor.fetchmany()) for _ in range(3)], [4, 2, 0])
        self.assertEqual(self.cursor.rowcount, len(NAMES))

    def test_fetchall(self) -> None:
        self.select()
        self.assertEqual(self.cursor.fetchall(), [(name,) for name in NAMES])
        self.assertEqual(self.cursor.fetchall(), [])
        self.assertEqual(self.cursor.rowcount, len(NAMES))

    def test_mixed_fetches(self) -> None:
        self.select()
        found = [self.cursor.fetchone(), *self.cursor.fetchmany(2), self.cursor.fetchone(), *self.cursor.fetchall()]
        self.assertEqual(found, [(name,) for name in NAMES])

    def test_nextset(self) -> None:
        """None where there is no more than one set."""
        self.select()
        self.assertIsNone(self.cursor.nextset())

    def test_sizes(self) -> None:
        """Calls that may do nothing."""
        self.cursor.setinputsizes((25,))
        self.cursor.setinputsizes([int, 25, None])
        self.cursor.setoutputsize(1000)
        self.cursor.setoutputsize(2000, 0)
        self.cursor.execute(f"SELECT k FROM {self.table} WHERE v = ?", ("Redhill",))
        self.assertEqual(self.cursor.fetchall(), [(5,)])

    def test_none(self) -> None:
        """None stands for NULL. cjc has no NULL, and the driver says so before anything is sent."""
        with self.assertRaises(cjc.NotSupportedError):
            self.cursor.execute(f"INSERT INTO {self.table} VALUES (?, ?)", (10, None))

    def test_extensions(self) -> None:
        """Those of the optional extensions that the driver has."""
        self.select()
        self.assertEqual(self.cursor.rownumber, 0)
        self.assertEqual([row for row in self.cursor], [(name,) for name in NAMES])
        self.assertIsInstance(self.cursor.connection, cjc.Connection)
        self.cursor.scroll(0, mode="absolute")
        self.assertEqual(next(self.cursor), ("Ulm",))
        self.cursor.scroll(2)
        self.assertEqual(next(self.cursor), ("Nîmes",))
        with self.assertRaises(IndexError):
            self.cursor.scroll(-5)
        self.assertIsNone(self.cursor.lastrowid)
