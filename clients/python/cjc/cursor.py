"""Cursors of PEP 249. The rows of a SELECT are all here once `execute` returns."""
from __future__ import annotations

from collections.abc import Iterable, Iterator, Sequence
from types import TracebackType
from typing import TYPE_CHECKING, Optional

from .errors import InterfaceError, NotSupportedError, ProgrammingError
from .kinds import NUMBER, STRING, TypeObject
from .statements import CHANGES, many, statement_bytes, template_of, verb_of
from .wire import Rows, Value

if TYPE_CHECKING:
    from .connection import Connection

Row = tuple[Value, ...]
Column = tuple[str, Optional[TypeObject], None, None, None, None, bool]


class Cursor:
    """Executes statements of a connection and hands out the rows of the last SELECT."""

    def __init__(self, connection: Connection) -> None:
        self.connection = connection
        self.arraysize = 1
        # The rows of the last SELECT, or how many rows were changed; -1 where neither is known.
        self.rowcount = -1
        # cjc has no hidden row numbers.
        self.lastrowid: None = None
        self._names: tuple[str, ...] = ()
        self._rows: Optional[list[Row]] = None
        self._next = 0
        self._closed = False

    # ---- statements

    def execute(self, operation: str, parameters: Optional[Sequence[object]] = None) -> Cursor:
        """Executes a statement, with a parameter for each question mark outside of strings.

        Fails with the class of the server's refusal (docs/CLIENTS.md). Before anything is sent it fails with
        ProgrammingError where the number of parameters is wrong, and with DataError or NotSupportedError where one
        has no literal.
        """
        self._reset()
        template = template_of(operation)
        reply = self.connection.request(template.verb, statement_bytes(template.bind(parameters)))
        if isinstance(reply, Rows):
            self._names, self._rows, self.rowcount = reply.names, reply.rows, len(reply.rows)
        elif template.verb in CHANGES:
            self.rowcount = reply.count
        return self

    def executemany(self, operation: str, seq_of_parameters: Iterable[Sequence[object]]) -> Cursor:
        """Executes a statement with each of these sequences of parameters; `rowcount` is that of all.

        An INSERT goes as one statement of many tuples, up to 4,096 tuples and 1 MiB. So if one tuple is refused, none
        of its statement is inserted. If a later statement fails, those before it are executed, and `rowcount`
        counts their rows. A SELECT fails with ProgrammingError.
        """
        self._reset()
        verb = verb_of(operation)
        if verb == "SELECT":
            raise ProgrammingError("executemany takes no SELECT: execute it with each of the parameters")
        statements, total = many(operation, seq_of_parameters), 0
        for statement in statements:
            total += self.connection.request(verb, statement).count  # type: ignore[union-attr]
            self.rowcount = total if verb in CHANGES else -1
        if not statements and verb in CHANGES:
            self.rowcount = 0
        return self

    def callproc(self, procname: str, parameters: Optional[Sequence[object]] = None) -> None:
        """Fails with NotSupportedError: cjc has no stored procedures."""
        raise NotSupportedError(f"cjc has no stored procedures, so none is {procname}")

    def setinputsizes(self, sizes: Sequence[object]) -> None:
        """Does nothing: parameters need no buffers."""

    def setoutputsize(self, size: int, column: Optional[int] = None) -> None:
        """Does nothing: rows arrive whole."""

    # ---- rows

    def fetchone(self) -> Optional[Row]:
        """The next row, or None after the last. Fails with ProgrammingError where no SELECT was executed."""
        rows, number = self._rows, self._next
        if rows is None:
            rows = self._result()
        if number >= len(rows):
            return None
        self._next = number + 1
        return rows[number]

    def fetchmany(self, size: Optional[int] = None) -> list[Row]:
        """The next `size` rows, by default `arraysize`, or as many as are left."""
        size = self.arraysize if size is None else size
        if size < 0:
            raise ProgrammingError("a number of rows is not below 0")
        found = self._result()[self._next:self._next + size]
        self._next += len(found)
        return found

    def fetchall(self) -> list[Row]:
        """All rows that are left."""
        found = self._result()[self._next:]
        self._next += len(found)
        return found

    def scroll(self, value: int, mode: str = "relative") -> None:
        """Moves to another row by PEP 249. Fails with IndexError where there is none, and stays."""
        if mode not in ("relative", "absolute"):
            raise ProgrammingError("the mode of scroll is 'relative' or 'absolute'")
        place = value + (self._next if mode == "relative" else 0)
        if not 0 <= place <= len(self._result()):
            raise IndexError(f"row {place} of {len(self._result())}")
        self._next = place

    @property
    def description(self) -> Optional[tuple[Column, ...]]:
        """What PEP 249 says of the columns of the last SELECT. Kinds are those of the first row, None without rows."""
        if self._rows is None:
            return None
        first: Row = self._rows[0] if self._rows else ()
        kinds = [NUMBER if isinstance(value, int) else STRING for value in first] or [None] * len(self._names)
        return tuple((name, kind, None, None, None, None, False) for name, kind in zip(self._names, kinds))

    @property
    def rownumber(self) -> Optional[int]:
        """The index of the row that is fetched next, from 0; None without rows."""
        return None if self._rows is None else self._next

    def nextset(self) -> None:
        """None: a statement has one set of rows. It leaves none of the rows to fetch."""
        self._next = len(self._result())

    def __iter__(self) -> Iterator[Row]:
        return self

    def __next__(self) -> Row:
        row = self.fetchone()
        if row is None:
            raise StopIteration
        return row

    # ---- its end

    def close(self) -> None:
        """Lets the rows go. Each later call fails with InterfaceError."""
        self.rowcount, self._rows, self._closed = -1, None, True

    def __enter__(self) -> Cursor:
        return self

    def __exit__(self, _: Optional[type[BaseException]], __: Optional[BaseException],
                 ___: Optional[TracebackType]) -> None:
        self.close()

    # ---- within

    def _check(self) -> None:
        if self._closed:
            raise InterfaceError("the cursor is closed")

    def _reset(self) -> None:
        """Forgets the last result, before a new statement."""
        self._check()
        self.rowcount, self._rows, self._next = -1, None, 0

    def _result(self) -> list[Row]:
        if self._rows is None:
            self._check()
            raise ProgrammingError("there are no rows: the last statement was no SELECT, or there was none")
        return self._rows
