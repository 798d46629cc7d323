"""A small server for the tests: the frames of docs/FORMATS.md over TCP, and sqlite3 in place of cjc's engine.

It is as far like cjc as the tests need: statements of the grammar alone, READ COMMITTED, refusals by code, and a
table that a transaction has changed is locked. `Toy.tricks` makes it misbehave at a statement.
"""
from __future__ import annotations

import re
import socket
import sqlite3
import struct
import threading
import time
from collections.abc import Callable
from typing import Optional, Union

from cjc.statements import CHANGES, SCHEMA, verb_of
from cjc.syntax import fault_of

USER, PASSWORD = "ann", "secret"
MOST = 1_048_576
# The most rows of a table.
ROWS_MOST = 65_536

# What a trick does in place of a reply: it gets the socket, and returns whether the session goes on.
Trick = Callable[[socket.socket], bool]
Rows = tuple[list[str], list[tuple[Union[int, str], ...]]]


class Refusal(Exception):
    """A refusal with its code and numbers."""

    def __init__(self, code: int, a: int = 0, b: int = 0) -> None:
        super().__init__(code, a, b)
        self.numbers = code, a, b


def framed(kind: int, payload: bytes = b"") -> bytes:
    return struct.pack(">IB", 1 + len(payload), kind) + payload


def done(count: int = 0) -> bytes:
    return framed(0x81, struct.pack(">Q", count))


def refused(code: int, a: int = 0, b: int = 0) -> bytes:
    return framed(0x8F, struct.pack(">HQQ", code, a, b))


def rows_frame(names: list[str], rows: list[tuple[Union[int, str], ...]]) -> bytes:
    """The frame of these rows, or a refusal 30 where it is too large."""
    parts = [struct.pack(">H", len(names))]
    for name in names:
        parts.append(struct.pack(">H", len(name.encode())) + name.encode())
    parts.append(struct.pack(">I", len(rows)))
    for row in rows:
        for value in row:
            if isinstance(value, int):
                parts.append(struct.pack(">Bq", 1, value))
            else:
                text = value.encode()
                parts.append(struct.pack(">BI", 2, len(text)) + text)
    payload = b"".join(parts)
    return framed(0x82, payload) if len(payload) < MOST else refused(30, len(payload) + 1)


class Engine:
    """The tables of all sessions, behind one lock. An open transaction is the list of its changes."""

    def __init__(self) -> None:
        self._lock = threading.Lock()
        self._base = sqlite3.connect(":memory:", isolation_level=None, check_same_thread=False)
        self._entries = 0
        # The transaction that has changed a table and not ended.
        self._locked: dict[str, int] = {}

    def close(self) -> None:
        self._base.close()

    def run(self, session: Session, text: str) -> Union[int, Rows]:
        """The count or the rows of a statement."""
        if fault_of(text) is not None:
            raise Refusal(10)
        with self._lock:
            return self._run(session, verb_of(text), text)

    def _run(self, session: Session, verb: str, text: str) -> Union[int, Rows]:
        if verb == "BEGIN" and session.transaction:
            raise Refusal(11, session.transaction)
        if verb in ("COMMIT", "ROLLBACK"):
            return self.end(session, verb)
        if verb in SCHEMA and session.transaction:
            raise Refusal(13, session.transaction)
        if verb == "SELECT":
            return self._inside(session, lambda: self._select(text))
        self._entries += 1
        if verb == "BEGIN":
            session.transaction = self._entries
            return 0
        if session.transaction:
            self._check_lock(session, text)
            count = self._inside(session, lambda: self._change(text))
            self._locked[table_of(text)] = session.transaction
            session.changes.append(text)
            return count
        self._check_lock(session, text)
        return self._change(text)

    def end(self, session: Session, verb: str) -> int:
        """Ends the session's transaction."""
        if not session.transaction:
            raise Refusal(12)
        changes, session.changes = session.changes, []
        self._locked = {table: tx for table, tx in self._locked.items() if tx != session.transaction}
        session.transaction = 0
        if verb == "COMMIT":
            for text in changes:
                self._change(text)
        return 0

    def close_session(self, session: Session) -> None:
        with self._lock:
            if session.transaction:
                self.end(session, "ROLLBACK")

    def _check_lock(self, session: Session, text: str) -> None:
        holder = self._locked.get(table_of(text), 0)
        if holder and holder != session.transaction:
            raise Refusal(25, holder)

    def _inside(self, session: Session, act: Callable[[], Union[int, Rows]]) -> Union[int, Rows]:
        """Does this as the session's transaction sees the tables, and leaves them as they are."""
        if not session.transaction:
            return act()
        self._base.execute("SAVEPOINT s")
        try:
            for text in session.changes:
                self._change(text)
            return act()
        finally:
            self._base.execute("ROLLBACK TO s")
            self._base.execute("RELEASE s")

    def _select(self, text: str) -> Rows:
        cursor = self._execute(text)
        names = [re.sub(r"\(.*", "", column[0]).lower().rpartition(".")[2] for column in cursor.description]
        return names, [tuple(0 if value is None else value for value in row) for row in cursor.fetchall()]

    def _change(self, text: str) -> int:
        if verb_of(text) == "CREATE":
            # Columns without a kind, for SQLite converts values to it. Rows come in the order of the key.
            checked = r"\1 \3 NOT NULL CHECK (typeof(\1) = lower('\2'))"
            text = re.sub(r"(\w+)\s+(INTEGER|TEXT)\b(\s+PRIMARY\s+KEY)?", checked, text, flags=re.IGNORECASE)
            text = text.rstrip("; ") + " WITHOUT ROWID"
            self._execute(text)
            return 0
        if verb_of(text) == "INSERT":
            return self._insert(text)
        return max(0, self._execute(text).rowcount) if verb_of(text) in CHANGES else self._execute(text).rowcount and 0

    def _insert(self, text: str) -> int:
        """Inserts all rows, or none where the table would have too many."""
        self._base.execute("SAVEPOINT i")
        try:
            count = self._execute(text).rowcount
            (rows,) = self._base.execute(f"SELECT COUNT(*) FROM {table_of(text)}").fetchone()
            if rows > ROWS_MOST:
                self._base.execute("ROLLBACK TO i")
                raise Refusal(29, rows)
            return count
        finally:
            self._base.execute("RELEASE i")

    def _execute(self, text: str) -> sqlite3.Cursor:
        """What SQLite says, with its errors as refusals."""
        text = re.sub(r"\bNOW\s*\(\s*\)", str(int(time.time())), text, flags=re.IGNORECASE)
        try:
            return self._base.execute(text)
        except sqlite3.Error as error:
            said = str(error)
        if "CHECK" in said and verb_of(text) == "UPDATE" and re.search(r"[+-]", text):
            raise Refusal(26)
        for part, code in (("no such table", 21), ("already exists", 22), ("no such column", 23), ("no column", 23),
                           ("ambiguous", 23), ("columns but", 24), ("values for", 24), ("overflow", 26),
                           ("UNIQUE", 27), ("CHECK", 28), ("datatype mismatch", 28), ("NOT NULL", 28)):
            if part in said:
                raise Refusal(code)
        raise AssertionError(f"the toy engine has no code for {said}: {text}")


def table_of(text: str) -> str:
    """The table that a change names."""
    found = re.match(r"\s*(?:INSERT\s+INTO|UPDATE|DELETE\s+FROM|CREATE\s+TABLE|DROP\s+TABLE)\s+(\w+)", text, re.I)
    assert found is not None, text
    return found.group(1).lower()


class Session:
    """One connection's user, transaction and changes in it."""

    def __init__(self) -> None:
        self.user: Optional[str] = None
        self.transaction = 0
        self.changes: list[str] = []


class Toy:
    """The server, on a port of its own on the loopback. `close` ends it and all of its sessions."""

    def __init__(self) -> None:
        self.engine = Engine()
        # What is done at a statement, and what was asked, in order. A trick is used once.
        self.tricks: dict[str, Trick] = {}
        self.asked: list[str] = []
        self._sockets: set[socket.socket] = set()
        self._threads: list[threading.Thread] = []
        self._listening = socket.create_server(("127.0.0.1", 0), backlog=128)
        self.port = self._listening.getsockname()[1]
        self._accepting = threading.Thread(target=self._accept, daemon=True)
        self._accepting.start()

    def close(self) -> None:
        self._listening.shutdown(socket.SHUT_RDWR)
        self._listening.close()
        self._accepting.join()
        for one in list(self._sockets):
            try:
                one.shutdown(socket.SHUT_RDWR)
            except OSError:
                pass
        for thread in self._threads:
            thread.join()
        self.engine.close()

    def _accept(self) -> None:
        while True:
            try:
                one = self._listening.accept()[0]
            except OSError:
                return
            one.setsockopt(socket.IPPROTO_TCP, socket.TCP_NODELAY, 1)
            self._sockets.add(one)
            thread = threading.Thread(target=self._serve, args=(one,), daemon=True)
            self._threads.append(thread)
            thread.start()

    def _serve(self, one: socket.socket) -> None:
        session = Session()
        try:
            with one:
                while self._answer(one, session):
                    pass
        except OSError:
            pass
        finally:
            self._sockets.discard(one)
            self.engine.close_session(session)

    def _answer(self, one: socket.socket, session: Session) -> bool:
        """Answers one frame, and says whether the session goes on."""
        head = _taken(one, 5)
        if head is None:
            return False
        length, kind = struct.unpack(">IB", head)
        body = _taken(one, length - 1) if 1 <= length <= MOST else None
        if body is None or kind not in (1, 2, 3, 4):
            one.sendall(refused(1, 2 if length > MOST else 3))
            return False
        if kind == 4:
            return False
        if kind == 2:
            text = body.decode()
            self.asked.append(text)
            trick = self.tricks.pop(text, None)
            if trick is not None:
                return trick(one)
        one.sendall(self._reply(kind, body, session))
        return True

    def _reply(self, kind: int, body: bytes, session: Session) -> bytes:
        if kind == 1:
            return self._login(body, session)
        if session.user is None:
            return refused(2)
        if kind == 3:
            return framed(0x83, struct.pack(">QQ", 3, 4))
        try:
            answer = self.engine.run(session, body.decode())
        except Refusal as refusal:
            return refused(*refusal.numbers)
        return done(answer) if isinstance(answer, int) else rows_frame(*answer)

    def _login(self, body: bytes, session: Session) -> bytes:
        (size,) = struct.unpack_from(">H", body)
        user, password = body[2:2 + size].decode(), body[4 + size:].decode()
        if session.user is not None:
            return refused(4)
        if (user, password) != (USER, PASSWORD):
            return refused(3)
        session.user = user
        return done()


def _taken(one: socket.socket, count: int) -> Optional[bytes]:
    """So many bytes, or None where the client closes before them."""
    data = bytearray()
    while len(data) < count:
        piece = one.recv(count - len(data))
        if not piece:
            return None
        data += piece
    return bytes(data)


# ---- tricks


def answers(data: bytes) -> Trick:
    """Sends these bytes in place of the reply, and goes on."""
    def trick(one: socket.socket) -> bool:
        one.sendall(data)
        return True
    return trick


def closes(data: bytes = b"") -> Trick:
    """Sends these bytes and closes."""
    def trick(one: socket.socket) -> bool:
        one.sendall(data)
        return False
    return trick


def resets(one: socket.socket) -> bool:
    """Closes so that the client gets a reset."""
    one.setsockopt(socket.SOL_SOCKET, socket.SO_LINGER, struct.pack("ii", 1, 0))
    return False


def waits(event: threading.Event) -> Trick:
    """Sends nothing until the event, and closes."""
    def trick(_: socket.socket) -> bool:
        event.wait(20)
        return False
    return trick


def drips(data: bytes, pause: float) -> Trick:
    """Sends these bytes one by one, with a pause before each."""
    def trick(one: socket.socket) -> bool:
        for byte in data:
            time.sleep(pause)
            one.sendall(bytes((byte,)))
        return True
    return trick
