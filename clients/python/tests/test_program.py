"""What only the built program can show: a server that is killed, paused, out of backends or out of disk."""
from __future__ import annotations

import os
import resource
import shutil
import struct
import subprocess
import sys
import threading
import time
from collections.abc import Callable, Iterator
from contextlib import contextmanager

import cjc
from cjc import refusals, wire
from cjc.link import Link, LinkError
from cjc.local import HOST, Server

from .served import CONFIGURATION, PATIENCE, OverProgram
from .terminal import Shells, Terminal, environment

# A request that a paused server doesn't answer is given up after so many seconds.
SHORT = 1.0
# The greatest number of a session.
LAST_SESSION = 2 ** 62


class OverKilled(OverProgram):
    """Tests that stop the server, and leave it running."""

    def setUp(self) -> None:
        if not self.server.is_running:
            # The test before failed.
            self.server.start()
        super().setUp()

    @contextmanager
    def paused(self) -> Iterator[None]:
        """The server stands still within the block, and goes on after it if it isn't killed there."""
        self.server.pause()
        try:
            yield
        finally:
            if self.server.is_running:
                self.server.resume()

    def await_request(self) -> None:
        """Waits until a request stands in a socket of the server, which is paused."""
        end = time.monotonic() + PATIENCE
        while not any(waiting for waiting in _unread(self.port)):
            self.assertLess(time.monotonic(), end, "no request came to the server")
            time.sleep(0.005)

    def killed_in(self, act: Callable[[], object]) -> cjc.Error:
        """The error of a call whose request the server has got as it is killed. The server is started again."""
        failed: list[cjc.Error] = []

        def call() -> None:
            try:
                act()
            except cjc.Error as error:
                failed.append(error)

        with self.paused():
            thread = threading.Thread(target=call)
            thread.start()
            self.await_request()
            self.server.kill()
            thread.join(PATIENCE)
        self.server.start()
        self.assertEqual(len(failed), 1)
        return failed[0]


@contextmanager
def limited(process: int, what: int, most: int) -> Iterator[None]:
    """A process has this much of a resource within the block."""
    before = resource.prlimit(process, what)
    resource.prlimit(process, what, (most, before[1]))
    try:
        yield
    finally:
        resource.prlimit(process, what, before)


def _memory(process: int, kind: str) -> int:
    """The bytes of memory of a kind that a process has, as the system counts them for its limits."""
    with open(f"/proc/{process}/status", encoding="ascii") as lines:
        return next(1024 * int(line.split()[1]) for line in lines if line.startswith(f"{kind}:"))


def _unread(port: int) -> Iterator[int]:
    """How many bytes stand unread in each connection of a port on this system."""
    with open("/proc/net/tcp", encoding="ascii") as lines:
        next(lines)
        for line in lines:
            fields = line.split()
            # (01 is a connection; 0A is the port itself, whose number counts who waits to be accepted)
            if fields[1].endswith(f":{port:04X}") and fields[3] == "01":
                yield int(fields[4].split(":")[1], 16)


class Killed(OverKilled):
    """The server is killed by SIGKILL, and started again over its log."""

    def test_in_a_fetch(self) -> None:
        table = self.create("fetch", "k INTEGER PRIMARY KEY")
        with self.connect() as one:
            one.cursor().executemany(f"INSERT INTO {table} VALUES (?)", ((k,) for k in range(500)))
        connection = self.connect()
        error = self.killed_in(lambda: connection.cursor().execute(f"SELECT k FROM {table}"))
        self.assertIs(type(error), cjc.OperationalError)
        self.assertRegex(str(error), "nothing was changed")
        self.assertFalse(error.outcome_unknown)
        self.assertTrue(connection.closed)
        with self.assertRaisesRegex(cjc.OperationalError, "broke before"):
            connection.commit()
        rows = self.connect().cursor().execute(f"SELECT k FROM {table}").fetchall()
        self.assertEqual(rows, [(k,) for k in range(500)])

    def test_in_changes(self) -> None:
        table = self.create("changes")
        for change in (f"INSERT INTO {table} VALUES (1, 'a')", f"UPDATE {table} SET v = 'b'", f"DELETE FROM {table}",
                       f"CREATE TABLE {table}_2 (k INTEGER PRIMARY KEY)"):
            connection = self.connect(autocommit=True)
            error = self.killed_in(lambda: connection.cursor().execute(change))
            self.assertIs(type(error), cjc.OperationalError)
            self.assertRegex(str(error), f"the outcome isn't known: the {change.split()[0]} may have been executed")
            self.assertTrue(error.outcome_unknown)
            self.assertTrue(connection.closed)

    def test_in_a_transaction(self) -> None:
        table = self.create("transaction")
        connection = self.connect()
        connection.cursor().execute(f"INSERT INTO {table} VALUES (1, 'a')")
        error = self.killed_in(lambda: connection.cursor().execute(f"INSERT INTO {table} VALUES (2, 'b')"))
        self.assertIn("the open transaction is rolled back", str(error))
        self.assertFalse(error.outcome_unknown or connection.in_transaction)
        self.assertEqual(self.connect().cursor().execute(f"SELECT * FROM {table}").fetchall(), [])
        connection = self.connect()
        connection.cursor().execute(f"INSERT INTO {table} VALUES (1, 'a')")
        error = self.killed_in(connection.commit)
        self.assertIn("the COMMIT may have been executed", str(error))
        self.assertTrue(error.outcome_unknown)

    def test_while_idle(self) -> None:
        table = self.create("idle")
        connection = self.connect(autocommit=True)
        cursor = connection.cursor().execute(f"SELECT * FROM {table}")
        self.server.kill()
        with self.assertRaisesRegex(cjc.OperationalError, "can't connect to 127.0.0.1"):
            self.connect()
        self.server.start()
        with self.assertRaisesRegex(cjc.OperationalError, "nothing was changed") as caught:
            cursor.execute(f"INSERT INTO {table} VALUES (1, 'a')")
        self.assertFalse(caught.exception.outcome_unknown)
        self.assertEqual(self.connect().cursor().execute(f"SELECT * FROM {table}").fetchall(), [])

    def test_at_work(self) -> None:
        """What was answered is there, and what isn't known is made or not."""
        table = self.create("work", "k INTEGER PRIMARY KEY, n INTEGER")
        with self.connect() as one:
            one.cursor().executemany(f"INSERT INTO {table} VALUES (?, 0)", [(who,) for who in range(8)])
        answered, unknown, said = [0] * 8, [0] * 8, []

        def work(who: int) -> None:
            cursor = self.connect(autocommit=True).cursor()
            try:
                while True:
                    cursor.execute(f"UPDATE {table} SET n = n + 1 WHERE k = ?", (who,))
                    answered[who] += 1
            except cjc.OperationalError as error:
                unknown[who] = int(error.outcome_unknown)
                said.append(str(error))

        for _ in range(3):
            before = list(answered)
            threads = [threading.Thread(target=work, args=(who,)) for who in range(8)]
            for thread in threads:
                thread.start()
            end = time.monotonic() + PATIENCE
            while sum(answered) < sum(before) + 40 and time.monotonic() < end:
                time.sleep(0.001)
            self.server.kill()
            for thread in threads:
                thread.join(PATIENCE)
            self.server.start()
            found = [n for n, in self.connect().cursor().execute(f"SELECT n FROM {table}")]
            for who in range(8):
                self.assertLessEqual(answered[who], found[who], said)
                self.assertLessEqual(found[who], answered[who] + unknown[who], said)
            answered = found


class Paused(OverKilled):
    """The server is too slow for the time limit."""

    def test_a_select(self) -> None:
        table = self.create("slow")
        connection = self.connect(timeout=SHORT)
        with self.paused():
            start = time.monotonic()
            with self.assertRaisesRegex(cjc.OperationalError, f"within {SHORT} seconds; nothing was changed"):
                connection.cursor().execute(f"SELECT * FROM {table}")
            self.assertLess(time.monotonic() - start, SHORT + 5)
        self.assertTrue(connection.closed)

    def test_a_change(self) -> None:
        """The server makes the change later, though nobody waits for its answer."""
        table = self.create("late")
        connection = self.connect(timeout=SHORT, autocommit=True)
        with self.paused():
            with self.assertRaisesRegex(cjc.OperationalError, "the outcome isn't known: the INSERT") as caught:
                connection.cursor().execute(f"INSERT INTO {table} VALUES (1, 'a')")
            self.assertTrue(caught.exception.outcome_unknown)
        cursor, end = self.connect().cursor(), time.monotonic() + PATIENCE
        while not cursor.execute(f"SELECT * FROM {table}").fetchall() and time.monotonic() < end:
            time.sleep(0.01)
        self.assertEqual(cursor.execute(f"SELECT * FROM {table}").fetchall(), [(1, "a")])

    def test_a_login(self) -> None:
        with self.paused(), self.assertRaisesRegex(cjc.OperationalError, f"within {SHORT} seconds"):
            cjc.connect(self.host, self.port, self.user, self.password, timeout=SHORT)


class Refused(OverProgram):
    """The refusals that no statement alone brings about. test_driver has the others."""

    def test_of_sessions(self) -> None:
        """What the driver never sends is answered as docs/FORMATS.md says."""
        hello = wire.login(self.user.encode(), self.password.encode())
        for requests, wanted in (([wire.query(b"BEGIN")], (2, 0)), ([wire.frame(wire.STATS)], (2, 0)),
                                 ([hello, hello], (4, 0)), ([wire.frame(0x09)], (1, 3)), ([b"\0\0\0\0"], (1, 1)),
                                 ([b"\x7f\0\0\0"], (1, 2)), ([wire.frame(wire.LOGIN, b"\0\x09")], (1, 4))):
            link = Link(HOST, self.port, PATIENCE)
            for request in requests:
                reply = link.exchange(request)
            assert isinstance(reply, wire.Refused)
            self.assertEqual((reply.code, reply.a), wanted)
            self.assertIs(type(refusals.error_of(reply)), cjc.InterfaceError)
            if reply.code == 1:
                with self.assertRaises(LinkError):
                    link.exchange(wire.frame(wire.STATS))
            link.close()

    def test_of_logins(self) -> None:
        for user, password in (("ann", ""), ("", ""), ("bob", "secret"), ("ann", "Secret"), ("é", "日本"),
                               ("ann", "secret\n"), ("a" * 65535, "b" * 65535)):
            with self.assertRaises(cjc.OperationalError) as caught:
                cjc.connect(self.host, self.port, user, password, timeout=PATIENCE)
            self.assertEqual(caught.exception.code, 3)

    def test_without_backends(self) -> None:
        """Reads and changes go on while one backend is left, and are refused while none is."""
        table = self.create("backends")
        cursor = self.connect(autocommit=True).cursor()
        self.assertEqual(self.server.ask("disable b0"), ["ok"])
        cursor.execute(f"INSERT INTO {table} VALUES (1, 'a')")
        self.assertEqual(cursor.execute(f"SELECT * FROM {table}").fetchall(), [(1, "a")])
        self.assertEqual(self.server.ask("disable b1"), ["ok"])
        for statement in (f"SELECT * FROM {table} WHERE k = 1", f"INSERT INTO {table} VALUES (2, 'b')"):
            with self.assertRaises(cjc.OperationalError) as caught:
                cursor.execute(statement)
            self.assertEqual((caught.exception.code, caught.exception.outcome_unknown), (20, False))
        for b in ("b0", "b1"):
            self.assertRegex(self.server.ask(f"enable {b}")[0], r"^ok \d+$")
        self.assertEqual(cursor.execute(f"SELECT * FROM {table}").fetchall(), [(1, "a")])

    def test_a_full_disk(self) -> None:
        """A log that can't be written refuses changes, and the same ones are made once it can be."""
        table = self.create("disk")
        one, two = self.connect(), self.connect(autocommit=True)
        one.cursor().execute(f"INSERT INTO {table} VALUES (1, 'a')")
        with limited(self.server.pid, resource.RLIMIT_FSIZE, os.path.getsize(self.server.configuration + ".log")):
            with self.assertRaises(cjc.OperationalError) as caught:
                one.commit()
            self.assertEqual((caught.exception.code, caught.exception.outcome_unknown), (42, False))
            self.assertTrue(one.in_transaction)
            with self.assertRaises(cjc.OperationalError) as caught:
                two.cursor().execute(f"CREATE TABLE {table}_2 (k INTEGER PRIMARY KEY)")
            self.assertEqual(caught.exception.code, 42)
            self.assertEqual(two.cursor().execute(f"SELECT * FROM {table}").fetchall(), [])
        one.commit()
        self.assertEqual(two.cursor().execute(f"SELECT * FROM {table}").fetchall(), [(1, "a")])

    def test_without_session_numbers(self) -> None:
        """Over a log in which the last session number was given, nobody gets in."""
        text = b"CREATE TABLE t (k INTEGER PRIMARY KEY)"
        entry = struct.pack(">B4Q", 1, 1, LAST_SESSION, 1, 0) + wire.text16(b"ann") + struct.pack(">Q", len(text)) + text
        conf = shutil.copy(CONFIGURATION, os.path.join(self.folder.name, "last.toml"))
        with open(conf + ".log", "wb") as log:
            log.write(b"CJL1\1" + struct.pack(">Q", len(entry)) + entry + b"\0")
        with Server(self.server.program, conf) as server, self.assertRaises(cjc.OperationalError) as caught:
            cjc.connect(HOST, server.port, self.user, self.password, timeout=PATIENCE)
        self.assertEqual((caught.exception.code, caught.exception.a), (46, LAST_SESSION))


class Starved(OverKilled):
    """A server that gets no more memory."""

    def test_without_memory(self) -> None:
        """A read and a change that need a lot are refused, and a start repairs what that leaves."""
        if _memory(self.server.pid, "VmSize") > 2 ** 40:
            self.skipTest("a build with the address sanitizer stops where it gets no memory")
        small, large = self.create("small"), self.create("large")
        cursor = self.connect(autocommit=True).cursor()
        cursor.executemany(f"INSERT INTO {small} VALUES (?, '')", [(k,) for k in range(4096)])
        cursor.executemany(f"INSERT INTO {large} VALUES (?, ?)", [(k, "x" * 4096) for k in range(64)])
        with limited(self.server.pid, resource.RLIMIT_DATA, _memory(self.server.pid, "VmData")):
            for statement, code in ((f"SELECT {large}.v FROM {small}, {large}", 43),
                                    (f"UPDATE {small} SET v = '{'y' * 4096}'", 44), (f"SELECT k FROM {small}", 20)):
                with self.assertRaises(cjc.OperationalError) as caught:
                    cursor.execute(statement)
                self.assertEqual((caught.exception.code, caught.exception.outcome_unknown), (code, code == 44))
                self.assertEqual((caught.exception.a, caught.exception.b), (0, 3 if code == 44 else 0))
        self.server.kill()
        self.server.start()
        cursor = self.connect().cursor().execute(f"SELECT COUNT(*) FROM {small} WHERE v <> ''")
        self.assertEqual(cursor.fetchall(), [(4096,)])


class OfOnesOwn(OverProgram):
    """What cjc.local says of a server."""

    def test_a_start_that_fails(self) -> None:
        conf = self.server.configuration
        for server, words in ((Server(self.server.program, conf, self.port), "status 9: "),
                              (Server(self.server.program, conf), "status 7: "),
                              (Server(self.server.program, conf + ".none"), "status 7: "),
                              (Server(os.devnull, conf), "Permission denied")):
            with self.assertRaisesRegex((cjc.OperationalError, OSError), words):
                server.start()
            self.assertFalse(server.is_running)
            with self.assertRaisesRegex(cjc.Error, "isn't started"):
                server.ask("audit")
        with self.assertRaisesRegex(cjc.Error, "is running"):
            self.server.start()

    def test_answers(self) -> None:
        """An answer ends where it ends, whatever its lines hold."""
        table, text = self.create("answers"), "one\rtwo\nrefused Command\nrefused NotOrphan 1"
        with self.connect() as one:
            one.cursor().execute(f"INSERT INTO {table} VALUES (1, ?)", (text,))
        rows = f"{table} base 1\n1, '{text}'".split("\n")
        self.assertEqual(self.server.ask("audit"), ["b0 " + rows[0], *rows[1:], "b1 " + rows[0], *rows[1:]])
        self.assertEqual(self.server.ask("nothing"), ["refused Command"])
        self.assertEqual(self.server.ask("show log 2 1"), [])
        self.assertEqual(len(self.server.ask("show backends")), 2)


class Used(Shells, OverKilled):
    """What people do with a server."""

    def test_stats(self) -> None:
        table = self.create("stats")
        connection = self.connect()
        before = connection.stats()
        for _ in range(3):
            connection.cursor().execute(f"SELECT * FROM {table}")
        after = connection.stats()
        self.assertEqual((after.hits - before.hits, after.misses - before.misses), (2, 1))

    def test_a_user_of_passwd(self) -> None:
        """The row that `passwd` makes lets its user in."""
        password = "it's \"é\" 日本🙂"
        row = subprocess.run([sys.executable, "-m", "cjc.passwd", "--section", "Zoë", "l0", ""], text=True,
                             env=environment(CJC_PASSWORD=password), capture_output=True, check=True).stdout
        conf = shutil.copy(CONFIGURATION, os.path.join(self.folder, "conf.toml"))
        with open(conf, encoding="utf-8") as file:
            kept = [line for line in file if not line.startswith("users")]
        with open(conf, "w", encoding="utf-8") as file:
            file.write("".join(kept) + row)
        with Server(self.server.program, conf) as server, cjc.connect(HOST, server.port, "Zoë", password) as one:
            one.cursor().execute("CREATE TABLE t (k INTEGER PRIMARY KEY)")
            with self.assertRaises(cjc.OperationalError):
                cjc.connect(HOST, server.port, self.user, self.password)

    def test_ctrl_c_in_a_statement(self) -> None:
        table = self.create("ctrl_c")
        shell = self.terminal(CJC_PASSWORD=self.password)
        shell.wait_for("cjc=> $")
        with self.paused():
            shell.send(f"INSERT INTO {table} VALUES (1, 'a');\r")
            self.await_request()
            shell.interrupt()
            shown = shell.wait_for("INSERT may have been executed")
            self.assertIn("interrupted", shown)
        shell.wait_for("connected again")
        shell.wait_for("cjc=> $")
        # The server may be at the INSERT still.
        end = time.monotonic() + PATIENCE
        while "(1 row)" not in shell.type(f"SELECT * FROM {table};"):
            self.assertLess(time.monotonic(), end, "the INSERT was lost")
        self.quit(shell)

    def test_a_restart(self) -> None:
        """The shell says what is known of each statement, and connects again by itself."""
        table = self.create("restart")
        shell = self.terminal(CJC_PASSWORD=self.password)
        shell.wait_for("cjc=> $")
        self.assertIn("INSERT 1", shell.type(f"INSERT INTO {table} VALUES (1, 'it''s 日本🙂');"))
        shell.type("BEGIN;", r"cjc=\*> $")
        shell.type(f"DELETE FROM {table};", r"cjc=\*> $")
        self.server.kill()
        shown = shell.type("COMMIT;")
        self.assertIn("ERROR", shown)
        self.assertIn("can't connect", shown)
        self.server.start()
        shown = shell.type(f"SELECT v FROM {table};")
        self.assertIn("connected again", shown)
        self.assertIn("it's 日本🙂", shown)
        self.quit(shell)

    def quit(self, shell: Terminal) -> None:
        shell.send("\\q\r")
        self.assertEqual(shell.status(), 0)

    def test_a_script_whose_server_is_killed(self) -> None:
        """It ends with status 2, and says that the outcome isn't known."""
        table = self.create("script")
        run = subprocess.Popen([sys.executable, "-m", "cjc", f"{self.host}:{self.port}", "-U", self.user, "--keep-going"],
                               env=environment(CJC_PASSWORD=self.password), stdin=subprocess.PIPE,
                               stdout=subprocess.PIPE, stderr=subprocess.PIPE, text=True, bufsize=1)
        assert run.stdin is not None and run.stdout is not None
        run.stdin.write("BEGIN; COMMIT;\n")
        self.assertEqual([run.stdout.readline(), run.stdout.readline()], ["BEGIN\n", "COMMIT\n"])
        with self.paused():
            run.stdin.write(f"INSERT INTO {table} VALUES (1, 'a');\nSELECT * FROM {table};\n")
            self.await_request()
            self.server.kill()
        out, err = run.communicate(timeout=PATIENCE)
        self.server.start()
        self.assertEqual((run.returncode, out, err.count("ERROR")), (2, "", 1))
        self.assertRegex(err, "^stdin:2: ERROR .*the outcome isn't known: the INSERT may have been executed")
