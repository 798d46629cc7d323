"""The shell: without a terminal, and at a pseudo terminal."""
from __future__ import annotations

import contextlib
import io
import os
import stat
import subprocess
import sys
import threading
import time
import unittest
from unittest import mock

from cjc.__main__ import main
from cjc.shell import Options, Shell

from . import toy
from .served import PATIENCE, OverServer, OverToy
from .terminal import Shells, Terminal, environment


class WithoutTerminal(Shells, OverServer):
    """-c, -f and standard input."""

    def setUp(self) -> None:
        super().setUp()
        self.table = self.create("shell")

    def file(self, name: str, text: str) -> str:
        path = os.path.join(self.folder, name)
        with open(path, "w", encoding="utf-8") as file:
            file.write(text)
        return path

    def test_tables(self) -> None:
        status, out, err = self.shell("-U", self.user, "-c", f"""
            INSERT INTO {self.table} VALUES (1, 'it''s'), (-20, '日本'), (3, 'two
lines'), (4, 'esc \x1b[31m'); SELECT k, v FROM {self.table} ORDER BY v; SELECT COUNT(*) FROM {self.table} WHERE k = 1
            """)
        self.assertEqual((status, err), (0, ""))
        self.assertEqual(out, "INSERT 4\n"
                              "   k | v\n"
                              " ----+-------------\n"
                              "   4 | esc \\x1b[31m\n"
                              "   1 | it's\n"
                              "   3 | two+\n"
                              "     | lines\n"
                              " -20 | 日本\n"
                              "(4 rows)\n"
                              " count\n"
                              " -----\n"
                              "     1\n"
                              "(1 row)\n")

    def test_csv_and_quiet(self) -> None:
        given = f"INSERT INTO {self.table} VALUES (1, 'a,\"b'), (2, 'c\nd');\nSELECT * FROM {self.table};"
        status, out, err = self.shell("--csv", "-q", given=given)
        self.assertEqual((status, out, err), (0, 'k,v\n1,"a,""b"\n2,"c\nd"\n', ""))
        given = f"\\csv\nSELECT k FROM {self.table}\n;\\csv\nSELECT * FROM {self.table}"
        status, out, err = self.shell("-q", given=given)
        self.assertEqual((status, out), (3, "k\n1\n2\n"))
        self.assertIn("stdin:3: ERROR 10 Syntax: the character '\\\\' can't stand here", err)

    def test_statements(self) -> None:
        lines = [f"CREATE TABLE {self.table}_b (k INTEGER PRIMARY KEY);", "-- it's a comment", "BEGIN; ",
                 f"UPDATE {self.table} SET v = 'x';", f"DELETE FROM {self.table}", ";", "ROLLBACK; BEGIN; COMMIT;",
                 f"DROP TABLE {self.table}_b"]
        status, out, err = self.shell("-f", self.file("a.sql", "\r\n".join(lines)))
        self.assertEqual((status, err), (0, ""))
        self.assertEqual(out, "CREATE TABLE\nBEGIN\nUPDATE 0\nDELETE 0\nROLLBACK\nBEGIN\nCOMMIT\nDROP TABLE\n")

    def test_stops_at_the_first_error(self) -> None:
        path = self.file("b.sql", f"INSERT INTO {self.table} VALUES (1, 'a');\n\n"
                                  f"INSERT INTO {self.table} VALUES\n(1, 'a');\nSELECT v FROM {self.table};")
        status, out, err = self.shell("-f", path)
        self.assertEqual((status, out), (3, "INSERT 1\n"))
        self.assertEqual(err.split("\n")[0][len(path):],
                         ":3: ERROR 27 Duplicate: an inserted key exists already, or is twice in the statement")
        self.assertIn("HINT  Choose another key", err)
        status, out, err = self.shell("--keep-going", "-f", path)
        self.assertEqual((status, out), (3, " v\n -\n a\n(1 row)\n"))
        self.assertEqual(err.count("ERROR"), 2)

    def test_points_at_the_wrong_word(self) -> None:
        for wrong, marked, hint in (
                ("SELECT * FROM t WHERE v\n  LIKE 'a%'", "LIKE", "compare the beginning"),
                ("INSERT INTO t VALUES (1, NULL)", "NULL", "There is no NULL"),
                ("SELECT * FROM t JOIN u ON t.k = u.k", "JOIN", "FROM a, b WHERE a.k = b.k"),
                ("SELECT v AS w FROM t", "AS", "no aliases"),
                ("SELECT v FROM t x", "x", "no aliases"),
                ("SELECT v -- all\nFROM t", "-- all", "comments"),
                ('SELECT "v" FROM t', '"v"', "without quotes"),
                ("SELECT v FROM t LIMIT ?", "?", "write the value")):
            status, _, err = self.shell("-c", wrong)
            lines = err.split("\n")
            self.assertEqual(status, 3)
            self.assertEqual(lines[2].count("^"), len(marked), err)
            at = lines[2].index("^")
            self.assertEqual(lines[1][at:at + len(marked)], marked)
            self.assertIn("10 Syntax", lines[0])
            self.assertRegex(lines[3], f"HINT .*{hint}")

    def test_excerpt_of_a_long_line(self) -> None:
        condition = "k = 1 OR " * 100 + "k LIKE 2 " + "OR k = 3 " * 100
        status, _, err = self.shell("-c", f"SELECT v FROM t WHERE {condition}")
        lines = err.split("\n")
        self.assertEqual(status, 3)
        self.assertLess(max(map(len, lines)), 120)
        at = lines[1].index("LIKE")
        self.assertEqual(lines[2], " " * at + "^^^^")

    def test_files(self) -> None:
        inner = self.file("inner.sql", f"SELECT v FROM {self.table};\n\\o\nSELECT 1;\n")
        out_path = os.path.join(self.folder, "out file.txt")
        lines = [f"INSERT INTO {self.table} VALUES (1, 'é');", f"\\o '{out_path}'", f"\\i {inner}", "\\?"]
        outer = self.file("outer.sql", "\n".join(lines))
        status, out, err = self.shell("-f", outer)
        self.assertEqual((status, out), (3, "INSERT 1\n"))
        self.assertTrue(err.startswith(f"{inner}:3: ERROR 10 Syntax"), err)
        with open(out_path, encoding="utf-8") as file:
            self.assertEqual(file.read(), " v\n -\n é\n(1 row)\n")
        circle = os.path.join(self.folder, "circle.sql")
        self.file("circle.sql", f"\\i {circle}\n")
        self.assertEqual(self.shell("-f", circle)[0], 1)
        self.assertEqual(self.shell("-f", os.path.join(self.folder, "none"))[0], 1)
        self.assertEqual(self.shell("-c", f"\\o {self.folder}/none/none")[0], 1)
        with open(circle, "wb") as wrong:
            wrong.write(b"SELECT '\xff';")
        status, _, err = self.shell("-f", circle)
        self.assertEqual(status, 1)
        self.assertIn("UTF-8", err)

    def test_commands(self) -> None:
        given = f"\\timing\nSELECT k FROM {self.table};\n\\timing\n\\stats\n\\?\n\\q\nSELECT"
        status, out, err = self.shell(given=given)
        self.assertEqual((status, err), (0, ""))
        given = f"\\csv on\n\\csv ON\nSELECT k FROM {self.table};\n\\csv off\n\\csv off\nSELECT k FROM {self.table};"
        self.assertEqual(self.shell("-q", given=given), (0, "k\n k\n -\n(0 rows)\n", ""))
        self.assertRegex(out, r"Timing is on\.\n k\n -\n\(0 rows\)\nTime: [0-9.]+ ms\nTiming is off\.\n"
                              r"hits \d+, misses \d+\n")
        self.assertIn("\\i FILE", out)
        status, _, err = self.shell("-c", "\\d")
        self.assertEqual(status, 3)
        self.assertRegex(err, r"HINT  The server gives no list .*\? lists the commands")
        # What stands inside a statement is a part of it.
        self.assertEqual(self.shell(given="SELECT\n\\q\n")[0], 3)
        self.assertEqual(self.shell("-c", "\\i")[0], 1)

    def test_statuses(self) -> None:
        status, _, err = self.shell("-c", "SELECT 1", password="wrong")
        self.assertEqual(status, 2)
        self.assertIn("3 BadLogin", err)
        self.assertIn("HINT", err)
        for words in (("--nothing",), ("--timeout", "-1"), ("--timeout", "inf"), ("--timeout", "soon")):
            self.assertEqual(self.shell(*words)[0], 1)
        for address in ("localhost", "localhost:0", "cjc://ann:s3cret/x@localhost:1"):
            with contextlib.redirect_stderr(io.StringIO()) as said, self.assertRaises(SystemExit) as end:
                main([address])
            self.assertEqual(end.exception.code, 1)
            self.assertIn("argument HOST:PORT: a", said.getvalue())
            self.assertNotIn("s3cret", said.getvalue())
        self.assertEqual(self.shell("--timeout", "0", given="")[0], 0)
        self.assertEqual(self.shell(given="")[0], 0)
        with mock.patch.dict(os.environ), contextlib.redirect_stderr(io.StringIO()) as said, \
                mock.patch.object(sys, "stdin", io.StringIO("")):
            os.environ.pop("CJC_PASSWORD", None)
            self.assertEqual(main([f"{self.host}:{self.port}", "-U", "ann", "-c", "SELECT 1"]), 2)
        self.assertIn("Set CJC_PASSWORD", said.getvalue())

    @unittest.skipUnless(os.path.exists("/dev/full"), "this system has no /dev/full")
    def test_a_full_disk(self) -> None:
        status, out, err = self.shell("-c", f"\\o /dev/full\nSELECT k FROM {self.table};")
        self.assertEqual((status, out), (1, ""))
        self.assertIn("can't write /dev/full: No space left on device", err)

    def test_an_open_transaction_at_the_end(self) -> None:
        status, _, err = self.shell("-c", f"BEGIN; INSERT INTO {self.table} VALUES (1, 'a')")
        self.assertEqual((status, err), (0, "the open transaction is rolled back\n"))
        self.assertIn("(0 rows)", self.shell("-c", f"SELECT * FROM {self.table}")[1])

    def test_a_reader_that_goes_away(self) -> None:
        run = subprocess.Popen([sys.executable, "-m", "cjc", f"{self.host}:{self.port}", "-U", self.user],
                               env=environment(CJC_PASSWORD=self.password), stdin=subprocess.PIPE,
                               stdout=subprocess.PIPE, stderr=subprocess.PIPE)
        assert run.stdout is not None
        run.stdout.close()
        run.stdout = None
        _, err = run.communicate(f"SELECT * FROM {self.table};\n".encode() * 3, timeout=30)
        self.assertEqual((run.returncode, err), (1, b""))


class AtTerminal(Shells, OverServer):
    """Line editing, history, prompts, Ctrl-C and Ctrl-D."""

    def test_a_session(self) -> None:
        shell = self.terminal()
        shell.wait_for(f"Password of {self.user}: ")
        shell.send(self.password + "\r")
        self.assertNotIn(self.password, shell.wait_for("cjc=> $"))
        table = self.create("typed")
        shell.type(f"INSERT INTO {table} VALUES", "cjc-> $")
        shell.type("(1, 'it''s", "cjc'> $")
        self.assertIn("INSERT 1", shell.type("there');"))
        shell.type(f"SELECT k FROM {table} WHERE (k = 1", r"cjc\(> $")
        self.assertIn("(1 row)", shell.type(");"))
        shell.type("BEGIN;", r"cjc=\*> $")
        shell.type(f"UPDATE {table}", r"cjc-\*> $")
        shell.type("SET v = 'b';", r"cjc=\*> $")
        shell.type("ROLLBACK;")
        self.assertIn("it's+", shell.type(f"SELECT v FROM {table};"))
        # The line before the last, by Ctrl-P.
        shell.send("\x10\x10")
        shell.wait_for("ROLLBACK;")
        shell.enter("12 NoTransaction")
        # The line is edited: Ctrl-A, and a character more at its beginning.
        shell.send("stats\x01\\")
        shell.wait_for(r"\\stats")
        shell.enter("hits")
        self._look_at_errors(shell)
        with open(self.history, encoding="utf-8") as file:
            kept = file.read()
        self.assertIn("ROLLBACK;", kept)
        self.assertNotIn(self.password, kept)
        self.assertEqual(stat.S_IMODE(os.stat(self.history).st_mode), 0o600)
        again = self.terminal(CJC_PASSWORD=self.password)
        again.wait_for("cjc=> $")
        again.send("\x10")
        again.wait_for(r"\\nothing")
        again.enter("is no command")
        again.send("\\q\r")
        self.assertEqual(again.status(), 0)

    def _look_at_errors(self, shell: Terminal) -> None:
        """Errors at a terminal end nothing, and Ctrl-D ends the shell well."""
        shown = shell.type("SELECT v FROM t WHERE v LIKE 'a';")
        self.assertIn("^^^^", shown)
        self.assertIn("HINT  There is no LIKE", shown)
        self.assertIn("is no command", shell.type("\\nothing"))
        shell.send("\x04")
        self.assertEqual(shell.status(), 0)

    def test_words_of_other_shells(self) -> None:
        """Who knows other shells finds the help and the way out, inside a statement too."""
        shell = self.terminal(CJC_PASSWORD=self.password, CJC_HISTORY="")
        shell.wait_for("cjc=> $")
        for word in ("help", "HELP;", "\\?"):
            self.assertIn("\\i FILE", shell.type(word))
        shell.type("SELECT", "cjc-> $")
        self.assertIn("A statement is open", shell.type("exit", "cjc-> $"))
        self.assertIn("\\i FILE", shell.type("\\?", "cjc-> $"))
        self.assertIn("hits", shell.type("\\stats", "cjc-> $"))
        shell.type("'a", "cjc'> $")
        shell.type("\\q", "cjc'> $")
        shell.type("'", "cjc-> $")
        shell.send("\\q\r")
        self.assertEqual(shell.status(), 0)
        self.assertIn("wasn't sent", shell.shown)
        shell = self.terminal(CJC_PASSWORD=self.password, CJC_HISTORY="")
        shell.wait_for("cjc=> $")
        shell.send("quit\r")
        self.assertEqual(shell.status(), 0)

    def test_a_file_at_a_terminal(self) -> None:
        path = os.path.join(self.folder, "a.sql")
        with open(path, "w", encoding="utf-8") as file:
            file.write("COMMIT;\nSELECT v FROM none;\n")
        shell = self.terminal(CJC_PASSWORD=self.password, CJC_HISTORY="")
        shell.wait_for("cjc=> $")
        shown = shell.type(f"\\i {path}")
        self.assertIn(f"{path}:1: ERROR 12", shown)
        self.assertNotIn("ERROR 21", shown)
        self.assertIn("No such file", shell.type("\\i /none/none"))
        shell.send("\\q\r")
        self.assertEqual(shell.status(), 0)

    def test_wrong_password(self) -> None:
        shell = self.terminal()
        shell.wait_for("Password of")
        shell.send("wrong\r")
        self.assertEqual(shell.status(), 2)
        self.assertIn("3 BadLogin", shell.shown)

    def test_passwd(self) -> None:
        shell = Terminal(["cjc.passwd", "ann", "l0", "l1"])
        self.addCleanup(shell.kill)
        shell.wait_for("Password: ")
        shell.send("secret\r")
        self.assertNotIn("secret", shell.wait_for("The same again: "))
        shell.send("secret\r")
        self.assertEqual(shell.status(), 0)
        self.assertIn('{ name = "ann", sha256 = "2bb80d537b1da3e38bd30361aa855686bde0eacd7162fef6a25fe97bf527a25b", '
                      'logins = ["l0", "l1"] }', shell.shown)


class OverMisbehaving(Shells, OverToy):
    """A server that closes, says nothing, or is gone."""

    def test_a_lost_connection(self) -> None:
        self.toy.tricks["UPDATE t SET v = ''"] = toy.closes()
        status, _, err = self.shell("--keep-going", "-c", "UPDATE t SET v = ''", "-c", "SELECT k FROM t")
        self.assertEqual((status, err.count("ERROR")), (2, 1))
        self.assertIn("the outcome isn't known", err)

    def test_ctrl_c_and_ctrl_d(self) -> None:
        shell = self.terminal(CJC_PASSWORD=self.password, CJC_HISTORY="")
        shell.wait_for("cjc=> $")
        shell.type("SELECT 'half", "cjc'> $")
        shell.interrupt()
        shell.wait_for("cjc=> $")
        event = threading.Event()
        self.addCleanup(event.set)
        self.toy.tricks["UPDATE t SET v = 1;"] = toy.waits(event)
        shell.send("UPDATE t SET v = 1;\r")
        end = time.monotonic() + PATIENCE
        while "UPDATE t SET v = 1;" in self.toy.tricks and time.monotonic() < end:
            time.sleep(0.01)
        shell.interrupt()
        shown = shell.wait_for("cjc=> $")
        self.assertIn("interrupted", shown)
        self.assertIn("the outcome isn't known: the UPDATE", shown)
        self.assertIn("connected again", shown)
        self.toy.tricks["DELETE FROM t;"] = toy.closes()
        before = len(self.toy.asked)
        shown = shell.type("DELETE FROM t;")
        self.assertRegex(shown, "(?s)outcome isn't known.*connected again")
        self.assertEqual(self.toy.asked[before:], ["DELETE FROM t;"])
        shell.type("BEGIN;", r"cjc=\*> $")
        shell.type("SELECT 'half", r"cjc'\*> $")
        shell.send("\x04")
        self.assertEqual(shell.status(), 0)
        self.assertIn("wasn't sent", shell.shown)
        self.assertIn("the open transaction is rolled back", shell.shown)
        self.assertEqual(os.listdir(self.folder), [])

    def test_ctrl_c_in_an_answer(self) -> None:
        """The statement was executed, and the connection stays."""
        class Screen(io.StringIO):
            """A screen at which Ctrl-C is typed as rows come."""

            def write(self, text: str) -> int:
                if "rows)" in text:
                    raise KeyboardInterrupt
                return super().write(text)

        self.toy.tricks["SELECT k FROM t;"] = toy.answers(toy.rows_frame(["k"], []))
        err = io.StringIO()
        shell = Shell(lambda: self.connect(autocommit=True), Options(interactive=True), Screen(), err)
        shell.feed("SELECT k FROM t;")
        self.assertEqual(err.getvalue(), "ERROR interrupted; the rest isn't shown\n")
        self.assertFalse(shell.connection.closed)

    def test_a_server_that_is_gone(self) -> None:
        """Each statement tries to connect, and says once that it can't."""
        gone = toy.Toy()
        shell = Terminal(["cjc", f"127.0.0.1:{gone.port}", "-U", toy.USER], CJC_PASSWORD=toy.PASSWORD)
        self.addCleanup(shell.kill)
        shell.wait_for("cjc=> $")
        gone.close()
        shown = shell.type("SELECT k FROM t;")
        self.assertRegex(shown, "(?s)nothing was changed.*can't connect")
        shown = shell.type("SELECT k FROM t;")
        self.assertEqual(shown.count("ERROR can't connect"), 1)
        self.assertEqual(shown.count("ERROR"), 1)
        shell.type("\\stats")
        shell.send("\x04")
        self.assertEqual(shell.status(), 0)
