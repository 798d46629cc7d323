"""The shell: statements and backslash commands, line by line, to text. It reads from no terminal itself."""
from __future__ import annotations

import contextlib
import os
import time
from collections.abc import Callable, Iterable
from dataclasses import dataclass
from typing import TextIO, Union

from . import table
from .connection import Connection, outcome_of
from .errors import Error
from .splitter import Splitter
from .statements import CHANGES, SCHEMA, statement_bytes, verb_of
from .syntax import Fault
from .wire import Done, Rows

# Exit statuses. 2 is also that of a login that is refused.
OK, USAGE, NO_CONNECTION, REFUSED, INTERRUPTED = 0, 1, 2, 3, 130
# How deep \i may nest.
_DEPTH_MOST = 16
# What people type who know other shells.
_WORDS = {"help": "\\?", "?": "\\?", "quit": "\\q", "exit": "\\q"}

HELP = """\
A statement ends with a semicolon and may take several lines. These have a line of their own:
  \\timing [on|off]  says how long each statement takes, or stops that
  \\csv [on|off]     writes rows as CSV, or as tables again
  \\o [FILE]         writes what follows to FILE, or to the screen again
  \\i FILE           runs the lines of FILE
  \\stats            shows how many SELECTs the server's cache answered
  \\?                shows this, as `help` does
  \\q                ends the shell, as `quit`, `exit` and Ctrl-D do
Ctrl-C drops the statement that is being typed. While a statement runs it closes
the connection, and the server goes on. A star in the prompt shows an open transaction.
Statements are SELECT, INSERT, UPDATE, DELETE, CREATE TABLE, DROP TABLE, BEGIN, COMMIT
and ROLLBACK (docs/SQL.md).
"""


class Stop(Exception):
    """A file that the shell runs at a terminal ends, and the prompt comes back."""


class Quit(Exception):
    """The shell is to end. `status` is its exit status."""

    def __init__(self, status: int = OK) -> None:
        super().__init__(status)
        self.status = status


@dataclass
class Options:
    """How the shell behaves."""

    # At a terminal errors end nothing, and a connection that broke is opened again.
    interactive: bool = False
    keep_going: bool = False
    csv: bool = False
    timing: bool = False
    quiet: bool = False


class Shell:
    """Runs lines over a connection. Rows go to `out`, or the file of \\o, and errors to `err`."""

    def __init__(self, connect: Callable[[], Connection], options: Options, out: TextIO, err: TextIO) -> None:
        """Connects by `connect`, which also opens the connection again. Fails as it does."""
        self._connect = connect
        self.connection = connect()
        self.options = options
        self.status = OK
        self._out, self._screen, self._err = out, out, err
        self._splitter = Splitter()
        # The files of \\i that are open, outermost first. Errors name the innermost.
        self._sources: list[str] = []
        self._line = 0

    # ---- lines

    @property
    def prompt(self) -> str:
        """What is shown before the next line."""
        star = "*" if self.connection.in_transaction else ""
        return f"cjc{self._splitter.open_mark}{star}> "

    def feed(self, line: str) -> None:
        """Runs what this line finishes. Fails with Quit where the shell is to end."""
        self._line += 1
        line = line.rstrip("\r\n")
        command = self._command_of(line.strip())
        if command:
            self._command(command)
            return
        for statement, number in self._splitter.add(line, self._line):
            self._statement(statement, number)

    def _command_of(self, line: str) -> str:
        """The backslash command of a line, or ''.

        What is typed may be one inside a statement, and a word of other shells.
        """
        is_typed = self.options.interactive and not self._sources
        if line.startswith("\\"):
            return line if self._splitter.is_empty or is_typed and not self._splitter.in_string else ""
        command = _WORDS.get(line.rstrip("; ").lower(), "") if is_typed else ""
        if command and not self._splitter.is_empty:
            # It may be a name, so it stays a part of the statement.
            print("A statement is open: a semicolon ends it, Ctrl-C drops it, \\q ends the shell.", file=self._err)
            return ""
        return command

    def end(self) -> None:
        """Runs the statement at the end that has no semicolon."""
        for statement, number in self._splitter.rest():
            self._statement(statement, number)

    def clear(self) -> None:
        """Drops the statement that is being typed."""
        self._splitter.clear()

    def drop(self) -> None:
        """Drops the statement that is being typed, and says so if there is one."""
        if not self._splitter.is_empty:
            print("the statement without a semicolon wasn't sent", file=self._err)
        self.clear()

    def run(self, lines: Iterable[str], name: str) -> None:
        """Runs lines, which errors call `name`, and a last statement without its semicolon."""
        outer = self._splitter, self._line
        self._splitter, self._line = Splitter(), 0
        self._sources.append(name)
        try:
            for line in lines:
                self.feed(line)
            self.end()
        except UnicodeDecodeError:
            self._failed(f"after line {self._line} it isn't UTF-8", "Convert it to UTF-8.", self._line, USAGE)
        finally:
            self._sources.pop()
            self._splitter, self._line = outer

    def run_file(self, path: str) -> None:
        """Runs the lines of a file."""
        if len(self._sources) >= _DEPTH_MOST:
            self._failed(f"\\i is nested more than {_DEPTH_MOST} deep", "A file may run itself: look for a circle.",
                         self._line, USAGE)
            return
        try:
            lines = open(path, encoding="utf-8")
        except OSError as error:
            self._failed(f"can't read {path}: {error.strerror}", "Check the path.", self._line, USAGE)
            return
        with lines:
            self.run(lines, path)

    def close(self) -> None:
        """Closes the connection, which rolls back an open transaction and says so, and the file of \\o."""
        if self.connection.in_transaction:
            print("the open transaction is rolled back", file=self._err)
        self.connection.close()
        self._output("")

    # ---- statements

    def _statement(self, text: str, line: int) -> None:
        """Runs one statement and shows its answer or its error."""
        if not self._reopen():
            return
        verb, inside, start = verb_of(text), self.connection.in_transaction, time.monotonic()
        try:
            self._show(verb, self.connection.request(verb, statement_bytes(text)))
        except Error as error:
            self._refused(error, text, line)
        except KeyboardInterrupt:
            said = f"interrupted, and the connection closed; {outcome_of(verb, True, inside).said}"
            self._failed(said if self.connection.closed else "interrupted; the rest isn't shown", "", line, INTERRUPTED)
        if self.options.timing:
            self._write(f"Time: {(time.monotonic() - start) * 1000:.3f} ms\n")
        self._reopen()

    def _show(self, verb: str, reply: Union[Done, Rows]) -> None:
        """Writes the answer of a statement."""
        if isinstance(reply, Rows):
            self._write(table.as_csv(reply) if self.options.csv else table.aligned(reply))
        elif not self.options.quiet:
            said = f"{verb} TABLE" if verb in SCHEMA else f"{verb} {reply.count}" if verb in CHANGES else verb
            self._write(said + "\n")

    def _reopen(self) -> bool:
        """Connects again after the connection broke, at a terminal. Returns whether statements may go on.

        A statement is never sent again.
        """
        if not self.connection.closed or not self.options.interactive:
            return True
        try:
            self.connection = self._connect()
        except Error as error:
            self._failed(str(error), error.advice, self._line, NO_CONNECTION)
            return False
        print("connected again", file=self._err)
        return True

    def _refused(self, error: Error, text: str, line: int) -> None:
        """Shows the error of a statement, with the word that can't stand there where it is known."""
        status = NO_CONNECTION if self.connection.closed else REFUSED
        fault = error.fault
        if fault is None:
            self._failed(str(error), error.advice, line, status)
            return
        shown = f"{error.code} {error.name}: {fault.said}\n{excerpt(text, fault)}"
        self._failed(shown, fault.hint, line + fault.line - 1, status)

    def _failed(self, said: str, advice: str, line: int, status: int) -> None:
        """Shows an error and what to do, and keeps the first status. Ends what is not to go on."""
        self._out.flush()
        where = f"{self._sources[-1]}:{line}: " if self._sources else ""
        print(f"{where}ERROR {said}", file=self._err)
        if advice:
            print(f"HINT  {advice}", file=self._err)
        self.status = self.status or status
        if self.options.interactive:
            if self._sources and not self.options.keep_going:
                raise Stop
        elif status in (NO_CONNECTION, INTERRUPTED) or not self.options.keep_going:
            raise Quit(self.status)

    # ---- commands

    def _command(self, line: str) -> None:
        """Runs a backslash command."""
        name, _, rest = line.partition(" ")
        rest = rest.strip().strip("'\"")
        commands = {"\\timing": self._timing, "\\csv": self._csv, "\\stats": self._stats, "\\?": self._help,
                    "\\q": self._quit, "\\i": self._include, "\\o": self._output}
        command = commands.get(name)
        if command is None:
            no_list = "The server gives no list of tables or columns; SELECT * shows columns. " if name[:2] in ("\\d", "\\l") else ""
            self._failed(f"{name} is no command", no_list + "\\? lists the commands.", self._line, REFUSED)
        else:
            command(os.path.expanduser(rest))

    def _timing(self, word: str) -> None:
        self.options.timing = _switched(self.options.timing, word)
        self._note(f"Timing is {'on' if self.options.timing else 'off'}.")

    def _csv(self, word: str) -> None:
        self.options.csv = _switched(self.options.csv, word)
        self._note(f"Rows are written as {'CSV' if self.options.csv else 'tables'}.")

    def _stats(self, _: str) -> None:
        if not self._reopen():
            return
        try:
            stats = self.connection.stats()
        except Error as error:
            self._refused(error, "", self._line)
        else:
            self._write(f"hits {stats.hits}, misses {stats.misses}\n")

    def _help(self, _: str) -> None:
        self._write(HELP)

    def _quit(self, _: str) -> None:
        self.drop()
        raise Quit(self.status)

    def _include(self, path: str) -> None:
        if not path:
            self._failed("\\i needs a file", "Write \\i FILE.", self._line, USAGE)
            return
        try:
            self.run_file(path)
        except Stop:
            # A file ends with its first error, and so do the files that run it.
            if self._sources:
                raise

    def _output(self, path: str) -> None:
        """Lets what follows go to this file, or to the screen."""
        if self._out is not self._screen:
            self._out.close()
        self._out = self._screen
        if path:
            try:
                self._out = open(path, "w", encoding="utf-8", newline="")
            except OSError as error:
                self._failed(f"can't write {path}: {error.strerror}", "Check the path.", self._line, USAGE)

    # ---- output

    def _note(self, said: str) -> None:
        if not self.options.quiet:
            self._write(said + "\n")

    def _write(self, text: str) -> None:
        """Writes to the file of \\o or to the screen. A file that can't be written is given up."""
        try:
            self._out.write(text)
            self._out.flush()
        except OSError as error:
            if self._out is self._screen:
                raise
            self._out, lost = self._screen, self._out
            with contextlib.suppress(OSError):
                lost.close()
            self._failed(f"can't write {lost.name}: {error.strerror}", "What follows goes to the screen.", self._line,
                         USAGE)


def _switched(value: bool, word: str) -> bool:
    """A switch after `on`, `off`, or no word, which turns it round."""
    return {"on": True, "off": False}.get(word.lower(), not value)


def excerpt(text: str, fault: Fault) -> str:
    """The line of the fault, cut where it is long, and marks under the wrong word."""
    start = text.rfind("\n", 0, fault.at) + 1
    line = text[start:].split("\n", 1)[0]
    at, end = fault.at - start, max(fault.at - start + 1, min(fault.end - start, len(line)))
    cut = max(0, at - 50)
    before = ("..." if cut else "") + table.safe(line[cut:at])
    end = min(end, at + 60)
    wrong = table.safe(line[at:end])
    after = table.safe(line[end:end + 30]) + ("..." if len(line) > end + 30 else "")
    head = f"LINE {fault.line}: "
    return f"{head}{before}{wrong}{after}\n{' ' * (len(head) + table.width(before))}{'^' * max(1, table.width(wrong))}"
