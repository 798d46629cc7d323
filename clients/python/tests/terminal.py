"""Shells to test: in this process, and at a pseudo terminal of their own."""
from __future__ import annotations

import codecs
import contextlib
import io
import os
import pty
import re
import select
import signal
import sys
import tempfile
import time
from unittest import mock

from cjc.__main__ import main

from .served import PATIENCE, Served

PACKAGE = os.path.dirname(os.path.dirname(os.path.abspath(__file__)))


def environment(**more: str) -> dict[str, str]:
    """The environment of a shell that finds the package and reads nobody's files."""
    kept = {name: value for name, value in os.environ.items() if not name.startswith("CJC_")}
    return {**kept, "PYTHONPATH": PACKAGE, "PYTHONDONTWRITEBYTECODE": "1", "TERM": "dumb", "INPUTRC": os.devnull,
            "CJC_HISTORY": "", **more}


class Terminal:
    """A shell at a pseudo terminal of its own."""

    def __init__(self, words: list[str], **more: str) -> None:
        self.shown = ""
        # (a character may come in two pieces)
        self._decoder = codecs.getincrementaldecoder("utf-8")()
        self._process, self._end = pty.fork()
        if self._process == 0:
            # (who runs the tests in the background may have Ctrl-C ignored)
            signal.signal(signal.SIGINT, signal.default_int_handler)
            os.execve(sys.executable, [sys.executable, "-m", *words], environment(**more))

    def send(self, text: str) -> None:
        os.write(self._end, text.encode())

    def interrupt(self) -> None:
        """Types Ctrl-C once the shell waits. (Python lets one that comes just before wait for the next key.)"""
        end = time.monotonic() + PATIENCE
        while self._state() != "S" and time.monotonic() < end:
            time.sleep(0.005)
        self.send("\x03")

    def _state(self) -> str:
        """What the system says the shell does; S is to wait."""
        with open(f"/proc/{self._process}/stat", encoding="utf-8") as file:
            return file.read().rpartition(")")[2].split()[0]

    def wait_for(self, pattern: str) -> str:
        """What is shown from here up to a match of the pattern."""
        end = time.monotonic() + PATIENCE + 10
        while True:
            found = re.search(pattern, self.shown)
            if found:
                before, self.shown = self.shown[:found.end()], self.shown[found.end():]
                return before
            if not select.select([self._end], [], [], max(0, end - time.monotonic()))[0]:
                raise AssertionError(f"no {pattern} in {self.shown!r}")
            try:
                piece = os.read(self._end, 65536)
            except OSError:
                piece = b""
            if not piece:
                raise AssertionError(f"ended without {pattern} in {self.shown!r}")
            self.shown += self._decoder.decode(piece)

    def type(self, line: str, prompt: str = r"cjc=> $") -> str:
        """Types a line, and returns what is shown up to the prompt."""
        self.send(line + "\r")
        return self.wait_for(prompt)

    def enter(self, shown: str) -> None:
        """Enters the line that was edited, whose display may hold the prompt several times, and waits for its answer."""
        self.send("\r")
        self.wait_for(shown)
        self.wait_for(r"cjc=> $")

    def status(self) -> int:
        """The exit status. What is shown until then is in `shown`."""
        with contextlib.suppress(AssertionError):
            self.wait_for(r"\Zx")
        _, status = os.waitpid(self._process, 0)
        os.close(self._end)
        self._process = 0
        return os.WEXITSTATUS(status) if os.WIFEXITED(status) else -1

    def kill(self) -> None:
        if self._process:
            os.kill(self._process, signal.SIGKILL)
            os.waitpid(self._process, 0)
            os.close(self._end)


class Shells(Served):
    """Tests of the shell, with a folder for their files."""

    def setUp(self) -> None:
        super().setUp()
        folder = tempfile.TemporaryDirectory()
        self.addCleanup(folder.cleanup)
        self.folder = folder.name
        self.history = os.path.join(folder.name, "history")

    def shell(self, *words: str, given: str = "", password: str = "") -> tuple[int, str, str]:
        """The status, output and errors of the shell with these words."""
        out, err = io.StringIO(), io.StringIO()
        with mock.patch.dict(os.environ, {"CJC_PASSWORD": password or self.password, "CJC_USER": self.user}), \
                mock.patch.object(sys, "stdin", io.StringIO(given)), \
                contextlib.redirect_stdout(out), contextlib.redirect_stderr(err):
            try:
                status = main([f"{self.host}:{self.port}", *words])
            except SystemExit as end:
                status = int(end.code or 0)
        return status, out.getvalue(), err.getvalue()

    def terminal(self, **more: str) -> Terminal:
        """A shell at a terminal, with a history in the folder."""
        found = Terminal(["cjc", f"{self.host}:{self.port}", "-U", self.user],
                         **{"CJC_HISTORY": self.history, "HOME": self.folder, **more})
        self.addCleanup(found.kill)
        return found
