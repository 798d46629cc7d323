"""A `cjc serve` of one's own on the loopback interface, for tests and for trying things."""
from __future__ import annotations

import atexit
import contextlib
import os
import queue
import random
import signal
import socket
import subprocess
import threading
from types import TracebackType
from typing import IO, Optional

from .errors import Error, OperationalError

HOST = "127.0.0.1"
# An answer takes no more seconds unless more are given, and an end that began by itself takes no more.
PATIENCE, _END = 60.0, 5.0
# A command that changes nothing, and its answer, which shows where the answer before it ends.
_MARK, _MARKED = f"abort {2 ** 64 - 1}", f"refused NotOrphan {2 ** 64 - 1}"


def free_port() -> int:
    """A port of the loopback interface that nobody uses. Systems give those above to connections that are opened."""
    while True:
        port = random.randrange(10_000, 32_000)
        with contextlib.suppress(OSError), socket.socket() as probe:
            probe.bind((HOST, port))
            return port


class Server:
    """A server over a configuration file, with its console (docs/CONSOLE.md). It keeps its port from start to start.

    As a context manager it runs within the block, and is killed at its end; else it is at the latest as Python ends.
    """

    def __init__(self, program: str, configuration: str, port: Optional[int] = None) -> None:
        """Starts nothing yet. The recovery log stands beside the configuration."""
        self.program, self.configuration = os.path.abspath(program), os.path.abspath(configuration)
        self.port = free_port() if port is None else port
        self._process: Optional[subprocess.Popen[bytes]] = None
        self._answers: queue.Queue[Optional[str]] = queue.Queue()

    def start(self) -> None:
        """Starts the server and waits until it serves. Fails with OperationalError where it ends instead."""
        if self.is_running:
            raise Error("the server is running")
        words = [self.program, "serve", self.configuration, f"{HOST}:{self.port}"]
        # (signals stay as Python has them, so that a file that may not grow is an error, and not the server's end)
        process = subprocess.Popen(words, stdin=subprocess.PIPE, stdout=subprocess.PIPE, stderr=subprocess.PIPE,
                                   restore_signals=False)
        assert process.stdout is not None and process.stderr is not None
        self._process, self._answers = process, queue.Queue()
        atexit.register(self.kill)
        threading.Thread(target=_read, args=(process.stdout, self._answers), daemon=True).start()
        try:
            # The server has its port before it has its console.
            self.ask("show cache")
        except OperationalError:
            with contextlib.suppress(subprocess.TimeoutExpired):
                process.wait(_END)
            process.kill()
            said = process.stderr.read().decode(errors="replace").strip()
            self.kill()
            raise OperationalError(f"the server ended with status {process.returncode}: {said}") from None

    def ask(self, command: str, timeout: Optional[float] = PATIENCE) -> list[str]:
        """The lines that the console answers to a command. Fails with OperationalError where it has ended, or is late.

        `timeout` is in seconds, for each line; None waits as long as it takes.
        """
        process = self._running()
        assert process.stdin is not None
        try:
            process.stdin.write(f"{command}\n{_MARK}\n".encode())
            process.stdin.flush()
        except OSError as error:
            raise OperationalError("the console has ended") from error
        lines: list[str] = []
        while not lines or lines[-1] != _MARKED:
            lines.append(self._line(timeout))
        return lines[:-1]

    def pause(self) -> None:
        """Stops the server, by SIGSTOP, up to `resume` or `kill`."""
        process = self._running()
        process.send_signal(signal.SIGSTOP)
        # (a thread that waits in a call may still take what comes, until all threads have stopped)
        os.waitid(os.P_PID, process.pid, os.WSTOPPED)

    def resume(self) -> None:
        """Lets a paused server go on."""
        self._running().send_signal(signal.SIGCONT)

    @property
    def is_running(self) -> bool:
        """Whether the server was started and not killed since."""
        return self._process is not None

    @property
    def pid(self) -> int:
        """The number of the server's process."""
        return self._running().pid

    def kill(self) -> None:
        """Kills the server at once, by SIGKILL. It may be killed already."""
        process, self._process = self._process, None
        if process is None:
            return
        process.send_signal(signal.SIGKILL)
        process.wait()
        atexit.unregister(self.kill)
        for stream in (process.stdin, process.stderr):
            assert stream is not None
            # (a command that the server never took can't be written any more)
            with contextlib.suppress(OSError):
                stream.close()

    def __enter__(self) -> Server:
        self.start()
        return self

    def __exit__(self, _: Optional[type[BaseException]], __: Optional[BaseException],
                 ___: Optional[TracebackType]) -> None:
        self.kill()

    def _running(self) -> subprocess.Popen[bytes]:
        if self._process is None:
            raise Error("the server isn't started")
        return self._process

    def _line(self, timeout: Optional[float]) -> str:
        """The next line of the console."""
        try:
            line = self._answers.get(timeout=timeout)
        except queue.Empty:
            raise OperationalError(f"the console gave no answer in {timeout:g} seconds") from None
        if line is None:
            raise OperationalError("the console has ended")
        return line


def _read(stream: IO[bytes], answers: queue.Queue[Optional[str]]) -> None:
    """Puts each line of the console into the queue, and None after the last."""
    with stream:
        for line in stream:
            answers.put(line.decode().rstrip("\n"))
    answers.put(None)
