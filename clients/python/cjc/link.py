"""A TCP connection that carries one request and its reply at a time, each exchange within a time limit."""
from __future__ import annotations

import select
import socket
import time
from collections.abc import Callable
from typing import Optional, Union

from . import wire

# A reply is taken in one piece of at most so many bytes. A longer one gets a buffer of its length.
_PIECE = 16_384
_HEAD = wire.LENGTH.size


class LinkError(Exception):
    """An exchange failed, and the link is closed. `sent` says whether the whole request left this side."""

    def __init__(self, said: str, sent: bool) -> None:
        super().__init__(said)
        self.sent = sent


class GarbageError(LinkError):
    """The other side sent bytes that are no reply."""


class Link:
    """One connection to HOST:PORT. After a LinkError, or any other exception, it is closed."""

    def __init__(self, host: str, port: int, timeout: Optional[float]) -> None:
        """Connects. Fails with OSError. `timeout` is in seconds, for connecting and for each exchange."""
        self.timeout = timeout
        # A server that is full may refuse before it is asked, so the first reply may come early.
        self._is_new = True
        self._socket = socket.create_connection((host, port), timeout)
        self._socket.setsockopt(socket.IPPROTO_TCP, socket.TCP_NODELAY, 1)
        self._socket.setsockopt(socket.SOL_SOCKET, socket.SO_KEEPALIVE, 1)
        # The socket itself never waits.
        self._socket.setblocking(False)
        self._poll = _poll_of(self._socket)

    def close(self) -> None:
        """Closes the connection. It may be closed already."""
        self._socket.close()

    def exchange(self, request: bytes) -> wire.Reply:
        """Sends a request once and returns its reply. Fails with LinkError."""
        try:
            end = self._end()
            self._send(request, end)
            return self._receive(end)
        except BaseException:
            # A reply that comes later would be taken for that of the next request. So the link ends here.
            self.close()
            raise

    def send_last(self, request: bytes) -> None:
        """Sends a request that has no reply, and closes. Fails with LinkError."""
        try:
            self._send(request, self._end())
        finally:
            self.close()

    def _end(self) -> Optional[float]:
        """The moment at which an exchange that begins now is late."""
        return None if self.timeout is None else time.monotonic() + self.timeout

    def _send(self, request: bytes, end: Optional[float]) -> None:
        try:
            if self._poll(0) and not self._is_new:
                self._fail_early()
            self._is_new = False
            try:
                sent = self._socket.send(request)
            except BlockingIOError:
                sent = 0
            if sent < len(request):
                self._send_rest(memoryview(request)[sent:], end)
        except OSError as error:
            late = f"sending took longer than {self.timeout} seconds"
            raise LinkError(_said(error, late, "sending failed"), sent=False) from error

    def _fail_early(self) -> None:
        """Fails where the other side has closed, or has sent what nobody asked for."""
        if self._socket.recv(1, socket.MSG_PEEK):
            raise GarbageError("the server sent bytes that nobody asked for", sent=False)
        raise LinkError("the server had closed the connection", sent=False)

    def _send_rest(self, rest: memoryview, end: Optional[float]) -> None:
        """Sends what there was no room for at once."""
        self._socket.settimeout(None if end is None else _left(end))
        self._socket.sendall(rest)
        self._socket.setblocking(False)

    def _receive(self, end: Optional[float]) -> wire.Reply:
        try:
            data: Union[bytes, memoryview] = self._begin(end)
            total = _HEAD + wire.body_length(data)
            if len(data) < total:
                data = self._whole(data, total, end)
            elif len(data) > total:
                raise GarbageError("the server sent bytes after its reply", sent=True)
            return wire.reply(data, _HEAD)
        except wire.Malformed as error:
            raise GarbageError(f"the server sent {error}", sent=True) from None
        except OSError as error:
            late = f"no whole reply came within {self.timeout} seconds"
            raise LinkError(_said(error, late, "receiving failed"), sent=True) from error

    def _begin(self, end: Optional[float]) -> bytes:
        """The first piece of a reply, which has at least its length. Most replies are then whole."""
        data = b""
        while len(data) < _HEAD:
            self._await_bytes(end)
            piece = self._socket.recv(_PIECE)
            if not piece:
                raise _closed(len(data))
            data += piece
        return data

    def _whole(self, data: Union[bytes, memoryview], total: int, end: Optional[float]) -> memoryview:
        """The reply of so many bytes that begins with these. The rest is received where it then stands."""
        room, have = memoryview(bytearray(total)), len(data)
        room[:have] = data
        while have < total:
            self._await_bytes(end)
            count = self._socket.recv_into(room[have:])
            if count == 0:
                raise _closed(have)
            have += count
        return room

    def _await_bytes(self, end: Optional[float]) -> None:
        """Waits until there are bytes to receive, or the other side has closed."""
        if not self._poll(None if end is None else 1000 * _left(end)):
            raise socket.timeout("timed out")


def _left(end: float) -> float:
    """The seconds up to this moment. Fails with socket.timeout where there are none."""
    left = end - time.monotonic()
    if left <= 0:
        raise socket.timeout("timed out")
    return left


def _poll_of(one: socket.socket) -> Callable[[Optional[float]], object]:
    """A function that waits for so many milliseconds until a socket can be read, or for ever, and says whether it can."""
    if not hasattr(select, "poll"):
        # Windows. (Elsewhere `select` takes no socket of a high number.)
        return lambda most: select.select([one], [], [], None if most is None else most / 1000)[0]
    poll = select.poll()
    poll.register(one, select.POLLIN)
    return poll.poll


def _closed(have: int) -> LinkError:
    """The error of a connection that ended after so many bytes of a reply."""
    where = "in the middle of a reply" if have else "before it replied"
    return LinkError(f"the server closed the connection {where}", sent=True)


def _said(error: OSError, late: str, failed: str) -> str:
    """`late` where the time was over, else `failed` with the system's reason, which may be a time limit of its own."""
    if isinstance(error, socket.timeout) and error.errno is None:
        return late
    return f"{failed} ({error.strerror or error})"
