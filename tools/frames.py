"""Requests as lines and replies in words, for the programs that talk to `cjc` by frames. The frames are those of the package in clients/python.

A line is LOGIN USER PASSWORD, STATS, QUIT or a statement of SQL, as a text or as bytes.
"""
import os
import sys

sys.path.insert(0, os.path.join(os.path.dirname(os.path.dirname(os.path.abspath(__file__))), "clients", "python"))
from cjc import refusals, wire
from cjc.literals import quoted


def frame(line):
    """The frame of a request."""
    line = line.encode() if isinstance(line, str) else line
    if line.startswith(b"LOGIN "):
        _, user, password = line.split(b" ")
        return wire.login(user, password)
    if line == b"STATS":
        return wire.frame(wire.STATS)
    if line == b"QUIT":
        return wire.frame(wire.QUIT)
    return wire.query(line)


def session(*lines):
    """The frames of these requests."""
    return b"".join(map(frame, lines))


def split(data):
    """The frames of these bytes, each without its length. Fails with wire.Malformed at one that is cut."""
    at = 0
    while at < len(data):
        start = at + wire.LENGTH.size
        at = start + wire.body_length(data[at:start])
        if at > len(data):
            raise wire.Malformed("a frame that is cut")
        yield data[start:at]


def reply(data):
    """A reply in words, line by line, of its frame without the length. Fails with wire.Malformed."""
    found = wire.reply(data)
    if isinstance(found, wire.Done):
        return [f"done {found.count}"]
    if isinstance(found, wire.Rows):
        rows = [", ".join(quoted(value) if isinstance(value, str) else str(value) for value in row) for row in found.rows]
        return [f"{len(rows)} rows of {', '.join(found.names)}"] + ["  " + row for row in rows]
    if isinstance(found, wire.Stats):
        return [f"hits {found.hits}, misses {found.misses}"]
    return [f"refused {found.code} {refusals.name_of(found.code)} {found.a} {found.b}"]
