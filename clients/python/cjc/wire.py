"""The frames of docs/FORMATS.md: requests to bytes, and replies from bytes. Nothing here touches a socket."""
from __future__ import annotations

import struct
from dataclasses import dataclass
from functools import lru_cache
from typing import Optional, Union

# The largest length of a frame, which counts its kind and its payload.
MOST = 1_048_576
# The longest statement, and the longest user or password, in bytes.
STATEMENT_MOST = MOST - 1
STR16_MOST = 65_535

LENGTH = struct.Struct(">I")
_HEAD = struct.Struct(">IB")
_SHORT = struct.Struct(">H")
_COUNT = struct.Struct(">Q")
_NUMBER = struct.Struct(">q")
_PAIR = struct.Struct(">QQ")
_REFUSAL = struct.Struct(">HQQ")

LOGIN, QUERY, STATS, QUIT = 0x01, 0x02, 0x03, 0x04
DONE, ROWS, STATS_REPLY, REFUSED = 0x81, 0x82, 0x83, 0x8F
_INTEGER, _TEXT = 0x01, 0x02

Value = Union[int, str]


class Malformed(ValueError):
    """Bytes that are no reply."""


# (not frozen, since one of these is made for each statement, and frozen ones take three times as long)
@dataclass
class Done:
    """A statement was executed; `count` rows were changed."""

    count: int


@dataclass
class Rows:
    """The answer of a SELECT."""

    names: tuple[str, ...]
    rows: list[tuple[Value, ...]]


@dataclass(frozen=True)
class Stats:
    """How many SELECTs the result cache answered, and how many it didn't."""

    hits: int
    misses: int


@dataclass(frozen=True)
class Refused:
    """A refusal with its code and two numbers."""

    code: int
    a: int
    b: int


Reply = Union[Done, Rows, Stats, Refused]


def frame(kind: int, payload: bytes = b"") -> bytes:
    """A frame of this kind. Its length is checked by the callers below."""
    return _HEAD.pack(1 + len(payload), kind) + payload


def text16(text: bytes) -> bytes:
    """A text of at most STR16_MOST bytes behind its length."""
    return _SHORT.pack(len(text)) + text


def login(user: bytes, password: bytes) -> bytes:
    """The Login of this user. Both are at most STR16_MOST bytes."""
    return frame(LOGIN, text16(user) + text16(password))


def query(statement: bytes) -> bytes:
    """The Query of a statement of at most STATEMENT_MOST bytes."""
    return frame(QUERY, statement)


def body_length(head: Union[bytes, memoryview]) -> int:
    """The length that the first four bytes of a frame give. Fails with Malformed if no frame has it."""
    if len(head) < LENGTH.size:
        raise Malformed(f"a frame of {len(head)} bytes")
    (length,) = LENGTH.unpack_from(head)
    if not 1 <= length <= MOST:
        raise Malformed(f"a frame of {length} bytes")
    return int(length)


def reply(data: Union[bytes, memoryview], start: int = 0) -> Reply:
    """The reply whose kind is at this offset, and whose payload goes up to the end. Fails with Malformed."""
    try:
        kind = data[start]
        if kind == ROWS:
            return _rows(data, start + 1)
        if kind == DONE:
            return Done(*_whole(_COUNT, data, start + 1))
        if kind == STATS_REPLY:
            return Stats(*_whole(_PAIR, data, start + 1))
        if kind == REFUSED:
            return Refused(*_whole(_REFUSAL, data, start + 1))
    except (struct.error, IndexError, UnicodeDecodeError) as error:
        raise Malformed(f"a reply that ends early or holds no text: {error}") from None
    raise Malformed(f"a reply of kind {kind:#04x}")


def _whole(form: struct.Struct, data: Union[bytes, memoryview], at: int) -> tuple[int, ...]:
    """The numbers of a payload that holds nothing else."""
    if len(data) != at + form.size:
        raise Malformed(f"a payload of {len(data) - at} bytes in place of {form.size}")
    return form.unpack_from(data, at)


def _rows(data: Union[bytes, memoryview], at: int) -> Rows:
    """The rows of a payload. A buffer is read where it is; only texts are copied, into their strings.

    A text that would go past the end is cut there, and what is read after it fails.
    """
    (columns,) = _SHORT.unpack_from(data, at)
    if columns == 0:
        raise Malformed("an answer without columns")
    at += _SHORT.size
    names = []
    for _ in range(columns):
        start = at + _SHORT.size
        at = start + _SHORT.unpack_from(data, at)[0]
        names.append(str(data[start:at], "utf-8"))
    (count,) = LENGTH.unpack_from(data, at)
    values = data[at + LENGTH.size:]
    rows = _numbers(values, columns, count)
    return Rows(tuple(names), _mixed(values, columns, count) if rows is None else rows)


@lru_cache(maxsize=16)
def _row_of_numbers(columns: int) -> struct.Struct:
    """The form of a row of so many numbers, without their kinds."""
    return struct.Struct(">" + columns * "xq")


def _numbers(values: Union[bytes, memoryview], columns: int, count: int) -> Optional[list[tuple[Value, ...]]]:
    """The rows of numbers alone, which have one length; None if some value is a text."""
    size = 1 + _NUMBER.size
    if len(values) != count * columns * size or bytes(values[::size]).count(_INTEGER) != count * columns:
        return None
    return list(_row_of_numbers(columns).iter_unpack(values))


def _mixed(values: Union[bytes, memoryview], columns: int, count: int) -> list[tuple[Value, ...]]:
    """Rows of numbers and texts."""
    found: list[Value] = []
    at, number, length = 0, _NUMBER.unpack_from, LENGTH.unpack_from
    for _ in range(columns * count):
        kind = values[at]
        if kind == _INTEGER:
            found.append(number(values, at + 1)[0])
            at += 1 + _NUMBER.size
        elif kind == _TEXT:
            start = at + 1 + LENGTH.size
            at = start + length(values, at + 1)[0]
            found.append(str(values[start:at], "utf-8"))
        else:
            raise Malformed(f"a value of kind {kind:#04x}")
    if at != len(values):
        raise Malformed("a value that ends early" if at > len(values) else f"{len(values) - at} bytes after the last row")
    return list(zip(*[iter(found)] * columns))
