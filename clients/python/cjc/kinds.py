"""The type objects and constructors of PEP 249.

cjc has INTEGER and TEXT alone. So dates, times and binaries can be constructed, but a statement that is given
one as a parameter fails with NotSupportedError before anything is sent.
"""
from __future__ import annotations

import datetime

Date = datetime.date
Time = datetime.time
Timestamp = datetime.datetime
Binary = bytes


def DateFromTicks(ticks: float) -> datetime.date:  # noqa: N802 - the name is PEP 249's
    """The local date of these seconds since 1970."""
    return datetime.date.fromtimestamp(ticks)


def TimeFromTicks(ticks: float) -> datetime.time:  # noqa: N802
    """The local time of day of these seconds since 1970."""
    return datetime.datetime.fromtimestamp(ticks).time()


def TimestampFromTicks(ticks: float) -> datetime.datetime:  # noqa: N802
    """The local date and time of these seconds since 1970."""
    return datetime.datetime.fromtimestamp(ticks)


class TypeObject:
    """What a `type_code` of a description is compared with. Each is equal to itself alone."""

    def __init__(self, name: str) -> None:
        self.name = name

    def __repr__(self) -> str:
        return f"cjc.{self.name}"


STRING = TypeObject("STRING")
NUMBER = TypeObject("NUMBER")
# No column of cjc is of these types.
BINARY = TypeObject("BINARY")
DATETIME = TypeObject("DATETIME")
ROWID = TypeObject("ROWID")
