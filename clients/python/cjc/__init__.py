"""A driver for cjc, several SQL databases as one, by PEP 249. docs/CLIENTS.md shows it by example.

It connects to `cjc serve CONF ADDR`. `python3 -m cjc` is a shell over it, and `python3 -m cjc.passwd` makes a row
of the server's `users`. `cjc.local` starts a server for tests.
"""
from .connection import Connection, connect
from .cursor import Cursor
from .errors import (
    DatabaseError,
    DataError,
    Error,
    IntegrityError,
    InterfaceError,
    InternalError,
    NotSupportedError,
    OperationalError,
    ProgrammingError,
    Warning,
)
from .kinds import (
    BINARY,
    DATETIME,
    NUMBER,
    ROWID,
    STRING,
    Binary,
    Date,
    DateFromTicks,
    Time,
    TimeFromTicks,
    Timestamp,
    TimestampFromTicks,
)
from .wire import Stats

apilevel = "2.0"
# Threads may share the module, but not connections.
threadsafety = 1
paramstyle = "qmark"

__version__ = "0.1.0"
__all__ = [
    "BINARY", "Binary", "Connection", "Cursor", "DATETIME", "DataError", "DatabaseError", "Date", "DateFromTicks",
    "Error", "IntegrityError", "InterfaceError", "InternalError", "NUMBER", "NotSupportedError", "OperationalError",
    "ProgrammingError", "ROWID", "STRING", "Stats", "Time", "TimeFromTicks", "Timestamp", "TimestampFromTicks",
    "Warning", "apilevel", "connect", "paramstyle", "threadsafety",
]
