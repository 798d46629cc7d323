"""What each refusal of docs/FORMATS.md means: its name, its class, a sentence, and what to do next."""
from __future__ import annotations

from dataclasses import dataclass

from .errors import (
    DatabaseError,
    DataError,
    Error,
    IntegrityError,
    InterfaceError,
    InternalError,
    OperationalError,
    ProgrammingError,
)
from .wire import Refused

SYNTAX = 10
# The entry of the change is in the log, but no backend says that it was executed.
UNSETTLED = (40, 44)


@dataclass(frozen=True)
class Meaning:
    """A refusal in words. Its sentence has the numbers as `{a}` and `{b}`.

    `{fault}` is the fault `a` in words, `{of_a}` and `{of_b}` are the backends of the masks, and `{and_b}` says of those
    of `b`, if there are any, that they ran out of memory.
    """

    name: str
    kind: type[Error]
    said: str
    advice: str


_OTHER_CLIENT = "Use the client that belongs to the server's version, with no proxy between them."

MEANINGS = {
    1: Meaning("BadFrame", InterfaceError, "the server found a faulty frame ({fault}) and ended the session",
               _OTHER_CLIENT),
    2: Meaning("NotLoggedIn", InterfaceError, "the server wants a login first", _OTHER_CLIENT),
    3: Meaning("BadLogin", OperationalError, "no user has this name and password",
               "Check both. The server's configuration lists the users; `python3 -m cjc.passwd` makes a row of it."),
    4: Meaning("AlreadyLoggedIn", InterfaceError, "the session is logged in already", _OTHER_CLIENT),
    10: Meaning("Syntax", ProgrammingError, "the text is no statement of this SQL", "docs/SQL.md has the grammar."),
    11: Meaning("InTransaction", InternalError, "transaction {a} is open already", "COMMIT or ROLLBACK it first."),
    12: Meaning("NoTransaction", InternalError, "no transaction is open", "BEGIN one first, or leave this out."),
    13: Meaning("SchemaInTransaction", ProgrammingError,
                "CREATE and DROP run outside of transactions, and transaction {a} is open",
                "COMMIT or ROLLBACK it, and repeat the statement."),
    20: Meaning("NoBackend", OperationalError, "no enabled backend has all tables of the statement",
                "At raidb0 and raidb2 the configuration must place the table. Else the operator must enable its backends."),
    21: Meaning("NoTable", ProgrammingError, "a table of the statement doesn't exist",
                "Check its name, or CREATE it."),
    22: Meaning("TableExists", ProgrammingError, "the table exists already",
                "Choose another name, or DROP the table first."),
    23: Meaning("NoColumn", ProgrammingError, "a name is no column of the tables, or of more than one of them",
                "Check the names of columns, and write TABLE.COLUMN where two tables have the name. "
                "NULL, TRUE and FALSE are read as such names too."),
    24: Meaning("BadColumns", ProgrammingError, "the columns don't fit each other or their table",
                "Give INSERT each column once, leave the primary key out of SET, name one PRIMARY KEY in CREATE, "
                "and GROUP BY the plain columns beside COUNT and SUM."),
    25: Meaning("Locked", OperationalError, "transaction {a} of another session has changed the table and not ended",
                "Roll back, wait a little, and repeat."),
    26: Meaning("Overflow", DataError, "a new value or a sum lies outside 64 bits",
                "Numbers go from -9223372036854775808 to 9223372036854775807."),
    27: Meaning("Duplicate", IntegrityError, "an inserted key exists already, or is twice in the statement",
                "Choose another key, or UPDATE the row that has it."),
    28: Meaning("WrongType", DataError, "an INTEGER is where a TEXT is wanted, or a TEXT where an INTEGER is",
                "Write texts in single quotes and numbers without, as the column's kind wants it."),
    29: Meaning("RowsFull", OperationalError, "the table would have {a} rows, and it may have 65,536",
                "DELETE rows, or use another table."),
    30: Meaning("TooLarge", OperationalError, "the answer would have {a} bytes, and a reply has at most 1,048,576",
                "Ask for fewer columns, or for fewer rows by WHERE and LIMIT."),
    40: Meaning("Unfinished", OperationalError, "every backend failed in the change ({of_a}{and_b})",
                "It isn't known whether a backend made it. Look before you repeat it; the operator must enable backends."),
    41: Meaning("ReadFault", OperationalError, "every backend that could answer failed in it ({of_a})",
                "Nothing was changed: repeat the SELECT."),
    42: Meaning("LogFault", OperationalError, "the server couldn't write its recovery log, and made no change",
                "The operator must look at the server's disk. You may repeat the statement."),
    43: Meaning("NoMemory", OperationalError, "the server is out of memory, and made no change",
                "Repeat it later, or with fewer rows."),
    44: Meaning("StarvedAll", OperationalError, "every backend ran out of memory in the change ({of_b})",
                "It isn't known whether a backend made it. Look before you repeat it; the operator must enable backends."),
    45: Meaning("HistoryFull", OperationalError, "the server's history is full",
                "The operator must start the server with a new log."),
    46: Meaning("SessionsFull", OperationalError, "{a} sessions are open or were, and no more can be opened",
                "The operator must start the server with a new log: the last session number was given."),
}

_FRAME_FAULTS = {1: "its length is 0", 2: "its length is over 1,048,576", 3: "its kind is unknown",
                 4: "its payload is malformed"}


def name_of(code: int) -> str:
    """The name of a refusal, or '' where docs/FORMATS.md doesn't list it."""
    return MEANINGS[code].name if code in MEANINGS else ""


def _backends(mask: int) -> str:
    """The backends of a mask, as `backends 0 and 2`."""
    numbers = [str(b) for b in range(64) if mask >> b & 1]
    if len(numbers) == 1:
        return f"backend {numbers[0]}"
    return f"backends {', '.join(numbers[:-1])} and {numbers[-1]}" if numbers else "no backend"


def error_of(refused: Refused) -> Error:
    """The exception of a refusal. One that docs/FORMATS.md doesn't list is a DatabaseError."""
    code, a, b = refused.code, refused.a, refused.b
    meaning = MEANINGS.get(code) or Meaning("", DatabaseError, "the server refused with a code that isn't known here",
                                            _OTHER_CLIENT)
    said = meaning.said.format(
        a=a, b=b, fault=_FRAME_FAULTS.get(a, f"fault {a}"), of_a=_backends(a), of_b=_backends(b),
        and_b=f"; {_backends(b)} ran out of memory" if b else "")
    words = f"{code} {meaning.name}".rstrip()
    return meaning.kind(f"{words}: {said}", advice=meaning.advice, code=code, name=meaning.name, a=a, b=b,
                        outcome_unknown=code in UNSETTLED)
