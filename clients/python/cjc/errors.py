"""The exceptions of PEP 249, with what cjc says beside them."""
from __future__ import annotations

from typing import TYPE_CHECKING, Optional

if TYPE_CHECKING:
    from .syntax import Fault


class Warning(Exception):  # noqa: A001 - the name is PEP 249's
    """PEP 249's class for important warnings. cjc has none, so this driver never raises it."""


class Error(Exception):
    """The base of all errors of this driver.

    `code`, `name`, `a` and `b` are those of a refusal (docs/FORMATS.md). Without a refusal `code` is None.
    `advice` says what to do next. `outcome_unknown` is true where a change may or may not have been made.
    `fault` is the wrong word of a statement that was refused as Syntax, if it was found.
    """

    def __init__(
        self,
        said: str,
        *,
        advice: str = "",
        code: Optional[int] = None,
        name: str = "",
        a: int = 0,
        b: int = 0,
        outcome_unknown: bool = False,
        fault: Optional[Fault] = None,
    ) -> None:
        super().__init__(said)
        self.advice = advice
        self.code = code
        self.name = name
        self.a = a
        self.b = b
        self.outcome_unknown = outcome_unknown
        self.fault = fault


class InterfaceError(Error):
    """The driver was used wrongly, or what it talks to doesn't speak the frames of cjc."""


class DatabaseError(Error):
    """The database refused or failed."""


class DataError(DatabaseError):
    """A value doesn't fit: it is out of range, too long, or of another kind than is wanted."""


class OperationalError(DatabaseError):
    """The server couldn't do it: connection, login, locks, memory, log, or a backend."""


class IntegrityError(DatabaseError):
    """A key is there already."""


class InternalError(DatabaseError):
    """The transaction is out of step: BEGIN inside one, or COMMIT or ROLLBACK outside."""


class ProgrammingError(DatabaseError):
    """The statement is wrong: its syntax, a table, a column, or the number of parameters."""


class NotSupportedError(DatabaseError):
    """cjc has nothing of the kind, such as a literal for None."""
