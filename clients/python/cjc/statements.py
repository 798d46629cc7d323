"""Statements with question marks: their first words, their parameters put in, and INSERTs of many tuples."""
from __future__ import annotations

import re
from collections.abc import Iterable, Sequence
from functools import lru_cache
from itertools import chain

from .errors import DataError, ProgrammingError
from .literals import HIGHEST, LOWEST, encoded, literal
from .wire import STATEMENT_MOST

# The most tuples of an INSERT.
TUPLES_MOST = 4_096
# What stands between the tuples of an INSERT.
SEPARATOR = ", "
# The longest text whose template is kept, in characters.
_KEPT_MOST = 1_024

CHANGES = frozenset(("INSERT", "UPDATE", "DELETE"))
SCHEMA = frozenset(("CREATE", "DROP"))
ENDS = frozenset(("COMMIT", "ROLLBACK"))

_VERB = re.compile(r"[ \t\r\n]*([A-Za-z_][A-Za-z0-9_]*)")
# A string, also one that isn't closed, or a question mark. (A doubled quote ends a string and begins the next.)
_MARKS = re.compile(r"'[^']*(?:'|\Z)|\?")
_PARENTHESES = re.compile(r"'[^']*(?:'|\Z)|[()]")
# The semicolon that may end a request, with the white space around it.
_TAIL_END = re.compile(r"[ \t\r\n]*;?[ \t\r\n]*\Z")
_INSERT = re.compile(
    r"[ \t\r\n]*INSERT[ \t\r\n]+INTO[ \t\r\n]+[a-z_][a-z0-9_]*[ \t\r\n]*(?:\([^()']*\)[ \t\r\n]*)?VALUES(?![a-z0-9_])",
    re.IGNORECASE | re.ASCII)


def verb_of(text: str) -> str:
    """The first word in upper case, or '' where the text begins with none."""
    found = _VERB.match(text)
    return found.group(1).upper() if found else ""


class Template:
    """A text cut at its question marks, those in strings aside. A literal goes in place of each."""

    def __init__(self, text: str) -> None:
        self.verb = verb_of(text)
        pieces = _pieces(text)
        # How many parameters it wants.
        self.count = len(pieces) - 1
        # (a text without parameters is sent as it is)
        self._form = "%s".join(piece.replace("%", "%%") for piece in pieces) if self.count else text

    def bind(self, given: object) -> str:
        """The text with these parameters. Fails with ProgrammingError, DataError or NotSupportedError."""
        parameters = given if type(given) is tuple else parameters_of(given)
        if len(parameters) != self.count:
            raise ProgrammingError(f"{self.count} question marks, but {len(parameters)} parameters")
        if not parameters:
            return self._form
        return self._form % _literals(parameters)

    def bind_each(self, sets: Sequence[object]) -> str:
        """The text once with each of these sets of parameters, of which there is one, and commas between. Fails as `bind` does.

        All literals are put in at once, which takes a third of the time that a call of `bind` for each set takes.
        """
        rows = [given if type(given) is tuple else parameters_of(given) for given in sets]
        for count in set(map(len, rows)) - {self.count}:
            raise ProgrammingError(f"{self.count} question marks, but {count} parameters")
        forms = SEPARATOR.join([self._form] * len(rows))
        return forms % _literals(chain.from_iterable(rows)) if self.count else forms


def _literals(values: Iterable[object]) -> tuple[object, ...]:
    """What `%` puts in as the literals of these values."""
    # (most values are ints of 64 bits, which are written as they are, without a call for each)
    return tuple([
        value if type(value) is int and LOWEST <= value <= HIGHEST else literal(value) for value in values])


def template_of(text: str) -> Template:
    """The template of a text. Those of the last texts are kept, for programs execute the same ones again and again."""
    return _kept_template(text) if len(text) <= _KEPT_MOST else Template(text)


_kept_template = lru_cache(maxsize=128)(Template)


def _pieces(text: str) -> list[str]:
    """The pieces of a text between its question marks."""
    pieces, start = [], 0
    for mark in _MARKS.finditer(text):
        if mark.group() == "?":
            pieces.append(text[start:mark.start()])
            start = mark.end()
    pieces.append(text[start:])
    last = len(pieces) - 1
    return [_apart(piece, n > 0, n < last) for n, piece in enumerate(pieces)]


def _apart(piece: str, after: bool, before: bool) -> str:
    """The piece with blanks where a literal after or before it would else become one token with it."""
    if after and before and not piece:
        return " "
    if after and piece and (piece[0].isalnum() or piece[0] in "_'"):
        piece = " " + piece
    # (two hyphens side by side are refused, so that of -1 stays apart from one before it)
    if before and piece and (piece[-1].isalnum() or piece[-1] in "_'-"):
        piece += " "
    return piece


def parameters_of(given: object) -> Sequence[object]:
    """The parameters as a sequence; None is none. Fails with ProgrammingError for another object, such as a text."""
    if given is None:
        return ()
    if isinstance(given, (list, tuple)):
        return given
    if isinstance(given, (str, bytes, bytearray)) or not isinstance(given, Sequence):
        raise ProgrammingError(
            f"parameters are a sequence, such as the tuple (value,), and not a {type(given).__name__}")
    return given


def statement_bytes(text: str) -> bytes:
    """The statement as it is sent. Fails with DataError where no frame holds it, or UTF-8 can't write it."""
    sent = encoded(text)
    if len(sent) > STATEMENT_MOST:
        raise DataError(f"the statement has {len(sent):,} bytes, and a frame holds {STATEMENT_MOST:,}")
    return sent


def many(text: str, sets: Iterable[object]) -> list[bytes]:
    """The statements that execute the text with each of these sets of parameters.

    An INSERT becomes one statement of many tuples, and more only past 4,096 tuples or the frame's limit. All are
    made before any is sent. Fails as `Template.bind` and `statement_bytes` do.
    """
    insert = _INSERT.match(text)
    if insert is None:
        bind = template_of(text).bind
        return [statement_bytes(bind(given)) for given in sets]
    tail = _TAIL_END.sub("", text[insert.end():])
    most = max(1, TUPLES_MOST // max(1, _tuples_in(tail)))
    return _inserts(insert.group() + " ", template_of(tail), list(sets), most)


def _tuples_in(tail: str) -> int:
    """How many tuples follow VALUES: parentheses that are opened outside of others."""
    depth = found = 0
    for mark in _PARENTHESES.finditer(tail):
        if mark.group() == "(":
            found += depth == 0
            depth += 1
        elif mark.group() == ")":
            depth -= 1
    return found


def _inserts(head: str, tuples: Template, sets: list[object], most: int) -> list[bytes]:
    """INSERTs of the tuples with each of these sets of parameters, of at most so many sets and within a frame."""
    statements: list[bytes] = []
    for at in range(0, len(sets), most):
        statement = encoded(head + tuples.bind_each(sets[at:at + most]))
        if len(statement) > STATEMENT_MOST:
            return statements + _filled(head, [tuples.bind(given) for given in sets[at:]], most)
        statements.append(statement)
    return statements


def _filled(head: str, tuples: list[str], most: int) -> list[bytes]:
    """INSERTs of the tuples, each of as many as a frame holds, and at most so many."""
    statements: list[bytes] = []
    batch: list[str] = []
    left = room = STATEMENT_MOST - len(encoded(head))
    for piece in tuples:
        length = len(piece) if piece.isascii() else len(encoded(piece))
        if length > room:
            raise DataError(f"a tuple of {length:,} bytes needs a statement longer than {STATEMENT_MOST:,}")
        if batch and (length > left or len(batch) == most):
            statements.append(encoded(head + SEPARATOR.join(batch)))
            batch, left = [], room
        batch.append(piece)
        left -= length + len(SEPARATOR)
    if batch:
        statements.append(encoded(head + SEPARATOR.join(batch)))
    return statements
