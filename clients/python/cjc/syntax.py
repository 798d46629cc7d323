"""The grammar of docs/SQL.md, read to find the first word that can't stand where it stands.

The server refuses such a text as Syntax (10) and gives no place. `fault_of` finds the place, and says what was
expected and what to write instead. A text that reads has no fault.
"""
from __future__ import annotations

from collections.abc import Callable
from dataclasses import dataclass
from typing import NoReturn, Optional

from . import hints
from .tokens import BAD, END, NAME, NUMBER, NUMBER_MOST, STRING, SYMBOL, UNCLOSED, WORD, Token, tokens_of

COLUMNS_MOST = 16
TUPLES_MOST = 4_096
TABLES_MOST = 4
KEYS_MOST = 4
COMPARISONS_MOST = 256
DEPTH_MOST = 64

_COMPARISONS = ("=", "<>", "!=", "<", "<=", ">", ">=")
_STATEMENTS = ("BEGIN", "COMMIT", "CREATE", "DELETE", "DROP", "INSERT", "ROLLBACK", "SELECT", "UPDATE")


@dataclass(frozen=True)
class Fault:
    """The first wrong word: its place, from `at` to before `end`, what is wrong, and what to write instead."""

    at: int
    end: int
    line: int
    column: int
    said: str
    hint: str

    def __str__(self) -> str:
        return f"line {self.line}, column {self.column}: {self.said}"


def fault_of(text: str) -> Optional[Fault]:
    """The fault of a text, or None where it is a statement."""
    zero = text.find("\0")
    reader = _Reader(text if zero < 0 else text[:zero])
    try:
        reader.request()
    except _Wrong as wrong:
        token = wrong.token
        if zero >= 0 and token.kind == END:
            return _fault(text, zero, zero + 1, "byte 0 can't stand in a statement", "Leave it out.")
        return _fault(text, token.at, token.end, wrong.said, wrong.hint)
    return None if zero < 0 else _fault(text, zero, zero + 1, "byte 0 can't stand in a statement", "Leave it out.")


def _fault(text: str, at: int, end: int, said: str, hint: str) -> Fault:
    """The fault at this place, with line and column from 1."""
    start = text.rfind("\n", 0, at) + 1
    return Fault(at, end, text.count("\n", 0, at) + 1, at - start + 1, said, hint)


class _Wrong(Exception):
    """The token that can't stand where it stands."""

    def __init__(self, token: Token, said: str, hint: str) -> None:
        super().__init__(said)
        self.token, self.said, self.hint = token, said, hint


class _Reader:
    """The tokens of a text, read by the grammar. Each method reads what its name says, or fails with _Wrong."""

    def __init__(self, text: str) -> None:
        self._tokens = tokens_of(text)
        self._ahead = next(self._tokens)
        self._last = Token(END, "", 0, 0)
        self._comparisons = 0
        self._tables_read = 0

    # ---- tokens

    def _take(self) -> Token:
        token = self._ahead
        self._last = token
        if token.kind != END:
            self._ahead = next(self._tokens)
        return token

    def _wrong(self, expected: str, part: str) -> NoReturn:
        """Fails at the next token, where `expected` should stand. `part` is the part of the grammar."""
        token = hints.blamed(self._ahead, self._last)
        if token.said == UNCLOSED:
            said = f"here begins {UNCLOSED}"
        elif token.kind == BAD:
            said = f"{token.said} can't stand here"
        elif token.kind == END:
            said = f"the statement ends here; expected {expected}"
        elif token is self._last:
            said = f"{hints.shown(token)} can't stand here"
        else:
            said = f"{hints.shown(token)} can't stand here; expected {expected}"
        raise _Wrong(token, said, hints.hint(token, self._last, part))

    def _limit(self, what: str, token: Token) -> NoReturn:
        raise _Wrong(token, f"here the statement goes past a limit: {what}", "Split it into several statements.")

    def _sees(self, *texts: str) -> bool:
        return self._ahead.kind in (WORD, SYMBOL) and self._ahead.text in texts

    def _eat(self, text: str) -> bool:
        """Reads this reserved word or symbol, if it is next."""
        if not self._sees(text):
            return False
        self._take()
        return True

    def _expect(self, text: str, part: str) -> None:
        if not self._eat(text):
            self._wrong(text if text[0].isalpha() else f"'{text}'", part)

    def _name(self, what: str, part: str) -> str:
        if self._ahead.kind != NAME:
            self._wrong(f"the name of a {what}", part)
        return self._take().text.lower()

    def _list(self, item: Callable[[], object], most: int, what: str) -> int:
        """One item or more with commas between, and how many there are."""
        count, first = 0, self._ahead
        while True:
            if count == most:
                self._limit(f"at most {most:,} {what}", first)
            item()
            count += 1
            first = self._ahead
            if not self._eat(","):
                return count

    # ---- statements

    def request(self) -> None:
        """Reads the whole text."""
        if not self._sees(*_STATEMENTS):
            self._wrong("a statement", "start")
        verb = self._take().text
        read = {"CREATE": self._create, "DROP": self._drop, "INSERT": self._insert, "UPDATE": self._update,
                "DELETE": self._delete, "SELECT": self._select}.get(verb)
        after = read() if read else "the end"
        if self._eat(";"):
            after = "the end"
        if self._ahead.kind != END:
            self._wrong(after, verb.lower() if read else "transaction")

    def _create(self) -> str:
        self._expect("TABLE", "create")
        self._name("table", "create")
        self._expect("(", "create")
        self._list(self._column_definition, COLUMNS_MOST, "columns")
        if not self._eat(")"):
            self._wrong("',' or ')'", "column definition")
        return "the end"

    def _column_definition(self) -> None:
        self._name("column", "column definition")
        if not (self._eat("INTEGER") or self._eat("TEXT")):
            self._wrong("INTEGER or TEXT", "kind")
        if self._eat("PRIMARY"):
            self._expect("KEY", "column definition")

    def _drop(self) -> str:
        self._expect("TABLE", "drop")
        self._name("table", "drop")
        return "the end"

    def _insert(self) -> str:
        self._expect("INTO", "insert")
        self._name("table", "insert")
        if self._eat("("):
            self._list(lambda: self._name("column", "insert"), COLUMNS_MOST, "columns")
            self._expect(")", "insert")
        self._expect("VALUES", "insert")
        self._list(self._tuple, TUPLES_MOST, "tuples")
        return "',' or the end"

    def _tuple(self) -> None:
        self._expect("(", "tuple")
        self._list(lambda: self._constant("a number or a text", "tuple"), COLUMNS_MOST, "values")
        if not self._eat(")"):
            self._wrong("',' or ')'", "after constant")

    def _update(self) -> str:
        self._name("table", "update")
        self._expect("SET", "update")
        self._list(self._assignment, COLUMNS_MOST, "assignments")
        return self._where("the end") or "',', WHERE or the end"

    def _assignment(self) -> None:
        self._name("column", "set")
        self._expect("=", "set")
        self._term("set")
        if self._eat("+") or self._eat("-"):
            self._term("set")

    def _delete(self) -> str:
        self._expect("FROM", "delete")
        self._name("table", "delete")
        return self._where("the end") or "WHERE or the end"

    # ---- SELECT

    def _select(self) -> str:
        single = False
        if not self._eat("*"):
            single = self._items()
        self._expect("FROM", "items")
        self._tables(single)
        clauses = "GROUP BY, ORDER BY, LIMIT or the end"
        after = self._where(clauses) or f"',', WHERE, {clauses}"
        group = self._ahead
        if self._eat("GROUP"):
            if self._tables_read > 1:
                raise _Wrong(group, "GROUP BY reads one table", hints.ONE_TABLE)
            self._expect("BY", "group")
            self._column("group")
            after = "ORDER BY, LIMIT or the end"
        if self._eat("ORDER"):
            self._expect("BY", "order")
            self._list(self._key, KEYS_MOST, "keys of ORDER BY")
            after = "',', LIMIT or the end"
        if self._eat("LIMIT"):
            self._limit_number()
            after = "the end"
        return after

    def _items(self) -> bool:
        """The items of a SELECT, and whether one of them is COUNT or SUM, which wants one table."""
        sums: list[bool] = []
        self._list(lambda: sums.append(self._item()), COLUMNS_MOST, "items")
        return any(sums)

    def _item(self) -> bool:
        if self._eat("COUNT"):
            self._expect("(", "item")
            self._expect("*", "count")
            self._expect(")", "item")
            return True
        if self._eat("SUM"):
            self._expect("(", "item")
            self._column("sum")
            self._expect(")", "sum")
            return True
        self._column("item")
        return False

    def _tables(self, single: bool) -> None:
        names: list[str] = []

        def table() -> None:
            token = self._ahead
            name = self._name("table", "tables")
            if name in names:
                raise _Wrong(token, f"{name} is in FROM already", hints.SELF_JOIN)
            if single and names:
                raise _Wrong(token, "COUNT and SUM read one table", hints.ONE_TABLE)
            names.append(name)

        self._tables_read = self._list(table, TABLES_MOST, "tables of a SELECT")

    def _key(self) -> None:
        self._column("order")
        if not self._eat("ASC"):
            self._eat("DESC")

    def _limit_number(self) -> None:
        token = self._ahead
        if token.kind != NUMBER:
            self._wrong("a number", "limit")
        if int(token.text) >= NUMBER_MOST:
            self._wrong("a number of at most 9223372036854775807", "limit")
        self._take()

    # ---- conditions

    def _where(self, clauses: str) -> str:
        """A WHERE, if one is next, and what may follow it before these clauses; '' where there is none."""
        if not self._eat("WHERE"):
            return ""
        self._condition(0)
        return f"AND, OR, {clauses}"

    def _condition(self, depth: int) -> None:
        while True:
            self._primary(depth)
            if not (self._eat("AND") or self._eat("OR")):
                return

    def _primary(self, depth: int) -> None:
        token = self._ahead
        if self._sees("NOT", "(") and depth == DEPTH_MOST:
            self._limit(f"at most {DEPTH_MOST} NOTs and parentheses are open at one place", token)
        if self._eat("NOT"):
            return self._primary(depth + 1)
        if self._eat("("):
            self._condition(depth + 1)
            if not self._eat(")"):
                self._wrong("AND, OR or ')'", "after condition")
            return None
        if self._comparisons == COMPARISONS_MOST:
            self._limit(f"at most {COMPARISONS_MOST} comparisons", token)
        self._comparisons += 1
        self._term("condition")
        if not self._sees(*_COMPARISONS):
            self._wrong("a comparison, such as =", "comparison")
        self._take()
        return self._term("condition")

    # ---- terms

    def _term(self, part: str) -> None:
        if self._ahead.kind == NAME:
            self._column(part)
        else:
            self._constant("a column, a number or a text", part)

    def _column(self, part: str) -> None:
        self._name("column", part)
        if self._eat("."):
            self._name("column", part)

    def _constant(self, expected: str, part: str) -> None:
        minus = self._eat("-")
        token = self._ahead
        if token.kind == NUMBER:
            if not minus and int(token.text) == NUMBER_MOST:
                self._wrong("a number of at most 9223372036854775807", part)
            self._take()
        elif minus:
            self._wrong("a number", part)
        elif token.kind == STRING:
            self._take()
        elif self._eat("NOW"):
            self._expect("(", "now")
            self._expect(")", "now")
        elif self._eat("RAND"):
            self._expect("(", "rand")
            self._rand_number()
            self._expect(")", "rand")
        else:
            self._wrong(expected, part)

    def _rand_number(self) -> None:
        token = self._ahead
        if token.kind != NUMBER or not 1 <= int(token.text) < NUMBER_MOST:
            self._wrong("a number from 1 to 9223372036854775807", "rand")
        self._take()
