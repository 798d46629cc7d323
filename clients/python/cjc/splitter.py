"""Lines cut into statements: each ends with a semicolon outside of strings."""
from __future__ import annotations

import re
from collections.abc import Iterator

# What counts outside of strings: a comment up to the line's end is passed over.
_PART = re.compile(r"--.*|['();]")


class Splitter:
    """What was read of a statement that isn't finished. Each line is looked at once."""

    def __init__(self) -> None:
        self._parts: list[str] = []
        self._line = 0
        self._in_string = False
        self._depth = 0

    @property
    def is_empty(self) -> bool:
        """Whether no statement was begun."""
        return not self._parts

    @property
    def in_string(self) -> bool:
        """Whether a string was begun and not ended."""
        return self._in_string

    @property
    def open_mark(self) -> str:
        """What the statement waits for: ' in a string, ( in parentheses, - for its end, or = before it begins."""
        if self.is_empty:
            return "="
        return "'" if self._in_string else "(" if self._depth > 0 else "-"

    def clear(self) -> None:
        """Forgets the statement that was begun."""
        self._parts, self._in_string, self._depth = [], False, 0

    def add(self, line: str, number: int) -> Iterator[tuple[str, int]]:
        """The statements that this line finishes, with their semicolons, and the number of each one's first line.

        A comment before a statement, with two hyphens up to the line's end, is skipped.
        """
        if self._parts:
            self._parts.append("\n")
        start = at = 0
        while True:
            at, mark = self._next(line, at)
            if mark != ";":
                break
            self._keep(line[start:at], number)
            start = at
            yield from self.rest()
        self._keep(line[start:], number)

    def rest(self) -> Iterator[tuple[str, int]]:
        """The statement that was begun, if there is one. It is forgotten."""
        text, line = "".join(self._parts).strip(), self._line
        self.clear()
        if text.strip(" \t\r\n;"):
            yield text, line

    def _keep(self, piece: str, number: int) -> None:
        """Adds to the statement what belongs to it."""
        if not self._parts:
            piece = piece.lstrip()
            if not piece or piece.startswith("--"):
                return
            self._line = number
        self._parts.append(piece)

    def _next(self, line: str, at: int) -> tuple[int, str]:
        """The offset after the next semicolon and `;`, or that of the line's end and ''."""
        while True:
            if self._in_string:
                quote = line.find("'", at)
                if quote < 0:
                    return len(line), ""
                self._in_string, at = False, quote + 1
            found = _PART.search(line, at)
            if found is None:
                return len(line), ""
            mark, at = found.group(), found.end()
            if mark == ";":
                return at, mark
            self._in_string = mark == "'"
            self._depth += (mark == "(") - (mark == ")")
