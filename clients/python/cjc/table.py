"""Rows as a table with aligned columns, or as CSV."""
from __future__ import annotations

import csv
import io
import unicodedata
from collections.abc import Sequence

from .wire import Rows, Value


def aligned(rows: Rows) -> str:
    """The rows as psql shows them: numbers to the right, texts to the left, and a line that counts the rows.

    A text with line feeds takes several lines, with + where it goes on. Other control characters are shown as \\x1b.
    """
    titles = [safe(name) for name in rows.names]
    cells = [[_lines(value) for value in row] for row in rows.rows]
    right = [all(isinstance(row[n], int) for row in rows.rows) and bool(rows.rows) for n in range(len(titles))]
    widths = [max([width(title), *(width(line) for row in cells for line in row[n])])
              for n, title in enumerate(titles)]
    lines = [" | ".join(_padded(title, room, at_right) for title, room, at_right in zip(titles, widths, right)),
             "-+-".join("-" * room for room in widths)]
    for row in cells:
        lines.extend(_row_lines(row, widths, right))
    count = len(rows.rows)
    return "".join(f" {line}".rstrip() + "\n" for line in lines) + f"({count} row{'' if count == 1 else 's'})\n"


def as_csv(rows: Rows) -> str:
    """The rows as CSV by RFC 4180 with lines that end in LF, and the names of the columns first."""
    text = io.StringIO()
    writer = csv.writer(text, lineterminator="\n")
    writer.writerow(rows.names)
    writer.writerows(rows.rows)
    return text.getvalue()


def width(text: str) -> int:
    """How many places of a terminal the text fills."""
    if text.isascii():
        return len(text)
    return sum(0 if unicodedata.combining(c) or unicodedata.category(c) in ("Cf", "Me", "Mn")
               else 2 if unicodedata.east_asian_width(c) in "WF" else 1 for c in text)


def safe(text: str) -> str:
    """The text with control characters written out, so that none of them reaches the terminal."""
    if text.isprintable():
        return text
    return "".join(f"\\x{ord(c):02x}" if unicodedata.category(c) == "Cc" else c for c in text)


def _lines(value: Value) -> list[str]:
    """The lines of a value, each but the last with a + at its end."""
    lines = [safe(line) for line in str(value).split("\n")]
    return [line + "+" for line in lines[:-1]] + lines[-1:]


def _padded(text: str, room: int, at_right: bool) -> str:
    blanks = " " * (room - width(text))
    return blanks + text if at_right else text + blanks


def _row_lines(row: Sequence[list[str]], widths: Sequence[int], right: Sequence[bool]) -> list[str]:
    """The lines of one row, as many as its highest cell has."""
    height = max(len(cell) for cell in row)
    return [" | ".join(_padded(cell[n] if n < len(cell) else "", room, at_right)
                       for cell, room, at_right in zip(row, widths, right)) for n in range(height)]
