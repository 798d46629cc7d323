"""The tokens of the SQL of cjc (docs/SQL.md), each with its place in the text."""
from __future__ import annotations

import re
from collections.abc import Iterator
from dataclasses import dataclass

from .literals import TEXT_MOST

RESERVED = frozenset(
    "AND ASC BEGIN BY COMMIT COUNT CREATE DELETE DESC DROP FROM GROUP INSERT INTEGER INTO KEY LIMIT NOT NOW OR ORDER "
    "PRIMARY RAND ROLLBACK SELECT SET SUM TABLE TEXT UPDATE VALUES WHERE".split())
NAME_MOST = 32
NUMBER_MOST = 2 ** 63

# What is said of a string without its second quote.
UNCLOSED = "a string that doesn't end"

WORD, NAME, NUMBER, STRING, SYMBOL, END, BAD = "word", "name", "number", "string", "symbol", "end", "bad"

_TOKEN = re.compile(
    r"(?P<blank>[ \t\r\n]+)"
    r"|(?P<comment>--[^\n]*|/\*(?s:.*?)(?:\*/|\Z))"
    r"|(?P<name>[A-Za-z_][A-Za-z0-9_]*)"
    r"|(?P<number>[0-9]+(?P<more>[A-Za-z_][A-Za-z0-9_]*)?)"
    r"|(?P<string>'[^']*(?:''[^']*)*(?P<closed>'|\Z))"
    r"|(?P<symbol><>|!=|<=|>=|[(),.*;=<>+-])"
    r"|(?P<quoted>\"[^\"\n]*\"?|`[^`\n]*`?|\[[^\]\n]*\]?)"
    r"|(?P<other>[^\W\d]\w*|.)", re.DOTALL)


@dataclass(frozen=True)
class Token:
    """A token: its kind, its text (upper case where it is a reserved word), and its place.

    One of kind BAD can't be read, and `said` says why.
    """

    kind: str
    text: str
    at: int
    end: int
    said: str = ""


def tokens_of(text: str) -> Iterator[Token]:
    """The tokens of a text, and one of kind END after the last."""
    for found in _TOKEN.finditer(text):
        kind, at, end = found.lastgroup or "", found.start(), found.end()
        if found.group("number"):
            yield _number(found)
        elif found.group("string") is not None:
            yield _string(found)
        elif kind == "name":
            yield _word(found.group(), at, end)
        elif kind == "symbol":
            yield Token(SYMBOL, found.group(), at, end)
        elif kind == "comment":
            yield Token(BAD, found.group(), at, end, "a comment")
        elif kind == "quoted":
            yield Token(BAD, found.group(), at, end, "a quoted name")
        elif kind == "other":
            yield Token(BAD, found.group(), at, end, f"the character {found.group()[0]!r}")
    yield Token(END, "", len(text), len(text))


def _word(text: str, at: int, end: int) -> Token:
    """A reserved word or a name."""
    if text.upper() in RESERVED:
        return Token(WORD, text.upper(), at, end)
    if len(text) > NAME_MOST:
        return Token(BAD, text, at, end, f"a name of {len(text)} characters, more than {NAME_MOST}")
    return Token(NAME, text, at, end)


def _number(found: re.Match[str]) -> Token:
    """A number, which no letter may follow."""
    text, at, end = found.group(), found.start(), found.end()
    if found.group("more"):
        return Token(BAD, text, at, end, "a number that letters follow")
    if len(text.lstrip("0")) > 19 or int(text) > NUMBER_MOST:
        return Token(BAD, text, at, end, "a number past 64 bits")
    return Token(NUMBER, text, at, end)


def _string(found: re.Match[str]) -> Token:
    """A string, which has to end."""
    text, at, end = found.group(), found.start(), found.end()
    if not found.group("closed"):
        return Token(BAD, text, at, at + 1, UNCLOSED)
    if "\0" in text:
        return Token(BAD, text, at, end, "a string with byte 0")
    value = text[1:-1].replace("''", "'")
    if len(value.encode("utf-8", "replace")) > TEXT_MOST:
        return Token(BAD, text, at, end, f"a string of more than {TEXT_MOST:,} bytes")
    return Token(STRING, text, at, end)
