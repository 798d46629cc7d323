"""Parameters as literals of the SQL of cjc (docs/SQL.md), which has 64-bit integers and texts alone."""
from __future__ import annotations

from .errors import DataError, NotSupportedError

LOWEST, HIGHEST = -(2 ** 63), 2 ** 63 - 1
# The longest text, in bytes of UTF-8.
TEXT_MOST = 4_096

_INSTEAD = {
    "NoneType": "columns have no NULL; use a value of your own for 'unknown', as 0 or ''",
    "float": "use an int, as cents for money, or a str",
    "Decimal": "use an int, as cents for money, or a str",
    "bytes": "decode it to a str, or write it in hexadecimal",
    "bytearray": "decode it to a str, or write it in hexadecimal",
    "memoryview": "decode it to a str, or write it in hexadecimal",
    "date": "use a str from isoformat(), or an int",
    "time": "use a str from isoformat(), or an int",
    "datetime": "use a str from isoformat(), or an int from timestamp()",
}


def literal(value: object) -> str:
    """The literal of an int or a str; a bool is 1 or 0.

    Fails with DataError where the value is out of range, and with NotSupportedError where it is of another type.
    """
    if isinstance(value, str):
        return quoted(_checked(value))
    if isinstance(value, int):
        if not LOWEST <= value <= HIGHEST:
            raise DataError(f"a parameter of {value.bit_length()} bits lies outside the 64 bits of INTEGER")
        return int.__repr__(int(value))
    name = type(value).__name__
    raise NotSupportedError(
        f"a parameter of type {name} has no literal: {_INSTEAD.get(name, 'a parameter is an int or a str')}")


def quoted(text: str) -> str:
    """The text in quotes, with each quote in it doubled."""
    return "'" + text.replace("'", "''") + "'"


def _checked(text: str) -> str:
    """The text, which TEXT can hold. Fails with DataError."""
    if "\0" in text:
        raise DataError("a text parameter contains byte 0, which TEXT can't")
    if 4 * len(text) > TEXT_MOST and len(encoded(text)) > TEXT_MOST:
        raise DataError(f"a text parameter has {len(encoded(text)):,} bytes, and TEXT has at most {TEXT_MOST:,}")
    return text


def encoded(text: str) -> bytes:
    """The UTF-8 of a text. Fails with DataError for half of a surrogate pair, which has none."""
    try:
        return text.encode("utf-8")
    except UnicodeEncodeError as error:
        raise DataError(f"character {error.start} is half of a surrogate pair, which UTF-8 can't write") from None
