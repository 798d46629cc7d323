"""python3 -m cjc.passwd: a row of `users` for the configuration of cjc (docs/CONFIGURATION.md)."""
from __future__ import annotations

import argparse
import getpass
import hashlib
import os
import sys
from collections.abc import Sequence
from typing import Optional

# The longest name of a user, in bytes of UTF-8.
NAME_MOST = 64


def toml_text(text: str) -> str:
    """The text as a basic string of TOML."""
    escapes = {'"': '\\"', "\\": "\\\\", "\n": "\\n", "\t": "\\t", "\r": "\\r"}
    return '"' + "".join(
        escapes.get(c) or (f"\\u{ord(c):04x}" if ord(c) < 32 or ord(c) == 127 else c) for c in text) + '"'


def row(name: str, password: str, logins: Sequence[str], section: bool = False) -> str:
    """The row of this user, on one line or as a section [[users]].

    `logins` are the user's logins at the backends, in their order. Fails with ValueError where the configuration
    would refuse name or login.
    """
    if not 1 <= len(name.encode()) <= NAME_MOST:
        raise ValueError(f"a name has 1 to {NAME_MOST} bytes")
    if any("\0" in text for text in (name, *logins)):
        raise ValueError("neither a name nor a login contains byte 0")
    digest = hashlib.sha256(password.encode()).hexdigest()
    fields = [f"name = {toml_text(name)}", f'sha256 = "{digest}"',
              f"logins = [{', '.join(toml_text(login) for login in logins)}]"]
    return "[[users]]\n" + "\n".join(fields) if section else "{ " + ", ".join(fields) + " }"


def ask() -> str:
    """The password: that of CJC_PASSWORD, or asked twice without echo, or a line of standard input.

    Fails with ValueError where it is empty or the two differ, and with EOFError where there is none.
    """
    password = os.environ.get("CJC_PASSWORD")
    if password is None and sys.stdin.isatty():
        password = getpass.getpass("Password: ")
        if getpass.getpass("The same again: ") != password:
            raise ValueError("the two passwords differ")
    elif password is None:
        line = sys.stdin.readline()
        if not line:
            raise EOFError
        password = line.rstrip("\r\n")
    if not password:
        raise ValueError("an empty password would let everyone in")
    return password


def main(arguments: Optional[Sequence[str]] = None) -> int:
    """Prints the row. Returns the exit status: 0, or 1 where there is none."""
    words = argparse.ArgumentParser(prog="python3 -m cjc.passwd", description=__doc__)
    words.add_argument("name", help="the user's name")
    words.add_argument("login", nargs="+", help="the user's login at each backend, in order; '' for an empty one")
    words.add_argument("--section", action="store_true", help="prints a section [[users]] in place of a line")
    given = words.parse_args(arguments)
    try:
        print(row(given.name, ask(), given.login, given.section))
    except (ValueError, EOFError, KeyboardInterrupt) as error:
        print(f"cjc.passwd: {error or 'there is no password'}", file=sys.stderr)
        return 1
    return 0


if __name__ == "__main__":
    sys.exit(main())
