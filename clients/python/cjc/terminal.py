"""The shell at a terminal: line editing, history, Ctrl-C and Ctrl-D."""
from __future__ import annotations

import os
import sys
from typing import Optional

from .shell import OK, Quit, Shell

try:
    import readline
except ImportError:  # Python was built without it: lines are then edited as the terminal does.
    readline = None  # type: ignore[assignment]

# How many lines of history are kept.
_LINES_KEPT = 1_000


def history_file() -> Optional[str]:
    """Where history is kept: CJC_HISTORY, by default ~/.cjc_history; None where CJC_HISTORY is empty."""
    path = os.environ.get("CJC_HISTORY", os.path.join(os.path.expanduser("~"), ".cjc_history"))
    return path or None


def _load_history(path: Optional[str]) -> None:
    if readline is None:
        return
    readline.set_history_length(_LINES_KEPT)
    if path is not None:
        try:
            readline.read_history_file(path)
        except OSError:
            # There is none yet.
            pass


def _save_history(path: Optional[str]) -> None:
    if readline is None or path is None:
        return
    try:
        # Statements may hold what others are not to read.
        os.close(os.open(path, os.O_CREAT | os.O_WRONLY, 0o600))
        readline.write_history_file(path)
    except OSError as error:
        print(f"the history isn't kept: {error}", file=sys.stderr)


def interact(shell: Shell) -> int:
    """Runs what is typed up to \\q or Ctrl-D, and returns the exit status."""
    path = history_file()
    _load_history(path)
    print("cjc shell. \\? shows help, \\q ends it.")
    try:
        while True:
            _one_line(shell)
    except Quit:
        return OK
    except EOFError:
        print()
        shell.drop()
        return OK
    finally:
        _save_history(path)


def _one_line(shell: Shell) -> None:
    """Reads a line and runs it. Ctrl-C drops the statement that is being typed."""
    try:
        shell.feed(input(shell.prompt))
    except KeyboardInterrupt:
        print("^C")
        shell.clear()
    except UnicodeDecodeError:
        print("ERROR the line isn't UTF-8, so it was dropped", file=sys.stderr)
