"""python3 -m cjc: the shell."""
from __future__ import annotations

import argparse
import getpass
import io
import os
import sys
from collections.abc import Sequence
from typing import NoReturn, Optional

from .address import Address, address_of, with_login
from .connection import TIMEOUT, Connection, checked_timeout
from .errors import Error, InterfaceError
from .shell import INTERRUPTED, NO_CONNECTION, USAGE, Options, Quit, Shell
from .terminal import interact

_EPILOG = """\
The password is that of CJC_PASSWORD, or is asked for without echo. Without -c and -f, and without a terminal, the
shell runs its standard input. It then stops at the first error. It exits with 0 where all went well, 1 where a file
or an argument is wrong, 2 where the connection or the login failed, and 3 where a statement was refused.
CJC_HISTORY names the file of the history, ~/.cjc_history if it isn't set; if it is empty there is none.
"""


class _Parser(argparse.ArgumentParser):
    """A parser that exits with the shell's own status for a wrong command line."""

    def error(self, message: str) -> NoReturn:
        """Ends the program for a command line that is wrong."""
        self.print_usage(sys.stderr)
        self.exit(USAGE, f"{self.prog}: {message}\n")


class _Run(argparse.Action):
    """Collects -c and -f in their order."""

    def __call__(self, parser: argparse.ArgumentParser, namespace: argparse.Namespace, values: object,
                 option: Optional[str] = None) -> None:
        namespace.runs.append((self.dest, values))


def _server(text: str) -> Address:
    """The address that the command names. (What was given may hold a password, so it isn't repeated.)"""
    try:
        return address_of(text)
    except InterfaceError as error:
        raise argparse.ArgumentTypeError(str(error)) from None


def _seconds(text: str) -> Optional[float]:
    """The limit of each request; None for 0."""
    try:
        return checked_timeout(float(text) or None)
    except (ValueError, InterfaceError):
        raise argparse.ArgumentTypeError("it is a number of seconds, or 0 for no limit") from None


def _parser() -> argparse.ArgumentParser:
    words = _Parser(prog="python3 -m cjc", description="A shell for cjc, which connects to a server, `cjc serve CONF ADDR`.",
                    epilog=_EPILOG, formatter_class=argparse.RawDescriptionHelpFormatter)
    words.add_argument("server", metavar="HOST:PORT", type=_server, help="the server, or cjc://user@host:port")
    words.add_argument("-U", "--user", help="the user; else that of the URL, or CJC_USER")
    words.add_argument("-c", "--command", metavar="SQL", action=_Run, help="runs this; may be repeated, also with -f")
    words.add_argument("-f", "--file", metavar="FILE", action=_Run, help="runs this file; - is standard input")
    words.add_argument("--keep-going", action="store_true", help="goes on after a statement that was refused")
    words.add_argument("--csv", action="store_true", help="writes rows as CSV")
    words.add_argument("-q", "--quiet", action="store_true", help="writes rows alone")
    words.add_argument("--timeout", type=_seconds, default=TIMEOUT, metavar="SECONDS",
                       help=f"the limit of each request ({TIMEOUT:g}); 0 for none")
    words.set_defaults(runs=[])
    return words


def _address(given: argparse.Namespace) -> Address:
    """The server, the user and the password. Fails with Error, and with EOFError where none is typed."""
    address: Address = with_login(given.server, given.user or None, None)
    if address.user is None:
        address = with_login(address, os.environ.get("CJC_USER") or getpass.getuser(), None)
    if address.password is None:
        password = os.environ.get("CJC_PASSWORD")
        if password is None:
            password = getpass.getpass(f"Password of {address.user}: ") if sys.stdin.isatty() else None
        if password is None:
            raise Error("there is no password", advice="Set CJC_PASSWORD, or run the shell at a terminal.")
        address = with_login(address, None, password)
    return address


def _run(shell: Shell, runs: Sequence[tuple[str, str]]) -> int:
    """Runs commands and files in their order, or standard input where there are none."""
    for kind, what in runs or [("file", "-")]:
        if kind == "command":
            shell.run(what.split("\n"), "-c")
        elif what == "-":
            shell.run(sys.stdin, "stdin")
        else:
            shell.run_file(what)
    return shell.status


def _session(given: argparse.Namespace) -> int:
    """Connects, runs what is given or typed, and closes. Returns the exit status."""
    address = _address(given)
    interactive = not given.runs and sys.stdin.isatty() and sys.stdout.isatty()
    options = Options(interactive, given.keep_going, given.csv, False, given.quiet)
    shell = Shell(lambda: Connection(address, given.timeout, autocommit=True), options, sys.stdout, sys.stderr)
    try:
        return interact(shell) if interactive else _run(shell, given.runs)
    except Quit as end:
        return end.status
    finally:
        shell.close()


def main(arguments: Optional[Sequence[str]] = None) -> int:
    """Runs the shell with these arguments, by default those of the command line. Returns the exit status."""
    given = _parser().parse_args(arguments)
    if isinstance(sys.stdout, io.TextIOWrapper):
        # A character that the terminal's encoding lacks is written out.
        sys.stdout.reconfigure(errors="backslashreplace")
    try:
        return _session(given)
    except Error as error:
        print(f"ERROR {error}" + (f"\nHINT  {error.advice}" if error.advice else ""), file=sys.stderr)
        return NO_CONNECTION
    except (KeyboardInterrupt, EOFError):
        print(file=sys.stderr)
        return INTERRUPTED
    except BrokenPipeError:
        # Who reads the output has gone. Python would write what is left at its end, so that goes nowhere.
        os.dup2(os.open(os.devnull, os.O_WRONLY), sys.stdout.fileno())
        return USAGE
    except OSError as error:
        print(f"ERROR {error}", file=sys.stderr)
        return USAGE


if __name__ == "__main__":
    sys.exit(main())
