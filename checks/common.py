"""What the checks of this folder share: the program that was built, a folder to run it in, and a session request by request."""
import os
import select
import shutil
import subprocess
import sys
import tempfile
import time

sys.dont_write_bytecode = True
sys.path.insert(0, os.path.join(os.path.dirname(os.path.dirname(os.path.abspath(__file__))), "tools"))
import build
import frames
from cjc import wire
from frames import session

# A reply, and an end, has to come within so many seconds.
PATIENCE = 20
CONF, EXAMPLE = build.CONF, os.path.join(build.ROOT, "example")
# The SHA-256 of the password `secret`.
DIGEST = "2bb80d537b1da3e38bd30361aa855686bde0eacd7162fef6a25fe97bf527a25b"


class Failed(Exception):
    """What a check found wrong."""


class Ended(Failed):
    """The program ended where a reply was due."""


def expect(what, got, wanted):
    if got != wanted:
        raise Failed(f"{what}\n  wanted {wanted!r}\n  got    {got!r}")


def start(words, **more):
    """The program with these words, and a pipe for each stream that `more` doesn't say otherwise."""
    return subprocess.Popen(words, bufsize=0, **{"stdin": subprocess.PIPE, "stdout": subprocess.PIPE, "stderr": subprocess.PIPE, **more})


class Client:
    """A session of `cjc pipe`, request by request. What is sent goes to `given`, by default to the program's input."""

    def __init__(self, run, given=None):
        self.run, self.given = run, given or run.stdin

    def take(self, count):
        """So many bytes of what the program writes."""
        data, end = b"", time.monotonic() + PATIENCE
        while len(data) < count:
            if not select.select([self.run.stdout], [], [], max(0, end - time.monotonic()))[0]:
                raise Failed(f"no reply within {PATIENCE} seconds")
            piece = os.read(self.run.stdout.fileno(), count - len(data))
            if not piece:
                raise Ended(f"the program ended before it replied, with status {self.run.wait(timeout=PATIENCE)}")
            data += piece
        return data

    def ask(self, line):
        """The reply to a request, which is sent in two pieces."""
        sent = frames.frame(line)
        try:
            self.given.write(sent[:3])
            self.given.write(sent[3:])
        except BrokenPipeError:
            raise Ended("the program ended before it took a request") from None
        return frames.reply(self.take(wire.body_length(self.take(wire.LENGTH.size))))

    def expect(self, line, wanted):
        expect(f"> {line}", self.ask(line), wanted)

    def quit(self):
        """Sends Quit, which has no reply and ends the program, though its input stays open."""
        self.given.write(frames.frame("QUIT"))
        self.ends("at QUIT")

    def close(self):
        """Closes the input, which ends the program behind a whole frame."""
        self.given.close()
        self.ends("at the input's end")

    def ends(self, what):
        status = self.run.wait(timeout=PATIENCE)
        expect(what, (status, self.run.stdout.read(), self.run.stderr.read()), (0, b"", b""))


def word(place, otherwise):
    """The number that stands at a place among the words of the command."""
    return int(sys.argv[place]) if len(sys.argv) > place else otherwise


def check(name, look):
    """Lets `look` try the program in a folder of its own, and tells what that did. It ends this run where that failed.

    The program is the one of the first word, or the one that was built. Where there is none it says so and passes.
    """
    built = sys.argv[1] if len(sys.argv) > 1 else build.PROGRAM
    if not os.path.isfile(built):
        print(f"checks/{name}: skipped, since the program isn't built: rt ci or ./demo builds it", file=sys.stderr)
        return
    with tempfile.TemporaryDirectory() as folder:
        program = shutil.copy(built, os.path.join(folder, "cjc"))
        # Another user runs it too.
        for path in (folder, program):
            os.chmod(path, 0o755)
        try:
            told = look(program, folder)
        except (Failed, OSError, ValueError, TypeError, subprocess.SubprocessError) as error:
            sys.exit(f"checks/{name}: {error}")
    print(f"checks/{name}: {told}", file=sys.stderr)
