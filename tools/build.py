"""Proves and builds the program `cjc`, and says on standard error how far that is. `demo`, the checks and `bench/run` get the program from here.

It also follows the proofs of the programs of `bench/`, and compiles its load."""
import os
import re
import select
import shutil
import subprocess
import sys
import tempfile
import time

ROOT = os.path.dirname(os.path.dirname(os.path.abspath(__file__)))
CRATE = os.path.join(ROOT, "crates", "cjc")
PROGRAM = os.path.join(CRATE, "out", "cjc")
CONF = os.path.join(ROOT, "example", "c1.toml")
# After so many seconds with no news the time is shown.
PATIENCE = 30
# So many lines of rt are shown where it fails.
LAST = 30


def crates(name="cjc", root=ROOT):
    """The crates that are proved for one of a repository, in the order in which rt takes them: each after those that it stands on."""
    with open(os.path.join(root, "crates.txt"), encoding="utf-8") as lines:
        rows = [line.partition(":") for line in lines if line.strip() and not line.startswith("#")]
    uses = {row[0].split()[0]: row[2].split() for row in rows}
    found = []

    def add(name):
        if name in uses and name not in found:
            for low in uses[name]:
                add(low)
            found.append(name)

    add(name)
    return found


def lines_of(stream):
    """The lines of a stream as they come, and None where none comes for a while."""
    rest = b""
    while True:
        if not select.select([stream], [], [], PATIENCE)[0]:
            yield None
            continue
        piece = os.read(stream.fileno(), 65536)
        if not piece:
            return
        *lines, rest = (rest + piece).split(b"\n")
        yield from (line.decode(errors="replace") for line in lines)


def clock():
    """A function that prints a line behind the time since now."""
    start = time.monotonic()

    def say(text):
        minutes, seconds = divmod(int(time.monotonic() - start), 60)
        print(f"  {minutes:3}:{seconds:02}  {text}", file=sys.stderr, flush=True)

    return say


def started(words, cwd=CRATE, **more):
    """A run of rt with these words in a crate's folder. It ends this run where there is no rt."""
    try:
        return subprocess.Popen(["rt", *words], cwd=cwd, **more)
    except FileNotFoundError:
        sys.exit("no command `rt` on the PATH: it comes with the Rattle kit, in its folder bin/")


def program():
    """The path of the program, which rt has proved and built. It ends this run where rt can't."""
    names, say = crates(), clock()
    say(f"proving and building the program, {len(names)} crates: over an hour where nothing is kept of them, on four processors")
    say("(./demo --unproved shows a session in minutes, without proofs)")
    return built(CRATE, names, say, ["--", "pipe", CONF])


def built(crate, names, say, words=()):
    """The path of the program of a crate's folder, which rt has proved, built and run on these words. It says how far that is, and ends this run where rt can't."""
    path, now, last = os.path.join(crate, "out", os.path.basename(crate)), "a first look at the sources", []
    rt = started(["run", *words], crate, stdin=subprocess.DEVNULL, stdout=subprocess.PIPE, stderr=subprocess.STDOUT)
    for line in lines_of(rt.stdout):
        if line is None:
            say(f"{now} ..")
            continue
        last = [*last, line][-LAST:]
        if chosen := re.match(r"rt: chose --jobs \d+ for (\w+)", line):
            now = f"{chosen[1]}, {names.index(chosen[1]) + 1} of {len(names)}" if chosen[1] in names else chosen[1]
            say(now)
        elif proved := re.match(r"logic=proved functions=(\d+)", line):
            say(f"{now}: {proved[1]} functions proved")
        elif line.startswith("rt: waiting"):
            say(line)
    if rt.wait() != 0 or not os.path.exists(path):
        sys.exit("\n".join([f"rt run failed in crates/{os.path.basename(crate)}:", *last]))
    say("built")
    return path


def run_unproved(words, data, files):
    """What the program writes on these words and this input, and its status, as `rt try` builds and runs it: with checks in place of proofs.

    It runs in a folder of its own with copies of these files, paths by their names there. It ends this run where rt can't run it.
    """
    say, last = clock(), []
    say("building the program without its proofs, which takes some minutes; nothing is proved of what it shows")
    given = [word for name, path in files.items() for word in ("--data", f"{name}={os.path.abspath(path)}")]
    with tempfile.TemporaryFile() as source, tempfile.TemporaryFile() as written:
        source.write(data)
        source.seek(0)
        rt = started(["try", "cjc", *given, "--", *words], stdin=source, stdout=written, stderr=subprocess.PIPE)
        for line in lines_of(rt.stderr):
            if line is None:
                say("building ..")
            else:
                last = [*last, line][-LAST:]
        ended = re.search(r"^run=ended status=(\d+) ", "\n".join(last), re.MULTILINE)
        rt.wait()
        if ended is None:
            sys.exit("\n".join(["rt try failed in crates/cjc:", *last]))
        written.seek(0)
        return written.read(), int(ended[1])


def load(folder):
    """Compiles bench/load.c into a folder, and returns the path."""
    return compiled("load.c", os.path.join(folder, "load"), "-O2", "-pthread")


def library(name, folder):
    """Compiles a library of bench/ that LD_PRELOAD takes into a folder, and returns the path."""
    return compiled(f"{name}.c", os.path.join(folder, f"{name}.so"), "-O2", "-shared", "-fPIC")


def compiled(source, path, *flags):
    """Compiles a file of bench/, and returns the path of what came of it."""
    subprocess.run([shutil.which("gcc") or "cc", *flags, "-o", path, os.path.join(ROOT, "bench", source)], check=True)
    return path
