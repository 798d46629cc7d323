"""What the measurements of this folder share: the program and the words of the command, configurations, and runs with their time and memory."""
import os
import resource
import subprocess
import sys
import time

sys.dont_write_bytecode = True
ROOT = os.path.dirname(os.path.dirname(os.path.abspath(__file__)))
sys.path.insert(0, os.path.join(ROOT, "tools"))
import build
import frames

# Files are in memory where the system has a folder for that, so that the disk plays no part.
MEMORY = "/dev/shm" if os.path.isdir("/dev/shm") else None
# A measure counts where the host of a virtual machine took at most this part of a processor meanwhile. So often is one made for each that is wanted.
STOLEN, TRIES = 0.1, 5
# The configuration of one backend.
ONE_BACKEND = """level = "raidb1"
cache = {cache}
backends = [{{ name = "b0", kind = "{kind}" }}]
users = [{{ name = "ann", sha256 = "2bb80d537b1da3e38bd30361aa855686bde0eacd7162fef6a25fe97bf527a25b", logins = ["l0"] }}]
"""


def words_of_command():
    """The path of the program that the command names, or else of the one that is proved and built now; and the words behind it."""
    words = sys.argv[1:]
    program = words.pop(0) if words and "/" in words[0] else build.program()
    if not os.path.exists(program):
        sys.exit(f"bench: no program {program}")
    return os.path.abspath(program), words


def configuration_in(folder, cache=64):
    """The path of the example's configuration with a cache of so many answers, in a folder without a recovery log."""
    with open(build.CONF, encoding="utf-8") as example:
        return written(folder, example.read().replace("cache = 64", f"cache = {cache}"))


def one_backend_in(folder, kind="memory", cache=64):
    """The path of a configuration of one backend, in a folder without a recovery log."""
    return written(folder, ONE_BACKEND.format(kind=kind, cache=cache))


def written(folder, text):
    path = os.path.join(folder, "c.toml")
    with open(path, "w", encoding="utf-8") as file:
        file.write(text)
    return path


def watched(words, source, output=subprocess.DEVNULL, statuses=(0,)):
    """The seconds and the most bytes of memory of a run with the input from a file. It ends with one of these statuses."""
    start, most = time.monotonic(), 0
    child = subprocess.Popen(words, stdin=source, stdout=output)
    # What the system tells of a child that has ended has this program's own memory in it, from before the child began.
    while child.poll() is None:
        most = max(most, most_memory(child.pid))
        time.sleep(0.001)
    if child.returncode not in statuses:
        sys.exit(f"bench: {' '.join(words[1:])} ended with status {child.returncode}")
    return time.monotonic() - start, most


def most_memory(pid):
    """The most bytes that a process has held so far; 0 where it is gone."""
    try:
        with open(f"/proc/{pid}/status", encoding="utf-8") as status:
            return next((int(line.split()[1]) * 1024 for line in status if line.startswith("VmHWM:")), 0)
    except OSError:
        return 0


def processor_seconds(words, data=b""):
    """The seconds of a processor of a run with this input."""
    start = resource.getrusage(resource.RUSAGE_CHILDREN)
    done = subprocess.run(words, input=data, stdout=subprocess.DEVNULL, check=False)
    end = resource.getrusage(resource.RUSAGE_CHILDREN)
    if done.returncode != 0:
        sys.exit(f"bench: {words[0]} ended with status {done.returncode}")
    return end.ru_utime + end.ru_stime - start.ru_utime - start.ru_stime


def stolen_seconds():
    """The seconds that the host of a virtual machine has taken from its processors so far, all together."""
    with open("/proc/stat", encoding="utf-8") as lines:
        return int(next(lines).split()[8]) / os.sysconf("SC_CLK_TCK")


def undisturbed(measure, count):
    """So many results of a measure, during which the host took hardly any time from the processors. Where it never was so, all that were got."""
    told, counted = [], []
    while len(told) < TRIES * count and len(counted) < count:
        begun, stolen = time.monotonic(), stolen_seconds()
        told.append(measure())
        if stolen_seconds() - stolen <= STOLEN * (time.monotonic() - begun):
            counted.append(told[-1])
    return counted or told
