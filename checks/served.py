"""What the checks of a served cluster share: a serving with its console, honest clients, and the log that explains what these were answered.

The rows of table `w` are written and removed by the client that they belong to. The accounts of table `u` sum to 0, and each transfer between two of
them is a transaction. Other tables are no concern of these.
"""
import bisect
import collections
import contextlib
import ctypes
import hashlib
import itertools
import os
import re
import select
import signal
import socket
import struct
import subprocess
import sys
import threading
import time

sys.dont_write_bytecode = True
from common import Failed, expect, frames, start, wire
from cjc.local import free_port

# Each answer and each end has to come within so many seconds, on a machine that is busy with proofs too.
PATIENCE = 60
# A start has to read its log within so many.
START = 300
CLIENTS, ACCOUNTS = 8, 16
# A client's keys begin at its number times this, and it keeps at most so many rows.
STRIDE, KEPT = 10_000_000, 20
TABLES = ["CREATE TABLE w (k INTEGER PRIMARY KEY, v INTEGER)", "CREATE TABLE u (k INTEGER PRIMARY KEY, v INTEGER)"]
ENTRY = re.compile(r"^\d+ session=\d+ tx=(\d+) user=\S* (.*)$", re.MULTILINE)
ROW = re.compile(r"(?:(INSERT) INTO w VALUES \((\d+), 1\)|DELETE FROM w WHERE k = (\d+))")
MOVE = re.compile(r"UPDATE u SET v = v ([+-]) 1 WHERE k = (\d+) AND v <> (\d+)")
# The number of the system's call that gives a file of another process.
PIDFD_GETFD = 438
# What else the console is asked, and the form of the answer.
ASIDES = [("show cache", r"hits=\d+ misses=\d+"), ("abort 1", "refused NotOrphan 1"), ("enable b7", "refused Backend"), ("enable b0 none", "refused Dump"),
          ("enable b0", "refused AlreadyEnabled"), ("shew cache", "refused Command"), ("", "refused Command")]


class Gone(Failed):
    """The server is gone, or the connection."""


class Connection:
    """A client's connection, request by request."""

    def __init__(self, port, receive_buffer=None, patience=PATIENCE):
        self.socket = socket.socket()
        if receive_buffer:
            self.socket.setsockopt(socket.SOL_SOCKET, socket.SO_RCVBUF, receive_buffer)
        self.socket.settimeout(patience)
        try:
            self.socket.connect(("127.0.0.1", port))
        except ConnectionError as error:
            raise Gone("no connection") from error
        self.socket.setsockopt(socket.IPPROTO_TCP, socket.TCP_NODELAY, 1)

    def send(self, data):
        try:
            self.socket.sendall(data)
        except TimeoutError:
            raise Failed("the server takes no bytes") from None
        except ConnectionError as error:
            raise Gone("the connection broke in a request") from error

    def some(self, most):
        """Some bytes, none at the end."""
        try:
            return self.socket.recv(most)
        except TimeoutError:
            raise Failed(f"no reply within {self.socket.gettimeout():.0f} seconds") from None
        except ConnectionError as error:
            raise Gone("the connection broke before a reply") from error

    def take(self, count):
        data = bytearray()
        while len(data) < count:
            piece = self.some(count - len(data))
            if not piece:
                raise Gone("the connection ended before a reply")
            data += piece
        return bytes(data)

    def reply(self):
        """The bytes of the next reply, without its length."""
        return self.take(wire.body_length(self.take(wire.LENGTH.size)))

    def ask(self, line):
        """The reply to a request, as lines of words."""
        self.send(frames.frame(line.encode()))
        return frames.reply(self.reply())

    def expect(self, line, wanted):
        expect(f"> {line}", self.ask(line), wanted)

    def log_in(self):
        self.expect("LOGIN ann secret", ["done 0"])

    def end(self):
        """Says that no more requests come; replies still do."""
        try:
            self.socket.shutdown(socket.SHUT_WR)
        except OSError:
            # The server has ended the connection already.
            pass

    def close(self):
        self.socket.close()

    def reset(self):
        """Ends the connection by a reset."""
        self.socket.setsockopt(socket.SOL_SOCKET, socket.SO_LINGER, struct.pack("ii", 1, 0))
        self.socket.close()


class Client(threading.Thread):
    """An honest client, which works until the server is killed or it is told to stop. What it is answered is looked at here, or kept for `explain`."""

    # What was asked last.
    last = ""

    def __init__(self, number, serving, draws, log, first):
        super().__init__(daemon=True)
        self.number, self.serving, self.draws, self.key = number, serving, draws, first
        self.rows = collections.deque(sorted(key for key in log.rows if key // STRIDE == number))
        self.stop, self.error, self.told = threading.Event(), None, collections.Counter()
        # What was done, in order: an update that was answered, a count that was read, or a new connection. And the update that wasn't answered.
        self.steps, self.sent = [], None
        # The replies to the moves of each transfer by its key, and how it ended; None where its end wasn't answered.
        self.moves, self.ends = {}, {}

    def ask(self, line):
        self.told["requests"] += 1
        self.last = line
        return self.at.ask(line)

    def connect(self):
        self.last = "a connection"
        self.at = Connection(self.serving.port)
        expect(f"client {self.number}, LOGIN", self.ask("LOGIN ann secret"), ["done 0"])
        self.steps.append(("connection", None))

    def connect_again(self):
        self.at.close()
        self.connect()
        self.told["reconnects"] += 1

    def update(self, update, line):
        self.sent = update
        expect(f"client {self.number}, {line}", self.ask(line), ["done 1"])
        self.steps.append(("update", update))
        self.sent = None

    def insert(self):
        if len(self.rows) == KEPT:
            self.update(("-", self.rows[0]), f"DELETE FROM w WHERE k = {self.rows[0]}")
            self.rows.popleft()
        self.key += 1
        self.update(("+", self.key), f"INSERT INTO w VALUES ({self.key}, 1)")
        self.rows.append(self.key)

    def count(self):
        """Reads how many rows there are and the sum of their keys, which one place in the log has, or few."""
        name, counted = self.ask("SELECT COUNT(*), SUM(k) FROM w")
        expect(f"client {self.number}, what is counted", name, "1 rows of count, sum")
        self.steps.append(("count", counted.strip()))

    def read(self):
        """Reads a row of its own."""
        if self.rows:
            key = self.draws.choice(self.rows)
            expect(f"client {self.number}, row {key}", self.ask(f"SELECT v FROM w WHERE k = {key}"), ["1 rows of v", "  1"])
            self.told["reads"] += 1

    def sum(self):
        expect(f"client {self.number}, the sum of the accounts", self.ask("SELECT SUM(v) FROM u"), ["1 rows of sum", "  0"])
        self.told["sums"] += 1

    def transfer(self):
        """Moves a unit from one account to another, unless another transaction has changed one of them."""
        self.key += 1
        expect(f"client {self.number}, BEGIN", self.ask("BEGIN"), ["done 0"])
        for sign, account in zip("-+", self.draws.sample(range(ACCOUNTS), 2)):
            reply = self.ask(f"UPDATE u SET v = v {sign} 1 WHERE k = {account} AND v <> {self.key}")
            self.moves[(self.key, sign)] = reply[0]
            if reply != ["done 1"]:
                break
        end = self.draws.choice(("COMMIT", "COMMIT", "ROLLBACK")) if reply == ["done 1"] else "ROLLBACK"
        self.ends[self.key] = None
        expect(f"client {self.number}, {end}", self.ask(end), ["done 0"])
        self.ends[self.key] = end
        self.told["transfers"] += end == "COMMIT"

    def run(self):
        acts = [self.insert, self.count, self.count, self.read, self.read, self.sum, self.transfer]
        try:
            self.connect()
            while not self.stop.is_set():
                act = self.draws.choice(acts) if self.draws.random() > 0.01 else self.connect_again
                act()
            self.at.close()
        except Gone as gone:
            if not self.serving.killed.is_set():
                self.error = Failed(f"client {self.number}, {self.last}: {gone}, and the server was not killed")
        except (Failed, OSError, ValueError, IndexError, struct.error) as error:
            self.error = Failed(f"client {self.number}, {self.last}: {error}")


class Log:
    """What the log's entries make of the rows and the accounts, and what its updates are answered."""

    def __init__(self, program, conf):
        # The rows now and the sum of their keys; the place of each update of rows, from 1; the places behind which something is counted.
        self.rows, self.sum, self.places, self.counted = set(), 0, {}, collections.defaultdict(list, {"0, 0": [0]})
        # The accounts now; the transaction that has changed some, 0 for none, and how; the replies to moves; the transfers that were committed.
        self.accounts, self.holder, self.draft, self.replies, self.committed = [0] * ACCOUNTS, 0, [], {}, set()
        # How many entries were read, their bytes as they are listed, and the digest of these.
        self.entries, self.bytes, self.digest = 0, 0, hashlib.sha256().digest()
        self.program, self.conf = program, conf
        self.read()

    def read(self):
        """Takes the entries that are new. Those before have to be the same."""
        listed = subprocess.run([self.program, "log", self.conf], capture_output=True, timeout=PATIENCE)
        expect("the listing of the log", (listed.returncode, listed.stderr), (0, b""))
        if hashlib.sha256(listed.stdout[:self.bytes]).digest() != self.digest:
            raise Failed(f"the log's first {self.entries} entries are no longer the same")
        for tx, text in ENTRY.findall(listed.stdout[self.bytes:].decode()):
            self.take(int(tx), text)
        self.bytes, self.digest = len(listed.stdout), hashlib.sha256(listed.stdout).digest()

    def take(self, tx, text):
        self.entries += 1
        if row := ROW.fullmatch(text):
            self.change(("+", int(row[2])) if row[1] else ("-", int(row[3])))
        elif text.startswith("UPDATE u "):
            self.move(tx, text)
        elif text in ("COMMIT", "ROLLBACK") and tx == self.holder:
            self.end(text)

    def change(self, update):
        if update in self.places:
            raise Failed(f"the log has the update {update} twice")
        sign, key = update
        (self.rows.add if sign == "+" else self.rows.remove)(key)
        self.sum += key if sign == "+" else -key
        self.places[update] = len(self.places) + 1
        self.counted[f"{len(self.rows)}, {self.sum}"].append(len(self.places))

    def move(self, tx, text):
        self.holder = self.holder or tx
        reply = "done 1" if tx == self.holder else f"refused 25 Locked {self.holder} 0"
        if move := MOVE.fullmatch(text):
            sign, account, key = move[1], int(move[2]), int(move[3])
            self.replies[(key, sign)] = reply
            if tx == self.holder:
                self.draft.append((account, 1 if sign == "+" else -1, key))

    def end(self, text):
        if text == "COMMIT":
            for account, units, key in self.draft:
                self.accounts[account] += units
                self.committed.add(key)
        self.draft, self.holder = [], 0

    def updates_of(self, number, before):
        """The updates that client made after so many of all, in order."""
        later = itertools.islice(self.places.items(), before, None)
        return [update for update, _ in later if update[1] // STRIDE == number]

    def place_of(self, counted, low):
        """The first place from `low` on behind which this is counted, or None."""
        places = self.counted.get(counted, [])
        at = bisect.bisect_left(places, low)
        return places[at] if at < len(places) else None


def explain(client, log, before):
    """Looks whether the log explains what a client was answered in a serving that began at the place `before`; returns how many counts it explains."""
    counts, low, own = 0, before, before
    for what, value in client.steps:
        if what == "update":
            place = log.places.get(value, 0)
            if place <= low:
                raise Failed(f"client {client.number} was answered the update {value}, whose place in the log is {place}; it stood at {low}")
            low = own = place
        elif what == "connection":
            # What other clients did may be seen later over another connection.
            low = own
        else:
            counts += 1
            place = log.place_of(value, low)
            if place is None:
                raise Failed(f"client {client.number} counted (rows, sum of keys) {value}, and from place {low} on that is never so")
            low = place
    answered = [value for what, value in client.steps if what == "update"]
    logged = log.updates_of(client.number, before)
    if logged != answered and (client.sent is None or logged != [*answered, client.sent]):
        raise Failed(f"client {client.number} was answered {len(answered)} updates, and the log has others: {logged[-3:]} after {answered[-3:]}")
    explain_transfers(client, log)
    return counts


def explain_transfers(client, log):
    for move, reply in client.moves.items():
        expect(f"client {client.number}, the reply to the move {move}", reply, log.replies.get(move))
    for key, end in client.ends.items():
        if end is not None and (end == "COMMIT") != (key in log.committed):
            raise Failed(f"client {client.number} was answered {end} of its transfer {key}, and the log has it otherwise")


class Console:
    """The console of a server: commands in, answers out."""

    def __init__(self, run):
        self.run, self.rest = run, b""

    def send(self, line):
        try:
            self.run.stdin.write(line.encode() + b"\n")
        except BrokenPipeError:
            raise Gone("the console is closed") from None

    def line(self):
        """The next line of an answer."""
        end = time.monotonic() + PATIENCE
        while b"\n" not in self.rest:
            if not select.select([self.run.stdout], [], [], max(0, end - time.monotonic()))[0]:
                raise Failed(f"the console does not answer within {PATIENCE} seconds")
            piece = os.read(self.run.stdout.fileno(), 1 << 20)
            if not piece:
                raise Gone("the console has ended")
            self.rest += piece
        line, self.rest = self.rest.split(b"\n", 1)
        return line.decode()

    def ask(self, line):
        """The answer of one line."""
        self.send(line)
        return self.line()

    def lines(self, line):
        """The answer of any number of lines. A line that is no command follows, whose answer ends it."""
        self.send(line)
        self.send("end")
        return list(iter(self.line, "refused Command"))

    def match(self, line, form):
        answer = self.ask(line)
        if not re.fullmatch(form, answer):
            raise Failed(f"> {line}\n  wanted {form}\n  got    {answer}")


class Serving:
    """A server that serves at a port of its own, and its console. It is killed at the end of a `with` at the latest."""

    def __init__(self, program, conf, **more):
        """`more` is handed on to the start of the process."""
        self.program, self.conf, self.more, self.killed = program, conf, more, threading.Event()

    def __enter__(self):
        for _ in range(3):
            self.port = free_port()
            self.run = start([self.program, "serve", self.conf, f"127.0.0.1:{self.port}"], **self.more)
            try:
                if self.serves():
                    self.console = Console(self.run)
                    return self
            except BaseException:
                self.kill()
                raise
        self.look()

    def serves(self):
        """Waits until the server serves; False if it ended, as where another program has taken the port. It listens before it reads its log."""
        while self.run.poll() is None:
            try:
                at = Connection(self.port, patience=START)
                at.log_in()
                at.close()
                return True
            except Gone:
                time.sleep(0.01)
        return False

    def __exit__(self, kind, *_):
        try:
            if kind is not None and issubclass(kind, Failed) and not self.killed.is_set():
                # Of what was found wrong this is the cause.
                self.look(1)
        finally:
            self.kill()

    def look(self, patience=0):
        """Looks whether the server runs, and will for so many seconds."""
        with contextlib.suppress(subprocess.TimeoutExpired):
            self.run.wait(timeout=patience)
            raise Failed(f"the server ended with {self.run.returncode}: {self.run.stderr.read().decode()[-2000:]}")

    def terminate(self):
        """Ends it by SIGTERM, and returns its status."""
        self.killed.set()
        self.run.terminate()
        return self.run.wait(timeout=PATIENCE)

    def kill(self):
        self.killed.set()
        self.run.send_signal(signal.SIGKILL)
        self.run.wait(timeout=PATIENCE)
        for stream in (self.run.stdin, self.run.stdout, self.run.stderr):
            stream.close()

    def status(self, name):
        """A number that the system tells of the process."""
        with open(f"/proc/{self.run.pid}/status", encoding="utf-8") as status:
            return next(int(line.split()[1]) for line in status if line.startswith(f"{name}:"))

    def usage(self):
        """Its threads, open files and resident memory in KB."""
        return self.status("Threads"), len(os.listdir(f"/proc/{self.run.pid}/fd")), self.status("VmRSS")

    def private_memory(self):
        """The memory in KB that it shares with no other process and no file."""
        with open(f"/proc/{self.run.pid}/smaps_rollup", encoding="utf-8") as rollup:
            return next(int(row.split()[1]) for row in rollup if row.startswith("Pss_Anon:"))

    def pause(self, seconds):
        """Stops the process for so many seconds."""
        self.run.send_signal(signal.SIGSTOP)
        time.sleep(seconds)
        self.run.send_signal(signal.SIGCONT)

    def socket_of(self, at):
        """The server's socket of a connection. Until it is closed here, it stays open."""
        here = at.socket.getsockname()[1]
        with open("/proc/net/tcp", encoding="utf-8") as rows:
            node = next(row.split()[9] for row in rows if row.split()[1:3] == [f"0100007F:{self.port:04X}", f"0100007F:{here:04X}"])
        files = f"/proc/{self.run.pid}/fd"
        file = next(int(file) for file in os.listdir(files) if os.readlink(f"{files}/{file}") == f"socket:[{node}]")
        process = os.pidfd_open(self.run.pid)
        taken = ctypes.CDLL(None, use_errno=True).syscall(PIDFD_GETFD, process, file, 0)
        os.close(process)
        if taken < 0:
            raise OSError(ctypes.get_errno(), "the server's socket can't be taken")
        return socket.socket(fileno=taken)


def make_tables(serving):
    """Makes the tables with the accounts."""
    at = Connection(serving.port)
    at.log_in()
    for line in TABLES:
        at.expect(line, ["done 0"])
    for account in range(ACCOUNTS):
        at.expect(f"INSERT INTO u VALUES ({account}, 0)", ["done 1"])
    at.close()


def administer(serving, draws, until, name, told):
    """Disables, backs up and enables, in turn, asks other things and stops the process for a while, until a moment. Dumps get names that begin so."""
    console = serving.console
    for number in itertools.count(1):
        if time.monotonic() >= until:
            return
        b = draws.choice(("b0", "b1"))
        if number % 3 == 0:
            console.match(f"backup {b} {name}_{number}", r"ok \d+")
            told["backups"] += 1
        else:
            console.match(f"disable {b}", "ok")
            time.sleep(draws.uniform(0, 0.05))
            console.match(f"enable {b}", r"ok \d+")
            told["enablings"] += 1
        shown = console.lines("show backends")
        if len(shown) != 2 or not all(re.match(r"b[01] enabled position=\d+ .*faults=0 ", line) for line in shown):
            raise Failed(f"the console shows {shown}")
        console.match(*draws.choice(ASIDES))
        draws.choice((serving.pause, time.sleep, time.sleep, time.sleep))(draws.uniform(0, 0.2))


def work(serving, draws, seconds, name, told):
    """Administers for so many seconds. It looks whether the server still runs where the console has ended."""
    try:
        administer(serving, draws, time.monotonic() + seconds, name, told)
    except Gone:
        serving.look(1)
        raise Failed("the console has ended, and the server runs") from None


def strike(serving, draws, name):
    """Kills the server as its console carries out a command, or is about to. A dump gets this name."""
    serving.look()
    serving.console.send(draws.choice((f"backup b0 {name}", f"backup b1 {name}", "disable b0", "audit")))
    time.sleep(draws.uniform(0, 0.05))
    serving.kill()


def make_clients(serving, draws, log, firsts):
    """Makes the clients of a serving and lets them begin. `firsts` has the last key that each has used."""
    clients = [Client(number, serving, random_of(draws), log, firsts.get(number, number * STRIDE)) for number in range(1, CLIENTS + 1)]
    for client in clients:
        client.start()
    return clients


def random_of(draws):
    """Numbers of chance of its own for a thread."""
    return type(draws)(draws.random())


def leave(clients):
    """Has the clients stop, and waits for that."""
    for client in clients:
        client.stop.set()
    join(clients)


def join(clients):
    """Waits for the clients' ends, and raises what they found wrong."""
    for client in clients:
        client.join(2 * PATIENCE)
        if client.is_alive():
            raise Failed(f"client {client.number} waits for a reply")
        if client.error is not None:
            raise client.error


def held_by_both(serving):
    """The lines of an audit that say what a backend holds. Both hold the same."""
    lines = serving.console.lines("audit")
    middle = next(at for at, line in enumerate(lines) if line.startswith("b1 "))
    halves = [[line[3:] if line.startswith(f"b{b} ") else line for line in half] for b, half in enumerate((lines[:middle], lines[middle:]))]
    if halves[0] != halves[1]:
        raise Failed(f"the backends differ: {set(halves[0]) ^ set(halves[1])}")
    return halves[0]


def audited(serving, log):
    """Looks by an audit whether both backends hold the same, and what the log says. No transaction is open."""
    held = held_by_both(serving)
    rows, accounts = (rows_of(held, name) for name in "wu")
    expect("the rows that the backends hold", rows, [f"{key},1" for key in sorted(log.rows)])
    expect("the accounts that the backends hold", accounts, [f"{account},{units}" for account, units in enumerate(log.accounts)])
    expect("tables with an open transaction", [line for line in held if re.match(r"\w+ draft", line)], [])


def rows_of(lines, name):
    """The rows of a table in an audit, without spaces."""
    at, count = next((at, int(line.rsplit(" ", 1)[1])) for at, line in enumerate(lines) if line.startswith(f"{name} base "))
    return [line.replace(" ", "") for line in lines[at + 1:at + 1 + count]]
