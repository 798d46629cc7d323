"""Hostile clients of a served cluster: a fleet of threads in a process of its own.

They send mutated frames, cut connections inside frames and replies, by a reset too, read slowly or never, send a byte at a time, open and drop many
connections, log in wrongly again and again, ask for answers of 1 MiB, vanish with transactions open that lock the accounts, and leave connections that
nobody uses. A mutated frame has to be answered with the fault that docs/FORMATS.md gives it, or else by a reply of the right kind; a wrong login by
refusal 3. None of them may lose its connection while the server runs.

usage: checks/fleet.py PORT SEED     begins at a first line of the input, ends at a second one, and prints what it did
"""
import collections
import json
import os
import random
import struct
import sys
import threading
import time

sys.dont_write_bytecode = True
from common import Failed, expect, frames, session, start
from served import PATIENCE, Connection, Gone, random_of

HOSTILE = 8
# The bytes of the longest frame. An answer of almost so many has each row of `many` beside each of `big` but its last; that row makes it too long.
LONGEST, BIG_ROWS, MANY_ROWS, BIG_TEXT = 1 << 20, 15, 17, "x" * 4080
BIG = f"SELECT big.k, many.k, v FROM big, many WHERE big.k < {BIG_ROWS}"
TOO_BIG = "SELECT big.k, many.k, v FROM big, many"
BIG_REPLY = [f"{BIG_ROWS * MANY_ROWS} rows of k, k, v"] + [f"  {big}, {many}, '{BIG_TEXT}'" for big in range(BIG_ROWS) for many in range(MANY_ROWS)]
KEYS = 400
# The connections of a burst, the wrong logins and the requests of a flood that come over one connection.
BURST, LOGINS, FLOOD = 60, 12, 100
# The most bytes of a wrong password, and the most connections that a client leaves unused.
PASSWORD, LEFT = 60000, 16
LOGIN, QUERY, STATS, QUIT = 1, 2, 3, 4


# ---- what mutated frames are answered

def is_login(payload):
    """Whether these bytes are two texts, each behind its length of two bytes."""
    user = int.from_bytes(payload[:2], "big") + 2
    return len(payload) >= user + 2 and len(payload) == user + 2 + int.from_bytes(payload[user:user + 2], "big")


def fault_of(data):
    """The fault of a frame that these bytes begin with, as soon as it can be seen; 0 where there is none."""
    length, kind = int.from_bytes(data[:4], "big"), data[4:5]
    if len(data) >= 4 and not 1 <= length <= LONGEST:
        return 1 if length == 0 else 2
    if kind and not LOGIN <= kind[0] <= QUIT:
        return 3
    if len(data) < 5 or len(data) < 4 + length:
        return 0
    payload = data[5:4 + length]
    fits = is_login(payload) if kind[0] == LOGIN else kind[0] == QUERY or not payload
    return 0 if fits else 4


def due(data):
    """The forms of the replies that these bytes are due, each a function of a reply in words."""
    forms, logged_in = [], False
    while True:
        if fault := fault_of(data):
            return [*forms, lambda reply: reply == f"refused 1 BadFrame {fault} 0"]
        length = int.from_bytes(data[:4], "big")
        if len(data) < 5 or len(data) < 4 + length or data[4] == QUIT:
            return forms
        frame, data = data[:4 + length], data[4 + length:]
        forms.append(form_of(frame, logged_in))
        logged_in = logged_in or frame == frames.frame(b"LOGIN ann secret")


def form_of(frame, logged_in):
    """The form of the reply to a frame without a fault."""
    if frame[4] == LOGIN:
        word_of = "refused 4 AlreadyLoggedIn 0 0" if logged_in else "done 0" if frame == frames.frame(b"LOGIN ann secret") else "refused 3 BadLogin 0 0"
        return lambda reply: reply == word_of
    if not logged_in:
        return lambda reply: reply == "refused 2 NotLoggedIn 0 0"
    if frame[4] == STATS:
        return lambda reply: reply.startswith("hits ")
    return is_reply_to_statement


def is_reply_to_statement(reply):
    """Whether a statement may be answered so: not by a refusal of a frame, of a login, or of a cluster that fails."""
    words = reply.split()
    return words[0] == "done" or words[1:3] == ["rows", "of"] or words[0] == "refused" and 10 <= int(words[1]) <= 30 and words[1] != "20"


# ---- hostile clients

class Hostile(threading.Thread):
    """Does what no client should, again and again, over a new connection each time."""

    def __init__(self, port, draws, killed):
        super().__init__(daemon=True)
        self.port, self.draws, self.killed, self.stop = port, draws, killed, threading.Event()
        self.told, self.error, self.left = collections.Counter(), None, []

    def connect(self, receive_buffer=None):
        self.told["connections"] += 1
        return Connection(self.port, receive_buffer)

    def log_in(self, receive_buffer=None):
        at = self.connect(receive_buffer)
        at.log_in()
        self.told["requests"] += 1
        return at

    def drop(self, at):
        (at.reset if self.draws.random() < 0.5 else at.close)()

    def pause(self, most):
        self.stop.wait(self.draws.uniform(0, most))

    def statement(self):
        key, draws = self.draws.randrange(KEYS), self.draws
        return draws.choice((
            f"INSERT INTO hostile VALUES ({key}, 'a''b')", f"UPDATE hostile SET v = 'c' WHERE k < {key}", f"DELETE FROM hostile WHERE k >= {key}",
            f"SELECT * FROM hostile WHERE k = {key} OR v = 'c' ORDER BY v DESC LIMIT 9", "SELECT v, COUNT(*) FROM hostile GROUP BY v", "BEGIN", "COMMIT",
            "ROLLBACK", "CREATE TABLE hostile (k INTEGER PRIMARY KEY, v TEXT)", "STATS"))

    def mutated(self, data):
        """Bytes with one or two of them changed, removed or added, at the front of a frame as often as elsewhere."""
        data = bytearray(data)
        for _ in range(self.draws.choice((1, 1, 2))):
            at = self.draws.randrange(self.draws.choice((len(data), min(len(data), 5))))
            value = self.draws.choice((0, 1, 2, 3, 4, 255, self.draws.randrange(256)))
            self.draws.choice((lambda: data.__setitem__(at, value), lambda: data.__delitem__(at), lambda: data.insert(at, value)))()
        return bytes(data)

    def send_mutated(self):
        """Sends frames of which one is mutated, closes its side, and looks at all replies."""
        front = ["LOGIN ann secret"] if self.draws.random() < 0.9 else []
        lines = [self.statement() for _ in range(self.draws.randrange(1, 6))]
        broken = self.draws.randrange(len(lines))
        data = session(*front, *lines[:broken]) + self.mutated(session(lines[broken])) + session(*lines[broken + 1:])
        at = self.connect()
        at.send(data)
        at.end()
        forms = due(data)
        for form in forms:
            reply = frames.reply(at.reply())[0]
            if not form(reply):
                raise Failed(f"the reply to {data!r}, {len(forms)} are due: {reply}")
            self.told["faults"] += reply.startswith("refused 1 ")
        expect(f"what follows the replies to {data!r}", at.some(1), b"")
        self.told["requests"] += len(forms)
        at.close()

    def cut_frame(self):
        long = session("SELECT " + "x" * (LONGEST - len(" SELECT ")))
        at, frame = self.draws.choice((self.connect, self.log_in))(), self.draws.choice((session(self.statement()), long))
        at.send(frame[:self.draws.randrange(1, len(frame))])
        self.pause(0.05)
        self.drop(at)

    def cut_reply(self):
        at = self.log_in()
        at.send(session(BIG))
        if self.draws.random() < 0.8:
            at.some(self.draws.randrange(1, LONGEST // 2))
        self.drop(at)

    def ask_big(self):
        at = self.log_in()
        expect("the answer of 1 MiB", at.ask(BIG), BIG_REPLY)
        reply = at.ask(TOO_BIG)[0]
        if not reply.startswith("refused 30 TooLarge "):
            raise Failed(f"the answer of more than 1 MiB: {reply}")
        self.told["requests"] += 2
        at.close()

    def read_slowly(self):
        """Reads an answer of 1 MiB in small pieces, whole or not."""
        at, end = self.log_in(16384), time.monotonic() + 1
        at.send(session(BIG))
        taken = 0
        while time.monotonic() < end and taken < LONGEST // 2:
            taken += len(at.some(8192))
            self.pause(0.01)
        self.drop(at)

    def read_never(self):
        at = self.log_in(16384)
        at.send(session(*[BIG] * 8))
        self.pause(1)
        self.drop(at)

    def send_slowly(self):
        at = self.connect()
        for byte in session("LOGIN ann secret", "STATS"):
            at.send(bytes((byte,)))
            time.sleep(0.002)
        expect("the reply to a login byte by byte", frames.reply(at.reply()), ["done 0"])
        expect("the reply to Stats byte by byte", frames.reply(at.reply())[0][:5], "hits ")
        self.told["requests"] += 2
        at.close()

    def burst(self):
        opened = [self.connect() for _ in range(self.draws.randrange(BURST))]
        for at in opened:
            if self.draws.random() < 0.3:
                at.send(b"\0")
        self.pause(0.1)
        for at in opened:
            self.drop(at)

    def log_in_wrongly(self):
        at, long = self.connect(), "x" * self.draws.randrange(1, PASSWORD)
        for _ in range(LOGINS):
            at.expect(self.draws.choice(("LOGIN ann secreT", "LOGIN anm secret", f"LOGIN ann {long}")), ["refused 3 BadLogin 0 0"])
        at.log_in()
        self.told["requests"] += LOGINS + 1
        at.close()

    def flood(self):
        """Sends many requests ahead, and then takes the replies."""
        at = self.log_in()
        at.send(session(*["STATS", "SELECT COUNT(*) FROM hostile"] * (FLOOD // 2)))
        for number in range(FLOOD):
            reply = frames.reply(at.reply())
            if not (reply[0].startswith("hits ") if number % 2 == 0 else is_reply_to_statement(reply[0])):
                raise Failed(f"the reply to request {number} of a flood: {reply}")
        self.told["requests"] += FLOOD
        at.close()

    def vanish(self):
        """Goes with a transaction open, which has changed all accounts or the table `hostile`."""
        at = self.log_in()
        at.expect("BEGIN", ["done 0"])
        reply = at.ask(self.draws.choice(("UPDATE u SET v = v + 1000 WHERE k >= 0", "DELETE FROM hostile")))[0]
        if not is_reply_to_statement(reply):
            raise Failed(f"the reply to a change: {reply}")
        self.pause(0.2)
        if self.draws.random() < 0.3:
            at.send(session("SELECT COUNT(*) FROM u")[:9])
        self.drop(at)
        self.told["requests"] += 2
        self.told["transactions"] += 1

    def leave(self):
        """Leaves a connection that nobody uses any more: a session, one in a transaction, or one whose replies nobody reads. An old one ends."""
        at = self.log_in(16384)
        at.send(session(*self.draws.choice(([], ["BEGIN", "SELECT COUNT(*) FROM u"], [BIG] * 8))))
        self.left.append(at)
        if len(self.left) > LEFT:
            self.drop(self.left.pop(0))

    def run(self):
        kinds = [self.send_mutated] * 6 + [self.cut_frame] * 2 + [self.cut_reply, self.ask_big, self.read_slowly, self.read_never, self.send_slowly]
        kinds += [self.burst, self.log_in_wrongly, self.flood, self.vanish, self.vanish, self.leave]
        while not self.stop.is_set() and self.error is None:
            kind = self.draws.choice(kinds)
            try:
                kind()
                self.pause(0.05)
            except Gone as gone:
                # The word of a kill may come after its effect.
                if not self.killed.wait(PATIENCE):
                    self.error = f"{kind.__name__}: {gone}, and the server was not killed"
                return
            except (Failed, OSError, ValueError, IndexError, struct.error) as error:
                self.error = f"{kind.__name__}: {error}"


def run_fleet(port, seed):
    """The hostile clients of a serving. They begin at a first line of the input and end at a second one, or once the server is killed."""
    draws, killed = random.Random(seed), threading.Event()
    clients = [Hostile(port, random_of(draws), killed) for _ in range(HOSTILE)]
    sys.stdin.readline()
    for client in clients:
        client.start()
    word_of_end = sys.stdin.readline()
    if word_of_end == "killed\n":
        killed.set()
    elif not word_of_end:
        # The check has ended.
        os._exit(1)
    for client in clients:
        client.stop.set()
    end = time.monotonic() + 2 * PATIENCE
    for client in clients:
        client.join(max(0, end - time.monotonic()))
    errors = [client.error for client in clients if client.error] + ["it waits for the server"] * sum(client.is_alive() for client in clients)
    print(json.dumps({"errors": errors, "told": sum((client.told for client in clients), collections.Counter())}), flush=True)
    # A thread that waits holds up nobody.
    os._exit(0)


class Fleet:
    """The fleet's process, seen from outside."""

    def __init__(self, port, draws):
        self.run = start([sys.executable, os.path.abspath(__file__), str(port), str(draws.random())], stderr=None)

    def begin(self):
        self.run.stdin.write(b"begin\n")

    def end(self, how):
        """Ends it, and returns what it did, counted."""
        told = json.loads(self.run.communicate(how, timeout=3 * PATIENCE)[0])
        if told["errors"]:
            raise Failed("a hostile client: " + "; ".join(told["errors"]))
        return told["told"]


def make_hostile_tables(serving):
    """Makes the tables that the fleet asks for, beside those of the honest clients."""
    at = Connection(serving.port)
    at.log_in()
    for line in ("CREATE TABLE hostile (k INTEGER PRIMARY KEY, v TEXT)", "CREATE TABLE big (k INTEGER PRIMARY KEY, v TEXT)",
                 "CREATE TABLE many (k INTEGER PRIMARY KEY)"):
        at.expect(line, ["done 0"])
    for key in range(BIG_ROWS + 1):
        at.expect(f"INSERT INTO big VALUES ({key}, '{BIG_TEXT}')", ["done 1"])
    at.expect("INSERT INTO many VALUES " + ", ".join(f"({key})" for key in range(MANY_ROWS)), [f"done {MANY_ROWS}"])
    at.close()


if __name__ == "__main__":
    run_fleet(int(sys.argv[1]), sys.argv[2])
