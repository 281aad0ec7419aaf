#!/usr/bin/env python3
"""A client of a service over a Unix socket, as examples/service makes it.

It connects, reads `open NEXT COUNT FROM`, and sends lines from NEXT on. It keeps each line until it is told as stored, so
after a cut it connects again, compares NEXT with what it was told, and sends what the store hasn't. Each reply comes once,
in the order of the lines; one that comes again must be the one that came before. Answers have names: names_of asks
`railgun check` for them. Errors are those of the classes below; a line that has an LF in it is a ValueError. After an error
that ended the connection the next call connects again.

    client = Client("/run/railgun.socket", names_of("plan.toml"))
    reply = client.ask("1764547200000,c1,m1,1299")        # waits for the answer of this one
    for line in lines:                                    # or keeps many under way
        client.send(line)
        for reply in client.ready():
            print(reply.offset, reply.kind, reply.answers)
    for reply in client.close():
        ..

As a program, railgun_client.py SOCKET FILE PLAN [STORE], it sends the lines of a file from the one on that the service asks
for, and prints each reply as a line of JSON; with STORE it has lost replies from `railgun replay`. RAILGUN names the program.
Its status is 1 where the service refused, or the store isn't what it was, with the reason on standard error."""

import collections
import json
import os
import re
import select
import socket
import subprocess
import sys
import time

PROGRAM = os.environ.get("RAILGUN", "railgun")
Ratio = collections.namedtuple("Ratio", "sum count")


class Refused(Exception):
    """The service says why it doesn't serve: its line, as `refused start missing`."""


class StoreLost(Exception):
    """The store opens below what it told as stored: it isn't the one that it was. Stop, and call somebody."""


class OtherSource(Exception):
    """The store opens above what this client has sent, or a reply is to a line that it hasn't sent."""


class Differs(Exception):
    """A line that was answered again has another answer than before."""


class Away(Exception):
    """The service wasn't reached within the client's patience."""


def names_of(plan, program=PROGRAM):
    """The names of a plan's answers, in order: each as the query that asks for it alone, without SELECT.

    A count by card is `count(*) FROM payments GROUP BY card OVER SLIDING 300000 ms`. A plan that is refused is a ValueError."""
    done = subprocess.run([program, "check", plan], stdin=subprocess.DEVNULL, capture_output=True, check=False)
    if done.returncode:
        raise ValueError(done.stderr.decode(errors="replace").strip())
    names = []
    for line in done.stdout.decode().splitlines():
        query = re.fullmatch(r"query \d+ SELECT (.*?)( FROM .*)", line)
        if query:
            names += [answer + query[2] for answer in re.split(r", (?![^(]*\))", query[1])]
    return names


def replayed(plan, store, program=PROGRAM):
    """What a Client wants as `replay`, where the program and the store are on this machine."""

    def lines(first):
        done = subprocess.run([program, "replay", plan, store, str(first)], stdin=subprocess.DEVNULL, capture_output=True, check=True)
        return done.stdout.splitlines()

    return lines


def value_of(text):
    """An answer: a number, a Ratio for a mean, None where there is no value."""
    if text == "-":
        return None
    top, slash, count = text.partition("/")
    return Ratio(int(top), int(count)) if slash else int(top)


class Reply:
    """The reply to a line: its offset, its kind (`ok`, `late`, `value` ..), what stands behind that, and its answers by name.

    The kind is `lost` where the line is stored and the reply was lost; `none` where it was lost and the line isn't stored,
    so that it was refused."""

    def __init__(self, offset, text, names):
        self.offset, self.names = offset, names
        self.kind, _, self.more = text.partition(" ")

    @property
    def answers(self):
        return dict(zip(self.names, map(value_of, self.more.split()))) if self.kind in ("ok", "moved") else {}


class Line:
    """A line that was given, and its reply once that has come."""

    __slots__ = ("text", "reply")

    def __init__(self, text):
        self.text, self.reply = text, None


class Client:
    """A source of lines. Offsets are those of the stream: the first line that is sent has the store's next one, `next`.

    names      names of the answers, as names_of gives them
    replay     called with an offset, gives the lines of `railgun replay` from there on, for replies that were lost
    patience   seconds for which a service that is away, fails or still opens its store is waited for
    under_way  how many lines without a reply there may be at most"""

    def __init__(self, path, names=(), replay=None, patience=60.0, under_way=4096):
        self.path, self.names, self.replay, self.patience, self.under_way = path, names, replay, patience, under_way
        self.kept, self.base, self.next = [], 0, None  # the lines from offset `base` on
        self.stored = 0
        self.sent = self.answered = 0  # offsets
        self.replies = collections.deque()
        self.connections = 0
        self.ended = self.ending = False
        self.connect()

    # What a caller calls.

    def send(self, line):
        """Takes a line without its LF, and returns its offset. It waits while too many are under way."""
        text = line.encode() if isinstance(line, str) else bytes(line)
        if b"\n" in text:
            raise ValueError("a line with an LF in it")
        offset = self.next
        self.kept.append(Line(text))
        self.next += 1
        self.pump(0)
        while self.next - self.answered > self.under_way:
            self.pump(1)
        return offset

    def ready(self):
        """The replies that have come and weren't handed out."""
        while self.replies:
            yield self.replies.popleft()

    def reply(self):
        """Waits for the next reply, which must be under way."""
        while not self.replies:
            if self.answered == self.next:
                raise ValueError("no line is under way")
            self.pump(1)
        return self.replies.popleft()

    def ask(self, line):
        """Sends a line, and waits for its reply; no other may be under way or not handed out."""
        if self.replies or self.answered != self.next:
            raise ValueError("another line is under way")
        self.send(line)
        return self.reply()

    def close(self):
        """Ends the input, waits until all is stored, and returns the replies that weren't handed out."""
        while not self.ended:
            if self.sent == self.next and not self.out:
                self.end_input()
            self.pump(1)
        self.socket.close()
        return list(self.ready())

    # How it is done.

    def end_input(self):
        self.ending = True
        try:
            self.socket.shutdown(socket.SHUT_WR)
        except OSError:
            pass  # the cut is seen by the read

    def connect(self):
        """Calls until the service opens a store, and goes on where that stands."""
        end, pause, said = time.monotonic() + self.patience, 0.05, ""
        while True:
            said, rest = self.call()
            if said.startswith("open "):
                break
            if said.startswith("refused "):
                raise Refused(said)
            if time.monotonic() > end:
                raise Away(said or f"{self.path} gives no answer")
            time.sleep(pause)
            pause = min(2 * pause, 1.0)
        self.connections += 1
        self.input, self.out, self.ending = rest, b"", False
        try:
            self.go_on(int(said.split()[1]))
        except Exception:
            self.socket.close()
            raise

    def call(self):
        """A connection's first line, and what came behind it."""
        self.socket = socket.socket(socket.AF_UNIX)
        self.socket.settimeout(self.patience)
        data = b""
        try:
            self.socket.connect(self.path)
            while b"\n" not in data and (came := self.socket.recv(1 << 16)):
                data += came
        except OSError:
            pass
        line, ended, rest = data.partition(b"\n")
        if not (ended and line.startswith(b"open ")):
            self.socket.close()
        else:
            self.socket.settimeout(None)
        return (line.decode(errors="replace") if ended else ""), rest

    def go_on(self, opened):
        """Compares the store's next offset with what is known, and brings the replies that were lost."""
        if self.next is None:
            self.base = self.next = self.answered = self.stored = opened
        if opened < self.stored:
            raise StoreLost(f"the store opens at {opened}, and {self.stored} was told as stored")
        if opened > self.next:
            raise OtherSource(f"the store opens at {opened}, and only the lines below {self.next} were sent")
        if opened > self.answered:
            self.bring(opened)
        self.sent = opened
        self.store(opened)

    def bring(self, end):
        """Takes the replies to the stored lines that weren't answered from a replay."""
        found = {}
        for line in self.replay(self.answered) if self.replay else ():
            offset, _, reply = line.decode().partition(" ")
            found[offset] = reply
        for offset in range(self.answered, end):
            self.take(offset, found.get(str(offset), "none") if self.replay else "lost")

    def pump(self, patience):
        """Writes and reads what there is, and waits so many seconds at most for any of it."""
        if self.socket.fileno() < 0:  # an error has ended the connection
            self.connect()
        if not self.out and self.sent < self.next:
            last = min(self.next, self.sent + 512)
            self.out = b"".join(it.text + b"\n" for it in self.kept[self.sent - self.base : last - self.base])
            self.sent = last
        if b"\n" in self.input:
            self.read(b"")
        readable, writable, _ = select.select([self.socket], [self.socket] if self.out else [], [], patience)
        try:
            if writable:
                self.out = self.out[self.socket.send(self.out, socket.MSG_DONTWAIT) :]
        except BlockingIOError:
            pass
        except OSError:
            readable = [self.socket]
        if readable:
            self.read(self.receive())

    def receive(self):
        """What has come; after a cut nothing, and it is connected again."""
        try:
            came = self.socket.recv(1 << 16)
        except OSError:
            came = b""
        if not came and not self.ended:
            self.socket.close()
            self.connect()
        return came

    def read(self, came):
        *lines, self.input = (self.input + came).split(b"\n")
        for line in lines:
            word, _, more = line.decode(errors="replace").partition(" ")
            if word.isdigit():
                self.take(int(word), more)
            elif word == "stored":
                self.store(int(more))
            elif word == "done":
                self.ended = self.ending  # one that wasn't asked for is a cut

    def take(self, offset, reply):
        """A reply has come, for the first time or again."""
        if not self.base <= offset < self.next:
            raise OtherSource(f"a reply to line {offset}, which isn't under way")
        line = self.kept[offset - self.base]
        if line.reply is None:
            line.reply = reply
            self.answered = offset + 1
            self.replies.append(Reply(offset, reply, self.names))
        elif line.reply != reply and line.reply not in ("lost", "none"):
            raise Differs(f"line {offset} was answered '{line.reply}', and now '{reply}'")

    def store(self, stored):
        """The lines below this offset needn't be kept."""
        del self.kept[: max(0, stored - self.base)]
        self.base = max(self.base, stored)
        self.stored = max(self.stored, stored)


def main():
    path, file, plan, *store = sys.argv[1:]
    client = Client(path, names_of(plan), replayed(plan, *store) if store else None)

    def show(replies):
        for it in replies:
            print(json.dumps({"offset": it.offset, "kind": it.kind, "more": it.more if not it.answers else "", "answers": it.answers}), flush=True)

    with open(file, "rb") as lines:
        for at, line in enumerate(lines):
            if at == client.next:
                client.send(line.rstrip(b"\n"))
                show(client.ready())
    show(client.close())


if __name__ == "__main__":
    try:
        main()
    except (Refused, StoreLost, OtherSource, Differs, Away, ValueError) as why:
        sys.exit(f"railgun_client.py: {type(why).__name__}: {why}")
