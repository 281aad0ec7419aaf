#!/usr/bin/python3
"""Runs `railgun run ..`, hands its input and its output on as they come, and serves figures of what it saw.

Usage: watch.py [OPTION..] [--] COMMAND.., in the place of COMMAND, as `railgun run plan.toml store`.

    --port N        serve on this port: /metrics for Prometheus, / a page to look at, /figures.json what the page reads
    --address A     of this address; 127.0.0.1 unless it is said
    --first N       the offset of the first line of the input, as FIRST of the run; 0 unless it is said
    --plan FILE     the plan, whose names of columns stand at bad values; else their numbers do
    --memory FILE   the last `stored` is kept in this file. A run that opens below it is ended: status 74
    --front TEXT    a command, as the shell writes it, through which the input goes first, one line for each. Where it fails,
                    the run is killed, and the status is that of this command

The wait of an answer is from the moment in which its line was read here to that in which its answer was. Counts are of this
run, and begin at 0 with each. A port that is taken is told on standard error, and the run goes on without.
The status is that of COMMAND. It needs Debian's python3-prometheus-client."""

import argparse
import bisect
import collections
import http.server
import json
import os
import shlex
import subprocess
import sys
import threading
import time
import tomllib

from prometheus_client import CollectorRegistry, generate_latest
from prometheus_client.core import CounterMetricFamily, GaugeMetricFamily, HistogramMetricFamily

KINDS = ("ok", "moved", "late", "full", "row", "fields", "time", "value", "long", "head", "done")
BOUNDS = (0.0001, 0.00025, 0.0005, 0.001, 0.0025, 0.005, 0.01, 0.025, 0.05, 0.1, 0.25, 0.5, 1, 2.5, 5, 10)
GAUGES = {
    "next": "The offset behind the last answered line.",
    "open_next": "NEXT of the open line.",
    "open_payments": "COUNT of the open line: the payments that the store had.",
    "open_checkpoint": "FROM of the open line: how many of them were in the checkpoint.",
    "stored": "The number of the last `stored` line: accepted payments below it are on the disk.",
    "stored_time_seconds": "When the last `stored` line came, or the open line, in seconds of Unix time.",
    "saved": "The number of the last `saved` line: a checkpoint of so many payments is saved.",
}


class Figures:
    """What was seen of a run: counts, marks and waiting times. Any thread may read it, under its lock."""

    def __init__(self, columns):
        self.lock = threading.Lock()
        self.columns = columns
        self.kinds = dict.fromkeys(KINDS, 0)
        self.bad_values = collections.Counter()
        self.marks = dict.fromkeys(GAUGES, 0)
        self.checkpoints = 0
        self.waits = [0] * (len(BOUNDS) + 1)
        self.waited = 0.0
        self.came = collections.deque()  # (the offset behind the lines that came together, when)

    def see(self, line, now):
        """Counts a line of the output that came at this moment (of time.monotonic)."""
        word, _, more = line.partition(b" ")
        if word.isdigit():
            self.see_reply(int(word), more, now)
        elif word == b"open":
            self.marks.update(zip(("open_next", "open_payments", "open_checkpoint"), map(int, more.split())))
            self.marks["next"] = self.marks["stored"] = self.marks["open_next"]
            self.marks["stored_time_seconds"] = time.time()
        elif word == b"stored":
            self.marks.update(stored=int(more), stored_time_seconds=time.time())
        elif word == b"saved":
            self.marks["saved"] = int(more)
            self.checkpoints += 1

    def see_reply(self, offset, reply, now):
        kind, _, more = reply.partition(b" ")
        kind = kind.decode()
        self.kinds[kind] = self.kinds.get(kind, 0) + 1
        self.marks["next"] = offset + 1
        if kind == "value":
            column = int(more)
            self.bad_values[self.columns[column] if column < len(self.columns) else str(column)] += 1
        while self.came and self.came[0][0] <= offset:
            self.came.popleft()
        if self.came:
            wait = now - self.came[0][1]
            self.waits[bisect.bisect_left(BOUNDS, wait)] += 1
            self.waited += wait

    def table(self):
        """All figures as one table."""
        with self.lock:
            return {
                "now": time.time(),
                "kinds": dict(self.kinds),
                "bad_values": dict(self.bad_values),
                "marks": dict(self.marks),
                "checkpoints": self.checkpoints,
                "bounds": BOUNDS,
                "waits": list(self.waits),
                "waited": self.waited,
            }

    def collect(self):
        """The figures as Prometheus' client wants them."""
        seen = self.table()
        replies = CounterMetricFamily("railgun_replies", "Replies by their kind.", labels=["kind"])
        for kind, count in seen["kinds"].items():
            replies.add_metric([kind], count)
        yield replies
        bad = CounterMetricFamily("railgun_bad_values", "Replies `value` by the column.", labels=["column"])
        for column, count in seen["bad_values"].items():
            bad.add_metric([column], count)
        yield bad
        for name, text in GAUGES.items():
            yield GaugeMetricFamily(f"railgun_{name}", text, value=seen["marks"][name])
        yield CounterMetricFamily("railgun_checkpoints", "Checkpoints that were saved.", value=seen["checkpoints"])
        waits, buckets, total = HistogramMetricFamily("railgun_wait_seconds", "How long a line waited for its answer."), [], 0
        for bound, count in zip((*map(str, BOUNDS), "+Inf"), seen["waits"]):
            total += count
            buckets.append((bound, total))
        waits.add_metric([], buckets, seen["waited"])
        yield waits


class Memory:
    """A file that has the number of the last `stored` line, written at most five times a second and at the end."""

    def __init__(self, path):
        self.path, self.known, self.written, self.then = path, 0, None, 0.0
        if path and os.path.exists(path):
            with open(path, encoding="ascii") as it:
                self.known = int(it.read() or 0)

    def keep(self, stored, at_once=False):
        """Writes it, where it is time; on a full disk the older number stays, and says less."""
        now = time.monotonic()
        if not self.path or stored == self.written or (now - self.then < 0.2 and not at_once):
            return
        self.then = now
        try:
            with open(f"{self.path}.new", "w", encoding="ascii") as it:
                it.write(f"{stored}\n")
            os.replace(f"{self.path}.new", self.path)
            self.written = stored
        except OSError as why:
            print(f"watch.py: {why}", file=sys.stderr)


class Page(http.server.BaseHTTPRequestHandler):
    """Answers a request; `figures` and `registry` are set on the class that serves."""

    def do_GET(self):
        here = os.path.dirname(os.path.realpath(__file__))
        if self.path == "/metrics":
            self.answer("text/plain; version=0.0.4; charset=utf-8", generate_latest(self.registry))
        elif self.path == "/figures.json":
            self.answer("application/json", json.dumps(self.figures.table()).encode())
        elif self.path == "/":
            with open(f"{here}/page.html", "rb") as it:
                self.answer("text/html; charset=utf-8", it.read())
        else:
            self.send_error(404)

    def answer(self, kind, body):
        self.send_response(200)
        self.send_header("Content-Type", kind)
        self.send_header("Content-Length", str(len(body)))
        self.send_header("Cache-Control", "no-store")
        self.end_headers()
        self.wfile.write(body)

    def log_message(self, *_):
        """Nothing is said of a request."""


def serve(figures, address, port):
    registry = CollectorRegistry(auto_describe=False)
    registry.register(figures)
    page = type("Served", (Page,), {"figures": figures, "registry": registry})
    try:
        server = http.server.ThreadingHTTPServer((address, port), page)
    except OSError as why:
        print(f"watch.py: no figures are served on {address}:{port}: {why}", file=sys.stderr)
        return
    threading.Thread(target=server.serve_forever, daemon=True).start()


def write_all(descriptor, data):
    while data:
        data = data[os.write(descriptor, data) :]


def feed(target, figures, offset):
    """Hands standard input on, and notes when its lines came, the first of which has this offset."""
    try:
        while data := os.read(0, 1 << 16):
            ended = data.count(b"\n")
            if ended:
                offset += ended
                figures.came.append((offset, time.monotonic()))
            write_all(target.fileno(), data)
        figures.came.append((offset + 1, time.monotonic()))
        target.close()
    except OSError:
        pass  # the run has ended


def follow(run, figures, memory):
    """Hands the run's output on until it ends; false where the store opens below what was told as stored."""
    rest, begun = b"", False
    while data := os.read(run.stdout.fileno(), 1 << 16):
        now = time.monotonic()
        *lines, rest = (rest + data).split(b"\n")
        if not begun:
            if not lines:
                continue
            if lines[0].startswith(b"open ") and int(lines[0].split()[1]) < memory.known:
                return False
            begun, data = True, b"\n".join((*lines, rest))
        write_all(1, data)
        with figures.lock:
            for line in lines:
                figures.see(line, now)
        if figures.marks["stored"]:
            memory.keep(figures.marks["stored"])
    if figures.marks["stored"]:
        memory.keep(figures.marks["stored"], at_once=True)
    write_all(1, b"" if begun else rest)
    return True


class Processes:
    """The run, and the command in front of it, if there is one."""

    def __init__(self, command, front):
        # What was inherited goes on to both, as the lock of serve.sh, so that it is held as long as one of them lives.
        inherits = {"close_fds": False}
        self.front = self.front_status = None
        if not front:
            self.run = subprocess.Popen(command, stdin=subprocess.PIPE, stdout=subprocess.PIPE, **inherits)
            self.input = self.run.stdin
            return
        read, self.between = os.pipe()
        self.front = subprocess.Popen(shlex.split(front), stdin=subprocess.PIPE, stdout=self.between, **inherits)
        self.run = subprocess.Popen(command, stdin=read, stdout=subprocess.PIPE, **inherits)
        os.close(read)
        self.input = self.front.stdin
        threading.Thread(target=self.follow_front, daemon=True).start()

    def follow_front(self):
        """Ends the run's input once the one in front has ended well; else the run is killed: its input would seem whole."""
        self.front_status = self.front.wait()
        if self.front_status:
            self.run.kill()
        os.close(self.between)

    def status(self):
        """Waits for the end of the run, and gives the status to end with."""
        status = self.run.wait()
        if self.front_status:
            print(f"watch.py: the command in front ended with status {self.front_status}", file=sys.stderr)
            return self.front_status if self.front_status > 0 else 128 - self.front_status
        return status if status >= 0 else 128 - status

    def kill(self):
        for it in (self.run, self.front):
            if it:
                it.kill()


def words():
    it = argparse.ArgumentParser(usage="watch.py [OPTION..] [--] COMMAND..")
    it.add_argument("--port", type=int)
    it.add_argument("--address", default="127.0.0.1")
    it.add_argument("--first", type=int, default=0)
    it.add_argument("--plan")
    it.add_argument("--memory")
    it.add_argument("--front")
    it.add_argument("command", nargs=argparse.REMAINDER)
    said = it.parse_args()
    said.command = said.command[1:] if said.command[:1] == ["--"] else said.command
    if not said.command:
        it.error("a command must be there")
    return said


def columns_of(plan):
    """The names of a plan's columns, the time first; none where no plan is said or it can't be read."""
    try:
        with open(plan, "rb") as it:
            return [column.split(":")[0] for column in tomllib.load(it)["stream"]["columns"]]
    except (OSError, TypeError, KeyError, tomllib.TOMLDecodeError):
        return []  # the run says what is wrong with it


def main():
    said = words()
    figures, memory = Figures(columns_of(said.plan)), Memory(said.memory)
    if said.port is not None:
        serve(figures, said.address, said.port)
    both = Processes(said.command, said.front)
    threading.Thread(target=feed, args=(both.input, figures, said.first), daemon=True).start()
    sound = True
    try:
        sound = follow(both.run, figures, memory)
    except BrokenPipeError:
        both.run.stdout.close()  # the reader has gone: the run ends at its next put
    if not sound:
        print(f"watch.py: the store opens below {memory.known}, which was told as stored", file=sys.stderr)
        both.kill()
    status = both.status() if sound else 74
    both.kill()
    sys.stderr.flush()
    os._exit(status)  # the thread that reads may wait for input


main()
