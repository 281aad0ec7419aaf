#!/usr/bin/python3
"""Tries examples/kafka over a broker in memory, and fails where an answer is missing or differs from one run over the whole.

It tries both ways, partition.py and partition.sh. Four partitions with a run each answer payments of 40 cards, some of them no
rows, while more are sent. Programs of them are killed at moments of chance, and once all of a partition whose answers were held
up behind its store: `replay` brings them. Then come a partition with marks of transactions, one that has lost its first
messages, and of partition.py alone its guards, its statuses, and a kill while it waits to hand on a line. It prints a line for
each.

Usage: kafka.py, or one of these:

    kafka.py --waits     tells how long payments wait for their answers by partition.py, from the send to the receipt: ten
                         times 3,000 payments, one each millisecond
    kafka.py --broker    prints the address of a broker in memory, and keeps it until standard input ends

Outside the gate. It needs Debian's kcat and python3-confluent-kafka, which /usr/bin/python3 sees; the broker is
librdkafka's own. `rt run` in crates/railgun builds the program first; PROGRAM names another one."""

import fcntl
import os
import random
import shutil
import signal
import socket
import struct
import subprocess
import sys
import tempfile
import termios
import threading
import time

from confluent_kafka import Consumer, Producer, TopicPartition

TOP = os.path.realpath(os.path.join(os.path.dirname(os.path.abspath(__file__)), ".."))
PROGRAM = os.path.abspath(os.environ.get("PROGRAM", f"{TOP}/crates/railgun/out/railgun"))
EXAMPLE = f"{TOP}/examples/kafka"
PLAN = f"{EXAMPLE}/plan.toml"
COUNT, KILLS, ROUNDS = 6000, 12, 10


def fail(why):
    sys.exit(f"kafka.py: {why}")


def railgun(*words, lines=b""):
    """What the program puts for these words, which must end well."""
    done = subprocess.run([PROGRAM, *words], input=lines, stdout=subprocess.PIPE, check=False)
    if done.returncode:
        fail(f"railgun {' '.join(words)} ends with status {done.returncode}")
    return done.stdout.decode()


def told(text, word):
    """The number behind this word in what `info` says."""
    return next(int(line.split()[1]) for line in text.splitlines() if line.startswith(word + " "))


def await_that(what, said):
    for _ in range(600):
        if what():
            return
        time.sleep(0.1)
    fail(f"after a minute it isn't so: {said}")


class Broker:
    """A broker in memory, which lives as long as this process. Topics are made when they are asked for, with four partitions."""

    def __init__(self):
        self.producer = Producer({"test.mock.num.brokers": 1, "log_level": 3})
        it = next(iter(self.producer.list_topics(timeout=10).brokers.values()))
        self.host, self.port, self.address = it.host, it.port, f"{it.host}:{it.port}"

    def send(self, payments, **where):
        """Sends pairs of a card and a row."""
        for card, row in payments:
            self.producer.produce("payments", key=card, value=row, **where)
        if self.producer.flush(30):
            fail("not all payments were sent")

    def send_mark(self, partition):
        """Puts the mark of a transaction's end into a partition, as a broker does: it takes an offset, and no reader is given it."""
        record = bytes([0, 0, 0, 8]) + struct.pack(">hh", 0, 1) + bytes([12]) + struct.pack(">hi", 0, 0) + bytes([0])
        # The leader's epoch, the format, a checksum that nobody looks at, the bits of a mark, the distance of the last offset,
        # two times, the producer, its epoch, a number, and how many records there are.
        batch = struct.pack(">ibIhiqqqhii", 0, 2, 0, 0x30, 0, 0, 0, 7, 0, -1, 1) + bytes([2 * len(record)]) + record
        batch = struct.pack(">qi", 0, len(batch)) + batch
        request = struct.pack(">hhihhhiih8sii", 0, 3, 1, -1, -1, -1, 10000, 1, 8, b"payments", 1, partition)
        request += struct.pack(">i", len(batch)) + batch
        with socket.create_connection((self.host, self.port)) as it:
            it.sendall(struct.pack(">i", len(request)) + request)
            answer = it.recv(4096)
        if struct.unpack_from(">h", answer, 30)[0]:
            fail(f"the broker doesn't take a mark: {answer}")

    def ends(self, partition, topic="payments"):
        it = Consumer({"bootstrap.servers": self.address, "group.id": "look"})
        try:
            return it.get_watermark_offsets(TopicPartition(topic, partition), timeout=10)
        finally:
            it.close()

    def read(self, topic, partition):
        """The messages of a partition: offset, key and value."""
        low, high = self.ends(partition, topic)
        it = Consumer({"bootstrap.servers": self.address, "group.id": "look", "enable.partition.eof": True})
        it.assign([TopicPartition(topic, partition, low)])
        found = []
        while low < high:
            message = it.poll(10)
            if message is None:
                fail(f"{topic} [{partition}] isn't read to its end")
            if message.error():
                break
            found.append((message.offset(), message.key(), message.value()))
        it.close()
        return found


class Run:
    """A way to answer a partition of a broker, in a session of its own. `fill` says which offsets are filled: gaps or start.

    Of each way `options` are the further words of its script, `is_ready` says whether it has begun, `source` is the process that a
    signal stops, and `sink` the one that reads the run's output."""

    begun = []

    def __init__(self, broker, partition, store, *words, fill="", new=None, plan=PLAN, program=PROGRAM):
        self.broker, self.partition, self.store, self.name = broker, partition, store, f"partition {partition}"
        self.begun.append(self)
        new = new or str(int(not os.path.exists(f"{store}/events")))
        settings = {"RAILGUN": program, "NEW": new, "FILL": str(int(fill == "start"))}
        command = [f"{EXAMPLE}/{self.script}", broker.address, str(partition), plan, store, *self.options(fill), *words]
        with open(f"{os.path.dirname(store)}/log", "ab") as log:
            self.top = subprocess.Popen(command, env={**os.environ, **settings}, start_new_session=True, stderr=log)

    def processes(self):
        """The processes of its session by their numbers: their words."""
        found = {}
        for pid in filter(str.isdigit, os.listdir("/proc")):
            try:
                with open(f"/proc/{pid}/stat", encoding="utf-8", errors="replace") as it:
                    session = int(it.read().rpartition(")")[2].split()[3])
                with open(f"/proc/{pid}/cmdline", encoding="utf-8", errors="replace") as it:
                    words = it.read().split("\0")
            except OSError:
                continue
            if session == self.top.pid and words != [""]:
                found[int(pid)] = words
        return found

    def find(self, *wanted):
        """The process whose words have all of these."""
        return next((pid for pid, words in self.processes().items() if set(wanted) <= set(words)), None)

    def await_run(self):
        await_that(lambda: self.find("run", self.store) and self.is_ready(), f"{self.name} runs")

    def kill(self, *wanted):
        """Kills one of its processes, and waits until all have ended."""
        self.await_run()
        os.kill(self.find(*wanted), signal.SIGKILL)
        if self.ended() == 0 and "payments" not in wanted:
            fail(f"{self.name} ended with status 0 after a kill of {wanted}")

    def stop(self):
        """Lets it answer what it has, and end: no answer is missing then."""
        self.await_run()
        os.kill(self.source(), signal.SIGTERM)
        self.wait()
        if answered(self.broker, self.partition) < told(railgun("info", self.store), "next"):
            fail(f"{self.name} was stopped, and its last answers are missing")

    def kill_all(self):
        for pid in self.processes():
            os.kill(pid, signal.SIGKILL)
        self.top.wait()

    def ended(self):
        """Its status, once all of it has ended."""
        await_that(lambda: self.top.poll() is not None and not self.processes(), f"{self.name} ends")
        return self.top.returncode

    def wait(self, status=0):
        if self.ended() != status:
            fail(f"{self.name} ended with status {self.top.returncode} in place of {status}")


class Shell(Run):
    """partition.sh, with kcat in front and behind."""

    script = "partition.sh"

    def options(self, _):
        return ()

    def is_ready(self):
        return self.find("kcat", "answers")

    def source(self):
        return self.find("kcat", "payments")

    def sink(self):
        return self.find("--replies")

    def kill_one(self):
        self.kill(*random.choice([("run", self.store)] * 3 + [("kcat", "payments"), ("kcat", "answers"), ("--replies",)]))

    def hold_up(self):
        """Holds its answers up from now on."""
        self.await_run()
        os.kill(self.find("kcat", "answers"), signal.SIGSTOP)
        return self


class Python(Run):
    """partition.py. The broker in memory waits as long as it may where there is no message, also when one comes: so it may not."""

    script = "partition.py"

    def options(self, fill):
        return ("-X", "fetch.wait.max.ms=5", *([f"--fill-{fill}"] if fill else ()))

    def is_ready(self):
        """It is when it catches SIGTERM."""
        with open(f"/proc/{self.top.pid}/status", encoding="utf-8") as it:
            caught = next(int(line.split()[1], 16) for line in it if line.startswith("SigCgt"))
        return caught >> (signal.SIGTERM - 1) & 1

    def source(self):
        return self.top.pid

    def sink(self):
        return self.top.pid

    def kill_one(self):
        random.choice([self.stop, lambda: self.kill("run", self.store), lambda: self.kill(f"{EXAMPLE}/{self.script}")])()

    def hold_up(self):
        """Begins it again so that its producer keeps answers for ten minutes."""
        self.stop()
        return Python(self.broker, self.partition, self.store, "-X", "linger.ms=600000")


def made_payments():
    """Pairs of a card and a row, five seconds apart. Each 13th has no amount, each 101st is late; behind them one with an LF, an empty one and none."""
    for i in range(COUNT):
        time_of = 5000 * i - (600000 if i % 101 == 100 else 0)
        amount = "x" if i % 13 == 12 else str(i * 7919 % 10000)
        row = f"{time_of},c{i * 7919 % 40},m{i % 97},{amount}"
        yield f"c{i * 7919 % 40}", {3000: "1,c1\n,m1,2", 4000: "", 5000: None}.get(i, row)


def whole(messages, folder):
    """The replies of one run over all messages of a partition, by their offsets, and the dump of its store."""
    values = {offset: value or b"" for offset, _, value in messages}
    lines = [values.get(it, b"") for it in range(max(values) + 1)]
    said = railgun("run", PLAN, folder, lines=b"".join((b"" if b"\n" in it else it) + b"\n" for it in lines))
    replies = dict(it.split(" ", 1) for it in said.splitlines() if it[0].isdigit())
    return {int(offset): reply for offset, reply in replies.items()}, railgun("dump", folder)


def compare(broker, partition, store, folder):
    """Sees that a partition's answers and store are those of one run over the whole; how many messages, answers and answers `none` there are."""
    wanted, dump = whole(broker.read("payments", partition), folder)
    answers = broker.read("answers", partition)
    for _, key, value in answers:
        offset, reply = int(key), value.decode()
        if reply != wanted.get(offset) and (reply != "none" or wanted[offset].startswith("ok")):
            fail(f"partition {partition}, offset {offset}: '{reply}', and the whole run has '{wanted.get(offset)}'")
    missing = set(wanted) - {int(key) for _, key, _ in answers}
    if missing:
        fail(f"partition {partition}: no answer to {sorted(missing)[:10]}")
    if railgun("dump", store) != dump:
        fail(f"partition {partition}: the store isn't that of the whole run")
    return len(wanted), len(answers), sum(value == b"none" for _, _, value in answers)


def try_kills(way, work):
    broker, payments = Broker(), list(made_payments())
    send_by_kcat(broker, payments[: COUNT // 4], f"{work}/first")
    stores = [f"{work}/{it}" for it in range(4)]
    lost = kill_while_sending(way, broker, payments[COUNT // 4 :], stores)
    for it, store in enumerate(stores):
        way(broker, it, store, "-e").wait()
    sums = [compare(broker, it, store, f"{store}.whole") for it, store in enumerate(stores)]
    cards = [{key for _, key, _ in broker.read("payments", it)} for it in range(4)]
    if sum(map(len, cards)) != 40 or len(set.union(*cards)) != 40:
        fail("a card is in two partitions")
    messages, answers, none = map(sum, zip(*sums))
    if answers == messages or not none:
        fail("no payment was answered again, or no reply to a refused line was lost: the kills were too mild")
    print(f"{messages} payments of 40 cards on four partitions, {KILLS} kills: each of {answers} answers as in one run over its partition")
    print(f"one killed whole with {lost} answers held up behind its store: a replay put them; {none} replies to refused lines are `none`")


def send_by_kcat(broker, payments, file):
    with open(file, "w", encoding="utf-8") as it:
        it.writelines(f"{card}|{row}\n" for card, row in payments)
    with open(file, encoding="utf-8") as it:
        subprocess.run(["kcat", "-P", "-b", broker.address, "-t", "payments", "-K", "|"], stdin=it, check=True)


def kill_while_sending(way, broker, payments, stores):
    """Runs the partitions while payments are sent, kills, and ends the runs when all are sent: how many answers were held up and lost."""
    runs = [way(broker, it, store) for it, store in enumerate(stores)]
    hurry = threading.Event()
    sender = threading.Thread(target=send_slowly, args=(broker, payments, hurry), daemon=True)
    sender.start()
    for _ in range(KILLS):
        time.sleep(random.uniform(0, 1))
        at = random.randrange(4)
        runs[at].kill_one()
        runs[at] = way(broker, at, stores[at])
    lost = hold_up_and_kill(broker, runs[2].hold_up())
    runs[2] = way(broker, 2, stores[2])
    hurry.set()
    sender.join()
    for run in runs:
        run.stop()
    return lost


def send_slowly(broker, payments, hurry):
    """Sends some at a time, until there is a hurry."""
    for it in range(0, len(payments), 20):
        broker.send(payments[it : it + 20])
        hurry.wait(0.1)


def answered(broker, partition):
    """The offset behind the last answer of a partition."""
    return max([int(key) + 1 for _, key, _ in broker.read("answers", partition)], default=0)


def hold_up_and_kill(broker, run):
    """Waits until the store of a run whose answers are held up is ahead of them, and kills all: how many answers are lost."""
    seen = answered(broker, run.partition)
    await_that(lambda: told(railgun("info", run.store), "next") > seen + 200, "the store is ahead of the answers")
    run.kill_all()
    run.ended()
    lost = told(railgun("info", run.store), "next") - answered(broker, run.partition)
    if lost <= 0:
        fail("no answer was lost")
    return lost


def try_lines():
    """A message that isn't there, one with an LF, one without a value, one with spaces, and one that was cut."""
    said = b"5 3 a,b\n7 4 c\n,d\n8 -1 \n9 5 a b c\n10 9 1000,c1,m"
    made = subprocess.run([f"{EXAMPLE}/lines.py", "4"], input=said, stdout=subprocess.PIPE, check=True).stdout
    if made != b"\na,b\n\nc\r,d\n\na b c\n":
        fail(f"lines.py makes {made}")


def try_marks(way, work):
    broker = Broker()
    rows = [("c1", f"{1000 * it},c1,m1,{it + 1}") for it in range(9)]
    store = f"{work}/marks"
    for at in (0, 3, 6):
        broker.send(rows[at : at + 3], partition=0)
        broker.send_mark(0)
        if way is Python and at:
            way(broker, 0, store, "-e").wait(10)
        way(broker, 0, store, "-e", fill="gaps").wait()
    offsets = [offset for offset, _, _ in broker.read("payments", 0)]
    if offsets != [0, 1, 2, 4, 5, 6, 8, 9, 10]:
        fail(f"the messages with marks between them have the offsets {offsets}")
    compare(broker, 0, store, f"{store}.whole")
    if told(railgun("info", store), "next") != 11 or told(railgun("info", store), "events") != 9:
        fail("a payment behind a mark has another offset than its message")
    values = ["kcat", "-C", "-b", broker.address, "-t", "payments", "-p", "0", "-o", "0", "-e", "-q", "-f", "%s\n"]
    railgun("run", PLAN, f"{store}.plain", lines=subprocess.run(values, stdout=subprocess.PIPE, check=True).stdout)
    plain = told(railgun("info", f"{store}.plain"), "next")
    print(f"marks of transactions: each payment has its message's offset, and the next one is {offsets[-1] + 1}; by values alone it is {plain}")


def try_lost_messages(way, work):
    broker, store = Broker(), f"{work}/lost"
    broker.send([("c1", "0,c1,m1,1"), ("c1", "1000,c1,m1,2")], partition=1)
    way(broker, 1, store, "-e").wait()
    for _ in range(12):
        broker.send([("c1", "x" * 500000)], partition=1)
    broker.send([("c1", "2000,c1,m1,4")], partition=1)
    low, high = broker.ends(1)
    if low <= 2:
        fail("the broker has all messages")
    way(broker, 1, store, "-e").wait(10)
    if told(railgun("info", store), "next") != 2:
        fail("a refused run changed the store")
    way(broker, 1, store, "-e", fill="start").wait()
    answers = {int(key): value.decode() for _, key, value in broker.read("answers", 1)}
    long = [offset for offset, reply in answers.items() if reply == "long"]
    gone = [offset for offset, reply in answers.items() if reply == "row"]
    if gone != list(range(2, low)) or long != list(range(low, high - 1)) or answers[high - 1] != "ok 3 7 0 -":
        fail(f"behind the messages that are gone: {answers}")
    print(f"messages 2 to {low - 1} were dropped before the store had them: status 10; filled with `row` each, and then '{answers[high - 1]}'")


def try_cut_reply(way, work):
    """A kill of a run whose output's pipe is full, so that its last line is cut: the cut line is no answer."""
    broker, store, plan = Broker(), f"{work}/cut", f"{work}/commit.toml"
    with open(PLAN, encoding="utf-8") as old, open(plan, "w", encoding="utf-8") as new:
        new.write(old.read().replace("commit = 64", "commit = 5000"))  # so many answers are put at once
    run = way(broker, 0, store, plan=plan)
    run.await_run()
    process, sink = run.find("run", store), run.sink()
    os.kill(process, signal.SIGSTOP)
    broker.send([("c1", f"{it},c1,m1,123456789012") for it in range(5000)], partition=0)
    await_that(lambda: unread(f"{process}/fd/0") > 60000, "the run's input is full")
    os.kill(sink, signal.SIGSTOP)
    os.kill(process, signal.SIGCONT)
    await_that(lambda: unread(f"{process}/fd/1") > 61440, "the run's output is full")
    os.kill(process, signal.SIGKILL)
    os.kill(sink, signal.SIGCONT)
    run.ended()
    way(broker, 0, store, "-e").wait()
    messages, _, _ = compare(broker, 0, store, f"{store}.whole")
    print(f"a run killed in a put: each answer of {messages} is whole")


def try_guards(work):
    """A store that another one has, an answer that is too long to be put, another store in its place, and none."""
    broker, store, long = Broker(), f"{work}/guards", f"{work}/long.toml"
    broker.send([("c1", f"{1000 * it},c1,m1,1000000000000") for it in range(200)], partition=0)
    first = Python(broker, 0, store)
    await_that(lambda: answered(broker, 0) == 200, "200 payments are answered")
    Python(broker, 0, store).wait(75)
    first.stop()
    with open(f"{store}.stored", encoding="ascii") as it:
        if it.read() != "200\n":
            fail("STORE.stored isn't 200")
    with open(PLAN, encoding="utf-8") as old, open(long, "w", encoding="utf-8") as new:
        query = "SELECT min(amount), max(amount), sum(amount), sumsq(amount), first(amount), last(amount) FROM payments OVER INFINITE"
        new.write(f"queries = {[query] * 12}\n" + old.read().partition("]\n\n")[2])
    broker.send([("c1", "200000,c1,m1,1000000000000")], partition=0)
    Python(broker, 0, store, "-e", "-X", "message.max.bytes=1000", plan=long).wait(6)
    os.rename(store, f"{store}.moved")
    Python(broker, 0, store, "-e", new="0").wait(74)
    railgun("run", PLAN, store, lines=b"0,c1,m1,1\n")
    Python(broker, 0, store, "-e").wait(74)
    if answered(broker, 0) != 200:
        fail("an answer of more than 1,000 bytes was put, or one of another store")
    print("a second one, an answer that can't be put, no store, and another one in its place: status 75, 6, 74, 74")


FAKE = """#!/bin/sh
case $1 in
info) printf '%s\\n' 'events 0' 'next 0' 'time -' 'frames 1' 'slot 0 none' 'slot 1 none' ;;
run)
    echo open 0 0 0
    until [ -e "$3/go" ]; do sleep 0.1; done
    cat > "$3/given"
    ;;
esac
"""


def try_whole_lines(work):
    """A kill while a line is handed on that has no room in the run's pipe: the run is given no piece of it, which could be a payment.

    640 lines of 100 bytes leave 96 bytes free of the last of 16 pages. Of a line of 4,116 bytes a pipe takes the first 20 there."""
    broker, store, fake = Broker(), f"{work}/lines", f"{work}/fake"
    with open(fake, "w", encoding="ascii") as it:
        it.write(FAKE)
    os.chmod(fake, 0o755)
    os.mkdir(store)
    open(f"{store}/events", "wb").close()
    broker.send([("c1", f"{1000 * it},c1,m,".ljust(99, "5")) for it in range(640)], partition=0)
    broker.send([("c1", "640000,c1,m,12345678" + "9" * 4095)], partition=0)
    run = Python(broker, 0, store, program=fake)
    await_that(lambda: run.find(fake, "run"), "the run has begun")
    await_that(lambda: unread(f"{run.find(fake, 'run')}/fd/0") >= 64000, "the pipe is full")
    time.sleep(0.5)
    os.kill(run.source(), signal.SIGKILL)
    open(f"{store}/go", "wb").close()
    run.wait(-signal.SIGKILL)
    with open(f"{store}/given", "rb") as it:
        lines = it.read().split(b"\n")
    if len(lines) != 641 or lines[640]:
        fail(f"{len(lines) - 1} lines were given to a run, and behind them {lines[-1]}")
    print("a kill while a line of 4,116 bytes waits for room: the run is given 640 whole lines")


def unread(place):
    """How many bytes stand in the pipe that is this file of a process."""
    with open(f"/proc/{place}", "rb", opener=lambda path, flags: os.open(path, flags | os.O_NONBLOCK)) as it:
        return int.from_bytes(fcntl.ioctl(it, termios.FIONREAD, bytes(4)), sys.byteorder)


def measure_waits(work):
    """Tells how long it is until a consumer has the answers to payments. The broker looks through all its messages for one, so it has few."""
    waits = sorted(wait for it in range(ROUNDS) for wait in waits_of(f"{work}/{it}"))
    median, slow, most = waits[len(waits) // 2], waits[len(waits) * 999 // 1000], waits[-1]
    print(f"{len(waits)} payments: the median of the waits is {median:.1f} ms, the 999th of 1,000 {slow:.1f} ms, the longest {most:.1f} ms")
    print(f"the load of the machine's {os.cpu_count()} processors was {os.getloadavg()[0]:.1f}")


def waits_of(store, count=3000):
    """Sends a payment each millisecond to a new broker, behind one that opens all connections: the milliseconds until their answers came."""
    broker, sent, came = Broker(), [0.0] * (count + 1), [0.0] * (count + 1)
    producer = Producer({"bootstrap.servers": broker.address, "linger.ms": 0})
    run = Python(broker, 0, store, "-X", "fetch.wait.max.ms=1")
    reader = threading.Thread(target=note_answers, args=(broker, came), daemon=True)
    reader.start()
    for it in range(count + 1):
        sent[it] = time.monotonic()
        producer.produce("payments", f"{it},c{it % 40},m{it % 97},100", partition=0)
        if it == 0:
            await_that(lambda: producer.flush(0.1) == 0 and came[0], "the first payment is answered")
            begun = time.monotonic()
        producer.poll(0)
        time.sleep(max(0.0, begun + (it + 1) / 1000 - time.monotonic()))
    producer.flush()
    reader.join(60)
    run.stop()
    if 0.0 in came:
        fail(f"no answer to payment {came.index(0.0)}")
    return [1000 * (end - start) for start, end in zip(sent[1:], came[1:])]


def note_answers(broker, came):
    """Notes when the first answer to each payment comes."""
    it = Consumer({"bootstrap.servers": broker.address, "group.id": "look", "fetch.wait.max.ms": 1})
    it.assign([TopicPartition("answers", 0, 0)])
    left = len(came)
    while left:
        message = it.poll(1)
        if message is not None and not message.error() and not came[int(message.key())]:
            came[int(message.key())] = time.monotonic()
            left -= 1
    it.close()


def try_all(work):
    """Tries everything: first what is of one way alone."""
    try_lines()
    try_whole_lines(work)
    try_guards(work)
    for way in (Python, Shell):
        print(f"{way.script}:")
        folder = f"{work}/{way.script}"
        os.mkdir(folder)
        try_kills(way, folder)
        try_marks(way, folder)
        try_lost_messages(way, folder)
        try_cut_reply(way, folder)


def main():
    if sys.argv[1:] == ["--broker"]:
        broker = Broker()
        print(broker.address, flush=True)
        sys.stdin.read()
        return
    if not os.access(PROGRAM, os.X_OK):
        fail(f"no program at {PROGRAM}")
    work = tempfile.mkdtemp(prefix="railgun.", dir=os.environ.get("TMPDIR", "/var/tmp"))
    try:
        (measure_waits if sys.argv[1:] == ["--waits"] else try_all)(work)
    finally:
        for run in Run.begun:
            run.kill_all()
        shutil.rmtree(work)


main()
