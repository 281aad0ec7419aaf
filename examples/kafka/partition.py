#!/usr/bin/python3
"""Answers the payments of one partition of a topic of Kafka: partition.py [OPTION..] BROKER PARTITION PLAN STORE.

A payment is a row of CSV, the value of a message of the topic `payments`. Its answer goes to the partition of the same number
of the topic `answers` as it comes: the key is the payment's offset, the value is what stands behind it in the reply.

    -e, --end         end where the partition ends
    --fill-gaps       answer `row` for each offset between messages that has none (a transaction's mark, a compacted message)
    --fill-start      answer `row` for each message that the topic dropped before the store had it
    -X NAME=VALUE     a setting of librdkafka, as security.protocol=ssl
    --payments TOPIC, --answers TOPIC

The run is that of serve.sh, in this folder, ../service or .., with its guards, its lock STORE.lock, and what its head says of NEW,
AHEAD, RAILGUN, WATCH and FILTER. STORE.stored keeps the last `stored`. A start first puts the answers that were lost between store
and topic, as `railgun replay` has them, `none` for a refused line. Then it begins at the store's next offset. SIGTERM and SIGINT
end the run's input: what it has is answered, stored and saved. It needs Debian's python3-confluent-kafka.

It ends when any part ends. The status is the run's, or 128 and the number of the signal that ended the run. It is, with a
sentence on standard error, 5 where a topic can't be read, 6 where an answer can't be put, 10 where an offset has no message
and no option fills it, 74 where a guard refuses the store, and 75 where another one runs."""

import argparse
import fcntl
import os
import select
import signal
import sys
import termios
import threading
from subprocess import PIPE, Popen

from confluent_kafka import Consumer, KafkaError, KafkaException, Producer, TopicPartition


def tell(what):
    print(f"partition.py: {what}", file=sys.stderr, flush=True)


def end(status, why):
    tell(why)
    sys.exit(status)


def messages(said, topic, begin, to_the_end):
    """The messages as they come, None where none came for a while, from the offset that `begin` makes of the topic's two ends."""
    own = {"group.id": "railgun", "enable.auto.commit": False, "auto.offset.reset": "error", "enable.partition.eof": to_the_end}
    consumer = Consumer({**own, **said.settings, "error_cb": tell})
    offset = begin(*consumer.get_watermark_offsets(TopicPartition(topic, said.partition), 60))
    consumer.assign([TopicPartition(topic, said.partition, offset)])
    while True:
        message = consumer.poll(0.2)
        if message is None or not message.error():
            yield message
        elif message.error().code() == KafkaError._PARTITION_EOF:
            return
        else:
            end(5, f"{topic} [{said.partition}]: {message.error().str()}")


class Run:
    """A run over the store, in a group that no Ctrl-C is for. Its input comes by `give`, and a thread puts its replies."""

    def __init__(self, said):
        own = {"linger.ms": 0, "enable.idempotence": True, "enable.gapless.guarantee": True, "message.timeout.ms": 0}
        self.producer, self.error = Producer({**own, "log_level": 3, **said.settings, "error_cb": tell}), None
        serve = next(filter(os.path.exists, (f"{sys.path[0]}/{it}/serve.sh" for it in (".", "../service", ".."))))
        self.process = Popen([serve, said.plan, said.store], stdin=PIPE, stdout=PIPE, process_group=0)
        line = self.process.stdout.readline().decode()
        if not line.startswith("open "):
            end(self.process.wait(), line.strip() or "no run was begun: does another one have the store?")
        self.said, self.input, self.next, self.answered, self.stopped = said, self.process.stdin, int(line.split()[1]), 0, False
        self.thread = threading.Thread(target=self.follow, args=(self.process.stdout,))

    def is_over(self):
        return self.stopped or self.error or not self.thread.is_alive()

    def follow(self, lines):
        """Puts the replies, and `none` for offsets between them. A last line without its LF was cut by a kill, and is none."""
        for line in lines:
            word, _, more = line[:-1].partition(b" ")
            if word.isdigit() and line.endswith(b"\n"):
                for refused in range(self.answered, int(word)):
                    self.put(str(refused), b"none")
                self.put(word, more)
                self.answered = int(word) + 1
            elif word == b"stored":
                self.keep(more)

    def put(self, offset, reply):
        """Puts the reply to the line of this offset. It waits while 100,000 are under way, and puts none behind an error."""

        def delivered(error, _):
            self.error = self.error or error

        while not self.error:
            try:
                self.producer.produce(self.said.answers, reply, offset, self.said.partition, on_delivery=delivered)
                return self.producer.poll(0)
            except BufferError:
                self.producer.poll(0.1)
            except KafkaException as why:
                self.error = why.args[0]

    def keep(self, stored):
        """Remembers the last `stored`. On a full disk the one before stays, which says less."""
        try:
            with open(f"{self.said.store}.stored.last", "wb") as it:
                it.write(stored + b"\n")
            os.replace(f"{self.said.store}.stored.last", f"{self.said.store}.stored")
        except OSError as why:
            tell(why)

    def give(self, line):
        """Gives the run a line as a whole: if this process were killed within it, the run would take a piece for a payment.
        A pipe takes PIPE_BUF bytes so, and 65,536 while it is empty. A longer line is no payment, and no piece of x is a row."""
        line = line if len(line) <= 65536 else b"x" * 65536 + b"\n"
        while len(line) > select.PIPE_BUF and any(fcntl.ioctl(self.input, termios.FIONREAD, bytes(4))) and not self.is_over():
            self.thread.join(0.001)
        try:
            os.write(self.input.fileno(), line)
        except BrokenPipeError:
            self.thread.join()

    def end(self):
        """Ends the input, waits until all is answered and put, and gives the status."""
        self.input.close()
        self.thread.join()
        self.producer.flush()
        return self.process.wait()


def put_lost(said, run):
    """Puts the answers that are missing between the last one in the topic and the store's next offset."""
    for message in messages(said, said.answers, lambda low, high: max(low, high - 100), True):
        run.answered = run.answered if message is None else int(message.key()) + 1
    if run.answered < run.next:
        railgun = os.environ.get("RAILGUN", "/usr/local/bin/railgun")
        with Popen([railgun, "replay", said.plan, said.store, str(run.answered)], stdout=PIPE) as replay:
            run.follow(replay.stdout)
        if replay.returncode:
            end(replay.returncode, "railgun replay failed")


def feed(said, run):
    """Gives the run the messages from its next offset on, an LF in them as a CR, so that it ends no line."""

    def fill(offset, filled, option):
        if run.next < offset and not filled:
            where = f"{said.payments} [{said.partition}] has no message of the offsets {run.next} to {offset - 1}"
            end(10, f"refused gap {offset} {run.next}: {where}; {option} answers `row` for each")
        while run.next < offset:
            run.give(b"\n")
            run.next += 1
        return run.next

    for message in messages(said, said.payments, lambda low, _: fill(low, said.fill_start, "--fill-start"), said.end):
        run.producer.poll(0)
        if run.is_over():
            return
        if message is not None:
            fill(message.offset(), said.fill_gaps, "--fill-gaps")
            run.give((message.value() or b"").replace(b"\n", b"\r") + b"\n")
            run.next += 1


def words():
    it = argparse.ArgumentParser(usage="partition.py [OPTION..] BROKER PARTITION PLAN STORE")
    for names in (("-e", "--end"), ("--fill-gaps",), ("--fill-start",)):
        it.add_argument(*names, action="store_true")
    it.add_argument("-X", action="append", default=[], dest="settings")
    for name in ("payments", "answers"):
        it.add_argument(f"--{name}", default=name)
    for name, kind in (("broker", str), ("partition", int), ("plan", str), ("store", str)):
        it.add_argument(name, type=kind)
    said = it.parse_args()
    said.settings = {"bootstrap.servers": said.broker, **dict(pair.split("=", 1) for pair in said.settings)}
    return said


def main():
    said = words()
    run = Run(said)
    put_lost(said, run)
    for it in (signal.SIGTERM, signal.SIGINT):
        signal.signal(it, lambda *_: setattr(run, "stopped", True))
    run.thread.start()
    try:
        feed(said, run)
    finally:
        status = run.end()
    if run.error:
        end(6, f"{said.answers} [{said.partition}]: {run.error.str()}")
    sys.exit(status if status >= 0 else 128 - status)


try:
    main()
except KafkaException as failed:
    end(5, failed.args[0].str())
