"""What the parts of bench/operate.sh share.

operate.sh gives each part by the environment: PROGRAM, the program; DATA, a folder with what payments.py made and `whole`,
the output of one run over all of it; WORK, a folder of the part's own. A part prints a line for each thing that it saw, and
ends by fail where something isn't so."""

import contextlib
import fcntl
import os
import random
import re
import signal
import socket
import subprocess
import sys
import threading
import time

TOP = os.path.realpath(os.path.join(os.path.dirname(os.path.abspath(__file__)), "../.."))
EXAMPLES = f"{TOP}/examples"
PROGRAM, DATA, WORK = os.environ["PROGRAM"], os.environ["DATA"], os.environ["WORK"]
PLAN, PAYMENTS, WHOLE = f"{DATA}/plan.toml", f"{DATA}/payments.csv", f"{DATA}/whole"
SERVE, WATCH, FILTER = f"{EXAMPLES}/service/serve.sh", f"{EXAMPLES}/metrics/watch.py", f"{EXAMPLES}/filter/filter.py"
PART = os.path.basename(sys.argv[0])
sys.path.insert(0, f"{EXAMPLES}/client")


def fail(why):
    print(f"{PART}: {why}", file=sys.stderr, flush=True)
    if threading.current_thread() is threading.main_thread():
        sys.exit(1)
    os._exit(1)


def see(holds, why):
    if not holds:
        fail(why)


def lines_of(path):
    """The lines of a file, without their LF."""
    with open(path, "rb") as it:
        return it.read().split(b"\n")[:-1]


def replies_in(lines):
    """The replies among lines of output, by their offsets; one that comes twice must be the same."""
    found = {}
    for line in lines:
        word, _, reply = line.decode().partition(" ")
        if word.isdigit():
            if found.setdefault(int(word), reply) != reply:
                fail(f"line {word} has the replies '{found[int(word)]}' and '{reply}'")
    return found


def whole():
    """The replies of one run over all payments."""
    return replies_in(lines_of(WHOLE))


def compare(found, wanted, what):
    """Sees that these replies are those of the whole run: all of them, and no others."""
    missing = sorted(set(wanted) - set(found))[:5]
    see(not missing, f"{what}: no reply to lines {missing}")
    for offset, reply in found.items():
        if wanted.get(offset) != reply:
            fail(f"{what}: line {offset} has '{reply}', and the whole run '{wanted.get(offset)}'")


def run(*words, status=0, given=b"", **more):
    """What a command puts; its status must be this one."""
    more = {"stderr": subprocess.PIPE, **more}
    done = subprocess.run([*map(str, words)], input=given, stdout=subprocess.PIPE, check=False, **more)
    if done.returncode != status:
        fail(f"{words}: status {done.returncode} in place of {status}: {done.stdout[-300:]} {(done.stderr or b'')[-600:]}")
    return done.stdout.decode()


def railgun(*words, **more):
    return run(PROGRAM, *words, **more)


def info(store):
    """What `info` says of a store: the numbers behind its words."""
    return {word: text for word, text in re.findall(r"^(events|next|time|frames) (\S+)$", railgun("info", store), re.M)}


def frames_of(path):
    """The places of a log's frames, and of its end."""
    places = [0]
    with open(path, "rb") as it:
        while it.read(1) == b"\x01":
            length = int.from_bytes(it.read(8), "big")
            places.append(places[-1] + 9 + length)
            it.seek(places[-1])
    return places


def flip(path, place, bits=1):
    """Changes bits of a byte of a file."""
    with open(path, "r+b") as it:
        it.seek(place)
        byte = it.read(1)[0]
        it.seek(place)
        it.write(bytes([byte ^ bits]))


def await_that(what, said, seconds=60):
    end = time.monotonic() + seconds
    while not what():
        if time.monotonic() > end:
            fail(f"after {seconds} seconds it isn't so: {said}")
        time.sleep(0.02)


def processes(session):
    """The processes of a session by their numbers: their words."""
    found = {}
    for pid in filter(str.isdigit, os.listdir("/proc")):
        try:
            with open(f"/proc/{pid}/stat", encoding="utf-8", errors="replace") as it:
                of = int(it.read().rpartition(")")[2].split()[3])
            with open(f"/proc/{pid}/cmdline", encoding="utf-8", errors="replace") as it:
                words = it.read().split("\0")
        except OSError:
            continue
        if of == session and words != [""]:
            found[int(pid)] = words
    return found


class Service:
    """serve.sh over a Unix socket, one process a connection, as systemd's Accept=yes does it."""

    def __init__(self, path, plan, store, **settings):
        self.path, self.words = path, [SERVE, plan, store]
        self.environment = {**os.environ, "RAILGUN": PROGRAM, **settings}
        self.process, self.statuses = None, []
        self.listener = socket.socket(socket.AF_UNIX)
        self.listener.bind(path)
        self.listener.listen(1)
        self.log = open(f"{path}.log", "ab")
        self.thread = threading.Thread(target=self.accept, daemon=True)
        self.thread.start()

    def accept(self):
        while True:
            try:
                connection, _ = self.listener.accept()
            except OSError:
                return
            with connection:
                ends = {"stdin": connection, "stdout": connection, "stderr": self.log}
                self.process = subprocess.Popen(self.words, env=self.environment, start_new_session=True, **ends)
            self.statuses.append(self.process.wait())

    def kill(self, *wanted):
        """Kills the process that has these words, or all of them where none are said."""
        top = self.process
        for pid, words in processes(top.pid).items() if top else ():
            if set(wanted) <= set(words):
                try:
                    os.kill(pid, signal.SIGKILL)
                except ProcessLookupError:
                    pass

    def close(self):
        """Ends it, and its thread before the listener's number is given to another socket. A process has a while to end."""
        self.listener.shutdown(socket.SHUT_RDWR)
        self.thread.join(10)
        if self.thread.is_alive():
            self.kill()
        self.thread.join()
        self.listener.close()


class Killer(threading.Thread):
    """Kills something of a service now and then, until it is told to stop."""

    def __init__(self, service, choices, pause):
        super().__init__(daemon=True)
        self.service, self.choices, self.pause = service, choices, pause
        self.count, self.over = 0, threading.Event()
        self.chance = random.Random(11)

    def run(self):
        while not self.over.wait(self.chance.uniform(*self.pause)):
            if self.service.process and self.service.process.poll() is None:
                self.service.kill(*self.chance.choice(self.choices))
                self.count += 1

    def stop(self):
        self.over.set()
        self.join()


@contextlib.contextmanager
def held(path):
    """Holds the lock of this file, as another process would."""
    with open(path, "ab") as it:
        fcntl.flock(it, fcntl.LOCK_EX)
        yield


def make_store(store, plan=PLAN):
    """A new store, as an operator makes it, without a payment."""
    railgun("run", plan, store)
