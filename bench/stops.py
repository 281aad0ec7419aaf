#!/usr/bin/env python3
"""Stops a run at each of its calls on the disk, and the run that goes on at each of its first calls, and runs the rest.

Usage: stops.py PROGRAM PLAN LINES FOLDER [SEED]; bench/stops.sh makes the plan and the lines.

A run of the program is watched by strace: each write, sync and put, in order. From these the files are made that a
crash behind each of them may leave, by the disk that docs/RECOVERY.md describes: what was written and not synced is
old, new, a byte in its whole range, or a mixture by chance. Over each such store the program runs again over the same
lines, and has to end with status 0, to have every payment that was told as stored, and to put behind its open line
what a run puts that never stopped, from its next offset on. That run is watched too, and stopped once more behind each
of its first calls; the run behind that has to do the same. Each sixteenth store is dumped and compared.
The status is 1 where one of them fails; its store is kept then."""

import multiprocessing
import os
import random
import re
import shutil
import subprocess
import sys

FILES = ("events", "slot0", "slot1")
PICKS = ("old", "new", 0x00, 0x01, 0xFF, "mixed")
SECOND_PICKS = ("new", 0x01, "mixed")
SECOND_CALLS = 12
CALL = re.compile(r'^(?:\d+ +)?(\w+)\((?:AT_FDCWD, )?(.*)\) += (-?\d+)')
QUOTED = re.compile(r'"((?:\\x[0-9a-f]{2})*)"')


class Bench:
    """The program, a plan, and what a run over the lines puts that never stops."""

    def __init__(self, program, plan, lines, folder):
        self.program, self.plan, self.input, self.folder = program, plan, lines, folder
        with open(lines, "rb") as it:
            self.lines = it.read().count(b"\n")
        status, said = self.run(self.lay("whole", {}))
        if status:
            sys.exit(f"a run over a new store ended with status {status}")
        self.text = said.partition(b"\n")[2]
        self.dump = self.dumped(f"{folder}/whole")

    def lay(self, name, image):
        """Makes a store of these files."""
        store = f"{self.folder}/{name}"
        shutil.rmtree(store, ignore_errors=True)
        if image:
            os.makedirs(store)
        for file, data in image.items():
            with open(f"{store}/{file}", "wb") as it:
                it.write(data)
        return store

    def run(self, store, *before):
        with open(self.input, "rb") as it:
            ran = subprocess.run([*before, self.program, "run", self.plan, store], stdin=it, stdout=subprocess.PIPE, stderr=subprocess.DEVNULL)
        return ran.returncode, ran.stdout

    def dumped(self, store):
        return subprocess.run([self.program, "dump", store], stdout=subprocess.PIPE).stdout

    def watched(self, store):
        """Runs the program over the store, and gives its calls: ('write', file, place, bytes), ('sync', file) or ('put', bytes)."""
        log = f"{store}.calls"
        calls = "trace=openat,pwrite64,fsync,fdatasync,write"
        status, said = self.run(store, "strace", "-e", calls, "-e", "signal=none", "-xx", "-s", "1000000", "-o", log)
        with open(log, encoding="ascii") as it:
            found = list(self.read_calls(it))
        os.remove(log)
        return status, said, found

    def read_calls(self, log):
        names = {}
        for line in log:
            call = CALL.match(line)
            if not call or int(call[3]) < 0:
                continue
            kind, given, result = call[1], call[2], int(call[3])
            quoted = [bytes.fromhex(it.replace("\\x", "")) for it in QUOTED.findall(given)]
            number = given.partition(",")[0]
            if kind == "openat":
                names[result] = os.path.basename(quoted[0].decode())
            elif kind == "write" and number == "1":
                yield "put", quoted[0]
            elif kind == "pwrite64":
                yield "write", names[int(number)], int(given.rpartition(", ")[2]), quoted[0]
            elif kind in ("fsync", "fdatasync") and names.get(int(number)) in FILES:
                yield "sync", names[int(number)]

    def fault(self, store, told):
        """What is wrong with the program's run over the store where this was put before; none, where nothing is."""
        status, said = self.run(store)
        if status:
            return f"status {status}"
        return self.fault_of_text(said, told)

    def fault_of_text(self, said, told):
        first, _, rest = said.partition(b"\n")
        opened = re.fullmatch(rb"open (\d+) (\d+) (\d+)", first)
        if not opened:
            return f"the first line is {first!r}"
        following = int(opened[1])
        if following < acknowledged(told):
            return f"the next offset is {following}, and {acknowledged(told)} was told as stored"
        replies = sum(1 for line in rest.split(b"\n") if re.match(rb"\d+ ", line))
        if not self.text.endswith(rest) or replies != self.lines - following:
            return f"behind {first!r} isn't the rest of the text"
        return None


def acknowledged(told):
    """The number of the last whole line that says what is stored; 0 without one."""
    found = re.findall(rb"^stored (\d+)\n", told, re.M)
    return int(found[-1]) if found else 0


def left(image, calls, pick, chance):
    """The files that a crash behind these calls may leave, by the pick, and what was put."""
    told, settled, pending = b"", dict(image), {}
    for call in calls:
        if call[0] == "put":
            told += call[1]
        elif call[0] == "sync":
            file = call[1]
            settled[file] = written(settled.get(file, b""), pending.pop(file, []))
        else:
            pending.setdefault(call[1], []).append(call[2:])
    for file, writes in pending.items():
        settled[file] = torn(settled.get(file, b""), writes, pick, chance)
    for file in FILES:
        settled.setdefault(file, b"")
    return settled, told


def written(data, writes):
    data = bytearray(data)
    for place, new in writes:
        data.extend(bytes(max(0, place - len(data))))
        data[place : place + len(new)] = new
    return bytes(data)


def torn(data, writes, pick, chance):
    if pick == "old":
        return data
    if pick == "new":
        return written(data, writes)
    if pick != "mixed":
        return written(data, [(place, bytes([pick]) * len(new)) for place, new in writes])
    mixed = bytearray(written(data, writes))
    for place, new in writes:
        kind = chance.randrange(4)
        for at in range(place, place + len(new)):
            old = data[at] if at < len(data) else 0
            half = new[at - place] if at < place + len(new) // 2 else old
            mixed[at] = (new[at - place], old, chance.randrange(256), half)[kind]
    return bytes(mixed[: chance.randint(len(data), len(mixed))])


def stop_first(job):
    """Stops the whole run behind so many calls, and the run that goes on behind each of its first ones."""
    bench, calls, count, pick, seed = job
    chance = random.Random(f"{seed} {count} {pick}")
    name = f"store{os.getpid()}"
    image, told = left({}, calls[:count], pick, chance)
    store = bench.lay(name, image)
    status, said, again = bench.watched(store)
    fault = f"status {status}" if status else bench.fault_of_text(said, told)
    if fault is None and count % 16 == 0 and bench.dumped(store) != bench.dump:
        fault = "the dump isn't that of all payments"
    tried = 1
    if fault:
        return tried, kept(bench, name, image, f"stopped behind {count} calls, {pick}: {fault}")
    for more in range(min(SECOND_CALLS, len(again)) + 1):
        for second in SECOND_PICKS:
            twice, more_told = left(image, again[:more], second, chance)
            tried += 1
            fault = bench.fault(bench.lay(name, twice), told + more_told)
            if fault:
                return tried, kept(bench, name, twice, f"stopped behind {count} calls, {pick}, then behind {more}, {second}: {fault}")
    shutil.rmtree(store, ignore_errors=True)
    return tried, None


def kept(bench, name, image, why):
    return f"{why}; the store is {bench.lay(f'{name}-failed', image)}"


def main():
    program, plan, lines, folder = sys.argv[1:5]
    seed = sys.argv[5] if len(sys.argv) > 5 else "1"
    bench = Bench(program, plan, lines, folder)
    status, _, calls = bench.watched(bench.lay("watched", {}))
    if status:
        sys.exit(f"the watched run ended with status {status}")
    jobs = [(bench, calls, count, pick, seed) for count in range(len(calls) + 1) for pick in PICKS]
    tried, faults = 0, []
    with multiprocessing.Pool(len(os.sched_getaffinity(0))) as pool:
        for some, fault in pool.imap_unordered(stop_first, jobs):
            tried += some
            faults += [fault] if fault else []
    print(*faults[:20], sep="\n", end="\n" if faults else "")
    print(f"{bench.lines} lines, {len(calls)} calls on the disk and puts, seed {seed}: {tried} stops were tried, {len(faults)} failed")
    return 1 if faults else 0


if __name__ == "__main__":
    sys.exit(main())
