#!/usr/bin/env python3
"""A part of bench/operate.sh: examples/service/backup.sh and restore.sh. Backups beside a run each go on as one run; bits that
change in the log behind a backup are all found, and so are lost payments and a checkpoint that is wrong; a backup that is put
back goes on to the same answers; one that has changed isn't put back."""

import os
import random
import shutil
import subprocess
import time

import common
from common import EXAMPLES, PLAN, PROGRAM, WORK, railgun, see

BACKUP, RESTORE = f"{EXAMPLES}/service/backup.sh", f"{EXAMPLES}/service/restore.sh"
BITS = 40


def call(*words, status=0):
    return common.run(*words, status=status, env={**os.environ, "RAILGUN": PROGRAM})


def kept(folder):
    return sorted(it for it in os.listdir(folder) if it.startswith("2") and it.endswith("Z"))


def try_beside(lines, store, folder):
    """Six backups beside a run that is killed in the end, of which four are kept: what the run put."""
    out = open(f"{WORK}/out", "wb")
    child = subprocess.Popen([PROGRAM, "run", PLAN, store], stdin=subprocess.PIPE, stdout=out)
    made = []
    for part in range(6):
        for at in range(len(lines) * part // 8, len(lines) * (part + 1) // 8, 500):
            child.stdin.write(b"".join(it + b"\n" for it in lines[at : min(at + 500, len(lines) * (part + 1) // 8)]))
            child.stdin.flush()
            time.sleep(0.002)
        made.append(call(BACKUP, PLAN, store, folder, 4).split())
    call(RESTORE, f"{folder}/{kept(folder)[-1]}", store, status=75)
    child.kill()
    child.wait()
    see([int(it[2]) for it in made] == sorted(int(it[2]) for it in made) and int(made[0][2]) > 0, f"the backups are {made}")
    see(kept(folder) == [os.path.basename(it[0]) for it in made[2:]], f"four of {made} were to be kept, and {kept(folder)} are")
    return common.replies_in(common.lines_of(f"{WORK}/out"))


def go_on(lines, store, what):
    """Goes on over a store, and sees that its answers are those of the whole run."""
    at = int(common.info(store)["next"])
    found = common.replies_in(railgun("run", PLAN, store, at, given=b"".join(it + b"\n" for it in lines[at:])).encode().splitlines())
    common.compare(found, {it: reply for it, reply in common.whole().items() if it >= at}, what)
    return found


def try_bits(store, folder):
    """Changes bits of the log, one at a time: each is found by the next backup, which isn't made."""
    chance, before = random.Random(3), kept(folder)
    events = f"{store}/events"
    end = common.frames_of(f"{folder}/{before[-1]}/events")[-1]
    for _ in range(BITS):
        place, bit = chance.randrange(end), 1 << chance.randrange(8)
        common.flip(events, place, bit)
        call(BACKUP, PLAN, store, folder, 4, status=73)
        common.flip(events, place, bit)
        see(kept(folder) == before, "a backup of a changed log was made")
    places = common.frames_of(events)
    common.flip(events, places[-3])
    call(BACKUP, PLAN, store, folder, 4, status=73)
    common.flip(events, places[-3])


def try_checkpoint(store, folder):
    """Changes a slot until `verify` finds it: the backup has the log and not that slot, and the status is 11."""
    chance, slot = random.Random(4), f"{store}/slot0"
    size = os.path.getsize(slot)
    while True:
        place = chance.randrange(size // 4, size)
        common.flip(slot, place)
        if subprocess.run([PROGRAM, "verify", PLAN, store], capture_output=True, check=False).returncode == 11:
            break
        common.flip(slot, place)
    made = call(BACKUP, PLAN, store, folder, 4, status=11).split()[0]
    see(not os.path.exists(f"{made}/slot0") and os.path.exists(f"{made}/events"), "a wrong checkpoint is in the backup")
    common.flip(slot, place)


def try_restore(lines, store, folder):
    """Loses the store, and puts a backup back that isn't the last: it goes on to the same answers, and so does the backup after it."""
    place = f"{folder}/{kept(folder)[-2]}"
    common.flip(f"{place}/events", 5000)
    call(RESTORE, place, store, status=73)
    common.flip(f"{place}/events", 5000)
    with common.held(f"{store}.lock"):
        call(RESTORE, place, store, status=75)
    with open(f"{store}/events", "r+b") as it:
        it.truncate(1000)
    said = call(RESTORE, place, store)
    see(said == f"next {common.info(store)['next']}\n" and kept(folder)[-1] == os.path.basename(place), f"put back: {said}")
    see(call(common.SERVE, PLAN, store).startswith(f"open {said.split()[1]} "), "the guards don't start it")
    go_on(lines, store, "a backup that was put back")
    call(BACKUP, PLAN, store, folder, 4)


def main():
    lines, store, folder = common.lines_of(common.PAYMENTS), f"{WORK}/store", f"{WORK}/backups"
    call(BACKUP, PLAN, store, folder, status=73)
    put = try_beside(lines, store, folder)
    for name in kept(folder):
        shutil.copytree(f"{folder}/{name}", f"{WORK}/{name}")
        found = go_on(lines, f"{WORK}/{name}", f"the backup {name}")
        common.compare({**{it: reply for it, reply in put.items() if it not in found}, **found}, common.whole(), "the run and its backup")
    print(f"six backups beside a run, four kept: each of these goes on to the answers of one run over {len(lines)} lines")
    go_on(lines, store, "the killed run")
    call(BACKUP, PLAN, store, folder, 4)
    try_bits(store, folder)
    try_checkpoint(store, folder)
    print(f"{BITS} bits changed in the log, one at a time, and a closed gate: each is found; a wrong checkpoint as well")
    try_restore(lines, store, folder)
    print("a backup that has changed isn't put back, nor over a store in use; another one is, and goes on as one run")


main()
