#!/usr/bin/env python3
"""A part of bench/operate.sh: a full disk. The store of a service stands on a disk of 24 MB in memory, which is filled up again
and again while a client sends all payments, and given room a little later: the run ends with status 7, the client goes on, and
each line has its answer, as in one run. It needs root."""

import os
import random
import subprocess
import threading
import time

import common
from common import PLAN, PROGRAM, WORK, see
from railgun_client import Client, names_of, replayed


def fill(disk, chance):
    """Fills the disk but for a little, and gives the file that does."""
    free = os.statvfs(disk).f_bavail * os.statvfs(disk).f_frsize
    size = max(0, free - chance.choice([0, 4096, 40000, 100000, 300000]))
    try:
        with open(f"{disk}/filler", "wb", buffering=0) as it:
            while size > 0:
                size -= it.write(bytes(min(size, 1 << 16)))
    except OSError:
        pass  # the run has taken the rest
    return f"{disk}/filler"


def spoil(disk, over, counts):
    """Fills the disk now and then, for a while."""
    chance = random.Random(2)
    while not over.wait(chance.uniform(0.1, 0.5)):
        filler = fill(disk, chance)
        counts.append(1)
        over.wait(chance.uniform(0.2, 0.6))
        os.remove(filler)


def main():
    if os.geteuid() != 0:
        print("disk: not tried, since it needs root to mount a disk")
        return
    disk = f"{WORK}/disk"
    os.mkdir(disk)
    subprocess.run(["mount", "-t", "tmpfs", "-o", "size=24m", "tmpfs", disk], check=True)
    try:
        try_full(disk)
    finally:
        subprocess.run(["umount", "-l", disk], check=True)


def try_full(disk):
    store = f"{disk}/store"
    common.make_store(store)
    service = common.Service(f"{WORK}/socket", PLAN, store, WATCH=common.WATCH)
    client = Client(service.path, names_of(PLAN, PROGRAM), replayed(PLAN, store, PROGRAM))
    over, counts, found, wanted = threading.Event(), [], {}, common.whole()
    spoiler = threading.Thread(target=spoil, args=(disk, over, counts), daemon=True)
    spoiler.start()
    for at, line in enumerate(common.lines_of(common.PAYMENTS)):
        client.send(line)
        found.update((it.offset, f"{it.kind} {it.more}".strip()) for it in client.ready())
        if at % 1000 == 999:
            time.sleep(0.06)
    over.set()
    spoiler.join()
    found.update((it.offset, f"{it.kind} {it.more}".strip()) for it in client.close())
    service.close()
    for offset in [it for it, reply in found.items() if reply == "none"]:
        see(not wanted[offset].startswith("ok"), f"line {offset} is `none`")
        found[offset] = wanted[offset]
    common.compare(found, wanted, "a full disk")
    full = service.statuses.count(7)
    see(full >= 3 and set(service.statuses) <= {0, 7}, f"the runs ended with {service.statuses}")
    verified = common.railgun("verify", PLAN, store)
    print(f"a disk that was full {len(counts)} times: {full} runs or starts ended with status 7, {client.connections} connections")
    print(f"each of {len(found)} answers as in one run; verify says {' and '.join(verified.splitlines())}")


main()
