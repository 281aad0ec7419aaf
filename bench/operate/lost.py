#!/usr/bin/env python3
"""A part of bench/operate.sh: a lost end of the log. A client's service is killed, and its log loses its end, by a bit or by a
cut: the next start is refused, and the client is told so. A backup is put back; a client that knows what was stored refuses the
store, a new one begins where it stands, and each line has its answer, as in one run."""

import os
import shutil

import common
from common import EXAMPLES, PLAN, PROGRAM, WORK, see
from railgun_client import Client, Refused, StoreLost, names_of


def send(client, lines, found):
    for line in lines:
        client.send(line)
        found.update((it.offset, f"{it.kind} {it.more}".strip()) for it in client.ready())


def lose_by_bit(store):
    places = common.frames_of(f"{store}/events")
    common.flip(f"{store}/events", places[2 * len(places) // 3])


def lose_by_cut(store):
    places = common.frames_of(f"{store}/events")
    with open(f"{store}/events", "r+b") as it:
        it.truncate(places[2 * len(places) // 3])
        it.seek(0, os.SEEK_END)
        it.write(b"\x00")
    for slot in ("slot0", "slot1"):
        os.remove(f"{store}/{slot}")  # then only the memory of what was stored tells


def refused(client, wanted):
    """Sees that this client can't go on, for this reason."""
    try:
        client.close()
    except (Refused, StoreLost) as why:
        see(str(why).startswith(wanted), f"the reason is {why}")
        return
    common.fail(f"a client goes on over a lost end; {wanted} was to come")


def try_lost(lines, name, lose, word):
    store, folder, found = f"{WORK}/{name}", f"{WORK}/{name}.backups", {}
    environment = {**os.environ, "RAILGUN": PROGRAM}
    common.make_store(store)
    service = common.Service(f"{WORK}/{name}.socket", PLAN, store, WATCH=common.WATCH)
    names, third = names_of(PLAN, PROGRAM), len(lines) // 3
    client = Client(service.path, names, patience=10)
    send(client, lines[:third], found)
    backup = common.run(f"{EXAMPLES}/service/backup.sh", PLAN, store, folder, env=environment).split()[0]
    send(client, lines[third : 2 * third], found)
    service.kill()
    common.await_that(lambda: service.process.poll() is not None, "the service is killed")
    lose(store)
    refused(client, f"refused start {word}")
    said = common.run(f"{EXAMPLES}/service/restore.sh", backup, store, env=environment)
    refused(client, "the store opens at ")
    after = Client(service.path, names, patience=10)
    see(f"next {after.next}\n" == said, f"the store opens at {after.next}, and {said}")
    send(after, lines[after.next :], found)
    found.update((it.offset, f"{it.kind} {it.more}".strip()) for it in after.close())
    service.close()
    common.compare(found, common.whole(), name)
    shutil.rmtree(store)
    return after.stored


def main():
    lines = common.lines_of(common.PAYMENTS)
    try_lost(lines, "bit", lose_by_bit, "short")
    print("a log that lost a third by a bit: refused start short; a backup is put back, and each answer is as in one run")
    try_lost(lines, "cut", lose_by_cut, "behind")
    print("a log that was cut, without its slots: refused start behind; the same")


main()
