#!/usr/bin/env python3
"""A part of bench/operate.sh: the guards of examples/service/serve.sh. Stores on which a run would go on in silence, and lose
payments or answer all of them `late`, are refused, and nothing of them is changed; sound ones are served."""

import os
import shutil
import subprocess
import time

import common
from common import PLAN, WORK, see

LINES = 60000


def files(store):
    """The bytes of a store and of what stands beside it; a lock has none."""
    names = [f"{store}.stored"] + [f"{store}/{it}" for it in ("events", "slot0", "slot1")]
    found = {}
    for name in names:
        if os.path.exists(name):
            with open(name, "rb") as it:
                found[name] = it.read()
    return found


def serve(store, status=0, plan=PLAN, given=b"", **settings):
    """What serve.sh puts."""
    return common.run(common.SERVE, plan, store, status=status, given=given, env={**os.environ, "RAILGUN": common.PROGRAM, **settings})


def refuses(store, word, what, **settings):
    before = files(store)
    said = serve(store, status=74, **settings)
    see(said == f"refused start {word}\n", f"{what}: {said}")
    see(files(store) == before, f"{what}: something was changed")
    print(f"{what}: refused start {word}, and nothing is changed")


def copy_of(store, name, *parts):
    made = f"{WORK}/{name}"
    shutil.copytree(store, made)
    for part in parts:
        os.remove(f"{made}/{part}")
    return made


def row(time_of):
    return f"{time_of},c1,m1,1,1,DE,false\n".encode()


def leave_out(plan, store, now):
    """Makes the store anew without the payment that is ahead, or without one in the midst: the others stay at their offsets."""
    script, environment = f"{common.EXAMPLES}/service/leave_out.sh", {**os.environ, "RAILGUN": common.PROGRAM}
    for offset, kept in ((4, (0, 2, 3)), (2, (0, 3, 4))):
        common.run(script, plan, store, offset, f"{store}.without{offset}", env=environment)
        times = [line.split(",")[:2] for line in common.railgun("dump", f"{store}.without{offset}").splitlines()[1:]]
        wanted = {0: 0, 2: now, 3: now + 80_000_000, 4: now + 90_000_000}
        see(times == [[str(it), str(wanted[it])] for it in kept], f"without {offset} there are {times}")
    said = serve(f"{store}.without4", plan=plan, given=b"\n" + row(now + 81_000_000))
    see("4 row\n5 ok 2 2 1 1 3/3 1 1 4 4\n" in said, f"it doesn't go on behind the one that was left out: {said}")
    common.run(script, plan, store, 1, f"{store}.none", status=73, env=environment)
    common.run(script, plan, store, 4, f"{store}.without4", status=73, env=environment)
    print("made anew without that payment, the store is served, and the others have their offsets")


def try_ahead():
    """A payment of the day after tomorrow, and one of this moment."""
    plan, store = f"{WORK}/plain.toml", f"{WORK}/ahead"
    with open(PLAN, encoding="utf-8") as old, open(plan, "w", encoding="utf-8") as new:
        new.write(old.read().replace("header = true\n", ""))
    now = int(time.time() * 1000)
    serve(store, plan=plan, given=row(0) + b"\n" + row(now), NEW="1")
    serve(store, plan=plan, given=row(now + 80_000_000))
    serve(store, plan=plan, given=row(now + 90_000_000))
    refuses(store, "ahead", "a store whose last payment is 25 hours ahead of the clock")
    leave_out(plan, store, now)
    said = serve(store, plan=plan, given=row(now + 90_000_000), AHEAD="none")
    see(" ok " in said, "AHEAD=none doesn't serve it")
    said = serve(store, plan=plan, AHEAD="100000000")
    see(said.startswith("open "), "a larger AHEAD doesn't serve it")


def made_store(store):
    """A store of the first lines, served twice, whose answers are those of the whole run."""
    given = b"\n".join(common.lines_of(common.PAYMENTS)[:LINES]) + b"\n"
    half = given[: given.rindex(b"\n", 0, len(given) // 2) + 1]
    put = serve(store, given=half, NEW="1") + serve(store, given=given[len(half) :], WATCH=common.WATCH)
    common.compare(common.replies_in(put.encode().splitlines()), dict(list(common.whole().items())[:LINES]), "a sound store")


def try_lost_ends(store):
    """A log that lost its end by a bit, by a cut and by zeros, each with its checkpoints."""
    lost = copy_of(store, "lost")
    places = common.frames_of(f"{lost}/events")
    middle = places[len(places) // 2]
    common.flip(f"{lost}/events", middle)
    refuses(lost, "short", "a log that lost its end by one changed bit, with its checkpoints")
    with open(f"{lost}/events", "r+b") as it:
        it.truncate(middle + 1)
    refuses(lost, "short", "a log that was cut, with its checkpoints")
    with open(f"{lost}/events", "r+b") as it:
        it.write(bytes(middle + 1))
    refuses(lost, "short", "a log of zeros, with its checkpoints, and NEW=1", NEW="1")


def try_older(store):
    """An older copy of the log in the store's place, with the memory of what was stored since."""
    shutil.copy(f"{store}.stored", f"{WORK}/older.stored")
    older = copy_of(store, "older", "slot0", "slot1")
    end = common.frames_of(f"{older}/events")[-3]
    common.flip(f"{older}/events", end)
    with open(f"{older}/events", "r+b") as it:
        it.truncate(end + 1)
    refuses(older, "behind", "an older copy of the log without checkpoints")
    os.remove(f"{older}.stored")
    see(serve(older).startswith(f"open {common.info(older)['next']} "), "without its memory it isn't served")


def try_foreign():
    foreign = f"{WORK}/foreign"
    os.mkdir(foreign)
    for text in (b"hello", b"\x07" + os.urandom(100)):
        with open(f"{foreign}/events", "wb") as it:
            it.write(text)
        for new in ("0", "1"):
            refuses(foreign, "foreign", f"a file `events` of somebody else, NEW={new}", NEW=new)


def main():
    store = f"{WORK}/store"
    refuses(f"{WORK}/stroe", "missing", "a store that isn't there")
    refuses(f"{WORK}/no/store", "missing", "a store in a folder that isn't there")
    see(not os.path.exists(f"{WORK}/stroe") and not os.path.exists(f"{WORK}/no"), "a folder was made")
    made_store(store)
    refuses(store, "present", "NEW=1 over a store with payments", NEW="1")
    try_lost_ends(store)
    try_older(store)
    try_foreign()
    try_ahead()
    with subprocess.Popen([common.SERVE, PLAN, store], stdin=subprocess.PIPE, stdout=subprocess.PIPE, env={**os.environ, "RAILGUN": common.PROGRAM}) as first:
        first.stdout.readline()
        serve(store, status=75)
        first.communicate()
    print("a second one over a store: status 75")


main()
