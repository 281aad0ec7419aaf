#!/usr/bin/env python3
"""A part of bench/operate.sh: the client of examples/client over the service of examples/service, with its watch behind the
run, while the run, the watch or all of them are killed at moments of chance. Every line has its answer, as in one run."""

import common
from common import PLAN, PROGRAM, WORK, fail, railgun, see
from railgun_client import Client, OtherSource, Ratio, Refused, StoreLost, names_of, replayed

QUERIES = (
    ("count(*)", "sum(amount)", " FROM payments GROUP BY card OVER SLIDING 3600000 ms"),
    ("countDistinct(merchant)", "max(amount)", " FROM payments WHERE declined = FALSE GROUP BY card OVER SLIDING 86400000 ms"),
    ("avg(amount)", "last(mid)", " FROM payments GROUP BY card OVER SLIDING 2592000000 ms"),
    ("count(*)", " FROM payments GROUP BY merchant OVER SLIDING 3600000 ms DELAYED BY 60000 ms"),
    ("count(*)", "sum(amount)", " FROM payments OVER INFINITE"),
)
NAMES = [answer + query[-1] for query in QUERIES for answer in query[:-1]]


def send_all(client, lines, pace):
    """Sends lines, and returns the replies by their offsets, each of which must come once and in order."""
    found = {}

    def take(replies):
        for it in replies:
            see(it.offset == len(found), f"a reply to line {it.offset} came where {len(found)} was to come")
            found[it.offset] = f"{it.kind} {it.more}".strip()

    for at, line in enumerate(lines):
        client.send(line)
        take(client.ready())
        if at % 1000 == 999:
            pace()
    take(client.close())
    return found


def try_kills(lines, wanted, brings):
    """All lines with kills; with `brings` lost replies come from a replay, and without it they are `lost`."""
    store = f"{WORK}/store{int(brings)}"
    common.make_store(store)
    service = common.Service(f"{WORK}/socket{int(brings)}", PLAN, store, WATCH=f"{common.WATCH}")
    killer = common.Killer(service, [("run", store), (common.WATCH,), ()], (0.3, 1.0))
    client = Client(service.path, names_of(PLAN, PROGRAM), replayed(PLAN, store, PROGRAM) if brings else None)
    killer.start()
    found = send_all(client, lines, lambda: common.time.sleep(0.08))
    killer.stop()
    lost = [it for it, reply in found.items() if reply in ("lost", "none")]
    stored = common.replies_in(railgun("replay", PLAN, store).encode().splitlines())
    for offset in lost:
        see(not brings or not wanted[offset].startswith("ok"), f"line {offset} is `none`, and is a payment")
        found[offset] = wanted[offset]
    common.compare(found, wanted, "client")
    common.compare(stored, {it: reply for it, reply in wanted.items() if reply.startswith("ok")}, "the store")
    see(killer.count >= 5 and client.connections > killer.count // 2, f"{killer.count} kills, {client.connections} connections")
    service.close()
    return killer.count, client.connections, len(lost)


def try_names(lines, wanted):
    """The answers of a payment by their names, one asked at a time."""
    see(names_of(PLAN, PROGRAM) == NAMES, f"the names are {names_of(PLAN, PROGRAM)}")
    store = f"{WORK}/asked"
    common.make_store(store)
    service = common.Service(f"{WORK}/asks", PLAN, store)
    client = Client(service.path, NAMES)
    for at, line in enumerate(lines[:300]):
        reply = client.ask(line.decode())
        kind, *answers = wanted[at].split(" ")
        see((reply.offset, reply.kind) == (at, kind), f"line {at} has {reply.kind}, not {kind}")
        if kind == "ok":
            count, total, mean = (reply.answers[NAMES[it]] for it in (0, 1, 4))
            see((str(count), str(total), mean) == (answers[0], answers[1], Ratio(*map(int, answers[4].split("/")))), f"line {at}")
    see(client.close() == [], "a reply came twice")
    service.close()


def try_refusals(lines):
    """A store that has lost payments, one that is ahead, and one that isn't there."""
    store = f"{WORK}/refused"
    common.make_store(store)
    service = common.Service(f"{WORK}/refuses", PLAN, store)
    client = Client(service.path, patience=5)
    for line in lines[:3000]:
        client.send(line)
    common.await_that(lambda: client.pump(0) or client.stored > 2000, "2,000 payments are stored")
    stored, opened = client.stored, []
    for told, wrong in ((stored - 1, StoreLost), (client.next + 1, OtherSource)):
        try:
            client.go_on(told)
            fail(f"a store that opens at {told} is taken")
        except wrong as why:
            opened.append(str(why))
    service.kill()
    common.await_that(lambda: service.process.poll() is not None, "the service is killed")
    common.run("mv", store, f"{store}.away")
    try:
        client.close()
        fail("a store that isn't there is taken")
    except Refused as why:
        see(str(why) == "refused start missing", f"the reason is {why}")
    service.close()


def main():
    lines, wanted = common.lines_of(common.PAYMENTS), common.whole()
    try_names(lines, wanted)
    try_refusals(lines)
    kills, connections, none = try_kills(lines, wanted, brings=True)
    print(f"{len(lines)} lines by the client, {kills} kills, {connections} connections: each answer once and as in one run; {none} replies to refused lines were lost")
    few = lines[:30000]
    kills, _, lost = try_kills(few, dict(list(wanted.items())[: len(few)]), brings=False)
    print(f"{len(few)} lines by a client without a replay, {kills} kills: {lost} replies are told as lost, all others as in one run")


main()
