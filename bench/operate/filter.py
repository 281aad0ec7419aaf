#!/usr/bin/env python3
"""A part of bench/operate.sh: examples/filter in front of a run. The raw form of all payments, through the service with its
filter and its watch and with kills, has the answers of one run over the plain form, line by line; lines made by hand show each
rule; one line comes out for each of many lines of chance bytes, none of which a run takes for a control line."""

import os
import random
import subprocess
import time

import common
from common import DATA, FILTER, PLAN, PROGRAM, WORK, see
from railgun_client import Client, names_of, replayed

SMALL = """queries = ["SELECT count(*) FROM p OVER INFINITE"]
[stream]
name = "p"
columns = ["ts", "card:text", "amount:int", "online:flag"]
"""

# Rules, lines that go in, and what comes out of each, by hand.
BY_HAND = (
    ("", [("1,c1,5,true", "1,c1,5,true"), ('1,"c,1",5,true\r', '1,"c,1",5,true'), ("1, c1,5,true", "1, c1,5,true")]),
    ("strip = true", [(" 1 , c1\t,5 ,true ", "1,c1,5,true"), ('1,"  ",5,true', "1,,5,true")]),
    ("", [("", ""), ("1,c1,5", "?fields"), ("1,c1,5,true,", "?fields"), ('1,c"1,5,true', ""), ('1,"c1,5,true', ""), ("1,c\r1,5,true", "")]),
    ("", [("!commit", "?fields"), ("x,c1,5,true", "?x,c1,5,true"), ("-1,c1,5,true", "?-1,c1,5,true")]),
    ("control = true", [("!commit", "!commit"), ("!commit ", "?fields"), ("!save\r", "!save")]),
    (
        "[columns.amount]\nscale = 2",
        [("1,c,12.99,true", "1,c,1299,true"), ("1,c,12,true", "1,c,1200,true"), ("1,c,-0.5,true", "1,c,-50,true")]
        + [("1,c,12.990,true", "1,c,1299,true"), ("1,c,12.999,true", "1,c,?12.999,true"), ('1,c,"12,99",true', '1,c,"?12,99",true')]
        + [("1,c,1e3,true", "1,c,?1e3,true"), ("1,c,,true", "1,c,?,true"), ("1,c,.5,true", "1,c,?.5,true"), ("1,c,٣,true", "1,c,?٣,true")],
    ),
    (
        '[columns.ts]\ntime = "seconds"\n[columns.card]\ndefault = "none"\n[columns.amount]\ndefault = "7.5"\nscale = 1',
        [("1764547200,c,1,true", "1764547200000,c,10,true"), ("1764547200.1239,,,true", "1764547200123,none,75,true"), ("1e9,c,1,true", "?1e9,c,10,true")],
    ),
    (
        'short = true\n[columns.amount]\ndefault = "7"\n[columns.online]\ndefault = "true"',
        [("1,c,5", "1,c,5,true"), ("1,c", "1,c,7,true"), ("1", "?fields"), ("1,c,5,false", "1,c,5,false"), ("1,c,5,true,", "?fields")],
    ),
    (
        '[columns.ts]\ntime = "iso"',
        [("2025-12-01T00:00:00Z,c,1,true", "1764547200000,c,1,true"), ("2025-12-01T02:00:00.0019+02:00,c,1,true", "1764547200001,c,1,true")]
        + [("2025-12-01 00:00:00,c,1,true", "1764547200000,c,1,true"), ("2025-13-01T00:00:00Z,c,1,true", "?2025-13-01T00:00:00Z,c,1,true")]
        + [("1969-12-31T23:59:59Z,c,1,true", "?1969-12-31T23:59:59Z,c,1,true"), ("1764547200000,c,1,true", "?1764547200000,c,1,true")],
    ),
    (
        'names = ["online", "amount", "note", "when", "pan"]\n[columns.ts]\nfrom = "when"\n[columns.card]\nfrom = "pan"',
        [("true,5,x,1,c1", "1,c1,5,true"), ("true,5,1,c1", "?fields")],
    ),
)


def filtered(rules, lines, plan, *first, status=0):
    """What comes out for lines of text."""
    return [it.decode() for it in bytes_filtered(rules, [it.encode() for it in lines], plan, *first, status=status)]


def bytes_filtered(rules, lines, plan, *first, status=0):
    with open(f"{WORK}/rules", "w", encoding="utf-8") as it:
        it.write(rules)
    given = b"".join(it + b"\n" for it in lines)
    done = subprocess.run([FILTER, f"{WORK}/rules", plan, *map(str, first)], input=given, capture_output=True, check=False)
    see(done.returncode == status, f"status {done.returncode} by '{rules}': {done.stderr.decode()[-500:]}")
    return done.stdout.split(b"\n")[:-1]


def try_by_hand(plan):
    for rules, pairs in BY_HAND:
        made = filtered(rules, [it for it, _ in pairs], plan)
        for (line, wanted), it in zip(pairs, made, strict=True):
            see(it == wanted, f"by '{rules}' the line {line!r} is {it!r} and not {wanted!r}")
    return sum(len(pairs) for _, pairs in BY_HAND)


def try_ahead(plan):
    now = int(time.time() * 1000)
    made = filtered("ahead = 3600000", [f"{now + 3_500_000},c,1,true", f"{now + 3_700_000},c,1,true", f"{now}000,c,1,true"], plan)
    see(made == [f"{now + 3_500_000},c,1,true", f"?{now + 3_700_000},c,1,true", f"?{now}000,c,1,true"], f"times ahead are {made}")


def try_headers(plan):
    """A header in the midst has another order; a start behind it knows it, and one before it forgets it."""
    rules = f'headers = "{WORK}/headers"'
    lines = ["ts,card,amount,online", "1,c,5,true", "amount,x,ts,online,card", "6,x,2,true,c", "7,x,3,true,c"]
    wanted = ["", "1,c,5,true", "", "2,c,6,true", "3,c,7,true"]
    see(filtered(rules, lines, plan) == wanted, "a header in the midst")
    for first in (4, 3, 2, 1, 0):
        see(filtered(rules, lines[first:], plan, first) == wanted[first:], f"a start at line {first}")
    os.remove(f"{WORK}/headers")
    filtered(rules, lines[1:], plan, 1, status=64)
    see(filtered(rules, ["1,c,5,true", *lines], plan)[0] == "", "a row before a header")


def try_wrong(plan):
    wrong = ("colums = 1", '[columns.none]\nfrom = "x"', '[columns.card]\nscale = 2', '[columns.ts]\ntime = "ns"', 'names = ["ts"]', "strip = ")
    for rules in wrong:
        filtered(rules, [], plan, status=64)
    return len(wrong)


def try_chance(plan):
    """Chance lines of bytes that matter: as many come out, each of them refused or a row of the plan, and none a control line."""
    chance, lines = random.Random(5), []
    for _ in range(20000):
        size = chance.choice([0, 1, 5, 20, 200])
        lines.append(bytes(chance.choice(b'"",,,!commit0123456789.truefals \r\t\x00\xff\xc3\xa9?-') for _ in range(size)))
    lines += [b"1,c,5," + b"x" * size for size in (65528, 65529, 65530, 65531, 200000)]
    for rules in ("", "strip = true\n[columns.amount]\nscale = 2", f'headers = "{WORK}/h"\nnames = ["ts", "card", "amount", "online"]'):
        made = bytes_filtered(rules, lines, plan)
        see(len(made) == len(lines), f"{len(made)} lines of {len(lines)}")
        store = f"{WORK}/chance{len(rules)}"
        found = common.replies_in(common.railgun("run", plan, store, given=b"".join(it + b"\n" for it in made)).encode().splitlines())
        see(len(found) == len(lines) and "done" not in found.values(), "a line without a reply, or a control line")
        if "scale" not in rules:
            see([found[it] for it in range(20000, 20005)] == ["value 3"] * 2 + ["long"] * 3, "lines about as long as may be")
    return len(lines)


def try_service():
    """All raw lines through the service with filter and watch, with kills, and the first of them with its last line cut."""
    with open(f"{DATA}/rules.toml", encoding="utf-8") as old, open(f"{WORK}/service.toml", "w", encoding="utf-8") as new:
        new.write(old.read().replace("HEADERS", f"{WORK}/names"))
    store = f"{WORK}/store"
    common.make_store(store)
    service = common.Service(f"{WORK}/socket", PLAN, store, WATCH=common.WATCH, FILTER=f"{FILTER} {WORK}/service.toml")
    killer = common.Killer(service, [("run", store), (common.WATCH,), ()], (0.5, 1.5))
    client = Client(service.path, names_of(PLAN, PROGRAM), replayed(PLAN, store, PROGRAM))
    killer.start()
    found, wanted = {}, common.whole()
    for at, line in enumerate(common.lines_of(f"{DATA}/raw.csv")):
        client.send(line)
        found.update((it.offset, f"{it.kind} {it.more}".strip()) for it in client.ready())
        if at % 1000 == 999:
            time.sleep(0.05)
    found.update((it.offset, f"{it.kind} {it.more}".strip()) for it in client.close())
    killer.stop()
    service.close()
    for offset in [it for it, reply in found.items() if reply == "none"]:
        see(not wanted[offset].startswith("ok"), f"line {offset} is `none`")
        found[offset] = wanted[offset]
    common.compare(found, wanted, "filter")
    return len(found), killer.count


def try_failures(plan):
    """Wrong rules are refused at the start, and a filter that fails later kills the run, whose input would seem whole."""
    store, bad = f"{WORK}/bad", f"{WORK}/bad.toml"
    common.make_store(store, plan)
    with open(bad, "w", encoding="utf-8") as it:
        it.write("colums = 1\n")
    environment = {**os.environ, "RAILGUN": PROGRAM, "WATCH": common.WATCH, "FILTER": f"{FILTER} {bad}"}
    see(common.run(common.SERVE, plan, store, status=74, env=environment) == "refused start filter\n", "wrong rules")
    del environment["WATCH"]
    common.run(common.SERVE, plan, store, status=64, env=environment)
    fails = "sh -c 'head -n 2; sleep 1; exit 3'"
    said = common.run(common.WATCH, "--front", fails, "--", PROGRAM, "run", plan, store, given=b"1,c,5,true\n" * 2, status=3)
    see(said.startswith("open ") and "1 ok 2" in said and "done" not in said, f"behind a filter that fails the run puts {said}")


def main():
    plan = f"{WORK}/small.toml"
    with open(plan, "w", encoding="utf-8") as it:
        it.write(SMALL)
    by_hand = try_by_hand(plan)
    try_ahead(plan)
    try_headers(plan)
    wrong, chance = try_wrong(plan), try_chance(plan)
    print(f"{by_hand} lines by hand, times ahead, headers in the midst and at a start; {chance} lines of chance: one out for each; {wrong} wrong rules: status 64")
    piece = common.run(FILTER, f"{WORK}/rules", plan, given=b"1,c,5,true\n2,c,6,tr")
    see(piece.count("\n") == 1, f"a piece of a row comes out: {piece!r}")
    try_failures(plan)
    lines, kills = try_service()
    see(kills >= 3, f"{kills} kills")
    print(f"{lines} raw lines through filter, run and watch with {kills} kills: each answer as of the plain lines")


main()
