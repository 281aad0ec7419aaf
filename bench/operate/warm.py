#!/usr/bin/env python3
"""A part of bench/operate.sh: examples/service/warm.sh. New queries are warmed twice while a run goes on, and put in once it was
killed; the start with them answers only what came since, and each answer is that of a run which had them from the start. A copy
of another log, one by a plan that adds columns, and a store in use are refused."""

import re
import shutil
import subprocess
import threading
import time

import common
from common import EXAMPLES, PLAN, PROGRAM, WORK, railgun, see

WARM = f"{EXAMPLES}/service/warm.sh"
QUERIES = """queries = [
  "SELECT count(*), min(amount) FROM payments WHERE amount >= 5000 GROUP BY card, country OVER SLIDING 7 days",
  "SELECT countDistinct(card), max(amount) FROM payments GROUP BY merchant OVER SLIDING 1 day DELAYED BY 1 minute",
]
"""


def warm(*words, status=0):
    return common.run(WARM, *words, status=status, env={**common.os.environ, "RAILGUN": PROGRAM})


def new_plan(name, change=("", "")):
    """The plan with other queries."""
    with open(PLAN, encoding="utf-8") as it:
        text = QUERIES + it.read().partition("]\n")[2]
    with open(f"{WORK}/{name}", "w", encoding="utf-8") as it:
        it.write(text.replace(*change) if change[0] else text)
    return f"{WORK}/{name}"


def slots(store):
    """How many payments the checkpoints of a store are of."""
    return [int(it) for it in re.findall(r"^slot \d (\d+) ", railgun("info", store), re.M)]


class Feed(threading.Thread):
    """A run that is given lines little by little; `at` says how many it was given."""

    def __init__(self, plan, store, lines):
        super().__init__(daemon=True)
        self.lines, self.at = lines, 0
        self.run_of = subprocess.Popen([PROGRAM, "run", plan, store], stdin=subprocess.PIPE, stdout=subprocess.PIPE)
        self.put = []
        threading.Thread(target=lambda: self.put.extend(self.run_of.stdout), daemon=True).start()

    def run(self):
        try:
            while self.at < len(self.lines):
                part = self.lines[self.at : self.at + 200]
                self.run_of.stdin.write(b"".join(it + b"\n" for it in part))
                self.run_of.stdin.flush()
                self.at += len(part)
                time.sleep(0.01)
        except OSError:
            pass

    def kill(self):
        self.run_of.kill()
        self.run_of.wait()


def try_warm(lines, store, plan, wanted):
    """Warms while a run goes on, kills it, and starts with the new queries: how many payments the start answered again."""
    feed = Feed(PLAN, store, lines)
    feed.start()
    common.await_that(lambda: feed.at > len(lines) // 2, "half of the lines are given", 120)
    first = warm("build", plan, store, f"{WORK}/warm")
    warm("put", store, f"{WORK}/warm", status=75)
    common.await_that(lambda: feed.at > 2 * len(lines) // 3, "two thirds are given", 120)
    second = warm("build", plan, store, f"{WORK}/warm")
    see(int(second.split()[3]) > 0 and int(first.split()[3]) == 0, f"the second build begins anew: {second}")
    common.await_that(lambda: feed.at > 5 * len(lines) // 6, "five sixths are given", 120)
    feed.kill()
    most = max(slots(store), default=None)
    told = warm("put", store, f"{WORK}/warm")
    see(most is None or most in slots(store), f"the newest checkpoint of the old queries, of {most} payments, is gone: {told}")
    next_, warmed = int(common.info(store)["next"]), int(common.info(f"{WORK}/warm")["events"])
    opened, *rest = railgun("run", plan, store, next_, given=b"".join(it + b"\n" for it in lines[next_:])).encode().splitlines()
    events = int(opened.split()[2])
    see(opened == b"open %d %d %d" % (next_, events, warmed), f"the start says {opened}, and {warmed} payments were warmed")
    common.compare(common.replies_in(rest), {it: reply for it, reply in wanted.items() if it >= next_}, "the new queries")
    verified = railgun("verify", plan, store)
    see("ok" in verified and "wrong" not in verified and "unfit" not in verified, f"{told}: {verified}")
    return warmed, events


def main():
    lines, plan, store = common.lines_of(common.PAYMENTS), new_plan("new.toml"), f"{WORK}/store"
    wanted = common.replies_in(railgun("run", plan, f"{WORK}/whole", given=b"".join(it + b"\n" for it in lines)).encode().splitlines())
    warmed, events = try_warm(lines, store, plan, wanted)
    print(f"new queries warmed twice beside a run: the start went on from {warmed} of {events} payments, and each answer is as if they had been there from the start")
    before = railgun("info", store)
    other = f"{WORK}/other"
    railgun("run", PLAN, other, given=b"".join(it.replace(b",c", b",d") + b"\n" for it in lines[:5000]))
    warm("build", plan, other, f"{WORK}/warm_other")
    warm("put", store, f"{WORK}/warm_other", status=73)
    shutil.copytree(store, f"{WORK}/short")
    places = common.frames_of(f"{store}/events")
    common.flip(f"{WORK}/short/events", places[len(places) // 2])
    warm("put", f"{WORK}/short", f"{WORK}/warm", status=73)
    longer = new_plan("longer.toml", ('"declined:flag"]', '"declined:flag", "note:text"]\n[stream.defaults]\nnote = "-"'))
    warm("build", longer, store, f"{WORK}/warm_longer")
    warm("put", store, f"{WORK}/warm_longer", status=73)
    with common.held(f"{store}.lock"):
        warm("put", store, f"{WORK}/warm", status=75)
    see(railgun("info", store) == before, "a refused put changed the store")
    print("a warm copy of another log, of a longer one and of a longer schema is refused with 73, and a store in use with 75")


main()
