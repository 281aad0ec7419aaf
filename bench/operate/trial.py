#!/usr/bin/env python3
"""A part of bench/operate.sh: examples/service/trial.py over all payments. The payments that it lists are those of a count by
hand in Python, which shares nothing with the program: slices of lists by card."""

import bisect
import collections
import csv
import fractions
import io

import common
from common import EXAMPLES, PLAN, PROGRAM, WORK, see

TRIAL = f"{EXAMPLES}/service/trial.py"
HOUR, DAY, MONTH = 3_600_000, 86_400_000, 30 * 86_400_000


class Past:
    """A card's payments so far, as lists by place: those of a window begin at the first whose time is above its end."""

    def __init__(self):
        self.times, self.payments, self.sums = [], [], [0]

    def add(self, payment):
        self.times.append(payment[0])
        self.payments.append(payment)
        self.sums.append(self.sums[-1] + payment[4])

    def first(self, length):
        return bisect.bisect_right(self.times, self.times[-1] - length)

    def spent(self):
        return sum(it[4] for it in self.payments[self.first(HOUR) :]) >= 30000

    def shops(self):
        return len({it[2] for it in self.payments[self.first(DAY) :] if it[6] == "false"}) > 3

    def mean(self):
        first = self.first(MONTH)
        return fractions.Fraction(self.sums[-1] - self.sums[first], len(self.times) - first) > fractions.Fraction("5000.5")


SPENT = ("sum(amount) FROM payments GROUP BY card OVER SLIDING 3600000 ms > 29999", Past.spent)
SHOPS = ("countDistinct(merchant) >= 4", Past.shops)
MEAN = ("avg(amount) > 5000.5", Past.mean)


def accepted():
    """The payments that were accepted: offset and fields."""
    rows = common.lines_of(common.PAYMENTS)
    for offset, reply in common.whole().items():
        if reply.startswith("ok "):
            fields = next(csv.reader([rows[offset].decode()]))
            yield offset, [int(fields[0]), fields[1], fields[2], int(fields[3]), int(fields[4]), fields[5], fields[6]]


def stopped(payments, stops):
    """The offsets of the payments at which this holds of the card's payments so far."""
    past, found = collections.defaultdict(Past), set()
    for offset, payment in payments:
        past[payment[1]].add(payment)
        if stops(past[payment[1]]):
            found.add(offset)
    return found


def main():
    payments = list(accepted())
    since = payments[len(payments) // 2][1][0]
    store = f"{WORK}/store"
    with open(common.PAYMENTS, "rb") as it:
        common.railgun("run", PLAN, store, given=it.read())
    late = {offset for offset, payment in payments if payment[0] >= since}
    by = {name: stopped(payments, stops) & late for name, stops in (SPENT, SHOPS, MEAN)}
    environment = {**common.os.environ, "RAILGUN": PROGRAM}
    for new, old in ((SPENT[0], SHOPS[0]), (SHOPS[0], MEAN[0]), (MEAN[0], SPENT[0])):
        done = common.subprocess.run([TRIAL, store, PLAN, new, PLAN, old, "--since", str(since)], env=environment, capture_output=True, check=True)
        listed = list(csv.DictReader(io.StringIO(done.stdout.decode())))
        see({int(it["offset"]) for it in listed} == by[new], f"{new}: {len(listed)} are listed, and {len(by[new])} were to be")
        see({int(it["offset"]) for it in listed if it["old"] == "yes"} == by[new] & by[old], f"{new}: those that {old} stops")
        said = f"{len(late)} payments; {len(by[new])} stopped by {PLAN}\n{len(by[old])} by {PLAN}; {len(by[new] & by[old])} by both\n"
        see(done.stderr.decode() == said, f"it says {done.stderr.decode()}")
        see(all(len(it) for it in (by[new], by[new] - by[old], by[new] & by[old])), f"{new}: nothing was told apart")
    for words in ((PLAN, "count > 1"), (PLAN, "sum(amount)"), (f"{WORK}/none.toml", "count(*) > 1")):
        common.run(TRIAL, store, *words, status=64, env=environment)
    print(f"three trials over {len(late)} payments list the {', '.join(str(len(it)) for it in by.values())} payments that a count by hand gives")


main()
