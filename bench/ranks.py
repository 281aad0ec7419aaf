#!/usr/bin/env python3
"""The plain programs that bench/ranks.sh compares with: a median by card over a sliding window, with a
deque of the payments in the window and, for each card, a list in rising order that `bisect` searches, or
a SortedList of Debian's python3-sortedcontainers.

Usage: ranks.py KIND WINDOW < payments: KIND is bisect or sortedlist, the window is in milliseconds, and
each line is `time,card,merchant,amount`. It writes what `railgun run` writes on the same lines, where each
of them is accepted, but for what that says of its store."""

import sys
from bisect import bisect_left, insort
from collections import deque


class RisingList:
    """A list in rising order."""

    def __init__(self):
        self.list = []

    def add(self, number):
        insort(self.list, number)

    def remove(self, number):
        del self.list[bisect_left(self.list, number)]

    def __len__(self):
        return len(self.list)

    def __getitem__(self, place):
        return self.list[place]


def maker(kind):
    if kind == "bisect":
        return RisingList
    from sortedcontainers import SortedList

    return SortedList


def main():
    make = maker(sys.argv[1])
    window = int(sys.argv[2])
    inside = deque()
    by_card = {}
    write = sys.stdout.write
    number = -1
    for number, line in enumerate(sys.stdin):
        fields = line.split(",")
        time = int(fields[0])
        card = fields[1]
        amount = int(fields[3])
        while inside and inside[0][0] <= time - window:
            _, old_card, old_amount = inside.popleft()
            amounts = by_card[old_card]
            amounts.remove(old_amount)
            if not amounts:
                del by_card[old_card]
        inside.append((time, card, amount))
        amounts = by_card.get(card)
        if amounts is None:
            amounts = by_card[card] = make()
        amounts.add(amount)
        write(f"{number} ok {amounts[(50 * len(amounts) + 99) // 100 - 1]}\n")
    write(f"done {number + 1} {number + 1}\n")


main()
