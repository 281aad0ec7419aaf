#!/usr/bin/env python3
"""The plain program that bench/windows.sh compares with: a count and a sum by card over a sliding
window, with a deque of the payments in the window and a dict of two numbers a card.

Usage: reference.py WINDOW < payments, the window in milliseconds, each line `time,card,merchant,amount`.
It writes what `railgun run` writes on the same lines, where each of them is accepted, but for what
that says of its store."""

import sys
from collections import deque


def main():
    window = int(sys.argv[1])
    inside = deque()
    by_card = {}
    write = sys.stdout.write
    number = -1
    for number, line in enumerate(sys.stdin):
        fields = line.split(",")
        time = int(fields[0])
        card = fields[1]
        amount = int(fields[3])
        while inside and inside[0][0] <= time - window:
            _, old_card, old_amount = inside.popleft()
            row = by_card[old_card]
            row[0] -= 1
            row[1] -= old_amount
            if row[0] == 0:
                del by_card[old_card]
        inside.append((time, card, amount))
        row = by_card.get(card)
        if row is None:
            row = by_card[card] = [0, 0]
        row[0] += 1
        row[1] += amount
        write(f"{number} ok {row[0]} {row[1]}\n")
    write(f"done {number + 1} {number + 1}\n")


main()
