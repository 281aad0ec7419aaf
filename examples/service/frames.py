#!/usr/bin/env python3
"""The frames of a log, the file `events` of a store. A frame that is written never changes, so its sum doesn't.

    frames.py end LOG             the place where the frames end
    frames.py sums LOG            a line for each frame: its place, its length and its SHA-256, the gate among its bytes
    frames.py compare LOG SUMS    sees that the log begins with the frames of these sums

A gate is one byte, 01 before a frame, and a length of eight bytes follows. Status 1, with the place on standard error, where
an open gate has no whole frame, a frame differs or is missing."""

import hashlib
import itertools
import os
import sys


def frames(log):
    """The place, the length and a function that sums up each frame; the last place, of the end, has None."""
    size, place = os.fstat(log.fileno()).st_size, 0
    while True:
        log.seek(place)
        head = log.read(9)
        if head[:1] != b"\x01":
            yield place, 0, None
            return
        length = 9 + int.from_bytes(head[1:], "big")
        if len(head) < 9 or place + length >= size:
            sys.exit(f"frames.py: the frame at {place} isn't whole")
        yield place, length, lambda: sum_of(log, place, length)
        place += length


def sum_of(log, place, length):
    log.seek(place)
    digest = hashlib.sha256()
    while length:
        part = log.read(min(length, 1 << 20))
        if not part:
            sys.exit(f"frames.py: the frame at {place} isn't whole")
        digest.update(part)
        length -= len(part)
    return digest.hexdigest()


def compare(log, sums):
    """Sees that each line of the sums is that of the frame at its place."""
    for (place, length, digest), line in zip(frames(log), itertools.chain(sums, [None])):
        if line is None:
            return
        wanted = line.split()
        if digest is None or [str(place), str(length)] != wanted[:2]:
            sys.exit(f"frames.py: the frame at {wanted[0]} of {wanted[1]} bytes is gone")
        if digest() != wanted[2]:
            sys.exit(f"frames.py: the frame at {place} of {length} bytes has changed")


def main():
    what, path, *more = sys.argv[1:]
    with open(path, "rb") as log:
        if what == "end":
            for place, _, _ in frames(log):
                last = place
            print(last)
        elif what == "sums":
            for place, length, digest in frames(log):
                if digest:
                    print(place, length, digest())
        elif what == "compare":
            with open(*more, encoding="ascii") as sums:
                compare(log, sums)
        else:
            sys.exit(64)


main()
