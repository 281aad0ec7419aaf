#!/usr/bin/env python3
"""Makes the lines of a run of the messages of a partition: lines.py FIRST, the offset of the first line.

It reads what `kcat -f '%o %S %s\\n'` prints: of each message its offset, the length of its value and the value. A line is
the value of the message at the line's offset, and an empty one where the partition has no message there (a mark of a
transaction, a message that was compacted away): the run answers it `row`. An LF in a value becomes a CR, so that it ends
no line. A message that was cut, since kcat was killed while it wrote, is left out. Its status is 1 where an offset is one
that has gone by.

lines.py --replies hands on the replies among the lines of a run, but none that was cut, since the run was killed."""

import signal
import sys


def messages(source):
    """The offset and the value of each message, up to one that isn't there whole."""
    while head := source.readline():
        offset, _, rest = head.partition(b" ")
        length, _, value = rest.partition(b" ")
        if not head.endswith(b"\n"):
            return
        size = max(int(length), 0) + 1
        value += source.read(size - len(value))
        if len(value) < size:
            return
        yield int(offset), value[:-1]


def hand_on_replies():
    for line in sys.stdin.buffer:
        if line[:1].isdigit() and line.endswith(b"\n"):
            sys.stdout.buffer.write(line)
            sys.stdout.buffer.flush()


def main():
    signal.signal(signal.SIGPIPE, signal.SIG_DFL)
    if sys.argv[1] == "--replies":
        hand_on_replies()
        return
    wanted = int(sys.argv[1])
    for offset, value in messages(sys.stdin.buffer):
        if offset < wanted:
            sys.exit(f"lines.py: offset {offset} came where {wanted} or a later one was to come")
        missing = b"\n" * (offset - wanted)
        sys.stdout.buffer.write(missing + value.replace(b"\n", b"\r") + b"\n")
        sys.stdout.buffer.flush()
        wanted = offset + 1


main()
