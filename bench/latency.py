#!/usr/bin/env python3
"""Writes the lines of a file to a command at a fixed rate, whether or not answers come, and prints how long they took: the
median, the 99th and the 99.9th percentile and the greatest, in milliseconds, and how many came.

Usage: latency.py RATE LINES COMMAND [WORD..]. A line is due RATE times a second from the start on; its answer, a line of
the command that begins with its number from 0, counts from then, so that waiting in the pipe counts too. It fails where
the command does, or where a line has no answer. Where WAITS names a file, that gets the longest wait of each tenth of a
second: its end, in seconds, and the wait."""

import os
import subprocess
import sys
import time


def write(lines, rate, start, pipe):
    """Writes each line once it is due."""
    sent = 0
    while sent < len(lines):
        due = min(len(lines), int((time.monotonic() - start) * rate))
        if due > sent:
            given = memoryview(b"".join(lines[sent:due]))
            while given:
                given = given[os.write(pipe, given) :]
            sent = due
        time.sleep(0.0002)


def main():
    rate, command = int(sys.argv[1]), sys.argv[3:]
    with open(sys.argv[2], "rb") as it:
        lines = it.readlines()
    with subprocess.Popen(command, stdin=subprocess.PIPE, stdout=subprocess.PIPE, bufsize=0) as child:
        # what it says before the first line, as that its store is open, is no part of an answer
        time.sleep(2)
        start = time.monotonic()
        writer = os.fork()
        if writer == 0:
            child.stdout.close()
            write(lines, rate, start, child.stdin.fileno())
            os._exit(0)
        child.stdin.close()
        came = []
        while read := os.read(child.stdout.fileno(), 1 << 16):
            came.append((time.monotonic(), read))
        os.waitpid(writer, 0)
    if child.returncode != 0:
        sys.exit(f"{command[0]} failed: {child.returncode}")
    took, left = {}, b""
    for at, read in came:
        *whole, left = (left + read).split(b"\n")
        for line in whole:
            number = line.split(b" ", 1)[0]
            if number.isdigit():
                took[int(number)] = 1000 * (at - start - (int(number) + 1) / rate)
    if len(took) != len(lines):
        sys.exit(f"{len(lines)} lines have {len(took)} answers")
    if file := os.environ.get("WAITS"):
        longest = {}
        for number, wait in took.items():
            tenth = 10 * number // rate + 1
            longest[tenth] = max(longest.get(tenth, 0), wait)
        with open(file, "w") as it:
            it.writelines(f"{tenth / 10:.1f} {longest[tenth]:.2f}\n" for tenth in sorted(longest))
    took = sorted(took.values())
    rank = lambda part: took[min(len(took) - 1, int(part * len(took)))]
    print(f"{rank(0.5):.2f} {rank(0.99):.1f} {rank(0.999):.1f} {took[-1]:.1f} {len(took)}")


main()
