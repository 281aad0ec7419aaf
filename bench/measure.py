#!/usr/bin/env python3
"""Runs a command with its input and output in files, and prints its processor time (user and system)
in seconds, the time that passed in seconds and its peak memory in kilobytes.

Usage: measure.py INPUT OUTPUT COMMAND [WORD..]. It fails where the command does. The memory is told by Debian's `time`, which
starts the command: the system counts for a process the memory of the one that starts it, and Python's is as large as the program's."""

import os
import sys
import tempfile
import time


def main():
    given, put, command = sys.argv[1], sys.argv[2], sys.argv[3:]
    with tempfile.NamedTemporaryFile() as peak:
        start = time.monotonic()
        child = os.posix_spawn(
            "/usr/bin/time",
            ["time", "-q", "-f", "%M", "-o", peak.name, *command],
            os.environ,
            file_actions=[
                (os.POSIX_SPAWN_OPEN, 0, given, os.O_RDONLY, 0),
                (os.POSIX_SPAWN_OPEN, 1, put, os.O_WRONLY | os.O_CREAT | os.O_TRUNC, 0o600),
            ],
        )
        _, status, used = os.wait4(child, 0)
        passed = time.monotonic() - start
        if status != 0:
            sys.exit(f"{command[0]} failed: {os.waitstatus_to_exitcode(status)}")
        print(f"{used.ru_utime + used.ru_stime:.3f} {passed:.3f} {peak.read().decode().strip()}")


main()
