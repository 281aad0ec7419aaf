#!/usr/bin/env python3
"""Sends the lines of a file to a service from the one on that it asks for, and prints what comes back.

Usage: send.py SOCKET FILE [LAST]. Lines are counted from 0; behind line LAST it sends nothing more and waits until the
other end closes. It ends with status 1 where the service's first line isn't `open NEXT COUNT FROM`."""

import socket
import sys
import threading


def send(service, lines, ends):
    """Sends the lines, while what comes back is read elsewhere: else both ends could wait for each other."""
    try:
        service.sendall(b"".join(lines))
        if ends:
            service.shutdown(socket.SHUT_WR)
    except OSError as why:
        print(f"the service has gone: {why}", file=sys.stderr)


def main():
    with open(sys.argv[2], "rb") as it:
        lines = it.readlines()
    last = int(sys.argv[3]) + 1 if len(sys.argv) > 3 else len(lines)
    with socket.socket(socket.AF_UNIX) as service:
        service.connect(sys.argv[1])
        answers = service.makefile("rb")
        opened = answers.readline()
        print(opened.decode(), end="", flush=True)
        if not opened.startswith(b"open "):
            sys.exit(1)
        rest = lines[int(opened.split()[1]) : last]
        threading.Thread(target=send, args=(service, rest, len(sys.argv) == 3)).start()
        for answer in answers:
            print(answer.decode(), end="", flush=True)


main()
