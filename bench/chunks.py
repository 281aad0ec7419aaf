#!/usr/bin/env python3
"""Writes the log of a store again with each chunk as rows, into another folder, and prints how many payments there are
and how many bytes both logs have.

Usage: chunks.py STORE OTHER. The bytes are those of docs/STORE.md. The slots are left out, since their spots name
places of the old log. It fails where a frame or a column ends too early or too late; it checks no more of the log."""

import os
import sys

HEAD = 37
ROWS, COLUMNS = b"C", b"K"


class Reader:
    """Bytes that are taken from the left."""

    def __init__(self, data):
        self.data = data
        self.at = 0

    def take(self, length):
        end = self.at + length
        if end > len(self.data):
            sys.exit("the bytes end too early")
        piece = self.data[self.at : end]
        self.at = end
        return piece

    def number(self, length):
        return int.from_bytes(self.take(length), "big")

    def left(self):
        return len(self.data) - self.at


def numbers(reader, count):
    """A column of numbers, each in 8 bytes as a row has it."""
    base, width = reader.number(8), reader.number(1)
    return [((base + reader.number(width)) % 2**64).to_bytes(8, "big") for _ in range(count)]


def texts(reader, count):
    """A column of texts, each behind its length as a row has it."""
    lengths = reader.take(count)
    return [bytes([length]) + reader.take(length) for length in lengths]


def flags(reader, count):
    """A column of flags, each in one byte as a row has it."""
    return [bytes([flag]) for flag in reader.take(count)]


COLUMN = {"int": numbers, "id": numbers, "text": texts, "flag": flags}


def payloads(data):
    """The payloads of the open frames of a file."""
    if len(data) < 2:
        return []
    reader, found = Reader(data), []
    while reader.take(1) == b"\x01":
        found.append(reader.take(reader.number(8)))
    return found


def framed(found):
    """A file of open frames with these payloads, and a closed gate."""
    frames = [b"\x01" + len(payload).to_bytes(8, "big") + payload for payload in found]
    return b"".join(frames) + b"\x00"


def kinds_of(schema):
    """The kinds of the columns behind the time that a schema's payload names."""
    inside = schema.decode().split("(")[1].rstrip(")")
    return [column.split(":")[1] for column in inside.split(",")[1:]]


def count_of(chunk):
    """How many payments a chunk has."""
    return int.from_bytes(chunk[1:5], "big")


def as_rows(chunk, kinds):
    """The chunk with its payments one after another."""
    if chunk[:1] == ROWS:
        return chunk
    if chunk[:1] != COLUMNS:
        sys.exit("a frame is no chunk")
    count, reader = count_of(chunk), Reader(chunk[HEAD:])
    columns = [numbers(reader, count), numbers(reader, count)]
    columns += [COLUMN[kind](reader, count) for kind in kinds]
    if reader.left() > 0:
        sys.exit("a chunk goes on behind its columns")
    return ROWS + chunk[1:HEAD] + b"".join(b"".join(row) for row in zip(*columns))


def main():
    store, other = sys.argv[1], sys.argv[2]
    with open(os.path.join(store, "events"), "rb") as file:
        log = file.read()
    schema, *chunks = payloads(log)
    kinds = kinds_of(schema)
    rows = framed([schema] + [as_rows(chunk, kinds) for chunk in chunks])
    os.makedirs(other, exist_ok=True)
    with open(os.path.join(other, "events"), "wb") as file:
        file.write(rows)
    count = sum(count_of(chunk) for chunk in chunks)
    print(count, len(log), len(rows))


main()
