#!/usr/bin/env python3
"""Makes rows of a plan from rows as they come: filter.py RULES PLAN [FIRST], between a source and `railgun run PLAN STORE FIRST`.

One line comes out for each that goes in, whatever it holds, so offsets stay. FIRST is the offset of the first line, 0 unless
it is said. A last line without its LF is dropped: it may be a piece of a row. What can't be made a row is put so that the run
refuses it: an empty line (`row`), `?fields` (`fields`), a `?` before the time (`time`) or before a value (`value C`). A text
stays as it is; the run refuses one that is too long.

RULES is a TOML file; each key may be left out:

    names = ["created", "pan", ..]   what the fields of a row are called, in their order
    headers = "FILE"                 a line that has all the names that are wanted is a header, wherever it comes, and says the
                                     order of what follows. FILE remembers headers, for a start behind them. A header is put
                                     as an empty line, at line 0 of a plan with `header = true` as well (answered `head`)
    strip = true                     spaces and tabs at both ends of a field go
    short = true                     a row may lack its last fields, those of columns that have a default
    control = true                   the lines !commit, !save and !ahead go through as they are
    ahead = 3600000                  a time that is so many milliseconds ahead of the clock, or more, is refused
    [columns.amount]                 one of these for each column of the plan that wants it, the time's among them
    from = "Amount"                  the field's name, where it isn't the column's
    default = "0"                    what stands for an empty field, as the source would write it
    scale = 2                        of an int: `12.99` is 1299; more decimals than so many must be zeros
    time = "iso"                     of the time: iso (2025-12-01T00:00:00.123Z; without a zone it is UTC; digits behind the
                                     milliseconds are cut off), seconds (decimals are allowed), or milliseconds

With neither `names` nor `headers` the fields are the plan's columns. Status 64: the words or the rules are wrong, or no names
are known at FIRST. Counts of what was refused are told on standard error at the end."""

import collections
import csv
import datetime
import os
import re
import signal
import sys
import time
import tomllib

LONGEST = 65535
KEYS = {"names", "headers", "strip", "ahead", "short", "control", "columns"}
CONTROL = (b"!commit", b"!save", b"!ahead")
COLUMN_KEYS = {"from", "default", "scale", "time"}


class Wrong(Exception):
    """The words or the rules are wrong."""


class Refused(Exception):
    """A field can't be made a value."""


def scaled(text, scale):
    """A decimal number as a whole one of the smallest unit."""
    parts = re.fullmatch(r"([+-]?)(\d{1,20})(?:\.(\d+))?", text, re.ASCII)
    if not parts or (parts[3] or "")[scale:].strip("0"):
        raise Refused("decimals")
    return str(int(parts[1] + parts[2] + (parts[3] or "")[:scale].ljust(scale, "0")))


def milliseconds(text, kind):
    """A time as milliseconds of Unix time."""
    if kind == "milliseconds":
        if not re.fullmatch(r"\d{1,20}", text, re.ASCII):
            raise Refused("time")
        return int(text)
    if kind == "seconds":
        parts = re.fullmatch(r"(\d{1,17})(?:\.(\d+))?", text, re.ASCII)
        if not parts:
            raise Refused("time")
        return int(parts[1]) * 1000 + int((parts[2] or "")[:3].ljust(3, "0"))
    return iso_milliseconds(text)


def iso_milliseconds(text):
    if not re.match(r"\d{4}-\d\d-\d\d[T ]\d\d:\d\d", text, re.ASCII):
        raise Refused("time")
    try:
        moment = datetime.datetime.fromisoformat(text)
    except ValueError:
        raise Refused("time") from None
    moment = moment if moment.tzinfo else moment.replace(tzinfo=datetime.timezone.utc)
    since = moment - datetime.datetime(1970, 1, 1, tzinfo=datetime.timezone.utc)
    if since.days < 0:
        raise Refused("time")
    return since // datetime.timedelta(milliseconds=1)


def fields_of(line):
    """The fields of a row as the program reads them; None where it is none."""
    if not line or b"\r" in line or line.startswith(b"\xef\xbb\xbf"):
        return None
    try:
        text = line.decode("utf-8", "surrogateescape")
        fields = next(csv.reader([text], strict=True))
    except (csv.Error, StopIteration):
        return None
    # csv takes a quote within a bare field as a letter of it; the program doesn't, and so no row has one here.
    bare = re.sub(r'(?:^|(?<=,))"(?:[^"]|"")*"(?=,|$)', "", text)
    return None if '"' in bare else fields


def quoted(field):
    return '"' + field.replace('"', '""') + '"' if re.search(r'[,"\r\n]', field) else field


class Rules:
    """What is done to a row."""

    def __init__(self, rules, plan):
        if set(rules) - KEYS:
            raise Wrong(f"{', '.join(sorted(set(rules) - KEYS))}: no such rule")
        columns = [it.split(":") for it in plan["stream"]["columns"]]
        self.columns = [it[0] for it in columns]
        self.kinds = [it[-1] for it in columns]
        self.of = rules.get("columns", {})
        for name, rule in self.of.items():
            if name not in self.columns or set(rule) - COLUMN_KEYS:
                raise Wrong(f"columns.{name}: no such column, or a key besides {', '.join(sorted(COLUMN_KEYS))}")
            if rule.get("time", "iso") not in ("iso", "seconds", "milliseconds"):
                raise Wrong(f"columns.{name}: time is iso, seconds or milliseconds")
            if "scale" in rule and self.kinds[self.columns.index(name)] != "int":
                raise Wrong(f"columns.{name}: scale is for an int")
        self.wanted = [self.of.get(it, {}).get("from", it) for it in self.columns]
        self.strip, self.control, self.short = (rules.get(it, False) for it in ("strip", "control", "short"))
        self.ahead, self.headers = rules.get("ahead"), rules.get("headers")
        self.names = rules.get("names", None if self.headers else self.wanted)
        self.refused = collections.Counter()
        self.now = time.time

    def begin(self, first):
        """Finds the names that are in force at this offset, and forgets the headers from there on."""
        if self.headers and os.path.exists(self.headers):
            with open(self.headers, encoding="utf-8", newline="") as it:
                known = [row for row in csv.reader(it) if int(row[0]) < first]
            with open(f"{self.headers}.new", "w", encoding="utf-8", newline="") as it:
                csv.writer(it, lineterminator="\n").writerows(known)
            os.replace(f"{self.headers}.new", self.headers)
            self.names = known[-1][1:] if known else self.names
        if self.names is None and first:
            raise Wrong(f"no header is known at line {first}: give names, or begin at line 0")
        self.order()

    def order(self):
        missing = set(self.wanted) - set(self.names or self.wanted)
        if missing:
            raise Wrong(f"names has no {', '.join(sorted(missing))}")
        self.places = [self.names.index(it) for it in self.wanted] if self.names else None

    def row(self, line, offset):
        """What is put for a line, without the LF of either."""
        if len(line) > LONGEST:
            return b"x" * (LONGEST + 1)  # answered `long`
        line = line.removesuffix(b"\r")
        if self.control and line in CONTROL:
            return line
        fields = fields_of(line.removeprefix(b"\xef\xbb\xbf") if offset == 0 else line)
        if fields and self.strip:
            fields = [it.strip(" \t") for it in fields]
        if fields and self.headers and set(self.wanted) <= set(fields):
            return self.header(fields, offset)
        if fields is None or self.places is None:
            return self.refuse("row", b"")
        if self.short and self.may_lack(self.names[len(fields) :]):
            fields += [""] * (len(self.names) - len(fields))
        if len(fields) != len(self.names):
            return self.refuse("fields", b"?fields")
        values = [self.value(at, fields[place]) for at, place in enumerate(self.places)]
        return ",".join(map(quoted, values)).encode("utf-8", "surrogateescape")

    def may_lack(self, names):
        """Whether a default stands for each of these fields."""
        defaulted = {wanted for column, wanted in zip(self.columns, self.wanted) if "default" in self.of.get(column, {})}
        return set(names) <= defaulted

    def refuse(self, why, put):
        self.refused[why] += 1
        return put

    def header(self, names, offset):
        """Takes a header, and remembers it before anything behind it is put."""
        self.names = names
        self.order()
        with open(self.headers, "a", encoding="utf-8", newline="") as it:
            csv.writer(it, lineterminator="\n").writerow([offset, *names])
            it.flush()
            os.fsync(it.fileno())
        return b""

    def value(self, at, text):
        rule = self.of.get(self.columns[at], {})
        text = text or rule.get("default", "")
        try:
            if at == 0:
                return self.time(text, rule.get("time", "milliseconds"))
            return scaled(text, rule["scale"]) if "scale" in rule else text
        except Refused as why:
            self.refused[str(why)] += 1
            return f"?{text}"

    def time(self, text, kind):
        found = milliseconds(text, kind)
        if self.ahead is not None and found >= self.now() * 1000 + self.ahead:
            raise Refused("ahead")
        return str(found)


def chunks_of(source):
    """The lines that have come, as they come, without their LF: of one that is too long no more than shows that."""
    rest = b""
    while came := os.read(source, 1 << 16):
        *lines, rest = (rest + came).split(b"\n")
        rest = rest[: LONGEST + 1]
        if lines:
            yield lines
    if rest:
        print("filter.py: a last line without its LF is dropped", file=sys.stderr)


def read_toml(path):
    try:
        with open(path, "rb") as it:
            return tomllib.load(it)
    except (OSError, tomllib.TOMLDecodeError) as why:
        raise Wrong(f"{path}: {why}") from None


def run(rules, offset):
    """Puts the rows of all lines that have come before it waits for more."""
    for lines in chunks_of(0):
        rows = [rules.row(line, offset + at) + b"\n" for at, line in enumerate(lines)]
        sys.stdout.buffer.write(b"".join(rows))
        sys.stdout.buffer.flush()
        offset += len(lines)


def main():
    signal.signal(signal.SIGPIPE, signal.SIG_DFL)
    try:
        if len(sys.argv) not in (3, 4):
            raise Wrong("the words are RULES PLAN [FIRST]")
        first = int(sys.argv[3]) if len(sys.argv) > 3 else 0
        rules = Rules(read_toml(sys.argv[1]), read_toml(sys.argv[2]))
        rules.begin(first)
    except (Wrong, KeyError, ValueError) as why:
        print(f"filter.py: {why}", file=sys.stderr)
        sys.exit(64)
    run(rules, first)
    for why, count in sorted(rules.refused.items()):
        print(f"filter.py: {count} refused for {why}", file=sys.stderr)


main()
