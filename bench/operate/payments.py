#!/usr/bin/env python3
"""Makes the payments of bench/operate.sh: payments.py LINES FOLDER writes

    plan.toml      a plan of five queries, with a header
    payments.csv   so many lines, a header and payments of 4,000 cards over 38 days that ended before 2024; some are late, and
                   some are no rows
    raw.csv        the same lines as a source may have them: other names, another order, ISO times, decimals, spaces, empty
                   countries, CRLF
    rules.toml     the rules by which examples/filter makes the first of the second

The same for the same LINES, on each machine."""

import datetime
import random
import sys

PLAN = """queries = [
  "SELECT count(*), sum(amount) FROM payments GROUP BY card OVER SLIDING 1 hour",
  "SELECT countDistinct(merchant), max(amount) FROM payments WHERE declined = FALSE GROUP BY card OVER SLIDING 1 day",
  "SELECT avg(amount), last(mid) FROM payments GROUP BY card OVER SLIDING 30 days",
  "SELECT count(*) FROM payments GROUP BY merchant OVER SLIDING 1 hour DELAYED BY 1 minute",
  "SELECT count(*), sum(amount) FROM payments OVER INFINITE",
]
[stream]
name = "payments"
columns = ["ts", "card:text", "merchant:text", "mid:id", "amount:int", "country:text", "declined:flag"]
[settings]
header = true
commit = 256
save = 16384
"""

RULES = """headers = "HEADERS"
strip = true
ahead = 86400000
[columns.ts]
from = "Created At"
time = "iso"
[columns.card]
from = "pan"
[columns.amount]
scale = 2
[columns.country]
default = "??"
"""

EPOCH = datetime.datetime(1970, 1, 1)
BEGIN, DAYS = 1_700_000_000_000, 38


def quoted(text):
    return '"' + text.replace('"', '""') + '"' if "," in text or '"' in text else text


def merchant(chance):
    number = int(chance.paretovariate(0.9)) % 600
    return number, {0: "Café Zoë", 1: 'The "Pub"', 2: "Kiosk, Main St", 3: "店"}.get(number, f"m{number}")


def payment(chance, time):
    """The fields of a payment, in the order of the plan."""
    number, name = merchant(chance)
    card = int(4000 * chance.random() ** 3)
    amount = chance.choice([1, -1] if chance.random() < 0.02 else [1]) * int(chance.expovariate(1 / 4000))
    country = chance.choice(["DE", "FR", "AT", "??", "US"])
    return [time, f"c{card}", name, number * 7919 + 2**40, amount, country, chance.choice(["false"] * 19 + ["true"])]


def iso(time):
    return (EPOCH + datetime.timedelta(milliseconds=time)).isoformat(timespec="milliseconds") + "Z"


def decimal(amount):
    sign, digits = "-" if amount < 0 else "", str(abs(amount)).rjust(3, "0")
    return f"{sign}{digits[:-2]}.{digits[-2:]}"


def as_row(fields):
    return ",".join(quoted(str(it)) for it in fields)


def as_raw(chance, fields):
    """The same payment as its source has it."""
    time, card, name, mid, amount, country, declined = fields
    spaces = " " * chance.choice([0, 0, 0, 1])
    written = [time if isinstance(time, str) else iso(time), f"{spaces}{card}", amount if isinstance(amount, str) else decimal(amount)]
    written += ["" if country == "??" else country, quoted(name), declined, str(mid) + spaces, "note"]
    return ",".join(written[it] for it in (7, 2, 3, 1, 0, 4, 6, 5)) + chance.choice(["", "", "\r"])


def lines(count):
    """Pairs of a line and its raw form."""
    chance = random.Random(7)
    yield "ts,card,merchant,mid,amount,country,declined", "remark,amount,country,pan,Created At,merchant,mid,declined"
    time = BEGIN
    for _ in range(count - 1):
        time += chance.choice([0, 1, 1000, int(4 * chance.expovariate(count / (DAYS * 86_400_000)))])
        fields, fault = payment(chance, time), chance.random()
        if fault < 0.006:
            fields[0] -= 7_200_000  # late, but for the first ones
        elif fault < 0.008:
            fields[4] = "EUR100"
        elif fault < 0.010:
            fields[0] = "soon"
        elif fault < 0.012:
            fields[6] = "yes"
        row, raw = as_row(fields), as_raw(chance, fields)
        if fault > 0.998:
            row, raw = "", ""
        elif fault > 0.996:
            row, raw = row.rpartition(",")[0], raw.partition(",")[2]
        yield row, raw


def main():
    count, folder = int(sys.argv[1]), sys.argv[2]
    with open(f"{folder}/payments.csv", "w", encoding="utf-8") as rows, open(f"{folder}/raw.csv", "w", encoding="utf-8", newline="") as raws:
        for row, raw in lines(count):
            rows.write(row + "\n")
            raws.write(raw + "\n")
    for name, text in (("plan.toml", PLAN), ("rules.toml", RULES)):
        with open(f"{folder}/{name}", "w", encoding="utf-8") as it:
            it.write(text)


main()
