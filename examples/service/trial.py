#!/usr/bin/env python3
"""A rule's trial over the payments of a store: which of them a threshold on an answer would have stopped.

    trial.py STORE RULE 'ANSWER > NUMBER' [PLAN 'ANSWER > NUMBER'] [--since TIME]

RULE is a plan over the store's columns; ANSWER is the name of one of its answers, as railgun_client.names_of gives it (`check`
tells the queries), or so much of its front as no other one has; the sign is one of > >= < <= = !=. With PLAN and a threshold
of its own, as the one in force, the last column says whether that stopped the payment as well. Payments before TIME (in
milliseconds, or as 2025-12-01T00:00:00Z) aren't listed, but count in the answers.

It prints CSV: the payment's offset and columns, the answer, and `old` where PLAN is said. Standard error has how many payments
there were and how many each rule stopped. It only reads the store's log, and may stand beside a run. Status 64: the words are
wrong; else that of a `dump` or `replay` that failed. RAILGUN names the program. A mean is compared exactly; no value stops
nothing."""

import contextlib
import csv
import datetime
import fractions
import io
import operator
import os
import re
import subprocess
import sys

HERE = os.path.dirname(os.path.realpath(__file__))
sys.path[:0] = [HERE, f"{HERE}/../client"]
from railgun_client import Ratio, names_of, value_of  # noqa: E402

PROGRAM = os.environ.get("RAILGUN", "railgun")
SIGNS = {">": operator.gt, ">=": operator.ge, "<": operator.lt, "<=": operator.le, "=": operator.eq, "!=": operator.ne}


class Rule:
    """A plan and a threshold on one of its answers."""

    def __init__(self, plan, condition):
        parts = re.fullmatch(r"(.+\S)\s*(?<![<>!])(>=|<=|!=|>|<|=)\s*(-?\d+(?:\.\d+)?)", condition)
        if not parts:
            raise ValueError(f"{condition}: a condition is ANSWER, a sign and a number")
        names = names_of(plan, PROGRAM)
        found = [at for at, name in enumerate(names) if name == parts[1]] or [at for at, name in enumerate(names) if name.startswith(parts[1])]
        if len(found) != 1:
            raise ValueError(f"{parts[1]}: {len(found)} answers have this name; there are: {'; '.join(names)}")
        self.plan, self.place, self.name = plan, found[0], names[found[0]]
        self.sign, self.bound = SIGNS[parts[2]], fractions.Fraction(parts[3])

    def answer(self, line):
        """This answer in a line of a replay, and whether the rule stops the payment."""
        text = line.split(" ")[2 + self.place]
        value = value_of(text)
        value = fractions.Fraction(value.sum, value.count) if isinstance(value, Ratio) else value
        return text, value is not None and self.sign(value, self.bound)


def milliseconds(text):
    if text.isdigit():
        return int(text)
    moment = datetime.datetime.fromisoformat(text)
    return int((moment if moment.tzinfo else moment.replace(tzinfo=datetime.timezone.utc)).timestamp() * 1000)


@contextlib.contextmanager
def output_of(*words):
    """The lines that the program puts; a status other than 0 ends this one with it."""
    child = subprocess.Popen([PROGRAM, *words], stdin=subprocess.DEVNULL, stdout=subprocess.PIPE)
    with io.TextIOWrapper(child.stdout, encoding="utf-8", newline="\n") as lines:
        yield lines
        lines.read()
    if child.wait():
        sys.exit(child.returncode)


def try_rules(store, rules, since, out):
    """Lists the payments that the first rule stops; how many there were, each stopped, and both stopped."""
    seen, stopped, both = 0, [0] * len(rules), 0
    with contextlib.ExitStack() as stack:
        dump = csv.reader(stack.enter_context(output_of("dump", store)))
        replays = [stack.enter_context(output_of("replay", rule.plan, store)) for rule in rules]
        schema = ",".join(next(dump, ["()"]))
        columns = [it.split(":")[0] for it in schema[schema.index("(") + 1 : -1].split(",")]
        out.writerow(["offset", *columns, rules[0].name, *["old"] * (len(rules) - 1)])
        for payment, *lines in zip(dump, *replays):
            if any(not it.startswith(f"{payment[0]} ok ") for it in lines):
                break  # payments came in between
            if int(payment[1]) < since:
                continue
            answers = [rule.answer(line.rstrip("\n")) for rule, line in zip(rules, lines)]
            seen += 1
            stopped = [count + stops for count, (_, stops) in zip(stopped, answers)]
            both += all(stops for _, stops in answers)
            if answers[0][1]:
                out.writerow([*payment, answers[0][0], *("yes" if stops else "no" for _, stops in answers[1:])])
    return seen, stopped, both


def main():
    words, since = sys.argv[1:], 0
    try:
        if "--since" in words:
            at = words.index("--since")
            since = milliseconds(words[at + 1])
            del words[at : at + 2]
        if len(words) not in (3, 5):
            raise ValueError("the words are STORE RULE CONDITION [PLAN CONDITION] [--since TIME]")
        rules = [Rule(*words[at : at + 2]) for at in range(1, len(words), 2)]
    except (ValueError, IndexError) as why:
        print(f"trial.py: {why}", file=sys.stderr)
        sys.exit(64)
    seen, stopped, both = try_rules(words[0], rules, since, csv.writer(sys.stdout, lineterminator="\n"))
    print(f"{seen} payments; {stopped[0]} stopped by {rules[0].plan}", file=sys.stderr)
    if len(rules) > 1:
        print(f"{stopped[1]} by {rules[1].plan}; {both} by both", file=sys.stderr)


main()
