#!/usr/bin/env python3
"""Runs the gate, `rt ci`, and prints what it cost: processor seconds of each crate's proof, tests, seed and edits, the
dearest edits, the most memory of one process, and the time that passed. Its output goes through, and its status is the
status. A crate's seed is one more proof of it, which its edits begin with, and a look at it without an edit at the end.

Usage: gate.py [--anew] [NAME..], at the top of the repository: the words are handed to rt ci. What an earlier run on this
machine passed is kept and costs nothing, but for --anew. It looks at the running processes each half second: what ends
sooner is missed, and the last line has that too.

Usage: gate.py --functions. It runs nothing, and lists the functions whose steps have more than 4 MB, by what `rt check`
kept in crates/NAME/out, and the tests of more than ten exits: an assertion counts two, a `?` one. These take longest."""

import collections
import glob
import os
import re
import subprocess
import sys
import time

TICK, PAGE = os.sysconf("SC_CLK_TCK"), os.sysconf("SC_PAGE_SIZE")
PARTS = ["proof", "tests", "seed", "edits"]
MOST_STEPS, MOST_EXITS = 4_000_000, 10


class Process:
    """A running process: its parent, what it and its ended children took, the bytes that it holds, its words and its folder."""

    def __init__(self, pid):
        with open(f"/proc/{pid}/stat", encoding="utf-8", errors="replace") as it:
            said = it.read().rpartition(")")[2].split()
        with open(f"/proc/{pid}/cmdline", encoding="utf-8", errors="replace") as it:
            self.words = it.read().split("\0")
        self.folder = os.readlink(f"/proc/{pid}/cwd")
        self.parent, self.began = int(said[1]), said[19]
        self.seconds, self.held = sum(map(int, said[11:15])) / TICK, int(said[21]) * PAGE

    def is_check(self):
        return self.words[0].endswith("/rattle") and "--crate-name" in self.words

    def crate(self):
        return self.words[self.words.index("--crate-name") + 1]


def running():
    """The running processes by their numbers."""
    found = {}
    for pid in filter(str.isdigit, os.listdir("/proc")):
        try:
            found[int(pid)] = Process(pid)
        except OSError:
            continue
    return found


class Check:
    """A check that was seen: its crate, whether it is of an edit, and the most that it and its copies took."""

    def __init__(self, top):
        self.crate, self.words = top.crate(), top.words
        self.is_of_edit = "/rt-edit-" in top.folder
        self.seconds = self.held = 0

    def over(self):
        """The name of the kept work that an edit's check stands on: seed, or the edit's number; none from nothing."""
        if "--incremental" not in self.words:
            return ""
        return os.path.basename(self.words[self.words.index("--incremental") + 1])

    def part(self):
        if self.is_of_edit:
            return "seed" if self.over() == "seed" else "edits"
        return "tests" if "--test" in self.words else "proof"

    def label(self):
        """What an edit's check tries."""
        names = sorted(os.path.basename(file) for file in glob.glob(f"crates/{self.crate}/must-fail/*.edit"))
        number = self.over()
        is_known = number.isdigit() and int(number) < len(names)
        return f"{self.crate} {names[int(number)] if is_known else 'an edit, from nothing'}"


def look(gate, checks):
    """Adds what the checks below the process of the gate have taken until now."""
    found = running()
    ours, below = set(), {gate}
    while below:
        ours |= below
        below = {pid for pid, it in found.items() if it.parent in below} - ours
    taken = collections.Counter()
    for pid in ours & found.keys():
        top, at = None, pid
        while at in ours and at in found:
            top = at if found[at].is_check() else top
            at = found[at].parent
        if top is not None:
            key = top, found[top].began, tuple(found[top].words)
            check = checks.setdefault(key, Check(found[top]))
            check.held = max(check.held, found[pid].held)
            taken[key] += found[pid].seconds
    for key, seconds in taken.items():
        checks[key].seconds = max(checks[key].seconds, seconds)


def run_gate():
    began, checks = time.monotonic(), {}
    # as in .ci/run, a check for each processor
    jobs = {"RT_JOBS": str(len(os.sched_getaffinity(0)))}
    gate = subprocess.Popen(["rt", "ci", *sys.argv[1:]], env={**jobs, **os.environ})
    while gate.poll() is None:
        look(gate.pid, checks)
        time.sleep(0.5)
    print_costs(list(checks.values()))
    used = os.times()
    in_all = used.children_user + used.children_system
    processors = len(os.sched_getaffinity(0))
    print(f"{time.monotonic() - began:.0f} s passed, {in_all:.0f} s of processor time on {processors} processors")
    return gate.returncode if gate.returncode >= 0 else 128 - gate.returncode


def print_costs(checks):
    costs, held = collections.defaultdict(collections.Counter), collections.Counter()
    for it in checks:
        costs[it.crate][it.part()] += it.seconds
        held[it.crate] = max(held[it.crate], it.held)
    rows = {crate: [costs[crate][part] for part in PARTS] for crate in costs}
    rows = dict(sorted(rows.items(), key=lambda it: -sum(it[1])))
    print(f"\n{'processor seconds':20}" + "".join(f"{it:>12}" for it in [*PARTS, "all", "most GB"]))
    for crate, row in rows.items():
        print_row(crate, row, f"{held[crate] / 1e9:12.1f}")
    print_row("all", [sum(it) for it in zip(*rows.values())], f"{max(held.values(), default=0) / 1e9:12.1f}")
    edits = sorted(((it.seconds, it.label()) for it in checks if it.part() == "edits"), reverse=True)
    for seconds, label in edits[:10]:
        print(f"a dear edit: {seconds:5.0f} s {label}")


def print_row(name, row, end):
    print(f"{name:20}" + "".join(f"{it:12.0f}" for it in [*row, sum(row)]) + end)


def print_functions():
    newest = {}
    for file in glob.glob("crates/*/out/incremental/**/*.Lts.oantt", recursive=True):
        newest.setdefault(os.path.basename(file), []).append(os.stat(file))
    sizes = {name: max(kept, key=lambda it: it.st_mtime).st_size for name, kept in newest.items()}
    for name, size in sorted(sizes.items(), key=lambda it: -it[1]):
        if size > MOST_STEPS:
            crate, _, function = name.removeprefix("Rattle-").removesuffix(".Lts.oantt").partition("-")
            print(f"{size / 1e6:5.1f} MB {crate} {function.removeprefix('proofs.')}")
    tests = [it for file in sorted(glob.glob("crates/*/src/**/*.rt", recursive=True)) for it in tests_in(file)]
    for exits, label in sorted(tests, reverse=True):
        if exits > MOST_EXITS:
            print(f"{exits:5} exits {label}")
    return 0


def tests_in(file):
    """The tests of a file, each with its exits. A test ends at a brace in its own column."""
    with open(file, encoding="utf-8") as it:
        text = it.read()
    for found in re.finditer(r"^( *)#\[test\]\n(?: *#.*\n)*\1fn (\w+)(.*?)^\1\}", text, re.M | re.S):
        body = re.sub(r'"(?:\\.|[^"\\])*"|//[^\n]*', "", found[3])
        exits = 2 * len(re.findall(r"\bassert\w*!", body)) + body.count("?")
        yield exits, f"{file.removeprefix('crates/')} {found[2]}"


def main():
    if sys.argv[1:] == ["--functions"]:
        return print_functions()
    if any(it.startswith("-") and it != "--anew" for it in sys.argv[1:]):
        sys.exit(__doc__)
    return run_gate()


sys.exit(main())
