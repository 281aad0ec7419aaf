#!/usr/bin/python3
"""The parts of bench/speed.sh that no other script has: pauses of checkpoints, memory over keys, times of a build, the page.

Usage: speed.py pauses KEYS PROGRAM prints, in milliseconds and bytes: the pause of a base and of 1,000 changed rows, the bytes of
each, and how long a restart takes from them and without them. speed.py memory PROGRAM KEYS.. prints kilobytes at the peak of a
run for each number of keys: with two aggregators, with eight, and of bench/reference.py. speed.py build CLONE prints when the
check of each crate began and ended, in seconds, by the times of its out folder: so it is of a clone that one command built from
nothing. speed.py page FIGURES SPEED.md PICTURES writes the page and draws the pictures; what has no figures is left out."""

import glob
import os
import re
import shutil
import statistics
import subprocess
import sys
import tempfile
import threading
import time

HERE = os.path.dirname(os.path.abspath(__file__))
TWO, EIGHT = "count(*), sum(amount)", "count(*), sum(amount), avg(amount), sumsq(amount), min(amount), max(amount), first(amount), last(amount)"
CHANGED, AIMS = 1000, {"40": 3.5, "100,000": 2.5}
PARTS = ("sorting", "putting bytes at the end", "keys and the table", "the engine", "replies", "events, chunks and the log",
         "reading a line, the session", "memory taken and given back", "copies of bytes", "the rest")  # as bench/counts.py


def plan(answers, save):
    """A plan that answers these by card, and saves a checkpoint each so many payments."""
    return f"""queries = ["SELECT {answers} FROM payments GROUP BY card OVER INFINITE"]
[stream]
name = "payments"
columns = ["ts", "card:text", "merchant:text", "amount:int"]
[settings]
save = {save}
"""


def payments(first, number, cards):
    """Payments from this one on, five seconds apart, each card in turn."""
    return "".join(f"{i * 5}000,c{i % cards},m{i % 97},{i % 10000}\n" for i in range(first, first + number)).encode()


class Run:
    """A run of the program behind pipes."""

    def __init__(self, program, folder):
        words = [program, "run", f"{folder}/plan", f"{folder}/store"]
        self.began = time.monotonic()
        self.child = subprocess.Popen(words, stdin=subprocess.PIPE, stdout=subprocess.PIPE)

    def ask(self, given, last):
        """Writes these bytes, reads up to the line that begins so, and returns the milliseconds between."""
        began = time.monotonic()
        writer = threading.Thread(target=lambda: (self.child.stdin.write(given), self.child.stdin.flush()))
        writer.start()
        while not (line := self.child.stdout.readline()).startswith(last):
            if not line:
                sys.exit(f"no line {last}")
        took = 1000 * (time.monotonic() - began)
        writer.join()
        return took

    def end(self):
        self.child.stdin.close()
        self.child.stdout.read()
        if self.child.wait() != 0:
            sys.exit("the run failed")


def opened(program, folder):
    """How many milliseconds pass until the open line of a run, and its last number: how many payments its checkpoint has."""
    run = Run(program, folder)
    line = run.child.stdout.readline()
    took = 1000 * (time.monotonic() - run.began)
    run.end()
    return took, int(line.split()[3])


def print_pauses(keys, program):
    with tempfile.TemporaryDirectory(prefix="railgun-", dir=os.environ.get("TMPDIR", "/var/tmp")) as folder:
        with open(f"{folder}/plan", "w", encoding="utf-8") as it:
            it.write(plan(TWO, keys))
        slot = f"{folder}/store/slot0"
        run = Run(program, folder)
        # the payment behind the line `!commit` is one for which a checkpoint is due: all rows
        run.ask(payments(0, keys - 1, keys), f"{keys - 2} ok".encode())
        run.ask(b"!commit\n", b"stored")
        base, size = run.ask(payments(keys - 1, 1, keys), b"saved"), os.stat(slot).st_size
        run.ask(payments(keys, CHANGED, keys), f"{keys + CHANGED} ok".encode())
        run.ask(b"!commit\n", b"stored")
        changes, all_size = run.ask(b"!save\n", b"saved"), os.stat(slot).st_size
        run.end()
        with_it = [opened(program, folder) for _ in range(3)]
        for file in ("slot0", "slot1"):
            os.remove(f"{folder}/store/{file}")
        without = opened(program, folder)
        if [it[1] for it in with_it] != 3 * [keys + CHANGED] or without[1] != 0:
            sys.exit("a restart was not from the checkpoint that was wanted")
        print(f"{base:.1f} {changes:.1f} {size} {all_size - size} {statistics.median(it[0] for it in with_it):.1f} {without[0]:.1f}")


def print_memory(program, numbers):
    with tempfile.TemporaryDirectory(prefix="railgun-", dir=os.environ.get("TMPDIR", "/var/tmp")) as folder:
        def peak(*words):
            said = subprocess.run([sys.executable, f"{HERE}/measure.py", f"{folder}/payments", f"{folder}/out", *words], stdout=subprocess.PIPE, check=True)
            return said.stdout.split()[2].decode()

        for keys in map(int, numbers):
            with open(f"{folder}/payments", "wb") as it:
                it.write(payments(0, keys, keys))
            peaks = []
            for answers in (TWO, EIGHT):
                with open(f"{folder}/plan", "w", encoding="utf-8") as it:
                    it.write(plan(answers, 1000000))
                shutil.rmtree(f"{folder}/store", ignore_errors=True)
                peaks.append(peak(program, "run", f"{folder}/plan", f"{folder}/store"))
            print(keys, *peaks, peak("python3", f"{HERE}/reference.py", str(2**62)))


def print_build(clone):
    with open(f"{clone}/crates.txt", encoding="utf-8") as it:
        listed = re.findall(r"^(\w+)[^:\n#]*:(.*)$", it.read(), re.M)
    found = []
    for crate, below in listed:
        out = f"{clone}/crates/{crate}/out"
        ends = [it for it in (f"{out}/rlib/stamp", f"{out}/{crate}") if os.path.exists(it)]
        if ends and not crate.endswith("_tests"):
            began = int(subprocess.run(["stat", "-c", "%W", out], stdout=subprocess.PIPE, check=True).stdout)
            found.append((began, max(os.stat(it).st_mtime for it in ends), crate, below))
    start = min((it[0] for it in found), default=0)
    for began, ended, crate, below in sorted(found):
        print(f"{began - start:.0f} {ended - start:.0f} {crate} {below.strip()}")


class Figures:
    """The raw figures of a folder, by the names of their files."""

    def __init__(self, folder):
        self.folder = folder

    def text(self, name):
        try:
            with open(f"{self.folder}/{name}", encoding="utf-8") as it:
                return it.read()
        except OSError:
            return ""

    def rows(self, name):
        """The rows of a table in a file, its head and its rule left out."""
        lines = [[cell.strip() for cell in it.strip().strip("|").split("|")] for it in self.text(name).splitlines() if it.startswith("|")]
        return [it for it in lines if not set("".join(it)) <= set("-:")][1:]

    def words(self, name):
        return [it.split() for it in self.text(name).splitlines()]

    def windows(self):
        """For each row of the windows what each run gave: seconds, the reference's, ratio, lines a second, memory."""
        found = {}
        for file in sorted(glob.glob(f"{self.folder}/windows-*[0-9]")):
            for name, *cells in self.rows(os.path.basename(file)):
                found.setdefault(name, []).append(cells)
        return found


def table(head, rows):
    lines = ["| " + " | ".join(map(str, it)) + " |" for it in [head, *rows]]
    return "\n".join([lines[0], "|---" * len(head) + "|", *lines[1:]]) + "\n"


def middle(cells):
    """The middle one of cells such as '0.37 s'."""
    return statistics.median(float(re.match(r"[\d.,]+", it)[0].replace(",", "")) for it in cells)


def per_line(figures):
    """The instructions of a line in all, by the name of the case."""
    rows = figures.rows("counts")
    heads = re.search(r"^\| Instructions of a line \|(.*)\|$", figures.text("counts"), re.M)
    names = [it.strip() for it in heads[1].split("|")] if heads else []
    return {name: row[at + 1] for row in rows if row[0] == "in all" for at, name in enumerate(names)}


def say_windows(figures, told):
    rows = []
    for name, runs in figures.windows().items():
        own, other, ratio = (middle([it[at] for it in runs]) for at in range(3))
        ratios = sorted(float(it[2]) for it in runs)
        rows.append([name, f"{own:.2f}", f"{other:.2f}", f"{ratio:.2f} ({ratios[0]:.2f}, {ratios[-1]:.2f})",
                     told.get(name.replace(", ", " cards, "), ""), f"{middle([it[4] for it in runs]):.0f} MB"])
    return table(["Cards, window", "Seconds", "Reference", "Ratio", "Instructions a line", "Peak memory"], rows)


def say_waits(figures):
    rows = figures.rows("latency")
    last = float(rows[-1][3]) if rows else 0
    return table(["", "p50", "p99", "p99.9", "Longest", "p99.9 to the reference's"], [[it[0].removeprefix("railgun, "), *it[1:], f"{float(it[3]) / last:.1f}" if last else ""] for it in rows])


def say_rate(figures):
    """At which rate lines come to measure how long they wait."""
    found = re.search(r"At (\d+) lines a second, (\d+) of them", figures.text("latency"))
    return f"{int(found[2]):,} lines come, {int(found[1]):,} a second," if found else "Lines come"


def say_pauses(figures):
    names = ["pause of a base, ms", "pause of 1,000 changed rows, ms", "bytes of a base", "bytes of 1,000 changed rows", "restart from it, ms", "restart without, ms"]
    columns = [(it, figures.words(f"pauses-{it}")) for it in (100000, 1000000)]
    given = [(f"{keys:,} keys", cells[0]) for keys, cells in columns if cells]
    return table(["", *[it[0] for it in given]], [[name, *[f"{float(it[1][at]):,.0f}" for it in given]] for at, name in enumerate(names)])


def say_memory(figures):
    """Megabytes over keys, and what a key and a payment more take."""
    rows = figures.words("memory")
    said = [[f"{int(keys):,} keys", *[f"{int(it) * 1024 / 1e6:,.0f} MB" for it in cells]] for keys, *cells in rows]
    text = table(["", "Two aggregators", "Eight", "Reference, two"], said) if said else ""
    found = re.findall(r"^(\w+) aggregators: .*: (-?\d+) bytes a key; the slot .*: (\d+) bytes a key; the log (\d+) bytes a payment", figures.text("keys"), re.M)
    more = [[f"{name} aggregators", f"{int(key):,}", slot, log] for name, key, slot, log in found]
    return "\n".join([text] * bool(text) + [table(["Bytes of a key more", "Memory", "In a slot", "Its payment in the log"], more)] * bool(more))


def say_gate(figures):
    gate, build = figures.text("gate"), figures.words("build")
    rows = []
    if build:
        rows.append(["first build", f"{max(float(it[1]) for it in build) / 60:.0f}", "", ""])
    if it := re.search(r"^(\d+) s passed, (\d+) s of processor time", gate, re.M):
        most = re.search(r"^all .* ([\d.]+)$", gate, re.M)
        rows.append(["gate anew", f"{int(it[1]) / 60:.0f}", f"{int(it[2]):,}", f"{most[1]} GB" if most else ""])
    return table(["", "Minutes", "Processor seconds", "Most memory of one check"], rows) if rows else ""


def say_machine(figures):
    """What the figures are of: commit, machine, program, and how busy the machine was."""
    loads = [float(it[0]) for it in figures.words("loads")]
    busy = f" The machine's load before each measurement was {min(loads):.0f} to {max(loads):.0f}; alone, this work makes it 1." if loads else ""
    return f"{' '.join(figures.text('machine').split())}{busy} `bench/speed.sh` wrote this page."


def grouped(rows):
    """The rows with a comma in each number of five digits or more."""
    return [[re.sub(r"\b\d{5,}\b", lambda it: f"{int(it[0]):,}", cell) for cell in row] for row in rows]


def say_store(figures):
    rows = [[it[0].split(":")[0], *it[1:]] for it in grouped(figures.rows("store")) if not it[0].startswith("a checkpoint")]
    return table(["", "Processor", "Passed", ""], rows) if rows else ""


def say_replay(figures):
    """Each replay beside its run, each verify beside its dump."""
    rows, seconds = [], lambda it: float(it.split()[0])
    runs = {name.removesuffix(", run"): took for name, took, *_ in figures.rows("replay") if name.endswith(", run")}
    for name, took, rate, peak in figures.rows("replay"):
        if name.endswith(", replay"):
            ratio = seconds(runs[name.removesuffix(", replay")]) / seconds(took)
            rows.append([f"replay, {name.removesuffix(', replay')}", took, f"{ratio:.2f} times its run's speed, {rate} lines a second", peak])
    for name, took, times, peak in figures.rows("verify"):
        if name.endswith(", verify"):
            rows.append([f"verify, {name.removesuffix(', verify')}", took, f"{times} of a dump's time", peak])
    return table(["", "Processor", "", "Peak memory"], grouped(rows)) if rows else ""


def say_ranks(figures):
    rows = [[f"{int(cards):,}", *cells[:3], f"{cells[3]}, {cells[4]}", cells[5]] for cards, *cells in figures.rows("ranks")]
    return table(["Cards", "Program", "Bisection", "SortedList", "Ratios", "Microseconds a line"], rows) if rows else ""


def write_page(figures, page, pictures):
    drawn = draw(figures, pictures)
    picture = lambda name, says: f"\n![{says}](pictures/{name}.svg)\n" if name in drawn else ""
    parts = [
        ("Windows", "A million payments come five seconds apart, with a count and a sum by card. Each run begins with a new store on a disk. The reference is `bench/reference.py`, a program in Python "
         "that keeps all payments in memory and stores none. Seconds are of the processor, user and system. Each figure is the middle one of "
         f"{len(glob.glob(f'{figures.folder}/windows-*[0-9]'))} runs; of the ratio the least and the greatest follow. Its aims are {AIMS['40']} with 40 cards and {AIMS['100,000']} with 100,000. "
         "Instructions are counted by `bench/counts.py`, and don't depend on the machine.",
         say_windows(figures, per_line(figures)) if figures.windows() else "",
         picture("ratios", "The ratio to the reference in each run, with the aims as lines") + picture("instructions", "The instructions of a line by what they do, a bar for each workload")),
        ("A median", "A median over an hour by card: 900 amounts a card at 40 cards, 100,000 at one. Two programs in Python keep a card's amounts in order, in a list by bisection and in a SortedList. "
         "The ratios are of their seconds to the program's.", say_ranks(figures), ""),
        ("A payment's wait", f"100,000 cards and 30 days. {say_rate(figures)} whether or not answers do. A wait is from when a line is due to its answer, in milliseconds. A checkpoint holds up the lines behind it, and so does other work on the machine.",
         say_waits(figures) if figures.rows("latency") else "", picture("waits", "The longest wait in each tenth of a second, and the percentiles beside")),
        ("Checkpoints and restarts", "A count and a sum by card, over all time. A pause is from the line that brings a checkpoint to its `saved`. A restart is from the program's start to its `open` line. "
         "Without a checkpoint all payments are answered again: here one a key, so that a checkpoint saves little.", say_pauses(figures) if figures.words("pauses-100000") else "", ""),
        ("Memory", "The peak of a run in which each payment has a card of its own, with a checkpoint at the end.", say_memory(figures), picture("memory", "Peak memory over keys")),
        ("The disk", "A count and a sum by card over 30 days.", say_store(figures), ""),
        ("A replay and a verify", "300,000 payments over an hour are answered again. A million of 100,000 cards are verified and dumped.", say_replay(figures), ""),
        ("The gate", "What it takes to prove and test everything.", say_gate(figures), picture("build", "When each crate's proof began and ended in the first build, the chain that it waits for in red")),
    ]
    with open(page, "w", encoding="utf-8") as it:
        it.write(f"# Speed and memory\n\n{say_machine(figures)}\n")
        it.writelines(f"\n## {title}\n\n{says}\n\n{(body + pictured).strip()}\n" for title, says, body, pictured in parts if body)


def draw(figures, folder):
    """Draws what has figures, and returns the names of the pictures."""
    import matplotlib

    matplotlib.use("svg")
    matplotlib.rcParams.update({"svg.hashsalt": "railgun", "font.size": 9, "axes.spines.top": False, "axes.spines.right": False})
    from matplotlib import pyplot

    os.makedirs(folder, exist_ok=True)
    drawn = []
    for name, one in (("ratios", draw_ratios), ("instructions", draw_instructions), ("waits", draw_waits), ("memory", draw_memory), ("build", draw_build)):
        if one(figures, pyplot):
            pyplot.savefig(f"{folder}/{name}.svg", bbox_inches="tight", metadata={"Date": None})
            drawn.append(name)
        pyplot.close("all")
    return drawn


def draw_ratios(figures, pyplot):
    found = figures.windows()
    if not found:
        return False
    _, at = pyplot.subplots(figsize=(7, 3))
    for place, (name, runs) in enumerate(found.items()):
        ratios, aim = [float(it[2]) for it in runs], AIMS[name.split(", ")[0]]
        at.plot([place] * len(ratios), ratios, "o", color="tab:blue", alpha=0.5)
        at.plot([place - 0.3, place + 0.3], [statistics.median(ratios)] * 2, color="tab:blue")
        at.plot([place - 0.4, place + 0.4], [aim] * 2, color="tab:red", linestyle="--", label="aim" if place == 0 else None)
    at.set_xticks(range(len(found)), [it.replace(", ", "\n") for it in found])
    at.set_ylabel("times as fast as the reference")
    at.set_ylim(bottom=0)
    at.legend(frameon=False)
    return True


def draw_instructions(figures, pyplot):
    rows = {it[0]: [float(cell.replace(",", "")) for cell in it[1:]] for it in figures.rows("counts")}
    heads = re.search(r"^\| Instructions of a line \|(.*)\|$", figures.text("counts"), re.M)
    if not heads:
        return False
    names = [it.strip() for it in heads[1].split("|")]
    _, at = pyplot.subplots(figsize=(7, 2.6))
    left = [0.0] * len(names)
    for part, color in zip([it for it in PARTS if it in rows], pyplot.get_cmap("tab10").colors):
        at.barh(names, rows[part], left=left, label=part, color=color)
        left = [a + b for a, b in zip(left, rows[part])]
    at.invert_yaxis()
    at.set_xlabel("instructions of a line")
    at.legend(frameon=False, bbox_to_anchor=(1, 1), loc="upper left", fontsize=8)
    return True


def draw_waits(figures, pyplot):
    names, rows = ("save as it is", "no checkpoint", "reference"), figures.rows("latency")
    found = [(name, [(float(a), float(b)) for a, b in figures.words(f"waits-{number}")]) for number, name in enumerate(names, 1)]
    if not any(it for _, it in found):
        return False
    _, (at, beside) = pyplot.subplots(1, 2, figsize=(9, 3), gridspec_kw={"width_ratios": [3, 1]})
    for (name, waits), cells in zip(found, rows):
        at.plot([it[0] for it in waits], [it[1] for it in waits], label=name, linewidth=0.8)
        beside.plot(["p50", "p99", "p99.9", "longest"], [max(0.01, float(it)) for it in cells[1:5]], "o-", label=name)
    at.set_xlabel("seconds of the run")
    at.set_ylabel("longest wait, ms")
    at.legend(frameon=False)
    beside.set_yscale("log")
    beside.set_ylabel("ms")
    return True


def draw_memory(figures, pyplot):
    rows = [[int(cell) for cell in it] for it in figures.words("memory")]
    if not rows:
        return False
    _, at = pyplot.subplots(figsize=(5, 3))
    for number, name in enumerate(("two aggregators", "eight aggregators", "reference, two"), 1):
        at.plot([it[0] for it in rows], [it[number] * 1024 / 1e6 for it in rows], "o-", label=name)
    at.set_xlabel("keys")
    at.set_ylabel("peak memory, MB")
    at.set_ylim(bottom=0)
    at.xaxis.set_major_formatter(lambda it, _: f"{it:,.0f}")
    at.legend(frameon=False)
    return True


def draw_build(figures, pyplot):
    rows = {it[2]: (float(it[0]) / 60, float(it[1]) / 60, it[3:]) for it in figures.words("build")}
    if not rows:
        return False
    chain, crate = set(), max(rows, key=lambda it: rows[it][1])
    while crate:
        chain.add(crate)
        crate = max((it for it in rows[crate][2] if it in rows), key=lambda it: rows[it][1], default=None)
    _, at = pyplot.subplots(figsize=(7, 0.14 * len(rows) + 0.8))
    at.barh(list(rows), [it[1] - it[0] for it in rows.values()], left=[it[0] for it in rows.values()], color=["tab:red" if it in chain else "tab:blue" for it in rows])
    at.invert_yaxis()
    at.tick_params(axis="y", labelsize=6)
    at.margins(y=0.01)
    at.set_xlabel("minutes since the first build began")
    return True


def main(words):
    match words:
        case ["pauses", keys, program]:
            print_pauses(int(keys), program)
        case ["memory", program, *keys]:
            print_memory(program, keys)
        case ["build", clone]:
            print_build(clone)
        case ["page", folder, page, pictures]:
            write_page(Figures(folder), page, pictures)
        case _:
            sys.exit(__doc__)


main(sys.argv[1:])
