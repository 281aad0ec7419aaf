#!/usr/bin/env python3
"""A part of bench/operate.sh: the figures of examples/metrics. The lines that come out are those of the run alone, to the byte;
what /metrics says, and what the page shows in a headless Chromium, is what a count of these lines gives. The plots move.

The payments are given over SECONDS, 25 unless it is said. PICTURE names a file for a picture of the page."""

import collections
import json
import os
import re
import shutil
import subprocess
import threading
import time
import urllib.request

import common
from browser import Browser
from common import PLAN, PROGRAM, WORK, see

SECONDS = float(os.environ.get("SECONDS", "25"))
PORT = 19188
ADDRESS = f"http://127.0.0.1:{PORT}"
COUNTED = ("ok", "moved", "head", "done")
COLUMNS = {"4": "amount", "6": "declined"}


def get(path):
    with urllib.request.urlopen(ADDRESS + path, timeout=10) as it:
        return it.read().decode()


def metrics():
    """Each sample of /metrics: its value by its name with its labels."""
    return {name: float(value) for name, value in re.findall(r"^(railgun_\S+) (\S+)$", get("/metrics"), re.M)}


def counted(lines):
    """What /metrics should say of these lines of output: a part of its samples, by hand."""
    kinds, columns, wanted = collections.Counter(), collections.Counter(), {}
    for line in lines:
        words = line.decode().split(" ")
        if words[0].isdigit():
            kinds[words[1]] += 1
            wanted["railgun_next"] = int(words[0]) + 1
            if words[1] == "value":
                columns[COLUMNS[words[2]]] += 1
        elif words[0] in ("stored", "saved"):
            wanted[f"railgun_{words[0]}"] = int(words[1])
            if words[0] == "saved":
                wanted["railgun_checkpoints_total"] = wanted.get("railgun_checkpoints_total", 0) + 1
    wanted |= {f'railgun_replies_total{{kind="{kind}"}}': count for kind, count in kinds.items()}
    wanted |= {f'railgun_bad_values_total{{column="{column}"}}': count for column, count in columns.items()}
    wanted["railgun_wait_seconds_count"] = wanted['railgun_wait_seconds_bucket{le="+Inf"}'] = sum(kinds.values())
    return wanted


def feed(pipe, lines, over):
    """Gives the lines over so many seconds, in bursts, and then waits with the pipe open."""
    begun, sent, burst = time.monotonic(), 0, 0
    while sent < len(lines):
        burst += 1
        share = (time.monotonic() - begun) / SECONDS
        due = min(len(lines), int(len(lines) * share * (1 if burst % 40 < 30 else 0.9)))
        if due > sent:
            pipe.write(b"".join(it + b"\n" for it in lines[sent:due]))
            sent = due
        time.sleep(0.02)
    over.wait()
    pipe.close()


def look(browser, lines, wanted):
    """Sees that the page shows what the run put, and that each plot has a line that moved."""
    shown = lambda name: browser.value(f"document.getElementById('n-{name}').textContent")
    common.await_that(lambda: shown("answers") == f"{len(replies(lines)):,}", f"the page shows all answers; it shows {shown('answers')}")
    refused = sum(reply.split(" ")[0] not in COUNTED for reply in replies(lines).values())
    for name, value in (("refused", refused), ("next", wanted["railgun_next"]), ("stored", wanted["railgun_stored"])):
        see(shown(name) == f"{value:,}", f"the page shows {shown(name)} as {name}, not {value:,}")
    see(shown("checkpoints") == str(wanted["railgun_checkpoints_total"]), f"the page shows {shown('checkpoints')} checkpoints")
    kinds = json.loads(browser.value("document.body.dataset.kinds"))
    for kind, count in kinds.items():
        see(count == wanted.get(f'railgun_replies_total{{kind="{kind}"}}', 0), f"the page has {count} replies {kind}")
    for plot in ("rate", "kinds", "waits", "age"):
        heights = browser.value(f"[...document.querySelectorAll('#{plot} path')].map(it => new Set(it.getAttribute('d').split(/[ML]/).map(p => p.split(' ')[1])).size)")
        see(heights and max(heights) > 8, f"the plot {plot} doesn't move: {heights}")


def replies(lines):
    return common.replies_in(lines)


def try_rules():
    """The dashboard and the alerts ask for figures that there are; promtool, where it is there, has nothing against the alerts."""
    known = set(re.findall(r"railgun_\w+", get("/metrics")))
    folder = f"{common.EXAMPLES}/metrics"
    for name in ("grafana.json", "alerts.yml"):
        with open(f"{folder}/{name}", encoding="utf-8") as it:
            text = it.read()
        asked = set(re.findall(r"railgun_[a-z_]+", text))
        see(asked and asked <= known, f"{name} asks for {asked - known}")
    with open(f"{folder}/grafana.json", encoding="utf-8") as it:
        panels = json.load(it)["panels"]
    if shutil.which("promtool"):
        common.run("promtool", "check", "rules", f"{folder}/alerts.yml")
        common.run("promtool", "test", "rules", f"{folder}/alerts_test.yml")
    return len(panels)


def try_figures(child, put, lines):
    """Waits until all lines are answered, and compares /metrics and the page with what was put."""
    browser = Browser(ADDRESS) if shutil.which("chromium") else None
    if browser and os.environ.get("PICTURE"):
        common.await_that(lambda: metrics()["railgun_wait_seconds_count"] > 0.95 * len(lines), "most lines are answered", 4 * SECONDS)
        browser.picture(os.environ["PICTURE"])
    common.await_that(lambda: metrics()["railgun_wait_seconds_count"] == len(lines), "all lines are answered", 4 * SECONDS)
    see(child.poll() is None, "the watch has ended")
    out = common.lines_of(put)
    found, wanted = metrics(), counted(out)
    for name, value in wanted.items():
        see(found.get(name) == value, f"{name} is {found.get(name)}, and {value} were counted")
    see(found["railgun_wait_seconds_sum"] > 0, "the waits have no sum")
    see(abs(time.time() - found["railgun_stored_time_seconds"]) < 4 * SECONDS, "the time of the last mark is wrong")
    if browser:
        look(browser, out, wanted)
        browser.close()
    page = ", and those of the page in Chromium, whose plots move" if browser else "; no Chromium is there"
    print(f"{len(lines)} lines through the watch: {len(wanted)} figures of /metrics are as counted{page}")
    print(f"{try_rules()} panels and the alerts ask for figures that there are")


def main():
    lines, store, put = common.lines_of(common.PAYMENTS), f"{WORK}/store", f"{WORK}/out"
    command = [common.WATCH, "--port", str(PORT), "--plan", PLAN, "--memory", f"{WORK}/stored", "--", PROGRAM, "run", PLAN, store]
    over = threading.Event()
    with open(put, "wb") as out, subprocess.Popen(command, stdin=subprocess.PIPE, stdout=out, bufsize=0) as child:
        threading.Thread(target=feed, args=(child.stdin, lines, over), daemon=True).start()
        try:
            try_figures(child, put, lines)
        except SystemExit:
            child.kill()
            raise
        over.set()
        see(child.wait() == 0, f"the watch ends with status {child.returncode}")
    with open(put, "rb") as mine, open(common.WHOLE, "rb") as theirs:
        see(mine.read() == theirs.read(), "the lines that come out aren't those of the run alone")
    with open(f"{WORK}/stored", encoding="ascii") as it:
        see(it.read() == f"{common.info(store)['next']}\n", "the memory isn't the store's next offset")
    print("what comes out is, to the byte, what the run alone puts")
    try_statuses(store)


def try_statuses(store):
    """The status is that of the run; a store below what was told as stored is refused before a line comes out."""
    end = int(common.info(store)["next"])
    common.run(common.WATCH, "--", PROGRAM, "run", PLAN, store, str(end + 1), status=10)
    common.run(common.WATCH, "--", PROGRAM, "run", f"{WORK}/none.toml", store, status=5)
    with open(f"{WORK}/more", "w", encoding="ascii") as it:
        it.write(f"{end + 1}\n")
    said = common.run(common.WATCH, "--memory", f"{WORK}/more", "--", PROGRAM, "run", PLAN, store, str(end), status=74)
    see(said == "", f"a store that opens below what was stored puts {said}")
    print("statuses 0, 5 and 10 are handed on, and a store below its last `stored` ends with 74 before a line")


main()
