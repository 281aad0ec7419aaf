#!/usr/bin/env python3
"""A part of bench/operate.sh: the indented commands of the pages of examples service, metrics, client and filter, copied and run
in order in a new folder that has the program and the examples where a clone has them. Each page's commands end well, and what
the page shows as their output, in a block of no language, is among what they print."""

import os
import re
import subprocess

import common
from common import EXAMPLES, PROGRAM, TOP, WORK, see

PAGES = ("service", "metrics", "client", "filter")


def clone(name):
    """A folder that looks like a clone with a built program."""
    folder = f"{WORK}/{name}"
    os.makedirs(f"{folder}/crates/railgun/out")
    os.symlink(PROGRAM, f"{folder}/crates/railgun/out/railgun")
    os.symlink(f"{TOP}/crates/railgun/data", f"{folder}/crates/railgun/data")
    os.symlink(EXAMPLES, f"{folder}/examples")
    return folder


def main():
    for name in PAGES:
        with open(f"{EXAMPLES}/{name}/README.md", encoding="utf-8") as it:
            text = it.read()
        blocks = re.findall(r"^```(\w*)\n(.*?)^```$", text, re.M | re.S)
        plain = re.sub(r"^```.*?^```$", "", text, flags=re.M | re.S)
        commands = [it[4:] for it in plain.splitlines() if it.startswith("    ")]
        script = "set -euo pipefail\n" + "\n".join(commands) + "\n"
        done = subprocess.run(["timeout", "60", "bash", "-c", script], cwd=clone(name), capture_output=True, text=True, check=False)
        see(commands and done.returncode == 0, f"{name}: status {done.returncode}: {done.stdout[-300:]} {done.stderr[-600:]}")
        shown = [line for language, block in blocks if not language for line in block.splitlines()]
        missing = [line for line in shown if line not in done.stdout.splitlines()]
        see(not missing, f"{name}: the page shows {missing}, which isn't printed")
        print(f"examples/{name}: {len(commands)} lines of commands, copied and run, and {len(shown)} shown lines")


main()
