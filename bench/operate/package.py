#!/usr/bin/env python3
"""A part of bench/operate.sh: the package of packaging/deb.sh. It is made of the program, lintian finds no error in it, it is
installed, tried and removed. It needs root, dpkg and Debian's lintian."""

import glob
import os
import subprocess

from common import DATA, PROGRAM, TOP, WORK, see


def run(*words, status=0):
    """What a command prints."""
    done = subprocess.run(words, stdout=subprocess.PIPE, stderr=subprocess.STDOUT, text=True, check=False)
    see(done.returncode == status, f"{' '.join(words)}: status {done.returncode}\n{done.stdout}")
    return done.stdout


def complete(*words):
    """What completion offers for the last of these words."""
    given = " ".join(f"'{word}'" for word in words)
    script = f"COMP_WORDS=({given}); COMP_CWORD={len(words) - 1}; _railgun; echo \"${{COMPREPLY[*]}}\""
    return run("bash", "-c", f". /usr/share/bash-completion/completions/railgun; {script}").split()


def main():
    package = run(f"{TOP}/packaging/deb.sh", PROGRAM, WORK).strip()
    found = run("lintian", "--allow-root", "--fail-on", "error", package)
    see("E:" not in found, found)
    run("dpkg", "-i", package)
    try:
        whole = run("/usr/bin/railgun", "info", f"{DATA}/store")
        see(whole == run(PROGRAM, "info", f"{DATA}/store"), "the installed program says something else of a store")
        see("railgun run" in run("sh", "-c", "zcat /usr/share/man/man1/railgun.1.gz | man -l -"), "there is no page of the manual")
        see(complete("railgun", "re") == ["replay"], "completion doesn't know replay")
        see(len(complete("railgun", "")) == 7, "completion doesn't know seven words")
        run("getent", "passwd", "railgun")
        for script in glob.glob("/usr/lib/railgun/*.sh") + glob.glob("/usr/lib/railgun/kafka/*.sh"):
            run("bash", "-n", script)
            with open(script, encoding="utf-8") as file:
                see("/usr/local" not in file.read(), f"{script} names /usr/local")
    finally:
        run("dpkg", "-P", "railgun")
    see(not os.path.exists("/usr/bin/railgun") and not os.path.exists("/usr/lib/railgun"), "something is left behind")
    print(f"{os.path.basename(package)}: lintian finds no error; installed, tried and removed")


main()
