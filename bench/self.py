#!/usr/bin/env python3
"""Works out what `railgun self N SEED` prints, from the trial's own plan and lines, and compares. Outside the gate.

The line of the number i, from 0 to N - 1, is `T,cA,mB,C`, each division rounded down, with

    r = (((SEED + 1) * 6364136223846793005 + i * 1442695040888963407) mod 2^64) / 65536
    T = 1000 * i + r mod 1000
    A = (r / 1000) mod 40
    B = (r / 40000) mod 97
    C = (r / 3880000) mod 10000

The program runs over these lines and a new store, and the bytes that it puts are counted. The status is 1 where the four lines differ.

Usage: self.py N SEED; self.py --lines N SEED and self.py --plan print lines and plan alone. `rt run` in crates/railgun builds the
program first; PROGRAM names another one."""
import os, subprocess, sys, tempfile

PROGRAM = os.environ.get("PROGRAM", os.path.join(os.path.dirname(os.path.abspath(__file__)), "../crates/railgun/out/railgun"))
PLAN = """queries = [
  'SELECT count(*), sum(amount) FROM payments GROUP BY card OVER SLIDING 5 minutes',
  'SELECT countDistinct(merchant), max(amount) FROM payments WHERE amount >= 5000 GROUP BY card OVER SLIDING 1 hour DELAYED BY 1 minute',
  'SELECT avg(amount) FROM payments OVER INFINITE',
]
[stream]
name = 'payments'
columns = ['ts', 'card:text', 'merchant:text', 'amount:int']
[settings]
cache = 4
chunk = 256
commit = 1024
save = 4096
"""

def line(i, seed):
    """The line of the number i."""
    r = ((seed + 1) * 6364136223846793005 + i * 1442695040888963407) % 2**64 // 65536
    return f"{1000 * i + r % 1000},c{r // 1000 % 40},m{r // 40000 % 97},{r // 3880000 % 10000}\n"

def lines(count, seed):
    """All lines of a trial."""
    return "".join(line(i, seed) for i in range(count))

def worked_out(count, seed):
    """The four lines, by a run over a new store."""
    with tempfile.TemporaryDirectory() as work:
        with open(f"{work}/plan.toml", "w") as plan:
            plan.write(PLAN)
        run = subprocess.run([PROGRAM, "run", f"{work}/plan.toml", f"{work}/store"], input=lines(count, seed).encode(), stdout=subprocess.PIPE, check=True)
    events = run.stdout.split()[-1].decode()
    return f"lines {count}\nevents {events}\nbytes {len(run.stdout)}\nsum {sum(run.stdout)}\n"

def main():
    if sys.argv[1:] == ["--plan"]:
        sys.exit(print(PLAN, end=""))
    count, seed = (int(it) for it in sys.argv[-2:])
    if sys.argv[1] == "--lines":
        sys.exit(print(lines(count, seed), end=""))
    told = subprocess.run([PROGRAM, "self", str(count), str(seed)], stdout=subprocess.PIPE, check=True).stdout.decode()
    wanted = worked_out(count, seed)
    print(told, end="")
    sys.exit(f"the lines and the plan give\n{wanted}" if told != wanted else 0)

main()
