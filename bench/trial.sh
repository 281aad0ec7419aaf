#!/usr/bin/env bash
# What a trial costs: `railgun self 200000 7`, a run over 200,000 made lines and a store in memory.
# Processor time (user and system), the time that passed and peak memory: the medians of three, as the last row of the table of bench/store.sh. It fails where the four lines of two runs differ.
# Outside the gate. `rt run` in crates/railgun builds the program first; PROGRAM names another one.
. "$(dirname "$0")/common.sh"

for i in 1 2 3; do
    python3 "$bench/measure.py" /dev/null "$work/out$i" "$program" self 200000 7 >> "$work/figures"
    cmp "$work/out1" "$work/out$i"
done
row "\`self 200000 7\`: 200,000 made lines over a store in memory" "$(median figures 1) s" "$(median figures 2) s" "$(megabytes "$(median figures 3)") at most; it prints $(paste -sd, "$work/out1")"
