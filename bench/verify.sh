#!/usr/bin/env bash
# What a verify costs beside a dump of the same store: payments, five seconds apart, of 100,000 cards, a count and a sum by card, over 5 minutes and over 30 days.
# Processor time (user and system), how many times that of a dump, and peak memory, as rows of a table: the medians of three.
# It fails where a line isn't accepted, or a slot isn't ok. Outside the gate.
# `rt run` in crates/railgun builds the program first; PROGRAM names another one.
. "$(dirname "$0")/common.sh"
lines=${1:-1000000}

# Runs the program with these words, and adds its figures to the file of this name.
measure() {
    local name=$1 input=$2
    shift 2
    python3 "$bench/measure.py" "$input" "$work/$name.out" "$program" "$@" >> "$work/$name"
}

payments 100000 "$lines" > "$work/payments"
row "$lines payments" "Processor time" "of a dump's" "Peak memory"
row --- --- --- ---
for window in "5 minutes" "30 days"; do
    plan "$window" > "$work/plan"
    rm -rf "$work/store" "$work/run" "$work/dump" "$work/verify"
    measure run "$work/payments" run "$work/plan" "$work/store"
    if [ "$(tail -n 1 "$work/run.out")" != "done $lines $lines" ]; then
        echo "not all lines were accepted: $(tail -n 1 "$work/run.out")" >&2
        exit 1
    fi
    for _ in 1 2 3; do
        measure dump /dev/null dump "$work/store"
        measure verify /dev/null verify "$work/plan" "$work/store"
        if [ "$(grep -c '^slot [01] ok ' "$work/verify.out")" != 2 ]; then
            echo "a slot isn't ok: $(cat "$work/verify.out")" >&2
            exit 1
        fi
    done
    for name in dump verify; do
        cpu=$(median "$name" 1)
        row "$window, $name" "$cpu s" "$(awk -v cpu="$cpu" -v dump="$(median dump 1)" 'BEGIN { printf "%.1f", cpu / dump }')" "$(megabytes "$(median "$name" 3)")"
    done
done
