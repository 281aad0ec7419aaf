#!/usr/bin/env bash
# How many allocations an accepted line takes where its card has rows already: those of a run over 4,000 lines less those over 2,000, counted by valgrind. Outside the gate.
# `rt run` in crates/railgun builds the program first; PROGRAM names another one.
. "$(dirname "$0")/common.sh"

# The allocations of a run over so many lines.
allocations() {
    payments 40 "$1" > "$work/payments"
    rm -rf "$work/store"
    valgrind --log-file="$work/log" "$program" run "$work/plan" "$work/store" < "$work/payments" > "$work/out"
    if [ "$(tail -n 1 "$work/out")" != "done $1 $1" ]; then
        echo "not all lines were accepted: $(tail -n 1 "$work/out")" >&2
        exit 1
    fi
    sed -n 's/.*total heap usage: \([0-9,]*\) allocs.*/\1/p' "$work/log" | tr -d ,
}

plan "5 minutes" > "$work/plan"
few=$(allocations 2000)
many=$(allocations 4000)
awk -v few="$few" -v many="$many" 'BEGIN { printf "%.2f allocations a line\n", (many - few) / 2000 }'
