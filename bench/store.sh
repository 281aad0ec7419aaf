#!/usr/bin/env bash
# What the store costs: a million payments, five seconds apart, with a count and a sum by card over 30 days, each run over a new store on the disk of the temporary folder.
# Commits of 1,024 payments and of one (the latter with fewer lines); the bytes of the store; an opening from a checkpoint and one that answers all payments again; a checkpoint of 100,000 keys, a base for which what changed is made as well, and found too long.
# Processor time (user and system) and the time that passed: the medians of three. It prints the table that docs/SPEED.md has.
# It fails where a line isn't accepted. Outside the gate.
# `rt run` in crates/railgun builds the program first; PROGRAM names another one.
. "$(dirname "$0")/common.sh"
lines=${1:-1000000}

# A plan over 30 days with these settings, a line each.
settings() {
    plan "30 days"
    echo "[settings]"
    printf '%s\n' "$@"
}

# Runs the plan of this name once over the store, on these payments, and adds its figures to the file of this name.
run_once() {
    python3 "$bench/measure.py" "$2" "$work/out" "$program" run "$work/$1.toml" "$work/store" >> "$work/$1"
    if [ "$(tail -n 1 "$work/out")" != "done $3" ]; then
        echo "$1: not all lines were accepted: $(tail -n 1 "$work/out")" >&2
        exit 1
    fi
}

# The row of a table with the figures of this name.
tell() {
    row "$2" "$(median "$1" 1) s" "$(median "$1" 2) s" "${3-}"
}

payments 40 "$lines" > "$work/payments"
head -n 10000 "$work/payments" > "$work/few"
: > "$work/none"
settings "commit = 1024" > "$work/commit.toml"
settings "commit = 1" > "$work/each.toml"
settings "commit = 1024" > "$work/from.toml"
settings "commit = 1024" > "$work/replay.toml"
for _ in 1 2 3; do
    rm -rf "$work/store"
    run_once each "$work/few" "10000 10000"
    rm -rf "$work/store"
    run_once commit "$work/payments" "$lines $lines"
    run_once from "$work/none" "0 $lines"
    rm "$work/store/slot0" "$work/store/slot1"
    run_once replay "$work/none" "0 $lines"
done
each_payment=$(awk -v bytes="$(wc -c < "$work/store/events")" -v lines="$lines" 'BEGIN { printf "%.1f", bytes / lines }')
row What "Processor time" "Time passed" ""
row --- --- --- ---
tell commit "$lines lines of 40 cards, a commit each 1,024" "the log: $each_payment bytes each payment"
tell each "10,000 lines, a commit each: two syncs a line"
tell from "opening $lines payments from a checkpoint of all"
tell replay "opening $lines payments without a checkpoint: all are answered again"

payments 100000 200000 > "$work/payments"
settings "save = 100000" > "$work/saves.toml"
settings "save = 1000000" > "$work/save.toml"
for _ in 1 2 3; do
    for name in saves save; do
        rm -rf "$work/store"
        run_once "$name" "$work/payments" "200000 200000"
    done
done
took=$(awk -v saves="$(median saves 1)" -v save="$(median save 1)" 'BEGIN { printf "%.2f", saves - save }')
size=$(awk -v bytes="$(wc -c < "$work/store/slot0")" 'BEGIN { printf "%.1f", bytes / 1000000 }')
row "a checkpoint of 100,000 keys and two aggregators" "$took s" "" "$size MB; the difference of two runs"
