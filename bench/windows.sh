#!/usr/bin/env bash
# What a line costs by the number of cards and the length of the window: a million payments, five seconds apart, a count and a sum by card.
# Processor time (user and system), lines a second of it and peak memory, beside the time of bench/reference.py on the same lines, run in turn: the medians of three, or of the odd number that a second word says.
# It prints the table that docs/SPEED.md has.
# Each run of the program begins with a new store, on the disk of the temporary folder; what it says of its store is left out of the comparison.
# It fails where a line isn't accepted, or where the two programs answer differently. Outside the gate.
# `rt run` in crates/railgun builds the program first; PROGRAM names another one.
. "$(dirname "$0")/common.sh"
lines=${1:-1000000}
times=${2:-3}

# Runs a command on the payments, and adds its figures to the file of this name. Each line must be accepted.
measure() {
    local name=$1
    shift
    python3 "$bench/measure.py" "$work/payments" "$work/$name.out" "$@" >> "$work/$name"
    if [ "$(tail -n 1 "$work/$name.out")" != "done $lines $lines" ]; then
        echo "$name: not all lines were accepted: $(tail -n 1 "$work/$name.out")" >&2
        exit 1
    fi
}

row "Cards, window" Program Reference Ratio "Lines a second" "Peak memory"
row --- --- --- --- --- ---
for cards in 40 100000; do
    payments "$cards" "$lines" > "$work/payments"
    while read -r milliseconds window; do
        plan "$window" > "$work/plan"
        rm -f "$work/railgun" "$work/reference"
        for _ in $(seq "$times"); do
            rm -rf "$work/store"
            measure railgun "$program" run "$work/plan" "$work/store"
            measure reference python3 "$bench/reference.py" "$milliseconds"
            grep -vE '^(open|stored|saved) ' "$work/railgun.out" | cmp - "$work/reference.out"
        done
        took=$(median railgun 1) other=$(median reference 1)
        read -r own others ratio rate < <(awk -v a="$took" -v b="$other" -v n="$lines" 'BEGIN { printf "%.2f %.2f %.2f %d\n", a, b, b / a, n / a }')
        row "${cards/%000/,000}, $window" "$own s" "$others s" "$ratio" "$(thousands "$rate")" "$(megabytes "$(median railgun 3)")"
    done << WINDOWS
300000 5 minutes
3600000 1 hour
2592000000 30 days
WINDOWS
done
