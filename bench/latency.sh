#!/usr/bin/env bash
# How long a payment waits for its answer at a fixed rate, 100,000 cards, a count and a sum by card over 30 days, by the built program with its
# settings as they are and with a checkpoint each million payments, and by the plain program that bench/windows.sh compares with. Outside the gate.
# `rt run` in crates/railgun builds the program first; PROGRAM names another one, RATE lines a second, LINES how many, and WAITS a file for the waits over the run, behind which -1, -2 and -3 stand.
. "$(dirname "$0")/common.sh"
rate=${RATE:-10000}
lines=${LINES:-300000}
payments 100000 "$lines" > "$work/payments"

# The line of the table for a command.
number=0
measure_row() {
    local what=$1
    shift
    number=$((number + 1))
    echo "| $what | $(WAITS=${WAITS:+$WAITS-$number} "$bench/latency.py" "$rate" "$work/payments" "$@" | awk '{ print $1 " | " $2 " | " $3 " | " $4 }') |"
}

echo "| At $rate lines a second, $lines of them | p50, ms | p99, ms | p99.9, ms | greatest, ms |"
echo "|---|---|---|---|---|"
for save in "" 1000000; do
    plan "30 days" > "$work/plan"
    if [ -n "$save" ]; then
        printf '[settings]\nsave = %s\n' "$save" >> "$work/plan"
    fi
    rm -rf "$work/store"
    measure_row "railgun, \`save\` ${save:-as it is}" "$program" run "$work/plan" "$work/store"
done
measure_row "the reference" python3 -u "$bench/reference.py" 2592000000
