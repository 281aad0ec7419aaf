#!/usr/bin/env bash
# Lines a second of the built program, and of awk that only splits and counts. Outside the gate.
# `rt run` in crates/railgun builds the program first; PROGRAM names another one.
. "$(dirname "$0")/common.sh"
cp crates/railgun/data/plan "$work/plan"
awk 'BEGIN { for (i = 0; i < 200000; i++) print (i < 5 ? i ",c1,m1,1" : i ",c1,m1,1000000000001") }' > "$work/refused"
awk 'BEGIN { for (i = 0; i < 20000; i++) print i * 1000 ",c" i % 97 ",m" i % 11 "," i }' > "$work/accepted"

# Seconds that a command takes on an input.
seconds() {
    local input=$1 start
    shift
    start=$(date +%s.%N)
    "$@" < "$input" > "$work/out"
    date +%s.%N | awk -v start="$start" '{ print $1 - start }'
}

for name in refused accepted; do
    lines=$(wc -l < "$work/$name")
    for tool in railgun awk; do
        if [ "$tool" = railgun ]; then
            rm -rf "$work/store"
            took=$(seconds "$work/$name" "$program" run "$work/plan" "$work/store")
        else
            took=$(seconds "$work/$name" awk -F, '{ count[$2]++; print NR - 1, "ok", count[$2] }')
        fi
        awk -v n="$lines" -v t="$took" -v what="$name, $tool" 'BEGIN { printf "%s: %d lines, %.2f s, %d lines a second\n", what, n, t, n / t }'
    done
done
