#!/usr/bin/env bash
# What closed chunks cost by columns and as rows: the log of a million payments, five seconds apart, as a run writes it, and the same log with each chunk as rows.
# Bytes for each payment, and a dump of each: processor time (user and system), the time that passed and peak memory, the medians of five. It fails where the dumps differ. Outside the gate.
# `rt run` in crates/railgun builds the program first; PROGRAM names another one.
. "$(dirname "$0")/common.sh"
lines=${1:-1000000}

payments 40 "$lines" > "$work/payments"
plan "30 days" > "$work/plan.toml"
: > "$work/none"
"$program" run "$work/plan.toml" "$work/columns" < "$work/payments" > "$work/replies"
if [ "$(tail -n 1 "$work/replies")" != "done $lines $lines" ]; then
    echo "not all lines were accepted: $(tail -n 1 "$work/replies")" >&2
    exit 1
fi
python3 "$bench/chunks.py" "$work/columns" "$work/rows" | awk '{ printf "%d payments: %d bytes by columns, %.1f each; %d as rows, %.1f each\n", $1, $2, $2 / $1, $3, $3 / $1 }'
for _ in 1 2 3 4 5; do
    for layout in columns rows; do
        python3 "$bench/measure.py" "$work/none" "$work/dump-$layout" "$program" dump "$work/$layout" >> "$work/times-$layout"
    done
done
cmp "$work/dump-columns" "$work/dump-rows"
for layout in columns rows; do
    echo "a dump of $layout: $(median "times-$layout" 1) s of processor time, $(median "times-$layout" 2) s passed, $(median "times-$layout" 3) KB"
done
