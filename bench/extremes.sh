#!/usr/bin/env bash
# Microseconds a line of a least and a greatest amount over 30 days: payments of one card whose amounts fall and rise, five seconds apart. Outside the gate.
# `rt run` in crates/railgun builds the program first; PROGRAM names another one.
. "$(dirname "$0")/common.sh"
lines=${1:-100000}

cat > "$work/plan" << PLAN
queries = ["SELECT min(amount), max(amount) FROM payments GROUP BY card OVER SLIDING 30 days"]
[stream]
name = "payments"
columns = ["ts", "card:text", "merchant:text", "amount:int"]
PLAN
awk -v lines="$lines" 'BEGIN { for (i = 0; i < lines; i++) print i * 5000 ",c0,m0," (i * 7919) % 10000 }' > "$work/payments"
start=$(date +%s.%N)
"$program" run "$work/plan" "$work/store" < "$work/payments" > "$work/out"
date +%s.%N | awk -v start="$start" -v n="$lines" '{ printf "%d lines, %.2f s, %.2f microseconds a line\n", n, $1 - start, ($1 - start) / n * 1000000 }'
