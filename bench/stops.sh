#!/usr/bin/env bash
# A run of made lines is stopped at each of its calls, and the run that goes on at each of its first calls: bench/stops.py says how.
# Of each 50 lines three are control lines, and each tenth one is a payment two seconds earlier than the one before it, which the grace lets in.
# `bench/stops.sh [LINES [SEED]]`; it needs strace, and says how many stops were tried and how many failed. Outside the gate: 300 lines take ten minutes on four processors.
# `rt run` in crates/railgun builds the program first; PROGRAM names another one.
. "$(dirname "$0")/common.sh"
plan "5 minutes" > "$work/plan"
cat >> "$work/plan" << SETTINGS
[settings]
cache = 2
chunk = 4
commit = 8
save = 24
grace = 2000
SETTINGS
payments 7 "${1:-300}" | awk -F , -v OFS=, '
    NR % 50 == 8 { print "!commit"; next }
    NR % 50 == 26 { print "!save"; next }
    NR % 50 == 43 { print "!ahead"; next }
    NR % 10 == 5 { $1 -= 7000 }
    { print }
' > "$work/lines"
python3 "$bench/stops.py" "$program" "$work/plan" "$work/lines" "$work" "${2:-1}"
