#!/usr/bin/env bash
# Tries what stands around the run, the examples, the package and what is said of plans, over 200,000 payments with kills, a full
# disk and a lost end of the log, and compares every answer with one run over the whole. It prints a line for each thing that it
# saw, and its status is 1 where one isn't so. Outside the gate.
#
# Usage: operate.sh [PART..]. A part is a program bench/operate/PART.py or PART.sh; without words all of them are run, in the
# order below. A further part is a file there and its name below; bench/operate/common.py says what it is given.
# It needs Debian's python3-prometheus-client and chromium for `watch`, python3-confluent-kafka and kcat for `kafka`, lintian
# for `package`, and root for `package` and for `disk`, which mounts 24 MB of memory.
# `rt run` in crates/railgun builds the program first; PROGRAM names another one, LINES how many payments there are.
. "$(dirname "$0")/common.sh"
parts=(pages guards client watch filter warm trial backup disk lost plans kafka package)
export PROGRAM DATA WORK PYTHONDONTWRITEBYTECODE=1
PROGRAM=$(realpath "$program")
DATA=$work/data
mkdir "$DATA"

cd "$bench"
operate/payments.py "${LINES:-200000}" "$DATA"
"$PROGRAM" run "$DATA/plan.toml" "$DATA/store" < "$DATA/payments.csv" > "$DATA/whole"
failed=0
for part in "${@:-${parts[@]}}"; do
    WORK=$work/$part
    mkdir "$WORK"
    for file in operate/"$part".*; do
        "$file" || { echo "operate.sh: $part failed" >&2; failed=1; }
    done
    rm -rf "$WORK"
done
exit "$failed"
