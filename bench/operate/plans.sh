#!/usr/bin/env bash
# A part of bench/operate.sh: each plan of bench/plans.py, with one mistake, is refused and told how it is mended. Whether what
# is told is enough is for a reader to say.
set -euo pipefail
"$(dirname "$0")/../plans.py" "$PROGRAM" > "$WORK/told"
grep -c '^  ' "$WORK/told" | sed 's/$/ lines tell what to mend/'
tail -n 1 "$WORK/told"
