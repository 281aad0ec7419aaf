#!/usr/bin/env bash
# What a median over 1 hour by card costs a line, at 40 cards with payments a tenth of a second apart (900 amounts a card), and at one card with payments 36 ms apart
# (100,000 amounts, nearly all different). Processor time (user and system) beside that of bench/ranks.py on the same lines, with a list that `bisect` searches
# and with a SortedList, run in turn: the medians of three. It prints the table that docs/SPEED.md has.
# SortedList is Debian's: apt-get install python3-sortedcontainers; PYTHON names the interpreter that has it, /usr/bin/python3 where it isn't set.
# Each run of the program begins with a new store, on the disk of the temporary folder; what it says of its store is left out of the comparison.
# It fails where a line isn't accepted, or where the programs answer differently. Outside the gate.
# `rt run` in crates/railgun builds the program first; PROGRAM names another one.
. "$(dirname "$0")/common.sh"
lines=${1:-300000}
python=${PYTHON:-/usr/bin/python3}

# Runs a command on the payments, and adds its figures to the file of this name. Each line must be accepted.
measure() {
    local name=$1
    shift
    python3 "$bench/measure.py" "$work/payments" "$work/$name.out" "$@" >> "$work/$name"
    if [ "$(tail -n 1 "$work/$name.out")" != "done $lines $lines" ]; then
        echo "$name: not all lines were accepted: $(tail -n 1 "$work/$name.out")" >&2
        exit 1
    fi
}

cat > "$work/plan" << PLAN
queries = ["SELECT median(amount) FROM payments GROUP BY card OVER SLIDING 1 hour"]
[stream]
name = "payments"
columns = ["ts", "card:text", "merchant:text", "amount:int"]
PLAN

row Cards Program bisect SortedList "Ratio, bisect" "Ratio, SortedList" "Microseconds a line"
row --- --- --- --- --- --- ---
while read -r cards apart; do
    awk -v cards="$cards" -v apart="$apart" -v lines="$lines" \
        'BEGIN { for (i = 0; i < lines; i++) printf "%d,c%d,m%d,%d\n", i * apart, (i * 7919) % cards, i % 97, (i * 48271) % 1000003 }' > "$work/payments"
    rm -f "$work/railgun" "$work/bisect" "$work/sortedlist"
    for _ in 1 2 3; do
        rm -rf "$work/store"
        measure railgun "$program" run "$work/plan" "$work/store"
        for kind in bisect sortedlist; do
            measure "$kind" "$python" "$bench/ranks.py" "$kind" 3600000
            grep -vE '^(open|stored|saved) ' "$work/railgun.out" | cmp - "$work/$kind.out"
        done
    done
    awk -v own="$(median railgun 1)" -v list="$(median bisect 1)" -v sorted="$(median sortedlist 1)" -v n="$lines" -v cards="$cards" \
        'BEGIN { printf "| %d | %.2f s | %.2f s | %.2f s | %.1f | %.1f | %.2f |\n", cards, own, list, sorted, list / own, sorted / own, own / n * 1000000 }'
done << KEYS
40 100
1 36
KEYS
