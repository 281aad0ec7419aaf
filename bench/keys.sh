#!/usr/bin/env bash
# What keys and payments cost: a run over so many payments, each of a card of its own, five seconds apart, in a window of 30 days, with two and with eight aggregators by card.
# The bytes of memory that a key more takes at the peak of a run, in which a checkpoint is saved, and in a slot; those of a payment in the log. Medians of three.
# With more cards than `save` has payments, 65,536 here, a slot may be a base and changes behind it: take fewer for the bytes of a key in a base.
# It fails where a line isn't accepted. Outside the gate. `rt run` in crates/railgun builds the program first; PROGRAM names another one.
. "$(dirname "$0")/common.sh"
cards=${1:-200000}

# A plan that answers these for each card.
asks() {
    plan "30 days" | sed "s/count(\*), sum(amount)/$1/"
}

# Runs a plan over payments of so many cards, and adds its figures to the file of this name and number.
run_once() {
    rm -rf "$work/store"
    payments "$2" "$2" > "$work/payments"
    python3 "$bench/measure.py" "$work/payments" "$work/out" "$program" run "$work/$1.toml" "$work/store" >> "$work/$1$2"
    if [ "$(tail -n 1 "$work/out")" != "done $2 $2" ]; then
        echo "$1: not all lines were accepted: $(tail -n 1 "$work/out")" >&2
        exit 1
    fi
    slot=$(stat -c %s "$work/store/slot0" "$work/store/slot1" | sort -n | tail -n 1)
    log=$(wc -c < "$work/store/events")
}

# How many bytes each of so many cards more takes, by two figures.
each() {
    awk -v few="$1" -v many="$2" -v cards="$cards" 'BEGIN { printf "%.0f", (many - few) / cards }'
}

asks "count(*), sum(amount)" > "$work/two.toml"
asks "count(*), sum(amount), avg(amount), sumsq(amount), min(amount), max(amount), first(amount), last(amount)" > "$work/eight.toml"
for name in two eight; do
    for _ in 1 2 3; do
        run_once "$name" "$cards"
        slot_of_few=$slot
        run_once "$name" $((cards * 2))
    done
    few=$(median "$name$cards" 3)
    many=$(median "$name$((cards * 2))" 3)
    echo "$name aggregators: $few KB at $cards keys, $many KB at $((cards * 2)): $(each $((few * 1024)) $((many * 1024))) bytes a key; the slot of the end $slot_of_few and $slot bytes: $(each "$slot_of_few" "$slot") bytes a key; the log $(each 0 $((log / 2))) bytes a payment"
done
