#!/usr/bin/env bash
# What a replay costs beside the run whose store it answers again: payments, five seconds apart, a count and a sum by card over an hour, once of 40 cards and once of 100,000.
# Processor time (user and system), payments a second of it and peak memory, as rows of a table: the medians of three, each run over a new store on the disk of the temporary folder.
# It fails where the replay puts another line than the run put for an accepted payment, or writes a file; and where a replay beside a run that holds the store doesn't answer what is committed.
# Outside the gate. `rt run` in crates/railgun builds the program first; PROGRAM names another one.
. "$(dirname "$0")/common.sh"
lines=${1:-300000}
plan "1 hour" > "$work/plan"

# Runs the program with these words on an input, and adds its figures to the file of this name.
measure() {
    local name=$1 input=$2
    shift 2
    python3 "$bench/measure.py" "$input" "$work/$name.out" "$program" "$@" >> "$work/$name"
}

# The row of a table with the figures of this name.
tell() {
    local cpu
    cpu=$(median "$2" 1)
    row "$1" "$cpu s" "$(thousands "$(awk -v cpu="$cpu" -v lines="$lines" 'BEGIN { print lines / cpu }')")" "$(megabytes "$(median "$2" 3)")"
}

row "$lines payments" "Processor time" "Lines a second" "Peak memory"
row --- --- --- ---
for cards in 40 100000; do
    payments "$cards" "$lines" > "$work/payments"
    rm -f "$work/run" "$work/replay" "$work/last"
    for _ in 1 2 3; do
        rm -rf "$work/store"
        measure run "$work/payments" run "$work/plan" "$work/store"
        sha256sum "$work/store/"* > "$work/before"
        measure replay /dev/null replay "$work/plan" "$work/store"
        measure last /dev/null replay "$work/plan" "$work/store" "$lines"
        sha256sum --quiet -c "$work/before"
        { grep ' ok ' "$work/run.out"; echo "done $lines $lines"; } | cmp - "$work/replay.out"
    done
    tell "$cards cards, run" run
    tell "$cards cards, replay" replay
    tell "$cards cards, replay of the last line alone" last
done

# A run has committed 1,024 payments and holds the store; a payment more is in its open chunk.
head -n 1025 "$work/payments" > "$work/few"
coproc { exec "$program" run "$work/plan" "$work/held"; }
run=$COPROC_PID
exec {input}>&"${COPROC[1]}" {replies}<&"${COPROC[0]}"
exec {COPROC[1]}>&-
cat "$work/few" >&"$input"
while read -t 10 -r said <&"$replies"; do
    case $said in
        *\ ok\ *) echo "$said" ;;
    esac
    case $said in
        1024\ ok\ *) break ;;
    esac
done > "$work/replies"
"$program" replay "$work/plan" "$work/held" > "$work/again"
{ head -n 1024 "$work/replies"; echo "done 1024 1024"; } | cmp - "$work/again"
exec {input}>&-
wait "$run"
echo "beside a run that holds the store: the 1,024 payments that are committed, as the run answered them"
