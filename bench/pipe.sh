#!/usr/bin/env bash
# Whether a run behind a real pipe answers each line before the next one is written: each payment is written alone, and its reply is waited for.
# It fails where a reply doesn't come within ten seconds, or isn't the next one. Outside the gate.
# `rt run` in crates/railgun builds the program first; PROGRAM names another one.
. "$(dirname "$0")/common.sh"
lines=${1:-3000}

# The run says what this pattern matches, behind what it says of its store.
await() {
    local said
    while read -t 10 -r said <&"$replies"; do
        case $said in
            $1) return ;;
            open\ * | stored\ * | saved\ *) ;;
            *) break ;;
        esac
    done
    echo "'$1' didn't come, the last line was '$said'" >&2
    exit 1
}

plan "1 hour" > "$work/plan"
payments 40 "$lines" > "$work/payments"
coproc { exec "$program" run "$work/plan" "$work/store"; }
run=$COPROC_PID
# The shell closes its ends once the run has ended, so others of the same pipes are used.
exec {input}>&"${COPROC[1]}" {replies}<&"${COPROC[0]}"
exec {COPROC[1]}>&-
offset=0
while read -r line; do
    echo "$line" >&"$input"
    await "$offset ok *"
    offset=$((offset + 1))
done < "$work/payments"
exec {input}>&-
await "done $lines $lines"
wait "$run"
echo "each of $lines lines was answered before the next one was written"
