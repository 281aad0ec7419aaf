#!/usr/bin/env bash
# Answers the payments of one partition: partition.sh BROKER PARTITION PLAN STORE [WORD..].
# They come from the topic `payments`, a row of CSV as the value of each message. Their answers go to the partition of the
# same number of the topic `answers`: the key is the payment's offset, the value is what stands behind it in the reply.
# Further words are for the kcat in front: with -e it ends at the end of the partition, and so does the run.
# Where messages were dropped before the store had them it ends with status 10; with FILL=1 it goes on, each of them answered `row`.
# Two at a time on one store would tell the next offset wrongly, so a second one ends with status 75. RAILGUN names the program.
set -euo pipefail
broker=$1 partition=$2 plan=$3 store=$4
shift 4
railgun=${RAILGUN:-/usr/local/bin/railgun}
here=$(dirname "$0")

# Puts replies into the topic, in order, and waits for a broker that is away as long as it takes.
put() {
    kcat -P -b "$broker" -t answers -p "$partition" -K ' ' -X enable.idempotence=true -X message.timeout.ms=0
}

# The replies to the offsets from this one to that one, without it, by what `replay` puts: `none` where the store has no payment.
lost() {
    local at=$1 end=$2 offset reply
    while read -r offset reply; do
        if [ "$offset" = done ]; then
            offset=$end
        fi
        for (( ; at < offset; at++)); do
            echo "$at none"
        done
        if [ "$at" -lt "$end" ]; then
            echo "$at $reply"
            at=$((at + 1))
        fi
    done
}

exec 9> "$store.lock"
flock --nonblock 9 || exit 75
info=$("$railgun" info "$store")
next=$(sed -n 's/^next //p' <<< "$info")

# The answers that were lost between the store and the topic.
last=$(kcat -C -b "$broker" -t answers -p "$partition" -o -1 -e -q -f '%k\n')
answered=$((${last:--1} + 1))
if [ "$answered" -lt "$next" ]; then
    "$railgun" replay "$plan" "$store" "$answered" | lost "$answered" "$next" | put
fi

# The first message that is still there may be behind the next one of the store: from there on the run is refused.
first=$(kcat -Q -b "$broker" -t "payments:$partition:-2" | sed 's/.* //')
there=$((next > first ? next : first))
begin=$((${FILL:-0} ? next : there))
exec 3< <(exec kcat -C -b "$broker" -t payments -p "$partition" -o "$there" -X auto.offset.reset=error -u -q -f '%o %S %s\n' "$@")
front=$!
trap 'kill "$front" 2> /dev/null || true' EXIT

# Does this, and ends the kcat in front when it has ended: so all end with any of them.
to_the_end() {
    local status=0
    "$@" || status=$?
    kill "$front" 2> /dev/null || true
    return "$status"
}

"$here/lines.py" "$begin" <&3 |
    to_the_end "$railgun" run "$plan" "$store" "$begin" |
    "$here/lines.py" --replies |
    to_the_end put
