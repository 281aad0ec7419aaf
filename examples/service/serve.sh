#!/bin/sh
# Answers the payments on standard input: serve.sh PLAN STORE.
#
# The first line that comes out, `open NEXT COUNT FROM`, says from which line of its stream on a source has to send.
# It looks at the store before it starts a run. Where something is wrong it puts `refused start WORD`, says the reason on
# standard error, changes nothing and ends with status 74:
#   missing   there is no store. NEW=1 makes one
#   present   NEW=1 is said, and there is a store
#   foreign   the file `events` is not a log of payments
#   short     a checkpoint counts more payments than the log has, so the log has lost some
#   behind    the store's next offset is below one that was told as stored (the file STORE.stored remembers it)
#   ahead     the last payment is more than AHEAD milliseconds ahead of the clock (a day), so all others would be `late`.
#             AHEAD=none is for times that are no Unix time
#   filter    the filter doesn't start, as by wrong rules
# A second one over the same store ends with status 75. Where STORE.stored can't be written it is 7, with `failed disk`. Every
# other status is that of the program.
#
# RAILGUN names the program. WATCH, if set, is the command of examples/metrics/watch.py with its options, and the run stands
# within it. FILTER, if set, is the command of examples/filter/filter.py with its rules, and stands in front; it
# needs WATCH (else status 64).
set -eu
plan=$1
store=$2
railgun=${RAILGUN:-/usr/local/bin/railgun}
day=86400000

refuse() {
    echo "refused start $1"
    echo "serve.sh: $2" >&2
    exit 74
}

# The number behind a word in what `info` says.
told() {
    printf '%s\n' "$info" | sed -n "s/^$1 //p"
}

# Refuses a file `events` that no run has begun: a log's first byte is a gate, and one without frames has a closed one.
look_at_log() {
    if [ "$(told frames)" = 0 ] && [ "$(head -c 2 "$store/events" 2> /dev/null | wc -c)" = 2 ]; then
        [ "$(head -c 1 "$store/events" | od -An -tx1)" = " 00" ] || refuse foreign "$store/events is no log of payments"
    fi
    if [ "${NEW:-0}" != 1 ]; then
        [ "$(told frames)" != 0 ] || refuse missing "there is no store $store; NEW=1 makes one"
    elif [ "$(told frames)" != 0 ]; then
        refuse present "there is a store $store; leave NEW=1 out"
    fi
}

# A checkpoint is written behind its payments, so no stop leaves one of more payments than the log has.
look_at_checkpoints() {
    for count in $(printf '%s\n' "$info" | sed -n 's/^slot [01] \([0-9]*\) .*/\1/p'); do
        [ "$count" -le "$(told events)" ] ||
            refuse short "a checkpoint of $store is of $count payments, and its log has $(told events): put back a backup"
    done
}

look_at_memory() {
    stored=$(cat "$store.stored" 2> /dev/null || echo 0)
    [ "$next" -ge "${stored:-0}" ] ||
        refuse behind "$store begins at $next, and $stored was told as stored: another folder, an old copy or a lost end of the log. Where that is meant, remove $store.stored"
}

look_at_clock() {
    time=$(told time)
    [ "${AHEAD:-$day}" != none ] && [ "$time" != - ] || return 0
    [ "$time" -le $(($(date +%s) * 1000 + ${AHEAD:-$day})) ] ||
        refuse ahead "the last payment of $store has the time $time, more than ${AHEAD:-$day} ms ahead of the clock"
}

[ -d "$(dirname "$store")" ] || refuse missing "there is no folder $(dirname "$store")"
exec 9> "$store.lock"
flock --nonblock 9 || exit 75
info=$("$railgun" info "$store") || { status=$?; printf '%s\n' "$info"; exit "$status"; }
next=$(told next)
look_at_checkpoints
look_at_log
look_at_memory
look_at_clock
if ! { printf '%s\n' "$next" > "$store.stored.new" && mv "$store.stored.new" "$store.stored"; }; then
    echo "failed disk" # as the run would say
    exit 7
fi

if [ -n "${FILTER:-}" ]; then
    [ -n "${WATCH:-}" ] || { echo "serve.sh: FILTER needs WATCH" >&2; exit 64; }
    # shellcheck disable=SC2086 # FILTER has several words.
    $FILTER "$plan" "$next" < /dev/null || refuse filter "the filter ends with status $?"
fi
set -- "$railgun" run "$plan" "$store" "$next"
[ -z "${WATCH:-}" ] || set -- --first "$next" --memory "$store.stored" --plan "$plan" -- "$@"
[ -z "${FILTER:-}" ] || set -- --front "$FILTER '$plan' $next" "$@"
# shellcheck disable=SC2086 # WATCH has several words.
exec ${WATCH:-} "$@"
