#!/usr/bin/env bash
# Tries what docs/SERVICE.md says, over the sample, and compares all answers with one run over the whole of it: a run
# behind named pipes that is killed and goes on with FIRST from `info`; one that is killed in a put, so that one reply is
# missing; lines that were cut; copies of a store in use and of one at rest, put back; other queries over a store in use;
# and, where systemd-socket-activate is there, the service of examples/service over a socket, killed and called again.
# It prints a line for each, and fails where an answer differs. Outside the gate.
# `rt run` in crates/railgun builds the program first; PROGRAM names another one.
. "$(dirname "$0")/common.sh"
data=$PWD/crates/railgun/data
examples=$PWD/examples/service
program=$(realpath "$program")
cp "$data/payments.csv" "$work/payments"
count=$(wc -l < "$work/payments")
cd "$work"
process='' listener=''
trap 'for it in $process $listener; do kill -9 "$it" 2> /dev/null || true; done; rm -rf "$work"' EXIT

fail() {
    echo "service.sh: $1" >&2
    exit 1
}

# Waits until the command succeeds, half a minute at most.
await() {
    for _ in $(seq 300); do
        if "$@" 2> /dev/null; then return; fi
        sleep 0.1
    done
    fail "still not so: $*"
}

# The sample's plan with these settings, a line each.
sample_plan() {
    cat "$data/metrics.toml"
    echo "[settings]"
    printf '%s\n' "$@"
}

# The number behind this word in what `info` says of a store.
info() {
    "$program" info "$1" > said || fail "info of $1 ends with status $?"
    sed -n "s/^$2 //p" said
}

# Of the text of a whole run the lines from the reply to this line of the input on.
from_reply() {
    awk -v front="$2 " 'index($0, front) == 1 { on = 1 } on' "$1"
}

# The replies in these files, without the marks, each once.
replies() {
    grep -hE '^[0-9]+ ' "$@" | sort -nu
}

# Sees that a run's output opens at this offset, and that the rest is what the whole run put from there on; with the
# word `part`, the first of it.
sees() {
    local name=$1 whole=$2 next=$3
    head -n 1 "$name" | grep -q "^open $next " || fail "$name opens with $(head -n 1 "$name"), not at $next"
    tail -n +2 "$name" > rest
    from_reply "$whole" "$next" > wanted
    if [ "${4-}" = part ]; then
        head -c "$(wc -c < rest)" wanted > front
        mv front wanted
    fi
    cmp rest wanted || fail "$name differs from $whole"
}

# Starts a run over a store with this plan and FIRST behind the pipes `in` and `out`, which are open as 3 and 4 then.
begin() {
    rm -f in out
    mkfifo in out
    "$program" run "$1" "$2" "$3" < in > out &
    process=$!
    exec 3> in 4< out
}

# Ends the run that was started last by a kill.
kill_process() {
    kill -9 "$process"
    wait "$process" 2> /dev/null || true
    process=''
}

# Waits for the end of that run, which must be a good one.
wait_process() {
    local status=0
    wait "$process" || status=$?
    process=''
    [ "$status" -eq 0 ] || fail "a run ended with status $status"
}

# Ends a run behind pipes by a kill, and adds what it still had put to this file.
kill_run() {
    kill_process
    cat <&4 >> "$1"
    exec 3>&- 4<&-
}

# Feeds lines from this one up to that one, and reads until the reply to that one has come, into this file.
feed() {
    sed -n "$(($1 + 1)),$(($2 + 1))p" payments >&3
    : > "$3"
    while read -r line <&4; do
        echo "$line" >> "$3"
        case $line in "$2 "*) return ;; esac
    done
    fail "no reply to line $2"
}

try_kills() {
    local next=0 last=-1
    for stop in 0 7 36 41 100; do
        begin plan.toml store "$next"
        feed "$next" "$stop" "kill$stop"
        kill_run "kill$stop"
        sees "kill$stop" whole "$next" part
        stored=$(sed -n 's/^stored //p' "kill$stop" | tail -n 1)
        next=$(info store next)
        [ "$next" -ge "${stored:-$last}" ] || fail "stored ${stored:-$last}, but the next offset is $next"
        last=$next
    done
    begin plan.toml store "$next"
    sed -n "$((next + 1)),\$p" payments >&3
    exec 3>&-
    cat <&4 > to_the_end
    exec 4<&-
    wait_process
    sees to_the_end whole "$next"
    replies kill* to_the_end > got
    cmp got wanted_replies || fail "a reply is missing"
    echo "five kills, the last at line 100, and on from line $next: every answer as in one run over $count lines"
}

# A pipe that is full holds the run in a put, with its line stored already.
try_full_pipe() {
    "$program" run each.toml each_whole < payments > each_whole.txt
    mkfifo full
    exec 5<> full
    head -c 61440 /dev/zero >&5
    "$program" run each.toml ahead < payments > full &
    process=$!
    local before=0 now=0
    until [ "$now" -gt 0 ] && [ "$now" -eq "$before" ]; do
        before=$now
        sleep 2
        now=$(info ahead events)
    done
    kill_process
    exec 6< full 5>&-
    tail -c +61441 <&6 > stopped
    exec 6<&-
    sees stopped each_whole.txt 0 part
    local next replied
    next=$(info ahead next)
    replied=$(replies stopped | wc -l)
    [ "$next" -eq $((replied + 1)) ] || fail "$replied replies were put, and the next offset is $next"
    sed -n "$((next + 1)),\$p" payments | "$program" run each.toml ahead "$next" > after
    sees after each_whole.txt "$next"
    "$program" replay each.toml ahead "$((next - 1))" > lost
    replies stopped after lost > got
    cmp got wanted_replies || fail "the reply to line $((next - 1)) is missing"
    head -n "$next" payments | "$program" run each.toml again | replies > got
    cmp got <(head -n "$next" wanted_replies) || fail "a run over a new store answers otherwise"
    echo "a kill in a put: the reply to line $((next - 1)) was missing, and a replay of the store has it"
}

# The reply to a last line without LF, of this plan.
reply_to_piece() {
    rm -rf piece
    printf '%s' "$2" | "$program" run "$1" piece | sed -n 's/^0 //p'
}

# No piece of a row that ends with a flag is a row, but the whole row without its LF.
try_cut() {
    local row=1000,c1,m1,1299,true reply length
    reply_to_piece plan.toml 1000,c1,m1,12 | grep -q '^ok ' || fail "a row of a smaller amount isn't accepted"
    for length in $(seq $((${#row} - 1))); do
        reply=$(reply_to_piece schema.toml "${row:0:length}")
        case $reply in ok*) fail "the piece '${row:0:length}' is accepted" ;; esac
    done
    reply_to_piece schema.toml "$row" | grep -q '^ok ' || fail "the whole row isn't accepted"
    echo "a row that ends with a flag: none of the $((${#row} - 1)) pieces of it is accepted; without one '1000,c1,m1,12' is"
}

# Goes on over a copy of a store, with the rest of the input.
go_on() {
    local next
    next=$(info "$1" next)
    sed -n "$((next + 1)),\$p" payments | "$program" run plan.toml "$1" "$next" > "$1.txt"
    sees "$1.txt" whole "$next"
}

try_backups() {
    begin plan.toml kept 0
    local from=0
    for stop in 20 50 90; do
        feed "$from" "$stop" fed
        from=$((stop + 1))
        mkdir "copy$stop"
        cp kept/events "copy$stop"
    done
    kill_run fed
    mkdir at_rest
    cp kept/slot0 kept/slot1 kept/events at_rest
    [ "$(info at_rest events)" = "$(info kept events)" ] || fail "the copy has other payments"
    cmp <("$program" info at_rest) <("$program" info kept) || fail "the copy has other checkpoints"
    for name in copy20 copy50 copy90 at_rest kept; do
        go_on "$name"
    done
    echo "three copies of the log of a store in use, and one of all files at rest: each goes on as one run"
}

# Copies a log again and again while a run writes it, a commit a payment: each copy is the first payments of all.
try_copies() {
    payments 40 500 > many
    "$program" run busy.toml busy < many > busy.txt &
    process=$!
    local copies=0
    while kill -0 "$process" 2> /dev/null; do
        copies=$((copies + 1))
        mkdir -p "busy$copies"
        cp busy/events "busy$copies" 2> /dev/null || true
        sleep 0.1
    done
    wait_process
    "$program" dump busy > all
    for number in $(seq "$copies"); do
        "$program" dump "busy$number" > first || fail "copy $number isn't legal"
        cmp first <(head -c "$(wc -c < first)" all) || fail "copy $number has other payments"
    done
    echo "$copies copies of a log, made while 500 payments were stored one by one: each is legal"
}

try_other_queries() {
    "$program" run other.toml other_whole < payments > other_whole.txt
    head -n 60 payments | "$program" run plan.toml changed > fed
    "$program" check other.toml > checked
    sed -n '61,$p' payments | "$program" run other.toml changed 60 > changed.txt
    sees changed.txt other_whole.txt 60
    head -n 1 changed.txt | grep -q " 0$" || fail "a checkpoint of other queries was used: $(head -n 1 changed.txt)"
    cp -r changed before
    status=0
    "$program" run schema.toml changed "$count" < /dev/null > refused 2> /dev/null || status=$?
    [ "$status $(cat refused)" = "4 refused store schema" ] || fail "status $status of another schema"
    for file in events slot0 slot1; do
        cmp "before/$file" "changed/$file" || fail "a refused run changed $file"
    done
    echo "other queries from line 60 on: as if they had been the plan's from the start; another schema is refused"
}

# Calls the service, sends up to this line, and kills the process that answers once the reply to it has come.
call_and_kill() {
    python3 "$examples/send.py" socket payments "$1" > "call$1" &
    local caller=$!
    await grep -q "^$1 " "call$1"
    kill -9 "$(pgrep -P "$listener")"
    wait "$caller" || fail "the caller ended with status $?"
}

try_socket() {
    "$program" run plan.toml served < /dev/null > made
    RAILGUN=$program systemd-socket-activate --accept --inetd -E RAILGUN -l "$work/socket" "$examples/serve.sh" plan.toml served 2> log &
    listener=$!
    await [ -S socket ]
    call_and_kill 30
    call_and_kill 77
    python3 "$examples/send.py" socket payments > call || fail "the caller ended with status $?"
    kill "$listener"
    wait "$listener" || true
    listener=''
    sees call30 whole 0 part
    for name in call77 call; do
        next=$(sed -n '1s/^open \([0-9]*\) .*/\1/p' "$name")
        sees "$name" whole "$next" "$([ "$name" = call ] || echo part)"
    done
    replies call30 call77 call > got
    cmp got wanted_replies || fail "a reply is missing"
    echo "the service over a socket, killed at lines 30 and 77: every answer as in one run"
}

sample_plan "commit = 8" "save = 32" "chunk = 8" > plan.toml
sample_plan "commit = 1" "save = 1000" > each.toml
plan "1 hour" > other.toml
sed 's/"amount:int"/"amount:int", "online:flag"/' plan.toml > schema.toml
{ plan "1 hour" && echo "[settings]" && echo "commit = 1"; } > busy.toml
"$program" run plan.toml whole_store < payments > whole
replies whole > wanted_replies
[ "$(wc -l < wanted_replies)" -eq "$count" ] || fail "the whole run answered $(wc -l < wanted_replies) lines"
try_kills
try_full_pipe
try_cut
try_backups
try_copies
try_other_queries
if command -v systemd-socket-activate > /dev/null; then
    try_socket
fi
