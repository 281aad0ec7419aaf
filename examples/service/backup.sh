#!/bin/sh
# Backs up a store, also beside a run: backup.sh PLAN STORE FOLDER [KEEP].
#
# A backup is a folder of FOLDER, named by the time: `events`, a copy of the log; `slot0`, `slot1`, its checkpoints, where
# `verify` says `ok` of them; `info`, what that says of it; and `sums`, the sums of the log's frames. The last KEEP backups stay,
# 14 unless it is said. It ends with
#   0    the backup is there, its log begins with all of the last backup's, and no checkpoint is wrong
#   11   the backup is there, without a checkpoint of the store that `verify` finds wrong: standard error names it
#   73   there is no new backup: the log is damaged, has lost payments, or a bit of it has changed since the last backup
# Where the newest backup is of another log, since an older one was put back, restore.sh has renamed it.
# It takes the memory of all payments; VERIFY=0 leaves the look at checkpoints out. RAILGUN names the program.
set -eu
plan=$1 store=$2 folder=$3 keep=${4:-14}
railgun=${RAILGUN:-/usr/local/bin/railgun}
here=$(dirname "$0")
new=$folder/new

stop() {
    echo "backup.sh: $1" >&2
    rm -rf "$new"
    exit 73
}

# The number behind a word in what `info` said of a backup.
told() {
    sed -n "s/^$2 //p" "$1/info"
}

# Copies a slot that nobody writes meanwhile; one that is written each time is left out.
copy_slot() {
    for _ in 1 2 3 4 5; do
        cp "$store/$1" "$new/$1" 2> /dev/null || break
        ! cmp -s "$store/$1" "$new/$1" || return 0
    done
    rm -f "$new/$1"
}

# A slot comes before the log, so that it counts no payment that the copy of the log lacks.
copy() {
    for slot in slot0 slot1; do
        [ "${VERIFY:-1}" = 0 ] || copy_slot "$slot"
    done
    cp "$store/events" "$new/events"
}

# Keeps the checkpoints that are those of the log, and says in `wrong` which ones aren't.
look_at_checkpoints() {
    status=0
    "$railgun" verify "$plan" "$new" > "$new/verified" || status=$?
    case $status in
    0 | 11) ;;
    *) stop "verify of the copy ends with status $status: $(cat "$new/verified")" ;;
    esac
    wrong=$(grep -E ' (wrong|unfit) ' "$new/verified" || true)
    for slot in 0 1; do
        grep -q "^slot $slot ok " "$new/verified" || rm -f "$new/slot$slot"
    done
    rm "$new/verified"
}

look_at_last() {
    last=$(find "$folder" -maxdepth 1 -name '2*Z' | sort | tail -n 1)
    [ -n "$last" ] || return 0
    for word in events next; do
        [ "$(told "$new" "$word")" -ge "$(told "$last" "$word")" ] ||
            stop "$word is $(told "$new" "$word"), and was $(told "$last" "$word") in $last: the log has lost payments"
    done
    "$here/frames.py" compare "$new/events" "$last/sums" || stop "the log isn't what it was in $last"
}

mkdir -p "$folder"
exec 8> "$folder/lock"
flock --nonblock 8 || { echo "backup.sh: another one is at work" >&2; exit 75; }
[ -s "$store/events" ] || { echo "backup.sh: there is no store $store" >&2; exit 73; }
rm -rf "$new"
mkdir "$new"
copy
"$railgun" info "$new" > "$new/info" || stop "$(cat "$new/info")"
look_at_last
wrong=
[ "${VERIFY:-1}" = 0 ] || look_at_checkpoints
"$here/frames.py" sums "$new/events" > "$new/sums" || stop "its frames can't be read"
while name=$folder/$(date -u +%Y%m%dT%H%M%SZ) && [ -e "$name" ]; do sleep 0.2; done
sync -f "$new"
mv "$new" "$name"
find "$folder" -maxdepth 1 -name '2*Z' | sort | head -n "-$keep" | while read -r old; do rm -rf "$old"; done
echo "$name next $(told "$name" next) events $(told "$name" events)"
[ -z "$wrong" ] || { echo "backup.sh: of $store: $wrong. End the run, remove that slot's file, and start again" >&2; exit 11; }
