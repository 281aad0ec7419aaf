#!/usr/bin/env bash
# What the program does where a file of a store is a symbolic link, a hard link, a pipe, a folder or a socket: each command that reads that file ends with status 7 at once, says so on standard error, and changes nothing.
# It prints how many calls were tried, and fails at the first that does otherwise. Outside the gate.
# `rt run` in crates/railgun builds the program first; PROGRAM names another one.
. "$(dirname "$0")/common.sh"

plan "5 minutes" > "$work/plan"
payments 3 10 > "$work/payments"
"$program" run "$work/plan" "$work/kept" < "$work/payments" > /dev/null

# Puts a thing of this kind in the place of a file of the store.
put_odd() {
    local file=$work/store/$2
    mv "$file" "$work/aside"
    case $1 in
    link) ln -s ../aside "$file" ;;
    second) mv "$work/aside" "$file" && ln "$file" "$work/aside" ;;
    pipe) mkfifo "$file" ;;
    folder) mkdir "$file" ;;
    socket) python3 -c 'import socket, sys; socket.socket(socket.AF_UNIX).bind(sys.argv[1])' "$file" ;;
    esac
}

# All that stands in the work folder but what the program puts.
seen() {
    (cd "$work" && find store aside -printf '%p %y %n %l %s\n' | sort && find store aside -type f -exec sha256sum {} + | sort)
}

tried=0
for kind in link second pipe folder socket; do
    for name in events slot0 slot1; do
        rm -rf "$work/store" "$work/aside"
        cp -r "$work/kept" "$work/store"
        put_odd "$kind" "$name"
        seen > "$work/before"
        for words in "run $work/plan $work/store" "replay $work/plan $work/store" "verify $work/plan $work/store" "info $work/store" "dump $work/store"; do
            case "$name $words" in
            slot*\ replay* | slot*\ dump*) continue ;;
            esac
            status=0
            timeout 10 "$program" $words < "$work/payments" > "$work/out" 2> "$work/told" || status=$?
            seen | cmp "$work/before" -
            if [ "$status" != 7 ] || ! grep -qE 'no plain file|second name' "$work/told"; then
                echo "$kind $name: $words: status $status: $(cat "$work/told")" >&2
                exit 1
            fi
            tried=$((tried + 1))
        done
    done
done
echo "$tried calls over a link, a pipe, a folder or a socket ended with status 7, and changed nothing"
