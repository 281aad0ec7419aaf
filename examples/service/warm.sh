#!/bin/sh
# Makes a checkpoint of new queries while a run goes on with the old ones, so that the start with them needn't answer all payments.
#
#   warm.sh build PLAN STORE WARM   copies the log of STORE into the folder WARM, and answers its payments by PLAN there. It may
#                                   be done again, and takes only the payments that came since: do so just before the stop
#   warm.sh put STORE WARM          once the run has ended: puts WARM's checkpoint into the slot of STORE of fewer payments.
#                                   Then start with PLAN; its line `open NEXT COUNT FROM` has WARM's payments as FROM
#
# A slot may stand beside the log that it was made of, or one that goes on behind that. So `put` sees that the log of STORE has
# WARM's first and last bytes at their places, and at least as many payments; else, and where PLAN adds columns, it changes
# nothing and its status is 73. Status 75: a run has the store. RAILGUN names the program.
set -eu
railgun=${RAILGUN:-/usr/local/bin/railgun}
here=$(dirname "$0")
piece=1048576

refuse() {
    echo "warm.sh: $1" >&2
    exit 73
}

# The number behind a word in what `info` says of a store.
told() {
    "$railgun" info "$1" | sed -n "s/^$2 //p"
}

build() {
    [ -s "$2/events" ] || refuse "there is no store $2"
    mkdir -p "$3"
    cp "$2/events" "$3/events"
    "$railgun" run "$1" "$3" < /dev/null
}

# The number of a store's slot of the fewest payments (1st) or of the most (2nd); one without a checkpoint has the fewest.
slot_of() {
    "$railgun" info "$1" | sed -n 's/^slot \([01]\) none$/\1 -1/p; s/^slot \([01]\) \([0-9]*\) .*/\1 \2/p' |
        sort -k 2n | sed -n "${2}p" | cut -d ' ' -f 1
}

# The log of the store has the bytes of the other one, from a place on.
same_from() {
    cmp -s -i "$3" -n "$(($4 - $3))" "$1/events" "$2/events" || refuse "$2 isn't a copy of the log of $1"
}

put() {
    exec 9> "$1.lock"
    flock --nonblock 9 || exit 75
    exec 7< "$1/events"
    flock --nonblock 7 || exit 75
    end=$("$here/frames.py" end "$2/events")
    same_from "$1" "$2" 0 "$((end < piece ? end : piece))"
    same_from "$1" "$2" "$((end < piece ? 0 : end - piece))" "$end"
    [ "$(told "$1" events)" -ge "$(told "$2" events)" ] || refuse "the log of $1 has fewer payments than $2"
    from=$(slot_of "$2" 2)
    to=$(slot_of "$1" 1)
    [ -s "$2/slot$from" ] || refuse "$2 has no checkpoint"
    cp "$2/slot$from" "$1/slot.new"
    chown --reference="$1/events" "$1/slot.new"
    sync "$1/slot.new"
    mv "$1/slot.new" "$1/slot$to"
    echo "slot $to of $1 is a checkpoint of $(told "$2" events) payments of its $(told "$1" events)"
}

case ${1-} in
build | put)
    what=$1
    shift
    "$what" "$@"
    ;;
*)
    echo "warm.sh: build PLAN STORE WARM, or put STORE WARM" >&2
    exit 64
    ;;
esac
