#!/bin/sh
# Makes a store anew without one payment, as one whose time was far ahead, behind which all are `late`:
#
#   leave_out.sh PLAN STORE OFFSET NEW
#
# NEW gets the payments of STORE at their offsets, but that one; STORE stays as it is. Look at NEW, end the run, put NEW in the
# place of STORE, and remove STORE.stored. Then the lines from NEW's next offset on have to come again (`railgun info NEW` tells
# it), with an empty line in the place of that payment, or behind a filter that refuses it: those that were `late` count then.
# Status 73: STORE has no payment at OFFSET, or NEW is there. RAILGUN names the program.
set -eu
plan=$1 store=$2 offset=$3 new=$4
railgun=${RAILGUN:-/usr/local/bin/railgun}

[ ! -e "$new" ] || { echo "leave_out.sh: $new is there" >&2; exit 73; }
"$railgun" dump "$store" > "$new.dump"
trap 'rm -f "$new.dump"' EXIT
grep -q "^$offset," "$new.dump" || { echo "leave_out.sh: $store has no payment at $offset" >&2; exit 73; }
tail -n +2 "$new.dump" |
    awk -F, -v bad="$offset" '{ for (; n < $1; n++) print ""; if ($1 == bad) print ""; else { sub(/^[0-9]+,/, ""); print } n++ }' |
    "$railgun" run "$plan" "$new" > /dev/null
"$railgun" info "$new"
