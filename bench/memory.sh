#!/usr/bin/env bash
# What is left where memory runs out: a run over three payments of one card, the run that opens its store again, and a verify of that store, once for each allocation of theirs, which alone is refused.
# Each has to end with status 9, or 7 where what was refused is a path's; to have put a front of its text, or whole lines of it and the last line of its status; and to leave a store over which a later run puts the end of what a run puts that nothing stops.
# It prints how many were refused, and how those calls ended. It fails at the first that did otherwise. Outside the gate.
# The allocations are those that the program asks of the C library, counted and refused by a library in front of it, which the script builds with cc.
# `rt run` in crates/railgun builds the program first; PROGRAM names another one.
. "$(dirname "$0")/common.sh"

cat > "$work/refuse.c" << 'C'
#include <stdio.h>
#include <stdlib.h>
#include <fcntl.h>
#include <unistd.h>

void *__libc_malloc(size_t size);
void *__libc_calloc(size_t count, size_t size);
void *__libc_realloc(void *old, size_t size);

static long asked, refused;

static int is_refused(void) {
    asked++;
    return asked == refused;
}

void *malloc(size_t size) { return is_refused() ? NULL : __libc_malloc(size); }
void *calloc(size_t count, size_t size) { return is_refused() ? NULL : __libc_calloc(count, size); }
void *realloc(void *old, size_t size) { return is_refused() ? NULL : __libc_realloc(old, size); }

__attribute__((constructor)) static void begin(void) {
    char *number = getenv("REFUSED");
    asked = 0;
    refused = number ? atol(number) : 0;
}

__attribute__((destructor)) static void end(void) {
    char text[32], *name = getenv("ASKED");
    int file = name ? open(name, O_WRONLY | O_CREAT | O_TRUNC, 0600) : -1;
    if (file >= 0 && write(file, text, snprintf(text, sizeof text, "%ld\n", asked)) < 0)
        _exit(99);
}
C
cc -O1 -shared -fPIC -o "$work/refuse.so" "$work/refuse.c"

{
    plan "5 minutes"
    printf '%s\n' "[settings]" "commit = 2" "save = 4" "chunk = 2" "cache = 1"
} > "$work/plan"
printf '%s\n' "0,c1,m1,100" "299999,c1,m2,200" "300000,c1,m1,50" > "$work/payments"
whole="0 ok 1 100
1 ok 2 300
stored 2
2 ok 2 250
stored 3
saved 3
done 3 3
"

fail() {
    echo "$*" >&2
    tail -n 5 "$work/out" "$work/told" >&2
    exit 1
}

# Calls the program with this word on the payments, behind the others. It sets `status`, and `put` to what was put.
call() {
    local word=$1
    shift
    status=0
    "$@" "$program" "$word" "$work/plan" "$work/store" < "$work/payments" > "$work/out" 2> "$work/told" || status=$?
    put=$(cat "$work/out" && echo .)
    put=${put%.}
}

# The same with the allocation of this number refused, or none where it is 0. It leaves their number in `asked`.
refusing() {
    call "$2" env "REFUSED=$1" "ASKED=$work/asked" "LD_PRELOAD=$work/refuse.so"
}

# The store as it is before the call of this name: none, or that of the three payments.
begin() {
    rm -rf "$work/store"
    if [ "$1" != new ]; then
        cp -r "$work/kept" "$work/store"
    fi
}

# Whether what was put is a front of this text, or whole lines of it and then this last line.
is_front() {
    local lines=${put%"$2"}
    case $1 in
    "$put"*) return 0 ;;
    "$lines"*) [ "$lines" != "$put" ] && { [ -z "$lines" ] || [ "${lines%$'\n'}" != "$lines" ]; } ;;
    *) return 1 ;;
    esac
}

# Whether a later run goes on: what it puts behind its open line is the end of what the first one puts there.
goes_on() {
    call run
    [ "$status" = 0 ] || return 1
    case $whole in
    *"${put#*$'\n'}") ;;
    *) return 1 ;;
    esac
    call verify
    [ "$status" = 0 ]
}

# Refuses each allocation of the call of this word in turn, over the store of this name, whose text is this one.
refuse_each() {
    local number asked memory=0 disk=0 unseen=0
    begin "$1"
    refusing 0 "$2"
    if [ "$status" != 0 ] || [ "$put" != "$3" ]; then
        fail "$4: with all memory it ends with $status"
    fi
    asked=$(cat "$work/asked")
    for number in $(seq "$asked"); do
        begin "$1"
        refusing "$number" "$2"
        case $status in
        9) is_front "$3" $'failed memory\n' && memory=$((memory + 1)) || fail "$4: number $number: not a front" ;;
        7) is_front "$3" $'failed disk\n' && disk=$((disk + 1)) || fail "$4: number $number: not a front" ;;
        0) [ "$put" = "$3" ] && unseen=$((unseen + 1)) || fail "$4: number $number: not the text" ;;
        *) fail "$4: number $number: status $status" ;;
        esac
        goes_on || fail "$4: number $number: a later run doesn't go on"
    done
    row "$4" "$asked" "$memory" "$disk" "$unseen"
}

begin new
call run
if [ "$status" != 0 ] || [ "$put" != $'open 0 0 0\n'"$whole" ]; then
    fail "the run over a new store ends with $status"
fi
cp -r "$work/store" "$work/kept"

row Call Refused "Status 9" "Status 7" "Status 0"
row --- --- --- --- ---
refuse_each new run $'open 0 0 0\n'"$whole" "a run over a new store"
refuse_each kept run $'open 3 3 3\nstored 3\nsaved 3\ndone 3 3\n' "a run over its store"
refuse_each kept verify $'slot 0 ok 3\nslot 1 none\n' "a verify of its store"
