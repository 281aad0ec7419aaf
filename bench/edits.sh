#!/usr/bin/env bash
# Tries the edits of bench/edits/NAME: wrong bodies that the prover refuses, and that the gate doesn't try.
# `bench/edits.sh [NAME..]` tries those of these crates, else all, in a copy of the repository where they stand in place of must-fail/.
# What each one gave is printed; the status is 1 where one isn't refused or can't be applied. Libraries that are built in crates/*/out are used.
set -eu
cd "$(dirname "$0")/.."
if [ $# = 0 ]; then
    set -- $(ls bench/edits)
fi
for name in "$@"; do
    if [ ! -d "bench/edits/$name" ]; then
        echo "there are no edits in bench/edits/$name" >&2
        exit 2
    fi
done
work=$(mktemp -d "${TMPDIR:-/var/tmp}/railgun-edits.XXXXXX")
trap 'rm -rf "$work"' EXIT

tar -c --exclude=./crates/*/out --exclude=./crates/*/must-fail ./crates.txt ./HANDLES ./crates | tar -x -C "$work"
# Built libraries are linked where that can be had: nobody writes into one that stands, a new one takes its place.
for built in crates/*/out/rlib; do
    if [ -e "$built/stamp" ]; then
        mkdir "$work/${built%/rlib}"
        cp -al "$built" "$work/$built" 2> /dev/null || cp -a "$built" "$work/${built%/rlib}/"
    fi
done
for name in "$@"; do
    cp -r "bench/edits/$name" "$work/crates/$name/must-fail"
done
cd "$work"
rt must-fail "$@"
