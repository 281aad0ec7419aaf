#!/bin/sh
# Puts a backup of backup.sh in the place of a store that no run has: restore.sh BACKUP STORE.
#
# It looks at the backup's sums first (status 73 where they aren't so), keeps the store that was there as STORE.TIME, and prints
# `next N`: the input has to come again from offset N on. Backups that are newer than this one are of another log from then on,
# and get the ending `.left`. Status 75: a run has the store. RAILGUN names the program.
set -eu
backup=${1%/} store=$2
railgun=${RAILGUN:-/usr/local/bin/railgun}
here=$(dirname "$0")

exec 9> "$store.lock"
flock --nonblock 9 || exit 75
if [ -e "$store/events" ]; then
    exec 7< "$store/events"
    flock --nonblock 7 || exit 75
fi
"$here/frames.py" compare "$backup/events" "$backup/sums" || exit 73
"$railgun" info "$backup" | grep -v '^slot' > "$store.told"
grep -v '^slot' "$backup/info" | cmp -s - "$store.told" || { echo "restore.sh: $backup isn't what it was when it was made" >&2; exit 73; }
next=$(sed -n 's/^next //p' "$store.told")
rm "$store.told"

rm -rf "$store.new"
mkdir "$store.new"
for name in events slot0 slot1; do
    [ ! -e "$backup/$name" ] || cp "$backup/$name" "$store.new/$name"
done
if [ -e "$store" ]; then
    chown -R --reference="$store" "$store.new"
    mv "$store" "$store.$(date -u +%Y%m%dT%H%M%SZ)"
fi
sync -f "$store.new"
mv "$store.new" "$store"
echo "$next" > "$store.stored"
chown --reference="$store" "$store.stored"
find "$(dirname "$backup")" -maxdepth 1 -name '2*Z' | while read -r other; do
    ! expr "$(basename "$other")" '>' "$(basename "$backup")" > /dev/null || mv "$other" "$other.left"
done
echo "next $next"
