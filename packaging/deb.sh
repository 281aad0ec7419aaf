#!/bin/sh
# Makes a Debian package: packaging/deb.sh PROGRAM FOLDER. PROGRAM is the built program, and the package is written
# into FOLDER as railgun_VERSION_amd64.deb, its name on standard output.
#
# It has the program, its page of the manual, completion for bash, the units of examples/service, and the scripts of
# examples/service, client, filter, metrics and kafka in /usr/lib/railgun. It makes the user railgun, and enables no unit; the user and the store stay when it is removed. MAINTAINER, as `Name <mail>`, is
# who made it. dpkg-deb and gzip are needed.
set -eu
here=$(cd "$(dirname "$0")" && pwd)
examples=$here/../examples
program=$1
folder=$2
maintainer=${MAINTAINER:-Railgun <railgun@example.net>}
version=$("$program" --version 2>&1 > /dev/null | sed -n 's/^railgun \([0-9.]*\)$/\1/p')
[ -n "$version" ] || { echo "deb.sh: $program tells no version" >&2; exit 1; }

tree=$(mktemp -d)
trap 'rm -rf "$tree"' EXIT

# Puts a file of this folder, or made of standard input, into the tree: put MODE PATH [FILE].
put() {
    mkdir -p "$(dirname "$tree$2")"
    cat ${3:+"$3"} > "$tree$2"
    chmod "$1" "$tree$2"
}

packed() {
    gzip -9n < "$1"
}

# A script or unit of the example, with the places of a package.
placed() {
    sed 's|/usr/local/|/usr/|g' "$1"
}

put 755 /usr/bin/railgun "$program"
strip --strip-unneeded "$tree/usr/bin/railgun" 2> /dev/null || true
packed "$here/railgun.1" | put 644 /usr/share/man/man1/railgun.1.gz
put 644 /usr/share/bash-completion/completions/railgun "$here/railgun.bash"
put 644 /usr/share/doc/railgun/copyright "$here/copyright"
printf 'railgun (%s) unstable; urgency=medium\n\n  * The program as it is built from this repository.\n\n -- %s  %s\n' \
    "$version" "$maintainer" "$(date -R)" > "$tree/changelog"
packed "$tree/changelog" | put 644 /usr/share/doc/railgun/changelog.gz
rm "$tree/changelog"
for script in "$examples"/service/*.sh "$examples"/service/*.py "$examples"/*/filter.py "$examples"/*/watch.py; do
    placed "$script" | put 755 "/usr/lib/railgun/$(basename "$script")"
done
for script in "$examples"/kafka/*.sh "$examples"/kafka/*.py; do
    placed "$script" | put 755 "/usr/lib/railgun/kafka/$(basename "$script")"
done
for part in "$examples"/client/railgun_client.py "$examples"/metrics/page.html; do
    put 644 "/usr/lib/railgun/$(basename "$part")" "$part"
done
for unit in "$examples"/kafka/*.service "$examples"/service/*.service "$examples"/service/*.socket "$examples"/service/*.timer; do
    placed "$unit" | put 644 "/usr/lib/systemd/system/$(basename "$unit")"
done

put 755 /DEBIAN/postinst "$here/postinst"
put 644 /DEBIAN/control << CONTROL
Package: railgun
Version: $version
Architecture: amd64
Maintainer: $maintainer
Section: utils
Priority: optional
Depends: libc6, adduser
Suggests: python3, python3-prometheus-client, python3-confluent-kafka, kcat, systemd
Installed-Size: $(du -sk "$tree" | cut -f1)
Description: exact metrics over sliding windows of payments
 Railgun answers each payment of a stream with counts, sums, extremes and
 distinct values over windows of minutes to months that end at that payment.
 It keeps all payments on the disk, and goes on after a stop with the answers
 of a run that never stopped. The answers are proved to be exact.
CONTROL

package=$folder/railgun_${version}_amd64.deb
dpkg-deb --root-owner-group --build "$tree" "$package" > /dev/null
echo "$package"
