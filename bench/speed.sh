#!/usr/bin/env bash
# Writes docs/SPEED.md and its pictures: what the program costs, at one commit, on one machine. Outside the gate, some forty minutes. Let nothing run beside it; the page tells the machine's load.
# It runs the scripts that measure, that of the windows ten times, or RUNS. FIGURES names a folder for what they print: what stands there isn't measured again, so a run that was cut off goes on.
# GATE names a file with what `bench/gate.py --anew` printed, and BUILT a clone that the README's command built from nothing, else this one: of its folders are the times of the build.
# `speed.sh --try` takes tiny sizes and writes the page into a new folder, which it names. It needs valgrind and Debian's python3-matplotlib and python3-sortedcontainers.
# `rt run` in crates/railgun builds the program first; PROGRAM names another one. With UNPROVED=1 `bench/counts.py` builds it, without its proofs, and the page says so.
. "$(dirname "$0")/common.sh"
page=docs/SPEED.md pictures=docs/pictures runs=${RUNS:-10} lines=1000000 rate=10000 waits=300000 replayed=300000 verified=1000000 counted=200000 ranked=300000 keys=200000 few=100000 many=1000000
numbers="1000 100000 500000 1000000"
if [ "${1-}" = --try ]; then
    tried=$(mktemp -d "${TMPDIR:-/var/tmp}/railgun-speed.XXXXXX")
    page=$tried/SPEED.md pictures=$tried/pictures runs=2 lines=20000 rate=2000 waits=4000 replayed=5000 verified=150000 counted=2000 ranked=5000 keys=2000 few=5000 many=10000
    numbers="1000 5000 10000"
fi
figures=${FIGURES:-$work/figures}
mkdir -p "$figures"
if [ -n "${UNPROVED-}" ]; then
    export UNPROVED=$figures/railgun
    if [ ! -x "$UNPROVED" ]; then
        bench/counts.py --program "$UNPROVED"
    fi
    program=$UNPROVED
fi
export PROGRAM=$program

# Keeps what a command prints under a name, where it isn't there already, and the machine's load before it.
figure() {
    local name=$1
    shift
    if [ ! -s "$figures/$name" ]; then
        echo "$name" >&2
        cut -d ' ' -f 1 /proc/loadavg >> "$figures/loads"
        "$@" > "$figures/$name.part" 2> "$figures/said" || { cat "$figures/said" >&2; exit 1; }
        mv "$figures/$name.part" "$figures/$name"
    fi
}

# What the figures are of.
machine() {
    git diff --quiet HEAD -- crates || { echo "crates/ differs from the commit" >&2; exit 1; }
    echo "At commit \`$(git rev-parse --short=7 HEAD)\`, on $(nproc) processors ($(awk -F ': ' '/^model name/ { print $2; exit }' /proc/cpuinfo)), $(date '+%-d %B %Y')."
    if [ -n "${UNPROVED-}" ]; then
        echo "The program was compiled without its proofs, by \`bench/counts.py\`: some tests of alignment stay in it, so a build is a little faster."
    fi
}

figure machine machine
for run in $(seq "$runs"); do
    figure "windows-$run" bench/windows.sh "$lines" 1
done
export RATE=$rate LINES=$waits WAITS=$figures/waits
figure latency bench/latency.sh
figure pauses-100000 bench/speed.py pauses "$few" "$program"
figure pauses-1000000 bench/speed.py pauses "$many" "$program"
figure memory bench/speed.py memory "$program" $numbers
figure keys bench/keys.sh "$keys"
figure store bench/store.sh "$lines"
figure replay bench/replay.sh "$replayed"
figure verify bench/verify.sh "$verified"
figure counts bench/counts.py . "$counted"
figure ranks bench/ranks.sh "$ranked"
if [ -n "${BUILT-}" ] || [ -z "${UNPROVED-}" ]; then
    figure build bench/speed.py build "${BUILT:-.}"
fi
if [ -n "${GATE-}" ]; then
    figure gate cat "$GATE"
fi
bench/speed.py page "$figures" "$page" "$pictures"
echo "$page"
