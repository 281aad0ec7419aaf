# What every measurement begins with and shares; sourced by them. It goes to the clone's root, finds the program, and makes a folder for its work that goes at the end.
set -eu
cd "$(dirname "$0")/.."
bench=$PWD/bench
program=${PROGRAM:-$PWD/crates/railgun/out/railgun}
work=$(mktemp -d "${TMPDIR:-/var/tmp}/railgun.XXXXXX")
trap 'rm -rf "$work"' EXIT

# The middle one of an odd number of figures: those of a column of a file in the folder.
median() {
    cut -d ' ' -f "$2" "$work/$1" | sort -n | awk '{ figures[NR] = $1 } END { print figures[(NR + 1) / 2] }'
}

# The row of a table with these cells.
row() {
    local cell
    for cell in "$@"; do
        printf '| %s ' "$cell"
    done
    echo "|"
}

# A number of thousands, and kilobytes as megabytes of 10^6 bytes.
thousands() {
    awk -v it="$1" 'BEGIN { n = int(it / 1000 + 0.5); if (n < 1000) printf "%d,000", n; else printf "%d,%03d,000", n / 1000, n % 1000 }'
}
megabytes() {
    awk -v it="$1" 'BEGIN { printf "%.1f MB", it * 1024 / 1000000 }'
}

# A plan with a window of this length: a count and a sum by card.
plan() {
    cat << PLAN
queries = ["SELECT count(*), sum(amount) FROM payments GROUP BY card OVER SLIDING $1"]
[stream]
name = "payments"
columns = ["ts", "card:text", "merchant:text", "amount:int"]
PLAN
}

# Payments of so many cards, so many lines, five seconds apart. Some awks print no number past 2^31 in full, so the milliseconds are written as text.
payments() {
    awk -v cards="$1" -v lines="$2" 'BEGIN { for (i = 0; i < lines; i++) printf "%d000,c%d,m%d,%d\n", i * 5, (i * 7919) % cards, i % 97, i % 10000 }'
}
