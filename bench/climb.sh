#!/usr/bin/env bash
# Searches over a lattice: eight entities that hint each other, and twelve, where the anchor isn't reached. They are stopped at 8, 64, 512 and
# 4,096 paths. For each: the entities on the paths together; the user time of a search less that of the start, and the same for writing out the
# same paths without a search; both times for an entity on a path, as ratios to those at 4,096 paths; the time of the search over that of
# the writing; and the peak of the resident memory. The runs of a round hold as many rows as make about the same number of entities, and
# each time is the least of three rounds.
# Words: the number of entities on paths in a run (400000), and how many entities hint each other (8 and 12).
set -euo pipefail
case ${1-} in -h | --help) sed -n '2,/^set /s/^# \{0,1\}//p' "$0" && exit 0 ;; esac
cd "$(dirname "$0")/.."
work=${1:-400000}
lattices=${*:2}
rounds=3
place=$(mktemp -d)
trap 'rm -rf "$place"' EXIT
(cd crates/rows_climb && rt run <stdin >"$place/told" 2>"$place/log") || {
    tail -n 5 "$place/log" >&2
    exit 1
}
program=crates/rows_climb/out/rows_climb
names=

# named COUNT: sets the names of so many entities
named() { names="l$(seq -f ' e%g' -s '' 1 "$(($1 - 1))")"; }

# others NAME: the names but this one, with commas between them
others() { echo "$names" | tr ' ' '\n' | grep -vx "$1" | paste -sd ,; }

# search PATHS: the row of the search, within the greatest bounds of a configuration but for the paths
search() {
    printf 'search\t12 160 %s\tl t\tall' "$1"
    for name in $names; do printf '\tpage %s %s' "$name" "$(others "$name")"; done
    printf '\n'
}

# lattice PATHS: the row that writes the paths out
lattice() { printf 'lattice\t%s\t%s\n' "$1" "${names// /,}"; }

# entities PATHS: the entities on so many paths together
entities() { lattice "$1" | "$program" | cut -d ' ' -f 3; }

# seconds FILE: the least user time of a run on these rows
seconds() {
    local TIMEFORMAT=%U
    for _ in $(seq "$rounds"); do { time "$program" <"$1" >/dev/null; } 2>&1; done | sort -g | head -n 1
}

# kibibytes FILE: the peak of the resident memory of a run on these rows
kibibytes() {
    /usr/bin/time -f %M -o "$place/peak" "$program" <"$1" >/dev/null
    cat "$place/peak"
}

: >"$place/none"
start=$(seconds "$place/none")
# measured: a line for each number of paths
measured() {
    local paths together rows kind
    for paths in 8 64 512 4096; do
        together=$(entities "$paths")
        rows=$((work / together + 1))
        for kind in search lattice; do
            "$kind" "$paths" >"$place/$kind"
            for _ in $(seq "$rows"); do cat "$place/$kind"; done >"$place/$kind-rows"
        done
        echo "$paths $together $rows $(seconds "$place/search-rows") $(seconds "$place/lattice-rows")" \
            "$(kibibytes "$place/search") $(kibibytes "$place/lattice") $(kibibytes "$place/none")"
    done
}

# shown: the lines as a table
shown() {
    awk -v start="$start" '
    { paths[NR] = $1; together[NR] = $2; rows[NR] = $3; a[NR] = ($4 - start) / $3; b[NR] = ($5 - start) / $3; k[NR] = $6; w[NR] = $7; n[NR] = $8 }
    END {
        printf "%6s %9s %12s %12s %8s %8s %14s %11s %11s %11s\n", "paths", "entities", "search s", "writing s", "ratio", "ratio", "search/writing", "search KiB", "writing KiB", "start KiB"
        for (i = 1; i <= NR; i++)
            printf "%6d %9d %12.6f %12.6f %8.2f %8.2f %14.2f %11d %11d %11d\n", paths[i], together[i], a[i], b[i], a[i] / together[i] / (a[NR] / together[NR]), b[i] / together[i] / (b[NR] / together[NR]), a[i] / b[i], k[i], w[i], n[i]
    }'
}

echo "load $(cut -d ' ' -f 1-3 /proc/loadavg); a start takes $start s"
for count in ${lattices:-8 12}; do
    named "$count"
    echo "$count entities that hint each other"
    measured | shown
done
