#!/usr/bin/env bash
# What opening a ring costs: the user time of a change that is refused behind the opening, and of claims that are refused there, for rings of 1, 4
# and 16 keys, less the start of the program, the least of three rounds; and beside it that of `keygen`, which computes one root.
# Word: the number of runs in a round (4).
set -euo pipefail
case ${1-} in -h | --help) sed -n '2,/^set /s/^# \{0,1\}//p' "$0" && exit 0 ;; esac
cd "$(dirname "$0")/.."
runs=${1:-4}
place=$(mktemp -d)
trap 'rm -rf "$place"' EXIT
./fed --version >/dev/null
program=$PWD/out/fed

# ring KEYS: the file of a ring of so many keys
ring() {
    local n between=
    printf '{"keys":['
    for n in $(seq "$1"); do
        printf '%s{"exp":2,"iat":1,"seeds":"%02x%094d","state":"live"}' "$between" "$n" 0
        between=,
    done
    printf '],"version":1}'
}

# run COMMAND KEYS: one run of a command
run() {
    case $1 in
    version) "$program" --version ;;
    keygen) made=$((${made:-0} + 1)); printf '%096d' 0 | "$program" keygen --ring "$place/new-$made" --at 1 --exp 2 ;;
    rotate) "$program" rotate --ring "$place/ring-$2" --act retire --kid none ;;
    issue) echo '[]' | "$program" issue --ring "$place/ring-$2" --typ entity-statement+jwt ;;
    esac >/dev/null 2>&1 </dev/null || true
}

# seconds COMMAND KEYS: the user time of a round
seconds() {
    local TIMEFORMAT=%U
    { time for _ in $(seq "$runs"); do run "$@"; done; } 2>&1
}

least() { for _ in 1 2 3; do seconds "$@"; done | sort -g | head -n 1; }

start=$(least version 0)
# told COMMAND KEYS: milliseconds of one run, and of one key
told() { awk -v t="$(least "$@")" -v s="$start" -v r="$runs" -v k="$2" -v c="$1" 'BEGIN { m = (t - s) * 1000 / r; printf "%-8s %2d keys %8.0f ms, %6.1f ms a key\n", c, k, m, m / k }'; }

for n in 1 4 16; do
    ring "$n" >"$place/ring-$n"
    chmod 600 "$place/ring-$n"
done
told keygen 1
for command in rotate issue; do
    for n in 1 4 16; do
        told "$command" "$n"
    done
done
