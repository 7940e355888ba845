#!/usr/bin/env bash
# The time of one check of a chain of 3 and of 10 texts: `fed check` less the start of the program, and beside it the sum of the chain's
# signature checks, each taken as `fed verify` on the leaf's configuration less the start. User time; the number of runs is the first word,
# 50 where there is none.
set -euo pipefail
case ${1-} in -h | --help) sed -n '2,/^set /s/^# \{0,1\}//p' "$0" && exit 0 ;; esac
cd "$(dirname "$0")/.."
runs=${1:-50}
./fed --version >/dev/null
program=$PWD/out/fed

# seconds INPUT COMMAND..: the user time of so many runs
seconds() {
    local TIMEFORMAT=%U input=$1
    shift
    { time for _ in $(seq "$runs"); do "$@" <"$input" >/dev/null 2>&1 || true; done; } 2>&1
}

share() { awk -v a="$1" -v b="$2" -v n="$runs" 'BEGIN { d = a - b; if (d < 0) d = 0; printf "%.6f", d / n }'; }

check() { "$program" check --anchor https://ta.example --keys examples/ta.keys.json --at 1800000000; }

start=$(seconds /dev/null "$program" --version)
one=$(share "$(seconds examples/rp.jwt "$program" verify "$(cat examples/rp.pub)")" "$start")
echo "fed: one signature check $one s, $runs runs"
for size in 3 10; do
    input=bench/chain-$size.json
    [ "$(check <"$input" | head -n 1)" = "valid https://rp.example 1800086400" ] || { echo "bench: $input isn't valid" >&2; exit 1; }
    whole=$(share "$(seconds "$input" check)" "$start")
    awk -v n="$size" -v a="$whole" -v b="$one" \
        'BEGIN { printf "fed: a chain of %d texts %.6f s, its %d signature checks %.6f s", n, a, n, n * b; if (b > 0) printf ", ratio %.2f", a / (n * b); print "" }'
done
