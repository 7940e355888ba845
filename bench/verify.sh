#!/usr/bin/env bash
# The time of one check of a signature: `fed verify` less the start of the program, and beside it OpenSSL where the one on the PATH has
# SLH-DSA, as a ratio in one run. User time; the number of runs is the first word, 200 where there is none.
set -euo pipefail
case ${1-} in -h | --help) sed -n '2,/^set /s/^# \{0,1\}//p' "$0" && exit 0 ;; esac
cd "$(dirname "$0")/.."
runs=${1:-200}
place=$(mktemp -d)
trap 'rm -rf "$place"' EXIT
key=$(cat examples/rp.pub)
./fed --version >/dev/null
program=$PWD/out/fed

# seconds COMMAND..: the user time of so many runs
seconds() {
    local TIMEFORMAT=%U
    { time for _ in $(seq "$runs"); do "$@" <"$place/input" >/dev/null 2>&1 || true; done; } 2>&1
}

share() { awk -v a="$1" -v b="$2" -v n="$runs" 'BEGIN { d = a - b; if (d < 0) d = 0; printf "%.6f", d / n }'; }

cp examples/rp.jwt "$place/input"
with=$(seconds "$program" verify "$key")
without=$(seconds "$program" --version)
ours=$(share "$with" "$without")
echo "fed: one check $ours s, $runs runs"

if ! openssl list -signature-algorithms 2>/dev/null | grep -qi 'SLH-DSA-SHA2-128s'; then
    echo "openssl: no SLH-DSA in $(openssl version 2>/dev/null || echo 'openssl (not found)'), skipped"
    exit 0
fi
openssl genpkey -algorithm SLH-DSA-SHA2-128s -out "$place/key.pem" 2>/dev/null
openssl pkey -in "$place/key.pem" -pubout -out "$place/public.pem"
head -c 900 examples/rp.jwt >"$place/message"
openssl pkeyutl -sign -inkey "$place/key.pem" -rawin -in "$place/message" -out "$place/signature"
with=$(seconds openssl pkeyutl -verify -pubin -inkey "$place/public.pem" -rawin -in "$place/message" -sigfile "$place/signature")
without=$(seconds openssl pkey -pubin -in "$place/public.pem" -noout)
theirs=$(share "$with" "$without")
echo "openssl: one check $theirs s ($(openssl version))"
awk -v a="$ours" -v b="$theirs" 'BEGIN { if (b > 0) printf "fed / openssl: %.2f\n", a / b; else print "fed / openssl: too short to measure, give more runs" }'
