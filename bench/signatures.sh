#!/usr/bin/env bash
# Key generation, signing and checking, in user time on one core: by the scalar code (the last commit before the hashes of a slice went
# side by side), by this code for the default target, and for x86-64-v3 where the machine has AVX2, as ratios in one run. There the code
# that walked the chains in fixed groups of eight is built for x86-64-v3 too. Beside them scalar.c, plain C with one hash after the other, and
# OpenSSL, where the one on the PATH has SLH-DSA.
# Each time is the least of several rounds, in which the builds take turns, so that other work on the machine disturbs it little. Proofs and
# builds come first, so that it takes minutes.
# The builds `fast`, `fast-v3` and `c-fast` are those of SLH-DSA-SHA2-128f; the ratios of the first two are those to the third.
# Where valgrind is there, the instructions of a check by each build follow.
# Words: the number of signatures (3), the number of checks (1000), the commit of the scalar code, a folder to keep the programs in (what an
# earlier run left there isn't built again), and the last commit with fixed groups.
set -euo pipefail
case ${1-} in -h | --help) sed -n '2,/^set /s/^# \{0,1\}//p' "$0" && exit 0 ;; esac
cd "$(dirname "$0")/.."
signs=${1:-3}
checks=${2:-1000}
scalar=${3:-f4fb693}
groups=${5:-eef02e2}
rounds=12
place=$(mktemp -d)
trap 'rm -rf "$place"' EXIT
programs=${4:-$place/programs}
crates="fed_base fed_ports slh_lanes slh_hash wots_xmss fors slh_dsa"

# lay NAME: the program over the crates that lie in $place/NAME, whose whole list stands in $place/NAME.txt
lay() {
    local name crate=$place/$1/crates/signature_times
    mkdir -p "$crate/src" "$crate/specs" "$crate/proofs"
    : >"$crate/specs/Lib.antt"
    : >"$crate/proofs/Lib.antt"
    cat >"$crate/src/main.rt" <<'PROGRAM'
//! Does what each line of the input names: `keygen`, `sign` or `verify`, of a message of 1,000 bytes.
#![tactic(auto)]

ghost use Rattle.std.specs.Prelude.{◌≡◌, length};

use fed_ports::{Plain, Steps};
use slh_dsa::{KeyPair, sign, verify};
use std::io;

fn main(rt: HostRuntime) -> io::Result<()> {
    let alloc = rt.alloc();
    let seeds = [7u8; 48];
    let message = [5u8; 1000];
    let keys = KeyPair::from_seeds(&seeds);
    let public = keys.public();
    let mut signature = [0u8; 7856];
    let mut steps = Steps {
        ledger: Plain::new(),
    };
    let mut valid = 0u64;
    let mut sum = 0u8;
    for line in rt.lines(alloc) {
        match line?.as_str() {
            "keygen" => sum ^= KeyPair::from_seeds(&seeds).public()[16],
            "sign" => sign(&keys, &message, &mut signature),
            _ => {
                if verify(&public, &message, &signature, &mut steps) {
                    valid = valid.saturating_add(1);
                }
            }
        }
    }
    println!(rt; "valid {valid}, first byte {}, {sum}", signature[0])
}
PROGRAM
    # where a key pair has an algorithm, that of this build: Small, or Fast where the name begins so
    if [ -e "$place/$1/crates/fed_base/src/algorithm.rt" ]; then
        local alg=Small length=7856
        case $1 in fast*) alg=Fast length=17088 ;; esac
        sed -i -e "s/from_seeds(/from_seeds(Alg::$alg, /" -e "s/verify(&public/verify(Alg::$alg, \&public/" -e "s/7856/$length/" \
            -e 's/use fed_ports::{/use fed_ports::{Alg, /' "$crate/src/main.rt"
    fi
    for name in $crates; do sed -n "/^$name:/p" "$place/$1.txt"; done >"$place/$1/crates.txt"
    echo "signature_times: fed_ports slh_dsa" >>"$place/$1/crates.txt"
    git init -q "$place/$1"
}

# build NAME FROM FLAG..: proves and builds the program over the crates in $place/FROM, where it isn't there yet
build() {
    local name=$1 from=$2
    shift 2
    [ ! -x "$programs/$name" ] || return 0
    echo "building $name" >&2
    (cd "$place/$from/crates/signature_times" && rt run "$@" </dev/null >"$place/$name.log" 2>&1) || {
        tail -n 5 "$place/$name.log" >&2
        exit 1
    }
    cp "$place/$from/crates/signature_times/out/signature_times" "$programs/$name"
}

# seconds PROGRAM WORD COUNT..: the user time of a run on so many lines of each word
seconds() {
    local program=$1 TIMEFORMAT=%U
    shift
    : >"$place/lines"
    while [ $# -gt 0 ]; do
        yes "$1" | head -n "$2" >>"$place/lines" || true
        shift 2
    done
    { time "$programs/$program" <"$place/lines" >/dev/null; } 2>&1
}

each() { awk -v a="$1" -v b="$2" -v n="$3" 'BEGIN { d = a - b; if (d < 0) d = 0; printf "%.6f", d / n }'; }

# measure NAME: seconds of the start, of eight key pairs, of the signatures, of one, and of one and the checks
measure() {
    echo "$(seconds "$1" keygen 0) $(seconds "$1" keygen 8) $(seconds "$1" sign "$signs")" \
        "$(seconds "$1" sign 1) $(seconds "$1" sign 1 verify "$checks")"
}

# shares START KEYS SIGNATURES ONE CHECKS: seconds of a key pair, a signature and a check, from the least of each of these times
shares() { echo "$(each "$2" "$1" 8) $(each "$3" "$1" "$signs") $(each "$5" "$4" "$checks")"; }

# meets BUILD WHAT COLUMN MOST [TIMES NAME]: whether this part of the build's times is at most so much of the scalar code's, or of these times
meets() {
    aims+=$(echo "$times ${5:-$first}" | awk -v n="$1" -v w="$2" -v c="$3" -v m="$4" -v o="${6:+ of $6}" \
        '{ r = $c / $(c + 3); printf "aim: %s, %s: at most %.2f%s, is %.3f: %s", n, w, m, o, r, (r <= m ? "met" : "not met") }')$'\n'
}

# instructions NAME: how many a check takes, by callgrind
instructions() {
    local count one= more
    for count in 1 11; do
        { echo sign; yes verify | head -n "$count" || true; } >"$place/lines"
        more=$(valgrind --tool=callgrind --callgrind-out-file=/dev/null "$programs/$1" <"$place/lines" 2>&1 | sed -n 's/.*Collected : //p')
        one=${one:-$more}
    done
    echo $(((more - one) / 10))
}

# at NAME COMMIT: the program over the crates as they were
at() {
    local names=
    git show "$2:crates.txt" >"$place/$1.txt"
    for crate in $crates; do ! git cat-file -e "$2:crates/$crate" 2>/dev/null || names+=" crates/$crate"; done
    mkdir -p "$place/$1"
    git archive "$2" HANDLES $names | tar -x -C "$place/$1"
    lay "$1"
}

mkdir -p "$programs" "$place/lanes/crates"
for crate in $crates; do
    mkdir "$place/lanes/crates/$crate"
    cp -R "crates/$crate/src" "crates/$crate/specs" "crates/$crate/proofs" "$place/lanes/crates/$crate/"
done
cp HANDLES "$place/lanes/"
cp crates.txt "$place/lanes.txt"
cp -R "$place/lanes" "$place/fast"
cp crates.txt "$place/fast.txt"
at scalar "$scalar"
lay lanes
lay fast
# compile NAME FLAG..: scalar.c
compile() {
    local name=$1
    shift
    [ -x "$programs/$name" ] || cc -O3 "$@" -o "$programs/$name" bench/scalar.c
}

builds="scalar c default"
fast_builds="c-fast fast"
compile c
compile c-fast -DFAST
build scalar scalar
build default lanes
build fast fast
if grep -qw avx2 /proc/cpuinfo 2>/dev/null; then
    build x86-64-v3 lanes --cpu=x86-64-v3
    at groups "$groups"
    build groups-v3 groups --cpu=x86-64-v3
    build fast-v3 fast --cpu=x86-64-v3
    builds="$builds groups-v3 x86-64-v3"
    fast_builds="$fast_builds fast-v3"
fi

of_processor() { sed -n "s/^$1[[:space:]]*: //p" /proc/cpuinfo 2>/dev/null | head -n 1; }
echo "processor: $(of_processor 'model name'), family $(of_processor 'cpu family'), model $(of_processor model); load $(cut -d ' ' -f 1-3 /proc/loadavg)"
echo "compressions, message of 1,000 bytes: 292,352 a key pair, 2,218,519 a signature, about 2,209 a check;" \
    "with 128f 4,568, 106,827 and about 6,424"
echo "user time of one core: the least of $rounds rounds of 8 key pairs, $signs signatures and $checks checks"
printf '%-12s %12s %12s %12s %8s %8s %8s\n' build 'key pair s' 'signature s' 'check s' ratio ratio ratio
# The least of each time over the rounds, before any is taken off another.
declare -A least
for _ in $(seq "$rounds"); do
    for name in $builds $fast_builds; do
        least[$name]=$(echo "$(measure "$name") ${least[$name]:-9999 9999 9999 9999 9999}" |
            awk '{ for (i = 1; i <= 5; i++) printf "%s ", ($i < $(i + 5) ? $i : $(i + 5)) }')
    done
done
first=
aims=
for name in $builds; do
    times=$(shares ${least[$name]})
    first=${first:-$times}
    echo "$times $first" | awk -v n="$name" '{ printf "%-12s %12s %12s %12s %8.3f %8.3f %8.3f\n", n, $1, $2, $3, $1 / $4, $2 / $5, $3 / $6 }'
    case $name in
    default) meets "$name" signature 2 0.50; meets "$name" check 3 0.70 ;;
    groups-v3) grouped=$times ;;
    x86-64-v3) meets "$name" signature 2 0.25; meets "$name" check 3 0.50; meets "$name" check 3 0.60 "$grouped" groups-v3 ;;
    esac
done
first=
for name in $fast_builds; do
    times=$(shares ${least[$name]})
    first=${first:-$times}
    echo "$times $first" | awk -v n="$name" '{ printf "%-12s %12s %12s %12s %8.3f %8.3f %8.3f\n", n, $1, $2, $3, $1 / $4, $2 / $5, $3 / $6 }'
    case $name in
    fast)
        meets "$name" signature 2 0.55 "$first" c-fast
        aims+=$(echo "$times" | awk '{ printf "aim: fast, key pair: at most 0.002 s, is %.6f: %s", $1, ($1 <= 0.002 ? "met" : "not met") }')$'\n'
        ;;
    fast-v3) meets "$name" signature 2 0.30 "$first" c-fast; meets "$name" check 3 0.40 "$first" c-fast ;;
    esac
done
printf '%s' "$aims"
if command -v valgrind >/dev/null; then
    for name in $builds $fast_builds; do echo "instructions of a check, $name: $(instructions "$name")"; done
fi

if ! openssl list -signature-algorithms 2>/dev/null | grep -qi 'SLH-DSA-SHA2-128s'; then
    echo "openssl: no SLH-DSA in $(openssl version 2>/dev/null || echo 'openssl (not found)'), skipped"
    exit 0
fi
# ssl COUNT COMMAND..: the user time of so many runs
ssl() {
    local count=$1 TIMEFORMAT=%U
    shift
    { time for _ in $(seq "$count"); do openssl "$@" >/dev/null 2>&1; done; } 2>&1
}
head -c 1000 /dev/zero >"$place/message"
none=$(ssl 20 version)
key=$(ssl 20 genpkey -algorithm SLH-DSA-SHA2-128s -out "$place/key.pem")
openssl pkey -in "$place/key.pem" -pubout -out "$place/public.pem"
load=$(ssl "$signs" pkey -in "$place/key.pem" -noout)
sign=$(ssl "$signs" pkeyutl -sign -inkey "$place/key.pem" -rawin -in "$place/message" -out "$place/signature")
read_key=$(ssl 100 pkey -pubin -in "$place/public.pem" -noout)
check=$(ssl 100 pkeyutl -verify -pubin -inkey "$place/public.pem" -rawin -in "$place/message" -sigfile "$place/signature")
echo "$(each "$key" "$none" 20) $(each "$sign" "$load" "$signs") $(each "$check" "$read_key" 100) $first" |
    awk '{ printf "%-12s %12s %12s %12s %8.3f %8.3f %8.3f\n", "openssl", $1, $2, $3, $1 / $4, $2 / $5, $3 / $6 }'
openssl version
