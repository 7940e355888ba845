#!/usr/bin/env bash
# The time and the memory of each command in one run: user time less the start of the program, the least of three rounds, and the peak of the
# resident memory. Beside the time stands OpenSSL's for the same keys and signatures where the one on the PATH has SLH-DSA, else what the
# command's compressions of SHA-256 (README.md) take where each takes as long as in OpenSSL's SHA-256 here, without the processor's
# instructions for SHA-256. Beside the memory stand the bytes of the input and the output.
# Words: the number of keys made (20), of texts issued (4), and of texts verified and chains checked (100) in a round.
set -euo pipefail
case ${1-} in -h | --help) sed -n '2,/^set /s/^# \{0,1\}//p' "$0" && exit 0 ;; esac
cd "$(dirname "$0")/.."
keys=${1:-20}
issues=${2:-4}
checks=${3:-100}
rounds=3
place=$(mktemp -d)
trap 'rm -rf "$place"' EXIT
# what is said to people isn't to be taken for a time
export FED_QUIET=1
./fed --version >/dev/null
program=$PWD/out/fed
key=$(cat examples/rp.pub)
size=179000

# claims BYTES: claims of so many bytes as compact JSON, on one line
claims() {
    local head='{"exp":1900000000,"iat":1800000000,"iss":"https://a.example","jwks":{"keys":[]},"note":"' tail='","sub":"https://a.example"}'
    printf '%s' "$head"
    head -c $(($1 - ${#head} - ${#tail})) /dev/zero | tr '\0' 'x'
    printf '%s\n' "$tail"
}

# run COMMAND INPUT: one run of a command, which must end with status 0; a key is made for a ring file that isn't there
run() {
    case $1 in
    version) set -- "$2" --version ;;
    verify) set -- "$2" verify "$key" ;;
    keygen) set -- "$2" keygen --ring "$place/ring-$BASHPID-$((made += 1))" --at 1 --exp 2 ;;
    issue) set -- "$2" issue --ring "$place/ring" --typ entity-statement+jwt ;;
    check) set -- "$2" check --anchor https://ta.example --keys examples/ta.keys.json --at 1800000000 ;;
    esac
    local input=$1
    shift
    ${peak:-} "$program" "$@" <"$input" >"$place/out"
}

# seconds COUNT COMMAND INPUT: the user time of so many runs
seconds() {
    local TIMEFORMAT=%U count=$1
    shift
    { time for _ in $(seq "$count"); do run "$@"; done; } 2>&1
}

# kibibytes COMMAND INPUT: the peak of the resident memory of one run
kibibytes() {
    peak="/usr/bin/time -f %M -o $place/peak" run "$@"
    cat "$place/peak"
}

# least COMMAND..: the least of what the command prints over the rounds
least() { for _ in $(seq "$rounds"); do "$@"; done | sort -g | head -n 1; }

# once COUNT COMMAND INPUT: the user time of one run less the start
once() { share "$(seconds "$@")" "$(seconds "$1" version /dev/null)" "$1"; }

share() { awk -v a="$1" -v b="$2" -v n="$3" 'BEGIN { d = a - b; if (d < 0) d = 0; printf "%.6f\n", d / n }'; }

made=0
printf '%096d\n' 7 >"$place/seeds"
printf '%096d\n' 7 | "$program" keygen --ring "$place/ring" --at 1 --exp 2 >/dev/null
claims 200 >"$place/small"
claims "$size" >"$place/large"
# signing BYTES: the compressions of a signature of a message of so many bytes, with the making of its key
signing() { echo $((292352 + 2218484 + ($1 + 91 + 63) / 64 + ($1 + 59 + 63) / 64)); }

if openssl list -signature-algorithms 2>/dev/null | grep -qi 'SLH-DSA-SHA2-128s'; then
    # ssl COUNT COMMAND..: the user time of so many runs
    ssl() {
        local count=$1 TIMEFORMAT=%U
        shift
        { time for _ in $(seq "$count"); do openssl "$@" >/dev/null 2>&1; done; } 2>&1
    }
    head -c 1000 /dev/zero >"$place/message"
    openssl genpkey -algorithm SLH-DSA-SHA2-128s -out "$place/key.pem"
    openssl pkey -in "$place/key.pem" -pubout -out "$place/public.pem"
    openssl pkeyutl -sign -inkey "$place/key.pem" -rawin -in "$place/message" -out "$place/signature"
    by="OpenSSL's keys and signatures ($(openssl version))"
    ssl_key() { share "$(ssl "$keys" genpkey -algorithm SLH-DSA-SHA2-128s -out "$place/other")" "$(ssl "$keys" version)" "$keys"; }
    ssl_sign() {
        share "$(ssl "$issues" pkeyutl -sign -inkey "$place/key.pem" -rawin -in "$place/message" -out "$place/other")" \
            "$(ssl "$issues" pkey -in "$place/key.pem" -noout)" "$issues"
    }
    ssl_check() {
        share "$(ssl "$checks" pkeyutl -verify -pubin -inkey "$place/public.pem" -rawin -in "$place/message" -sigfile "$place/signature")" \
            "$(ssl "$checks" pkey -pubin -in "$place/public.pem" -noout)" "$checks"
    }
    one_key=$(least ssl_key)
    one_signature=$(least ssl_sign)
    one_check=$(least ssl_check)
else
    # compression: the nanoseconds of one, from the thousands of bytes in a second; the bit that is taken away stands for SHA-256
    compression() {
        OPENSSL_ia32cap=:~0x20000000 openssl speed -seconds 1 -bytes 16384 -evp sha256 2>/dev/null | awk 'END { printf "%.1f\n", 64e6 / $2 }'
    }
    nanoseconds=$(least compression)
    by="a compression in $nanoseconds ns ($(openssl version))"
fi

# beside COMPRESSIONS KEYS SIGNATURES CHECKS: the seconds that OpenSSL takes for these
beside() {
    if [ -n "${nanoseconds:-}" ]; then
        awk -v n="$1" -v t="$nanoseconds" 'BEGIN { printf "%.6f", n * t / 1e9 }'
    else
        awk -v k="$2" -v s="$3" -v c="$4" -v a="$one_key" -v b="$one_signature" -v d="$one_check" 'BEGIN { printf "%.6f", k * a + s * b + c * d }'
    fi
}

# row NAME COUNT COMMAND INPUT KEYS SIGNATURES CHECKS: a line of the table
row() {
    local time memory compressions
    time=$(least once "$2" "$3" "$4")
    memory=$(($(kibibytes "$3" "$4") - start))
    case $3 in
    keygen) compressions=292352 ;;
    issue) compressions=$(signing "$(sed 's/\.[^.]*$//' "$place/out" | tr -d '\n' | wc -c)") ;;
    *) compressions=$(bench/compressions.py "$key" <"$4") ;;
    esac
    echo "$1 $time $compressions $(beside "$compressions" "$5" "$6" "$7") $(($(wc -c <"$4") + $(wc -c <"$place/out"))) $memory" | awk '{
        printf "%-13s %10s %13d %10s %6.2f %13d %8d\n", $1, $2, $3, $4, ($4 > 0 ? $2 / $4 : 0), $5, $6 }'
}

of_processor() { sed -n "s/^$1[[:space:]]*: //p" /proc/cpuinfo 2>/dev/null | head -n 1; }
start=$(kibibytes version /dev/null)
echo "processor: $(of_processor 'model name'), family $(of_processor 'cpu family'), model $(of_processor model); load $(cut -d ' ' -f 1-3 /proc/loadavg)"
echo "beside: $by"
echo "the start of the program: $start KiB, taken off below"
printf '%-13s %10s %13s %10s %6s %13s %8s\n' command seconds compressions beside ratio 'bytes in, out' KiB
row verify "$checks" verify examples/rp.jwt 0 0 1
row keygen "$keys" keygen "$place/seeds" 1 0 0
row issue "$issues" issue "$place/small" 1 1 0
row "issue-$size" "$issues" issue "$place/large" 1 1 0
row check-3 "$checks" check bench/chain-3.json 0 0 3
row check-10 "$checks" check bench/chain-10.json 0 0 10
