#!/usr/bin/env bash
# The built program among hostile files: folders and devices in place of files, a full disk, a closed pipe, inputs at their limits.
# It prints what differs from the table of statuses and fails where anything does.
# shellcheck source=tests/lib/rows.sh
source "$(dirname "$0")/../lib/rows.sh"
examples=$PWD/examples

# ends STATUS TEXT INPUT WORDS..: the program ends with STATUS, and writes TEXT and a line end, or nothing where TEXT is empty
ends() {
    local status=$1 text=$2 input=$3 got=0 want
    shift 3
    "$fed" "$@" <"$input" >"$place/out" 2>"$place/err" || got=$?
    want=${text:+$text$'\n'}
    if [ "$got" = "$status" ] && [ "$(cat "$place/out"; echo .)" = "$want." ]; then
        as_it_should
    else
        differs "fed $*: status $got instead of $status, wrote $(head -c 200 "$place/out")"
    fi
}

# holds FILE TEXT: the file holds this text and nothing else
holds() {
    if [ "$(cat "$1" 2>/dev/null; echo .)" = "$2." ]; then
        as_it_should
    else
        differs "$1 holds $(head -c 200 "$1" 2>/dev/null || echo nothing)"
    fi
}

key=$(cat "$examples/rp.pub")
text=$examples/rp.jwt
cd "$place"
printf '%096d\n' 1 >seeds
printf '[]\n' >empty-list
printf '{"keys":[]}' >no-keys
mkdir folder
times=(--at 1800000000 --exp 1900000000)
anchor=(--anchor https://ta.example)

# Folders, devices and absent files in place of a file.
ends 6 "" seeds keygen --ring absent/ring "${times[@]}"
ends 6 "" seeds keygen --ring folder "${times[@]}"
ends 1 "refused Exists" seeds keygen --ring /dev/null "${times[@]}"
ends 6 "" empty-list check "${anchor[@]}" --keys folder --at 1800000000
ends 2 input empty-list check "${anchor[@]}" --keys /dev/null --at 1800000000
ends 2 input empty-list check "${anchor[@]}" --keys /dev/zero --at 1800000000
ends 2 input empty-list check "${anchor[@]}" --keys absent --at 1800000000
ends 2 input empty-list issue --ring absent --typ entity-statement+jwt
ends 2 input empty-list issue --ring absent/ring --typ entity-statement+jwt
ends 6 "" empty-list issue --ring folder --typ entity-statement+jwt
ends 2 input empty-list issue --ring /dev/null --typ entity-statement+jwt
ends 2 input empty-list issue --ring /dev/zero --typ entity-statement+jwt

# Folders and devices in place of the input.
ends 3 "" folder verify "$key"
ends 3 "" folder keygen --ring absent "${times[@]}"
ends 3 "" folder check "${anchor[@]}" --keys no-keys --at 1800000000
ends 1 "refused Form" /dev/null verify "$key"
ends 2 input /dev/null keygen --ring absent "${times[@]}"
ends 2 input /dev/null check "${anchor[@]}" --keys no-keys --at 1800000000
ends 2 input /dev/zero verify "$key"
ends 2 input /dev/zero keygen --ring absent "${times[@]}"
ends 2 input /dev/zero check "${anchor[@]}" --keys no-keys --at 1800000000
[ ! -e absent ] && as_it_should || differs "keygen without seeds made a ring"

# A ring is there whatever it holds, and stays as it is.
printf 'not a ring' >junk
ends 1 "refused Exists" seeds keygen --ring junk "${times[@]}"
ends 2 input empty-list issue --ring junk --typ entity-statement+jwt
holds junk "not a ring"
head -c 4194305 /dev/zero >huge
ends 1 "refused Exists" seeds keygen --ring huge "${times[@]}"
ends 2 input empty-list issue --ring huge --typ entity-statement+jwt

# A ring that can't be written leaves nothing behind.
before=$(ls folder)
ends 6 "" seeds keygen --ring folder/absent/ring "${times[@]}"
[ "$(ls folder)" = "$before" ] && as_it_should || differs "keygen left a file behind"

# A full disk and a closed pipe under the output: a fault of the sink, and the ring that was kept stays.
got=0
"$fed" verify "$key" <"$text" >/dev/full 2>/dev/null || got=$?
[ "$got" = 4 ] && as_it_should || differs "verify into a full disk: status $got"
got=0
"$fed" keygen --ring kept "${times[@]}" <seeds >/dev/full 2>/dev/null || got=$?
[ "$got" = 4 ] && [ -s kept ] && as_it_should || differs "keygen into a full disk: status $got"
[ "$(stat -c %a kept)" = 600 ] && as_it_should || differs "a ring file of mode $(stat -c %a kept)"
ends 1 "refused Exists" seeds keygen --ring kept "${times[@]}"
ends 3 "" folder issue --ring kept --typ entity-statement+jwt
ends 2 input /dev/null issue --ring kept --typ entity-statement+jwt
ends 2 input /dev/zero issue --ring kept --typ entity-statement+jwt
got=0
"$fed" check "${anchor[@]}" --keys no-keys --at 1800000000 <empty-list >/dev/full 2>/dev/null || got=$?
[ "$got" = 4 ] && as_it_should || differs "check into a full disk: status $got"
got=0
"$fed" --help >/dev/full 2>/dev/null || got=$?
[ "$got" = 4 ] && as_it_should || differs "--help into a full disk: status $got"
got=0
{ "$fed" verify "$key" <"$text" 2>/dev/null || echo $? >pipe-status; } | true || true
got=$(cat pipe-status 2>/dev/null || echo 0)
case $got in 0 | 4) as_it_should ;; *) differs "verify into a closed pipe: status $got" ;; esac

# Of a configuration whose members are out of form and whose ring can't be read, the ring is told: it is read first.
printf '{"entity_id":1,"ring":"folder"}' >faulty-both
printf '{"entity_id":1,"ring":"kept"}' >faulty-member
served=(--port 65535 --connections 1)
asked=(--sub https://rp.example --anchor https://ta.example)
ends 6 "" empty-list authority --config faulty-both "${served[@]}"
ends 6 "" empty-list resolver --config faulty-both "${served[@]}"
ends 6 "" empty-list resolve --config faulty-both "${asked[@]}"
ends 6 "" empty-list register --config faulty-both --anchor https://ta.example
ends 2 input empty-list authority --config faulty-member "${served[@]}"
ends 2 input empty-list resolver --config faulty-member "${served[@]}"
ends 2 input empty-list resolve --config faulty-member "${asked[@]}"
ends 2 input empty-list register --config faulty-member --anchor https://ta.example

# Inputs at their limits.
head -c 4194304 /dev/zero | tr '\0' ' ' >blank
ends 2 input blank check "${anchor[@]}" --keys no-keys --at 1800000000
{ cat blank; printf ' '; } >longer
ends 2 input longer check "${anchor[@]}" --keys no-keys --at 1800000000
{ printf '[]'; head -c 4194302 blank; } >blank-list
ends 1 "refused 0 Form" blank-list check "${anchor[@]}" --keys no-keys --at 1800000000
# A key set of exactly 4,194,304 bytes is read, and one more byte isn't.
{ cat no-keys; head -c 4194293 blank; } >longest-keys
ends 1 "refused 0 Form" empty-list check "${anchor[@]}" --keys longest-keys --at 1800000000
{ cat longest-keys; printf ' '; } >longer-keys
ends 2 input empty-list check "${anchor[@]}" --keys longer-keys --at 1800000000

nested() { printf '%*s' "$1" '' | tr ' ' '['; printf '%*s' "$1" '' | tr ' ' ']'; }
nested 127 >nested-127
ends 2 input nested-127 check "${anchor[@]}" --keys no-keys --at 1800000000
nested 128 >nested-128
ends 2 input nested-128 check "${anchor[@]}" --keys no-keys --at 1800000000
# A list inside an object is one deeper: 127 deep in all, and 128.
printf '{"keys":[],"x":%s}' "$(nested 126)" >nested-keys
ends 1 "refused 0 Form" empty-list check "${anchor[@]}" --keys nested-keys --at 1800000000
printf '{"keys":[],"x":%s}' "$(cat nested-127)" >deeper-keys
ends 2 input empty-list check "${anchor[@]}" --keys deeper-keys --at 1800000000
nested 100000 >nested-100000
ends 2 input nested-100000 check "${anchor[@]}" --keys no-keys --at 1800000000
{ printf '["x"'; { yes ',"x"' || true; } | head -n 99999 | tr -d '\n'; printf ']'; } >many
ends 1 "refused 0 Form" many check "${anchor[@]}" --keys no-keys --at 1800000000

# Claims of 179,000 bytes and of one more.
claims() {
    local head='{"exp":1900000000,"iat":1800000000,"iss":"https://a.example","jwks":{"keys":[]},"note":"' tail='","sub":"https://a.example"}'
    printf '%s' "$head"
    head -c $(($1 - ${#head} - ${#tail})) /dev/zero | tr '\0' 'x'
    printf '%s\n' "$tail"
}
# seals INPUT: the claims are sealed, in one line that verifies
seals() {
    local got=0
    "$fed" issue --ring kept --typ entity-statement+jwt <"$1" >issued 2>/dev/null || got=$?
    if [ "$got" = 0 ] && [ "$(tail -c 1 issued | wc -l)" = 1 ] && [ "$("$fed" verify "$own" <issued)" = "valid https://a.example" ]; then
        as_it_should
    else
        differs "issue of $1: status $got"
    fi
}
own=$("$fed" keygen --ring again "${times[@]}" <seeds | sed 's/.*"pub":"\([^"]*\)".*/\1/')
claims 179000 >claims
seals claims
got=0
{ "$fed" issue --ring kept --typ entity-statement+jwt <claims 2>/dev/null || echo $? >large-status; } | true || true
[ "$(cat large-status 2>/dev/null)" = 4 ] && as_it_should || differs "issue of more than a pipe holds, into a closed one"
{ head -c 178999 claims; head -c 4015304 blank; tail -c 2 claims; } >longest-claims
[ "$(wc -c <longest-claims)" = 4194305 ] || differs "longest-claims has $(wc -c <longest-claims) bytes"
ends 2 input longest-claims issue --ring kept --typ entity-statement+jwt
tr -d '\n' <longest-claims >bare-claims
seals bare-claims
claims 179001 >longer-claims
ends 1 "refused TooLong" longer-claims issue --ring kept --typ entity-statement+jwt
deep() { printf '{"exp":2,"iat":1,"iss":"https://a.example","jwks":{"keys":[]},"sub":"https://a.example","x":%s}\n' "$(nested "$1")"; }
deep 126 >nested-claims
seals nested-claims
deep 127 >deeper-claims
ends 2 input deeper-claims issue --ring kept --typ entity-statement+jwt

told
