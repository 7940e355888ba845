#!/usr/bin/env bash
# Which claims are those of an entity statement, claim by claim (docs/rules/STATEMENTS.md), as `fed issue` answers. It prints what differs and
# fails where anything does.
# shellcheck source=tests/lib/rows.sh
source "$(dirname "$0")/../lib/rows.sh"

cd "$place"
printf '%096d\n' 7 | "$fed" keygen --ring ring --at 1 --exp 4000000000 >key

# answers STATUS TEXT CLAIMS: issuing the claims ends with STATUS, and writes TEXT where that is given
answers() {
    local got=0
    printf '%s\n' "$3" | "$fed" issue --ring ring --typ entity-statement+jwt >out 2>err || got=$?
    if [ "$got" = "$1" ] && { [ -z "$2" ] || [ "$(cat out)" = "$2" ]; }; then
        as_it_should
    else
        differs "$3: status $got, wrote $(head -c 60 out)"
    fi
}
reads() { answers 0 "" "{$1}"; }
refused() { answers 1 "refused Form" "{$1}"; }

iss='"iss":"https://a.example"'
sub='"sub":"https://a.example"'
about='"sub":"https://b.example"'
times='"iat":1,"exp":2'
keys='"jwks":{"keys":[]}'
own="$iss,$sub,$times,$keys"
other="$iss,$about,$times,$keys"

# The claims that each statement has.
reads "$own"
reads "$other"
refused "$sub,$times,$keys"
refused "$iss,$times,$keys"
refused "$iss,$sub,\"exp\":2,$keys"
refused "$iss,$sub,\"iat\":1,$keys"
refused "$iss,$sub,$times"
refused "\"iss\":1,$sub,$times,$keys"
refused "\"iss\":\"ftp://a.example\",$sub,$times,$keys"
refused "\"iss\":\"https://a.example?x\",$sub,$times,$keys"
refused "$iss,\"sub\":[],$times,$keys"
refused "$iss,$sub,\"iat\":\"1\",\"exp\":2,$keys"
refused "$iss,$sub,\"iat\":-1,\"exp\":2,$keys"
refused "$iss,$sub,\"iat\":1,\"exp\":4611686018427387904,$keys"
reads "$iss,$sub,\"iat\":0,\"exp\":4611686018427387903,$keys"
refused "$iss,$sub,$times,\"jwks\":[]"
refused "$iss,$sub,$times,\"jwks\":{\"keys\":[{\"kid\":\"a\"}]}"
refused "$iss,$sub,$times,\"jwks\":{\"keys\":[{\"kty\":\"RSA\",\"kid\":\"a\"},{\"kty\":\"EC\",\"kid\":\"a\"}]}"
# Of two claims of one name the last counts.
reads "\"iss\":1,$own"
refused "$own,\"iss\":1"

# Claims that must be understood.
refused "$own,\"crit\":[]"
refused "$own,\"crit\":[\"x\"]"
refused "$own,\"crit\":[1]"
refused "$own,\"crit\":\"x\""

# Superiors, in a configuration alone: 1 to 32, counted as they are written.
hints() {
    local list
    list=$(for i in $(seq "$1"); do printf ',"https://h%d.example"' "$i"; done)
    printf '"authority_hints":[%s]' "${list#,}"
}
refused "$own,$(hints 0)"
reads "$own,$(hints 1)"
reads "$own,$(hints 32)"
refused "$own,$(hints 33)"
reads "$own,\"authority_hints\":[\"https://h.example\",\"https://h.example\"]"
refused "$own,\"authority_hints\":[\"h\"]"
refused "$own,\"authority_hints\":\"https://h.example\""
refused "$other,$(hints 1)"

# Metadata.
reads "$own,\"metadata\":{}"
reads "$other,\"metadata\":{\"t\":{\"p\":[null]}}"
refused "$own,\"metadata\":{\"t\":{\"p\":null}}"
refused "$own,\"metadata\":{\"t\":1}"
refused "$own,\"metadata\":[]"
refused "$own,\"metadata\":{\"t\":{\"p\":1.5}}"

# What a superior asks, in its statement about a subordinate alone.
reads "$other,\"metadata_policy\":{\"t\":{\"p\":{\"add\":[\"x\"],\"regexp\":1}}}"
refused "$other,\"metadata_policy\":{\"t\":{\"p\":{\"add\":\"x\"}}}"
refused "$other,\"metadata_policy\":{\"t\":1}"
refused "$own,\"metadata_policy\":{}"
reads "$other,\"metadata_policy_crit\":[\"add\",\"essential\"]"
refused "$other,\"metadata_policy_crit\":[\"add\",\"regexp\"]"
refused "$other,\"metadata_policy_crit\":\"add\""
refused "$own,\"metadata_policy_crit\":[]"
reads "$other,\"constraints\":{\"max_path_length\":0,\"x\":1}"
refused "$other,\"constraints\":{\"max_path_length\":-1}"
refused "$other,\"constraints\":[]"
refused "$own,\"constraints\":{}"

# Trust marks, read in a configuration and left unread elsewhere.
reads "$own,\"trust_marks\":[{\"trust_mark_type\":\"t\",\"trust_mark\":\"m\"}]"
refused "$own,\"trust_marks\":[{\"trust_mark_type\":\"t\"}]"
refused "$own,\"trust_marks\":{}"
reads "$other,\"trust_marks\":{}"
reads "$own,\"trust_mark_issuers\":{\"t\":[\"a\"],\"u\":[]}"
refused "$own,\"trust_mark_issuers\":{\"t\":[1]}"
reads "$other,\"trust_mark_issuers\":1"
reads "$own,\"trust_mark_owners\":{\"t\":{\"sub\":\"https://o.example\",$keys}}"
refused "$own,\"trust_mark_owners\":{\"t\":{\"sub\":\"o\",$keys}}"
refused "$own,\"trust_mark_owners\":{\"t\":{\"sub\":\"https://o.example\"}}"
reads "$other,\"trust_mark_owners\":1"

# Claims of other names, and claims that are no object.
reads "$own,\"x\":null,\"y\":[{}],\"z\":{\"crit\":[\"x\"]}"
answers 2 input "[]"
answers 2 input "\"x\""
answers 2 input "{$own"

told
