#!/usr/bin/env bash
# The built program on the repository's examples, as a user runs it. It prints what differs and fails where anything does.
# shellcheck source=tests/lib/rows.sh
source "$(dirname "$0")/../lib/rows.sh"

# answers STATUS TEXT INPUT WORDS..: the program writes TEXT and a line end, and ends with STATUS
answers() {
    local status=$1 text=$2 input=$3 got=0
    shift 3
    "$fed" "$@" <"$input" >"$place/out" 2>"$place/err" || got=$?
    if [ "$got" = "$status" ] && [ "$(cat "$place/out"; echo .)" = "$text
." ]; then
        as_it_should
    else
        differs "fed $*: status $got, wrote $(head -c 200 "$place/out")"
    fi
}

key=$(cat examples/rp.pub)
text=examples/rp.jwt
answers 0 "valid https://rp.example" "$text" verify "$key"
tr -d '\n' <"$text" >"$place/bare"
answers 0 "valid https://rp.example" "$place/bare" verify "$key"
printf '%s\r\n' "$(cat "$text")" >"$place/crlf"
answers 0 "valid https://rp.example" "$place/crlf" verify "$key"
cat "$text" "$text" >"$place/twice"
answers 1 "refused Form" "$place/twice" verify "$key"
# turned EDIT REASON: the text with this edit of sed's is refused for this reason
turned() {
    sed "$1" "$text" >"$place/turned"
    answers 1 "refused $2" "$place/turned" verify "$key"
}
# another last byte of the signature, one byte fewer, one more; then a text of two parts
turned 's/k$/o/' Signature
turned 's/Nk$/A/' Signature
turned 's/$/A/' Signature
turned 's/\.//2' Form
size=$(wc -c <"$text")
head -c $((size - 4)) "$text" >"$place/cut"
answers 1 "refused Signature" "$place/cut" verify "$key"
head -c $((size - 3)) "$text" >"$place/left"
answers 1 "refused Form" "$place/left" verify "$key"
head -c 300 "$text" >"$place/short"
answers 1 "refused Form" "$place/short" verify "$key"
sed 's/^\(.\{600\}\)./\1#/' "$text" >"$place/stop"
answers 1 "refused Form" "$place/stop" verify "$key"
answers 1 "refused Form" /dev/null verify "$key"
answers 1 "refused Signature" "$text" verify "$(printf 'A%.0s' $(seq 43))"
answers 2 words "$text" verify "${key%?}"
answers 2 words "$text" verify
answers 2 words "$text"
answers 2 words "$text" verify "$key" "$key"
answers 2 words "$text" --help verify
answers 2 words "$text" $'\xff'
head -c 4194305 /dev/zero >"$place/long"
answers 2 input "$place/long" verify "$key"
head -c 4194304 /dev/zero >"$place/longest"
answers 1 "refused Form" "$place/longest" verify "$key"
chain=examples/rp.chain.json
keys=examples/ta.keys.json
check=(check --anchor https://ta.example --keys "$keys" --at 1800000000)
valid='valid https://rp.example 1800003600
{"federation_entity":{"organization_name":"RP"},"openid_relying_party":{"application_type":"native","client_registration_types":["automatic"],"contacts":["ops@rp.example","abuse@ta.example","help@im.example"],"grant_types":["authorization_code"],"jwks":{"keys":[{"alg":"RS256","e":"AQAB","kid":"rp-1","kty":"RSA","n":"vQ","use":"sig"}]},"redirect_uris":["https://rp.example/cb"],"scope":"openid email"}}'
answers 0 "$valid" "$chain" "${check[@]}"
answers 0 "$valid" "$chain" check --at 1800003599 --keys "$keys" --anchor https://ta.example
answers 1 "refused 1 Times" "$chain" check --at 1800003600 --keys "$keys" --anchor https://ta.example
answers 1 "refused 3 Names" "$chain" check --anchor https://tb.example --keys "$keys" --at 1800000000
echo '{"keys":[]}' >"$place/none"
answers 1 "refused 3 Signature" "$chain" check --anchor https://ta.example --keys "$place/none" --at 1800000000
answers 2 input "$chain" check --anchor https://ta.example --keys "$chain" --at 1800000000
answers 2 input "$chain" check --anchor https://ta.example --keys "$place/absent" --at 1800000000
echo '[]' >"$place/empty"
answers 1 "refused 0 Form" "$place/empty" "${check[@]}"
answers 2 input "$keys" "${check[@]}"
answers 2 words "$chain" check --anchor https://ta.example --keys "$keys" --at 01
answers 0 "$("$fed" --help)" /dev/null --help
# A federation in memory is resolved twice, and its last parameter is found by its name.
rehearsed() { printf 'params %s\nchain 5\nlink calls 7 0\nchecks 7 0\nlast %s\nvalid' "$1" "$2"; }
answers 0 "$(rehearsed 3 '["a2","b"]')" /dev/null rehearse --params 3
answers 0 "$(rehearsed 0 -)" /dev/null rehearse --params 0
answers 0 "$(rehearsed 200 '["a199","b"]')" /dev/null rehearse --params 200
answers 2 words /dev/null rehearse --params 201
answers 2 words /dev/null rehearse --params 03
answers 2 words /dev/null rehearse
# A ring of one key gets another, which signs from then on; then the first is revoked, and the last live one stays.
printf '%096d\n' 1 >"$place/one"
printf '%096d\n' 2 >"$place/two"
pub_of() { sed 's/.*"pub":"\([^"]*\)".*/\1/'; }
kid_of() { sed 's/.*"kid":"\([^"]*\)".*/\1/'; }
first=$("$fed" keygen --ring "$place/ring" --at 1 --exp 2 <"$place/one")
second=$("$fed" keygen --ring "$place/other" --at 3 --exp 4 <"$place/two")
answers 0 "$(kid_of <<<"$second")" "$place/two" rotate --act add --ring "$place/ring" --exp 4 --at 3
answers 1 "refused Known" "$place/two" rotate --act add --ring "$place/ring" --exp 4 --at 3
echo '{"exp":2,"iat":1,"iss":"https://a.example","jwks":{"keys":[]},"sub":"https://a.example"}' >"$place/claims"
"$fed" issue --ring "$place/ring" --typ entity-statement+jwt <"$place/claims" >"$place/issued"
answers 0 "valid https://a.example" "$place/issued" verify "$(pub_of <<<"$second")"
answers 0 "$(cat "$place/issued")" "$place/claims" issue --workers 4 --ring "$place/ring" --typ entity-statement+jwt
answers 1 "refused Signature" "$place/issued" verify "$(pub_of <<<"$first")"
answers 0 "done" /dev/null rotate --ring "$place/ring" --act revoke --kid "$(kid_of <<<"$first")" --at 5 --reason compromised
answers 1 "refused Order" /dev/null rotate --ring "$place/ring" --act retire --kid "$(kid_of <<<"$second")"
answers 2 input "$place/two" rotate --ring "$place/claims" --act add --at 3 --exp 4
# A key of the second algorithm: one text by any number of workers, and a ring with a key of the first beside it.
third=$("$fed" keygen --alg 128f --ring "$place/fast" --at 1 --exp 2 <"$place/one")
"$fed" issue --ring "$place/fast" --typ entity-statement+jwt <"$place/claims" >"$place/alone"
answers 0 "valid https://a.example" "$place/alone" verify "$(pub_of <<<"$third")"
for workers in 1 2 3 16; do
    answers 0 "$(cat "$place/alone")" "$place/claims" issue --ring "$place/fast" --workers "$workers" --typ entity-statement+jwt
done
answers 2 words "$place/claims" issue --ring "$place/fast" --workers 17 --typ entity-statement+jwt
answers 0 "$(kid_of <<<"$second")" "$place/two" rotate --alg 128s --act add --ring "$place/fast" --at 3 --exp 4
answers 0 "$(cat "$place/issued")" "$place/claims" issue --ring "$place/fast" --typ entity-statement+jwt
answers 1 "refused Exists" "$place/one" keygen --ring "$place/fast" --at 1 --exp 2 --alg 128f
answers 2 words "$place/one" keygen --ring "$place/none" --at 1 --exp 2 --alg 128

told
