#!/usr/bin/env bash
# Makes the keys of a leaf and a trust anchor, issues their configurations and the anchor's statement about the leaf, and checks the chain of
# the three, with fed alone: first as it is, then broken in five ways. The seeds are an example's: take 48 random bytes for each key.
set -euo pipefail
here=$(cd "$(dirname "$0")/.." && pwd)
folder=$(mktemp -d)
trap 'rm -r "$folder"' EXIT
cd "$folder"

# key NAME SEEDS: a ring file, and the key that others see
key() { echo "$2" | "$here/fed" keygen --ring "$1.ring" --at 1800000000 --exp 1900000000; }

# issue NAME: signs the claims of the input by that ring's key
issue() { "$here/fed" issue --ring "$1.ring" --typ entity-statement+jwt; }

# check WHAT CHAIN ANCHOR KEYS MOMENT: the answer on a chain, which is a JSON list of texts, the leaf's first
check() {
    echo "$1:"
    "$here/fed" check --anchor "$3" --keys "$4" --at "$5" <"$2" || true
}

leaf=$(key leaf "$(printf '%096d' 1)")
anchor=$(key anchor "$(printf '%096d' 2)")
issue leaf >leaf.jwt <<END
{"iss":"https://rp.example","sub":"https://rp.example","iat":1800000000,"exp":1800086400,"jwks":{"keys":[$leaf]},
 "authority_hints":["https://ta.example"],
 "metadata":{"openid_relying_party":{"client_name":"A","grant_types":["authorization_code","implicit"]}}}
END
issue anchor >about.jwt <<END
{"iss":"https://ta.example","sub":"https://rp.example","iat":1800000000,"exp":1800003600,"jwks":{"keys":[$leaf]},
 "metadata_policy":{"openid_relying_party":{"grant_types":{"subset_of":["authorization_code"]}}}}
END
issue anchor >anchor.jwt <<END
{"iss":"https://ta.example","sub":"https://ta.example","iat":1800000000,"exp":1800086400,"jwks":{"keys":[$anchor]}}
END
echo "[\"$(cat leaf.jwt)\",\"$(cat about.jwt)\",\"$(cat anchor.jwt)\"]" >chain.json
echo "[\"$(cat about.jwt)\",\"$(cat leaf.jwt)\",\"$(cat anchor.jwt)\"]" >turned.json
head -c 5000 chain.json >cut.json
echo "{\"keys\":[$anchor]}" >keys.json
echo "{\"keys\":[$leaf]}" >other.json

check 'the chain' chain.json https://ta.example keys.json 1800000000
check 'for another trust anchor' chain.json https://other.example keys.json 1800000000
check 'under other keys' chain.json https://ta.example other.json 1800000000
check 'an hour later' chain.json https://ta.example keys.json 1800003600
check 'in another order' turned.json https://ta.example keys.json 1800000000
check 'cut off' cut.json https://ta.example keys.json 1800000000
