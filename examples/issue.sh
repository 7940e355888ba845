#!/usr/bin/env bash
# Makes a key, issues an entity configuration by it and verifies that, with fed alone. The seeds are an example's: take 48 random bytes.
set -euo pipefail
here=$(cd "$(dirname "$0")/.." && pwd)
folder=$(mktemp -d)
trap 'rm -r "$folder"' EXIT
cd "$folder"
seeds=000102030405060708090a0b0c0d0e0f101112131415161718191a1b1c1d1e1f202122232425262728292a2b2c2d2e2f
key=$(echo "$seeds" | "$here/fed" keygen --ring rp.ring --at 1800000000 --exp 1900000000)
public=$(sed 's/.*"pub":"\([^"]*\)".*/\1/' <<<"$key")
"$here/fed" issue --ring rp.ring --typ entity-statement+jwt >rp.jwt <<END
{"iss":"https://rp.example","sub":"https://rp.example","iat":1800000000,"exp":1800086400,"jwks":{"keys":[$key]}}
END
"$here/fed" verify "$public" <rp.jwt
