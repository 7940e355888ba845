#!/bin/sh
# Issues an entity configuration anew that is published as a file: renew.sh ENTITY NAME SECONDS FILE. NAME.ring has the keys, NAME.keys is the key
# set of their public parts, and NAME.claims has the claims, with "iat":NOW and "exp":END in place of the moments. The text is good for SECONDS.
# It takes the name FILE only once it was issued and `fed check` found it good; whatever fails before ends the script, and FILE stays as it was.
set -eu
entity=$1 name=$2 seconds=$3 file=$4
now=$(date +%s)
sed "s/\(\"iat\": *\)NOW/\1$now/; s/\(\"exp\": *\)END/\1$((now + seconds))/" "$name.claims" |
    fed issue --ring "$name.ring" --typ entity-statement+jwt >"$file.new"
echo "[\"$(cat "$file.new")\"]" | fed check --anchor "$entity" --keys "$name.keys" >/dev/null
chmod 644 "$file.new"
mv "$file.new" "$file"
