#!/bin/sh
# Asks for an entity's configuration and looks whether it is good: probe.sh ENTITY KEYS SECONDS [URL]. KEYS is a file with the key set that one
# knows of the entity, SECONDS for how long the configuration has to be good still, and URL where it is, if not at the entity's identifier. It
# writes `good ENTITY`, or says on standard error what is wrong and ends with another status than 0.
set -eu
entity=$1 keys=$2 seconds=$3
url=${4:-${entity%/}/.well-known/openid-federation}
text=$(curl --silent --show-error --fail --max-time 20 --retry 20 --retry-max-time 20 --retry-connrefused --retry-delay 1 "$url")
said=$(echo "[\"$text\"]" | fed check --anchor "$entity" --keys "$keys") || {
    echo "probe: $url: $said" >&2
    exit 1
}
end=$(echo "$said" | sed -n '1s/.* //p')
left=$((end - $(date +%s)))
if [ "$left" -lt "$seconds" ]; then
    echo "probe: $url is good for $left seconds more, and not for $seconds" >&2
    exit 1
fi
echo "good $entity"
