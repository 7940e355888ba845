#!/usr/bin/env bash
# Starts a federation on loopback: a trust anchor, an intermediate below it and a leaf, each answering for itself on an address and a port
# of its own. Gets every statement with curl, checks the chain that they make, resolves the leaf, lets a resolver answer those who ask for it,
# and stops all that it started.
set -euo pipefail
here=$(cd "$(dirname "$0")/.." && pwd)
folder=$(mktemp -d)
started=()
stop() {
    for id in "${started[@]}"; do kill "$id" 2>/dev/null || true; done
    wait
    rm -r "$folder"
}
trap stop EXIT
cd "$folder"
now=$(date +%s)

# a free port of this machine
port() { python3 -c 'import socket; s = socket.socket(); s.bind(("127.0.0.1", 0)); print(s.getsockname()[1])'; }

# key NAME: a ring file with one new key, good for a year, and the key that others see
key() {
    head -c 48 /dev/urandom | od -An -v -tx1 | tr -d ' \n' |
        "$here/fed" keygen --ring "$1.ring" --at "$now" --exp $((now + 31536000))
    chmod 600 "$1.ring"
}

# start COMMAND NAME ADDRESS PORT: answers as the node of NAME.json
start() {
    FED_LISTEN=$3 "$here/fed" "$1" --config "$2.json" --port "$4" --connections 1000 >"$2.out" 2>"$2.log" &
    started+=($!)
}

# get FILE URL: what is there, once somebody answers
get() {
    curl --silent --fail --retry 30 --retry-connrefused --retry-delay 1 --output "$1" "$2"
    echo "  $(wc -c <"$1") bytes from $2"
}

anchor_port=$(port) middle_port=$(port) leaf_port=$(port) resolver_port=$(port)
anchor=http://127.0.0.1:$anchor_port middle=http://127.0.0.2:$middle_port leaf=http://127.0.0.3:$leaf_port
anchor_key=$(key anchor) middle_key=$(key middle) leaf_key=$(key leaf) resolver_key=$(key resolver)

cat >anchor.json <<END
{"entity_id":"$anchor","ring":"anchor.ring","lifetime":86400,
 "metadata":{"federation_entity":{"organization_name":"The trust anchor"}},
 "subordinates":[{"entity_id":"$middle","jwks":{"keys":[$middle_key]},"intermediate":true,
   "metadata_policy":{"openid_relying_party":{"grant_types":{"subset_of":["authorization_code","refresh_token"]}}}}]}
END
cat >middle.json <<END
{"entity_id":"$middle","ring":"middle.ring","lifetime":86400,"authority_hints":["$anchor"],
 "subordinates":[{"entity_id":"$leaf","jwks":{"keys":[$leaf_key]},"entity_types":["openid_relying_party"],
   "metadata_policy":{"openid_relying_party":{"contacts":{"add":["help@middle.example"]}}}}]}
END
cat >leaf.json <<END
{"entity_id":"$leaf","ring":"leaf.ring","lifetime":86400,"authority_hints":["$middle"],
 "metadata":{"openid_relying_party":{"client_name":"A","grant_types":["authorization_code","implicit"]}}}
END

start authority anchor 127.0.0.1 "$anchor_port"
start authority middle 127.0.0.2 "$middle_port"
start authority leaf 127.0.0.3 "$leaf_port"
echo "a trust anchor at $anchor, an intermediate at $middle, a leaf at $leaf:"
get leaf.jwt "$leaf/.well-known/openid-federation"
get middle-about-leaf.jwt "$middle/fetch?sub=$leaf"
get anchor-about-middle.jwt "$anchor/fetch?sub=$middle"
get anchor.jwt "$anchor/.well-known/openid-federation"
get list.json "$anchor/list?intermediate=true"
echo "the anchor's intermediates: $(cat list.json)"

echo "[\"$(cat leaf.jwt)\",\"$(cat middle-about-leaf.jwt)\",\"$(cat anchor-about-middle.jwt)\",\"$(cat anchor.jwt)\"]" >chain.json
echo "{\"keys\":[$anchor_key]}" >anchor.keys
echo "the leaf's chain:"
"$here/fed" check --anchor "$anchor" --keys anchor.keys <chain.json

# a resolver knows the anchor by its keys, and reaches each host by a route
cat >resolver.json <<END
{"entity_id":"https://resolver.example","ring":"resolver.ring","lifetime":86400,
 "resolver":{"anchors":[{"entity_id":"$anchor","jwks":{"keys":[$anchor_key]}}],"age":600,"workers":4,"control":{"keys":[$resolver_key]},
   "routes":[{"host":"127.0.0.1","ip":"127.0.0.1","port":$anchor_port},{"host":"127.0.0.2","ip":"127.0.0.2","port":$middle_port},
     {"host":"127.0.0.3","ip":"127.0.0.3","port":$leaf_port}]}}
END
"$here/fed" resolve --config resolver.json --sub "$leaf" --anchor "$anchor" >reply.jwt
told() {
    python3 - "$1" <<'END'
import base64, json, sys
claims = json.loads(base64.urlsafe_b64decode(open(sys.argv[1]).read().split(".")[1] + "=="))
print("  by", claims["iss"], "for", claims["exp"] - claims["iat"], "seconds, with a chain of", len(claims["trust_chain"]), "texts:")
print(" ", json.dumps(claims["metadata"]["openid_relying_party"]))
END
}
echo "the leaf as the resolver found it, $(wc -c <reply.jwt) bytes that are signed:"
told reply.jwt

# a provider registers a leaf that posts its configuration: here the resolver's node
"$here/fed" register --config resolver.json --anchor "$anchor" <leaf.jwt >registration.jwt
echo "the leaf's explicit registration, as a provider makes it:"
told registration.jwt

# the same for those who ask over HTTP: the first has to wait for the pages, the others find them in the cache
start resolver resolver 127.0.0.4 "$resolver_port"
resolver=http://127.0.0.4:$resolver_port
echo "a resolver at $resolver, which is asked four times:"
for number in 1 2 3 4; do
    get "answer-$number.jwt" "$resolver/resolve?sub=$leaf&trust_anchor=$anchor"
done
told answer-4.jwt
