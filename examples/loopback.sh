#!/bin/sh
# Writes the configurations of three nodes to this folder, which has their public keys in ta.key, rp.key and resolver.key: the trust anchor
# https://ta.example, the relying party https://rp.example below it, and a resolver that knows the anchor by its key and reaches the two hosts
# by ports of this machine, 8301 and 8302.
set -eu
cat >ta.json <<END
{"entity_id":"https://ta.example","ring":"ta.ring","lifetime":86400,
 "subordinates":[{"entity_id":"https://rp.example","jwks":{"keys":[$(cat rp.key)]},
   "metadata_policy":{"openid_relying_party":{
     "contacts":{"add":["ops@ta.example"]},"grant_types":{"subset_of":["authorization_code"]}}}}]}
END
cat >rp.json <<END
{"entity_id":"https://rp.example","ring":"rp.ring","lifetime":86400,"authority_hints":["https://ta.example"],
 "metadata":{"openid_relying_party":{"client_name":"A","grant_types":["authorization_code","implicit"]}}}
END
cat >resolver.json <<END
{"entity_id":"https://op.example","ring":"resolver.ring","lifetime":3600,
 "resolver":{
   "anchors":[{"entity_id":"https://ta.example","jwks":{"keys":[$(cat ta.key)]}}],
   "routes":[{"host":"ta.example","ip":"127.0.0.1","port":8301},{"host":"rp.example","ip":"127.0.0.1","port":8302}],
   "age":600,"workers":1,"control":{"keys":[]}}}
END
