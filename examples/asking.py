#!/usr/bin/env python3
"""Asks a resolver over HTTP, and checks its reply, or where the resolver's keys aren't known the chain of the reply alone.

python3 asking.py ENDPOINT ANCHOR KEYS ENTITY [RESOLVER]    KEYS and RESOLVER are files with the anchor's and the resolver's key sets"""
import http.client, json, sys, urllib.error, urllib.parse, urllib.request
from client import PATIENCE, Refused, Unknown, checked, checked_reply, claims_of

FAULTS = OSError, http.client.HTTPException, LookupError, ValueError, TypeError, RecursionError


class Straight(urllib.request.HTTPRedirectHandler):
    """Goes nowhere else: a redirect is an answer as any other than 200."""

    def redirect_request(self, *words):
        return None


opener = urllib.request.build_opener(Straight)


def fault_of(error):
    """Gives what an answer other than 200 says of the entity, by the word of its error."""
    try:
        word = json.loads(error.read(65536))["error"]
    except FAULTS:
        word = None
    kind = Refused if word in ("not_found", "invalid_metadata", "invalid_trust_chain") else Unknown
    return kind(word or f"status {error.code}")


def resolved_by(endpoint, anchor, keys, entity, resolver=None):
    question = urllib.parse.urlencode({"sub": entity, "trust_anchor": anchor})
    try:
        with opener.open(f"{endpoint}?{question}", timeout=PATIENCE) as reply:
            text = reply.read(4194304).decode()
        if resolver:
            return checked_reply(text, entity, resolver, anchor, keys)
        return checked(claims_of(text)["trust_chain"], entity, anchor, keys)
    except urllib.error.HTTPError as error:
        raise fault_of(error) from None
    except FAULTS as error:
        raise Unknown(f"no reply: {error}") from None


if __name__ == "__main__":
    try:
        end, metadata = resolved_by(*sys.argv[1:])
        print(json.dumps(metadata.get("openid_relying_party")))
    except (Refused, Unknown) as error:
        print(type(error).__name__, error)
