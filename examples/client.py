#!/usr/bin/env python3
"""Resolves entities by `fed resolve`, checks each chain once more by `fed check`, and keeps what came out.

python3 client.py CONFIG ANCHOR KEYS ENTITY ..    KEYS is a file with the anchor's key set"""
import base64, json, subprocess, sys, time

PATIENCE, LONGEST, SHORTEST, MOST = 60, 3600, 60, 10000  # seconds of a call, an answer, a failure; entities that are kept


class Refused(Exception):
    """The entity is none of the federation's now."""


class Unknown(Exception):
    """Nothing is known of the entity now."""


def fed(*words, given=""):
    """Gives the status, where it says something of an entity, and what was written."""
    try:
        done = subprocess.run(["fed", *words], input=given, capture_output=True, encoding="utf-8", timeout=PATIENCE)
    except (OSError, ValueError, subprocess.TimeoutExpired) as error:
        raise Unknown(str(error)) from None
    if done.returncode not in (0, 1, 9):
        raise Unknown(f"fed {words[0]} ended with status {done.returncode}: {done.stderr}")
    return done.returncode, done.stdout


def claims_of(text):
    return json.loads(base64.urlsafe_b64decode(text.split(".")[1] + "=="))


def checked(chain, entity, anchor, keys):
    """Gives the end of a chain and the metadata that it resolves to, where it is valid for this entity."""
    return found(entity, *fed("check", "--anchor", anchor, "--keys", keys, given=json.dumps(chain)))


def checked_reply(text, entity, resolver, anchor, keys):
    """Gives the end and the metadata of a reply of the resolver with these keys, where it is of this entity and says what its chain says."""
    return found(entity, *fed("check-reply", "--keys", resolver, "--anchor", anchor, "--anchor-keys", keys, given=text))


def found(entity, status, said):
    if status:
        raise Refused(said.strip())
    line, metadata = said.split("\n")[:2]
    _, leaf, end = line.split(" ")
    if leaf != entity:
        raise Refused(f"the chain is that of {leaf}")
    return int(end), json.loads(metadata)


def resolved(config, anchor, keys, entity):
    """Gives the end of the answer, the entity's metadata, and the types of its good trust marks."""
    status, said = fed("resolve", "--config", config, "--sub", entity, "--anchor", anchor)
    if status:
        word = json.loads(said)["error"] if said else "the search met its bound"
        raise (Unknown if word == "invalid_trust_anchor" else Refused)(word)
    claims = claims_of(said)
    end, metadata = checked(claims["trust_chain"], entity, anchor, keys)
    return min(end, claims["exp"]), metadata, [mark["trust_mark_type"] for mark in claims.get("trust_marks", [])]


class Entities:
    """What is known of entities: of each what came out, until when that is good, and when to ask again."""

    def __init__(self, *source):
        self.source, self.known = source, {}

    def get(self, entity):
        now = time.time()
        answer, end, again = self.known.get(entity, (None, 0, 0))
        if now >= min(end, again):
            try:
                end, *answer = resolved(*self.source, entity)
                again = now + LONGEST
            except (Refused, Unknown) as error:
                again = now + SHORTEST
                if isinstance(error, Refused) or now >= end:
                    answer, end = error, again
            if len(self.known) >= MOST:
                good = {its: kept for its, kept in self.known.items() if not isinstance(kept[0], Exception)}
                self.known = good if len(good) < MOST else {}
            self.known[entity] = answer, end, again
        if isinstance(answer, Exception):
            raise answer
        return answer


if __name__ == "__main__":
    entities = Entities(*sys.argv[1:4])
    for name in sys.argv[4:]:
        try:
            metadata, marks = entities.get(name)
            print(name, json.dumps(metadata.get("openid_relying_party")))
        except (Refused, Unknown) as error:
            print(name, type(error).__name__, error)
