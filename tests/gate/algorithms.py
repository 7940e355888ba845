#!/usr/bin/env python3
"""Texts and keys of both algorithms side by side: each text is checked by its own, and a key of the same name and the same bytes under the other
algorithm is another key. What the program signs by none of its rings is sealed by another implementation of FIPS 205. It prints what differs,
and fails where anything does."""

import json
import os
import subprocess
import sys
import tempfile

sys.dont_write_bytecode = True
sys.path.insert(0, f"{os.path.dirname(os.path.dirname(os.path.abspath(__file__)))}/lib")
from laid import TOP  # noqa: E402
from program import Rows, ring, run  # noqa: E402
from sealing import FAST, SMALL, Signer, decoded, encoded, key_of, sealed, sealed_by  # noqa: E402

AT, END, STATEMENT = 1800000000, 1800086400, "entity-statement+jwt"
TA, IM, RP = "https://ta.example", "https://im.example", "https://rp.example"
ROWS = Rows("algorithms")
compare = ROWS.compare
SEEDS = {RP: f"{11:096x}", IM: f"{12:096x}"}
KEYS = {who: key_of(FAST, seeds) for who, seeds in SEEDS.items()}


def own(entity, key, **more):
    return {"iss": entity, "sub": entity, "iat": AT, "exp": END, "jwks": {"keys": [key]}, **more}


def about(superior, subject, key, **more):
    return {"iss": superior, "sub": subject, "iat": AT, "exp": END - 10, "jwks": {"keys": [key]}, **more}


def issued(claims):
    """The claims as a statement of the trust anchor, whose key is of the first algorithm."""
    return run(["issue", "--ring", "ta.ring", "--typ", STATEMENT], json.dumps(claims))[1].strip()


def under(key, alg):
    """The key's name and bytes under an algorithm."""
    return {**key, "alg": alg}


def changed(text, **header):
    """The text with other members in its header, and the signature that it had."""
    first, rest = text.split(".", 1)
    return f"{encoded(json.dumps({**json.loads(decoded(first)), **header}, separators=(',', ':')).encode())}.{rest}"


def given(status, written, *sentences):
    return status, written, "".join(f"fed: {it}\n" for it in sentences)


def check_texts(leaf):
    public, kid = KEYS[RP]["pub"], KEYS[RP]["kid"]
    compare("a text of the second", run(["verify", public], leaf), given(0, f"valid {RP}\n"))
    compare("under the name of the first", run(["verify", public], changed(leaf, alg=SMALL)), given(
        1, "refused Signature\n", f"standard input: the {SMALL} signature doesn't verify under the key that was given; the kid of the text is {kid}"))
    message, signature = leaf.rsplit(".", 1)
    for row, size in [("a byte less", 17087), ("a byte more", 17089), ("as long as one of the first", 7856)]:
        cut = f"{message}.{encoded((decoded(signature) + b'x')[:size])}"
        compare(row, run(["verify", public], cut)[:2], (1, "refused Signature\n"))
    for alg in "SLH-DSA-SHA2-128", "SLH-DSA-SHA2-128F", "SLH-DSA-SHAKE-128f", "SLH-DSA-SHA2-192f":
        compare(alg, run(["verify", public], changed(leaf, alg=alg)), given(
            1, "refused Form\n", f"standard input: this text is signed with {alg}; fed checks {SMALL} or {FAST}"))
    claims = own(RP, KEYS[RP], note="")
    claims["note"] = "x" * (179000 - len(json.dumps(claims, separators=(",", ":"))))
    longest = sealed(claims, STATEMENT, SEEDS[RP], KEYS[RP])
    compare("the longest claims", (len(longest) <= 262144, run(["verify", public], longest)), (True, given(0, f"valid {RP}\n")))


def check_chains(leaf, anchor):
    metadata = {"openid_relying_party": {"scope": "openid"}}
    above = sealed(about(IM, RP, KEYS[RP]), STATEMENT, SEEDS[IM], KEYS[IM])
    chain = [leaf, above, issued(about(TA, IM, KEYS[IM])), issued(own(TA, anchor))]
    words = ["check", "--anchor", TA, "--keys", "keys.json", "--at", str(AT)]

    def checked(texts, *keys):
        with open("keys.json", "w", encoding="utf-8") as it:
            json.dump({"keys": keys}, it)
        return run(words, json.dumps(texts))

    compare("a chain of both", checked(chain, anchor), given(0, f"valid {RP} {END - 10}\n{json.dumps(metadata, separators=(',', ':'))}\n"))
    place = f"place 3 ({TA} about itself)"
    compare("the anchor's key under the other", checked(chain, under(anchor, FAST)), given(
        1, "refused 3 Signature\n", f"{place}: there is no {SMALL} key {anchor['kid']} among the anchor's keys; the key of that name there is of {FAST}"))
    strange = issued(about(TA, IM, under(KEYS[IM], SMALL)))
    compare("a subordinate's key under the other", checked([*chain[:2], strange, chain[3]], anchor), given(
        1, "refused 1 Signature\n",
        f"place 1 ({IM} about {RP}): the {FAST} key {KEYS[IM]['kid']} isn't among the keys that {TA} states of {IM}; the key of that name there is of {SMALL}"))
    unlike = sealed_by(Signer(FAST, bytes.fromhex(SEEDS[RP])), {"alg": FAST, "kid": KEYS[RP]["kid"], "typ": STATEMENT}, own(RP, under(KEYS[RP], SMALL)))
    compare("the leaf's own key under the other", checked([unlike, *chain[1:]], anchor)[:2], (1, "refused 0 Signature\n"))
    nameless = {name: value for name, value in under(anchor, FAST).items() if name != "kid"}
    compare("a key of the second without a name", checked(chain, nameless)[:2], (2, "input\n"))
    foreign = {**nameless, "alg": "SLH-DSA-SHA2-192f"}
    compare("a key of a third", checked(chain, foreign, anchor)[0], 0)


def check_shown(leaf, anchor):
    status, out, _ = run(["show"], leaf)
    compare("a text that is shown", (status, out.count(f'"alg": "{FAST}"'), out.endswith(f"configuration of {RP}\nnothing was verified\n")), (0, 2, True))
    status, out, _ = run(["show"], json.dumps({"keys": [anchor, KEYS[RP]]}))
    compare("a set that is shown", (status, out.count(f'"alg": "{SMALL}"'), out.count(f'"alg": "{FAST}"'), KEYS[RP]["kid"] in out), (0, 1, 1, True))
    node = {"entity_id": TA, "ring": "ta.ring", "lifetime": 3600, "subordinates": [{"entity_id": IM, "jwks": {"keys": [KEYS[IM]]}}]}
    with open("node.json", "w", encoding="utf-8") as it:
        json.dump(node, it)
    status, out, _ = run(["check-config", "--config", "node.json", "--at", str(AT)])
    compare("a node over a key of the second", (status, f"key {anchor['kid']} {SMALL} live until" in out, f"subordinate {IM}\n" in out), (0, True, True))


def main():
    subprocess.run([f"{TOP}/fed", "--version"], check=True, capture_output=True)
    with tempfile.TemporaryDirectory() as place:
        os.chdir(place)
        anchor = ring(place, "ta.ring", 3)
        leaf = sealed(own(RP, KEYS[RP], metadata={"openid_relying_party": {"scope": "openid"}}), STATEMENT, SEEDS[RP], KEYS[RP])
        check_texts(leaf)
        check_chains(leaf, anchor)
        check_shown(leaf, anchor)
        os.chdir(TOP)
    return ROWS.end()


if __name__ == "__main__":
    sys.exit(main())
