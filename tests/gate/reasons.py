#!/usr/bin/env python3
"""Every reason why a chain is refused, and every fault of a statement, as `fed check` and `fed issue` tell them.

No clause says that memory isn't wanting, so each of these answers is reached here where memory is ample, from texts that are made here. It
prints what differs, and fails where anything does.
"""

import base64
import binascii
import json
import os
import subprocess
import sys
import tempfile

sys.dont_write_bytecode = True
sys.path.insert(0, f"{os.path.dirname(os.path.dirname(os.path.abspath(__file__)))}/lib")
import program  # noqa: E402
from laid import TOP  # noqa: E402
from program import Rows  # noqa: E402

AT = 1800000000
TYP = "entity-statement+jwt"
RP = "openid_relying_party"
METADATA = {RP: {"list": ["a"], "scope": "a b", "text": "x"}, "other": {"p": 1}}
ROWS = Rows("reasons", 400)
compare = ROWS.compare


def run(words, given=""):
    return program.run(words, given)[:2]


# ---- texts

class Key:
    """The key of a ring file."""

    def __init__(self, name, seed):
        self.ring = name
        self.jwk = json.loads(run(["keygen", "--ring", name, "--at", "1", "--exp", "2"], f"{seed:096d}")[1])
        self.sealed = {}

    def seal(self, claims):
        """Gives the text of the claims that this key signs, which is made once."""
        given = json.dumps(claims)
        if given not in self.sealed:
            status, text = run(["issue", "--ring", self.ring, "--typ", TYP], given)
            if status != 0:
                sys.exit(f"reasons: {given[:200]} can't be issued: {text}")
            self.sealed[given] = text.strip()
        return self.sealed[given]


def base64url(given):
    return base64.urlsafe_b64encode(given).decode().rstrip("=")


HEADER = {"alg": "SLH-DSA-SHA2-128s", "kid": "k", "typ": TYP}


def unsigned(claims, header=HEADER, signature="A" * 10475):
    """Gives a text of this header and these claims, whose signature is of the right length and verifies under no key."""
    return ".".join([base64url(json.dumps(header).encode()), base64url(json.dumps(claims).encode()), signature])


def name(i):
    return f"https://e{i}.example"


def statement(issuer, subject, keys, **more):
    return {"iss": name(issuer), "sub": name(subject), "iat": AT, "exp": AT + 100, "jwks": {"keys": keys}, **more}


def without(claims, claim):
    return {its: value for its, value in claims.items() if its != claim}


# ---- chains: entity 0 is the leaf, each next one the superior of the one before, and the last the trust anchor

class Chain:
    """The claims of a chain of so many texts, with the keys of its leaf and of all others."""

    def __init__(self, texts, leaf, others):
        self.signers = [leaf] + [others] * (texts - 1)
        self.anchor = max(texts - 2, 0)
        if texts == 1:
            self.claims = [statement(0, 0, [leaf.jwk])]
            return
        own = [statement(0, 0, [leaf.jwk], metadata=METADATA)]
        subordinate = [statement(j, j - 1, [(leaf if j == 1 else others).jwk]) for j in range(1, texts - 1)]
        self.claims = own + subordinate + [statement(self.anchor, self.anchor, [others.jwk])]

    def with_claims(self, changes):
        """Gives the claims with more at some places: members put over, or claims in place of those."""
        return [{**claims, **changes.get(j, {})} for j, claims in enumerate(self.claims)]

    def signed(self, changes=None, texts=None):
        """Gives the signed texts, with those changes of claims and these texts in place of some."""
        made = self.with_claims(changes or {})
        return [(texts or {}).get(j) or self.signers[j].seal(claims) for j, claims in enumerate(made)]

    def unsigned(self, changes=None):
        return [unsigned(claims) for claims in self.with_claims(changes or {})]


def check(row, wanted, texts, anchor, keys="others.json"):
    status, got = run(["check", "--anchor", name(anchor), "--keys", keys, "--at", str(AT)], json.dumps(texts))
    if wanted.startswith("valid"):
        compare(row, (status, got.split("\n")[0]), (0, wanted))
    else:
        compare(row, (status, got), (1, wanted + "\n"))
    return got


# ---- Form: the faults of a compact text and of a statement

def texts_without_form(chain):
    """Gives texts that are no compact text of a statement, by their fault."""
    claims = chain.claims[0]
    good = unsigned(claims)
    head, payload, signature = good.split(".")
    return {
        "TooLong": good + "A" * (262145 - len(good)),
        "Parts": f"{head}.{payload}",
        "Parts, four": good + ".",
        "Base64, header": f"{head}=.{payload}.{signature}",
        "Base64, payload": f"{head}.{payload}#.{signature}",
        "Base64, signature": f"{head}.{payload}.{signature[:-1]}B",
        "Header": unsigned(claims, [1]),
        "Header, kid": unsigned(claims, {**HEADER, "kid": 1}),
        "Crit": unsigned(claims, {**HEADER, "crit": ["b64"]}),
        "Algorithm": unsigned(claims, {**HEADER, "alg": "ES256"}),
        "Algorithm, none": unsigned(claims, without(HEADER, "alg")),
        "Typ": unsigned(claims, {**HEADER, "typ": "JWT"}),
        "Typ, none": unsigned(claims, without(HEADER, "typ")),
        "Tree": unsigned([claims]),
    }


def faults_of_each(jwk):
    """Gives the faults that any statement may have: the claims that are put over, or the claim that is missing."""
    faults = {f"Missing, {claim}": claim for claim in ["iss", "sub", "iat", "exp", "jwks"]}
    shapes = {"crit": [], "iss": "e0", "sub": 1, "iat": -1, "exp": 1 << 62, "metadata": {"t": {"p": None}}}
    faults.update({f"Shape, {claim}": {claim: value} for claim, value in shapes.items()})
    faults.update({
        "Keys, NotSet": {"jwks": {"keys": {}}},
        "Keys, Shape": {"jwks": {"keys": [{"kid": "a"}]}},
        "Keys, DoubleKid": {"jwks": {"keys": [jwk, jwk]}},
        "Critical, crit": {"crit": ["iss"]},
    })
    return faults


CONFIGURATIONS = {
    "Shape, authority_hints": {"authority_hints": []},
    "Shape, trust_marks": {"trust_marks": [{"trust_mark": "m"}]},
    "Shape, trust_mark_issuers": {"trust_mark_issuers": {"t": 1}},
    "Shape, trust_mark_owners": {"trust_mark_owners": {"t": {"sub": "https://o.example"}}},
    "Misplaced, metadata_policy": {"metadata_policy": {}},
    "Misplaced, metadata_policy_crit": {"metadata_policy_crit": []},
    "Misplaced, constraints": {"constraints": {}},
}

SUBORDINATE = {
    "Misplaced, authority_hints": {"authority_hints": ["https://h.example"]},
    "Shape, metadata_policy": {"metadata_policy": {"t": {"p": {"add": 1}}}},
    "Shape, metadata_policy_crit": {"metadata_policy_crit": [1]},
    "Shape, constraints": {"constraints": {"max_path_length": -1}},
    "Critical, metadata_policy_crit": {"metadata_policy_crit": ["add", "regexp"]},
}


def check_faults(chain, key):
    texts = chain.unsigned()
    check("unsigned", "refused 0 Signature", texts, chain.anchor)
    for fault, text in texts_without_form(chain).items():
        for place in range(len(texts)):
            check(f"{fault} at {place}", f"refused {place} Form", [*texts[:place], text, *texts[place + 1:]], chain.anchor)
        compare(f"{fault}, verified", run(["verify", "A" * 43], text), (1, "refused Form\n"))
    for place, more in [(0, CONFIGURATIONS), (1, SUBORDINATE)]:
        for fault, change in {**faults_of_each(key.jwk), **more}.items():
            claims = chain.claims[place]
            claims = {**claims, **change} if isinstance(change, dict) else without(claims, change)
            row = f"{fault} at {place}"
            check(row, f"refused {place} Form", [*texts[:place], unsigned(claims), *texts[place + 1:]], chain.anchor)
            compare(f"{row}, issued", run(["issue", "--ring", key.ring, "--typ", TYP], json.dumps(claims)), (1, "refused Form\n"))


# ---- the reasons after Form, in their order

def check_lengths(leaf, others):
    check("no text", "refused 0 Form", [], 0)
    check("one text of another", "refused 0 Names", Chain(1, leaf, others).unsigned(), 1)
    check("two texts", "refused 1 Names", [unsigned(statement(0, 0, [leaf.jwk]))] * 2, 0)
    for texts, wanted in [(14, "refused 0 Signature"), (15, "refused 14 Form"), (16, "refused 14 Form")]:
        long = Chain(texts, leaf, others)
        check(f"{texts} texts", wanted, long.unsigned(), long.anchor)


def check_names(chain):
    last = len(chain.claims) - 1
    iss, sub = (lambda i: {"iss": name(i)}), (lambda i: {"sub": name(i)})
    for row, place, changes in [
        ("the leaf's is no configuration", 0, {0: iss(9)}),
        ("a configuration below the anchor's", 1, {1: sub(1)}),
        ("the last is no configuration", last, {last: sub(9)}),
        ("about another", 2, {2: sub(9)}),
        ("an issuer comes twice", 2, {2: iss(0)}),
    ]:
        check(row, f"refused {place} Names", chain.unsigned(changes), chain.anchor)
    check("another anchor", f"refused {last} Names", chain.unsigned(), chain.anchor + 1)


def check_times(chain):
    for place in range(len(chain.claims)):
        for row, times in [("expired", {"exp": AT}), ("not yet", {"iat": AT + 61})]:
            check(f"{row} at {place}", f"refused {place} Times", chain.unsigned({place: times}), chain.anchor)
        check(f"just current at {place}", "refused 0 Signature", chain.unsigned({place: {"iat": AT + 60, "exp": AT + 1}}), chain.anchor)


def check_signatures(chain, leaf, others):
    nameless = unsigned(chain.claims[0], without(HEADER, "kid"))
    named = unsigned(chain.claims[0], {**HEADER, "kid": leaf.jwk["kid"]})
    for place, claims in enumerate(chain.claims):
        check(f"unsigned at {place}", f"refused {place} Signature", chain.signed({}, {place: unsigned(claims)}), chain.anchor)
    for row, texts in [
        ("no kid", chain.signed({}, {0: nameless})),
        ("a kid, and another signature", chain.signed({}, {0: named})),
        ("not among its own keys", chain.signed({0: {"jwks": {"keys": [others.jwk]}}})),
        ("not among its superior's keys", chain.signed({1: {"jwks": {"keys": [others.jwk]}}})),
        ("another key of its superior's", chain.signed({1: {"jwks": {"keys": [{**leaf.jwk, "pub": others.jwk["pub"]}]}}})),
    ]:
        check(row, "refused 0 Signature", texts, chain.anchor)
    check("sealed by a key of its own alone", "refused 1 Signature", chain.signed({}, {1: leaf.seal(chain.claims[1])}), chain.anchor)
    check("other keys of the anchor", f"refused {len(chain.claims) - 1} Signature", chain.signed(), chain.anchor, "leaf.json")


def is_base64url(part):
    """Whether the part is the base64url of any bytes."""
    try:
        return base64url(base64.urlsafe_b64decode(part + "=" * (-len(part) % 4))) == part
    except binascii.Error:
        return False


def check_cuts(chain):
    """Cuts each text in turn before each hundredth byte."""
    texts = chain.signed()
    for place, text in enumerate(texts):
        for size in range(0, len(text), 100):
            parts = text[:size].split(".")
            reason = "Signature" if len(parts) == 3 and is_base64url(parts[2]) else "Form"
            check(f"{size} bytes of text {place}", f"refused {place} {reason}", [*texts[:place], text[:size], *texts[place + 1:]], chain.anchor)


def check_limits(chain):
    valid = f"valid {name(0)} {AT + 100}"
    for row, wanted, place, limits in [
        ("a path of 0", "refused 2 PathLength", 2, {"max_path_length": 0}),
        ("a path of 1", valid, 2, {"max_path_length": 1}),
        ("no name", "refused 1 Name", 1, {"naming_constraints": {"permitted": []}}),
        ("a name that is excluded", "refused 2 Name", 2, {"naming_constraints": {"excluded": ["e1.example"]}}),
        ("path and name", "refused 2 PathLength", 2, {"max_path_length": 0, "naming_constraints": {"permitted": []}}),
    ]:
        check(row, wanted, chain.signed({place: {"constraints": limits}}), chain.anchor)
    check("the least place", "refused 1 Name", chain.signed({
        1: {"constraints": {"naming_constraints": {"permitted": []}}},
        2: {"constraints": {"max_path_length": 0}},
    }), chain.anchor)


def policy(parameter, operators):
    return {"metadata_policy": {RP: {parameter: operators}}}


def check_policies(chain):
    conflicts = [
        ("value", "a", "value", "b"), ("default", "a", "default", "b"), ("one_of", ["a"], "one_of", ["b"]),
        ("value", None, "essential", True), ("add", ["a"], "subset_of", ["b"]), ("default", "a", "one_of", ["b"]),
        ("subset_of", ["a"], "superset_of", ["b"]),
    ]
    upper = {"metadata_policy": {RP: {f"p{i}": {first: value} for i, (first, value, _, _) in enumerate(conflicts)}}}
    for i, (first, _, second, value) in enumerate(conflicts):
        texts = chain.signed({1: policy(f"p{i}", {second: value}), 2: upper})
        check(f"{first} and {second}", f'refused 1 Conflict "{RP}" "p{i}" {first} {second}', texts, chain.anchor)
    alone = chain.signed({2: policy("p", {"add": [], "one_of": [1]})})
    check("of one policy", f'refused 2 Conflict "{RP}" "p" add one_of', alone, chain.anchor)
    for parameter, operator, value in [
        ("text", "add", ["y"]), ("scope", "add", [1]), ("text", "one_of", ["y"]), ("text", "subset_of", ["x"]),
        ("list", "superset_of", ["b"]), ("absent", "essential", True),
    ]:
        check(f"{operator} of {parameter}", f'refused 0 Policy "{RP}" "{parameter}" {operator}',
              chain.signed({1: policy(parameter, {operator: value})}), chain.anchor)


def check_valid(chain, leaf):
    alone = Chain(1, leaf, leaf)
    check("one text", f"valid {name(0)} {AT + 100}", alone.signed(), 0, "leaf.json")
    got = check("a policy", f"valid {name(0)} {AT + 50}", chain.signed({
        1: {"exp": AT + 50, "constraints": {"allowed_entity_types": [RP]}, **policy("list", {"add": ["b"], "default": ["c"]})},
    }), chain.anchor)
    compare("its metadata", json.loads(got.split("\n")[1]), {RP: {"list": ["a", "b"], "scope": "a b", "text": "x"}})


def check_long(chain):
    """Goes through the reasons after Times at the far places of fourteen texts."""
    valid = f"valid {name(0)} {AT + 100}"
    check("fourteen texts", valid, chain.signed(), chain.anchor)
    check("fourteen texts, the last unsigned", "refused 13 Signature", chain.signed({}, {13: unsigned(chain.claims[13])}), chain.anchor)
    check("fourteen texts, a path of 10", "refused 12 PathLength", chain.signed({12: {"constraints": {"max_path_length": 10}}}), chain.anchor)
    named = chain.signed({12: {"constraints": {"naming_constraints": {"excluded": ["e7.example"]}}}})
    check("fourteen texts, a name", "refused 12 Name", named, chain.anchor)
    conflict = chain.signed({12: policy("text", {"value": "y"}), 4: policy("text", {"value": "z"})})
    check("fourteen texts, a conflict", f'refused 4 Conflict "{RP}" "text" value value', conflict, chain.anchor)
    refused = chain.signed({12: policy("text", {"one_of": ["y"]})})
    check("fourteen texts, a policy", f'refused 0 Policy "{RP}" "text" one_of', refused, chain.anchor)


def main():
    subprocess.run([f"{TOP}/fed", "--version"], check=True, capture_output=True)
    with tempfile.TemporaryDirectory() as place:
        os.chdir(place)
        leaf, others = Key("leaf", 1), Key("others", 2)
        for key in (leaf, others):
            with open(f"{key.ring}.json", "w", encoding="utf-8") as it:
                json.dump({"keys": [key.jwk]}, it)
        chain, long = Chain(4, leaf, others), Chain(14, leaf, others)
        check_faults(chain, leaf)
        check_lengths(leaf, others)
        check_names(chain)
        check_times(chain)
        check_signatures(chain, leaf, others)
        check_cuts(chain)
        check_limits(chain)
        check_policies(chain)
        check_valid(chain, leaf)
        check_long(long)
        os.chdir(TOP)
    return ROWS.end()


if __name__ == "__main__":
    sys.exit(main())
