#!/usr/bin/env python3
"""What `fed check-reply` answers, whole: of a reply that can be acted on, of one for each reason against it, and which sentence is said of each. The
replies are sealed by another implementation of FIPS 205, and what is wanted of each is worked out here from its claims. What `fed show --claims yes`
writes of them is what was sealed, byte for byte. It prints what differs, and fails where anything does."""

import json
import os
import subprocess
import sys
import tempfile
import time

sys.dont_write_bytecode = True
sys.path.insert(0, f"{os.path.dirname(os.path.dirname(os.path.abspath(__file__)))}/lib")
from laid import TOP  # noqa: E402
from program import Rows, run  # noqa: E402
from sealing import FAST, decoded, encoded, key_of, sealed  # noqa: E402

IAT, EXP = 1800000000, 1800005000
STATEMENT, MARK, REPLY = "entity-statement+jwt", "trust-mark+jwt", "resolve-response+jwt"
TA, RP, RESOLVER, ISSUER, KIND = "https://ta.example", "https://rp.example", "https://resolver.example", "https://marks.example", "https://marks.example/m"
SEEDS = {who: f"{number:096x}" for number, who in enumerate((TA, RP, RESOLVER, ISSUER), 21)}
KEYS = {who: key_of(FAST, seeds) for who, seeds in SEEDS.items()}
ROWS = Rows("replies")
FILES = {"resolver.keys": [KEYS[RESOLVER]], "ta.keys": [KEYS[TA]], "other.keys": [KEYS[ISSUER]], "none.keys": []}
METADATA = {"openid_relying_party": {"client_name": "A", "grant_types": ["authorization_code"]}}


def by(who, typ, claims):
    return sealed(claims, typ, SEEDS[who], KEYS[who])


def mark(who, sub=RP, **more):
    return {"trust_mark_type": KIND, "trust_mark": by(who, MARK, {"iss": who, "sub": sub, "trust_mark_type": KIND, "iat": IAT - 100, **more})}


def chain(iat=IAT):
    """The leaf's configuration, the anchor's statement about it, and the anchor's configuration: they end at different moments."""
    begin, end = iat - 100, iat + EXP - IAT
    own = {"iss": RP, "sub": RP, "iat": begin, "exp": end + 4000, "jwks": {"keys": [KEYS[RP]]}, "authority_hints": [TA],
           "metadata": {"openid_relying_party": {"client_name": "A", "grant_types": ["authorization_code", "implicit"]}}}
    about = {"iss": TA, "sub": RP, "iat": begin, "exp": end + 3000, "jwks": {"keys": [KEYS[RP]]},
             "metadata_policy": {"openid_relying_party": {"grant_types": {"subset_of": ["authorization_code"]}}}}
    top = {"iss": TA, "sub": TA, "iat": begin, "exp": end + 2000, "jwks": {"keys": [KEYS[TA]]}, "trust_mark_issuers": {KIND: []}}
    return [by(RP, STATEMENT, own), by(TA, STATEMENT, about), by(TA, STATEMENT, top)]


def asked(text, status, written, *sentences, keys="resolver.keys", anchor=TA, anchor_keys="ta.keys", at=IAT, row=None):
    words = ["check-reply", "--keys", keys, "--anchor", anchor, "--anchor-keys", anchor_keys, *([] if at is None else ["--at", str(at)])]
    ROWS.compare(row or written, run(words, text), (status, written, "".join(f"fed: {it}\n" for it in sentences)))


def refused(text, reason, sentence, **more):
    asked(text, 1, f"refused {reason}\n", sentence, **more)


def check_sound(said):
    """Replies that can be acted on, and the moments at which one can be."""
    for row, metadata in ("all types", METADATA), ("no type", {}):
        text = by(RESOLVER, REPLY, {**said, "metadata": metadata})
        good = f"valid {RP} {EXP}\n{json.dumps(metadata, separators=(',', ':'))}\n"
        asked(text, 0, good, row=row)
        asked(f"{text}\n", 0, good, row=f"{row}, with a line end")
    last = by(RESOLVER, REPLY, {**said, "exp": EXP + 2000})
    asked(last, 0, f"valid {RP} {EXP + 2000}\n{json.dumps(METADATA, separators=(',', ':'))}\n", row="up to the chain's end")
    marks = [mark(TA), mark(ISSUER, exp=EXP), mark(RP, exp=EXP + 1), mark(ISSUER)]
    marked = by(RESOLVER, REPLY, {**said, "trust_marks": marks})
    asked(marked, 0, f"{good_of(said)}unchecked 1\nunchecked 3\n", row="marks of the anchor, of the leaf, and of another")


def good_of(said):
    return f"valid {RP} {said['exp']}\n{json.dumps(said['metadata'], separators=(',', ':'))}\n"


def check_times(said):
    text = by(RESOLVER, REPLY, said)
    for at in IAT - 60, EXP - 1:
        asked(text, 0, good_of(said), at=at, row=f"at {at}")
    for at, date in (IAT - 61, "2027-01-15 07:58:59 UTC"), (EXP, "2027-01-15 09:23:20 UTC"):
        refused(text, "Times", f"the reply isn't current at {at} ({date})", at=at)


def check_text(said):
    form = "standard input: it isn't a text of the type resolve-response+jwt with the claims of a reply"
    for name in said:
        refused(by(RESOLVER, REPLY, {its: value for its, value in said.items() if its != name}), "Form", form, row=f"without {name}")
    refused(by(RESOLVER, STATEMENT, said), "Form", form, row="of another type")
    refused("", "Form", form, row="nothing")
    seal = "the reply isn't signed by a key of --keys: is this the key set of the resolver that gave it?"
    text = by(RESOLVER, REPLY, said)
    refused(text, "Signature", seal, keys="ta.keys")
    refused(text, "Signature", seal, keys="none.keys", row="no key")
    head, claims, signature = text.split(".")
    other = encoded(decoded(claims).replace(b'"A"', b'"B"'))
    refused(f"{head}.{other}.{signature}", "Signature", seal, row="other claims under the signature")


def check_chain(said):
    def sentence(place):
        return f"the reply's chain isn't valid up to {TA} at the moment of the reply: see its text at place {place}, from the leaf's 0 on"

    text = by(RESOLVER, REPLY, said)
    refused(text, "Chain 2 Signature", sentence(2), anchor_keys="other.keys")
    refused(text, "Chain 2 Names", sentence(2).replace(TA, ISSUER), anchor=ISSUER)
    late = {**said, "iat": EXP + 2000, "exp": EXP + 2500}
    refused(by(RESOLVER, REPLY, late), "Chain 2 Times", sentence(2), at=EXP + 2000)
    refused(by(RESOLVER, REPLY, {**said, "trust_chain": []}), "Chain 0 Form", sentence(0))
    forged = by(ISSUER, STATEMENT, json.loads(decoded(said["trust_chain"][1].split(".")[1])))
    refused(by(RESOLVER, REPLY, {**said, "trust_chain": [said["trust_chain"][0], forged, said["trust_chain"][2]]}), "Chain 1 Signature", sentence(1))


def check_claims(said):
    refused(by(RESOLVER, REPLY, {**said, "sub": "https://rp2.example"}), "Subject", "the claim sub isn't the leaf of the reply's chain")
    differs = "the claim metadata isn't what the chain resolves to, for an entity type that it carries"
    own = {"openid_relying_party": {"client_name": "A", "grant_types": ["authorization_code", "implicit"]}}
    for metadata in own, {**METADATA, "openid_provider": {}}, {"openid_relying_party": {"client_name": "A"}}:
        refused(by(RESOLVER, REPLY, {**said, "metadata": metadata}), "Metadata", differs)
    refused(by(RESOLVER, REPLY, {**said, "exp": EXP + 2001}), "End", "the claim exp is later than the end of the reply's chain")


def check_marks(said):
    bad, late = "isn't good for the entity at the moment of the reply", "ends before the reply"
    forged = {**mark(ISSUER), "trust_mark": by(ISSUER, MARK, {"iss": TA, "sub": RP, "trust_mark_type": KIND, "iat": IAT - 100})}
    for reason, what, marks in [
            ("Mark 0 Late", late, [mark(TA, exp=EXP - 1)]), ("Mark 1 Late", late, [mark(TA), mark(ISSUER, exp=EXP - 1)]),
            ("Mark 1 Signature", bad, [mark(ISSUER), forged]), ("Mark 0 Subject", bad, [mark(ISSUER, sub="https://rp2.example")]),
            ("Mark 0 Kind", bad, [{**mark(TA), "trust_mark_type": f"{KIND}2"}]), ("Mark 0 Times", bad, [mark(TA, exp=IAT)]),
            ("Mark 0 Form", bad, [{**mark(TA), "trust_mark": "x.y.z"}])]:
        refused(by(RESOLVER, REPLY, {**said, "trust_marks": marks}), reason, f"the trust mark at place {reason[5]} {what}")


def check_inputs(said):
    text = by(RESOLVER, REPLY, said)
    for keys, anchor_keys in ("no.keys", "ta.keys"), ("resolver.keys", "no.keys"):
        words = ["check-reply", "--keys", keys, "--anchor", TA, "--anchor-keys", anchor_keys, "--at", str(IAT)]
        status, written, told = run(words, text)
        ROWS.compare("a file that isn't there", (status, written, "no.keys" in told), (2, "input\n", True))
    asked("a" * 4194305, 2, "input\n", "standard input has more than 4,194,304 bytes", row="too long")
    now = int(time.time())
    recent = {**said, "iat": now, "exp": now + 1000, "trust_chain": chain(now)}
    asked(by(RESOLVER, REPLY, recent), 0, good_of(recent), at=None, row="now")


def check_claims_alone(said):
    text = by(RESOLVER, REPLY, said)
    payload = decoded(text.split(".")[1]).decode()
    ROWS.compare("the claims of a reply", run(["show", "--claims", "yes"], text), (0, f"{payload}\n", ""))
    leaf = said["trust_chain"][0]
    ROWS.compare("those of a statement", run(["show", "--claims", "yes"], f"{leaf}\n"), (0, f"{decoded(leaf.split('.')[1]).decode()}\n", ""))
    odd = by(RESOLVER, "x+jwt", {"a": 1.5, "b": "\u202e", "c": 12345678901234567890123})
    ROWS.compare("numbers of any kind", run(["show", "--claims", "yes"], odd), (0, f"{decoded(odd.split('.')[1]).decode()}\n", ""))
    object_wanted = "fed: standard input: the claims aren't a JSON object\n"
    ROWS.compare("a list", run(["show", "--claims", "yes"], by(RESOLVER, "x+jwt", [1])), (1, "refused Tree\n", object_wanted))
    ROWS.compare("a list in a mark", run(["show", "--claims", "yes"], by(RESOLVER, MARK, [1])), (1, "refused Tree\n", object_wanted))
    parts = "fed: standard input: the text isn't three parts with full stops between them\n"
    of_json = "fed: standard input: the text begins as JSON does, and is no signed text\n"
    for given, why in ("x", parts), (json.dumps(said["trust_chain"][:0]), of_json), (json.dumps({"keys": []}), of_json):
        ROWS.compare(f"{given[:20]!r} for its claims", run(["show", "--claims", "yes"], given), (1, "refused Parts\n", why))


def main():
    subprocess.run([f"{TOP}/fed", "--version"], check=True, capture_output=True)
    with tempfile.TemporaryDirectory() as place:
        os.chdir(place)
        for name, keys in FILES.items():
            with open(name, "w", encoding="utf-8") as it:
                json.dump({"keys": keys}, it)
        said = {"iss": RESOLVER, "sub": RP, "iat": IAT, "exp": EXP, "metadata": METADATA, "trust_chain": chain()}
        for check in check_sound, check_times, check_text, check_chain, check_claims, check_marks, check_inputs, check_claims_alone:
            check(said)
        os.chdir(TOP)
    return ROWS.end()


if __name__ == "__main__":
    sys.exit(main())
