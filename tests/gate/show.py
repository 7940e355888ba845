#!/usr/bin/env python3
"""What `fed show`, `fed public`, `fed check-config` and `fed help` write, whole, with the built program. What is wanted is worked out here: texts are
taken apart and shown by this file's own few lines, and thumbprints are those of RFC 7638 and RFC 8037, or made by hashlib. It prints what differs
and fails where anything does."""

import base64
import datetime
import hashlib
import json
import os
import re
import subprocess
import sys
import tempfile

sys.dont_write_bytecode = True
sys.path.insert(0, f"{os.path.dirname(os.path.dirname(os.path.abspath(__file__)))}/lib")
from laid import TOP  # noqa: E402
from program import FED, Rows, run  # noqa: E402

AT = 1800000000
STATEMENT, ALGORITHM, FAST = "entity-statement+jwt", "SLH-DSA-SHA2-128s", "SLH-DSA-SHA2-128f"
LAST = "nothing was verified\n"
ROWS = Rows("show", 2000)
compare = ROWS.compare


def answers(row, words, given, status, text):
    compare(row, run(words, given)[:2], (status, text))


# ---- values as they are shown

class Odd:
    """A number whose value isn't kept."""


def number(text):
    value = int(text)
    return Odd if text == "-0" or not -(1 << 63) <= value < 1 << 64 else value


def read(text):
    return json.loads(text, parse_int=number, parse_float=lambda _: Odd)


def date(moment):
    """Gives the date of a moment; dates come again after 146,097 days, which are 400 years."""
    again, rest = divmod(moment, 146097 * 86400)
    at = datetime.datetime.fromtimestamp(rest, datetime.timezone.utc)
    return f"{moment} ({at.year + 400 * again:04}-{at:%m-%d %H:%M:%S} UTC)"


def quoted(text):
    data = text.encode()
    calm = not re.search(rb"\xc2[\x80-\x9f]|\xd8\x9c|\xe2[\x80-\x81]", data)
    shown = ""
    for byte in data:
        if byte in b'"\\':
            shown += "\\" + chr(byte)
        elif 32 <= byte < 127:
            shown += chr(byte)
        else:
            shown += bytes([byte]).decode("latin-1") if calm and byte >= 128 else f"\\x{byte:02x}"
    # bytes that stand as they are are those of UTF-8
    return f'"{shown.encode("latin-1").decode()}"'


COVERED = {"RSA": ["e", "kty", "n"], "EC": ["crv", "kty", "x", "y"], "OKP": ["crv", "kty", "x"], "AKP": ["alg", "kty", "pub"]}
TOLD = ["alg", "crv", "exp", "iat", "kid", "kty", "nbf", "revoked", "use"]


def base64url(given):
    return base64.urlsafe_b64encode(given).decode().rstrip("=")


def thumbprint(key):
    covered = {its: key[its] for its in COVERED[key["kty"]]}
    return base64url(hashlib.sha256(json.dumps(covered, sort_keys=True, separators=(",", ":")).encode()).digest())


def view(value):
    if isinstance(value, list):
        return [view(it) for it in value]
    if not isinstance(value, dict):
        return value
    seen = {name: view(value[name]) for name in sorted(value, key=str.encode)}
    if not isinstance(seen.get("kty"), str):
        return seen
    told = {name: its for name, its in seen.items() if name in TOLD}
    if all(isinstance(seen.get(name), str) for name in COVERED.get(seen["kty"], [None])):
        told["thumbprint"] = thumbprint(seen)
    return told


def lines(value, depth=0, name=""):
    inside, outside = "  " * (depth + 1), "  " * depth
    if value is Odd:
        return "(a number that isn't whole)"
    if isinstance(value, str):
        return quoted(value)
    if isinstance(value, (list, dict)) and not value:
        return "[]" if isinstance(value, list) else "{}"
    if isinstance(value, list):
        return "[\n" + ",\n".join(inside + lines(it, depth + 1) for it in value) + f"\n{outside}]"
    if isinstance(value, dict):
        return "{\n" + ",\n".join(f"{inside}{quoted(its)}: {lines(it, depth + 1, its)}" for its, it in value.items()) + f"\n{outside}}}"
    if name in ("exp", "iat", "nbf", "revoked_at") and type(value) is int and 0 <= value < 1 << 62:
        return date(value)
    return json.dumps(value)


def shown(value):
    return lines(view(value))


def part(text):
    try:
        data = base64.b64decode(text + "=" * (-len(text) % 4), "-_", validate=True)
    except ValueError:
        return None
    return data if base64url(data) == text else None


def sections(text):
    said = ""
    for title, piece in zip(("header", "claims"), text.split(".")):
        data = part(piece)
        try:
            said += f"{title} {shown(read(data.decode()))}\n"
        except (AttributeError, ValueError):
            pass
    return said


# ---- signed texts

HEADER = {"alg": ALGORITHM, "kid": "k", "typ": STATEMENT}


def unsigned(claims, **header):
    """Gives a text of these claims, or of these bytes, with a signature of the right length that nobody made."""
    header = {its: it for its, it in {**HEADER, **header}.items() if it is not None}
    payload = claims if isinstance(claims, bytes) else json.dumps(claims).encode()
    return ".".join([base64url(json.dumps(header).encode()), base64url(payload), "A" * 10475])


OWN = {"iss": "https://rp.example", "sub": "https://rp.example", "iat": AT, "exp": AT + 3600, "jwks": {"keys": []}}
ABOUT = {**OWN, "iss": "https://im.example"}
MARK = {"iss": "https://tm.example", "sub": "https://rp.example", "trust_mark_type": "https://tm.example/good", "iat": AT}


def found(row, text, status, what):
    answers(row, "show", text, status, f"{sections(text)}{what}\n{LAST}")


def check_texts():
    with open(f"{TOP}/examples/rp.jwt", encoding="utf-8") as it:
        text = it.read().strip()
    found("the example", text, 0, "configuration of https://rp.example")
    answers("the example with a line end", "show", text + "\r\n", 0, f"{sections(text)}configuration of https://rp.example\n{LAST}")
    found("a number that isn't whole, in a claim that nobody knows", unsigned({**OWN, "x": 1.5}), 0, "configuration of https://rp.example")
    found("a statement", unsigned(ABOUT), 0, "statement of https://im.example about https://rp.example")
    found("a mark", unsigned(MARK, typ="trust-mark+jwt"), 0,
          'trust mark "https://tm.example/good" for https://rp.example by https://tm.example')
    found("a delegation", unsigned(MARK, typ="trust-mark-delegation+jwt"), 0,
          'delegation of "https://tm.example/good" to https://rp.example by https://tm.example')
    told = {"iss": "https://tm.example", "iat": AT, "trust_mark": "a.b.c", "status": "revoked"}
    found("a status", unsigned(told, typ="trust-mark-status-response+jwt"), 0, "trust mark revoked by https://tm.example")
    party = {"iss": "https://op.example", "sub": "https://rp.example"}
    found("a registration", unsigned(party, typ=REGISTRATION), 0, "registration of https://rp.example by https://op.example")
    for row, claims in [("without a sub", {"iss": "https://op.example"}), ("without an iss", {"sub": "https://rp.example"}), ("that is a list", [party]),
                        ("by no identifier", {**party, "iss": "op"}), ("of no identifier", {**party, "sub": "https://rp.example?x"}), ("that isn't JSON", b"{")]:
        found(f"a registration {row}", unsigned(claims, typ=REGISTRATION), 0, f'signed text of type "{REGISTRATION}"')
    found("another type", unsigned({"x": 1}, typ='a"b'), 0, 'signed text of type "a\\"b"')
    found("no type", unsigned([1], typ=None), 0, "signed text without a type")


REPLY = "resolve-response+jwt"
REGISTRATION = "explicit-registration-response+jwt"


def check_replies():
    """Replies hold the texts of a chain and may be longer than any other text: here as if all were signed by the algorithm of long signatures."""
    signed = [".".join([base64url(json.dumps({**HEADER, "alg": FAST}).encode()), base64url(json.dumps(OWN).encode()), "A" * 22784]) for _ in range(14)]
    claims = {**OWN, "metadata": {}, "trust_chain": signed}
    for row, typ, more in [("a reply of 14 texts", REPLY, {}), ("one with more of megabytes", REPLY, {"metadata": {"x": {"y": "a" * 2500000}}})]:
        text = unsigned({**claims, **more}, typ=typ, alg=FAST)
        compare(f"{row}: its length", 440000 < len(text) < 4194304, True)
        found(row, text, 0, f'signed text of type "{REPLY}"')
    found("a registration of 14 texts", unsigned(claims, typ=REGISTRATION, alg=FAST), 0, "registration of https://rp.example by https://rp.example")
    long = {"x": "a" * 240000}
    for row, text in [("a long statement", unsigned({**OWN, **long})), ("a long mark", unsigned({**MARK, **long}, typ="trust-mark+jwt")),
                      ("a long text of another type", unsigned(long, typ="x")), ("one of no type", unsigned(long, typ=None)),
                      ("a long reply of four parts", unsigned(long, typ=REPLY) + ".AA"),
                      ("a long registration of four", "e30." + unsigned(long, typ=REGISTRATION)),
                      ("one with another algorithm", unsigned(long, typ=REPLY, alg="RS256"))]:
        found(row, text, 1, "refused TooLong")


def check_faults():
    without = lambda claims, its: {name: it for name, it in claims.items() if name != its}
    rows = [
        ("empty", "", "Parts"), ("two parts", "a.b", "Parts"), ("four parts", "a.b.c.d", "Parts"), ("too long", "a" * 262145, "TooLong"),
        ("a header that isn't base64url", "=.e30.AA", "Base64 0"), ("a payload that isn't", "e30.e30=.AA", "Base64 1"),
        ("a signature that isn't", unsigned(OWN) + "=", "Base64 2"), ("a header that is a list", f"{base64url(b'[]')}.e30.AA", "Header"),
        ("crit", unsigned(OWN, crit=["x"]), "Crit"), ("another algorithm", unsigned(OWN, alg="RS256"), "Algorithm"),
        ("claims that are a list", unsigned([]), "Tree"), ("claims that aren't JSON", unsigned(b"{"), "Tree"),
        ("no exp", unsigned(without(OWN, "exp")), "Missing exp"), ("exp as a text", unsigned({**OWN, "exp": "1"}), "Shape exp"),
        ("a number that isn't whole, in metadata", unsigned({**OWN, "metadata": {"a": {"b": 1.5}}}), "Shape metadata"),
        ("a claim that must be understood", unsigned({**OWN, "crit": ["a\u202eb"]}), 'Critical "a\\xe2\\x80\\xaeb"'),
        ("keys that are a list", unsigned({**OWN, "jwks": []}), "Keys NotSet"),
        ("a key without a type", unsigned({**OWN, "jwks": {"keys": [{"kty": "RSA"}, {}]}}), "Keys Shape 1"),
        ("one kid twice", unsigned({**OWN, "jwks": {"keys": [{"kty": "a", "kid": "k"}] * 2}}), "Keys DoubleKid 1"),
        ("hints about another", unsigned({**ABOUT, "authority_hints": ["https://a.example"]}), "Misplaced authority_hints"),
        ("a mark without a type", unsigned(without(MARK, "trust_mark_type"), typ="trust-mark+jwt"), "Missing trust_mark_type"),
        ("a mark that ends with a text", unsigned({**MARK, "exp": "1"}, typ="trust-mark+jwt"), "Shape exp"),
        ("a delegation that is a list", unsigned([], typ="trust-mark-delegation+jwt"), "Tree"),
        ("a status of another word", unsigned({"iss": "https://a.example", "iat": 1, "trust_mark": "", "status": "x"},
                                              typ="trust-mark-status-response+jwt"), "Shape status"),
    ]
    for row, text, reason in rows:
        found(row, text, 1, f"refused {reason}")


def check_values():
    claims = b"""{"z":[],"a":{},"exp":1e3,"iat":-0,"nbf":18446744073709551616,"b":[null,true,false,-5,{"exp":0,"iat":4611686018427387903,
        "nbf":4611686018427387904,"revoked_at":1800000000,"exp2":1}],"t":"q\\"\\\\\\u0007\\n\\u007f","n":"\xc3\xbc\xf0\x9f\x98\x80","c":"\xc3\xbc\\u009b[2J",
        "d":"\\u2066x","e\\u0000":1,"f":"\xc3\xbc\\u061cx","g":"\xd8\x9b\xd9\x9c","z":[[[]],[{}],{"exp":"1800000000"}]}"""
    found("values", unsigned(claims, typ="x"), 0, 'signed text of type "x"')
    deep = [*range(2000), "a\nb", {"exp": AT}]
    for level in range(100):
        deep = {"iat": deep, "x": []} if level % 2 else [deep, {}, level]
    found("a long list many levels deep", unsigned({"a": deep}, typ="x"), 0, 'signed text of type "x"')
    for moment in (0, 951782399, 951782400, 951868800, 4107542400, 13574563200, (1 << 62) - 1):
        found(f"the moment {moment}", unsigned({"exp": moment}, typ="x"), 0, 'signed text of type "x"')


KEYS = [
    {"kty": "RSA", "e": "AQAB", "alg": "RS256", "kid": "2011-04-29", "d": "secret", "p": "secret",
     "n": "0vx7agoebGcQSuuPiLJXZptN9nndrQmbXEps2aiAFbWhM78LhWx4cbbfAAtVT86zwu1RK7aPFFxuhDR1L6tSoc_BJECPebWKRXjBZCiFV4n3oknjhMstn64tZ_2W-5JsGY4Hc"
          "5n9yBXArwl93lqt7_RN5w6Cf0h4QyQ5v-65YGjQR0_FDW2QvzqY368QQMicAtaSqzs8KJZgnYb9c7d0zgdAZHzu6qMQvRL5hajrn1n91CbOpbISD08qNLyrdkt-bFTWhAI4vMQFh"
          "6WeZu0fM4lFd2NcRwr3XPksINHaQ-G_xBniIqbw0Ls1jF44-csFCur-kEgU8awapJzKnqDKgw"},
    {"kty": "OKP", "crv": "Ed25519", "x": "11qYAYKxCrfVS_7TyWQHOg7hcvPapiMlrwIaaPcHURo"},
    {"kty": "EC", "crv": "P-256", "x": "f83OJ3D2xF1Bg8vub9tLe1gHMzV76e8Tus9uPHvRVEU", "y": "x_FEzRu9m36HLN_tue659LNpXW6pCyStikYjKIWI5a0", "use": "sig"},
    {"kty": "oct", "k": "secret", "kid": "o"},
    {"kty": "EC", "crv": "P-256", "x": "f83OJ3D2xF1Bg8vub9tLe1gHMzV76e8Tus9uPHvRVEU", "kid": "half"},
]


def check_key_sets():
    compare("the thumbprint of RFC 7638 section 3.1", thumbprint(KEYS[0]), "NzbLsXh8uDCcd-6MNwXF4W_7noWXFZAfHkxZsRGC9Xs")
    compare("the thumbprint of RFC 8037 appendix A.3", thumbprint(KEYS[1]), "kPrK_qmxVWaYVA9wwBF6Iuo3vVzz7TxHCTwXBygrS4k")
    with open(f"{TOP}/examples/ta.keys.json", encoding="utf-8") as it:
        example = json.load(it)
    for row, tree in [("the example", example), ("keys of others", {"keys": KEYS, "else": "secret"}), ("no keys", {"keys": []})]:
        wanted = shown({"keys": tree["keys"]})
        answers(row, "show", json.dumps(tree), 0, f"{wanted}\nkey set of {len(tree['keys'])}\n{LAST}")
        compare(f"{row}: no secret", "secret" in wanted, False)
    for row, tree, reason in [("an object", {"seeds": "secret"}, "NotSet"), ("a ring", {"keys": [{"seeds": "secret"}], "version": 1}, "Shape 0"),
                              ("one key", KEYS[0], "NotSet"), ("one kid twice", {"keys": [KEYS[0], KEYS[1], KEYS[0]]}, "DoubleKid 2")]:
        answers(row, "show", json.dumps(tree), 1, f"refused {reason}\n{LAST}")


def check_chains():
    with open(f"{TOP}/examples/rp.chain.json", encoding="utf-8") as it:
        texts = json.load(it)
    what = ["configuration of https://rp.example", "statement of https://im.example/fed about https://rp.example",
            "statement of https://ta.example about https://im.example/fed", "configuration of https://ta.example"]

    def chain(texts, what):
        return "".join(f"text {at}\n{sections(text)}{its}\n" for at, (text, its) in enumerate(zip(texts, what))) + f"chain of {len(texts)}\n{LAST}"

    answers("the example", "show", json.dumps(texts), 0, chain(texts, what))
    answers("one that is cut", "show", json.dumps([texts[0], "x", texts[1]]), 1, chain([texts[0], "x", texts[1]], [what[0], "refused Parts", what[1]]))
    answers("none", "show", "[]", 0, f"chain of 0\n{LAST}")
    for given in ("[1]", "null", '"a"', "1", '["a",[]]'):
        answers(f"{given}", "show", given, 2, "input\n")
    answers("a long input", "show", b"a" * 4194305, 2, "input\n")


# ---- rings

def seeds(number):
    return f"{number:096x}"


def made(ring, number, exp=2000000000):
    return json.loads(run(f"keygen --ring {ring} --at 1 --exp {exp}", seeds(number))[1])


def check_public():
    first = made("r", 1)
    added = [run("rotate --ring r --act add --at 1 --exp 1900000000", seeds(i))[1].strip() for i in (2, 3, 4)]
    run(f"rotate --ring r --act retire --kid {first['kid']}")
    run(f"rotate --ring r --act revoke --kid {added[1]} --at 5 --reason compromised")
    one = {number: made(f"r{number}", number) for number in (2, 3, 4)}
    dump = lambda tree: json.dumps(tree, separators=(",", ":"), sort_keys=True) + "\n"
    answers("the live keys, newest first", "public --ring r", "", 0, dump({"keys": [one[4], one[2]]}))
    answers("a live key", f"public --ring r --kid {added[0]}", "", 0, dump(one[2]))
    answers("its words the other way round", f"public --kid {added[2]} --ring r", "", 0, dump(one[4]))
    answers("a retired key", f"public --ring r --kid {first['kid']}", "", 0, dump({**first, "exp": 2000000000}))
    answers("a revoked key", f"public --ring r --kid {added[1]}", "", 0,
            dump({**one[3], "exp": 1900000000, "revoked": {"reason": "compromised", "revoked_at": 5}}))
    answers("no such key", "public --ring r --kid x", "", 1, "refused Unknown\n")
    answers("no such file", "public --ring no", "", 2, "input\n")
    with open("keys.json", "w", encoding="utf-8") as it:
        it.write(run("public --ring r4")[1])
    sealed = run(f"issue --ring r4 --typ {STATEMENT}", json.dumps({**OWN, "jwks": {"keys": [one[4]]}}))[1].strip()
    compare("check reads what public writes", run(f"check --anchor https://rp.example --keys keys.json --at {AT}", json.dumps([sealed]))[1],
            f"valid https://rp.example {AT + 3600}\n{{}}\n")
    for words in ("public", "public --ring", "public --ring r --kid", "public --ring r --at 1", "public --ring r --ring r", "public r"):
        answers(words, words, "", 2, "words\n")


# ---- configurations

def make(name, tree):
    with open(name, "w", encoding="utf-8") as it:
        it.write(tree if isinstance(tree, str) else json.dumps(tree))


def check_versions():
    """A ring file of version 1 is used as one of version 2, and stays as it is; a key of the second algorithm is told as that."""
    key, words = made("new.ring", 21), "keygen --ring fast.ring --at 1 --exp 2000000000 --alg 128f"
    fast = json.loads(run(words, seeds(21))[1])
    with open("new.ring", encoding="utf-8") as it:
        one = json.load(it)["keys"][0]
    old = json.dumps({"keys": [{name: one[name] for name in one if name != "alg"}], "version": 1})
    make("old.ring", old)
    os.chmod("old.ring", 0o600)
    for name in ("old", "new", "fast"):
        make(f"{name}.json", {"entity_id": "https://ta.example", "ring": f"{name}.ring", "lifetime": 60})
    for words in ("public --ring @.ring", f"public --ring @.ring --kid {key['kid']}", "check-config --config @.json",
                  f"issue --ring @.ring --typ {STATEMENT}"):
        compare(f"{words}, of either version", run(words.replace("@", "old"), json.dumps(OWN)), run(words.replace("@", "new"), json.dumps(OWN)))
    with open("old.ring", encoding="utf-8") as it:
        compare("a ring file of version 1 stays", it.read(), old)
    told = run("check-config --config fast.json")[1].split("\n")
    compare("a key of 128f", [line for line in told if line.startswith("key ")],
            [f"key {fast['kid']} SLH-DSA-SHA2-128f live until {date(2000000000)}"])
    compare("the seeds in both algorithms", (key["alg"], fast["alg"], key["kid"] == fast["kid"]), ("SLH-DSA-SHA2-128s", "SLH-DSA-SHA2-128f", False))


def check_configs():
    key = made("node.ring", 8, AT + 2000000)
    node = {"entity_id": "https://ta.example", "ring": "node.ring", "lifetime": 86400}
    kid = key["kid"]
    own = f"key {kid} {ALGORITHM} live until {date(AT + 2000000)}\n"
    soon = f"ends soon: key {kid} {date(AT + 2000000)}\n"
    always = ["/historical-keys", "/trust-mark-status"]

    def served(entity, paths):
        return "".join(f"serves {entity}{path}\n" for path in ["/.well-known/openid-federation", *paths])

    def told(row, tree, at, text):
        make("node.json", tree)
        answers(row, f"check-config --config node.json --at {at}", "", 0, text)

    def refused(row, tree, text, status=1):
        make("node.json", tree)
        answers(row, "check-config --config node.json --at 1", "", status, text)

    head = "entity https://ta.example\nlifetime 86400\n"
    told("a node", node, AT, head + own + served("https://ta.example", always) + soon)
    for at, end in [(AT + 2000000 - 2592000, soon), (AT + 2000000 - 2592001, ""), (AT + 1999999, soon), (AT + 2000000, soon.replace("ends soon", "ended"))]:
        told(f"its key at {at}", node, at, head + own + served("https://ta.example", always) + end)
    mark = {**MARK, "sub": "https://ta.example/x/", "exp": AT + 100}
    marks = [{"trust_mark_type": MARK["trust_mark_type"], "trust_mark": unsigned(its, typ="trust-mark+jwt")} for its in (mark, {**mark, "exp": None})]
    del marks[1]
    marks.append({"trust_mark_type": MARK["trust_mark_type"], "trust_mark": unsigned({**MARK, "sub": "https://ta.example/x/"}, typ="trust-mark+jwt")})
    resolver = {"anchors": [{"entity_id": "https://a.example", "jwks": {"keys": []}}], "age": 60, "workers": 1, "control": {"keys": []},
                "routes": [{"host": "im.example", "ip": "192.0.2.10", "port": 8301}]}
    below = [{"entity_id": f"https://{its}.example", "jwks": {"keys": []}} for its in ("im", "rp")]
    whole = {**node, "entity_id": "https://ta.example/x/", "lifetime": 60, "trust_marks": marks, "subordinates": below, "resolver": resolver}
    good = '"https://tm.example/good" by https://tm.example'
    told("a node with all", whole, AT, "entity https://ta.example/x/\nlifetime 60\n" + own
         + f"mark {good} until {date(AT + 100)}\nmark {good} without an end\nsubordinate https://im.example\nsubordinate https://rp.example\n"
         + 'anchor https://a.example depth 12 calls 160 paths 4096\nroute "im.example" to 192.0.2.10:8301\n'
         + served("https://ta.example/x", ["/fetch", "/list", "/resolve", *always]) + soon + f"ends soon: mark {good} {date(AT + 100)}\n")
    second = run(f"rotate --ring node.ring --act add --at 1 --exp {AT * 2}", seeds(9))[1].strip()
    third = run(f"rotate --ring node.ring --act add --at 1 --exp {AT}", seeds(10))[1].strip()
    run(f"rotate --ring node.ring --act retire --kid {kid}")
    run(f"rotate --ring node.ring --act revoke --kid {third} --at 77 --reason superseded")
    told("keys in each state", node, AT, head + f"key {third} {ALGORITHM} revoked since {date(77)}, superseded\n"
         f"key {second} {ALGORITHM} live until {date(AT * 2)}\nkey {kid} {ALGORITHM} retired until {date(AT + 2000000)}\n" + served("https://ta.example", always))
    # faults, in their order
    for member in ["entity_id", "ring", "lifetime", "metadata", "authority_hints", "trust_marks", "trust_mark_issuers", "trust_mark_owners", "subordinates",
                   "revoked_marks", "resolver"]:
        refused(f"a faulty {member}", {**node, "ring": "no", member: 0}, f"refused {member} Shape\n")
    refused("an empty object", {}, "refused entity_id Shape\n")
    refused("a list", [], "refused entity_id Shape\n")
    refused("no JSON", "{", "input\n", 2)
    answers("no file", "check-config --config no", "", 2, "input\n")
    make("bad.ring", "{}")
    make("long.ring", "a" * 4194305)
    with open("node.ring", encoding="utf-8") as it:
        kept = json.load(it)
    make("twice.ring", json.dumps({**kept, "keys": kept["keys"] + kept["keys"][1:2]}))
    for ring, fault in [("no", "Absent"), ("long.ring", "TooLong"), ("bad.ring", "Shape"), ("twice.ring", "Known")]:
        refused(f"the ring {ring}", {**node, "ring": ring, "trust_marks": [{"trust_mark_type": "t", "trust_mark": "x"}]}, f"refused ring {fault}\n")
    refused("long metadata", {**node, "metadata": {"a": {"b": "x" * 179000}}}, "refused metadata TooLong\n")
    refused("a long statement", {**node, "subordinates": [{**below[0], "metadata": {"a": {"b": "x" * 179000}}}]}, "refused subordinates TooLong\n")
    entry = lambda claims, typ="https://tm.example/good": {"trust_mark_type": typ, "trust_mark": unsigned(claims, typ="trust-mark+jwt")}
    own = {**MARK, "sub": "https://ta.example"}
    refused("a mark that is none", {**node, "trust_marks": [entry(own), {"trust_mark_type": "t", "trust_mark": "x"}]}, "refused trust_marks 1 Form\n")
    refused("a mark of another", {**node, "trust_marks": [entry(MARK)]}, "refused trust_marks 0 Names\n")
    refused("a mark of another type", {**node, "trust_marks": [entry(own), entry(own), entry(own, "t")]}, "refused trust_marks 2 Names\n")
    for words in ("check-config", "check-config --config", "check-config --config c --at", "check-config --config c --at 01", "check-config --config c --ring r"):
        answers(words, words, "", 2, "words\n")
    make("node.json", node)
    status, text, _ = run("check-config --config node.json")
    compare("without a moment", (status, text.startswith(head)), (0, True))


# ---- the outside

def check_outside():
    os.mkdir("folder")
    made("whole.ring", 20)
    make("whole.json", {"entity_id": "https://ta.example", "ring": "whole.ring", "lifetime": 60})
    make("torn.json", {"entity_id": "https://ta.example", "ring": "folder", "lifetime": 60})
    for words in ("public --ring folder", "check-config --config folder", "check-config --config torn.json"):
        answers(f"{words}, a folder", words, "", 6, "")
    folder = os.open("folder", os.O_RDONLY)
    done = subprocess.run([FED, "show"], stdin=folder, capture_output=True, check=False)
    compare("a folder as input", (done.returncode, done.stdout), (3, b""))
    os.close(folder)
    full = os.open("/dev/full", os.O_WRONLY)
    for words in ("public --ring whole.ring", "check-config --config whole.json", "show", "help show", "--version"):
        done = subprocess.run([FED, *words.split(" ")], input=b"[]", stdout=full, stderr=subprocess.PIPE, check=False)
        compare(f"{words}, a full disk", done.returncode, 4)
    os.close(full)


# ---- help

def check_help():
    _, _, err = run([])
    usages = re.findall("^fed: usage: (.*)$", err, re.M)
    commands = list(dict.fromkeys(usage.split()[1] for usage in usages[:-1]))
    for command in commands:
        status, page, err = run(["help", command])
        compare(f"help {command}: status and faults", (status, err), (0, ""))
        called = [usage for usage in usages if usage.split()[1] == command]
        compare(f"help {command}: how it is called", page.split("\n")[:len(called) + 1], [*called, ""])
        compare(f"help {command}: its parts", re.findall(r"^(\w+) +", page.split("\n\n", 2)[2], re.M), ["argument" if command in ("verify", "help") else "options", "input", "output", "status", "example"])
        compare(f"help {command}: its longest line", max(map(len, page.split("\n"))) <= 80 and page.isascii(), True)
        text = page[page.index("\nexample  ") + 10:]
        if "examples/" in text:
            done = subprocess.run(["bash", "-c", f"set -e; {text}"], cwd=TOP, capture_output=True, check=False,
                                  env={**os.environ, "PATH": f"{TOP}:{os.environ['PATH']}"})
            compare(f"help {command}: its example", (done.returncode, done.stderr), (0, b""))
    for words in ("help nosuch", "help verify check", "help --help", "help"):
        answers(words, words, "", 2, "words\n")
    whole = run("--help")[1]
    compare("--help is one page", (whole.count("\n") < 50, max(map(len, whole.split("\n"))) <= 80), (True, True))
    compare("--help has each command", [its for its in commands if not re.search(rf"^{its}\b", whole, re.M)], [])
    version = run("--version")[1].split("\n")
    compare("--version", [bool(re.fullmatch(form, line)) for form, line in zip(
        [r"fed \d+\.\d+\.\d+", r"commit (unknown|[0-9a-f]{40}( with changes)?)", r"target x86-64(-v3)?", ""], version)], [True] * len(version))
    compare("--version: how many lines", len(version), 4)


def main():
    subprocess.run([f"{TOP}/fed", "--version"], check=True, capture_output=True)
    with tempfile.TemporaryDirectory() as place:
        os.chdir(place)
        check_texts()
        check_replies()
        check_faults()
        check_values()
        check_key_sets()
        check_chains()
        check_public()
        check_versions()
        check_configs()
        check_outside()
        check_help()
        os.chdir(TOP)
    return ROWS.end()


if __name__ == "__main__":
    sys.exit(main())
