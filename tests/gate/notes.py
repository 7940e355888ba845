#!/usr/bin/env python3
"""Mistakes that a person makes, one a row: the whole of what the program writes to standard output, its status, and each sentence on standard
error. The first two are what scripts read. It prints what differs, and fails where anything does.
"""

import base64
import datetime
import json
import os
import pty
import subprocess
import sys
import tempfile

sys.dont_write_bytecode = True
sys.path.insert(0, f"{os.path.dirname(os.path.dirname(os.path.abspath(__file__)))}/lib")
from laid import TOP  # noqa: E402
from program import ENVIRONMENT, FED, Rows, run  # noqa: E402

AT = 1800000000
LATE = 4000000000
STATEMENT = "entity-statement+jwt"
ROWS = Rows("notes")
compare = ROWS.compare


def said(sentences):
    return "".join(f"fed: {sentence}\n" for sentence in sentences)


def row(words, given, status, written, *sentences):
    """One mistake: the words and the input, and then what is answered."""
    words = words.split(" ") if isinstance(words, str) else words
    compare(words, run(words, given), (status, written, said(sentences)))


def moment(seconds):
    """Gives the moment with its date; dates come again after 146,097 days, which are 400 years."""
    again, rest = divmod(seconds, 146097 * 86400)
    date = datetime.datetime.fromtimestamp(rest, datetime.timezone.utc)
    return f"{seconds} ({date.year + 400 * again:04}-{date:%m-%d %H:%M:%S} UTC)"


# ---- texts and files

def base64url(given):
    return base64.urlsafe_b64encode(given).decode().rstrip("=")


HEADER = {"alg": "SLH-DSA-SHA2-128s", "kid": "k", "typ": STATEMENT}


def unsigned(claims, **header):
    """Gives a text of these claims whose signature is of the right length and verifies under no key."""
    parts = [json.dumps({**HEADER, **header}).encode(), json.dumps(claims).encode()]
    return ".".join([*map(base64url, parts), "A" * 10475])


def name(i):
    return f"https://e{i}.example"


def claims_of(issuer, subject, keys=(), **more):
    return {"iss": name(issuer), "sub": name(subject), "iat": AT, "exp": LATE, "jwks": {"keys": list(keys)}, **more}


def without(claims, claim):
    return {its: value for its, value in claims.items() if its != claim}


def seeds(number):
    return f"{number:096x}"


def make(path, given):
    with open(path, "w", encoding="utf-8") as it:
        it.write(given if isinstance(given, str) else json.dumps(given))


def key_of(ring, number, exp=LATE):
    """Makes a ring of the key of that number, and gives its public key."""
    return json.loads(run(["keygen", "--ring", ring, "--at", "1", "--exp", str(exp)], seeds(number))[1])


def sealed(ring, claims):
    return run(["issue", "--ring", ring, "--typ", STATEMENT], json.dumps(claims))[1].strip()


# ---- words

USAGE = [
    "usage: fed verify PUB < TEXT",
    "usage: fed keygen --ring FILE --at T --exp T [--alg ALG] < SEEDS",
    "usage: fed issue --ring FILE --typ TYP [--workers W] < CLAIMS",
    "usage: fed rotate --ring FILE --act add --at T --exp T [--alg ALG] < SEEDS",
    "usage: fed rotate --ring FILE --act retire --kid KID",
    "usage: fed rotate --ring FILE --act revoke --kid KID --at T --reason R",
    "usage: fed public --ring FILE [--kid KID]",
    "usage: fed check --anchor ID --keys FILE [--at T] < CHAIN",
    "usage: fed check-reply --keys FILE --anchor ID --anchor-keys FILE [--at T] < REPLY",
    "usage: fed show [--claims yes] < TEXT",
    "usage: fed check-config --config FILE [--at T] [--strict yes]",
    "usage: fed authority --config FILE --port P --connections N [--stream yes]",
    "usage: fed resolver --config FILE --port P --connections N",
    "usage: fed resolve --config FILE --sub ID --anchor ID [--heed yes]",
    "usage: fed register --config FILE --anchor ID < POSTED",
    "usage: fed rehearse --params N",
    "usage: fed help COMMAND",
    "usage: fed --help | --version",
]
MOMENT = "a moment in seconds since 1970, below 2^62, in decimal digits without sign and leading zero"
ALGORITHMS = "128s (SLH-DSA-SHA2-128s, small signatures) or 128f (SLH-DSA-SHA2-128f, fast ones)"


def faulty(words, *sentences):
    row(words, "", 2, "words\n", *sentences)


def check_free_words():
    """Options that may be left out: their values, and that each stands once."""
    for words in "keygen --ring r --at 1 --exp 2", "rotate --act add --ring r --at 1 --exp 2":
        for value in "128", "SLH-DSA-SHA2-128f", "128F":
            faulty(f"{words} --alg {value}", f"--alg takes {ALGORITHMS}, and not {value}")
        faulty(f"{words} --alg 128f --alg 128s", "the option --alg stands twice")
        faulty(f"{words} --alg", "the option --alg has no value; it takes ALG")
    faulty("rotate --ring r --act retire --kid k --alg 128f", "the option --alg isn't known to rotate --act retire; see fed --help")
    for value in "0", "17", "01", "+4", "x", "16.0", "-1":
        faulty(f"issue --ring r --workers {value} --typ {STATEMENT}", f"--workers takes a number from 1 to 16, and not {value}")
    faulty(f"issue --workers 4 --ring r --workers 4 --typ {STATEMENT}", "the option --workers stands twice")
    faulty("issue --workers 4 --ring r", "the option --typ TYP is missing")
    faulty("public --ring r --workers 4", "the option --workers isn't known to public; see fed --help")
    served = "--config none.json --port 1 --connections 1"
    resolves = "--config none.json --sub https://rp.example --anchor https://ta.example"
    for verb, words, option, part, missing in (("authority", served, "--stream", "--config c --port 1", "--connections N"),
                                               ("resolve", resolves, "--heed", "--config c --sub https://rp.example", "--anchor ID")):
        for value in "no", "Yes", "1":
            faulty(f"{verb} {words} {option} {value}", f"{option} takes yes, and not {value}")
        faulty(f"{verb} {option} yes {words} {option} yes", f"the option {option} stands twice")
        faulty(f"{verb} {option} yes {part}", f"the option {missing} is missing")
        faulty(f"{verb} {words} {option}", f"the option {option} has no value; it takes yes")
        row(f"{verb} {option} yes {words}", "", 2, "input\n", "none.json isn't there")
    faulty(f"resolver {served} --stream yes",
           "resolver has no --stream: it answers a connection once; authority may keep connections")
    faulty(f"resolver {served} --heed yes", "the option --heed isn't known to resolver; see fed --help")


def check_words():
    faulty([], "no command is given", *USAGE)
    faulty("help cehck", "there is no command cehck; did you mean check?")
    faulty("help frob", "there is no command frob; see fed --help")
    faulty("help verify check", "help takes one word, a command; check is one too many")
    faulty("hepl verify", "there is no command hepl; did you mean help?")
    faulty("--version 1", "--version stands alone; 1 is one word too many")
    faulty("sign", "there is no command sign; see fed --help")
    faulty("verfy", "there is no command verfy; did you mean verify?")
    faulty("Check", "there is no command Check; did you mean check?")
    faulty("CEHCK", "there is no command CEHCK; did you mean check?")
    faulty(["a\x1b[2J"], "there is no command a\\x1b[2J; see fed --help")
    faulty(["verify", b"\xff"], "a word of the command line isn't UTF-8")
    faulty("verify", "verify needs a public key: 43 base64url characters")
    faulty("verify AAAA", "the word behind verify isn't a public key: it has 4 bytes; a public key is 43 base64url characters")
    faulty(f"verify {'A' * 43} x", "verify takes one word, the public key; x is one too many")
    faulty("check --anchr x --keys k", "the option --anchr isn't known to check; did you mean --anchor?")
    faulty("check --anchor https://a.example --key k", "the option --key isn't known to check; did you mean --keys?")
    faulty("check --anchor https://a.example --keys k --ring r", "the option --ring isn't known to check; see fed --help")
    faulty("check --anchor https://a.example --keys", "the option --keys has no value; it takes FILE")
    faulty("check", "the option --anchor ID is missing", "the option --keys FILE is missing")
    faulty("check --keys k --keys k --anchor https://a.example", "the option --keys stands twice")
    faulty("check --keys k --anchor ta.example",
           "--anchor takes a URL that begins with https:// or http://, and not ta.example")
    faulty("check --keys k --anchor https://a.example/?q",
           "--anchor takes a URL without query, fragment and user, and not https://a.example/?q")
    faulty(["check", "--keys", "k", "--anchor", "https://a example"],
           "--anchor takes a URL of at most 2,048 bytes, without spaces and backslashes, and not https://a example")
    for value in ["01", "-1", "1.5", str(1 << 62)]:
        faulty(f"check --keys k --anchor https://a.example --at {value}", f"--at takes {MOMENT}, and not {value}")
    faulty("issue --ring r --typ JWT",
           "--typ takes entity-statement+jwt, trust-mark+jwt or trust-mark-delegation+jwt, and not JWT")
    faulty("issue --ring r", "the option --typ TYP is missing")
    faulty("keygen --ring r --at 1", "the option --exp T is missing")
    faulty("keygen --ring r --at 1 --exp 2 --kid k", "the option --kid isn't known to keygen; see fed --help")
    faulty("rotate --ring r --at 1", "the option --act is missing; it is add, retire or revoke")
    faulty("rotate --ring r --act remove", "--act takes add, retire or revoke, and not remove")
    faulty("rotate --ring r --act retire --kid k --at 1", "the option --at isn't known to rotate --act retire; see fed --help")
    faulty("rotate --ring r --act revoke --kid k --at 1 --reason lost",
           "--reason takes unspecified, compromised or superseded, and not lost")
    faulty("rotate --act add --at 1 --exp 2", "the option --ring FILE is missing")
    faulty("authority --config c", "the option --port P is missing", "the option --connections N is missing")
    faulty("authority --config c --port 65536 --connections 1",
           "--port takes a number from 1 to 65535, and not 65536")
    faulty("authority --config c --port 1 --connections 0",
           "--connections takes a number from 1 to 1,000,000, and not 0")
    faulty("authority --confg c --port 1 --connections 1", "the option --confg isn't known to authority; did you mean --config?")
    row("authority --config none.json --port 1 --connections 1", "", 2, "input\n", "none.json isn't there")
    check_free_words()
    faulty("resolver --config c", "the option --port P is missing", "the option --connections N is missing")
    faulty("resolver --config c --port 1 --connections 1 --workers 4", "the option --workers isn't known to resolver; see fed --help")
    row("resolver --config none.json --port 1 --connections 1", "", 2, "input\n", "none.json isn't there")
    faulty("resolve --config c --sub https://rp.example", "the option --anchor ID is missing")
    faulty("resolve --config c --sub rp --anchor https://ta.example", "--sub takes a URL that begins with https:// or http://, and not rp")
    row("resolve --config none.json --sub https://rp.example --anchor https://ta.example", "", 2, "input\n", "none.json isn't there")
    faulty("register --config c", "the option --anchor ID is missing")
    faulty("register --config c --anchor https://ta.example --sub https://rp.example", "the option --sub isn't known to register; see fed --help")
    row("register --config none.json --anchor https://ta.example", "x", 2, "input\n", "none.json isn't there")


# ---- files

def check_keys_files(key):
    for given, sentence in [
        (key, 'keys.json is one key; a key set is {"keys":[..]}'),
        ("", "keys.json is empty"),
        ("{", "keys.json isn't JSON"),
        ("\ufeff{}", "keys.json isn't JSON: it begins with a byte order mark"),
        ("eyJhbGciOiJub25lIn0.e30.", "keys.json is a signed text and not JSON"),
        ([key], 'keys.json is a list; a key set is {"keys":[..]}'),
        ({}, 'keys.json has no member keys; a key set is {"keys":[..]}'),
        ({"keys": key}, 'keys.json has keys that aren\'t a list; a key set is {"keys":[..]}'),
        ({"keys": [key] * 65}, "keys.json has 65 keys; a key set has 64 at most"),
        ({"keys": [{**key, "priv": "AA"}]}, "keys.json: key 0 has the private part priv; a key set has public keys alone"),
        ({"keys": [without(key, "kid")]}, "keys.json: key 0 has no kid, a text that isn't empty"),
        ({"keys": [without(key, "kty")]}, "keys.json: key 0 has no text kty"),
        ({"keys": [{**key, "pub": "AA"}]}, "keys.json: key 0 has a pub that isn't 43 base64url characters"),
        ({"keys": [key, key]}, f"keys.json: key 1 has the kid of an earlier one: {key['kid']}"),
        ({"keys": [7]}, "keys.json: key 0 isn't an object"),
        (" " * 4194305, "keys.json has more than 4,194,304 bytes"),
    ]:
        make("keys.json", given)
        row("check --anchor https://a.example --keys keys.json", "[]", 2, "input\n", sentence)
    row("check --anchor https://a.example --keys none.json", "[]", 2, "input\n", "none.json isn't there")
    row(["check", "--anchor", "https://a.example", "--keys", ""], "[]", 2, "input\n", 'the file "" isn\'t there')
    row("check --anchor https://a.example --keys .", "[]", 6, "", ". can't be read", ". is a folder, and not a file")


def check_rings(key):
    with open("ring", encoding="utf-8") as it:
        ring = json.load(it)
    one = ring["keys"][0]
    for given, sentence in [
        ({"keys": [key]}, "bad.ring: key 0 has no iat or no exp, moments in seconds since 1970"),
        (key, 'bad.ring isn\'t a ring\'s file, {"keys":[..],"version":2}'),
        ("x", "bad.ring isn't JSON"),
        ({**ring, "keys": []}, "bad.ring has 0 keys; a ring has 1 to 16"),
        ({**ring, "keys": [{**one, "exp": 1}]}, "bad.ring: key 0 has an exp that isn't after its iat"),
        ({**ring, "keys": [{**one, "seeds": "A" * 96}]}, "bad.ring: key 0 has seeds that aren't 96 hexadecimal digits in lower case"),
        ({**ring, "keys": [without(one, "seeds")]}, "bad.ring: key 0 has no seeds"),
        ({**ring, "keys": [without(one, "state")]}, "bad.ring: key 0 has no state"),
        ({**ring, "keys": [one, {**one, "state": "retird"}]}, "bad.ring: key 1 has a state that isn't live, retired or a revocation"),
        ({**ring, "keys": [{**one, "state": {"reason": "lost", "revoked_at": 1}}]},
         "bad.ring: key 0 has a state that isn't live, retired or a revocation"),
        ({**ring, "keys": [{**one, "state": {"reason": "superseded", "revoked_at": 1}}]}, "bad.ring has no live key"),
        ({**ring, "version": 3}, "bad.ring has no version, 1 or 2"),
        ({"keys": ring["keys"]}, "bad.ring has no version, 1 or 2"),
        ({**ring, "version": 1}, "bad.ring: key 0 has an alg, which a ring's file has from version 2 on"),
        ({**ring, "keys": [without(one, "alg")]}, "bad.ring: key 0 has no alg, SLH-DSA-SHA2-128s or SLH-DSA-SHA2-128f"),
        ({**ring, "keys": [{**one, "alg": "128f"}]}, "bad.ring: key 0 has no alg, SLH-DSA-SHA2-128s or SLH-DSA-SHA2-128f"),
        ({**ring, "keys": [{**one, "state": "retired"}]}, "bad.ring has no live key"),
        ({**ring, "keys": [one, one]}, "bad.ring has one key twice, or a member that isn't a ring's"),
        ({**ring, "more": 1}, "bad.ring has one key twice, or a member that isn't a ring's"),
    ]:
        make("bad.ring", given)
        os.chmod("bad.ring", 0o600)
        row(f"issue --ring bad.ring --typ {STATEMENT}", "{}", 2, "input\n", sentence)
    row(f"issue --ring none.ring --typ {STATEMENT}", "{}", 2, "input\n", "none.ring isn't there")
    row("rotate --ring none.ring --act retire --kid k", "", 2, "input\n", "none.ring isn't there")
    row("keygen --ring ring --at 1 --exp 2", seeds(3), 1, "refused Exists\n",
        "ring is there already; keygen makes a new file and changes none")
    make("old.ring", {"keys": [without(one, "alg")], "version": 1})
    os.chmod("old.ring", 0o600)
    row("rotate --ring old.ring --act retire --kid k", "", 1, "refused Unknown\n", "there is no key k in the ring")
    words = ["rotate", "--ring", "old.ring", "--act", "add", "--at", "1", "--exp", "2", "--alg", "128f"]
    added = run(words, seeds(3))
    compare(words, (added[0], len(added[1]), added[2]),
            (0, 44, said([f"warning: the key ended at {moment(2)}", "the change writes old.ring in version 2, which programs before this one don't read"])))
    row(f"rotate --ring old.ring --act retire --kid {added[1].strip()}", "", 0, "done\n")
    row(f"keygen --ring no/such/ring --at 1 --exp {LATE}", seeds(3), 6, "", "no/such/ring can't be kept", "no such folder: no/such")


# ---- inputs

def check_seeds():
    words = "keygen --ring new --at 1 --exp 2"
    row(words, "00" * 47, 2, "input\n", "standard input: it has 94 hexadecimal digits; the seeds of a key are 96")
    row(words, "0" * 40 + "g" * 56, 2, "input\n", "standard input: byte 40 isn't a hexadecimal digit; the seeds of a key are 96")
    row(words, " " * 4194305, 2, "input\n", "standard input has more than 4,194,304 bytes")
    row("keygen --ring new --at 2 --exp 2", seeds(3), 1, "refused Order\n", f"--exp {moment(2)} isn't after --at {moment(2)}")
    row("rotate --ring ring --act add --at 1 --exp 2", "seeds", 2, "input\n",
        "standard input: byte 0 isn't a hexadecimal digit; the seeds of a key are 96")


def check_changes(key):
    kid = key["kid"]
    row("rotate --ring ring --act add --at 1 --exp 2", seeds(1), 1, "refused Known\n", f"the key {kid} is in the ring already")
    row("rotate --ring ring --act add --at 2 --exp 2", seeds(3), 1, "refused Order\n", "the new key would end no later than it begins")
    row("rotate --ring ring --act retire --kid rp-1", "", 1, "refused Unknown\n", "there is no key rp-1 in the ring")
    row(f"rotate --ring ring --act retire --kid {kid}", "", 1, "refused Order\n", "no live key would remain; add a new one first")


def check_claims(key):
    words = f"issue --ring ring --typ {STATEMENT}"
    good = claims_of(0, 0, [key])
    for given, sentence in [
        ("", "standard input is empty"),
        ("{", "standard input isn't JSON"),
        ("eyJhbGciOiJub25lIn0.e30.", "standard input is a signed text and not JSON"),
        ([good], "standard input is a list; claims are an object"),
    ]:
        row(words, given if isinstance(given, str) else json.dumps(given), 2, "input\n", sentence)
    for given, sentence in [
        (without(good, "exp"), "standard input: the claim exp is missing"),
        ({**good, "iss": "e0"},
         "standard input: the claim iss isn't an identifier: a URL of https or http without query, fragment and user (Shape)"),
        ({**good, "iat": "now"},
         "standard input: the claim iat isn't a whole number from 0 to 2^62 - 1, in seconds since 1970 (Shape)"),
        ({**good, "exp": 1.5}, "standard input: the claim exp holds a number with a fraction, an exponent or too many digits, or -0"),
        ({**good, "crit": ["x"]}, "standard input: x must be understood, and fed doesn't know it (Critical)"),
        ({**good, "constraints": {}},
         "standard input: the claim constraints is for statements about subordinates, in which iss isn't sub (Misplaced)"),
        (claims_of(1, 0, authority_hints=[name(2)]),
         "standard input: the claim authority_hints is for configurations, in which iss is sub (Misplaced)"),
        ({**good, "authority_hints": []}, "standard input: the claim authority_hints isn't a list of 1 to 32 identifiers (Shape)"),
        (claims_of(1, 0, jwks=key), 'standard input: the claim jwks is one key; a key set is {"keys":[..]}'),
        (claims_of(1, 0, [key, 1]), "standard input: the claim jwks: key 1 isn't an object"),
    ]:
        row(words, json.dumps(given), 1, "refused Form\n", sentence)
    row(words, json.dumps({**good, "x": "a" * 179000}), 1, "refused TooLong\n",
        f"standard input: the claims have {len(json.dumps(good, separators=(',', ':'))) + 179007} bytes as compact JSON; 179,000 are sealed at most")
    mark = {"iss": name(1), "sub": name(0), "iat": AT, "trust_mark_type": "https://m.example"}
    for typ, given, sentence in [
        ("trust-mark+jwt", without(mark, "trust_mark_type"), "standard input: the claim trust_mark_type is missing"),
        ("trust-mark+jwt", {**mark, "delegation": 1}, "standard input: the claim delegation isn't a text (Shape)"),
        ("trust-mark-delegation+jwt", {**mark, "exp": "x"},
         "standard input: the claim exp isn't a whole number from 0 to 2^62 - 1, in seconds since 1970 (Shape)"),
    ]:
        row(f"issue --ring ring --typ {typ}", json.dumps(given), 1, "refused Form\n", sentence)


def check_verify(key):
    words = f"verify {key['pub']}"
    good = claims_of(0, 0, [key])
    for given, written, sentence in [
        ("", "Form", "standard input: the text is empty"),
        (json.dumps(good), "Form", "standard input: the text begins as JSON does, and is no signed text"),
        ("a.b", "Form", "standard input: the text isn't three parts with full stops between them"),
        (unsigned(good)[:-1] + "B", "Form", "standard input: the signature isn't base64url without padding"),
        (unsigned(good, alg="RS256"), "Form", "standard input: this text is signed with RS256; fed checks SLH-DSA-SHA2-128s or SLH-DSA-SHA2-128f"),
        (unsigned(good, typ="JWT"), "Form",
         "standard input: the header's typ is JWT; that of an entity statement is entity-statement+jwt"),
        (unsigned(good, crit=["b64"]), "Form", "standard input: the header has crit, extensions of which fed knows none"),
        (unsigned(good, kid=1), "Form", "standard input: the header isn't a JSON object whose alg, typ and kid are texts"),
        (unsigned(without(good, "sub")), "Form", "standard input: the claim sub is missing"),
        (unsigned(claims_of(1, 0)), "Names",
         "standard input: iss is https://e1.example and sub is https://e0.example; in a configuration they are equal"),
        (unsigned(good), "Signature",
         "standard input: the SLH-DSA-SHA2-128s signature doesn't verify under the key that was given; the kid of the text is k"),
    ]:
        row(words, given, 1, f"refused {written}\n", sentence)


# ---- chains

def refused(chain, written, *sentences, anchor=1, keys="ta.json"):
    words = ["check", "--anchor", name(anchor), "--keys", keys, "--at", str(AT)]
    row(words, json.dumps(chain), 1, f"refused {written}\n", *sentences)


def check_chains(key, other):
    make("ta.json", {"keys": [other]})
    words = f"check --anchor {name(1)} --keys ta.json --at {AT}"
    row(words, "{}", 2, "input\n", "standard input is an object; a chain is a list of signed texts")
    row(words, '["a",1]', 2, "input\n", "standard input: place 1 is a number; a chain is a list of signed texts")
    row(words, "eyJ.e30.", 2, "input\n", "standard input is a signed text and not JSON")
    claims = [claims_of(0, 0, [key]), claims_of(1, 0, [key]), claims_of(1, 1, [other])]
    texts = [unsigned(it) for it in claims]

    def with_claims(place, **more):
        return [*texts[:place], unsigned({**claims[place], **more}), *texts[place + 1:]]

    refused([], "0 Form", "the chain is empty")
    refused(texts * 5, "14 Form", "the chain has 15 texts; 14 are read at most")
    refused([texts[0], "x"], "1 Form", "place 1: the text isn't three parts with full stops between them")
    refused([unsigned(claims[0], alg="ES256"), *texts[1:]], "0 Form",
            "place 0: this text is signed with ES256; fed checks SLH-DSA-SHA2-128s or SLH-DSA-SHA2-128f")
    refused(with_claims(1, exp=None), "1 Form",
            "place 1: the claim exp isn't a whole number from 0 to 2^62 - 1, in seconds since 1970 (Shape)")
    refused(texts[:2], "1 Names",
            "a chain has 1 text, or 3 and more: between the configurations of leaf and anchor stand statements")
    refused(texts, "2 Names", "the chain ends at https://e1.example, asked was https://e2.example", anchor=2)
    refused(with_claims(1, sub=name(5)), "1 Names",
            "place 1 (https://e1.example about https://e5.example) is about https://e5.example; the text before it is by https://e0.example")
    refused(with_claims(0, sub=name(5)), "0 Names",
            "place 0 (https://e0.example about https://e5.example): a chain begins with the configuration of the leaf")
    refused(with_claims(1, exp=AT), "1 Times", f"place 1 (https://e1.example about https://e0.example) expired at {moment(AT)}")
    refused(with_claims(2, iat=AT + 61), "2 Times",
            f"place 2 (https://e1.example about itself) is issued at {moment(AT + 61)}, more than a minute after {moment(AT)}")
    refused(texts, "0 Signature", "place 0 (https://e0.example about itself) is signed by the SLH-DSA-SHA2-128s key k, which isn't in its own jwks")
    named = [unsigned(claims[0], kid=key["kid"]), *texts[1:]]
    refused(named, "0 Signature",
            f"place 0 (https://e0.example about itself): the signature doesn't verify under the SLH-DSA-SHA2-128s key {key['kid']}"
            " both of its own jwks and of the jwks of the next text")
    signed = [sealed("ring", claims[0]), sealed("other", claims[1]), sealed("other", claims[2])]
    refused([signed[0], texts[1], signed[2]], "1 Signature",
            "place 1 (https://e1.example about https://e0.example): the SLH-DSA-SHA2-128s key k isn't among the keys that https://e1.example states of itself;"
            " is a rotation half done?")
    make("none.json", {"keys": []})
    refused(signed, "2 Signature", f"place 2 (https://e1.example about itself): there is no SLH-DSA-SHA2-128s key {other['kid']} among the anchor's keys",
            keys="none.json")
    rp = "openid_relying_party"
    refused([signed[0], sealed("other", {**claims[1], "constraints": {"naming_constraints": {"excluded": ["e0.example"]}}}), signed[2]],
            "1 Name",
            "place 1 (https://e1.example about https://e0.example): the host e0.example of place 0 matches a name of excluded")
    refused([signed[0], sealed("other", {**claims[1], "metadata_policy": {rp: {"p": {"add": [], "one_of": [1]}}}}), signed[2]],
            f'1 Conflict "{rp}" "p" add one_of',
            "place 1 (https://e1.example about https://e0.example): the policies of openid_relying_party p from the anchor down to it have add"
            " and one_of, which don't stand together")
    refused([signed[0], sealed("other", {**claims[1], "metadata_policy": {rp: {"p": {"one_of": []}}}}), signed[2]],
            f'1 Conflict "{rp}" "p" one_of one_of',
            "place 1 (https://e1.example about https://e0.example): the policies of openid_relying_party p from the anchor down to it leave no value"
            " in one_of")
    leaf = sealed("ring", {**claims[0], "metadata": {rp: {"text": "x"}}})
    refused([leaf, sealed("other", {**claims[1], "metadata_policy": {rp: {"text": {"one_of": ["y"]}}}}), signed[2]],
            f'0 Policy "{rp}" "text" one_of',
            "place 0 (https://e0.example about itself): its metadata openid_relying_party text doesn't pass the operator one_of of the merged policy")
    between = [signed[0], sealed("ring", claims_of(2, 0, [key])),
               sealed("other", {**claims_of(1, 2, [key]), "constraints": {"max_path_length": 0}}), signed[2]]
    refused(between, "2 PathLength",
            "place 2 (https://e1.example about https://e2.example) allows a max_path_length of 0; between it and the leaf stand 1")


# ---- what looks wrong where the status is 0

def warned(ring, claims, *sentences):
    words = ["issue", "--ring", ring, "--typ", STATEMENT]
    status, written, notes = run(words, json.dumps(claims))
    compare(claims, (status, written.count("."), notes), (0, 2, said(sentences)))
    compare("the same, quietly", run(words, json.dumps(claims), FED_QUIET="1"), (0, written, ""))


def check_warnings(key):
    good = claims_of(0, 0, [key])
    warned("ring", good)
    warned("ring", {**good, "exp": AT * 1000},
           f"warning: the claim exp {moment(AT * 1000)} looks like milliseconds; moments are in seconds")
    warned("ring", {**good, "iat": 7, "exp": 6}, f"warning: the claim exp {moment(6)} isn't after iat {moment(7)}")
    warned("ring", {**good, "iat": 6, "exp": 7}, f"warning: the claim exp {moment(7)} is in the past")
    warned("ring", claims_of(0, 0), f"warning: the signing key {key['kid']} isn't in the claims' jwks, so no one can check the text by them")
    warned("ring", {**good, "authorityhints": []},
           "warning: the claim authorityhints isn't known and is kept as it is; did you mean authority_hints?")
    ended = key_of("ended", 5, exp=2)
    warned("ended", claims_of(0, 0, [ended]), f"warning: the signing key of ended ended at {moment(2)}")
    os.chmod("ended", 0o644)
    warned("ended", claims_of(0, 0, [ended]), f"warning: the signing key of ended ended at {moment(2)}",
           "others than its owner can read ended and so sign in the node's name; `chmod 600 ended` keeps it to its owner")
    row("rotate --ring ended --act retire --kid x", "", 1, "refused Unknown\n", "there is no key x in the ring")
    row("keygen --ring ended --at 1 --exp 2", seeds(3), 1, "refused Exists\n",
        "ended is there already; keygen makes a new file and changes none")


# ---- the outside

def check_outside(key):
    words = ["verify", key["pub"]]
    folder = os.open(".", os.O_RDONLY)
    done = subprocess.run([FED, *words], stdin=folder, capture_output=True, check=False, env=ENVIRONMENT)
    compare("a folder as input", (done.returncode, done.stdout, done.stderr.decode()), (3, b"", said(["standard input can't be read"])))
    os.close(folder)
    full = os.open("/dev/full", os.O_WRONLY)
    compare("a full disk", run(words, "", out=full), (4, "", said([
        "standard input: the text is empty",
        "standard output can't be written to its end; is the disk full, or the reader gone?",
    ])))
    os.close(full)
    compare("quiet", run(words, "", FED_QUIET="1"), (1, "refused Form\n", ""))
    compare("not quiet", run(words, "", FED_QUIET="0"), (1, "refused Form\n", said(["standard input: the text is empty"])))
    done = subprocess.run([FED, *words], input=b"", stdout=subprocess.PIPE, check=False, env=ENVIRONMENT,
                          preexec_fn=lambda: os.close(2))
    compare("no standard error", (done.returncode, done.stdout), (1, b"refused Form\n"))


def at_terminal(words):
    """Runs the program with a terminal as standard input, where the end of input is typed at once."""
    master, slave = pty.openpty()
    with subprocess.Popen([FED, *words], stdin=slave, stdout=subprocess.PIPE, stderr=subprocess.PIPE, env=ENVIRONMENT) as it:
        os.write(master, b"\x04")
        written, notes = it.communicate()
    os.close(slave)
    os.close(master)
    return it.returncode, written.decode(), notes.decode()


def check_inspections(key):
    row("public --ring ring --kid x", "", 1, "refused Unknown\n", "there is no key x in the ring")
    row("public --ring no.ring", "", 2, "input\n", "no.ring isn't there")
    make("object", {})
    row("public --ring object", "", 2, "input\n", "object isn't a ring's file, {\"keys\":[..],\"version\":2}")
    last = "nothing was verified\n"
    row("show", "x", 1, f"refused Parts\n{last}", "standard input: the text isn't three parts with full stops between them")
    row("show", "[\"x\",\"a.b\"]", 1, f"text 0\nrefused Parts\ntext 1\nrefused Parts\nchain of 2\n{last}",
        *[line for place in (0, 1) for line in (
            f"of the chain, the text at place {place} is read alone:", "standard input: the text isn't three parts with full stops between them")])
    row("show", f'{{"keys":[{json.dumps(key)}],}}', 1, f"refused Parts\n{last}",
        "standard input: the text begins as JSON does, and is no signed text")
    row("show", json.dumps(key), 1, f"refused NotSet\n{last}", "standard input is one key; a key set is {\"keys\":[..]}")
    row("show", "1", 2, "input\n", "standard input is a number; a chain is a list of signed texts")
    row("show", "[1]", 2, "input\n", "standard input: place 0 is a number; a chain is a list of signed texts")
    row("show", b"a" * 4194305, 2, "input\n", "standard input has more than 4,194,304 bytes")
    for claims, header, sentence in [
            (claims_of(1, 2), {}, None), (without(claims_of(1, 1), "exp"), {}, "the claim exp is missing"),
            ({"iss": name(1)}, {"typ": "trust-mark+jwt"}, "the claim sub is missing"), ([], {"typ": "trust-mark+jwt"}, "the claims aren't a JSON object"),
            ({"iss": name(1), "iat": AT, "trust_mark": "", "status": "x"}, {"typ": "trust-mark-status-response+jwt"},
             "the claim status isn't active, expired, revoked or invalid (Shape)"),
            (claims_of(1, 1), {"alg": "RS256"}, "this text is signed with RS256; fed checks SLH-DSA-SHA2-128s or SLH-DSA-SHA2-128f")]:
        status, _, err = run(["show"], unsigned(claims, **header))
        compare(f"show {header}", (status, err), (1 if sentence else 0, said([f"standard input: {sentence}"] if sentence else [])))
    config = {"entity_id": name(1), "ring": "ring", "lifetime": 60}
    make("c", {**config, "lifetime": 59})
    row("check-config --config c", "", 1, "refused lifetime Shape\n", "c: lifetime must be a whole number from 60 to 31536000, and is 59")
    make("c", {**config, "ring": "no.ring"})
    row("check-config --config c", "", 1, "refused ring Absent\n", "no.ring isn't there")
    make("c", {**config, "trust_marks": [{"trust_mark_type": "t", "trust_mark": "x"}]})
    row("check-config --config c", "", 1, "refused trust_marks 0 Form\n", "c: trust_marks 0 Form: the text at this place isn't a trust mark")
    mark = unsigned({"iss": name(1), "sub": name(2), "trust_mark_type": "t", "iat": AT}, typ="trust-mark+jwt")
    make("c", {**config, "trust_marks": [{"trust_mark_type": "t", "trust_mark": mark}]})
    row("check-config --config c", "", 1, "refused trust_marks 0 Names\n",
        "c: trust_marks 0 Names: the trust mark at this place is of another type, or about another entity")
    make("c", "{")
    row("check-config --config c", "", 2, "input\n", "c:1:2: a member's name or } was expected, and the text ends; a bracket of line 1 is open yet")
    row("check-config --config no", "", 2, "input\n", "no isn't there")
    make("c", config)
    status, _, err = run(["check-config", "--config", "c", "--at", f"{AT}000"])
    compare("check-config in milliseconds", (status, err), (0, said([
        f"warning: --at {moment(AT * 1000)} looks like milliseconds; moments are in seconds", f"warning: c: the key that signs, {key['kid']}, has ended"])))


def check_terminal(key):
    waiting = "reading {}, from the terminal; end it with Ctrl-D on a line of its own"
    compare("verify at a terminal", at_terminal(["verify", key["pub"]]), (1, "refused Form\n", said([
        waiting.format("an entity configuration, a signed text"), "standard input: the text is empty"])))
    compare("keygen at a terminal", at_terminal("keygen --ring new --at 1 --exp 2".split()), (2, "input\n", said([
        waiting.format("the seeds of a key, 96 hexadecimal digits"),
        "standard input: it has 0 hexadecimal digits; the seeds of a key are 96"])))
    compare("show at a terminal", at_terminal(["show"]), (1, "refused Parts\nnothing was verified\n", said([
        "reading a signed text, a chain or a key set from the terminal; end it with Ctrl-D on a line of its own",
        "standard input: the text is empty"])))
    compare("help at a terminal", at_terminal(["-h"]), (2, "words\n", run(["--help"])[1]))


def main():
    subprocess.run([f"{TOP}/fed", "--version"], check=True, capture_output=True)
    with tempfile.TemporaryDirectory() as place:
        os.chdir(place)
        key, other = key_of("ring", 1), key_of("other", 2)
        check_words()
        check_keys_files(key)
        check_rings(key)
        check_seeds()
        check_changes(key)
        check_claims(key)
        check_verify(key)
        check_chains(key, other)
        check_warnings(key)
        check_inspections(key)
        check_outside(key)
        check_terminal(key)
        os.chdir(TOP)
    return ROWS.end()


if __name__ == "__main__":
    sys.exit(main())
