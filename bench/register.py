#!/usr/bin/env python3
"""What a registration costs, over a web of fixed texts on loopback: `register` of a posted chain of four texts beside a `check` of the same
chain and one `issue` of the same claims, and `register` of a posted configuration beside a `resolve` of its entity. For each command: how
many signatures it tests and makes, and its instructions, both counted by callgrind where valgrind is there; and its time.

    bench/register.py [COUNT]    COUNT is how often each command is run in a round (5)

Times are user and system time together, the least of three rounds, in each of which all commands are run. They are those of a whole
command, with its start; `issue`, `resolve` and `register` open a ring of one key, and so compute its root. All entities have one key, so
that the texts are made quickly.
"""

import base64
import json
import os
import shutil
import sys
import tempfile

if {"-h", "--help"} & set(sys.argv[1:]):
    sys.exit(print(__doc__))

sys.dont_write_bytecode = True
sys.path.insert(0, f"{os.path.dirname(os.path.abspath(__file__))}/lib")
from webs import (  # noqa: E402
    ANCHOR, LEAF, Texts, built, configured, deep, ended, fetch_of, page_of, profiled, ran, seconds, served, web_of, work_in)

ROUNDS = 3
MOST = 1.1
PARTY = {"openid_relying_party": {"client_name": "A", "grant_types": ["authorization_code", "implicit"]}}


def chain_of(pages, hints):
    """The chain of the leaf, as a JSON list: its configuration, the statements up to the anchor, and the anchor's configuration."""
    entities = list(hints)
    calls = [page_of(LEAF), *(fetch_of(above, below) for below, above in zip(entities, entities[1:])), page_of(ANCHOR)]
    return json.dumps([pages[call].decode() for call in calls]).encode()


def issued_claims(texts, registration):
    """The claims of a registration, so that `issue` takes them for a statement's: with a key set."""
    part = registration.split(b".")[1]
    claims = json.loads(base64.urlsafe_b64decode(part + b"=" * (-len(part) % 4)))
    return json.dumps({**claims, "jwks": {"keys": [texts.key]}}).encode()


def commands(fed, place, texts, pages, chain, config):
    """Each command with its words and its input."""
    keys = f"{place}/anchor.keys"
    with open(keys, "w", encoding="utf-8") as it:
        json.dump({"keys": [texts.key]}, it)
    register = [fed, "register", "--config", config, "--anchor", ANCHOR]
    claims = issued_claims(texts, ended(ran(register, chain), 0))
    return {
        "check": ([fed, "check", "--anchor", ANCHOR, "--keys", keys], chain),
        "issue": (texts.issuing("entity-statement+jwt"), claims),
        "register of a chain": (register, chain),
        "resolve": ([fed, "resolve", "--config", config, "--sub", LEAF, "--anchor", ANCHOR], b""),
        "register of a configuration": (register, pages[page_of(LEAF)]),
    }


def within(what, whole, parts):
    ratio = whole / parts
    met = "met" if ratio <= MOST else "not met"
    print(f"{what}: a registration of a chain takes {ratio:.4f} of a check and an issue together; {MOST} at most: {met}")


def compared(works):
    """The signatures of the commands, as they are asked for."""
    check, issue, chain, resolve, configuration = works.values()
    if check.made or (issue.tested, issue.made) != (0, 1):
        sys.exit(f"register: {works}: the program's functions have other names than those that are counted")
    within("instructions", chain.instructions, check.instructions + issue.instructions)
    both = resolve.tested + check.tested, resolve.made + check.made + 1
    for what, found, wanted in ("a chain", chain, (check.tested, 1)), ("a configuration", configuration, both):
        met = "met" if (found.tested, found.made) == wanted else "not met"
        print(f"signatures of a registration of {what}: {found.tested} tested and {found.made} made, of {wanted[0]} and {wanted[1]}: {met}")


def main():
    count = int(sys.argv[1]) if len(sys.argv) > 1 else 5
    fed = built()
    with tempfile.TemporaryDirectory() as place:
        texts = Texts(fed, place)
        hints = deep(4)
        pages = web_of(texts, hints, {LEAF: {"metadata": PARTY}})
        web = served(pages)
        try:
            calls = commands(fed, place, texts, pages, chain_of(pages, hints), configured(place, texts, pages, web.server_address[1]))
            rounds = [{what: seconds(words, count, given=given) for what, (words, given) in calls.items()} for _ in range(ROUNDS)]
            times, works = {what: min(it[what] for it in rounds) for what in calls}, {}
            for what, (words, given) in calls.items():
                told = ""
                if shutil.which("valgrind"):
                    works[what] = work_in(profiled(place, words, given=given)[0])
                    told = f", {works[what].tested} signatures tested, {works[what].made} made, {works[what].instructions:,} instructions"
                print(f"{what}: {times[what] * 1000:.2f} ms{told}", flush=True)
        finally:
            web.shutdown()
            web.server_close()
        within("time", times["register of a chain"], times["check"] + times["issue"])
        if works:
            compared(works)
        else:
            print("there is no valgrind here, so neither signatures nor instructions are counted")


main()
