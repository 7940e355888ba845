#!/usr/bin/env python3
"""Mistakes that people make, each as it is typed: what is written to standard output, the status, and each sentence on standard error, whole.
The rows stand in mistakes.txt beside this. It prints what differs, and fails where anything does."""

import base64
import json
import os
import re
import shlex
import socket
import subprocess
import sys
import tempfile
import time

sys.dont_write_bytecode = True
HERE = os.path.dirname(os.path.abspath(__file__))
sys.path.insert(0, f"{os.path.dirname(HERE)}/lib")
from laid import TOP, free_port  # noqa: E402
from program import Rows, ring, run  # noqa: E402

# so many rows there are at least
FEWEST = 120
LATE = 4000000000
RP, TA, TYP = "https://rp.example", "https://ta.example", "entity-statement+jwt"
ROWS = Rows("mistakes")


def base64url(given):
    return base64.urlsafe_b64encode(given).decode().rstrip("=")


def make(name, given):
    given = given if isinstance(given, (str, bytes)) else json.dumps(given)
    with open(name, "wb") as it:
        it.write(given.encode() if isinstance(given, str) else given)


def sealed(by, claims):
    return run(["issue", "--ring", by, "--typ", TYP], json.dumps(claims))[1].strip()


def lay_out(words):
    """Makes the files that the rows name, and adds what stands for a word of them."""
    keys = {name: ring(".", f"{name}.ring", number, 1, LATE) for number, name in enumerate(("rp", "ta", "node", "other", "spare"), 1)}
    for name, key in keys.items():
        make(f"{name}.key", key)
        make(f"{name}.keys.json", {"keys": [key]})
        words[f"{name}_pub"], words[f"{name}_kid"] = key["pub"], key["kid"]
    hosts = {name: words[name] for name in ("dead", "taken")}
    now = int(time.time())
    times = {"iat": now, "exp": now + 86400}
    own = {"iss": RP, "sub": RP, **times, "jwks": {"keys": [keys["rp"]]}, "authority_hints": [TA], "metadata": {"openid_relying_party": {}}}
    below = {"iss": TA, "sub": RP, **times, "jwks": {"keys": [keys["rp"]]}}
    top = {"iss": TA, "sub": TA, **times, "jwks": {"keys": [keys["ta"]]}}
    chain = [sealed("rp.ring", own), sealed("ta.ring", below), sealed("ta.ring", top)]
    make("claims.json", own)
    make("slip.json", {**{name: value for name, value in own.items() if name != "authority_hints"}, "authority_hint": [TA]})
    make("mark.json", {"iss": TA, "sub": RP, "iat": now, "trust_mark_type": "https://ta.example/member"})
    make("rp.jwt", chain[0])
    make("chain.json", chain)
    make("wrapped.jwt", "\n".join(re.findall(".{1,76}", chain[0])))
    make("quoted.jwt", json.dumps(chain[0]))
    make("bearer.jwt", f"Bearer {chain[0]}")
    make("bom.jwt", f"\ufeff{chain[0]}")
    make("nul.jwt", f"{chain[0][:40]}\0{chain[0][40:]}")
    make("padded.jwt", chain[0].replace(".", "=.", 1))
    words["padding"] = str(chain[0].index("."))
    make("page.html", "<!DOCTYPE html><title>404</title>")
    make("key.pem", "-----BEGIN PUBLIC KEY-----\nAAAA\n-----END PUBLIC KEY-----\n")
    header = {"alg": "RS256", "kid": "k", "typ": TYP}
    make("rs256.jwt", ".".join([base64url(json.dumps(it).encode()) for it in (header, own)] + ["AAAA"]))
    make("rotated.json", [chain[0], sealed("ta.ring", {**below, "jwks": {"keys": [keys["other"]]}}), chain[2]])
    make("strange.json", [sealed("other.ring", {**own, "jwks": {"keys": [keys["other"]]}}), *chain[1:]])
    make("two.json", chain[:2])
    make("bom.keys.json", f"\ufeff{json.dumps({'keys': []})}")
    make("empty", "")
    make("node.json", {"entity_id": TA, "ring": "ta.ring", "lifetime": 3600})
    make("resolver.json", {"entity_id": "https://node.example", "ring": "node.ring", "lifetime": 3600, "resolver": {
        "anchors": [{"entity_id": TA, "jwks": {"keys": [keys["ta"]]}}], "age": 60, "workers": 1, "control": {"keys": []},
        "routes": [{"host": "rp.example", "ip": "127.0.0.1", "port": int(hosts["dead"])}]}})
    os.mkdir("folder")


def parts_of(call):
    """The environment, the words, the input and the output's file of a call as a shell has it."""
    given, more, out = shlex.split(call), {}, None
    while given and re.match("[A-Z_]+=", given[0]):
        name, _, more[name] = given.pop(0).partition("=")
    source = b""
    if ">" in given:
        at = given.index(">")
        out, given = given[at + 1], given[:at]
    if "<" in given:
        at = given.index("<")
        with open(given[at + 1], "rb") as it:
            source = it.read()
        given = given[:at]
    if "<<<" in given:
        at = given.index("<<<")
        source, given = given[at + 1].encode(), given[:at]
    if given.pop(0) != "fed":
        sys.exit(f"mistakes: {call} doesn't call fed")
    return more, given, source, out


def page_of(name):
    """What `fed --help`, `fed --version` or `fed help COMMAND` writes."""
    written = run([name] if name.startswith("--") else ["help", name])[1]
    # behind the version stands what the program was built from, where the script built it
    return written.split("\n", 1)[0] + "\n" if name == "--version" else written


def look_at(block, words):
    """One mistake: the call, the status with what is written, and the sentences."""
    call, answer, *sentences = [re.sub(r"\{(\w+)\}", lambda found: words[found[1]], line) for line in block]
    more, given, source, out = parts_of(call.removeprefix("$ "))
    status, _, written = answer.partition(" ")
    told = "".join(page_of(line.removeprefix("page ")) if line.startswith("page ") else f"fed: {line}\n" for line in sentences)
    if out is None:
        got = run(given, source, **more)
    else:
        with open(out, "wb") as it:
            got = run(given, source, out=it, **more)
    if written == "..":
        got = got[0], "..", got[2]
    else:
        written = "".join(f"{line}\n" for line in written.split(" | ")) if written else ""
    wanted = int(status), written, told
    ROWS.compare(call, got, wanted)


def blocks_of(text):
    lines = [line for line in text.split("\n") if not line.startswith("#")]
    for block in re.split(r"\n{2,}", "\n".join(lines).strip("\n")):
        yield block.strip("\n").split("\n")


def main():
    subprocess.run([f"{TOP}/fed", "--version"], check=True, stdout=subprocess.DEVNULL)
    with open(f"{HERE}/mistakes.txt", encoding="utf-8") as it:
        blocks = list(blocks_of(it.read()))
    if len(blocks) < FEWEST:
        sys.exit(f"mistakes: {len(blocks)} rows, of {FEWEST} at least")
    with tempfile.TemporaryDirectory() as place, socket.socket() as held:
        os.chdir(place)
        held.bind(("127.0.0.1", 0))
        held.listen()
        words = {"dead": str(free_port()), "taken": str(held.getsockname()[1]), "zeros": "0" * 96, "same": "ab" * 48, "good": f"{77:096x}"}
        lay_out(words)
        for block in blocks:
            look_at(block, words)
        os.chdir("/")
    return ROWS.end()


sys.exit(main())
