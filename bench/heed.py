#!/usr/bin/env python3
"""What it costs to ask about the marks of a resolve, over a web of fixed texts on loopback: how many signatures a call tests and makes
without and with `--heed yes`, and its instructions, which callgrind counts. Of the leaf's marks some are issued by the trust anchor, whose
configuration names a status endpoint, so that it is asked about them, and the others by an entity that names none. Where a mark isn't kept,
the reply is signed anew.

    bench/heed.py

Instructions are those of the call less those of its start, a call for an anchor that isn't listed, which opens the node and no more. All
entities have one key, so that the texts are made quickly; a call tests each text under it as under any other. The answers are those of
`fed authority`.
"""

import http.client
import json
import os
import shutil
import socket
import subprocess
import sys
import tempfile
import time

if {"-h", "--help"} & set(sys.argv[1:]):
    sys.exit(print(__doc__))

sys.dont_write_bytecode = True
sys.path.insert(0, f"{os.path.dirname(os.path.abspath(__file__))}/lib")
from webs import ANCHOR, LEAF, Texts, built, by_function, configured, inclusive, post_of, profiled, served, web_of, work_in  # noqa: E402

OTHER = "https://issuer.example"
STATUS = f"{ANCHOR}/trust-mark-status"
MARK = "trust-mark+jwt"
PATIENCE = 100
# what is asked about: how many marks there are, and what becomes of those that the anchor is asked about
KINDS = [("none of 3", 3, []), ("2 of 3, both active", 3, ["active", "active"]), ("2 of 3, one taken back", 3, ["refused", "active"]),
         ("2 of 3, one without an answer", 3, ["useless", "active"]), ("2 of 3, neither kept", 3, ["refused", "useless"]),
         ("16 of 16, all active", 16, ["active"] * 16)]
SIGN = r"sealed::sealing::(?:seal_payload|seal_signed::<#[0-9a-f]+>) \["


def marks_of(texts, count, asked):
    """So many marks of the leaf, each of a type of its own: first those that are asked about, the anchor's, and then the other issuer's."""
    issuers = [ANCHOR] * asked + [OTHER] * (count - asked)
    return [texts.sealed(MARK, issuer, LEAF, trust_mark_type=f"mark-{place}") for place, issuer in enumerate(issuers)]


def pages_of(texts, marks):
    """The web: the leaf and the other issuer below the anchor."""
    types = [f"mark-{place}" for place in range(len(marks))]
    entity = {"federation_fetch_endpoint": f"{ANCHOR}/fetch", "federation_trust_mark_status_endpoint": STATUS}
    more = {
        LEAF: {"trust_marks": [{"trust_mark_type": typ, "trust_mark": mark.decode()} for typ, mark in zip(types, marks)]},
        ANCHOR: {"metadata": {"federation_entity": entity}, "trust_mark_issuers": {typ: [] for typ in types}},
    }
    return web_of(texts, {LEAF: [ANCHOR], OTHER: [ANCHOR], ANCHOR: []}, more)


def free_port():
    with socket.socket() as it:
        it.bind(("127.0.0.1", 0))
        return it.getsockname()[1]


def posted(port, mark):
    """The answer of an authority on a mark, once it listens."""
    end = time.monotonic() + PATIENCE
    while True:
        try:
            peer = http.client.HTTPConnection("127.0.0.1", port, timeout=PATIENCE)
            peer.request("POST", "/trust-mark-status", b"trust_mark=" + mark, {"Content-Type": "application/x-www-form-urlencoded"})
            break
        except ConnectionRefusedError:
            if time.monotonic() > end:
                raise
            time.sleep(0.02)
    answer = peer.getresponse().read()
    peer.close()
    return answer


def answers(fed, place, marks, told):
    """The posts about these marks and the anchor's answers: it has taken back those that are to be refused, and has none on the useless."""
    port = free_port()
    revoked = [mark.decode() for mark, word in zip(marks, told) if word == "refused"]
    with open(f"{place}/authority.json", "w", encoding="utf-8") as it:
        json.dump({"entity_id": ANCHOR, "ring": f"{place}/ring", "lifetime": 3600, "revoked_marks": revoked}, it)
    words = [fed, "authority", "--config", it.name, "--port", str(port), "--connections", "1000"]
    with subprocess.Popen(words, stdout=subprocess.DEVNULL, stderr=subprocess.DEVNULL) as running:
        try:
            return {post_of(STATUS, mark): posted(port, mark) for mark, word in zip(marks, told) if word != "useless"}
        finally:
            running.terminate()


def resolved(place, config, heed, fed, anchor=ANCHOR):
    """What a call does, the instructions that it makes signatures with, and the lines that it writes."""
    words = [fed, "resolve", "--config", config, "--sub", LEAF, "--anchor", anchor, *["--heed", "yes"] * heed]
    kept, out = profiled(place, words, status=0 if anchor == ANCHOR else 1)
    work = work_in(kept)
    return work, inclusive(by_function(kept), SIGN) if work.made else 0, out.decode().splitlines()


def measured(fed, place, texts, what, count, told):
    """The row of a web: what its call does without asking and with it."""
    marks = marks_of(texts, count, len(told))
    pages = pages_of(texts, marks)
    web = served({**pages, **answers(fed, place, marks, told)})
    try:
        config = configured(place, texts, pages, web.server_address[1])
        start, _, _ = resolved(place, config, False, fed, anchor=LEAF)
        plain, plain_sign, lines = resolved(place, config, False, fed)
        heeded, sign, heeded_lines = resolved(place, config, True, fed)
    finally:
        web.shutdown()
        web.server_close()
    words = told + ["unasked"] * (count - len(told))
    if len(lines) != 1 or heeded_lines[1:] != [f"mark {at} {word}" for at, word in enumerate(words)]:
        sys.exit(f"heed: {what}: {lines[1:]} and {heeded_lines[1:]}")
    if plain.made != 1 or plain.tested < count or (start.tested, start.made) != (0, 0):
        sys.exit(f"heed: {what}: {plain.tested} signatures are tested and {plain.made} made: the program's functions have other names")
    more, anew = heeded.tested - plain.tested, heeded.made - plain.made
    before, after = plain.instructions - start.instructions, heeded.instructions - start.instructions
    wanted = more <= len(told) and anew == (1 if set(words) & {"refused", "useless"} else 0)
    print(f"{what:30} {plain.tested:6} {heeded.tested:6} {more:6} {plain.made:6} {heeded.made:6} {anew:6} {before:14,} {after:14,} "
          f"{after / before:8.4f} {after - sign - before + plain_sign:14,}  {'met' if wanted else 'not met'}", flush=True)


def main():
    if not shutil.which("valgrind"):
        sys.exit("heed: there is no valgrind here, so nothing is counted")
    fed = built()
    print(f"{'':30} {'tested':20} {'made':20} {'instructions':38} {'beside the':>14}\n"
          f"{'marks':30} {'before':>6} {'heeded':>6} {'more':>6} {'before':>6} {'heeded':>6} {'more':>6} {'before':>14} {'heeded':>14} "
          f"{'ratio':>8} {'making, more':>14}  aim")
    with tempfile.TemporaryDirectory() as place:
        texts = Texts(fed, place)
        for what, count, told in KINDS:
            measured(fed, place, texts, what, count, told)


main()
