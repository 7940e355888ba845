#!/usr/bin/env python3
"""Want of memory, and a failing outside: each command on a small case, and one request of each kind at an authority and at a resolver, for each
answer that it may have, with each allocation failing in turn, alone and with all that come after it; and with each call of the outside (reading,
writing, files, the network, clocks, starting a thread) failing in turn, in three ways: it does nothing, it does the thing and tells a failure all
the same, or it moves one byte.

    tests/hand/memory.py [--program PATH] [--each N] [--part K/N] [NAME ..]

A run must give the right answer and leave the right files. Else it ends with the status of what failed (docs/COMMANDS.md) and has written
nothing, of an output that fails a beginning; where memory was wanting no file is changed, and where a ring was being kept the file is the old
or the new one. Of a request the answer is the right one, a beginning of it where the caller's connection failed, or that memory is wanting or, at a
resolver whose network failed, that a fetch failed. Where the clock failed it may be that of the moment 0, at which everything is still to come.
No seeds are told, and no other file stays, but where taking it away failed.

A resolver that serves several connections one after the other (`resolver-again`) answers at most one of them otherwise where one call failed:
those before and behind it have the right answer, and no page but one is asked for again. `resolver-workers` has two at once.

--each N tries the first N of each, and about N more at even distances; of `rehearse`, which takes seconds, about 25 of each are tried. --part K/N
tries the K-th of N parts of each case's runs; parts may run side by side, on as many processors each, since no two of them share a port. It stands
before the C library (failing/calls.c), so that a C compiler is wanted (CC, or cc), takes hours of a processor where all are tried, and isn't part
of the gate. Where it is ended by SIGTERM nothing of it stays. The kit's own `rt try --fail-alloc N` builds the program anew for each N.
"""

import argparse
import collections
import itertools
import json
import multiprocessing
import os
import random
import re
import shutil
import signal
import socket
import subprocess
import sys
import tempfile
import time

sys.dont_write_bytecode = True
TOP = os.path.dirname(os.path.dirname(os.path.dirname(os.path.abspath(__file__))))
sys.path.insert(0, f"{TOP}/tests/lib")
from fuzzing.webs import RESET, Web, fetch_of, page_of  # noqa: E402
from laid import is_free  # noqa: E402
from program import chosen  # noqa: E402
from sealing import decoded, sealed  # noqa: E402

# the moment that the clock tells, and the times of what is made for it
NOW, END, PATIENCE, LAST = 1800000000, 1900000000, 60, 999999999
STATEMENT, MARK, DELEGATION = "entity-statement+jwt", "trust-mark+jwt", "trust-mark-delegation+jwt"
TA, IM, RP, OWNER, NODE = "https://ta.example", "https://im.example", "https://rp.example", "https://owner.example", "http://127.0.0.1/fed"
# what a call is of, as failing/calls.c has it
INPUT, OUTPUT, NOTES, FILES, AWAY, NETWORK, CALLER, CLOCK, TIMER, THREADS = (1 << place for place in range(10))


def refusal(status, error, description):
    body = f'{{"error":"{error}","error_description":"{description}"}}'
    return f"HTTP/1.1 {status}\r\nContent-Type: application/json\r\nContent-Length: {len(body)}\r\nConnection: close\r\n\r\n{body}".encode()


WANTING = refusal("507 Insufficient Storage", "server_error", "out of memory")
UNAVAILABLE = refusal("503 Service Unavailable", "temporarily_unavailable", "a fetch failed")
WAYS = ["memory", "memory from", "fail", "fail from", "late", "short", "short from"]


# ---- cases

class Case:
    """A command, the status that it has with ample memory, its input, the files that it finds, the pages of its web, what a server is asked,
    each with the status of its answer, whether all of it is asked at once, and how many of each are tried at most."""

    def __init__(self, name, status, words, given=b"", files=(), pages=None, asked=(), at_once=False, most=None):
        self.name, self.status, self.words, self.given = name, status, words, given
        self.files, self.pages, self.asked, self.at_once, self.most = dict(files), pages, asked, at_once, most


def fed(words, given, place):
    done = subprocess.run([options.program, *words], input=given, capture_output=True, cwd=place, timeout=PATIENCE, check=False)
    if done.returncode:
        sys.exit(f"memory: {words}: status {done.returncode} {done.stdout[:200]} {done.stderr[:200]}")
    return done.stdout


def seeds(number):
    return b"%096d\n" % number


def contents(path):
    with open(path, "rb") as it:
        return it.read()


class Texts:
    """Rings and texts of a small federation, made by the program."""

    def __init__(self, place):
        self.place = place
        self.keys = {name: self.key(name, number) for number, name in enumerate(["ta", "im", "rp", "node", "control", "owner"], 7)}

    def key(self, name, number):
        made = fed(["keygen", "--ring", name, "--at", "1", "--exp", str(END)], seeds(number), self.place)
        os.chmod(f"{self.place}/{name}", 0o600)
        return json.loads(made)

    def ring(self, name):
        return contents(f"{self.place}/{name}")

    def sealed(self, issuer, subject, by, typ=STATEMENT, **more):
        claims = {"iss": issuer, "sub": subject, "iat": NOW - 100, "exp": END, **more}
        if typ == STATEMENT:
            claims["jwks"] = {"keys": [self.keys[{TA: "ta", IM: "im", RP: "rp"}[subject]]]}
        return fed(["issue", "--ring", by, "--typ", typ], json.dumps(claims).encode(), self.place).decode().strip()


def endpoint(entity):
    return {"federation_entity": {"federation_fetch_endpoint": f"{entity}/fetch"}}


def commands(texts):
    """The commands that end by themselves."""
    examples = f"{TOP}/examples"
    key, text = contents(f"{examples}/rp.pub").decode().strip(), contents(f"{examples}/rp.jwt")
    chain, ring = contents(f"{examples}/rp.chain.json"), {"ring": texts.ring("ta")}
    keys, check = {"keys": contents(f"{examples}/ta.keys.json")}, ["check", "--anchor", "https://ta.example", "--keys", "keys", "--at"]
    claims = b'{"exp":2,"iat":1,"iss":"https://a.example","jwks":{"keys":[]},"sub":"https://a.example"}\n'
    issue, rotate = ["issue", "--ring", "ring", "--typ", STATEMENT], ["rotate", "--ring", "ring", "--act"]
    kid = texts.keys["ta"]["kid"]
    two = {"ring": b'{"keys":[%s,%s],"version":2}' % tuple(contents(f"{texts.place}/{name}")[9:-14] for name in ("im", "ta"))}
    return [
        Case("help", 0, ["--help"]), Case("words", 2, ["verify"]),
        Case("verify", 0, ["verify", key], text), Case("verify-refused", 1, ["verify", "A" * 43], text),
        Case("check", 0, [*check, str(NOW)], chain, keys), Case("check-now", 0, check[:-1], chain, keys),
        Case("check-refused", 1, [*check, "1800003600"], chain, keys), Case("check-input", 2, [*check, "1"], b"{}", keys),
        Case("keygen", 0, ["keygen", "--ring", "ring", "--at", "1", "--exp", "2"], seeds(7)),
        Case("keygen-refused", 1, ["keygen", "--ring", "ring", "--at", "1", "--exp", "2"], seeds(7), ring),
        Case("issue", 0, issue, claims, ring), Case("issue-refused", 1, issue, claims.replace(b"jwks", b"jwk"), ring),
        Case("rotate-add", 0, [*rotate, "add", "--at", "1", "--exp", "2"], seeds(8), ring),
        Case("rotate-retire", 0, [*rotate, "retire", "--kid", kid], b"", two),
        Case("rotate-revoke", 0, [*rotate, "revoke", "--kid", kid, "--at", "5", "--reason", "compromised"], b"", two),
        Case("rotate-refused", 1, [*rotate, "retire", "--kid", "none"], b"", ring),
        Case("rehearse", 0, ["rehearse", "--params", "1"], most=12),
    ]


def inspections(texts):
    """The commands that show something and change nothing."""
    examples = f"{TOP}/examples"
    ring, public = {"ring": texts.ring("ta")}, ["public", "--ring", "ring"]
    mark = {"trust_mark_type": "t", "trust_mark": texts.sealed(IM, TA, "im", MARK, trust_mark_type="t")}
    below = {"entity_id": IM, "jwks": {"keys": [texts.keys["im"]]}}
    resolver = {"anchors": [below], "age": 60, "workers": 1, "control": {"keys": []}, "routes": [{"host": "im.example", "ip": "127.0.0.1", "port": 80}]}
    config = {"entity_id": TA, "ring": "ring", "lifetime": 60, "trust_marks": [mark], "subordinates": [below], "resolver": resolver}
    files, words = {"config": json.dumps(config).encode(), **ring}, ["check-config", "--config", "config"]
    return [
        Case("help-page", 0, ["help", "verify"]),
        Case("public", 0, public, b"", ring), Case("public-key", 0, [*public, "--kid", texts.keys["ta"]["kid"]], b"", ring),
        Case("public-refused", 1, [*public, "--kid", "none"], b"", ring), Case("public-input", 2, public, b"", {"ring": b"{}"}),
        Case("show", 0, ["show"], contents(f"{examples}/rp.jwt")), Case("show-chain", 0, ["show"], contents(f"{examples}/rp.chain.json")),
        Case("show-keys", 0, ["show"], contents(f"{examples}/ta.keys.json")), Case("show-refused", 1, ["show"], b"x"), Case("show-input", 2, ["show"], b"1"),
        Case("check-config", 0, words, b"", files), Case("check-config-at", 0, [*words, "--at", "1"], b"", files),
        Case("check-config-refused", 1, words, b"", {**files, "config": json.dumps({**config, "entity_id": RP}).encode()}),
        Case("check-config-input", 2, words, b"", {**ring, "config": b"{"}),
    ]


def paged(text):
    return b"HTTP/1.1 200 OK\r\nContent-Length: %d\r\n\r\n" % len(text) + text.encode()


def leaf(texts, **more):
    """The page of the entity that is resolved."""
    claims = {"authority_hints": [IM], "metadata": {"openid_relying_party": {"client_name": "A"}}, **more}
    return {page_of(RP): paged(texts.sealed(RP, RP, "rp", **claims))}


def between(texts, parameter, *hints):
    """The pages of the intermediate, which has these hints and a policy on one parameter of the entity."""
    policy = {"openid_relying_party": parameter}
    return {page_of(IM): paged(texts.sealed(IM, IM, "im", authority_hints=hints, metadata=endpoint(IM))),
            fetch_of(IM, RP): paged(texts.sealed(IM, RP, "im", metadata_policy=policy))}


def marks(texts):
    """Three entries of the entity's: a mark that is good, one of a type that has an owner, with the owner's delegation, and one of a type that isn't
    listed."""
    delegation = texts.sealed(OWNER, TA, "owner", DELEGATION, trust_mark_type="owned")
    rows = {"t": {}, "owned": {"delegation": delegation}, "none": {}}
    return [{"trust_mark_type": typ, "trust_mark": texts.sealed(TA, RP, "ta", MARK, trust_mark_type=typ, **more)} for typ, more in rows.items()]


def web_of(texts):
    """The pages of an entity with marks below an intermediate below the anchor."""
    own = {"trust_mark_issuers": {"t": [TA], "owned": []}, "trust_mark_owners": {"owned": {"sub": OWNER, "jwks": {"keys": [texts.keys["owner"]]}}}}
    return {**leaf(texts, trust_marks=marks(texts)), **between(texts, {"contacts": {"add": ["help"]}}, TA),
            page_of(TA): paged(texts.sealed(TA, TA, "ta", metadata=endpoint(TA), **own)), fetch_of(TA, IM): paged(texts.sealed(TA, IM, "ta"))}


def resolves(texts):
    """An entity that is resolved by the command, and by a resolver: each answer that there is, one after the other by the cache, and two at once."""
    pages = web_of(texts)
    cut, gone = ({call: page for call, page in pages.items() if call != missing} for missing in (fetch_of(TA, IM), page_of(RP)))
    far = [[f"https://{letter}{number}.example" for number in range(31)] for letter in "xy"]
    files = node_files(texts, 1)
    words = ["resolve", "--config", "config", "--sub", RP, "--anchor"]
    serve = ["resolver", "--config", "config", "--port", "PORT", "--connections"]
    get = f"GET /resolve?sub={RP}&trust_anchor=%s HTTP/1.1\r\nHost: a\r\n\r\n"
    usual = 200, (get % TA).encode()
    rows = {
        "resolver": (pages, usual), "resolver-absent": (gone, (404, usual[1])), "resolver-chain": (cut, (400, usual[1])),
        "resolver-anchor": (pages, (404, (get % IM).encode())), "resolver-request": (pages, (400, (get % "x").encode())),
        "resolver-policy": ({**pages, **between(texts, {"client_name": {"one_of": ["B"]}}, TA)}, (400, usual[1])),
        "resolver-fetch": ({**pages, page_of(IM): RESET}, (503, usual[1])),
        "resolver-bound": ({**pages, **leaf(texts, authority_hints=[IM, *far[0]]), **between(texts, {}, *far[1])}, (500, usual[1])),
        **{f"resolver-keys{name}": (pages, asked) for name, asked in changes(texts).items()},
    }
    return [
        Case("resolve", 0, [*words, TA], b"", files, pages), Case("resolve-chain", 1, [*words, TA], b"", files, cut),
        Case("resolve-anchor", 1, [*words, IM], b"", files, pages),
        *registers(texts, files, pages, gone),
        *(Case(name, 0, [*serve, "1"], b"", files, found, [asked]) for name, (found, asked) in rows.items()),
        Case("resolver-again", 0, [*serve, "3"], b"", files, pages, [usual] * 3),
        Case("resolver-workers", 0, [*serve, "2"], b"", node_files(texts, 2), pages, [usual] * 2, True),
    ]


def registers(texts, files, pages, gone):
    """A relying party that is registered: by its chain and by its configuration, and what is refused."""
    body = {call: page.split(b"\r\n\r\n")[1].decode() for call, page in pages.items()}
    chain = json.dumps([body[page_of(RP)], body[fetch_of(IM, RP)], body[fetch_of(TA, IM)], body[page_of(TA)]]).encode()
    words, posted = ["register", "--config", "config", "--anchor"], body[page_of(RP)].encode()
    return [
        Case("register", 0, [*words, TA], posted, files, pages), Case("register-chain", 0, [*words, TA], chain, files, pages),
        Case("register-none", 1, [*words, TA], posted, files, gone), Case("register-form", 1, [*words, TA], b"x", files, pages),
        Case("register-anchor", 1, [*words, IM], posted, files, pages), Case("register-type", 1, [*words, TA], b"[\"%s\"]" % body[page_of(TA)].encode(), files, pages),
    ]


def node_files(texts, workers):
    """The files of a resolver, whose routes lead to the web."""
    routes = [{"host": entity.removeprefix("https://"), "ip": "127.0.0.1", "port": "WEB"} for entity in (RP, IM, TA)]
    resolver = {"anchors": [{"entity_id": TA, "jwks": {"keys": [texts.keys["ta"]]}}], "age": 60, "workers": workers,
                "control": {"keys": [texts.keys["control"]]}, "routes": routes}
    config = {"entity_id": "https://resolver.example", "ring": "ring", "lifetime": 60, "resolver": resolver}
    return {"config": json.dumps(config).encode(), "ring": texts.ring("node")}


def changes(texts):
    """Requests for other keys of an anchor, each with the status of its answer."""
    keys = {"keys": [texts.keys["im"]]}
    claims = [{"anchor": TA, "epoch": 0, "jwks": keys}, {"anchor": IM, "epoch": 0, "jwks": keys}, {"anchor": TA, "epoch": 1, "jwks": keys}]
    with multiprocessing.get_context("fork").Pool(len(claims)) as workers:
        good, other, late = workers.starmap(sealed, [(it, "anchor-keys+jwt", seeds(11).decode().strip(), texts.keys["control"]) for it in claims])
    stranger = good[:-9] + ("B" if good[-9] == "A" else "A") + good[-8:]
    rows = {"": (200, good), "-stranger": (403, stranger), "-anchor": (404, other), "-epoch": (409, late), "-none": (400, "x")}
    post = "POST /anchor-keys HTTP/1.1\r\nContent-Length: %d\r\n\r\n%s"
    return {name: (status, (post % (len(text), text)).encode()) for name, (status, text) in rows.items()}


def three_keys(texts):
    """The node's ring with a newer key that signs, one that is revoked, and its own, which is retired."""
    with open(f"{texts.place}/three", "wb", opener=private) as it:
        it.write(texts.ring("node"))
    rotate = ["rotate", "--ring", "three", "--act"]
    revoked = [fed([*rotate, "add", "--at", "1", "--exp", str(END)], seeds(number), texts.place).decode().strip() for number in (13, 14)][0]
    fed([*rotate, "retire", "--kid", texts.keys["node"]["kid"]], b"", texts.place)
    fed([*rotate, "revoke", "--kid", revoked, "--at", "5", "--reason", "compromised"], b"", texts.place)
    return texts.ring("three")


def requests(texts):
    """One request of each kind at an authority, which serves one connection. A kind that comes is a row here."""
    mark = fed(["issue", "--ring", "node", "--typ", MARK], json.dumps({"iss": NODE, "sub": RP, "trust_mark_type": "t", "iat": 1}).encode(), texts.place)
    config = {"entity_id": NODE, "ring": "ring", "lifetime": 3600, "authority_hints": [TA], "metadata": {"federation_entity": {"organization_name": "N"}},
              "subordinates": [{"entity_id": RP, "jwks": {"keys": [texts.keys["rp"]]}, "entity_types": ["openid_relying_party"],
                                "metadata_policy": {"openid_relying_party": {"contacts": {"add": ["a"]}}}}]}
    files = {"config": json.dumps(config).encode(), "ring": three_keys(texts)}
    words = ["authority", "--config", "config", "--port", "PORT", "--connections", "1"]
    get, form = b"GET /fed%s HTTP/1.1\r\nHost: a\r\n\r\n", b"trust_mark=" + mark.strip()
    rows = [
        ("configuration", 200, get % b"/.well-known/openid-federation"), ("fetch", 200, get % b"/fetch?sub=https%3A%2F%2Frp.example"),
        ("fetch-stranger", 404, get % b"/fetch?sub=https%3A%2F%2Fno.example"), ("list", 200, get % b"/list?entity_type=openid_relying_party"),
        ("historical-keys", 200, get % b"/historical-keys"),
        ("mark-status", 200, b"POST /fed/trust-mark-status HTTP/1.1\r\nContent-Length: %d\r\n\r\n" % len(form) + form),
        ("no-request", 400, b"BREW /fed HTTP/1.1\r\n\r\n"),
    ]
    return [Case(f"authority-{name}", 0, words, b"", files, None, [(status, asked)]) for name, status, asked in rows]


# ---- one run

class Outcome:
    def __init__(self, status, out, err, answers, files, pages, told):
        self.status, self.out, self.err, self.answers, self.files, self.pages = status, out, err, answers, files, pages
        self.allocations, self.calls, self.failed = told

    def same(self, other):
        return (self.status, self.out, self.answers) == (other.status, other.out, other.answers)


web, lane, lanes, running = None, 0, 1, None


def start(free_lanes, of_how_many):
    """Gives this process ports that no other one takes, and lets it end when it is told to."""
    global lane, lanes
    lane, lanes = free_lanes.get() + of_how_many * random.randrange(12000), of_how_many
    signal.signal(signal.SIGTERM, stop)


def stop(*_):
    """Ends this process and the program that it runs: at once, since its web's thread may hold a lock that the end of Python waits for."""
    if running is not None:
        running.kill()
    os._exit(1)


def own_port():
    """A port of this process, one after the other, on which nobody listens. All are below those that Linux gives outgoing connections."""
    global lane
    while True:
        lane += lanes
        port = 20000 + lane % (12000 // lanes * lanes)
        if is_free(port):
            return port


def private(path, flags):
    return os.open(path, flags, 0o600)


def files_for(case, place):
    """Makes the folder and its files anew."""
    global web
    shutil.rmtree(place, ignore_errors=True)
    os.mkdir(place)
    if case.pages is not None:
        web = web or Web(own_port())
        web.pages, web.calls = case.pages, []
    for name, data in before_of(case).items():
        with open(f"{place}/{name}", "wb", opener=private) as it:
            it.write(data)


def before_of(case):
    """The files that a run of this process finds."""
    port = b'"WEB"' if case.pages is None else str(web.port).encode()
    return {name: data.replace(b'"WEB"', port) for name, data in case.files.items()}


def connected(port, asked, running):
    """A connection on which the server is asked, once it listens, or none where it ends before. Where it does neither for long this fails."""
    last = time.monotonic() + PATIENCE
    while True:
        try:
            peer = socket.create_connection(("127.0.0.1", port), timeout=PATIENCE)
            break
        except ConnectionRefusedError:
            if running.poll() is not None:
                return None
            if time.monotonic() > last:
                raise
            time.sleep(0.002)
        except ConnectionResetError:
            return None
    try:
        peer.sendall(asked)
    except (ConnectionResetError, BrokenPipeError):
        pass                                                 # what comes tells
    return peer


def answer_on(peer):
    """All that comes on the connection."""
    got = b""
    if peer is not None:
        with peer:
            try:
                while piece := peer.recv(65536):
                    got += piece
            except (ConnectionResetError, BrokenPipeError):
                pass
    return got


def talk(case, port, running):
    """What comes of each request."""
    if case.at_once:
        return [*map(answer_on, [connected(port, asked, running) for _, asked in case.asked])]
    return [answer_on(connected(port, asked, running)) for _, asked in case.asked]


def run(case, place, way=None, begin=0, end=0, now=NOW):
    """One run in a folder of its own, with these calls failing."""
    global running
    files_for(case, place)
    told, port = f"{place}.told", own_port() if case.asked else 0
    env = {name: value for name, value in os.environ.items() if not name.startswith(("FED_", "FAIL_"))}
    env |= {"LD_PRELOAD": options.library, "FAIL_NOW": str(now), "FAIL_TOLD": told, "FED_LOG": "on"}
    env |= {"FAIL_HOW": way, "FAIL_FROM": str(begin), "FAIL_TO": str(end)} if way else {}
    words = [str(port) if word == "PORT" else word for word in case.words]
    with open(f"{place}.input", "wb") as it:
        it.write(case.given)
    with open(f"{place}.input", "rb") as given:
        running = subprocess.Popen([options.program, *words], cwd=place, stdin=given, stdout=subprocess.PIPE, stderr=subprocess.PIPE, env=env)
    try:
        answers = talk(case, port, running)
        out, err = running.communicate(timeout=PATIENCE)
    except (subprocess.TimeoutExpired, OSError) as error:
        running.kill()
        out, err = running.communicate()
        answers = [repr(error).encode()]
    found = {name: contents(f"{place}/{name}") for name in os.listdir(place)}
    counts = [int(word) for word in contents(told).split()] if os.path.exists(told) else (0, 0, 0)
    if os.path.exists(told):
        os.remove(told)
    return Outcome(running.returncode, out, err, answers, found, web.calls if case.pages is not None else [], counts)


# ---- what a run may do

def is_leftover(name):
    return name == "ring.lock" or name.startswith("ring.new-")


def told_of(case, right, early, answer, failed, way):
    """The word for one answer of a server, or none where it is amiss. An early one is that of the moment 0."""
    rows = [("right", True, answer == right), ("nothing", True, not answer), ("507", way == "memory", answer == WANTING),
            ("503", failed & (NETWORK | TIMER) and case.pages is not None, answer == UNAVAILABLE), ("early", failed & CLOCK, answer == early),
            ("broken off", failed & (CALLER | TIMER), right.startswith(answer))]
    return next((word for word, may, so in rows if may and so), None)


def answers_of(case, whole, early, got, way, alone):
    """The words for the answers that aren't right, or none where one of them is amiss. Behind the last one that a server which ended had to give
    there may be nothing."""
    rows = zip(whole.answers, early.answers, got.answers)
    words = [told_of(case, *row, got.failed, way) for row in rows]
    while got.status and words and words[-1] == "nothing":
        words.pop()
    other = [word for word in words if word != "right"]
    again = len(got.pages) - len(set(got.pages)) if alone and not case.at_once else 0
    if len(got.answers) != len(case.asked) or None in words or ("nothing" in words and not got.failed & (CALLER | TIMER)) or again > 1:
        return None
    if (alone and len(other) > (got.status == 0)) or (way == "memory" and got.status and case.asked and len(words) == len(case.asked)):
        return None
    return ["broken off" if word == "nothing" else word for word in other]


def fault_of(case, whole, early, got, way, alone):
    """The word for a run that ended as it may, or what is amiss."""
    before, seed = before_of(case), case.given.strip()
    if len(seed) == 96 and (seed in got.err or seed in got.out):
        return "the seeds are told", False
    files = got.files
    if got.failed & AWAY or way == "late":
        files = {name: data for name, data in files.items() if not is_leftover(name) or name in whole.files}
    old, new = files == before, files == whole.files
    if got.same(whole) and new:
        return "right", True
    nothing, kept, other = not got.out, old or new, answers_of(case, whole, early, got, way, alone)
    if way == "memory":
        rows = [(5, nothing and old, "5"), (6, nothing and kept and before != whole.files, "6"), (0, other and got.out == whole.out and new, other)]
    else:
        rows = [(3, got.failed & INPUT and nothing and old, "3"), (4, got.failed & OUTPUT and whole.out.startswith(got.out) and new, "4"),
                (6, got.failed & FILES and nothing and kept, "6"), (7, got.failed & (NETWORK | TIMER) and nothing and old, "7"),
                (early.status, got.failed & CLOCK and not case.asked and got.same(early) and old, "early"),
                (0, other and got.out == whole.out and new, other)]
    for status, so, word in rows:
        if got.status == status and so and other is not None and way != "short":
            return word if isinstance(word, str) else ", ".join(sorted({*word})), True
    shown = [str(answer)[:200] for answer in got.answers]
    return (f"status {got.status}, wrote {got.out[:100]!r}, answered {shown}, failed {got.failed}, files {sorted(got.files)}, "
            f"{'the old' if old else 'the new' if new else 'other'} ones, asked for {got.pages}, {got.err[:300]!r}"), False


def numbers(all_of, most):
    """Which of so many calls are tried, of which so many are tried at most."""
    each = min(options.each or all_of, most or all_of)
    step = max(1, (all_of - each) // each) if each < all_of else 1
    return [*range(1, min(each, all_of) + 1), *range(each + 1, all_of + 1, step)]


# ---- all of them, in processes of their own

cases, place = [], None


def whole_of(number):
    """The run with ample memory, and the one at the moment 0."""
    return run(cases[number], f"{place}/{os.getpid()}"), run(cases[number], f"{place}/{os.getpid()}", now=0)


def do(wanted):
    """One run of the case, its word, and whether it is as it may be."""
    number, whole, early, way, first = wanted
    case, alone = cases[number], not way.endswith(" from")
    got = run(case, f"{place}/{os.getpid()}", way.removesuffix(" from"), first, first if alone else LAST)
    if case.pages is not None:                               # each process has a web of its own, and so another port
        whole.files = before_of(case)
    word, so = fault_of(case, whole, early, got, way.removesuffix(" from"), alone)
    return way, first, word, so


def part_of(text):
    """K and N of K/N."""
    found = re.fullmatch(r"([1-9]\d*)/([1-9]\d*)", text)
    if found is None or int(found[1]) > int(found[2]):
        raise argparse.ArgumentTypeError(f"{text} isn't K/N, the K-th of N parts")
    return int(found[1]), int(found[2])


def words_given():
    parser = argparse.ArgumentParser(description=__doc__, formatter_class=argparse.RawDescriptionHelpFormatter)
    parser.add_argument("--each", type=int)
    parser.add_argument("--part", type=part_of, default="1/1", metavar="K/N")
    parser.add_argument("names", nargs="*", metavar="NAME")
    return chosen(parser)


def marks_in(text):
    """The types of the marks in a resolver's reply."""
    claims = json.loads(decoded(text.decode().split(".")[1]))
    return [mark["trust_mark_type"] for mark in claims["trust_marks"]]


def is_whole(case, whole):
    """Whether the run with ample memory is the one that the case names: replies have both good marks, and no page is asked for twice but by two at
    once."""
    statuses = [b" %d " % status for status, _ in case.asked]
    texts = [whole.out, *(answer.partition(b"\r\n\r\n")[2] for answer in whole.answers)]
    replies = [text for text in texts if text.startswith(b"ey") and case.pages is not None]
    once = case.at_once or len(set(whole.pages)) == len(whole.pages)
    return (whole.status == case.status and [answer[8:13] for answer in whole.answers] == statuses and once
            and all(marks_in(text) == ["t", "owned"] for text in replies))


def counted(number, workers):
    """Tries all of one case, and gives how many runs were amiss."""
    case = cases[number]
    whole, early = workers.apply(whole_of, (number,))
    failed, words = 0, collections.Counter()
    if not is_whole(case, whole):
        shown = f"{whole.out[:200]} {whole.err[:300]} {whole.answers}, asked for {whole.pages}"
        print(f"memory: {case.name} with ample memory: status {whole.status} {shown}", file=sys.stderr)
        failed += 1
    wanted = [(number, whole, early, way, first) for way in WAYS
              for first in numbers(whole.allocations if way.startswith("memory") else whole.calls, case.most)]
    part, parts = options.part
    wanted = wanted[part - 1 :: parts]
    for way, first, word, so in workers.imap_unordered(do, wanted, 4):
        words[word if so else "amiss"] += 1
        if not so:
            failed += 1
            print(f"memory: {case.name}, {way} {first}: {word}", file=sys.stderr)
    told = ", ".join(f"{count} {'with status ' if word.isdigit() and len(word) == 1 else ''}{word}" for word, count in sorted(words.items()))
    print(f"memory: {case.name}: {whole.allocations} allocations and {whole.calls} calls, in {len(wanted)} runs {told}", flush=True)
    return failed, len(wanted)


def main():
    global cases, place
    signal.signal(signal.SIGTERM, lambda *_: sys.exit(143))
    place = tempfile.mkdtemp()
    options.library = f"{place}/calls.so"
    try:
        subprocess.run([os.environ.get("CC", "cc"), "-O1", "-shared", "-fPIC", "-o", options.library, f"{TOP}/tests/lib/failing/calls.c", "-ldl"], check=True)
        os.mkdir(f"{place}/texts")
        texts = Texts(f"{place}/texts")
        cases = [*commands(texts), *inspections(texts), *resolves(texts), *requests(texts)]
        if unknown := {*options.names} - {case.name for case in cases}:
            sys.exit(f"memory: no such case: {' '.join(sorted(unknown))}")
        cases = [case for case in cases if not options.names or case.name in options.names]
        processors, context = len(os.sched_getaffinity(0)), multiprocessing.get_context("fork")
        (part, parts), free_lanes = options.part, context.SimpleQueue()
        for number in range(processors):
            free_lanes.put(number * parts + part - 1)
        with context.Pool(processors, start, (free_lanes, processors * parts)) as workers:
            done = [counted(number, workers) for number in range(len(cases))]
        failed, runs = (sum(column) for column in zip(*done))
        print(f"memory: {runs - failed} passed, {failed} failed")
        return 1 if failed else 0
    finally:
        shutil.rmtree(place)


options = words_given()
sys.exit(main())
