#!/usr/bin/env python3
"""The built program as a resolver that serves, on loopback, over a web of fixed texts: each answer that a request for a resolved entity and one for
other keys of a trust anchor can have. Each reply is compared byte for byte but for its signature, which another implementation checks; each refusal
whole, with its head; and the pages that were asked for. It prints what differs and fails where anything does."""

import json
import multiprocessing
import os
import shutil
import socket
import subprocess
import sys
import threading
import time
import urllib.parse

sys.dont_write_bytecode = True
sys.path.insert(0, f"{os.path.dirname(os.path.dirname(os.path.abspath(__file__)))}/lib")
import sealing  # noqa: E402
from laid import free_port, guarded, tell, tried  # noqa: E402
from resolving import (  # noqa: E402
    CALLS, CHAIN, END, ENVIRONMENT, FED, IM, JM, KEYS, METADATA, NOW, PATIENCE, RESOLVED, RESOLVER, RP, TA, TA_OWN, USUAL, Web, about, config_of, differs_in, endpoint,
    fetch_of, hosts_in, own, page_of, place, sealed, unsealed, written)

REASONS = {200: "OK", 400: "Bad Request", 403: "Forbidden", 404: "Not Found", 409: "Conflict", 500: "Internal Server Error", 503: "Service Unavailable"}
REPLY = "application/resolve-response+jwt"
PP, ALONE, GONE, DOWN, FAR, LONG = (f"https://{name}.example" for name in ("pp", "alone", "gone", "down", "far", "long"))
FIRST, SECOND = ([f"https://{letter}{number}.example" for number in range(31)] for letter in "xy")
CONTROL, STRANGER = (f"{6:096x}", KEYS["other"]), (f"{5:096x}", KEYS[RESOLVER])
# what a node says of itself when it starts, behind its address
SIGNS = f"0 subordinates, 1 trust anchor, signs by {KEYS[RESOLVER]['kid']} until 1900000000 (2030-03-17 17:46:40 UTC)"


# ---- a resolver that serves

class Resolver:
    """A resolver on a port of its own, over a web, for so many connections, after which it ends by itself."""

    def __init__(self, pages, web, connections, workers=1, log="off"):
        self.port, self.connections, self.has_log = free_port(), connections, log != "off"
        hosts = {**hosts_in(pages, web), **{it.removeprefix("https://"): web.port for it in (PP, ALONE, GONE, DOWN, FAR, *FIRST, *SECOND)}}
        config = written(f"resolver-{self.port}.json", config_of(hosts, workers=workers))
        words = [FED, "resolver", "--config", config, "--port", str(self.port), "--connections", str(connections)]
        self.running = subprocess.Popen(words, cwd=place, stdout=subprocess.PIPE, stderr=subprocess.PIPE, env={**ENVIRONMENT, "FED_LOG": log})

    def __enter__(self):
        return self

    def __exit__(self, *failed):
        """Ends it where a row failed, else waits until it ends by itself, and looks at what it wrote."""
        if any(failed):
            self.running.kill()
        out, said = self.running.communicate(timeout=PATIENCE)
        self.logged = [line for line in said.decode().splitlines() if not line.startswith("fed: ")]
        ends = f"{self.connections} connection{'' if self.connections == 1 else 's'}, as many as --connections says"
        said_all = f"fed: {RESOLVER} starts on 127.0.0.1:{self.port}, {SIGNS}\nfed: {RESOLVER} ends after {ends}\n"
        wanted = 0, f"served {self.connections}\n", said_all
        told = "".join(line for line in said.decode().splitlines(True) if self.has_log is False or line.startswith("fed: "))
        found = self.running.returncode, out.decode(), told
        tell(f"the end: {found}, not {wanted}", any(failed) or found == wanted)

    def asked(self, given):
        """The whole answer to these bytes, up to the end of the connection."""
        end = time.monotonic() + PATIENCE
        while True:
            try:
                peer = socket.create_connection(("127.0.0.1", self.port), timeout=PATIENCE)
                break
            except ConnectionRefusedError:
                if time.monotonic() > end or self.running.poll() is not None:
                    raise
                time.sleep(0.02)
        with peer:
            peer.sendall(given)
            got = b""
            while more := peer.recv(65536):
                got += more
        return got


def get(path, *query):
    target = path + ("?" + urllib.parse.urlencode(query) if query else "")
    return f"GET {target} HTTP/1.1\r\nHost: resolver.example\r\n\r\n".encode()


def resolve(sub=RP, anchor=TA, types=()):
    return get("/resolve", ("sub", sub), ("trust_anchor", anchor), *(("entity_type", it) for it in types))


def keys(text):
    return b"POST /anchor-keys HTTP/1.1\r\nHost: resolver.example\r\nContent-Length: %d\r\n\r\n%s" % (len(text), text.encode())


def answer(status, body, kind="application/json"):
    return f"HTTP/1.1 {status} {REASONS[status]}\r\nContent-Type: {kind}\r\nContent-Length: {len(body)}\r\nConnection: close\r\n\r\n{body}".encode()


def refusal(status, error, description):
    return answer(status, f'{{"error":"{error}","error_description":"{description}"}}')


NO_REQUEST = refusal(400, "invalid_request", "not a request of this node")
NO_CHAIN = refusal(400, "invalid_trust_chain", "no valid trust chain")
NO_ENTITY = refusal(404, "not_found", "no such entity")
NO_ANCHOR = refusal(404, "invalid_trust_anchor", "no such trust anchor")
NO_CONTROL = refusal(403, "invalid_client", "not sealed by a control key")
UNAVAILABLE = refusal(503, "temporarily_unavailable", "a fetch failed")
BUDGET = refusal(500, "server_error", "search budget ended")
EPOCH_1 = answer(409, '{"epoch":1,"error":"invalid_request","error_description":"another epoch"}')


# ---- rows

def refused(resolver, web, row, given, wanted, calls=()):
    """A request whose whole answer is this."""
    before = len(web.calls)
    got = resolver.asked(given)
    tell(f"{row}: {got[:500]}, not {wanted[:500]}", got == wanted)
    tell(f"{row}: asked for {web.calls[before:]}, not {calls}"[:2000], web.calls[before:] == list(calls))


def resolved(resolver, web, row, given, calls, chain, metadata, exp, sub=RP, cut=None):
    """A request that is answered by this reply. The chain resolves to the metadata, of which `cut` is told."""
    before, begin = len(web.calls), int(time.time())
    head, _, body = resolver.asked(given).decode().partition("\r\n\r\n")
    moments = begin, int(time.time())
    wanted = answer(200, body, REPLY).decode().partition("\r\n\r\n")[0]
    tell(f"{row}: {head} {body[:200]}", head == wanted)
    tell(f"{row}: asked for {web.calls[before:]}, not {calls}"[:2000], web.calls[before:] == list(calls))
    differs = differs_in(body + "\n", moments, sub, chain, exp, metadata, (), cut) if head == wanted else head
    tell(f"{row}: differs in {differs}"[:2000], not differs)


def entities():
    """Entities that are resolved, by pages and by the cache, and each refusal of one."""
    policy = {"openid_relying_party": {"client_name": {"one_of": ["B"]}}}
    pages = {
        **USUAL, page_of(PP): sealed(own(PP, KEYS["other"], authority_hints=[IM], metadata=METADATA), "other"),
        fetch_of(IM, PP): sealed(about(IM, PP, metadata_policy=policy), IM), page_of(ALONE): sealed(own(ALONE, KEYS["other"]), "other"), page_of(DOWN): "reset",
        page_of(LONG): b"HTTP/1.1 200 OK\r\n\r\n" + b"a" * 262145,
        page_of(FAR): sealed(own(FAR, KEYS["other"], authority_hints=[JM, *FIRST]), "other"),
        page_of(JM): sealed(own(JM, authority_hints=SECOND, metadata=endpoint(JM)), JM), fetch_of(JM, FAR): unsealed(about(JM, FAR))}
    far = [page_of(FAR), page_of(JM), fetch_of(JM, FAR), *map(page_of, [*FIRST, *SECOND[:30]])]
    usual = CHAIN, RESOLVED, NOW + 7200
    with Web(pages) as web, Resolver(pages, web, 23) as resolver:
        resolved(resolver, web, "the usual web", resolve(), CALLS, *usual)
        resolved(resolver, web, "by the cache", resolve(), [], *usual)
        resolved(resolver, web, "one type", resolve(types=["openid_relying_party"]), [], *usual)
        resolved(resolver, web, "another type", resolve(types=["openid_provider"]), [], *usual, cut={})
        resolved(resolver, web, "the anchor", resolve(TA), [], [TA_OWN], endpoint(TA), END, sub=TA)
        refused(resolver, web, "an anchor that isn't listed", resolve(anchor=JM), NO_ANCHOR)
        refused(resolver, web, "an entity that isn't there", resolve(GONE), NO_ENTITY, [page_of(GONE)])
        refused(resolver, web, "a page of 262,145 bytes", resolve(LONG), NO_ENTITY, [page_of(LONG)])
        conflict = refusal(400, "invalid_metadata", "policies refuse the metadata")
        refused(resolver, web, "a policy", resolve(PP), conflict, [page_of(PP), fetch_of(IM, PP), page_of(PP), *CALLS[1:2], fetch_of(IM, PP), *CALLS[3:]])
        refused(resolver, web, "no hints", resolve(ALONE), NO_CHAIN, [page_of(ALONE)])
        refused(resolver, web, "a host that is down", resolve(DOWN), UNAVAILABLE, [page_of(DOWN)])
        refused(resolver, web, "a bound", resolve(FAR), BUDGET, far)
        for row, given in {
            "no subject": get("/resolve", ("trust_anchor", TA)), "no anchor": get("/resolve", ("sub", RP)),
            "two subjects": get("/resolve", ("sub", RP), ("sub", RP), ("trust_anchor", TA)), "a subject that is none": resolve("rp"),
            "an anchor that is none": resolve(anchor="ta"), "another path": get("/resolved", ("sub", RP), ("trust_anchor", TA)),
            "by POST": b"POST /resolve HTTP/1.1\r\nContent-Length: 0\r\n\r\n", "no length": b"POST /anchor-keys HTTP/1.1\r\n\r\n", "no HTTP": b"HELLO\r\n\r\n",
        }.items():
            refused(resolver, web, row, given, NO_REQUEST)
        refused(resolver, web, "the node's list", get("/list"), answer(200, "[]"))
        resolved(resolver, web, "at last", resolve(), [], *usual)


def leaf(entity, *hints):
    """The configuration of an entity that hints these."""
    return sealed(own(entity, KEYS["other"], authority_hints=hints, metadata=METADATA), "other")


def superior(entity, *hints):
    """The same of one that states others."""
    return sealed(own(entity, KEYS["other"], authority_hints=hints, metadata=endpoint(entity)), "other")


def choices():
    """Entities below two superiors, which hint each other and the anchor: the chain is over the first hint that leads up, also where another one's
    page can't be fetched."""
    i, j, first, second, around, lost = (f"https://{name}.example" for name in ("i", "j", "first", "second", "around", "lost"))
    leaves = {first: leaf(first, i, j), second: leaf(second, j, i), around: leaf(around, DOWN, j), lost: leaf(lost, DOWN)}
    over = {first: sealed(about(i, first), "other"), **{it: sealed(about(j, it), "other") for it in (second, around)}}
    above = {it: sealed(about(TA, it), TA) for it in (i, j)}
    pages = {
        **{page_of(it): text for it, text in leaves.items()}, page_of(i): superior(i, j, TA), page_of(j): superior(j, i, TA), page_of(TA): TA_OWN,
        page_of(DOWN): "reset", fetch_of(TA, i): above[i], fetch_of(TA, j): above[j], fetch_of(i, j): unsealed(about(i, j)),
        fetch_of(j, i): unsealed(about(j, i)), fetch_of(i, first): over[first], fetch_of(j, first): unsealed(about(j, first)),
        fetch_of(j, second): over[second], fetch_of(i, second): unsealed(about(i, second)), fetch_of(j, around): over[around]}
    both = [page_of(i), fetch_of(i, first), page_of(j), fetch_of(j, first), fetch_of(j, i), page_of(TA), fetch_of(TA, i), fetch_of(i, j), fetch_of(TA, j)]
    with Web(pages) as web, Resolver(pages, web, 4) as resolver:
        for row, sub, up, calls in (("two superiors", first, i, both), ("the same, exchanged", second, j, [fetch_of(j, second), fetch_of(i, second)]),
                                    ("around a host that is down", around, j, [page_of(DOWN), fetch_of(j, around)])):
            chain = [leaves[sub], over[sub], above[up], TA_OWN]
            resolved(resolver, web, row, resolve(sub), [page_of(sub), *calls], chain, METADATA, END, sub=sub)
        refused(resolver, web, "a superior that is down", resolve(lost), UNAVAILABLE, [page_of(lost), page_of(DOWN)])


def depths():
    """Eight entities above each other below the anchor: the lowest has a chain, with eight statements, and one below it has none. And a circle of
    them, from which the anchor isn't reached."""
    names, below = [f"https://c{number}.example" for number in range(8)], "https://below.example"
    ups = list(zip([*names[1:], TA], names))
    texts = {page_of(it): superior(it, up) for up, it in ups}
    statements = {fetch_of(up, it): sealed(about(up, it), "other" if up != TA else TA) for up, it in ups}
    pages = {**texts, **statements, page_of(TA): TA_OWN, page_of(below): leaf(below, names[0]), fetch_of(names[0], below): unsealed(about(names[0], below))}
    calls = [call for up, it in [(names[0], below), *ups[:-1]] for call in (page_of(up), fetch_of(up, it))]
    with Web(pages) as web, Resolver(pages, web, 2) as resolver:
        refused(resolver, web, "nine statements", resolve(below), NO_CHAIN, [page_of(below), *calls])
        resolved(resolver, web, "eight statements", resolve(names[0]), [page_of(TA), fetch_of(TA, names[7])],
                 [texts[page_of(names[0])], *statements.values(), TA_OWN], endpoint(names[0]), END, sub=names[0])
    circle = {**pages, page_of(names[7]): superior(names[7], names[0])}
    with Web(circle) as web, Resolver(circle, web, 1) as resolver:
        refused(resolver, web, "a circle", resolve(names[0]), NO_CHAIN, [page_of(names[0]), *calls[2:]])


def bounds():
    """Searches at their bounds: as many pages as may be asked for, and more paths than may be looked at."""
    near, above = "https://near.example", "https://above.example"
    pages = {page_of(near): leaf(near, above, *FIRST[:30]), page_of(above): superior(above, *SECOND), fetch_of(above, near): unsealed(about(above, near))}
    with Web(pages) as web, Resolver(pages, web, 1) as resolver:
        refused(resolver, web, "64 pages", resolve(near), NO_CHAIN, [*pages, *map(page_of, [*FIRST[:30], *SECOND])])
    eight = [f"https://k{number}.example" for number in range(8)]
    stated = [fetch_of(up, it) for it in eight for up in eight[1:] if up != it]
    pages = {**{page_of(it): superior(it, *eight) for it in eight}, **{fetch_of(up, it): unsealed(about(up, it)) for it in eight for up in eight if up != it}}
    calls = [page_of(eight[0]), *(call for up, statement in zip(eight[1:], stated) for call in (page_of(up), statement)), *stated[7:]]
    with Web(pages) as web, Resolver(pages, web, 1) as resolver:
        refused(resolver, web, "a lattice", resolve(eight[0]), BUDGET, calls)


def faults():
    """The usual web with each of its pages in turn not to be fetched."""
    for number, call in enumerate(CALLS):
        pages = {**USUAL, call: "reset"}
        with Web(pages) as web, Resolver(pages, web, 1) as resolver:
            refused(resolver, web, f"a fault of call {number}", resolve(), UNAVAILABLE, CALLS[:number + 1])


def change(anchor, epoch, key, by=CONTROL):
    """A text that sets the key of an anchor, sealed by a control key or another."""
    return sealing.sealed({"anchor": anchor, "epoch": epoch, "jwks": {"keys": [key]}}, "anchor-keys+jwt", *by)


def rotations(strange, other, back, others):
    """Other keys for an anchor: each refusal, and what is resolved before and after two changes."""
    stranger = unsealed({"anchor": TA, "epoch": 0, "jwks": {"keys": [KEYS["other"]]}}, typ="anchor-keys+jwt", kid=KEYS["other"]["kid"])
    usual = CHAIN, RESOLVED, NOW + 7200
    with Web(USUAL) as web, Resolver(USUAL, web, 13) as resolver:
        resolved(resolver, web, "before", resolve(), CALLS, *usual)
        refused(resolver, web, "no text", keys("x"), NO_REQUEST)
        refused(resolver, web, "a text of another type", keys(TA_OWN), NO_REQUEST)
        refused(resolver, web, "keys by a stranger", keys(stranger), NO_CONTROL)
        refused(resolver, web, "keys of another anchor", keys(strange), NO_ANCHOR)
        resolved(resolver, web, "still", resolve(), [], *usual)
        refused(resolver, web, "other keys", keys(other), answer(200, '{"epoch":1}'))
        refused(resolver, web, "other keys again", keys(other), EPOCH_1)
        refused(resolver, web, "keys by a key that is no control key", keys(others), NO_CONTROL)
        refused(resolver, web, "under the other keys", resolve(), NO_CHAIN, CALLS)
        refused(resolver, web, "the keys of before", keys(back), answer(200, '{"epoch":2}'))
        resolved(resolver, web, "under the keys of before", resolve(), [], *usual)
        refused(resolver, web, "an anchor that isn't listed", resolve(anchor=JM), NO_ANCHOR)


def at_once():
    """At four workers one caller, which waits for no other, and then eight at once."""
    with Web(USUAL) as web, Resolver(USUAL, web, 9, workers=4) as resolver:
        resolved(resolver, web, "a lone caller", resolve(), CALLS, CHAIN, RESOLVED, NOW + 7200)

        def ask():
            resolved(resolver, web, "one of eight", resolve(), [], CHAIN, RESOLVED, NOW + 7200)

        threads = [threading.Thread(target=guarded, args=(ask,)) for _ in range(8)]
        for it in threads:
            it.start()
        for it in threads:
            it.join()


def logged():
    """The log names the entity that is to be resolved, and of a refusal the error, and behind which address a fetch failed and why; in lines, and in
    objects of JSON."""
    names = "path", "status", "sub", "error", "description", "fetch", "failed"
    for form in ("lines", "json"):
        pages = {**USUAL, page_of(DOWN): "reset"}
        with Web(pages) as web, Resolver(pages, web, 4, log=form) as resolver:
            resolved(resolver, web, "with a log", resolve(), CALLS, CHAIN, RESOLVED, NOW + 7200)
            refused(resolver, web, "with a log", resolve(anchor=JM), NO_ANCHOR)
            refused(resolver, web, "with a log", resolve(DOWN), UNAVAILABLE, [page_of(DOWN)])
            resolver.asked(get("/list"))
        at, broken = f"127.0.0.1:{web.port}", "the connection was reset"
        if form == "json":
            told = [tuple(line[name] for name in names if name in line) for line in map(json.loads, resolver.logged)]
            wanted = [("/resolve", 200, RP), ("/resolve", 404, RP, "invalid_trust_anchor", "no such trust anchor"), (at, broken),
                      ("/resolve", 503, DOWN, "temporarily_unavailable", "a fetch failed"), ("/list", 200)]
        else:
            told = [(its[1], *its[2:]) if its[1] == "fetch" else (its[3], its[4], *its[7:]) for its in (line.split(" ", 9) for line in resolver.logged)]
            wanted = [("/resolve", "200", RP), ("/resolve", "404", RP, "invalid_trust_anchor", "no such trust anchor"), ("fetch", *f"{at}: {broken}".split(" ")),
                      ("/resolve", "503", DOWN, "temporarily_unavailable", "a fetch failed"), ("/list", "200")]
        tell(f"the log: {resolver.logged}, not {wanted}", told == wanted)


def main():
    try:
        with multiprocessing.get_context("fork").Pool(4) as pool:
            changes = pool.starmap(change, [(JM, 0, KEYS["other"]), (TA, 0, KEYS["other"]), (TA, 1, KEYS[TA]), (TA, 1, KEYS["other"], STRANGER)])

        def changed():
            rotations(*changes)

        return tried("resolver", [entities, choices, depths, bounds, faults, changed, at_once, logged])
    finally:
        shutil.rmtree(place)


if __name__ == "__main__":
    sys.exit(main())
