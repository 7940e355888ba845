"""A hostile web, over which `resolve` searches: pages that lie, are cut short, framed in other ways, or broken off. Which pages are asked for
tells which were taken: behind a configuration that is taken a statement is asked for, and behind a statement the superior of its issuer."""

import json
import socket
import threading

from . import changes, rules, searches, texts
from .callers import reset
from .pool import ABOVE, FAR, GONE, HUB, IM, RP, STATEMENT, SUPERIORS, TA
from .searches import NOT_FOUND, RESET, document, fetch_of, page_of

NO_ENTITY = b'{"error":"not_found","error_description":"no such entity"}\n'
NO_CHAIN = b'{"error":"invalid_trust_chain","error_description":"no valid trust chain"}\n'
FIELDS = [b"Content-Encoding: identity", b"Content-Encoding: gzip", b"content-encoding: IDENTITY", b"Content-Encoding:", b"Transfer-Encoding: chunked",
          b"Transfer-Encoding: gzip, chunked", b"Transfer-Encoding:", b"Content-Length: 5", b"Content-Length: -1", b"Content-Length: 262145",
          b"Content-Length: 18446744073709551616", b"Content-Length: 0", b"Content-Length:", b"Content-Length: 00000000000000000001", b"X: y", b"X : y", b" X: y",
          b"X", b": y", b"X: \x00", b"X: \xff", b"X: " + b"y" * 16000, b"Location: http://127.0.0.1/", b"Set-Cookie: a", b"Trailer: x", b"Connection: keep-alive"]
LINES = [b"HTTP/1.1 200 OK", b"HTTP/1.0 200 OK", b"HTTP/1.1 200", b"HTTP/1.1 200 ", b"HTTP/1.1  200 OK", b"HTTP/1.1 200 \xff", b"HTTP/1.1 200 O\x00K", b"HTTP/1.1 0200 OK",
         b"HTTP/1.1 20 OK", b"HTTP/1.1 204 No Content", b"HTTP/1.1 206 Partial Content", b"HTTP/1.1 301 Moved", b"HTTP/1.1 404 Not Found", b"HTTP/1.1 500 X",
         b"HTTP/1.1 100 Continue", b"HTTP/1.1 999 X", b"HTTP/2 200 OK", b"ICY 200 OK", b"http/1.1 200 OK", b"HTTP/1.1\t200 OK", b"HTTP/1.1 -20 OK", b"", b"\r\nHTTP/1.1 200 OK",
         b"HTTP/1.1 200OK"]


class Web:
    """Serves pages on one port, whatever the host, one after the other, and keeps the calls. A page is bytes, or a reset."""

    def __init__(self, port):
        self.pages, self.calls = {}, []
        self.listener = socket.socket()
        self.port = port
        self.listener.setsockopt(socket.SOL_SOCKET, socket.SO_REUSEADDR, 1)
        self.listener.bind(("127.0.0.1", port))
        self.listener.listen(64)
        threading.Thread(target=self.serve, daemon=True).start()

    def serve(self):
        while True:
            peer = self.listener.accept()[0]
            with peer:
                peer.settimeout(10)
                try:
                    self.answer(peer)
                except OSError:
                    pass                                     # the client may leave early

    def answer(self, peer):
        asked = b""
        while b"\r\n\r\n" not in asked and (more := peer.recv(65536)):
            asked += more
        if b"\r\n\r\n" not in asked:
            return
        line, host = asked.split(b"\r\n")[:2]
        call = (host.removeprefix(b"Host: ") + line.split(b" ")[1]).decode("latin-1")
        self.calls.append(call)
        page = self.pages.get(call, NOT_FOUND)
        if page is RESET:
            reset(peer)
        else:
            peer.sendall(page)


# ---- pages

def framed(rng, body):
    """An answer of this document, framed as answers may be."""
    kind = rng.randrange(4)
    if kind == 0:
        return b"HTTP/1.1 200 OK\r\n\r\n" + body
    if kind == 1:
        return b"HTTP/1.1 200 OK\r\nContent-Length: %d\r\nConnection: close\r\n\r\n" % len(body) + body
    if kind == 2:
        return b"HTTP/1.0 200 OK\r\ncontent-length:%d\r\n\r\n" % len(body) + body + rng.choice([b"", b"\r\n", b"more"])
    return b"HTTP/1.1 200 OK\r\nTransfer-Encoding: " + rng.choice([b"chunked", b"Chunked "]) + b"\r\n\r\n" + chunked(rng, body)


def chunked(rng, body):
    size = rng.choice([1000, 4096, len(body) or 1, 50])
    pieces = [body[at : at + size] for at in range(0, len(body), size)]
    made = b"".join(b"%x" % len(piece) + rng.choice([b"", b"", b";a=b", b" ", b" \t;"]) + b"\r\n" + piece + b"\r\n" for piece in pieces)
    return made + rng.choice([b"0\r\n\r\n", b"0\r\n", b"000\r\nX: y\r\n\r\n", b"0;x\r\n"])


def framed_otherwise(rng, body):
    """An answer that is mostly no document."""
    kind = rng.randrange(10)
    if kind == 0:
        return rng.choice(LINES) + b"\r\nContent-Length: %d\r\n\r\n" % len(body) + body
    if kind == 1:
        return b"HTTP/1.1 200 OK\r\n" + rng.choice(FIELDS) + b"\r\n" + rng.choice([b"", rng.choice(FIELDS) + b"\r\n"]) + b"\r\n" + body
    if kind == 2:
        return b"HTTP/1.1 200 OK\r\nContent-Length: %d\r\n\r\n" % (len(body) + rng.choice([1, -1, 100000, 300000])) + body
    if kind == 3:
        made = chunked(rng, body)
        return b"HTTP/1.1 200 OK\r\nTransfer-Encoding: chunked\r\n\r\n" + changes.of_bytes(rng, made)
    if kind == 4:
        size = rng.choice([b"ffffffffffffffff", b"10000000000000000", b"40000", b"40001", b"-1", b"0x10", b"", b" 5", b"5 5", b"g", b"\xff", b"0" * 16 + b"5",
                           b"5" + b" " * 20000, b"5;" + b"x" * 20000, b"0" * 1000, b"1\n", b"1\r"])
        return b"HTTP/1.1 200 OK\r\nTransfer-Encoding: chunked\r\n\r\n" + size + b"\r\n" + body
    if kind == 5:
        made = framed(rng, body)
        return made[: rng.randrange(len(made) + 1)]
    if kind == 6:
        return b"HTTP/1.1 200 OK\r\n" + b"A: b\r\n" * rng.choice([62, 63, 64, 65, 3000]) + b"\r\n" + body
    if kind == 7:
        return rng.choice([b"", b"\x00", b"\x16\x03\x01\x02\x00" * 50, rng.randbytes(20000), b"a" * 16384, b"\r\n" * 9000, b"HTTP/1.1 200 OK\r\n" * 2000, body])
    if kind == 8:
        size = rng.choice([262143, 262144, 262145, 400000]) if rng.random() < .2 else 0
        return framed(rng, body + b"A" * (size - len(body)))
    return changes.of_bytes(rng, framed(rng, body))


def changed_page(rng, good, others):
    """A page in place of this good text's."""
    kind = rng.random()
    if kind < .01:
        return RESET
    if kind < .45:
        parts = texts.Parts(rng, good)
        return framed(rng, parts.changed_hard() if rng.random() < .6 else parts.changed_softly())
    if kind < .5:
        return framed(rng, rng.choice(others).encode())
    return framed_otherwise(rng, good.encode())


# ---- what is good

def is_configuration(pool, page, entity):
    """Whether the page is a configuration of the entity, sealed by its own key and current. Only texts that were signed are."""
    found = document(page)
    text = found.decode("latin-1") if found is not None else None
    it = pool.known.get(text)
    return it is not None and it.own and it.iss == entity and it.keys.get(it.kid) == pool.signers[text]


def is_statement(page, superior, subject):
    """Whether the page reads as a statement under these names."""
    found = document(page)
    it = rules.statement(found) if found is not None else None
    return it is not None and (it.iss, it.sub) == (superior, subject)


# ---- searches

def wide(case, web):
    """A leaf with twenty superiors, of which half the pages are changed. No path leads to the anchor."""
    rng, pool = case.rng, case.pool
    others = [pool.texts[name] for name in ("ta", "leaf", "im about leaf", "superior 0", "statement 0", "superior 1")]
    pages, wanted, changed = {page_of(RP): framed(rng, pool.texts["web leaf"].encode())}, [page_of(RP)], set()
    above = []
    for number, superior in enumerate(SUPERIORS):
        for call, name in ((page_of(superior), f"superior {number}"), (fetch_of(superior, RP), f"statement {number}")):
            is_changed = rng.random() < (.55 if call == page_of(superior) else .7)
            pages[call] = changed_page(rng, pool.texts[name], others) if is_changed else framed(rng, pool.texts[name].encode())
            changed |= {call} if is_changed else set()
        wanted.append(page_of(superior))
        if is_configuration(pool, pages[page_of(superior)], superior):
            wanted.append(fetch_of(superior, RP))
            if is_statement(pages[wanted[-1]], superior, RP):
                above.append(page_of(ABOVE[number]))
    wanted += above
    faulty = any(pages.get(call) is RESET for call in wanted)
    return searched(case, web, pages, wanted, len(changed & set(wanted)), [(7, b"")] if faulty else [(1, NO_CHAIN)])


def leaf_alone(case, web):
    """A changed page of the leaf."""
    rng, pool = case.rng, case.pool
    good = pool.texts["web leaf"]
    page = changed_page(rng, good, [pool.texts["ta"], pool.texts["im about leaf"]])
    if is_configuration(pool, page, RP):
        wanted, answers = [page_of(RP), *map(page_of, SUPERIORS)], [(1, NO_CHAIN)]
    else:
        wanted, answers = [page_of(RP)], [(7, b"") if page is RESET else (1, NO_ENTITY)]
    return searched(case, web, {page_of(RP): page}, wanted, 1, answers)


def whole(case, web):
    """A chain that is there, with one page changed: a reply, or why there is none."""
    rng, pool = case.rng, case.pool
    names = {page_of(RP): "leaf", page_of(IM): "im", fetch_of(IM, RP): "im about leaf", page_of(TA): "ta", fetch_of(TA, IM): "ta about im"}
    at = rng.choice(list(names))
    pages = {call: framed(rng, pool.texts[name].encode()) for call, name in names.items()}
    pages[at] = changed_page(rng, pool.texts[names[at]], [pool.texts["im about leaf"], pool.texts["ta"]])
    same = document(pages[at]) == pool.texts[names[at]].encode()
    if same:
        answers, so = "a reply", lambda done: is_reply(pool, done)
    else:
        answers = (7, b"") if pages[at] is RESET else (1, NO_ENTITY if at == page_of(RP) else NO_CHAIN)
        so = lambda done: (done.status, done.out) == answers
    web.pages, web.calls = pages, []
    case.runs(words(case, web), b"", 1, so, answers, pages)


def is_reply(pool, done, leaf=None, marks=()):
    chain = [leaf or pool.texts["leaf"], *(pool.texts[name] for name in ("im about leaf", "ta about im", "ta"))]
    return done.status == 0 and searches.is_reply(pool, done.out.rstrip(b"\n"), chain, rules.key_set(pool.anchor_keys), marks=marks)


def marks(case):
    """A leaf that is signed anew, with as many changed marks as it may have: none of these is returned."""
    rng, pool, web = case.rng, case.pool, case.web
    good, entries, size = {pool.texts[f"mark of ta {typ}"]: typ for typ in ("t", "open")}, [], 0
    while size < 160000 and len(entries) < 20:
        text = rng.choice(list(good))
        if rng.random() < .85:
            text = texts.Parts(rng, text).changed_mark().decode("latin-1")
        typ = good.get(text, "t") if rng.random() < .3 else rng.choice(["t", "t", "open", "open", "owned", "none"])
        entries.append({"trust_mark_type": typ, "trust_mark": text})
        size += len(rules.compact(entries[-1]).encode())
    if size > 175000:
        entries.pop()
    claims = {**pool.claims["leaf"][0], "trust_marks": entries}
    sealed = case.worker.runner.run(["issue", "--ring", "rp.ring", "--typ", STATEMENT], json.dumps(claims).encode())
    leaf = sealed.out.decode().strip()
    pool.signers[leaf] = pool.keys["rp"].own
    names = {page_of(IM): "im", fetch_of(IM, RP): "im about leaf", page_of(TA): "ta", fetch_of(TA, IM): "ta about im"}
    web.pages, web.calls = {page_of(RP): framed(rng, leaf.encode()), **{call: framed(rng, pool.texts[name].encode()) for call, name in names.items()}}, []
    returned = [entry for entry in entries[:16] if good.get(entry["trust_mark"]) == entry["trust_mark_type"]]
    case.runs(words(case, web), b"", sum(entry["trust_mark"] not in good for entry in entries[:16]), lambda done: is_reply(pool, done, leaf, returned),
              f"a reply with {len(returned)} marks", web.pages)
    del pool.signers[leaf]
    pool.judge.known.pop(leaf, None)


def configuration(pool, web):
    """The name of a resolver's file whose routes lead to the web."""
    if not hasattr(web, "file"):
        hosts = [entity.split("/")[2] for entity in (RP, IM, TA, FAR, HUB, *SUPERIORS, *ABOVE, *GONE[0], *GONE[1])]
        web.file, web.config = f"web-{web.port}.json", pool.resolver({host: web.port for host in hosts})
        pool.write(web.file, json.dumps(web.config).encode())
    return web.file


def words(case, web):
    return ["resolve", "--config", configuration(case.pool, web), "--sub", RP, "--anchor", TA]


def searched(case, web, pages, wanted, changed, answers):
    web.pages, web.calls = pages, []
    case.runs(words(case, web), b"", changed, lambda done: (done.status, done.out) in answers and web.calls == wanted, (answers, wanted), pages,
              lambda: f"asked for {web.calls}")


def pages(case):
    kind = case.rng.random()
    web = case.web
    if kind < .01:
        whole(case, web)
    elif kind < .1:
        leaf_alone(case, web)
    else:
        wide(case, web)


KINDS = {"pages": pages, "marks": marks}
