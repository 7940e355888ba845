"""Hostile callers of a resolver, over a web of hostile pages: entities, anchors and types to be resolved, and other keys for an anchor. One process
serves a whole batch, and keeps its cache and its book. What it has to answer, and what it asks for, is what searches.py says."""

import json
import os

from . import changes, messages, searches, texts, webs
from .callers import CONNECT, FIELDS, Server, Told, form, talk
from .changes import Raw
from .pool import ABOVE, CHANGE, FAR, GONE, HUB, IM, LONG, NODE, RELYING, RESOLVER, RP, SUPERIORS, TA
from .searches import fetch_of, page_of

UNKNOWN = [NODE, RESOLVER, RP + "/", IM + "/", "http://rp.example", "https://rp.example:443", "https://rp.example:80", "https://im.example", TA + "/x",
           LONG[0], "https://h1.example/" + "a" * 1900, "https://nowhere.example"]
TARGETS = [b"/resolve/", b"//resolve", b"/Resolve", b"/resolved", b"/%72esolve", b"/anchor-keys", b"/fetch"]
TYPES = [RELYING, "other", "third", "federation_entity", "", "\u0000", "x" * 2000, "\u00e9"]
# what is served at each page that is there, of which that of the leaf may be one of several
PAGES = {page_of(RP): "leaf", page_of(IM): "im", fetch_of(IM, RP): "im about leaf", page_of(TA): "ta", fetch_of(TA, IM): "ta about im",
         page_of(FAR): "far", page_of(HUB): "hub", fetch_of(HUB, FAR): "hub about far"}
for place, superior in enumerate(SUPERIORS):
    PAGES |= {page_of(superior): f"superior {place}", fetch_of(superior, RP): f"statement {place}"}
CHAIN = list(PAGES)[:5]
WIDE = [page_of(RP), *list(PAGES)[8:]]
SIGNED = .06                                                 # of the requests that a signature comes of, which is dear


# ---- requests

def question(rng):
    """A request for an entity: of some parameters, each of which may be another, there twice, or not at all."""
    sub = rng.choice([RP] * 6 + [IM, TA, FAR, rng.choice(SUPERIORS), rng.choice(ABOVE + [HUB, *GONE[0]]), rng.choice(UNKNOWN)])
    if rng.random() < .1:
        sub = changes.other_text(rng, sub)
    anchor = TA if rng.random() < .9 else rng.choice([IM, RP, TA + "/", "", changes.other_text(rng, TA)])
    given = [("sub", sub), ("trust_anchor", anchor), *(("entity_type", typ) for typ in rng.sample(TYPES, rng.choice([0, 0, 0, 1, 2, 8])))]
    kind = rng.randrange(24)
    if kind == 0:
        del given[rng.randrange(2)]
    elif kind == 1:
        given.append(rng.choice(given))
    elif kind == 2:
        given[rng.randrange(2)] = (rng.choice(["Sub", "", "anchor", "sub[]", "sub\u0000", "trust_anchor ", "x" * 5000]), sub)
    elif kind < 6:
        rng.shuffle(given)
    target = b"/resolve" if rng.random() < .96 else rng.choice(TARGETS)
    method = b"GET" if rng.random() < .98 else rng.choice([b"POST", b"HEAD", b"get"])
    fields = rng.choice(FIELDS) + b"\r\n" if rng.random() < .06 else b""
    data = method + b" " + target + b"?" + form(rng, given) + b" HTTP/1.1\r\nHost: a\r\n" + fields + b"\r\n"
    return changes.of_bytes(rng, data) if rng.random() < .04 else data


class Change(texts.Parts):
    """The parts of a text that states other keys for an anchor."""

    SOFT = [change for change in texts.Parts.SOFT if change is not texts.Parts.another_moment]

    def another_epoch(self):
        number = Raw(self.rng.choice(changes.NUMBERS))
        self.claims["epoch"] = self.rng.choice([number, number, self.rng.randrange(4), "0", None, True, [0], (1 << 62) - 1, 1 << 62])

    def another_anchor(self):
        self.claims["anchor"] = self.rng.choice([TA, IM, changes.other_text(self.rng, TA), self.rng.choice(UNKNOWN), None, 5, [TA]])

    def other_keys(self, pool):
        self.claims["jwks"] = Raw(texts.changed_keys(self.rng, pool))

    def another_type(self):
        self.header["typ"] = self.rng.choice(["entity-statement+jwt", CHANGE + " ", CHANGE.upper(), "anchor-keys", "", None, 1])


def changed_body(rng, pool):
    """Other keys for an anchor, a change of some that were signed."""
    parts = Change(rng, pool.changes[rng.choice(list(pool.changes))])
    kind = rng.random()
    if kind < .4:
        parts.other_keys(pool)
    elif kind < .5:
        parts.another_epoch()
    elif kind < .6:
        parts.another_anchor()
    elif kind < .63:
        parts.another_type()
    elif kind < .75:
        return parts.changed_softly()
    else:
        return parts.changed_hard()
    return parts.text()


def posted(rng, body):
    length = len(body) + (rng.choice([-1, 1, 5]) if rng.random() < .01 else 0)
    target = rng.choice([b"/anchor-keys"] * 60 + [b"/anchor-keys/", b"/anchor-keys?a=b", b"/anchor_keys", b"/resolve"])
    return b"POST " + target + b" HTTP/1.1\r\nHost: a\r\nContent-Length: %d\r\n\r\n" % length + body


def plain(sub):
    return f"GET /resolve?sub={sub}&trust_anchor={TA} HTTP/1.1\r\nHost: a\r\n\r\n".encode()


# ---- one conversation

class Caller:
    """One who asks a resolver, over pages that change from time to time."""

    def __init__(self, worker, rng, report, kind):
        self.worker, self.rng, self.report, self.kind = worker, rng, report, kind
        self.pool, self.web = worker.pool, worker.web()
        self.file = webs.configuration(self.pool, self.web)
        self.node = searches.Resolver(self.web.config, self.pool)
        self.others = [self.pool.texts[name] for name in ("ta", "im about leaf", "superior 0", "statement 0", "superior 1")]
        self.changed = set()
        self.node.pages = {call: webs.framed(rng, self.pool.texts[name].encode()) for call, name in PAGES.items()}

    def good(self, call):
        """The text of a page that isn't changed: of a chain's leaf and statements one of many, with other policies."""
        name, kind = PAGES[call], self.rng.random()
        if call == page_of(RP):
            name = "web leaf" if self.kind == "searched" else self.rng.choice(["leaf", "web leaf", *self.rng.sample(self.pool.leaves, 4)])
        elif call == fetch_of(IM, RP) and kind < .7:
            name = self.rng.choice(self.pool.lower)
        elif call == fetch_of(TA, IM) and kind < .7:
            name = self.rng.choice(self.pool.upper)
        return self.pool.texts[name]

    def other_page(self, call, often):
        """Another page there, changed as often as this. Whether a text that only a reader of URLs can judge is kept isn't known; there is none."""
        while True:
            is_changed, text = self.rng.random() < often, self.good(call)
            page = webs.changed_page(self.rng, text, self.others) if is_changed else webs.framed(self.rng, text.encode())
            it = self.node.read(searches.document(page))
            if it is None or not it.doubted:
                break
        self.changed.discard(call)
        self.changed |= {call} if is_changed else set()
        self.node.pages[call] = page

    def other_pages(self):
        """Other pages: some of a chain and of others, or all of a wide web, of a leaf with twenty superiors."""
        if self.kind == "searched":
            for call in WIDE:
                self.other_page(call, .1 if call == page_of(RP) else .55 if call.endswith("federation") else .7)
        elif self.kind == "asked" and self.rng.random() < .5:
            for call in self.rng.sample(CHAIN, self.rng.choice([1, 1, 2])) + self.rng.sample(list(PAGES), self.rng.choice([0, 0, 1])):
                self.other_page(call, .25)

    def drawn(self):
        """A request: of keys mostly a changed one."""
        signed = self.pool.changes[self.rng.choice(list(self.pool.changes))].encode()
        if self.kind == "rotated":
            kind = self.rng.random()
            return plain(RP) if kind < .01 else posted(self.rng, signed if kind < .03 else changed_body(self.rng, self.pool))
        if self.kind == "searched":
            return plain(RP)
        return posted(self.rng, signed) if self.rng.random() < .02 else question(self.rng)

    def next(self):
        """The next request, with what it has to be answered. Few are answered with a signature. A chain that the cache has is found from then on,
        and so the anchor's keys are changed now and then."""
        self.other_pages()
        for _ in range(4):
            before, data = self.node.state(), self.drawn()
            wanted, length = self.node.answers(data)
            if wanted.answers or self.rng.random() < SIGNED:
                return data, wanted, length
            self.node.back(before)
        data = posted(self.rng, self.pool.changes["second" if self.node.epoch == 1 else "first"].encode())
        return data, *self.node.answers(data)

    def ask(self, server):
        data, wanted, length = self.next()
        self.web.pages, self.web.calls = self.node.pages, []
        try:
            with server.connect() as it:
                got, broken = talk(it, [data], "shut", 0)
            word = self.compared(got, broken and len(data) > length, wanted)
        except (Told, OSError, ValueError, KeyError, IndexError, TypeError, AttributeError) as error:
            raise Failed(data, f"{error!r}") from error
        self.report.count(word, len(self.changed & set(self.web.calls)) if self.kind == "searched" else 1)

    def compared(self, got, broken, wanted):
        """The answer in a word, where it is one that it may be."""
        if broken and (not wanted.answers or any(answer.startswith(got) for answer in wanted.answers)):
            return "reset"
        body = got.partition(b"\r\n\r\n")[2]
        if wanted.answers:
            asks(got in wanted.answers, f"{got[:300]!r} in place of {wanted.answers}")
        elif wanted.chain:
            asks(got == messages.answer(200, messages.MEDIA["resolve-response+jwt"], body), f"{got[:300]!r} in place of a reply")
            so = searches.is_reply(self.pool, body, wanted.chain, self.node.keys[TA], wanted.sub, types=wanted.types)
            asks(so, f"a reply with other claims: {body[:3000]!r}")
        else:
            claims = json.loads(changes.decoded(body.split(b".")[1]))
            asks(got.startswith(b"HTTP/1.1 200 OK\r\n") and claims["iss"] == RESOLVER, f"{got[:300]!r} in place of a signed answer")
        asks(wanted.calls is None or self.web.calls == wanted.calls, f"asked for {self.web.calls} in place of {wanted.calls}")
        return "200 reply" if wanted.chain else told(got)


class Failed(Exception):
    """A request was answered otherwise, and how."""


def asks(so, what):
    if not so:
        raise Told(what)


def told(got):
    """The status and the error of an answer that was compared."""
    error = got.partition(b'"error":"')[2].partition(b'"')[0]
    return f"{got[9:12].decode()} {error.decode()}".strip() if got else "ended"


# ---- batches

# how many changed inputs a connection looks at, or more
KINDS = {"asked": 1, "rotated": 1, "searched": 8}


def batch(kind, worker, rng, size, report):
    """So many cases at one process. Where fewer connections than it takes do for these, the others ask for nothing."""
    count = -(-size // KINDS[kind])
    caller = Caller(worker, rng, report, kind)
    made, data = 0, b""
    with Server(worker.pool, worker.port(), count, f"{worker.folder}/log", "resolver", caller.file) as server:
        try:
            while made < count and report.tried < size:
                caller.ask(server)
                made += 1
            for _ in range(count - made):
                with server.connect() as it:
                    talk(it, [b"x\r\n\r\n"], "shut", 0)
            wrong = server.ended()
            if wrong:
                raise Failed(data, f"the end after {count} connections: {wrong}")
        except Failed as failure:
            save(report, worker, kind, caller, failure, f"request {made} of {count}")


AGAIN = '''#!/usr/bin/env python3
"""Asks a resolver over the same pages once, as tests/hand/fuzz.py did; it came to this by a batch, which --batch makes again."""
import os, socket, subprocess, sys, time
os.chdir(os.path.dirname(os.path.abspath(__file__)))
sys.dont_write_bytecode = True
sys.path.insert(0, {tests!r})
from fuzzing import searches, webs
web = webs.Web({web})
web.pages = {{call: open(name, "rb").read() if name else searches.RESET for call, name in {pages!r}.items()}}
node = subprocess.Popen([{program!r}, "resolver", "--config", {config!r}, "--port", "{port}", "--connections", "1"])
{connect}it.sendall(open("request", "rb").read())
it.shutdown(socket.SHUT_WR)
while got := it.recv(65536):
    sys.stdout.buffer.write(got)
node.wait()
print(web.calls)
'''


def save(report, worker, kind, caller, failure, where):
    (data, what), pages = failure.args, caller.node.pages
    names = {call: None if page is searches.RESET else f"page-{number}" for number, (call, page) in enumerate(pages.items())}
    files = {"request": data, **{names[call]: page for call, page in pages.items() if names[call]}}
    for name in (caller.file, "resolver.ring"):
        with open(f"{worker.pool.folder}/{name}", "rb") as it:
            files[name] = it.read()
    tests = os.path.dirname(os.path.dirname(os.path.abspath(__file__)))
    port = worker.port()
    files["again"] = AGAIN.format(tests=tests, web=caller.web.port, pages=names, program=os.path.abspath(worker.pool.program), config=caller.file,
                                  port=port, connect=CONNECT.format(port=port)).encode()
    report.fail(kind, f"{where}: {what}", files)
