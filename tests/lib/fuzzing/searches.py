"""The rules of docs/rules/SEARCH.md, RESOLVING.md and SHELF.md once more: which pages a resolver asks for on an entity, which texts it keeps, and what it
answers, also on other keys for an anchor. Of entities that signed nothing here it is only said that they aren't found."""

import json
import time

from . import messages, rules
from .changes import decoded
from .pool import ABOVE, CHANGE, FAR, GONE, HUB, IM, RESOLVER, RP, SUPERIORS, TA

DEPTH, CALLS, AGE, SIGNATURE = 8, 64, 3600, 7856
RESET = object()
NOT_FOUND = b"HTTP/1.1 404 Not Found\r\nContent-Length: 0\r\n\r\n"
ENTITIES = {RP, IM, TA, FAR, HUB, *SUPERIORS, *ABOVE, *GONE[0], *GONE[1]}


def page_of(entity):
    return f"{entity.removeprefix('https://')}/.well-known/openid-federation"


def fetch_of(superior, subject):
    return f"{superior.removeprefix('https://')}/fetch?sub={subject.replace(':', '%3A').replace('/', '%2F')}"


def document(page):
    """The document of the page, or None."""
    found = None if page is RESET else messages.page(page)
    return found if isinstance(found, bytes) else None


def is_reply(pool, text, chain, keys, sub=RP, marks=(), types=()):
    """Whether the text is a reply with this chain to the anchor, which resolves under these keys to its metadata, and with these marks."""
    header, payload, signature = text.split(b".")
    moment = json.loads(decoded(payload))["iat"]
    verdict = pool.judge.answers(chain, TA, keys, moment)[-1].split("\n")
    metadata = {typ: held for typ, held in rules.tree_of(verdict[1].encode()).items() if not types or typ in types}
    wanted = {"exp": int(verdict[0].split(" ")[2]), "iat": moment, "iss": RESOLVER, "metadata": metadata, "sub": sub, "trust_chain": chain}
    wanted |= {"trust_marks": marks} if marks else {}
    so = decoded(header).decode() == rules.compact({"alg": rules.SMALL, "kid": pool.keys["resolver"].kid, "typ": "resolve-response+jwt"})
    return so and abs(moment - time.time()) < 30 and decoded(payload).decode() == rules.compact(wanted) and len(decoded(signature)) == SIGNATURE


class Spent(Exception):
    """A bound of the search was met."""


class Round:
    """One search, which looks into the cache or doesn't: `calls` are the pages that it asks for."""

    def __init__(self, resolver, moment, looks):
        self.resolver, self.moment, self.looks = resolver, moment, looks
        self.got, self.calls, self.hits, self.faulty, self.chain = {}, [], 0, False, None

    def text(self, url, names):
        if url not in self.got:
            kept, until = self.resolver.cache.get(url, (None, 0)) if self.looks else (None, 0)
            if self.moment < until:
                self.hits += 1
                self.got[url] = kept
            else:
                self.got[url] = self.fetched(url, names)
        return self.got[url]

    def fetched(self, url, names):
        if len(self.calls) == CALLS:
            raise Spent
        self.calls.append(url)
        page = self.resolver.pages.get(url, NOT_FOUND)
        self.faulty |= page is RESET
        found = document(page)
        it = self.resolver.read(found)
        if it and (it.iss, it.sub) == names and it.current(self.moment):
            self.resolver.cache[url] = found, min(it.claims["exp"], self.moment + AGE)
        return found

    def good(self, issuer, subject):
        """What the page says, where it is good."""
        found = self.text(page_of(issuer) if issuer == subject else fetch_of(issuer, subject), (issuer, subject))
        it = self.resolver.read(found)
        if it is None or (it.iss, it.sub) != (issuer, subject):
            return None
        if issuer != subject:
            return it
        signer = self.resolver.pool.signers.get(found.decode())
        return it if it.current(self.moment) and signer is not None and it.keys.get(it.kid) == signer else None

    def ended(self, leaf, anchor):
        """The word for how it ends."""
        try:
            word = self.searched(leaf, anchor)
        except Spent:
            word = "budget"
        return "fault" if self.faulty and word != "reply" else word

    def searched(self, leaf, anchor):
        if self.good(leaf, leaf) is None:
            return "entity"
        paths, word = [[leaf]], "chain"
        for path in paths:
            if path[-1] == anchor:
                texts = self.texts(path)
                verdict = self.resolver.pool.judge.answers(texts, anchor, self.resolver.keys[anchor], self.moment)[-1].split(" ")
                if verdict[0] == "valid":
                    self.chain = texts
                    return "reply"
                word = "policy" if verdict[2].strip() in ("Conflict", "Policy") else word
            elif len(path) <= DEPTH:
                paths += self.longer(path)
        return word

    def longer(self, path):
        """The path with each superior that states something of its last entity. Each is asked for in its turn."""
        for hint in dict.fromkeys(self.good(path[-1], path[-1]).claims.get("authority_hints", [])):
            if hint in path:
                continue
            it = self.good(hint, hint)
            if it is None or "federation_fetch_endpoint" not in it.claims.get("metadata", {}).get("federation_entity", {}):
                continue
            if self.good(hint, path[-1]) is not None:
                yield [*path, hint]

    def texts(self, path):
        urls = [page_of(path[0]), *(fetch_of(above, below) for below, above in zip(path, path[1:]))]
        return [self.got[url].decode() for url in urls + ([page_of(path[-1])] if len(path) > 1 else [])]


class Wanted:
    """The answers of which one has to come, or none where one is signed: a reply with this chain and these types, or what an authority issues. And
    the pages that are asked for, where they are known."""

    def __init__(self, answers, calls=None, chain=None, sub=None, types=()):
        self.answers, self.calls, self.chain, self.sub, self.types = answers, calls, chain, sub, types


class Resolver(messages.Node):
    """A resolver, with its cache and its book of anchors' keys, over these pages."""

    def __init__(self, config, pool):
        super().__init__(config)
        self.pool, self.pages, self.cache, self.epoch, self.memory = pool, {}, {}, 0, {}
        part = config["resolver"]
        self.keys = {it["entity_id"]: rules.key_set(it["jwks"]) for it in part["anchors"]}
        self.control = rules.key_set(part["control"])

    def answers(self, data):
        """What has to come of these bytes, and how many of them are read for it."""
        wanted, length = super().answers(data)
        if not isinstance(wanted, Wanted):
            wanted = Wanted([wanted] if isinstance(wanted, bytes) else [], [])
        return wanted, length

    def state(self):
        return dict(self.cache), self.epoch, dict(self.keys)

    def back(self, state):
        self.cache, self.epoch, self.keys = state

    def read(self, found):
        """The statement that a document is, or None."""
        if found is None:
            return None
        it = self.pool.known.get(found.decode("latin-1"))
        if it is None:
            if len(self.memory) > 200:
                self.memory.clear()
            if found not in self.memory:
                self.memory[found] = rules.statement(found)
            it = self.memory[found]
        return it

    def resolved(self, path, given):
        if path != b"/resolve":
            return messages.refusal("request")
        asked = [[value for name, value in given if name == its] for its in ("sub", "trust_anchor", "entity_type")]
        if any(len(values) != 1 for values in asked[:2]) or any(rules.identifier(values[0]) is False for values in asked[:2]):
            return Wanted([messages.refusal("request")], [])
        sub, anchor, types = asked[0][0], asked[1][0], asked[2]
        more = [] if rules.identifier(sub) and rules.identifier(anchor) else [messages.refusal("request")]
        if anchor not in self.keys:
            return Wanted([messages.refusal("anchor"), *more], [])
        if sub not in ENTITIES:
            more += [messages.refusal("fault")] if RESET in self.pages.values() else []
            return Wanted([messages.refusal("entity"), *more])
        return self.searched(sub, anchor, types)

    def searched(self, sub, anchor, types):
        its, calls = Round(self, int(time.time()), True), []
        word = its.ended(sub, anchor)
        if word != "reply" and its.hits:
            calls, its = its.calls, Round(self, its.moment, False)
            word = its.ended(sub, anchor)
        answers = [] if word == "reply" else [messages.refusal(word)]
        return Wanted(answers, calls + its.calls, its.chain, sub, types)

    def posted(self, path, read):
        if path != b"/anchor-keys":
            return super().posted(path, read)
        try:
            text, tree = rules.Text(read.body), None
            rules.asks(text.typ == CHANGE)
            tree = rules.tree_of(text.payload)
            rules.asks(rules.is_object(tree) and rules.identifier(tree.get("anchor")) is not False)
            rules.asks(rules.is_number(tree.get("epoch"), 0, rules.MOMENTS - 1))
            keys = rules.key_set(tree.get("jwks"))
        except (rules.Fault, rules.Unreadable):
            return Wanted([messages.refusal("request")], [])
        more = [] if rules.identifier(tree["anchor"]) else [messages.refusal("request")]
        signer = self.pool.signers.get(read.body.decode())
        if signer is None or self.control.get(text.kid) != signer:
            return Wanted([messages.refusal("stranger"), *more], [])
        return Wanted([self.rotated(tree["anchor"], tree["epoch"], keys)], [])

    def rotated(self, anchor, epoch, keys):
        if anchor not in self.keys:
            return messages.refusal("anchor")
        if epoch != self.epoch:
            body = b'{"epoch":%d,"error":"invalid_request","error_description":"another epoch"}'
            return messages.answer(409, b"application/json", body % self.epoch)
        self.epoch, self.keys[anchor] = epoch + 1, keys
        return messages.answer(200, b"application/json", b'{"epoch":%d}' % self.epoch)
