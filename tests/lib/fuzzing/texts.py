"""Changed texts, chains, key sets and policies, handed to `check`, `verify` and `show`. What they have to answer is what rules.py says."""

import json
import re

from . import changes, rules
from .changes import Pairs, Raw, encoded, written
from .pool import AT, BEGIN, END, IM, RP, TA

SIGNATURES = [7856, 17088]
MOMENTS = [AT] * 12 + [BEGIN - 61, BEGIN - 60, BEGIN, END - 8, END - 7, END - 1, END, 0, (1 << 62) - 1]
STATUSES = {"valid": 0, "refused": 1, "input": 2}


def check(case, texts, given, keys, anchor, moment, looked):
    """Runs `check` on this input, which reads as these texts, or as none where they are None. `looked` is how many changed texts it looks at."""
    words = ["check", "--anchor", anchor, "--keys", case.file("keys", keys), "--at", str(moment)]
    try:
        own = rules.key_set(rules.tree_of(keys))
    except (rules.Unreadable, rules.Fault):
        own = None
    if own is None or texts is None:
        wanted = ["input\n"]
    else:
        wanted = case.pool.judge.answers(texts, anchor, own, moment)
    statuses = {STATUSES[answer.split()[0]] for answer in wanted}
    case.runs(words, given, looked, lambda done: done.status in statuses and done.out.decode("utf-8", "replace") in wanted, wanted)


# ---- texts

class Parts:
    """The header, the claims and the signature of a good text, to be changed."""

    def __init__(self, rng, text):
        header, claims, self.signature = text.encode().split(b".")
        self.rng, self.header, self.claims = rng, json.loads(changes.decoded(header)), json.loads(changes.decoded(claims))

    def text(self):
        loose = self.rng if self.rng.random() < .2 else None
        return b".".join([encoded(written(self.header, loose)), encoded(written(self.claims, loose)), self.signature])

    # changes after which the text is still one of a statement, mostly

    def another_moment(self):
        self.claims["iat"] = self.rng.choice([0, BEGIN, AT, AT + 60, AT + 61, (1 << 62) - 1, self.claims["iat"] + 1])
        self.claims["exp"] = self.rng.choice([0, AT, AT + 1, END, (1 << 62) - 1, self.claims.get("exp", END) - 1])

    def another_name(self):
        for name in self.rng.choice([["iss", "sub"], ["iss"], ["sub"]]):
            self.claims[name] = self.rng.choice([RP, IM, TA, RP + "/", f"https://x{self.rng.randrange(9)}.example"])

    def unread_claim(self):
        name = self.rng.choice(["note", "", "Iss", "\u0000", "iss ", "x" * 1000, "\u00e9\U0001f600"])
        held = self.rng.choice([None, Raw(b"1.5"), Raw(b"[" * 100 + b"]" * 100), Raw(b"-0"), "x" * 5000, [{}] * 500, {"crit": []}, Raw(b"1e308")])
        self.claims = Pairs([*self.claims.items(), (name, held)])

    def repeated_claim(self):
        name = self.rng.choice(list(self.claims))
        before = changes.value(self.rng, self.claims[name])
        members = [(its, value) for its, value in self.claims.items()]
        members.insert(0, (name, before))
        self.claims = Pairs(members)

    def another_key(self):
        keys = self.claims["jwks"]["keys"]
        keys.insert(self.rng.randrange(len(keys) + 1), self.rng.choice([
            {"kty": "RSA", "n": "AQAB", "alg": "RS256"}, {"kty": "AKP", "alg": "ML-DSA-44", "kid": "m", "pub": "x"}, {"kty": "", "kid": 5, "priv": 1},
            {"kty": "EC", "kid": self.header["kid"] + "x", "deep": {"a": [[]]}}, {"kty": "AKP", "alg": rules.FAST, "kid": "f", "pub": "A" * 43},
            {"kty": "AKP", "alg": rules.FAST, "pub": "A" * 43}]))

    def another_signature(self):
        good = self.rng.choice(SIGNATURES)
        size = self.rng.choice([good, good, good - 1, good + 1, 0, 1, 3, 16, 32, 100, 100000])
        kind = self.rng.randrange(3)
        if kind == 0:
            self.signature = encoded(bytes([self.rng.randrange(256)]) * size)
        elif kind == 1:
            self.signature = encoded(self.rng.randbytes(size))
        else:
            self.signature = encoded(changes.turned(self.rng, changes.decoded(self.signature)))

    def another_header(self):
        kind = self.rng.randrange(6)
        if kind == 0:
            self.header.pop("kid", None)
        elif kind == 1:
            self.header["kid"] = self.rng.choice(["", "k", self.header.get("kid", "") + "x", "\u0000", "x" * 50000])
        elif kind == 2:
            self.header = Pairs([("alg", "none"), *self.header.items()])
        elif kind == 3:
            self.header["x" * self.rng.randrange(3)] = self.rng.choice([None, Raw(b"1e5"), "jwk", {"jku": "https://x.example"}])
        elif kind == 4:
            self.header["alg"] = rules.SMALL if self.header.get("alg") == rules.FAST else rules.FAST
        else:
            self.header = {"typ": self.header.pop("typ"), **self.header}

    SOFT = [another_moment, another_name, unread_claim, repeated_claim, another_key, another_signature, another_signature, another_header]

    def changed_softly(self):
        self.rng.choice(self.SOFT)(self)
        return self.text()

    # changes after which it mostly is none

    def changed_header(self):
        self.header = changes.some_of_tree(self.rng, self.header)
        return self.text()

    def changed_claims(self):
        self.claims = changes.some_of_tree(self.rng, self.claims)
        return self.text()

    def changed_policy(self):
        """A claim that statements about subordinates have."""
        name = self.rng.choice(["metadata_policy", "constraints", "metadata_policy_crit", "metadata", "crit"])
        self.claims[name] = changes.some_of_tree(self.rng, {
            "metadata_policy": {"t": {"p": {"add": ["a"], "value": None, "essential": True, "default": 1}}, "u": {}},
            "constraints": {"max_path_length": 1, "naming_constraints": {"permitted": ["a"], "excluded": []}, "allowed_entity_types": ["t"]},
            "metadata_policy_crit": ["add", "value"], "metadata": {"t": {"p": [1, {"q": None}]}}, "crit": ["iss"]}[name])
        return self.text()

    def wrong_part(self):
        parts = self.text().split(b".")
        at = self.rng.randrange(3)
        parts[at] = changes.wrong_base64(self.rng, parts[at])
        return b".".join(parts)

    def wrong_parts(self):
        parts = self.text().split(b".")
        return b".".join(self.rng.choice([parts[:2], parts[1:], [*parts, b""], [*parts, parts[0]], [b"", *parts[1:]], [parts[1], parts[0], parts[2]],
                                          [parts[0], b"", parts[2]], parts[::-1], [parts[0]]]))

    def bytes_of_payload(self):
        header, claims, signature = self.text().split(b".")
        claims = encoded(changes.of_bytes(self.rng, changes.decoded(claims)))
        return b".".join([header, claims, signature])

    def other_bytes(self):
        return changes.of_bytes(self.rng, self.text())

    def too_long(self):
        text = self.text()
        most = rules.TEXT_LIMIT - len(text) + self.rng.choice([-4, -1, 0, 1, 4, 100])
        return text + b"A" * (most // 4 * 4 if self.rng.random() < .8 else most)

    def changed_mark(self):
        """A trust mark, which has no keys."""
        if self.rng.random() < .4:
            self.rng.choice([change for change in self.SOFT if change is not Parts.another_key])(self)
            return self.text()
        return self.rng.choice([change for change in self.HARD if change is not Parts.changed_policy])(self)

    HARD = [changed_header, changed_claims, changed_claims, changed_claims, changed_policy, changed_policy, wrong_part, wrong_part, wrong_parts,
            bytes_of_payload, bytes_of_payload, other_bytes, other_bytes]

    def changed_hard(self):
        if self.rng.random() < .002:
            return self.too_long()
        return self.rng.choice(self.HARD)(self)


def texts(case):
    """A list of up to sixteen texts, those before one place changed so that they mostly still read, or one text for `verify`."""
    rng, pool = case.rng, case.pool
    if rng.random() < .1:
        return verified(case)
    chain = list(rng.choice(pool.chains[2:]))
    count = rng.choice([1, 3, 4, 13, 14, 14, 14, 14, 14, 14, 14, 15, 16])
    hard = rng.randrange(count) if rng.random() < .9 else count
    made = []
    for place in range(count):
        good = pool.texts[chain[place] if place < len(chain) else rng.choice(chain)]
        if place > hard or (place < hard and rng.random() < .3):
            made.append(good)
            continue
        parts = Parts(rng, good)
        made.append((parts.changed_hard() if place == hard else parts.changed_softly()).decode("latin-1"))
    looked = 0
    for place, text in enumerate(made[:rules.CHAIN]):
        looked += text not in pool.signers
        if pool.judge.read(text) is None:
            break
    check(case, made, json.dumps(made, ensure_ascii=rng.random() < .5).encode(), pool_keys(pool), TA, AT, looked)


def pool_keys(pool):
    return json.dumps(pool.anchor_keys).encode()


def verified(case):
    rng, pool = case.rng, case.pool
    name, by = rng.choice([("leaf", "rp"), ("ta", "ta"), ("im about leaf", "im"), ("fast leaf", "fast rp")])
    parts = Parts(rng, pool.texts[name])
    text = parts.changed_hard() if rng.random() < .7 else parts.changed_softly()
    given = text + rng.choice([b"", b"\n", b"\r\n", b"\n\n", b"\r", b" ", b"\x00"])
    if rng.random() < .0005:
        given += b"A" * (rules.FILE_LIMIT - len(given) + rng.randrange(-2, 3))
    public = pool.keys[by if rng.random() < .9 else "other"].pub
    wanted = verdicts(pool, given, public)
    case.runs(["verify", public], given, 1, lambda done: done.out.decode("utf-8", "replace") in wanted, wanted)


def verdicts(pool, given, public):
    if len(given) > rules.FILE_LIMIT:
        return ["input\n"]
    line = b"\r\n" if given.endswith(b"\r\n") else b"\n" if given.endswith(b"\n") else b""
    text = given[: len(given) - len(line)]
    it = rules.statement(text)
    if it is None:
        return ["refused Form\n"]
    more = ["refused Form\n"] if it.doubted else []
    if not it.own:
        return [*more, "refused Names\n"]
    so = text.isascii() and pool.signers.get(text.decode(), (None, None))[1] == public
    return [*more, f"valid {it.sub}\n" if so else "refused Signature\n"]


# ---- chains of good texts

def chains(case):
    """Good texts in another order, twice, without one, of other chains, or as a list that is written otherwise."""
    rng, pool = case.rng, case.pool
    names = list(rng.choice(pool.chains))
    others = list(pool.texts)
    for _ in range(rng.choice([0, 1, 1, 1, 2])):
        at, kind = rng.randrange(len(names) + 1), rng.randrange(7)
        if kind == 0:
            del names[at:at + 1]
        elif kind == 1:
            names.insert(at, rng.choice(names or others))
        elif kind == 2:
            names[at:at + 1] = [rng.choice(others)]
        elif kind == 3:
            rng.shuffle(names)
        elif kind == 4:
            names = names[::-1]
        elif kind == 5:
            names = names[:at] + list(rng.choice(pool.chains))
        else:
            names.insert(at, rng.choice(others))
    made = [pool.texts[name] for name in names]
    given = written(made, rng if rng.random() < .3 else None)
    if rng.random() < .4:
        given = changes.of_bytes(rng, given)
    elif rng.random() < .1:
        given = written(changes.value(rng, made))
    given += rng.choice([b"", b"\n", b"\r\n", b" \n"])
    anchor = TA if rng.random() < .8 else rng.choice([IM, RP, TA + "/", "http://ta.example", "https://h0.example"])
    check(case, listed(given), given, pool_keys(pool), anchor, rng.choice(MOMENTS), 1)


def listed(given):
    """The texts that the input is a list of, or None."""
    if len(given) > rules.FILE_LIMIT:
        return None
    try:
        tree = rules.tree_of(given)
    except rules.Unreadable:
        return None
    return tree if rules.is_texts(tree) else None


# ---- key sets

def changed_keys(rng, pool):
    """A key set that was changed."""
    good = {"keys": [pool.keys["ta"].jwk]}
    more = [pool.keys["im"].jwk, pool.keys["fast im"].jwk, {"kty": "RSA", "kid": "r", "n": "AQAB", "e": "AQAB"}, {"kty": "EC", "crv": "P-256", "x": "a", "y": [1, {"z": None}]}]
    good["keys"] = rng.sample(more, rng.randrange(5)) + good["keys"]
    kind = rng.randrange(10)
    if kind < 6:
        data = written(changes.some_of_tree(rng, good), rng if rng.random() < .3 else None)
    elif kind < 9:
        data = changes.of_bytes(rng, written(good))
    else:
        data = written({"keys": good["keys"] + [{"kty": "x", "kid": str(number)} for number in range(rng.choice([59, 60, 61, 62, 63, 64, 1000]))]})
    if rng.random() < .0005:
        data += b" " * (rules.FILE_LIMIT - len(data) + rng.randrange(-1, 2))
    return data


def keys(case):
    """A chain under a file of keys that was changed."""
    rng, pool = case.rng, case.pool
    data = changed_keys(rng, pool)
    made = [pool.texts[name] for name in rng.choice(pool.chains[:2])]
    texts_of = made if len(data) <= rules.FILE_LIMIT else None
    check(case, texts_of, json.dumps(made).encode(), data, TA, AT, 1)


# ---- policies

def policies(case):
    """A leaf under two of the policies that were drawn from the seed."""
    rng, pool = case.rng, case.pool
    names = [rng.choice(pool.leaves), rng.choice(pool.lower), rng.choice(pool.upper), "ta"]
    made = [pool.texts[name] for name in names]
    check(case, made, json.dumps(made).encode(), pool_keys(pool), TA, AT, 1)


# ---- what is shown

# what a terminal acts on: control characters but the line end, and marks of direction
LOUD = re.compile(rb"[\x00-\x09\x0b-\x1f\x7f]|\xc2[\x80-\x9f]|\xd8\x9c|\xe2[\x80-\x81]")
LAST, WRONG = b"nothing was verified\n", re.compile(rb"^refused ", re.M)


def shown(case):
    """A changed key set, a changed text, or a list of up to 200 of these, handed to `show`."""
    rng, pool = case.rng, case.pool
    names, kind, looked = list(pool.texts), rng.randrange(8), 1
    if kind == 0:
        given = changed_keys(rng, pool)
    elif kind == 1:
        given = some_text(rng, pool.texts[rng.choice(names)])
    else:
        looked = rng.choice([1, 2, 10, 50, 100, 200, 200])
        made = [some_text(rng, pool.texts[rng.choice(names)]).decode("latin-1") for _ in range(looked)]
        made += [pool.texts[rng.choice(names)] for _ in range(rng.randrange(3))]
        rng.shuffle(made)
        given = written(made, rng if rng.random() < .3 else None)
        given = changes.of_bytes(rng, given) if rng.random() < .02 else given
    wanted = view_of(given)
    given += rng.choice([b"", b"\n", b"\r\n"]) if len(given) < rules.FILE_LIMIT - 2 else b""
    case.runs(["show"], given, looked, lambda done: is_shown(done, wanted), wanted)


def some_text(rng, good):
    parts = Parts(rng, good)
    if "jwks" not in parts.claims:
        return parts.changed_mark()
    return parts.changed_hard() if rng.random() < .6 else parts.changed_softly()


class View:
    """What has to be shown: the statuses, the last line before that which says that nothing was verified, and what a text is, or each of a list,
    where that is sure."""

    def __init__(self, statuses, line=b"", each=None, one=None):
        self.statuses, self.line, self.each, self.one = statuses, line, each, one

    def __str__(self):
        return f"{self.statuses} {self.line} {self.each} {self.one}"


def is_shown(done, view):
    """Whether the answer says what it has to, and is one that a terminal can be given. No other text than a statement is called one."""
    if done.status == 2 or done.status not in view.statuses:
        return 2 in view.statuses and (done.status, done.out) == (2, b"input\n")
    if not done.out.endswith(view.line + LAST) or LOUD.search(done.out) or (done.status == 0) == (WRONG.search(done.out) is not None):
        return False
    if view.each is None:
        return is_called(done.out.removesuffix(b"\n" + LAST).rpartition(b"\n")[2], view.one)
    parts = re.split(rb"^text ([0-9]+)\n", done.out.removesuffix(view.line + LAST), flags=re.M)
    if parts[0] != b"" or parts[1::2] != [b"%d" % place for place in range(len(view.each))]:
        return False
    return all(is_called(part[:-1].rpartition(b"\n")[2], wanted) for part, wanted in zip(parts[2::2], view.each))


def is_called(line, wanted):
    """Whether this is said of a text: `wanted`, or nothing of a statement where it is none."""
    return line == wanted if wanted else wanted is None or not line.startswith((b"configuration of ", b"statement of "))


def view_of(given):
    if len(given) > rules.FILE_LIMIT:
        return View({2})
    try:
        tree = rules.tree_of(given)
    except rules.Unreadable:
        line = found_in(given)
        return View({0} if line else {0, 1}, (line or b"") + b"\n", one=line)
    if rules.is_object(tree):
        try:
            rules.key_set(tree)
            return View({0}, b"key set of %d\n" % len(tree["keys"]))
        except rules.Fault:
            return View({1}, b"\n")
    if not rules.is_texts(tree):
        return View({2})
    each = [found_in(text.encode()) for text in tree]
    return View({0} if all(each) else {0, 1}, b"chain of %d\n" % len(tree), each)


def found_in(text):
    """What is said of a statement, nothing of another text, and None where it is in doubt."""
    it = rules.statement(text)
    if it is None or it.doubted:
        return None if it else b""
    return f"configuration of {it.sub}".encode() if it.own else f"statement of {it.iss} about {it.sub}".encode()


KINDS = {"texts": texts, "chains": chains, "keys": keys, "policies": policies, "shown": shown}
