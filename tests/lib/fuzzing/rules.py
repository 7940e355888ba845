"""The rules of docs/rules/TEXTS.md, STATEMENTS.md, CHAINS.md, RINGS.md and AUTHORITY.md once more, in another language and by other readers: what
the program has to answer on texts that were changed. Where this doesn't say (which texts `url` reads), the answer is None, and either will do."""

import base64
import json
import re

from . import policies

SMALL, FAST, STATEMENT = "SLH-DSA-SHA2-128s", "SLH-DSA-SHA2-128f", "entity-statement+jwt"
MOMENTS, TEXT_LIMIT, FILE_LIMIT, DEPTH, CHAIN = 1 << 62, 262144, 4194304, 127, 14
# a number whose value isn't kept
ODD = type("Odd", (), {"__repr__": lambda self: "ODD"})()
SURE = re.compile(r"https?://(?!xn--)(?:[a-z0-9][a-z0-9-]*\.(?!xn--))*[a-z][a-z0-9-]*(?::[0-9]{1,4})?(?:/[A-Za-z0-9._~/-]*)?")
PLAIN = re.compile(r"[!-\[\]-~]{1,2048}")
BOUNDS = {"depth": 12, "calls": 160, "paths": 4096}
REASONS = {"unspecified", "compromised", "superseded"}


class Unreadable(Exception):
    """Bytes that are no JSON."""


class Fault(Exception):
    """Something isn't of its form: of a configuration, this member, and whether identifiers before it are in doubt."""


def asks(so):
    if not so:
        raise Fault


# ---- base64url and JSON

def decoded(part):
    """The bytes that canonical base64url stands for, or None."""
    if not re.fullmatch(rb"[A-Za-z0-9_-]*", part) or len(part) % 4 == 1:
        return None
    data = base64.urlsafe_b64decode(part + b"=" * (-len(part) % 4))
    return data if base64.urlsafe_b64encode(data).rstrip(b"=") == part else None


def integer(token):
    if token == "-0" or len(token) > 20 or not -1 << 63 <= int(token) < 1 << 64:
        return decimal(token)
    return int(token)


def decimal(token):
    if abs(float(token)) == float("inf"):
        raise Unreadable
    return ODD


def constant(_):
    raise Unreadable


READER = json.JSONDecoder(parse_int=integer, parse_float=decimal, parse_constant=constant)


TOKENS = re.compile(r'"(?:[^"\\]|\\.)*"|[\[\]{}]', re.S)


def walk(tree):
    """Each value of the tree."""
    left = [tree]
    while left:
        node = left.pop()
        yield node
        if isinstance(node, (dict, list)):
            left.extend(node.values() if isinstance(node, dict) else node)


def is_readable(text):
    """Whether this JSON nests as deep as reads, and its strings are Unicode, those of members that count no more too."""
    depth = 0
    for token in map(re.Match.group, TOKENS.finditer(text)):
        if token in "[{":
            depth += 1
        elif token in "]}":
            depth -= 1
        elif "\\u" in token and any("\ud800" <= letter <= "\udfff" for letter in json.loads(token, strict=False)):
            return False
        if depth > DEPTH:
            return False
    return True


def tree_of(data):
    """The tree that these bytes read as."""
    try:
        text = data.decode()
        tree = READER.decode(text) if not text.startswith("\ufeff") else constant(text)
    except (ValueError, RecursionError) as error:
        raise Unreadable from error
    if not is_readable(text):
        raise Unreadable
    return tree


def is_whole(tree):
    return all(node is not ODD for node in walk(tree))


def is_number(node, least, most):
    return isinstance(node, int) and not isinstance(node, bool) and least <= node <= most


def is_texts(node):
    return isinstance(node, list) and all(isinstance(held, str) for held in node)


def is_object(node):
    return isinstance(node, dict)


# ---- identifiers and key sets

def identifier(text):
    """True, False, or None where only a reader of URLs can say."""
    if not isinstance(text, str) or not PLAIN.fullmatch(text) or not text.startswith(("https://", "http://")) or re.search("[?#@]", text):
        return False
    return True if SURE.fullmatch(text) else None


class Doubts:
    """Whether what was asked of some identifiers is sure."""

    def __init__(self):
        self.any = False

    def identifier(self, text):
        so = identifier(text)
        asks(so is not False)
        self.any |= so is None


def key_set(tree):
    """The algorithm and the public key of each key of this project, by its name."""
    asks(is_object(tree) and isinstance(tree.get("keys"), list) and len(tree["keys"]) <= 64)
    own, names = {}, set()
    for key in tree["keys"]:
        asks(is_object(key) and isinstance(key.get("kty"), str) and is_whole(key))
        name = key.get("kid")
        if key["kty"] == "AKP" and key.get("alg") in (SMALL, FAST):
            public = key.get("pub")
            asks(isinstance(name, str) and name and isinstance(public, str) and public.isascii() and "priv" not in key)
            asks(len(public) == 43 and decoded(public.encode()) is not None)
            own[name] = key["alg"], public
        if isinstance(name, str):
            asks(name not in names)
            names.add(name)
    return own


# ---- claims

def metadata(tree):
    asks(is_object(tree) and is_whole(tree))
    asks(all(is_object(held) and None not in held.values() for held in tree.values()))


def constraints(tree):
    asks(is_object(tree))
    if "max_path_length" in tree:
        asks(is_number(tree["max_path_length"], 0, (1 << 32) - 1))
    if "naming_constraints" in tree:
        naming = tree["naming_constraints"]
        asks(is_object(naming) and all(is_texts(naming[name]) for name in ("permitted", "excluded") if name in naming))
    if "allowed_entity_types" in tree:
        asks(is_texts(tree["allowed_entity_types"]))


def hints(tree, doubts):
    asks(isinstance(tree, list) and 1 <= len(tree) <= 32)
    for held in tree:
        doubts.identifier(held)


def marks(tree):
    asks(isinstance(tree, list))
    asks(all(is_object(held) and isinstance(held.get("trust_mark"), str) and isinstance(held.get("trust_mark_type"), str) for held in tree))


def issuers(tree):
    asks(is_object(tree) and all(map(is_texts, tree.values())))


def owners(tree, doubts):
    asks(is_object(tree))
    for held in tree.values():
        asks(is_object(held) and isinstance(held.get("sub"), str))
        doubts.identifier(held["sub"])
        key_set(held.get("jwks"))


def policy(tree):
    asks(policies.is_policy(tree) and is_whole(tree))


def critical(tree):
    asks(is_texts(tree) and all(name in policies.OPERATORS for name in tree))


def claims_of_statement(tree, doubts):
    """The own keys of a statement's claims; a fault where they aren't those of one."""
    asks(is_object(tree) and "crit" not in tree)
    for name in ("iss", "sub"):
        doubts.identifier(tree.get(name))
    asks(all(is_number(tree.get(name), 0, MOMENTS - 1) for name in ("iat", "exp")))
    keys = key_set(tree.get("jwks"))
    own = tree["iss"] == tree["sub"]
    asks(not any(name in tree for name in (("metadata_policy", "metadata_policy_crit", "constraints") if own else ("authority_hints",))))
    readers = {"metadata": metadata}
    if own:
        readers |= {"authority_hints": lambda held: hints(held, doubts), "trust_marks": marks, "trust_mark_issuers": issuers,
                    "trust_mark_owners": lambda held: owners(held, doubts)}
    else:
        readers |= {"metadata_policy": policy, "metadata_policy_crit": critical, "constraints": constraints}
    for name, reader in readers.items():
        if name in tree:
            reader(tree[name])
    return keys


# ---- compact texts and statements

class Text:
    """A compact text that reads."""

    def __init__(self, data):
        asks(len(data) <= TEXT_LIMIT)
        parts = data.split(b".")
        asks(len(parts) == 3)
        found = [decoded(part) for part in parts]
        asks(None not in found)
        try:
            header = tree_of(found[0])
        except Unreadable:
            raise Fault from None
        asks(is_object(header) and all(isinstance(header[name], str) for name in ("typ", "kid", "alg") if name in header))
        asks("crit" not in header and header.get("alg") in (SMALL, FAST))
        self.typ, self.kid, self.payload = header.get("typ"), header.get("kid"), found[1]


class Statement:
    """What an entity statement says. `doubted` where it is one only if `url` reads its identifiers."""

    def __init__(self, data):
        text, doubts = Text(data), Doubts()
        asks(text.typ == STATEMENT)
        try:
            self.claims = tree_of(text.payload)
        except Unreadable:
            raise Fault from None
        self.keys = claims_of_statement(self.claims, doubts)
        self.kid, self.doubted = text.kid, doubts.any
        self.iss, self.sub = self.claims["iss"], self.claims["sub"]
        self.own = self.iss == self.sub

    def current(self, moment):
        return self.claims["iat"] <= moment + 60 and moment < self.claims["exp"]


def statement(data):
    """The statement that the bytes are, or None."""
    try:
        return Statement(data)
    except Fault:
        return None


# ---- chains

def host(entity):
    return entity.split("//", 1)[1].split("/", 1)[0].split(":", 1)[0]


def matches(its, name):
    its, name = its.lower(), name.lower()
    return len(its) > len(name) and its.endswith(name) if name.startswith(".") else its == name


def name_fault(chain, anchor):
    """The least place at which the names aren't those of a chain, or None."""
    last, seen = len(chain) - 1, set()
    for place, it in enumerate(chain):
        ends = place in (0, last)
        if it.own != ends or (place and it.sub != chain[place - 1].iss) or (last == 1 and place == 1) or (place < last and it.iss in seen):
            return place
        if place == last and it.iss != anchor:
            return place
        seen.add(it.iss)
    return None


def limits_fault(chain):
    for place, it in enumerate(chain[1:-1], 1):
        limits = it.claims.get("constraints", {})
        if limits.get("max_path_length", place) < place - 1:
            return f"refused {place} PathLength"
        naming = limits.get("naming_constraints", {})
        hosts = [host(other.sub) for other in chain[: place + 1]]
        if "permitted" in naming and not all(any(matches(one, name) for name in naming["permitted"]) for one in hosts):
            return f"refused {place} Name"
        if any(matches(one, name) for name in naming.get("excluded", []) for one in hosts):
            return f"refused {place} Name"
    return None


def compact(tree):
    return json.dumps(tree, separators=(",", ":"), sort_keys=True, ensure_ascii=False)


def resolved(chain):
    """What a chain whose texts are signed and within their limits is answered with."""
    merged = {}
    for place in range(len(chain) - 2, 0, -1):
        conflict, merged = policies.merged(merged, chain[place].claims.get("metadata_policy", {}))
        if conflict:
            return f"refused {place} Conflict {compact(conflict[0])} {compact(conflict[1])} {conflict[2]} {conflict[3]}\n"
    found = {typ: dict(held) for typ, held in chain[0].claims.get("metadata", {}).items()}
    if len(chain) > 1:
        for typ, held in chain[1].claims.get("metadata", {}).items():
            if typ in found:
                found[typ].update(held)
    for it in chain[1:-1]:
        allowed = it.claims.get("constraints", {}).get("allowed_entity_types")
        if allowed is not None:
            found = {typ: held for typ, held in found.items() if typ == "federation_entity" or typ in allowed}
    refusal, found = policies.applied(merged, found)
    if refusal:
        return f"refused 0 Policy {compact(refusal[0])} {compact(refusal[1])} {refusal[2]}\n"
    return f"valid {chain[0].sub} {min(it.claims['exp'] for it in chain)}\n{compact(found)}\n"


def signature_fault(texts, chain, keys, signers):
    """The least place whose text isn't signed as it must be. `signers` has the algorithm and the public key of each text that was signed."""
    for place, it in enumerate(chain):
        sets = [chain[place + 1].keys if place + 1 < len(chain) else keys]
        if place == 0:
            sets.append(it.keys)
        signer = signers.get(texts[place])
        if signer is None or any(its.get(it.kid) != signer for its in sets):
            return place
    return None


class Judge:
    """Answers on chains. Statements of signed texts are read once."""

    def __init__(self, signers):
        self.signers = signers
        self.known = {}

    def read(self, text):
        if text not in self.signers:
            return statement(text.encode("utf-8", "surrogatepass"))
        if text not in self.known:
            self.known[text] = statement(text.encode())
        return self.known[text]

    def answers(self, texts, anchor, keys, moment):
        """What `check` may write on these texts: one line, and others where an identifier is in doubt."""
        chain, more = [], []
        for place, text in enumerate(texts[:CHAIN]):
            it = self.read(text)
            if it is None:
                return [*more, f"refused {place} Form\n"]
            if it.doubted:
                more.append(f"refused {place} Form\n")
            chain.append(it)
        if not texts or len(texts) > CHAIN:
            return [*more, f"refused {len(chain)} Form\n"]
        return [*more, self.judged(texts, chain, anchor, keys, moment)]

    def judged(self, texts, chain, anchor, keys, moment):
        place = name_fault(chain, anchor)
        if place is not None:
            return f"refused {place} Names\n"
        place = next((place for place, it in enumerate(chain) if not it.current(moment)), None)
        if place is not None:
            return f"refused {place} Times\n"
        place = signature_fault(texts, chain, keys, self.signers)
        if place is not None:
            return f"refused {place} Signature\n"
        fault = limits_fault(chain)
        return f"{fault}\n" if fault else resolved(chain)


# ---- files

def is_ring(data):
    """Whether the bytes are those of a ring's file. The names of the keys are the algorithms' and the seeds'."""
    try:
        tree = tree_of(data)
        asks(is_object(tree) and set(tree) == {"keys", "version"} and is_number(tree["version"], 1, 2))
        keys = tree["keys"]
        asks(isinstance(keys, list) and 1 <= len(keys) <= 16)
        for key in keys:
            asks(is_object(key) and set(key) == {"exp", "iat", "seeds", "state", *(["alg"] if tree["version"] == 2 else [])})
            asks(key.get("alg", SMALL) in (SMALL, FAST) and isinstance(key["seeds"], str))
            asks(all(is_number(key[name], 0, MOMENTS - 1) for name in ("iat", "exp")) and key["iat"] < key["exp"])
            asks(re.fullmatch("[0-9a-f]{96}", key["seeds"]))
            state = key["state"]
            if is_object(state):
                asks(set(state) == {"reason", "revoked_at"} and isinstance(state["reason"], str) and state["reason"] in REASONS)
                asks(is_number(state["revoked_at"], 0, MOMENTS - 1))
            else:
                asks(isinstance(state, str) and state in ("live", "retired"))
        asks(any(key["state"] == "live" for key in keys) and len({(key.get("alg"), key["seeds"]) for key in keys}) == len(keys))
    except (Unreadable, Fault):
        return False
    return True


def subordinates(below, node, doubts):
    asks(isinstance(below, list) and len(below) <= 10000)
    readers, seen = {"metadata": metadata, "metadata_policy": policy, "metadata_policy_crit": critical, "constraints": constraints}, set()
    for tree in below:
        asks(is_object(tree))
        doubts.identifier(tree.get("entity_id"))
        asks(tree["entity_id"] != node and tree["entity_id"] not in seen)
        seen.add(tree["entity_id"])
        key_set(tree.get("jwks"))
        for name, reader in readers.items():
            if name in tree:
                reader(tree[name])
                asks(is_whole(tree[name]))
        asks(all(is_texts(tree[name]) for name in ("entity_types", "mark_types") if name in tree))
        asks(isinstance(tree.get("intermediate", False), bool))


def resolver(tree, doubts):
    asks(is_object(tree))
    anchors = tree.get("anchors")
    asks(isinstance(anchors, list) and 1 <= len(anchors) <= 64)
    for held in anchors:
        asks(is_object(held))
        doubts.identifier(held.get("entity_id"))
        key_set(held.get("jwks"))
        asks(all(is_number(held.get(name, most), 1, most) for name, most in BOUNDS.items()))
    asks(len({held["entity_id"] for held in anchors}) == len(anchors))
    asks(is_number(tree.get("age"), 1, 86400) and is_number(tree.get("workers"), 1, 16))
    key_set(tree.get("control"))
    asks(isinstance(tree.get("routes"), list))
    for route in tree["routes"]:
        asks(is_object(route) and isinstance(route.get("host"), str) and isinstance(route.get("ip"), str) and is_number(route.get("port"), 1, 65535))
        numbers = route["ip"].split(".")
        asks(len(numbers) == 4 and all(re.fullmatch("0|[1-9][0-9]{0,2}", number) and int(number) < 256 for number in numbers))


def configuration(data):
    """The tree of a node's configuration and whether identifiers are in doubt; a fault where the bytes are none."""
    doubts = Doubts()
    try:
        tree = tree_of(data)
    except Unreadable:
        raise Fault from None
    asks(len(data) <= FILE_LIMIT)
    claims = {"metadata": metadata, "authority_hints": lambda held: hints(held, doubts), "trust_marks": marks, "trust_mark_issuers": issuers,
              "trust_mark_owners": lambda held: owners(held, doubts)}
    readers = {"entity_id": doubts.identifier, "ring": lambda held: asks(isinstance(held, str)),
               "lifetime": lambda held: asks(is_number(held, 60, 31536000)), **claims,
               "subordinates": lambda held: subordinates(held, tree["entity_id"], doubts),
               "revoked_marks": lambda held: asks(is_texts(held)), "resolver": lambda held: resolver(held, doubts)}
    for name, reader in readers.items():
        try:
            asks(is_object(tree) and (name in tree or name not in ("entity_id", "ring", "lifetime")))
            if name in tree:
                reader(tree[name])
                asks(name not in claims or is_whole(tree[name]))
        except Fault:
            raise Fault(name, doubts.any) from None
    return tree, doubts.any or len(data) > 150000
