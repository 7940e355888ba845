"""Changed configurations, ring files and claims to be signed. What they have to answer is what rules.py says."""

import json
import re

from . import changes, rules
from .changes import decoded, written
from .texts import LOUD
from .pool import AT, BEGIN, END, MARK, RP, STATEMENT, TA

NOWHERE = "https://nowhere.example"
UNLISTED = b'{"error":"invalid_trust_anchor","error_description":"no such trust anchor"}\n'
CLAIMS_LIMIT = 179000


def is_one_of(*answers):
    """Whether a run has one of these statuses, with what it writes."""
    return lambda done: (done.status, done.out) in answers


# ---- configurations

def configurations(case):
    """A node's configuration. It's seen to be taken by `resolve`, for an anchor that it doesn't list, by `authority` and `resolver`, on a port that
    is taken, or by what `check-config` says."""
    rng, pool = case.rng, case.pool
    good, told = pool.configuration(), rng.random() < .25
    if rng.random() < .5:
        good["resolver"] = pool.resolver({"a.example": 80})["resolver"]
    if told and rng.random() < .7:
        good["trust_marks"] = [{"trust_mark_type": "t", "trust_mark": pool.texts["mark of node"]}]
    kind = rng.randrange(10)
    if kind < 7:
        node = changes.some_of_tree(rng, good) if kind < 5 else {**good, **deeper(rng, good)}
        data = written(node, rng if rng.random() < .2 else None)
    else:
        data = changes.of_bytes(rng, written(good))
    name = case.file("changed.json", data)
    if told:
        wanted, tree = shown_of(case, data)
        case.runs(["check-config", "--config", name, "--at", str(AT)], b"", 1, lambda done: is_told(done, wanted, tree), wanted)
        return
    resolves = "resolver" in good if rng.random() < .9 else "resolver" not in good
    command = rng.choice(["resolve", "resolver"]) if resolves else "authority"
    words = ["--sub", RP, "--anchor", NOWHERE] if command == "resolve" else ["--port", str(case.taken), "--connections", "1"]
    wanted = answers_of(case, data, command)
    case.runs([command, "--config", name, *words], b"", 1, is_one_of(*wanted), wanted)


def deeper(rng, good):
    """A member that is changed by itself, so that the rest stays good."""
    name = rng.choice([name for name in good if name not in ("entity_id", "ring", "lifetime")])
    return {name: changes.some_of_tree(rng, good[name])}


def answers_of(case, data, command):
    refused = (2, b"input\n")
    # the ring is read before the other members are looked at, and its name may be one that the system doesn't read
    faulty = [refused, (6, b"")] if names_another_ring(case, data) else [refused]
    try:
        tree, doubted = rules.configuration(data)
    except rules.Fault:
        return faulty
    if ("resolver" in tree) != (command != "authority"):
        return faulty
    ring = has_ring(case, tree)
    taken = ((1, UNLISTED) if command == "resolve" else (7, b"")) if ring else (6, b"")
    return [taken, refused] if doubted or not ring else [taken]


def has_ring(case, tree):
    """Whether its ring is there. A name of another file may be that of a folder, or too long."""
    return tree["ring"] in [key.ring for key in case.pool.keys.values()]


def names_another_ring(case, data):
    """Whether a configuration that isn't of its form names a file that no ring of the pool is."""
    try:
        tree = json.loads(data)
    except (ValueError, RecursionError):
        return False
    return isinstance(tree, dict) and isinstance(tree.get("ring"), str) and not has_ring(case, tree)


def shown_of(case, data):
    """The forms of the refusals with which `check-config` may answer, and the configuration, where it may be shown."""
    try:
        tree, doubted = rules.configuration(data)
    except rules.Fault as fault:
        member, doubted = fault.args or ("", False)
        return ["refused [a-z_]+ Shape\n" if doubted else f"refused {member} Shape\n" if member else "input\n"], None
    forms = ["refused [a-z_]+ (Shape|TooLong)\n"] if doubted else []
    if not has_ring(case, tree):
        return [*forms, "refused ring (Absent|TooLong|Shape|Known)\n", ""], None
    for place, held in enumerate(tree.get("trust_marks", [])):
        fault, mark_doubted = mark_fault(held, tree["entity_id"])
        forms += [f"refused trust_marks {place} Form\n"] if mark_doubted else []
        if fault:
            return [*forms, f"refused trust_marks {place} {fault}\n"], None
    return forms, tree


def mark_fault(held, node):
    """Why this isn't a trust mark of the node, or nothing; and whether it is in doubt."""
    doubts = rules.Doubts()
    try:
        text = rules.Text(held["trust_mark"].encode())
        rules.asks(text.typ == MARK)
        claims = rules.tree_of(text.payload)
        rules.asks(rules.is_object(claims))
        claims_of_mark(claims, doubts)
    except (rules.Fault, rules.Unreadable):
        return "Form", False
    return "" if (claims["sub"], claims["trust_mark_type"]) == (node, held["trust_mark_type"]) else "Names", doubts.any


def is_told(done, forms, tree):
    """Whether the refusal has one of the forms, or what is shown are the node's names, and all of it is for a terminal."""
    text = done.out.decode()
    if done.status:
        return done.status == (2 if text == "input\n" else 1 if text else 6) and any(re.fullmatch(form, text) for form in forms)
    lines = text.split("\n")
    below, anchors = ([it["entity_id"] for it in held] for held in (tree.get("subordinates", []), tree.get("resolver", {}).get("anchors", [])))
    so = lines[:2] == [f"entity {tree['entity_id']}", f"lifetime {tree['lifetime']}"] and not LOUD.search(done.out)
    return so and all([line.split(" ")[1] for line in lines if line.startswith(f"{word} ")] == names for word, names in
                      (("subordinate", below), ("anchor", anchors)))


# ---- rings

def rings(case):
    """A ring's file, which is seen to be taken by what it refuses then. It stays as it is."""
    rng, pool = case.rng, case.pool
    names = rng.sample(list(pool.rings), rng.choice([1, 1, 1, 2, 3]))
    good = {"version": rng.choice([1, 2]), "keys": [json.loads(pool.rings[name])["keys"][0] for name in names]}
    for key in good["keys"][1:]:
        key["state"] = rng.choice(["live", "retired", {"reason": "compromised", "revoked_at": 5}])
    for key in good["keys"]:
        if good["version"] == 1:
            del key["alg"]
        else:
            key["alg"] = rng.choice([rules.SMALL, rules.FAST])
    kind = rng.randrange(10)
    if kind < 6:
        data = written(changes.some_of_tree(rng, good), rng if rng.random() < .2 else None)
    elif kind < 9:
        data = changes.of_bytes(rng, written(good))
    else:
        data = written({**good, "keys": good["keys"] * rng.choice([2, 16, 17])})
    name = case.file("changed.ring", data)
    words, given, so = rng.choice([
        (["rotate", "--ring", name, "--act", "retire", "--kid", "none"], b"", b"refused Unknown\n"),
        (["issue", "--ring", name, "--typ", STATEMENT], b"{}", b"refused Form\n"),
        (["public", "--ring", name, "--kid", "none"], b"", b"refused Unknown\n"),
        (["public", "--ring", name], b"", None)])
    wanted = [(1, so) if rules.is_ring(data) else (2, b"input\n")]
    if so is None and rules.is_ring(data):
        case.runs(words, given, 1, lambda done: is_published(done, json.loads(data)) and case.holds(name, data), "the live keys")
        return
    case.runs(words, given, 1, lambda done: (done.status, done.out) in wanted and case.holds(name, data), wanted)


def is_published(done, ring):
    """Whether the live keys are told, with the middle of their public keys, and no seed."""
    keys, live = json.loads(done.out)["keys"], [key["seeds"] for key in ring["keys"] if key["state"] == "live"]
    so = done.status == 0 and all(set(key) == {"alg", "kid", "kty", "pub"} for key in keys)
    return so and [decoded(key["pub"].encode())[:16].hex() for key in keys] == [seeds[64:] for seeds in live]


# ---- claims

def claims_of_mark(tree, doubts, has_delegation=True):
    for name in ("iss", "sub"):
        doubts.identifier(tree.get(name))
    rules.asks(isinstance(tree.get("trust_mark_type"), str))
    rules.asks(all(rules.is_number(tree.get(name), 0, rules.MOMENTS - 1) for name in ("iat", "exp") if name in tree or name == "iat"))
    rules.asks(not has_delegation or isinstance(tree.get("delegation", ""), str))


READERS = {STATEMENT: rules.claims_of_statement, MARK: claims_of_mark,
           "trust-mark-delegation+jwt": lambda tree, doubts: claims_of_mark(tree, doubts, False)}


def claims(case):
    """Claims to be signed: the text that is made says just what was given."""
    rng, pool = case.rng, case.pool
    typ = rng.choice([STATEMENT, STATEMENT, STATEMENT, MARK, "trust-mark-delegation+jwt"])
    if typ == STATEMENT:
        good = pool.claims[rng.choice(["leaf", "im about leaf", "ta"])][0]
    else:
        good = {"iss": TA, "sub": RP, "trust_mark_type": "t", "iat": BEGIN, "exp": END, "delegation": "d", "logo": "x"}
    kind = rng.randrange(10)
    if kind < 7:
        data = written(changes.some_of_tree(rng, good), rng if rng.random() < .3 else None)
    elif kind < 9:
        data = changes.of_bytes(rng, written(good))
    else:
        data = written({**good, "note": "x" * (CLAIMS_LIMIT - len(written(good)) - 10 + rng.randrange(-2, 3))})
    wanted = seals(data, typ)
    case.runs(["issue", "--ring", "rp.ring", "--typ", typ], data + rng.choice([b"", b"\n", b"\r\n"]), 1,
              lambda done: is_sealed(done, wanted[1], typ, pool.keys["rp"].kid) if done.status == 0 else (done.status, done.out) in wanted[0], wanted)


def seals(data, typ):
    """The answers that refuse, and the claims as they are signed, or None where they can't be."""
    try:
        tree = rules.tree_of(data)
        if not rules.is_object(tree):
            raise rules.Unreadable
    except rules.Unreadable:
        return [(2, b"input\n")], None
    if not rules.is_whole(tree):
        return [(1, b"refused Form\n")], None
    if len(rules.compact(tree).encode()) > CLAIMS_LIMIT:
        return [(1, b"refused TooLong\n")], None
    doubts = rules.Doubts()
    try:
        READERS[typ](tree, doubts)
    except rules.Fault:
        return [(1, b"refused Form\n")], None
    return ([(1, b"refused Form\n")] if doubts.any else []), rules.compact(tree)


def is_sealed(done, payload, typ, kid):
    header, claims_part, signature = done.out.rstrip(b"\n").split(b".")
    wanted = rules.compact({"alg": rules.SMALL, "kid": kid, "typ": typ})
    return payload is not None and decoded(header).decode() == wanted and decoded(claims_part).decode() == payload and len(decoded(signature)) == 7856


KINDS = {"configurations": configurations, "rings": rings, "claims": claims}
