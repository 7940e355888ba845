#!/usr/bin/env python3
"""The built program as a provider that registers: chains and configurations that are posted, over real authorities and over a web of fixed texts
some of whose pages lie. Each registration is compared byte for byte but for its signature, which another implementation checks; of each refusal the
status, what is written, the pages that were asked for and the sentences on standard error. It prints what differs and fails where anything does."""

import json
import os
import shutil
import subprocess
import sys
import time

sys.dont_write_bytecode = True
sys.path.insert(0, f"{os.path.dirname(os.path.dirname(os.path.abspath(__file__)))}/lib")
from laid import free_port, tell, tried  # noqa: E402
from resolving import (  # noqa: E402
    CALLS, CHAIN, ENVIRONMENT, FED, IM, IM_OWN, IM_RP, JM, KEYS, METADATA, NOW, PATIENCE, RESOLVED, RESOLVER, RP, RP_OWN, TA, TA_IM, TA_OWN, USUAL, Web,
    about, anchor_of, authorities, chain_differs, claims_of, config_of, endpoint, fed, fetch_of, hosts_in, own, page_of, place, sealed, signed_differs,
    unsealed, written)

NO_ANCHOR = "the configuration lists no such trust anchor; see its member resolver.anchors"
NO_LEAF = "the entity's configuration isn't there, isn't current, or isn't sealed by its own keys"
NO_CHAIN = "no valid chain up to the trust anchor was found"
NO_PATH = f"no path came up to {TA}"
FAILED = "no valid chain was found, and a fetch failed"
NO_TYPE = "the leaf's metadata has no openid_relying_party, or a superior's allowed_entity_types takes it away"
OTHERS = {"federation_entity": {"organization_name": "RP"}}
numbers = iter(range(1000000))


def listed(chain):
    return json.dumps(chain)


def said(sentences):
    return "".join(f"fed: {sentence}\n" for sentence in sentences)


def url(entity):
    return f"{entity}/.well-known/openid-federation"


def moment(seconds):
    return f"{seconds} ({time.strftime('%Y-%m-%d %H:%M:%S', time.gmtime(seconds))} UTC)"


def call(posted, routes, anchor=TA, lifetime=3600, anchors=None):
    """Has it registered, and gives the status, what is written, the sentences, and the moments around the call."""
    config = {**config_of(routes, **({"anchors": anchors} if anchors else {})), "lifetime": lifetime}
    name = written(f"provider-{next(numbers)}.json", config)
    begin = int(time.time())
    done = fed("register", "--config", name, "--anchor", anchor, given=posted)
    return done.returncode, done.stdout.decode(), done.stderr.decode(), (begin, int(time.time()))


def refused(row, posted, pages, status, text, calls, *sentences, anchor=TA, routes=None, anchors=None):
    """What isn't registered: the whole of what is done."""
    with Web(pages) as web:
        got = call(posted, {**hosts_in(pages, web), **(routes or {})}, anchor=anchor, anchors=anchors)
    wanted = status, text, said(sentences).replace("PORT", str(web.port))
    tell(f"{row}: {got[:3]}, not {wanted}"[:2000], got[:3] == wanted)
    tell(f"{row}: asked for {web.calls}, not {calls}"[:2000], web.calls == calls)


def registered(row, posted, pages, calls, chain, party, sub=RP, lifetime=3600, resolved=None, anchor=TA):
    """What is registered so, by a chain that resolves to the party's metadata and to what else is said."""
    with Web(pages) as web:
        status, text, sentences, moments = call(posted, hosts_in(pages, web), lifetime=lifetime, anchor=anchor)
    tell(f"{row}: {status} {text[:200]} {sentences}", (status, sentences) == (0, ""))
    tell(f"{row}: asked for {web.calls}, not {calls}"[:2000], web.calls == calls)
    differs = status or differs_in(text, moments, sub, chain, party, lifetime) or chain_differs(chain, moments[0], sub, resolved or party)
    tell(f"{row}: differs in {differs}"[:2000], not differs)


def differs_in(text, moments, sub, chain, party, lifetime):
    """What of the registration isn't as it must be, or nothing."""
    def wanted(iat):
        end = min([iat + lifetime, *(claims_of(it)["exp"] for it in chain)])
        metadata = {"openid_relying_party": party["openid_relying_party"]}
        return {"client_id": sub, "exp": end, "iat": iat, "iss": RESOLVER, "metadata": metadata, "sub": sub, "trust_anchor": TA, "trust_chain": chain}

    differs = signed_differs(text, moments, "explicit-registration-response+jwt", wanted)
    shown = fed("show", given=text).stdout.decode().split("\n")[-3:]
    return differs or ("" if shown == [f"registration of {sub} by {RESOLVER}", "nothing was verified", ""] else f"what is shown, {shown}")


# ---- rows

def chains():
    """Chains that are posted: nobody is asked."""
    registered("a chain", listed(CHAIN), USUAL, [], CHAIN, RESOLVED)
    registered("a chain with a line end", listed(CHAIN) + "\r\n", USUAL, [], CHAIN, RESOLVED)
    registered("the shortest lifetime", listed(CHAIN), USUAL, [], CHAIN, RESOLVED, lifetime=60)
    registered("the chain ends first", listed(CHAIN), USUAL, [], CHAIN, RESOLVED, lifetime=31536000)
    rp = sealed(own(RP, authority_hints=[IM], metadata={**OTHERS, **METADATA}), RP)
    registered("another type beside it", listed([rp, *CHAIN[1:]]), USUAL, [], [rp, *CHAIN[1:]], RESOLVED, resolved={**OTHERS, **RESOLVED})
    ta = sealed(own(TA, metadata={**endpoint(TA), "openid_relying_party": {"client_name": "TA"}}), TA)
    party = {"openid_relying_party": {"client_name": "TA"}}
    registered("the anchor itself", listed([ta]), USUAL, [], [ta], party, sub=TA, resolved={**endpoint(TA), **party})


def configurations():
    """Configurations that are posted: their chain is looked for, and begins with them."""
    registered("a configuration", RP_OWN, USUAL, CALLS, CHAIN, RESOLVED)
    registered("a configuration with a line end", RP_OWN + "\n", USUAL, CALLS, CHAIN, RESOLVED)
    other = sealed(own(RP, authority_hints=[IM], metadata={"openid_relying_party": {"client_name": "B", "grant_types": []}}), RP)
    party = {"openid_relying_party": {"client_name": "B", "contacts": ["help@im.example"], "grant_types": []}}
    registered("another than the one that is published", other, USUAL, CALLS, [other, *CHAIN[1:]], party)
    ta = sealed(own(TA, metadata={**endpoint(TA), "openid_relying_party": {"client_name": "TA"}}), TA)
    party = {"openid_relying_party": {"client_name": "TA"}}
    registered("the anchor's own", ta, USUAL, [page_of(TA)], [ta], party, sub=TA, resolved={**endpoint(TA), **party})
    spoilt = unsealed(own(RP, authority_hints=[IM], metadata=METADATA), kid=KEYS[RP]["kid"])
    kid = KEYS[RP]["kid"]
    refused("a configuration whose signature is no good", spoilt, USUAL, 1, "refused 0 Signature\n", CALLS,
            f"place 0 ({RP} about itself): the signature doesn't verify under the SLH-DSA-SHA2-128s key {kid} both of its own jwks and of "
            "the jwks of the next text")


def searches():
    """Configurations for which no chain is found."""
    refused("the entity isn't there", RP_OWN, {**USUAL, page_of(RP): 404}, 1, "refused NoChain\n", CALLS[:1], NO_LEAF, f"{url(RP)} is answered with status 404")
    refused("its superior isn't there", RP_OWN, {**USUAL, page_of(IM): 404}, 1, "refused NoChain\n", CALLS[:2], NO_CHAIN,
            f"{url(IM)} is answered with status 404", NO_PATH)
    bad = sealed(about(IM, RP, metadata_policy={"openid_relying_party": {"client_name": {"one_of": ["B"]}}}), IM)
    refused("a policy", RP_OWN, {**USUAL, fetch_of(IM, RP): bad}, 1, "refused NoChain\n", CALLS,
            "a chain up to the trust anchor is valid but for its metadata policies", f"a path up to the trust anchor is refused: {RP} {IM} {TA}",
            f"place 0 ({RP} about itself): its metadata openid_relying_party client_name doesn't pass the operator one_of of the merged policy")
    refused("a reset", RP_OWN, {**USUAL, page_of(IM): "reset"}, 7, "", CALLS[:2], FAILED, f"{url(IM)} couldn't be fetched", NO_PATH,
            "127.0.0.1:PORT: the connection was reset")
    nobody = free_port()
    refused("nobody at the route", RP_OWN, USUAL, 7, "", [], FAILED, f"{url(RP)} couldn't be fetched",
            f"127.0.0.1:{nobody}: connection refused; nobody listens there", routes={"rp.example": nobody})
    refused("a bound", RP_OWN, USUAL, 9, "", CALLS[:4],
            "the search ended at its bound: 4 pages of at most 4, 2 paths of at most 4,096; see depth, calls and paths of the anchor in the configuration", NO_PATH,
            anchors=[anchor_of(TA, calls=4)])


def refusals():
    """What is posted and isn't registered, without anybody being asked: neither of the two forms, chains that aren't valid, and no relying party."""
    for row, posted, sentence in [
            ("no text", "", "standard input: the text is empty"),
            ("a word", "x", "standard input: the text isn't three parts with full stops between them"),
            ("an object", "{}", "standard input is an object; a chain is a list of signed texts"),
            ("a list with a number", '["x",1]', "standard input: place 1 is a number; a chain is a list of signed texts"),
            ("half a list", '["x"', "standard input isn't JSON"),
            ("a statement about another", IM_RP,
             f"standard input is a statement of {IM} about {RP}; a relying party posts its own configuration, or a chain"),
            ("a text of another type", unsealed(own(RP), typ="x"), "standard input: the header's typ is x; that of an entity statement is entity-statement+jwt")]:
        with Web(USUAL) as web:
            got = call(posted, hosts_in(USUAL, web))
        tell(f"{row}: {got[:3]}, {web.calls}"[:2000], (got[:2], web.calls) == ((1, "refused Form\n"), []) and said([sentence])[:-1] in got[2])
    refused("an empty list", "[]", USUAL, 1, "refused 0 Form\n", [], "the chain is empty")
    refused("a list of a word", '["x"]', USUAL, 1, "refused 0 Form\n", [], "place 0: the text isn't three parts with full stops between them")
    refused("15 texts", listed([RP_OWN] * 15), USUAL, 1, "refused 14 Form\n", [], "the chain has 15 texts; 14 are read at most")
    refused("another order", listed([RP_OWN, TA_IM, IM_RP, TA_OWN]), USUAL, 1, "refused 1 Names\n", [],
            f"place 1 ({TA} about {IM}) is about {IM}; the text before it is by {RP}")
    rp = unsealed(own(RP, authority_hints=[IM], metadata=METADATA, exp=NOW - 5))
    refused("expired", listed([rp, *CHAIN[1:]]), USUAL, 1, "refused 0 Times\n", [], f"place 0 ({RP} about itself) expired at {moment(NOW - 5)}")
    refused("no relying party", listed([TA_OWN]), USUAL, 1, "refused NoType\n", [], NO_TYPE)
    fence = sealed(about(IM, RP, constraints={"allowed_entity_types": ["openid_provider"]}), IM)
    refused("a type that isn't allowed", listed([RP_OWN, fence, TA_IM, TA_OWN]), USUAL, 1, "refused NoType\n", [], NO_TYPE)
    refused("a configuration of no relying party", IM_OWN, USUAL, 1, "refused NoType\n", [page_of(IM), page_of(TA), fetch_of(TA, IM)], NO_TYPE)


def orders():
    """What is looked at first: the files, the input, the anchor, and then what was posted."""
    refused("an anchor that isn't listed", listed(CHAIN), USUAL, 1, "refused NoAnchor\n", [], NO_ANCHOR, anchor=JM)
    refused("such an anchor and no form", "x", USUAL, 1, "refused NoAnchor\n", [], NO_ANCHOR, anchor=JM)
    refused("such an anchor and an input of 4,194,304 bytes", "x" * 4194304, USUAL, 1, "refused NoAnchor\n", [], NO_ANCHOR, anchor=JM)
    with Web(USUAL) as web:
        got = call("x" * 4194305, hosts_in(USUAL, web), anchor=JM)
    tell(f"such an anchor and an input of 4,194,305 bytes: {got[:3]}", got[:2] == (2, "input\n") and "4,194,304 bytes" in got[2] and not web.calls)
    alone = {name: value for name, value in config_of({}).items() if name != "resolver"}
    done = fed("register", "--config", written("alone.json", alone), "--anchor", TA, given="x" * 4194305)
    wanted = 2, b"input\n", b"fed: alone.json has no member resolver, which says for which trust anchors and how the node resolves\n"
    tell(f"no resolver: {done}"[:500], (done.returncode, done.stdout, done.stderr) == wanted)
    name = written("full.json", config_of({}))
    for row, status, more in [("a full disk", 4, {"stdout": open("/dev/full", "wb")}), ("a folder as the input", 3, {"stdin": os.open(place, os.O_RDONLY)})]:
        with open(os.devnull, "rb") as nothing:
            done = subprocess.run([FED, "register", "--config", name, "--anchor", JM], stderr=subprocess.PIPE, timeout=PATIENCE, cwd=place, env=ENVIRONMENT,
                                  **{"stdin": nothing, "stdout": subprocess.DEVNULL, **more})
        tell(f"{row}: {done}", done.returncode == status and done.stderr.split(b"\n")[-2].startswith(b"fed: standard "))
    os.mkdir(f"{place}/folder")
    done = fed("register", "--config", "folder", "--anchor", JM)
    tell(f"a folder as the configuration: {done}", (done.returncode, done.stdout) == (6, b"") and b"folder is a folder, and not a file" in done.stderr)


# ---- real authorities

def federation():
    """A leaf below an intermediate, each answering for itself by `fed authority`: it posts what it publishes, and then the chain of its registration."""
    nodes = authorities("register", (1, 2, 2))
    status, text, sentences, moments = call(RP_OWN, {host: node.port for host, node in nodes.items()}, lifetime=31536000)
    tell(f"the federation: {status} {text[:200]} {sentences}", (status, sentences) == (0, ""))
    for node in nodes.values():
        node.ended()
    chain = claims_of(text)["trust_chain"]
    names = [(claims["iss"], claims["sub"]) for claims in map(claims_of, chain)]
    tell(f"the federation: its chain: {names}", chain[0] == RP_OWN and names == [(RP, RP), (IM, RP), (TA, IM), (TA, TA)])
    differs = differs_in(text, moments, RP, chain, RESOLVED, 31536000)
    tell(f"the federation: differs in {differs}"[:2000], not differs)
    registered("its chain, posted", listed(chain), {}, [], chain, RESOLVED)


def main():
    try:
        return tried("register", [chains, configurations, searches, refusals, orders, federation])
    finally:
        shutil.rmtree(place)


sys.exit(main())
