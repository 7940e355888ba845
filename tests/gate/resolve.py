#!/usr/bin/env python3
"""The built program as a resolver on loopback: an entity resolved over real authorities, and over a web of fixed texts some of whose pages lie.
Each reply is compared byte for byte but for its signature, which another implementation checks; of each refusal the status, what is written, the
pages that were asked for and the sentences on standard error. It prints what differs and fails where anything does."""

import http.client
import json
import os
import shutil
import subprocess
import sys
import time

sys.dont_write_bytecode = True
sys.path.insert(0, f"{os.path.dirname(os.path.dirname(os.path.abspath(__file__)))}/lib")
from laid import free_port, tell, tried  # noqa: E402
from resolving import (  # noqa: E402
    CALLS, CHAIN, END, ENVIRONMENT, FED, IM, IM_OWN, IM_RP, ISSUERS, JM, KEYS, MARK, METADATA, NOW, PATIENCE, RESOLVED, RP, RP_OWN, TA, TA_OWN, USUAL,
    Authority, Web, about, anchor_of, authorities, claims_of, config_of, differs_in, endpoint, fed, fetch_of, hosts_in, marks_of, own, page_of, place,
    post_of, sealed, unsealed, written)

ERRORS = {
    "anchor": '{"error":"invalid_trust_anchor","error_description":"no such trust anchor"}\n',
    "entity": '{"error":"not_found","error_description":"no such entity"}\n',
    "policy": '{"error":"invalid_metadata","error_description":"policies refuse the metadata"}\n',
    "chain": '{"error":"invalid_trust_chain","error_description":"no valid trust chain"}\n',
}
SAID = {
    "anchor": "the configuration lists no such trust anchor; see its member resolver.anchors",
    "entity": "the entity's configuration isn't there, isn't current, or isn't sealed by its own keys",
    "policy": "a chain up to the trust anchor is valid but for its metadata policies",
    "chain": "no valid chain up to the trust anchor was found",
    "fault": "no valid chain was found, and a fetch failed",
}


# ---- calls of the resolver

numbers = iter(range(1000000))


def call(routes, sub=RP, anchor=TA, anchors=None, heed=False, **more):
    """Calls the resolver, and gives its status, what it wrote, its sentences, and the moments around the call."""
    name = written(f"resolver-{next(numbers)}.json", config_of(routes, **({"anchors": anchors} if anchors else {})))
    begin = int(time.time())
    done = fed("resolve", "--config", name, "--sub", sub, "--anchor", anchor, *["--heed", "yes"] * heed, **more)
    return done.returncode, done.stdout.decode(), done.stderr.decode(), (begin, int(time.time()))


def said(sentences):
    return "".join(f"fed: {sentence}\n" for sentence in sentences)


def refused(row, pages, status, written_text, calls, *sentences, sub=RP, routes=None, anchors=None):
    """A call that isn't answered by a reply: the whole of what it does."""
    with Web(pages) as web:
        found = {**hosts_in(pages, web), **(routes or {})}
        got = call({host: port for host, port in found.items() if port}, sub=sub, anchors=anchors)
    wanted = (status, written_text, said(sentences).replace("PORT", str(web.port)))
    tell(f"{row}: {got[:3]}, not {wanted}"[:2000], got[:3] == wanted)
    tell(f"{row}: asked for {web.calls}, not {calls}"[:2000], web.calls == calls)


def resolved(row, pages, calls, chain, metadata, exp=END, marks=(), sub=RP, routes=None, anchors=None, sentences=()):
    """A call that is answered by this reply, by fixed texts, with these sentences on the way."""
    with Web(pages) as web:
        status, text, told, moments = call({**hosts_in(pages, web), **(routes or {})}, sub=sub, anchors=anchors)
    wanted = said(sentences).replace("PORT", str(web.port))
    tell(f"{row}: {status} {text[:200]} {told}", (status, told) == (0, wanted))
    tell(f"{row}: asked for {web.calls}, not {calls}"[:2000], web.calls == calls)
    tell(f"{row}: differs in {status or differs_in(text, moments, sub, chain, exp, metadata, marks)}"[:2000],
         status == 0 and not differs_in(text, moments, sub, chain, exp, metadata, marks))


# ---- rows

def found():
    """Entities that are resolved: by the usual web, by the earlier of two hints, around a superior that fails, and the anchor itself."""
    resolved("the usual web", USUAL, CALLS, CHAIN, RESOLVED, exp=NOW + 7200)
    resolved("the anchor", USUAL, [page_of(TA)], [TA_OWN], endpoint(TA), sub=TA)
    rp = sealed(own(RP, authority_hints=[JM, IM], metadata=METADATA), RP)
    around = {**USUAL, page_of(RP): rp, page_of(JM): "reset"}
    calls = [page_of(RP), page_of(JM), *CALLS[1:]]
    resolved("around a superior that fails", around, calls, [rp, *CHAIN[1:]], RESOLVED, exp=NOW + 7200, sentences=[RESET])
    nowhere = free_port()
    resolved("around a superior that isn't reached", around, [page_of(RP), *CALLS[1:]], [rp, *CHAIN[1:]], RESOLVED, exp=NOW + 7200,
             routes={"jm.example": nowhere}, sentences=[f"127.0.0.1:{nowhere}: connection refused; nobody listens there"])
    jm = sealed(own(JM, authority_hints=[TA], metadata=endpoint(JM)), JM)
    jm_rp, ta_jm = sealed(about(JM, RP), JM), sealed(about(TA, JM, exp=END - 5), TA)
    both = {**around, page_of(JM): jm, fetch_of(JM, RP): jm_rp, fetch_of(TA, JM): ta_jm}
    calls = [page_of(RP), page_of(JM), fetch_of(JM, RP), page_of(IM), fetch_of(IM, RP), page_of(TA), fetch_of(TA, JM), fetch_of(TA, IM)]
    resolved("the earlier of two hints", both, calls, [rp, jm_rp, ta_jm, TA_OWN], METADATA, exp=END - 5)


def marked():
    """Sixteen marks of an entity are looked at."""
    good = sealed({"iss": TA, "sub": RP, "trust_mark_type": "own", "iat": NOW - 100, "exp": NOW + 600}, TA, MARK)
    for junk in (15, 16):
        marks = [{"trust_mark_type": "open", "trust_mark": "x"}] * junk + [{"trust_mark_type": "own", "trust_mark": good}]
        rp = sealed(own(RP, authority_hints=[IM], metadata=METADATA, trust_marks=marks), RP)
        returned = [("own", good)] if junk == 15 else []
        resolved(f"a good mark behind {junk} others", {**USUAL, page_of(RP): rp}, CALLS, [rp, *CHAIN[1:]], RESOLVED,
                 exp=NOW + (600 if returned else 7200), marks=returned)


STATUS = f"{TA}/trust-mark-status"


def asked_for(ta, marks):
    """The usual web with this configuration of the trust anchor and these marks of the entity, and its chain."""
    entries = [{"trust_mark_type": typ, "trust_mark": text} for typ, text in marks]
    rp = sealed(own(RP, authority_hints=[IM], metadata=METADATA, **({"trust_marks": entries} if entries else {})), RP)
    return {**USUAL, page_of(RP): rp, page_of(TA): ta}, [rp, *CHAIN[1:3], ta]


def heeded(row, ta, marks, posts, words, kept, exp, *sentences):
    """A call whose reply's marks are asked about: these posts stand behind the fetches, and these words behind the reply, which has these of the
    marks and this end."""
    pages, chain = asked_for(ta, marks)
    with Web({**pages, **posts}) as web:
        status, out, told, moments = call(hosts_in(pages, web), heed=True)
    text, _, lines = out.partition("\n")
    wanted = 0, "".join(f"mark {at} {word}\n" for at, word in enumerate(words)), said(sentences).replace("PORT", str(web.port))
    tell(f"{row}: {(status, lines, told)}, not {wanted}"[:2000], (status, lines, told) == wanted)
    tell(f"{row}: asked for {web.calls}"[:2000], web.calls == [*CALLS, *posts])
    differs = status or differs_in(f"{text}\n", moments, RP, chain, exp, RESOLVED, [marks[at] for at in kept])
    tell(f"{row}: differs in {differs}"[:2000], not differs)


def answers_of(marks, revoked=()):
    """What the trust anchor answers, as an authority that took back some of its marks, where these are asked about."""
    node = Authority(f"status-{next(numbers)}", {"entity_id": TA, "ring": "ta.ring", "lifetime": 3600, "revoked_marks": list(revoked)}, len(marks))
    node.wait()
    found = []
    for mark in marks:
        asking = http.client.HTTPConnection("127.0.0.1", node.port, timeout=PATIENCE)
        asking.request("POST", "/trust-mark-status", f"trust_mark={mark}", {"Content-Type": "application/x-www-form-urlencoded"})
        found.append(asking.getresponse().read().decode())
        asking.close()
    node.ended()
    return found


def asked():
    """The issuers of a reply's marks are asked about them: one that names a status endpoint, of two marks, and one that names none."""
    def mark(typ, by, **more):
        return typ, sealed({"iss": by, "sub": RP, "trust_mark_type": typ, "iat": NOW - 100, **more}, by, MARK)

    def ta(at):
        entity = {**endpoint(TA)["federation_entity"], "federation_trust_mark_status_endpoint": at}
        return sealed(own(TA, metadata={"federation_entity": entity}, trust_mark_issuers=ISSUERS), TA)

    marks = [mark("open", TA, exp=NOW + 300), mark("own", TA), mark("open", IM, exp=NOW + 600)]
    one, two = (post_of(STATUS, text) for _, text in marks[:2])
    active = answers_of([text for _, text in marks[:2]])
    revoked, = answers_of([marks[0][1]], revoked=[marks[0][1]])
    out = f"mark 0 (open by {TA}) is left out: "
    taken_back, useless, failed_at = f"{out}its issuer says that it is revoked", f"{out}{STATUS} ", f"mark 1 (own by {TA}) is left out: {STATUS} "
    own_ta = ta(STATUS)
    heeded("both are active", own_ta, marks, {one: active[0], two: active[1]}, ["active", "active", "unasked"], [0, 1, 2], NOW + 300)
    heeded("one was taken back", own_ta, marks, {one: revoked, two: active[1]}, ["refused", "active", "unasked"], [1, 2], NOW + 600, taken_back)
    heeded("the second post fails", own_ta, marks, {one: active[0], two: "reset"}, ["active", "fault", "unasked"], [0, 2], NOW + 300,
           f"{failed_at}couldn't be asked", RESET)
    heeded("a status of HTTP", own_ta, marks, {one: 403, two: active[1]}, ["useless", "active", "unasked"], [1, 2], NOW + 600,
           f"{useless}is answered with status 403")
    heeded("not HTTP", own_ta, marks, {one: b"?", two: active[1]}, ["useless", "active", "unasked"], [1, 2], NOW + 600,
           f"{useless}isn't answered as HTTP is")
    heeded("another mark's answer", own_ta, marks, {one: active[1], two: active[1]}, ["useless", "active", "unasked"], [1, 2], NOW + 600,
           f"{useless}has no answer by {TA} on this mark")
    heeded("no mark is left", own_ta, marks[:1], {one: 404}, ["useless"], [], NOW + 7200, f"{useless}is answered with status 404")
    heeded("no endpoint", TA_OWN, marks, {}, ["unasked"] * 3, [0, 1, 2], NOW + 300)
    heeded("no marks", own_ta, [], {}, [], [], NOW + 7200)
    elsewhere = "https://status.example/trust-mark-status"
    heeded("no route to the endpoint", ta(elsewhere), marks[:1], {}, ["useless"], [], NOW + 7200,
           f"{out}{elsewhere} has a host to which the configuration has no route")
    with Web({}) as web:
        got = call(hosts_in(USUAL, web), anchor=JM, heed=True)
    tell(f"no reply, and nothing is asked about: {got[:3]}", (got[:3], web.calls) == ((1, ERRORS["anchor"], said([SAID["anchor"]])), []))


def listed():
    """Refusals before anything is asked, and those of what no route leads to."""
    with Web(USUAL) as web:
        got = call(hosts_in(USUAL, web), anchor=JM)
        wanted = 1, ERRORS["anchor"], said([SAID["anchor"]])
        tell(f"an anchor that isn't listed: {got[:3]}", got[:3] == wanted)
        quiet = call(hosts_in(USUAL, web), anchor=JM, FED_QUIET="1")
        tell(f"quietly: {quiet[:3]}", quiet[:3] == (1, ERRORS["anchor"], ""))
        with open("/dev/full", "wb") as full:
            words = [FED, "resolve", "--config", written("full.json", config_of({})), "--sub", RP, "--anchor", JM]
            done = subprocess.run(words, stdout=full, stderr=subprocess.PIPE, timeout=PATIENCE, cwd=place, env=ENVIRONMENT)
        tell(f"a full disk: {done}", done.returncode == 4 and b"standard output can't be written" in done.stderr)
        tell(f"a call for an anchor that isn't listed asked for {web.calls}", web.calls == [])
    refused("no route to the entity", USUAL, 1, ERRORS["entity"], [], no_route(RP), routes={"rp.example": None})
    refused("no route to the superior", USUAL, 1, ERRORS["chain"], CALLS[:1], *lost("chain", no_route(IM), NO_PATH), routes={"im.example": None})
    nobody = free_port()
    at_nobody = f"127.0.0.1:{nobody}: connection refused; nobody listens there"
    refused("nobody at the route", USUAL, 7, "", CALLS[:1], *lost("fault", failed(IM), NO_PATH, at_nobody), routes={"im.example": nobody})
    refused("nobody at the entity", USUAL, 7, "", [], *lost("fault", failed(RP), at_nobody), routes={"rp.example": nobody})


def url(entity):
    return f"{entity}/.well-known/openid-federation"


def moment(seconds):
    return f"{seconds} ({time.strftime('%Y-%m-%d %H:%M:%S', time.gmtime(seconds))} UTC)"


def lost(why, *sentences):
    return [SAID[why], *sentences]


def failed(entity):
    return f"{url(entity)} couldn't be fetched"


def no_route(entity):
    return f"there is no route to {entity.removeprefix('https://').split('/')[0]}; add one to resolver.routes"


NO_PATH = f"no path came up to {TA}"
RESET = "127.0.0.1:PORT: the connection was reset"
SILENT = "127.0.0.1:PORT: not answered within 10 seconds"
SPENT = "127.0.0.1:PORT: the time for all that one call fetches was over"
UNJUDGED = f"the search ended before it judged a path that is valid: {RP} {IM} {TA}"


def entity_pages():
    """Pages of the entity itself that aren't good: it isn't found."""
    head = b"HTTP/1.1 200 OK\r\n"
    own_rp = own(RP, authority_hints=[IM], metadata=METADATA)
    garbled, bad = "isn't answered as HTTP is", "has no entity statement:"
    expired = NOW - 5
    kid = KEYS["other"]["kid"]
    rows = [
        ("absent", 404, "is answered with status 404"),
        ("an error", 500, "is answered with status 500"),
        ("a redirect", b"HTTP/1.1 301 Moved Permanently\r\nLocation: x\r\n\r\n", "is answered with status 301"),
        ("no byte", b"", garbled),
        ("not HTTP", b"\x16\x03\x01\x02\x00" * 20, garbled),
        ("an end in the middle", head + b"Content-Length: %d\r\n\r\n" % (len(RP_OWN) + 1) + RP_OWN.encode(), garbled),
        ("an end in a chunk", head + b"Transfer-Encoding: chunked\r\n\r\n%x\r\n" % (len(RP_OWN) + 1) + RP_OWN.encode(), garbled),
        ("another coding", head + b"Content-Encoding: gzip\r\n\r\n" + RP_OWN.encode(), garbled),
        ("262,145 bytes", head + b"\r\n" + b"a" * 262145, "has more than 262,144 bytes"),
        ("262,144 bytes of no statement", head + b"\r\n" + b"a" * 262144, bad, "place 0: the text isn't three parts with full stops between them"),
        ("JSON", json.dumps(own_rp), bad, "place 0: the text begins as JSON does, and is no signed text"),
        ("another algorithm", unsealed(own_rp, alg="ES256"), bad, "place 0: this text is signed with ES256; fed checks SLH-DSA-SHA2-128s or SLH-DSA-SHA2-128f"),
        ("another entity's", IM_OWN, f"is the configuration of {IM}; asked was {RP}"),
        ("a statement", IM_RP, f"has another text, by {IM} about {RP}"),
        ("expired", unsealed({**own_rp, "exp": expired}), f"expired at {moment(expired)}"),
        ("no kid", unsealed(own_rp, kid=None), "has no kid in its header, the name of the key that signed"),
        ("another key", sealed(own_rp, "other"), f"is signed by the SLH-DSA-SHA2-128s key {kid}, which isn't in its own jwks"),
        ("another signature", unsealed(own_rp, kid=KEYS[RP]["kid"]), f": the signature doesn't verify under its own SLH-DSA-SHA2-128s key {KEYS[RP]['kid']}"),
    ]
    for row, page, sentence, *more in rows:
        space = "" if sentence.startswith(":") else " "
        sentences = lost("entity", f"{url(RP)}{space}{sentence}", *more)
        refused(f"the entity: {row}", {**USUAL, page_of(RP): page}, 1, ERRORS["entity"], CALLS[:1], *sentences)
    early = NOW + 36000
    with Web({page_of(RP): unsealed({**own_rp, "iat": early})}) as web:
        got = call({"rp.example": web.port})
    sentence = f"{url(RP)} is issued at {moment(early)}, more than a minute after "
    tell(f"the entity: issued later: {got[:3]}", got[:2] == (1, ERRORS["entity"]) and sentence in got[2])


def superior_pages():
    """Pages of superiors that aren't good: no path leads over them."""
    fetched = "https://" + fetch_of(IM, RP)
    short = b"HTTP/1.1 200 OK\r\nContent-Length: %d\r\n\r\n" % (len(IM_OWN) + 1) + IM_OWN.encode()
    long = b"HTTP/1.1 200 OK\r\n\r\n" + b"a" * 262145
    rows = [
        ("another entity's configuration", {page_of(IM): TA_OWN}, 2, f"{url(IM)} is the configuration of {TA}; the hint of {RP} is {IM}"),
        ("an end in the middle", {page_of(IM): short}, 2, f"{url(IM)} isn't answered as HTTP is"),
        ("262,145 bytes", {fetch_of(IM, RP): long}, 3, f"{fetched} has more than 262,144 bytes"),
        ("no statement", {fetch_of(IM, RP): 404}, 3, f"{IM} doesn't state {RP} (404): it isn't its subordinate"),
        ("a statement about another", {fetch_of(IM, RP): unsealed(about(IM, JM))}, 3, f"{fetched} has another text, by {IM} about {JM}"),
        ("another's statement", {fetch_of(IM, RP): unsealed(about(JM, RP))}, 3, f"{fetched} has another text, by {JM} about {RP}"),
        ("no configuration of the anchor", {page_of(TA): 404}, 4, f"{url(TA)} is answered with status 404"),
    ]
    for row, pages, count, sentence in rows:
        refused(f"the superior: {row}", {**USUAL, **pages}, 1, ERRORS["chain"], CALLS[:count], *lost("chain", sentence, NO_PATH))
    alone = sealed(own(RP, metadata=METADATA), RP)
    refused("no hints", {**USUAL, page_of(RP): alone}, 1, ERRORS["chain"], CALLS[:1], *lost("chain", f"{NO_PATH}: {RP} states no authority_hints"))
    fenced = sealed(own(IM, authority_hints=[TA]), IM)
    refused("no endpoint", {**USUAL, page_of(IM): fenced}, 1, ERRORS["chain"], CALLS[:2],
            *lost("chain", f"{url(IM)} names no federation_fetch_endpoint, where statements are asked for", NO_PATH))


def chains():
    """Chains that are refused: a path is told with its place, its entities and the reason."""
    path = f"a path up to the trust anchor is refused: {RP} {IM} {TA}"
    im_rp, ta_im, kid = f"place 1 ({IM} about {RP})", f"place 2 ({TA} about {IM})", KEYS["other"]["kid"]
    both = own(TA, metadata=endpoint(TA), jwks={"keys": [KEYS["other"], KEYS[TA]]})
    name = {"openid_relying_party": {"client_name": {"value": "B"}}}
    rows = [
        ("another key", "chain", {fetch_of(IM, RP): sealed(about(IM, RP), "other")}, f"{im_rp}: the SLH-DSA-SHA2-128s key {kid} isn't among the keys that {TA} states of {IM}; is a rotation half done?"),
        ("another signature", "chain", {fetch_of(IM, RP): unsealed(about(IM, RP), kid=KEYS[IM]["kid"])},
         f"{im_rp}: the signature doesn't verify under the SLH-DSA-SHA2-128s key {KEYS[IM]['kid']} in the jwks of the next text"),
        ("expired", "chain", {fetch_of(TA, IM): unsealed(about(TA, IM, exp=NOW - 5))}, f"{ta_im} expired at {moment(NOW - 5)}"),
        ("another key of the anchor", "chain", {page_of(TA): sealed(both, "other")},
         f"place 3 ({TA} about itself): there is no SLH-DSA-SHA2-128s key {kid} among the anchor's keys"),
        ("a path too long", "chain", {fetch_of(TA, IM): sealed(about(TA, IM, constraints={"max_path_length": 0}), TA)},
         f"{ta_im} allows a max_path_length of 0; between it and the leaf stand 1"),
        ("a name that isn't allowed", "chain",
         {fetch_of(TA, IM): sealed(about(TA, IM, constraints={"naming_constraints": {"excluded": ["rp.example"]}}), TA)},
         f"{ta_im}: the host rp.example of place 0 matches a name of excluded"),
        ("a policy", "policy", {fetch_of(IM, RP): sealed(about(IM, RP, metadata_policy={"openid_relying_party": {"client_name": {"one_of": ["B"]}}}), IM)},
         f"place 0 ({RP} about itself): its metadata openid_relying_party client_name doesn't pass the operator one_of of the merged policy"),
        ("two policies", "policy", {fetch_of(TA, IM): sealed(about(TA, IM, metadata_policy=name), TA),
                                    fetch_of(IM, RP): sealed(about(IM, RP, metadata_policy=json.loads(json.dumps(name).replace("B", "C"))), IM)},
         f"{im_rp}: the policies of openid_relying_party client_name from the anchor down to it have two values of value that can't be merged"),
    ]
    for row, why, pages, sentence in rows:
        refused(f"a chain: {row}", {**USUAL, **pages}, 1, ERRORS[why], CALLS, *lost(why, path, sentence))


def spent(calls, most_calls, paths, most_paths):
    return (f"the search ended at its bound: {calls} pages of at most {most_calls}, {paths} paths of at most {most_paths}; "
            "see depth, calls and paths of the anchor in the configuration")


def bounds():
    """The usual web, of five pages and three paths, within bounds that it just needs, and past each of them. The bounds are those of the anchor that
    is asked for: another one's change nothing."""
    far = anchor_of(JM, depth=1, calls=1, paths=1)
    for row, anchors in (
            ("needed", [anchor_of(TA, depth=2, calls=5, paths=3)]), ("the most", [anchor_of(TA, depth=12, calls=160, paths=4096)]), ("none", [anchor_of(TA)]),
            ("another anchor's before it", [far, anchor_of(TA)]), ("another anchor's behind it", [anchor_of(TA, depth=2, calls=5, paths=3), far])):
        resolved(f"bounds: {row}", USUAL, CALLS, CHAIN, RESOLVED, exp=NOW + 7200, anchors=anchors)
    for others in ([], [anchor_of(JM)]):
        refused("a depth of 1", USUAL, 1, ERRORS["chain"], CALLS[:3], *lost("chain", NO_PATH), anchors=[anchor_of(TA, depth=1), *others])
        refused("4 calls", USUAL, 9, "", CALLS[:4], spent(4, 4, 2, "4,096"), NO_PATH, anchors=[*others, anchor_of(TA, calls=4)])
        refused("2 paths", USUAL, 9, "", CALLS, spent(5, 160, 2, "2"), UNJUDGED, anchors=[anchor_of(TA, paths=2), *others])
    refused("1 call, 1 path", USUAL, 9, "", CALLS[:1], spent(1, 1, 1, "1"), NO_PATH, anchors=[anchor_of(TA, calls=1, paths=1)])
    both = [anchor_of(TA, depth=1), anchor_of(IM, depth=1)]
    for anchor, status, calls in ((IM, 0, CALLS[:3]), (TA, 1, CALLS[:3])):
        with Web(USUAL) as web:
            got = call(hosts_in(USUAL, web), anchor=anchor, anchors=both)
        tell(f"two anchors with a depth of 1, {anchor}: {got}, {web.calls}"[:2000], (got[0], web.calls) == (status, calls))


def searches():
    """Webs that are made to be searched for long: hints in a circle, and more of them than pages are asked for."""
    jm = sealed(own(JM, authority_hints=[IM, RP, JM], metadata=endpoint(JM)), JM)
    im = sealed(own(IM, authority_hints=[JM, RP], metadata=endpoint(IM)), IM)
    circle = {page_of(RP): RP_OWN, page_of(IM): im, fetch_of(IM, RP): IM_RP, page_of(JM): jm, fetch_of(JM, IM): unsealed(about(JM, IM))}
    refused("hints in a circle", circle, 1, ERRORS["chain"], list(circle), *lost("chain", f"{NO_PATH}: {RP} and {IM} hint each other"))
    early, late = ([f"https://{letter}{number}.example" for number in range(31)] for letter in "xy")
    rp = sealed(own(RP, authority_hints=[JM, *early], metadata=METADATA), RP)
    jm = sealed(own(JM, authority_hints=late, metadata=endpoint(JM)), JM)
    pages = {page_of(RP): rp, page_of(JM): jm, fetch_of(JM, RP): unsealed(about(JM, RP))}
    asked = [*early, *late[:30]]
    sentences = [spent(64, 64, 2, "4,096"),
                 *(f"{url(entity)} is answered with status 404" for entity in asked), NO_PATH]
    with Web(pages) as web:
        got = call({name: web.port for name in [*hosts_in(pages, web), *(it.removeprefix("https://") for it in [*early, *late])]})
    wanted = 9, "", said(sentences)
    tell(f"a bound: {got[:3]}, not {wanted}"[:3000], got[:3] == wanted)
    tell(f"a bound: asked for {web.calls}", web.calls == [*pages, *map(page_of, asked)])


def faults():
    """A fetch that fails is told by its URL, and isn't taken for a page that isn't there."""
    for row, page, reason in (("a reset", "reset", RESET), ("silence", "silent", SILENT)):
        refused(f"the entity: {row}", {**USUAL, page_of(RP): page}, 7, "", CALLS[:1], *lost("fault", failed(RP)), reason)
    with Web({**USUAL, page_of(RP): "silent"}) as web:
        began = time.monotonic()
        got = call(hosts_in(USUAL, web), FED_FETCH_SECONDS="1")
        spent = time.monotonic() - began
    wanted = (7, "", said(lost("fault", failed(RP), SPENT)).replace("PORT", str(web.port)))
    tell(f"FED_FETCH_SECONDS=1: {got[:3]}, not {wanted}, in {spent:.1f} seconds", got[:3] == wanted and 1 <= spent < 9)
    refused("the superior: a reset", {**USUAL, page_of(IM): "reset"}, 7, "", CALLS[:2], *lost("fault", failed(IM), NO_PATH), RESET)


def faulty():
    """Each member of the resolver's object missing, or not of its form: `input`, and its name on standard error."""
    anchor, keys, route = {"entity_id": TA, "jwks": {"keys": [KEYS[TA]]}}, {"keys": [KEYS["other"]]}, {"host": "a", "ip": "127.0.0.1", "port": 1}
    many = [{**anchor, "entity_id": f"https://a{number}.example"} for number in range(65)]
    rows = [("anchors", value) for value in (None, [], {}, [anchor, anchor], many, [{"entity_id": TA}], [{**anchor, "entity_id": "ta"}], [{**anchor, "jwks": 1}])]
    rows += [("anchors", [{**anchor, member: value}]) for member, most in (("depth", 12), ("calls", 160), ("paths", 4096))
             for value in (0, most + 1, str(most), 1.5, -1, True, None, {"a": 1})]
    rows += [("age", value) for value in (None, 0, 86401, "60", 1.5)] + [("workers", value) for value in (None, 0, 17, "1")]
    rows += [("control", value) for value in (None, [], {"keys": 1}, KEYS["other"])] + [("routes", value) for value in (None, {}, [1])]
    rows += [("routes", [{**route, member: value}]) for member, value in (("host", 1), ("port", 0), ("port", 65536), ("port", "1"))]
    rows += [("routes", [{**route, "ip": value}]) for value in (1, "127.0.0", "127.0.0.1.1", "127.0.0.256", "127.0.0.01", "::1", "localhost")]
    for member, value in rows:
        config = config_of({})
        config["resolver"].pop(member)
        if value is not None:
            config["resolver"][member] = value
        not_a_node(f"{member} {str(value)[:60]}", config, f"resolver.{member}")
    not_a_node("resolver []", {**config_of({}), "resolver": []}, "resolver must be an object with anchors, age, workers, control and routes, and is a list\n")
    not_a_node("lifetime 1", {**config_of({}), "lifetime": 1}, "lifetime must be a whole number from 60 to 31536000, and is 1\n")
    without = {name: value for name, value in config_of({}).items() if name != "resolver"}
    not_a_node("no resolver", without, " has no member resolver, which says for which trust anchors and how the node resolves\n", between="")
    least = config_of({}, anchors=many[:64] and [anchor, *many[:63]], age=1, workers=16, control={"keys": []})
    done = fed("resolve", "--config", written("least.json", least), "--sub", RP, "--anchor", JM)
    tell(f"limits: {done}", (done.returncode, done.stdout) == (1, ERRORS["anchor"].encode()))
    os.mkdir(f"{place}/folder")
    done = fed("resolve", "--config", "folder", "--sub", RP, "--anchor", JM)
    tell(f"a folder: {done}", (done.returncode, done.stdout) == (6, b"") and b"folder is a folder, and not a file" in done.stderr)


def not_a_node(row, config, sentence, between=": "):
    """The whole sentence where it ends with its line, and else only its place."""
    name = written(f"faulty-{next(numbers)}.json", config)
    done = fed("resolve", "--config", name, "--sub", RP, "--anchor", TA)
    said = done.stderr.decode()
    lacks = said.startswith(f"fed: {name}{between}the member {sentence}") and " is missing; " in said
    begun = said.startswith(f"fed: {name}{between}{sentence}") or lacks
    tell(f"faulty: {row}: {done}, not {sentence}"[:1000],
         (done.returncode, done.stdout) == (2, b"input\n") and begun and said.count("\n") == 1 and said.endswith("\n"))


# ---- real authorities

def federation():
    """An entity below an intermediate, each answering for itself by `fed authority`, with marks of which two are good."""
    marks, member = marks_of([
        ("open", {"exp": NOW + 600}, TA), ("unlisted", {}, TA), ("strange", {}, TA), ("open", {"sub": JM}, TA), ("open", {"exp": NOW - 5}, TA),
        ("open", {"iat": NOW - 99}, "other"), ("own", {}, TA), ("own", {"iss": IM}, IM), ("open", {"iss": IM}, IM)])
    nodes = authorities("found", (1, 2, 2), rp=member, ta={"trust_mark_issuers": ISSUERS})
    status, text, sentences, moments = call({host: node.port for host, node in nodes.items()})
    tell(f"the federation: {status} {text[:200]} {sentences}", (status, sentences) == (0, ""))
    for node in nodes.values():
        node.ended()
    chain = claims_of(text)["trust_chain"]
    names = [(claims["iss"], claims["sub"]) for claims in map(claims_of, chain)]
    tell(f"the federation: its chain: {names}", names == [(RP, RP), (IM, RP), (TA, IM), (TA, TA)])
    returned = [marks[place] for place in (0, 6, 8)]
    differs = differs_in(text, moments, RP, chain, NOW + 600, {**endpoints(RP), **RESOLVED}, returned)
    tell(f"the federation: differs in {differs}"[:2000], not differs)


def heeded_federation():
    """The same with marks that are asked about, at the authorities that issued them: one of them took a mark back, and its authority ends before it
    is asked about the last one."""
    marks, member = marks_of([("open", {"exp": NOW + 300}, TA), ("own", {"exp": NOW + 600}, TA), ("open", {"iss": IM}, IM), ("own", {}, TA)])
    nodes = authorities("asked", (1, 3, 4), rp=member, ta={"trust_mark_issuers": ISSUERS, "revoked_marks": [marks[0][1]]})
    status, out, sentences, moments = call({host: node.port for host, node in nodes.items()}, heed=True)
    for node in nodes.values():
        node.ended()
    text, _, lines = out.partition("\n")
    left = [f"mark 0 (open by {TA}) is left out: its issuer says that it is revoked", f"mark 3 (own by {TA}) is left out: {STATUS} couldn't be asked",
            f"127.0.0.1:{nodes['ta.example'].port}: connection refused; nobody listens there"]
    wanted = 0, "mark 0 refused\nmark 1 active\nmark 2 active\nmark 3 fault\n", said(left)
    tell(f"the asked federation: {(status, lines, sentences)}, not {wanted}"[:2000], (status, lines, sentences) == wanted)
    differs = status or differs_in(f"{text}\n", moments, RP, claims_of(text)["trust_chain"], NOW + 600, {**endpoints(RP), **RESOLVED}, marks[1:3])
    tell(f"the asked federation: differs in {differs}"[:2000], not differs)


def endpoints(entity):
    """What an authority without subordinates adds to its metadata."""
    return {"federation_entity": {"federation_historical_keys_endpoint": f"{entity}/historical-keys",
                                  "federation_trust_mark_status_endpoint": f"{entity}/trust-mark-status"}}


def main():
    try:
        rows = [found, marked, asked, listed, entity_pages, superior_pages, chains, bounds, searches, faults, faulty, federation, heeded_federation]
        return tried("resolve", rows)
    finally:
        shutil.rmtree(place)


sys.exit(main())
