"""What a resolver is tried with: keys, texts, a web of fixed texts on loopback, authorities, and what a reply has to be."""

import base64
import json
import os
import re
import socket
import struct
import subprocess
import sys
import tempfile
import time

sys.dont_write_bytecode = True
from laid import TOP, Host, free_port, started, tell  # noqa: E402

FED = f"{TOP}/fed"
PATIENCE = 100
TA, IM, RP, JM, RESOLVER = "https://ta.example", "https://im.example/fed", "https://rp.example", "https://jm.example", "https://resolver.example"
STATEMENT, MARK = "entity-statement+jwt", "trust-mark+jwt"
GET = re.compile(rb"GET (/\S*) HTTP/1\.1\r\nHost: (\S+)\r\nAccept: \*/\*\r\nConnection: close\r\n\r\n")
POST = re.compile(rb"POST (/\S*) HTTP/1\.1\r\nHost: (\S+)\r\nAccept: \*/\*\r\nContent-Type: application/x-www-form-urlencoded\r\n"
                  rb"Content-Length: (\d+)\r\nConnection: close\r\n\r\n(.*)", re.DOTALL)
NOW = int(time.time())
END = NOW + 86400
ENVIRONMENT = {name: value for name, value in os.environ.items() if name != "FED_QUIET"}
place = tempfile.mkdtemp()


# ---- keys and texts

def fed(*words, given="", **more):
    return subprocess.run([FED, *words], input=given.encode(), capture_output=True, timeout=PATIENCE, cwd=place, env={**ENVIRONMENT, **more})


def ring(name, number):
    """Makes a ring file of one key, and gives the key that others see."""
    done = fed("keygen", "--ring", name, "--at", "1700000000", "--exp", "1900000000", given=f"{number:096x}")
    os.chmod(f"{place}/{name}", 0o600)
    return json.loads(done.stdout)


def written(name, config):
    with open(f"{place}/{name}", "w", encoding="utf-8") as it:
        it.write(config if isinstance(config, str) else json.dumps(config))
    return name


def compact(tree):
    return json.dumps(tree, separators=(",", ":"), ensure_ascii=False).encode()


def decoded(part):
    return base64.urlsafe_b64decode(part + b"=" * (-len(part) % 4))


def claims_of(text):
    return json.loads(decoded(text.encode().split(b".")[1]))


RINGS = {TA: "ta.ring", IM: "im.ring", RP: "rp.ring", JM: "jm.ring", RESOLVER: "resolver.ring", "other": "other.ring"}
KEYS = {who: ring(name, number) for number, (who, name) in enumerate(RINGS.items(), 1)}


def sealed(claims, by, typ=STATEMENT):
    """The claims as a text that is sealed by the key of this entity."""
    return fed("issue", "--ring", RINGS[by], "--typ", typ, given=json.dumps(claims)).stdout.decode().strip()


def unsealed(claims, **header):
    """A text of these claims whose signature is of the right length and verifies under no key."""
    header = {"alg": "SLH-DSA-SHA2-128s", "kid": "k", "typ": STATEMENT, **header}
    parts = [compact({name: value for name, value in header.items() if value is not None}), compact(claims)]
    return ".".join([*(base64.urlsafe_b64encode(part).decode().rstrip("=") for part in parts), "A" * 10475])


def page_of(entity):
    return f"{entity.removeprefix('https://')}/.well-known/openid-federation"


def fetch_of(superior, subject):
    return f"{superior.removeprefix('https://')}/fetch?sub={subject.replace(':', '%3A').replace('/', '%2F')}"


def post_of(endpoint, mark):
    """The call that posts a mark's text, in which a form leaves each character as it is."""
    return f"POST {endpoint.removeprefix('https://')} trust_mark={mark}"


def own(entity, key=None, **more):
    """The claims of an entity's configuration."""
    return {"iss": entity, "sub": entity, "iat": NOW - 100, "exp": END, "jwks": {"keys": [key or KEYS[entity]]}, **more}


def about(superior, subject, **more):
    return {"iss": superior, "sub": subject, "iat": NOW - 100, "exp": END, "jwks": {"keys": [KEYS.get(subject, KEYS["other"])]}, **more}


def endpoint(entity):
    return {"federation_entity": {"federation_fetch_endpoint": f"{entity}/fetch"}}


# ---- a web of fixed texts, whatever the host

class Web(Host):
    """Serves pages on one port, and keeps the calls in their order. A page is a text, a status, bytes that are sent as they are, or one of the
    words `reset`, an end of the connection in place of an answer, and `silent`, no answer at all."""

    def __init__(self, pages):
        self.pages, self.calls = pages, []
        super().__init__(Web.called, PATIENCE)

    def called(self, peer, asked):
        form, posted = GET.fullmatch(asked), POST.fullmatch(asked)
        while posted and len(posted[4]) < int(posted[3]) and (more := peer.recv(65536)):
            asked += more
            posted = POST.fullmatch(asked)
        if form:
            call = (form[2] + form[1]).decode("latin-1")
        elif posted and len(posted[4]) == int(posted[3]):
            call = (b"POST " + posted[2] + posted[1] + b" " + posted[4]).decode("latin-1")
        else:
            call = f"not a request of the client's form: {asked[:200]}"
        self.calls.append(call)
        self.answer(peer, self.pages.get(call, 404))

    def answer(self, peer, page):
        if page == "reset":
            peer.setsockopt(socket.SOL_SOCKET, socket.SO_LINGER, struct.pack("ii", 1, 0))
        elif page == "silent":
            self.over.wait(PATIENCE)
        elif isinstance(page, bytes):
            peer.sendall(page)
        elif isinstance(page, int):
            peer.sendall(f"HTTP/1.1 {page} Other\r\nContent-Length: 0\r\nConnection: close\r\n\r\n".encode())
        else:
            peer.sendall(f"HTTP/1.1 200 OK\r\nContent-Length: {len(page)}\r\nConnection: close\r\n\r\n{page}".encode())


# ---- real authorities

class Authority:
    """An authority on a port of its own for so many connections, and one that only waits until it listens."""

    def __init__(self, name, config, connections):
        self.name, self.port = name, free_port()
        words = ["authority", "--config", written(f"{name}.json", config), "--port", str(self.port), "--connections", str(connections + 1)]
        self.running = subprocess.Popen([FED, *words], cwd=place, stdout=subprocess.PIPE, stderr=subprocess.DEVNULL)
        started.append(self.running)
        self.served = f"served {connections + 1}\n"

    def wait(self):
        end = time.monotonic() + PATIENCE
        while True:
            try:
                return socket.create_connection(("127.0.0.1", self.port), timeout=PATIENCE).close()
            except ConnectionRefusedError:
                if time.monotonic() > end or self.running.poll() is not None:
                    raise
                time.sleep(0.02)

    def ended(self):
        """Whether it has answered each of its connections and ended by itself."""
        try:
            out = self.running.communicate(timeout=PATIENCE)[0].decode()
        finally:
            self.running.kill()
        tell(f"the end of {self.name}: {self.running.returncode} {out}", (self.running.returncode, out) == (0, self.served))


# ---- the texts of the usual web: an entity, an intermediate, another one, and the trust anchor

METADATA = {"openid_relying_party": {"client_name": "A", "grant_types": ["authorization_code", "implicit"]}}
POLICY = {"openid_relying_party": {"contacts": {"add": ["help@im.example"]}, "grant_types": {"subset_of": ["authorization_code", "refresh_token"]}}}
RESOLVED = {"openid_relying_party": {"client_name": "A", "contacts": ["help@im.example"], "grant_types": ["authorization_code"]}}
ISSUERS = {"open": [], "own": [TA], "strange": [JM]}
RP_OWN = sealed(own(RP, authority_hints=[IM], metadata=METADATA), RP)
IM_OWN = sealed(own(IM, authority_hints=[TA], metadata=endpoint(IM)), IM)
IM_RP = sealed(about(IM, RP, metadata_policy=POLICY), IM)
TA_OWN = sealed(own(TA, metadata=endpoint(TA), trust_mark_issuers=ISSUERS), TA)
TA_IM = sealed(about(TA, IM, exp=NOW + 7200), TA)
CHAIN = [RP_OWN, IM_RP, TA_IM, TA_OWN]
USUAL = {page_of(RP): RP_OWN, page_of(IM): IM_OWN, fetch_of(IM, RP): IM_RP, page_of(TA): TA_OWN, fetch_of(TA, IM): TA_IM}
CALLS = list(USUAL)
written("ta.keys", {"keys": [KEYS[TA]]})


def marks_of(given):
    """Trust marks of the entity, each of a type, with claims of its own and sealed by a key: the marks, and the member that has them."""
    claims = {"iss": TA, "sub": RP, "iat": NOW - 100}
    marks = [(typ, sealed({**claims, "trust_mark_type": typ, **more}, by, MARK)) for typ, more, by in given]
    return marks, {"trust_marks": [{"trust_mark_type": typ, "trust_mark": text} for typ, text in marks]}


def authorities(name, connections, rp=None, ta=None):
    """An entity below an intermediate below the trust anchor, each answering so many connections by `fed authority`; two with more members."""
    rp = {"entity_id": RP, "ring": "rp.ring", "lifetime": 3600, "authority_hints": [IM], "metadata": METADATA, **(rp or {})}
    im = {"entity_id": IM, "ring": "im.ring", "lifetime": 3600, "authority_hints": [TA],
          "subordinates": [{"entity_id": RP, "jwks": {"keys": [KEYS[RP]]}, "metadata_policy": POLICY}]}
    ta = {"entity_id": TA, "ring": "ta.ring", "lifetime": 3600,
          "subordinates": [{"entity_id": IM, "jwks": {"keys": [KEYS[IM]]}, "intermediate": True}], **(ta or {})}
    hosts = "rp.example", "im.example", "ta.example"
    nodes = {host: Authority(f"{name}-{host}", config, count) for host, config, count in zip(hosts, (rp, im, ta), connections)}
    for node in nodes.values():
        node.wait()
    return nodes


# ---- a resolver's file, and its replies

# How far searches go in what the tests lay out.
BOUNDS = {"depth": 8, "calls": 64}


def anchor_of(entity, **bounds):
    """An anchor of a configuration, by the entity's own key."""
    return {"entity_id": entity, "jwks": {"keys": [KEYS[entity]]}, **bounds}


def config_of(routes, **more):
    resolver = {"anchors": [anchor_of(TA, **BOUNDS)], "age": 3600, "workers": 1, "control": {"keys": [KEYS["other"]]},
                "routes": [{"host": host, "ip": "127.0.0.1", "port": port} for host, port in routes.items()], **more}
    return {"entity_id": RESOLVER, "ring": "resolver.ring", "lifetime": 3600, "resolver": resolver}


def hosts_in(pages, web):
    """The routes of a web: to the hosts of its pages, and to those whose pages its texts may lead to."""
    return {call.split("/")[0]: web.port for call in [*pages, *map(page_of, (TA, IM, RP, JM))]}


def signed_differs(text, moments, typ, claims_at):
    """What isn't as it must be of a line that the resolver signed as a text of this type, or nothing: its claims are those that are said of the moment
    of its `iat`, which lies between these two."""
    parts = text.encode().removesuffix(b"\n").split(b".")
    if len(parts) != 3 or not text.endswith("\n"):
        return "its form"
    header, claims = decoded(parts[0]), decoded(parts[1])
    iat = json.loads(claims)["iat"]
    if not moments[0] <= iat <= moments[1]:
        return f"iat, {iat}"
    if header != compact({"alg": "SLH-DSA-SHA2-128s", "kid": KEYS[RESOLVER]["kid"], "typ": typ}):
        return f"the header, {header}"
    wanted = compact(claims_at(iat))
    if claims != wanted:
        return f"the claims, {claims[:300]}, not {wanted[:300]}"
    done = subprocess.run([f"{TOP}/bench/compressions.py", KEYS[RESOLVER]["pub"]], input=text.encode(), capture_output=True)
    return "the signature" if done.returncode else ""


def differs_in(text, moments, sub, chain, exp, metadata, marks, cut=None):
    """What of the reply isn't as it must be, or nothing. The chain resolves to the metadata, of which the reply tells `cut` where that is given."""
    wanted = {"exp": exp, "iss": RESOLVER, "metadata": metadata if cut is None else cut, "sub": sub, "trust_chain": chain}
    if marks:
        wanted["trust_marks"] = [{"trust_mark": mark, "trust_mark_type": typ} for typ, mark in marks]
    return signed_differs(text, moments, "resolve-response+jwt", lambda iat: dict(sorted({**wanted, "iat": iat}.items()))) or \
        chain_differs(chain, claims_of(text)["iat"], sub, metadata)


def chain_differs(chain, moment, sub, metadata):
    """Whether the chain is one for `fed check` too, and resolves to the same."""
    done = fed("check", "--anchor", TA, "--keys", "ta.keys", "--at", str(moment), given=json.dumps(chain))
    least = min(claims_of(text)["exp"] for text in chain)
    wanted = f"valid {sub} {least}\n".encode() + compact(metadata) + b"\n"
    return "" if (done.returncode, done.stdout) == (0, wanted) else f"its chain: {done}"
