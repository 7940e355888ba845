#!/usr/bin/env python3
"""The built program as a resolver under load, on loopback, over authorities that are the program too.

    tests/hand/load.py            60 seconds of load, and then a crowd of peers that are silent, drip, reset and lie
    tests/hand/load.py SECONDS    so many seconds of load

Sixteen clients ask a resolver of four workers without a pause. Each reply is looked at: its signature by another implementation, its chain by
`fed check` under the anchor's keys. In the middle the anchor's keys are rotated, and what is asked for after that stands under the new ones. The
resolver's memory may grow by a fifth at most from the first seconds on. It prints what differs, and fails where anything does.
"""

import json
import os
import shutil
import socket
import struct
import subprocess
import sys
import tempfile
import threading
import time
import urllib.parse

sys.dont_write_bytecode = True
sys.path.insert(0, f"{os.path.dirname(os.path.dirname(os.path.abspath(__file__)))}/lib")
import laid  # noqa: E402
from laid import TOP, Host, free_port, tell  # noqa: E402
from program import connected  # noqa: E402
from sealing import decoded, sealed  # noqa: E402

if {"-h", "--help"} & set(sys.argv[1:]):
    sys.exit(print(__doc__))

FED = f"{TOP}/fed"
SECONDS = int(sys.argv[1]) if sys.argv[1:] else 60
CLIENTS, WORKERS = 16, 4
PATIENCE = 300
TA, IM, RP, RESOLVER = "https://ta.example", "https://im.example", "https://rp.example", "https://resolver.example"
METADATA = {"openid_relying_party": {"client_name": "A", "grant_types": ["authorization_code", "implicit"]}}
POLICY = {"openid_relying_party": {"contacts": {"add": ["help@im.example"]}, "grant_types": {"subset_of": ["authorization_code"]}}}
SEEDS = {name: f"{number:096x}" for number, name in enumerate(["ta", "new", "im", "rp", "resolver", "control"], 1)}
ENVIRONMENT = {**os.environ, "FED_LOG": "off"}
place = tempfile.mkdtemp()


# ---- keys and files

def fed(*words, given=""):
    return subprocess.run([FED, *words], input=given.encode(), capture_output=True, timeout=PATIENCE, cwd=place)


def ring(name):
    """Makes a ring file of one key, and gives the key that others see."""
    done = fed("keygen", "--ring", f"{name}.ring", "--at", "1700000000", "--exp", "1900000000", given=SEEDS[name])
    os.chmod(f"{place}/{name}.ring", 0o600)
    return json.loads(done.stdout)


def written(name, tree):
    with open(f"{place}/{name}", "w", encoding="utf-8") as it:
        json.dump(tree, it)
    return name


KEYS = {name: ring(name) for name in SEEDS}
for name in ("ta", "new"):
    written(f"{name}.keys", {"keys": [KEYS[name]]})


def claims_of(text):
    return json.loads(decoded(text.split(".")[1]))


# ---- what runs

class Service:
    """The program as a service on a port of its own. It is ended by its id, unless it has ended by itself."""

    def __init__(self, command, name, config, connections=1_000_000):
        self.port = free_port()
        words = [command, "--config", written(f"{name}.json", config), "--port", str(self.port), "--connections", str(connections)]
        self.running = subprocess.Popen([FED, *words], cwd=place, stdout=subprocess.PIPE, stderr=subprocess.DEVNULL, env=ENVIRONMENT)

    def __enter__(self):
        return self

    def __exit__(self, *_):
        if self.running.poll() is None:
            self.running.terminate()
        self.running.communicate(timeout=PATIENCE)

    def connect(self):
        return connected(self.running, self.port)

    def memory(self):
        """Its resident memory, in KB."""
        with open(f"/proc/{self.running.pid}/status", encoding="ascii") as it:
            return int(next(line for line in it if line.startswith("VmRSS")).split()[1])


def relay(to):
    """A host that hands what it is asked on to the port that `to` has at that moment, and the answer back."""
    def serve(_, peer, asked):
        with socket.create_connection(("127.0.0.1", to[0]), timeout=PATIENCE) as other:
            other.sendall(asked)
            while more := other.recv(65536):
                peer.sendall(more)
    return Host(serve)


# ---- asking

def received(peer):
    """The status and the body of an answer, or the bytes that came where they are none."""
    got = b""
    while more := peer.recv(65536):
        got += more
        head, stop, body = got.partition(b"\r\n\r\n")
        if stop:
            lines = head.decode("latin-1").split("\r\n")
            length = int(next(line for line in lines if line.startswith("Content-Length: ")).split()[1])
            if len(body) >= length:
                return int(lines[0].split()[1]), body
    return None, got


def request_for(sub):
    query = urllib.parse.urlencode({"sub": sub, "trust_anchor": TA})
    return f"GET /resolve?{query} HTTP/1.1\r\nHost: resolver.example\r\nConnection: close\r\n\r\n".encode()


class Asked:
    """One request: when it began and ended, and what came."""

    def __init__(self, service, given):
        self.begin = time.monotonic()
        with service.connect() as peer:
            peer.sendall(given)
            self.status, self.body = received(peer)
        self.end = time.monotonic()


def differs(reply, keys, chain_keys):
    """What of a reply isn't as it must be, or nothing."""
    text = reply.body.decode()
    if subprocess.run([f"{TOP}/bench/compressions.py", keys["resolver"]["pub"]], input=reply.body, capture_output=True).returncode:
        return "the signature"
    claims = claims_of(text)
    chain = claims["trust_chain"]
    if (claims["iss"], claims["sub"]) != (RESOLVER, RP) or abs(time.time() - claims["iat"]) > SECONDS + 2 * PATIENCE:
        return f"the claims: {claims}"
    done = fed("check", "--anchor", TA, "--keys", chain_keys, "--at", str(claims["iat"]), given=json.dumps(chain))
    least = min(claims_of(it)["exp"] for it in chain)
    wanted = f"valid {RP} {least}\n".encode() + json.dumps(claims["metadata"], separators=(",", ":")).encode() + b"\n"
    if (done.returncode, done.stdout) != (0, wanted) or claims["exp"] != least:
        return f"the chain under {chain_keys}: {done}"
    return ""


# ---- the federation

def nodes():
    rp = {"entity_id": RP, "ring": "rp.ring", "lifetime": 86400, "authority_hints": [IM], "metadata": METADATA}
    im = {"entity_id": IM, "ring": "im.ring", "lifetime": 86400, "authority_hints": [TA],
          "subordinates": [{"entity_id": RP, "jwks": {"keys": [KEYS["rp"]]}, "metadata_policy": POLICY}]}
    ta = {"entity_id": TA, "lifetime": 86400, "subordinates": [{"entity_id": IM, "jwks": {"keys": [KEYS["im"]]}, "intermediate": True}]}
    return rp, im, {**ta, "ring": "ta.ring"}, {**ta, "ring": "new.ring"}


def resolver_over(ports):
    resolver = {"anchors": [{"entity_id": TA, "jwks": {"keys": [KEYS["ta"]]}}], "age": 3600, "workers": WORKERS, "control": {"keys": [KEYS["control"]]},
                "routes": [{"host": host, "ip": "127.0.0.1", "port": port} for host, port in ports.items()]}
    return {"entity_id": RESOLVER, "ring": "resolver.ring", "lifetime": 3600, "resolver": resolver}


def in_threads(work):
    threads = [threading.Thread(target=laid.guarded, args=(it,)) for it in work]
    for thread in threads:
        thread.start()
    return threads


# ---- rows

def under_load(service, to, new_port):
    """Sixteen clients for so many seconds, and a rotation in the middle."""
    body = sealed({"anchor": TA, "epoch": 0, "jwks": {"keys": [KEYS["new"]]}}, "anchor-keys+jwt", SEEDS["control"], KEYS["control"]).encode()
    post = b"POST /anchor-keys HTTP/1.1\r\nHost: resolver.example\r\nContent-Length: %d\r\nConnection: close\r\n\r\n" % len(body) + body
    service.connect().close()
    begin = time.monotonic()
    end, replies = begin + SECONDS, []

    def client():
        while time.monotonic() < end:
            replies.append(Asked(service, request_for(RP)))

    client.__name__ = "a client"
    threads = in_threads([client] * CLIENTS)
    time.sleep(min(10, SECONDS / 3))
    early = service.memory()
    time.sleep(max(0, begin + SECONDS / 2 - time.monotonic()))
    switched = time.monotonic()
    to[0] = new_port
    rotation = Asked(service, post)
    tell(f"the rotation: {rotation.status} {rotation.body}", (rotation.status, rotation.body) == (200, b'{"epoch":1}'))
    for thread in threads:
        thread.join()
    late = service.memory()
    again = Asked(service, post)
    wanted = 409, b'{"epoch":1,"error":"invalid_request","error_description":"another epoch"}'
    tell(f"the rotation again: {again.status} {again.body}", (again.status, again.body) == wanted)
    tell(f"memory: {early} KB at first, {late} KB at last", late <= 1.2 * early)
    judge(replies, switched, rotation.end)
    after = sum(reply.begin > rotation.end for reply in replies)
    print(f"load: {len(replies)} replies in {SECONDS} seconds, {after} of them asked for after the rotation; {early} KB, then {late} KB")


def judge(replies, switched, rotated):
    """Looks at each reply: under the old keys before the rotation, under the new ones after it, and under either in between, where the anchor
    may seal by the new key already and the book have the old one still."""
    tell(f"{len(replies)} replies", len(replies) >= CLIENTS)
    tell("no reply was asked for after the rotation", any(reply.begin > rotated for reply in replies))
    for reply in replies:
        between = reply.end > switched and reply.begin <= rotated
        if reply.status == 200:
            files = ["ta.keys", "new.keys"] if between else ["new.keys" if reply.begin > rotated else "ta.keys"]
            found = [differs(reply, KEYS, file) for file in files]
            tell(f"a reply from {reply.begin:.1f} on, rotated at {rotated:.1f}, differs in {found}"[:2000], "" in found)
        else:
            tell(f"a reply from {reply.begin:.1f} on, rotated at {rotated:.1f}: {reply.status} {reply.body[:200]}", between and reply.status == 400)


def reset(peer):
    peer.setsockopt(socket.SOL_SOCKET, socket.SO_LINGER, struct.pack("ii", 1, 0))
    peer.close()


def drip(host, peer, _):
    peer.sendall(b"HTTP/1.1 200 OK\r\nContent-Length: 100000\r\n\r\n")
    while not host.over.wait(0.2):
        peer.sendall(b"a")


def hosts(page):
    """Hosts that are silent, drip, reset and lie, and what is answered where an entity of theirs is asked for."""
    lie = b"HTTP/1.1 200 OK\r\nContent-Length: %d\r\n\r\n" % len(page) + page
    return {
        "silent.example": (Host(lambda host, peer, _: host.over.wait(PATIENCE)), 503),
        "drip.example": (Host(drip), 503),
        "reset.example": (Host(lambda _, peer, asked: reset(peer)), 503),
        "lie.example": (Host(lambda _, peer, asked: peer.sendall(lie)), 404),
    }


def crowd(service, answers):
    """Clients that are silent, drip, reset and lie, and some that ask for entities whose hosts do, among others; who breaks off gets nothing,
    and all others their answer."""
    def honest():
        for _ in range(3):
            reply = Asked(service, request_for(RP))
            found = differs(reply, KEYS, "ta.keys") if reply.status == 200 else reply.body[:200]
            tell(f"among the others: {reply.status} {found}"[:2000], (reply.status, found) == (200, ""))

    def asks_for(host, status):
        def ask():
            reply = Asked(service, request_for(f"https://{host}"))
            tell(f"an entity of {host}: {reply.status} {reply.body[:200]}", reply.status == status)
        return ask

    def silent():
        with service.connect() as peer:
            tell("a silent client is answered", received(peer) == (None, b""))

    def dripping():
        with service.connect() as peer:
            for byte in request_for(RP):
                peer.sendall(bytes([byte]))
                time.sleep(0.02)
            status, body = received(peer)
            tell(f"a client that drips: {status} {body[:200]}", status == 200)

    def resetting():
        peer = service.connect()
        peer.sendall(request_for(RP)[:40])
        reset(peer)

    def lying():
        with service.connect() as peer:
            peer.sendall(b"POST /anchor-keys HTTP/1.1\r\nContent-Length: 50\r\n\r\nshort")
            peer.shutdown(socket.SHUT_WR)
            tell("a client that lies is answered", received(peer) == (None, b""))
        reply = Asked(service, b"HELLO\r\n\r\n")
        tell(f"no request: {reply.status} {reply.body[:200]}", reply.status == 400)

    asking = [asks_for(host, status) for host, (_, status) in answers.items()]
    for thread in in_threads([honest] * 8 + asking + [silent, dripping, resetting, lying]):
        thread.join()


CROWD = 8 * 3 + 4 + 5


def among_peers(ports, page):
    """A crowd of exactly so many connections, after which the resolver ends by itself."""
    answers = hosts(page)
    every = {**ports, **{name: host.port for name, (host, _) in answers.items()}}
    try:
        with Service("resolver", "crowd", resolver_over(every), CROWD) as service:
            crowd(service, answers)
            end = time.monotonic() + PATIENCE
            while service.running.poll() is None and time.monotonic() < end:     # a connection that was gone before it was accepted isn't counted
                try:
                    socket.create_connection(("127.0.0.1", service.port), timeout=1).close()
                except OSError:
                    pass
                time.sleep(0.5)
            out = service.running.stdout.read().decode()
            tell(f"the end: {service.running.poll()} {out}", (service.running.poll(), out) == (0, f"served {CROWD}\n"))
    finally:
        for host, _ in answers.values():
            host.__exit__()


def main():
    rp, im, ta, new = nodes()
    with Service("authority", "rp", rp) as leaf, Service("authority", "im", im) as middle, Service("authority", "ta", ta) as old, \
            Service("authority", "new", new) as young:
        for service in (leaf, middle, old, young):
            service.connect().close()
        to = [old.port]
        with relay(to) as anchor:
            ports = {"rp.example": leaf.port, "im.example": middle.port, "ta.example": anchor.port}
            page = Asked(leaf, b"GET /.well-known/openid-federation HTTP/1.1\r\nHost: rp.example\r\n\r\n").body
            with Service("resolver", "resolver", resolver_over(ports)) as resolver:
                laid.guarded(lambda: under_load(resolver, to, young.port))
            to[0] = old.port
            laid.guarded(lambda: among_peers(ports, page))
    print(f"load: {laid.passed} passed, {len(laid.faults)} failed")
    return 1 if laid.faults else 0


try:
    status = main()
finally:
    shutil.rmtree(place)
sys.exit(status)
