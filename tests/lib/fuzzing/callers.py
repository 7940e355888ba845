"""Hostile callers of an authority: changed heads, queries and bodies, in pieces, cut short and broken off. One process serves a whole batch.
What it has to answer is what messages.py says."""

import errno
import json
import os
import re
import socket
import struct
import subprocess
import time
from urllib.parse import quote_plus, urlencode

from program import connected

from . import changes, messages
from .changes import decoded
from .pool import IM, NODE, RELYING, RP
from .programs import ENVIRONMENT, PATIENCE

STARTS = re.compile(rb"fed: (?:[!-~]+ (?:starts on 127\.0\.0\.1:[0-9]+, [ -~]+|ends after [0-9]+ connections?, [ -~]+)|warning: [ -~]+)\n")
LOG = re.compile(rb"[0-9]{10,} 127\.0\.0\.1:[0-9]+ [!-~]+ [!-~]+ (?:[0-9]{3}|-) [0-9]+ [0-9]+\n")
# values of header lines, of which some say another length than the body has
LENGTHS = [b"0", b"1", b"5", b"-1", b"+5", b"5 5", b"5,5", b"0005", b"000005", b"0000005", b"300000", b"300001", b"999999", b"1000000", b"1" * 40, b"", b"0x5",
           b" 5\t", b"5\x00", b"\xb2", b"18446744073709551616"]
FIELDS = [b"Transfer-Encoding: chunked", b"transfer-encoding: identity", b"Host: b", b"Host:", b": x", b"X", b"X : y", b" X: y", b"\tfolded", b"X: \x00",
          b"X: \x7f", b"X: \xff\xfe", b"X:" + b" " * 500, b"X: " + b"y" * 5000, b"X\xff: y", b"X\x00: y", b"Expect: 100-continue", b"Connection: keep-alive",
          b"Upgrade: h2c", b"X: a\rb", b"X: a\r", b"Content-Type: application/x-www-form-urlencoded", b"GET / HTTP/1.1", b"\x80: y", b"(x): y", b"X: y\x0b"]
METHODS = [b"GET", b"POST", b"HEAD", b"PUT", b"get", b"GET ", b" GET", b"", b"G\x00T", b"G\xc3\x89T", b"OPTIONS", b"CONNECT", b"PRI", b"A" * 500, b"GE,T"]
VERSIONS = [b"HTTP/1.1", b"HTTP/1.0", b"HTTP/1.1", b"HTTP/1.2", b"HTTP/2.0", b"HTTP/0.9", b"http/1.1", b"HTTP/1.1 ", b"HTTP/1", b"HTTP/11", b"", b"HTTP/1.1\x00",
            b"HTTP/01.1"]
TARGETS = [b"*", b"/", b"", b"//fed/list", b"/fed//list", b"/fed/./list", b"/fed/../fed/list", b"/fed/list/", b"/fed/LIST", b"/fed%2flist", b"/f%65d/list",
           b"http://127.0.0.1/fed/list", b"/fed/list#x", b"/fed/list;x", b"/fed/list?", b"/fed/list??", b"/fed/list\x00", b"/fed/li\xff", "/fed/l\u00efst".encode(),
           b"/list", b"/fed", b"/fedlist", b"/fed/fetch", b"/fed/trust-mark-status", b"/fed/resolve", b"/fed/anchor-keys", b"/" + b"a" * 16000,
           b"/" + b"a" * 17000]
PARAMETERS = [("sub", "https://no.example"), ("sub", ""), ("sub", RP + "/"), ("entity_type", RELYING), ("entity_type", "other"), ("entity_type", "a b"),
              ("intermediate", "true"), ("intermediate", "false"), ("intermediate", "TRUE"), ("intermediate", ""), ("trust_marked", "true"), ("trust_marked", "1"),
              ("trust_mark_type", "m1"), ("trust_mark_type", "\u00e9&"), ("Sub", "x"), ("", ""), ("sub[]", "x"), ("x" * 3000, "y" * 3000), ("entity_type", "\u0000")]


class Told(Exception):
    """The answer differs, and how."""


class Server:
    """An authority or a resolver for so many connections, each of which is one case of the batch."""

    def __init__(self, pool, port, connections, log, command="authority", config="node.json"):
        self.pool, self.port, self.log = pool, port, log
        self.node = messages.Node(pool.configuration())
        words = [command, "--config", config, "--port", str(port), "--connections", str(connections)]
        with open(log, "wb") as err:
            self.running = subprocess.Popen([pool.program, *words], cwd=pool.folder, stdin=subprocess.DEVNULL, stdout=subprocess.PIPE, stderr=err,
                                            env=ENVIRONMENT)
        self.wanted = b"served %d\n" % connections, connections

    def __enter__(self):
        return self

    def __exit__(self, *_):
        if self.running.poll() is None:
            self.running.kill()
            self.running.wait()

    def connect(self):
        try:
            it = connected(self.running, self.port)
        except ConnectionRefusedError:
            raise Told("nobody listens") from None
        it.setsockopt(socket.IPPROTO_TCP, socket.TCP_NODELAY, 1)
        return it

    def ended(self):
        """What is wrong with how it ended, or nothing."""
        try:
            out = self.running.communicate(timeout=PATIENCE)[0]
        except subprocess.TimeoutExpired:
            self.running.kill()
            self.running.communicate()
            return f"no end in {PATIENCE} seconds"
        if (self.running.returncode, out) != (0, self.wanted[0]):
            return f"status {self.running.returncode}, wrote {out!r}"
        with open(self.log, "rb") as it:
            lines = [line for line in it.read().splitlines(True) if not STARTS.fullmatch(line)]
        bad = [line for line in lines if not LOG.fullmatch(line)]
        if bad or len(lines) != self.wanted[1]:
            return f"{len(lines)} lines of the log, of which {len(bad)} aren't of its form: {bad[:2]}"
        return ""


# ---- one conversation

def reset(it):
    it.setsockopt(socket.SOL_SOCKET, socket.SO_LINGER, struct.pack("ii", 1, 0))


def talk(it, pieces, end, wait):
    """Sends the pieces, ends the sending side or breaks off, and gives what came and whether the connection was reset."""
    got, broken = b"", False
    try:
        for number, piece in enumerate(pieces):
            if number and wait:
                time.sleep(wait)
            it.sendall(piece)
        if end == "shut":
            it.shutdown(socket.SHUT_WR)
    except (BrokenPipeError, ConnectionResetError):
        broken = True
    except OSError as error:
        if error.errno != errno.ENOTCONN:                    # the other side ended first
            raise
    if end in ("reset", "close"):
        if end == "reset":
            reset(it)
        return got, True
    try:
        while piece := it.recv(262144):
            got += piece
    except ConnectionResetError:
        broken = True
    return got, broken


def compare(server, data, end, got, broken, began):
    """The answer in a word, where it is the one that the bytes ask for."""
    if end in ("reset", "close"):
        return "broken off"
    wanted, length = server.node.answers(data)
    if isinstance(wanted, bytes):
        if got == wanted:
            return wanted[9:12].decode() if wanted else "ended"
        # what nobody asked for may reset the connection before its answer is read
        if broken and len(data) > length and wanted.startswith(got):
            return "reset"
        raise Told(f"{got[:300]!r} in place of {wanted[:300]!r}")
    if broken and len(data) > length and b"\r\n\r\n" not in got:
        return "reset"
    head, _, body = got.partition(b"\r\n\r\n")
    if got != messages.answer(200, messages.MEDIA[wanted[0]], body) and not (broken and len(data) > length):
        raise Told(f"the head of a signed answer is {head[:300]!r}")
    if not broken:
        signed(server, wanted, body, began)
    return "200"


def signed(server, wanted, body, began):
    """The body is a signed text of the type, which says what it is asked for."""
    header, payload, signature = body.split(b".")
    claims, typ = json.loads(decoded(payload)), json.loads(decoded(header))["typ"]
    now, kid = claims["iat"], json.loads(decoded(header))["kid"]
    config, key = server.pool.configuration(), server.pool.keys["node"]
    so = typ == wanted[0] and claims["iss"] == NODE and began - 1 <= now <= time.time() + 1 and len(decoded(signature)) == 7856 and kid == key.kid
    if typ == "entity-statement+jwt":
        below = next((it for it in config["subordinates"] if it["entity_id"] == wanted[1]), None)
        keys = below["jwks"] if below else {"keys": [key.jwk]}
        so = so and (claims["sub"], claims["jwks"], claims["exp"]) == (wanted[1] or NODE, keys, now + 3600)
    elif typ == "jwk-set+jwt":
        so = so and claims["keys"] == []
    else:
        marks = [server.pool.texts[name] for name in ("mark open", "mark t")]
        so = so and (claims["trust_mark"], claims["status"]) == (wanted[1], "active" if wanted[1] in marks else "invalid")
    if not so:
        raise Told(f"another signed answer than {wanted}: {typ} {str(claims)[:300]}")


# ---- requests

def form(rng, given):
    """Parameters as a web form, written in one of the ways in which it may be, or with more of them."""
    made = urlencode(given, errors="surrogatepass").encode()
    kind = rng.randrange(8)
    if kind == 0:
        made = made.replace(b"+", b"%20")
    elif kind == 1:
        made = b"&" + made + b"&&"
    elif kind == 2:
        made = b"".join(b"%%%02x" % byte if rng.random() < .2 and byte not in b"&=%+" else bytes([byte]) for byte in made[:2000]) + made[2000:]
    elif kind == 3:
        made += rng.choice([b"&a=%", b"&%zz", b"&a=%e9", b"&=", b"&a=b=c", b"&a=%00", quote_plus("&sub=x").encode()])
    return made


class Asked:
    """A good request, as its parts."""

    def __init__(self, rng, pool):
        self.rng, self.method, self.version, self.body = rng, b"GET", b"HTTP/1.1", None
        self.fields = [b"Host: a"]
        kind = rng.random()
        if kind < .55:
            self.target = b"/fed/list"
            given = rng.sample(PARAMETERS, rng.choice([0, 0, 1, 1, 2, 3]))
        elif kind < .8:
            self.target = b"/fed/fetch"
            given = rng.sample(PARAMETERS[:3], 1) + rng.sample(PARAMETERS[3:], rng.choice([0, 0, 0, 1]))
        elif kind < .81:
            self.target, given = rng.choice([(b"/fed/.well-known/openid-federation", []), (b"/fed/historical-keys", []), (b"/fed/fetch", [("sub", RP)]),
                                             (b"/fed/fetch", [("x", "y"), ("sub", IM)])])
        else:
            self.posted(pool)
            return
        if given:
            self.target += b"?" + form(self.rng, given)

    def posted(self, pool):
        self.method, self.target = b"POST", b"/fed/trust-mark-status"
        mark = pool.texts[self.rng.choice(["mark open", "mark t"])].encode()
        if self.rng.random() < .04:
            changed = self.rng.choice([mark, changes.of_bytes(self.rng, mark), changes.of_bytes(self.rng, mark), b"", b"x"])
            given = [("trust_mark", changed)]
        else:
            given = self.rng.choice([[("trust_mark", mark)] * 2, [("Trust_mark", mark)], [], [("x", "y" * 200000)], [("x", mark)], self.rng.sample(PARAMETERS, 3)])
        self.body = form(self.rng, given)

    def changed(self):
        """One part of the head is another."""
        kind = self.rng.randrange(9)
        if kind == 0:
            self.method = self.rng.choice(METHODS)
        elif kind == 1:
            self.target = self.rng.choice(TARGETS)
        elif kind == 2:
            self.version = self.rng.choice(VERSIONS)
        elif kind == 3:
            self.fields.insert(self.rng.randrange(len(self.fields) + 1), self.rng.choice(FIELDS))
        elif kind == 4:
            self.fields += [b"A%d: b" % number for number in range(self.rng.choice([5, 61, 62, 63, 64, 65, 200, 2000]))]
        elif kind == 5:
            self.fields.append(self.rng.choice([b"Content-Length: ", b"content-length:", b"CONTENT-LENGTH:\t"]) + self.rng.choice(LENGTHS))
        elif kind == 6:
            self.fields = []
        elif kind == 7:
            self.target += b"?" + b"a" * self.rng.randrange(16200, 16400) if self.rng.random() < .3 else b"&" + form(self.rng, self.rng.sample(PARAMETERS, 2))
        else:
            self.body = self.rng.choice([None, b"", b"x" * 5, b"x" * 300000, b"x" * 300001]) if self.rng.random() < .3 else b"abc"

    def bytes(self):
        line = self.rng.choice([b"\r\n"] * 20 + [b"\n", b"\r", b"\n\r"])
        fields = list(self.fields)
        if self.body is not None and self.rng.random() < .95:
            fields.append(b"Content-Length: %d" % (len(self.body) + (self.rng.choice([-1, 1, 5]) if self.rng.random() < .1 else 0)))
        head = line.join([b" ".join([self.method, self.target, self.version]), *fields])
        begin = self.rng.choice([b""] * 30 + [b"\r\n", b"\n", b"\r\n\r\n", b" ", b"\x16\x03\x01\x02\x00"])
        return begin + head + line + b"\r\n" + (self.body or b"")


def heads(rng, pool):
    """A changed request in one piece."""
    asked = Asked(rng, pool)
    for _ in range(rng.choice([0, 1, 1, 1, 2])):
        asked.changed()
    data = asked.bytes()
    if rng.random() < .4:
        data = changes.of_bytes(rng, data)
    return [data], "shut", 0


def streams(rng, pool):
    """A request in pieces, cut short, with more behind it, or broken off."""
    asked = Asked(rng, pool)
    if rng.random() < .4:
        asked.changed()
    data, kind = asked.bytes(), rng.randrange(12)
    if kind < 3:
        data = data[: rng.randrange(len(data) + 1)]
    elif kind == 3:
        data += rng.choice([b"GET /fed/list HTTP/1.1\r\n\r\n", b"x" * 70000, b"\x00", b"\r\n", data])
    elif kind == 4:
        data = rng.randbytes(rng.choice([1, 10, 1000, 16383, 16384, 16385, 40000]))
    elif kind == 5:
        data = data[:20] + rng.choice([b"a", b"\r\n", b"\n", b"\r", b"A: b\r\n"]) * 20000
    elif kind == 6:
        data = changes.of_bytes(rng, data)
    if rng.random() < .9:
        pieces = split(rng, data, rng.choice([1, 2, 2, 3, 5]))
    else:
        pieces = [data[at : at + 1] for at in range(min(len(data), 300))] + ([data[300:]] if len(data) > 300 else [])
    end = rng.choice(["shut"] * 8 + ["reset", "close"])
    return pieces, end, rng.choice([0] * 12 + [.0005, .002]) if len(pieces) < 6 else 0


def split(rng, data, count):
    places = sorted(rng.randrange(len(data) + 1) for _ in range(count - 1))
    return [data[a:b] for a, b in zip([0, *places], [*places, len(data)])]


KINDS = {"heads": heads, "streams": streams}


def batch(kind, worker, rng, size, report):
    """So many connections at one process."""
    log = f"{worker.folder}/log"
    with Server(worker.pool, worker.port(), size, log) as server:
        for number in range(size):
            pieces, end, wait = KINDS[kind](rng, worker.pool)
            began, data = time.time(), b"".join(pieces)
            try:
                with server.connect() as it:
                    got, broken = talk(it, pieces, end, wait)
                report.count(compare(server, data, end, got, broken, began))
            except (Told, OSError, ValueError, KeyError) as error:
                save(report, worker, kind, pieces, end, wait, f"connection {number} of {size}: {error!r}")
                if server.running.poll() is not None:
                    break
        wrong = server.ended()
        if wrong:
            save(report, worker, kind, pieces, end, wait, f"the end after {size} connections: {wrong}")


# what a kept failure's script does behind the start of a server
CONNECT = '''while True:
    try:
        it = socket.create_connection(("127.0.0.1", {port}), timeout=10)
        break
    except ConnectionRefusedError:
        time.sleep(0.01)
'''
AGAIN = '''#!/usr/bin/env python3
"""Calls an authority once, as tests/hand/fuzz.py did: {what}"""
import os, socket, struct, subprocess, sys, time
os.chdir(os.path.dirname(os.path.abspath(__file__)))
pieces, end, wait = [{pieces}], {end!r}, {wait}
node = subprocess.Popen([{program!r}, "authority", "--config", "node.json", "--port", "{port}", "--connections", "1"])
{connect}for piece in pieces:
    it.sendall(open(piece, "rb").read())
    time.sleep(wait)
if end == "reset":
    it.setsockopt(socket.SOL_SOCKET, socket.SO_LINGER, struct.pack("ii", 1, 0))
if end == "shut":
    it.shutdown(socket.SHUT_WR)
    while got := it.recv(65536):
        sys.stdout.buffer.write(got)
it.close()
node.wait()
'''


def save(report, worker, kind, pieces, end, wait, what):
    files = {f"piece-{number}": piece for number, piece in enumerate(pieces)}
    names = ", ".join(repr(name) for name in files)
    for name in ("node.json", "node.ring"):
        with open(f"{worker.pool.folder}/{name}", "rb") as it:
            files[name] = it.read()
    port = worker.port()
    files["again"] = AGAIN.format(what=what[:200].replace('"', "'").replace("\\", "/"), pieces=names, end=end, wait=wait, port=port,
                                  program=os.path.abspath(worker.pool.program), connect=CONNECT.format(port=port)).encode()
    report.fail(kind, what, files)
