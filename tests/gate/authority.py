#!/usr/bin/env python3
"""The built program as an authority on loopback: every path read by Python's http.client and by curl, what it signs looked at with the program
itself, configurations that aren't of their form, and callers that aren't clients. It prints what differs and fails where anything does."""

import base64
import http.client
import json
import os
import re
import shutil
import socket
import subprocess
import sys
import tempfile
import time
import urllib.parse

sys.dont_write_bytecode = True
sys.path.insert(0, f"{os.path.dirname(os.path.dirname(os.path.abspath(__file__)))}/lib")
import program  # noqa: E402
from laid import TOP, free_port, started, tell, tried  # noqa: E402

FED = f"{TOP}/fed"
PATIENCE = 60
# a line of the log of an answer
LINE = r"\d{4}-\d\d-\d\dT\d\d:\d\d:\d\d\.\d{3}Z 127\.0\.0\.1:\d+ [A-Z]+ \S+ \d{3} \d+ \d+"
LEAF, MIDDLE = "https://rp.example", "https://im.example"
place = tempfile.mkdtemp()


def fed(*words, given=""):
    return subprocess.run([FED, *words], input=given.encode(), capture_output=True, timeout=PATIENCE, cwd=place)


def ring(name, number):
    return program.ring(place, name, number)


def written(name, config):
    with open(f"{place}/{name}", "w", encoding="utf-8") as it:
        it.write(config if isinstance(config, str) else json.dumps(config))
    return name


def claims_of(text):
    part = text.split(b".")[1]
    return json.loads(base64.urlsafe_b64decode(part + b"=" * (-len(part) % 4)))


def type_of(text):
    part = text.split(b".")[0]
    return json.loads(base64.urlsafe_b64decode(part + b"=" * (-len(part) % 4)))["typ"]


class Node:
    """An authority on a port of its own for so many connections, which go on where it streams."""

    def __init__(self, config, connections, stream=False):
        self.port = free_port()
        words = ["authority", "--config", config, "--port", str(self.port), "--connections", str(connections), *["--stream", "yes"] * stream]
        self.running = subprocess.Popen([FED, *words], cwd=place, stdout=subprocess.PIPE, stderr=subprocess.PIPE)
        started.append(self.running)
        self.connections = connections

    def connect(self):
        return program.connected(self.running, self.port)

    def raw(self, given):
        """Sends these bytes, shuts that side, and gives all that comes back."""
        with self.connect() as it:
            it.sendall(given)
            it.shutdown(socket.SHUT_WR)
            got = b""
            while piece := it.recv(65536):
                got += piece
            return got

    def ask(self, method, path, body=None):
        head = {"Content-Type": "application/x-www-form-urlencoded"} if body is not None else {}
        it = http.client.HTTPConnection("127.0.0.1", self.port, timeout=PATIENCE)
        it.sock = self.connect()
        it.request(method, path, body, head)
        answer = it.getresponse()
        return answer.status, answer.getheader("Content-Type"), answer.read()

    def ended(self):
        """Gives the status, the output, and the log without what is said to people."""
        out, log = self.running.communicate(timeout=PATIENCE)
        return self.running.returncode, out.decode(), "".join(it for it in log.decode().splitlines(True) if not it.startswith("fed: "))


OWN = ring("node.ring", 1)
SUB = ring("sub.ring", 2)
ID = "http://127.0.0.1/fed"
CONFIG = {
    "entity_id": ID,
    "ring": "node.ring",
    "lifetime": 3600,
    "metadata": {"federation_entity": {"organization_name": "The authority"}},
    "authority_hints": ["https://ta.example"],
    "subordinates": [
        {"entity_id": LEAF, "jwks": {"keys": [SUB]}, "entity_types": ["openid_relying_party"], "mark_types": ["m1"],
         "metadata_policy": {"openid_relying_party": {"contacts": {"add": ["help@im.example"]}}}},
        {"entity_id": MIDDLE, "jwks": {"keys": [SUB]}, "intermediate": True},
    ],
}
NODE = written("node.json", CONFIG)


def paths():
    node = Node(NODE, 8)
    began = int(time.time())
    status, media, text = node.ask("GET", "/fed/.well-known/openid-federation")
    tell(f"configuration: {status} {media}", (status, media) == (200, "application/entity-statement+jwt"))
    claims = claims_of(text)
    here = f"{ID}/"
    tell("configuration: its own claims", claims["iss"] == claims["sub"] == ID and claims["jwks"] == {"keys": [OWN]})
    tell("configuration: its times", began <= claims["iat"] <= began + PATIENCE and claims["exp"] == claims["iat"] + 3600)
    tell("configuration: its endpoints", claims["metadata"]["federation_entity"] == {
        "federation_fetch_endpoint": here + "fetch", "federation_historical_keys_endpoint": here + "historical-keys",
        "federation_list_endpoint": here + "list", "federation_trust_mark_status_endpoint": here + "trust-mark-status",
        "organization_name": "The authority"})
    tell("configuration: its signature", fed("verify", OWN["pub"], given=text.decode()).stdout == f"valid {ID}\n".encode())

    status, media, text = node.ask("GET", "/fed/fetch?" + urllib.parse.urlencode({"sub": LEAF}))
    claims = claims_of(text)
    tell(f"fetch: {status} {media}", (status, media) == (200, "application/entity-statement+jwt"))
    tell("fetch: about the leaf", (claims["iss"], claims["sub"], claims["jwks"]) == (ID, LEAF, {"keys": [SUB]}))
    tell("fetch: the policy", claims["metadata_policy"] == CONFIG["subordinates"][0]["metadata_policy"])

    status, media, body = node.ask("GET", "/fed/fetch?sub=https%3A%2F%2Fno.example")
    tell(f"fetch of a stranger: {status} {body}", (status, json.loads(body)["error"]) == (404, "not_found"))

    status, media, body = node.ask("GET", "/fed/list")
    tell(f"list: {status} {body}", (status, media, json.loads(body)) == (200, "application/json", [LEAF, MIDDLE]))
    status, media, body = node.ask("GET", "/fed/list?intermediate=true")
    tell(f"list of intermediates: {body}", json.loads(body) == [MIDDLE])

    status, media, text = node.ask("GET", "/fed/historical-keys")
    tell(f"historical keys: {status} {media}", (status, media) == (200, "application/jwk-set+jwt"))
    tell("historical keys: none", claims_of(text)["keys"] == [] and type_of(text) == "jwk-set+jwt")

    now = int(time.time())
    mark = {"iss": ID, "sub": LEAF, "trust_mark_type": "m1", "iat": now, "exp": now + 3600}
    sealed = fed("issue", "--ring", "node.ring", "--typ", "trust-mark+jwt", given=json.dumps(mark)).stdout.decode().strip()
    status, media, text = node.ask("POST", "/fed/trust-mark-status", urllib.parse.urlencode({"trust_mark": sealed}))
    tell(f"status: {status} {media}", (status, media) == (200, "application/trust-mark-status-response+jwt"))
    tell("status: active", (claims_of(text)["status"], claims_of(text)["trust_mark"]) == ("active", sealed))
    status, media, body = node.ask("GET", "/fed/nothing")
    tell(f"no path: {status} {body}", (status, json.loads(body)["error"]) == (400, "invalid_request"))
    end = node.ended()
    tell(f"the end: {end[:2]}", end[:2] == (0, "served 8\n"))
    lines = end[2].strip().split("\n")
    tell("the log: a line a connection", len(lines) == 8)
    tell(f"the log: moments and milliseconds: {lines}", all(re.fullmatch(LINE, line) for line in lines))


def revoked_marks():
    now = int(time.time())
    texts = []
    for mark_type in ("m1", "m2"):
        mark = {"iss": ID, "sub": LEAF, "trust_mark_type": mark_type, "iat": now - 10, "exp": now + 3600 if mark_type == "m1" else now - 5}
        texts.append(fed("issue", "--ring", "node.ring", "--typ", "trust-mark+jwt", given=json.dumps(mark)).stdout.decode().strip())
    node = Node(written("revoked.json", {**CONFIG, "revoked_marks": texts[:1]}), 3)
    for text, wanted in ((texts[0], "revoked"), (texts[1], "expired"), (texts[0][:-1], "invalid")):
        status, _, answer = node.ask("POST", "/fed/trust-mark-status", urllib.parse.urlencode({"trust_mark": text}))
        got = claims_of(answer)["status"]
        tell(f"status: {wanted}: {status} {got}", (status, got) == (200, wanted))
    tell("the end of revoked marks", node.ended()[:2] == (0, "served 3\n"))


def by_curl():
    """Every path, as `curl` reads it."""
    if shutil.which("curl") is None:
        print("authority: there is no curl here, so nothing is asked by it")
        return
    now = int(time.time())
    mark = {"iss": ID, "sub": LEAF, "trust_mark_type": "m1", "iat": now, "exp": now + 3600}
    sealed = fed("issue", "--ring", "node.ring", "--typ", "trust-mark+jwt", given=json.dumps(mark)).stdout.decode().strip()
    asks = [
        (("/.well-known/openid-federation",), lambda text: claims_of(text)["sub"] == ID),
        (("/fetch", "--get", "--data-urlencode", f"sub={LEAF}"), lambda text: claims_of(text)["sub"] == LEAF),
        (("/list",), lambda text: text == f'["{LEAF}","{MIDDLE}"]'.encode()),
        (("/historical-keys",), lambda text: claims_of(text)["keys"] == []),
        (("/trust-mark-status", "--data-urlencode", f"trust_mark={sealed}"), lambda text: claims_of(text)["status"] == "active"),
    ]
    node = Node(NODE, len(asks) + 1)
    node.connect().close()
    for (path, *words), wanted in asks:
        url = f"http://127.0.0.1:{node.port}/fed{path}"
        done = subprocess.run(["curl", "-q", "-s", "--noproxy", "*", "--fail", *words, url], capture_output=True, timeout=PATIENCE)
        tell(f"curl of {path}: {done.returncode} {done.stdout[:80]}", done.returncode == 0 and wanted(done.stdout))
    tell("the end of curl", node.ended()[:2] == (0, f"served {len(asks) + 1}\n"))


def listens():
    """`FED_LISTEN` names the address, and another form of it starts nothing; nor does one of `FED_FETCH_SECONDS`; `FED_LOG=off` leaves no
    lines."""
    port = str(free_port())
    words = [FED, "authority", "--config", NODE, "--port", port, "--connections", "1"]
    for value in ("localhost", "127.0.0.1:80", "1.2.3", "256.0.0.1", "::1", "", "socket"):
        done = subprocess.run(words, env={**os.environ, "FED_LISTEN": value}, stdin=subprocess.DEVNULL, capture_output=True, timeout=PATIENCE, cwd=place)
        tell(f"FED_LISTEN={value}: {done}", (done.returncode, done.stdout) == (2, b"") and b"FED_LISTEN" in done.stderr)
    for value in ("0", "3601", "030", "+30", "30 ", "1e2", "18446744073709551617", ""):
        done = subprocess.run(words, env={**os.environ, "FED_FETCH_SECONDS": value}, capture_output=True, timeout=PATIENCE, cwd=place)
        tell(f"FED_FETCH_SECONDS={value}: {done}", (done.returncode, done.stdout) == (2, b"") and b"FED_FETCH_SECONDS" in done.stderr)
        done = subprocess.run([FED, "--version"], env={**os.environ, "FED_FETCH_SECONDS": value}, capture_output=True, timeout=PATIENCE)
        tell(f"--version fetches nothing: {done}", (done.returncode, done.stderr) == (0, b""))
    for command in (["--version"], ["verify", OWN["pub"]]):
        done = subprocess.run([FED, *command], env={**os.environ, "FED_LISTEN": "no"}, input=b"", capture_output=True, timeout=PATIENCE)
        tell(f"{command} looks at no address: {done.returncode}", b"FED_LISTEN" not in done.stderr)
    running = subprocess.Popen(words, env={**os.environ, "FED_LISTEN": "127.0.0.2", "FED_LOG": "off"}, cwd=place, stdout=subprocess.PIPE,
                               stderr=subprocess.PIPE)
    started.append(running)
    end = time.monotonic() + PATIENCE
    answer = None
    while answer is None and time.monotonic() < end and running.poll() is None:
        try:
            with socket.create_connection(("127.0.0.2", int(port)), timeout=PATIENCE) as it:
                it.sendall(b"GET /fed/list HTTP/1.1\r\nHost: a\r\n\r\n")
                answer = it.recv(65536)
        except ConnectionRefusedError:
            time.sleep(0.02)
    out, log = running.communicate(timeout=PATIENCE)
    tell(f"127.0.0.2: {answer}", answer is not None and answer.startswith(b"HTTP/1.1 200"))
    log = [it for it in log.splitlines() if not it.startswith(f"fed: {ID} starts on 127.0.0.2:{port}, ".encode())]
    end = f"fed: {ID} ends after 1 connection, as many as --connections says".encode()
    tell(f"no log: {out} {log}", (running.returncode, out, log) == (0, b"served 1\n", [end]))


def handed_over():
    """`FED_LISTEN=socket` listens on the socket that standard input is: a caller who comes before the process, or between two, is answered by the
    next. One that is at another port is refused. `FED_LOG=json` writes a line of JSON for each."""
    with socket.create_server(("127.0.0.1", free_port())) as listener:
        port = listener.getsockname()[1]

        def started_on(to):
            words = [FED, "authority", "--config", NODE, "--port", str(to), "--connections", "1"]
            return subprocess.run(words, env={**os.environ, "FED_LISTEN": "socket", "FED_LOG": "json"}, stdin=listener, capture_output=True, timeout=PATIENCE, cwd=place)

        done = started_on(free_port())
        tell(f"another port: {done}", (done.returncode, done.stdout) == (7, b"") and b"handed over is at another port" in done.stderr)
        for _ in range(2):
            it = socket.create_connection(("127.0.0.1", port), timeout=PATIENCE)
            it.sendall(b"GET /fed/list HTTP/1.1\r\nHost: a\r\n\r\n")
            done = started_on(port)
            lines = [line for line in done.stderr.decode().splitlines() if not line.startswith("fed: ")]
            told = [json.loads(line) for line in lines]
            so = [(line["method"], line["path"], line["status"]) for line in told] == [("GET", "/fed/list", 200)]
            tell(f"a handed socket: {done}", (done.returncode, done.stdout) == (0, b"served 1\n") and so)
            tell("who waited is answered", it.recv(65536).startswith(b"HTTP/1.1 200"))
            it.close()


def hostile():
    """None of these stops the node, and each but those that break off is answered."""
    good = b"GET /fed/list HTTP/1.1\r\nHost: a\r\n\r\n"
    rows = [
        (b"GET /fed/list HTTP/1.1\r\nHost: a\r\n\r\n", b"200"), (b"BREW /fed/list HTTP/1.1\r\nHost: a\r\n\r\n", b"400"),
        (b"\x00" * 100 + b"\r\n\r\n", b"400"), (b"GET /fed/list?intermediate=yes HTTP/1.1\r\nHost: a\r\n\r\n", b"400"),
        (b"GET /fed/fetch HTTP/1.1\r\nHost: a\r\n\r\n", b"400"), (b"GET /fed/fetch?sub=a&sub=b HTTP/1.1\r\nHost: a\r\n\r\n", b"400"),
        (b"GET /" + b"a" * 20000 + b" HTTP/1.1\r\nHost: a\r\n\r\n", b"400"), (b"GET /fed/list HTTP/1.1\r\n" + b"A: b\r\n" * 65 + b"\r\n", b"400"),
        (b"POST /fed/trust-mark-status HTTP/1.1\r\nHost: a\r\nContent-Length: 300001\r\n\r\n", b"400"),
        (b"POST /fed/trust-mark-status HTTP/1.1\r\nHost: a\r\nContent-Length: 5\r\nContent-Length: 6\r\n\r\nabcde", b"400"),
        (b"POST /fed/list HTTP/1.1\r\nHost: a\r\nContent-Length: 0\r\n\r\n", b"400"), (b"", b""), (good[:20], b""), (good, b"200"),
    ]
    node = Node(NODE, len(rows))
    for given, wanted in rows:
        got = node.raw(given)
        tell(f"{given[:60]!r}: {got[:40]!r}", got == b"" if wanted == b"" else got.startswith(b"HTTP/1.1 " + wanted))
    tell("the end of hostile callers", node.ended()[:2] == (0, f"served {len(rows)}\n"))


def behind_empty_lines():
    """A request behind empty lines is answered (RFC 9112 section 2.2), and the log names it."""
    leads = [b"\r\n", b"\n", b"\n\n"]
    node = Node(NODE, len(leads))
    for lead in leads:
        got = node.raw(lead + b"GET /fed/list HTTP/1.1\r\nHost: a\r\n\r\n")
        tell(f"behind {lead!r}: {got[:40]!r}", got.startswith(b"HTTP/1.1 200"))
    _, _, log = node.ended()
    tell(f"the log of these: {log!r}", [line.split(" ")[2:5] for line in log.splitlines()] == [["GET", "/fed/list", "200"]] * len(leads))


def streams():
    """Connections that go on: by http.client and curl, in one piece and byte by byte, and one that is idle while another caller waits."""
    good = b"GET /fed/list HTTP/1.1\r\nHost: a\r\n\r\n"
    has_curl = shutil.which("curl") is not None
    node = Node(NODE, 6 + has_curl, stream=True)
    kept = http.client.HTTPConnection("127.0.0.1", node.port, timeout=PATIENCE)
    kept.sock = connection = node.connect()
    for path, wanted in (("/fed/list", 200), ("/fed/fetch?sub=https%3A%2F%2Fno.example", 404), ("/fed/nothing", 400), ("/fed/list", 200)):
        kept.request("GET", path)
        answer = kept.getresponse()
        answer.read()
        so = (answer.status, answer.getheader("Connection"), kept.sock is connection) == (wanted, "keep-alive", True)
        tell(f"one connection, {path}: {answer.status} {answer.getheader('Connection')}", so)
    kept.request("GET", "/fed/list", headers={"Connection": "Close"})
    answer = kept.getresponse()
    tell(f"the last of it: {answer.status} {answer.getheader('Connection')}", (answer.status, answer.getheader("Connection")) == (200, "close"))
    connection.close()

    def words_of(got):
        return [it.split(b"\r\n")[0] for it in got.split(b"Connection: ")[1:]]

    tell("two in one piece", words_of(node.raw(good + good)) == [b"keep-alive"] * 2)
    with node.connect() as it:
        it.setsockopt(socket.IPPROTO_TCP, socket.TCP_NODELAY, 1)
        for byte in good + good:
            it.sendall(bytes([byte]))
        it.shutdown(socket.SHUT_WR)
        got = b""
        while piece := it.recv(65536):
            got += piece
    tell("two byte by byte", words_of(got) == [b"keep-alive"] * 2)
    stray = good[:-2] + b"Content-Length: 5\r\n\r\n"
    got = node.raw(stray + b"GET /" + good)
    tell(f"a GET that states a body: {got[:40]!r}", got.startswith(b"HTTP/1.1 400") and words_of(got) == [b"close"])
    # of a request whose beginning came with the end of the one before nothing is told but the status: of the second of two in one piece, and of the
    # second of two by single bytes where the node read several at once
    lines = [("GET", "/fed/list", "200"), ("GET", "/fed/fetch", "404"), ("GET", "/fed/nothing", "400"), ("GET", "/fed/list", "200"),
             ("GET", "/fed/list", "200"), ("GET", "/fed/list", "200"), ("-", "-", "200"), ("GET", "/fed/list", "200"),
             ("GET", "/fed/list", "200"), ("GET", "/fed/list", "400")]
    if has_curl:
        url = f"http://127.0.0.1:{node.port}/fed/list"
        done = subprocess.run(["curl", "-q", "-s", "-v", "--noproxy", "*", "--fail", url, url], capture_output=True, timeout=PATIENCE)
        tell(f"curl asks twice: {done.returncode} {done.stderr[-300:]}", done.returncode == 0 and b"Re-using" in done.stderr)
        lines += [("GET", "/fed/list", "200")] * 2
    with node.connect() as idle:
        idle.sendall(good)
        idle.recv(65536)
        began = time.monotonic()
        got = node.raw(good)
        spent = time.monotonic() - began
        tell(f"beside an idle caller: {got[:40]!r} in {spent} s", got.startswith(b"HTTP/1.1 200") and spent < 2)
        tell("the idle one gets its end", idle.recv(65536) == b"")
    end = node.ended()
    tell(f"the end of streams: {end[:2]}", end[:2] == (0, f"served {6 + has_curl}\n"))
    told = [tuple(line.split(" ")[2:5]) for line in end[2].splitlines()]
    if told[8:9] == [("-", "-", "200")]:
        told[8] = lines[8]
    tell(f"the log: a line for each answer: {told}", told == lines + [("GET", "/fed/list", "200")] * 2)


def port_taken():
    with socket.socket() as it:
        it.bind(("127.0.0.1", 0))
        it.listen()
        done = fed("authority", "--config", NODE, "--port", str(it.getsockname()[1]), "--connections", "1")
    tell(f"a taken port: {done}", (done.returncode, done.stdout) == (7, b"") and b"port" in done.stderr)


def doubled(name, to):
    """A ring file that has each key of another twice."""
    with open(f"{place}/{name}", encoding="utf-8") as it:
        kept = json.load(it)
    return written(to, {**kept, "keys": kept["keys"] * 2})


def many():
    """A node of sixty subordinates lists them all, and makes a statement about the last."""
    names = [f"https://rp-{number}.example" for number in range(60)]
    subordinates = [{"entity_id": name, "jwks": {"keys": [SUB]}} for name in names]
    node = Node(written("many.json", {**CONFIG, "subordinates": subordinates}), 2)
    status, _, text = node.ask("GET", "/fed/list")
    tell(f"sixty subordinates: {status} {text[:100]}", (status, json.loads(text)) == (200, names))
    status, _, text = node.ask("GET", f"/fed/fetch?{urllib.parse.urlencode({'sub': names[-1]})}")
    tell(f"the last of sixty: {status}", (status, claims_of(text)["sub"]) == (200, names[-1]))
    tell("the end of many", node.ended()[:2] == (0, "served 2\n"))


def faulty():
    """Each member missing, or not of its form: `input`, and its name on standard error."""
    sub = CONFIG["subordinates"][0]
    rows = [("entity_id", None), ("entity_id", "ftp://a"), ("ring", None), ("ring", 5), ("lifetime", None), ("lifetime", 59),
            ("lifetime", 31536001), ("lifetime", "60"), ("lifetime", 60.5), ("metadata", []), ("metadata", {"a": {"b": 1.5}}),
            ("authority_hints", []), ("authority_hints", ["https://a.example"] * 33), ("trust_marks", {}), ("trust_mark_issuers", []),
            ("trust_mark_owners", []), ("subordinates", {}), ("subordinates", [sub, sub]), ("subordinates", [{**sub, "entity_id": ID}]),
            ("subordinates", [{"entity_id": LEAF}]), ("subordinates", [{**sub, "metadata": {"a": {"b": "x" * 179000}}}]),
            ("metadata", {"a": {"b": "x" * 179000}}), ("revoked_marks", "m"), ("resolver", {})]
    for number, (member, value) in enumerate(rows):
        config = {name: held for name, held in CONFIG.items() if name != member}
        if value is not None:
            config[member] = value
        name = written(f"faulty-{number}.json", config)
        done = fed("authority", "--config", name, "--port", str(free_port()), "--connections", "1")
        so = (done.returncode, done.stdout) == (2, b"input\n") and member.encode() in done.stderr and name.encode() in done.stderr
        tell(f"{member} {str(value)[:40]}: {done.returncode} {done.stdout} {done.stderr[:200]}", so)
    for what, name, word in (("absent", "none.json", b"none.json"), ("no JSON", written("bad.json", "{"), b"bad.json"),
                             ("no ring", written("ringless.json", {**CONFIG, "ring": "none.ring"}), b"none.ring"),
                             ("a ring that is none", written("keyless.json", {**CONFIG, "ring": "bad.json"}), b"bad.json"),
                             ("a ring of twice one key", written("twice.json", {**CONFIG, "ring": doubled("node.ring", "twice.ring")}), b"twice")):
        done = fed("authority", "--config", name, "--port", str(free_port()), "--connections", "1")
        tell(f"{what}: {done.returncode} {done.stderr[:200]}", (done.returncode, done.stdout) == (2, b"input\n") and word in done.stderr)
    for words in (("--port", "0"), ("--port", "65536"), ("--port", "080"), ("--connections", "0"), ("--connections", "1000001")):
        given = {"--config": NODE, "--port": "8300", "--connections": "1", words[0]: words[1]}
        done = fed("authority", *[it for pair in given.items() for it in pair])
        tell(f"{words}: {done.returncode} {done.stdout}", (done.returncode, done.stdout) == (2, b"words\n"))


def limits():
    """The least and the greatest lifetime, and as many hints as there may be, are taken."""
    for name, value in (("lifetime", 60), ("lifetime", 31536000), ("authority_hints", [f"https://a{n}.example" for n in range(32)])):
        node = Node(written(f"limit-{name}-{str(value)[:2]}.json", {**CONFIG, name: value}), 1)
        status, _, text = node.ask("GET", "/fed/.well-known/openid-federation")
        claims = claims_of(text)
        so = claims["exp"] - claims["iat"] == value if name == "lifetime" else claims[name] == value
        tell(f"{name} {str(value)[:20]}: {status}", status == 200 and so)
        node.ended()


def main():
    subprocess.run([FED, "--version"], check=True, stdout=subprocess.DEVNULL)
    try:
        return tried("authority", [paths, revoked_marks, by_curl, listens, handed_over, hostile, behind_empty_lines, streams, port_taken, faulty, limits, many])
    finally:
        shutil.rmtree(place)


sys.exit(main())
