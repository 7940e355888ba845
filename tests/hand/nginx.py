#!/usr/bin/env python3
"""nginx with examples/nginx.conf in front of two processes of one node, on loopback, under a key made here: an answer that isn't kept yet and one
that is, a list that is kept for ten seconds, what a resolver gets and posts through examples/nginx-outward.conf, answers while one of the two is
ended, answers from what was kept while both are, and 429 to who asks too often; then the same in front with connections that are kept to processes
that stream, of which fewer are opened than are asked. Then each nginx file of examples/ as it stands, in a network and a view of the files of its
own, which wants root and unshare. Where nginx or openssl is missing it says so and tries nothing. It prints what differs and fails where anything
does."""

import http.client
import json
import os
import shutil
import signal
import socket
import ssl
import subprocess
import sys
import tempfile
import time

sys.dont_write_bytecode = True
sys.path.insert(0, f"{os.path.dirname(os.path.dirname(os.path.abspath(__file__)))}/lib")
from laid import TOP, free_port, tell, tried  # noqa: E402

if {"-h", "--help"} & set(sys.argv[1:]):
    sys.exit(print(__doc__))

FED = f"{TOP}/fed"
NGINX = shutil.which("nginx", path=os.environ.get("PATH", "") + ":/usr/sbin:/usr/local/sbin")
PATIENCE = 60
ID = "https://ta.example"


def lines_of(place, port):
    with open(f"{place}/log-{port}", encoding="utf-8") as it:
        return it.read().splitlines()


def waited_for(port):
    end = time.monotonic() + PATIENCE
    while time.monotonic() < end:
        try:
            socket.create_connection(("127.0.0.1", port), timeout=PATIENCE).close()
            return
        except ConnectionRefusedError:
            time.sleep(0.05)
    raise TimeoutError(f"nobody listens on port {port}")


def asked(port, path, method="GET", body=None):
    """Asks nginx over TLS, and gives the status, what it says of its cache, and the body."""
    trusting = ssl.create_default_context()
    trusting.check_hostname, trusting.verify_mode = False, ssl.CERT_NONE
    it = http.client.HTTPSConnection("127.0.0.1", port, timeout=PATIENCE, context=trusting)
    it.request(method, path, body, {"Host": "ta.example"})
    answer = it.getresponse()
    return answer.status, answer.getheader("X-Cache"), answer.read()


# what examples/nginx.conf says in comments, for processes that stream
KEPT = (("worker_processes auto", "worker_processes 1"), ("#keepalive 2", "keepalive 2"), ("#keepalive_timeout 500ms", "keepalive_timeout 500ms"),
        ("proxy_set_header Connection close", 'proxy_set_header Connection ""'))


def in_front():
    in_place(False)


def kept_in_front():
    in_place(True)


def in_place(stream):
    with tempfile.TemporaryDirectory() as place:
        started = []
        try:
            tried_in(place, started, stream)
        finally:
            for it in started:
                if it.poll() is None:
                    it.send_signal(signal.SIGTERM)
            for it in started:
                it.communicate(timeout=PATIENCE)


def tried_in(place, started, stream):
    os.chmod(place, 0o755)
    done = subprocess.run([FED, "keygen", "--ring", "ring", "--at", "1", "--exp", "2"], input=b"%096d" % 1, cwd=place, capture_output=True)
    key = json.loads(done.stdout)
    os.chmod(f"{place}/ring", 0o600)
    with open(f"{place}/node.json", "w", encoding="utf-8") as it:
        json.dump({"entity_id": ID, "ring": "ring", "lifetime": 3600,
                   "subordinates": [{"entity_id": "https://rp.example", "jwks": {"keys": [key]}}]}, it)
    ports = [free_port(), free_port()]
    for port in ports:
        words = ["authority", "--config", "node.json", "--port", str(port), "--connections", "1000", *["--stream", "yes"] * stream]
        with open(f"{place}/log-{port}", "w", encoding="utf-8") as log:
            started.append(subprocess.Popen([FED, *words], cwd=place, stdout=subprocess.DEVNULL, stderr=log))
    subprocess.run(["openssl", "req", "-x509", "-newkey", "rsa:2048", "-nodes", "-keyout", f"{place}/key", "-out", f"{place}/cert", "-days", "2",
                    "-subj", "/CN=ta.example"], check=True, capture_output=True)
    front = free_port()
    with open(f"{TOP}/examples/nginx.conf", encoding="utf-8") as it:
        config = it.read()
    for old, new in (("127.0.0.1:8300", f"127.0.0.1:{ports[0]}"), ("127.0.0.1:8301", f"127.0.0.1:{ports[1]}"), ("listen 443", f"listen 127.0.0.1:{front}"),
                     ("/etc/ssl/certs/ta.example.pem", f"{place}/cert"), ("/etc/ssl/private/ta.example.key", f"{place}/key"),
                     ("/var/lib/nginx/fed", f"{place}/kept"), ("/var/log/nginx/fed.log", f"{place}/access"), *(KEPT if stream else ())):
        if old not in config:
            raise ValueError(f"examples/nginx.conf says nothing of {old}")
        config = config.replace(old, new)
    with open(f"{place}/nginx.conf", "w", encoding="utf-8") as it:
        it.write(config)
    own = "daemon off; pid %s/pid; error_log %s/errors;" % (place, place) + (" user root;" if os.geteuid() == 0 else "")
    started.append(subprocess.Popen([NGINX, "-p", place, "-e", f"{place}/errors", "-c", f"{place}/nginx.conf", "-g", own], stderr=subprocess.DEVNULL))
    for port in (*ports, front):
        waited_for(port)

    status, kept, text = asked(front, "/.well-known/openid-federation")
    tell(f"the first answer: {status} {kept}", (status, kept) == (200, "MISS"))
    verified = subprocess.run([FED, "verify", key["pub"]], input=text, capture_output=True).stdout
    tell(f"over TLS it is what the node signed: {verified}", verified == f"valid {ID}\n".encode())
    status, kept, again = asked(front, "/.well-known/openid-federation")
    tell(f"the second: {status} {kept}", (status, kept, again) == (200, "HIT", text))
    status, kept, _ = asked(front, "/fetch?sub=https%3A%2F%2Fno.example")
    tell(f"no such entity: {status} {kept}", (status, kept) == (404, "MISS"))
    status, kept, _ = asked(front, "/trust-mark-status", "POST", "trust_mark=a")
    tell(f"a status is never kept: {status} {kept}", (status, kept) == (200, None))
    tell("no other method comes through", asked(front, "/list", "DELETE")[0] == 403)

    if not stream:
        lists(front)
        outward(place, started, front, text)
    else:
        # twenty that nothing keeps, one behind the other: their connections by the addresses in the logs of both
        said = {port: len(lines_of(place, port)) for port in ports}
        for number in range(20):
            status, _, _ = asked(front, f"/fetch?sub=https%3A%2F%2Fno-{number}.example")
            tell(f"no such entity, {number}: {status}", status == 404)
        lines = [line.split(" ")[1] for port in ports for line in lines_of(place, port)[said[port]:]]
        tell(f"a line for each answer: {len(lines)}", len(lines) == 20)
        tell(f"connections that were kept: {len(set(lines))}", len(set(lines)) < 10)

    started[0].send_signal(signal.SIGTERM)
    started[0].wait(timeout=PATIENCE)
    for path in ("/list?trust_marked=false", "/fetch?sub=https%3A%2F%2Frp.example", "/historical-keys"):
        status, kept, _ = asked(front, path)
        tell(f"{path} of the other process: {status} {kept}", (status, kept) == (200, "MISS"))
    started[1].send_signal(signal.SIGTERM)
    started[1].wait(timeout=PATIENCE)
    status, kept, again = asked(front, "/.well-known/openid-federation")
    tell(f"while nobody answers: {status} {kept}", (status, kept, again) == (200, "HIT", text))
    tell("what wasn't kept isn't there", asked(front, "/list?intermediate=true")[0] == 502)
    # who asks too often is told so, and that alone: a burst and ten a second are let through
    statuses, end = set(), time.monotonic() + PATIENCE
    while len(statuses) < 2 and time.monotonic() < end:
        statuses.add(asked(front, "/.well-known/openid-federation")[0])
    tell(f"too many requests: {statuses}", statuses == {200, 429})


def lists(front):
    """A list is kept for ten seconds alone, so that who is new is found."""
    first, second = asked(front, "/list"), asked(front, "/list")
    tell(f"a list: {first}, {second}", (first[:2], second[:2]) == ((200, "MISS"), (200, "HIT")))
    time.sleep(11)
    third = asked(front, "/list")
    tell(f"a list, eleven seconds later: {third}", third[:2] == (200, "EXPIRED"))


def outward(place, started, front, text):
    """examples/nginx-outward.conf on the way to that nginx: what a resolver gets and posts goes through, and nothing else."""
    port = free_port()
    with open(f"{TOP}/examples/nginx-outward.conf", encoding="utf-8") as it:
        config = it.read()
    for old, new in (("127.0.0.1:8400", f"127.0.0.1:{port}"), ("https://$http_host$request_uri", f"https://127.0.0.1:{front}$request_uri"),
                     ("/etc/ssl/certs/ca-certificates.crt", f"{place}/cert")):
        if old not in config:
            raise ValueError(f"examples/nginx-outward.conf says nothing of {old}")
        config = config.replace(old, new)
    with open(f"{place}/outward.conf", "w", encoding="utf-8") as it:
        it.write(config)
    own = f"daemon off; pid {place}/outward-pid; error_log {place}/outward-errors;" + (" user root;" if os.geteuid() == 0 else "")
    words = ["-p", place, "-e", f"{place}/outward-errors", "-c", f"{place}/outward.conf", "-g", own]
    started.append(subprocess.Popen([NGINX, *words], stderr=subprocess.DEVNULL))
    waited_for(port)

    def through(method, path, body=None, host="ta.example"):
        it = http.client.HTTPConnection("127.0.0.1", port, timeout=PATIENCE)
        it.request(method, path, body, {"Host": host})
        answer = it.getresponse()
        return answer.status, answer.read()

    got = through("GET", "/.well-known/openid-federation")
    tell(f"on the way out: {got[0]}", got == (200, text))
    status, _ = through("POST", "/trust-mark-status", "trust_mark=a")
    tell(f"on the way out, a post: {status}", status == asked(front, "/trust-mark-status", "POST", "trust_mark=a")[0] == 200)
    tell("on the way out, no other method comes through", through("DELETE", "/list")[0] == 403)
    tell("on the way out, nobody else is asked", through("POST", "/trust-mark-status", "trust_mark=a", "rp.no.example")[0] == 404)


# what the files name is laid over the view of the files, and nginx listens where nobody else does: on the ports that they say
AS_IT_STANDS = r"""set -eu
mount -t tmpfs tmpfs /etc/ssl/private
for folder in /var/lib/nginx /var/log/nginx; do [ ! -d "$folder" ] || mount -t tmpfs tmpfs "$folder"; done
mkdir -p "$1/certs" && cp -rL /etc/ssl/certs/. "$1/certs/" && mount --bind "$1/certs" /etc/ssl/certs
for name in ta op; do
    cp "$1/cert" "/etc/ssl/certs/$name.example.pem"
    cp "$1/key" "/etc/ssl/private/$name.example.key"
done
[ -f /etc/ssl/certs/ca-certificates.crt ] || cp "$1/cert" /etc/ssl/certs/ca-certificates.crt
ip link set lo up
"$2" -t -e "$1/errors" -c "$3"
"$2" -e "$1/errors" -c "$3" -g "daemon off; pid $1/pid;" &
started=$!
for _ in $(seq 100); do
    (exec 3<>"/dev/tcp/127.0.0.1/$4") 2>/dev/null && break
    kill -0 "$started"
    sleep 0.1
done
kill "$started"
wait "$started"
"""


def as_it_stands():
    if os.geteuid() != 0 or subprocess.run(["unshare", "-m", "-n", "true"], capture_output=True).returncode:
        print("nginx: its files as they stand: not tried, since no view of the files of its own is to be had")
        return
    for name, port in ("nginx.conf", 443), ("nginx-resolver.conf", 443), ("nginx-outward.conf", 8400):
        with tempfile.TemporaryDirectory() as place:
            os.chmod(place, 0o755)
            subprocess.run(["openssl", "req", "-x509", "-newkey", "rsa:2048", "-nodes", "-keyout", f"{place}/key", "-out", f"{place}/cert", "-days", "2",
                            "-subj", "/CN=ta.example"], check=True, capture_output=True)
            words = ["unshare", "-m", "-n", "bash", "-c", AS_IT_STANDS, "nginx", place, NGINX, f"{TOP}/examples/{name}", str(port)]
            done = subprocess.run(words, capture_output=True, text=True, timeout=PATIENCE)
            tell(f"{name} as it stands: {done.stderr}", done.returncode == 0)


def main():
    if NGINX is None or shutil.which("openssl") is None:
        print("nginx: not tried, since nginx or openssl is missing")
        return 0
    subprocess.run([FED, "--version"], check=True, stdout=subprocess.DEVNULL)
    return tried("nginx", [in_front, kept_in_front, as_it_stands])


sys.exit(main())
