#!/usr/bin/env python3
"""What several workers gain for one signature: the time of `issue` without --workers and by 1, 2, 3, 4, 8 and 16, behind that of an `issue` which is
refused before it signs, as shares of the first, with keys of both algorithms; beside the share of a processor's time that four `issue` at once take.
And the time of one reply of a resolver whose cache has the pages, by 1 and by 4 workers, while nobody else asks.

    bench/workers.py [ROUNDS]    each time is the least of so many rounds (12), in which all take turns

It wants four processors. Where they are shared with others, or are two cores with two threads each, four `issue` at once say what can be gained.
"""

import http.client
import json
import os
import socket
import subprocess
import sys
import tempfile
import time
import urllib.parse

if {"-h", "--help"} & set(sys.argv[1:]):
    sys.exit(print(__doc__))

sys.dont_write_bytecode = True
sys.path.insert(0, f"{os.path.dirname(os.path.abspath(__file__))}/lib")
from webs import ANCHOR, LEAF, Texts, built, configured, deep, served, web_of  # noqa: E402

WORKERS = [1, 2, 3, 4, 8, 16]
REPLIES = 10
PATIENCE = 120


def ring(fed, place, alg):
    name = f"{place}/{alg}"
    done = subprocess.run([fed, "keygen", "--alg", alg, "--ring", name, "--at", "1", "--exp", "4000000000"], input=b"%096d" % 1, capture_output=True, check=True)
    os.chmod(name, 0o600)
    return name, json.loads(done.stdout)


def claims_of(key):
    now = int(time.time())
    return json.dumps({"iss": LEAF, "sub": LEAF, "iat": now, "exp": now + 86400, "jwks": {"keys": [key]}}).encode()


def seconds(fed, name, claims, *words, at_once=1, status=0):
    """The time of a clock until so many `issue` that begin at once have ended."""
    given = [fed, "issue", "--ring", name, "--typ", "entity-statement+jwt", *words]
    begin = time.monotonic()
    running = [subprocess.Popen(given, stdin=subprocess.PIPE, stdout=subprocess.DEVNULL, stderr=subprocess.DEVNULL) for _ in range(at_once)]
    for it in running:
        it.stdin.write(claims)
        it.stdin.close()
    ended = [it.wait() for it in running]
    if set(ended) != {status}:
        sys.exit(f"workers: issue ends with {ended}")
    return time.monotonic() - begin


def issued(fed, place, alg, rounds):
    """The least time of each way to sign, behind the start."""
    name, key = ring(fed, place, alg)
    claims = claims_of(key)
    ways = {"start": {"status": 1}, "alone": {}, "four": {"at_once": 4}, **{count: {} for count in WORKERS}}
    least = dict.fromkeys(ways, PATIENCE)
    for _ in range(rounds):
        for way, more in ways.items():
            words = ["--workers", str(way)] if isinstance(way, int) else []
            least[way] = min(least[way], seconds(fed, name, b"{}" if way == "start" else claims, *words, **more))
    signing = {way: least[way] - least["start"] for way in ways}
    fourth = signing["four"] / 4
    print(f"{alg}: a start {least['start'] * 1000:.1f} ms, signing {signing['alone'] * 1000:.1f} ms; four at once {fourth / signing['alone']:.3f} of it each;",
          ", ".join(f"{count} workers {signing[count] / signing['alone']:.3f}" for count in WORKERS), flush=True)
    return signing, fourth


def replied(fed, place, texts, pages, port, workers):
    """The least time of a reply from the cache, which nobody else waits for."""
    with socket.socket() as it:
        it.bind(("127.0.0.1", 0))
        own = it.getsockname()[1]
    given = [fed, "resolver", "--config", configured(place, texts, pages, port, workers), "--port", str(own), "--connections", "1000000"]
    with subprocess.Popen(given, stdout=subprocess.DEVNULL, stderr=subprocess.DEVNULL) as running:
        try:
            return min(reply(own) for _ in range(REPLIES + 1))
        finally:
            running.terminate()


def reply(port):
    """The time of a reply; the first, which finds no page in the cache, is the longest."""
    end = time.monotonic() + PATIENCE
    while True:
        try:
            peer = http.client.HTTPConnection("127.0.0.1", port, timeout=PATIENCE)
            begin = time.monotonic()
            peer.request("GET", f"/resolve?{urllib.parse.urlencode({'sub': LEAF, 'trust_anchor': ANCHOR})}")
            break
        except ConnectionRefusedError:
            if time.monotonic() > end:
                raise
            time.sleep(0.02)
    answer = peer.getresponse()
    answer.read()
    peer.close()
    if answer.status != 200:
        sys.exit(f"workers: the resolver answers {answer.status}")
    return time.monotonic() - begin


def aim(what, most, got):
    print(f"aim: {what}: at most {most:.3f}, is {got:.3f}: {'met' if got <= most else 'not met'}")


def main():
    rounds = int(sys.argv[1]) if len(sys.argv) > 1 else 12
    fed = built()
    print(f"{len(os.sched_getaffinity(0))} processors; load {' '.join(f'{it:.2f}' for it in os.getloadavg())}")
    with tempfile.TemporaryDirectory() as place:
        small, fourth = issued(fed, place, "128s", rounds)
        fast, _ = issued(fed, place, "128f", rounds)
        texts = Texts(fed, place)
        pages = web_of(texts, deep(3))
        web = served(pages)
        port = web.server_address[1]
        times = {workers: min(replied(fed, place, texts, pages, port, workers) for _ in range(3)) for workers in (1, 4)}
        web.shutdown()
        web.server_close()
    print(f"a reply from the cache: {times[1] * 1000:.1f} ms by one worker, {times[4] * 1000:.1f} ms by four")
    aim("four workers, of what each of four at once takes", 1.15, small[4] / fourth)
    aim("one worker, of issue", 1.02, small[1] / small["alone"])
    aim("four workers with 128f, of one", 0.5, fast[4] / fast[1])
    aim("a reply by four workers, of one", 0.45, times[4] / times[1])
    aim("a reply by four workers, of a signature by four", 1.3, times[4] / small[4])


if __name__ == "__main__":
    main()
