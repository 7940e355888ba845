#!/usr/bin/env python3
"""What a running resolver costs, over a web of fixed texts on loopback. Where valgrind is there: the instructions of a request that the cache
answers, beside those of its signature, for a chain of 3 and of 9 texts and beside the pages of 0, 16 and 64 other entities in the cache. And how
many replies 1, 2 and 4 workers give on as many processors in the time of a signature.

    bench/resolver.py [SECONDS]    SECONDS is how long each number of workers is asked (20)

A signature's time is that of one worker's processor for a reply: user and system time of the resolver alone, by the number of its replies, in the
same run. Twice as many clients as workers ask without a pause.
"""

import http.client
import os
import shutil
import socket
import subprocess
import sys
import tempfile
import threading
import time
import urllib.parse

if {"-h", "--help"} & set(sys.argv[1:]):
    sys.exit(print(__doc__))

sys.dont_write_bytecode = True
sys.path.insert(0, f"{os.path.dirname(os.path.abspath(__file__))}/lib")
from webs import ANCHOR, LEAF, Texts, built, configured, counted, deep, inclusive, served, web_of  # noqa: E402

WORKERS = [1, 2, 4]
PATIENCE = 600
TICKS = os.sysconf("SC_CLK_TCK")
SIGN = r"sealed::sealing::(?:seal_payload|seal_signed::<#[0-9a-f]+>) \["


def free_port():
    with socket.socket() as it:
        it.bind(("127.0.0.1", 0))
        return it.getsockname()[1]


def asked(port, sub=LEAF):
    """Asks the resolver, once it listens, and gives the status of its answer."""
    end = time.monotonic() + PATIENCE
    while True:
        try:
            peer = http.client.HTTPConnection("127.0.0.1", port, timeout=PATIENCE)
            peer.request("GET", f"/resolve?{urllib.parse.urlencode({'sub': sub, 'trust_anchor': ANCHOR})}")
            break
        except ConnectionRefusedError:
            if time.monotonic() > end:
                raise
            time.sleep(0.02)
    answer = peer.getresponse()
    answer.read()
    peer.close()
    return answer.status


def words(fed, config, port, connections):
    return [fed, "resolver", "--config", config, "--port", str(port), "--connections", str(connections)]


def instructions(fed, place, config, subs):
    """The instructions of a resolver that is asked for these, in turn, and of its signatures, which the others, without a chain, don't take."""
    port = free_port()
    found = []

    def ask():
        found.extend(asked(port, sub) for sub in subs)

    client = threading.Thread(target=ask)
    client.start()
    by_name = counted(place, words(fed, config, port, len(subs)))
    client.join()
    if found != [200 if sub == LEAF else 400 for sub in subs]:
        sys.exit(f"resolver: {found}")
    return by_name["PROGRAM TOTALS"], inclusive(by_name, SIGN)


def from_the_cache(fed, place, config, what, others):
    """What one more request for the leaf takes, where the cache has it and all others."""
    subs = [*others, LEAF]
    first, first_sign = instructions(fed, place, config, subs)
    second, second_sign = instructions(fed, place, config, [*subs, LEAF])
    whole, sign = second - first, second_sign - first_sign
    print(f"{what}: {whole:,} instructions, {sign:,} of them the signature's; over it {whole / sign:.4f}", flush=True)


def at_once(fed, config, workers, seconds):
    """Asks a resolver of so many workers, on as many processors, by twice as many clients."""
    port = free_port()
    own = sorted(os.sched_getaffinity(0))[:workers]
    given = words(fed, config, port, 1_000_000)
    with subprocess.Popen(given, stdout=subprocess.DEVNULL, stderr=subprocess.DEVNULL, preexec_fn=lambda: os.sched_setaffinity(0, own)) as running:
        try:
            statuses = [asked(port)]
            begin, before = time.monotonic(), spent(running.pid)
            statuses += asked_by(2 * workers, port, begin + seconds)
            wall, used, replies = time.monotonic() - begin, spent(running.pid) - before, len(statuses) - 1
        finally:
            running.terminate()
    if set(statuses) != {200}:
        sys.exit(f"resolver: {set(statuses)}")
    return replies / wall, used / replies


def asked_by(clients, port, end):
    """The statuses of all answers that so many clients were given until then."""
    statuses = []

    def client():
        while time.monotonic() < end:
            statuses.append(asked(port))

    threads = [threading.Thread(target=client) for _ in range(clients)]
    for it in threads:
        it.start()
    for it in threads:
        it.join()
    return statuses


def spent(pid):
    """The user and system time of a process."""
    with open(f"/proc/{pid}/stat", encoding="ascii") as it:
        fields = it.read().rpartition(")")[2].split()
    return (int(fields[11]) + int(fields[12])) / TICKS


def main():
    seconds = int(sys.argv[1]) if len(sys.argv) > 1 else 20
    fed = built()
    with tempfile.TemporaryDirectory() as place:
        texts = Texts(fed, place)
        others = [f"https://rp-{number}.example" for number in range(64)]
        pages = web_of(texts, deep(3) | {other: [] for other in others})
        web = served(pages)
        if shutil.which("valgrind"):
            config = configured(place, texts, pages, web.server_address[1])
            for count in (0, 16, 64):
                from_the_cache(fed, place, config, f"a chain of 3 texts, {count:2} others in the cache", others[:count])
            long_pages = web_of(texts, deep(9))
            long_web = served(long_pages)
            config = configured(place, texts, long_pages, long_web.server_address[1])
            from_the_cache(fed, place, config, "a chain of 9 texts", [])
            long_web.shutdown()
            long_web.server_close()
        else:
            print("there is no valgrind here, so no instructions are counted")
        signature = None
        for workers in WORKERS:
            config = configured(place, texts, pages, web.server_address[1], workers)
            rate, used = at_once(fed, config, workers, seconds)
            signature = signature or used
            print(f"{workers} workers: {rate:.2f} replies a second, {used * 1000:.1f} ms of processor time each; in the time of one worker's "
                  f"{rate * signature:.2f}, by worker {rate * signature / workers:.2f}", flush=True)
        web.shutdown()
        web.server_close()


main()
