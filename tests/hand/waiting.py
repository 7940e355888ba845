#!/usr/bin/env python3
"""How long a good caller of the built program waits, on loopback, while others hold what they can:

    behind 50 callers that are silent and 10 that send a byte now and then, at an authority and at a resolver of four workers
    behind a question for an entity whose 31 hints lead to one silent host, at the same process and at another one
    while a node comes to the ends of its connections and is started again a second later, on a socket that stays open as examples/*.socket have it

and how much memory 256 waiting callers take. What is waited is the time up to the answer without what the answer itself took, by the node's log:
a machine with other work signs slowly. Prints each figure beside its bound, and fails where one is over it."""

import json
import os
import shutil
import socket
import subprocess
import sys
import threading
import time
import urllib.parse

sys.dont_write_bytecode = True
if {"-h", "--help"} & set(sys.argv[1:]):
    sys.exit(print(__doc__))

sys.path.insert(0, f"{os.path.dirname(os.path.dirname(os.path.abspath(__file__)))}/lib")
import laid  # noqa: E402
from laid import Host, free_port  # noqa: E402
from resolving import FED, KEYS, RESOLVER, RP, TA, USUAL, Web, own, page_of, place, sealed, written  # noqa: E402

SILENT, DRIPPING, HINTS, PLACES = 50, 10, 31, 256
LIST = b"GET /list HTTP/1.1\r\nHost: ta.example\r\nConnection: close\r\n\r\n"


def figure(what, value, bound, unit):
    print(f"{what}: {value:.2f} {unit}, at most {bound} {unit}")
    laid.tell(f"{what}: {value:.2f} {unit} is over {bound}", value <= bound)


# ---- processes and callers

class Process:
    """The program as a service of so many connections on a port."""

    def __init__(self, command, config, port=None, connections=1_000_000):
        self.port = port or free_port()
        words = [FED, command, "--config", config, "--port", str(self.port), "--connections", str(connections)]
        self.log = f"{place}/log-{self.port}"
        with open(self.log, "wb") as log:
            self.running = subprocess.Popen(words, cwd=place, stdout=subprocess.DEVNULL, stderr=log, env={**os.environ, "FED_LOG": "json"})
        laid.started.append(self.running)

    def __enter__(self):
        end = time.monotonic() + 60
        while True:
            try:
                socket.create_connection(("127.0.0.1", self.port), timeout=60).close()
                return self
            except ConnectionRefusedError:
                if time.monotonic() > end or self.running.poll() is not None:
                    raise
                time.sleep(0.02)

    def __exit__(self, *_):
        if self.running.poll() is None:
            self.running.terminate()
        self.running.wait()

    def took(self):
        """How many seconds each answer took itself, by the port of its caller, as far as its line is written."""
        with open(self.log, encoding="ascii") as log:
            lines = [json.loads(line) for line in log if line.startswith('{"') and line.endswith("\n") and '"peer":' in line]
        return {int(line["peer"].rpartition(":")[2]): line["ms"] / 1000 for line in lines if line["status"] is not None}

    def waits(self, answers):
        """How long each of these callers waited. The lines of a batch come once it is over."""
        end = time.monotonic() + 60
        while not {it.port for it in answers} <= self.took().keys() and time.monotonic() < end:
            time.sleep(0.2)
        took = self.took()
        return [it.seconds - took[it.port] for it in answers]

    def memory(self):
        """Its resident memory, in MB."""
        with open(f"/proc/{self.running.pid}/status", encoding="ascii") as it:
            return int(next(line for line in it if line.startswith("VmRSS")).split()[1]) / 1024


class Asked:
    """One request: how many seconds it took until the whole answer was there, its status, and the port of the caller."""

    def __init__(self, port, request, patience=120):
        began = time.monotonic()
        with socket.create_connection(("127.0.0.1", port), timeout=patience) as it:
            self.port = it.getsockname()[1]
            it.sendall(request)
            got = b""
            while piece := it.recv(65536):
                got += piece
                head, stop, body = got.partition(b"\r\n\r\n")
                if stop and len(body) >= int(head.lower().partition(b"content-length: ")[2].partition(b"\r")[0] or 0):
                    break
        self.seconds, self.status = time.monotonic() - began, int(got[9:12] or 0)

    def __repr__(self):
        return f"{self.status} in {self.seconds:.2f} s"


def question(subject):
    query = urllib.parse.urlencode({"sub": subject, "trust_anchor": TA})
    return f"GET /resolve?{query} HTTP/1.1\r\nHost: resolver.example\r\nConnection: close\r\n\r\n".encode()


class Crowd:
    """Callers of a port that say nothing, and some that send a byte of a request each half second. Each comes again where it is let go."""

    def __init__(self, port, silent, dripping):
        self.port, self.over, self.there = port, threading.Event(), threading.Semaphore(0)
        rows = [self.silent] * silent + [self.dripping] * dripping
        self.threads = [threading.Thread(target=self.again, args=(row,), daemon=True) for row in rows]

    def __enter__(self):
        for thread in self.threads:
            thread.start()
        for _ in self.threads:
            self.there.acquire()
        time.sleep(0.5)
        return self

    def __exit__(self, *_):
        self.over.set()
        for thread in self.threads:
            thread.join()

    def again(self, row):
        first = True
        while not self.over.is_set():
            try:
                with socket.create_connection(("127.0.0.1", self.port), timeout=1) as it:
                    if first:
                        self.there.release()
                        first = False
                    row(it)
            except OSError:
                self.over.wait(0.1)

    def silent(self, it):
        it.settimeout(0.5)
        while not self.over.is_set():
            try:
                if not it.recv(1):
                    return
            except TimeoutError:
                pass

    def dripping(self, it):
        for byte in LIST:
            it.sendall(bytes([byte]))
            if self.over.wait(0.5):
                return


# ---- what is tried

AUTHORITY = {"entity_id": TA, "ring": "ta.ring", "lifetime": 3600}


def resolver_over(web, silent):
    hosts = {it.removeprefix("https://").split("/")[0] for it in (RP, TA, "https://im.example")}
    routes = [{"host": host, "ip": "127.0.0.1", "port": web.port} for host in sorted({*hosts, "leaf.example"})]
    routes += [{"host": "silent.example", "ip": "127.0.0.1", "port": silent.port}]
    return {"entity_id": RESOLVER, "ring": "resolver.ring", "lifetime": 3600,
            "resolver": {"anchors": [{"entity_id": TA, "jwks": {"keys": [KEYS[TA]]}}], "routes": routes, "age": 3600, "workers": 4,
                         "control": {"keys": []}}}


def behind_a_crowd(what, process, request):
    with Crowd(process.port, SILENT, DRIPPING):
        answers = [Asked(process.port, request) for _ in range(21)]
        waits = process.waits(answers)
    laid.tell(f"{what}: {answers}", all(it.status == 200 for it in answers))
    figure(f"{what}, behind {SILENT} silent and {DRIPPING} dripping callers a good one waits", max(waits), 0.2, "s")


def memory_of(what, process):
    before = process.memory()
    with Crowd(process.port, PLACES, 0):
        figure(f"{what}, {PLACES} waiting callers take", process.memory() - before, 2, "MB")


def silent_hints(first, second):
    """One asks for the leaf, and four others behind it for an entity that is known: three beside it in its batch, and one in the next."""
    slow, others, elsewhere = [], [], []

    def asks(answers, process, subject):
        answers.append(Asked(process.port, question(subject)))

    def begun(*given):
        thread = threading.Thread(target=asks, args=given, daemon=True)
        thread.start()
        return thread

    threads = [begun(slow, first, "https://leaf.example")]
    time.sleep(0.5)
    threads += [begun(others, first, RP) for _ in range(4)] + [begun(elsewhere, second, RP)]
    for thread in threads:
        thread.join()
    statuses = [it.status for it in slow + others + elsewhere]
    laid.tell(f"behind silent hints: {slow} {others} {elsewhere}", statuses == [503, 200, 200, 200, 200, 200])
    with Crowd(first.port, 4, 0), Crowd(second.port, 4, 0):             # they fill the last batch, whose lines come then
        figure(f"{HINTS} hints to a silent host hold the next callers of the same process", max(first.waits(others)), 31, "s")
        figure("and one of another process", max(second.waits(elsewhere)), 0.5, "s")


# ---- the end of connections

def kept_running(listener, connections, over, ends):
    """A node of so many connections on a socket that stays open, started again a second after each end, as systemd does."""
    words = [FED, "authority", "--config", "ta.json", "--port", str(listener.getsockname()[1]), "--connections", str(connections)]
    while not over.is_set():
        running = subprocess.Popen(words, cwd=place, env={**os.environ, "FED_LISTEN": "socket"}, stdin=listener, stdout=subprocess.DEVNULL,
                                   stderr=subprocess.DEVNULL)
        laid.started.append(running)
        while running.poll() is None and not over.wait(0.01):
            pass
        if running.poll() is None:
            running.terminate()
        elif running.returncode == 0:
            ends.append(time.monotonic())
        running.wait()
        over.wait(1)


def ends():
    over, came_to_end, refused, spent = threading.Event(), [], [], []
    with socket.create_server(("127.0.0.1", free_port()), backlog=4096) as listener:
        listener.setsockopt(socket.IPPROTO_TCP, socket.TCP_DEFER_ACCEPT, 10)        # as DeferAcceptSec= of the units has it
        port = listener.getsockname()[1]
        keeper = threading.Thread(target=kept_running, args=(listener, 60, over, came_to_end), daemon=True)
        keeper.start()
        end = time.monotonic() + 30

        def call():
            while time.monotonic() < end:
                try:
                    answer = Asked(port, LIST, 20)
                    spent.append(answer.seconds)
                    if answer.status != 200:
                        refused.append(answer.status)
                except OSError as error:
                    refused.append(error)
                time.sleep(0.02)

        callers = [threading.Thread(target=call, daemon=True) for _ in range(4)]
        for caller in callers:
            caller.start()
        for caller in callers:
            caller.join()
        over.set()
        keeper.join()
    laid.tell(f"the node came to {len(came_to_end)} ends of its connections", len(came_to_end) >= 5)
    laid.tell(f"refused: {refused[:5]}", not refused)
    figure(f"of {len(spent)} callers over {len(came_to_end)} ends of a node, refused or cut off", len(refused), 0, "callers")
    figure("and the one who waited longest", max(spent, default=99), 5, "s")


def main():
    written("ta.json", AUTHORITY)
    hints = [f"https://silent.example/{number}" for number in range(HINTS)]
    pages = {**USUAL, page_of("https://leaf.example"): sealed(own("https://leaf.example", KEYS[RP], authority_hints=hints), RP)}
    with Web(pages) as web, Host(lambda host, peer, _: host.over.wait(600)) as silent:
        written("resolver.json", resolver_over(web, silent))
        with Process("authority", "ta.json") as authority:
            behind_a_crowd("an authority", authority, LIST)
            memory_of("an authority", authority)
        with Process("resolver", "resolver.json") as first, Process("resolver", "resolver.json") as second:
            Asked(second.port, question(RP))
            behind_a_crowd("a resolver", first, question(RP))
            memory_of("a resolver", first)
            silent_hints(first, second)
        ends()
    for running in laid.started:
        if running.poll() is None:
            running.kill()
            running.wait()
    print(f"waiting: {laid.passed} passed, {len(laid.faults)} failed")
    return 1 if laid.faults else 0


try:
    status = main()
finally:
    shutil.rmtree(place, ignore_errors=True)
sys.exit(status)
