"""Batches of cases of one kind, in processes of their own: what is counted, and how a found failure is kept."""

import collections
import os
import random
import shutil
import signal
import socket
import sys
import time

from laid import is_free

from . import askers, callers, files, lines, programs, texts, webs

ONE_RUN = {**texts.KINDS, **files.KINDS, **lines.KINDS, **webs.KINDS}
KINDS = [*ONE_RUN, *callers.KINDS, *askers.KINDS]
TESTS = os.path.dirname(os.path.dirname(os.path.abspath(__file__)))
RUN = '''#!/usr/bin/env python3
"""Runs the program once more, as tests/hand/fuzz.py did."""
import os
os.chdir(os.path.dirname(os.path.abspath(__file__)))
os.dup2(os.open("input", os.O_RDONLY), 0)
os.execve({program!r}, [b"fed", *{words!r}], {{**os.environ, **{more!r}}})
'''
WEB = '''#!/usr/bin/env python3
"""Runs the program over the same web once more, as tests/hand/fuzz.py did."""
import os, subprocess, sys
os.chdir(os.path.dirname(os.path.abspath(__file__)))
sys.dont_write_bytecode = True
sys.path.insert(0, {tests!r})
from fuzzing import webs
web = webs.Web({port})
web.pages = {{call: open(name, "rb").read() if name else webs.RESET for call, name in {pages!r}.items()}}
subprocess.run([{program!r}, *{words!r}], env={{**os.environ, **{more!r}}})
print(web.calls)
'''


class Report:
    """What a batch tried, and what it was answered. A failure is kept in a folder of its own."""

    def __init__(self, kind, number, folder, most):
        self.kind, self.number, self.folder, self.most = kind, number, folder, most
        self.tried = self.cases = self.failed = 0
        self.words = collections.Counter()
        self.seconds = self.slowest = 0.0
        self.memory = 0

    def count(self, word, tried=1):
        self.words[word] += 1
        self.tried += tried
        self.cases += 1

    def fail(self, kind, what, kept):
        self.failed += 1
        if self.failed > self.most:
            return
        place = f"{self.folder}/{kind}-{self.number}-{self.failed}"
        os.makedirs(place, exist_ok=True)
        for name, data in {**kept, "said": what.encode("utf-8", "backslashreplace") + b"\n"}.items():
            with open(f"{place}/{os.path.basename(name)}", "wb") as it:
                it.write(data)
        os.chmod(f"{place}/again", 0o755)


class Case:
    """One run of the program, and the files that it is to read."""

    def __init__(self, worker, rng, report):
        self.worker, self.rng, self.report = worker, rng, report
        self.pool, self.taken = worker.pool, worker.taken
        self.files = {}

    @property
    def web(self):
        return self.worker.web()

    def file(self, name, data):
        self.files[name] = data
        self.worker.write(name, data)
        return name

    def holds(self, name, data):
        with open(f"{self.worker.folder}/{name}", "rb") as it:
            return it.read() == data

    def runs(self, words, given, tried, so, wanted, pages=None, told=str):
        more = {"FED_QUIET": "1"} if self.rng.random() < .5 else {}
        done = self.worker.runner.run(words, given, **more)
        fault = done.fault()
        if not fault:
            try:
                fault = "" if so(done) else "another answer"
            except (ValueError, KeyError, IndexError, TypeError, AttributeError) as error:
                fault = f"an answer that doesn't read: {error!r}"
        self.report.count(done.word(), tried)
        if fault:
            self.fail(f"{fault}: {words}\nstatus {done.status}, wrote {done.out[:1000]!r}\n{done.err[:1000]!r}\nwanted {str(wanted)[:4000]}\n{told()}",
                      words, given, more, pages)

    def fail(self, what, words, given, more, pages):
        kept = {**self.files, "input": given}
        program = os.path.abspath(self.pool.program)
        for word in words:
            at = f"{self.worker.folder}/{word}" if isinstance(word, str) and len(word) < 100 and "\0" not in word else ""
            if word and os.path.isfile(at) and word not in kept:
                with open(at, "rb") as it:
                    kept[word] = it.read()
        for name in ("resolver.ring", "node.ring"):
            with open(f"{self.worker.folder}/{name}", "rb") as it:
                kept[name] = it.read()
        if pages is None:
            kept["again"] = RUN.format(program=program, words=words, more=more).encode()
        else:
            names = {call: None if page is webs.RESET else f"page-{number}" for number, (call, page) in enumerate(pages.items())}
            kept |= {names[call]: page for call, page in pages.items() if names[call]}
            kept["again"] = WEB.format(program=program, words=words, more=more, pages=names, port=self.web.port, tests=TESTS).encode()
        self.report.fail(self.report.kind, what, kept)


class Worker:
    """A process that does batches, in a folder of its own with the pool's files."""

    def __init__(self, pool, place, keep, seed, most):
        self.pool, self.keep, self.seed, self.most = pool, keep, seed, most
        self.folder = f"{place}/{os.getpid()}"
        shutil.copytree(pool.folder, self.folder)
        pool.folder = self.folder
        self.runner = programs.Runner(os.path.abspath(pool.program), self.folder)
        self.ports = random.Random(os.getpid())
        self.held = socket.socket()
        self.held.bind(("127.0.0.1", self.port()))
        self.held.listen(1)
        self.taken = self.held.getsockname()[1]
        self.last, self.served = {}, None

    def port(self):
        """A port on which nobody listens, below those that Linux gives outgoing connections."""
        while True:
            port = self.ports.randrange(20000, 32768)
            if is_free(port):
                return port

    def web(self):
        if self.served is None:
            self.served = webs.Web(self.port())
        return self.served

    def write(self, name, data):
        if self.last.get(name) != data:
            self.last[name] = data
            self.pool.write(name, data)

    def batch(self, kind, number, size):
        """The cases of a batch, which follow from the seed, the kind and the number."""
        rng = random.Random(f"{self.seed} {kind} {number}")
        report = Report(kind, number, self.keep, self.most)
        began = time.monotonic()
        self.runner.memory, self.runner.slowest = 0, 0.0
        if kind in ONE_RUN:
            while report.tried < size:
                ONE_RUN[kind](Case(self, rng, report))
        else:
            (callers if kind in callers.KINDS else askers).batch(kind, self, rng, size, report)
        report.seconds = time.monotonic() - began
        report.memory, report.slowest = self.runner.memory, self.runner.slowest
        return report


# ---- the processes of a pool of workers

given, worker = None, None


def begin(*words):
    global given
    given = words
    signal.signal(signal.SIGTERM, lambda *_: sys.exit(1))        # so that what was started is ended


def do(wanted):
    global worker
    if worker is None:
        worker = Worker(*given)
    return worker.batch(*wanted)
