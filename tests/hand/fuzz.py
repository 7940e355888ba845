#!/usr/bin/env python3
"""Hostile inputs by the million, outside the gate: texts, chains, key sets, policies, configurations, rings, claims, command lines, pages and other
keys for an anchor, and heads, streams and questions of connections, made from a seed by changing good ones, and handed to the built program.

    tests/hand/fuzz.py [--program PATH] [--seed N] [--texts N] [--connections N] [--batch N] [--keep FOLDER] [--workers N] [KIND ..]

N texts are tried in all, and N connections, of the kinds that are named, or of all. The answer to each is known: the rules of docs/ stand once
more in tests/lib/fuzzing, in Python, and what the program answers is compared with these. So a run fails where the program crashes, doesn't end in
10 seconds, answers outside the table of statuses, or calls something valid, or refuses it, that isn't so; and where a resolver asks for other
pages than its search needs.

  texts, chains, keys, policies   lists of texts for `check`, and single ones for `verify`
  shown                           texts, key sets and lists of up to 200 texts for `show`
  configurations, rings, claims   for `resolve`, `authority`, `resolver` and `check-config`; for `rotate`, `issue` and `public`; for `issue`
  words                           command lines
  pages, marks                    a web of pages over which a `resolve` searches, a process a search
  searched                        the same over which a `resolver` searches for all requests of a batch, with its cache
  rotated                         other keys for a trust anchor, posted to a `resolver`
  heads, streams                  connections of an `authority`
  asked                           requests for entities, anchors and types, and now and then other keys, at a `resolver` over changing pages

It prints a line a kind, with how often each answer came, and ends with 0 or 1. Each failure is kept in a folder of its own below FOLDER
(out/fuzz), with its files, what was wanted, and `again`, which makes that run once more. The same seed makes the same cases; --batch makes
those of one batch of one kind alone, whose number stands in the folder's name.
"""

import argparse
import collections
import multiprocessing
import os
import shutil
import subprocess
import sys
import tempfile
import time

sys.dont_write_bytecode = True
TOP = os.path.dirname(os.path.dirname(os.path.dirname(os.path.abspath(__file__))))
sys.path.insert(0, f"{TOP}/tests/lib")
from fuzzing import batches  # noqa: E402
from fuzzing.pool import Pool  # noqa: E402

# of a thousand texts so many are of this kind; what wants a signature, or the key of a ring, is dear, and so is a process a list
TEXTS = {"texts": 330, "chains": 60, "keys": 20, "policies": 60, "shown": 240, "configurations": 25, "rings": 5, "claims": 1, "words": 10, "pages": 8,
         "searched": 60, "rotated": 180, "marks": 1}
CONNECTIONS = {"heads": 450, "streams": 300, "asked": 250}
# how many of a kind are one batch
SIZES = {"texts": 2000, "shown": 2000, "rings": 40, "claims": 10, "marks": 30, "heads": 1000, "streams": 500, "rotated": 1000, "asked": 300}
SIZE, KEPT = 400, 5


def options():
    parser = argparse.ArgumentParser(description=__doc__, formatter_class=argparse.RawDescriptionHelpFormatter)
    parser.add_argument("--program")
    for name, number in (("seed", 1), ("texts", 20000), ("connections", 2000), ("workers", len(os.sched_getaffinity(0)))):
        parser.add_argument(f"--{name}", type=int, default=number)
    parser.add_argument("--batch", type=int)
    parser.add_argument("--keep", default=f"{TOP}/out/fuzz")
    parser.add_argument("kinds", nargs="*", metavar="KIND")
    given = parser.parse_args()
    unknown = set(given.kinds) - set(batches.KINDS)
    if unknown:
        parser.error(f"no such kind: {', '.join(unknown)}")
    return given


def wanted(given):
    """The batches, each a kind, its number and its size, those of all kinds mixed."""
    found = []
    for shares, all_of in ((TEXTS, given.texts), (CONNECTIONS, given.connections)):
        shares = {kind: share for kind, share in shares.items() if not given.kinds or kind in given.kinds}
        for kind, share in shares.items():
            left, size = -(-all_of * share // sum(shares.values())), SIZES.get(kind, SIZE)
            count = -(-left // size)
            found += [((number + .5) / count, (kind, number, min(size, left - number * size))) for number in range(count)]
    found = [it for _, it in sorted(found)]
    return found if given.batch is None else [(kind, given.batch, SIZES.get(kind, SIZE)) for kind in given.kinds]


class Sum:
    """What all batches of a kind did."""

    def __init__(self):
        self.tried = self.cases = self.failed = self.memory = 0
        self.words = collections.Counter()
        self.seconds = self.slowest = 0.0

    def add(self, report):
        for name in ("tried", "cases", "failed", "seconds"):
            setattr(self, name, getattr(self, name) + getattr(report, name))
        self.words += report.words
        self.memory, self.slowest = max(self.memory, report.memory), max(self.slowest, report.slowest)

    def line(self, kind):
        unit = "connections" if kind in CONNECTIONS else "texts"
        runs = f" in {self.cases} runs" if self.cases != self.tried else ""
        most = f", a run took {self.slowest:.2f} s and {self.memory // 1024} MB at most" if self.memory else ""
        words = ", ".join(f"{count} {word}" for word, count in self.words.most_common())
        return f"{kind}: {self.tried} {unit}{runs}: {words}; {self.failed} failed; {self.tried / max(self.seconds, .001):.0f} a second of a worker{most}"


def tried(given, program, place):
    sums = {}
    os.mkdir(f"{place}/pool")
    began = time.monotonic()
    pool = Pool(program, f"{place}/pool", given.seed)
    print(f"fuzz: seed {given.seed}, {len(pool.texts)} texts signed in {time.monotonic() - began:.0f} s", flush=True)
    began = time.monotonic()
    with multiprocessing.get_context("fork").Pool(given.workers, batches.begin, (pool, place, given.keep, given.seed, KEPT)) as workers:
        for report in workers.imap_unordered(batches.do, wanted(given)):
            sums.setdefault(report.kind, Sum()).add(report)
            if report.failed:
                print(f"fuzz: {report.failed} failures in batch {report.number} of {report.kind}, kept in {given.keep}", file=sys.stderr, flush=True)
    spent = time.monotonic() - began
    for kind in (kind for kind in batches.KINDS if kind in sums):
        print(sums[kind].line(kind))
    texts, connections = (sum(its.tried for kind, its in sums.items() if (kind in CONNECTIONS) == so) for so in (False, True))
    failed = sum(its.failed for its in sums.values())
    print(f"fuzz: {texts} texts and {connections} connections in {spent:.0f} s, {failed} failed")
    return 1 if failed else 0


def main():
    given = options()
    program = given.program
    if program is None:
        subprocess.run([f"{TOP}/fed", "--version"], check=True, stdout=subprocess.DEVNULL)
        program = f"{TOP}/out/fed"
    given.keep = os.path.abspath(given.keep)
    place = tempfile.mkdtemp()
    try:
        return tried(given, os.path.abspath(program), place)
    finally:
        shutil.rmtree(place)


sys.exit(main())
