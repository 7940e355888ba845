#!/usr/bin/env python3
"""What a resolve costs beside the sum of its parts, over a web of fixed texts on loopback: a chain of 3, 6, 9 and 14 texts, and one of 4
texts among 2 to 78 superiors, for which 7 to 159 pages are asked for. The time of a call less that of its start, which opens the node; and,
where valgrind is there, the instructions of the call, those of its parts, which are reading the texts that it got, testing their signatures
and making the one of the reply, the ratio of both, and the most that the program holds in memory, beside that of a start. At last, among
the searches for 19 pages and more, what a page costs beside signatures and tests, the most of it over the least, and so what a page more
costs, with what is left of a call for none; and what one page more takes in memory, beside its bytes.

    bench/resolve.py [COUNT]    COUNT is how often each is resolved in a round (5)

The start is a call for an anchor that isn't listed. Times are user and system time together, the least of three rounds. All entities have
one key, so that the texts are made quickly; a call tests each text under it as under any other.
"""

import os
import shutil
import subprocess
import sys
import tempfile

if {"-h", "--help"} & set(sys.argv[1:]):
    sys.exit(print(__doc__))

sys.dont_write_bytecode = True
sys.path.insert(0, f"{os.path.dirname(os.path.abspath(__file__))}/lib")
from webs import ANCHOR, LEAF, Texts, built, configured, counted, deep, inclusive, seconds, served, web_of, wide  # noqa: E402

DEPTHS, WIDTHS = [3, 6, 9, 14], [2, 4, 8, 16, 32, 78]
LINEAR = 8
ROUNDS = 3


def words(fed, config, anchor=ANCHOR):
    return [fed, "resolve", "--config", config, "--sub", LEAF, "--anchor", anchor]


def peak(place, command):
    """The most bytes that a run held on its heap, in thousands."""
    kept = f"{place}/massif"
    subprocess.run(["valgrind", "--tool=massif", f"--massif-out-file={kept}", "--peak-inaccuracy=0.0", *command], capture_output=True)
    with open(kept, encoding="ascii") as it:
        return max(int(line.removeprefix("mem_heap_B=")) for line in it if line.startswith("mem_heap_B=")) / 1000


# of the program: one call, the two parts of reading the texts that it got, testing signatures, and making one. Which of two names there is
# depends on what the compiler puts in place of a call
CALL = r"fed_resolver::call::(?:resolve|answer)::<#[0-9a-f]+> \["
SPLIT = r"jws_form::splitting::split_as \["
READ = r"entity_statement::signed::read_parts \["
TEST = r"resolve_round::tests::verifies::<#[0-9a-f]+> \["
SIGN = r"sealed::sealing::(?:seal_payload|seal_signed::<#[0-9a-f]+>) \["


def measured(fed, place, texts, what, hints, count):
    """Of a call: its pages, its time, its instructions without those of signatures and tests, its heap, and the bytes of its texts."""
    pages = web_of(texts, hints)
    web = served(pages)
    try:
        config = configured(place, texts, pages, web.server_address[1])
        whole = min(seconds(words(fed, config), count) for _ in range(ROUNDS))
        start = min(seconds(words(fed, config, LEAF), count, 1) for _ in range(ROUNDS))
        what = f"{what}, {len(pages):2} pages"
        print(f"{what}: {(whole - start) * 1000:8.2f} ms behind a start of {start * 1000:8.2f} ms")
        if shutil.which("valgrind"):
            by_name = counted(place, words(fed, config))
            call = inclusive(by_name, CALL)
            parts = [inclusive(by_name, SPLIT) + inclusive(by_name, READ), inclusive(by_name, TEST), inclusive(by_name, SIGN)]
            print(f"{what}: {call:,} instructions; reading {parts[0]:,}, tests {parts[1]:,}, signature {parts[2]:,}, all else, and with it "
                  f"the pages' way over HTTP, {call - sum(parts):,}; over the parts {call / sum(parts):.4f}")
            held, before = peak(place, words(fed, config)), peak(place, words(fed, config, LEAF))
            size = sum(map(len, pages.values())) / 1000
            print(f"{what}: a heap of {held:.0f} kB at its most, {before:.0f} kB where nothing is searched, of texts of {size:.0f} kB",
                  flush=True)
            return len(pages), whole - start, call - parts[1] - parts[2], held, size
        return len(pages), whole - start, None, None, None
    finally:
        web.shutdown()
        web.server_close()


def linear(found):
    """What a page costs in searches for few pages and for many."""
    def most_over_least(what, costs):
        print(f"a page in searches for {found[0][0]} to {found[-1][0]}: {what}, the most over the least {max(costs) / min(costs):.3f}")

    most_over_least("time", [time / pages for pages, time, *_ in found])
    if found[0][2]:
        most_over_least("instructions beside signatures and tests", [work / pages for pages, _, work, *_ in found])
        steps = [(work - before) / (pages - fewer) for (fewer, _, before, *_), (pages, _, work, *_) in zip(found, found[1:])]
        few, many = found[0], found[-1]
        each = (many[2] - few[2]) / (many[0] - few[0])
        print(f"a page more: {each:,.0f} such instructions, from step to step the most over the least {max(steps) / min(steps):.3f}; "
              f"a call for none {few[2] - each * few[0]:,.0f}")
        more, size = (many[3] - few[3]) / (many[0] - few[0]), (many[4] - few[4]) / (many[0] - few[0])
        print(f"a page more: {more:.1f} kB of a heap for a text of {size:.1f} kB, {more / size:.2f} times as many")


def main():
    count = int(sys.argv[1]) if len(sys.argv) > 1 else 5
    fed = built()
    with tempfile.TemporaryDirectory() as place:
        texts = Texts(fed, place)
        for size in DEPTHS:
            measured(fed, place, texts, f"a chain of {size} texts", deep(size), count)
        found = [measured(fed, place, texts, f"{size} superiors", wide(size), count) for size in WIDTHS]
        linear(found[WIDTHS.index(LINEAR) :])
        if not shutil.which("valgrind"):
            print("there is no valgrind here, so neither instructions nor memory are counted")


main()
