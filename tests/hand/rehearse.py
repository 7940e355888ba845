#!/usr/bin/env python3
"""Every rehearsal that there is. `fed rehearse` is told a number from 0 to 200 and takes nothing else in: no input, file, network or clock. So these
201 runs, with ample memory, are all that it can do: each has to write the six lines and nothing more, and to end with status 0.

    tests/hand/rehearse.py [--program PATH]

The runs share the processors. It takes some minutes, and isn't part of the gate.
"""

import argparse
import multiprocessing
import os
import subprocess
import sys

sys.dont_write_bytecode = True
sys.path.insert(0, f"{os.path.dirname(os.path.dirname(os.path.abspath(__file__)))}/lib")
from program import chosen  # noqa: E402

MOST, PATIENCE = 200, 300


def lines_of(params):
    """The six lines: the chain is as long as the federation is deep, each of the seven pages is asked for once, and the seven signatures are tested
    once: of the four configurations each by its own keys or, of the anchor's, by those that are known, and of the statements each by its issuer's."""
    last = f'["a{params - 1}","b"]' if params else "-"
    return f"params {params}\nchain 5\nlink calls 7 0\nchecks 7 0\nlast {last}\nvalid\n"


def rehearsed(params):
    """What is amiss with one run, or nothing."""
    try:
        done = subprocess.run([options.program, "rehearse", "--params", str(params)], stdin=subprocess.DEVNULL, capture_output=True, timeout=PATIENCE,
                              check=False, text=True)
    except subprocess.TimeoutExpired:
        return f"{params}: no end within {PATIENCE} seconds"
    got = done.returncode, done.stdout, done.stderr
    return None if got == (0, lines_of(params), "") else f"{params}: {got}"


def main():
    with multiprocessing.get_context("fork").Pool(len(os.sched_getaffinity(0))) as workers:
        amiss = [it for it in workers.imap_unordered(rehearsed, range(MOST + 1)) if it]
    for it in amiss:
        print(f"rehearse: {it}", file=sys.stderr)
    print(f"rehearse: {MOST + 1 - len(amiss)} passed, {len(amiss)} failed")
    return 1 if amiss else 0


options = chosen(argparse.ArgumentParser(description=__doc__, formatter_class=argparse.RawDescriptionHelpFormatter))
sys.exit(main())
