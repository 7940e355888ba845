#!/usr/bin/env python3
"""Runs the gate from nothing and shows what each crate cost of it, in processor minutes.

    tests/hand/gate-times.py            runs `rt ci` at the top, from nothing, prints the table, and writes it to docs/proofs/GATE.md
    tests/hand/gate-times.py WORD ..    runs `rt ci WORD ..` instead, and prints its table alone

A table on standard output has for each crate its proof, its tests, the whole check that its edits begin with, its edits and its builds.
Below it stand the edits whose refusal shows little of a contract: a proof misses a name, or the prover met a limit. What the gate says goes
to the file out/gate.log. The times are those of the prover's and the compiler's processes, read from /proc twice a second, so that each
process counts up to half a second short. It ends with the gate's status. Run it on a machine where nothing else runs.
"""

import os
import re
import subprocess
import sys
import time

if {"-h", "--help"} & set(sys.argv[1:]):
    sys.exit(print(__doc__))

TOP = os.path.dirname(os.path.dirname(os.path.dirname(os.path.abspath(__file__))))
TICKS = os.sysconf("SC_CLK_TCK")
KINDS = ("proof", "tests", "seed", "edits", "builds")
HEADS = {"proof": "Proof", "tests": "Tests", "seed": "Check before edits", "edits": "Edits", "builds": "Builds"}
PAGE = f"{TOP}/docs/proofs/GATE.md"
# the folders over which a crate's edits are checked one behind the other, the first of them from nothing
begun = set()


def read(path):
    try:
        with open(path, "rb") as it:
            return it.read()
    except OSError:
        return b""


def processes():
    """Gives each running process: its number, its parent's, and its processor time in seconds."""
    for number in filter(str.isdigit, os.listdir("/proc")):
        fields = read(f"/proc/{number}/stat").rpartition(b")")[2].split()
        if len(fields) > 12:
            yield int(number), int(fields[1]), (int(fields[11]) + int(fields[12])) / TICKS


def kind_of(number):
    """Says which crate a prover's or compiler's process works for, and on what; None of any other process."""
    words = read(f"/proc/{number}/cmdline").decode("utf-8", "replace").split("\0")
    try:
        place = os.readlink(f"/proc/{number}/cwd")
    except OSError:
        return None
    if os.path.basename(words[0]) == "rattle" and "--crate-name" in words:
        crate = words[words.index("--crate-name") + 1]
        if "/rt-edit-" in place:
            over = words[words.index("--incremental") + 1] if "--incremental" in words else ""
            is_first = os.path.basename(over).startswith("rt-edits-") and over not in begun
            begun.add(over)
            return crate, "seed" if is_first or over.endswith("/seed") else "edits"
        if "--crate-checked" in words:
            return crate, "builds"
        return crate, "tests" if "--test" in words else "proof"
    at = re.search(r"/crates/([a-z_0-9]+)", place)
    if at and re.match(r"(clang|ld|llc|opt|rattle-)", os.path.basename(words[0])):
        return at[1], "builds"
    return None


def sample(top, seen):
    """Adds what each process below the gate has used so far."""
    running = list(processes())
    children = {}
    for number, parent, _ in running:
        children.setdefault(parent, []).append(number)
    below, reached = [top], set()
    while below:
        number = below.pop()
        reached.add(number)
        below += children.get(number, [])
    for number, _, used in running:
        if number in reached:
            known = seen.get(number)
            kind = known[0] if known else kind_of(number)
            if kind:
                seen[number] = kind, used


def from_nothing():
    """The words by which the kit's gate begins from nothing: none where it always does."""
    said = subprocess.run(["rt", "help"], stdin=subprocess.DEVNULL, stdout=subprocess.PIPE, stderr=subprocess.STDOUT).stdout
    return ["--anew"] if b"--anew" in said else []


def write_page(lines):
    """Puts the table into its page, in the place of the one that is there."""
    page = read(PAGE).decode()
    there = re.search(r"^\| Crate \|.*?^All of it took [^\n]*$", page, re.M | re.S)
    with open(PAGE, "w", encoding="utf-8") as it:
        it.write(page[: there.start()] + "\n".join(lines) + page[there.end() :])


def main():
    words = sys.argv[1:] or from_nothing()
    os.makedirs(f"{TOP}/out", exist_ok=True)
    seen, began = {}, time.time()
    with open(f"{TOP}/out/gate.log", "w", encoding="utf-8") as log:
        gate = subprocess.Popen(["rt", "ci", *words], cwd=TOP, stdin=subprocess.DEVNULL, stdout=log, stderr=subprocess.STDOUT)
        done = []
        while gate.poll() is None:
            gone = [it for it in seen if not os.path.isdir(f"/proc/{it}")]
            done += [seen.pop(it) for it in gone]
            sample(gate.pid, seen)
            time.sleep(0.5)
    table = {}
    for (crate, kind), used in [*done, *seen.values()]:
        row = table.setdefault(crate, dict.fromkeys(KINDS, 0.0))
        row[kind] += used / 60
    rows = sorted(table.items(), key=lambda it: -sum(it[1].values()))
    rows.append(("all", {kind: sum(row[kind] for _, row in rows) for kind in KINDS}))
    # no crate has tests of its own where the whole is told
    kinds = [it for it in KINDS if rows[-1][1][it] or it != "tests"]
    lines = ["| Crate | " + " | ".join(HEADS[it] for it in kinds) + " | All |", "|---" * (len(kinds) + 2) + "|"]
    for crate, row in rows:
        cells = " | ".join(f"{row[kind]:.1f}" for kind in kinds)
        lines.append(f"| `{crate}` | {cells} | {sum(row.values()):.1f} |")
    print("\n".join(lines))
    said = read(f"{TOP}/out/gate.log").decode("utf-8", "replace")
    for line in said.split("\n"):
        if "refused, as it must be (only" in line:
            print(f"\n{line[:200]}")
    last = said.rstrip().rpartition("\n")[2]
    took = f"{(time.time() - began) / 60:.0f} minutes on {len(os.sched_getaffinity(0))} processors"
    print(f"\n{last}; {took}")
    if not sys.argv[1:] and gate.returncode == 0:
        lines.append(f"\nAll of it took {took}.")
        write_page(lines)
    return gate.returncode


sys.exit(main())
