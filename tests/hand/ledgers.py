#!/usr/bin/env python3
"""Ledgers beside the one that is lent: what a crate below the program might write, to test a signature on a count of its own, is refused by the
compiler. Each body is put into a small crate over fed_base, which is read by `rt check` as far as no proof is needed; two that may be
written show that the crate is else as it should be.

    tests/hand/ledgers.py

It wants the kit, and a minute. It prints what differs, and fails where anything does.
"""

import os
import re
import shutil
import subprocess
import sys
import tempfile

sys.dont_write_bytecode = True
sys.path.insert(0, f"{os.path.dirname(os.path.dirname(os.path.abspath(__file__)))}/lib")
import laid  # noqa: E402
from laid import TOP, stands_on, tell  # noqa: E402

if {"-h", "--help"} & set(sys.argv[1:]):
    sys.exit(print(__doc__))

HEAD = "//! A crate that counts steps.\n#![tactic(auto)]\n\n"
LENT = "pub fn tested<L: Ledger>(steps: &mut Steps<L>) {\n    steps.ledger.tick();\n}\n"

# what may be written, and what may not with a word of what the compiler says of it
GOOD = {
    "a step on the ledger that is lent": "use fed_base::{Ledger, Steps};\n\n" + LENT,
    "a ledger where a runtime opens one": (
        "use fed_base::{OpensLedgers, Plain, Steps};\n\n"
        "pub fn begun<R: OpensLedgers>(rt: &R) -> Steps<Plain> {\n    Steps {\n        ledger: Plain::new(rt),\n    }\n}\n"
    ),
}
BAD = {
    "a ledger under another name": (
        "use fed_base::Plain as Unread;\nuse fed_base::{Ledger, Steps};\n\n"
        "pub fn tested<L: Ledger>(steps: &mut Steps<L>) {\n    let mut own = Unread::new(&());\n    own.tick();\n    steps.ledger.tick();\n}\n",
        "OpensLedgers",
    ),
    "a ledger of a runtime that may wait alone": (
        "use fed_base::Plain as Unread;\nuse fed_base::Ledger;\nuse std::sync::Wait;\n\n"
        "pub fn tested<R: Wait>(rt: &R) {\n    let mut own = Unread::new(rt);\n    own.tick();\n}\n",
        "OpensLedgers",
    ),
    "a ledger by its parts": (
        "use fed_base::{Ledger, Plain};\n\npub fn tested() {\n    let mut own = Plain { steps: 0 };\n    own.tick();\n}\n",
        "private",
    ),
    "a ledger of another type": (
        "ghost use Rattle.std.specs.Prelude.{zero};\n\nuse fed_base::Ledger;\n\n#[derive(Drop)]\npub struct Own {}\n\n"
        "impl Ledger for Own {\n    ghost count = { λ _. 0 };\n\n    fn tick(&mut self) {}\n}\n",
        "[Ss]eal",
    ),
    "a runtime that opens ledgers": (
        "use fed_base::OpensLedgers;\n\n#[derive(Drop)]\npub struct Own {}\n\nimpl OpensLedgers for Own {}\n",
        "[Ss]eal",
    ),
}


def said_of(place, body):
    """What the kit says of the crate with that body, or nothing where it can be compiled."""
    with open(f"{place}/crates/probe/src/lib.rt", "w", encoding="utf-8") as it:
        it.write(HEAD + body)
    done = subprocess.run(
        ["rt", "check", "--only", ""], cwd=f"{place}/crates/probe", stdin=subprocess.DEVNULL, capture_output=True, text=True, check=False
    )
    said = done.stdout + done.stderr
    return "\n".join(line for line in said.split("\n") if re.search("error|private|Ledger|[Ss]eal", line) and "rt: " not in line[:4])


def main():
    with tempfile.TemporaryDirectory() as place:
        for part in ("src", "specs", "proofs"):
            shutil.copytree(f"{TOP}/crates/fed_base/{part}", f"{place}/crates/fed_base/{part}")
        for part in ("specs", "proofs"):
            os.makedirs(f"{place}/crates/probe/{part}")
            with open(f"{place}/crates/probe/{part}/Lib.antt", "w", encoding="utf-8"):
                pass
        os.makedirs(f"{place}/crates/probe/src")
        with open(f"{place}/crates.txt", "w", encoding="utf-8") as it:
            it.write(f"{stands_on('fed_base')}\nprobe: fed_base\n")
        subprocess.run(["git", "init", "-q", place], check=True)
        for name, body in GOOD.items():
            said = said_of(place, body)
            tell(f"{name}: {said}", not said)
        for name, (body, word) in BAD.items():
            said = said_of(place, body)
            tell(f"{name}: it is taken, or refused for something else: {said}", re.search(word, said))
    print(f"ledgers: {laid.passed} passed, {len(laid.faults)} failed")
    return 1 if laid.faults else 0


sys.exit(main())
