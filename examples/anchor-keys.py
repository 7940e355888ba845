#!/usr/bin/env python3
"""Seals the text by which a running resolver takes other keys for a trust anchor, which no command of `fed` makes:

    anchor-keys.py RING ANCHOR EPOCH KEYS

RING is the file of a control key's ring, whose newest live key seals; ANCHOR the trust anchor; EPOCH the number of changes that the resolver has
made since it was started; KEYS a file with the anchor's key set from now on. The text goes to standard output, without a line end, for a POST to
the resolver's /anchor-keys. The signature is that of another implementation, in tests/lib/, and takes some ten seconds."""

import json
import os
import subprocess
import sys

sys.dont_write_bytecode = True
sys.path.insert(0, os.path.join(os.path.dirname(os.path.realpath(__file__)), "..", "tests", "lib"))
from sealing import sealed  # noqa: E402

if len(sys.argv) != 5:
    sys.exit("anchor-keys.py RING ANCHOR EPOCH KEYS")
ring, anchor, epoch, keys = sys.argv[1:]
with open(ring, encoding="utf-8") as it:
    seeds = next(key["seeds"] for key in json.load(it)["keys"] if key["state"] == "live")
with open(keys, encoding="utf-8") as it:
    claims = {"anchor": anchor, "epoch": int(epoch), "jwks": json.load(it)}
shown = subprocess.run(["fed", "public", "--ring", ring], stdout=subprocess.PIPE, check=True).stdout
sys.stdout.write(sealed(claims, "anchor-keys+jwt", seeds, json.loads(shown)["keys"][0]))
