#!/usr/bin/env python3
"""The compressions of SHA-256 that the checks of the texts on standard input take, hash by hash, as this other implementation of the
check of FIPS 205 over hashlib adds them up. The input is one text under the public key that is the first word, or a JSON list of texts,
each under the key that its header names in any of them. A text that doesn't verify ends it with status 1."""
import base64
import hashlib
import json
import sys
from collections import namedtuple

if {"-h", "--help"} & set(sys.argv[1:]):
    sys.exit(print(__doc__))

# FIPS 205 section 11, table 2: layers and the height of each one's trees, height and number of FORS trees, bytes of a digest
Numbers = namedtuple("Numbers", "layers height fors_height fors_trees digest")
SETS = {"SLH-DSA-SHA2-128s": Numbers(7, 9, 12, 14, 30), "SLH-DSA-SHA2-128f": Numbers(22, 3, 6, 33, 34)}
count = 0


def decoded(text):
    return base64.urlsafe_b64decode(text + "=" * (-len(text) % 4))


def blocks(length):
    return (length + 9 + 63) // 64


def sha256(data):
    global count
    count += blocks(len(data))
    return hashlib.sha256(data).digest()


class Check:
    def __init__(self, alg, public):
        global count
        self.set = SETS[alg]
        self.seed, self.root = public[:16], public[16:]
        self.first = hashlib.sha256(self.seed + bytes(48))
        count += 1

    # FIPS 205 section 11.2.1: the address is layer, tree, type and three words
    def hash(self, layer, tree, kind, words, data):
        global count
        address = bytes([layer]) + tree.to_bytes(8, "big") + bytes([kind]) + b"".join(word.to_bytes(4, "big") for word in words)
        after = self.first.copy()
        after.update(address + data)
        count += blocks(len(address) + len(data))
        return after.digest()[:16]

    def climb(self, layer, tree, kind, pair, node, index, path):
        for height, beside in enumerate(path):
            both = beside + node if index >> height & 1 else node + beside
            node = self.hash(layer, tree, kind, (pair, height + 1, index >> height + 1), both)
        return node

    def layer_root(self, layer, tree, leaf, message, signature):
        digits = [nibble for byte in message for nibble in (byte >> 4, byte & 15)]
        total = sum(15 - digit for digit in digits)
        digits += [total >> 8 & 15, total >> 4 & 15, total & 15]
        ends = b""
        for chain, digit in enumerate(digits):
            end = signature[16 * chain : 16 * chain + 16]
            for step in range(digit, 15):
                end = self.hash(layer, tree, 0, (leaf, chain, step), end)
            ends += end
        node = self.hash(layer, tree, 1, (leaf, 0, 0), ends)
        path = [signature[at : at + 16] for at in range(560, len(signature), 16)]
        return self.climb(layer, tree, 2, 0, node, leaf, path)

    def holds(self, message, signature):
        its = self.set
        fors, layer_bytes, tree_bits = its.fors_trees * (its.fors_height + 1) * 16, (35 + its.height) * 16, its.height * (its.layers - 1)
        if len(signature) != 16 + fors + its.layers * layer_bytes:
            return False
        salt, rest = signature[:16], signature[16:]
        inner = sha256(salt + self.seed + self.root + b"\0\0" + message)
        digest = b"".join(sha256(salt + self.seed + inner + at.to_bytes(4, "big")) for at in range((its.digest + 31) // 32))[:its.digest]
        md, behind = (its.fors_trees * its.fors_height + 7) // 8, (its.fors_trees * its.fors_height + 7) // 8 + (tree_bits + 7) // 8
        tree, leaf = int.from_bytes(digest[md:behind], "big") % (1 << tree_bits), int.from_bytes(digest[behind:], "big") % (1 << its.height)
        indices = int.from_bytes(digest[:md], "big") >> 8 * md - its.fors_trees * its.fors_height
        roots = b""
        for number in range(its.fors_trees):
            index = indices >> its.fors_height * (its.fors_trees - 1 - number) & (1 << its.fors_height) - 1
            size = 16 * (its.fors_height + 1)
            piece = rest[size * number : size * (number + 1)]
            at = (number << its.fors_height) + index
            node = self.hash(0, tree, 3, (leaf, 0, at), piece[:16])
            for height in range(its.fors_height):
                beside = piece[16 * height + 16 : 16 * height + 32]
                both = beside + node if at >> height & 1 else node + beside
                node = self.hash(0, tree, 3, (leaf, height + 1, at >> height + 1), both)
            roots += node
        node = self.hash(0, tree, 4, (leaf, 0, 0), roots)
        for layer in range(its.layers):
            node = self.layer_root(layer, tree, leaf, node, rest[fors + layer_bytes * layer : fors + layer_bytes * (layer + 1)])
            tree, leaf = tree >> its.height, tree % (1 << its.height)
        return node == self.root


given = sys.stdin.read().strip()
texts = json.loads(given) if given.startswith("[") else [given]
keys = {}
if texts[0] != given:
    for text in texts:
        for key in json.loads(decoded(text.split(".")[1]))["jwks"]["keys"]:
            keys[key["kid"], key["alg"]] = key["pub"]
for text in texts:
    message, signature = text.rsplit(".", 1)
    header = json.loads(decoded(message.split(".")[0]))
    public = keys[header["kid"], header["alg"]] if keys else sys.argv[1]
    if not Check(header["alg"], decoded(public)).holds(message.encode(), decoded(signature)):
        sys.exit(1)
print(count)
