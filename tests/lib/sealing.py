"""Seals texts that the program's commands don't seal, by another implementation: the signatures of FIPS 205 over hashlib."""

import base64
import hashlib
import hmac
import json
from collections import namedtuple

SMALL, FAST = "SLH-DSA-SHA2-128s", "SLH-DSA-SHA2-128f"
# the layers of the hypertree and the height of each of its trees, the height and the number of FORS trees, and the bytes of a digest (section 11, table 2)
Numbers = namedtuple("Numbers", "layers height fors_height fors_trees digest")
SETS = {SMALL: Numbers(7, 9, 12, 14, 30), FAST: Numbers(22, 3, 6, 33, 34)}
SIGNATURE = {SMALL: 7856, FAST: 17088}
WOTS_HASH, WOTS_PK, TREE, FORS_TREE, FORS_ROOTS, WOTS_PRF, FORS_PRF = range(7)


def encoded(data):
    return base64.urlsafe_b64encode(data).decode().rstrip("=")


def decoded(text):
    return base64.urlsafe_b64decode(text + "=" * (-len(text) % 4))


class Signer:
    """A key of one of the sets: the seeds of SK.seed, SK.prf and PK.seed, and the root of the public key (sections 9 and 11.2.1)."""

    def __init__(self, alg, seeds):
        self.set = SETS[alg]
        self.secret, self.salt, self.seed = seeds[:16], seeds[16:32], seeds[32:]
        self.first = hashlib.sha256(self.seed + bytes(48))
        _, self.root = self.path(self.set.layers - 1, 0, TREE, 0, self.leaves(self.set.layers - 1, 0), 0, 0)

    def hash(self, layer, tree, kind, words, data):
        after = self.first.copy()
        after.update(bytes([layer]) + tree.to_bytes(8, "big") + bytes([kind]) + b"".join(word.to_bytes(4, "big") for word in words) + data)
        return after.digest()[:16]

    def chain(self, layer, tree, leaf, number, steps):
        node = self.hash(layer, tree, WOTS_PRF, (leaf, number, 0), self.secret)
        for step in range(steps):
            node = self.hash(layer, tree, WOTS_HASH, (leaf, number, step), node)
        return node

    def leaf(self, layer, tree, leaf):
        ends = b"".join(self.chain(layer, tree, leaf, number, 15) for number in range(35))
        return self.hash(layer, tree, WOTS_PK, (leaf, 0, 0), ends)

    def leaves(self, layer, tree):
        return [self.leaf(layer, tree, at) for at in range(1 << self.set.height)]

    def path(self, layer, tree, kind, pair, nodes, index, first):
        """The nodes beside the way from the leaf of that index up, and the root. `first` is the number of the first leaf."""
        beside = []
        height = 0
        while len(nodes) > 1:
            beside.append(nodes[index ^ 1])
            height += 1
            index >>= 1
            first >>= 1
            nodes = [self.hash(layer, tree, kind, (pair, height, first + at), nodes[2 * at] + nodes[2 * at + 1]) for at in range(len(nodes) // 2)]
        return b"".join(beside), nodes[0]

    def layer_signature(self, layer, tree, leaf, message):
        digits = [nibble for byte in message for nibble in (byte >> 4, byte & 15)]
        total = sum(15 - digit for digit in digits)
        digits += [total >> 8 & 15, total >> 4 & 15, total & 15]
        own = b"".join(self.chain(layer, tree, leaf, number, digit) for number, digit in enumerate(digits))
        path, root = self.path(layer, tree, TREE, 0, self.leaves(layer, tree), leaf, 0)
        return own + path, root

    def sign(self, message):
        message = b"\0\0" + message
        salt = hmac.digest(self.salt, self.seed + message, "sha256")[:16]
        inner = hashlib.sha256(salt + self.seed + self.root + message).digest()
        blocks = b"".join(hashlib.sha256(salt + self.seed + inner + counter.to_bytes(4, "big")).digest() for counter in range(2))
        indices, tree, leaf = self.split(blocks[:self.set.digest])
        parts, roots = [salt], b""
        for number, index in enumerate(indices):
            first = number << self.set.fors_height
            secrets = [self.hash(0, tree, FORS_PRF, (leaf, 0, first + at), self.secret) for at in range(1 << self.set.fors_height)]
            nodes = [self.hash(0, tree, FORS_TREE, (leaf, 0, first + at), secret) for at, secret in enumerate(secrets)]
            path, root = self.path(0, tree, FORS_TREE, leaf, nodes, index, first)
            parts += [secrets[index], path]
            roots += root
        node = self.hash(0, tree, FORS_ROOTS, (leaf, 0, 0), roots)
        for layer in range(self.set.layers):
            part, node = self.layer_signature(layer, tree, leaf, node)
            parts.append(part)
            tree, leaf = tree >> self.set.height, tree % (1 << self.set.height)
        return b"".join(parts)

    def split(self, digest):
        """The indices of a digest's FORS part, its tree and its leaf (Algorithm 19, lines 6 to 10)."""
        its = self.set
        tree_bits, fors_bits = its.height * (its.layers - 1), its.fors_height * its.fors_trees
        fors, tree = (fors_bits + 7) // 8, (tree_bits + 7) // 8
        number = int.from_bytes(digest[:fors], "big") >> 8 * fors - fors_bits
        indices = [number >> its.fors_height * (its.fors_trees - 1 - at) & (1 << its.fors_height) - 1 for at in range(its.fors_trees)]
        tree_at, leaf = int.from_bytes(digest[fors:fors + tree], "big"), int.from_bytes(digest[fors + tree:], "big")
        return indices, tree_at % (1 << tree_bits), leaf % (1 << its.height)


def key_of(alg, seeds):
    """The JWK of the key of these 96 hexadecimal digits, whose name is its thumbprint (RFC 7638)."""
    signer = Signer(alg, bytes.fromhex(seeds))
    members = {"alg": alg, "kty": "AKP", "pub": encoded(signer.seed + signer.root)}
    named = hashlib.sha256(json.dumps(members, separators=(",", ":")).encode()).digest()
    return {"alg": alg, "kid": encoded(named), "kty": "AKP", "pub": members["pub"]}


def sealed(claims, typ, seeds, key):
    """The claims as a text of that type, sealed by the key of these 96 hexadecimal digits, whose public key is the JWK."""
    signer = Signer(key["alg"], bytes.fromhex(seeds))
    if signer.seed + signer.root != decoded(key["pub"]):
        raise ValueError("the seeds aren't those of the public key")
    return sealed_by(signer, {"alg": key["alg"], "kid": key["kid"], "typ": typ}, claims)


def sealed_by(signer, header, claims):
    message = ".".join(encoded(json.dumps(part, separators=(",", ":")).encode()) for part in (header, claims))
    return f"{message}.{encoded(signer.sign(message.encode()))}"
