"""Changes of good bytes, texts and trees, each drawn from a stream of random numbers. What a change means isn't said here: rules.py reads
what came of it."""

import base64
import json

# numbers at the limits of what a moment, an integer of 64 bits and a double are, and what is no number
NUMBERS = [
    b"0", b"1", b"-1", b"-0", b"59", b"60", b"61", b"65535", b"65536", b"4294967295", b"4294967296", b"4611686018427387903",
    b"4611686018427387904", b"9223372036854775807", b"9223372036854775808", b"-9223372036854775808", b"-9223372036854775809",
    b"18446744073709551615", b"18446744073709551616", b"9" * 308, b"9" * 309, b"1" * 5000, b"0.5", b"1.0", b"1e0", b"1E2", b"1e308",
    b"1e309", b"-1e309", b"1e-400", b"0e99999999999999999999", b"00", b"01", b"1.", b".5", b"+1", b"-", b"1e", b"0x10", b"1_000",
    b"NaN", b"-Infinity", "\u0661".encode(), b"1\x00",
]
# what is put between other bytes
PIECES = [
    b"\x00", b"\x01", b"\x1b[31m", b"\x7f", b"\xff", b"\xc0\x80", b"\xed\xa0\x80", b"\xf4\x90\x80\x80", b"\xef\xbb\xbf", b"\xe2\x80\xae",
    b"\\ud800", b"\\udc00\\ud800", b"\\u0000", b"\\x00", b"\r\n", b"\n", b"\r", b"\t", b" ", b"=", b"==", b"+", b"/", b"-", b"_", b".", b"..", b"...",
    b"[", b"]", b"{", b"}", b'"', b"\\", b",", b":", b"%", b"%00", b"%zz", b"&", b"?", b"#", b"@", b"null", b"true", b"1e9", b'"a":1,', b'{"":{}}',
    b"A", b"AAAA", b"eyJ", b"\xe9", "\u00e9".encode(), "\U0001f600".encode(),
]
NAMES = ["iss", "sub", "iat", "exp", "jwks", "keys", "kid", "kty", "alg", "pub", "crit", "metadata", "metadata_policy", "metadata_policy_crit",
         "constraints", "authority_hints", "trust_marks", "trust_mark_issuers", "trust_mark_owners", "priv", "value", "add", "", "\u0000", "a" * 300]
LETTERS = b"ABCDEFGHIJKLMNOPQRSTUVWXYZabcdefghijklmnopqrstuvwxyz0123456789-_"


class Raw(bytes):
    """A value of a tree that is written as it is."""


class Pairs(list):
    """An object as its members, of which two may have one name."""


# ---- bytes

def place(rng, data):
    return rng.randrange(len(data) + 1)


def span(rng, data):
    """Two places in the data, mostly near to each other."""
    begin = place(rng, data)
    length = rng.choice([1, 1, 2, 3, 4, 8, 16, 43, 100, 1000, len(data)])
    return begin, min(len(data), begin + rng.randrange(length + 1))


def cut(rng, data):
    begin, end = sorted((place(rng, data), place(rng, data)))
    return rng.choice([data[:begin], data[end:], data[begin:end], data[:-1], data[1:]])


def taken_out(rng, data):
    begin, end = span(rng, data)
    return data[:begin] + data[end:]


def repeated(rng, data):
    begin, end = span(rng, data)
    times = rng.choice([1, 1, 1, 2, 3, 100]) if end - begin > 200 else rng.choice([1, 2, 10, 1000])
    return data[:end] + data[begin:end] * times + data[end:]


def exchanged(rng, data):
    places = sorted(place(rng, data) for _ in range(4))
    a, b, c, d = places
    return data[:a] + data[c:d] + data[b:c] + data[a:b] + data[d:]


def put_in(rng, data):
    at = place(rng, data)
    return data[:at] + rng.choice(PIECES) + data[at:]


def put_over(rng, data):
    at, piece = place(rng, data), rng.choice(PIECES)
    return data[:at] + piece + data[at + len(piece):]


def turned(rng, data):
    """One bit is another."""
    if not data:
        return b"\x80"
    at = rng.randrange(len(data))
    return data[:at] + bytes([data[at] ^ 1 << rng.randrange(8)]) + data[at + 1:]


def other_byte(rng, data):
    if not data:
        return b"\x00"
    at = rng.randrange(len(data))
    return data[:at] + bytes([rng.randrange(256)]) + data[at + 1:]


def lengthened(rng, data):
    at = place(rng, data)
    run = rng.choice([b"a", b"A", b" ", b"\x00", b"[", b"{\"a\":", b".", b"\xff", b"9", b"\r\n"])
    return data[:at] + run * rng.choice([10, 100, 127, 128, 1000, 10000]) + data[at:]


OF_BYTES = [cut, taken_out, repeated, exchanged, put_in, put_in, put_over, turned, turned, other_byte, lengthened]


def of_bytes(rng, data):
    """One change or a few of these bytes."""
    for _ in range(rng.choice([1, 1, 1, 1, 2, 3])):
        data = rng.choice(OF_BYTES)(rng, data)
    return data


# ---- base64url

def encoded(data):
    return base64.urlsafe_b64encode(data).rstrip(b"=")


def decoded(part):
    return base64.urlsafe_b64decode(part + b"=" * (-len(part) % 4))


def wrong_base64(rng, part):
    """A part that is mostly no canonical base64url."""
    if not part:
        return rng.choice([b"=", b"A", b"#"])
    at, kind = rng.randrange(len(part)), rng.randrange(9)
    if kind == 0:
        return part + b"=" * rng.randrange(1, 4)
    if kind == 1:
        return part[:at] + rng.choice([b"\n", b"\r\n", b" ", b"\t"]) + part[at:]
    if kind == 2:
        return part.replace(b"-", b"+").replace(b"_", b"/")
    if kind == 3:                                            # bits that are left over
        return part[:-1] + LETTERS[(LETTERS.find(part[-1:]) + rng.randrange(1, 16)) % 64:][:1]
    if kind == 4:
        return part[:at] + part[at + 1:]
    if kind == 5:
        return part[:at] + bytes([rng.choice(b"=+/#.%~\x00\x80\xff")]) + part[at + 1:]
    if kind == 6:
        return part + bytes([rng.choice(LETTERS)]) * rng.choice([1, 2, 3, 4])
    if kind == 7:
        return part[:at] + bytes([rng.choice(LETTERS)]) + part[at + 1:]
    return part[:at]


# ---- trees

def deep(rng):
    """A value that nests deeply, near the depth that reads."""
    levels = rng.choice([20, 100, 120, 122, 123, 124, 125, 126, 127, 128, 129, 200, 1000, 20000])
    kind = rng.randrange(3)
    if kind == 0:
        return Raw(b"[" * levels + b"]" * levels)
    if kind == 1:
        return Raw(b'{"a":' * levels + b"0" + b"}" * levels)
    return Raw(b'[{"a":' * (levels // 2) + b"[]" * (levels % 2) + b"0" * (1 - levels % 2) + b"}]" * (levels // 2))


def long_text(rng):
    return rng.choice(["a", "\u00e9", "\\", "\"", "\u0000", "https://a.example/", "."]) * rng.choice([100, 300, 2048, 2049, 8000])


def other_text(rng, text):
    """A text near this one."""
    kind = rng.randrange(14)
    if kind == 0:
        return text + rng.choice(["/", "?", "#", " ", "\u0000", ".", "a", "\n", ":443", "\u00e9"])
    if kind == 1:
        return text.upper() if rng.random() < .5 else text.title()
    if kind == 2:
        return text[:-1]
    if kind == 3 and text:
        at = rng.randrange(len(text))
        return text[:at] + rng.choice("abzAZ09-._~/:@?#%\\ \u0000\u007f\u0080\u20ac") + text[at + 1:]
    if kind == 4:
        return text.replace("https", "http") if "https" in text else "https://" + text
    if kind == 5:
        return text.replace("e", "%65", 1)
    if kind == 6:
        return text.replace(".", "\u3002", 1)
    if kind == 7:
        return text * 2
    if kind == 8:
        return long_text(rng)
    if kind == 9:
        return rng.choice(["", " ", "\u0000", "\ud800", "\uffff", "\U0010ffff", "https://", "https://a.example", "http://[::1]/", "https://1.2.3.4",
                           "https://a.example:99999", "https://xn--a.example", "true", "null", "0"])
    if kind == 10:
        return rng.choice(NAMES)
    if kind == 11:
        return text[::-1]
    if kind == 12:
        return " " + text
    return text.replace("a", "\u0430", 1)


def value(rng, node):
    """A value in place of this one."""
    kind = rng.randrange(16)
    if isinstance(node, Pairs):
        node = dict(node)
    if kind < 4:
        return Raw(rng.choice(NUMBERS))
    if kind == 4:
        return deep(rng)
    if kind == 5:
        return rng.choice([None, True, False, [], {}, "", [[]], [{}], {"": None}, [None]])
    if kind == 6:
        return [node]
    if kind == 7:
        return {rng.choice(NAMES): node}
    if kind == 8:
        return [node] * rng.choice([2, 10, 33, 65])
    if kind == 9:
        return written(node).decode("utf-8", "replace") if isinstance(node, (dict, list, int)) else [node, node]
    if isinstance(node, bool) or node is None:
        return rng.choice([not node, 0, "true"])
    if isinstance(node, int):
        return rng.choice([node + 1, node - 1, -node, node * 1000, node ^ 1 << rng.randrange(63), str(node), Raw(b"%d.0" % node), Raw(b"%de0" % node)])
    if isinstance(node, str):
        return other_text(rng, node)
    if isinstance(node, list) and node:
        return rng.choice([node[::-1], node[1:], node + node[:1], node + [Raw(rng.choice(NUMBERS))], node[:-1]])
    return long_text(rng) if kind == 15 else {"value": node}


def of_object(rng, node):
    """An object in which one member is gone, has another name or value, or stands twice."""
    name = rng.choice(list(node))
    held, kind = node[name], rng.randrange(20)
    if kind == 0:
        return {its: value_of for its, value_of in node.items() if its != name}
    if kind == 1:
        members = list(node.items())
        members.insert(rng.randrange(len(members) + 1), (name, rng.choice([value(rng, held), held])))
        return Pairs(members)
    if kind == 2:
        return Pairs((rng.choice(NAMES) if its == name else its, value_of) for its, value_of in node.items())
    if kind == 3:
        return Pairs([*node.items(), (rng.choice(NAMES), value(rng, held))])
    if kind == 4:
        members = list(node.items())
        rng.shuffle(members)
        return Pairs(members)
    return {**node, name: of_tree(rng, held)}


def of_tree(rng, node):
    """The tree with a change at one place."""
    if isinstance(node, Pairs) or rng.random() < .15:
        return value(rng, node)
    if isinstance(node, dict) and node:
        return of_object(rng, node)
    if isinstance(node, list) and node:
        at, kind = rng.randrange(len(node)), rng.randrange(12)
        if kind == 0:
            return node[:at] + node[at + 1:]
        if kind == 1:
            return node[:at] + [node[at]] * 2 + node[at + 1:]
        if kind == 2:
            return node[:at] + [value(rng, node[at])] + node[at:]
        return node[:at] + [of_tree(rng, node[at])] + node[at + 1:]
    return value(rng, node)


def some_of_tree(rng, node):
    for _ in range(rng.choice([1, 1, 1, 2, 3])):
        node = of_tree(rng, node)
    return node


# ---- trees as bytes

def quoted(text, loose=None):
    if loose is not None and loose.random() < .1:
        return b'"' + b"".join(b"\\u%04x" % unit for unit in units(text)) + b'"'
    return json.dumps(text, ensure_ascii=False).encode("utf-8", "surrogatepass")


def units(text):
    data = text.encode("utf-16-be", "surrogatepass")
    return [data[at] << 8 | data[at + 1] for at in range(0, len(data), 2)]


def space(loose):
    return b"" if loose is None or loose.random() < .9 else loose.choice([b" ", b"\n", b"\t", b"\r\n", b"  "])


def written(node, loose=None):
    """The tree as JSON, compact or, where there is a stream of random numbers for it, with spaces and escapes here and there."""
    if isinstance(node, Raw):
        return bytes(node)
    if isinstance(node, str):
        return quoted(node, loose)
    if isinstance(node, (dict, Pairs)):
        members = node.items() if isinstance(node, dict) else node
        inner = b",".join(space(loose) + quoted(name, loose) + space(loose) + b":" + written(held, loose) for name, held in members)
        return b"{" + inner + space(loose) + b"}"
    if isinstance(node, list):
        return b"[" + b",".join(space(loose) + written(held, loose) + space(loose) for held in node) + b"]"
    return json.dumps(node).encode()
