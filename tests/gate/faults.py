#!/usr/bin/env python3
"""Configurations that aren't read, one a row: the sentence with the place and what must stand there, the same at `fed check-config` and where
a node is opened, by `authority`, `resolver`, `resolve` or `register`; output and status are those of any such configuration. It prints what
differs, and fails where anything does.
"""

import copy
import json
import os
import subprocess
import sys
import tempfile

sys.dont_write_bytecode = True
sys.path.insert(0, f"{os.path.dirname(os.path.dirname(os.path.abspath(__file__)))}/lib")
from laid import TOP, free_port  # noqa: E402
from program import Rows, ring, run  # noqa: E402

AT, END = 1700000000, 4000000000
TA, RP, IM, OP = "https://ta.example", "https://rp.example", "https://im.example", "https://op.example"
ROWS = Rows("faults")
ODD = "a number with a fraction, an exponent or too many digits"
ID = "an identifier, a URL as https://ta.example without ?, # and @"
SET = 'a key set, {"keys":[..]}'
LIFETIME = "a whole number from 60 to 31536000"
ABSENT = object()                     # the member is taken away


def changed(config, path, value):
    """Gives the configuration with another value at the place, or without it."""
    if not path:
        return value
    config = copy.deepcopy(config)
    *steps, last = path
    at = config
    for step in steps:
        at = at[step]
    if value is ABSENT:
        del at[last]
    else:
        at[last] = value
    return config


def opened(config):
    """How a node of that file is opened: each command that does."""
    port = str(free_port())
    if "resolver" in config:
        return [["resolver", "--config", "c.json", "--port", port, "--connections", "1"],
                ["resolve", "--config", "c.json", "--sub", RP, "--anchor", TA]]
    return [["authority", "--config", "c.json", "--port", port, "--connections", "1"]]


def told(row, text, sentence, words, status=1):
    """Compares what is said of the file at the check and where the node is opened."""
    with open("c.json", "wb") as it:
        it.write(text)
    said = f"fed: {sentence}\n"
    ROWS.compare(f"{row}, checked", run(["check-config", "--config", "c.json", "--at", str(AT + 1)]), (status, words, said))
    ROWS.compare(f"{row}, quietly", run(["check-config", "--config", "c.json", "--at", str(AT + 1)], FED_QUIET="1"), (status, words, ""))
    for command in opened(text.decode("latin-1")):
        status, out, err = run(command)
        # what states too much is seen with the ring alone, behind the line of its start
        err = "".join(line for line in err.splitlines(True) if " TooLong" not in words or " starts on " not in line)
        ROWS.compare(f"{row}, {command[0]}", (status, out, err), (2, "input\n", said))


def faulty(config, path, value, sentence):
    """A configuration with that value at the place."""
    member = path[0] if path else "entity_id"
    told(f"{path} {str(value)[:60]}", json.dumps(changed(config, path, value)).encode(), f"c.json: {sentence}", f"refused {member} Shape\n")


def must(place, form, found):
    return f"{place} must be {form}, and is {found}"


def missing(place, form):
    return f"the member {place} is missing; it must be {form}"


def check_members(config):
    marks = "a list of objects with the texts trust_mark_type and trust_mark"
    for path, value, sentence in [
        ((), [], must("a node's configuration", "an object with entity_id, ring and lifetime", "a list")),
        ((), 7, must("a node's configuration", "an object with entity_id, ring and lifetime", "7")),
        (("entity_id",), ABSENT, missing("entity_id", ID)),
        (("entity_id",), "ta.example", must("entity_id", ID, '"ta.example"')),
        (("entity_id",), f"{TA}?x", must("entity_id", ID, f'"{TA}?x"')),
        (("entity_id",), None, must("entity_id", ID, "null")),
        (("ring",), ABSENT, missing("ring", "a text, the name of the key ring's file")),
        (("ring",), ["ta.ring"], must("ring", "a text, the name of the key ring's file", "a list")),
        (("lifetime",), ABSENT, missing("lifetime", LIFETIME)),
        (("lifetime",), 59, must("lifetime", LIFETIME, "59")),
        (("lifetime",), 31536001, must("lifetime", LIFETIME, "31536001")),
        (("lifetime",), -1, must("lifetime", LIFETIME, "-1")),
        (("lifetime",), "3600", must("lifetime", LIFETIME, '"3600"')),
        (("lifetime",), 3600.5, must("lifetime", LIFETIME, ODD)),
        (("lifetime",), True, must("lifetime", LIFETIME, "true")),
        (("lifetime",), {}, must("lifetime", LIFETIME, "an object")),
        (("metadata",), [], must("metadata", "an object from entity type to parameters", "a list")),
        (("metadata",), {"federation_entity": 1}, must("metadata.federation_entity", "an object of parameters", "1")),
        (("metadata",), {"openid_provider": {"issuer": None}}, must("metadata.openid_provider.issuer", "a value", "null")),
        (("metadata",), {"a": {"b": [1, {"c": 1.5}]}}, must("metadata.a.b[1].c", "a whole number from -2^63 to 2^64 - 1", ODD)),
        (("authority_hints",), TA, must("authority_hints", "a list of 1 to 32 identifiers", f'"{TA}"')),
        (("authority_hints",), [], "authority_hints must be a list of 1 to 32 identifiers, and has 0"),
        (("authority_hints",), [f"https://a{i}.example" for i in range(33)], "authority_hints must be a list of 1 to 32 identifiers, and has 33"),
        (("authority_hints",), [IM, "im"], must("authority_hints[1]", ID, '"im"')),
        (("trust_marks",), {}, must("trust_marks", marks, "an object")),
        (("trust_marks",), ["x"], must("trust_marks[0]", "an object with the texts trust_mark_type and trust_mark", '"x"')),
        (("trust_marks",), [{"trust_mark": "x"}], missing("trust_marks[0].trust_mark_type", "a text")),
        (("trust_marks",), [{"trust_mark_type": "t", "trust_mark": 1}], must("trust_marks[0].trust_mark", "a text", "1")),
        (("trust_mark_issuers",), [], must("trust_mark_issuers", "an object from type of trust marks to a list of texts", "a list")),
        (("trust_mark_issuers",), {"t": TA}, must("trust_mark_issuers.t", "a list of texts", f'"{TA}"')),
        (("trust_mark_issuers",), {"t": [TA, 2]}, must("trust_mark_issuers.t[1]", "a text", "2")),
        (("trust_mark_owners",), {"t": []}, must("trust_mark_owners.t", "an object with sub and jwks", "a list")),
        (("trust_mark_owners",), {"t": {"sub": "o"}}, must("trust_mark_owners.t.sub", ID, '"o"')),
        (("trust_mark_owners",), {"t": {"sub": TA}}, missing("trust_mark_owners.t.jwks", SET)),
        (("revoked_marks",), "x", must("revoked_marks", "a list of texts", '"x"')),
        (("revoked_marks",), [None], must("revoked_marks[0]", "a text", "null")),
    ]:
        faulty(config, path, value, sentence)


def check_subordinates(config, key):
    first = ("subordinates", 0)
    one = config["subordinates"][0]
    listed = "a list of at most 10000 objects with entity_id and jwks"
    for path, value, sentence in [
        (("subordinates",), {}, must("subordinates", listed, "an object")),
        (first, RP, must("subordinates[0]", "an object with entity_id and jwks", f'"{RP}"')),
        ((*first, "entity_id"), ABSENT, missing("subordinates[0].entity_id", ID)),
        ((*first, "entity_id"), "rp", must("subordinates[0].entity_id", ID, '"rp"')),
        ((*first, "entity_id"), TA, "subordinates[0].entity_id is the node's own, which isn't below itself"),
        (("subordinates",), [one, {**one, "entity_id": IM}, one], "subordinates[2].entity_id is that of subordinates[0] again; each stands once"),
        (("subordinates",), [{**one, "entity_id": f"https://e{i}.example"} for i in range(18)][:17] + [{**one, "jwks": []}],
         must("subordinates[17].jwks", SET, "a list")),
        ((*first, "entity_types"), RP, must("subordinates[0].entity_types", "a list of texts", f'"{RP}"')),
        ((*first, "mark_types"), [1], must("subordinates[0].mark_types[0]", "a text", "1")),
        ((*first, "intermediate"), "no", must("subordinates[0].intermediate", "true or false", '"no"')),
        ((*first, "metadata"), {"a": {"b": None}}, must("subordinates[0].metadata.a.b", "a value", "null")),
    ]:
        faulty(config, path, value, sentence)


def check_keys(config, key):
    keys = ("subordinates", 0, "jwks")
    at = "subordinates[0].jwks"
    for path, value, sentence in [
        (keys, ABSENT, missing(at, SET)),
        (keys, "x", must(at, SET, '"x"')),
        (keys, key, must(at, SET, "one key")),
        (keys, {}, must(at, SET, "an object")),
        ((*keys, "keys"), {}, must(f"{at}.keys", "a list of at most 64 keys", "an object")),
        ((*keys, "keys"), [{"kty": "RSA", "kid": str(i)} for i in range(65)], f"{at}.keys must be a list of at most 64 keys, and has 65"),
        ((*keys, "keys", 0), "x", must(f"{at}.keys[0]", "an object, a key", '"x"')),
        ((*keys, "keys", 0, "kty"), ABSENT, missing(f"{at}.keys[0].kty", "a text")),
        ((*keys, "keys", 0, "kid"), ABSENT, missing(f"{at}.keys[0].kid", "a text that isn't empty")),
        ((*keys, "keys", 0, "kid"), "", must(f"{at}.keys[0].kid", "a text that isn't empty", '""')),
        ((*keys, "keys", 0, "pub"), ABSENT, missing(f"{at}.keys[0].pub", "a text of 43 base64url characters")),
        ((*keys, "keys", 0, "pub"), "AAAA", must(f"{at}.keys[0].pub", "a text of 43 base64url characters", '"AAAA"')),
        ((*keys, "keys", 0, "priv"), "AAAA", f"{at}.keys[0].priv is the private part of a key; a key set has public keys alone"),
        ((*keys, "keys", 0, "x"), 0.5, must(f"{at}.keys[0].x", "a whole number from -2^63 to 2^64 - 1", ODD)),
        ((*keys, "keys"), [key, {"kty": "RSA", "kid": "r"}, key], f"{at}.keys[2].kid is that of {at}.keys[0] again; each stands once"),
    ]:
        faulty(config, path, value, sentence)
    with open("ta.ring", encoding="utf-8") as it:
        faulty(config, keys, json.load(it), f"{at} is a key ring, with secret seeds; fed public --ring writes its key set")


def check_policies(config):
    policy = ("subordinates", 0, "metadata_policy")
    at = "subordinates[0].metadata_policy"
    for path, value, sentence in [
        (policy, [], must(at, "an object from entity type to an object from parameter to operators", "a list")),
        (policy, {"rp": 1}, must(f"{at}.rp", "an object from parameter to operators", "1")),
        (policy, {"rp": {"p": ["x"]}}, must(f"{at}.rp.p", 'an object of operators, as {"one_of":[..]}', "a list")),
        (policy, {"rp": {"p": {"one_of": "x"}}}, must(f"{at}.rp.p.one_of", "a list of values", '"x"')),
        (policy, {"rp": {"p": {"add": {}}}}, must(f"{at}.rp.p.add", "a list of values", "an object")),
        (policy, {"rp": {"p": {"essential": "yes"}}}, must(f"{at}.rp.p.essential", "true or false", '"yes"')),
        (policy, {"rp": {"p": {"default": None}}}, must(f"{at}.rp.p.default", "a value", "null")),
        (policy, {"rp": {"p": {"value": 1.5}}}, must(f"{at}.rp.p.value", "a whole number from -2^63 to 2^64 - 1", ODD)),
        (("subordinates", 0, "metadata_policy_crit"), ["add", "regexp"],
         must("subordinates[0].metadata_policy_crit[1]",
              "an operator: value, add, default, one_of, subset_of, superset_of or essential", '"regexp"')),
        (("subordinates", 0, "constraints"), [],
         must("subordinates[0].constraints", "an object with max_path_length, naming_constraints and allowed_entity_types", "a list")),
        (("subordinates", 0, "constraints"), {"max_path_length": -1},
         must("subordinates[0].constraints.max_path_length", "a whole number from 0 to 4294967295", "-1")),
        (("subordinates", 0, "constraints"), {"naming_constraints": {"permitted": "rp.example"}},
         must("subordinates[0].constraints.naming_constraints.permitted", "a list of texts", '"rp.example"')),
        (("subordinates", 0, "constraints"), {"allowed_entity_types": [1]},
         must("subordinates[0].constraints.allowed_entity_types[0]", "a text", "1")),
    ]:
        faulty(config, path, value, sentence)


def check_resolver(config, key):
    anchor = {"entity_id": TA, "jwks": {"keys": [key]}}
    route = {"host": "ta.example", "ip": "127.0.0.1", "port": 9}
    resolver = {"anchors": [anchor], "age": 600, "workers": 1, "control": {"keys": []}, "routes": [route]}
    config = {"entity_id": OP, "ring": config["ring"], "lifetime": 3600, "resolver": resolver}
    anchors, routes, first, way = "resolver.anchors", "resolver.routes", ("resolver", "anchors", 0), ("resolver", "routes", 0)
    listed = "a list of 1 to 64 objects with entity_id and jwks"
    for path, value, sentence in [
        (("resolver",), [], must("resolver", "an object with anchors, age, workers, control and routes", "a list")),
        (("resolver", "anchors"), ABSENT, missing(anchors, listed)),
        (("resolver", "anchors"), anchor, must(anchors, listed, "an object")),
        (("resolver", "anchors"), [], f"{anchors} must be {listed}, and has 0"),
        (("resolver", "anchors"), [anchor, anchor], f"{anchors}[1].entity_id is that of {anchors}[0] again; each stands once"),
        ((*first, "entity_id"), 1, must(f"{anchors}[0].entity_id", ID, "1")),
        ((*first, "jwks"), {"keys": 1}, must(f"{anchors}[0].jwks.keys", "a list of at most 64 keys", "1")),
        ((*first, "depth"), 13, must(f"{anchors}[0].depth", "a whole number from 1 to 12", "13")),
        ((*first, "calls"), 0, must(f"{anchors}[0].calls", "a whole number from 1 to 160", "0")),
        ((*first, "paths"), "1", must(f"{anchors}[0].paths", "a whole number from 1 to 4096", '"1"')),
        (("resolver", "age"), ABSENT, missing("resolver.age", "a whole number from 1 to 86400")),
        (("resolver", "age"), 86401, must("resolver.age", "a whole number from 1 to 86400", "86401")),
        (("resolver", "workers"), 17, must("resolver.workers", "a whole number from 1 to 16", "17")),
        (("resolver", "control"), ABSENT, missing("resolver.control", SET)),
        (("resolver", "control"), key, must("resolver.control", SET, "one key")),
        (("resolver", "routes"), ABSENT, missing(routes, "a list of objects with host, ip and port")),
        (way, "ta.example", must(f"{routes}[0]", "an object with host, ip and port", '"ta.example"')),
        ((*way, "host"), ABSENT, missing(f"{routes}[0].host", "a text")),
        ((*way, "ip"), "localhost", must(f"{routes}[0].ip", "an IPv4 address, four numbers as 127.0.0.1", '"localhost"')),
        ((*way, "ip"), "127.0.0.01", must(f"{routes}[0].ip", "an IPv4 address, four numbers as 127.0.0.1", '"127.0.0.01"')),
        ((*way, "port"), 65536, must(f"{routes}[0].port", "a whole number from 1 to 65535", "65536")),
    ]:
        faulty(config, path, value, sentence)


def check_lengths(config):
    long = {"openid_relying_party": {"p": "x" * 180000}}
    told("long metadata", json.dumps({**config, "metadata": long}).encode(),
         "c.json: the node's own claims, as metadata, have more than 179000 bytes together", "refused metadata TooLong\n")
    second = {**config["subordinates"][0], "entity_id": IM, "metadata": long}
    length = len(json.dumps(second, separators=(",", ":")))
    told("a long statement", json.dumps({**config, "subordinates": [config["subordinates"][0], second]}).encode(),
         "c.json: a statement about one of the subordinates has more than 179000 bytes of claims; "
         f"the longest is subordinates[1], with {length} bytes", "refused subordinates TooLong\n")


# texts that aren't JSON, with what is said behind the file's name
TEXTS = [
    (b"", " is empty"),
    (b" \n\n", " is empty"),
    (b"\xef\xbb\xbf{}", " begins with a byte order mark, which no JSON text has; store it as UTF-8 without one"),
    (b"\xff\xfe{\x00}\x00", " is UTF-16; store it as UTF-8 without a byte order mark"),
    (b"eyJhbGciOiJ4In0.e30.AA", " is a signed text and not JSON"),
    (b"-----BEGIN PUBLIC KEY-----\n", " is PEM and not JSON"),
    (b'{\n  "lifetime": 60,\n}', ":3:1: a member's name was expected, and } stands there; JSON has no comma before a bracket that closes"),
    (b'{"a": [1, 2,]}', ":1:13: a value was expected, and ] stands there; JSON has no comma before a bracket that closes"),
    (b'{"a": 1 // one\n}', ":1:9: , or } was expected, and / stands there; JSON has no comments"),
    (b"# a node\n{}", ":1:1: a value was expected, and # stands there; JSON has no comments"),
    (b"{'a': 1}", ":1:2: a member's name or } was expected, and ' stands there; names and texts stand between quotation marks, \""),
    (b'{"a": \'x\'}', ":1:7: a value was expected, and ' stands there; names and texts stand between quotation marks, \""),
    (b"entity_id: https://ta.example\n", ":1:1: a value was expected, and entity_id stands there; texts stand between quotation marks, \""),
    (b'{"lifetime": NOW}', ":1:14: a value was expected, and NOW stands there; texts stand between quotation marks, \""),
    (b'{"a": True}', ":1:7: a value was expected, and True stands there; texts stand between quotation marks, \""),
    (b'{"a": 1\n "b": 2}', ":2:2: , or } was expected, and \" stands there; a comma is missing before it"),
    (b'{"a": [1 [2]]}', ":1:10: , or ] was expected, and [ stands there; a comma is missing before it"),
    (b'{a: 1}', ":1:2: a member's name or } was expected, and a stands there; names stand between quotation marks, \""),
    (b'{"a" 1}', ":1:6: : was expected, and 1 stands there"),
    (b'{"a": 1}\n}', ":2:1: the end of the text was expected, and } stands there"),
    (b'{\n"a": [1,\n', ":3:1: a value was expected, and the text ends; a bracket of line 2 is open yet"),
    (b'{"a": 1', ":1:8: , or } was expected, and the text ends; a bracket of line 1 is open yet"),
    (b'{"a": "x\n"}', ":1:9: a \" that ends the text was expected, and the line ends"),
    (b'{"a": "x', ":1:9: a \" that ends the text was expected, and the text ends; a bracket of line 1 is open yet"),
    (b'{"a": "\\x"}', ":1:9: one of \" \\ / b f n r t u was expected behind \\, and x stands there"),
    (b'{"a": "\\u12"}', ":1:12: four digits of base 16 were expected behind \\u, and \" stands there"),
    (b'{"a": 01}', ":1:8: , or } was expected, and 1 stands there"),
    (b'{"a": 1.}', ":1:9: a digit was expected, and } stands there"),
    (b'{"a": -x}', ":1:8: a digit was expected, and x stands there"),
    (b'{"a": \x00}', ":1:7: a value was expected, and \\x00 stands there"),
    ('{"ä": "ö", }'.encode(), ":1:12: a member's name was expected, and } stands there; JSON has no comma before a bracket that closes"),
    (b"[" * 128 + b"]" * 128, ":1:128: no more than 127 lists and objects within one another were expected, and [ stands there"),
]


def check_texts():
    for text, sentence in TEXTS:
        told(str(text[:40]), text, f"c.json{sentence}", "input\n", 2)
    for text in (b'{"a": "\xff"}', b'{"a": "\\ud800"}', b'{"a": 1e999}'):
        with open("c.json", "wb") as it:
            it.write(text)
        status, out, err = run(["check-config", "--config", "c.json"])
        rest = ": this can't be read: bytes that aren't UTF-8, half of a surrogate pair, or a number that is too great\n"
        ROWS.compare(f"{text}", (status, out, err[:13], err.endswith(rest)), (2, "input\n", "fed: c.json:1", True))


def check_registration(config):
    """A registration opens the node, too."""
    for text, said in [(b"{", "c.json:1:2: a member's name or } was expected, and the text ends; a bracket of line 1 is open yet"),
                       (json.dumps({**config, "lifetime": 0}).encode(), f"c.json: {must('lifetime', LIFETIME, '0')}")]:
        with open("c.json", "wb") as it:
            it.write(text)
        ROWS.compare(f"register {text[:9]}", run(["register", "--config", "c.json", "--anchor", TA], b"x"), (2, "input\n", f"fed: {said}\n"))


def main():
    subprocess.run([f"{TOP}/fed", "--version"], check=True, capture_output=True)
    with tempfile.TemporaryDirectory() as place:
        os.chdir(place)
        ring(place, "ta.ring", 1, AT, END)
        key = ring(place, "rp.ring", 2, AT, END)
        config = {"entity_id": TA, "ring": "ta.ring", "lifetime": 3600, "subordinates": [{"entity_id": RP, "jwks": {"keys": [key]}}]}
        check_members(config)
        check_subordinates(config, key)
        check_keys(config, key)
        check_policies(config)
        check_resolver(config, key)
        check_lengths(config)
        check_texts()
        check_registration(config)
        os.chdir(TOP)
    return ROWS.end()


if __name__ == "__main__":
    sys.exit(main())
