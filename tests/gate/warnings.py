#!/usr/bin/env python3
"""What looks wrong in a node's configuration, one a row: the sentence that `fed check-config` says of it, that status and output are those of a
configuration of which nothing is said, that `--strict yes` ends with 1, and that a node which starts says the same. It prints what differs,
and fails where anything does.
"""

import copy
import datetime
import json
import os
import subprocess
import sys
import tempfile

sys.dont_write_bytecode = True
sys.path.insert(0, f"{os.path.dirname(os.path.dirname(os.path.abspath(__file__)))}/lib")
from laid import TOP, free_port  # noqa: E402
from program import ENVIRONMENT, FED, PATIENCE, Rows, connected, ring, run  # noqa: E402

AT, END = 1700000000, 4000000000
TA, RP, IM = "https://ta.example", "https://rp.example", "https://im.example"
FOREIGN = {"kty": "RSA", "kid": "r", "n": "AQAB", "e": "AQAB"}
ROWS = Rows("warnings")
compare = ROWS.compare


def moment(seconds):
    return f"{seconds} ({datetime.datetime.fromtimestamp(seconds, datetime.timezone.utc):%Y-%m-%d %H:%M:%S} UTC)"


def said(name, sentences):
    return "".join(f"fed: warning: {name}: {sentence}\n" for sentence in sentences)


def written(name, text):
    with open(name, "w", encoding="utf-8") as it:
        it.write(text if isinstance(text, str) else json.dumps(text))


def checked(row, config, *sentences):
    """Checks a configuration, a text or what is written as one, and then strictly."""
    written("c.json", config)
    words = ["check-config", "--config", "c.json", "--at", str(AT + 1)]
    status, out, err = run(words)
    compare(row, (status, err), (0, said("c.json", sentences)))
    compare(f"{row}, strictly", run([*words, "--strict", "yes"]), (1 if sentences else 0, out, said("c.json", sentences)))
    compare(f"{row}, quietly", run([*words, "--strict", "yes"], FED_QUIET="1"), (1 if sentences else 0, out, ""))


def started(command, config, *sentences):
    """Starts a node for one connection, and gives what it says before the line of that."""
    written("n.json", config)
    port = free_port()
    words = [command, "--config", "n.json", "--port", str(port), "--connections", "1"]
    with subprocess.Popen([FED, *words], stdout=subprocess.PIPE, stderr=subprocess.PIPE, env={**ENVIRONMENT, "FED_LOG": "off"}) as running:
        with connected(running, port):
            pass
        out, err = running.communicate(timeout=PATIENCE)
        begun = sentences[-1].replace("PORT", str(port))
        lines = said("n.json", sentences[:-1]) + f"fed: {begun}\nfed: {begun.split(' ')[0]} ends after 1 connection, as many as --connections says\n"
        compare(f"{command} starts", (running.returncode, out.decode(), err.decode()), (0, "served 1\n", lines))


def ended(config, count):
    """How a node ends: behind all its connections, with output that can't be written, quietly, and by a port where it never listened."""
    written("n.json", config)
    served = f"fed: {TA} ends after {count} connections, as many as --connections says\n"
    full = f"fed: standard output can't be written to its end; is the disk full, or the reader gone?\n{served}"
    for row, output, more, status, lines in [("all", None, {}, 0, served), ("quiet", None, {"FED_QUIET": "1"}, 0, ""), ("full", "/dev/full", {}, 4, full)]:
        port = free_port()
        words = [FED, "authority", "--config", "n.json", "--port", str(port), "--connections", str(count)]
        out = open(output or os.devnull, "wb")
        with out, subprocess.Popen(words, stdout=out, stderr=subprocess.PIPE, env={**ENVIRONMENT, "FED_LOG": "off", **more}) as running:
            for _ in range(count):
                with connected(running, port):
                    pass
            err = running.communicate(timeout=PATIENCE)[1].decode()
            compare(f"{row} end", (running.returncode, "".join(line for line in err.splitlines(True) if " starts on " not in line)), (status, lines))


def changed(config, path, value):
    """Gives the configuration with another value at the place, or without it."""
    config = copy.deepcopy(config)
    *steps, last = path
    at = config
    for step in steps:
        at = at[step]
    if value is None:
        del at[last]
    else:
        at[last] = value
    return config


def unknown(name, meant=None, what="member", place=""):
    return f"{place}the {what} {name} isn't known and is left unread" + (f"; did you mean {meant}?" if meant else "")


def check_members(config):
    for name, meant in [("authority_hint", "authority_hints"), ("life_time", "lifetime"), ("subordinate", "subordinates"), ("comment", None), ("", None)]:
        checked(f"member {name}", {**config, name: 0}, unknown(name, meant))
    about = "subordinates[0]: "
    for name, meant in [("metadata_polcy", "metadata_policy"), ("constraint", "constraints"), ("key", None)]:
        checked(f"of a subordinate {name}", changed(config, ["subordinates", 0, name], {}), unknown(name, meant, place=about))
    limits = {"max_path_lenght": 1, "naming_constraints": {"permited": ["rp.example"]}}
    checked("of constraints", changed(config, ["subordinates", 0, "constraints"], limits),
            unknown("max_path_lenght", "max_path_length", place="subordinates[0].constraints: "),
            unknown("permited", "permitted", place="subordinates[0].constraints.naming_constraints: "))
    second = changed(config, ["subordinates"], [*config["subordinates"], {**config["subordinates"][0], "entity_id": IM, "jwk": {}}])
    checked("of the second subordinate", second, unknown("jwk", "jwks", place="subordinates[1]: "))


def check_policies(config):
    where = "subordinates[0].metadata_policy.openid_relying_party.grant_types"

    def policy(operators):
        return changed(config, ["subordinates", 0, "metadata_policy"], {"openid_relying_party": {"grant_types": operators}})

    checked("an operator", policy({"subsetof": ["authorization_code"]}), unknown("subsetof", "subset_of", "operator", f"{where}: "))
    checked("an operator of another", policy({"regexp": "x", "essential": True}), unknown("regexp", None, "operator", f"{where}: "))
    checked("two that don't stand together", policy({"value": "a", "one_of": ["b"]}),
            f"{where}: value and one_of don't stand together, so each chain through it is refused")
    checked("two that do", policy({"value": "a", "one_of": ["a", "b"]}))


def check_sets(config, key):
    no_key = " has no key of an algorithm that is verified here, so each chain through it is refused"
    for keys in ([], [FOREIGN]):
        checked(f"a set of {len(keys)}", changed(config, ["subordinates", 0, "jwks", "keys"], keys), f"subordinates[0].jwks{no_key}")
    checked("a set with a foreign key beside", changed(config, ["subordinates", 0, "jwks", "keys"], [FOREIGN, key]))


def check_texts(config):
    text = json.dumps(config)
    checked("a member twice", text.replace('"lifetime": 3600', '"lifetime": 86400, "lifetime": 3600'), "the member lifetime stands twice; the last counts")
    checked("one deeper", text.replace(f'"entity_id": "{RP}"', f'"entity_id": "{TA}", "entity_id": "{RP}"'), "the member entity_id stands twice; the last counts")
    checked("one in two objects", changed(config, ["metadata"], {"a": {"x": 1}, "b": {"x": 1}}))
    checked("names in a text", changed(config, ["metadata"], {"a": {"x": "{\"x\":1,\"x\":2}", "\\\"": ":"}}))


def check_resolver(config, key):
    anchor = {"entity_id": TA, "jwks": {"keys": [key]}}
    route = {"host": "ta.example", "ip": "127.0.0.1", "port": 9}
    resolver = {"anchors": [anchor], "age": 600, "workers": 1, "control": {"keys": []}, "routes": [route]}
    config = {**{its: value for its, value in config.items() if its != "subordinates"}, "entity_id": "https://op.example", "resolver": resolver}
    checked("a resolver", config)
    for place, names in [((), ("worker", "workers")), (("anchors", 0), ("path", "paths")), (("routes", 0), ("name", None))]:
        shown = "resolver" + (f".{place[0]}[0]" if place else "")
        checked(f"of {shown}", changed(config, ["resolver", *place, names[0]], 0), unknown(*names, place=f"{shown}: "))
    checked("an anchor without a key", changed(config, ["resolver", "anchors", 0, "jwks", "keys"], [FOREIGN]),
            "resolver.anchors[0].jwks has no key of an algorithm that is verified here, so each chain through it is refused")
    checked("no route", changed(config, ["resolver", "routes"], []), "no route leads to ta.example, the host of resolver.anchors[0]")
    for host in ("https://ta.example", "ta.example:443", "TA.example", "ta.example/", ""):
        checked(f"the host {host}", changed(config, ["resolver", "routes"], [route, {**route, "host": host}]),
                f"resolver.routes[1]: no URL has the host {host}; a host has neither scheme nor port, and is in lower case, as ta.example")
    checked("a route twice", changed(config, ["resolver", "routes"], [route, {**route, "port": 10}]),
            "resolver.routes[1] is never taken, since an earlier route has the host ta.example")
    return config


def check_rings(config, key):
    written("c.json", config)
    ended = f"the key that signs, {key['kid']}, has ended"
    for at, sentences in [(END, [ended]), (END - 1, [])]:
        for strict in ([], ["--strict", "yes"]):
            status, out, err = run(["check-config", "--config", "c.json", "--at", str(at), *strict])
            compare(f"the signer at {at} {strict}", (status, err), (1 if strict and sentences else 0, said("c.json", sentences)))
    os.chmod("ta.ring", 0o644)
    opened = "fed: others than its owner can read ta.ring and so sign in the node's name; `chmod 600 ta.ring` keeps it to its owner\n"
    for strict in ([], ["--strict", "yes"]):
        status, out, err = run(["check-config", "--config", "c.json", "--at", str(AT + 1), *strict])
        compare(f"an open ring {strict}", (status, err), (1 if strict else 0, opened))
    os.chmod("ta.ring", 0o600)


def main():
    subprocess.run([f"{TOP}/fed", "--version"], check=True, capture_output=True)
    with tempfile.TemporaryDirectory() as place:
        os.chdir(place)
        key, other = ring(place, "ta.ring", 1, AT, END), ring(place, "rp.ring", 2, AT, END)
        config = {"entity_id": TA, "ring": "ta.ring", "lifetime": 3600, "subordinates": [{"entity_id": RP, "jwks": {"keys": [other]}}]}
        checked("nothing", config)
        check_members(config)
        check_policies(config)
        check_sets(config, other)
        check_texts(config)
        resolver = check_resolver(config, other)
        check_rings(config, key)
        signs = f"signs by {key['kid']} until {moment(END)}"
        started("authority", config, f"{TA} starts on 127.0.0.1:PORT, 1 subordinate, {signs}")
        started("authority", {**config, "subordinate": [], "subordinates": []}, unknown("subordinate", "subordinates"),
                f"{TA} starts on 127.0.0.1:PORT, 0 subordinates, {signs}")
        started("resolver", resolver, f"https://op.example starts on 127.0.0.1:PORT, 0 subordinates, 1 trust anchor, {signs}")
        ended(config, 3)
        os.chdir(TOP)
    return ROWS.end()


if __name__ == "__main__":
    sys.exit(main())
