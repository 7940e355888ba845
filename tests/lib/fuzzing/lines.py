"""Command lines: the table of docs/COMMANDS.md once more, which words are those of a command."""

import re

from . import rules
from .pool import AT, IM, NODE, STATEMENT, TA

VALUES = ["", "0", "00", "-1", "+1", "1e3", "4611686018427387904", "18446744073709551616", "9" * 400, "a" * 100000, "--at", "--", "-", "\n", "'", "none",
          "https://ta.example?", "http://", b"\xff", b"a\xffb", "\u00e9", "\x1b[31m", "65536", "80", "1000001", "entity-statement+jwt", "retire", "add",
          "revoke", "unspecified", "help", "-h", "--help", "--version", "verify", "check", NODE, " ", "\u202e"]
GOOD = [
    ["check", "--anchor", TA, "--keys", "ta.keys", "--at", str(AT)], ["check-reply", "--keys", "never.keys", "--anchor", TA, "--anchor-keys", "ta.keys", "--at", str(AT)], ["keygen", "--ring", "never.ring", "--at", "1", "--exp", "2"],
    ["issue", "--ring", "rp.ring", "--typ", STATEMENT], ["rotate", "--ring", "never.ring", "--act", "retire", "--kid", "none"],
    ["rotate", "--ring", "never.ring", "--act", "revoke", "--kid", "none", "--at", "1", "--reason", "superseded"],
    ["rotate", "--ring", "never.ring", "--act", "add", "--at", "1", "--exp", "2"], ["resolve", "--config", "never.json", "--sub", IM, "--anchor", TA],
    ["authority", "--config", "never.json", "--port", "1", "--connections", "1"], ["resolver", "--config", "never.json", "--port", "1", "--connections", "1"],
    ["register", "--config", "never.json", "--anchor", TA], ["rehearse", "--params", "201"], ["public", "--ring", "rp.ring", "--kid", "none"], ["public", "--ring", "rp.ring"],
    ["check-config", "--config", "never.json", "--at", "1"], ["show"], ["show", "--claims", "yes"], ["help", "check"], ["help", "rehearse"], ["--help"], ["--version"], []]
COMMANDS = {"verify", "help", *(line[0] for line in GOOD if line and line[0][0] != "-")}


# ---- the table

def number(least, most):
    return lambda word: re.fullmatch("0|[1-9][0-9]{0,18}", word) is not None and least <= int(word) <= most


def word(_):
    return True


def one_of(*words):
    return lambda given: given in words


MOMENT, ADDRESS = number(0, rules.MOMENTS - 1), {"--port": number(1, 65535), "--connections": number(1, 1000000)}
RING, CONFIG = {"--ring": word}, {"--config": word}
TYPES = one_of(STATEMENT, "trust-mark+jwt", "trust-mark-delegation+jwt")
# the options that each command asks for
OPTIONS = {
    "keygen": [{**RING, "--at": MOMENT, "--exp": MOMENT}], "issue": [{**RING, "--typ": TYPES}],
    "rotate": [{**RING, "--act": one_of("add"), "--at": MOMENT, "--exp": MOMENT}, {**RING, "--act": one_of("retire"), "--kid": word},
               {**RING, "--act": one_of("revoke"), "--kid": word, "--at": MOMENT, "--reason": one_of(*rules.REASONS)}],
    "check": [{"--anchor": rules.identifier, "--keys": word}, {"--anchor": rules.identifier, "--keys": word, "--at": MOMENT}],
    "resolve": [{**CONFIG, "--sub": rules.identifier, "--anchor": rules.identifier}], "authority": [{**CONFIG, **ADDRESS}], "resolver": [{**CONFIG, **ADDRESS}],
    "register": [{**CONFIG, "--anchor": rules.identifier}],
    "public": [RING, {**RING, "--kid": word}], "check-config": [{**CONFIG, **at, **strict} for at in ({}, {"--at": MOMENT}) for strict in ({}, {"--strict": one_of("yes")})], "rehearse": [{"--params": number(0, 200)}], "show": [{}, {"--claims": one_of("yes")}],
    "check-reply": [{"--keys": word, "--anchor": rules.identifier, "--anchor-keys": word, **at} for at in ({}, {"--at": MOMENT})],
}


def is_command(line):
    """Whether the words are those of a command, or None where only a reader of URLs can say."""
    try:
        line = [it.encode("utf-8", "surrogateescape").decode() if isinstance(it, str) else it.decode() for it in line]
    except UnicodeDecodeError:
        return False
    if line in (["--help"], ["--version"]):
        return True
    if len(line) == 2 and line[0] in ("verify", "help"):
        return line[1] in COMMANDS if line[0] == "help" else len(line[1]) == 43 and rules.decoded(line[1].encode()) is not None
    if not line or len(line) % 2 == 0:
        return False
    given = dict(zip(line[1::2], line[2::2]))
    if 2 * len(given) + 1 != len(line):
        return False
    found = [[reads(given[name]) for name, reads in options.items()] for options in OPTIONS.get(line[0], []) if set(options) == set(given)]
    return any(all(so) for so in found) or (None if any(None in so and False not in so for so in found) else False)


# ---- lines

def words(case):
    """A command line with a word that is gone, twice, exchanged or another."""
    rng, pool = case.rng, case.pool
    line = list(rng.choice([*GOOD, ["verify", pool.keys["rp"].pub]]))
    for _ in range(rng.choice([0, 1, 1, 1, 2, 3])):
        at, kind = rng.randrange(len(line) + 1), rng.randrange(5)
        if kind == 0:
            del line[at:at + 1]
        elif kind == 1:
            line.insert(at, rng.choice(line or VALUES))
        elif kind == 2:
            line.insert(at, rng.choice(VALUES))
        elif kind == 3 and at < len(line):
            line[at] = rng.choice(VALUES)
        else:
            other = rng.randrange(len(line) + 1)
            line[at:at + 1], line[other:other + 1] = line[other:other + 1], line[at:at + 1]
    so = is_command(line)
    if so and line[0] == "rehearse":
        line, so = ["rehearse"], False                       # it would take some ten seconds
    case.runs(line, rng.choice([b"", b"\n", b"x", b"[]"]), 1,
              lambda done: done.status in (0, 1, 2, 6) and so is not ((done.status, done.out) == (2, b"words\n")), f"words of a command: {so}")


KINDS = {"words": words}
