"""Webs of fixed texts on loopback, for the measurements of a resolve."""

import http.server
import json
import os
import re
import resource
import subprocess
import threading
import time
import typing

TOP = os.path.dirname(os.path.dirname(os.path.dirname(os.path.abspath(__file__))))
LEAF, ANCHOR = "https://rp.example", "https://ta.example"


def built():
    """The program, which the script `fed` builds where it isn't yet."""
    subprocess.run([f"{TOP}/fed", "--version"], check=True, stdout=subprocess.DEVNULL)
    return f"{TOP}/out/fed"


class Texts:
    """The texts of webs, each made once."""

    def __init__(self, fed, place):
        self.fed, self.place, self.made, self.now = fed, place, {}, int(time.time())
        done = subprocess.run([fed, "keygen", "--ring", f"{place}/ring", "--at", "1", "--exp", str(self.now + 86400)], input=b"%096d" % 1,
                              capture_output=True, check=True)
        os.chmod(f"{place}/ring", 0o600)
        self.key = json.loads(done.stdout)

    def of(self, issuer, subject, hints=(), **more):
        """A statement, with claims that stand beside the others or in their place."""
        claims = {"jwks": {"keys": [self.key]}}
        if issuer == subject:
            claims["metadata"] = {"federation_entity": {"federation_fetch_endpoint": f"{issuer}/fetch"}}
            if hints:
                claims["authority_hints"] = list(hints)
        return self.sealed("entity-statement+jwt", issuer, subject, **{**claims, **more})

    def sealed(self, typ, issuer, subject, **more):
        claims = {"iss": issuer, "sub": subject, "iat": self.now - 10, "exp": self.now + 86400, **more}
        given = json.dumps(claims).encode()
        if (typ, given) not in self.made:
            done = subprocess.run(self.issuing(typ), input=given, capture_output=True, check=True)
            self.made[typ, given] = done.stdout.strip()
        return self.made[typ, given]

    def issuing(self, typ):
        """The command that seals what is given to it as a text of this type."""
        return [self.fed, "issue", "--ring", f"{self.place}/ring", "--typ", typ]


def page_of(entity):
    return f"{entity.removeprefix('https://')}/.well-known/openid-federation"


def fetch_of(superior, subject):
    return f"{superior.removeprefix('https://')}/fetch?sub={subject.replace(':', '%3A').replace('/', '%2F')}"


def web_of(texts, hints, more=None):
    """The pages of a web: each entity with those that it hints, and more claims of some."""
    pages = {}
    for entity, above in hints.items():
        pages[page_of(entity)] = texts.of(entity, entity, above, **(more or {}).get(entity, {}))
        for superior in above:
            pages[fetch_of(superior, entity)] = texts.of(superior, entity)
    return pages


def deep(size):
    """A chain of so many texts."""
    names = [LEAF, *(f"https://im-{number}.example" for number in range(size - 3)), ANCHOR]
    return {below: [above] for below, above in zip(names, names[1:])} | {ANCHOR: []}


def wide(size):
    """A leaf with so many superiors, of whom one hints the anchor: at most 32 are hinted by the leaf, which can't hint more, and the others
    by these, from the last of them on. The search asks for two pages of each, and for three more."""
    names = [f"https://im-{number}.example" for number in range(size)]
    hinted, others = names[:32], names[32:]
    above = {name: others[31 * at : 31 * at + 31] for at, name in enumerate(reversed(hinted))}
    above[hinted[-1]] = [*above[hinted[-1]], ANCHOR]
    return {LEAF: hinted, **{name: above.get(name, []) for name in names}, ANCHOR: []}


def post_of(endpoint, mark):
    """The call that posts a mark's text, in which a form leaves each character as it is."""
    return f"POST {endpoint.removeprefix('https://')} trust_mark={mark.decode()}"


def served(pages):
    """A web of these pages, by the calls that ask for them: of a host and a path, or of a post."""
    class Handler(http.server.BaseHTTPRequestHandler):
        def do_GET(self):
            self.answer(self.headers["Host"] + self.path)

        def do_POST(self):
            body = self.rfile.read(int(self.headers["Content-Length"])).decode()
            self.answer(f"POST {self.headers['Host']}{self.path} {body}")

        def answer(self, call):
            text = pages.get(call, b"")
            self.send_response(200 if call in pages else 404)
            self.send_header("Content-Length", str(len(text)))
            self.end_headers()
            self.wfile.write(text)

        def log_message(self, *_):
            pass

    web = http.server.ThreadingHTTPServer(("127.0.0.1", 0), Handler)
    threading.Thread(target=web.serve_forever, daemon=True).start()
    return web


def configured(place, texts, pages, port, workers=1):
    """The file of a resolver's node over that web, on that port."""
    routes = [{"host": host, "ip": "127.0.0.1", "port": port} for host in sorted({call.split("/")[0] for call in pages})]
    keys = {"keys": [texts.key]}
    resolver = {"anchors": [{"entity_id": ANCHOR, "jwks": keys}], "age": 3600, "workers": workers, "control": keys, "routes": routes}
    name = f"{place}/resolver-{port}-{workers}.json"
    with open(name, "w", encoding="utf-8") as it:
        json.dump({"entity_id": "https://resolver.example", "ring": f"{place}/ring", "lifetime": 60, "resolver": resolver}, it)
    return name


def ran(command, given=b""):
    return subprocess.run(command, input=given, capture_output=True)


def seconds(command, count, status=0, given=b""):
    """User and system time of a run, by so many."""
    before = spent()
    for _ in range(count):
        ended(ran(command, given), status)
    return (spent() - before) / count


def spent():
    """User and system time of all runs that have ended."""
    so_far = resource.getrusage(resource.RUSAGE_CHILDREN)
    return so_far.ru_utime + so_far.ru_stime


def ended(done, status):
    """What a run wrote that ended so."""
    if done.returncode != status:
        raise SystemExit(f"{str(done)[:3000]}, and not {status}")
    return done.stdout


def profiled(place, command, status=0, given=b""):
    """The name of the file in which callgrind tells of a run, and what the run wrote."""
    kept = f"{place}/callgrind"
    words = ["valgrind", "--tool=callgrind", f"--callgrind-out-file={kept}", *command]
    return kept, ended(ran(words, given), status)


def counted(place, command):
    """The instructions of a run by function, each with what it calls."""
    return by_function(profiled(place, command)[0])


def by_function(kept):
    words = ["callgrind_annotate", "--inclusive=yes", "--threshold=100", kept]
    text = subprocess.run(words, capture_output=True, check=True).stdout.decode()
    by_name = {}
    for line in text.split("\n"):
        found = re.match(r"\s*([\d,]+) \(\s*[\d.]+%\)\s+(.*)", line)
        if found:
            by_name[found[2]] = max(int(found[1].replace(",", "")), by_name.get(found[2], 0))
    return by_name


def inclusive(by_name, pattern):
    found = [count for name, count in by_name.items() if re.search(pattern, name)]
    if not found:
        raise SystemExit(f"no function {pattern} was counted")
    return max(found)


# Of the program: what is called once for each signature that is tested and for each that is made, and by whom where one is tested. Which of
# these calls it depends on what the compiler puts in place of a call
DIGEST = "slh_dsa::digest::write_digest"
TESTING = r"(?:slh_dsa::verifying|sealed::testing)::"


class Work(typing.NamedTuple):
    """What a run did: its instructions, how many signatures it tested, and how many it made."""
    instructions: int
    tested: int
    made: int


def work_in(kept):
    """What the run did of which callgrind tells in that file: a name stands there with its number once, and then the number alone."""
    names, calls, caller, callee, instructions = {}, {}, None, None, 0
    with open(kept, encoding="utf-8") as it:
        for line in it:
            word, _, said = line.rstrip("\n").partition("=")
            number, _, name = said.partition(" ")
            if word == "fn":
                caller = names.setdefault(number, name)
            elif word == "cfn":
                callee = names.setdefault(number, name)
            elif word == "calls":
                calls[caller, callee] = calls.get((caller, callee), 0) + int(number)
            elif line.startswith("totals: "):
                instructions = int(line.split()[1])
    digests = {caller: count for (caller, callee), count in calls.items() if callee == DIGEST}
    tested = sum(count for caller, count in digests.items() if re.match(TESTING, caller))
    return Work(instructions, tested, sum(digests.values()) - tested)
