"""Good rings, texts and configurations, made once by the program itself from the seed, which all kinds change."""

import json
import os
import random
import subprocess
import sys
from concurrent.futures import ThreadPoolExecutor

from . import drawn, rules

BEGIN, AT, END = 1700000000, 1800000000, 4000000000
STATEMENT, MARK, CHANGE = "entity-statement+jwt", "trust-mark+jwt", "anchor-keys+jwt"
TA, IM, RP, RESOLVER = "https://ta.example", "https://im.example/fed", "https://rp.example", "https://resolver.example"
NODE = "http://127.0.0.1/fed"
# entities of which each has a configuration that is served, statements about the leaf and hints
WIDTH = 20
SUPERIORS = [f"https://h{number}.example" for number in range(WIDTH)]
ABOVE = [f"https://g{number}.example/x" for number in range(WIDTH)]
LONG = [f"https://e{number}.example" for number in range(13)]
# a leaf and its superior that hint more entities than a search asks for, none of which is there
FAR, HUB = "https://far.example", "https://hub.example"
GONE = [[f"https://{letter}{number}.example" for number in range(31)] for letter in "xy"]
TESTS = os.path.dirname(os.path.dirname(os.path.abspath(__file__)))
SEAL = """import json, sys
sys.dont_write_bytecode = True
sys.path.insert(0, sys.argv[1])
import sealing
given = json.load(sys.stdin)
print(sealing.sealed(*given) if len(given) > 2 else json.dumps(sealing.key_of(*given)))"""
RELYING = drawn.RELYING


def endpoint(entity):
    return {"federation_entity": {"federation_fetch_endpoint": f"{entity}/fetch"}}


class Key:
    def __init__(self, ring, seeds, jwk):
        self.ring, self.seeds, self.jwk = ring, seeds, jwk
        self.kid, self.pub, self.own = jwk["kid"], jwk["pub"], (jwk["alg"], jwk["pub"])


class Pool:
    """All that is good. `texts` has what was signed by its name, `signers` the algorithm and the public key of each signed text."""

    def __init__(self, program, folder, seed):
        self.program, self.folder = program, folder
        self.rng = random.Random(f"pool {seed}")
        self.keys, self.claims, self.texts, self.signers, self.changes = {}, {}, {}, {}, {}
        with ThreadPoolExecutor(len(os.sched_getaffinity(0))) as self.workers:
            names = ["ta", "im", "rp", "resolver", "node", "other", "fast rp", "fast im"]
            for name, key in zip(names, self.workers.map(self.key, names, [self.rng.getrandbits(384) for _ in names])):
                self.keys[name] = key
            self.state_chains()
            self.state_policies()
            self.state_web()
            changes = self.state_changes()
            made = {name: self.workers.submit(self.sealed_otherwise, *it) for name, it in changes.items()}
            wanted = [(name, *it) for name, it in self.claims.items()]
            for (name, _, by, _), text in zip(wanted, self.workers.map(lambda it: self.sealed(*it[1:]), wanted)):
                self.texts[name] = text
                self.signers[text] = self.keys[by].own
            for name, text in made.items():
                self.changes[name] = text.result()
                self.signers[self.changes[name]] = self.keys[changes[name][1]].own
        self.write_files()
        self.known = {text: rules.statement(text.encode()) for text in self.texts.values()}
        self.judge = rules.Judge(self.signers)

    def fed(self, words, given):
        done = subprocess.run([self.program, *words], input=given, capture_output=True, cwd=self.folder, timeout=60, check=False)
        if done.returncode:
            raise SystemExit(f"fuzz: {words} on {given[:200]!r}: status {done.returncode}, {done.stdout[:200]!r} {done.stderr[:400]!r}")
        return done.stdout

    def key(self, name, seeds):
        """A key in a ring, or one of the second set, which no ring holds."""
        if name.startswith("fast"):
            return Key(None, "%096x" % seeds, json.loads(self.otherwise(rules.FAST, "%096x" % seeds)))
        made = self.fed(["keygen", "--ring", f"{name}.ring", "--at", "1", "--exp", str(END)], b"%096x\n" % seeds)
        return Key(f"{name}.ring", "%096x" % seeds, json.loads(made))

    def sealed(self, claims, by, typ):
        if self.keys[by].ring is None:
            return self.otherwise(claims, typ, self.keys[by].seeds, self.keys[by].jwk)
        return self.fed(["issue", "--ring", self.keys[by].ring, "--typ", typ], json.dumps(claims).encode()).decode().strip()

    def sealed_otherwise(self, claims, by):
        """Other keys for an anchor, a text of a type that the program signs with none of its commands."""
        return self.otherwise(claims, CHANGE, self.keys[by].seeds, self.keys[by].jwk)

    @staticmethod
    def otherwise(*given):
        """What another implementation makes: a key of an algorithm and seeds, or a sealed text."""
        done = subprocess.run([sys.executable, "-c", SEAL, TESTS], input=json.dumps(given), capture_output=True, text=True, check=True)
        return done.stdout.strip()

    def state(self, name, claims, by, typ=STATEMENT):
        """Adds claims that are to be signed, under a name of their own."""
        self.claims[name] = claims, by, typ

    def own(self, entity, by, **more):
        return {"iss": entity, "sub": entity, "iat": BEGIN, "exp": END, "jwks": {"keys": [self.keys[by].jwk]}, **more}

    def about(self, superior, subject, by, **more):
        return {"iss": superior, "sub": subject, "iat": BEGIN, "exp": END - 1, "jwks": {"keys": [self.keys[by].jwk]}, **more}

    # ---- chains of one, three, four and fourteen texts, and one that is signed by keys of both sets

    def state_chains(self):
        foreign = {"kty": "RSA", "kid": "rsa", "n": "vQ", "e": "AQAB", "x": [1, {"y": None}]}
        leaf = self.own(RP, "rp", authority_hints=[IM, TA], metadata={
            RELYING: {"client_name": "\u00c4 \"b\"", "grant_types": ["authorization_code", "implicit"], "scope": "openid email", "contacts": []},
            "federation_entity": {"organization_name": "RP"}}, extra={"a": [1, 2, {"b": None}], "n": -5},
            trust_marks=[{"trust_mark_type": "t", "trust_mark": "no mark"}])
        leaf["jwks"]["keys"].append(foreign)
        self.state("leaf", leaf, "rp")
        self.state("im about leaf", self.about(IM, RP, "rp", metadata={RELYING: {"logo": "x"}}, constraints={"max_path_length": 2}, metadata_policy={
            RELYING: {"grant_types": {"subset_of": ["authorization_code"]}, "contacts": {"add": ["help@im.example"]}, "scope": {"add": ["phone"]}}}), "im")
        self.state("ta about im", self.about(TA, IM, "im", exp=END - 7, constraints={
            "max_path_length": 1, "naming_constraints": {"permitted": [".example"], "excluded": ["bad.example"]}},
            metadata_policy={RELYING: {"client_name": {"essential": True}}}, metadata_policy_crit=["add"]), "ta")
        self.state("ta about leaf", self.about(TA, RP, "rp"), "ta")
        self.state("ta", self.own(TA, "ta", metadata=endpoint(TA), trust_mark_issuers={"t": [TA], "open": []}, trust_mark_owners={
            "owned": {"sub": IM, "jwks": {"keys": [self.keys["im"].jwk]}}}), "ta")
        self.state("long leaf", self.own(LONG[0], "rp", metadata={RELYING: {"p": "x"}}), "rp")
        for number in range(1, 13):
            superior = LONG[number] if number < 12 else TA
            self.state(f"long {number}", self.about(superior, LONG[number - 1], "rp" if number == 1 else "im"), "im" if number < 12 else "ta")
        self.state("fast leaf", self.own(RP, "fast rp", metadata={RELYING: {"p": "x"}}), "fast rp")
        self.state("fast im about leaf", self.about(IM, RP, "fast rp"), "fast im")
        self.state("ta about fast im", self.about(TA, IM, "fast im"), "ta")
        self.chains = [["ta"], ["leaf", "ta about leaf", "ta"], ["leaf", "im about leaf", "ta about im", "ta"],
                       ["fast leaf", "fast im about leaf", "ta about fast im", "ta"], ["long leaf", *(f"long {number}" for number in range(1, 13)), "ta"]]

    # ---- leaves, and policies of two superiors, of which each fits each

    def state_policies(self):
        self.leaves = [f"policy leaf {number}" for number in range(40)]
        self.lower = [f"lower policy {number}" for number in range(60)]
        self.upper = [f"upper policy {number}" for number in range(60)]
        draws = drawn.Draws(self.rng)
        for name in self.leaves:
            self.state(name, self.own(RP, "rp", authority_hints=[IM], metadata=draws.metadata()), "rp")
        for name in self.lower:
            more = {"metadata": draws.metadata()} if self.rng.random() < .3 else {}
            more |= {"constraints": draws.constraints()} if self.rng.random() < .2 else {}
            self.state(name, self.about(IM, RP, "rp", metadata_policy=draws.policy(), **more), "im")
        for name in self.upper:
            more = {"constraints": draws.constraints()} if self.rng.random() < .5 else {}
            self.state(name, self.about(TA, IM, "im", metadata_policy=draws.policy(), **more), "ta")

    # ---- a web: a leaf with many superiors, each with one above it

    def state_web(self):
        self.state("web leaf", self.own(RP, "rp", authority_hints=SUPERIORS, metadata={RELYING: {"client_name": "A"}}), "rp")
        for number, superior in enumerate(SUPERIORS):
            self.state(f"superior {number}", self.own(superior, "im", authority_hints=[ABOVE[number]], metadata=endpoint(superior)), "im")
            self.state(f"statement {number}", self.about(superior, RP, "rp", metadata_policy={RELYING: {"contacts": {"add": ["a"]}}}), "im")
        self.state("im", self.own(IM, "im", authority_hints=[TA], metadata=endpoint(IM)), "im")
        self.state("far", self.own(FAR, "rp", authority_hints=[HUB, *GONE[0]]), "rp")
        self.state("hub", self.own(HUB, "im", authority_hints=GONE[1], metadata=endpoint(HUB)), "im")
        self.state("hub about far", self.about(HUB, FAR, "rp"), "im")
        self.state("mark of node", {"iss": TA, "sub": NODE, "trust_mark_type": "t", "iat": BEGIN, "exp": END}, "ta", MARK)
        for typ in ("open", "t"):
            self.state(f"mark {typ}", {"iss": NODE, "sub": RP, "trust_mark_type": typ, "iat": BEGIN}, "node", MARK)
            self.state(f"mark of ta {typ}", {"iss": TA, "sub": RP, "trust_mark_type": typ, "iat": BEGIN, "exp": END, "logo": "x"}, "ta", MARK)

    # ---- other keys for an anchor

    def state_changes(self):
        """Those of the first epoch and of the next, of an anchor that isn't listed, and some that a stranger signed."""
        first, second = ({"anchor": TA, "epoch": epoch, "jwks": {"keys": [self.keys[name].jwk]}} for epoch, name in enumerate(["other", "ta"]))
        unlisted = {**first, "anchor": IM, "note": [1]}
        return {"first": (first, "other"), "second": (second, "other"), "unlisted": (unlisted, "other"), "strange": (first, "rp")}

    # ---- files

    def configuration(self):
        """A node without a resolver."""
        return {
            "entity_id": NODE, "ring": "node.ring", "lifetime": 3600, "metadata": {"federation_entity": {"organization_name": "N"}},
            "authority_hints": [TA], "trust_marks": [{"trust_mark_type": "t", "trust_mark": "m"}], "trust_mark_issuers": {"t": [TA]},
            "trust_mark_owners": {"t": {"sub": TA, "jwks": {"keys": [self.keys["ta"].jwk]}}},
            "subordinates": [
                {"entity_id": RP, "jwks": {"keys": [self.keys["rp"].jwk]}, "entity_types": [RELYING, "a b"], "mark_types": ["m1", "\u00e9&"],
                 "metadata_policy": {RELYING: {"contacts": {"add": ["help@im.example"]}}}, "constraints": {"max_path_length": 0}},
                {"entity_id": IM, "jwks": {"keys": [self.keys["im"].jwk]}, "intermediate": True, "metadata": {"a": {"b": 1}}, "metadata_policy_crit": ["add"]},
                {"entity_id": "https://c.example", "jwks": {"keys": []}, "entity_types": ["other"], "intermediate": True},
            ],
            "revoked_marks": ["x"],
        }

    def resolver(self, routes):
        """A node that only resolves, by these routes."""
        return {
            "entity_id": RESOLVER, "ring": "resolver.ring", "lifetime": 3600, "resolver": {
                "anchors": [{"entity_id": TA, "jwks": {"keys": [self.keys["ta"].jwk]}, "depth": 8, "calls": 64}], "age": 3600, "workers": 1,
                "control": {"keys": [self.keys["other"].jwk]},
                "routes": [{"host": host, "ip": "127.0.0.1", "port": port} for host, port in routes.items()]}}

    def write_files(self):
        self.anchor_keys = {"keys": [self.keys["ta"].jwk]}
        self.write("ta.keys", json.dumps(self.anchor_keys).encode())
        self.write("node.json", json.dumps(self.configuration()).encode())
        self.rings = {}
        for name, key in self.keys.items():
            if key.ring is not None:
                with open(f"{self.folder}/{key.ring}", "rb") as it:
                    self.rings[name] = it.read()

    def write(self, name, data):
        with open(f"{self.folder}/{name}", "wb") as it:
            it.write(data)
