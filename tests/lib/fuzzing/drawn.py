"""Metadata, policies and constraints for chains that are signed: small values that often meet, values at limits, long lists, deep nesting, and
changes of these that keep their form."""

from . import changes, policies, rules
from .changes import written

RELYING = "openid_relying_party"
VALUES = ["a", "b", "c", "a b", "", 1, True, {"a": 1}, ["a"], None]
PARAMETERS = ["scope", "list", "text", "x"]
OPERATORS = ["value", "add", "default", "one_of", "subset_of", "superset_of", "essential"]
HOSTS = [".example", "rp.example", "im.example", "RP.EXAMPLE", ".EXAMPLE", "example", "", ".", ".rp.example", "a.example", "p.example", ".m.example",
         "*.example", "https://rp.example", "\u0000", "x" * 3000]
LENGTHS = [0, 0, 1, 2, (1 << 32) - 1]


def nested(depth):
    return {"a": nested(depth - 1)} if depth > 1 else []


# the greatest and the least that are kept, what is equal in another language, and what nests as deeply as reads
LIMITS = [0, -1, (1 << 53) + 1, (1 << 62) - 1, (1 << 63) - 1, -(1 << 63), (1 << 64) - 1, "0", "1", "true", "null", False, {}, [], [[]], {"": {}},
          {"b": 1, "a": [1, None]}, [None], "\u0000", "\u00e9", "e\u0301", "\U0001f600", "\u007f\u0080", " a  b ", "a\u00a0b", "a\tb", "\\\"/", "x" * 3000,
          nested(100), [[nested(110)]], [{"b": 2, "a": True}, {"a": 1, "b": 2}]]


class Draws:
    """What is drawn from a stream of random numbers."""

    def __init__(self, rng):
        self.rng = rng

    def some(self, values):
        return self.rng.choice(LIMITS if self.rng.random() < .08 else values)

    def values(self):
        if self.rng.random() < .03:
            begin = self.rng.choice([0, 0, 1, 300])
            return [f"v{number}" for number in range(begin, begin + self.rng.choice([100, 500, 1000]))] + self.rng.sample(VALUES[:-1], 2)
        return [self.some(VALUES[:-1]) for _ in range(self.rng.choice([0, 1, 2, 3, 4, 6]))]

    def fitting(self, name):
        """Operators that mostly stand together."""
        while True:
            found = self.operators()
            if policies.operators_merged(found, {}, name)[0] is None or self.rng.random() < .02:
                return found

    def operators(self):
        found = {}
        for name in self.rng.sample(OPERATORS, self.rng.choice([1, 1, 1, 2, 2, 3])):
            if name == "value":
                found[name] = self.rng.choice([self.some(VALUES), self.some(VALUES), self.values()])
            elif name == "default":
                found[name] = self.rng.choice([self.some(VALUES[:-1]), self.some(VALUES[:-1]), self.values()])
            else:
                found[name] = self.rng.random() < .5 if name == "essential" else self.values()
        return found

    def policy(self):
        policy = {}
        for typ in self.rng.sample([RELYING, "other"], self.rng.choice([1, 1, 2])):
            policy[typ] = {name: self.fitting(name) for name in self.rng.sample(PARAMETERS, self.rng.choice([1, 2, 2, 3]))}
        return self.changed(policy, rules.policy, .3)

    def metadata(self):
        types = self.rng.sample([RELYING, "other", "third"], self.rng.choice([1, 2, 2, 3]))
        made = {typ: {name: self.rng.choice([self.some(VALUES[:-1]), self.some(VALUES[:-1]), self.values(), self.values(), "a b a"])
                      for name in self.rng.sample(PARAMETERS, self.rng.randrange(4))} for typ in types}
        return self.changed(made, rules.metadata, .2)

    def constraints(self):
        """Constraints of which the names and the length are met by some chains only."""
        made, kind = {}, self.rng.random()
        if kind < .5:
            made["allowed_entity_types"] = self.rng.sample([RELYING, "other", "third"], 2)
        if kind > .4:
            made["max_path_length"] = self.rng.choice(LENGTHS)
        if kind > .7:
            names = self.rng.sample(HOSTS, self.rng.choice([0, 1, 2]))
            made["naming_constraints"] = {"permitted": [".example", *names]} if self.rng.random() < .5 else {"excluded": names}
            if self.rng.random() < .2:
                made["naming_constraints"] = {"permitted": names, "excluded": []}
        return self.changed(made, rules.constraints, .2)

    def changed(self, tree, reads, often):
        """The tree, or as often as this one that a change made of it which is still of its form."""
        for _ in range(20 if self.rng.random() < often else 0):
            try:
                made = rules.tree_of(written([changes.some_of_tree(self.rng, tree)]))[0]
                reads(made)
                rules.asks(rules.is_whole(made))
            except (rules.Unreadable, rules.Fault):
                continue
            if made != tree and len(rules.compact(made)) < 30000:
                return made
        return tree
