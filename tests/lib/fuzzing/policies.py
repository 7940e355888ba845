"""The tables of docs/rules/POLICY.md once more: what a policy is, how two are merged, and what one makes of metadata."""

import json

OPERATORS = ["value", "add", "default", "one_of", "subset_of", "superset_of", "essential"]
LISTS = {"add", "one_of", "subset_of", "superset_of"}


def is_policy(tree):
    if not isinstance(tree, dict):
        return False
    for parameters in tree.values():
        if not isinstance(parameters, dict) or not all(map(has_form, parameters.values())):
            return False
    return True


def has_form(operators):
    return isinstance(operators, dict) and all(value_has_form(name, value) for name, value in operators.items())


def value_has_form(name, value):
    if name in LISTS:
        return isinstance(value, list)
    if name == "essential":
        return isinstance(value, bool)
    return name != "default" or value is not None


# ---- lists as sets: values are compared as JSON texts, so that 1 and true are two

def key(value):
    return json.dumps(value, sort_keys=True)


def once(values):
    return list({key(value): value for value in reversed(values)}.values())[::-1]


def joined(first, second):
    found, keys = [], set()
    for value in [*first, *second]:
        if key(value) not in keys:
            keys.add(key(value))
            found.append(value)
    return found


def common(first, second):
    keys = set(map(key, second))
    return joined([value for value in first if key(value) in keys], [])


def includes(values, some):
    return set(map(key, some)) <= set(map(key, values))


def members(value, name):
    """The members of a value of the parameter, or None where it has none."""
    if isinstance(value, list):
        return value
    if name == "scope" and isinstance(value, str):
        return [word for word in value.split(" ") if word]
    return None


# ---- merging

def has_all(value, name, some):
    found = members(value, name)
    return found is not None and includes(found, some)


def within(value, name, most):
    found = members(value, name)
    return found is not None and includes(most, found)


# the pairs in their order, with what has to hold of the two values
PAIRS = [
    ("one_of", "one_of", lambda a, b, name: a != []),
    ("value", "add", lambda a, b, name: has_all(a, name, b)),
    ("value", "default", lambda a, b, name: a is not None),
    ("value", "one_of", lambda a, b, name: a is not None and includes(b, [a])),
    ("value", "subset_of", lambda a, b, name: within(a, name, b)),
    ("value", "superset_of", lambda a, b, name: has_all(a, name, b)),
    ("value", "essential", lambda a, b, name: a is not None or not b),
    ("add", "one_of", lambda a, b, name: False),
    ("add", "subset_of", lambda a, b, name: includes(b, a)),
    ("default", "one_of", lambda a, b, name: includes(b, [a])),
    ("default", "subset_of", lambda a, b, name: within(a, name, b)),
    ("default", "superset_of", lambda a, b, name: has_all(a, name, b)),
    ("one_of", "subset_of", lambda a, b, name: False),
    ("one_of", "superset_of", lambda a, b, name: False),
    ("subset_of", "superset_of", lambda a, b, name: includes(a, b)),
]
MERGES = {
    "add": joined, "superset_of": joined, "one_of": common, "subset_of": common,
    "essential": lambda upper, lower: upper or lower,
    "value": lambda upper, lower: upper, "default": lambda upper, lower: upper,
}


def operators_merged(upper, lower, name):
    """The two operators that conflict, or None, and the operators of a parameter."""
    for operator in ("value", "default"):
        if operator in upper and operator in lower and key(upper[operator]) != key(lower[operator]):
            return (operator, operator), None
    found = {}
    for operator in OPERATORS:
        sides = [side[operator] for side in (upper, lower) if operator in side]
        if sides:
            found[operator] = sides[0] if len(sides) == 1 else MERGES[operator](*sides)
    for first, second, so in PAIRS:
        if first in found and second in found and not so(found[first], found[second], name):
            return (first, second), None
    return None, found


def merged(upper, lower):
    """The conflict, its type, parameter and operators, or None, and the merged policy."""
    result = {}
    for typ in sorted({*upper, *lower}):
        sides, result[typ] = (upper.get(typ, {}), lower.get(typ, {})), {}
        for name in sorted({*sides[0], *sides[1]}):
            conflict, result[typ][name] = operators_merged(*(side.get(name, {}) for side in sides), name)
            if conflict:
                return (typ, name, *conflict), None
    return None, result


# ---- applying

class Refused(Exception):
    """An operator refuses."""


def refuses(so, operator):
    if so:
        raise Refused(operator)


def remade(found, name, was_text, operator):
    """The members as the parameter's value: of `scope` a text where it was one or absent."""
    if name != "scope" or not was_text:
        return found
    refuses(not all(isinstance(value, str) for value in found), operator)
    return " ".join(found)


def acted(operators, name, there, value):
    """Whether the parameter is there afterwards, and its value."""
    if "value" in operators:
        there, value = operators["value"] is not None, operators["value"]
    if "add" in operators:
        found = members(value, name) if there else []
        refuses(found is None, "add")
        there, value = True, remade(joined(found, operators["add"]), name, not there or isinstance(value, str), "add")
    if "default" in operators and not there:
        there, value = True, operators["default"]
    if there:
        limits(operators, name, value)
        if "subset_of" in operators:
            value = remade(common(members(value, name), operators["subset_of"]), name, isinstance(value, str), "subset_of")
        if "superset_of" in operators:
            refuses(not has_all(value, name, operators["superset_of"]), "superset_of")
    refuses(operators.get("essential", False) and not there, "essential")
    return there, value


def limits(operators, name, value):
    if "one_of" in operators:
        refuses(not includes(operators["one_of"], [value]), "one_of")
    if "subset_of" in operators:
        refuses(members(value, name) is None, "subset_of")


def applied(policy, metadata):
    """The refusal, its type, parameter and operator, or None, and the metadata under the policy."""
    result = {}
    for typ in sorted(metadata):
        held, result[typ] = metadata[typ], dict(metadata[typ])
        for name in sorted(policy.get(typ, {})):
            try:
                there, value = acted(policy[typ][name], name, name in held, held.get(name))
            except Refused as refusal:
                return (typ, name, str(refusal)), None
            result[typ].pop(name, None)
            if there:
                result[typ][name] = value
    return None, result
