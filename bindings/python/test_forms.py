"""Each form of a typed condition, as the answer has it in Cedar's form of JSON."""
import unittest

import cedar_validator as cedar

SCOPE = "permit(principal,action,resource)"
SCHEMA = """entity U in [U] { a?: Long } tags Long;
action v appliesTo { principal: U, resource: U, context: { n: Long, s: Set<Long>, name: String, b: Bool, c: Bool, r?: { x?: { y?: Long } } } };"""


def variable(name):
    return {"Var": name}


def two(operator, left, right):
    return {operator: {"left": left, "right": right}}


def attribute(name, left=variable("context")):
    return {".": {"left": left, "attr": name}}


def has(name, left=variable("context")):
    return {"has": {"left": left, "attr": name}}


N, S, B, C = map(attribute, "nsbc")
PRINCIPAL, RESOURCE = variable("principal"), variable("resource")
# Conditions, and each in Cedar's form of JSON.
FORMS = (
    ("principal == resource", two("==", PRINCIPAL, RESOURCE)),
    ('principal == U::"x"', two("==", PRINCIPAL, {"Value": {"__entity": {"type": "U", "id": "x"}}})),
    ("!context.b || context.c", two("||", {"!": {"arg": B}}, C)),
    ("context.b && context.c", two("&&", B, C)),
    ("-context.n < 3", two("<", {"neg": {"arg": N}}, {"Value": 3})),
    ("context.n <= 1 + 2 * context.n - -4", two("<=", N, two("-", two("+", {"Value": 1}, two("*", {"Value": 2}, N)), {"Value": -4}))),
    ("principal in resource", two("in", PRINCIPAL, RESOURCE)),
    ("context.s.contains(1)", two("contains", S, {"Value": 1})),
    ("context.s.containsAll([1, context.n])", two("containsAll", S, {"Set": [{"Value": 1}, N]})),
    ("context.s.containsAny(context.s)", two("containsAny", S, S)),
    ("context.s.isEmpty()", {"isEmpty": {"arg": S}}),
    ('principal.hasTag("k") && principal.getTag("k") == 1', two("&&", two("hasTag", PRINCIPAL, {"Value": "k"}), two("==", two("getTag", PRINCIPAL, {"Value": "k"}), {"Value": 1}))),
    ('context.name like "a*\\*"', {"like": {"left": attribute("name"), "pattern": [{"Literal": "a"}, "Wildcard", {"Literal": "*"}]}}),
    ("principal is U", {"is": {"left": PRINCIPAL, "entity_type": "U"}}),
    ("if context.b then context.n == 1 else context.c", {"if-then-else": {"if": B, "then": two("==", N, {"Value": 1}), "else": C}}),
    ("if principal is U then context.b else context.c", {"if-then-else": {
        "if": two("||", {"is": {"left": PRINCIPAL, "entity_type": "U"}}, {"Value": True}), "then": B, "else": {"Value": False}}}),
    ('{x: context.n, "y z": "q"} == {x: 1, "y z": context.name}', two("==", {"Record": {"x": N, "y z": {"Value": "q"}}}, {"Record": {"x": {"Value": 1}, "y z": attribute("name")}})),
    ("context has r.x.y", two("&&", two("&&", has("r"), has("x", attribute("r"))), has("y", attribute("x", attribute("r"))))),
    ('ip("1.2.3.4").isInRange(ip("1.2.3.0/24"))', {"isInRange": [{"ip": [{"Value": "1.2.3.4"}]}, {"ip": [{"Value": "1.2.3.0/24"}]}]}),
)


def parts(value):
    """A value of JSON and all within it."""
    yield value
    within = value.values() if isinstance(value, dict) else value if isinstance(value, list) else ()
    for it in within:
        yield from parts(it)


class Tests(unittest.TestCase):
    def test_forms_of_conditions(self):
        for text, wanted in FORMS:
            answer = cedar.typed_conditions({"schema": SCHEMA, "policy": f"{SCOPE} when {{{text}}};"})
            self.assertEqual(answer["accepted"], True, (text, answer))
            self.assertIn(wanted, parts(answer["conditions"][0]["condition"]), text)
        twice = "if principal is U then (" * 60 + "context.b" + ") else true" * 60
        answer = cedar.typed_conditions({"schema": SCHEMA, "policy": f"{SCOPE} when {{{twice}}};"})
        self.assertEqual(sum(it == B for it in parts(answer["conditions"][0]["condition"])), 1)


if __name__ == "__main__":
    unittest.main()
