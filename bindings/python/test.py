"""The Python package, and the texts of calls and of answers, which no contract speaks of."""
import json
import resource
import threading
import unittest

import cedar_validator as cedar

SCHEMA = "entity U{a?:Long};action v appliesTo{principal:U,resource:U};"
JSON_SCHEMA = {"": {"entityTypes": {"U": {"shape": {"type": "Record", "attributes": {"a": {"type": "Long", "required": False}}}}},
                    "actions": {"v": {"appliesTo": {"principalTypes": ["U"], "resourceTypes": ["U"]}}}}}
SCOPE = "permit(principal,action,resource)"
BAD = SCOPE + " when {principal.a == 1};"
GOOD = SCOPE + " when {principal has a && principal.a == 1};"
ALL = {"op": "All"}
BAD_JSON = {"effect": "permit", "principal": ALL, "action": ALL, "resource": ALL, "conditions": [
    {"kind": "when", "body": {"==": {"left": {".": {"left": {"Var": "principal"}, "attr": "a"}}, "right": {"Value": 1}}}}]}
TEMPLATE = "permit(principal == ?principal,action,resource);"


def validated(policies, schema=SCHEMA, **settings):
    return cedar.validate({"validationSettings": settings, "schema": schema, "policies": policies})


def codes(answer):
    return [(it["policyId"], it["error"]["code"]) for it in answer["validationErrors"]]


def deep(count):
    return SCOPE + " when {" + "(" * count + "true" + " || true)" * count + "};"


def negated(count):
    value = {"Value": True}
    for _ in range(count):
        value = {"!": {"arg": value}}
    return value


class Tests(unittest.TestCase):
    def test_forms_of_policies(self):
        for schema in (SCHEMA, JSON_SCHEMA):
            for policies, ids in ((BAD + BAD, ["policy0", "policy1"]), ([BAD, GOOD], ["policy0"]), ({"z": BAD}, ["z"]), ({"z": BAD_JSON}, ["z"])):
                answer = validated({"staticPolicies": policies}, schema)
                self.assertEqual(codes(answer), [(it, "unguarded-attribute") for it in ids])

    def test_places(self):
        for policy, text in ((BAD, BAD), (BAD_JSON, json.dumps(BAD_JSON, ensure_ascii=False))):
            place = validated({"staticPolicies": {"z": policy}})["validationErrors"][0]["error"]["sourceLocations"][0]
            self.assertIn("principal", text[place["start"]:place["end"]])

    def test_links(self):
        def linked(values, **others):
            link = {"templateId": "t", "newId": "l", "values": values}
            return validated({"templates": {"t": TEMPLATE}, "templateLinks": [{**link, **others}]})
        self.assertEqual(codes(linked({"?principal": {"type": "U", "id": "x"}})), [])
        self.assertEqual(codes(linked({"?principal": {"__entity": {"type": "No", "id": "x"}}})), [("l", "unknown-type")])
        for wrong in (linked({}), linked({"?resource": {"type": "U", "id": "x"}}), linked({}, templateId="u"), linked({"?principal": {"type": "U", "id": "x"}}, newId="t")):
            self.assertEqual(wrong["type"], "failure")

    def test_parts_of_a_set(self):
        self.assertEqual(validated({"staticPolicies": {"t": TEMPLATE}})["type"], "failure")
        self.assertEqual(validated({"templates": {"t": GOOD}})["type"], "failure")
        self.assertEqual(validated({"staticPolicies": {"t": GOOD}, "templates": {"t": TEMPLATE}})["type"], "failure")
        self.assertEqual(validated({"templates": {"t": TEMPLATE}})["validationErrors"], [])

    def test_level_and_details(self):
        answer = validated({"staticPolicies": {"p": GOOD}}, level=0, details=True)
        self.assertEqual(answer["policies"], [{"policyId": "p", "accepted": False, "level": 1, "moreFindings": 0}])
        # both `has` and `.` dereference the principal
        self.assertEqual(codes(answer), [("p", "level"), ("p", "level")])
        self.assertEqual(validated({"staticPolicies": {"p": GOOD}}, level=1, details=True)["policies"][0]["accepted"], True)
        self.assertNotIn("policies", validated({"staticPolicies": {"p": GOOD}}))

    def test_depth(self):
        # each disjunction is one node above the one within, and `true` is one node
        self.assertEqual(codes(validated({"staticPolicies": {"p": deep(9)}}, depth=10)), [])
        self.assertEqual(codes(validated({"staticPolicies": {"p": deep(9)}}, depth=9)), [("p", "fault")])
        self.assertEqual(codes(validated({"staticPolicies": {"p": deep(99)}})), [])
        self.assertEqual(codes(validated({"staticPolicies": {"p": deep(300)}})), [("p", "fault")])

    def test_a_deep_policy_is_refused_alone(self):
        # 100 disjunctions are deeper than the default, 300 nest too deep to be read, and JSON of 190 negations too
        negations = {**BAD_JSON, "conditions": [{"kind": "when", "body": negated(190)}]}
        for wrong in (deep(100), deep(300), negations):
            answer = validated({"staticPolicies": {"a": BAD, "p": wrong, "z": GOOD}}, details=True)
            self.assertEqual(sorted(codes(answer)), [("a", "unguarded-attribute"), ("p", "fault")])
            self.assertEqual({it["policyId"]: it["accepted"] for it in answer["policies"]}, {"a": False, "p": False, "z": True})
        # in one text, the policies around it
        self.assertEqual(sorted(codes(validated(BAD + deep(100) + GOOD))), [("policy0", "unguarded-attribute"), ("policy1", "fault")])
        # and the links of a template
        link = {"templateId": "t", "newId": "l", "values": {"?principal": {"type": "U", "id": "x"}}}
        policies = {"templates": {"t": deep(100).replace("principal,", "principal == ?principal,")}, "templateLinks": [link], "staticPolicies": {"a": BAD}}
        self.assertEqual(sorted(codes(validated(policies))), [("a", "unguarded-attribute"), ("l", "fault"), ("t", "fault")])
        # an id is still that of one policy
        self.assertEqual(validated({"staticPolicies": {"t": deep(100)}, "templates": {"t": TEMPLATE}})["type"], "failure")

    def test_reading_is_bounded_by_the_depth(self):
        for count, wanted in ((8, []), (45, [("p", "fault")])):
            negation = SCOPE + " when {" + "!(" * count + "true" + ")" * count + "};"
            self.assertEqual(codes(validated({"staticPolicies": {"p": negation}}, depth=10)), wanted)
            self.assertEqual(codes(validated({"staticPolicies": {"p": {**BAD_JSON, "conditions": [{"kind": "when", "body": negated(count)}]}}}, depth=10)), wanted)

    def test_faults_say_their_text(self):
        def told(schema, policies):
            return [(it["of"], it.get("policyId")) for it in validated(policies, schema)["errors"]]
        self.assertEqual(told("entity", ""), [("schema", None)])
        self.assertEqual(told({"": 1}, ""), [("schema", None)])
        self.assertEqual(told(SCHEMA, {"staticPolicies": {"z": "permit"}}), [("policies", "z")])
        self.assertEqual(told(SCHEMA, GOOD + "permit(principal,action,resource) when { 1 + };"), [("policies", "policy1")])
        self.assertEqual(told("entity", {"staticPolicies": {"z": "permit"}}), [("schema", None), ("policies", "z")])
        self.assertEqual(told(1, ""), [("call", None)])
        self.assertEqual([it["of"] for it in cedar.check_data({"schema": "entity"})["errors"]], ["schema"])
        self.assertEqual([(it["of"], it.get("policyId")) for it in cedar.typed_conditions({"schema": SCHEMA, "policy": deep(100)})["errors"]], [("policies", "policy0")])

    def test_modes(self):
        for mode in ("strict", "Strict", "permissive", "Permissive"):
            self.assertEqual(codes(validated({"staticPolicies": {"p": GOOD}}, mode=mode)), [])

    def test_failures(self):
        wrong = ["", "{", "[]", "{}", '{"schema":1,"policies":{}}', '{"schema":"","policies":{},"x":1}', "\0", '{"schema":"entity","policies":"permit"}', '"\\ud800"',
                 '{"schema":"","policies":{},"validationSettings":{"mode":"loose"}}', '{"schema":"","policies":{},"validationSettings":{"level":-1}}']
        for text in wrong:
            for call in (cedar.validate, cedar.check_data, cedar.typed_conditions):
                answer = call(text)
                self.assertEqual(answer["type"], "failure", text)
                self.assertTrue(answer["errors"])
        self.assertRaises(ValueError, cedar.answer_text, "cedar_validate", b"\xff")

    def test_protocol(self):
        # what cedar-java's ValidationRequest writes, with the policy set of its documentation
        call = {"schema": {"": {"entityTypes": {"User": {"shape": {"type": "Record", "attributes": {}}}, "Photo": {}},
                                "actions": {"View_Photo": {"appliesTo": {"principalTypes": ["User"], "resourceTypes": ["Photo"]}}}}},
                "policies": {"templateLinks": [{"templateId": "template0", "newId": "alice", "values": {"?principal": {"type": "User", "id": "alice"}}}],
                             "staticPolicies": {"policy0": 'permit(principal == User::"alice", action == Action::"View_Photo", resource);'},
                             "templates": {"template0": 'permit(principal == ?principal, action == Action::"View_Photo", resource);'}}}
        empty = {"type": "success", "validationErrors": [], "validationWarnings": [], "otherWarnings": []}
        self.assertEqual(cedar.validate(call), empty)
        # and calls as Cedar's own documentation of its FFI has them
        self.assertEqual(cedar.validate({"schema": {}, "policies": {}}), empty)
        self.assertEqual(cedar.validate({"schema": "", "policies": "", "validationSettings": None})["type"], "success")
        self.assertEqual(cedar.validate({"validationSettings": {"mode": "strict"}, "schema": SCHEMA, "policies": {"staticPolicies": [GOOD], "templates": {}, "templateLinks": []}}), empty)

    def test_data(self):
        entities = [{"uid": {"type": "U", "id": "x"}, "attrs": {"a": 1}, "parents": []}]
        request = {"principal": {"type": "U", "id": "x"}, "action": {"type": "Action", "id": "v"}, "resource": {"type": "U", "id": "x"}, "context": {}}
        good = cedar.check_data({"schema": SCHEMA, "entities": entities, "request": request})
        self.assertEqual(good, {"type": "success", "entities": {"conforms": True, "count": 1, "errors": []}, "request": {"conforms": True, "count": 0, "errors": []}})
        entities[0]["attrs"] = {"a": "1", "b": 2}
        bad = cedar.check_data({"schema": JSON_SCHEMA, "entities": entities})
        self.assertEqual(bad["entities"]["conforms"], False)
        self.assertEqual(sorted(it["code"] for it in bad["entities"]["errors"]), ["data-type", "data-undeclared"])
        self.assertNotIn("request", bad)

    def test_conditions(self):
        answer = cedar.typed_conditions({"schema": SCHEMA, "policy": GOOD})
        [only] = answer["conditions"]
        self.assertEqual((only["principalType"], only["action"], only["resourceType"]), ("U", {"type": "Action", "id": "v"}, "U"))
        self.assertIn('{"Value": 1}', json.dumps(only["condition"]))
        refused = cedar.typed_conditions({"schema": SCHEMA, "policy": BAD})
        self.assertEqual((refused["accepted"], codes(refused), refused["conditions"]), (False, [("policy0", "unguarded-attribute")], []))

    def test_small_room(self):
        call = json.dumps({"schema": SCHEMA, "policies": {"staticPolicies": BAD * 500}}).encode()
        self.assertEqual(len(json.loads(cedar.answer_text("cedar_validate", call, 1))["validationErrors"]), 500)

    def test_memory_and_threads(self):
        text = json.dumps({"schema": SCHEMA, "policies": {"staticPolicies": BAD}}).encode()
        wanted, wrong = cedar.answer_text("cedar_validate", text), []
        def run(count):
            wrong.extend(1 for _ in range(count) if cedar.answer_text("cedar_validate", text) != wanted)
        run(1000)
        before = resource.getrusage(resource.RUSAGE_SELF).ru_maxrss
        run(10_000)
        self.assertLess(resource.getrusage(resource.RUSAGE_SELF).ru_maxrss - before, 512)
        threads = [threading.Thread(target=run, args=(2500,)) for _ in range(4)]
        for it in threads:
            it.start()
        for it in threads:
            it.join()
        self.assertEqual(wrong, [])


if __name__ == "__main__":
    unittest.main()
