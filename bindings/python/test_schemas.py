"""Schemas that are read once: answers by a handle, what it keeps, its end, and threads."""
import gc
import json
import resource
import threading
import unittest

import cedar_validator as cedar

SCHEMA = "entity U{a?:Long};action v appliesTo{principal:U,resource:U};"
SCOPE = "permit(principal,action,resource)"
BAD = SCOPE + " when {principal.a == 1};"
POLICIES = {"policies": {"staticPolicies": {"x": BAD}}}


def named(call):
    """The call by itself, which names its schema."""
    return {"schema": SCHEMA, **call}


class Tests(unittest.TestCase):
    def test_answers_are_those_of_calls_that_name_the_schema(self):
        entities = {"entities": [{"uid": {"type": "U", "id": "x"}, "attrs": {"a": "1"}, "parents": []}]}
        condition = {"policy": SCOPE + " when {principal == resource};"}
        deep = {"policies": {"staticPolicies": {"x": BAD}}, "validationSettings": {"level": 0, "details": True, "mode": "permissive"}}
        with cedar.Schema(SCHEMA) as schema:
            for _ in range(2):
                self.assertEqual([it["policyId"] for it in schema.validate(POLICIES)["validationErrors"]], ["x"])
                for call in (POLICIES, deep, {"policies": "permit"}):
                    self.assertEqual(schema.validate(call), cedar.validate(named(call)))
                self.assertEqual(schema.check_data(entities), cedar.check_data(named(entities)))
                self.assertEqual(schema.typed_conditions(condition), cedar.typed_conditions(named(condition)))
                for wrong in (named(POLICIES), {"policies": {}, "x": 1}, "", "{}"):
                    self.assertEqual([it["of"] for it in schema.validate(wrong)["errors"]], ["call"])

    def test_a_schema_that_cannot_be_read(self):
        for wrong in ("entity", {"": 1}, "entity U in [No];", "x" * 100_000):
            with self.assertRaises(cedar.SchemaError) as raised:
                cedar.Schema(wrong)
            self.assertEqual(raised.exception.failure["errors"][0]["of"], "schema")

    def test_an_end(self):
        schema = cedar.Schema(SCHEMA)
        schema.close()
        schema.close()
        self.assertRaises(ValueError, schema.validate, POLICIES)
        with cedar.Schema(SCHEMA) as schema:
            self.assertRaises(ValueError, schema.answer_text, "cedar_schema_validate", b"\xff")
            self.assertEqual(schema.validate(POLICIES)["type"], "success")
        self.assertRaises(ValueError, schema.check_data, {})

    def test_a_small_room(self):
        call = json.dumps({"policies": {"staticPolicies": BAD * 500}}).encode()
        with cedar.Schema(SCHEMA) as schema:
            wanted = schema.answer_text("cedar_schema_validate", call)
            for room in (1, len(wanted) - 1, len(wanted), len(wanted) + 1):
                self.assertEqual(schema.answer_text("cedar_schema_validate", call, room), wanted)

    def test_memory(self):
        def run(count):
            for _ in range(count):
                with cedar.Schema(SCHEMA) as schema:
                    schema.answer_text("cedar_schema_validate", json.dumps(POLICIES).encode(), 1)
                cedar.Schema(SCHEMA)
            gc.collect()
        run(300)
        before = resource.getrusage(resource.RUSAGE_SELF).ru_maxrss
        run(3000)
        self.assertLess(resource.getrusage(resource.RUSAGE_SELF).ru_maxrss - before, 512)

    def test_threads_take_turns(self):
        text, wrong = json.dumps(POLICIES).encode(), []
        with cedar.Schema(SCHEMA) as schema:
            wanted = schema.answer_text("cedar_schema_validate", text)

            def run():
                for _ in range(1000):
                    if schema.answer_text("cedar_schema_validate", text, 1) != wanted:
                        wrong.append(1)
            threads = [threading.Thread(target=run) for _ in range(4)]
            for it in threads:
                it.start()
            for it in threads:
                it.join()
        self.assertEqual(wrong, [])


if __name__ == "__main__":
    unittest.main()
