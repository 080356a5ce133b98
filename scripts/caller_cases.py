#!/usr/bin/env python3
"""Calls the C library from other languages: scripts/caller_cases.py [--gate] [PROGRAM].

The library is built by scripts/library.py, without a proof, or with --gate by one over the libraries of scripts/prove, and
PROGRAM is cedar_validate, by default built without a proof. It looks at what the library exports, calls it from C (sizes, odd texts, handles,
memory, four threads, each refusal of memory, and the stack of threads of 1 MiB and of 256 KiB), and runs the test of each language of bindings/ that the machine has; another is skipped, which is said. Each policy
of the applications in crates/cedar_cases/data is answered as `cedar-validate --json` says it, and by a library that is proved
byte for byte as by one that is not. The last line counts what went well and what did not.
"""
import json
import os
import shutil
import subprocess
import sys
import tempfile
from pathlib import Path

import library
import unproved
from gate.application_cases import CASES, rows

TOP = Path(__file__).resolve().parent.parent
BINDINGS = TOP / "bindings"
SECONDS = 600
# What a thread of Java has, and a small thread, which is enough at a depth of 10.
STACK = 1024
SMALL_STACK = 256
# How many records with names may nest in a schema.
MOST_NAMED = 132
FLAGS = ["-O1", "-Wall", "-Wextra", "-Werror"]
# Where Debian keeps crates, and what lets cargo take them.
DEBIAN = Path("/usr/share/cargo/registry")
CRATES_OF_DEBIAN = ["--features", "serde", "--config", 'source.crates-io.replace-with="debian"', "--config", f'source.debian.directory="{DEBIAN}"']
SCHEMA = "entity P{again:P,on:Bool};action go appliesTo{principal:P,resource:P};"
SCOPE = "permit(principal,action,resource)"
SCOPE_JSON = {"effect": "permit", **{it: {"op": "All"} for it in ("principal", "action", "resource")}}
# Conditions that nest so many times, each in a form of its own.
NESTED = {
    "and": lambda n: " && ".join(["principal.on"] * n),
    "sum": lambda n: " + ".join(["1"] * n) + " == 1",
    "access": lambda n: "principal" + ".again" * n + ".on",
    # (four negations may stand side by side)
    "negation": lambda n: "!!!!(" * (n // 4) + "!" * (n % 4) + "principal.on" + ")" * (n // 4),
    "parentheses": lambda n: "(" * n + "principal.on" + ")" * n,
    "left": lambda n: "(" * n + "principal.on" + " || principal.on)" * n,
    "right": lambda n: "(principal.on || " * n + "principal.on" + ")" * n,
    "if": lambda n: "if principal.on then " * n + "true" + " else false" * n,
    "sets": lambda n: "[" * n + "1" + "]" * n,
    "records": lambda n: "{a:" * n + "1" + "}" * n,
}


# Writes the answers to the calls of files, one a line.
ANSWER = """
import sys
import cedar_validator
for name in sys.argv[1:]:
    with open(name, "rb") as call:
        sys.stdout.buffer.write(cedar_validator.answer_text("cedar_validate", call.read()) + b"\\n")
"""


class Missing(Exception):
    """A language that the machine has not."""


def ran(*words, folder=None, env=None):
    done = subprocess.run([str(it) for it in words], cwd=folder, stdin=subprocess.DEVNULL, stdout=subprocess.PIPE, stderr=subprocess.STDOUT, text=True, timeout=SECONDS, env={**os.environ, **(env or {})})
    if done.returncode:
        raise ValueError(f"{Path(words[0]).name} ended with status {done.returncode}\n{done.stdout[-3000:]}")
    return done.stdout


def need(*tools):
    for tool in tools:
        if shutil.which(tool) is None:
            raise Missing(tool)


class Callers:
    def __init__(self, folder, other, program, room):
        self.other, self.program, self.room = other, program, room
        self.lib = folder / "lib"
        self.env = {"LD_LIBRARY_PATH": str(self.lib), "CEDAR_LIBRARY": str(self.lib / "libcedar.so"), "PKG_CONFIG_PATH": str(self.lib / "pkgconfig")}

    def compiled(self, name, *words):
        """A program of bindings/c."""
        made = self.room / name
        ran("cc", *FLAGS, BINDINGS / "c" / f"{name}.c", "-o", made, *words)
        return made

    def exports(self):
        """The library shows its calls alone, and pkg-config finds it."""
        shared = ran("nm", "-D", "--defined-only", self.lib / "libcedar.so").split()
        archive = ran("nm", "-g", "--defined-only", self.lib / "libcedar.a").split()
        found = [sorted(it for it in names if it.startswith("cedar_")) for names in (shared, archive)]
        kinds = [len([it for it in names if it == "T"]) for names in (shared, archive)]
        if found != [sorted(library.CALLS)] * 2 or kinds != [len(library.CALLS)] * 2:
            raise ValueError(f"exported are {shared} and {archive}")
        need("pkg-config")
        if str(self.lib) not in os.path.normpath(ran("pkg-config", "--libs-only-L", "cedar", env=self.env).strip()[2:]):
            raise ValueError("pkg-config does not find the library")

    def c(self):
        """The test in C, with the shared library and with the archive."""
        shared = self.compiled("test", "-L", self.lib, "-lcedar", "-lpthread")
        ran(shared, env={**self.env, "GLIBC_TUNABLES": "glibc.malloc.tcache_count=0"})
        static = self.compiled("test", self.lib / "libcedar.a", "-lpthread")
        ran(static, env={"GLIBC_TUNABLES": "glibc.malloc.tcache_count=0"})

    def refusals(self):
        """Each growth of memory refused, of each call, of opening a schema, and of each call by an open one."""
        program = self.compiled("refused", "-fno-builtin", "-L", self.lib, "-lcedar", "-rdynamic")
        for name, call in refused_calls().items():
            text = self.room / f"{name}.json"
            text.write_text(json.dumps(call), encoding="utf8")
            env = {**self.env, "GLIBC_TUNABLES": "glibc.malloc.tcache_count=0"}
            ran(program, name, text, env=env)
            schema, by = self.room / f"{name}-schema.json", self.room / f"{name}-by.json"
            schema.write_text(json.dumps({"schema": call.pop("schema")}), encoding="utf8")
            by.write_text(json.dumps(call), encoding="utf8")
            ran(program, "schema-open", schema, env=env)
            ran(program, name, by, schema, env=env)

    def stack(self):
        """The deepest texts that are read, and conditions of the greatest depth that a call allows, fit the stack that cedar.h says."""
        program = self.compiled("stack", "-L", self.lib, "-lcedar", "-lpthread")
        for kib, call, texts in deep_calls():
            files = []
            for number, text in enumerate(texts):
                files.append(self.room / f"{call}-{kib}-{number}.json")
                files[-1].write_text(text, encoding="utf8")
            ran(program, kib, call, *files, env=self.env)

    def python(self):
        """The tests of the package, and the example of docs/LANGUAGES.md, whose answer has one error: `vip` may be missing."""
        env = {**self.env, "PYTHONDONTWRITEBYTECODE": "1"}
        ran(sys.executable, "-m", "unittest", "discover", "--pattern", "test*.py", folder=BINDINGS / "python", env=env)
        printed = ran(sys.executable, TOP / "examples" / "languages" / "first.py", env={**env, "PYTHONPATH": str(BINDINGS / "python")})
        if printed.count("\n") != 1 or not printed.startswith("vips unguarded-attribute "):
            raise ValueError(f"examples/languages/first.py prints {printed}")

    def applications(self):
        """Each application is answered as cedar-validate says it, and by another build byte for byte alike."""
        asked, files = [], []
        for schema, text, call in application_calls():
            settings = call["validationSettings"]
            asked.append((schema, text, settings["mode"], settings["level"]))
            files.append(self.room / f"application-{len(files)}.json")
            files[-1].write_text(json.dumps(call), encoding="utf8")
        answers = self.answers(self.lib, files)
        if self.other and self.answers(self.other / "lib", files) != answers:
            raise ValueError("a library that is proved does not answer as one that is not")
        for given, answer in zip(asked, answers, strict=True):
            found, wanted = by_library(json.loads(answer), given[1]), self.by_program(*given)
            if found != wanted:
                more, less = [it for it in found if it not in wanted], [it for it in wanted if it not in found]
                raise ValueError(f"{given[0].name}, {given[2:]}: {more[:3]} is answered, and {less[:3]} is wanted")

    def answers(self, lib, files):
        """The answers of a library to the calls of these files."""
        env = {"CEDAR_LIBRARY": str(lib / "libcedar.so"), "PYTHONPATH": str(BINDINGS / "python")}
        return ran(sys.executable, "-c", ANSWER, *files, env=env).splitlines()

    def by_program(self, schema, policies, mode, level):
        """What cedar-validate says, without the name of the file: of each policy, and of each finding."""
        text = self.room / "policies.cedar"
        text.write_text(policies, encoding="utf8")
        words = ["--json", "--mode", mode, *(["--level", str(level)] if level is not None else [])]
        done = subprocess.run([str(self.program), *words, str(schema), str(text)], stdin=subprocess.DEVNULL, capture_output=True, text=True, timeout=SECONDS)
        found = []
        for line in done.stdout.splitlines():
            it = json.loads(line)
            if it["kind"] == "policy":
                found.append((it["id"], it["accepted"], it.get("level", "unsaid")))
            elif it["kind"] in ("error", "warning"):
                place = it["line"], it["column"], it["end_line"], it["end_column"]
                found.append((it["id"], it["kind"], it["code"], it["text"], it.get("hint"), it.get("also", []), it["only"], place))
        return sorted(found, key=repr)

    def rust(self):
        """The tests of the crate, which finds the library by pkg-config; with its feature, where the machine has the crates of Debian."""
        need("cargo", "pkg-config")
        crate, words = self.room / "rust", CRATES_OF_DEBIAN
        shutil.copytree(BINDINGS / "rust", crate, ignore=shutil.ignore_patterns("target"))
        if not any(DEBIAN.glob("serde_json-*")):
            print("rust: the feature serde is skipped, as the machine has no librust-serde-json-dev", flush=True)
            # (cargo looks for each dependency, wanted or not)
            manifest = crate / "Cargo.toml"
            manifest.write_text(manifest.read_text(encoding="utf8").split("\n[features]")[0] + "\n", encoding="utf8")
            words = []
        ran("cargo", "test", "--offline", "--quiet", *words, folder=crate, env={**self.env, "CARGO_TARGET_DIR": str(self.room / "target")})

    def node(self):
        """The test of the addon."""
        need("node")
        headers = next((it for it in ("/usr/include/node", "/usr/local/include/node") if Path(it, "node_api.h").is_file()), None)
        if headers is None:
            raise Missing("node_api.h")
        addon = self.room / "cedar.node"
        ran("cc", *FLAGS, "-shared", "-fPIC", f"-I{headers}", *sorted((BINDINGS / "node").glob("*.c")), "-o", addon, "-L", self.lib, "-lcedar")
        ran("node", "--expose-gc", BINDINGS / "node" / "test.js", env={**self.env, "CEDAR_ADDON": str(addon)})

    def java(self):
        """The test of the class and its JNI library."""
        need("java", "javac")
        home = Path(shutil.which("javac")).resolve().parent.parent
        if not (home / "include" / "jni.h").is_file():
            raise Missing("jni.h")
        made = self.room / "libcedar_jni.so"
        ran("cc", *FLAGS, "-shared", "-fPIC", f"-I{home / 'include'}", f"-I{home / 'include' / 'linux'}", BINDINGS / "java" / "cedar_jni.c", "-o", made, "-L", self.lib, "-lcedar")
        ran("javac", "-encoding", "UTF-8", "-d", self.room, *sorted((BINDINGS / "java").rglob("*.java")))
        ran("java", "-Xmx256m", f"-Djava.library.path={self.room}", "-cp", self.room, "carrotknife.cedar.CedarTest", env=self.env)

    def go(self):
        """The test of the package, which finds the library by pkg-config."""
        need("go", "pkg-config")
        ran("go", "test", "./...", folder=BINDINGS / "go", env={**self.env, "GOCACHE": str(self.room / "go"), "GOFLAGS": "-mod=mod"})


def refused_calls():
    """A call of each kind, by its name, while memory is refused."""
    condition = SCOPE + ' when {principal.on && principal has "again" && resource.no};'
    return {
        "validate": {"validationSettings": {"level": 1, "details": True}, "schema": SCHEMA, "policies": {"staticPolicies": {"x": condition}}},
        "check-data": {"schema": SCHEMA, "entities": [{"uid": {"type": "P", "id": "x"}, "attrs": {"on": 1}, "parents": []}]},
        "typed-conditions": {"schema": SCHEMA, "policy": SCOPE + " when {principal.again.on};"},
    }


def application_calls():
    """The policies of each application at several settings: the file of the schema, the policies as a text, and the call."""
    for path in sorted(CASES.glob("apps_*.tsv")):
        schema, cases = rows(path)
        for policies, text in sets_of([case["policy"] for case in cases]):
            for mode, level in (("strict", None), ("permissive", None), ("strict", 0), ("strict", 1), ("permissive", 2)):
                settings = {"mode": mode, "level": level, "details": True}
                yield schema, text, {"validationSettings": settings, "schema": schema.read_text(encoding="utf8"), "policies": policies}


def policies_of(condition, **settings):
    policy = f"{SCOPE} when {{{condition}}};" if isinstance(condition, str) else {**SCOPE_JSON, "conditions": [{"kind": "when", "body": condition}]}
    return json.dumps({"schema": SCHEMA, "policies": {"staticPolicies": {"x": policy}}, "validationSettings": settings})


def nested(count, form, inner):
    """A value inside so many others."""
    for _ in range(count):
        inner = form(inner)
    return inner


def named_types(count):
    """A schema of an entity whose attribute nests so many records, each a type with a name."""
    records = "".join(f"type T{i + 1}={{a:T{i}}};" for i in range(count))
    return f"type T0=Long;{records}entity P{{a:T{count}}};action go appliesTo{{principal:P,resource:P}};"


def deep_calls():
    """How many KiB of stack are there, a call, and texts of it that have to fit."""
    negation = lambda it: {"!": {"arg": it}}
    texts = [policies_of(condition(depth)) for depth in (97, 396, 790) for condition in NESTED.values()]
    texts += [policies_of(nested(count, negation, {"Value": True})) for count in (97, 190)]
    for count in (199, 399):
        many = [{"kind": "when", "body": nested(190, negation, {"Value": True})}] + [{"kind": "when", "body": {"Value": True}}] * count
        texts.append(json.dumps({"schema": SCHEMA, "policies": {"staticPolicies": [{**SCOPE_JSON, "conditions": many}]}}))
    texts.append(json.dumps({"schema": SCHEMA, "policies": "".join(f"{SCOPE} when {{{it(98)}}};" for it in NESTED.values())}))
    for opens, closes in (("Set<", ">"), ("{a:", "}")):
        texts.append(json.dumps({"schema": f"entity P{{a:{opens * 398}Long{closes * 398}}};", "policies": {}}))
    shape = nested(130, lambda it: {"type": "Record", "attributes": {"a": it}}, {"type": "Long"})
    texts.append(json.dumps({"schema": {"": {"entityTypes": {"P": {"shape": shape}}, "actions": {}}}, "policies": {}}))
    equal = {"policies": f"{SCOPE} when {{principal.a == resource.a}};"}
    texts.append(json.dumps({"schema": named_types(390), **equal}))
    calls = [json.loads(it) for it in texts]
    yield STACK, "schema-open", [json.dumps({"schema": it["schema"]}) for it in calls[-4:]]
    by = [{key: it[key] for key in it if key != "schema"} for it in calls if it["schema"] == SCHEMA]
    yield STACK, "schema-validate", [json.dumps({"schema": SCHEMA}), *map(json.dumps, by)]
    yield STACK, "schema-validate", [json.dumps({"schema": named_types(MOST_NAMED)}), json.dumps(equal)]
    texts.append("[" * 400 + "]" * 400)
    yield STACK, "validate", texts
    yield STACK, "typed-conditions", [json.dumps({"schema": SCHEMA, "policy": f"{SCOPE} when {{{condition(97)}}};"}) for condition in NESTED.values()]
    entity = {"uid": {"type": "P", "id": "x"}, "attrs": {"a": nested(390, lambda it: [it], 1)}, "parents": []}
    yield STACK, "check-data", [json.dumps({"schema": f"entity P{{a:{'Set<' * 390}Long{'>' * 390}}};", "entities": [entity]})]
    # deeper than a call of depth 10 allows, and than it reads
    small = [policies_of(condition(count), depth=10) for count in (9, 38, 390) for condition in NESTED.values()]
    small += [policies_of(nested(count, negation, {"Value": True}), depth=10) for count in (9, 17, 190)]
    for count in (20, 200):
        many = [{"kind": "when", "body": {"Value": True}}] * count
        small.append(json.dumps({"schema": SCHEMA, "policies": {"staticPolicies": [{**SCOPE_JSON, "conditions": many}]}, "validationSettings": {"depth": 10}}))
    for opens, closes in (("Set<", ">"), ("{a:", "}")):
        small.append(json.dumps({"schema": f"entity P{{a:{opens * 100}Long{closes * 100}}};", "policies": {}, "validationSettings": {"depth": 10}}))
    yield SMALL_STACK, "validate", small
    # CEDAR_STACK(400) of cedar.h
    yield (786432 + 400 * 6144) // 1024, "validate", [policies_of(condition(396), depth=400, details=True) for condition in NESTED.values()]


def sets_of(policies):
    """The policies of a call, and their text as a file: all that have no slot, and each template."""
    templates = [it for it in policies if "?principal" in it or "?resource" in it]
    text = "\n".join(it for it in policies if it not in templates) + "\n"
    yield {"staticPolicies": text}, text
    for it in templates:
        yield {"templates": {"policy0": it}}, it


def place_in(text, byte):
    """The line and the column of a byte of a text."""
    before = text.encode()[:byte].decode()
    return before.count("\n") + 1, len(before) - (before.rfind("\n") + 1) + 1


def by_library(answer, policies):
    """What an answer says of each policy, and of each finding."""
    found = [(it["policyId"], it["accepted"], it.get("level", "unsaid")) for it in answer["policies"]]
    for it in answer["validationErrors"] + answer["validationWarnings"]:
        error = it["error"]
        [at] = error["sourceLocations"]
        place = *place_in(policies, at["start"]), *place_in(policies, at["end"])
        found.append((it["policyId"], error["severity"], error["code"], error["message"], error["help"], it["also"], it["environments"], place))
    return sorted(found, key=repr)


PARTS = (Callers.exports, Callers.c, Callers.refusals, Callers.stack, Callers.python, Callers.applications, Callers.rust, Callers.node, Callers.java, Callers.go)


def main(words):
    is_proved = words[:1] == ["--gate"]
    programs = words[is_proved:]
    passed = failed = 0
    with tempfile.TemporaryDirectory(prefix="callers-") as held:
        room = Path(held)
        library.build(room / "library", library.over_gate if is_proved else library.without_proof)
        if is_proved:
            library.build(room / "unproved", library.without_proof)
        program = Path(programs[0]).resolve() if programs else unproved.program("cedar_validate")
        callers = Callers(room / "library", room / "unproved" if is_proved else None, program, room)
        for part in PARTS:
            try:
                part(callers)
                passed += 1
            except Missing as tool:
                print(f"{part.__name__}: skipped, as the machine has no {tool}", flush=True)
            except (OSError, ValueError, LookupError, subprocess.SubprocessError) as error:
                print(f"{part.__name__}: {error}", flush=True)
                failed += 1
    print(f"{passed} passed, {failed} failed")
    return 1 if failed or not passed else 0


if __name__ == "__main__":
    try:
        sys.exit(main(sys.argv[1:]))
    except (library.NotBuilt, unproved.KitDoesNotFit, unproved.DoesNotCompile) as error:
        print(f"{error}\n0 passed, 1 failed")
        sys.exit(1)
