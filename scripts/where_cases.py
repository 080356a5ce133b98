#!/usr/bin/env python3
"""Where-clauses in a real SQLite, against Cedar's rules: scripts/where_cases.py [PROGRAM].

PROGRAM is that of crates/cedar_samples; without a word it is built without a proof. Its word `clauses` gives the clause of each policy, and
`queries` the query of each set. Random policies of a fixed seed are compiled over tables as the program declares them, with rows whose
entities share ids across types, lack optional attributes and make parts of conditions fail. Each clause is compared on each row with an
evaluation of the policy in this script (1, 0, or NULL where evaluation fails), and the query of each set with the decision of an
authoriser. Then the tables have to refuse rows that no clause is right on, each supported form has to have a clause, and each other form,
text and set has to be refused. Large sets, long and deep conditions have to run, and odd names have to be names only. The last line counts
what agrees and what does not. (scripts/measure/where_growth.py finds the largest sizes that run.)
"""
import random
import re
import sqlite3
import subprocess
import sys
import tempfile
from functools import partial
from pathlib import Path

import unproved

POLICIES, ROWS, SETS = 1000, 1000, 40

SCHEMA = """type Device = { trusted: Bool, owner?: User };
type Context = { day: Long, note?: String, device: Device, who: User };
entity Group in [Group];
entity User in [Group] { name: String, age?: Long, vip: Bool, boss: User, home?: Album, card: { level: Long } };
entity Album in [Album] { name: String, age?: Long, vip: Bool, boss: User, home?: Album, card: { level: Long } };
entity Photo in [Album] { owner: User, backup?: User, album: Album, near?: Album, group: Group, title: String, tag: String, note?: String,
  level: Long, size: Long, rank?: Long, public: Bool, draft: Bool, secret?: Bool, labels: Set<String>, "select": String, "a'b\\"c": Long,
  place: { city: String, floor?: Long, spot: { x: Long, y?: Long } }, frame?: { width: Long, glass?: Bool, maker: User } };
action read;
action view, share in [read] appliesTo { principal: User, resource: Photo, context: Context };
action sync appliesTo { principal: Album, resource: Photo, context: Context };
"""
# What the principal, the context, the resource and the entities behind them give: each path, and its kind. Behind an entity a value may be missing
# because the entity is not stored, but only an optional attribute needs a test before it.
PATHS = {"principal.name": "S", "principal.age": "L", "principal.vip": "B", "principal.boss": "User", "principal.home": "Album", "principal.card.level": "L",
         "principal.boss.name": "S", "principal.boss.boss": "User", "principal.boss.age": "L", "context.day": "L", "context.note": "S",
         "context.device.trusted": "B", "context.device.owner": "User", "context.who": "User", "context.who.name": "S", "context.who.age": "L",
         "resource.owner.name": "S", "resource.owner.vip": "B", "resource.owner.boss": "User", "resource.owner.boss.boss.name": "S", "resource.owner.age": "L",
         "resource.owner.home": "Album", "resource.owner.boss.home": "Album", "resource.owner.card.level": "L", "resource.album.name": "S",
         "resource.album.boss": "User", "resource.album.boss.vip": "B", "resource.album.age": "L", "resource.place.city": "S", "resource.place.floor": "L",
         "resource.place.spot.x": "L", "resource.place.spot.y": "L", "resource.frame.width": "L", "resource.frame.glass": "B", "resource.frame.maker": "User",
         "resource.frame.maker.name": "S", "resource.backup.name": "S", "resource.near.boss": "User", 'User::"bob".name': "S", 'User::"bob".boss.vip': "B",
         'Album::"it\'s".age': "L"}
# The attributes on a path that are optional.
OPTIONAL_STEPS = {"age", "home", "note", "floor", "y", "frame", "glass", "backup", "near"}
OPTIONAL_PATHS = tuple(path for path in PATHS if OPTIONAL_STEPS & set(path.split(".")) or path == "context.device.owner")
RECORDS = {"card", "device", "place", "spot", "frame"}
# Tests: what stands before `has`, and the attributes behind it. (A record has no column of its own, so nothing tells whether one behind an entity or
# an optional one is there.)
TESTS = tuple((".".join(names[:n]), ".".join(names[n:])) for path in PATHS for names in [path.split(".")] for n in range(1, len(names))
              if names[n - 1] not in RECORDS or names[:n] in (["context", "device"], ["resource", "place"], ["resource", "place", "spot"]))
# The kind of each attribute, by the schema: B, L, S, or an entity type.
ATTRIBUTES = {"owner": "User", "backup": "User", "album": "Album", "near": "Album", "group": "Group", "title": "S", "tag": "S", "note": "S",
              "level": "L", "size": "L", "rank": "L", "public": "B", "draft": "B", "secret": "B", "select": "S", "a'b\"c": "L"}
OPTIONAL = ("backup", "near", "note", "rank", "secret")
ENVIRONMENTS = (("User", "view"), ("User", "share"), ("Album", "sync"))
GROUPS_OF_ACTIONS = {"view": {("Action", "read")}, "share": {("Action", "read")}, "sync": set()}
IDS = ["alice", "bob", "Alice", "7", "07", "", "it's", 'q"q', "é"]
TEXTS = ["", "a", "A", "a ", "ab", "aXb", "007", "7", "7.0", "1e1", "é", "e\u0301", "TRUE", "title", "%", "_", "*", "a*b", "?", "[a]", "]", "a\nb", "--", "😀",
         "it's", 'q"q', "NULL", "; DROP TABLE x", "\ufffd", "\ufffe", "a\uffff"]
NUMBERS = [0, 1, -1, 7, 10, 2**63 - 1, -2**63, 2**53 + 1, 2**53, -2**63 + 1]
FAIL = None


def cedar_text(text):
    escapes = {"\\": "\\\\", '"': '\\"', "\n": "\\n", "\0": "\\0"}
    return '"' + "".join(escapes.get(c, c) for c in text) + '"'


def cedar_pattern(pattern):
    escapes = {"\\": "\\\\", '"': '\\"', "\n": "\\n", "\0": "\\0", "*": "\\*"}
    return '"' + "".join("*" if c is Ellipsis else escapes.get(c, c) for c in pattern) + '"'


def is_identifier(name):
    return re.fullmatch(r"[A-Za-z_]\w*", name) is not None


# ---- conditions: how they are written, and what they evaluate to by Cedar's rules

INFIX = {"and": "&&", "or": "||", "eq": "==", "ne": "!=", "lt": "<", "le": "<=", "gt": ">", "ge": ">=", "in": "in"}


def show(e):
    form = e[0]
    if form == "attr":
        return f"resource.{e[1]}" if is_identifier(e[1]) else f"resource[{cedar_text(e[1])}]"
    if form == "has":
        return f"resource has {e[1] if is_identifier(e[1]) else cedar_text(e[1])}"
    if form == "path":
        return e[1]
    if form == "has path":
        return f"{e[1]} has {e[2]}"
    if form == "contains":
        return f"[{', '.join(cedar_text(text) for text in e[1])}].contains({show(e[2])})"
    if form == "lit":
        return cedar_text(e[1]) if isinstance(e[1], str) else str(e[1]).lower()
    if form == "entity":
        return f"{e[1]}::{cedar_text(e[2])}"
    if form == "var":
        return e[1]
    if form == "not":
        return f"!({show(e[1])})"
    if form == "like":
        return f"({show(e[1])}) like {cedar_pattern(e[2])}"
    if form == "is":
        return f"({show(e[1])}) is {e[2]}"
    if form == "in any":
        return f"({show(e[1])}) in [{', '.join(show(x) for x in e[2])}]"
    if form == "if":
        return f"(if {show(e[1])} then {show(e[2])} else {show(e[3])})"
    return f"({show(e[1])}) {INFIX[form]} ({show(e[2])})"


def matches(pattern, text):
    """Whether the whole text matches: a character stands for itself, a wildcard for any run of characters."""
    return re.fullmatch("".join(".*" if c is Ellipsis else re.escape(c) for c in pattern), text, re.S) is not None


def follow(path, world, row=None):
    """The value at the end of a path: of records, of entities that are stored, and of the resource. None where an attribute or an entity is missing."""
    first, *names = path.split(".")
    kind, _, eid = first.partition("::")
    value = (kind, eid[1:-1]) if eid else row if first == "resource" else world[first]
    for name in names:
        value = (world["stored"].get(value, {}) if isinstance(value, tuple) else value).get(name, FAIL)
        if value is FAIL:
            return FAIL
    return value


def parameters(world):
    """What a query's parameters have to be bound to."""
    asked = (path for path in PATHS if path.startswith(("principal.", "context.")))
    return {"principal": world["principal"][1], **{path.replace(".", "$"): cell(follow(path, world)) for path in asked}}


def evaluator(e, world):
    """A function of a row's attributes: a value, or FAIL. Entities are pairs of a type and an id."""
    form = e[0]
    if form == "attr":
        name = e[1]
        return lambda row: row.get(name, FAIL)
    if form == "has":
        name = e[1]
        return lambda row: name in row
    if form == "path":
        path = e[1]
        if path.startswith("resource."):
            return lambda row: follow(path, world, row)
        value = follow(path, world)
        return lambda row: value
    if form == "has path":
        base, whole = e[1], f"{e[1]}.{e[2]}"
        return lambda row: FAIL if follow(base, world, row) is FAIL else follow(whole, world, row) is not FAIL
    if form == "if":
        test, then, otherwise = (evaluator(part, world) for part in e[1:])
        return lambda row: FAIL if (v := test(row)) is FAIL else then(row) if v else otherwise(row)
    if form == "contains":
        texts, member = e[1], evaluator(e[2], world)
        return lambda row: FAIL if (v := member(row)) is FAIL else v in texts
    if form == "lit":
        value = e[1]
        return lambda row: value
    if form == "entity":
        value = (e[1], e[2])
        return lambda row: value
    if form == "var":
        if e[1] == "resource":
            return lambda row: ("Photo", row["::eid"])
        value = world[e[1]]
        return lambda row: value
    a = evaluator(e[1], world)
    if form == "not":
        return lambda row: FAIL if (v := a(row)) is FAIL else not v
    if form == "like":
        pattern = e[2]
        return lambda row: FAIL if (v := a(row)) is FAIL else matches(pattern, v)
    if form == "is":
        kind = e[2]
        return lambda row: FAIL if (v := a(row)) is FAIL else v[0] == kind
    if form == "in any":
        ancestors, members = world["ancestors"], {x[1:] for x in e[2]}
        return lambda row: FAIL if (v := a(row)) is FAIL else v in members or not members.isdisjoint(ancestors.get(v, ()))
    b = evaluator(e[2], world)
    if form == "and":
        return lambda row: b(row) if (v := a(row)) is True else v
    if form == "or":
        return lambda row: b(row) if (v := a(row)) is False else v
    test = operator(form, world["ancestors"])

    def both(row):
        v = a(row)
        if v is FAIL:
            return FAIL
        w = b(row)
        return FAIL if w is FAIL else test(v, w)
    return both


def operator(form, ancestors):
    if form == "eq":
        return lambda v, w: type(v) is type(w) and v == w
    if form == "ne":
        return lambda v, w: not (type(v) is type(w) and v == w)
    if form == "in":
        return lambda v, w: v == w or w in ancestors.get(v, ())
    return {"lt": lambda v, w: v < w, "le": lambda v, w: v <= w, "gt": lambda v, w: v > w, "ge": lambda v, w: v >= w}[form]


# ---- random conditions

class Conditions:
    """Random conditions. Where `guarded`, each optional attribute stands behind its test, so that the check passes."""

    def __init__(self, rng, guarded):
        self.rng, self.guarded = rng, guarded
        self.tests = [(base, names) for base, names in TESTS if not guarded or not OPTIONAL_STEPS & set(base.split("."))]

    def attribute(self, kind):
        names = [n for n, k in ATTRIBUTES.items() if k == kind and not (self.guarded and n in OPTIONAL)]
        return ("attr", self.rng.choice(names))

    def path(self, kind):
        return ("path", self.rng.choice([p for p, k in PATHS.items() if k == kind and not (self.guarded and p in OPTIONAL_PATHS)]))

    def term(self, kind):
        r = self.rng.random()
        if r < 0.4:
            return self.attribute(kind)
        if r < 0.7 and kind in PATHS.values() and (kind != "Album" or not self.guarded):
            return self.path(kind)
        if r < 0.73 and len(kind) == 1:
            return ("if", self.leaf(), self.term(kind), self.term(kind))
        if kind == "S":
            return ("lit", self.rng.choice(TEXTS))
        if kind == "L":
            return ("lit", self.rng.choice(NUMBERS))
        if kind == "B":
            return ("lit", self.rng.random() < 0.5)
        return ("entity", kind, self.rng.choice(IDS))

    def entity(self):
        r = self.rng.random()
        if r < 0.35:
            return ("var", "principal")
        if r < 0.45:
            return ("var", "resource")
        return self.term(self.rng.choice(["User", "Album", "Group"]))

    def pattern(self):
        return tuple(self.rng.choice([..., "a", "b", "*", "[", "]", "?", "é", "'", "%", "A"]) for _ in range(self.rng.randrange(4)))

    def leaf(self):
        r, choose = self.rng.random(), self.rng.choice
        if r < 0.1:
            return self.attribute("B")
        if r < 0.13:
            return ("has", choose([n for n in ATTRIBUTES]))
        if r < 0.15:
            return ("has path", *choose(self.tests))
        if r < 0.2:
            base, names = choose([test for test in self.tests if ".".join(test) in OPTIONAL_PATHS])
            path = f"{base}.{names}"
            kind = PATHS[path]
            return ("and", ("has path", base, names), ("eq", ("path", path), self.entity() if len(kind) > 1 else self.term(kind)))
        if r < 0.23:
            return ("contains", tuple(choose(TEXTS) for _ in range(self.rng.randrange(1, 4))), self.term("S"))
        if r < 0.3:
            name = choose(OPTIONAL)
            kind = ATTRIBUTES[name]
            return ("and", ("has", name), ("eq", ("attr", name), self.entity() if len(kind) > 1 else self.term(kind)))
        if r < 0.35:
            return ("eq", ("var", "action"), ("entity", "Action", choose(["view", "share", "sync"])))
        if r < 0.4:
            return ("in", ("var", "action"), ("entity", "Action", choose(["view", "read"])))
        if r < 0.5:
            return (choose(["eq", "ne"]), self.entity(), self.entity())
        if r < 0.56:
            return ("in", self.entity(), self.entity())
        if r < 0.6:
            kinds = [self.rng.choice(["User", "Album", "Group", "Photo"]) for _ in range(self.rng.randrange(1, 4))]
            return ("in any", self.entity(), [("entity", kind, self.rng.choice(IDS)) for kind in kinds])
        if r < 0.65:
            return ("is", self.entity(), choose(["User", "Album", "Photo"]))
        if r < 0.75:
            return ("like", self.term("S"), self.pattern())
        if r < 0.87:
            kind = choose("SLB")
            return (choose(["eq", "ne"]), self.term(kind), self.term(kind))
        return (choose(["lt", "le", "gt", "ge"]), self.term("L"), self.term("L"))

    def condition(self, depth):
        r = self.rng.random()
        if depth <= 0 or r < 0.2:
            return self.leaf()
        if r < 0.5:
            return ("and", self.condition(depth - 1), self.condition(depth - 1))
        if r < 0.8:
            return ("or", self.condition(depth - 1), self.condition(depth - 1))
        if r < 0.93:
            return ("not", self.condition(depth - 1))
        if r < 0.96:
            return ("if", self.condition(depth - 2), self.condition(depth - 2), self.condition(depth - 2))
        return (self.rng.choice(["eq", "ne"]), self.condition(depth - 2), self.condition(depth - 2))


def policy_text(name, effect, condition):
    return f'@id("{name}")\n{effect}(principal, action, resource) when {{ {condition} }};\n'


# ---- the store, as entities and as tables

def store(rng):
    """The rows of photos, as their attributes, and the ancestors of each entity."""
    rows, ancestors = [], {}
    groups = [("Group", i) for i in IDS]
    albums = [("Album", i) for i in IDS]
    for entity in [("User", i) for i in IDS] + groups:
        ancestors[entity] = {g for g in groups if rng.random() < 0.25 and g != entity}
    for album in albums:
        ancestors[album] = {a for a in albums if rng.random() < 0.2 and a != album}
    for action, above in GROUPS_OF_ACTIONS.items():
        ancestors["Action", action] = above
    for n in range(ROWS):
        row = {"::eid": IDS[n] if n < len(IDS) else f"photo{n}"}
        for name, kind in ATTRIBUTES.items():
            if name in OPTIONAL and rng.random() < 0.4:
                continue
            row[name] = {"S": lambda: rng.choice(TEXTS), "L": lambda: rng.choice(NUMBERS), "B": lambda: rng.random() < 0.5}.get(
                kind, lambda kind=kind: (kind, rng.choice(IDS)))()
        row["place"] = {"city": rng.choice(TEXTS), "spot": {"x": rng.choice(NUMBERS)} | some(rng, {"y": rng.choice(NUMBERS)})} | some(rng, {"floor": rng.choice(NUMBERS)})
        row |= some(rng, {"frame": {"width": rng.choice(NUMBERS), "maker": ("User", rng.choice(IDS))} | some(rng, {"glass": rng.random() < 0.5})})
        rows.append(row)
        ancestors["Photo", row["::eid"]] = {a for a in albums if rng.random() < 0.2}
    return rows, ancestors


def some(rng, attributes):
    return {name: value for name, value in attributes.items() if rng.random() < 0.6}


def request(rng, principal_type, action, ancestors):
    """A request's principal, action and context, and the entities that are stored: neither each user nor each album is."""
    stored = {}
    for entity in [(kind, eid) for kind in ("User", "Album") for eid in IDS if rng.random() < 0.8]:
        attributes = {"name": rng.choice(TEXTS), "vip": rng.random() < 0.5, "boss": ("User", rng.choice(IDS)), "card": {"level": rng.choice(NUMBERS)}}
        optional = {"age": rng.choice(NUMBERS), "home": ("Album", rng.choice(IDS))}
        stored[entity] = attributes | {name: value for name, value in optional.items() if rng.random() < 0.6}
    device = {"trusted": rng.random() < 0.5} | ({"owner": ("User", rng.choice(IDS))} if rng.random() < 0.6 else {})
    context = {"day": rng.choice(NUMBERS), "device": device, "who": ("User", rng.choice(IDS))} | ({"note": rng.choice(TEXTS)} if rng.random() < 0.6 else {})
    return {"principal": (principal_type, rng.choice(IDS)), "action": ("Action", action), "context": context, "stored": stored, "ancestors": ancestors}


def cell(value):
    return value[1] if isinstance(value, tuple) else int(value) if isinstance(value, bool) else value


def column_value(eid, attributes, name):
    value = eid if name == "eid" else attributes
    for part in name.split(".") if name != "eid" else ():
        value = value.get(part, FAIL) if value is not FAIL else FAIL
    return cell(value)


def fill(db, kind, entities):
    """Puts entities, ids with attributes, into the table of their type, in place of those in it."""
    columns = [name for _, name, *_ in db.execute(f'pragma table_info("{kind}")')]
    if columns:
        db.execute(f'delete from "{kind}"')
        marks = ", ".join("?" * len(columns))
        db.executemany(f'insert into "{kind}" values ({marks})', [[column_value(eid, attributes, name) for name in columns] for eid, attributes in entities])


def fill_stored(db, world):
    """The tables of the entities behind the resource, as the request's store has them."""
    for kind in ("User", "Album"):
        fill(db, kind, [(eid, attributes) for (k, eid), attributes in world["stored"].items() if k == kind])


def database(tables, rows, ancestors):
    db = sqlite3.connect(":memory:")
    for table in tables:
        if not table.startswith("- "):
            db.execute(table)
    fill(db, "Photo", [(row["::eid"], row) for row in rows])
    for (kind, eid), above in ancestors.items():
        db.executemany('insert into "entity ancestors" values (?, ?, ?, ?)', [(kind, eid, k, i) for k, i in above])
    return db


# ---- the program

def run(program, word, schema, policies):
    with tempfile.TemporaryDirectory() as room:
        files = Path(room, "s"), Path(room, "p")
        files[0].write_text(schema, encoding="utf8")
        files[1].write_text(policies, encoding="utf8")
        return subprocess.run([program, word, *files], capture_output=True, timeout=120)


def read_cases(output):
    """The tables, and each policy's clauses by environment: a text, or the reason why there is none behind `- `."""
    at, tables, clauses = 0, [], {}

    def line():
        nonlocal at
        end = output.index(b"\n", at)
        text, at = output[at:end], end + 1
        return text

    def sized(text):
        nonlocal at
        size, _, rest = text.partition(b" ")
        whole = rest + b"\n" + output[at:]
        text = whole[:int(size)]
        at = len(output) - len(whole) + int(size) + 1
        return text.decode()

    while at < len(output):
        words = line()
        if words[:1].isdigit() or words.startswith(b"- "):
            tables.append(words.decode() if words.startswith(b"- ") else sized(words))
            continue
        name, effect, rest = words.split(b" ", 2)
        text = rest.decode() if rest.startswith(b"- ") else sized(rest)
        clauses.setdefault(name.decode(), []).append(text)
    return tables, clauses


def read_queries(output):
    """The tables, and the query of each environment, or None; no tables where the set is refused."""
    if not output.startswith(b"CREATE TABLE"):
        return [], {}
    head, *blocks = re.split(r"\n\n-- (?=\w+, Action::)", output.decode())
    tables, queries = [head.rstrip(";\n")], {}
    for block in blocks:
        title, _, rest = block.partition("\n")
        principal, action, _ = title.split(", ")
        while rest.startswith("CREATE TABLE"):
            table, _, rest = rest.partition(";\n")
            tables.append(table)
        # (before the query there is a line for each policy that has no clause)
        query = re.sub(r"\A(?:-- no (?:clause|table).*\n)*", "", rest)
        queries[principal, action.split('"')[1]] = None if query.rstrip("\n") == "-- no query" else query.rstrip(";\n")
    return tables, queries


# ---- the checks

class Tally:
    def __init__(self):
        self.passed, self.failed = 0, 0

    def check(self, holds, what):
        if holds:
            self.passed += 1
        else:
            self.failed += 1
            if self.failed <= 20:
                print("failed:", what)


def unique(tables):
    return list(dict.fromkeys(tables))


def check_clauses(tally, clauses_of, rng):
    """Each clause on each row: 1, 0, or NULL where evaluation fails."""
    made = {f"p{i}": Conditions(rng, guarded=i % 3 != 0).condition(4) for i in range(POLICIES)}
    done = clauses_of(SCHEMA, "".join(policy_text(name, "permit", show(e)) for name, e in made.items()))
    if done.returncode:
        sys.exit(done.stderr.decode())
    tables, clauses = read_cases(done.stdout)
    rows, ancestors = store(rng)
    db = database(unique(tables), rows, ancestors)
    compiled, failing = 0, 0
    for n, (name, e) in enumerate(made.items()):
        principal_type, action = ENVIRONMENTS[n % len(ENVIRONMENTS)]
        clause = clauses[name][n % len(ENVIRONMENTS)]
        if clause.startswith("- "):
            tally.check(False, (name, show(e), clause))
            continue
        compiled += 1
        world = request(rng, principal_type, action, ancestors)
        evaluate = evaluator(e, world)
        fill_stored(db, world)
        have = dict(db.execute(f'select "Photo"."eid", {clause} from "Photo"', parameters(world)))
        wrong = 0
        for row in rows:
            want = evaluate(row)
            failing += want is FAIL
            wrong += have[row["::eid"]] != (None if want is FAIL else int(want))
        tally.check(wrong == 0, (name, principal_type, action, world, wrong, show(e), clause))
    print(f"{compiled} clauses on {len(rows)} rows each, of which evaluation fails on {failing}")


def check_sets(tally, queries_of, rng):
    """The query of a set, against the decision of an authoriser."""
    rows, ancestors = store(rng)
    decisions = 0
    for n in range(SETS):
        made = {f"p{i}": (rng.choice(["permit", "permit", "forbid"]), Conditions(rng, guarded=True).condition(3)) for i in range(4)}
        done = queries_of(SCHEMA, "".join(policy_text(name, effect, show(e)) for name, (effect, e) in made.items()))
        tables, queries = read_queries(done.stdout)
        if not tables:
            continue
        db = database(unique(tables), rows, ancestors)
        for (principal_type, action), query in queries.items():
            world = request(rng, principal_type, action, ancestors)
            fill_stored(db, world)
            tests = [(effect, evaluator(e, world)) for effect, e in made.values()]
            have = {eid for eid, in db.execute(query, parameters(world))}
            want = set()
            for row in rows:
                satisfied = {effect for effect, test in tests if test(row) is True}
                if satisfied == {"permit"}:
                    want.add(row["::eid"])
            decisions += len(rows)
            tally.check(have == want, (n, principal_type, action, world, [(k, show(e)) for k, e in made.values()], query))
    print(f"{decisions} decisions of sets")


# ---- what has a clause, and what has none

HAVE = ("true", "resource.public", "!resource.public", "resource.public && resource.draft", "resource.public || resource.draft",
        "resource.level == 7", "resource.level < 7", "resource.level <= 7", "resource.level > -9223372036854775808", "resource.title != \"it's\"",
        "resource.title like \"a*b\\*\"", "principal == resource.owner", "principal == resource.album", "resource == Photo::\"7\"", "principal is User",
        "resource is Photo", "resource.owner is Album", "principal in Group::\"7\"", "principal in resource.group", "resource in resource.album",
        "action in Action::\"read\"", "action in [Action::\"view\", Action::\"sync\"]",
        "principal in [Group::\"7\", User::\"bob\"]", "resource has note", "resource has note && resource.note == \"a\"", "resource has title",
        "resource has backup && principal == resource.backup", "resource.public == (1 == 2)", "resource[\"select\"] == \"a\"", "resource.public == true",
        "principal.name == \"a\"", "principal has age && principal.age < 7", "principal.card.level == resource.level", "principal.boss.boss == resource.owner",
        "context.day < 7", "context.device.trusted", "context has note && context.note like \"a*\"", "context.who in Group::\"7\"",
        "context.device has owner && context.device.owner == principal", "[\"a\", \"it's\"].contains(resource.title)",
        "resource.owner.name == \"a\"", "resource.owner.boss.boss == principal", "resource.owner has age && resource.owner.age < 7", "resource.owner.boss has age",
        "principal.boss has age", "principal.boss has home.name", "resource.place.city like \"a*\"", "resource.place.spot.x <= resource.owner.card.level",
        "resource has frame.width && resource.frame.width == 1", "resource.place has spot.y", "resource has backup.home.boss", "User::\"bob\".boss == principal",
        "User::\"bob\" has age", "principal in resource.album.boss", "if resource.public then resource.draft else true", "(if resource.public then 1 else resource.level) < 7",
        "(if resource.owner has age then resource.title else \"b\") == \"b\"",
        "[\"a\"].contains(principal.name)", "resource.title == \"\\u{fffe}\"", "resource.title like \"*\\u{fffc}\"")
NO_COLUMN = "no column and no parameter has this value"
NO_PATH = "no path of declared attributes leads here"
NO_IF = "`if` has a clause only of truth values, numbers or texts"
NO_PATTERN = "a pattern with NUL, a backslash, U+FFFD, U+FFFE or U+FFFF has no clause"
HAVE_NONE = (("resource.level + 1 == 7", "SQL's arithmetic does not fail as Cedar's does"), ("-resource.level == 7", "SQL's arithmetic does not fail as Cedar's does"),
             ("(if resource.public then resource.owner else principal) == principal", NO_IF), ("(if resource.public then 1 else \"a\") == 1", NO_IF),
             ("resource.labels.contains(\"a\")", NO_COLUMN), ("resource has frame", NO_COLUMN), ("resource.frame has glass", NO_COLUMN),
             ("resource.owner.card has level", NO_COLUMN), ("resource.place == resource.place", NO_COLUMN), ("resource.owner.card == principal.card", NO_COLUMN),
             ("[\"a\", principal.name].contains(resource.title)", "a set has no clause"), ("[\"a\\\\\"].contains(resource.title)", "a set has no clause"),
             ("[1].contains(resource.level)", "a set has no clause"), ("principal.card == principal.boss.card", NO_COLUMN),
             ("context has device", NO_COLUMN), ("resource.owner.labels == resource.labels", NO_PATH), ("resource.owner[\"a\\\\\"]", NO_PATH),
             ("principal in [resource.group, Group::\"7\"]", "a set has no clause"), ("resource.title == \"a\\0\"", "a text with NUL or a backslash has no clause"),
             ("resource.title == \"\\\\\"", "a text with NUL or a backslash has no clause"), ("resource.title like \"*\\\\\"", NO_PATTERN),
             ("resource.title like \"\\0\"", NO_PATTERN), ("resource.title like \"\\u{fffd}\"", NO_PATTERN),
             ("resource.title like \"a\\u{fffe}*\"", NO_PATTERN), ("resource.title like \"*\\u{ffff}\"", NO_PATTERN),
             ("principal == User::\"a\\\\' OR 1 = 1 --\"", "a text with NUL or a backslash has no clause"), ("context has x", NO_PATH),
             ("{a: resource.public}.a", NO_PATH), ("resource.owner has x", NO_PATH), ("resource has place.x", NO_PATH), ("resource.title has x", NO_PATH))


def check_forms(tally, clauses_of):
    conditions = [*HAVE, *(c for c, _ in HAVE_NONE)]
    done = clauses_of(SCHEMA, "".join(policy_text(f"p{i}", "permit", c) for i, c in enumerate(conditions)))
    tables, clauses = read_cases(done.stdout)
    tally.check(len(clauses) == len(conditions), done.stderr)
    for i, condition in enumerate(conditions):
        clause = clauses.get(f"p{i}", ["- no output"])[0]
        reason = dict(HAVE_NONE).get(condition)
        tally.check(clause == f"- {reason}" if reason else not clause.startswith("- "), (condition, clause))


# What a condition is for a photo without optional attributes: its value by Cedar's rules, where None is a failure.
OF_ABSENT = (("resource.rank == 1", None), ("!(resource.rank == 1)", None), ("resource.rank < 1", None), ("resource.rank <= 1", None), ("resource.secret", None),
             ("resource.note like \"*\"", None), ("resource.backup is User", None), ("resource.backup is Album", None), ("resource.backup == resource.album", None),
             ("principal in resource.near", None), ("resource.near in resource.album", None), ("resource.backup in [Group::\"7\"]", None),
             ("resource.secret && false", None), ("false && resource.secret", 0), ("true && resource.secret", None), ("resource.secret && resource.secret", None),
             ("resource.secret || true", None), ("true || resource.secret", 1), ("false || resource.secret", None), ("resource.secret || resource.secret", None),
             ("(false && resource.secret) || true", 1), ("(resource.secret && false) || true", None), ("!(true || resource.secret)", 0),
             ("(resource.secret || true) == true", None), ("resource.secret == resource.secret", None), ("resource has secret", 0), ("!(resource has secret)", 1),
             ("resource.frame.width == 1", None), ("resource has frame.width", 0), ("resource has frame.glass", 0),
             ("resource.place has floor", 0), ("resource.place.spot.y == 1", None), ("resource.place.city == resource.place.city", 1), ("resource.owner.name == \"a\"", None),
             ("resource.owner has age", 0), ("resource.owner has boss.age", 0), ("resource.owner.boss has age", None), ("resource.owner.boss.boss == principal", None),
             ("principal in resource.album.boss", None), ("resource.owner.vip || true", None), ("true || resource.owner.vip", 1), ("resource.backup has age", None),
             ("resource has backup.age", 0), ("User::\"bob\" has age", 0), ("User::\"bob\".vip", None), ("if resource.secret then true else true", None),
             ("if true then true else resource.secret", 1), ("if false then true else resource.secret", None), ("(if resource has secret then resource.secret else true)", 1),
             ("(if resource.secret then 1 else 2) < 3", None), ("resource has secret && resource.secret", 0), ("!(resource has secret && resource.secret)", 1), ("(resource has secret && resource.secret) || true", 1))


def check_absent(tally, clauses_of):
    """NULL in each connective and comparison, alone and behind WHERE."""
    done = clauses_of(SCHEMA, "".join(policy_text(f"p{n}", "permit", condition) for n, (condition, _) in enumerate(OF_ABSENT)))
    tables, clauses = read_cases(done.stdout)
    rows, ancestors = store(random.Random(1))
    bare = {name: value for name, value in rows[0].items() if name not in OPTIONAL and name != "frame"}
    db = database(unique(tables), [bare | {"place": {"city": "a", "spot": {"x": 1}}}], ancestors)
    for n, (condition, want) in enumerate(OF_ABSENT):
        clause = clauses[f"p{n}"][0]
        (have,), = db.execute(f'select {clause} from "Photo"', {"principal": "bob"} if ":principal" in clause else {})
        tally.check(have == want, (condition, have, clause))


FINDS_SCHEMA = """entity User;
entity Album;
entity Photo { owner: User, album: Album, public: Bool, secret?: Bool };
action view appliesTo { principal: User, resource: Photo };
"""
# Each policy, and which of the rows 00 to 11 (is the album's id the principal's, is the photo public) its query chooses. A forbid stands
# beside a permit of everything.
FINDS = (("permit(principal, action, resource) when { principal == resource.album || resource.public };", {"01", "11"}),
         ("permit(principal, action, resource);\nforbid(principal, action, resource) when { !(principal == resource.album) && resource.public };", {"00", "10"}),
         ("permit(principal, action, resource) when { resource.public == (1 == 2) };", {"00", "10"}),
         ("permit(principal, action, resource) when { (1 == \"1\") || resource.public };", {"01", "11"}),
         ("permit(principal, action, resource) when { principal == resource.owner };", {"00", "01", "10", "11"}))


def check_finds(tally, queries_of):
    """Ids that coincide: no clause compares ids of two types."""
    for policies, want in FINDS:
        tables, queries = read_queries(queries_of(FINDS_SCHEMA, policies).stdout)
        db = sqlite3.connect(":memory:")
        for table in unique(tables):
            db.execute(table)
        for same in (0, 1):
            for public in (0, 1):
                db.execute('insert into "Photo" ("eid", "owner", "album", "public") values (?, ?, ?, ?)',
                           (f"{same}{public}", "alice", "alice" if same else "holiday", public))
        query = queries["User", "view"]
        have = {eid for eid, in db.execute(query, {"principal": "alice"} if ":principal" in query else {})}
        tally.check(have == want, (policies, have, want, query))


# Words that SQL reads otherwise where they stand without quotes, or that SQLite has columns or functions for.
ODD_NAMES = ("true", "false", "null", "rowid", "oid", "_rowid_", "char", "instr", "values", "when", "current_time", "1", "0", " ", "", "photo", "entity ancestors")


def check_names(tally, queries_of):
    """Attributes with odd names: a clause that does not name one does not read it, and one that does reads it alone."""
    attributes = ", ".join(f"{cedar_text(name)}: Bool" for name in ODD_NAMES)
    schema = f"entity User;\nentity Photo {{ public: Bool, {attributes} }};\naction view appliesTo {{ principal: User, resource: Photo }};\n"
    for name in ("public", *ODD_NAMES):
        tables, queries = read_queries(queries_of(schema, f"permit(principal, action, resource) when {{ true && resource[{cedar_text(name)}] && !false }};").stdout)
        db = sqlite3.connect(":memory:")
        for table in unique(tables):
            db.execute(table)
        columns = [column for _, column, *_ in db.execute('pragma table_info("Photo")')]
        for eid in ("own", "others"):
            db.execute(f"insert into \"Photo\" values ({', '.join('?' * len(columns))})",
                       [eid if column == "eid" else int((column == name) == (eid == "own")) for column in columns])
        have = {eid for eid, in db.execute(queries["User", "view"])}
        tally.check(have == {"own"}, (name, have, queries))


SIZED_SCHEMA = """entity Group in [Group];
entity User in [Group];
entity Photo {{ level: Long{optional} }};
action view appliesTo {{ principal: User, resource: Photo }};
"""
NESTED = 40


def nested_test(level, n=0):
    return n == NESTED or (level < 300 - n and (level == n or nested_test(level, n + 1)))


def negated_test(level, n=0):
    return n == NESTED or not (level != 2 * n and negated_test(level, n + 1))


def permit(condition):
    return f"permit(principal, action, resource) when {{ {condition} }};\n"


GUARDS = " && ".join(f"(resource has o{n} && resource.o{n} == 1)" for n in range(200))
# What runs, as EMBEDDING says: a size, the policies, and which photos of the levels 0 to 2,999 they allow to a user in group 2999.
SIZES = (
    ("1,000 permits", "".join(policy_text(f"p{n}", "permit", f"resource.level == {2 * n}") for n in range(1000)), lambda n: n < 2000 and n % 2 == 0),
    ("1,000 forbids", permit("true") + "".join(policy_text(f"p{n}", "forbid", f"resource.level == {2 * n}") for n in range(1000)), lambda n: n >= 2000 or n % 2 == 1),
    ("200 parts of &&", permit(" && ".join(f"resource.level != {n}" for n in range(200))), lambda n: n >= 200),
    ("200 parts of ||", permit(" || ".join(f"resource.level == {n}" for n in range(200))), lambda n: n < 200),
    ("200 guards", permit(GUARDS), lambda n: n % 3 == 0),
    ("200 guards in a forbid", permit("true") + "forbid" + permit(GUARDS)[6:], lambda n: n % 3 != 0),
    ("3,000 entities", permit("principal in [" + ", ".join(f'Group::"{n}"' for n in range(3000)) + "] && resource.level < 7"), lambda n: n < 7),
    ("3,000 other entities", permit("principal in [" + ", ".join(f'Group::"{n}"' for n in range(3000, 6000)) + "]"), lambda n: False),
    (f"a && (b || (.., {NESTED} times", permit("".join(f"resource.level < {300 - n} && (resource.level == {n} || (" for n in range(NESTED)) + "true" + "))" * NESTED), nested_test),
    (f"!(a && !(.., {NESTED} times", permit("".join(f"!(resource.level != {2 * n} && " for n in range(NESTED)) + "true" + ")" * NESTED), negated_test),
)


def check_sizes(tally, queries_of):
    """Large sets, long and deep conditions and lists run, and choose the right rows."""
    for what, policies, is_allowed in SIZES:
        optional = [f"o{n}" for n in range(200)] if " has o" in policies else []
        done = queries_of(SIZED_SCHEMA.format(optional="".join(f", {name}?: Long" for name in optional)), policies)
        tables, queries = read_queries(done.stdout)
        query = queries.get(("User", "view"))
        if query is None:
            tally.check(False, (what, done.stdout[:300], done.stderr[:300]))
            continue
        db = sqlite3.connect(":memory:")
        for table in unique(tables):
            db.execute(table)
        names = ", ".join(f'"{name}"' for name in ("eid", "level", *optional))
        marks = ", ".join("?" * (2 + len(optional)))
        # (of three levels one has all optional attributes, one lacks the last, and one has another value in the first)
        db.executemany(f'insert into "Photo" ({names}) values ({marks})', [
            (str(n), n, *[2 if n % 3 == 2 and name == "o0" else None if n % 3 == 1 and name == "o199" else 1 for name in optional]) for n in range(3000)])
        db.execute("insert into \"entity ancestors\" values ('User', 'alice', 'Group', '2999')")
        have = {int(eid) for eid, in db.execute(query, {"principal": "alice"} if ":principal" in query else {})}
        want = {n for n in range(3000) if is_allowed(n)}
        tally.check(have == want, (what, len(have), len(want), query[:300]))


def check_refused(tally, queries_of):
    """No query: of a set that validation does not accept, with two policies of one id, or with a policy that has no clause."""
    one = policy_text("a", "permit", "resource.public")
    for policies, says in ((one + policy_text("b", "permit", "resource.level == resource.title || resource.public"), "-- not accepted: b"),
                           (one + policy_text("b", "forbid", "resource.rank < 1"), "-- not accepted: b"),
                           (one + policy_text("b", "forbid", "resource.level + 1 < 1"), "-- no clause of b: SQL's arithmetic does not fail as Cedar's does: resource.level + 1"),
                           (one + one, "")):
        done = queries_of(SCHEMA, policies)
        _, queries = read_queries(done.stdout)
        tally.check(not any(queries.values()) and says in done.stdout.decode() and (says or done.returncode), (policies, done.stdout, done.stderr))
    hiding = "entity User; namespace N { entity User; }\naction view appliesTo { principal: User, resource: User };\n"
    done = queries_of(hiding, "permit(principal, action, resource);")
    tally.check(done.returncode == 1 and b"`N::User` hides" in done.stderr, done)
    # (a table that several environments need stands once)
    tables, queries = read_queries(queries_of(SCHEMA, one).stdout)
    tally.check(len(queries) == 3 and all(queries.values()) and len(tables) == 2, (tables, queries))


def check_tables(tally, clauses_of):
    """The tables refuse rows on which clauses would be wrong, and a column that a table lacks is no text."""
    tables, _ = read_cases(clauses_of(FINDS_SCHEMA, "permit(principal, action, resource);").stdout)
    insert = 'insert into "Photo" ("eid", "owner", "album", "public") values (?, ?, ?, ?)'
    for row in ((None, "a", "a", 1), ("x", None, "a", 1), ("x", "a", "a", None), ("x", "a", "a", 2), ("x", "a", "a", "yes")):
        db = database(unique(tables), [], {})
        try:
            db.execute(insert, row)
            tally.check(False, row)
        except sqlite3.IntegrityError:
            tally.check(True, row)
    tables, _ = read_cases(clauses_of(SCHEMA, "permit(principal, action, resource);").stdout)
    rows, _ = store(random.Random(1))
    try:
        database(unique(tables), [{**rows[0], "title": "a\0b"}], {})
        tally.check(False, "a text with NUL")
    except sqlite3.IntegrityError:
        tally.check(True, "a text with NUL")
    try:
        database(unique(tables), [], {}).execute('select 1 from "Photo" where "Photo"."titel" = \'titel\'')
        tally.check(False, "a column that the table lacks")
    except sqlite3.OperationalError:
        tally.check(True, "a column that the table lacks")
    for declared, resource, says in (
            ("entity Photo { eid: Long };", "Photo", '- attribute "eid" would have the same column as another'),
            ("entity Photo { a: Long, A: Long };", "Photo", '- attribute "a" would have the same column as another'),
            ('entity Photo { "a.b": Long, a: { B: Long } };', "Photo", '- attribute "a.b" would have the same column as another'),
            ("entity Photo { a: { b?: { c: Long } }, d?: { e: Bool } };", "Photo", 'CREATE TABLE "Photo" ("eid" TEXT NOT NULL PRIMARY KEY, "a.b.c" INTEGER, '
             '"d.e" INTEGER CHECK ("d.e" IN (0, 1))) STRICT'),
            ("entity sqlite_photo;", "sqlite_photo", "- SQLite keeps names that begin with `sqlite_`"),
            ("entity SQLite_photo;", "SQLite_photo", "- SQLite keeps names that begin with `sqlite_`"),
            ("entity Photo, photo;", "photo", "- entity type `Photo` would have the same table"),
            ("namespace N { entity Photo; }\nnamespace n { entity photo; }", "N::Photo", "- entity type `n::photo` would have the same table"),
            ("entity sqlitephoto;", "sqlitephoto", 'CREATE TABLE "sqlitephoto" ("eid" TEXT NOT NULL PRIMARY KEY) STRICT'),
            ("namespace N { entity sqlite_photo; }", "N::sqlite_photo", 'CREATE TABLE "N::sqlite_photo" ("eid" TEXT NOT NULL PRIMARY KEY) STRICT')):
        tables, _ = read_cases(clauses_of(f"entity User;\n{declared}\naction view appliesTo {{ principal: User, resource: {resource} }};\n", "").stdout)
        tally.check(says in tables, (says, tables))


def main(words):
    program = unproved.named(words, "cedar_samples")
    clauses, queries = partial(run, program, "clauses"), partial(run, program, "queries")
    tally = Tally()
    check_forms(tally, clauses)
    check_absent(tally, clauses)
    check_finds(tally, queries)
    check_refused(tally, queries)
    check_tables(tally, clauses)
    check_names(tally, queries)
    check_sizes(tally, queries)
    check_clauses(tally, clauses, random.Random(1))
    check_sets(tally, queries, random.Random(2))
    print(f"{tally.passed} passed, {tally.failed} failed")
    return 1 if tally.failed or not tally.passed else 0


if __name__ == "__main__":
    sys.exit(main(sys.argv[1:]))
