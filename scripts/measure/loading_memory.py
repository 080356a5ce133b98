#!/usr/bin/env python3
"""What a host holds that loads a slice in rounds: scripts/measure/loading_memory.py [PROGRAM]; and what JSON takes, with `--json [VALIDATE]`.

PROGRAM is cedar_samples, by default as it is built without a proof. Its sample `rounds` loads so many entities from files, of which
each holds the ids of all, so that a round meets each id as often as there are entities. Printed is the most memory, beyond that of
a run that loads one entity, for each id in the files. It passes where twice as many entities take at most 4.4 times as much: four
times as many ids are stored then, and what a round gathers beside the store grows no faster.

With `--json` VALIDATE is cedar_validate, by default as it is built without a proof. It reads entities of some 300 bytes, a list of policies,
and a set of as many. Printed is, by the difference of two runs, what each more entity or policy takes: the most memory, that memory
by the bytes of the text, and instructions, which valgrind counts; and the most memory of 100,000 entities. It passes where an entity
takes at most 5,000 bytes, 100,000 at most 500 MB, and a policy at most five times its text.

The script is no part of the gate.
"""
import json
import subprocess
import sys
from functools import cache
from pathlib import Path

import harness
from harness import SCOPE, Row

SCHEMA = "entity User { all: Set<User> };\naction view appliesTo { principal: User, resource: User, context: {} };\n"
JSON_SCHEMA = """entity User in [Group] { name: String, age: Long, email: String, address: { street: String, zip: Long } } tags String;
entity Group;
action view appliesTo { principal: User, resource: User, context: {} };
"""
FEW, MANY = 10_000, 20_000
COUNTED = (200, 1200)
GROUPS = 100


def user(number):
    return {"type": "User", "id": f"u{number}"}


# ---- entities that a host loads in rounds

@cache
def most_memory(bench, count):
    """The most memory in KiB of a run that loads so many entities."""
    bench.write("rounds/documents.cedarschema", SCHEMA)
    request = {"principal": user(0), "action": {"type": "Action", "id": "view"}, "resource": user(0), "context": {}}
    bench.write("rounds/request.json", json.dumps(request))
    everyone = [{"__entity": user(number)} for number in range(count)]
    for number in range(count):
        entity = {"uid": user(number), "attrs": {"all": everyone}, "parents": []}
        bench.write(f"rounds/User.u{number}.json", json.dumps(entity))
    most = bench.held("rounds")[1]
    said = Path(bench.room, "out").read_text(encoding="utf8")
    if f"{count} of " not in said:
        sys.exit(f"{bench.program} does not load {count} entities: {said[-300:]}")
    return most


def of_rounds(bench, count):
    """The most memory of a run in KiB, the bytes for each id beyond those of one entity, and the KiB."""
    least, most = most_memory(bench, 1), most_memory(bench, count)
    return most, (most - least) * 1024 / count**2, most - least


# ---- entities and policies in JSON

def stored_user(number):
    address = {"street": f"{number} Long Street of a Town", "zip": 10000 + number}
    attrs = {"name": f"The name of {number}", "age": number, "email": f"user{number}@example.com", "address": address}
    tags = {"team": f"team {number % 10}", "place": f"place {number % 7}"}
    return {"uid": user(number), "attrs": attrs, "parents": [group(number % GROUPS)], "tags": tags}


def group(number):
    return {"type": "Group", "id": f"g{number}"}


def entities(count):
    """The text of so many users and their groups, in pieces: the script's own memory would count for the program's."""
    yield "["
    for number in range(GROUPS):
        yield json.dumps({"uid": group(number), "attrs": {}, "parents": []}) + ","
    yield from separated(json.dumps(stored_user(it)) for it in range(count))
    yield "]"


def separated(texts):
    for number, text in enumerate(texts):
        yield text if number == 0 else ", " + text


def policy(number):
    name = {".": {"left": {"Var": "principal"}, "attr": "name"}}
    age = {"==": {"left": {".": {"left": {"Var": "principal"}, "attr": "age"}}, "right": {"Value": number}}}
    both = {"&&": {"left": age, "right": {"like": {"left": name, "pattern": ["Wildcard", {"Literal": "a"}]}}}}
    return {
        "effect": "permit",
        "principal": {"op": "==", "entity": user(number)},
        "action": {"op": "==", "entity": {"type": "Action", "id": "view"}},
        "resource": {"op": "All"},
        "conditions": [{"kind": "when", "body": both}],
    }


def listed(count):
    yield "["
    yield from separated(json.dumps(policy(it)) for it in range(count))
    yield "]"


def in_a_set(count):
    yield '{"staticPolicies": {'
    yield from separated(f'"policy{it}": {json.dumps(policy(it))}' for it in range(count))
    yield '}, "templates": {}, "templateLinks": []}'


def words_of(bench, make, count):
    """The words of a run that reads so many of these, and how many bytes their text has."""
    path = Path(bench.room, "texts.json")
    with open(path, "w", encoding="utf8") as out:
        out.writelines(make(count))
    words = [bench.write("s.cedarschema", JSON_SCHEMA)]
    if make is entities:
        words += [bench.write("p.cedar", f"{SCOPE};\n"), "--entities"]
    return [*words, str(path)], path.stat().st_size


def memory_of(bench, make, count):
    """The most memory of a run that reads so many, and the bytes of their text."""
    words, size = words_of(bench, make, count)
    # of a process that Python starts, the most memory is that of Python at least
    with open(Path(bench.room, "out"), "wb") as out:
        timed = ["/usr/bin/time", "-q", "-f", "%M", "-o", "most", bench.program, *words]
        subprocess.run(timed, cwd=bench.room, stdin=subprocess.DEVNULL, stdout=out, check=False)
    most = int(Path(bench.room, "most").read_text(encoding="utf8")) * 1024
    if "faults: 0" not in Path(bench.room, "out").read_text(encoding="utf8")[-200:]:
        sys.exit(f"{bench.program} does not read {make.__name__}")
    return most, size


def for_each(bench, make):
    """The bytes of memory and of text that each more one takes, how many times as many the first are, and its instructions."""
    (before, least), (after, most) = (memory_of(bench, make, count) for count in (FEW, MANY))
    memory, size = (after - before) / (MANY - FEW), (most - least) / (MANY - FEW)
    counts = [bench.instructions(*words_of(bench, make, count)[0], statuses=(0, 1)) for count in COUNTED]
    return memory, size, memory / size, (counts[1] - counts[0]) / (COUNTED[1] - COUNTED[0])


def of_entities(bench, count):
    """The megabytes of a run at most that reads so many entities."""
    return memory_of(bench, entities, count)[0] / 1e6


OF_ROUNDS = "{size} {what} that hold {size} ids each: {figure[0]:,} KiB at most, {figure[1]:.0f} bytes an id"
FOR_EACH = "{what}: {figure[0]:,.0f} bytes at most for each of {figure[1]:.0f}, which is {figure[2]:.1f} times; {figure[3]:,.0f} instructions"
ROWS = (
    Row("entities", (300,), of_rounds, OF_ROUNDS),
    Row("entities", (600, 1200), of_rounds, OF_ROUNDS, times=4.4),
)
ROWS_OF_JSON = (
    Row("entities", (entities,), for_each, FOR_EACH, of=0, most=5000),
    Row("policies in a list", (listed,), for_each, FOR_EACH, of=2, most=5),
    Row("policies in a set", (in_a_set,), for_each, FOR_EACH, of=2, most=5),
    Row("entities", (100_000,), of_entities, "{size:,} {what}: {figure:,.0f} MB at most", most=500),
)


def main(words):
    if words[:1] == ["--json"]:
        return harness.main(words[1:], ROWS_OF_JSON, "cedar_validate")
    return harness.main(words, ROWS, "cedar_samples")


if __name__ == "__main__":
    sys.exit(main(sys.argv[1:]))
