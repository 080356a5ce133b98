#!/usr/bin/env python3
"""What cedar-validate takes for texts that a stranger may write: scripts/measure/input_growth.py [PROGRAM [CASES]].

PROGRAM is cedar_validate and CASES is cedar_cases, by default as they are built without a proof. Counted are instructions, by
valgrind, or bytes of memory or of output. A line passes where the last figure stays below its limit. It needs valgrind, and is no
part of the gate.

**Hashes that are made to be one** (one_hash.py). Compared is a policy with such errors to one with as many others. That they are
one is seen in cedar_cases, whose column `strict policy` asks a call that fills a hash set of the caller: it has to take more for
them.

**Wrong ids.** Policies name one wrong id each of an enumerated type, and a hint is the nearest of its ids. Counted is what such a
policy takes beyond one with a right id, while the type has more and more: it ends to grow, and stays below 20 million.

**Findings.** A policy has chains of 340 accesses each, of which none is guarded: each access is a finding, which shows the chain
up to it. Printed are the bytes of output and the most memory.

**A file above the limit** has 65 MiB and 1 GiB. Printed is the most memory.

**Ancestors of data.** Groups stand in a chain; in layers, of which each group is in all of the next layer; and each in all
before. Counted is a run by the ancestors that all have together. In layers an ancestor costs no more than in a chain of as many,
though many parents have the same ancestors; twice as many groups that are each in all before have four times as many ancestors,
and cost no more than that. Then the most memory of a long chain, by the ancestor. And what an empty list of entities takes beyond
its schema, which declares actions: twice as many of them take little more than twice as much.

**Schemas.** A schema can ask for more than its text is long: types of a long namespace, environments, descendants in a chain,
declarations of many names. Each has a limit (docs/READING.md). At the limit printed is the most memory, which stays below 50 MiB;
beyond it, and for aliases that stand for each other, twice the text takes less than 2.5 times as many instructions.

**Names that are looked for.** As many policies as a schema has types name one type each that it does not have, and a hint is the
nearest. The searches of a file compare 2,000,000 letters together, so twice the policies and types take less than 2.5 times as many
instructions. A scope lists all actions of a schema, and a policy has as many errors as there are actions: each of them is met in each
environment, because a condition is typed once for each. These two have no limit to hold.
"""
import json
import sys
from functools import cache

import harness
from harness import SCOPE, Row
from one_hash import accesses, policy_of, unread_texts

SCHEMA = "entity User { u?: User };\naction view appliesTo { principal: User, resource: User, context: {} };\n"
GROUP_SCHEMA = "entity G in [G];\naction view appliesTo { principal: G, resource: G, context: {} };\n"
ERRORS = (500, 1000, 2000)
WRONG = 10


def instructions(bench, *words):
    """The instructions of a run, which has to end with what it found."""
    return bench.instructions(*words, statuses=(0, 1))


# ---- errors whose hashes are one

@cache
def parts(make):
    """The parts of a policy whose errors have one hash, and of another."""
    return [make(ERRORS[-1], is_one) for is_one in (True, False)]


def of_errors(make):
    """The instructions for so many errors of one hash, those for as many others, and how many times as many the first are."""
    def figure(bench, count):
        schema = bench.write("schema", SCHEMA)
        one, other = (instructions(bench, schema, bench.write("policy", policy_of(it[:count]))) for it in parts(make))
        return one, other, one / other

    return figure


def in_a_hash_set(cases, count):
    """These figures of the column that fills a hash set."""
    policies = [policy_of(it[:count]).strip() for it in parts(accesses)]
    one, other = (instructions(cases, cases.case(SCHEMA, [it], answer="false")) for it in policies)
    return one, other, one / other


# ---- wrong ids, findings, and large files

def for_a_wrong_id(bench, count):
    """The instructions that a policy takes beyond another because its id is none of so many."""
    listed = ", ".join(f'"e{i:06}"' for i in range(count))
    text = f"entity P;\nentity E enum [{listed}];\naction a appliesTo {{ principal: P, resource: E, context: {{}} }};\n"
    schema, counts = bench.write("schema", text), []
    for name in ("d", "e"):
        policies = "".join(f'permit(principal, action, resource == E::"{name}{i:06}");\n' for i in range(WRONG))
        counts.append(instructions(bench, schema, bench.write("policy", policies)))
    return (counts[0] - counts[1]) / WRONG


def of_findings(bench, count):
    """The bytes of a policy with so many chains, the most memory of its run, and the bytes of output."""
    chain = "principal" + ".u" * 340
    text = f"{SCOPE} when {{ [{', '.join([chain] * count)}].isEmpty() }};\n"
    output, most = bench.held(bench.write("schema", SCHEMA), bench.write("policy", text))
    return len(text), most, output


def of_large_file(bench, size):
    """The most memory of a run on a file of this size."""
    path = bench.write("large", "")
    with open(path, "wb") as file:
        file.truncate(size)
    return bench.held(bench.write("schema", SCHEMA), path)[1]


# ---- ancestors of data

def chain(count):
    """The parents of groups that are each in the next one."""
    return [[number + 1] if number + 1 < count else [] for number in range(count)]


def layers(first, *others):
    """The parents of groups in a chain, and of those below it, each of which is in all of the layer above it."""
    parents, above = chain(first), range(1)
    for size in others:
        start = len(parents)
        parents += [list(above) for _ in range(size)]
        above = range(start, start + size)
    return parents


def stairs(count):
    """The parents of groups that are each in all before."""
    return [list(range(number)) for number in range(count)]


def ancestors(parents):
    """How many ancestors these groups have, all together."""
    found = {}

    def above(number):
        if number not in found:
            found[number] = set()
            for parent in parents[number]:
                found[number] |= {parent} | above(parent)
        return found[number]

    order = range(len(parents))
    return sum(len(above(number)) for number in (reversed(order) if parents[0] else order))


def entities(bench, parents):
    """A file of groups with these parents."""
    named = [{"type": "G", "id": f"g{number:04}"} for number in range(len(parents))]
    listed = [{"uid": named[number], "attrs": {}, "parents": [named[it] for it in its]} for number, its in enumerate(parents)]
    return bench.write("entities.json", json.dumps(listed))


def of_groups(bench, groups):
    """How many ancestors groups have, the instructions of a run on them, and those by the ancestor."""
    count = ancestors(groups[1])
    taken = instructions(bench, "--entities", entities(bench, groups[1]), bench.write("schema", GROUP_SCHEMA))
    return count, taken, taken / count


def of_long_chain(bench, size):
    """How many ancestors a chain of groups has, and the most memory of a run on it: in KiB, and in bytes by the ancestor."""
    count = size * (size - 1) // 2
    most = bench.held("--entities", entities(bench, chain(size)), bench.write("schema", GROUP_SCHEMA))[1]
    return count, most, most * 1024 / count


def for_actions(bench, count):
    """The instructions that an empty list of entities takes beyond a schema of so many actions."""
    actions = "".join(f"action a{number:04} appliesTo {{ principal: G, resource: G, context: {{}} }};\n" for number in range(count))
    schema = bench.write("schema", "entity G;\n" + actions)
    none, policies = bench.write("entities.json", "[]"), bench.write("policies", "")
    return instructions(bench, "--entities", none, schema) - instructions(bench, schema, policies)


# ---- schemas that ask for more than they are long

# What twice the text may take, in times: an exponent of 1.3.
LINEAR = 2.5


def listed(letter, count):
    """So many names of a letter and a number."""
    return ", ".join(f"{letter}{number}" for number in range(count))


def action(name, principals="P", resources="P", context="{ }"):
    return f"action {name} appliesTo {{ principal: [{principals}], resource: [{resources}], context: {context} }};\n"


def in_a_namespace(parts, types):
    """So many types of a namespace whose name has so many parts."""
    name = "::".join(f"A{number}" for number in range(parts))
    return f"namespace {name} {{ entity {listed('E', types)}; }}\n"


def applied(count):
    """So many actions, by as many principal and resource types."""
    types = listed("T", count)
    return f"entity {types};\n" + action(listed("a", count), types, types)


def in_a_line(kind, count):
    """So many types or actions, each in the one before."""
    behind = "".join(f"{kind} T{number} in [T{number - 1}];\n" for number in range(1, count))
    return f"entity P;\n{kind} T0;\n{behind}" + action("go")


def aliases(count, of_number):
    """So many aliases, of which each names one."""
    named = "".join(f"type C{number} = C{of_number(number)};\n" for number in range(count))
    return f"entity P;\n{named}type C{count} = Long;\n" + action("go")


def one_context(count):
    """So many actions, whose context is one alias of as many attributes."""
    fields = ", ".join(f"f{number}: Long" for number in range(count))
    return f"entity P;\ntype R = {{ {fields} }};\n" + "".join(action(f"a{number}", context="R") for number in range(count))


def with_attributes(count):
    """So many types in one declaration, with as many attributes."""
    fields = ", ".join(f"f{number}: Long" for number in range(count))
    return f"entity P;\nentity {listed('E', count)} {{ {fields} }};\n" + action("go")


def with_ids(count):
    """So many enumerated types in one declaration, with as many ids."""
    ids = ", ".join(f'"{number}"' for number in range(count))
    return f"entity P;\nentity {listed('E', count)} enum [{ids}];\n" + action("go")


def of_schema(make):
    """The bytes of a schema of a size, the most memory of a run on it, and the instructions, whether it is read or refused."""
    def figure(bench, size):
        text = make(size)
        paths = bench.write("schema", text), bench.write("policy", f"{SCOPE};\n")
        return len(text), bench.held(*paths)[1], bench.instructions(*paths, statuses=(0, 2))

    return figure


def schemas(what, make, size):
    """Two rows: the memory at the largest size of a schema that is read, and the instructions beyond it."""
    line = "{size:,} {what}, {figure[0]:,} bytes: {figure[1]:,} KiB at most, {figure[2]:,} instructions"
    yield Row(what, (size,), of_schema(make), line, of=1, most=50 << 10)
    yield Row(what, (2 * size, 4 * size), of_schema(make), line, times=LINEAR)


# ---- names that are looked for

def of_unknown_types(bench, count):
    """The instructions of so many policies, each with a wrong type, by as many types."""
    types = "".join(f"entity Type{number:05};\n" for number in range(count))
    policies = "".join(f"permit(principal is Typo{number:05}, action, resource);\n" for number in range(count))
    return instructions(bench, bench.write("schema", types + action("go", "Type00000", "Type00000")), bench.write("policy", policies))


def of_listed_actions(bench, count):
    """The instructions of a policy whose scope lists all of so many actions."""
    schema = "entity P;\n" + "".join(action(f"act{number}") for number in range(count))
    named = ", ".join(f'Action::"act{number}"' for number in range(count))
    policy = f"permit(principal, action in [{named}], resource);\n"
    return instructions(bench, bench.write("schema", schema), bench.write("policy", policy))


def of_errors_in_environments(bench, count):
    """The instructions of a policy with so many errors, in as many environments."""
    attributes = ", ".join(f"a{number}?: Long" for number in range(count))
    schema = f"entity P {{ {attributes} }};\n" + "".join(action(f"act{number}") for number in range(count))
    policy = f"{SCOPE} when {{ [{', '.join(f'principal.a{number}' for number in range(count))}].isEmpty() }};\n"
    return instructions(bench, bench.write("schema", schema), bench.write("policy", policy))


OF_HASHES = "{size} {what}, of one hash: {figure[0]:,} instructions, {figure[1]:,} where they differ, {figure[2]:.2f} times as many"
OF_GROUPS = "{size[0]}, {figure[0]:,} ancestors: {figure[1]:,} instructions, {figure[2]:,.0f} an ancestor"
ROWS = (
    Row("texts that are not read", ERRORS, of_errors(unread_texts), OF_HASHES, most=1.2),
    Row("attributes that there are not", ERRORS, of_errors(accesses), OF_HASHES, most=1.2),
    Row("attributes that there are not, in a hash set", ERRORS[-1:], in_a_hash_set, OF_HASHES, least=1.3, program="cedar_cases"),
    Row("a wrong id", (4000, 16000, 64000), for_a_wrong_id, "{what}, where the type has {size:,}: {figure:,.0f} instructions", times=1.2, most=20_000_000),
    Row("chains without a guard", (4, 64, 350), of_findings, "{size} {what}, {figure[0]:,} bytes: {figure[2]:,} bytes of output, {figure[1]:,} KiB at most", most=1 << 20),
    Row("a file", (65 << 20, 1 << 30), of_large_file, "{what} of {size:,} bytes: {figure:,} KiB at most", times=1.1),
    # The first layer is a chain itself, and the chain has as many ancestors as the layers.
    Row("", (("a chain of 641 groups", chain(641)), ("layers of (500, 100, 50) groups", layers(500, 100, 50))), of_groups, OF_GROUPS, times=1.5),
    Row("", [(f"{count} groups, each in all before", stairs(count)) for count in (200, 400)], of_groups, OF_GROUPS, of=1, times=4.6),
    # An ancestor takes a pointer, a number, and what a vector has to spare.
    Row("a chain", (2800,), of_long_chain, "{what} of {size} groups, {figure[0]:,} ancestors: {figure[1]:,} KiB at most, {figure[2]:.0f} bytes an ancestor", most=40),
    *schemas("types of a namespace of 64 parts", lambda count: in_a_namespace(64, count), 1000),
    *schemas("parts of a namespace by types", lambda count: in_a_namespace(count, count), 64),
    *schemas("actions by as many principal and resource types", applied, 50),
    *schemas("types in a line", lambda count: in_a_line("entity", count), 512),
    *schemas("actions in a line", lambda count: in_a_line("action", count), 512),
    *schemas("aliases in a line", lambda count: aliases(count, lambda number: number + 1), 250),
    *schemas("aliases of themselves", lambda count: aliases(count, lambda number: number), 250),
    *schemas("actions by attributes of one context", one_context, 500),
    *schemas("types by attributes of one declaration", with_attributes, 500),
    *schemas("types by ids of one declaration", with_ids, 700),
    Row("policies with a wrong type, by as many types", (250, 500, 1000, 2000), of_unknown_types, "{size:,} {what}: {figure:,} instructions", times=LINEAR),
    Row("actions in a scope", (150, 300), of_listed_actions, "{size:,} {what}: {figure:,} instructions", ", {times:.2f} times as many"),
    Row("errors in as many environments", (100, 200), of_errors_in_environments, "{size:,} {what}: {figure:,} instructions", ", {times:.2f} times as many"),
    Row("an empty list of entities", (1500, 3000), for_actions, "{what}, by {size:,} actions: {figure:,} instructions", times=2.6),
)


if __name__ == "__main__":
    sys.exit(harness.main(sys.argv[1:], ROWS, "cedar_validate", "cedar_cases"))
