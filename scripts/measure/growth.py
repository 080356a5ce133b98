#!/usr/bin/env python3
"""How the instructions of a check grow with its policy: scripts/measure/growth.py [PROGRAM].

PROGRAM is cedar_cases, by default as it is built without a proof. Valgrind counts its instructions over one environment and over
some more of the same kind, so that reading the policy is taken away. Chains of guards grow from 50 to 800: `has` alone, and each
`has` with the access that it allows. They stand in parentheses, in halves of halves, since a policy may be nested 400 deep,
and so do 64 to 4,096 accesses to a required attribute, which need no guard. A chain of accesses, and one `has` with 10 to
380 attributes, are longer expressions. Of guards and an eighth as many others, the two sets are joined. Chains of `has` on
bases that differ in one number of a test have many capabilities that are alike but there. Guards of which each is on the
attribute that the one before tests have nodes that grow with the square of their number. A set has 10 to 1,000 entities of
one type, or 100 to 1,600 of as many types, which unite in Permissive, and so do sets of one entity each: both pass where four
times as many take less than LIMIT times as much, and the last line counts them. Of an enumerated type whose ids are named once
each, in one set or in a policy for every ten, the whole run is counted, which reads them too. The last figure is that of the
benchmark's policy. It needs valgrind, and is no part of the gate.
"""
import sys

import benchmark
import harness
from harness import Row, when

LENGTHS = (50, 100, 200, 400, 800)
UNIONS = (100, 400, 1600)
# What four times as many entity types may take, in times: n log n is below it, and n n is far above.
LIMIT = 5.6
IDS = (1000, 4000, 16000)
# As many ids as one of many policies names.
NAMED = 10
# As many attributes as a chain on a base has, of which many differ in a number.
CHAIN = 50
MORE = 4
# As many guards as stand in one pair of parentheses.
GROUP = 10
COUNTED = "{what}, {size}: {figure:,.0f} instructions"
GROWN = ", {times:.2f} times as many for {length:.2f} times the length"


def schema(attributes, environments, others):
    """The text of a schema with so many environments, whose principals have these attributes, and so many other types."""
    lines = [f"entity P {{ {', '.join(attributes)} }};", "entity R;"]
    lines += [f"entity T{i};" for i in range(others)]
    sides = "principal: [P], resource: [R], context: { }"
    lines += [f"action a{i} appliesTo {{ {sides} }};" for i in range(environments)]
    return "\n".join(lines) + "\n"


# ---- attributes of a principal, by the size of a condition

def optional(size):
    return [f"a{i}?: Long" for i in range(size)]


def fixed(*attributes):
    """Attributes that do not depend on the size."""
    return lambda _: attributes


# ---- conditions of a size

def in_halves(guards):
    """All of these guards, in parentheses."""
    if len(guards) <= GROUP:
        return " && ".join(guards)
    middle = len(guards) // 2
    return f"({in_halves(guards[:middle])}) && ({in_halves(guards[middle:])})"


def guards(length):
    return in_halves([f"principal has a{i}" for i in range(length)])


def guarded_accesses(length):
    return in_halves([f"principal has a{i} && principal.a{i} == {i}" for i in range(length)])


def conjunction(length):
    return in_halves(["principal.ok"] * length)


def accesses(length):
    return "principal" + ".a" * length + ".ok"


def extended_has(length):
    return "principal has " + ".".join(["a"] * length)


def joined(length):
    """So many guards, and then an eighth as many others."""
    few = in_halves([f"principal has a{i}" for i in range(length, length + length // 8)])
    return f"({guards(length)}) && ({few})"


def chains_on_branches(length):
    """A long chain of `has` on each of so many bases, which differ in a number."""
    chain = ".".join(["u"] * CHAIN)
    return in_halves([f"(if principal.n == {i} then principal else principal.p) has {chain}" for i in range(length)])


def literals(length):
    """A set of so many entities of one type."""
    members = ", ".join(f'P::"{i}"' for i in range(length))
    return f"principal in [{members}]"


def of_many_types(length):
    """A set of so many entities, each of a type of its own."""
    members = ", ".join(f'T{i}::"a"' for i in range(length))
    return f'[{members}, P::"a"].contains(principal)'


def of_sets_of_many_types(length):
    """A set of so many sets, each of an entity of a type of its own."""
    members = ", ".join(f'[T{i}::"a"]' for i in range(length))
    return f'[{members}, [P::"a"]].contains([principal])'


def nested_guards(length):
    """So many guards, each on the attribute that the one before tests."""
    return in_halves(["principal" + ".a" * i + " has a" for i in range(length)])


def check(what, sizes, attributes, condition, of_types=False, **limits):
    """A row: the instructions of a check in one environment, of a condition over such attributes; in Permissive over as many types."""
    def figure(bench, size):
        others, mode = (size, "permissive") if of_types else (0, "strict")
        texts = [schema(attributes(size), n, others) for n in (1, 1 + MORE)]
        counts = [bench.instructions(bench.case(text, [when(condition(size))], f"{mode} policy")) for text in texts]
        return (counts[1] - counts[0]) / MORE

    return Row(what, sizes, figure, COUNTED, GROWN, **limits)


# ---- ids of an enumerated type

def named(ids):
    """A policy that names these ids."""
    listed = ", ".join(f'E::"e{i}"' for i in ids)
    return when(f"[{listed}].isEmpty()")


def ids_in_one_set(count):
    """One policy that names each id."""
    return [named(range(count))]


def ids_in_many_policies(count):
    """Policies that name some ids each, and all of them each id once."""
    return [named(range(at, at + NAMED)) for at in range(0, count, NAMED)]


def of_ids(what, policies):
    """A row: the instructions of a run that looks for wrong ids of an enumerated type, with so many ids."""
    def figure(bench, count):
        listed = ", ".join(f'"e{i}"' for i in range(count))
        text = schema(["ok: Bool"], 1, 0) + f"entity E enum [{listed}];\n"
        return bench.instructions(bench.case(text, policies(count), "enumerated", ""))

    return Row(what, IDS, figure, COUNTED, GROWN)


ROWS = (
    check("guards", LENGTHS, optional, guards),
    check("guards with accesses", LENGTHS, optional, guarded_accesses),
    check("required accesses", (64, 256, 1024, 4096), fixed("ok: Bool"), conjunction),
    check("accesses", (50, 100, 200, 380), fixed("a: P", "ok: Bool"), accesses),
    check("attributes of one has", (10, 50, 100, 200, 380), fixed("a?: P"), extended_has),
    check("guards, and an eighth of others", (512, 2048, 8192), lambda size: optional(size + size // 8), joined),
    check(f"bases with {CHAIN} attributes of has", (10, 20, 40, 80), fixed("n: Long", "p: P", "u?: P"), chains_on_branches),
    check("entity literals in a set", (10, 100, 1000), fixed("ok: Bool"), literals),
    check("entity types in a union", UNIONS, fixed("ok: Bool"), of_many_types, of_types=True, times=LIMIT),
    check("entity types in sets that unite", UNIONS, fixed("ok: Bool"), of_sets_of_many_types, of_types=True, times=LIMIT),
    check("guards, each on what the one before tests", (25, 50, 100, 200), fixed("a?: P"), nested_guards),
    of_ids("ids of an enumerated type in a set", ids_in_one_set),
    of_ids(f"ids of an enumerated type, {NAMED} in a policy", ids_in_many_policies),
    Row("the benchmark's policy", (None,), lambda bench, _: benchmark.for_each_environment(bench), "{what}: {figure:,.0f} instructions"),
)


if __name__ == "__main__":
    sys.exit(harness.main(sys.argv[1:], ROWS, "cedar_cases"))
