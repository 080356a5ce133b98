#!/usr/bin/env python3
"""What a schema's check, and its reading, take for descendants of descendants: scripts/measure/schema_growth.py [PROGRAM].

Types, or actions, stand in a line, each in the one before, so that n of them declare n (n - 1) / 2 descendants; or each is in
all, so that n of them declare n n. Counted are the instructions of the check alone, by callgrind, and what a whole run takes
beyond that by the same declarations without what they are in: the reading of those names, the search for descendants, and
the check. No function is named for that, since a compiler may inline any. Printed are they, what they are for each declared
descendant, and how many times as many there are where n doubles and the declared descendants are four times as many. A line
passes where that is less than LIMIT: what takes n log n of the declared descendants takes 4.8 times as much at most. Three
layers, in which each member of a layer is in each of the one above, have figures alone: of them no set shows what another has,
so each is looked at. Of sets that are one set, as where each is in all, the first is looked at. One function checks types and
actions, so what the one takes is counted with the other, which have no descendants. The last line counts the lines that pass
and those that do not.

PROGRAM is cedar_cases, by default as it is built without a proof. It needs valgrind, and is no part of the gate.
"""
import sys

import harness
from harness import SCOPE, Row

SIZES = (30, 60, 120)
LIMIT = 5.6
CHECK = "closures::are_closed"


def line(n):
    """Each in the one before, by number."""
    return [[i - 1] if i else [] for i in range(n)]


def line_back(n):
    """The same, with names that descend."""
    return [[i + 1] if i + 1 < n else [] for i in range(n)]


def layers(n):
    """Three layers, each member in all of the layer above."""
    third = n // 3
    return [list(range((i // third - 1) * third, i // third * third)) if i >= third else [] for i in range(3 * third)]


def apart(n):
    """None in any."""
    return [[] for _ in range(n)]


def dense(n):
    """Each in all, itself included."""
    return [list(range(n)) for _ in range(n)]


def declared(parents):
    """How many descendants are declared in all."""
    below = [set() for _ in parents]
    for child in range(len(parents)):
        above, seen = list(parents[child]), set()
        while above:
            one = above.pop()
            if one not in seen:
                seen.add(one)
                above += parents[one]
        for one in seen:
            below[one].add(child)
    return sum(len(it) for it in below)


def members(parents, kind, letter, end):
    """The declarations of so many types or actions, each with what it is in."""
    named = [f"{letter}{i:04}" for i in range(len(parents))]
    inside = (f" in [{', '.join(named[j] for j in above)}]" if above else "" for above in parents)
    return "".join(f"{kind} {name}{it}{end}\n" for name, it in zip(named, inside))


def types(parents):
    """A schema of entity types."""
    return members(parents, "entity", "T", ";") + "action go appliesTo { principal: [T0000], resource: [T0000], context: {} };\n"


def actions(parents):
    """A schema of actions."""
    return "entity T;\n" + members(parents, "action", "a", ";") + "action go appliesTo { principal: [T], resource: [T], context: {} };\n"


def of_check(bench, schema, parents):
    """How many instructions the check of these memberships takes."""
    return bench.instructions_within(CHECK, bench.case(schema(parents), [f"{SCOPE};"]))


def of_memberships(bench, schema, parents):
    """How many instructions these memberships add to the whole run."""
    with_them, without = (bench.instructions(bench.case(schema(it), [f"{SCOPE};"])) for it in (parents, apart(len(parents))))
    return with_them - without


def row(name, count, schema, shape):
    """A row: what is counted of memberships of this shape, and how much that is for each declared descendant."""
    def figure(bench, n):
        counted = count(bench, schema, shape(n))
        return counted, counted / declared(shape(n))

    end = "{size}, {what}: {figure[0]:,} instructions, {figure[1]:,.0f} a descendant, {times} times"
    return Row(f"{name}, {shape.__name__}", SIZES, figure, end=end, of=0, times=None if shape is layers else LIMIT)


ALL = (line, line_back, dense, layers)
ROWS = [
    row(name, count, schema, shape)
    for name, count, schema, shapes in (
        ("check of types", of_check, types, ALL),
        ("check of actions", of_check, actions, ALL),
        ("memberships of types", of_memberships, types, ALL),
        ("memberships of actions", of_memberships, actions, (line, dense)),
    )
    for shape in shapes
]


if __name__ == "__main__":
    sys.exit(harness.main(sys.argv[1:], ROWS, "cedar_cases"))
