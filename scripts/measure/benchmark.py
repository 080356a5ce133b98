#!/usr/bin/env python3
"""What the check of a policy and its level pass cost for each environment, and what memory the check takes:
scripts/measure/benchmark.py [PROGRAM].

A policy of 40 conditions is checked by a schema in which each action applies to 10 types of principals and 10 of resources,
so in 100 environments an action. PROGRAM is cedar_cases, by default as it is built without a proof. Instructions are counted by
valgrind over a few actions: what the reading takes is counted by a policy that names no attribute, and taken away. The level
pass is what the validation with levels costs beyond the check; above a third of the check the script fails. Then conjunctions of
100 parts are asked in one environment, because there all that a policy costs once weighs most: the required level and the
validation with levels, as multiples of typechecking the policy, each counted within its call alone. Memory is
what a run has allocated at a time: the schema is read first, which keeps a list of its environments, and nearly all of the run
are the checks, so from its middle on nothing may grow. It needs valgrind, and is no part of the gate.
"""
import re
import sys
from pathlib import Path

import harness
from harness import when

TYPES = 10
# Ten conditions, each a success in every environment of the schema, which the script sees to.
CONDITIONS = (
    "principal.ready",
    "principal has vip && principal.vip",
    "resource.owner == principal.boss",
    "context.n < resource.size",
    "resource.size * 2 + 1 <= context.n",
    "resource.owner in principal.boss",
    'principal.name like "a*"',
    "[1, 2, 3].contains(context.n)",
    'if principal.ready then resource.open else principal.name == "b"',
    'principal.hasTag("t") && principal.getTag("t") == 1',
)
# A schema with one environment.
ONE_TYPE = """entity P0 in [P0] { vip?: Bool, boss: P0, name: String };
entity R0 { size: Long };
action a appliesTo { principal: P0, resource: R0, context: { n: Long } };
"""
POLICY = " && ".join(f"({it})" for it in CONDITIONS * 4)
SMALL, LARGE = 2, 4
PARTS = 100
# A part of a conjunction, by its number, and the level that the conjunction requires.
CONJUNCTIONS = (
    ('principal.name != "a{}"', 1),
    ('principal.boss.boss.name != "a{}"', 3),
    ("(principal has vip && principal.vip)", 1),
    ('principal in P0::"g{}"', 1),
    ("resource.size > {} && context.n < resource.size", 1),
)
# A column of the case, and what it has to say: that the policy passes, that it has no finding at a level that is enough, and that
# each environment of the one action is a success.
CHECK = "strict policy", "true"
LEVELS = "strict level 9", ""
SUCCESSES = "strict environments", " | ".join(f"P{i} a0 R{j}: Success" for i in range(TYPES) for j in range(TYPES))
HELD = re.compile(r"^time=(\d+)\nmem_heap_B=(\d+)$", re.M)


def schema(actions):
    """The text of a schema with so many actions."""
    lines = [f"entity P{i} {{ ready: Bool, vip?: Bool, boss: P0, name: String }} tags Long;" for i in range(TYPES)]
    lines += [f"entity R{i} {{ owner: P0, size: Long, open: Bool }};" for i in range(TYPES)]
    sides = ["principal: [" + ", ".join(f"P{i}" for i in range(TYPES)) + "]"]
    sides += ["resource: [" + ", ".join(f"R{i}" for i in range(TYPES)) + "]"]
    lines += [f"action a{i} appliesTo {{ {', '.join(sides)}, context: {{ n: Long }} }};" for i in range(actions)]
    return "\n".join(lines) + "\n"


def for_each_environment(bench, asked=CHECK):
    """How many instructions the policy takes in one environment."""
    cases = [(n, it) for n in (SMALL, LARGE) for it in ("true", POLICY)]
    counts = [bench.instructions(bench.case(schema(n), [when(it)], *asked)) for n, it in cases]
    return ((counts[3] - counts[2]) - (counts[1] - counts[0])) / ((LARGE - SMALL) * TYPES * TYPES)


def see_to_successes(bench):
    """Ends the script where a condition is no success in some environment: what is False ends all that comes after it."""
    for condition in CONDITIONS:
        bench.ran([bench.case(schema(1), [when(condition)], *SUCCESSES)])


def beside_typing(bench, part, level):
    """What the required level and the validation with levels of a conjunction cost, as multiples of typechecking it."""
    policy = when(" && ".join(part.format(i) for i in range(PARTS)))
    typing = bench.instructions_within("::typecheck_policy", bench.case(ONE_TYPE, [policy]))
    required = bench.instructions_within("::required_level", bench.case(ONE_TYPE, [policy], "strict required", str(level)))
    levels = bench.instructions_within("::validate_policy_with_level", bench.case(ONE_TYPE, [policy], *LEVELS))
    return required / typing, levels / typing


def held(bench, actions):
    """The bytes allocated at a time for the policy: at most, in the middle of the run, and at most after that."""
    seen = Path(bench.room, "massif.out")
    bench.ran([bench.case(schema(actions), [when(POLICY)])], harness.valgrind("massif", f"--massif-out-file={seen}"))
    found = [(int(time), int(size)) for time, size in HELD.findall(seen.read_text(encoding="utf8"))]
    late = [size for time, size in found if 2 * time >= found[-1][0]]
    return max(size for _, size in found), late[0], max(late)


def main(words):
    with harness.bench(words, "cedar_cases") as bench:
        see_to_successes(bench)
        check, both = for_each_environment(bench), for_each_environment(bench, LEVELS)
        print(f"{check:,.0f} instructions for the check in each environment")
        print(f"{both - check:,.0f} for its level pass, {(both - check) / check:.0%} of the check")
        if 3 * (both - check) > check:
            sys.exit("the level pass costs more than a third of the check")
        for part, level in CONJUNCTIONS:
            required, levels = beside_typing(bench, part, level)
            print(f"{PARTS} times {part}: the required level costs {required:.2f} of typechecking, validation with levels {levels:.2f}")
        for actions in (30, 300):
            most, middle, later = held(bench, actions)
            print(f"{actions * TYPES * TYPES:,} environments: {most:,} bytes at most, {middle:,} in the middle, {later:,} at most after it")


if __name__ == "__main__":
    main(sys.argv[1:])
