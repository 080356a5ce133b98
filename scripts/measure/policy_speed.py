#!/usr/bin/env python3
"""What cedar-validate takes for each policy of a large file, and for a schema: scripts/measure/policy_speed.py [PROGRAM].

PROGRAM is cedar_validate, by default as it is built without a proof. The policies are about one action each, and each has a
condition, most accepted and some refused. The schemas are of two kinds, which each figure names: the actions share their types, or
each has a type of principals and one of resources of its own. Instructions are counted by valgrind over two files, one of twice
the policies, so that what the schema takes is left out. Of policies about all actions, without a condition, the figure is that of
one environment. By callgrind, a line of output and the walks over a policy's parts are
counted alone, these by the function that makes them. What a schema takes is told by whole runs with one policy: by 300 actions that share their types, by as many that have
types of their own, and by aliases that double, each of which stands for the one before twice. These are refused, and twice as
many may take twice as much. Then 10,000 policies are validated, by the clock and with the memory that the
program has at most. The figures are alike where reading is linear and one typed condition is alive at a time. It needs
valgrind, and is no part of the gate.
"""
import re
import resource
import subprocess
import sys
import tempfile
import time
from collections import namedtuple
from pathlib import Path

import harness
import unproved

ACTIONS = 300
ALIASES = 20, 40, 80
# The status of a run: all policies are read and some are refused, and the schema is refused.
SOME_REFUSED, NO_SCHEMA = 1, 2
# The functions that count and show a policy, write what is found, look for what may not stand in a policy or may be read as
# something else, begin a walk over the parts of an expression, and take a step of one.
SHOWING, WRITING, LOOKING = "::ShownPolicies::show_policy", "::formats::FormatFindingsWriter::add", "::policies::allow::"
WALK, STEP = "::Expr::subexpressions", "::subexpressions::ExprIteratorIterator::next"
# In a table of callgrind_annotate: a function with its instructions, and how often another calls it.
OWN = re.compile(r"^\s*([\d,]+) \(.*?\)  \*  \S+?:(.*)", re.M)
CALLER = re.compile(r"^.* <\s+\S+?:(.*?) \(([\d,]+)x\)", re.M)
# Conditions of which the policies have one each; the last is refused.
CONDITIONS = (
    "resource.owner == principal",
    "principal in resource.readers && context.n < resource.size",
    "principal has vip && principal.vip && resource.name like \"a*\"",
    "resource.tags.containsAny([\"a\", \"b\"]) || principal.boss == resource.owner",
    "if resource.open then true else principal.name == resource.name",
    "principal.vip",
)


# The same by types of their own.
OWN_CONDITIONS = (
    "resource.open && principal.a < 7 && (principal has vip && principal.vip) && resource.owner == principal.boss",
    "resource.owner == principal",
    "if resource.open then true else principal.a == 1",
    "principal.boss.boss.a > 3 || resource.open",
    "principal has vip && principal.vip",
    "principal.vip",
)


def schema_of_shared_types(actions):
    """The text of a schema with so many actions that share their types."""
    lines = ["entity Group;", "entity User in [Group] { name: String, boss: User, vip?: Bool };"]
    lines += ["entity File { owner: User, readers: Group, size: Long, name: String, tags: Set<String>, open: Bool };"]
    sides = "principal: User, resource: File, context: { n: Long }"
    lines += [f"action a{i} appliesTo {{ {sides} }};" for i in range(actions)]
    return "\n".join(lines) + "\n"


def schema_of_own_types(actions):
    """The text of a schema in which each of so many actions has a type of principals and one of resources of its own."""
    return "".join(
        f"entity P{i} {{ a: Long, vip?: Bool, boss: P{i} }};\nentity R{i} {{ owner: P{i}, open: Bool }};\n"
        f"action a{i} appliesTo {{ principal: P{i}, resource: R{i} }};\n"
        for i in range(actions)
    )


def schema_of_aliases(count):
    """The text of a schema with so many aliases, each of which stands for the one before twice."""
    doubled = "".join(f"type A{i + 1} = {{ a: A{i}, b: A{i} }};\n" for i in range(count))
    return f"type A0 = Long;\n{doubled}entity E {{ a: A{count} }};\n"


def about(action, condition):
    """A policy about the action of this number, with a condition."""
    return f'permit(principal, action == Action::"a{action}", resource)\nwhen {{ {condition} }};\n'


def of_shared_types(i, actions):
    """A policy about one of so many actions that share their types."""
    return about(i % actions, CONDITIONS[i % len(CONDITIONS)])


def of_own_types(i, actions):
    """A policy about one of so many actions that have types of their own; of the last condition it is refused."""
    return about(i % actions, OWN_CONDITIONS[i % len(OWN_CONDITIONS)])


def of_all_actions(i, actions):
    """A policy about all actions, without a condition; the first has one, which is refused."""
    return f"permit(principal, action, resource){'' if i else ' when { principal.vip }'};\n"


# A kind of schema: its name, its text by the number of actions, and a policy by its number and that of the actions.
Kind = namedtuple("Kind", "name schema policy")
SHARED = Kind("shared types", schema_of_shared_types, of_shared_types)
OWN_TYPES = Kind("types of their own", schema_of_own_types, of_own_types)
ALL = Kind("shared types", schema_of_shared_types, of_all_actions)


def words_for(program, room, count, actions=ACTIONS, kind=SHARED):
    """The words of a run over so many policies, by a schema of this kind with so many actions."""
    names = Path(room, "schema.cedarschema"), Path(room, f"{count}.cedar")
    names[0].write_text(kind.schema(actions), encoding="utf8")
    names[1].write_text("".join(kind.policy(i, actions) for i in range(count)), encoding="utf8")
    return [str(program), *map(str, names)]


def ran(words, status):
    """What a run says on standard error; it has to end with this status."""
    done = subprocess.run(words, stdin=subprocess.DEVNULL, stdout=subprocess.DEVNULL, stderr=subprocess.PIPE, text=True)
    if done.returncode != status:
        sys.exit(f"{words[0]} ended with status {done.returncode}: {done.stderr[-300:]}")
    return done.stderr


def instructions(words, status=SOME_REFUSED):
    """How many instructions a run takes, which has to end with this status."""
    counted = ["valgrind", "--tool=cachegrind", "--cache-sim=no", "--cachegrind-out-file=/dev/null"]
    return int(harness.FIGURE.search(ran([*counted, *words], status))[1].replace(",", ""))


def for_each_further(program, room, count, actions, kind):
    """How many instructions each of so many further policies takes, beside as many."""
    counts = [instructions(words_for(program, room, n, actions, kind)) for n in (count, 2 * count)]
    return (counts[1] - counts[0]) / count


def for_schema(program, room, text, status=SOME_REFUSED):
    """How many instructions a run takes with one policy by this schema."""
    names = Path(room, "schema.cedarschema"), Path(room, "one.cedar")
    names[0].write_text(text, encoding="utf8")
    names[1].write_text('permit(principal, action == Action::"a0", resource) when { principal.vip };\n', encoding="utf8")
    return instructions([str(program), *map(str, names)], status)


def tell_schemas(program, room):
    """Prints what whole runs with one policy take by some schemas."""
    for kind in (SHARED, OWN_TYPES):
        text = kind.schema(ACTIONS)
        count = for_schema(program, room, text)
        print(f"{count:,} instructions of a run with one policy by {ACTIONS} actions of {kind.name}, {len(text):,} bytes", flush=True)
    for aliases in ALIASES:
        text = schema_of_aliases(aliases)
        count = for_schema(program, room, text, NO_SCHEMA)
        print(f"{count:,} instructions of a run by {aliases} aliases that double, {len(text):,} bytes", flush=True)


def calls(words, room):
    """Of each function of a run: how often each other calls it, and its instructions with those of all that it calls."""
    kept = Path(room, "callgrind")
    ran(["valgrind", "--tool=callgrind", f"--callgrind-out-file={kept}", *words], SOME_REFUSED)
    shown = subprocess.run(["callgrind_annotate", "--inclusive=yes", "--tree=caller", "--threshold=100", str(kept)], capture_output=True, text=True, check=True)
    for block in shown.stdout.split("\n\n"):
        if own := OWN.search(block):
            callers = {name.split("'")[0].split(" [")[0]: int(times.replace(",", "")) for name, times in CALLER.findall(block)}
            yield own[2], callers, int(own[1].replace(",", ""))


def parts_alone(program, room, count):
    """What a line of output takes, and which functions walk over the parts of a policy, and what the steps of walks take."""
    words = words_for(program, room, count)
    lines = subprocess.run(words, stdin=subprocess.DEVNULL, capture_output=True, text=True).stdout.count("\n")
    found = list(calls(words, room))
    written, shown, looked, steps = (sum(took for name, _, took in found if its in name) for its in (WRITING, SHOWING, LOOKING, STEP))
    walks = [caller for name, callers, _ in found if WALK in name for caller in callers.items()]
    print(f"{written / lines:,.0f} instructions to write each of {lines} lines of output, {shown / lines:,.0f} with its place and the counts")
    print(f"{looked / count:,.0f} to look for marks and forbidden parts in each of {count} policies")
    print(f"{sum(times for _, times in walks) / count:.1f} walks over the parts of each, whose steps take {steps / count:,.0f}")
    for caller, times in walks:
        print(f"    {times / count:.1f} by {caller}")


def main(words):
    program = unproved.named(words, "cedar_validate")
    resource.setrlimit(resource.RLIMIT_CORE, (0, 0))
    with tempfile.TemporaryDirectory() as room:
        tell_schemas(program, room)
        for kind in (SHARED, OWN_TYPES):
            for count, actions in ((300, 1), (300, 10), (300, 300), (600, 300), (300, 3000)):
                each = for_each_further(program, room, count, actions, kind)
                print(f"{each:,.0f} instructions for each of {count} further policies about one of {actions:,} actions of {kind.name}", flush=True)
        each = for_each_further(program, room, 60, ACTIONS, ALL)
        print(f"{each / ACTIONS:,.0f} in each environment for a policy about all {ACTIONS} actions, without a condition")
        parts_alone(program, room, 600)
        for kind in (SHARED, OWN_TYPES):
            for count, actions in ((1000, ACTIONS), (10000, ACTIONS), (10000, 1)):
                words = words_for(program, room, count, actions, kind)
                seconds, most = held(words)
                size = Path(words[2]).stat().st_size
                by = f"{actions} actions of {kind.name}"
                print(f"{count:,} policies by {by}, {size:,} bytes: {seconds:.1f} s, {most:,} KiB at most", flush=True)


def held(words):
    """The seconds that a run takes, and the most memory that it has at a time, in KiB."""
    began = time.monotonic()
    with tempfile.TemporaryDirectory() as room:
        most = harness.most_memory(words, room, subprocess.DEVNULL)
    return time.monotonic() - began, most


if __name__ == "__main__":
    main(sys.argv[1:])
