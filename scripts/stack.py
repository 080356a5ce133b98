#!/usr/bin/env python3
"""How much stack it takes to type a condition at the limit of nesting: scripts/stack.py [PROGRAM [KIB]].

PROGRAM is cedar_cases, by default as it is built without a proof. `rt ci` leaves two in its crate's `out`: the one by Rattle's own compiler ends in
`.by-rattle`.
Each condition has a part at depth 400: a line of operands, each in the one after it, a chain of accesses, negations, and
operands in parentheses. Printed is the least stack that the whole run ends well in, reading and dropping of the policy
included, found by halves. A line passes where that is at most KIB, by default 2 MiB, which a thread has. The last line
counts the lines that pass and those that do not. It is no part of the gate.
"""
import resource
import subprocess
import sys

from measure.harness import bench, when

LIMIT = 2048
STEP = 16
DEPTH = 396
SCHEMA = "entity P { again: P, on: Bool };\nentity R;\naction go appliesTo { principal: [P], resource: [R], context: { } };\n"
CONDITIONS = {
    "and": " && ".join(["principal.on"] * DEPTH),
    "or": " || ".join(["principal.on"] * DEPTH),
    "sum": " + ".join(["1"] * DEPTH) + " == 1",
    "access": "principal" + ".again" * DEPTH + ".on",
    "negation": "!!!!(" * (DEPTH // 4) + "principal.on" + ")" * (DEPTH // 4),
    "parentheses": "(" * 2 * DEPTH + "principal.on" + ")" * 2 * DEPTH,
    "parentheses on the left": "(" * DEPTH + "principal.on" + " || principal.on)" * (DEPTH - 1) + ")",
    "parentheses on the right": "(principal.on || " * (DEPTH - 1) + "principal.on" + ")" * (DEPTH - 1),
}


def ends_well(bench, stack):
    """Whether the program ends with status 0 within so many KiB of stack."""
    def limit():
        resource.setrlimit(resource.RLIMIT_STACK, (stack * 1024, stack * 1024))
        resource.setrlimit(resource.RLIMIT_CORE, (0, 0))

    done = subprocess.run([bench.program, "case.tsv"], cwd=bench.room, stdin=subprocess.DEVNULL, capture_output=True, preexec_fn=limit)
    return done.returncode == 0


def least(bench):
    """The least stack in KiB, in steps, that is enough; none where none up to 64 MiB is."""
    low, high = 0, 65536
    if not ends_well(bench, high):
        return None
    while high - low > STEP:
        middle = (low + high) // 2
        if ends_well(bench, middle):
            high = middle
        else:
            low = middle
    return high


def main(words):
    limit = int(words[1]) if words[1:] else LIMIT
    passed = failed = 0
    with bench(words, "cedar_cases") as cases:
        for name, condition in CONDITIONS.items():
            cases.case(SCHEMA, [when(condition)])
            stack = least(cases)
            print(f"{name} at the limit: {stack} KiB" if stack else f"{name}: it does not end well", flush=True)
            passed += stack is not None and stack <= limit
            failed += stack is None or stack > limit
    print(f"{passed} passed, {failed} failed")
    return 1 if failed else 0


if __name__ == "__main__":
    sys.exit(main(sys.argv[1:]))
