#!/usr/bin/env python3
"""The largest sets and conditions whose where-clauses run in SQLite: scripts/measure/where_growth.py [PROGRAM].

PROGRAM is that of crates/cedar_samples, by default as it is built without a proof. Each row makes policies of a size, doubles the size until the
query does not run or TOP is reached, and halves the last step. The line of a row has the largest size that runs, and what stops the next one: an
error of SQLite or a finding against the policies. docs/EMBEDDING.md names the limits. It is no part of the gate.
"""
import sqlite3
import sys
from pathlib import Path

sys.path.insert(0, str(Path(__file__).resolve().parent.parent))
import unproved  # noqa: E402
import where_cases  # noqa: E402

TOP = 4096
SCHEMA = """entity Group in [Group];
entity User in [Group] {{ boss: User, vip: Bool }};
entity Photo in [Group] {{ owner: User, public: Bool, level: Long{optional} }};
action view appliesTo {{ principal: User, resource: Photo }};
"""


def permit(condition):
    return f"permit(principal, action, resource) when {{ {condition} }};\n"


def joined(operator):
    return lambda size: permit(f" {operator} ".join(f"resource.level < {n}" for n in range(size)))


def nested(before, behind):
    return lambda size: permit(before * size + "resource.public" + behind * size)


ROWS = {
    "policies in a set": lambda size: "".join(f'@id("p{n}") {permit(f"resource.level == {n}")}' for n in range(size)),
    "forbids in a set": lambda size: "permit(principal, action, resource);" + "".join(
        f'@id("p{n}") forbid(principal, action, resource) when {{ resource.level == {n} }};\n' for n in range(size)),
    "parts of `a && b && ..`": joined("&&"),
    "parts of `a || b || ..`": joined("||"),
    "tests of `has o && o`": lambda size: permit(" && ".join(f"(resource has o{n} && resource.o{n} == 1)" for n in range(size))),
    "entities in a list": lambda size: permit("principal in [" + ", ".join(f'Group::"{n}"' for n in range(size)) + "]"),
    "`a && (b || (..`": nested("resource.level < 1 && (resource.level < 2 || (", "))"),
    "`a || (b && (..`": nested("resource.level < 1 || (resource.level < 2 && (", "))"),
    "`((..) || a) && b`": nested("((", ") || resource.level < 1) && resource.level < 2"),
    "`a && (a && (..`": nested("resource.level < 1 && (", ")"),
    "`!(a && !(..`": nested("!(resource.level < 1 && ", ")"),
    "`if a then b else if c then ..`": nested("if resource.level < 1 then resource.level < 2 else ", ""),
    "`if (if (.. then a else b) ..`": nested("if (", ") then resource.level < 1 else resource.level < 2"),
    "`owner.boss.boss ..`": lambda size: permit("resource.owner" + ".boss" * size + ".vip"),
    "`has o && (o == 1 || (..`": lambda size: permit("".join(f"(resource has o{n} && (resource.o{n} == 1 || " for n in range(size)) + "resource.public" + "))" * size),
}


def fault(program, policies, size):
    """Why the query of the policies does not run, or nothing."""
    optional = "".join(f", o{n}?: Long" for n in range(size)) if "has o" in policies else ""
    done = where_cases.run(program, "queries", SCHEMA.format(optional=optional), policies)
    tables, queries = where_cases.read_queries(done.stdout)
    query = queries.get(("User", "view"))
    if query is None:
        said = (done.stderr or done.stdout).decode()
        return next((line for line in said.split("\n") if line.startswith("--  ")), said)[:160] or f"status {done.returncode}"
    db = sqlite3.connect(":memory:")
    try:
        for table in where_cases.unique(tables):
            db.execute(table)
        db.execute(query, {"principal": "a"} if ":principal" in query else {}).fetchall()
    except sqlite3.Error as error:
        return str(error)
    return None


def largest(program, make):
    """The largest size that runs, and what stops the next one."""
    runs, fails, why = 0, 1, None
    while fails <= TOP and (why := fault(program, make(fails), fails)) is None:
        runs, fails = fails, 2 * fails
    if why is None:
        return f"{runs} (no more tried)"
    while fails - runs > 1:
        middle = (runs + fails) // 2
        said = fault(program, make(middle), middle)
        if said is None:
            runs = middle
        else:
            fails, why = middle, said
    return f"{runs}; {fails}: {why.strip()}"


def main(words):
    program = unproved.named(words, "cedar_samples")
    print(f"SQLite {sqlite3.sqlite_version}")
    for what, make in ROWS.items():
        print(f"{what}: {largest(program, make)}", flush=True)


if __name__ == "__main__":
    main(sys.argv[1:])
