#!/usr/bin/env python3
"""How many policies have a where-clause in each of their environments, and which parts have none: scripts/measure/where_forms.py [--program PROGRAM] [FOLDER..].

PROGRAM is that of crates/cedar_samples, by default as it is built without a proof. Each FOLDER is an application: schema*.cedarschema, and policies in
*.cedar. Without one the applications are those of crates/cedar_cases/data, and the last is that of the tour. Policies that Strict refuses are left
out, and so are those with slots. A policy counts if its set of one has a query in each environment of its schema; a type that has no table counts
against no policy. The lines behind the counts are the reasons, the commonest first, each with the parts that it refuses. It is no part of the gate.
"""
import re
import sys
from collections import Counter, defaultdict
from pathlib import Path

sys.path.insert(0, str(Path(__file__).resolve().parent.parent))
import unproved  # noqa: E402
import where_cases  # noqa: E402

TOP = Path(__file__).resolve().parents[2]
CASES = TOP / "crates" / "cedar_cases" / "data"
SHOWN = 12
POLICY = re.compile(r'(?:@\w+\s*(?:\("(?:[^"\\]|\\.)*"\))?\s*)*(?:permit|forbid)\s*\((?:"(?:[^"\\]|\\.)*"|//[^\n]*|[^;"])*;')


def own_applications():
    """The name, the schema and the policies of each application of the repository."""
    for path in sorted(CASES.glob("apps_*.tsv")):
        lines = path.read_text(encoding="utf8").splitlines()
        schema = (CASES / lines[0].split("\t")[1]).read_text(encoding="utf8")
        yield path.stem, schema, [line.split("\t")[1] for line in lines[2:]]
    tour = TOP / "examples" / "tour"
    yield "tour", (tour / "photos.cedarschema").read_text(), POLICY.findall((tour / "mended.cedar").read_text())


def folder_application(folder):
    schema = "".join(path.read_text(encoding="utf8") for path in sorted(Path(folder).glob("schema*.cedarschema")))
    texts = (path.read_text(encoding="utf8") for path in sorted(Path(folder).glob("*.cedar")))
    return Path(folder).name, schema, [policy for text in texts for policy in POLICY.findall(text)]


def refusals(program, schema, policies):
    """Of each policy by its number: the reasons and parts that have no clause; None of a policy that is refused itself."""
    bare = [re.sub(r'@id\s*\("(?:[^"\\]|\\.)*"\)', "", policy) for policy in policies]
    found = {}
    for n, policy in enumerate(bare):
        done = where_cases.run(program, "queries", schema, policy)
        printed = done.stdout.decode()
        if done.returncode or not printed.startswith("CREATE TABLE"):
            found[n] = None
        else:
            found[n] = set(re.findall(r"^-- no clause of [^:]*: ([^:]*): (.*)$", printed, re.M))
    return found


def main(words):
    program = unproved.named(words[1:2] if words[:1] == ["--program"] else [], "cedar_samples")
    folders = words[2:] if words[:1] == ["--program"] else words
    applications = map(folder_application, folders) if folders else own_applications()
    total = having = 0
    parts = defaultdict(Counter)
    for name, schema, policies in applications:
        found = refusals(program, schema, [policy for policy in policies if "?principal" not in policy and "?resource" not in policy])
        judged = [reasons for reasons in found.values() if reasons is not None]
        total += len(judged)
        having += sum(not reasons for reasons in judged)
        print(f"{name}: {sum(not reasons for reasons in judged)} of {len(judged)} policies have a clause in each environment")
        for reasons in judged:
            for reason, part in reasons:
                parts[reason][part] += 1
    print(f"all: {having} of {total}")
    for reason, of_reason in sorted(parts.items(), key=lambda it: -sum(it[1].values())):
        print(f"{sum(of_reason.values())} {reason}: {'; '.join(part for part, _ in of_reason.most_common(SHOWN))}")


if __name__ == "__main__":
    main(sys.argv[1:])
