#!/usr/bin/env python3
"""What cedar-validate says and how it ends: scripts/gate/application_cases.py [--record] [PROGRAM].

PROGRAM is cedar_validate, by default as it is built without a proof. It is called with words and files, and given files that are
large or broken: each has to end in time with the status and the words that are wanted. (Other words, texts and formats are
judged by the tests of crates/cedar_verdicts_tests, which ask the libraries.) Then each file
apps_*.tsv of crates/cedar_cases/data is a schema and some policies, with what has to be said of them: whether each is
accepted in a mode, with which errors and at which texts, its least sufficient level where it is accepted, and its errors at
a level. All policies of a file are validated by one run for each of these columns, and its objects of JSON are compared.
Last, what README.md and docs/TOUR.md show of runs has to be what they write. With --record this script only writes the files of
examples/shown anew, which docs/TOUR.md shows: a command, and what its run writes. The last line counts what agrees and what does not.
"""
import itertools
import json
import subprocess
import sys
import tempfile
from pathlib import Path

sys.path.insert(0, str(Path(__file__).resolve().parent.parent))
import unproved  # noqa: E402

TOP = Path(__file__).resolve().parents[2]
CASES = TOP / "crates" / "cedar_cases" / "data"
SHOWN = TOP / "examples" / "shown"
ASKS = "$ scripts/validate "
SECONDS = 120
SCHEMA = """entity User in [User] { boss: User, age: Long, name: String } tags Long;
entity File { owner: User };
action view appliesTo { principal: User, resource: File, context: { n: Long } };
"""
SCOPE = "permit(principal, action, resource)"
LARGE = 10_000_000
USAGE = "[-s|--schema FILE] [-p|--policies FILE] [-k|--template-linked FILE]"
# Words, the exit status, and what the program says on standard output or, where that is empty, on standard error.
CALLS = (
    (["--help"], 0, f"usage: cedar-validate {USAGE}\n"),
    (["--version"], 0, "cedar-validate 0.1.0, Cedar 4.14.1\n"),
    ([], 2, "cedar-validate: a schema and at least one file of policies are wanted\nusage: "),
    ([b"\xff", "p"], 2, "cedar-validate: a word of the command line is no text in UTF-8\n"),
    (["missing", "p"], 2, "missing: fault: cannot be read: No such file or directory (os error 2)\n"),
    (["--json", "missing", "p"], 2, '{"kind":"fault","file":"missing","code":"file","text":"cannot be read: No such file or directory (os error 2)"}\n'),
    (["--entities", "missing", "s"], 2, "missing: fault: cannot be read: No such file or directory (os error 2)\npolicies: 0"),
    (["--", "s", "--p"], 2, "--p: fault: cannot be read: No such file or directory (os error 2)\n"),
    (["--schema", "s", "--schema=t", "p"], 0, "p:1:1: policy `policy0`: accepted, level 1\npolicies: 1"),
    (["--level=1", "--mode=strict", "--deny-warnings", "s", "p"], 0, "p:1:1: policy `policy0`: accepted, level 1\n"),
    (["s", "w"], 0, "w:1:1: policy `policy0`: accepted, level 0\n"),
    (["s", "w", "--json", "--deny-warnings"], 1, '{"kind":"policy","file":"w"'),
    (["s", "w", "missing", "--deny-warnings"], 2, "w:1:1: policy"),
    (["s", "."], 2, ".: fault: cannot be read: Is a directory (os error 21)\npolicies: 0"),
    (["s", "-"], 0, "policies: 0, accepted: 0, refused: 0, warnings: 0, faults: 0\n"),
    (["s", "/dev/zero"], 2, "/dev/zero:1:1: fault: the text is longer than 64 MiB\n"),
    (["/dev/zero", "p"], 2, "/dev/zero:1:1: fault: the text is longer than 64 MiB\n"),
)


def when(condition):
    return f"{SCOPE} when {{ {condition} }};\n"


GOOD = when("principal.age > 3")
# Policies, the exit status, and what one of the first lines begins with.
POLICIES = (
    ((GOOD + 'permit "').encode() + b"\xff", 2, "p:2:9: fault: the byte 0xff is no text in UTF-8, as a file has to be"),
    ("//" + "x" * LARGE + "\n" + GOOD, 0, "p:2:1: policy `policy0`: accepted, level 1"),
    (when(f'principal.name == "{"x" * LARGE}" && principal.ag > 1'), 1, f"p:1:{LARGE + 68}: error: attribute `ag` does not exist on `User`"),
    (when(f"[{'1,' * (LARGE // 20)}1].contains(context.n)"), 0, "p:1:1: policy `policy0`: accepted, level 0"),
    (when("(" * LARGE), 2, "p:1:844: fault: nested too deep: 800 brackets and operators are read"),
    (when("!(" * (LARGE // 2)), 2, "p:1:844: fault: nested too deep: 800 brackets and operators are read"),
    (";" * LARGE, 2, "p: fault: 100 faults, so the rest of the file is not read"),
    ('"' + "\\" * LARGE, 2, "p:1:1: fault: `permit` or `forbid` is expected"),
    ("/" * (1 + (1 << 26)), 2, "p:1:1: fault: the text is longer than 64 MiB"),
)
# Schemas, the exit status, and what one of the first lines begins with.
SCHEMAS = (
    (SCHEMA.encode() + b"\xff", 2, "s:4:1: fault: the byte 0xff is no text in UTF-8"),
    ("entity A { a: " + "Set<" * LARGE, 2, "s:1:3211: fault: nested too deep, as a type that contains itself is"),
    ("type T0 = Long; " + "".join(f"type T{i + 1} = {{a: T{i}, b: T{i}}}; " for i in range(99)), 2, "s:1:"),
    ("".join(f"entity T{i} {{ a: T{i * 7 % 10_000} }};\n" for i in range(10_000)) + SCHEMA, 0, "p:1:1: policy `policy0`: accepted"),
    ("".join(f"entity T{i} in [T{i + 1}];\n" for i in range(20_000)) + "entity T20000;", 2, "s:513:8: fault: more than 131,072 descendants of entity types, or of actions, together"),
    (SCHEMA + f"entity {', '.join(f'A{i}' for i in range(1100))} in [{', '.join(f'A{i}' for i in range(1100))}];", 2, "s:4:8: fault: declarations of several names that repeat more than a million words"),
)


def rows(path):
    """The schema that a file names, and its cases by column."""
    lines = path.read_text(encoding="utf8").splitlines()
    schema = CASES / lines[0].split("\t")[1]
    names = lines[1].split("\t")
    return schema, [dict(zip(names, line.split("\t"))) for line in lines[2:]]


def validate_cases(program, schema, policies, options):
    """What the program says of each policy: its object, and the objects of its errors."""
    with tempfile.TemporaryDirectory() as room:
        text = Path(room, "policies.cedar")
        text.write_text("\n".join(policies) + "\n", encoding="utf8")
        words = [str(program), "--json", *options, str(schema), str(text)]
        done = subprocess.run(words, stdin=subprocess.DEVNULL, capture_output=True, text=True, timeout=SECONDS)
    found = []
    for line in done.stdout.splitlines():
        it = json.loads(line)
        if it["kind"] == "policy":
            found.append((it, []))
        elif it["kind"] == "error":
            found[-1][1].append(it)
        elif it["kind"] == "fault":
            sys.exit(f"{schema.name}: {line}")
    if len(found) != len(policies):
        sys.exit(f"{schema.name}: {len(found)} of {len(policies)} policies: {done.stderr}")
    return found


def errors_of(text):
    """What a cell says of errors: their texts, and what the text of each place begins with."""
    found = []
    for part in text.split("; "):
        what, _, place = part.rpartition(" @ ")
        found.append((what, None if place == "the policy" else place[1:-1]))
    return found if text else []


def agrees_in_errors(policy, errors, wanted):
    """Whether the errors have the texts that are wanted, each where its text stands in the policy."""
    if sorted(it["text"] for it in errors) != sorted(what for what, _ in wanted):
        return False
    left = list(wanted)
    for it in errors:
        rest = policy[it["column"] - 1:]
        for what, place in left:
            if what == it["text"] and rest.startswith(place or policy):
                left.remove((what, place))
                break
    return not left


def options_of(column):
    """The words that ask for what a column says, and what it says; None of a column that says nothing."""
    mode, _, what = column.partition(" ")
    if what.startswith("level "):
        return ["--mode", mode, "--level", what[len("level "):]], "errors"
    if what in ("policy", "required"):
        return ["--mode", mode], what
    return None


def agrees(case, column, what, said_of):
    """Whether what is said of a policy is what its case has in a column."""
    policy, errors = said_of
    wanted = case[column]
    if what == "required" and not policy["accepted"]:
        return "level" not in policy
    if what == "required":
        return ("none" if policy["level"] is None else str(policy["level"])) == wanted
    if what == "errors":
        return policy["accepted"] == (not wanted) and agrees_in_errors(case["policy"], errors, errors_of(wanted))
    accepted, _, listed = wanted.partition("; ")
    return policy["accepted"] == (accepted == "true") and agrees_in_errors(case["policy"], errors, errors_of(listed))


def written(path, text):
    path.write_bytes(text if isinstance(text, bytes) else text.encode())


def ended(program, room, words, status, wanted, is_in_lines):
    """Whether a run ends so, and says what is wanted, at its beginning or as one of its lines."""
    try:
        done = subprocess.run([str(program), *words], cwd=room, stdin=subprocess.DEVNULL, capture_output=True, timeout=SECONDS)
    except subprocess.TimeoutExpired:
        return f"no end in {SECONDS} s"
    text = (done.stdout or done.stderr).decode("utf8")
    printed = [line[:300] for line in text.splitlines()] if is_in_lines else [text]
    if done.returncode == status and any(it.startswith(wanted) for it in printed):
        return None
    return f"status {done.returncode}: {text[:500]}"


def runs(program):
    """What differs in each run over words and over texts; None where nothing does."""
    with tempfile.TemporaryDirectory() as room:
        both = Path(room, "s"), Path(room, "p")
        for path, text in zip(both, (SCHEMA, GOOD)):
            written(path, text)
        written(Path(room, "t"), "entity Other in [User]; // the last line is not ended")
        written(Path(room, "w"), 'permit(principal == File::"a", action, resource);')
        for words, status, wanted in CALLS:
            yield words, ended(program, room, words, status, wanted, False)
        for path, texts, kept in ((both[1], POLICIES, GOOD), (both[0], SCHEMAS, SCHEMA)):
            for text, status, wanted in texts:
                written(path, text)
                yield wanted, ended(program, room, ["s", "p"], status, wanted, True)
            written(path, kept)


def shown_runs():
    """The runs that the documents show: the page, the words, and what is written, up to a line of two points."""
    for page in ("README.md", "docs/TOUR.md"):
        lines = (TOP / page).read_text(encoding="utf8").splitlines()
        for at, line in enumerate(lines):
            if line.startswith(ASKS):
                yield page, line.split()[2:], [*itertools.takewhile(lambda it: it not in ("", "```"), lines[at + 1:])]


def output(program, words):
    """What a run at the top of the repository writes."""
    return subprocess.run([str(program), *words], cwd=TOP, stdin=subprocess.DEVNULL, capture_output=True, text=True, timeout=SECONDS).stdout


def differs(program, words, shown):
    """What a run writes, where that is not what is shown; else None."""
    text = output(program, words)
    printed = text.splitlines()
    agrees_so_far = shown[-1:] == [".."] and printed[:len(shown) - 1] == shown[:-1]
    return None if printed == shown or agrees_so_far else text


def record(program):
    """Writes each file of shown runs anew."""
    for path in sorted(SHOWN.glob("*.txt")):
        asked = path.read_text(encoding="utf8").splitlines()[0]
        path.write_text(f"{asked}\n{output(program, asked.removeprefix(ASKS).split())}", encoding="utf8")


def applications(program):
    """What differs in each case of the applications; None where nothing does."""
    for path in sorted(CASES.glob("apps_*.tsv")):
        schema, cases = rows(path)
        for column in cases[0]:
            asked = options_of(column)
            if asked is None:
                continue
            found = validate_cases(program, schema, [case["policy"] for case in cases], asked[0])
            for case, said_of in zip(cases, found):
                is_right = agrees(case, column, asked[1], said_of)
                yield f"{path.name}: {case['about']}: {column}", None if is_right else f"{case[column]!r} is wanted, not {said_of}"


def differences(program):
    """All that is asked, and what differs in it; None where nothing does."""
    yield from runs(program)
    yield from applications(program)
    for page, asked, shown in shown_runs():
        yield f"{page}: {' '.join(asked)}", differs(program, asked, shown)


def main(words):
    is_recorded = words[:1] == ["--record"]
    program = unproved.named(words[is_recorded:], "cedar_validate")
    if is_recorded:
        record(program)
        return
    passed = failed = 0
    for what, difference in differences(program):
        passed += difference is None
        failed += difference is not None
        if difference is not None:
            print(f"{what}: {difference}")
    print(f"{passed} passed, {failed} failed")
    sys.exit(1 if failed or not passed else 0)


if __name__ == "__main__":
    main(sys.argv[1:])
