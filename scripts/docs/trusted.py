#!/usr/bin/env python3
"""What has to be believed: scripts/docs/trusted.py [FUNCTION CLAUSE..] lists the definitions that clauses of a function reach.

Without words it takes the promise of a host that loads slices. A definition is a block of a file of specs/: the lines between
two empty lines. It is reached by name, from the clause or from a block that is reached, so a name that two blocks of a file
have reaches both. What the toolchain makes of types and contracts (`declared`, `contracts`), and its own library, are not
counted.
"""
import re
import sys
from pathlib import Path

TOP = Path(__file__).resolve().parents[2]
PROMISE = ("validate_within", ("safe", "sliced", "never_true"))
# The call that decides its premises carries it too, and one of the library below the host, with their clauses.
LET_IN = ("admit", ("safe", "sliced"))
OTHER = ("validate_policy_with_level", ("silent", "never_true"))
# The libraries that the promise is about; the host's own crate is the one that has the function.
LIBRARIES = ("cedar_types", "cedar_typing", "cedar_typechecker")
SUBJECTS = (
    ("names, types, schemas, extension functions", r"cedar_types/specs/(Names|Types|Schemas|Extensions|Environments)"),
    ("values, and their equality", r"cedar_types/specs/Values\.|/Evaluation/Equality"),
    ("expressions and templates", r"cedar_types/specs/(Expressions|Templates)|cedar_typing/specs/TypedExpr"),
    ("evaluation", r"/Evaluation/(Eval|Outcomes|World)"),
    ("what conforms", r"cedar_types/specs/Values/|/Evaluation/Conformance"),
    ("what a request reaches, and slices", r"/Slices/Reach"),
    ("the premises and the promise", r""),
)
USE = re.compile(r"(?:pub )?(?:ghost )?use Rattle\.([\w.+-]+?)(?:\.\{([^}]*)\})?(?: as (\w+))?;?")
NAME = re.compile(r"[A-Za-z_][\w'?]*")
DEFINED = re.compile(r"\s*(?:(?:abbrev |unfoldable |data |record )(?:pub )?|pub (?:data |record )?)([A-Za-z_][\w'?]*) [:({].*")
CONSTRUCTOR = re.compile(r"\s*([A-Za-z_][\w'? ]*?) : .*")


def path_of(module):
    """The file of a module of definitions: `cedar_types.specs.Values.Stores`."""
    parts = module.split(".")
    if len(parts) < 3 or parts[1] != "specs" or parts[2] in ("declared", "contracts"):
        return None
    return f"crates/{parts[0]}/specs/{'/'.join(parts[2:])}.antt"


def imports_of(text):
    """Each name that the file imports, with its file and its name there; and each module that has a short name."""
    names, modules = {}, {}
    for line in text.splitlines():
        found = USE.fullmatch(line.strip())
        path = found and path_of(found[1])
        if not path:
            continue
        for word in filter(None, (found[2] or "").split(",")):
            name, _, other = word.strip().partition(" as ")
            names[other or name] = path, name
        if found[3]:
            modules[found[3]] = path
    return names, modules


def blocks_of(text):
    """The blocks of a file that define something: the names, and the lines."""
    for block in re.split(r"\n\s*\n", text):
        lines = [line for line in block.strip("\n").splitlines() if not re.match(r"\s*(pub )?(use|mod) ", line)]
        names = set(names_in([line for line in lines if not line.strip().startswith("--")]))
        if names:
            yield names, lines


def names_in(lines):
    """The names that a block defines: of data each constructor too, of a record no field, as its name reaches it whole."""
    head = " ".join(lines)
    is_record = re.search(r"\brecord (pub )?\w", head) and "where" in head
    is_data = re.search(r"\bdata (pub )?\w", head)
    for line in lines:
        found = DEFINED.fullmatch(line)
        if found and (not is_record or re.search(r"\b(record|abbrev|unfoldable)\b", line)):
            yield found[1]
        elif is_data and CONSTRUCTOR.fullmatch(line):
            yield from CONSTRUCTOR.fullmatch(line)[1].split()


def words_of(lines):
    """The names in a block, and those behind the short name of a module, without its comments."""
    code = "\n".join(line.partition("--")[0] for line in lines)
    return set(NAME.findall(code)), re.findall(r"\b(\w+)\.([A-Za-z_][\w']*)", code)


class Definitions:
    """The definitions of a repository, by file."""

    def __init__(self, files):
        self.blocks = {}
        self.imports = {}
        for path, text in files.items():
            if re.fullmatch(r"crates/\w+/specs/.*\.antt", path):
                self.blocks[path] = list(blocks_of(text))
                self.imports[path] = imports_of(text)

    def reached(self, wanted):
        """The blocks that names of files reach: for each file the numbers of its blocks."""
        wanted, seen, reached = list(wanted), set(), {}
        while wanted:
            path, name = wanted.pop()
            if (path, name) in seen or path not in self.blocks:
                continue
            seen.add((path, name))
            for number, (names, lines) in enumerate(self.blocks[path]):
                if name in names and number not in reached.setdefault(path, set()):
                    reached[path].add(number)
                    wanted += self.cited(path, lines)
        return {path: numbers for path, numbers in reached.items() if numbers}

    def cited(self, path, lines):
        names, modules = self.imports[path]
        words, qualified = words_of(lines)
        yield from (names[word] for word in words if word in names)
        yield from ((path, word) for word in words)
        yield from ((modules[module], word) for module, word in qualified if module in modules)

    def lines(self, path, numbers=None):
        return sum(len(lines) for number, (_, lines) in enumerate(self.blocks[path]) if numbers is None or number in numbers)


def clauses_of(text, function):
    """The clauses of a function, by their names: what stands behind `ensures NAME`."""
    found = re.search(rf"^( *)pub fn {function}\b.*?^\1\{{", text, re.M | re.S)
    return dict(re.findall(r"ensures (\w*) ?\{(.*?)\}\n(?= *(?:ensures|\{|$))", found[0] + "\n", re.S)) if found else {}


def reach(files, function=PROMISE[0], clauses=PROMISE[1]):
    """The definitions that clauses of the function reach, the file of the function, and all definitions."""
    definitions = Definitions(files)
    for path, text in sorted(files.items()):
        own = clauses_of(text, function) if path.endswith(".rt") else {}
        if own and all(clause in own for clause in clauses):
            names, _ = imports_of(text)
            words = set(NAME.findall(" ".join(own[clause] for clause in clauses or own)))
            return definitions.reached(names[word] for word in words if word in names), path, definitions
    return {}, None, definitions


def counted(files):
    """The lines that the promise reaches by subject, and the lines that there are, of proofs too."""
    reached, path, definitions = reach(files)
    crates = (*LIBRARIES, path.split("/")[1]) if path else LIBRARIES
    by_subject = {subject: 0 for subject, _ in SUBJECTS}
    for place, numbers in reached.items():
        subject = next(subject for subject, pattern in SUBJECTS if re.search(pattern, place))
        by_subject[subject] += definitions.lines(place, numbers)
    of_crates = tuple(f"crates/{crate}/" for crate in crates)
    there = sum(definitions.lines(place) for place in definitions.blocks if place.startswith(of_crates))
    proofs = sum(
        text.count("\n") for place, text in files.items() if place.startswith(of_crates) and "/proofs/" in place
    )
    return by_subject, there, proofs


def rounded(count):
    """A count in hundreds, so that not every edit of a proof makes the pages stale."""
    return f"{round(count, -2):,}"


def table(files):
    """What THEOREMS shows."""
    by_subject, there, proofs = counted(files)
    rows = [f"| {subject} | {lines:,} |" for subject, lines in by_subject.items()]
    return [
        "| Definitions | Lines |",
        "|---|---|",
        *rows,
        f"| together | {sum(by_subject.values()):,} of some {rounded(there)} |",
        f"| proofs, which nobody has to read | 0 of some {rounded(proofs)} |",
    ]


def lines_of(files, function, clauses):
    """The lines of definitions that these clauses of a function reach."""
    reached, _, definitions = reach(files, function, clauses)
    return sum(definitions.lines(place, numbers) for place, numbers in reached.items())


def has_rules(reached):
    """Whether a rule of typing or of levels is among what is reached."""
    return any(re.search(r"/specs/(Rules|Infer|Levels)\b", path) for path in reached)


def sentence(files):
    """What the README says."""
    by_subject, there, _ = counted(files)
    is_free = not has_rules(reach(files)[0]) and not has_rules(reach(files, *LET_IN)[0])
    kind = "none of them a rule of typing or of levels" if is_free else "rules of typing or of levels among them"
    return [
        f"If you call `{PROMISE[0]}` of `cedar_host`, you have to trust {sum(by_subject.values()):,} of some {rounded(there)} lines of",
        f"definitions ({lines_of(files, *LET_IN):,} for `{LET_IN[0]}`), {kind}. The clauses of",
        f"`{OTHER[0]}` cite the rules: {lines_of(files, *OTHER):,} lines (`scripts/docs/trusted.py` lists them).",
    ]


def main(words):
    files = {
        str(path.relative_to(TOP)): path.read_text()
        for path in TOP.glob("crates/*/*/**/*")
        if path.suffix in (".rt", ".antt") and "/out/" not in str(path)
    }
    function, clauses = (words[0], words[1:]) if words else PROMISE
    reached, path, definitions = reach(files, function, clauses)
    if path is None:
        print(f"no function {function} has these clauses", file=sys.stderr)
        return 2
    total = 0
    for place, numbers in sorted(reached.items()):
        lines = definitions.lines(place, numbers)
        total += lines
        print(f"{lines:5} of {definitions.lines(place):5}  {place}")
    print(f"{total:5} lines of definitions are reached by {function} in {path}")
    return 0


if __name__ == "__main__":
    sys.exit(main(sys.argv[1:]))
