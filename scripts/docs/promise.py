"""Makes what docs/PROMISE.md shows of the sources, the clauses of the promise and the definitions behind them, and what
docs/THEOREMS.md shows: the premises with their examples, and the other forms of the promise.

A block of a page is a definition as it stands in its file, below a link. A definition that is renamed, or a clause that is gone,
is a fault, and so is a page that lacks a block: scripts/pages.py says which. A definition that PROMISE says in words alone is
a fault if it changes, because its words must then change too.
"""
import re

from docs import definitions, files as listings, trusted
from docs.definitions import Gone

PAGE = "docs/PROMISE.md"
FORMS_PAGE = "docs/THEOREMS.md"
FOLDER = "docs"
CALL = ("crates/cedar_host/src/slices.rt", *trusted.PROMISE)
HOST, LEVELS, TYPING, TYPES = (f"crates/cedar_{name}/specs" for name in ("host", "typechecker", "typing", "types"))
# The definitions that the page shows, block by block: each with its file.
BLOCKS = {
    "world": {
        "World": f"{TYPING}/Evaluation/World.antt",
        "Outcome": f"{TYPING}/Evaluation/World.antt",
        "Failure": f"{TYPING}/Evaluation/World.antt",
    },
    "safe": {"DoesNotGoWrong": f"{HOST}/Safety.antt"},
    "never_true": {"IsNeverTrue": f"{HOST}/Safety.antt"},
    "sliced": {"NeedsSliceAlone": f"{HOST}/Slices.antt"},
    "part": {
        "HoldsSlice": f"{LEVELS}/Slices/Reach.antt",
        "IsPartOf": f"{LEVELS}/Slices/Reach.antt",
    },
    "slice": {
        "slice": f"{LEVELS}/Slices/Reach.antt",
        "reach": f"{LEVELS}/Slices/Reach.antt",
    },
    "premises": {
        "IsWellFormed": f"{TYPING}/Soundness/Policies.antt",
        "IsConforming": f"{TYPING}/Soundness/Policies.antt",
    },
}
SHOWN = {name: path for block in BLOCKS.values() for name, path in block.items()}
# Those that it shows without the comment above them, because its words say all of it.
BARE = ("IsNeverTrue", "NeedsSliceAlone", "HoldsSlice", "slice", "reach", "IsWellFormed", "IsConforming")
# The definitions that the page says in words alone: each with its file, and with its lines behind the type.
SAID = {
    "IsBooleanOrAllowed": (f"{TYPING}/Soundness/PolicyCheck.antt", "IsBooleanOrAllowed o = IsSafe o × OnValue IsBoolean o"),
    "IsBoolean": (f"{TYPING}/Soundness/PolicyCheck.antt", "IsBoolean = OnBool (λ b. Unit {0})"),
    "IsSafe": (f"{TYPING}/Soundness.antt", "IsSafe (Gives v) = Unit {0}", "IsSafe (Fails f) = IsAllowed f"),
    "IsAllowed": (
        f"{TYPING}/Soundness.antt",
        "IsAllowed TypeFailure = ⊥",
        "IsAllowed AbsentAttribute = ⊥",
        "IsAllowed AbsentTag = ⊥",
        "IsAllowed MissingEntity = Unit {0}",
        "IsAllowed Overflow = Unit {0}",
        "IsAllowed ExtensionFailure = Unit {0}",
        "IsAllowed UnlinkedSlot = ⊥",
        "IsAllowed UnknownValue = ⊥",
    ),
    "OnValue": (f"{TYPING}/Soundness.antt", "OnValue P (Gives v) = P v", "OnValue P (Fails f) = Unit {0}"),
    "IsTrueOutcome": (
        f"{TYPING}/Soundness.antt",
        "IsTrueOutcome (Gives v) = OnBool IsTrue v",
        "IsTrueOutcome (Fails f) = ⊥",
    ),
    "IsKeptInSlices": (
        f"{LEVELS}/Slices/Validation.antt",
        "pub safe : IsBooleanOrAllowed (eval world (condition_of t))",
        "pub same : IsSameInSlices t world n",
    ),
    "IsSameInSlices": (
        f"{LEVELS}/Slices/Policies.antt",
        "IsSameInSlices t world n =",
        "(part : Store) → HoldsSlice world.request world.store n part → IsSameIn t world part",
    ),
    "IsSameIn": (
        f"{LEVELS}/Slices/Policies.antt",
        "IsSameIn t world part =",
        "eval (with_store world part) (condition_of t) ≡ eval world (condition_of t)",
    ),
    "with_store": (f"{LEVELS}/Slices/Soundness.antt", "with_store world part = record world { store = part }"),
    "reach_below": (
        f"{LEVELS}/Slices/Reach.antt",
        "reach_below r store zero = []",
        "reach_below r store (suc n) = reach_below r store n ++ reach r store n",
    ),
}
ON_PAGE = SHOWN | {name: path for name, (path, *_) in SAID.items()}
# The table of further words: a definition of each, with its file.
WORDS = {
    "words_of_worlds": {
        "ConformingRequest": f"{TYPING}/Evaluation/Conformance.antt",
        "FitsRequest": f"{TYPING}/Evaluation/Conformance.antt",
        "ConformingStore": f"{TYPES}/Values/Stores.antt",
        "KeepsTable": f"{TYPING}/Evaluation/Conformance.antt",
    },
}
# The table of premises: the examples of each, which are policies.
PREMISES, EXAMPLES = f"{TYPING}/Soundness/Policies.antt", f"{TYPING}/Examples/NeededPremises.antt"
NEEDED = {
    "IsSoundAndClosed": ("attribute_of_one", "guest_has_role"),
    "IsNamedBySchema": ("of_unknown_type",),
    "IsWellFormed": ("of_unknown", "slot_in_rest", "equal_to_slot"),
    "IsConforming": ("robots_only", "young", "decimals_in_order"),
}
EVAL = f"{TYPING}/Evaluation/Eval.antt"
# The forms of expressions of which the page shows how they are evaluated.
FORMS = ("get_attr",)
# What every form of the promise comes down to.
ROOTS = ("IsBooleanOrAllowed", "IsSafe", "IsTrueOutcome", "IsSameIn")
# Where other forms stand, the lowest first.
CRATES = ("cedar_typing", "cedar_typechecker", "cedar_host")


def at(path, line=None):
    """A link to a file."""
    return f"[{path.partition('crates/')[2]}]({definitions.climb(FOLDER)}{path}{f'#L{line}' if line else ''})"


def block(links, lines, language="text"):
    return [f"From {', '.join(links)}:", "", f"```{language}", *lines, "```"]


def lines_of(files, found):
    """A definition as the page shows it."""
    lines = definitions.text_of(files, found)
    first = next(at for at, line in enumerate(lines) if not definitions.is_comment(line))
    return lines[first:] if found.name in BARE else lines


def definition(mark, files):
    """The definitions of a block, below links to their places."""
    found = [definitions.find(files, path, name) for name, path in BLOCKS[mark].items()]
    links = dict.fromkeys(at(it.path, next(one.line for one in found if one.path == it.path)) for it in found)
    lines = [line for it in found for line in ["", *lines_of(files, it)]]
    return block(links, lines[1:])


def check_said(files):
    """Refuses a definition that is another one than the page says in words."""
    for name, (path, *lines) in SAID.items():
        found = definitions.text_of(files, definitions.find(files, path, name))
        code = [line.strip() for line in found if not definitions.is_comment(line)]
        if code[1:] != lines:
            raise Gone(f"`{name}` of {path} is another definition: say it anew in {PAGE}, and in scripts/docs/promise.py")


def clauses(files):
    """The clauses of the call that are the promise."""
    check_said(files)
    path, function, names = CALL
    own = trusted.clauses_of(files.get(path, ""), function)
    gone = [name for name in names if name not in own]
    if gone:
        raise Gone(f"`{function}` of {path} has no clause `{gone[0]}`")
    lines = [line for name in names for line in f"ensures {name} {{{own[name]}}}".splitlines()]
    return block([at(path)], [line[4:] if line.startswith("    ") else line for line in lines], "rust")


def words(table, files):
    """Definitions that the page does not show, each with its comment."""
    rows = []
    for name, path in WORDS[table].items():
        found = definitions.find(files, path, name)
        rows.append(f"| {found.link(FOLDER)} | {listings.cell(found.sentence())} |")
    return ["| Word | What it says |", "|---|---|", *rows]


def evaluation(files):
    """How some forms of expressions are evaluated."""
    lines = files.get(EVAL, "").splitlines()
    shown = []
    for form in FORMS:
        first = next((number for number, line in enumerate(lines) if line.startswith(f"    eval ({form} ")), None)
        if first is None:
            raise Gone(f"`eval` of {EVAL} has no line for `{form}`")
        above = next(number for number in range(first, 0, -1) if definitions.is_comment(lines[number]))
        shown += [lines[above].strip(), lines[first].strip()]
    return block([at(EVAL)], shown)


# ---- the other forms

def forms(known):
    """The propositions that come down to one of ROOTS and that the page neither shows nor says, by file."""
    found = {(ON_PAGE[name], name) for name in ROOTS}
    cites = {
        (path, tuple(names)): set(known.cited(path, lines)) - {(path, name) for name in names}
        for path, parts in known.blocks.items() for names, lines in parts
    }
    size = 0
    while size < len(found):
        size = len(found)
        found |= {(path, name) for (path, names), cited in cites.items() if cited & found for name in names if name[0].isupper()}
    by_file = {}
    for path, name in sorted(found - {(path, name) for name, path in ON_PAGE.items()}):
        if not re.search(r"/(Examples|NeededPremises)\b", path) and path.split("/")[1] in CRATES:
            by_file.setdefault(path, []).append(name)
    return by_file


def other_forms(files):
    """The files that have other forms, each with the forms. The promise itself cites none of them."""
    reached, _, known = trusted.reach(files)
    by_file = forms(known)
    if not reached or not by_file:
        raise Gone("no definition has another form of the promise")
    for path, numbers in reached.items():
        cited = {name for number in numbers for name in known.blocks[path][number][0]} & set(by_file.get(path, ()))
        if cited:
            raise Gone(f"the promise cites `{min(cited)}` of {path}, which scripts/docs/promise.py has to show or to say")
    ordered = sorted(by_file, key=lambda path: (CRATES.index(path.split("/")[1]), path))
    rows = [f"| {at(path)} | {', '.join(f'`{name}`' for name in by_file[path])} |" for path in ordered]
    return [f"{sum(map(len, by_file.values()))} definitions:", "", "| File | Forms |", "|---|---|", *rows]


def makers():
    """Each block of PROMISE, by the name of its mark, with the function that makes it."""
    shown = {f"promise_{mark}": lambda files, mark=mark: definition(mark, files) for mark in BLOCKS}
    tables = {name: lambda files, name=name: words(name, files) for name in WORDS}
    return {"promise_clauses": clauses, "promise_evaluation": evaluation, **shown, **tables}


def needed(files):
    """The premises, each with the policies that go wrong if it does not hold."""
    rows = []
    for name, examples in NEEDED.items():
        premise = definitions.find(files, PREMISES, name)
        shown = "; ".join(definitions.find(files, EXAMPLES, example).sentence() for example in examples)
        rows.append(f"| {premise.link(FOLDER)} | {listings.cell(premise.sentence())} | {listings.cell(shown)} |")
    return ["| Premise | It asks | Without a part of it these go wrong |", "|---|---|---|", *rows]


# The blocks of THEOREMS.
FORM_MAKERS = {"other_forms": other_forms, "needed_premises": needed}
