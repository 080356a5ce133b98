"""Edits of the crates, which scripts/mutations reads.

An edit is a file of lines: `file: FILE` of a crate, and then pairs `old: TEXT`, which stands in that file exactly once, and
`new: TEXT`. A line `only: PATH` names the function that it turns, where that is not the one that its first text stands in.
"""
import re
from collections import namedtuple
from pathlib import Path

TOP = Path(__file__).resolve().parents[2]
MUTATIONS = TOP / "mutations"
# The most bodies that share a check, but for a right one.
BATCH = 24
FUNCTION = re.compile(r"^( *)(?:pub(?:\([^)]*\))? )?(?:const |unsafe )*fn (\w+)", re.M)
IMPL = re.compile(r"^impl(?:<[^>]*>)? (?:(.*) for )?(\w+)", re.M)
# A wrong body, with the paths of the functions that it turns, and its pairs: a file, the text that stands in it once, the new text.
Body = namedtuple("Body", "name crate only pairs")


class Fault(Exception):
    """Why a try did not go as it should."""


def read(crate, file):
    return (TOP / "crates" / crate / file).read_text(encoding="utf8")


def read_edit(path):
    """The paths that an edit's lines `only:` name, and its pairs."""
    only, pairs, file, old = [], [], None, None
    for line in path.read_text(encoding="utf8").splitlines():
        word, _, rest = line.partition(":")
        rest = rest.removeprefix(" ")
        if word == "only":
            only.append(rest)
        elif word == "file":
            file = rest
        elif word == "old":
            old = rest
        elif word == "new" and file and old:
            pairs.append((file, old, rest))
        else:
            raise Fault(f"BAD EDIT: a line that does not belong there: {line[:80]}")
    return only, pairs


def edited(crate, pairs):
    """The texts of a crate's files that the pairs turn, where they have turned them."""
    texts = {file: read(crate, file) for file, _, _ in pairs}
    for file, old, new in pairs:
        if texts[file].count(old) != 1:
            raise Fault(f"BAD EDIT: `{old[:60]}` stands {texts[file].count(old)} times in {file}, and not once")
        texts[file] = texts[file].replace(old, new)
    return texts


def enclosing(file, text, place):
    """The path of the function that this place of a file of code stands in, as `rt check --only` takes it."""
    functions = list(FUNCTION.finditer(text, 0, place))
    if not functions or re.search(rf"^{functions[-1][1]}}}$", text[functions[-1].end() : place], re.M):
        raise Fault("BAD EDIT: it stands in no function: name one by a line `only: PATH`")
    indent, name = functions[-1].groups()
    if not indent:
        module = re.sub(r"^(lib|main)$", "", file[len("src/") : -len(".rt")]).replace("/", "::")
        return f"{module}::{name}".lstrip(":")
    trait, owner = list(IMPL.finditer(text, 0, functions[-1].start()))[-1].groups()
    words = re.findall(r"(?<!')\b\w+\b(?!::)", trait or "")
    return f"{owner}{''.join(word[0].upper() + word[1:] for word in words)}::{name}"


def body_of(name, path):
    only, pairs = read_edit(path)
    crate = path.parent.name
    edited(crate, pairs)
    file, old, _ = pairs[0]
    text = read(crate, file)
    place = text.index(old) + len(old) - len(old.lstrip())
    return Body(name, crate, only or [enclosing(file, text, place)], pairs)


def read_bodies(edits):
    """The wrong bodies among the edits, and what went wrong with some."""
    bodies, results = [], []
    for name, path in edits.items():
        try:
            bodies.append(body_of(name, path))
        except (Fault, OSError, LookupError, ValueError) as fault:
            print(f"FAILED: {name}: {fault}")
            results.append(False)
    return bodies, results


def together(bodies):
    """The crate, the functions and the pairs of wrong bodies."""
    return bodies[0].crate, [path for body in bodies for path in body.only], [pair for body in bodies for pair in body.pairs]


def is_control(body):
    return body.name.startswith("controls/")


def fit(bodies):
    """Whether a check can try them together: of one crate, of different functions, and each applies over the others."""
    crate, only, pairs = together(bodies)
    try:
        edited(crate, pairs)
    except (Fault, OSError):
        return False
    return len({*only}) == len(only) and {body.crate for body in bodies} == {crate}


def controls_of(crate):
    """The right bodies of a crate."""
    paths = sorted((MUTATIONS / "controls" / crate).glob("*.edit"))
    return [body_of(f"controls/{crate}/{path.stem}", path) for path in paths]


def control_of(batch):
    """
    A right body that takes part in the check of wrong ones, where one of their crate fits them, and else one that does not: the
    number of a batch's bodies chooses among those that fit, so that batches have different ones.
    """
    controls = controls_of(batch[0].crate)
    fitting = [it for it in controls if fit([*batch, it])] or controls
    return fitting[len(batch) % len(fitting)] if fitting else None


def batches(bodies):
    found = []
    for body in bodies:
        like = [it for it in found if len(it) < BATCH and is_control(it[0]) == is_control(body)]
        batch = next((it for it in like if fit([*it, body])), None)
        if batch:
            batch.append(body)
        else:
            found.append([body])
    return found


def chosen(words):
    """The edits that are to be tried, by their names: all, or those whose path has one of the words."""
    every = {str(path.relative_to(MUTATIONS).with_suffix("")): path for path in sorted(MUTATIONS.rglob("*.edit"))}
    return {name: path for name, path in every.items() if not words or any(word in name for word in words)}
