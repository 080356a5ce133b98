#!/usr/bin/env python3
"""Lists the public calls of the libraries that may answer want of memory: scripts/gate/public_calls.py.

They are the public functions of which the answer is a Result, the copies, and each `next` of an iterator whose items are
Results, as the sources have them. scripts/refused.py fails where one of them is not made while memory is refused.
"""
import re
import sys
from pathlib import Path

TOP = Path(__file__).resolve().parents[2]
LIBRARIES = ("cedar_types", "cedar_typing", "cedar_typechecker")
# Calls that are made elsewhere, and why.
EXCEPTIONS = {
    "ExtensionSchemas::new": "it takes no memory: the line `tables` makes it while each growth is refused",
    "SortedSet::insert": "CapabilitySet::insert is this call",
    "SortedSet::from_ordered": "CapabilitySetBuilder::build is this call",
    "SortedSet::try_clone": "CapabilitySet::try_clone is this call",
    "SortedSet::union": "CapabilitySet::union is this call",
    "SortedSet::join": "CapabilitySet::join is this call",
    "SortedSet::intersect": "CapabilitySet::intersect is this call",
}
COMMENT = re.compile(r"//[^\n]*")
IMPL = re.compile(r"impl(?:<[^{]*?>)? (?:(?P<of>[\w:]+)(?:<[^{]*?>)? for )?(?P<type>\w+)[^{]*\{")
FUNCTION = re.compile(r"(?P<public>pub )?fn (?P<name>\w+)")
DERIVED = re.compile(r"#\[derive\(([^)]*)\)\]\s*(?:#\[[^\n]*\]\s*)*pub (?:struct|enum) (\w+)")


def answer_of(text, start):
    """The type that the function answers whose name ends here, as it is written."""
    depth = 0
    begun = text.find("(", start)
    for at in range(begun, len(text)):
        depth += {"(": 1, ")": -1}.get(text[at], 0)
        if depth == 0:
            rest = text[at + 1:].lstrip()
            return re.split(r"\n\s*(?:where|requires|ensures|ghost)\b|[{;]", rest)[0] if rest.startswith("->") else ""
    return ""


def is_step(trait, name, answer):
    return trait == "Iterator" and name == "next" and "Result<" in answer


def calls_in(text):
    """The calls of a file."""
    text = COMMENT.sub("", text)
    owner = trait = None
    for line in re.finditer(r"[^\n]*\n", text):
        begins = IMPL.match(text, line.start())
        if begins:
            owner, trait = begins["type"], begins["of"]
        elif line[0].startswith("}"):
            owner = trait = None
        function = FUNCTION.match(text, line.start() + len(line[0]) - len(line[0].lstrip()))
        if not function or (owner is None and line[0][0].isspace()):
            continue
        answer = answer_of(text, function.end())
        is_copy = trait == "Clone" and function["name"] == "clone"
        is_public = function["public"] and "Result<" in answer
        if is_public or (is_copy and "Result<" in answer) or is_step(trait, function["name"], answer):
            yield f"{owner}::{function['name']}" if owner else function["name"]
    for traits, name in DERIVED.findall(text):
        listed = [one.strip() for one in traits.split(",")]
        if "Clone" in listed and "Copy" not in listed:
            yield f"{name}::clone"


def is_open(path, texts):
    """Whether each module that the file stands in is public."""
    root = next(parent for parent in path.parents if parent.name == "src")
    inner = path.relative_to(root).with_suffix("").parts
    parents = [root / "lib.rt", *(root.joinpath(*inner[:n]).with_suffix(".rt") for n in range(1, len(inner)))]
    return all(re.search(rf"^pub mod {name};", texts.get(parent, ""), re.M) for parent, name in zip(parents, inner))


def public_names(texts):
    """The types and functions that other crates can name."""
    names = set()
    for path, text in texts.items():
        for used in re.findall(r"^pub use ([^;]+);", text, re.M):
            names.update(re.findall(r"\w+", used))
        if is_open(path, texts):
            names.update(re.findall(r"^pub (?:struct|enum|fn) (\w+)", text, re.M))
    return names


def public_calls():
    """All of them, in the order of the sources."""
    paths = [path for name in LIBRARIES for path in sorted(TOP.joinpath("crates", name, "src").rglob("*.rt"))]
    texts = {path: path.read_text(encoding="utf8") for path in paths}
    names = public_names(texts)
    calls = dict.fromkeys(call for text in texts.values() for call in calls_in(text))
    return [call for call in calls if call.partition("::")[0] in names]


def left_out(lines):
    """The calls that no line of these names begins with, and the lines that begin with no call though they look like one."""
    tried = {line.partition(",")[0] for line in lines}
    calls = public_calls()
    missing = [call for call in calls if call not in tried and call not in EXCEPTIONS]
    unknown = [name for name in sorted(tried) if "::" in name and name not in calls]
    return missing, unknown + [name for name in EXCEPTIONS if name not in calls]


if __name__ == "__main__":
    print(*public_calls(), sep="\n")
    sys.exit(0)
