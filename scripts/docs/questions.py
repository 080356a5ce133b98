"""Questions that rows and cases ask, by their names in the texts: tables of the comments of the enums that read these names."""
import re

from docs import files as listings
from docs.definitions import Gone

ROWS, CASES = "crates/cedar_fixtures/src/questions.rt", "crates/cedar_cases/src/cases/columns.rt"
# A variant of an enum, below its comment, and a name that is read as a variant.
VARIANT = re.compile(r"((?:^    /// .*\n)+)    (\w+)", re.M)
ARM = re.compile(r'"([^"]+)" => Some\((\w+)::(\w+)')
# A name that is a mode and more: in a condition, before the variant that it is read as.
PART = re.compile(r'(?:split_once|strip_suffix|asked ==)\(? ?"( ?[a-z ]+)"(?:(?!split_once|strip_suffix|asked ==).)*?(\w+)::(\w+)\(mode', re.S)


def comments(path, enum, files):
    """The comment of each variant of an enum, in order."""
    body = re.search(rf"^pub enum {enum} \{{\n(.*?)^\}}$", files.get(path, ""), re.M | re.S)
    if not body:
        raise Gone(f"scripts/docs/questions.py: {path} has no enum {enum}")
    return {name: " ".join(line.strip(" /") for line in lines.splitlines()) for lines, name in VARIANT.findall(body[1])}


def names(path, enum, files):
    """The names that are read as each variant of an enum."""
    found = {}
    for name, of, variant in ARM.findall(files.get(path, "")):
        if of == enum:
            found.setdefault(variant, []).append(name)
    return found


def row(asked, says):
    return f"| {', '.join(f'`{name}`' for name in asked)} | {listings.cell(says)} |"


def rows(files):
    """What ROWS shows: the questions of steps. M is a mode."""
    known = names(ROWS, "Subject", files) | {variant: [f"M {part.strip()}{' N' if part.endswith(' ') else ''}"] for part, _, variant in PART.findall(files.get(ROWS, ""))}
    return ["| Asked | The answer |", "|---|---|", *(row(known[it], says) for it, says in comments(ROWS, "Subject", files).items())]


def columns(files):
    """What CASES shows: the columns of a case. M is a mode."""
    known = names(CASES, "Column", files)
    shown = [row(known[it], says) for it, says in comments(CASES, "Column", files).items() if it in known]
    named = names(CASES, "Subject", files)
    shown += [row([f"M {it}" for it in named.get(variant, [])] or ["M"], says) for variant, says in comments(CASES, "Subject", files).items()]
    wanted = comments(CASES, "Wanted", files)
    shown += [row([name], wanted[variant]) for name, variant in (("M level N", "Levels"), ("M required", "RequiredLevel"))]
    asked = names(CASES, "Question", files)
    shown += [row(asked[it], says) for it, says in comments(CASES, "Question", files).items()]
    return ["| Column | Content |", "|---|---|", *shown]
