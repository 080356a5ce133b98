"""The limits of texts, each with the comment of its constant, as a table of READING."""
import re

from docs import files as listings
from docs.definitions import Gone

READING, JSON, DATA = "cedar_reading/src", "cedar_json/src", "cedar_data/src"
# What each limit is of, its file of crates, and its constant.
LIMITS = (
    ("a text", f"{READING}/cursor.rt", "MAX_LENGTH"), ("policies, schemas", f"{READING}/cursor.rt", "MAX_GRAMMAR_STEPS"),
    ("policies", f"{READING}/open_parts.rt", "MAX_PREFIXES"), ("JSON", f"{JSON}/values.rt", "MAX_DEPTH"),
    ("JSON", f"{JSON}/policies/operators.rt", "MAX_ATTRIBUTES"), ("a schema", f"{READING}/schemas/expansions.rt", "MAX_REPEATED"),
    ("a schema", f"{READING}/schemas/descendants.rt", "MAX_DESCENDANTS"), ("a schema", f"{READING}/schemas/closed.rt", "MAX_ENVIRONMENTS"),
    ("a schema", f"{READING}/schemas/blocks.rt", "MAX_NAMESPACE_PARTS"), ("entities", f"{DATA}/reached.rt", "MAX_ANCESTORS"),
    ("entities", f"{DATA}/walks.rt", "MAX_STEPS"),
)


def row(of, path, name, files):
    found = re.search(rf"((?:^/// .*\n)+)^(?:pub )?const {name}: \w+ = ([\d_]+)(?: << (\d+))?;", files.get(f"crates/{path}", ""), re.M)
    if not found:
        raise Gone(f"scripts/docs/limits.py: crates/{path} has no constant {name} with a comment")
    says = " ".join(line.removeprefix("///").strip() for line in found[1].splitlines())
    return f"| {of} | {int(found[2]) << int(found[3] or 0):,} | {listings.cell(says)} |"


def table(files):
    return ["| Of | At most | Counted |", "|---|---|---|", *(row(*limit, files) for limit in LIMITS)]
