"""The calls of bindings/cedar.h, each with its own comment, as a table of LANGUAGES."""
import re

from docs import files as listings
from docs.definitions import Gone

HEADER = "bindings/cedar.h"
# A comment, and the declarations below it, up to an empty line.
GROUP = re.compile(r"^/\* (?P<says>(?:(?!\*/).)*?) ?\*/\n(?P<calls>(?:(?:uint32_t|void) \w+\([^\n]*\);\n)+)", re.M | re.S)
CALL = re.compile(r"^\w+ (\w+)\(", re.M)


def calls(files):
    found = list(GROUP.finditer(files.get(HEADER, "")))
    if not found:
        raise Gone(f"scripts/docs/header.py: {HEADER} has no call with a comment")
    rows = []
    for group in found:
        says = " ".join(re.sub(r"\n \* ", " ", group["says"]).split())
        rows.append(f"| {', '.join(f'`{name}`' for name in CALL.findall(group['calls']))} | {listings.cell(says)} |")
    return ["| Call | What it does |", "|---|---|", *rows]
