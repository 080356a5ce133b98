#!/usr/bin/env python3
"""Writes what scripts make of the sources into the pages that show it: scripts/pages.py [--check].

In a page it stands between two lines, `<!-- made: NAME -->` and `<!-- end -->`, where NAME is one of MAKERS. The pages of docs/api
are made whole. scripts/gate/check_text refuses a page that shows something else, a page that lacks a block of BLOCKS, and a name that
is gone from the sources; with --check this script only says which pages those are. It also says what scripts/docs/prose.py finds in
the pages by hand: long sentences, and names, commands and counts that are not so.
"""
import re
import subprocess
import sys
from pathlib import Path

from docs import api_pages, commands, files as listings, header, laws, limits, pictures, pieces, promise, prose, questions, rows, rules, trusted
from docs.definitions import Gone

TOP = Path(__file__).resolve().parent.parent
MAKERS = {
    "rows": rows.table,
    "limits": limits.table,
    "c_calls": header.calls,
    "level_rules": rules.levels,
    "asked": questions.rows,
    "columns": questions.columns,
    "trusted": trusted.table,
    "promise": trusted.sentence,
    "crates": listings.crates,
    "codes": listings.codes,
    "functions": listings.functions,
    "options": listings.options,
    "samples": listings.samples,
    "libraries": api_pages.libraries,
    "tasks": api_pages.first_tasks,
    **promise.makers(),
    **promise.FORM_MAKERS,
    **pieces.makers(),
    **laws.makers(),
    **commands.makers(),
}
# The blocks that a page must have.
BLOCKS = {
    api_pages.OVERVIEW: ("libraries", "tasks"),
    promise.PAGE: tuple(promise.makers()),
    promise.FORMS_PAGE: tuple(promise.FORM_MAKERS),
}
MADE = re.compile(r"^<!-- made: (\w+) -->\n(.*?)^<!-- end -->$", re.M | re.S)
PAGE = re.compile(r"[^/]+\.md|docs/(?:api/)?[^/]+\.md")


def made(name, files):
    """What stands between the two lines."""
    return "\n" + "\n".join(MAKERS[name](files)) + "\n\n"


def pages(files):
    """Each page, with its text."""
    return [(path, text) for path, text in sorted(files.items()) if PAGE.fullmatch(path)]


def whole_pages(files):
    """The pages that are made whole: each path with its text, and why they cannot be made, if so."""
    try:
        return api_pages.whole(files), None
    except Gone as gone:
        return {}, str(gone)


def stale_block(block, files):
    """Why a block is not what the scripts make, if so."""
    if block[1] not in MAKERS:
        return f"no script makes `{block[1]}`"
    try:
        is_right = block[2] == made(block[1], files)
    except Gone as gone:
        return str(gone)
    return None if is_right else f"what `{block[1]}` makes of the sources is not this: run scripts/pages.py"


def stale(files):
    """The pages that show something else than the scripts make: the page, the place in its text, and why."""
    whole, gone = whole_pages(files)
    if gone:
        yield api_pages.OVERVIEW, 0, gone
    for path, text in whole.items():
        if files.get(path) != text:
            yield path, 0, "what the scripts make of the sources is not this: run scripts/pages.py"
    yield from pictures.stale(files)
    for path, text in pages(files):
        if path.startswith(f"{api_pages.FOLDER}/") and path not in whole and not gone:
            yield path, 0, "no script makes this page: take it away"
        blocks = list(MADE.finditer(text))
        lacking = set(BLOCKS.get(path, ())) - {block[1] for block in blocks}
        if lacking:
            yield path, 0, f"the page has no block `{min(lacking)}`"
        for block in blocks:
            why = stale_block(block, files)
            if why and why != gone:
                yield path, block.start(), why


def written(text, files):
    """The page with what the scripts make now; a block that they cannot make stays."""
    def block(found):
        try:
            return f"<!-- made: {found[1]} -->\n{made(found[1], files)}<!-- end -->"
        except (Gone, KeyError):
            return found[0]

    return MADE.sub(block, text)


def sources():
    """The texts of the files that git keeps, and of new ones, as they stand."""
    listed = subprocess.run(["git", "-C", TOP, "ls-files", "-z", "--cached", "--others", "--exclude-standard"], stdin=subprocess.DEVNULL, capture_output=True, check=True)
    paths = [TOP / name for name in listed.stdout.decode().split("\0")[:-1]]
    return {str(path.relative_to(TOP)): path.read_bytes().decode("utf8", "replace") for path in paths if path.is_file()}


def write(files):
    """Writes each page anew that shows something else than the scripts make."""
    texts = whole_pages(files)[0] | {path: written(text, files) for path, text in pages(files) if MADE.search(text)} | pictures.drawn(files)
    for path, text in texts.items():
        if files.get(path) != text:
            print(f"{path} is written anew")
            (TOP / path).parent.mkdir(exist_ok=True)
            (TOP / path).write_text(text, encoding="utf8")


def main(words):
    if words not in ([], ["--check"]):
        print("usage: scripts/pages.py [--check]", file=sys.stderr)
        return 2
    files = sources()
    if not words:
        write(files)
        files = sources()
    found = [*stale(files), *prose.faults(files)]
    for path, _, why in found:
        print(f"{path}: {why}")
    return 1 if found else 0


if __name__ == "__main__":
    sys.exit(main(sys.argv[1:]))
