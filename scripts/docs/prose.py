"""What can be checked of the pages by hand: their sentences, and the names, options, commands and counts in them.

A sentence has at most 30 words. A file that a page names is there; an option, and a name in backquotes or in a block of code, occur in
the sources; a script that a block of commands runs is there; the counts of COUNTS are counted, and
the limits of LIMITS are those of the code.
"""
import re

MOST = 30
BY_SCRIPT = re.compile(r"<!-- made: .*?<!-- end -->", re.S)
BLOCK = re.compile(r"^ *(?P<fence>`{3,})(?P<language>\w*)\n(?P<text>.*?)^ *(?P=fence)$", re.M | re.S)
PARTS = re.compile(r"\n\s*\n|\n(?=\s*[-*|] |\s*\d+\. )")
SENTENCES = re.compile(r"(?<=[.:;?!])\s+")
CODE = re.compile(r"(?<!`)`([^`\n]+)`(?!`)")
NAME = re.compile(r"[a-z]\w*_\w+|[A-Z][a-z]\w*[A-Z]\w+|[A-Za-z_]\w*(?:(?:::|\.)[A-Za-z_]\w*)+")
FILE = re.compile(r"(?:crates|scripts|docs|examples|editors|bindings|mutations|cedar_\w+)/[\w./-]*\w")
LONG_NAME = re.compile(r"[A-Za-z_]\w{3,}")
OPTION = re.compile(r"(?<![\w-])--[a-z][a-z-]+")
COMMAND = re.compile(r"^(?:\$ )?(scripts/[\w./]+)", re.M)
PAGES_BY_HAND = re.compile(r"[^/]+\.md|docs/[^/]+\.md")
# A page of names that are gone, and names of Cedar and of the system.
OLD = "CHANGELOG.md"
OUTSIDE = {"cedar_policy", "ffi", "validate_json_str", "toml", "--cflags"}


def blank(text, pattern):
    """The text with blanks for what the pattern finds, so that places stay."""
    return pattern.sub(lambda found: re.sub(r"[^\n]", " ", found[0]), text)


def long_sentences(text):
    """The sentences of too many words."""
    at = 0
    for part in PARTS.split(text):
        start = text.find(part, at)
        at = start + len(part)
        if part.lstrip().startswith(("|", "#")):
            continue
        for sentence in SENTENCES.split(part):
            words = sentence.split()
            if len(words) > MOST:
                yield text.find(sentence, start), f"a sentence of {len(words)} words, and {MOST} are the most: {' '.join(words[:6])} .."


def is_there(path, names):
    """Whether a path leads to a file or a folder, from the top or from crates, with or without an ending."""
    path = path.partition("NAME")[0].partition("CRATE")[0].rstrip("/")
    return any(f"{top}{path}" in names for top in ("", "crates/"))


def paths_of(files):
    """Each file and each folder, also without its ending."""
    names = set()
    for path in files:
        parts = path.split("/")
        names |= {"/".join(parts[:at]) for at in range(1, len(parts) + 1)} | {path.rpartition(".")[0]}
    return names


def wrong_names(text, names, words):
    """The files, names and options in backquotes that are gone."""
    for code in CODE.finditer(text):
        shown = code[1]
        path, name = FILE.fullmatch(shown.split("#")[0]), NAME.fullmatch(shown)
        if path and not is_there(path[0], names):
            yield code.start(), f"`{path[0]}` is no file and no folder"
        elif name and not path:
            gone = [part for part in re.split(r"::|\.", shown) if part not in words]
            yield from ((code.start(), f"`{part}` occurs nowhere in the sources") for part in gone[:1])
        for option in OPTION.findall(shown):
            if option.strip("-").replace("-", "_") not in words and option not in words:
                yield code.start(), f"no source has the option `{option}`"


def wrong_code(text, words):
    """The names of Rattle's code in blocks that are gone."""
    for block in BLOCK.finditer(text):
        if block["language"] == "rust":
            for name in LONG_NAME.finditer(block["text"]):
                if name[0] not in words:
                    yield block.start("text") + name.start(), f"`{name[0]}` occurs nowhere in the sources"


def wrong_commands(text, names):
    """The scripts that are to be run, and are gone."""
    for block in BLOCK.finditer(text):
        if block["language"] in ("console", "sh", "text"):
            for command in COMMAND.finditer(block["text"]):
                if not is_there(command[1], names):
                    yield block.start("text") + command.start(), f"there is no {command[1]} to run"


# ---- counts

def calls(crate, files):
    """The calls of a library that its page shows, each with its clauses."""
    page = files.get(f"docs/api/{crate}.md", "").partition("## By module")[2]
    shown = "\n".join(block["text"] for block in BLOCK.finditer(page))
    return re.findall(r"^ *pub (?:const )?fn .*?;$", shown, re.M | re.S)


def without_clause(crate, files):
    return sum("ensures" not in call for call in calls(crate, files))


COUNTS = [
    (re.compile(r"(\d+) of (\d+)(?: calls)? of `(cedar_reading|cedar_json)`"), lambda crate, files: (without_clause(crate, files), len(calls(crate, files)))),
]


def wrong_counts(text, files):
    flat = re.sub(r"\s", " ", text)
    for pattern, counted in COUNTS:
        for found in pattern.finditer(flat):
            one, two, what = found.groups()
            if (int(one), int(two)) != counted(what, files):
                yield found.start(), "these are {} of {}".format(*counted(what, files))


# Sentences with a limit, and its constant in crates.
LIMITS = [
    ("docs/RULES.md", r"a visited part is deeper than (\S+) ", "cedar_typing/src/typecheck/expressions.rt", "MAX_TYPED_DEPTH"),
    ("docs/EMBEDDING.md", r"would have to go deeper than (\S+)\.", "cedar_typing/src/typecheck/expressions.rt", "MAX_TYPED_DEPTH"),
    ("docs/READING.md", r"of more than (\S+) characters the first", "cedar_findings/src/lengths.rt", "MAX_IN_NAME"),
    ("docs/EDITORS.md", r"within (\S+) bytes", "cedar_frames/src/heads.rt", "MAX_HEAD"),
]


def wrong_limits(path, text, files):
    for page, sentence, source, name in LIMITS:
        found = page == path and re.search(sentence, re.sub(r"\s", " ", text))
        constant = re.search(rf"const {name}: \w+ = ([\d_]+)(?: << (\d+))?;", files.get(f"crates/{source}", ""))
        if found and constant:
            value = int(constant[1]) << int(constant[2] or 0)
            if found[1].replace(",", "") != str(value):
                yield found.start(), f"{name} of {source} is {value}"
        elif page == path:
            yield 0, f"the limit {name} of {source} is no longer there, or the sentence that has it"


def faults(files):
    """The faults of all pages: the page, the place in its text, and why."""
    names = paths_of(files)
    sources = [text for path, text in files.items() if not path.endswith(".md")]
    words = OUTSIDE.union(*(re.findall(r"\w+|--[a-z][a-z-]+", text) for text in sources))
    for path, text in sorted(files.items()):
        if PAGES_BY_HAND.fullmatch(path):
            by_hand = blank(text, BY_SCRIPT)
            prose = blank(by_hand, BLOCK)
            named = [] if path == OLD else wrong_names(prose, names, words)
            code = (wrong_code(by_hand, words), wrong_commands(by_hand, names))
            for found in (long_sentences(prose), named, *code, wrong_counts(prose, files), wrong_limits(path, prose, files)):
                yield from ((path, place, why) for place, why in found)
