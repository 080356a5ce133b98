"""The worked rows, which docs/ROWS.md shows, from their texts in crates/cedar_rows."""
import re
from pathlib import Path
from textwrap import wrap

ROWS = "crates/cedar_rows/src/rows/"
TEXT = re.compile(r'((?:^/// [^\n]*\n)+)pub const (\w+): &str = r#"\n(.*?)"#;', re.M | re.S)
NAMED = re.compile(r'name: "(\d+)",\s*row: Steps\((\w+)::(\w+), &(\[\]|\w+)\)')
NESTED = re.compile(r'word: "(\w+)",\s*around: \["([^"]*)", "([^"]*)"\],\s*times: ([\d_]+),\s*inner: "([^"]*)"')
SCHEMAS = "crates/cedar_fixtures/src/schemas.rt"
SCHEMA = re.compile(r'"(S\d)" => Some\((?:(\w+)|r#"(.*?)"#|"(.*?)")\)')
WIDTH = 100
CONSTANT = re.compile(r'const (\w+): &str = "(.*?)";', re.S)


def texts(files):
    """Of each row text, by its file and its name: what it shows, and its steps."""
    found = {}
    for path, text in files.items():
        if path.startswith(ROWS):
            for comment, name, steps in TEXT.findall(text):
                shows = " ".join(line[4:].strip() for line in comment.splitlines())
                found[Path(path).stem, name] = shows, steps
    return found


def table(files):
    """What ROWS shows: the schemas, the rows as they stand in their files, and the words in capitals."""
    listed = files.get(ROWS + "listed.rt", "")
    known = texts(files)
    rows = []
    for number, module, name, _ in NAMED.findall(listed):
        shows, steps = known.get((module, name), ("", ""))
        rows += [f"row {number}: {shows}", *steps.strip("\n").splitlines(), ""]
    return [*block(schemas(files)), "", *block(rows[:-1]), "", *block(nested_words(listed))]


def block(lines):
    return ["```text", *lines, "```"]


def schemas(files):
    """Each schema, with what it declares."""
    text = files.get(SCHEMAS, "")
    constants = dict(CONSTANT.findall(text))
    for name, constant, raw, plain in SCHEMA.findall(text):
        declared = " ".join((constants.get(constant) or raw or plain).split())
        yield from wrap(f"{name}: {declared or 'nothing'}", WIDTH, subsequent_indent="    ")


def nested_words(listed):
    """The words that stand for a text within many others."""
    for word, before, after, times, inner in NESTED.findall(listed):
        count = f"{int(times):,} times"
        parts = [f"`{before}` {count}" if before else "", f"`{inner}`", f"`{after}` {count}" if after else ""]
        yield f"{word}: {', then '.join(filter(None, parts))}"
