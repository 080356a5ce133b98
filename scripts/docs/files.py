#!/usr/bin/env python3
"""The crates, the files of the libraries, and the codes, as tables of their own comments.

scripts/docs/files.py prints the files, which no page shows. scripts/pages.py writes the crates into docs/ARCHITECTURE.md, and the
codes, the options and the extension functions into docs/READING.md. The texts of errors, which the pages of docs/api show, are read here too.
"""
import re
import sys
from pathlib import Path

TOP = Path(__file__).resolve().parents[2]
FOLDERS = ("src", "specs")
TESTS = "_tests"
SUBJECTS = {
    "the three libraries": "cedar_types cedar_typing cedar_typechecker cedar_node_types cedar_alike",
    "readers of texts": "cedar_reading cedar_json cedar_extensions",
    "the formatter": "cedar_writing",
    "data": "cedar_conformance cedar_data",
    "hosts": "cedar_host cedar_where cedar_samples",
    "verdicts on texts": "cedar_findings cedar_verdicts",
    "the program": "cedar_validate",
    "the C library": "cedar_calls cedar_c",
    "the language server": "cedar_frames cedar_editor cedar_language_server",
}
TESTING = "rows, cases, tests and examples"
COMMENT = re.compile(r"^(?://!|//|--) ?(.*)$")
ERROR = re.compile(r'#\[error\("for policy `\{policy_id\}`, \{0\}", Message\(self\)\)\]\npub struct (\w+)')
ERRORS = "crates/cedar_types/src/base/errors/"
MESSAGE = re.compile(r"^impl fmt::Display for Message<'_, (\w+)> \{\n(.*?)\n\}$", re.M | re.S)
WRITTEN = re.compile(r'(?:write!\(\s*f,\s*|write_str\()"([^"]*)"')
LOCAL = re.compile(r"let (\w+) = [^;]*?self\.0\.(\w+)(\(\))?")
CODES = "/src/codes.rt"
OPTIONS = "crates/cedar_findings/src/options.rt"
OPTION = re.compile(r'Word \{\s*names: &\[([^\]]*)\],\s*asks: Asks::(?:Flag|Value)\((?:Flag::\w+|ValueOption::\w+, (\S+))\),\s*about: "([^"]*)"')
EXTENSIONS = "crates/cedar_extensions/src"
METHOD = re.compile(r'Method \{\s*name: "(\w+)",\s*takes: &\[([^\]]*)\],\s*gives: ValueType::(\w+),\s*\}')


def cell(text):
    return text.replace("|", "\\|")


def first_sentence(text):
    """The first sentence of the comment that a file begins with."""
    words = []
    for line in text.splitlines():
        found = COMMENT.match(line)
        if not found or not found[1]:
            break
        words.append(found[1].strip())
    joined = " ".join(words)
    return re.split(r"(?<=\.) (?=[A-Z`])", joined)[0]


def crates_of(files):
    """Each crate, with what it stands on, lowest first."""
    lines = [line for line in files.get("crates.txt", "").splitlines() if line and not line.startswith("#")]
    # (the word `staticlib` may stand behind a name)
    return [(name.split()[0], below.split()) for name, _, below in (line.partition(":") for line in lines)]


def subjects_of(files):
    """Each subject with its crates, lowest first; the crates without one are those of rows, cases, tests and examples."""
    named = {name: subject for subject, names in SUBJECTS.items() for name in names.split()}
    found = {subject: [] for subject in (*SUBJECTS, TESTING)}
    for crate, _ in crates_of(files):
        found[named.get(crate, TESTING)].append(crate)
    return found


def subjects_below(files):
    """The subjects below each subject, at any distance."""
    subject_of = {crate: subject for subject, names in subjects_of(files).items() for crate in names}
    below = {subject: set() for subject in subjects_of(files)}
    for crate, others in crates_of(files):
        below[subject_of[crate]] |= {subject_of[other] for other in others if other in subject_of} - {subject_of[crate]}
    for _ in below:
        below = {subject: others.union(*(below[other] for other in others)) for subject, others in below.items()}
    return below


def crates(files):
    """What ARCHITECTURE shows."""
    lines = ["| Subject | Crate | What it has |", "|---|---|---|"]
    for subject, names in subjects_of(files).items():
        for crate in names:
            root = files.get(f"crates/{crate}/src/lib.rt") or files.get(f"crates/{crate}/src/main.rt") or ""
            lines.append(f"| {subject if crate == names[0] else ''} | `{crate}` | {cell(first_sentence(root))} |")
    return lines


def samples(files):
    """What EMBEDDING shows: the sample hosts, each a word of the command line and a file."""
    words = re.findall(r'"(\w+)" => Asked::One', files.get("crates/cedar_samples/src/main.rt", ""))
    return [f"- `{word}`: {first_sentence(files.get(f'crates/cedar_samples/src/{word}.rt', ''))}" for word in words]


def listed(files):
    """What this script prints: each file of the crates that have definitions, with the first sentence of its comment."""
    lines = []
    for crate, _ in crates_of(files):
        paths = [path for folder in FOLDERS for path in sorted(files) if path.startswith(f"crates/{crate}/{folder}/")]
        rows = [(path, first_sentence(files[path])) for path in paths if path.endswith((".rt", ".antt"))]
        if not crate.endswith(TESTS) and any("/specs/" in path and has for path, has in rows):
            lines += [f"## `{crate}`", "", "| File | What it has |", "|---|---|"]
            lines += [f"| {path.partition(f'crates/{crate}/')[2]} | {cell(has)} |" for path, has in rows if has]
            lines.append("")
    return lines[:-1]


def messages(files):
    """The text of each error and warning, by its name."""
    written = dict(MESSAGE.findall(files.get(f"{ERRORS}messages.rt", "")))
    texts = [text for path, text in sorted(files.items()) if path.startswith(ERRORS)]
    return {name: message(written[name], text) for text in texts for name in ERROR.findall(text)}


def message(body, text):
    """What a message says, with the fields that it shows, and what stands between several."""
    shown = "".join(WRITTEN.findall(body)[:1])
    for local, shows, call in LOCAL.findall(body):
        field = " or ".join(texts_of(shows, text)) if call else shows
        shown = shown.replace("{" + local + "}", "{" + field + "}")
    joined = re.search(r'between: "([^"]*)"', body)
    return shown + (f" (joined by `{joined[1]}`)" if joined else "")


def codes(files):
    """What READING shows: the code of each kind of finding and fault, and what it says."""
    text = "".join(text for path, text in files.items() if path.endswith(CODES))
    written, meant = (dict(re.findall(r'Code::(\w+) => "([^"]*)"', body(function, text))) for function in ("text", "meaning"))
    return ["| Code | What it says |", "|---|---|", *(f"| `{written[kind]}` | {cell(meant.get(kind, ''))} |" for kind in written)]


def options(files):
    """What READING shows: the options of the command line, in the order of the help."""
    text = files.get(OPTIONS, "")
    values = {name: "`, `".join(re.findall(r'"(\w+)"', words)) for name, words in re.findall(r"const (\w+): Values = Values::OneOf\(&\[(.*?)\]\)", text)}
    lines = ["| Option | What it does |", "|---|---|"]
    for names, value, about in OPTION.findall(text):
        word = {"": "", "Values::File": " FILE", "Values::Number": " N"}.get(value, " WORD")
        shown = "`, `".join(re.findall(r'"(\S+)"', names)) + word
        lines.append(f"| `{shown}` | {cell(about)}{f': `{values[value]}`' if value in values else ''} |")
    return lines


def functions(files):
    """What READING shows: the extension types, with the functions that make their values and those that are called on them."""
    names, makers, made = (
        dict(re.findall(rf'{kind}::(\w+) => "?(?:ValueType::)?(\w+)"?,', body(function, files.get(f"{EXTENSIONS}/{file}.rt", ""))))
        for kind, function, file in (("ValueType", "name", "types"), ("Constructor", "name", "checks"), ("Constructor", "makes", "checks"))
    )
    methods = {}
    for name, takes, gives in METHOD.findall(files.get(f"{EXTENSIONS}/methods.rt", "")):
        own, *others = (names[kind] for kind in re.findall(r"ValueType::(\w+)", takes))
        methods.setdefault(own, []).append(f"`{name}({', '.join(others)}) -> {names[gives]}`")
    lines = ["| Type | The function that makes its values | Methods |", "|---|---|---|"]
    for maker, kind in made.items():
        lines.append(f"| `{names[kind]}` | `{makers[maker]}(String)` | {', '.join(methods[names[kind]])} |")
    return lines


def body(function, text):
    """The text of a function."""
    found = re.search(rf"fn {function}\b.*?\n    \}}\n", text, re.S)
    return found[0] if found else ""


def texts_of(function, text):
    """The texts that a function answers."""
    return re.findall(r'"([^"]*)"', body(function, text))


def main():
    paths = [TOP / "crates.txt", *(path for path in TOP.glob("crates/*/*/**/*") if path.suffix in (".rt", ".antt"))]
    files = {str(path.relative_to(TOP)): path.read_text() for path in paths if "/out/" not in str(path)}
    print("\n".join(listed(files)))
    return 0


if __name__ == "__main__":
    sys.exit(main())
