#!/usr/bin/env python3
"""The self-test of check_text: repositories with one fault each, which it has to refuse for that fault, and a good one.

The last line counts the samples that went as they should.
"""
import subprocess
import sys
import tempfile
from pathlib import Path

sys.path.insert(0, str(Path(__file__).resolve().parent.parent))
import pages  # noqa: E402
from docs import api_pages  # noqa: E402

CHECK = Path(__file__).resolve().parent / "check_text"
WHY = {
    "citation": "reads like a citation by number",
    "path": "is a path of one machine",
    "handles": "which never changes",
    "crates": "every crate is built in the same way",
    "tactic": "a crate's root file has the line",
    "hole": "is a hole",
    "out": "is never committed",
    "shown": "this code stands in no file",
    "file": "is no file of the repository",
    "heading": "is no heading of",
    "made": "run scripts/pages.py",
    "maker": "no script makes",
    "public": "is no public name of",
    "caller": "has no function",
    "calls": "calls nothing of",
    "proved": "is in no crate of crates.txt",
    "part": "has no part for the library",
    "needed": "needs a line",
    "library": "is no library of crates.txt",
    "definition": "is no definition of",
    "block": "the page has no block",
    "long": "words, and 30 are the most",
    "nowhere": "occurs nowhere in the sources",
    "gone file": "is no file and no folder",
    "option": "no source has the option",
    "run": "to run",
    "limit": "is no longer there, or the sentence that has it",
}
# What would be a fault in this file stands in pieces.
PAPERS = "pap" + "ers"
PARAMETER = "T" + "1"
CRATE = f"//! A crate.\n#![tactic(auto)]\n\npub fn same<{PARAMETER}>(it: {PARAMETER}) -> {PARAMETER} {{\n    it\n}}\n"
# What scripts/docs/rows.py makes of the one row below.
ROWS = """
```text
```

```text
row 1: One.
? S1 check: true
Success
```

```text
```

"""
GOOD = {
    "HANDLES": "Handles allowed: none.\n",
    "LICENSE": f"Section 4 of these {PAPERS}.\n",
    "README.md": "Row 10 prints `row 10: ok`, as in RFC 76.\nTake crates/tmp/ out of it; 0xD4, T15 and R2D2 are no citations.\n```rust\nlet shown = 1;\n```\n"
    "[Rows](docs/ROWS.md#the-rows), [these](docs/ROWS.md), \"The rows\", [a folder](docs), `[no](link)`.\n"
    "[The end](#the-end)\n````text\n```\na block\n```\n````\n# The end\n```text\n```\n",
    "docs/ROWS.md": f"# The rows\n<!-- made: rows -->\n{ROWS}<!-- end -->\n",
    "crates/cedar_rows/src/rows/listed.rt": 'name: "1", row: Steps(conditions::ONE, &[])\n',
    "crates/cedar_rows/src/rows/conditions.rt": '/// One.\npub const ONE: &str = r#"\n? S1 check: true\nSuccess\n"#;\n',
    "crates.txt": "demo:\n",
    "crates/demo/src/lib.rt": CRATE,
    "crates/demo/src/page.rt": "// A page.\nlet shown = 1;\n",
    "crates/demo/specs/Lib.antt": "-- is it there?\nuse lib.ListN.{get_elem?}\n",
}
# A library with a page, and its caller.
API = {
    "crates.txt": "demo:\nhost: demo\n",
    "crates/demo/src/lib.rt": "//! A crate.\n#![tactic(auto)]\n\npub fn same(it: u8) -> u8 {\n    it\n}\n",
    "crates/host/src/main.rt": "//! A host.\n#![tactic(auto)]\n\nfn run() -> u8 {\n    same(1)\n}\n\nfn idle() {\n    drop(1);\n}\n",
    api_pages.TASKS: "# Tasks.\ndemo\nabout: Gives values.\ncaller: crates/host/src/main.rt run\n* get the value back: same\n",
}
API |= api_pages.whole(GOOD | API)
OVERVIEW = "".join(f"<!-- made: {name} -->\n<!-- end -->\n" for name in pages.BLOCKS[api_pages.OVERVIEW])
API["docs/API.md"] = pages.written(OVERVIEW, GOOD | API)


def note(text, line=2):
    """A note whose second line is the text, and where the fault is to be found."""
    return {"docs/NOTE.md": f"A plain line.\n{text}\n"}, f"docs/NOTE.md:{line}:"


def changed(name, text, line=1):
    return {name: text}, f"{name}:{line}:"


def with_tasks(old, new):
    """A repository with a page of a library, with one text of its tasks changed, and where the fault is to be found."""
    return API | {api_pages.TASKS: API[api_pages.TASKS].replace(old, new)}, f"{api_pages.OVERVIEW}:1:"


FILES = [
    ("code that is shown alone", "shown", *changed("README.md", "Call it so.\n```rust\nlet it = same(1);\n```\n", 2)),
    ("a promise", "citation", *note("as T" + "4 says")),
    ("a promise's part", "citation", *note("as T" + "4b says")),
    ("a definition", "citation", *note("(D" + "6)")),
    ("the last definition", "citation", *note("D" + "20: the required level")),
    ("a wrong body", "citation", *note("the body W" + "22")),
    ("a wrong body in a name", "citation", *note("the test W" + "2_union")),
    ("a request", "citation", *note("comes with R" + "16.")),
    ("a document", "citation", *note("see document 0" + "4")),
    ("the whole", "citation", *note(f"as the {PAPERS} say")),
    ("the whole across lines", "citation", *changed("crates/demo/src/lib.rt", f"{CRATE}// as the\n// {PAPERS} say\n", 7)),
    ("a section of a document", "citation", *note("section 3 of 0" + "1")),
    ("a document's section", "citation", *note("0" + "4 section 3")),
    ("a document's number alone", "citation", *note("the tables of 0" + "4")),
    ("a promise in words", "citation", *note("by promise " + "3")),
    ("a rule", "citation", *note("by rule " + "12")),
    ("a mark", "citation", *note("the call is [m" + "0]")),
    ("a folder", "citation", *note(f"in {PAPERS}/scope")),
    ("a comment beside a type parameter", "citation", *changed("crates/demo/src/lib.rt", f"{CRATE}// by {PARAMETER}\n", 7)),
    ("a file's name", "citation", *changed("crates/demo/must-fail/w" + "5.edit", "file: src/lib.rt\n")),
    *((f"a path below {top}", "path", *note(f"in `/{top}/x`")) for top in ("work", "tmp", "opt", "root", "home", "farm")),
    ("a path's address", "path", *note("file:///" + "home/x")),
    ("more handles", "handles", *changed("HANDLES", "Handles allowed: Threads.\n")),
    ("a longer HANDLES", "handles", *changed("HANDLES", "Handles allowed: none.\n\n")),
    ("no HANDLES", "handles", *changed("HANDLES", None)),
    ("a compiler's choice", "crates", *changed("crates.txt", "demo backend=rattle:\n")),
    ("an optimizer's choice", "crates", *changed("crates.txt", "# all\ndemo opt_level=1:\n", 2)),
    ("a library without its tactics", "tactic", *changed("crates/demo/src/lib.rt", "//! A crate.\n")),
    ("a program with its tactics in a comment", "tactic", *changed("crates/app/src/main.rt", "// #![tactic(auto)]\n")),
    ("a hole", "hole", *changed("crates/demo/proofs/Lib.antt", "-- why?\nit = ?\n", 2)),
    ("a hole as an argument", "hole", *changed("crates/demo/specs/Lib.antt", "it = ap f (?)\n")),
    ("a link to no file", "file", *note("see [it](GONE.md)")),
    ("a link to no heading", "heading", *note("see [it](ROWS.md#the-columns)")),
    ("a section that is named and is not there", "heading", *note('see [it](ROWS.md),\n"The columns"')),
    ("a page that is made of other sources", "made", {"crates/cedar_rows/src/rows/conditions.rt": ""}, "docs/ROWS.md:2:"),
    ("a page of a script that there is not", "maker", *note("<!-- made: tables -->\n<!-- end -->")),
    ("an overview without its block", "block", *changed("docs/API.md", "# The calls\n")),
    ("a page without its block", "block", *changed("docs/PROMISE.md", "# The promise\n")),
    ("a page of a definition that is gone", "definition", *note("<!-- made: promise_safe -->\n<!-- end -->")),
    ("a long sentence", "long", *note("So " + "it goes on and on and on " * 4 + "until its end, as it were.")),
    ("a name that is gone", "nowhere", *note("Call `same_again` for it.")),
    ("a name that is gone, in a block", "nowhere", *note("```rust\nsame_again(1)\n```", 3)),
    ("a limit that is gone", "limit", *changed("docs/RULES.md", "# Rules\n")),
    ("a file that is gone", "gone file", *note("See `crates/demo/src/other.rt` for it.")),
    ("an option that is gone", "option", *note("Say `--again` for it.")),
    ("a command that is gone", "run", *note("```console\n$ scripts/again\n```", 3)),
    ("a picture of an older text", "made", {"docs/NOTE.md": "![It](walk.svg)\n", "docs/walk.svg": "<svg/>\n"}, "docs/walk.svg:1:"),
    ("a library's page that is gone", "made", API | {"docs/api/demo.md": None, "docs/API.md": None}, "docs/api/demo.md:1:"),
    ("an empty page of a library", "made", API | {"docs/api/demo.md": "", "docs/API.md": None}, "docs/api/demo.md:1:"),
    ("a page of no library", "maker", API | {"docs/api/more.md": "More.\n"}, "docs/api/more.md:1:"),
    ("a task whose call is gone", "public", *with_tasks(": same", ": other")),
    ("a caller that is gone", "caller", *with_tasks("rt run", "rt walk")),
    ("a caller that does not call", "calls", *with_tasks("rt run", "rt idle")),
    ("a caller that nothing proves", "proved", API | {"crates.txt": "demo:\n"}, "docs/API.md:1:"),
    ("a library without a page", "part", API | {"crates.txt": "demo:\nhost: demo\nmore:\n", "crates/more/src/lib.rt": CRATE}, "docs/API.md:1:"),
    ("a library without a caller", "needed", *with_tasks("caller: ", "call: ")),
    ("a page for a program", "library", *with_tasks("demo\n", "host\n")),
    ("what was built", "out", *changed("crates/demo/out/demo.rlib", "x\n")),
]
MESSAGES = [
    ("a message's title", "citation", "Prove T" + "3", 1),
    ("a message's body", "citation", f"Prove it\n\nas in the {PAPERS}", 3),
    ("a message's path", "path", "Prove it in /" + "tmp/x", 1),
]


def git(folder, *words):
    who = ["-c", "user.name=sample", "-c", "user.email=sample@localhost"]
    ran = subprocess.run(["git", "-C", folder, *who, *words], stdin=subprocess.DEVNULL, capture_output=True, text=True, check=True)
    return ran.stdout.strip()


def repository(folder, files, message="Begin"):
    """Makes a repository of one commit."""
    git(folder, "init", "-q")
    for name, text in files.items():
        if text is not None:
            path = Path(folder, name)
            path.parent.mkdir(parents=True, exist_ok=True)
            path.write_text(text, encoding="utf8")
    git(folder, "add", "--force", "--all")
    git(folder, "commit", "-q", "-m", message)


def said_of(folder):
    ran = subprocess.run([sys.executable, CHECK, folder], stdin=subprocess.DEVNULL, capture_output=True, text=True)
    return ran.returncode, (ran.stdout + ran.stderr).splitlines()


def is_refused(folder, where, why):
    """Whether the check refuses the repository with one line, which says where and why."""
    status, lines = said_of(folder)
    well = status == 1 and len(lines) == 2 and lines[0].startswith(where) and WHY[why] in lines[0] and lines[1] == "10 passed, 1 failed"
    return well, lines


def outcomes():
    """Each sample's name, whether it went well, and what the check said."""
    with tempfile.TemporaryDirectory() as folder:
        repository(folder, GOOD)
        status, lines = said_of(folder)
        yield "a good repository", status == 0 and lines == ["11 passed, 0 failed"], lines
    with tempfile.TemporaryDirectory() as folder:
        repository(folder, GOOD | API)
        status, lines = said_of(folder)
        yield "a good page of a library", status == 0 and lines == ["11 passed, 0 failed"], lines
    for name, why, files, where in FILES:
        with tempfile.TemporaryDirectory() as folder:
            repository(folder, GOOD | files)
            yield name, *is_refused(folder, where, why)
    for name, why, message, line in MESSAGES:
        with tempfile.TemporaryDirectory() as folder:
            repository(folder, GOOD, message)
            first = git(folder, "rev-parse", "--short", "HEAD")
            git(folder, "commit", "-q", "--allow-empty", "-m", "Go on")
            yield name, *is_refused(folder, f"commit {first}:{line}:", why)


def main():
    passed = failed = 0
    for name, well, lines in outcomes():
        if well:
            passed += 1
            continue
        failed += 1
        print(f"{name}: not as it should be:", *lines, sep="\n    ")
    print(f"{passed} passed, {failed} failed")
    return 1 if failed else 0


if __name__ == "__main__":
    sys.exit(main())
