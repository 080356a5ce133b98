"""Makes docs/api, a page for each library that a host may call, and the tables of docs/API.md: scripts/pages.py writes them.

A page begins with an index by task, of scripts/docs/tasks.txt, and with a caller that the gate proves or a test runs. Each public type and call
follows, with its clauses whole and with links to the definitions that they cite. What scripts/docs/tasks.txt names and the sources
do not have is a fault, and so is a library of crates.txt that it does not name and that is not left out below.
"""
import re

from docs import api, definitions, files as listings
from docs.definitions import Gone

TASKS = "scripts/docs/tasks.txt"
OVERVIEW = "docs/API.md"
FOLDER = "docs/api"
HEADS = ("about: ", "caller: ", "modules: ")
# Libraries that no host calls, besides those of tests.
OTHERS = {
    "cedar_c": "the calls of `cedar.h`, for programs in other languages ([LANGUAGES](LANGUAGES.md))",
    "cedar_node_types": "laws on the types at the nodes of typed conditions ([THEOREMS](THEOREMS.md#each-node-of-a-typed-condition-has-a-type))",
    "cedar_examples": "examples of the promises, and two parts of a host to copy ([EMBEDDING](EMBEDDING.md))",
    "cedar_fixtures": "schemas and policies of the worked rows",
    "cedar_rows": "the worked rows",
}
TOP = definitions.climb(FOLDER)


def there(files):
    """The libraries that have a page, as scripts/docs/tasks.txt has them."""
    named = list(tasks_of(files))
    libraries = [name for name, _ in listings.crates_of(files) if f"crates/{name}/src/lib.rt" in files]
    for name in named:
        if name not in libraries:
            raise Gone(f"{TASKS}: `{name}` is no library of crates.txt")
    for name in libraries:
        if named and name not in (*named, *OTHERS) and not name.endswith(listings.TESTS):
            raise Gone(f"{TASKS} has no part for the library `{name}`, and scripts/docs/api_pages.py does not say that no host calls it")
    return named


# ---- scripts/docs/tasks.txt


class Tasks:
    """What a library is for, a caller, and what an engineer does with it: each task, its call, and whether the overview shows it."""

    def __init__(self, name, lines):
        said = dict(line.split(": ", 1) for line in lines if line.startswith(HEADS))
        if len(said) < 2 or len(said["caller"].split()) != 2:
            raise Gone(f"{TASKS}: `{name}` needs a line `about: ..`, and one `caller: FILE FUNCTION`")
        self.about, self.caller, self.calls = said["about"], said["caller"].split(), []
        self.modules = said.get("modules", "").split()
        for line in lines:
            task, _, call = line.rpartition(": ")
            if not line.startswith(HEADS):
                self.calls.append((task.removeprefix("* "), call, task.startswith("* ")))


def tasks_of(files):
    """The tasks of each library."""
    parts, name = {}, None
    for line in files.get(TASKS, "").splitlines():
        if re.fullmatch(r"\w+", line):
            name = line
            parts[name] = []
        elif line and not line.startswith("#"):
            parts.setdefault(name, []).append(line)
    return {name: Tasks(name, lines) for name, lines in parts.items()}


def heading_of(crate, call):
    """The heading of a page under which a call stands: `rbac::Validator::survey` is a method, `held` a module."""
    path = (crate.name, *call.split("::"))
    public = list(crate.public())
    if path in public:
        return title(path)
    for names in (path, path[:-1]):
        if names[:-1] in public and names[-1] in crate.listed(names[:-1])[0]:
            shown = "\n".join(crate.shown(crate.listed(names[:-1])[0][names[-1]]))
            if names == path or re.search(rf"pub (?:const )?fn {path[-1]}\b", shown):
                return names[-1]
    raise Gone(f"{TASKS}: `{call}` is no public name of {crate.name}")


def title(path):
    """The heading of a module; that of the root is not the page's own."""
    return "::".join(path) if len(path) > 1 else f"In {path[0]} itself"


def anchor(heading):
    """The anchor of a heading."""
    return re.sub(r"[^\w -]", "", heading.lower()).replace(" ", "-")


def index(crate, tasks, page=""):
    """The rows of an index by task."""
    for task, call, _ in tasks:
        yield f"| {listings.cell(task)} | [`{call}`]({page}#{anchor(heading_of(crate, call))}) |"


# ---- a caller that is proved

def function(text, name):
    """A function of a file, with its comment."""
    lines = text.splitlines()
    for at, line in enumerate(lines):
        if re.match(rf"(?:pub(?:\(\w+\))? )?fn {name}\b", line):
            first = at
            while first and lines[first - 1].startswith("///"):
                first -= 1
            return lines[first:api.end_of(lines, at) + 1]
    return None


def caller(crate, place, files):
    """The function that calls the library, as it stands."""
    path, name = place
    lines = function(files.get(path, ""), name)
    if not lines:
        raise Gone(f"{TASKS}: {path} has no function `{name}`, which is to call {crate.name}")
    public = {item for module in crate.public() for item in crate.listed(module)[0]}
    if path.startswith(f"crates/{crate.name}/") or not public & set(re.findall(r"\w+", "\n".join(lines))):
        raise Gone(f"{TASKS}: `{name}` of {path} calls nothing of {crate.name}")
    if path.split("/")[1] not in dict(listings.crates_of(files)):
        raise Gone(f"{TASKS}: {path} is in no crate of crates.txt, so that nothing proves it")
    is_run = path.split("/")[1].endswith(listings.TESTS)
    how = "`scripts/test` runs" if is_run else "`scripts/prove` proves"
    return [f"From [{path}]({TOP}{path}), which {how}:", "", "```rust", *lines, "```"]


# ---- the parts of a page

def links(cited, files):
    """The definitions that an item cites, each with its file."""
    named = [f"[`{word}`]({TOP}{path})" for word, (path, _) in sorted(cited.items(), key=lambda it: it[0].lower()) if path in files]
    return ["", f"Definitions: {', '.join(named)}."] if named else []


def item(crate, name, place, files):
    """A type or a call of the page."""
    lines = crate.shown(place)
    first = next(at for at, line in enumerate(lines) if not line.startswith("///"))
    about = [line[3:].strip() for line in lines[:first]]
    return ["", f"### {name}", "", *about, *([""] if about else []), "```rust", *lines[first:], "```", *links(crate.cites(place), files)]


def module(crate, path, files):
    """The part of a public module, if it has something for other crates."""
    items, others = crate.listed(path)
    if not items and not others:
        return []
    about = crate.modules[path].about if len(path) > 1 else []
    uses = [f"pub use {other};" for other in sorted(others)]
    shown = ["", f"## {title(path)}", *([""] if about else []), *about]
    shown += ["", "```rust", *uses, "```"] if uses else []
    for name in sorted(items, key=str.lower):
        shown += item(crate, name, items[name], files)
    return shown


def names(crate):
    """The rows of the index by module."""
    for path in crate.public():
        items, _ = crate.listed(path)
        if items:
            linked = ", ".join(f"[`{name}`](#{anchor(name)})" for name in sorted(items, key=str.lower))
            yield f"| [`{'::'.join(path)}`](#{anchor(title(path))}) | {linked} |"


def glossary(crate, files):
    """The definitions that the page's clauses cite, each with its own comment."""
    cited = {}
    for path in crate.public():
        for place in crate.listed(path)[0].values():
            cited |= {it: None for it in crate.cites(place).values() if it[0] in files}
    if not cited:
        return []
    rows = []
    for path, name in sorted(cited, key=lambda it: (it[1].lower(), it)):
        found = definitions.find(files, path, name)
        rows.append(f"| {found.link(FOLDER)} | {listings.cell(found.sentence())} |")
    head = ["", "## Definitions", "", "What the clauses of this page cite, each with its own comment.", ""]
    return [*head, "| Definition | What it says |", "|---|---|", *rows]


def page(crate, tasks, files):
    """The page of a library."""
    parts = [line for path in crate.public() for line in module(crate, path, files)]
    if not tasks.calls or not any(line.startswith("### ") for line in parts):
        raise Gone(f"{FOLDER}/{crate.name}.md would be empty: {crate.name} has no task, or nothing public")
    lines = [f"# {crate.name}", "", tasks.about, "", *crate.modules[(crate.name,)].about, "", "Made by `scripts/pages.py`. "
             "[API](../API.md) says how to read a clause.", "", "## By task", "", "| You want to | Call |", "|---|---|"]
    lines += [*index(crate, tasks.calls), "", "## A caller", "", *caller(crate, tasks.caller, files), "", "## By module", ""]
    lines += ["| Module | Names |", "|---|---|", *names(crate), *parts, *glossary(crate, files)]
    return "\n".join(lines).rstrip() + "\n"


def whole(files):
    """The pages of docs/api: the path and the text of each."""
    tasks = tasks_of(files)
    return {f"{FOLDER}/{name}.md": page(crate_of(name, tasks, files), tasks[name], files) for name in there(files)}


def crate_of(name, tasks, files):
    """A library, with the modules that its page shows: all, unless `modules:` names some."""
    crate, only = api.Crate(name, files), tasks[name].modules
    for module in only:
        if not crate.modules[(name,)].modules.get(module):
            raise Gone(f"{TASKS}: `{module}` is no public module of {name}")
    crate.only = only
    return crate


# ---- the overview

def libraries(files):
    """What docs/API.md shows: the libraries."""
    tasks = tasks_of(files)
    rows = [f"| [`{name}`](api/{name}.md) | {listings.cell(tasks[name].about)} |" for name in there(files)]
    if not rows:
        raise Gone(f"{TASKS} names no library")
    return ["| Library | What it has |", "|---|---|", *rows]


def first_tasks(files):
    """What docs/API.md shows: the tasks with a star."""
    rows, tasks = [], tasks_of(files)
    for name in there(files):
        starred = [it for it in tasks[name].calls if it[2]]
        rows += index(crate_of(name, tasks, files), starred, f"api/{name}.md")
    if not rows:
        raise Gone(f"{TASKS} has no task with a star")
    return ["| You want to | Call |", "|---|---|", *rows]
