"""The public types and calls of a library, each with its clauses as they stand in the source.

They stand under the path by which another crate names them, with their doc comments, without bodies and private fields. The
sources are read line by line, as rt fmt lays them out. scripts/docs/api_pages.py makes the pages of docs/api of them.
"""
import re

from docs import files, trusted

MODULE = re.compile(r"^(?:(pub) |pub\(\w+\) )?mod (\w+);", re.M)
USE = re.compile(r"^pub use ([^;]+);", re.M)
ITEM = re.compile(r" *pub (?:const )?(?P<kind>fn|struct|enum|trait|type|const) (?P<name>\w+)")
IMPL = re.compile(r"impl(?:<.*?>)? (?:(?P<of>[\w:]+)(?:<.*>)? for )?(?P<type>\w+)")
DERIVED = re.compile(r"\s*#\[derive(?:_where)?\((.*)\)\]")
CLAUSE = re.compile(r"\s*(?:ensures|requires|ghost)\b")
# What a caller makes no use of.
UNNAMED = {"Drop", "Model", "skip"}


def end_of(lines, at):
    """The last line of the item that begins here."""
    indent = re.match(" *", lines[at])[0]
    for end in range(at, len(lines)):
        is_empty = lines[end].endswith("{}") and (end == at or not lines[end].startswith(f"{indent} "))
        if is_empty or lines[end] in (f"{indent}}}", f"{indent}];") or (lines[end].endswith(";") and not has_body(lines[at:end])):
            return end
    raise ValueError(f"no end of {lines[at]}")


def has_body(lines):
    return any(line.endswith("{") and not CLAUSE.match(line) for line in lines)


def parts(lines):
    """The head of a function, and its clauses, as they stand; its body is left out."""
    head, clauses, open_braces = [], [], 0
    for line in lines:
        if CLAUSE.match(line) or open_braces:
            open_braces += line.count("{") - line.count("}")
            clauses.append(line)
        elif line.strip() in ("{", "{}"):
            break
        else:
            head.append(re.sub(r" \{\}?$", "", line))
            if line.endswith(("{", "{}")):
                break
    return head, clauses


def contract(lines):
    """A function without its body."""
    head, clauses = parts(lines)
    shown = head + clauses
    return [*shown[:-1], shown[-1].rstrip(";") + ";"]


def words_of(kind, lines):
    """The words of an item in which it may cite a definition."""
    stated = {"fn": parts(lines)[1], "trait": lines}.get(kind, [])
    return trusted.NAME.findall("\n".join(line.partition("//")[0] for line in stated))


def fields(lines):
    """The public fields of a struct, with their comments, and a mark in the place of the others."""
    shown, comments, others = [], [], []
    for line in lines:
        if line.startswith("    ///"):
            comments.append(line)
        elif line.startswith("    pub "):
            shown, comments = [*shown, *comments, line], []
        elif re.match(r"    (?!ghost\b)\w", line):
            others, comments = ["    // private fields"], []
    return shown + others


def variants(lines):
    return [line for line in lines if line.strip() and not line.strip().startswith(("#", "// "))]


def asked(lines):
    """What a trait asks for: its calls, and the laws that they keep, with the comments."""
    shown, at = [], 0
    while at < len(lines):
        end = at
        if re.match(r"    (?:fn|ghost)\b", lines[at]):
            end = end_of(lines, at)
            shown += contract(lines[at:end + 1]) if lines[at].startswith("    fn ") else lines[at:end + 1]
        elif not lines[at].startswith("    ghost use"):
            shown.append(lines[at])
        at = end + 1
    return shown


BODIES = {"struct": fields, "enum": variants, "trait": asked}


def shown_item(kind, lines):
    """An item as the page has it."""
    if kind == "fn":
        return contract(lines)
    if kind not in BODIES or not lines[0].endswith("{"):
        return lines
    body = BODIES[kind](lines[1:-1])
    return [lines[0], *body, lines[-1]] if body else [lines[0][:-2] + ";"]


class Module:
    """A file of code: what it says of itself, its modules, its uses, its public items, and what its types have."""

    def __init__(self, text, path):
        self.path = path
        self.about = re.findall(r"^//! ?(.*)$", text, re.M)
        self.modules = {name: bool(public) for public, name in MODULE.findall(text)}
        self.uses = dict(used for tree in USE.findall(text) for used in leaves(tree))
        self.items, self.calls, self.traits, self.cited = {}, {}, {}, {}
        self.imports = {name: place for name, place in trusted.imports_of(text)[0].items() if not place[0].startswith("crates/std/")}
        self.read(text.splitlines())

    def read(self, lines):
        comments, traits, at = [], [], 0
        while at < len(lines):
            line, end = lines[at], at
            item, impl, derived = ITEM.match(line), IMPL.match(line), DERIVED.match(line)
            if line.startswith("///"):
                comments.append(line)
            elif derived:
                traits += re.findall(r"\w+", derived[1])
            elif item:
                end = end_of(lines, at)
                self.items[item["name"]] = item["kind"], comments + shown_item(item["kind"], lines[at:end + 1])
                self.cite(item["name"], item["kind"], lines[at:end + 1])
                self.traits.setdefault(item["name"], []).extend(traits)
            elif impl:
                end = end_of(lines, at)
                self.read_impl(impl, lines[at:end + 1])
            if line and not line.startswith(("///", "#")):
                comments, traits = [], []
            at = end + 1

    def read_impl(self, impl, lines):
        if impl["of"]:
            self.traits.setdefault(impl["type"], []).append(lines[0].partition("impl")[2].partition(" for ")[0])
            return
        shown, comments, at = [], [], 0
        while at < len(lines):
            line, end, item = lines[at], at, ITEM.match(lines[at])
            if line.startswith("    ///"):
                comments.append(line)
            elif item:
                end = end_of(lines, at)
                shown += ["", *comments, *shown_item(item["kind"], lines[at:end + 1])]
                self.cite(impl["type"], item["kind"], lines[at:end + 1])
            if line and not line.strip().startswith(("///", "#")):
                comments = []
            at = end + 1
        if shown:
            self.calls.setdefault(impl["type"], {}).setdefault(lines[0], []).extend(shown)

    def cite(self, item, kind, lines):
        """Takes down the definitions that clauses of an item cite: each with its file, and its name there."""
        cited = {word: self.imports[word] for word in words_of(kind, lines) if word in self.imports}
        self.cited.setdefault(item, {}).update(cited)


def leaves(tree, path=()):
    """The names that a `pub use` brings, each with its path."""
    tree = " ".join(tree.split())
    head, brace, rest = tree.partition("{")
    path = (*path, *(part for part in head.split("::") if part.strip()))
    if not brace:
        return [(path[-1].strip(), tuple(part.strip() for part in path))]
    parts, depth, found = [""], 0, []
    for letter in rest.rpartition("}")[0]:
        depth += {"{": 1, "}": -1}.get(letter, 0)
        parts = [*parts, ""] if letter == "," and not depth else [*parts[:-1], parts[-1] + letter]
    for part in parts:
        found += leaves(part.strip(), path) if part.strip() else []
    return found


class Crate:
    """The modules of a library by their paths, which begin with its name; and what errors say, by their names."""

    def __init__(self, name, texts):
        self.name, self.modules, self.messages, self.only = name, {}, files.messages(texts), []
        self.add((name,), f"crates/{name}/src", "lib", texts)

    def add(self, path, folder, stem, texts):
        module = self.modules[path] = Module(texts[f"{folder}/{stem}.rt"], f"{folder}/{stem}.rt")
        inner = folder if stem == "lib" else f"{folder}/{stem}"
        for name in module.modules:
            if f"{inner}/{name}.rt" in texts:
                self.add((*path, name), inner, name, texts)

    def found(self, path, used):
        """The module that has what a path of a module means, and its name there."""
        used = (self.name, *used[1:]) if used[0] == "crate" else used
        start = used if used[0] == self.name else (*path, *used)
        module, name = self.modules.get(start[:-1]), start[-1]
        if module is None or name in module.items:
            return (start[:-1], name) if module else None
        return self.found(start[:-1], module.uses[name]) if name in module.uses else None

    def public(self, path=None):
        """The paths of its public modules, only of those in `only` if it has any."""
        path = path or (self.name,)
        yield path
        for name, is_public in self.modules[path].modules.items():
            is_shown = len(path) > 1 or not self.only or name in self.only
            if is_public and is_shown and (*path, name) in self.modules:
                yield from self.public((*path, name))

    def listed(self, path):
        """The items that a module has for other crates, by name, and what it names of other libraries."""
        module = self.modules[path]
        here = {name: (path, name) for name in module.items}
        used = {name: self.found(path, it) for name, it in module.uses.items()}
        here |= {name: place for name, place in used.items() if place}
        return here, ["::".join(module.uses[name]) for name, place in used.items() if not place]

    def shown(self, place):
        """An item of the page: with its comments, its calls, and the traits that it has."""
        path, name = place
        kind, lines = self.modules[path].items[name]
        if kind not in ("struct", "enum"):
            return lines
        calls = {}
        for module in self.modules.values():
            for head, more in module.calls.get(name, {}).items():
                calls.setdefault(head, []).extend(more)
        impls = [line for head, more in calls.items() for line in ["", head, *more[1:], "}"]]
        named = {trait for module in self.modules.values() for trait in module.traits.get(name, [])}
        traits = sorted(trait for trait in map(plain, named) if trait not in UNNAMED)
        says = [f"// its text: {self.messages[name]}"] if name in self.messages else []
        return [*lines, *says, *([f"// {', '.join(traits)}"] if traits else []), *impls]

    def cites(self, place):
        """The definitions that the clauses of an item cite, by the names that they have there."""
        path, name = place
        if self.modules[path].items[name][0] not in ("struct", "enum"):
            return self.modules[path].cited.get(name, {})
        return {word: it for module in self.modules.values() for word, it in module.cited.get(name, {}).items()}


def plain(trait):
    """A trait without the parameters of its impl."""
    return re.sub(r"^(?:<.*?>)? ", "", trait)
