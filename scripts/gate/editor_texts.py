#!/usr/bin/env python3
"""Checks what editors read of this repository, without an editor: scripts/gate/editor_texts.py.

The grammars of editors/vscode give texts their scopes (textmate.py): those that the tables below say, and some scope to each word of
the examples and of docs/READING.md's grammar. The extension's files must be there, and agree with each other and with the settings
that the server reads. The task of VS Code in docs/EDITORS.md must understand what cedar-validate writes. The last line counts what
holds and what does not.
"""
import csv
import json
import re
import sys
from pathlib import Path

from textmate import Grammar

TOP = Path(__file__).resolve().parents[2]
FOLDER = TOP / "editors" / "vscode"
PACKAGE = json.loads((FOLDER / "package.json").read_text(encoding="utf8"))
READING = (TOP / "docs" / "READING.md").read_text(encoding="utf8")
EDITORS = (TOP / "docs" / "EDITORS.md").read_text(encoding="utf8")
SERVER = TOP / "crates" / "cedar_language_server" / "src" / "options.rt"
# Words between « and » in a piece of a file, and the scope that each of their characters has.
TOUR = {
    "examples/tour/share.cedar": (
        ("«// Everyone sees»", "comment.line.double-slash.cedar"),
        ('«@»id("public")', "punctuation.definition.annotation.cedar"),
        ('@«id»("public")', "storage.type.annotation.cedar"),
        ('@id(«"public"»)', "string.quoted.double.cedar"),
        ("«permit»(principal, action ==", "keyword.control.effect.cedar"),
        ("permit(«principal», action ==", "variable.language.cedar"),
        ("«==» Action", "keyword.operator.comparison.cedar"),
        ('«Action»::"view"', "entity.name.type.cedar"),
        ('Action«::»"view"', "punctuation.separator.namespace.cedar"),
        ('Action::«"view"»', "string.quoted.double.cedar"),
        ("«when» { resource.isPubic", "keyword.control.condition.cedar"),
        ("resource.«isPubic»", "variable.other.member.cedar"),
        ("vip «&&» context.now", "keyword.operator.logical.cedar"),
        ("«context».now", "variable.language.cedar"),
        ("«forbid»(principal", "keyword.control.effect.cedar"),
        ("action «in» [", "keyword.operator.word.cedar"),
        ("«unless» {", "keyword.control.condition.cedar"),
        ("«datetime»(", "support.function.cedar"),
        ('"2020-13-01") }«;»', "punctuation.terminator.cedar"),
    ),
    "examples/tour/mended.cedar": (
        ("principal «has» vip", "keyword.operator.word.cedar"),
        ("principal has «vip»", "variable.other.member.cedar"),
    ),
    "examples/tour/photos.cedarschema": (
        ("«// Photos in albums»", "comment.line.double-slash.cedarschema"),
        ("«entity» User", "keyword.declaration.cedarschema"),
        ("entity «User»", "entity.name.type.cedarschema"),
        ("{ «name»: String", "variable.other.member.cedarschema"),
        ("name: «String»", "support.type.cedarschema"),
        ("team: «Team»", "entity.name.type.cedarschema"),
        ("vip«?»: Bool", "keyword.operator.optional.cedarschema"),
        ("Photo «in» [Album]", "keyword.other.cedarschema"),
        ("[«Album»]", "entity.name.type.cedarschema"),
        ("taken: «datetime»", "support.type.cedarschema"),
        ("«action» view", "keyword.declaration.cedarschema"),
        ("action «view»", "entity.name.function.cedarschema"),
        ("«appliesTo» {", "keyword.other.cedarschema"),
        ("«principal»: User,", "variable.language.cedarschema"),
        ("«context»: {", "variable.language.cedarschema"),
        ("{ «now»: datetime", "variable.other.member.cedarschema"),
    ),
}
# Texts of what the tour has not.
POLICIES = (
    ('permit(principal == «?principal», action, resource);', "variable.parameter.slot.cedar"),
    ('permit(principal is «User» in Group::"a", action, resource);', "entity.name.type.cedar"),
    ('permit(principal «is» N::User, action, resource);', "keyword.operator.word.cedar"),
    ('permit(principal is «N»::User, action, resource);', "entity.name.namespace.cedar"),
    ('permit(principal is N::«User», action, resource);', "entity.name.type.cedar"),
    ('permit(principal == «N»::User::"a", action, resource);', "entity.name.namespace.cedar"),
    ('permit(principal == N::«User»::"a", action, resource);', "entity.name.type.cedar"),
    ('when { "a«\\n»b" == "" };', "constant.character.escape.cedar"),
    ('when { "a«\\u{1F4_4D}»" == "" };', "constant.character.escape.cedar"),
    ('when { "a«\\x7f»" == "" };', "constant.character.escape.cedar"),
    ('when { "a«\\q»" == "" };', "invalid.illegal.escape.cedar"),
    ('when { "a\\"«b» //" == "" };', "string.quoted.double.cedar"),
    ('when { "a\n«b»" == "" };', "string.quoted.double.cedar"),
    ('when { resource.name like "a«*»" };', "keyword.operator.wildcard.cedar"),
    ('when { resource.name like "a«\\*»" };', "constant.character.escape.cedar"),
    ('when { resource.name == "a«*»" };', "string.quoted.double.cedar"),
    ('when { -«12» + 3 < 4 };', "constant.numeric.integer.cedar"),
    ('when { -12 «+» 3 < 4 };', "keyword.operator.arithmetic.cedar"),
    ('when { «if» true then 1 else 2 };', "keyword.control.conditional.cedar"),
    ('when { if «true» then 1 else 2 };', "constant.language.boolean.cedar"),
    ('when { principal.«if» };', "variable.other.member.cedar"),
    ('when { {«permit»: 1} has permit };', "variable.other.member.cedar"),
    ('when { {permit: 1} has «permit» };', "variable.other.member.cedar"),
    ('when { principal.«contains» };', "variable.other.member.cedar"),
    ('when { principal.«contains»(1) };', "support.function.cedar"),
    ('when { resource.ip.«isInRange»(ip("::1")) };', "support.function.cedar"),
    ('when { "a" == "b" }; «// c "d"»', "comment.line.double-slash.cedar"),
    ('when { "«a // b»" == "" };', "string.quoted.double.cedar"),
)
SCHEMAS = (
    ("«namespace» A::B { entity C; }", "keyword.declaration.cedarschema"),
    ("namespace «A»::B { entity C; }", "entity.name.namespace.cedarschema"),
    ("namespace A::B { entity «C»; }", "entity.name.type.cedarschema"),
    ("namespace A { entity C; } «entity» D;", "keyword.declaration.cedarschema"),
    ("@«doc»(\"a\") entity C;", "storage.type.annotation.cedarschema"),
    ("entity C «enum» [\"a\"];", "keyword.other.cedarschema"),
    ("entity C enum [«\"a\"»];", "string.quoted.double.cedarschema"),
    ("entity C { a: Long } «tags» Set<A::B>;", "keyword.other.cedarschema"),
    ("entity C { a: Long } tags «Set»<A::B>;", "support.type.cedarschema"),
    ("entity C { a: Long } tags Set«<»A::B>;", "punctuation.definition.generic.cedarschema"),
    ("entity C { a: Long } tags Set<«A»::B>;", "entity.name.namespace.cedarschema"),
    ("entity C { a: Long } tags Set<A::«B»>;", "entity.name.type.cedarschema"),
    ("entity C = { «type»: Long, \"b\"?: Long };", "variable.other.member.cedarschema"),
    ("entity C = { type: Long, \"b\"«?»: Long };", "keyword.operator.optional.cedarschema"),
    ("«type» T = { a: Long };", "keyword.declaration.cedarschema"),
    ("type «T» = { a: Long };", "entity.name.type.cedarschema"),
    ("type T «=» { a: Long };", "keyword.operator.assignment.cedarschema"),
    ("action a, «\"b c\"» in [d] appliesTo { principal: E, resource: E };", "string.quoted.double.cedarschema"),
    ("action a, «b» in [d];", "entity.name.function.cedarschema"),
    ("action a in [N::«Action»::\"b\"];", "entity.name.type.cedarschema"),
    ("action a appliesTo { principal: E, resource: E, context: { «principal»: E } };", "variable.other.member.cedarschema"),
    ("action a appliesTo { principal: E, resource: E, context: { principal: E } }; «action» b;", "keyword.declaration.cedarschema"),
)


class Counts:
    def __init__(self):
        self.passed = self.failed = 0

    def want(self, name, is_well, got=None):
        self.passed += bool(is_well)
        self.failed += not is_well
        if not is_well:
            print(f"{name}: {str(got)[:600]}", flush=True)


def scopes_of(grammar, text, piece):
    """The inner scopes of the characters between « and » of a piece, where it stands in a text."""
    before, word, after = re.split("[«»]", piece)
    begin = text.index(before + word + after) + len(before)
    return {scopes[-1] if scopes else None for scopes in grammar.scopes(text)[begin:begin + len(word)]}


def wanted_scope(counts, grammar, text, piece, scope):
    # (the mark of a comment has a scope of its own inside of the comment's)
    got = scopes_of(grammar, text, piece) - {f"punctuation.definition.comment.{grammar.scope.split('.')[1]}"}
    counts.want(f"the scope of {piece!r}", got == {scope}, got)


def tables(counts, grammars):
    for name, rows in TOUR.items():
        text = (TOP / name).read_text(encoding="utf8")
        for piece, scope in rows:
            wanted_scope(counts, grammars[Path(name).suffix[1:]], text, piece, scope)
    for language, rows in (("cedar", POLICIES), ("cedarschema", SCHEMAS)):
        for piece, scope in rows:
            wanted_scope(counts, grammars[language], re.sub("[«»]", "", piece), piece, scope)


def bare(grammar, text):
    """The words of a text that have no scope, and what counts as wrong there."""
    found = grammar.scopes(text)
    words = [it[0] for it in re.finditer(r"\w+", text) if not all(found[it.start():it.end()])]
    return words + [text[at] for at, scopes in enumerate(found) if any(it.startswith("invalid") for it in scopes)]


def examples(counts, grammars):
    """Each word of policies and schemas of the examples has a scope."""
    for language, grammar in grammars.items():
        for path in sorted((TOP / "examples").rglob(f"*.{language}")):
            counts.want(f"words of {path.relative_to(TOP)}", not (words := bare(grammar, path.read_text(encoding="utf8"))), words)
    with open(TOP / "examples" / "against_cedar" / "pairs.tsv", encoding="utf8", newline="") as lines:
        rows = csv.DictReader((line for line in lines if not line.startswith("#")), delimiter="\t", quoting=csv.QUOTE_NONE)
        policies = [row["policy"] for row in rows if row["says"] == "validates"]
    words = {policy: found for policy in policies if (found := bare(grammars["cedar"], policy))}
    counts.want("words of the policies that validate in pairs.tsv", policies and not words, words)


def grammar_block(heading):
    section = READING.split(f"\n## {heading}\n")[1].split("\n## ")[0]
    return re.search(r"^```text\n(.*?)^```$", section, re.M | re.S)[1]


def words_of_reading(counts, grammars):
    """Each word that docs/READING.md's grammars quote, and each function of its table, has a scope."""
    for heading, language in (("Policies", "cedar"), ("Schemas", "cedarschema")):
        for word in sorted(set(re.findall(r'"(\??[A-Za-z]+)"', grammar_block(heading)))):
            text = f" {word} < {{" if word == "Set" else f" {word} {{"
            counts.want(f"a scope of `{word}` in {language}", all(grammars[language].scopes(text)[1:1 + len(word)]), word)
    table = re.search(r"<!-- made: functions -->(.*?)<!-- end -->", READING, re.S)[1]
    rows = [line.split("|")[2:4] for line in table.splitlines() if "`" in line]
    makers = re.findall(r"`(\w+)\(", " ".join(row[0] for row in rows))
    methods = re.findall(r"`(\w+)\(", " ".join(row[1] for row in rows))
    operators = re.findall(r"`a?\.?(\w+)(?:\(b\))?`", re.search(r"^\| (`a\.contains\(b\)`.*?) \| the operator", READING, re.M)[1])
    counts.want("functions in docs/READING.md", makers and methods and len(operators) == 6, (makers, methods, operators))
    for text in [f"«{it}»(1)" for it in makers] + [f"a.«{it}»(1)" for it in methods + operators]:
        wanted_scope(counts, grammars["cedar"], re.sub("[«»]", "", text), text, "support.function.cedar")


def package(counts):
    """The extension's files are there and agree: languages, scopes, settings."""
    has = PACKAGE["contributes"]
    files = [PACKAGE["main"], *[it["configuration"] for it in has["languages"]], *[it["path"] for it in has["grammars"]]]
    counts.want("the files that package.json names", not (gone := [it for it in files if not (FOLDER / it).is_file()]), gone)
    languages = {it["id"]: it["extensions"] for it in has["languages"]}
    counts.want("the languages", languages == {"cedar": [".cedar"], "cedarschema": [".cedarschema"]}, languages)
    for it in has["grammars"]:
        rules = json.loads((FOLDER / it["path"]).read_text(encoding="utf8"))
        told = (rules["scopeName"], [f".{ending}" for ending in rules["fileTypes"]])
        counts.want(f"the grammar of {it['language']}", told == (it["scopeName"], languages.get(it["language"])), told)
    configuration = json.loads((FOLDER / "language-configuration.json").read_text(encoding="utf8"))
    counts.want("the mark of a comment", configuration["comments"] == {"lineComment": "//"}, configuration["comments"])
    settings = sorted(has["configuration"]["properties"])
    asked = sorted(f"cedar.{it}" for it in re.findall(r'settings\.get\("([\w.]+)"\)', (FOLDER / PACKAGE["main"]).read_text(encoding="utf8")))
    read = sorted(f"cedar.{it}" for it in ("server.path", *re.findall(r'said\.get\("(\w+)"\)', SERVER.read_text(encoding="utf8"))))
    counts.want("the settings that are declared and asked", settings == asked, (settings, asked))
    counts.want("the settings that the server reads", settings == read, (settings, read))
    readme = (FOLDER / "README.md").read_text(encoding="utf8")
    name = f"{PACKAGE['name']}-{PACKAGE['version']}.vsix"
    counts.want("the name of the package in the pages", name in readme and name in EDITORS, name)
    counts.want("the settings in the README", not (gone := [it for it in settings if f"`{it}`" not in readme]), gone)


def task(counts):
    """The pattern of the task in docs/EDITORS.md takes findings apart, in the form of docs/READING.md, and no other lines."""
    section = EDITORS.split("\n## Without a server\n")[1].split("\n## ")[0]
    pattern = json.loads(re.search(r"^```json\n(.*?)^```$", section, re.M | re.S)[1])["problemMatcher"]["pattern"]
    keys = ("file", "line", "column", "severity", "message")
    for severity in ("error", "warning", "fault"):
        found = re.search(pattern["regexp"], f"a b/c.cedar:4:8: {severity}: TEXT: 1:2; HINT")
        got = [found[pattern[key]] for key in keys] if found else None
        counts.want(f"the task takes a line of {severity}", got == ["a b/c.cedar", "4", "8", severity, "TEXT: 1:2; HINT"], got)
    for line in ("c.cedar:2:1: policy `a`: refused", "  4 | when { resource.isPubic };", "policies: 1, accepted: 0, refused: 1, warnings: 0, faults: 0"):
        counts.want(f"the task passes over {line}", not re.search(pattern["regexp"], line))


def main():
    counts = Counts()
    grammars = {it["language"]: Grammar(FOLDER / it["path"]) for it in PACKAGE["contributes"]["grammars"]}
    tables(counts, grammars)
    examples(counts, grammars)
    words_of_reading(counts, grammars)
    package(counts)
    task(counts)
    print(f"{counts.passed} passed, {counts.failed} failed")
    return 1 if counts.failed else 0


if __name__ == "__main__":
    sys.exit(main())
