#!/usr/bin/env python3
"""Random steps of an editor and of the disk, and behind each what a fresh server shows: editor_steps.py PROGRAM [STEPS [SEED]].

Two folders have schemas of several files, in Cedar's syntax and in JSON, and one of them a folder below it. Policies and schemas are
opened, changed, saved and closed; schema files are written, taken away, and replaced by folders, devices and locks; settings change.
Some steps are several of these, of which the messages are sent at once.
Behind each step the diagnostics that the editor was told last must be those of a server that starts then. Where a schema has a fault,
they must be those of its last texts without one, behind a note that says so. For editor_cases.py, or alone.
"""
import json
import os
import random
import shutil
import sys
import tempfile
from pathlib import Path

sys.path.insert(0, str(Path(__file__).resolve().parents[1]))
from gate.editor_client import Client, document, frame

STEPS, SEED = 300, 1
FAULTY = "the schema has a fault: policies are checked by the last one without"
NO_GOOD = "the schema has a fault: policies are read, and not checked"
VIEW = "action view appliesTo { principal: User, resource: User };\n"
# Texts of schema files, of which some need others, and some have a fault.
SCHEMAS = ("entity User { name: String };\n" + VIEW, "entity User { name: Long };\n" + VIEW, "entity User { nom: String };\n" + VIEW,
           "entity User { name: String, team: Team };\n" + VIEW, "entity Team { lead: User };\n", "entity Team;\n", "", "// nothing\n",
           "entity User { name: Strin };\n", "entity User {", "entity Team; entity User;\n")
JSONS = ('{"": {"entityTypes": {"User": {"shape": {"type": "Record", "attributes": {"name": {"type": "String"}}}}}, "actions": {"view": '
         '{"appliesTo": {"principalTypes": ["User"], "resourceTypes": ["User"]}}}}}', "{}", "{", '{"": {"entityTypes": {"User": {"memberOfTypes": ["Gone"]}}, "actions": {}}}')
POLICIES = ('permit(principal, action, resource) when { principal.name == "a" };\n', "permit(principal, action, resource);\n",
            "permit(principal is User, action, resource) when { principal.name == 1 };\n", '@id("x") forbid(principal is Team, action, resource);\n',
            'permit(principal, action == Action::"view", resource) when { principal has team && principal.team.lead.name == "b" };\n',
            "permit(principal, action, resource) when { principal.nom };\n", "permit(principal, action", "// é𝒳\n")
# Files that may be schemas, by their places below the room.
FILES = ("one/a.cedarschema", "one/b.cedarschema", "one/j.cedarschema.json", "one/deep/c.cedarschema", "two/a.cedarschema",
         "two/j.cedarschema.json", "two/k.cedarschema.json")
DOCUMENTS = ("one/p.cedar", "one/deep/q.cedar", "two/r.cedar", "two/low/s.cedar")
# What is no schema, at places where one might be.
NO_FILES = ("one/d.cedarschema", "two/.#a.cedarschema", "one/deep/e.cedarschema", "two/z.cedarschema.json")
# Where the settings may look for the schema of all policies.
NAMED = (None, None, "two/a.cedarschema", ["one/a.cedarschema", "two/a.cedarschema"], "one", "one/none.cedarschema")


def is_json(path):
    return path.endswith(".json")


class Told(Client):
    """A server, and the diagnostics that it told last of each document."""

    def __init__(self, program):
        super().__init__(program)
        self.shown, self.held = {}, None

    def send(self, message):
        if self.held is None:
            super().send(message)
        else:
            self.held += frame(message)

    def at_once(self, sends):
        """What a function answers, whose messages are sent at once."""
        self.held = b""
        found = sends()
        sent, self.held = self.held, None
        self.raw(sent)
        return found

    def read(self, *given):
        message = super().read(*given)
        if message.get("method") == "textDocument/publishDiagnostics":
            self.shown[message["params"]["uri"]] = message["params"]["diagnostics"]
        return message

    def settled(self):
        """What was told once all that was sent is done."""
        self.ask("x/settled")
        return self.shown


class Room:
    """The disk, what is open, the settings, and for each schema in use its last texts without a fault."""

    def __init__(self, folder, program, chance):
        self.folder, self.program, self.chance = folder / "room", program, chance
        self.other = folder / "other"
        for name in ("one/deep", "two/low"):
            (self.folder / name).mkdir(parents=True)
        self.other.mkdir()
        self.open, self.settings, self.good, self.known = {}, {}, {}, {}

    def uri(self, name):
        return f"file://{self.folder}/{name}"

    def on_disk(self, name):
        path = self.folder / name
        return path.read_text(encoding="utf8") if path.is_file() else None

    def text(self, name):
        return self.open[name] if name in self.open else self.on_disk(name)

    def home_in(self, folder):
        """The schema files of a folder that are read as one schema."""
        names = sorted(it for it in FILES if str(Path(it).parent) == folder and self.text(it) is not None)
        return [it for it in names if not is_json(it)] or names[:1]

    def home(self, name):
        """The key of the schema of a document, and its files."""
        if named := self.settings.get("schema"):
            listed = named if isinstance(named, list) else [named]
            files = [file for it in listed for file in (self.home_in(it) if it == "one" else [it]) or [it]]
            return ("named", *files), files
        folder = Path(name).parent
        while str(folder) != ".":
            if files := self.home_in(str(folder)):
                return (files[0] if is_json(files[0]) else str(folder),), files
            folder = folder.parent
        return None, []

    def options(self):
        named = self.settings.get("schema")
        paths = [f"{self.folder}/{it}" for it in named] if isinstance(named, list) else named and f"{self.folder}/{named}"
        return {key: it for key, it in {**self.settings, "schema": paths}.items() if it is not None}

    def told_by(self, texts, policies):
        """What a server tells of policies by a schema of these texts alone, in a folder of its own."""
        key = json.dumps([texts, policies, self.settings])
        if key not in self.known:
            shutil.rmtree(self.other)
            self.other.mkdir()
            for name, text in texts:
                (self.other / name.replace("/", "-")).write_text(text, encoding="utf8")
            uri = f"file://{self.other}/p.cedar"
            with Told(self.program) as client:
                client.start({key: it for key, it in self.settings.items() if key != "schema"})
                client.tell("textDocument/didOpen", document(uri, policies))
                self.known[key] = json.dumps(client.settled()[uri])
        return self.known[key]

    def remember(self):
        """Keeps the last texts without a fault of each schema in use."""
        used = {}
        for name in self.open:
            key, files = self.home(name) if name in DOCUMENTS else self.home_of_file(name)
            if key is not None and all(self.text(it) is not None for it in files):
                used[key] = [(it, self.text(it)) for it in files]
        self.good = {key: it for key, it in self.good.items() if key in used}
        for key, texts in used.items():
            if NO_GOOD not in self.told_by(texts, "// nothing"):
                self.good[key] = texts

    def home_of_file(self, name):
        """The key of the schema of an open schema file, and its files."""
        if self.settings.get("schema") and name in self.home(name)[1]:
            return self.home(name)
        return ((name,), [name]) if is_json(name) else ((str(Path(name).parent),), self.home_in(str(Path(name).parent)))

    def wanted(self, fresh):
        """The diagnostics of each open document."""
        found = {}
        for name, text in self.open.items():
            uri = self.uri(name)
            found[name] = fresh[uri]
            if name not in DOCUMENTS:
                continue
            key, files = self.home(name)
            texts = [(it, self.text(it)) for it in files]
            if key is None or any(text is None for _, text in texts) or NO_GOOD not in self.told_by(texts, "// nothing"):
                continue
            last = self.good.get(key)
            told = json.loads(self.told_by(last or texts, text).replace(f"file://{self.other}/p.cedar", uri))
            begin = {"line": 0, "character": 0}
            note = {"range": {"start": begin, "end": begin}, "severity": 3, "source": "cedar", "code": "file", "message": FAULTY}
            found[name] = [note, *told] if last else told
        return found


def fresh(room):
    """What a server tells that starts now."""
    with Told(room.program) as client:
        client.start(room.options())
        for name in sorted(room.open, key=lambda it: (it in DOCUMENTS, room.chance.random())):
            client.tell("textDocument/didOpen", document(room.uri(name), room.open[name]))
        return dict(client.settled())


def edited(room, client, name, version):
    """Changes an open document, by a whole text or by the range of some letters."""
    chance, old = room.chance, room.open[name]
    if name in DOCUMENTS and old and chance.random() < 0.7:
        start, size = chance.randrange(len(old)), chance.randrange(4)
        inserted = chance.choice(("", "x", "a", ".", ";", " ", "\n", "name", POLICIES[0]))

        def at(byte):
            before = old[:byte].split("\n")
            return {"line": len(before) - 1, "character": len(before[-1].encode("utf-16-le")) // 2}

        end = min(len(old), start + size)
        change = {"range": {"start": at(start), "end": at(end)}, "text": inserted}
        new = old[:start] + inserted + old[end:]
    else:
        new = text_for(chance, name)
        change = {"text": new}
    room.open[name] = new
    client.tell("textDocument/didChange", {"textDocument": {"uri": room.uri(name), "version": version}, "contentChanges": [change]})


def text_for(chance, name):
    if name in DOCUMENTS:
        return "".join(chance.choice(POLICIES) for _ in range(chance.randrange(4)))
    return chance.choice(JSONS if is_json(name) else SCHEMAS)


def on_disk(room, client):
    """Changes a file of the disk, which the editor tells."""
    chance = room.chance
    name = chance.choice(FILES + NO_FILES)
    path = room.folder / name
    kind = 1
    if path.is_dir() and not path.is_symlink():
        path.rmdir()
        kind = 3
    elif path.is_symlink() or name in NO_FILES and path.exists() or path.exists() and chance.random() < 0.3:
        path.unlink()
        kind = 3
    elif name in NO_FILES and chance.random() < 0.5:
        path.mkdir()
    elif name in NO_FILES:
        path.symlink_to(chance.choice(("/dev/zero", "user@host.12:34")))
    else:
        kind = 2 if path.exists() else 1
        path.write_text(text_for(chance, name), encoding="utf8")
    client.tell("workspace/didChangeWatchedFiles", {"changes": [{"uri": room.uri(name), "type": kind}]})


def step(room, client, version):
    """One step, and its name."""
    chance, opened = room.chance, sorted(room.open)
    kind = chance.choice(("open", "close", "edit", "edit", "edit", "disk", "disk", "save", "settings"))
    if kind == "open" or not opened:
        name = chance.choice([it for it in DOCUMENTS + FILES if it not in room.open] or [None])
        if name is not None:
            disk = room.on_disk(name)
            room.open[name] = disk if disk is not None and chance.random() < 0.5 else text_for(chance, name)
            client.tell("textDocument/didOpen", document(room.uri(name), room.open[name], version))
    elif kind == "disk":
        on_disk(room, client)
    elif kind == "settings" and chance.random() < 0.3:
        room.settings = {"level": chance.choice((None, None, 0, 1)), "mode": chance.choice((None, "strict", "permissive")), "schema": chance.choice(NAMED)}
        client.tell("workspace/didChangeConfiguration", {"settings": {"cedar": room.options()}})
    elif kind != "settings":
        name = chance.choice(opened)
        about = {"textDocument": {"uri": room.uri(name)}}
        if kind == "edit":
            edited(room, client, name, version)
        elif kind == "save":
            if name not in DOCUMENTS and not os.path.lexists(room.folder / name):
                (room.folder / name).write_text(room.open[name], encoding="utf8")
            client.tell("textDocument/didSave", about)
        else:
            del room.open[name]
            client.tell("textDocument/didClose", about)
    return kind


def steps(counts, program, folder, number=STEPS, seed=SEED):
    """So many random steps."""
    room = Room(folder / f"steps-{seed}", program, random.Random(seed))
    different = 0
    with Told(program) as client:
        client.start()
        for version in range(2, number + 2):
            number_at_once = room.chance.choice((1, 1, 1, 2, 5))
            kind = client.at_once(lambda: [step(room, client, version) for _ in range(number_at_once)])
            shown = client.settled()
            room.remember()
            wanted = room.wanted(fresh(room))
            told = {name: shown.get(room.uri(name)) for name in room.open}
            if told != wanted:
                different += 1
                bad = next(name for name in wanted if told[name] != wanted[name])
                counts.want(f"step {version - 1} of seed {seed}, {kind}: {bad}", False, f"{told[bad]}, and not {wanted[bad]}")
                if different == 5:
                    break
        counts.want("closed documents show nothing", all(not shown[uri] for uri in shown if uri not in map(room.uri, room.open)), shown)
        counts.want(f"{number} random steps", different == 0, different)


def main(words):
    from editor_cases import Counts
    counts = Counts()
    number, seed = (int(it) for it in (*words[1:], STEPS, SEED)[:2]) if len(words) < 3 else map(int, words[1:3])
    if len(words) == 2:
        number, seed = int(words[1]), SEED
    with tempfile.TemporaryDirectory(prefix="steps-") as held:
        steps(counts, Path(words[0]).resolve(), Path(held).resolve(), number, seed)
    print(f"{counts.passed} passed, {counts.failed} failed")
    return 1 if counts.failed else 0


if __name__ == "__main__":
    sys.exit(main(sys.argv[1:]))
