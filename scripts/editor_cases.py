#!/usr/bin/env python3
"""Tries the language server as editors use it: scripts/editor_cases.py [--record] [PROGRAM].

PROGRAM is cedar_language_server, by default as it is built without a proof. A client sends messages in each phase, frames that
no editor sends, texts with characters of one to four bytes, edits of ranges, changes that wait, settings, schemas of several files,
10,000 changes, and random steps of an editor and of the disk (gate/editor_steps.py). Each editor that the machine has is
set up by the blocks of docs/EDITORS.md (gate/editors.py), and does what a person does, by a session of examples/editors. What
Neovim sees must be examples/editors/neovim.txt, which --record writes, and docs/EDITORS.md shows. An editor that is missing is skipped, which is said.
The last line counts what went well and what did not.
"""
import os
import re
import shutil
import subprocess
import sys
import tempfile
from pathlib import Path

import unproved
from gate import editor_steps, editors
from gate.editor_client import Client, NoAnswer, document, frame, note, position, request

SECONDS = 600
# Codes of JSON-RPC and of the protocol.
NO_JSON, NO_REQUEST, NO_METHOD, BAD_PARAMETERS, NOT_INITIALIZED = -32700, -32600, -32601, -32602, -32002
SCHEMA = "entity User = { name: String };\naction view appliesTo { principal: User, resource: User };\n"
ODD = b'{"jsonrpc":"2.0","id":50,"method":"x"}'
ODD_FRAME = b"Content-Length: %d\r\n\r\n" % len(ODD) + ODD
# Texts that are no message: no JSON, and JSON that is no request.
NO_MESSAGES = (b"", b"{", b"nul", b"\xff\xfe", b"[" * 100000, b'"\\ud800"', b"\xef\xbb\xbf{}", b"{} {}", b"01", b"1e", b"-", b"\x00")
# Heads of which each says no length.
NO_LENGTHS = (b"\r\n\r\n", b"Content-Type: x\r\n\r\n", b"Content-Length: -5\r\n\r\n", b"Content-Length: 99999999999999999999999\r\n\r\n",
              b"Content-Length: 12x\r\n\r\n", b"Content-Length: \r\n\r\n")
# Frames of one message, written in other ways.
SAME = {
    "lower case, no blank, another line": b"content-LENGTH:%d\r\nX-Y: z\r\n\r\n" % len(ODD) + ODD,
    "two lengths, of which the last counts": b"Content-Length: 3\r\nContent-Length: %d\r\n\r\n" % len(ODD) + ODD,
    "a line of 8,000 bytes": b"X: " + b"y" * 8000 + b"\r\nContent-Length: %d\r\n\r\n" % len(ODD) + ODD,
}
LETTERS = ("", "é", "𝒳", "👩‍👩‍👧", "\t", "日本", "\u2028", "a\u0301")


class Counts:
    def __init__(self):
        self.passed = self.failed = 0

    def want(self, name, is_well, got=None):
        self.passed += bool(is_well)
        self.failed += not is_well
        if not is_well:
            print(f"{name}: {str(got)[:600]}", flush=True)


def code(answer):
    return answer.get("error", {}).get("code")


def phases(counts, program):
    """Which requests are answered with what, before `initialize`, while serving, and behind `shutdown`."""
    with Client(program) as client:
        hover = position("file:///no", 0, 0)
        client.tell("textDocument/didOpen", document("file:///x.cedar", "permit"))
        for method in ("textDocument/hover", "x/y", "shutdown"):
            counts.want(f"{method} before initialize", code(answer := client.ask(method, hover)) == NOT_INITIALIZED, answer)
        answer = client.ask("initialize", {"processId": None, "x": 1.5, "y": -0.5e-3, "capabilities": {}})
        counts.want("initialize with null and fractions", answer["result"]["capabilities"]["hoverProvider"] is True, answer)
        counts.want("initialize twice", code(answer := client.ask("initialize", {})) == NO_REQUEST, answer)
        counts.want("a method that is not there", code(answer := client.ask("textDocument/rename", {})) == NO_METHOD, answer)
        for told in (note("$/setTrace", {"value": "off"}), note("no/such"), note("textDocument/didChange", {}), note("textDocument/didChange", [1])):
            client.send(told)
        counts.want("hover without a document", code(answer := client.ask("textDocument/hover", {})) == BAD_PARAMETERS, answer)
        counts.want("hover of a document that is not open", code(answer := client.ask("textDocument/hover", hover)) == BAD_PARAMETERS, answer)
        client.send(request('abc"\\\n', "textDocument/hover", {}))
        counts.want("an id that is a text", (answer := client.read())["id"] == 'abc"\\\n' and code(answer) == BAD_PARAMETERS, answer)
        for odd in (1.5, None, [1], {"a": 1}, True):
            client.send(request(odd, "textDocument/hover", {}))
            counts.want(f"an id that is {odd!r}", (answer := client.read())["id"] is None and code(answer) == NO_REQUEST, answer)
        client.send({"jsonrpc": "2.0", "id": 7, "result": None})
        client.send({"jsonrpc": "2.0", "id": 8, "error": {"code": 1, "message": "no"}})
        counts.want("answers are passed over", code(answer := client.ask("x")) == NO_METHOD, answer)
        client.send({"jsonrpc": "2.0", "id": 9, "method": 5})
        counts.want("a method that is a number", code(answer := client.read()) == NO_REQUEST, answer)
        client.send([request(10, "x")])
        counts.want("a list of requests", code(answer := client.read()) == NO_REQUEST, answer)
        for text in NO_MESSAGES:
            client.send(text)
            counts.want(f"a message {text[:12]!r}", (answer := client.read())["id"] is None and code(answer) in (NO_JSON, NO_REQUEST), answer)
        counts.want("shutdown", (answer := client.ask("shutdown")).get("result", 1) is None, answer)
        for method in ("shutdown", "textDocument/hover"):
            counts.want(f"{method} behind shutdown", code(answer := client.ask(method, hover)) == NO_REQUEST, answer)
        client.tell("exit")
        counts.want("exit behind shutdown", (status := client.process.wait(SECONDS)) == 0, status)


def ends(counts, program):
    """The status of a server whose input ends, and of one that ends by `exit` alone."""
    for name, sent in (("exit alone", b'Content-Length: 33\r\n\r\n{"jsonrpc":"2.0","method":"exit"}'), ("no input", b""), ("half a message", b"Content-Length: 100\r\n\r\n{"), ("half a head", b"Content-")):
        done = subprocess.run([str(program)], input=sent, capture_output=True, timeout=SECONDS)
        counts.want(f"the status behind {name}", done.returncode == 1, done)
    with Client(program) as client:
        client.start()
        client.process.stdout.close()
        client.send(request(1, "x"))
        counts.want("nobody reads the answers", (status := client.process.wait(SECONDS)) != 0, status)


def frames(counts, program):
    """Frames that no editor sends, and those that come in pieces."""
    with Client(program) as client:
        client.start()
        for head in NO_LENGTHS:
            client.raw(head)
            counts.want(f"a head {head!r}", code(answer := client.read()) == NO_REQUEST, answer)
        for name, sent in SAME.items():
            client.raw(sent)
            counts.want(name, (answer := client.read())["id"] == 50, answer)
        for byte in ODD_FRAME:
            client.raw(bytes([byte]))
        counts.want("byte by byte", (answer := client.read())["id"] == 50, answer)
        client.raw(ODD_FRAME * 3)
        counts.want("three at once", [client.read()["id"] for _ in range(3)] == [50] * 3)
        client.send(b'{"jsonrpc":"2.0","id":51,"method":"' + b"x" * (60 << 20) + b'"}')
        counts.want("a method of 60 MiB", code(answer := client.read()) == NO_METHOD, answer)
        client.raw(b"Content-Length: %d\r\n\r\n" % (70 << 20))
        for _ in range(70):
            client.raw(b"z" * (1 << 20))
        counts.want("a message of 70 MiB is passed over", code(answer := client.read()) == NO_REQUEST, answer)
        counts.want("the message behind it is answered", code(answer := client.ask("x")) == NO_METHOD, answer)
        client.raw(b"X: " + b"y" * 100000 + b"\r\n\r\n")
        counts.want("a head of 100,000 bytes", code(answer := client.read()) == NO_REQUEST, answer)


def part(text, range_):
    """The part of a text that a range means, by units of UTF-16; None where it is of several lines."""
    lines = re.split("\r\n|\n|\r", text)
    start, end = range_["start"], range_["end"]
    if start["line"] != end["line"]:
        return None
    return lines[start["line"]].encode("utf-16-le")[2 * start["character"]:2 * end["character"]].decode("utf-16-le")


def positions(counts, program, room):
    """A diagnostic and a hover stand at their letters, whatever stands before them, and after an edit of a range."""
    (room / "a.cedarschema").write_text(SCHEMA, encoding="utf8")
    with Client(program) as client:
        client.start()
        for number, (end, letters) in enumerate((end, letters) for end in ("\n", "\r\n", "\r") for letters in LETTERS):
            uri = f"file://{room}/p%20{number}.cedar"
            for before in (f"// {letters}{end}", f'@note("{letters}") ', ""):
                text = f'{before}permit(principal, action, resource){end}when {{ "{letters}" == "{letters}" && principal.nam == "{letters}" }};'
                found = client.open(uri, text)
                parts = [part(text, it["range"]) for it in found]
                counts.want(f"diagnostics in {text!r}", parts == ["principal.nam"], parts)
                start = found[0]["range"]["start"]
                hover = client.ask("textDocument/hover", position(uri, start["line"], start["character"] + 11))["result"]
                counts.want(f"hover in {text!r}", hover and part(text, hover["range"]) == "principal.nam", hover)
                # the letter that is missing, by a range that is empty
                place = {"line": start["line"], "character": start["character"] + 13}
                edit = {"textDocument": {"uri": uri, "version": 2}, "contentChanges": [{"range": {"start": place, "end": place}, "text": "e"}]}
                client.tell("textDocument/didChange", edit)
                counts.want(f"an edit of {text!r}", (found := client.published(uri)) == [], found)
        client.open(uri, "permit(principal, action, resource) when { principal.name == \"𝒳\" };")
        for line, character in ((10**12, 0), (0, 10**15), (0, 63), (-1, 0), (1.5, 0), (None, None)):
            for method in ("hover", "completion", "definition"):
                answer = client.ask(f"textDocument/{method}", position(uri, line, character))
                counts.want(f"{method} at {line}:{character}", "result" in answer or code(answer) == BAD_PARAMETERS, answer)
        client.open("untitled:Untitled-1", SCHEMA)
        counts.want("the end", (status := client.end()) == 0, status)


def written(count):
    """A text of ten policies of which one is half written."""
    whole = "permit(principal, action, resource) when { principal has vip && principal.vip && resource.age > 12 };\n"
    cut = 44 + count % (len(whole) - 44)
    return whole * 4 + whole[:cut] + "\n" + whole * 5


def changes(counts, program, room):
    """10,000 changes of a document, by 300 actions: one answer each, and the memory of the server stays flat."""
    actions = "".join(f"action a{it} appliesTo {{ principal: User, resource: User }};\n" for it in range(300))
    (room / "many.cedarschema").write_text("entity User { name: String, age: Long, vip?: Bool };\n" + actions)
    uri = f"file://{room}/many.cedar"
    with Client(program) as client:
        client.start({"schema": f"file://{room}/many.cedarschema"})
        client.open(uri, written(0))
        held = {}
        for number in range(1, 10001):
            found = client.change(uri, written(number), number)
            if number in (1000, 10000):
                held[number] = client.memory()
            if not found and (44 + number % 58) < 100:
                counts.want(f"the fault of change {number}", False, found)
        counts.want("memory behind 10,000 changes", held[10000] < 1.05 * held[1000], held)
        counts.want("the end behind 10,000 changes", (status := client.end()) == 0, status)


def typed(uri, character, letter, version):
    """The change that writes a letter into the first line."""
    place = {"line": 0, "character": character}
    return note("textDocument/didChange", {"textDocument": {"uri": uri, "version": version}, "contentChanges": [{"range": {"start": place, "end": place}, "text": letter}]})


def together(counts, program, room):
    """Changes that come at once are taken together: each document is told once, and a question behind them is answered by what they make."""
    folder = room / "together"
    folder.mkdir()
    (folder / "a.cedarschema").write_text(SCHEMA)
    schema, uri, other = (f"file://{folder}/{it}" for it in ("a.cedarschema", "p.cedar", "q.cedar"))
    text = "permit(principal, action, resource) when { principal. == principal.nameless };"
    with Client(program) as client:
        client.start()
        counts.want("a document before its changes", len(client.open(uri, text)) == 1)
        client.open(schema, SCHEMA)
        sent = [typed(uri, 53 + at, letter, at + 2) for at, letter in enumerate("nameless")]
        sent += [typed(schema, 20 + at, letter, at + 2) for at, letter in enumerate("less")]
        sent += [note("textDocument/didOpen", document(other, text)), note("textDocument/didClose", {"textDocument": {"uri": other}})]
        client.raw(b"".join(map(frame, [*sent, request(99, "textDocument/hover", position(uri, 0, 60))])))
        told = {}
        while (message := client.read()).get("id") != 99:
            told.setdefault(message["params"]["uri"], []).append((message["params"].get("version"), message["params"]["diagnostics"]))
        counts.want("changes that come at once", told == {uri: [(9, [])], schema: [(5, [])], other: [(None, [])]}, told)
        hover = message["result"] or {}
        counts.want("a question behind them", "principal.nameless: String" in str(hover.get("contents")), hover)
        counts.want("the end behind changes at once", (status := client.end()) == 0, status)


def command_line(counts, program, room):
    """A copy under any name on the PATH starts, and answers its words."""
    home = room / "bin"
    home.mkdir()
    shutil.copy(program, home / "of-another-name")
    env = {**os.environ, "PATH": f"{home}:{os.environ['PATH']}"}

    def ran(*given):
        return subprocess.run(["of-another-name", *given], env=env, stdin=subprocess.DEVNULL, capture_output=True, text=True, timeout=SECONDS)

    done = ran("--version")
    counts.want("--version", done.returncode == 0 and re.fullmatch(r"cedar-language-server \d+\.\d+\.\d+, Cedar 4\.14\.1\n", done.stdout), done)
    done = ran("--help")
    counts.want("--help", done.returncode == 0 and done.stdout.startswith("usage: cedar-language-server [--stdio]\n"), done)
    done = ran("--stdio", "x")
    counts.want("an unknown word", done.returncode == 2 and not done.stdout and "unknown word x" in done.stderr, done)
    counts.want("the end of an input without a message", (done := ran("--stdio")).returncode == 1 and not done.stdout, done)
    with Client("of-another-name", env) as client:
        answer = client.start()
        counts.want("a server of another name", answer["result"]["serverInfo"]["name"] == "cedar-language-server", answer)


def messages_of(client):
    """The messages for the user, and the requests, that were sent before the answer to the next request."""
    client.number += 1
    client.send(request(client.number, "x/settled"))
    found = []
    while (message := client.read()).get("id") != client.number:
        found += [message["params"].get("message", message["method"])] if "method" in message and "Diagnostics" not in message["method"] else []
    return found


# Settings that cannot be read, and the beginning of the message about each.
BAD_SETTINGS = {
    "mode": (("strickt", 1, ["strict"]), "the setting `mode` must be"),
    "level": (("1", -1, 1.5, 4294967296, [1]), "the setting `level` must be"),
    "schema": ((1, {"a": 1}, [1], ["/x", None], "a.cedarschema", "untitled:x", "http://x/y"), "the setting `schema` must be"),
}


def settings(counts, program, room):
    """Settings that cannot be read are said, at the beginning and when they change; those that can be read count at once."""
    folder = room / "settings"
    folder.mkdir()
    (folder / "a.cedarschema").write_text(SCHEMA)
    uri, text = f"file://{folder}/p.cedar", "permit(principal, action, resource) when { principal.nam == principal.name };"
    for key, (values, message) in BAD_SETTINGS.items():
        for value in values:
            with Client(program) as client:
                client.start({key: value})
                counts.want(f"{key} {value!r} at the beginning", len(said := messages_of(client)) == 1 and said[0].startswith(message), said)
                counts.want(f"a file is checked with {key} {value!r}", len(found := client.open(uri, text)) == 1, found)
                client.tell("workspace/didChangeConfiguration", {"settings": {"cedar": {key: value}}})
                counts.want(f"{key} {value!r} later", len(said := messages_of(client)) == 1 and said[0].startswith(message), said)
    with Client(program) as client:
        client.start([1])
        counts.want("settings that are no object", (said := messages_of(client)) == ["the settings must be an object"], said)
    with Client(program) as client:
        client.start({"schema": str(folder / "none.cedarschema"), "level": None})
        said = messages_of(client)
        counts.want("a schema that is not there", said == [f"the schema of the settings cannot be read: {folder}/none.cedarschema"], said)
        client.tell("workspace/didChangeConfiguration", {"settings": {}})
        counts.want("it is not there later", messages_of(client) == said)
        shown = [it["message"] for it in client.open(uri, text.replace(".nam ", ".name "))]
        counts.want("policies by a schema that is not there", shown == ["a file of the schema cannot be read: policies are read, and not checked"], shown)
        for changed, size in (({"schema": None}, 0), ({"schema": str(folder)}, 0), ({"schema": [f"file://{folder}/a.cedarschema"], "level": 0}, 2), ({"schema": ""}, 0)):
            client.tell("workspace/didChangeConfiguration", {"settings": {"cedar": changed}})
            counts.want(f"the settings {changed}", len(found := client.published(uri)) == size, found)
    with Client(program) as client:
        client.ask("initialize", {"rootUri": f"file://{folder}", "capabilities": {"workspace": {"didChangeWatchedFiles": {"dynamicRegistration": True}}},
                                  "initializationOptions": {"schema": "a.cedarschema"}})
        client.tell("initialized", {})
        counts.want("schemas are watched", (said := messages_of(client)) == ["client/registerCapability"], said)
        counts.want("a schema below the open folder", len(found := client.open("untitled:1", text)) == 1, found)


def files(counts, program, room):
    """All schemas of a folder are one schema; what cannot be one is none, and costs no memory."""
    folder = room / "files"
    (folder / "c.cedarschema").mkdir(parents=True)
    (folder / "a.cedarschema").write_text("entity User { team: Team };\naction view appliesTo { principal: User, resource: User };\n")
    (folder / "b.cedarschema").write_text("entity Team { name: String };\n")
    (folder / "d.cedarschema").symlink_to("/dev/zero")
    (folder / ".#a.cedarschema").symlink_to("user@host.12:34")
    os.mkfifo(folder / "e.cedarschema")
    with open(folder / "f.cedarschema", "wb") as large:
        large.truncate((64 << 20) + 1)
    uri = f"file://{folder}/p.cedar"
    with Client(program) as client:
        client.start()
        found = client.open(uri, "permit(principal, action, resource) when { principal.team.name == principal.team.nam };")
        counts.want("two files of one schema", len(found) == 1 and "`nam` does not exist on `Team`" in found[0]["message"], found)
        counts.want("files that are no schemas cost no memory", (held := client.memory()) < 100_000, held)
        places = [client.ask("textDocument/definition", position(uri, 0, byte))["result"] for byte in (54, 59)]
        counts.want("definitions in two files", [[Path(it["uri"]).name for it in each] for each in places] == [["a.cedarschema"], ["b.cedarschema"]], places)
        found = client.open(f"file://{folder}/b.cedarschema", "entity Team { nam: Strin };\n")
        counts.want("a fault stands in its file", [it["range"]["start"]["character"] for it in found] == [19], found)
        found = client.open(f"file://{folder}/a.cedarschema", (folder / "a.cedarschema").read_text())
        counts.want("and not in the other one", found == [], found)
        counts.want("the end", (status := client.end()) == 0, status)


def main(words):
    is_recorded = words[:1] == ["--record"]
    programs = words[is_recorded:]
    program = Path(programs[0]).resolve() if programs else unproved.program("cedar_language_server")
    counts = Counts()
    with tempfile.TemporaryDirectory(prefix="editors-") as held:
        room = Path(held).resolve()
        of_server = ((phases,), (ends,), (frames,), (command_line, room), (settings, room), (files, room), (editor_steps.steps, room), (positions, room), (together, room),
                     (changes, room), (editors.neovim, room, is_recorded), (editors.emacs, room))
        parts = [(each, program, *more) for each, *more in of_server] + [(editors.vim, room), (editors.vscode,)]
        for each, *given in parts:
            try:
                each(counts, *given)
            except editors.Missing as tool:
                print(f"{each.__name__}: skipped, as the machine has no {tool}", flush=True)
            except (OSError, ValueError, LookupError, TypeError, subprocess.SubprocessError, NoAnswer) as error:
                counts.want(each.__name__, False, repr(error))
    print(f"{counts.passed} passed, {counts.failed} failed")
    return 1 if counts.failed or not counts.passed else 0


if __name__ == "__main__":
    try:
        sys.exit(main(sys.argv[1:]))
    except (unproved.KitDoesNotFit, unproved.DoesNotCompile) as error:
        print(f"{error}\n0 passed, 1 failed")
        sys.exit(1)
