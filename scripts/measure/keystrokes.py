#!/usr/bin/env python3
"""What the language server takes while somebody writes: scripts/measure/keystrokes.py [PROGRAM].

PROGRAM is cedar_language_server, by default as it is built without a proof. Instructions are counted by valgrind over whole
sessions on files, by a schema of 300 actions that share their types. A session opens a document of 10 or of 1,000 policies; the
figure of a keystroke is that of one more change, which writes one character more into the condition of a policy in the middle,
about one action or about all. The editor sends each change as a range or as the whole text. Hover, completion and definition are
asked once more each. Large changes are measured too: a whole text in which each policy is another, a notification of many ranges, and
a letter among policies that all have a fault and stand on one line. Behind each notification stands a question, because changes that
wait are taken together; the seconds of a hover are measured that stands behind many letters. The memory of 10,000 changes is held by
scripts/editor_cases.py. It needs valgrind, and is no part of the gate.
"""
import subprocess
import sys
import time
from functools import lru_cache

from harness import FIGURE, Row, main, valgrind
from gate.editor_client import Client, document, frame, note, position, request

ACTIONS = 300
TAIL = " && resource.size > 123456789012345"
# Changes of a session, of which the figure is one.
CHANGES = 12
# Letters that wait before a hover.
LETTERS = 20
SCHEMA = """entity Group;
entity User in [Group] { name: String, age: Long, vip?: Bool, team: Group };
entity Doc { owner: User, isPublic: Bool, size: Long, label?: String };
""" + "".join(f"action act{it} appliesTo {{ principal: User, resource: Doc, context: {{ mfa: Bool, ip?: ipaddr }} }};\n" for it in range(ACTIONS))


def policy(number, tail=""):
    return (f'@id("p{number}")\npermit(principal, action == Action::"act{number % ACTIONS}", resource)\n'
            f"when {{ principal == resource.owner || (resource.isPublic && principal.age > {number % 90}) }}\n"
            f"unless {{ context.mfa && principal has vip && principal.vip && resource.size > 10{tail} }};\n")


def wide(number, tail=""):
    """A policy about all actions, in as many lines."""
    return f'@id("p{number}")\npermit(principal, action, resource)\nwhen {{ principal.age > 10{tail} }};\n\n'


def text(policies, middle, tail=""):
    """A document of so many policies, of which the one in the middle is written by a function."""
    return "".join((middle if it == policies // 2 else policy)(it, tail if it == policies // 2 else "") for it in range(policies))


def session(bench, policies, middle, changes=0, by_ranges=True, asked=()):
    """The instructions of a session."""
    bench.write("s.cedarschema", SCHEMA)
    uri = f"file://{bench.room}/p.cedar"
    whole = text(policies, middle)
    first = 4 * (policies // 2)
    line, test = next((at, it) for at, it in enumerate(whole.splitlines()[first:], first) if "> 10" in it)
    start = test.index("> 10") + 4
    sent = [request(1, "initialize", {"capabilities": {}}), note("initialized", {}), note("textDocument/didOpen", document(uri, whole))]
    for count in range(changes):
        place = {"line": line, "character": start + count}
        edit = {"range": {"start": place, "end": place}, "text": TAIL[count]} if by_ranges else {"text": text(policies, middle, TAIL[: count + 1])}
        sent.append(note("textDocument/didChange", {"textDocument": {"uri": uri, "version": count + 2}, "contentChanges": [edit]}))
    sent += [request(9, f"textDocument/{method}", position(uri, first + 2, at)) for method, at in asked]
    return instructions(bench, sent)


def instructions(bench, sent):
    """The instructions of a session in which these messages are sent, a question behind each notification, and then those that end it."""
    settled = [it for message in sent for it in ([message] if "id" in message else [message, request(8, "x/settled")])]
    given = b"".join(map(frame, [*settled, request(10, "shutdown"), note("exit")]))
    below = valgrind("cachegrind", "--cache-sim=no", "--cachegrind-out-file=/dev/null")
    done = subprocess.run([*below, bench.program], cwd=bench.room, input=given, capture_output=True)
    if done.returncode:
        sys.exit(f"{bench.program} ended with status {done.returncode}: {done.stderr[-300:]}")
    return int(FIGURE.search(done.stderr.decode())[1].replace(",", ""))


@lru_cache(None)
def opened(bench, policies, middle):
    return session(bench, policies, middle)


def millions(count):
    return round(count / 1e6, 2)


def keystroke(middle, by_ranges):
    def figure(bench, policies):
        return millions((session(bench, policies, middle, CHANGES, by_ranges) - opened(bench, policies, middle)) / CHANGES)
    return figure


def question(method, at):
    """The figure of a question at a character of the third line of the policy in the middle, at `resource.owner`."""
    def figure(bench, policies):
        return millions(session(bench, policies, policy, asked=[(method, at)]) - opened(bench, policies, policy))
    return figure


BEGUN = [request(1, "initialize", {"capabilities": {}}), note("initialized", {})]


def edited(uri, edits):
    return note("textDocument/didChange", {"textDocument": {"uri": uri, "version": 2}, "contentChanges": edits})


def inserted(line, character, letters):
    place = {"line": line, "character": character}
    return {"range": {"start": place, "end": place}, "text": letters}


def large(text_of, edits_of):
    """The figure of a change of a document, by the number of its policies."""
    def figure(bench, size):
        bench.write("s.cedarschema", SCHEMA)
        uri = f"file://{bench.room}/p.cedar"
        begun = [*BEGUN, note("textDocument/didOpen", document(uri, text_of(size)))]
        return millions(instructions(bench, [*begun, edited(uri, edits_of(size))]) - instructions(bench, begun))
    return figure


def changed_text(size):
    """Another text of so many policies, of which none is as before."""
    return [{"text": text(size, policy).replace("> 10", "> 11")}]


def ranges(size):
    """An edit in each policy, in its fourth line."""
    lines = text(size, policy).splitlines()
    return [inserted(at, lines[at].index("> 10") + 4, "1") for at in range(3, len(lines), 4)]


def faulty(size):
    """So many policies with a fault, on one line."""
    return "permit(principal, action, resource) when { principal. }; " * size


def letter(size):
    return [inserted(0, size // 2 * len(faulty(1)) + 20, "x")]


def hover_behind(name, before, letter):
    """The seconds until a hover is answered that comes with twenty letters before it, which are written into a file behind a text."""
    def figure(bench, size):
        texts = {"s.cedarschema": SCHEMA, "p.cedar": "".join(map(wide, range(size)))}
        bench.write("s.cedarschema", SCHEMA)
        uris = {it: f"file://{bench.room}/{it}" for it in texts}
        line, own = next((at, it) for at, it in enumerate(texts[name].splitlines()) if before in it)
        start = own.index(before) + len(before)
        typed = [edited(uris[name], [inserted(line, start + count, letter)]) for count in range(LETTERS)]
        with Client(bench.program) as client:
            client.start()
            for it, written in texts.items():
                client.open(uris[it], written)
            begun = time.monotonic()
            client.raw(b"".join(map(frame, [*typed, request(99, "textDocument/hover", position(uris["p.cedar"], 2, 10))])))
            while client.read().get("id") != 99:
                pass
            return round(time.monotonic() - begun, 2)
    return figure


LINE = "{what}, in a document of {size} policies by 300 actions of shared types: {figure} million instructions"
WAITS = "{what}, with a document of {size} policies of all of 300 actions: {figure} s"
ROWS = (
    Row("a hover behind twenty letters in the schema", (500,), hover_behind("s.cedarschema", "label", "a"), WAITS, most=1),
    Row("a hover behind twenty letters in a policy", (500,), hover_behind("p.cedar", "> 10", "0"), WAITS, most=1),
    Row("a schema is read and a document opened", (10, 1000), lambda bench, size: millions(opened(bench, size, policy)), LINE),
    Row("a keystroke in a policy of one action, sent as a range", (10, 1000), keystroke(policy, True), LINE, most=2.5),
    Row("a keystroke in a policy of one action, sent as the whole text", (10, 1000), keystroke(policy, False), LINE),
    Row("a keystroke in a policy of all actions, sent as a range", (10, 1000), keystroke(wide, True), LINE, most=11),
    Row("hover", (10,), question("hover", 25), LINE, most=2.5),
    Row("completion", (10,), question("completion", 34), LINE, most=2.5),
    Row("definition", (10,), question("definition", 34), LINE, most=2.5),
    Row("another text of each policy, sent as the whole text", (500, 2000), large(lambda size: text(size, policy), changed_text), LINE),
    Row("a letter in each policy, sent as ranges at once", (500, 2000), large(lambda size: text(size, policy), ranges), LINE),
    Row("a letter among policies with a fault, on one line", (500, 2000), large(faulty, letter), LINE),
)


if __name__ == "__main__":
    sys.exit(main(sys.argv[1:], ROWS, "cedar_language_server"))
