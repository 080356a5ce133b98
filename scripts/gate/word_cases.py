#!/usr/bin/env python3
"""What cedar-validate does for its words: scripts/gate/word_cases.py [PROGRAM].

PROGRAM is cedar_validate, by default as it is built without a proof. Each case is a call over small files, with the status and
the lines that are wanted, or a word that the help, the completions and the page have to name. The words are read from
docs/READING.md. The last line counts what agrees and what does not.
"""
import json
import os
import pty
import re
import select
import shutil
import subprocess
import sys
import tempfile
import time
from pathlib import Path

sys.path.insert(0, str(Path(__file__).resolve().parent.parent))
import unproved  # noqa: E402

TOP = Path(__file__).resolve().parents[2]
SECONDS = 60
OLD = """entity User { age: Long, boss: User };
entity Photo { owner: User, public: Bool, meta: { size: Long } };
action view appliesTo { principal: User, resource: Photo };
"""
# A photo is no longer public, its owner is a team, its size is one step further away, and photos can be edited.
NEW = """entity User { age: Long, boss: User };
entity Team { lead: User };
entity Meta { size: Long };
entity Photo { owner: Team, meta: Meta };
action view, edit appliesTo { principal: User, resource: Photo };
"""
FILES = {
    "s": OLD, "new": NEW, "bad": "entity A { b: C };\n",
    "p": '@id("a") permit(principal, action, resource);\n',
    "q": '@id("a") permit(principal, action == Action::"view", resource);\n@id("b") permit(principal, action, resource);\n',
    "refused": '@id("r") permit(principal, action, resource) when { resource.size > 1 };\n',
    "wide": 'permit(principal, action, resource)\nwhen { "\u00e4\U0001f44d" == "\u00e4\U0001f44d" && resource.size > 1 };\n',
    "broken": '@id("x") permit(principal);\n@id("y") permit(principal, action, resource);\n',
    "twice": '@id("x") permit(principal, action, resource);\n@id("x") forbid(principal, action, resource);\n',
    "t": '@id("share") permit(principal == ?principal, action, resource in ?resource) when { resource.public };\n'
         '@id("plain") permit(principal, action, resource);\n',
    "changes": '@id("loses") permit(principal, action, resource) when { resource.public };\n'
               '@id("owner") permit(principal, action, resource) when { resource.owner.boss == principal };\n'
               '@id("kept") permit(principal, action == Action::"view", resource);\n'
               '@id("gains") permit(principal, action == Action::"edit", resource);\n'
               '@id("rises") permit(principal, action, resource) when { resource.meta.size > 1 };\n'
               '@id("ends") permit(principal, action, resource) when { resource.owner is User };\n',
    "other": '@id("other") permit(principal, action == Action::"view", resource) when { principal.rank > 1 || resource.public };\n',
    "one": "entity A;\naction a00 appliesTo { principal: A, resource: A };\n",
    "many": f"entity A;\naction {', '.join(f'a{number:02}' for number in range(13))} appliesTo {{ principal: A, resource: A }};\n",
    "moved": "entity A; entity B;\naction a00 appliesTo { principal: B, resource: A };\n",
    # was impossible, and is refused: it is not called possible
    "unlikely": '@id("u") permit(principal, action, resource) when { principal is B && principal.b };\n',
    "unlike": "entity A; entity B { b: Bool };\naction a00 appliesTo { principal: A, resource: A };\n",
    "j.json": '{"": {"entityTypes": {"User": {}}, "actions": {"view": {"appliesTo": {"principalTypes": ["User"], "resourceTypes": ["User"]}}}}}',
    "p.json": '{"effect": "permit", "principal": {"op": "All"}, "action": {"op": "All"}, "resource": {"op": "All"}, "conditions": []}',
    "links": json.dumps([{"template_id": "share", "link_id": "alice", "args": {"?principal": 'User::"alice"', "?resource": 'Photo::"one"'}},
                         {"template_id": "share", "link_id": "odd", "args": {"?principal": 'Photo::"one"', "?resource": 'Photo::"one"'}}]),
    "links_bad": json.dumps([{"template_id": "gone", "link_id": "one", "args": {}},
                             {"template_id": "share", "link_id": "two", "args": {"?principal": 'User::"alice"'}},
                             {"template_id": "plain", "link_id": "three", "args": {"?principal": 'User::"alice"'}},
                             {"template_id": "plain", "link_id": "share", "args": {}},
                             {"template_id": "plain", "link_id": "four", "args": {}},
                             {"template_id": "plain", "link_id": "four", "args": {}}], indent=1),
    "links_half": '[{"template_id": "share", "link_id": "a", "args": {"?principal": "alice"}}, '
                  '{"template_id": "share", "link_id": "odd", "args": {"?principal": "Photo::\\"one\\"", "?resource": "Photo::\\"one\\""}}, x]',
    "links_many": f"[{','.join('1' * 150)}]",
    # what a code host would take for a command, a link or another name
    "::error::x": '@id("r") permit(principal, action, resource) when { resource.size > 1 };\n',
    "link": '@id("[fix](https://evil.example)") permit(principal, action, resource) when { resource["[a](b){0}"] };\n',
    "unseen": '@id("u") permit(principal == User::"admin\u200b", action, resource);\n',
    "long": "permit(principal, action, resource) when { resource." + "a" * 300 + " };\n",
    "links_odd": '[{"template_id": "share", "link_id": "a", "args": {"?principal": "alice"}}]',
}


def at(name, part, number=0):
    """The place of a part of a file, as FILE:LINE:COLUMN: of its first occurrence, or of so many later."""
    text, start = FILES[name], -1
    for _ in range(number + 1):
        start = text.index(part, start + 1)
    before = text[:start]
    return f"{name}:{before.count(chr(10)) + 1}:{len(before) - before.rfind(chr(10))}"


A = "p:1:1: policy `a`: accepted, level 0"
R = ("refused:1:1: policy `r`: refused", at("refused", "resource.size") + ": error: attribute `size` does not exist on `Photo`")
UNREAD = at("broken", ");") + ": fault: `,` is expected, where `)` is read"
UNDECLARED = at("bad", "C") + ": fault: a type that is not declared: `C`"
ONE = "policies: 1, accepted: 1, refused: 0, warnings: 0, faults: 0, level 0"
TAKEN = ": fault: a policy or another link has this id"
NO_SLOTS = ": fault: the policy of this id has no slots, so it is no template"
UNFIT = ": fault: the link does not bind the slots of its template"
# Words, what stands on standard input, the status, and what each line begins with; lines of excerpts do not count.
RUNS = (
    ("-s s -p p", "", 0, [A, ONE]),
    ("--schema s --policies p", "", 0, [A, ONE]),
    ("-s=s --policies=p -q", "", 0, []),
    ("-ss -pp", "", 0, [A, ONE]),
    ("-qs s -pp", "", 0, []),
    ("-qss -p=refused", "", 1, R),
    ("s -qkl", "", 2, []),
    ("s p -qx", "", 2, []),
    ("s -p p", "", 0, [A, ONE]),
    ("-p p s", "", 0, [A, ONE]),
    ("-s s --policies - --quiet", FILES["refused"], 1, [it.replace("refused:1", "-:1", 1) for it in R]),
    ("-s s -p p refused --quiet", "", 1, R),
    ("s p --quiet --json", "", 0, []),
    ("--validation-mode permissive s p --quiet", "", 0, []),
    ("--schema-format json --policy-format json -s j.json -p p.json -q", "", 0, []),
    ("--schema-format json --policy-format cedar -s j.json -p p -q", "", 0, []),
    ("--schema-format cedar -s j.json -p p -q", "", 2, ["j.json:1:1: fault: "]),
    ("--input cedar -s j.json -p p -q", "", 2, []),
    # units of columns: behind umlauts of two bytes, and pictures of four bytes and two units of UTF-16
    ("s wide -q", "", 1, ["wide:1:1: policy `policy0`: refused", "wide:2:24: error: attribute `size`"]),
    ("s wide -q --columns characters", "", 1, ["wide:1:1: policy", "wide:2:24: error: "]),
    ("s wide -q --columns utf16", "", 1, ["wide:1:1: policy", "wide:2:26: error: "]),
    ("s wide -q --columns=bytes", "", 1, ["wide:1:1: policy", "wide:2:32: error: "]),
    ("s wide -q --json --columns bytes", "", 1, ['{"kind":"policy","file":"wide","line":1,"column":1,"end_line":2,"end_column":52,',
     '{"kind":"error","file":"wide","line":2,"column":32,"end_line":2,"end_column":45,']),
    ("s wide -q --format sarif --columns bytes", "", 2, []),
    # the statuses of `cedar validate`: 0 where it passes, 3 where validation fails, 1 where the command does, 2 where words are wrong
    ("--cedar-status -s s -p p -q", "", 0, []),
    ("--cedar-status -s s -p refused --quiet", "", 3, R),
    ("--cedar-status -s s -p missing --quiet", "", 1, ["missing: fault: cannot be read: No such file or directory"]),
    ("--cedar-status -s s", "", 2, []),
    # texts that are read alone
    ("--check-parse p t", "", 0, ["policies: 3, accepted: 0, refused: 0, warnings: 0, faults: 0"]),
    ("--check-parse -q refused", "", 0, []),
    ("--check-parse -q -", "permit(principal, action);", 2, ["-:1:25: fault: `,` is expected, where `)` is read"]),
    ("--check-parse broken", "", 2, [UNREAD, "policies: 1, accepted: 0, refused: 0, warnings: 0, faults: 1"]),
    ("--check-parse -q twice", "", 2, ["twice:2:1: fault: the policy at 1:1 of this file has the same id"]),
    ("--check-parse -q --schema bad p", "", 2, [UNDECLARED]),
    ("--check-parse -q --schema s", "", 0, []),
    ("--check-parse -q --policy-format json p.json", "", 0, []),
    ("--check-parse", "", 2, []),
    # ids of several files
    ("s p q -q", "", 0, []),
    ("s p q -q --unique-ids", "", 1, ["q:1:1: policy `a`: refused, level 0", "q:1:1: error: a policy of p has the same id"]),
    ("s p twice -q --unique-ids", "", 1, ["twice:2:1: policy `x`: refused, level 0", "twice:2:1: error: the policy at 1:1 of this file has the same id"]),
    ("s p p -q --unique-ids", "", 1, ["p:1:1: policy `a`: refused, level 0", "p:1:1: error: a policy of p has the same id"]),
    # names of files, and names in messages
    ("-q s -- ::error::x", "", 1, ["./" + it.replace("refused:1", "::error::x:1", 1) for it in R]),
    ("-q s ::error::gone", "", 2, ["./::error::gone: fault: cannot be read: "]),
    ("-q s unseen", "", 0, ["unseen:1:1: policy `u`: accepted", at("unseen", "User") + ": warning: an id with characters that show nothing"]),
    ("-q s unseen --deny-warnings", "", 1, ["unseen:1:1: policy `u`: accepted", "unseen:1:"]),
    ("-q s long", "", 1, ["long:1:1: policy `policy0`: refused", at("long", "resource.") + ": error: attribute `" + "a" * 200 + "\u2026` does not exist on `Photo`"]),
    # links
    ("s t -k links", "", 0, ["t:1:1: policy `share`: accepted, level 1", "t:1:1: policy `alice`: accepted, level 1", "t:1:1: policy `odd`: accepted",
     "t:1:1: warning: ", "t:1:1: warning: ", "t:2:1: policy `plain`: accepted, level 0", "policies: 4, accepted: 4, refused: 0, warnings: 2, faults: 0"]),
    ("s t --template-linked links_bad -q", "", 2, [at("links_bad", '"gone"') + ": fault: no policy has this id", at("links_bad", '"two"') + UNFIT,
     at("links_bad", '"plain"') + NO_SLOTS, at("links_bad", '"share"', 1) + TAKEN, at("links_bad", '"plain"', 2) + NO_SLOTS, at("links_bad", '"four"', 1) + TAKEN]),
    # a link that cannot be read costs itself alone
    ("s t -k links_half -q", "", 2, ["t:1:1: policy `odd`: accepted", "t:1:1: warning: ", "t:1:1: warning: ",
     at("links_half", '"alice"') + ': fault: a text such as `User::"alice"` is expected, where `"alice"` is read', "links_half:1:"]),
    ("s t -k links_many -q", "", 2, [*[f"links_many:1:{2 + 2 * number}: fault: an object is expected, where `1` is read" for number in range(100)],
     "links_many: fault: 50 more faults"]),
    ("s p -k links_many", "", 2, [A, *["links_many:1:"] * 100, "links_many: fault: 50 more faults",
     "policies: 1, accepted: 1, refused: 0, warnings: 0, faults: 150, level 0"]),
    ("s t -k links_odd -q", "", 2, [at("links_odd", '"alice"') + ': fault: a text such as `User::"alice"` is expected, where `"alice"` is read']),
    # a change of the schema
    ("--since s new changes", "", 1, [
        "changes:1:1: policy `loses`: worse: newly refused", at("changes", "resource.public") + ": error: attribute `public` does not exist on `Photo`",
        "changes:2:1: policy `owner`: worse: newly refused", at("changes", "resource.owner.boss") + ": error: attribute `boss` does not exist on `Team`",
        "changes:4:1: policy `gains`: newly accepted", at("changes", 'Action::"edit"') + ": gone: error: ",
        "changes:5:1: policy `rises`: worse: another level, 2 in place of 1",
        "changes:6:1: policy `ends`: worse: newly impossible", at("changes", "resource.owner is User") + ": warning: policy is impossible",
        "policies: 6, changed: 5, worse: 4, faults: 0"]),
    ("--since new s changes --quiet", "", 1, [
        "changes:1:1: policy `loses`: newly accepted", at("changes", "resource.public") + ": gone: error: attribute `public` does not exist on `Photo`",
        "changes:2:1: policy `owner`: newly accepted", at("changes", "resource.owner.boss") + ": gone: error: attribute `boss` does not exist on `Team`",
        "changes:4:1: policy `gains`: worse: newly refused", at("changes", 'Action::"edit"') + ": error: ",
        "changes:5:1: policy `rises`: another level, 1 in place of 2",
        "changes:6:1: policy `ends`: no longer impossible", at("changes", "resource.owner is User") + ": gone: warning: policy is impossible"]),
    ("--since s new other -q", "", 0, ["other:1:1: policy `other`: other findings", at("other", "resource.public") + ": error: attribute `public` does not exist"]),
    ("--since s new p", "", 0, ["p:1:1: policy `a`: new environments", "policies: 1, changed: 1, worse: 0, faults: 0"]),
    ("--since new s p", "", 0, ["p:1:1: policy `a`: lost environments", "policies: 1, changed: 1, worse: 0, faults: 0"]),
    ("--since one moved p", "", 0, ["p:1:1: policy `a`: new environments, lost environments", "policies: 1, changed: 1, worse: 0, faults: 0"]),
    ("--since one moved p --deny-warnings --cedar-status", "", 0, ["p:1:1: policy `a`: new environments, lost environments", "policies: 1, "]),
    ("--since unlike moved unlikely", "", 1, ["unlikely:1:1: policy `u`: worse: newly refused, new environments", at("unlikely", "principal.b") + ": error: attribute `b` does not",
     at("unlikely", "principal is B") + ": gone: warning: policy is impossible", "policies: 1, changed: 1, worse: 1, faults: 0"]),
    ("--since s s changes -q", "", 0, []),
    ("--since s new t -k links -q --json", "", 1, [
        '{"kind":"change","file":"t","line":1,"column":1,"end_line":1,"end_column":102,"id":"share","worse":true,"changes":["refused","gained"],"accepted":false,'
        '"was_accepted":true,"was_level":1,"gained":["Action::\\"edit\\" by User on Photo"],"lost":[]}', '{"kind":"error","file":"t",',
        '{"kind":"change","file":"t","line":1,"column":1,"end_line":1,"end_column":102,"id":"alice","worse":true', '{"kind":"error","file":"t",',
        '{"kind":"change","file":"t","line":2,"column":1,"end_line":2,"end_column":50,"id":"plain","worse":false,"changes":["gained"],"accepted":true,'
        '"was_accepted":true,"level":0,"was_level":0,"gained":["Action::\\"edit\\" by User on Photo"],"lost":[]}']),
    ("--since s new changes --json", "", 1, ['{"kind":"change",', '{"kind":"error",', '{"kind":"change",', '{"kind":"error",', '{"kind":"change",', '{"kind":"gone",',
     '{"kind":"change",', '{"kind":"change",', '{"kind":"warning",', '{"kind":"changes","policies":6,"changed":5,"worse":4,"faults":0}']),
    ("--since bad s p", "", 2, [UNDECLARED]),
    ("--since s new broken --quiet", "", 2, [UNREAD, "broken:2:1: policy `y`: new environments"]),
    ("--since s --entities p s p", "", 2, []),
)
# What is completed of a word in bash, behind these words.
COMPLETED = (("", "--sch", "--schema --schema-format"), ("--mode", "p", "permissive partial"), ("--validation-mode", "str", "strict"),
             ("--policy-format", "", "cedar json"), ("-s", "chan", "changes"), ("--level", "", ""), ("", "brok", "broken"))


# A shell that completes without a list, and shows the line behind control and x.
ZSH = """autoload -Uz compinit && compinit -u -D
source <(PROGRAM --completion zsh)
PS1= RPS1=
setopt no_beep no_auto_list no_zle_bracketed_paste 2>/dev/null
show_line() { print -r -- "BUFFER=$BUFFER=EN""D" }
zle -N show_line
bindkey '^X' show_line
"""
# What is completed of words in zsh.
ZSH_OFFERED = (("--templ", "--template-linked="), ("--mode perm", "--mode permissive "), ("--mode=part", "--mode=partial "), ("-q --unique", "-q --unique-ids "))


class Counts:
    """What agrees and what does not."""

    def __init__(self):
        self.passed = self.failed = 0

    def add(self, what, difference):
        self.passed += difference is None
        self.failed += difference is not None
        if difference is not None:
            print(f"{what}: {difference}")


def ended(program, room, words, given=""):
    done = subprocess.run([str(program), *words], cwd=room, input=given.encode(), capture_output=True, timeout=SECONDS)
    return done.returncode, done.stdout.decode()


def is_excerpt(line):
    """Whether a line shows the text: behind blanks, or behind the number of a line and a bar."""
    return re.match(r"\s|\d+ \|", line) is not None


def differs(program, room, words, given, status, wanted):
    """What a run writes, where it does not end so or its lines do not begin so; else None."""
    ended_with, text = ended(program, room, words.split(), given)
    lines = [line for line in text.splitlines() if not is_excerpt(line)]
    begin_so = len(lines) == len(wanted) and all(line.startswith(it) for line, it in zip(lines, wanted))
    return None if ended_with == status and begin_so else f"status {ended_with}: {text}"


def sarif_differs(program, room):
    """What SARIF has of a change, where it is not each finding that came; else None."""
    status, text = ended(program, room, ["--since", "s", "--format", "sarif", "--cedar-status", "new", "changes"])
    results = [(it["ruleId"], it["level"]) for it in json.loads(text)["runs"][0]["results"]]
    note = ("environments", "note")
    wanted = [note, ("unknown-attribute", "error"), note, ("unknown-attribute", "error"), note, note, note, ("impossible", "warning")]
    return None if status == 3 and results == wanted else text


# Calls, and the very lines that they write: of many environments ten, and the number of the others.
ENVIRONMENTS = [f'Action::"a{number:02}" by A on A' for number in range(1, 11)] + ["2 more"]
EXACT = (
    ("--since one many p -q", ["p:1:1: policy `a`: new environments", *[f"  newly for {it}" for it in ENVIRONMENTS]]),
    ("--since many one p -q", ["p:1:1: policy `a`: lost environments", *[f"  no longer for {it}" for it in ENVIRONMENTS]]),
    ("--since one moved p -q", ["p:1:1: policy `a`: new environments, lost environments", '  newly for Action::"a00" by B on A', '  no longer for Action::"a00" by A on A']),
    ("--since one many p -q --json", [json.dumps({
        "kind": "change", "file": "p", "line": 1, "column": 1, "end_line": 1, "end_column": 46, "id": "a", "worse": False, "changes": ["gained"],
        "accepted": True, "was_accepted": True, "level": 0, "was_level": 0, "gained": ENVIRONMENTS, "lost": []}, separators=(",", ":"))]),
)


def exactly_differs(program, room, words, wanted):
    """What a run writes, where that is something else; else None."""
    _, text = ended(program, room, words.split())
    return None if text.splitlines() == wanted else text


def message_differs(program, room):
    """What SARIF says of names that look like a link or a placeholder, where they could be taken for one; else None."""
    text = ended(program, room, ["--format", "sarif", "s", "link"])[1]
    said = json.loads(text)["runs"][0]["results"][0]["message"]["text"]
    wanted = r"policy `\[fix\](https://evil.example)`: attribute `\[a\](b){{0}}` does not exist on `Photo`"
    return None if said == wanted else said


def pipe_differs(program, room):
    """What a run whose output nobody reads says, where it says something or hangs; else None."""
    own, other = os.pipe()
    os.close(own)
    done = subprocess.run([str(program), "s", "p"], cwd=room, stdin=subprocess.DEVNULL, stdout=other, stderr=subprocess.PIPE, timeout=SECONDS)
    os.close(other)
    return None if done.returncode != 0 and not done.stderr else f"status {done.returncode}: {done.stderr.decode()}"


def words_of_page():
    """The words of the table in docs/READING.md."""
    page = (TOP / "docs" / "READING.md").read_text(encoding="utf8")
    for line in page[page.index("| Option |"):].split("\n\n")[0].splitlines()[2:]:
        yield from re.findall(r"`(--?[a-zA-Z][a-z-]*)[ `]", line.split(" | ")[0])


def unnamed(text, words):
    """The words that a text does not name, as a text; None where there are none."""
    missing = [word for word in words if not re.search(rf"(?<![\w-]){re.escape(word)}(?![\w-])", text)]
    return " ".join(missing) or None


def words_differ(program, room):
    """Of each text that is made of the table of words, which words of the page it does not name."""
    words = sorted(set(words_of_page()))
    _, text = ended(program, room, ["--help"])
    use, _, about = text.partition("\nValidates the policies")
    yield "the use", unnamed(use, words)
    yield "the help", unnamed(about, words)
    yield "words of the use that the page does not name", unnamed(" ".join(words), re.findall(r"(?<=[\[|])--?[a-zA-Z][a-z-]*", use))
    yield "the page for man", unnamed(ended(program, room, ["--man"])[1].replace("\\-", "-"), words)
    for shell in ("bash", "zsh"):
        yield shell, unnamed(ended(program, room, ["--completion", shell])[1], words)
    fish = re.sub(r" -l (?=\w)", " --", re.sub(r" -s (?=\w)", " -", ended(program, room, ["--completion", "fish"])[1]))
    yield "fish", unnamed(fish, words)


def completions_differ(program, room):
    """What bash completes, where it is not what is wanted."""
    script = ended(program, room, ["--completion", "bash"])[1]
    for before, current, wanted in COMPLETED:
        words = f"COMP_WORDS=(cedar-validate {before or 's'} '{current}'); COMP_CWORD=2; _cedar_validate; echo \"${{COMPREPLY[*]}}\""
        done = subprocess.run(["bash", "-c", f"{script}\n{words}"], cwd=room, capture_output=True, text=True, timeout=SECONDS)
        yield f"bash, {before} {current}", None if done.stdout.split() == wanted.split() else done.stdout + done.stderr
    if shutil.which("zsh"):
        yield "zsh, by source", zsh_differs(program, room)


def zsh_differs(program, room):
    """What zsh offers of a long word, of the values of an option and of joined short options, where it is not what is wanted."""
    Path(room, "zshrc").write_text(ZSH.replace("PROGRAM", str(program)), encoding="utf8")
    for typed, wanted in ZSH_OFFERED:
        own, other = pty.openpty()
        done = subprocess.Popen(["zsh", "-f", "-i"], cwd=room, stdin=other, stdout=other, stderr=other, env=os.environ | {"TERM": "dumb"})
        os.close(other)
        os.write(own, f"source ./zshrc\ncedar-validate {typed}\t\x18".encode())
        text = read_until(own, "END")
        done.kill()
        done.wait(SECONDS)
        os.close(own)
        if f"BUFFER=cedar-validate {wanted}=END" not in text:
            return f"{typed}: {text}"
    return None


def read_until(terminal, mark):
    """What a terminal shows until a mark, behind the text that was typed, or its end."""
    text, ends = "", time.monotonic() + SECONDS
    while mark not in text and time.monotonic() < ends:
        if select.select([terminal], [], [], 1)[0]:
            text += os.read(terminal, 4096).decode(errors="replace")
    return text


def on_terminal(program, room, **more):
    """What a run with an error writes on a terminal, in an environment with these variables too."""
    own, other = pty.openpty()
    env = {key: value for key, value in os.environ.items() if key != "NO_COLOR"} | more
    done = subprocess.Popen([str(program), "s", "refused"], cwd=room, stdin=subprocess.DEVNULL, stdout=other, stderr=subprocess.DEVNULL, env=env)
    os.close(other)
    text = b""
    try:
        while part := os.read(own, 4096):
            text += part
    except OSError:
        pass  # the end, as Linux tells it
    os.close(own)
    done.wait(SECONDS)
    return text.decode()


def colours_differ(program, room):
    """Where an error is painted that may not be, or the reverse."""
    painted = ": \x1b[1;31merror\x1b[0m: attribute `size`"
    for more, wanted in (({}, True), ({"NO_COLOR": "1"}, False), ({"NO_COLOR": ""}, True)):
        text = on_terminal(program, room, **more)
        yield f"a terminal with {more}", None if (painted in text) == wanted and ("\x1b" in text) == wanted else repr(text)
    text = ended(program, room, ["s", "refused"])[1]
    yield "no terminal", text if "\x1b" in text else None


def main(words):
    program, counts = unproved.named(words, "cedar_validate"), Counts()
    with tempfile.TemporaryDirectory() as room:
        for name, text in FILES.items():
            Path(room, name).write_text(text, encoding="utf8")
        for said, given, status, wanted in RUNS:
            counts.add(said, differs(program, room, said, given, status, wanted))
        for said, wanted in EXACT:
            counts.add(said, exactly_differs(program, room, said, wanted))
        for what, differs_in in (("SARIF", sarif_differs), ("a message of SARIF", message_differs), ("a closed pipe", pipe_differs)):
            counts.add(what, differs_in(program, room))
        for answers in (words_differ, completions_differ, colours_differ):
            for what, difference in answers(program, room):
                counts.add(what, difference)
    print(f"{counts.passed} passed, {counts.failed} failed")
    sys.exit(1 if counts.failed or not counts.passed else 0)


if __name__ == "__main__":
    main(sys.argv[1:])
