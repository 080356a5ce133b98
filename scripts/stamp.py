"""The text by which cedar-validate says of which build it is. A script puts it into the program once it is linked, because
the sources must not change with each commit: each proof would be made again."""
import re
import subprocess
from pathlib import Path

TOP = Path(__file__).resolve().parent.parent
# What `BUILD` of crates/cedar_validate/src/version.rt begins with, and how long it is.
MARK = b"of a build without a stamp"
LENGTH = 120
# What a program holds there: the mark, or a text of `text`.
STANDS = re.compile(re.escape(MARK) + rb"|commit [^\0,]{1,50}, [^\0,]{1,50}, (?:not )?proved")
# What stands for what a command did not tell.
UNSEEN = "?"


class NotStamped(Exception):
    """The program does not hold the text, or does not write what was put in its place."""


def output_of(*words):
    """What a command prints, on one line; UNSEEN where it fails."""
    try:
        done = subprocess.run(words, cwd=TOP, stdin=subprocess.DEVNULL, capture_output=True, text=True)
    except OSError:
        return UNSEEN
    return " ".join(done.stdout.split()) or UNSEEN if done.returncode == 0 else UNSEEN


def text(is_proved):
    """The commit, the kit, and whether the build is proved."""
    commit = output_of("git", "describe", "--always", "--dirty", "--exclude", "*")
    proved = "proved" if is_proved else "not proved"
    return f"commit {commit}, {output_of('rt', 'version')}, {proved}"


def put(program, text):
    """Puts a text into a program, in the place of the one that the compiler wrote, or that an earlier call put there."""
    new, whole = text.encode().ljust(LENGTH), Path(program).read_bytes()
    old = [it for it in STANDS.finditer(whole) if not whole[it.end() : it.start() + LENGTH].strip(b" ")]
    if len(new) != LENGTH or len(old) != 1:
        raise NotStamped(f"{program} holds the text of its build {len(old)} times, and {len(new)} of {LENGTH} bytes are to go there")
    at = old[0].start()
    Path(program).write_bytes(whole[:at] + new + whole[at + LENGTH :])
