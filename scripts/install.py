#!/usr/bin/env python3
"""What scripts/install does, once the tools are there: scripts/install.py [DIR], or scripts/install.py --library DIR.

It proves cedar-validate and the libraries that it stands on, and nothing else, as scripts/validate --proved does, and copies
the program to DIR/cedar-validate. Before it begins it says how long the proof takes, by the newest run in docs/gate.tsv that
timed these crates. Where the program stands proved of the very texts, it is only copied. `cedar-validate --version` says of
which commit and kit it is. With --library it proves and installs the C library in its place (scripts/library.py). The exit
status is 2 where an argument is wrong, and 70 where nothing was installed.
"""
import os
import shutil
import sys
from pathlib import Path

import library
import proved
import stamp
import unproved
from gate import gate_line

NAME = "cedar-validate"
FOLDER = "~/.local/bin"
USAGE = f"""usage: scripts/install [DIR]
       scripts/install --library DIR
Proves {NAME} and what it stands on, and copies it to DIR/{NAME}. DIR is {FOLDER} where it is left out.
With --library it proves the C library, and puts it into DIR/lib, with include/cedar.h and lib/pkgconfig/cedar.pc in DIR.
"""
WRONG = 2
FAILED = 70


class Wrong(Exception):
    """Why an argument is wrong."""


def say(text):
    print(f"scripts/install: {text}", file=sys.stderr, flush=True)


def folder_of(words):
    """The folder to which the program goes: it is made where it is not there."""
    if len(words) > 1 or any(word.startswith("-") or not word for word in words):
        raise Wrong(f"at most one folder is wanted\n{USAGE.rstrip()}")
    try:
        folder = Path(words[0]) if words else Path(FOLDER).expanduser()
        folder.mkdir(parents=True, exist_ok=True)
    except (OSError, RuntimeError) as error:
        raise Wrong(f"{error}")
    if not os.access(folder, os.W_OK | os.X_OK):
        raise Wrong(f"{folder} cannot be written to")
    if (folder / NAME).is_dir():
        raise Wrong(f"{folder / NAME} is a folder")
    return folder


def minutes_of(crates, rows):
    """The newest row that has the minutes of all these crates, and their sum; None where there is no such row."""
    for row in reversed(rows):
        times = [row["proofs"].get(crate, [None])[:2] for crate in crates]
        if all(None not in it for it in times):
            return row, round(sum(proved - begun for begun, proved in times))
    return None


def forecast(found):
    """How long their proofs take, as it is said before they begin."""
    if found is None:
        return "how long this takes is not known: docs/gate.tsv has no run that timed all of these crates"
    row, minutes = found
    return (
        f"this takes some {minutes} minutes, by a run of the gate on {row['cores']} cores (docs/gate.tsv); less where a crate "
        "gets more processors than it had there, or stands proved already"
    )


def copied(program, folder):
    """Copies the program, whole or not at all. The place where it stands then."""
    target = folder / NAME
    part = folder / f".{NAME}.{os.getpid()}"
    try:
        shutil.copyfile(program, part)
        part.chmod(0o755)
        os.replace(part, target)
    finally:
        part.unlink(missing_ok=True)
    return target


def install_library(words):
    """Proves the C library and puts it into the folder that is named. The exit status."""
    if len(words) != 1 or words[0].startswith("-") or not words[0]:
        say(f"one folder is wanted\n{USAGE.rstrip()}")
        return WRONG
    crates = [*unproved.below([library.CRATE]), library.CRATE]
    say(f"proving {len(crates)} crates: {' '.join(crates)}")
    say(forecast(minutes_of(crates, gate_line.rows_of(gate_line.TABLE.read_text()))))
    library.build(Path(words[0]), library.with_proof)
    print(f"installed the library in {words[0]}, which is proved")
    return 0


def main(words):
    if words[:1] == ["--library"]:
        return install_library(words[1:])
    if words == ["--help"]:
        print(USAGE, end="")
        return 0
    try:
        folder = folder_of(words)
    except Wrong as why:
        say(f"{why}")
        return WRONG
    if proved.program() is None:
        crates = proved.needed()
        say(f"proving {len(crates)} crates: {' '.join(crates)}")
        say(forecast(minutes_of(crates, gate_line.rows_of(gate_line.TABLE.read_text()))))
        if not proved.prove():
            say("the program was not built, as said above; nothing was installed")
            return FAILED
    program = proved.program()
    if program is None:
        say("a text changed after the proof; nothing was installed")
        return FAILED
    target = copied(program, folder)
    print(f"installed {target}, which is proved")
    if folder.resolve() not in [Path(it).resolve() for it in os.get_exec_path()]:
        say(f"{folder} is not on the PATH")
    return 0


if __name__ == "__main__":
    proved.stopping()
    try:
        sys.exit(main(sys.argv[1:]))
    except proved.Stopped:
        say("stopped; nothing was installed")
        sys.exit(FAILED)
    except (OSError, ValueError, stamp.NotStamped, unproved.KitDoesNotFit, library.NotBuilt) as error:
        say(f"{error}")
        sys.exit(FAILED)
