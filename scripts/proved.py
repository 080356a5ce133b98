#!/usr/bin/env python3
"""Keeps cedar-validate as it was proved: scripts/proved.py keep PROGRAM, which scripts/prove calls once `rt ci` has passed.

The program is kept in out/proved beside two sums: of the kit and of each text that its proof reads, and of its own bytes. It
counts as proved where both sums are still right, whatever the times of the files say.
"""
import hashlib
import json
import os
import shutil
import signal
import subprocess
import sys
from pathlib import Path

import stamp
import unproved
from gate import copies

TOP = Path(__file__).resolve().parent.parent
CRATE = "cedar_validate"
# What stops a proof.
STOPS = (signal.SIGTERM, signal.SIGINT)
KEPT = TOP / "out" / "proved" / CRATE
# The copy in which the program is proved, and what is built there.
COPY = TOP / "out" / "install"
BUILT = COPY / "crates" / CRATE / "out" / CRATE


class Stopped(Exception):
    """The script was told to end."""


def needed():
    """The crate of the program and all that it stands on, of this repository, lowest first."""
    return [*unproved.below([CRATE]), CRATE]


def sum_of_texts():
    """A sum of the kit and of all that the proof of the program reads."""
    found = hashlib.sha256(repr(((unproved.kit() / "KIT-ID").read_bytes(), (TOP / "HANDLES").read_bytes())).encode())
    for crate in needed():
        found.update(repr((crate, unproved.USES[crate])).encode())
        for part in ("src", "specs", "proofs"):
            for path in sorted((TOP / "crates" / crate / part).rglob("*")):
                if path.is_file():
                    found.update(repr((str(path.relative_to(TOP)), path.read_bytes())).encode())
    return found.hexdigest()


def sum_of_program(program):
    return hashlib.sha256(program.read_bytes()).hexdigest()


def record():
    return KEPT.with_suffix(".json")


def program():
    """Where the proved program stands; None where none was proved of the texts as they are."""
    try:
        sums = json.loads(record().read_text(encoding="utf8"))
        is_right = sums == {"texts": sum_of_texts(), "program": sum_of_program(KEPT)}
    except (OSError, ValueError):
        return None
    return KEPT if is_right else None


def keep(built, texts):
    """Keeps a program that was proved of the texts with this sum, with the text of its build in it."""
    KEPT.parent.mkdir(parents=True, exist_ok=True)
    part = KEPT.with_suffix(f".{os.getpid()}")
    try:
        record().unlink(missing_ok=True)
        shutil.copyfile(built, part)
        part.chmod(0o755)
        stamp.put(part, stamp.text(is_proved=True))
        os.replace(part, KEPT)
        record().write_text(json.dumps({"texts": texts, "program": sum_of_program(KEPT)}), encoding="utf8")
    finally:
        part.unlink(missing_ok=True)


def heed():
    """Has this process heed what stops it."""
    signal.pthread_sigmask(signal.SIG_UNBLOCK, STOPS)


def run(words, folder):
    """Runs a command in a folder, in a group of its own that ends where this script is stopped. Its status."""
    # (a signal that came between the child's start and the `try` would leave it running)
    signal.pthread_sigmask(signal.SIG_BLOCK, STOPS)
    try:
        child = subprocess.Popen(words, cwd=folder, stdin=subprocess.DEVNULL, stdout=sys.stderr, start_new_session=True, preexec_fn=heed)
    except OSError:
        heed()
        raise
    try:
        heed()
        return child.wait()
    except BaseException:
        try:
            os.killpg(child.pid, signal.SIGTERM)
        except ProcessLookupError:
            pass
        raise


def prove_copy(crates, folder):
    """Proves a copy that has these crates alone, as the gate does, so that kept proofs are taken. Whether all were proved."""
    copies.make(crates, folder)
    return run([sys.executable, str(TOP / "scripts" / "gate" / "lanes.py")], folder) == 0


def prove():
    """Proves the program, builds it and keeps it; what `rt` says goes to standard error. Whether it was proved."""
    texts = sum_of_texts()
    if not prove_copy(needed(), COPY) or not BUILT.is_file():
        return False
    if sum_of_texts() != texts:
        print("a text changed while the program was proved", file=sys.stderr)
        return False
    keep(BUILT, texts)
    return True


def stop(number, frame):
    raise Stopped


def stopping():
    """From here on SIGTERM and SIGINT raise `Stopped`, also in a process that a shell runs in the background."""
    for number in STOPS:
        signal.signal(number, stop)


def main(words):
    if len(words) != 2 or words[0] != "keep" or not Path(words[1]).is_file():
        print("usage: scripts/proved.py keep PROGRAM", file=sys.stderr)
        return 2
    keep(Path(words[1]), sum_of_texts())
    return 0


if __name__ == "__main__":
    sys.exit(main(sys.argv[1:]))
