"""The answers that wrong bodies and wrong rules got, which scripts/mutations keeps in mutations/answers.tsv.

A row has an edit, the answer, and a sum of all that the answer depends on: the edit with the proof and the sample world beside it,
the texts of its crate and of the crates below, whose proofs it may cite, and the kit. While the sum is that of the texts as they
are, the edit needs no further try. The judge, refusals.py, is no part of the sum: if you make it stricter, remove the file.
"""
import fcntl
import hashlib
import re
from functools import lru_cache

import unproved
from gate.edits import MUTATIONS

FILE = MUTATIONS / "answers.tsv"
HEAD = "edit\tanswer\tsum\n"
# The part of an answer that is kept: without the place, and without the words of the prover behind the goal.
KEPT = re.compile(r"^(?:refused at .*|not tried: the proof broke at [^:]*(?:: [^:]+)?|[^:]*(?:: [^:]*)?)")
MOST = 160


@lru_cache(None)
def sum_of_texts(crate):
    found = hashlib.sha256((unproved.kit() / "KIT-ID").read_bytes())
    for name in [*unproved.below([crate]), crate]:
        for part in ("src", "specs", "proofs"):
            for path in sorted((unproved.TOP / "crates" / name / part).rglob("*")):
                found.update(repr((str(path.relative_to(unproved.TOP)), path.read_bytes() if path.is_file() else b"")).encode())
    return found.digest()


def sum_of(name):
    """A sum of all that the answer to an edit depends on."""
    kind, crate, last = name.split("/")
    found = hashlib.sha256(sum_of_texts("cedar_check" if kind == "rows" else crate))
    folder = MUTATIONS / kind / crate
    for path in sorted([*folder.glob(f"{last}.*"), *folder.glob("sample.txt")]):
        found.update(path.read_bytes())
    return found.hexdigest()[:16]


def rows():
    """The answer to each edit, and its sum."""
    if not FILE.is_file():
        return {}
    lines = FILE.read_text(encoding="utf8").removeprefix(HEAD).splitlines()
    return {name: (answer, own) for name, answer, own in (line.split("\t") for line in lines)}


def left(edits):
    """Those of these edits that have no answer for the texts as they are."""
    known = rows()
    return {name: path for name, path in edits.items() if name not in known or known[name][1] != sum_of(name)}


def keep(answers):
    """Keeps these answers, by the names of edits; none takes the answer away that an edit had."""
    if not answers:
        return
    with open(MUTATIONS.parent / "scripts" / "mutations") as lock:
        # (another run may be writing)
        fcntl.flock(lock, fcntl.LOCK_EX)
        every = rows()
        for name, answer in answers.items():
            every.pop(name, None)
            if answer is not None:
                every[name] = (KEPT.search(" ".join(answer.split()))[0][:MOST].rstrip(), sum_of(name))
        FILE.write_text(HEAD + "".join(f"{name}\t{answer}\t{own}\n" for name, (answer, own) in sorted(every.items())), encoding="utf8")
