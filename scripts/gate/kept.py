"""Proofs that `rt ci` made on this machine, kept for its next run. scripts/gate/lanes.py asks for them where the kit keeps none.

A proof is kept under a sum of all that it was made of: the kit, HANDLES, the crate's line of crates.txt, each text of the crate,
and the bytes of the libraries below, because a library fits only the very libraries over which it was proved. It is the part
of out/ that `rt ci` left, once it had proved the crate from nothing, with a sum of its bytes. So another text or kit
proves the crate anew, and every crate above it, and so do other bytes. On another machine the key of a proof is the same,
because the same texts give the same bytes there (scripts/proofs takes proofs along). A proof that no run has taken for a week goes.

CEDAR_PROOFS names another folder in the place of the store, also where the kit keeps proofs itself.
"""
import hashlib
import os
import pwd
import shutil
import tempfile
import time
from pathlib import Path

import unproved

NAMED = "CEDAR_PROOFS"
# (by the user, because HOME may be another in CI)
FOLDER = Path(os.environ.get(NAMED) or Path(pwd.getpwuid(os.getuid()).pw_dir) / ".cache" / "cedar-proofs")
WEEK = 7 * 24 * 3600
# In the folder of a proof: the sum of its library, when it was made, and the sum of its bytes.
MARK = "mark"
SINCE = "since"
SUM = "sum"


def module_of_kit():
    """The kit's module `rt`, which keeps proofs in the folder that CEDAR_PROOFS names, if it keeps any itself."""
    rt = unproved.module_of_kit("rt")
    if of_kit(rt) and os.environ.get(NAMED):
        rt.STORE = os.path.abspath(os.environ[NAMED])
        rt.WORK = f"{rt.STORE}/work"
    return rt


def of_kit(rt):
    """The folder in which a kit keeps proofs itself, by its module `rt`; nothing where it keeps none."""
    return Path(rt.STORE) if hasattr(rt, "STORE") else None


def parts_of(crate, part):
    """The parts of out/ that the proof of a crate, or of its tests, leaves: a library, or a program of each compiler."""
    if part == "tests":
        return [f"{crate}_tests"]
    return ["rlib", crate, f"{crate}.by-rattle"]


def link(source, target):
    """Gives a file of a library, which no proof writes in place, a further name, or copies it where that cannot be."""
    try:
        os.link(source, target)
    except OSError:
        shutil.copy2(source, target)


def copied(source, target):
    """Puts a copy of a folder or of a file, where there is one, in the place of what stands there."""
    if target.is_dir():
        shutil.rmtree(target)
    target.unlink(missing_ok=True)
    if source.is_dir():
        shutil.copytree(source, target, copy_function=link)
    elif source.is_file():
        shutil.copy2(source, target)


def sum_of(folder):
    """A sum of the names and the bytes of all files below a folder, but of those that tell about the others."""
    found = hashlib.sha256()
    for path in sorted(it for it in folder.rglob("*") if it.is_file() and it.name not in (SINCE, SUM)):
        found.update(str(path.relative_to(folder)).encode() + b"\n")
        with open(path, "rb") as file:
            while piece := file.read(1 << 22):
                found.update(piece)
    return found.hexdigest()


class Kept:
    """The proofs that are kept in a folder, of the crates of a checkout."""

    def __init__(self, top, folder=FOLDER):
        self.top, self.folder = Path(top), Path(folder)
        self.uses = unproved.crates_of((self.top / "crates.txt").read_text(encoding="utf8"))
        # The sum of each library that stands proved in this run.
        self.marks = {}

    def out(self, crate):
        return self.top / "crates" / crate / "out"

    def record(self, crate, part):
        """The folder of a proof, be it there or not; nothing where a library below stands unproved."""
        marks = [self.marks.get(it) for it in unproved.below([crate], self.uses)]
        if None in marks:
            return None
        lines = [it for it in (self.top / "crates.txt").read_text(encoding="utf8").splitlines() if it.partition(":")[0].split()[:1] == [crate]]
        whole = (unproved.kit() / "KIT-ID").read_bytes(), (self.top / "HANDLES").read_bytes(), part, lines, marks
        found = hashlib.sha256(repr(whole).encode())
        for folder in ("src", "specs", "proofs"):
            for path in sorted((self.top / "crates" / crate / folder).rglob("*")):
                if path.is_file():
                    found.update(repr((str(path.relative_to(self.top)), path.read_bytes())).encode())
        return self.folder / found.hexdigest()[:32]

    def found(self, crate, part):
        """The folder of a proof whose bytes are right, and its library counts as proved; nothing where none is kept."""
        record = self.record(crate, part)
        if record is None or not record.is_dir():
            return None
        if not (record / SUM).is_file() or sum_of(record) != (record / SUM).read_text(encoding="utf8"):
            shutil.rmtree(record)
            return None
        if (record / MARK).is_file():
            self.marks[crate] = (record / MARK).read_text(encoding="utf8")
        return record

    def take(self, crate, part):
        """Puts a kept proof into the crate's out/, and says since when it is kept; nothing where none is."""
        record = self.found(crate, part)
        if record is None:
            return None
        self.out(crate).mkdir(parents=True, exist_ok=True)
        for name in parts_of(crate, part):
            copied(record / name, self.out(crate) / name)
        os.utime(record)
        return (record / SINCE).read_text(encoding="utf8")

    def keep(self, crate, part):
        """Keeps a proof that `rt ci` has just made, and has its library count as proved."""
        record = self.record(crate, part)
        if record is None:
            return
        self.folder.mkdir(parents=True, exist_ok=True)
        new = Path(tempfile.mkdtemp(prefix="new-", dir=self.folder))
        for name in parts_of(crate, part):
            copied(self.out(crate) / name, new / name)
        if part == "proof" and (new / "rlib").is_dir():
            self.marks[crate] = sum_of(new / "rlib")
            (new / MARK).write_text(self.marks[crate], encoding="utf8")
        (new / SINCE).write_text(time.strftime("%Y-%m-%d %H:%M", time.gmtime()), encoding="utf8")
        (new / SUM).write_text(sum_of(new), encoding="utf8")
        try:
            new.rename(record)
        except OSError:
            # another run has kept it meanwhile
            shutil.rmtree(new)
        self.forget()

    def forget(self):
        """Takes away what no run has taken for a week, and what a run that was stopped has left."""
        for it in self.folder.iterdir():
            if it.stat().st_mtime < time.time() - WEEK:
                shutil.rmtree(it, ignore_errors=True)

    def taken(self, crate, part):
        """As `take`; a folder that cannot be read keeps nothing."""
        try:
            return self.take(crate, part)
        except OSError as error:
            print(f"rt: no proof of {crate} is taken from {self.folder}: {error}", flush=True)
            return None

    def kept(self, crate, part):
        """As `keep`; a folder that cannot be written to keeps nothing."""
        try:
            self.keep(crate, part)
        except OSError as error:
            print(f"rt: the proof of {crate} is not kept in {self.folder}: {error}", flush=True)

    def over(self, tasks):
        """The tasks of `rt ci`, of which each that has work takes a kept proof where there is one, and else keeps its own."""
        return {
            key: (waits, work, memory, self.asking(key, waits, call) if work else call)
            for key, (waits, work, memory, call) in tasks.items()
        }

    def asking(self, key, waits, call):
        crate, part = key

        def asked(given, jobs):
            if part not in ("proof", "tests") or not all(given[it] for it in waits):
                return call(given, jobs)
            since = self.taken(crate, part)
            if since is not None:
                print(f"rt: {crate}{': its tests are' * (part == 'tests')} kept, proved at {since} UTC", flush=True)
                return True
            is_proved = call(given, jobs)
            if is_proved:
                self.kept(crate, part)
            return is_proved

        return asked
