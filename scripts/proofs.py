#!/usr/bin/env python3
"""Takes proofs of the libraries from one machine to another: scripts/proofs export FILE, import FILE, or check CRATE.

`export` writes the proofs that this machine keeps of the libraries, as their texts are, with a list of sums: the kit, the texts
of each crate with those below, and the bytes of each proof. `import` puts each proof of such a file that fits the kit and the texts at
hand into the store of this machine, so that scripts/prove takes it. A proof whose texts or bytes have another sum is left out, and
each crate above it. Whoever imports a file trusts who made it: the sums say of which texts a proof is, and not that it is one.
`check` proves one library again, over the libraries below that are kept, and compares all its bytes with those that are kept.

Where a kit keeps proofs itself, its own sums say which of them are of the texts at hand. The exit status is 0 if something was
written, taken or found equal, 1 if not, and 2 where an argument is wrong.
"""
import contextlib
import hashlib
import json
import os
import sys
import tarfile
import tempfile
from pathlib import Path
from types import SimpleNamespace

import unproved
from gate import copies, kept, lanes

TOP = unproved.TOP
LIST = "proofs.json"
USAGE = "usage: scripts/proofs export FILE | import FILE | check CRATE"


class Wrong(Exception):
    """Why nothing was done."""


def kit_id():
    return (unproved.kit() / "KIT-ID").read_text(encoding="utf8").strip()


class Store:
    """Where a machine keeps proofs of the libraries of a checkout."""

    def __init__(self, folder, top):
        self.folder, self.top = Path(folder), Path(top)
        self.uses = unproved.crates_of((self.top / "crates.txt").read_text(encoding="utf8"))

    def libraries(self):
        """The libraries that the gate proves, lowest first."""
        return [it for it in copies.proved_crates(self.uses) if (self.top / "crates" / it / "src" / "lib.rt").is_file()]

    def with_below(self, crate):
        return [*unproved.below([crate], self.uses), crate]

    def sum_of_texts(self, crate):
        """A sum of all texts of a crate and of those below."""
        found = hashlib.sha256((self.top / "HANDLES").read_bytes())
        for name in self.with_below(crate):
            found.update(repr((name, self.uses[name])).encode())
            for part in ("src", "specs", "proofs"):
                for path in sorted(it for it in (self.top / "crates" / name / part).rglob("*") if it.is_file()):
                    found.update(repr((str(path.relative_to(self.top)), path.read_bytes())).encode())
        return found.hexdigest()


class OwnStore(Store):
    """The store of scripts/gate/kept.py."""

    def __init__(self, folder=kept.FOLDER, top=TOP):
        super().__init__(folder, top)
        self.kept = kept.Kept(top, folder)

    def proof(self, crate):
        """The folder of the proof of a library as its texts are, if there is one."""
        return self.kept.found(crate, "proof")

    def takes(self, crate, proof):
        """Whether a folder has the name of a proof of these texts, over the libraries below that are kept."""
        record = self.kept.record(crate, "proof")
        return record is not None and record.name == proof.name

    def is_same_anew(self, crate):
        """Whether a library has the bytes that are kept, once it is proved again in the current folder."""
        anew = Anew(os.getcwd(), self.folder, crate)
        status = lanes.ci(kept.module_of_kit(), anew.over)
        return status == 0 and anew.answers == [True]


class StoreOfKit(Store):
    """The store in which a kit keeps proofs itself, by keys of its own."""

    def __init__(self, rt, top=TOP):
        super().__init__(rt.STORE, top)
        self.rt, self.keys = rt, {}
        # (the kit reads only the crates of a folder without a repository around it)
        self.room = tempfile.TemporaryDirectory()
        copy = Path(self.room.name, "copy")
        copies.make(self.libraries(), copy, self.top)
        rt.Crate.allowed = rt.handles_of(str(copy))
        self.crates = {it.name: it for it in rt.crates_of(str(copy))}

    def key(self, crate):
        """The kit's key of a library as its texts are, over those below that are kept; nothing where one of these is not."""
        if crate not in self.keys:
            below = {it.name: self.files(it.name) for it in self.crates[crate].below()}
            if not all(below.values()):
                return None
            rlibs = {name: hashlib.sha256(repr([tuple(it) for it in files]).encode()).hexdigest() for name, files in below.items()}
            self.keys[crate] = self.rt.Kept.key(SimpleNamespace(rlibs=rlibs), self.crates[crate])
        return self.keys[crate]

    def place(self, crate):
        return self.folder / f"proof-{crate}-{self.key(crate)}"

    def files(self, crate):
        """The files of a library that is kept, each with its sum; nothing where none is."""
        return listed_files(self.place(crate), self.key(crate))

    def proof(self, crate):
        return self.place(crate) if self.files(crate) else None

    def takes(self, crate, proof):
        return proof.name == self.place(crate).name and bool(listed_files(proof, self.key(crate)))

    def is_same_anew(self, crate):
        """Whether a library has the bytes that are kept, once it is proved again in the current folder."""
        answers, files, sum_of_file = [], self.files(crate), self.rt.rtlib.sum_of

        class KeptAnew(self.rt.Kept):
            def give(self, it, tests, key):
                return it.name != crate and super().give(it, tests, key)

            def in_turn(self, it, tests, key):
                return contextlib.nullcontext(False) if it.name == crate else super().in_turn(it, tests, key)

            def keep(self, it, tests, key):
                if it.name == crate and not tests:
                    answers.append([[path, sum_of_file(f"{it.folder}/out/{path}")] for path in self.made(it, tests)] == files)

        self.rt.Kept = KeptAnew
        return lanes.ci(self.rt, lambda tasks: tasks) == 0 and answers == [True]


def listed_files(proof, key):
    """The files of a proof that a kit kept by a key, each with its sum; nothing where the folder has no such list."""
    try:
        made = json.loads((proof / "made.json").read_text(encoding="utf8"))
        return [[str(path), str(of)] for path, of in made["files"]] if key and made["key"] == key else None
    except (OSError, ValueError, KeyError, TypeError):
        return None


def store():
    rt = kept.module_of_kit()
    return StoreOfKit(rt) if kept.of_kit(rt) else OwnStore()


def export(file, its):
    """Writes the proofs that a store has of the libraries as they are, and answers their crates."""
    held = {crate: its.proof(crate) for crate in its.libraries()}
    held = {crate: folder for crate, folder in held.items() if folder}
    if not held:
        raise Wrong("this machine keeps no proof of a library as its texts are: run scripts/prove first")
    rows = {it: {"folder": folder.name, "texts": its.sum_of_texts(it), "bytes": kept.sum_of(folder)} for it, folder in held.items()}
    with tempfile.TemporaryDirectory() as room:
        listed = Path(room, LIST)
        listed.write_text(json.dumps({"kit": kit_id(), "proofs": rows}, indent=1), encoding="utf8")
        with tarfile.open(file, "w:xz", preset=3) as pack:
            pack.add(listed, LIST)
            for folder in held.values():
                pack.add(folder, folder.name)
    return list(held)


def unpacked(file, room):
    """Unpacks a file of proofs into a folder, and answers its list."""
    try:
        with tarfile.open(file, "r:xz") as pack:
            for member in pack:
                if not (member.isfile() or member.isdir()) or Path(member.name).is_absolute() or ".." in Path(member.name).parts:
                    raise Wrong(f"{file} has {member.name!r}, which no proof has")
                pack.extract(member, room)
        listed = json.loads((room / LIST).read_text(encoding="utf8"))
        kit, rows = listed["kit"], {name: (row["folder"], row["texts"], row["bytes"]) for name, row in listed["proofs"].items()}
    except (tarfile.TarError, EOFError, ValueError, KeyError, TypeError, AttributeError) as error:
        raise Wrong(f"{file} is no file of scripts/proofs export: {error!r}")
    if kit != kit_id():
        raise Wrong(f"the proofs are by {kit}, and this is {kit_id()}")
    return rows


def why_not(its, crate, folder, texts, sum_of_bytes):
    """Why a proof that was unpacked does not fit the texts at hand, if it does not."""
    if texts != its.sum_of_texts(crate):
        return "its texts, or those below, are others"
    if not folder.is_dir() or kept.sum_of(folder) != sum_of_bytes:
        return "its bytes are not those of the list"
    if not its.takes(crate, folder):
        return "a library below is not the one over which it was proved"
    return None


def take(file, its):
    """Puts each proof of a file that fits into a store, and answers their crates."""
    its.folder.mkdir(mode=0o700, parents=True, exist_ok=True)
    taken = []
    # (by this name the next run takes away what an import that was killed has left)
    with tempfile.TemporaryDirectory(prefix=f"rt-new-{os.getpid()}-", dir=its.folder) as held:
        room = Path(held)
        rows = unpacked(file, room)
        for crate in its.libraries():
            name, texts, sum_of_bytes = rows.get(crate, (None, None, None))
            if name is None:
                continue
            why = why_not(its, crate, room / Path(name).name, texts, sum_of_bytes)
            if why:
                print(f"{crate} is left out: {why}")
                continue
            if not (its.folder / name).is_dir():
                os.rename(room / name, its.folder / name)
            its.proof(crate)
            taken.append(crate)
    return taken


class Anew(kept.Kept):
    """Kept proofs, of which that of one crate is made again, beside the one that stands."""

    def __init__(self, top, folder, crate):
        super().__init__(top, folder)
        self.crate, self.answers = crate, []

    def taken(self, crate, part):
        return None if crate == self.crate else super().taken(crate, part)

    def kept(self, crate, part):
        if (crate, part) != (self.crate, "proof"):
            return super().kept(crate, part)
        old = self.found(crate, part)
        self.answers.append(old is not None and kept.sum_of(old / "rlib") == kept.sum_of(self.out(crate) / "rlib"))


def check(crate, its):
    """Whether a library that is proved again has the bytes of the one that is kept."""
    if crate not in its.libraries():
        raise Wrong(f"there is no library {crate}\n{USAGE}")
    for name in its.with_below(crate):
        if its.proof(name) is None:
            raise Wrong(f"this machine keeps no proof of {name} as its texts are")
    with tempfile.TemporaryDirectory() as held:
        copies.make(its.with_below(crate), Path(held, "copy"))
        os.chdir(Path(held, "copy"))
        try:
            return its.is_same_anew(crate)
        finally:
            os.chdir(TOP)


def main(words):
    if len(words) != 2 or words[0] not in ("export", "import", "check") or words[1].startswith("-"):
        print(USAGE, file=sys.stderr)
        return 2
    try:
        if words[0] == "check":
            is_same = check(words[1], store())
            print(f"{words[1]} was proved again: {'the bytes that are kept' if is_same else 'NOT the bytes that are kept'}")
            return 0 if is_same else 1
        crates = (export if words[0] == "export" else take)(words[1], store())
    except (Wrong, OSError, unproved.KitDoesNotFit) as error:
        print(f"scripts/proofs: {error}", file=sys.stderr)
        return 1
    print(f"{words[0]}ed {len(crates)} proofs: {' '.join(crates)}")
    return 0 if crates else 1


if __name__ == "__main__":
    sys.exit(main(sys.argv[1:]))
