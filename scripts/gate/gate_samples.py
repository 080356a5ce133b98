#!/usr/bin/env python3
"""The self-test of the scripts that prove, build, install and run: how the times of a run are written and read, how the gate
begins and shares processors, what counts as proved, what is installed, and how a script ends that is stopped or finds no fitting kit.

It proves and builds nothing: a command `rt` of its own stands in for the toolchain's. The last line counts the samples that
went as they should.
"""
import contextlib
import hashlib
import io
import json
import os
import shutil
import signal
import subprocess
import sys
import tarfile
import tempfile
import threading
import time
from pathlib import Path
from types import SimpleNamespace
from unittest import mock

sys.path.insert(0, str(Path(__file__).resolve().parent.parent))
import install  # noqa: E402
import library  # noqa: E402
import proved  # noqa: E402
import stamp  # noqa: E402
import unproved  # noqa: E402
import proofs as travelling  # noqa: E402
from gate import copies, gate_line, kept, lanes, times  # noqa: E402
from gate.kept import Kept  # noqa: E402

TOP = Path(__file__).resolve().parents[2]
SECONDS = 60
CRATES = "# All.\nlow: thiserror\nside: low\n\nhigh: low anyhow\ntop: low high\n"
TIMES = "low\tproof\t0\t90\t2\t150\nhigh\tproof\t91\t126\t4\t120\nhigh\ttests\t130\t160\t2\t48\ncedar_frames\tproof\t2\t70\t2\t66\n"
BEFORE = ["abc1234", "2026-01-02", "gate", "4", "22", "a kit"]
WORDS = "low=0.0-1.5/2.5 high=1.5-2.1/2.0 high+tests=2.2-2.7/0.8 cedar_frames=0.0-1.2/1.1"
ROW = "\t".join([*BEFORE, "12", "15", "66", "7", "1", WORDS])
READ = {"low": [0.0, 1.5, 2.5], "high": [1.5, 2.1, 2.0], "high+tests": [2.2, 2.7, 0.8], "cedar_frames": [0.0, 1.2, 1.1]}
OLDER = ROW.replace("cedar_frames=0.0-1.2/1.1", "top=10-19.6/?").replace("\t4\t", "\t2\t")


def table(*rows):
    return "".join(f"{row}\n" for row in ("\t".join(gate_line.COLUMNS), *rows))


def is_refused(text):
    try:
        gate_line.rows_of(text)
    except ValueError:
        return True
    return False


def lines():
    """What gate_line.py makes of a run: each sample, and whether it goes as it should."""
    with tempfile.NamedTemporaryFile("w+") as file:
        file.write(TIMES)
        file.flush()
        proofs = times.read(file.name)
    yield "a row", gate_line.row_of(BEFORE, "719", "905", "7", "1", proofs) == ROW
    yield "a row without the yardstick", gate_line.row_of(BEFORE, "719", "905", "7", "1", proofs[:1]).split("\t")[8] == "?"
    yield "a run that proved nothing", times.read("/no/such/file") == []
    read = gate_line.rows_of(table(ROW))
    yield "a row that is read", len(read) == 1 and read[0]["proofs"] == READ and read[0]["minutes by the clock"] == "12"
    yield "the share of two crates", gate_line.share_of(read[0], ["low", "high", "new"]) == (3, 5.3, 5.3)
    [older] = gate_line.rows_of(table(OLDER))
    yield "the share of a proof that was not seen", gate_line.share_of(older, ["low", "top"]) is None and gate_line.share_of({**read[0], gate_line.COLUMNS[8]: "33"}, ["low"]) == (1, 2.5, 5)
    with tempfile.TemporaryDirectory() as room:
        record = Path(room, "record.tsv")
        yield "no record", gate_line.remembered(["cedar_frames"], [], file=record) == []
        frames = [it for it in proofs if it.crate == "cedar_frames"]
        gate_line.remember(frames, file=record)
        found = gate_line.remembered(["cedar_frames", "cedar_types"], [], file=record)
        yield "a proof that was kept", [*map(gate_line.word_of, found)] == ["cedar_frames=?-?/1.1"]
        yield "a proof that was made", gate_line.remembered(["cedar_frames"], frames, file=record) == []
    yield "rows of another form", is_refused(ROW) and is_refused("") and is_refused(table(ROW + "\tmore"))
    yield "docs/gate.tsv", gate_line.rows_of(gate_line.TABLE.read_text()) != []
    yield "memory", gate_line.gigabytes("MemFree: 1 kB\nMemAvailable:   22000000 kB\n") == "22" and gate_line.gigabytes("") == "?"
    before = gate_line.known_before("gate")
    yield "before a run", len(before) == len(BEFORE) and int(before[3]) > 0 and not any("\t" in it or not it for it in before)


def ended(words):
    """How an installation ends: its status, and what it says on standard output and standard error."""
    out, error = io.StringIO(), io.StringIO()
    with contextlib.redirect_stdout(out), contextlib.redirect_stderr(error):
        status = install.main(words)
    return status, out.getvalue(), error.getvalue()


def forecasts():
    """How long a proof is said to take."""
    uses = unproved.crates_of(CRATES)
    yield "what crates stand on", [unproved.below([it], uses) for it in ("top", "side")] == [["low", "high"], ["low"]]
    needed = proved.needed()
    yield "what the program stands on", needed[-1] == "cedar_validate" and "cedar_types" in needed and "cedar_tests" not in needed
    rows = gate_line.rows_of(table(OLDER, ROW))
    found = install.minutes_of(["low", "high", "top"], rows)
    yield "the newest row that has all", found == (rows[0], 12)
    yield "a newer row", install.minutes_of(["low", "high"], rows) == (rows[1], 2)
    yield "no row", install.minutes_of(["low", "side"], rows) is None and install.minutes_of(["new"], rows) is None
    yield "minutes", install.forecast(found).startswith("this takes some 12 minutes, by a run of the gate on 2 cores ")
    yield "no minutes", "is not known" in install.forecast(None)


def a_program(path):
    """Writes what stands for a program that was built: the text of its build, and something else."""
    path.parent.mkdir(parents=True, exist_ok=True)
    path.write_bytes(b"begin " + stamp.MARK.ljust(stamp.LENGTH) + b" end")


@contextlib.contextmanager
def kept_in(room):
    """Has the proved program, and the one that `rt run` builds, stand in this folder."""
    before = proved.KEPT, proved.BUILT
    proved.KEPT, proved.BUILT = Path(room, "proved", "it"), Path(room, "built", "it")
    try:
        yield
    finally:
        proved.KEPT, proved.BUILT = before


def contents():
    """Which program counts as proved."""
    with tempfile.TemporaryDirectory() as room, kept_in(room):
        yield "none", proved.program() is None
        a_program(proved.BUILT)
        proved.keep(proved.BUILT, proved.sum_of_texts())
        yield "one that was proved", proved.program() == proved.KEPT and os.access(proved.KEPT, os.X_OK)
        text = proved.KEPT.read_bytes()
        yield "its build", stamp.text(is_proved=True).encode() in text and stamp.MARK not in text and len(text) == len(proved.BUILT.read_bytes())
        now = time.time() + 3600
        a_program(proved.KEPT)
        os.utime(proved.KEPT, (now, now))
        yield "another program, however new", proved.program() is None
        proved.keep(proved.BUILT, "the sum of other texts")
        yield "one of other texts", proved.program() is None
        proved.BUILT.write_text("no text of a build")
        try:
            proved.keep(proved.BUILT, proved.sum_of_texts())
            yield "one without the text of its build", False
        except stamp.NotStamped:
            yield "one without the text of its build", proved.program() is None


def installations():
    """What is installed, from a program that stands, that can be proved, and that cannot."""
    with tempfile.TemporaryDirectory() as room, kept_in(room):
        folder, file = Path(room, "a", "bin"), Path(room, "file")
        target = folder / install.NAME
        file.touch()
        for words in (["--prove"], [f"{folder}", "more"], [""], [f"{file}"], [f"{file}/bin"]):
            status, out, error = ended(words)
            yield f"wrong: {words}", status == 2 and not out and error.startswith("scripts/install: ")
        status, out, error = ended(["--help"])
        yield "--help", (status, out, error) == (0, install.USAGE, "")
        proving = proved.prove
        proved.prove = lambda: False
        status, out, error = ended([f"{folder}"])
        line = f"scripts/install: proving {len(proved.needed())} crates: cedar_types "
        yield "no proof", status == 70 and not out and line in error and not list(folder.iterdir())
        a_program(proved.BUILT)
        proved.prove = lambda: proved.keep(proved.BUILT, proved.sum_of_texts()) is None
        status, out, error = ended([f"{folder}"])
        proved.prove = proving
        yield "a proof", (status, out) == (0, f"installed {target}, which is proved\n") and line in error
        yield "a folder that is not on the PATH", error.endswith(f"{folder} is not on the PATH\n")
        yield "the program", target.read_bytes() == proved.KEPT.read_bytes() and target.stat().st_mode & 0o777 == 0o755
        yield "nothing else", list(folder.iterdir()) == [target]
        target.unlink()
        status, out, error = ended([f"{folder}"])
        yield "a program that stands", status == 0 and line not in error and target.is_file()
        os.environ["HOME"] = room
        yield "no folder named", ended([])[0] == 0 and Path(room, ".local", "bin", install.NAME).is_file()
        target.unlink()
        target.mkdir()
        yield "a folder of that name", ended([f"{folder}"])[0] == 2


def libraries():
    """How the C library is installed: the words, that nothing is put where nothing was proved, and what is put where it was."""
    over = library.over
    with tempfile.TemporaryDirectory() as room:
        folder, proving, putting = Path(room, "a"), proved.prove_copy, library.put
        for words in ([], [""], ["--proved"], [f"{folder}", "more"]):
            yield f"wrong: {words}", ended(["--library", *words])[0] == 2
        try:
            proved.prove_copy = lambda crates, copy: False
            yield "no proof", refuses(library.with_proof) and not folder.exists()
            proved.prove_copy = lambda crates, copy: crates[-1] == library.CRATE
            library.over = lambda copy: copy
            library.put = lambda calls, to: to.mkdir(parents=True)
            line = "scripts/install: proving "
            status, out, error = ended(["--library", f"{folder}"])
            yield "a proof", (status, out) == (0, f"installed the library in {folder}, which is proved\n") and error.startswith(line) and folder.is_dir()
        finally:
            proved.prove_copy, library.put, library.over = proving, putting, over
        yield "over no gate", refuses(lambda: library.over(folder))
    module = [f'define internal i32 @"joined::of_cedar_c::{name}"(ptr %0) {{\n' for name in library.CALLS]
    kept = "".join(library.exported([*module, "define i32 @main() {\n"]))
    yield "exports", kept == "".join(f"define i32 @{name}(ptr %0) {{\n" for name in library.CALLS) + "define internal i32 @main() {\n"
    yield "a call that is missing", refuses(lambda: list(library.exported(module[1:])))


def refuses(build):
    try:
        build()
    except library.NotBuilt:
        return True
    return False


# A command `rt` that notes its words and whether CI is set, and ends as rt ci does where all passed.
NOTES = '''#!/usr/bin/env python3
import os, sys


def main(words):
    with open(os.environ["NOTES"], "a") as notes:
        notes.write(" ".join(words) + "\\n")
    print("3 passed, 0 failed")
    return 0


def in_lanes(tasks):
    return {}


if __name__ == "__main__":
    sys.exit(print("a kit") if sys.argv[1] == "version" else main(sys.argv[1:]))
'''
# One that waits until it is ended.
WAITS = '''#!/usr/bin/env python3
import os, pathlib, time


def main(words):
    pathlib.Path(os.environ["BEGUN"]).touch()
    time.sleep(60)


def in_lanes(tasks):
    return {}
'''


@contextlib.contextmanager
def with_rt(text):
    """A copy of the scripts, of what they read and of a toolchain whose command `rt` this is, and the environment for it."""
    with tempfile.TemporaryDirectory() as held:
        room = Path(held)
        shutil.copytree(TOP / "scripts", room / "scripts", ignore=shutil.ignore_patterns("__pycache__"))
        for crate in unproved.USES:
            (room / "crates" / crate / "src").mkdir(parents=True)
        (room / "docs").mkdir()
        for name in ("crates.txt", "HANDLES", "docs/gate.tsv"):
            shutil.copy(TOP / name, room / name)
        (room / "kit" / "bin").mkdir(parents=True)
        (room / "kit" / "KIT-ID").write_text("a kit\n")
        (room / "kit" / "bin" / "rt").write_text(text)
        (room / "kit" / "bin" / "rt").chmod(0o755)
        path = f"{room}/kit/bin:{os.environ['PATH']}"
        yield room, {**os.environ, "PATH": path, "NOTES": f"{room}/notes", "BEGUN": f"{room}/begun", "HOME": held}


GIGABYTE = 10**9


class Proofs:
    """Tasks as `rt` has them, which note what they were given."""

    def __init__(self):
        self.tasks, self.begun, self.at_once, self.most, self.lock = {}, {}, 0, 0, threading.Lock()

    def add(self, name, waits, work, gigabytes):
        waits = [(it, "proof") for it in waits]
        task = waits, 1000 * work, gigabytes * GIGABYTE, lambda given, jobs: self.prove(name, waits, given, jobs)
        self.tasks[name, "proof"] = task

    def prove(self, name, waits, given, jobs):
        with self.lock:
            self.at_once += jobs
            self.most = max(self.most, self.at_once)
            self.begun[name] = jobs, all(it in given for it in waits)
        time.sleep(0.02)
        with self.lock:
            self.at_once -= jobs
        return f"{name} ended"


def shares():
    """How the proofs of `rt ci` share processors and memory."""
    proofs = Proofs()
    proofs.add("low", [], 10, 4)
    for name in ("side", "high", "more", "last"):
        proofs.add(name, ["low"], 5, 4)
    proofs.add("no work", ["low"], 0, 4)
    proofs.add("top", ["high", "no work"], 30, 4)
    given = lanes.side_by_side(proofs.tasks, 4, lambda: 20 * GIGABYTE)
    yield "each once", given == {key: f"{key[0]} ended" for key in proofs.tasks}
    yield "each behind what it waits for", all(well for _, well in proofs.begun.values())
    yield "no more jobs than processors", proofs.most == 4
    yield "the lowest has all processors", proofs.begun["low"][0] == 4
    yield "the longest chain first", [*proofs.begun][:3] == ["low", "no work", "high"]
    short = Proofs()
    short.add("low", [], 10, 4)
    short.add("alone", [], 1, 4)
    for name in ("high", "side"):
        short.add(name, ["low"], 10, 4)
    lanes.side_by_side(short.tasks, 4, lambda: 20 * GIGABYTE)
    yield "a short proof takes no processor of the lowest", short.begun["low"][0] == 4 and [*short.begun][0] == "low"
    yield "equal chains have equal shares", [short.begun[it][0] for it in ("high", "side")] == [2, 2]
    small = Proofs()
    for name in ("one", "two"):
        small.add(name, [], 5, 4)
    lanes.side_by_side(small.tasks, 4, lambda: 5 * GIGABYTE)
    yield "as many as memory holds, with one job", small.most == 1
    few = Proofs()
    for name in ("one", "two", "three"):
        few.add(name, [], 5, 1)
    lanes.side_by_side(few.tasks, 2, lambda: 20 * GIGABYTE)
    yield "two jobs for each proof on two processors", [jobs for jobs, _ in few.begun.values()] == [2, 2, 2] and few.most == 2
    lone = Proofs()
    lone.add("one", [], 5, 1)
    lanes.side_by_side(lone.tasks, 1, lambda: 20 * GIGABYTE)
    yield "one job on one processor", lone.begun["one"][0] == 1
    small.add("huge", ["one"], 5000, 40)
    yield "one that no memory holds", lanes.side_by_side(small.tasks, 4, lambda: 5 * GIGABYTE).keys() == small.tasks.keys()
    with tempfile.NamedTemporaryFile() as marker, mock.patch.dict(os.environ, {lanes.BESIDE: marker.name}):
        memory = lanes.memory_beside(20 * GIGABYTE)
        beside = memory()
    yield "memory beside tests", round(memory() - beside) == lanes.TESTS
    with mock.patch.dict(os.environ):
        os.environ.pop(lanes.BESIDE, None)
        yield "memory without tests", lanes.memory_beside(GIGABYTE)() == 0.92 * GIGABYTE
    yield "tasks that are known", lanes.are_known(proofs.tasks)
    yield "other tasks", not lanes.are_known({("low", "more"): ([], 1, 1, None)}) and not lanes.are_known({("low", "proof"): ([], 1)})


class Checkout:
    """A checkout of two crates, one above the other, with a folder for proofs, and which proofs are made there."""

    def __init__(self, room):
        self.top, self.store, self.made, self.is_well = Path(room, "top"), Path(room, "store"), [], True
        for crate in ("low", "high"):
            self.write(crate, "a text")
        (self.top / "crates.txt").write_text("# All.\nlow:\nhigh: low\n")
        (self.top / "HANDLES").write_text("none\n")

    def write(self, crate, text):
        path = self.top / "crates" / crate / "src" / "lib.rt"
        path.parent.mkdir(parents=True, exist_ok=True)
        path.write_text(text)

    def prove(self, crate, part):
        out = self.top / "crates" / crate / "out"
        (out / "rlib").mkdir(parents=True, exist_ok=True)
        (out / "rlib" / "it").write_text(f"{crate} by {(self.top / 'crates' / crate / 'src' / 'lib.rt').read_text()}")
        (out / f"{crate}_tests").write_text(part)
        self.made.append((crate, part))
        return self.is_well

    def run(self):
        """Makes or takes the proofs from an empty out/, as `rt ci` does, and answers those that were made."""
        self.made = []
        for crate in ("low", "high"):
            shutil.rmtree(self.top / "crates" / crate / "out", ignore_errors=True)
        tasks = {("low", "proof"): [], ("high", "proof"): [("low", "proof")], ("high", "tests"): [("low", "proof")]}
        tasks = {key: (waits, 1, 1, lambda given, jobs, key=key: self.prove(*key)) for key, waits in tasks.items()}
        given = {}
        with contextlib.redirect_stdout(io.StringIO()):
            for key, (*_, call) in Kept(self.top, self.store).over(tasks).items():
                given[key] = call(given, 1)
        return [f"{crate} {part}" for crate, part in self.made]

    def library(self, crate):
        return (self.top / "crates" / crate / "out" / "rlib" / "it").read_text()


def keeping():
    """Which proofs are taken from those that the machine keeps."""
    every = ["low proof", "high proof", "high tests"]
    with tempfile.TemporaryDirectory() as room:
        its = Checkout(room)
        yield "nothing kept", its.run() == every
        yield "all kept", its.run() == [] and its.library("high") == "high by a text"
        its.write("high", "another text")
        yield "another text", its.run() == every[1:] and its.library("high") == "high by another text"
        its.write("low", "another text")
        yield "another text below", its.run() == every
        its.write("low", "a text")
        yield "the first text again", its.run() == [] and its.library("low") == "low by a text"
        (its.top / "HANDLES").write_text("more\n")
        yield "other handles", its.run() == every
        for path in its.store.rglob("it"):
            path.unlink()
            path.write_text("other bytes")
        yield "other bytes", its.run() == every[:2] and its.library("low") == "low by a text"
        its.write("high", "a wrong text")
        its.is_well = False
        yield "a proof that fails", its.run() == its.run() == every[1:]
        its.is_well = True
        shutil.rmtree(its.store)
        its.store.write_text("no folder")
        yield "a folder that cannot be", its.run() == its.run() == every


def travels():
    """Which proofs of a file are taken on another machine."""
    with tempfile.TemporaryDirectory() as room, contextlib.redirect_stdout(io.StringIO()) as said:
        here, there = Checkout(Path(room, "here")), Checkout(Path(room, "there"))
        file = Path(room, "proofs")
        store = travelling.OwnStore(here.store, here.top)
        yield "nothing to export", "keeps no proof" in why_nothing(lambda: travelling.export(file, store))
        here.run()
        yield "exported", travelling.export(file, travelling.OwnStore(here.store, here.top)) == ["low", "high"]
        there.write("high", "another text")
        yield "another text", travelling.take(file, travelling.OwnStore(there.store, there.top)) == ["low"]
        yield "what is said of it", "high is left out: its texts, or those below, are others" in said.getvalue()
        there.write("high", "a text")
        yield "imported", travelling.take(file, travelling.OwnStore(there.store, there.top)) == ["low", "high"]
        yield "taken", there.run() == ["high tests"] and there.library("high") == "high by a text"
        there.write("low", "another text")
        shutil.rmtree(there.store)
        yield "another text below", travelling.take(file, travelling.OwnStore(there.store, there.top)) == []
        there.write("low", "a text")
        repacked(file, lambda rows: rows["low"].update(bytes="0" * 64))
        yield "other bytes than listed", travelling.take(file, travelling.OwnStore(there.store, there.top)) == []
        repacked(file, lambda rows: rows["low"].update(folder="../../low"))
        yield "a folder elsewhere", travelling.take(file, travelling.OwnStore(there.store, there.top)) == []
        file.write_bytes(b"no pack")
        yield "no such file", "is no file of" in why_nothing(lambda: travelling.take(file, store))


class KitThatKeeps:
    """What stands for the module `rt` of a kit that keeps proofs itself, in a store, of the crates of a checkout."""

    class Crate:
        allowed = ()

        def __init__(self, top, name, below):
            self.name, self.folder, self.libraries = name, f"{top}/crates/{name}", below

        def below(self):
            return self.libraries

    class Kept:
        def key(self, crate):
            return hashlib.sha256(repr((Path(crate.folder, "src", "lib.rt").read_text(), [self.rlibs[it.name] for it in crate.below()])).encode()).hexdigest()

    def __init__(self, store):
        self.STORE = str(store)

    def handles_of(self, top):
        return ()

    def crates_of(self, top):
        low = self.Crate(top, "low", [])
        return [low, self.Crate(top, "high", [low])]

    def keep(self, top):
        """Keeps what it proves of both crates of a checkout."""
        its = travelling.StoreOfKit(self, top)
        for crate in ("low", "high"):
            its.place(crate).mkdir(parents=True)
            Path(its.place(crate), "0").write_text("a library")
            Path(its.place(crate), "made.json").write_text(json.dumps({"key": its.key(crate), "files": [["rlib/it", its.key(crate)]]}))


def travels_by_kit():
    """Which proofs of a file are taken where the kit keeps proofs itself."""
    with tempfile.TemporaryDirectory() as room, contextlib.redirect_stdout(io.StringIO()):
        here, there = Checkout(Path(room, "here")), Checkout(Path(room, "there"))
        file, kit, other = Path(room, "proofs"), KitThatKeeps(here.store), KitThatKeeps(there.store)
        yield "nothing to export", "keeps no proof" in why_nothing(lambda: travelling.export(file, travelling.StoreOfKit(kit, here.top)))
        here.write("high", "an older text")
        kit.keep(here.top)
        here.write("high", "a text")
        yield "an older text", travelling.export(file, travelling.StoreOfKit(kit, here.top)) == ["low"]
        shutil.rmtree(here.store)
        kit.keep(here.top)
        yield "exported", travelling.export(file, travelling.StoreOfKit(kit, here.top)) == ["low", "high"]
        its = travelling.StoreOfKit(other, there.top)
        yield "imported", travelling.take(file, its) == ["low", "high"] and its.files("high") and (its.place("low") / "0").is_file()
        yield "nothing is left beside", len([*there.store.iterdir()]) == 2
        shutil.rmtree(there.store)
        there.write("high", "another text")
        yield "another text", travelling.take(file, travelling.StoreOfKit(other, there.top)) == ["low"]
        there.write("low", "another text")
        yield "another text below", travelling.take(file, travelling.StoreOfKit(other, there.top)) == []
        there.write("low", "a text")
        repacked(file, lambda rows: rows["low"].update(folder=rows["high"]["folder"], bytes=rows["high"]["bytes"]))
        yield "the proof of another crate", travelling.take(file, travelling.StoreOfKit(other, there.top)) == []


def store_that_is_named():
    """Where proofs are kept, if CEDAR_PROOFS names a folder."""
    for at, keeps in ((None, True), ("elsewhere", True), ("elsewhere", False)):
        rt = SimpleNamespace(STORE="/of/kit", WORK="/of/kit/work") if keeps else SimpleNamespace()
        with mock.patch.dict(os.environ, {kept.NAMED: at} if at else {}), mock.patch.object(unproved, "module_of_kit", lambda name: rt):
            found = kept.of_kit(kept.module_of_kit())
        yield f"{at} {keeps}", found == ((Path("/of/kit") if at is None else Path.cwd() / at) if keeps else None)


def why_nothing(call):
    try:
        call()
    except travelling.Wrong as why:
        return str(why)
    return ""


def repacked(file, change):
    """Packs a file of proofs again, after a change of the rows of its list."""
    with tempfile.TemporaryDirectory() as held:
        room = Path(held)
        with tarfile.open(file) as pack:
            pack.extractall(room)
        listed = json.loads((room / travelling.LIST).read_text())
        change(listed["proofs"])
        (room / travelling.LIST).write_text(json.dumps(listed))
        with tarfile.open(file, "w:xz") as pack:
            for it in room.iterdir():
                pack.add(it, it.name)


def beginnings():
    """How the gate begins: `rt ci` in a copy without the crates that are only run, and with --all in one of all crates."""
    with with_rt(NOTES) as (room, env):
        for words in ([], ["--all"]):
            Path(room, "notes").unlink(missing_ok=True)
            done = subprocess.run([room / "scripts" / "prove", *words], env=env, stdin=subprocess.DEVNULL, capture_output=True, text=True, timeout=SECONDS)
            yield f"the gate {words}", Path(room, "notes").read_text().splitlines() == ["ci"]
            made = {it.name for it in (room / "out" / "gate" / "crates").iterdir()}
            yield f"its copy {words}", made == {*unproved.USES} if words else not any(copies.is_run_alone(it) for it in made)
            # what stands for the kit has no `rattle`, so all parts but the first fail
            yield f"a part that fails {words}", "== failed in scripts/where_cases.py" in done.stdout and done.returncode == 1
        done = subprocess.run([room / "scripts" / "prove", "--every"], env=env, stdin=subprocess.DEVNULL, capture_output=True, text=True, timeout=SECONDS)
        yield "a word that is none", (done.returncode, done.stderr) == (2, "usage: scripts/prove [--all]\n")
    try:
        copies.proved_crates({"a_tests": [], "b": ["a_tests"]})
        yield "a crate that stands on tests", False
    except copies.StandsOnTests:
        yield "a crate that stands on tests", True


def heed_interrupts():
    """Has a child heed SIGINT, which a shell has what it starts in the background ignore."""
    signal.signal(signal.SIGINT, signal.SIG_DFL)


def stopped(words, env, begun, number):
    """How a script ends at a signal, once `rt` has begun: its status, and what it says last."""
    begun.unlink(missing_ok=True)
    child = subprocess.Popen(words, env=env, stdin=subprocess.DEVNULL, stdout=subprocess.PIPE, stderr=subprocess.PIPE, text=True, preexec_fn=heed_interrupts)
    for _ in range(SECONDS * 10):
        if begun.exists() or child.poll() is not None:
            break
        time.sleep(0.1)
    child.send_signal(number)
    out, error = child.communicate(timeout=SECONDS)
    return child.returncode, error.splitlines()[-1:], "Traceback" in out + error


def endings():
    """How scripts end that are stopped while they prove, or for which the kit has not what a build without a proof takes."""
    with with_rt(WAITS) as (room, env):
        link = room / "link"
        link.symlink_to(room / "scripts" / "validate")
        for number in (signal.SIGINT, signal.SIGTERM):
            said = stopped([link, "--proved", "s", "p"], env, room / "begun", number)
            yield f"validate at {number.name}", said == (70, ["scripts/validate: stopped"], False)
            said = stopped([room / "scripts" / "install", room / "bin"], env, room / "begun", number)
            yield f"install at {number.name}", said == (70, ["scripts/install: stopped; nothing was installed"], False)
        done = subprocess.run([link, "s", "p"], env=env, stdin=subprocess.DEVNULL, capture_output=True, text=True, timeout=SECONDS)
        yield "a kit that does not fit", done.returncode == 70 and done.stderr.endswith("/kit has no toolchain/bin/clang\n")


def main():
    passed = failed = 0
    for part in (lines, forecasts, contents, installations, libraries, shares, keeping, travels, travels_by_kit, store_that_is_named, beginnings, endings):
        for what, is_well in part():
            passed += is_well
            failed += not is_well
            if not is_well:
                print(f"{part.__name__}: {what}")
    print(f"{passed} passed, {failed} failed")
    return 1 if failed else 0


if __name__ == "__main__":
    sys.exit(main())
