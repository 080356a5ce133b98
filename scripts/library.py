#!/usr/bin/env python3
"""Builds the C library: scripts/library.py [--proved | --gate] DIR.

It puts into DIR what a program in another language links: lib/libcedar.a, lib/libcedar.so.N with the name libcedar.so beside
it, where N is the number that cedar_abi() answers, include/cedar.h and lib/pkgconfig/cedar.pc. The kit's heap functions stand
inside, and no name but those of cedar.h is seen from outside, so that two libraries in Rattle do not meet in one program.

With --proved it proves what crates/cedar_c stands on, in a copy, and then crates/cedar_c. With --gate, after a run of
scripts/prove, it proves crates/cedar_c alone, over the libraries that the gate's copy has. Else the library is built without a proof, and is kept in out/unproved (scripts/unproved.py); nothing is promised of
it. It needs a compiler of C and binutils: cc, ld, objcopy and ar.
"""
import re
import shutil
import subprocess
import sys
import tempfile
from pathlib import Path

import proved
import stamp
import unproved

TOP = Path(__file__).resolve().parent.parent
CRATE = "cedar_c"
HEADER = TOP / "bindings" / "cedar.h"
# What scripts/prove proves.
GATE = TOP / "out" / "gate"
TOOLS = ("cc", "ld", "objcopy", "ar")
# The section that says of which build an object is.
NOTE = ".cedar.build"
CALLS = ("cedar_abi", "cedar_validate", "cedar_check_data", "cedar_typed_conditions", "cedar_schema_open", "cedar_schema_validate",
         "cedar_schema_check_data", "cedar_schema_typed_conditions", "cedar_schema_answer", "cedar_schema_close")
# A program that makes each call, so that the compiler keeps it.
MAIN = """#![tactic(auto)]

mod of_cedar_c;

fn main(rt: HostRuntime) {
    let alloc = rt.alloc();
    let mut needed = of_cedar_c::cedar_abi() as usize;
    let mut room = [0u8; 4];
    let first = of_cedar_c::cedar_validate(alloc, b"", &mut room, &mut needed);
    let second = of_cedar_c::cedar_check_data(alloc, b"", &mut room, &mut needed);
    let third = of_cedar_c::cedar_typed_conditions(alloc, b"", &mut room, &mut needed);
    let mut schema = of_cedar_c::handles::Schema::closed(alloc);
    let opened = of_cedar_c::cedar_schema_open(alloc, &mut schema, b"", &mut room, &mut needed);
    let fourth = of_cedar_c::cedar_schema_validate(alloc, &mut schema, b"", &mut room, &mut needed);
    let fifth = of_cedar_c::cedar_schema_check_data(alloc, &mut schema, b"", &mut room, &mut needed);
    let sixth = of_cedar_c::cedar_schema_typed_conditions(alloc, &mut schema, b"", &mut room, &mut needed);
    let kept = of_cedar_c::cedar_schema_answer(alloc, &mut schema, &mut room, &mut needed);
    of_cedar_c::cedar_schema_close(alloc, &mut schema);
    let _ = println!(rt; "{first} {second} {third} {opened} {fourth} {fifth} {sixth} {kept} {needed}");
}
"""
NAMED = re.compile(r'@"joined::of_cedar_c::(cedar_\w+)"')
DEFINED = re.compile(r"^define .*@(cedar_\w+)\(")
PACKAGE = """prefix=${{pcfiledir}}/../..
Name: cedar
Description: A validator of Cedar policies
Version: {version}
Libs: -L${{prefix}}/lib -lcedar
Cflags: -I${{prefix}}/include
"""


class NotBuilt(Exception):
    """Why there is no library."""


def abi():
    """The number of the calls, as the header says it."""
    return re.search(r"^#define CEDAR_ABI (\d+)", HEADER.read_text(encoding="utf8"), re.M)[1]


def version():
    """The version of cedar-validate, which is that of the library."""
    text = (TOP / "crates" / "cedar_validate" / "src" / "version.rt").read_text(encoding="utf8")
    return re.search(r'"cedar-validate ([\d.]+)', text)[1]


def run(*words):
    """What a command prints."""
    done = subprocess.run([str(it) for it in words], stdin=subprocess.DEVNULL, capture_output=True, text=True)
    if done.returncode:
        raise NotBuilt(f"{Path(words[0]).name} ended with status {done.returncode}\n{(done.stdout + done.stderr)[-2000:]}")
    return done.stdout


def note_build(file, build):
    """Puts the text of its build into an object or a program, where `readelf --string-dump=.cedar.build` shows it."""
    with tempfile.NamedTemporaryFile() as held:
        held.write(build.encode() + b"\0")
        held.flush()
        run("objcopy", "--add-section", f"{NOTE}={held.name}", file)


def exported(text):
    """A module as text in which the calls are seen from outside under their own names, and `main` is not."""
    found = set()
    for line in text:
        line = NAMED.sub(r"@\1", line)
        if line.startswith("define "):
            call = DEFINED.match(line)
            if call:
                found.add(call[1])
                line = line.replace("define internal ", "define ", 1)
            elif "@main(" in line and "internal" not in line:
                line = line.replace("define ", "define internal ", 1)
        yield line
    if found != set(CALLS):
        raise NotBuilt(f"the module defines {sorted(found)}, where {sorted(CALLS)} are wanted")


class Library(unproved.Build):
    """The object of all calls and the module of LLVM of which it is made, built without a proof."""

    def sum(self):
        return unproved.hashlib.sha256((super().sum() + Path(__file__).read_text(encoding="utf8")).encode()).hexdigest()[:20]

    def make(self, folder):
        clang = unproved.clang_words()
        with tempfile.TemporaryDirectory(prefix="library-") as held:
            room = Path(held)
            (room / "src").mkdir()
            unproved.as_module(CRATE, "lib.rt", room / "src")
            (room / "src" / "main.rt").write_text(MAIN, encoding="utf8")
            module = unproved.module_of(self.crates, "main.rt", room)
            unproved.run_tool(*clang, "-x", "ir", module, "-S", "-emit-llvm", "-O0", "-o", room / "all.ll")
            with open(room / "all.ll", encoding="utf8") as all_lines, open(room / "kept.ll", "w", encoding="utf8") as kept:
                kept.writelines(exported(all_lines))
            unproved.run_tool(*clang, *unproved.FLAGS, self.level, "-x", "ir", room / "kept.ll", "-c", "-o", room / "calls.o")
            unproved.run_tool(*clang, "-x", "ir", room / "kept.ll", "-c", "-emit-llvm", "-O0", "-o", room / "calls.bc")
            new = Path(tempfile.mkdtemp(prefix=f"new-{self.name}-", dir=unproved.KEPT))
            for name in ("calls.o", "calls.bc"):
                shutil.copyfile(room / name, new / name)
            new.rename(folder)


def without_proof(name="calls.o"):
    """Where the object of the calls stands, built without a proof, or the module of which it is made."""
    return Library("library", [CRATE], "main.rt", "-O1").folder() / name


def with_proof():
    """The archive of the calls, once they and all that they stand on are proved."""
    if not proved.prove_copy([*unproved.below([CRATE]), CRATE], proved.COPY):
        raise NotBuilt("the library was not proved, as said above")
    return over(proved.COPY)


def over_gate():
    """The archive of the calls, once they are proved over the libraries of the gate."""
    return over(GATE)


def over(copy):
    """The archive of the calls, once they are proved over the libraries that `rt ci` has left in a copy.

    `rt lib` takes none of these libraries, because the kit gives them no stamp: it would prove each of them a second time."""
    if not (copy / "crates.txt").is_file():
        raise NotBuilt(f"{copy} has no proved copy: run scripts/prove first")
    built = copy / "crates" / CRATE / "out" / f"lib{CRATE}.a"
    built.parent.mkdir(parents=True, exist_ok=True)
    built.unlink(missing_ok=True)
    words = [unproved.kit() / "bin" / "rattle", "build", *words_of_kit(copy), "-o", built]
    if proved.run([str(it) for it in words], built.parent.parent) != 0 or not built.is_file():
        raise NotBuilt("the library was not proved, as said above")
    return built


def words_of_kit(copy):
    """The words by which the kit's own `rt` builds crates/cedar_c over libraries that are built."""
    rt = unproved.module_of_kit("rtlib.py")
    try:
        [crate] = [it for it in rt.crates_below(str(copy)) if it.name == CRATE]
        lacking = [it.name for it in crate.below() if not Path(it.rlib).is_dir()]
        words = crate.words(["--jobs", "1"], keeps=False)
    except (AttributeError, TypeError, ValueError) as error:
        raise unproved.KitDoesNotFit(f"rtlib.py of the kit has not the functions that this script calls: {error}") from error
    if lacking:
        raise NotBuilt(f"rt ci has left no library {lacking[0]}")
    return [*words, "--toolchain", unproved.kit() / "toolchain", "--backend", "llvm"]


def lacking():
    """The first tool that the machine lacks, if it lacks one."""
    return next((it for it in TOOLS if shutil.which(it) is None), None)


def link(calls, room):
    """Links the calls with the kit's heap functions to one object, in which no other name is seen."""
    whole = room / "cedar.o"
    kept = [it for name in CALLS for it in ("-u", name)]
    archives = [unproved.kit() / "c" / name for name in ("liblibc_c.a", "libos_c.a")]
    if calls.suffix == ".a":
        calls = ["--whole-archive", calls, "--no-whole-archive"]
    else:
        calls = [calls]
    run("ld", "-r", "-o", whole, *kept, *calls, *archives)
    run("objcopy", "--wildcard", "--keep-global-symbol", "cedar_*", whole)
    return whole


def put(calls, folder, build=""):
    """Puts the library and what a program needs beside it into a folder. Each file says of which build it is, where it is said."""
    for name in ("lib/pkgconfig", "include"):
        (folder / name).mkdir(parents=True, exist_ok=True)
    with tempfile.TemporaryDirectory(prefix="library-") as held:
        whole = link(calls, Path(held))
        if build:
            note_build(whole, build)
        shared, archive = Path(held, "cedar.so"), Path(held, "cedar.a")
        run("ar", "rcsD", archive, whole)
        safe = ["-Wl,-z,defs", "-Wl,-z,now", "-Wl,-z,relro", "-Wl,-z,noexecstack", "-Wl,--gc-sections"]
        run("cc", "-shared", "-o", shared, whole, f"-Wl,-soname,libcedar.so.{abi()}", *safe)
        shutil.copyfile(archive, folder / "lib" / "libcedar.a")
        shutil.copyfile(shared, folder / "lib" / f"libcedar.so.{abi()}")
    name = folder / "lib" / "libcedar.so"
    name.unlink(missing_ok=True)
    name.symlink_to(f"libcedar.so.{abi()}")
    said = f"/* {build} */\n" if build else ""
    (folder / "include" / "cedar.h").write_text(HEADER.read_text(encoding="utf8") + said, encoding="utf8")
    package = PACKAGE.format(version=version()) + (f"# {build}\n" if build else "")
    (folder / "lib" / "pkgconfig" / "cedar.pc").write_text(package, encoding="utf8")


# How the calls are built, by the first word.
WAYS = {"--proved": with_proof, "--gate": over_gate}


def build(folder, calls):
    """Builds the library into a folder, of the calls that a function of this file builds."""
    tool = lacking()
    if tool:
        raise NotBuilt(f"{tool} is wanted, of a compiler of C and binutils")
    put(calls(), folder)


def main(words):
    is_proved = words[:1] and words[0] in WAYS
    folders = words[1:] if is_proved else words
    if len(folders) != 1 or folders[0].startswith("-"):
        print("usage: scripts/library.py [--proved | --gate] DIR", file=sys.stderr)
        return 2
    try:
        build(Path(folders[0]), WAYS[words[0]] if is_proved else without_proof)
    except (NotBuilt, OSError, unproved.KitDoesNotFit, unproved.DoesNotCompile, stamp.NotStamped) as error:
        print(f"scripts/library.py: {error}", file=sys.stderr)
        return 70
    print(f"{folders[0]} has libcedar, {'which is proved' if is_proved else 'built without a proof'}")
    return 0


if __name__ == "__main__":
    sys.exit(main(sys.argv[1:]))
