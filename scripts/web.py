#!/usr/bin/env python3
"""Builds the page for browsers: scripts/web.py [--gate] DIR, and then for example python3 -m http.server --directory DIR.

DIR gets the files of web/, the examples of the tour, and cedar.wasm.gz: libcedar as WebAssembly with a 64-bit memory, made of the
very module of LLVM that the library is made of, with the memory of web/memory.c. It is built without a proof, or with --gate by a
proof of crates/cedar_c over the libraries that scripts/prove has left: the kit hands the module to clang, where it is caught.
build.json says which, and the page shows it. No proof covers clang, nor web/memory.c.
"""
import gzip
import hashlib
import json
import shutil
import sys
import tempfile
from pathlib import Path

import library
import proved
import stamp
import unproved

TOP = unproved.TOP
WEB = TOP / "web"
TARGET = "wasm64-unknown-unknown"
# The module names where its values stand, which is not the same for each target.
LAYOUT = "e-m:e-p:64:64-p10:8:8-p20:8:8-i64:64-i128:128-n32:64-S128-ni:1:10:20"
FLAGS = [f"--target={TARGET}", "-Os", "-mbulk-memory", "-c"]
OF_MEMORY = ["-Wall", "-Wextra", "-Werror", "-ffreestanding", "-nostdlib", "-fno-builtin"]
STACK, MOST_MEMORY = 8 << 20, 4 << 30
EXPORTS = [*library.CALLS, "cedar_room", "cedar_give"]
FILES = ("index.html", "style.css", "icon.svg", "page.js", "worker.js", "texts.js", "cedar.js")


def of_target(text):
    """A module as text for WebAssembly."""
    for line in text:
        if line.startswith("target datalayout"):
            line = f'target datalayout = "{LAYOUT}"\n'
        elif line.startswith("target triple"):
            line = f'target triple = "{TARGET}"\n'
        yield line


def calls_of(bitcode, room):
    """The object of the calls for WebAssembly, of their module of LLVM."""
    clang = unproved.clang_words()[0]
    unproved.run_tool(clang, "-x", "ir", bitcode, "-S", "-emit-llvm", "-O0", "-o", room / "calls.ll")
    with open(room / "calls.ll", encoding="utf8") as old, open(room / "target.ll", "w", encoding="utf8") as new:
        new.writelines(of_target(old))
    unproved.run_tool(clang, *FLAGS, "-x", "ir", room / "target.ll", "-o", room / "calls.o")
    return room / "calls.o"


def proved_bitcode(copy, room):
    """The module of LLVM that a proof of the calls hands to clang, over the libraries that a copy has."""
    toolchain, tool = unproved.kit() / "toolchain", room / "tool"
    (tool / "bin").mkdir(parents=True)
    for it in [*toolchain.iterdir(), *(toolchain / "bin").iterdir()]:
        if it.name not in ("bin", "clang"):
            (tool / it.relative_to(toolchain)).symlink_to(it)
    (tool / "bin" / "clang").write_text(unproved.CATCHES.format(room=room, clang=toolchain / "bin" / "clang"))
    (tool / "bin" / "clang").chmod(0o755)
    words = [tool if it == toolchain else it for it in library.words_of_kit(copy)]
    folder = copy / "crates" / library.CRATE
    status = proved.run([str(it) for it in (unproved.kit() / "bin" / "rattle", "build", *words, "-o", room / "no.a")], folder)
    found = list(room.glob("*.bc"))
    if status != 0 or len(found) != 1:
        raise library.NotBuilt("the module was not proved, as said above")
    return found[0]


class Module(unproved.Build):
    """The module, built without a proof, and kept like the library of whose module it is made."""

    def sum(self):
        texts = [Path(__file__).read_text(encoding="utf8"), (WEB / "memory.c").read_text(encoding="utf8")]
        return hashlib.sha256(repr((library.without_proof().parent.name, texts)).encode()).hexdigest()[:20]

    def make(self, folder):
        with tempfile.TemporaryDirectory(prefix="web-") as held:
            made = module(calls_of(library.without_proof("calls.bc"), Path(held)), Path(held))
            new = Path(tempfile.mkdtemp(prefix=f"new-{self.name}-", dir=unproved.KEPT))
            shutil.copyfile(made, new / made.name)
            new.rename(folder)


def proved_module(copy):
    """The bytes of the module, by a proof over the libraries that a copy has."""
    with tempfile.TemporaryDirectory(prefix="web-") as held:
        room = Path(held)
        return module(calls_of(proved_bitcode(copy, room), room), room).read_bytes()


def module(calls, room):
    """Links the calls with their memory to a module, which imports nothing. The place of the module."""
    tools = unproved.kit() / "toolchain" / "bin"
    unproved.run_tool(tools / "clang", *FLAGS, *OF_MEMORY, WEB / "memory.c", "-o", room / "memory.o")
    # (one program links for each system, by the name under which it is called)
    (room / "wasm-ld").symlink_to(tools / "ld.lld")
    words = ["-mwasm64", "--no-entry", "--gc-sections", "--strip-all", "-z", f"stack-size={STACK}", f"--max-memory={MOST_MEMORY}"]
    unproved.run_tool(room / "wasm-ld", *words, *[f"--export={it}" for it in EXPORTS], calls, room / "memory.o", "-o", room / "cedar.wasm")
    return room / "cedar.wasm"


def build(folder, copy=None):
    """Builds the page into a folder: by a proof over the libraries that a copy has, or without a proof."""
    is_proved = copy is not None
    (folder / "tour").mkdir(parents=True, exist_ok=True)
    made = proved_module(copy) if is_proved else (Module("module", [], "", "").folder() / "cedar.wasm").read_bytes()
    (folder / "cedar.wasm.gz").write_bytes(gzip.compress(made, mtime=0))
    for name in FILES:
        shutil.copyfile(WEB / name, folder / name)
    for path in sorted((TOP / "examples" / "tour").iterdir()):
        shutil.copyfile(path, folder / "tour" / path.name)
    said = {"text": stamp.text(is_proved), "isProved": is_proved}
    (folder / "build.json").write_text(json.dumps(said) + "\n", encoding="utf8")


def main(words):
    is_proved = words[:1] == ["--gate"]
    if len(words) != 1 + is_proved or words[-1].startswith("-"):
        print("usage: scripts/web.py [--gate] DIR", file=sys.stderr)
        return 2
    try:
        build(Path(words[-1]), library.GATE if is_proved else None)
    except (OSError, library.NotBuilt, unproved.KitDoesNotFit, unproved.DoesNotCompile) as error:
        print(f"scripts/web.py: {error}", file=sys.stderr)
        return 70
    print(f"{words[-1]} has the page, whose validator is {'proved' if is_proved else 'NOT proved'}")
    return 0


if __name__ == "__main__":
    sys.exit(main(sys.argv[1:]))
