#!/usr/bin/env python3
"""Compiles each piece of examples/borrows, as a crate of its own above the crate that it names, without any proof.

A piece begins with two lines: `// crate: NAME`, and what has to come of it: `// accepted`, or `// refused: CODE`, the
borrow checker's one error. The last line counts the pieces that went so and those that did not.
"""
import os
import re
import shutil
import subprocess
import sys
import tempfile
from concurrent.futures import ThreadPoolExecutor
from pathlib import Path

sys.path.insert(0, str(Path(__file__).resolve().parent.parent))
import unproved  # noqa: E402

TOP = Path(__file__).resolve().parents[2]
ROOT_FILE = "//! A piece.\n#![tactic(auto)]\n\npub mod piece;\n\n#[cfg(test)]\nmod tests {\n    #[test]\n    fn compiles() {}\n}\n"
HEAD = re.compile(r"// crate: (\w+)\n// (accepted|refused: ([\w-]+))\n")
ERROR = re.compile(r"^(\S+?):\d+:\d+: error(?:\[([^]]+)\])?", re.M)
SECONDS = 570


def lay_out(room):
    """Copies what a piece stands on: the sources and specifications of each library, and no proofs. Their lines of crates.txt."""
    libraries = [crate for crate in unproved.USES if crate not in unproved.programs()]
    for name in libraries:
        for part in ("src", "specs"):
            if TOP.joinpath("crates", name, part).is_dir():
                shutil.copytree(TOP.joinpath("crates", name, part), Path(room, "crates", name, part))
    shutil.copyfile(TOP / "HANDLES", Path(room, "HANDLES"))
    Path(room, "crates", "piece", "src").mkdir(parents=True)
    Path(room, "crates", "piece", "src", "lib.rt").write_text(ROOT_FILE, encoding="utf8")
    return [f"{name}: {' '.join(unproved.USES[name])}" for name in libraries]


def fault_of(piece):
    """What went otherwise than the piece says, if anything did."""
    with tempfile.TemporaryDirectory() as room:
        return fault_in(room, piece)


def fault_in(room, piece):
    """The same, compiled in this empty folder."""
    lines = lay_out(room)
    text = piece.read_text(encoding="utf8")
    head = HEAD.match(text)
    if not head:
        return "it does not begin with its crate and with what has to come of it"
    crate, wanted, code = head.groups()
    Path(room, "crates.txt").write_text("\n".join([*lines, f"piece: {crate}", ""]), encoding="utf8")
    folder = Path(room, "crates", "piece")
    folder.joinpath("src", "piece.rt").write_text(text, encoding="utf8")
    try:
        ran = subprocess.run(["rt", "try", "--test"], cwd=folder, stdin=subprocess.DEVNULL, capture_output=True, text=True, timeout=SECONDS)
    except subprocess.TimeoutExpired:
        return f"no answer within {SECONDS} seconds"
    output = ran.stdout + ran.stderr
    errors = ERROR.findall(output)
    well = ran.returncode == 0 and not errors if wanted == "accepted" else errors == [("src/piece.rt", code)]
    return None if well else f"it should be {wanted}\n{output[-1500:]}"


def main():
    pieces = sorted(TOP.joinpath("examples", "borrows").glob("*.txt"))
    passed = 0
    # a piece takes two processors
    with ThreadPoolExecutor(max(len(os.sched_getaffinity(0)) // 2, 1)) as lanes:
        for piece, fault in zip(pieces, lanes.map(fault_of, pieces)):
            print(f"{piece.name}: {fault or 'ok'}", flush=True)
            passed += fault is None
    print(f"{passed} passed, {len(pieces) - passed} failed")
    return 0 if passed == len(pieces) else 1


if __name__ == "__main__":
    sys.exit(main())
