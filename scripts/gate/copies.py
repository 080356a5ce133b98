#!/usr/bin/env python3
"""The copy of the repository that the gate proves: scripts/gate/copies.py [--all] FOLDER makes it.

`rt ci` proves each crate that crates.txt names, and each test. The gate proves the libraries and the programs that people run,
so its copy has no crate of tests, and neither of the two programs that only run calls and cases. With --all it has each crate.
So what `rt ci` counts is all that it was given, and no filter stands inside of it.
"""
import shutil
import sys
from pathlib import Path

sys.path.insert(0, str(Path(__file__).resolve().parent.parent))
import unproved  # noqa: E402

TOP = Path(__file__).resolve().parents[2]
# Programs that only run calls and cases, as the crates of tests do.
RUN_ALONE = ("cedar_refused", "cedar_cases")
OF_TESTS = "_tests"


class StandsOnTests(Exception):
    """A crate that is to be proved stands on one that is only run."""


def is_run_alone(crate):
    return crate.endswith(OF_TESTS) or crate in RUN_ALONE


def proved_crates(uses):
    """The crates that the gate proves, of all crates and the libraries that each stands on."""
    found = [it for it in uses if not is_run_alone(it)]
    for crate in found:
        for library in filter(is_run_alone, uses[crate]):
            raise StandsOnTests(f"{crate} stands on {library}, which the gate does not prove")
    return found


def make(crates, folder, top=TOP):
    """Makes a copy that has only these crates of the repository, without what was built of them."""
    shutil.rmtree(folder, ignore_errors=True)
    folder.mkdir(parents=True)
    # (`rt ci` runs only at the top of a repository, and the copy may lie inside of one)
    (folder / ".git").mkdir()
    shutil.copy2(top / "HANDLES", folder / "HANDLES")
    lines = (top / "crates.txt").read_text(encoding="utf8").splitlines(True)
    named = [line for line in lines if line.partition("#")[0].partition(":")[0].split()[:1] in [[it] for it in crates]]
    (folder / "crates.txt").write_text("".join(named), encoding="utf8")
    for crate in crates:
        shutil.copytree(top / "crates" / crate, folder / "crates" / crate, ignore=shutil.ignore_patterns("out"))


def main(words):
    is_all = words[:1] == ["--all"]
    folders = words[is_all:]
    if len(folders) != 1 or folders[0].startswith("-"):
        print(__doc__, file=sys.stderr)
        return 2
    try:
        make([*unproved.USES] if is_all else proved_crates(unproved.USES), Path(folders[0]))
    except (OSError, StandsOnTests) as error:
        print(f"scripts/gate/copies.py: {error}", file=sys.stderr)
        return 1
    return 0


if __name__ == "__main__":
    sys.exit(main(sys.argv[1:]))
