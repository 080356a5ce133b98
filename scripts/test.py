#!/usr/bin/env python3
"""Passes every test without a proof: scripts/test [PART..].

The parts are `texts`, what no compiler reads; `pieces`, the pieces of examples/borrows; `tests`, each #[test]; `programs`,
each program on its data, as `rt ci` runs it, and `product`, cedar-validate likewise, and each of its words and pairs; `refused`, calls and rows while memory is
refused; `queries`, where-clauses in SQLite; `applications`, all that cedar-validate says of whole applications and of odd
texts; `callers`, the C library called from other languages; `page`, the page in a browser; `release` and `packages`, a
release and its packages as users have them; and `editors`, the language server as editors use it. Languages, browsers and
editors that the machine has not are skipped.
Without words all run, side by side where processors are free. Beside the gate, as in CI, `page`, `release` and `packages` run only
if they are named, because the page has times to keep, and the others build for minutes.

The programs are built without a proof (scripts/unproved.py) and kept, so that a second run builds nothing where no text
has changed. Nothing is proved: `scripts/prove` proves, and runs what Rattle's own compiler builds. The last line counts what
passed and what failed.
"""
import os
import re
import resource
import shutil
import subprocess
import sys
import tempfile
import threading
import time
from concurrent.futures import ThreadPoolExecutor
from pathlib import Path

import unproved

TOP = Path(__file__).resolve().parent.parent
COUNT = re.compile(r"(?:^|\n)(\d+) passed, (\d+) failed\n*$")
# Each test and each program may take so long.
SECONDS = 600
# How many lines a part that fails may show of what it says.
SHOWN = 60


def no_limit():
    """Gives a child all the stack there is: code that is built without a proof takes more of it."""
    hard = resource.getrlimit(resource.RLIMIT_STACK)[1]
    resource.setrlimit(resource.RLIMIT_STACK, (hard, hard))
    resource.setrlimit(resource.RLIMIT_CORE, (0, 0))


def ran(*words, **given):
    """What a command writes, with its errors, and its status."""
    done = subprocess.run([str(it) for it in words], stdin=subprocess.DEVNULL, stdout=subprocess.PIPE, stderr=subprocess.STDOUT, text=True, preexec_fn=no_limit, **given)
    return done.stdout, done.returncode


def show(text):
    print(*text.splitlines()[-SHOWN:], sep="\n", flush=True)


def of_script(*words):
    """A script that counts for itself in its last line."""
    said, status = ran(*words, cwd=TOP)
    found = COUNT.search(said)
    good, bad = map(int, found.groups()) if found else (0, 1)
    if bad or status:
        show(said)
    return good, bad or int(status != 0)


# What no compiler reads: the scripts of that part, with their words.
TEXTS = (("gate/check_text",), ("gate/check_text", "--self-test"), ("gate/gate_samples.py",), ("mutations", "--read"), ("gate/refusal_samples.py",), ("gate/editor_texts.py",))


def texts():
    each = [of_script(TOP / "scripts" / name, *words) for name, *words in TEXTS]
    return sum(good for good, _ in each), sum(bad for _, bad in each)


def pieces():
    return of_script(TOP / "scripts" / "gate" / "borrows.py")


def counted(said):
    """How many tests passed, and how many did not, by what a run of tests says."""
    return len(re.findall(r"^test .* ok$", said, re.M)), len(re.findall(r"^test .* FAILED", said, re.M))


def tests():
    """Each #[test]: of all crates at once, or crate by crate where this kit makes no joined program."""
    try:
        runs = [ran(unproved.kit() / "bin" / "rattle-test", "--seconds", SECONDS, unproved.tests())]
    except unproved.KitDoesNotFit as error:
        print(f"this kit does not fit scripts/unproved.py, so each crate of tests is run by `rt try --test`: {error}", flush=True)
        runs = [ran("rt", "try", "--test", cwd=TOP / "crates" / crate) for crate in unproved.crates_of_tests()]
    good = bad = 0
    for said, status in runs:
        passed, failed = counted(said)
        if failed or status or not passed:
            show(said)
            failed = failed or 1
        good, bad = good + passed, bad + failed
    return good, bad


def goes_well(name):
    """Whether a program writes and ends as its files say, run on its data as `rt ci` does."""
    crate = TOP / "crates" / name
    words = (crate / "args").read_text(encoding="utf8").splitlines() if (crate / "args").is_file() else []
    wanted = (crate / "stdout").read_bytes() if (crate / "stdout").is_file() else b""
    status = int((crate / "status").read_text()) if (crate / "status").is_file() else 0
    given = (crate / "stdin").read_bytes() if (crate / "stdin").is_file() else b""
    with tempfile.TemporaryDirectory(prefix="test-") as room:
        data = Path(room, "data")
        shutil.copytree(crate / "data", data) if (crate / "data").is_dir() else data.mkdir()
        env = {"PATH": "/usr/local/bin:/usr/bin:/bin", "HOME": str(data), "TMPDIR": str(data), "LANG": "C.UTF-8"}
        done = subprocess.run([unproved.program(name), *words], cwd=data, input=given, capture_output=True, timeout=SECONDS, env=env, preexec_fn=no_limit)
    is_well = done.stdout == wanted and done.returncode == status
    if not is_well:
        print(f"{name} ended with status {done.returncode}, or did not write its file stdout")
        show(done.stderr.decode(errors="replace"))
    return is_well


def programs():
    names = [name for name in unproved.programs() if name != unproved.PRODUCT]
    unproved.program(names[0])
    with ThreadPoolExecutor(os.cpu_count()) as lanes:
        well = list(lanes.map(goes_well, names))
    return sum(well), len(well) - sum(well)


def product():
    is_well = goes_well(unproved.PRODUCT)
    program = unproved.program(unproved.PRODUCT)
    runs = [of_script(TOP / "scripts" / name, program) for name in ("gate/word_cases.py", "against_cedar")]
    return sum(good for good, _ in runs) + is_well, sum(bad for _, bad in runs) + (not is_well)


def refused():
    return of_script(TOP / "scripts" / "refused.py", unproved.program("cedar_refused"), unproved.program("cedar_check"))


def queries():
    return of_script(TOP / "scripts" / "where_cases.py", unproved.program("cedar_samples"))


def applications():
    program = unproved.program("cedar_validate")
    good, bad = of_script(TOP / "scripts" / "gate" / "application_cases.py", program)
    said, _ = ran(program, "--version")
    is_stamped = bool(re.search(r"^commit .*, not proved$", said, re.M))
    if not is_stamped:
        print(f"--version does not say of which build the program is: {said}")
    return good + is_stamped, bad + (not is_stamped)


def of_skipping_script(name):
    """As `of_script`, of a script that skips what the machine has not: this has to be seen."""
    said, status = ran(TOP / "scripts" / name, cwd=TOP)
    found = COUNT.search(said)
    good, bad = map(int, found.groups()) if found else (0, 1)
    show(said if bad or status else "".join(line for line in said.splitlines(True) if "skipped" in line))
    return good, bad or int(status != 0)


def callers():
    return of_skipping_script("caller_cases.py")


def editors():
    return of_skipping_script("editor_cases.py")


def page():
    return of_skipping_script("web_cases.py")


def release():
    return of_skipping_script("release_cases.py")


def packages():
    return of_skipping_script("packages_cases.py")


# The parts in the order in which they begin, in four lines side by side. A line begins with a build; those that wait for it
# stand behind it.
LINES = ((programs, refused, queries, editors), (tests, texts), (product, applications, pieces), (callers, page, release, packages))
PARTS = {part.__name__: part for line in LINES for part in line}
# Parts that run only if they are named while this word of the environment says that the gate runs beside them.
NAMED, BESIDE = (page, release, packages), "GATE_BESIDE"


class Counts:
    """What has passed and failed so far, in any line."""

    def __init__(self):
        self.passed, self.failed, self.lock = 0, 0, threading.Lock()

    def run(self, line):
        for part in line:
            begun = time.monotonic()
            try:
                good, bad = part()
            except (OSError, ValueError, subprocess.SubprocessError, unproved.KitDoesNotFit, unproved.DoesNotCompile) as error:
                show(f"{part.__name__}: {error}")
                good, bad = 0, 1
            with self.lock:
                self.passed, self.failed = self.passed + good, self.failed + bad
                print(f"-- {part.__name__}: passed {good}, failed {bad}, {time.monotonic() - begun:.0f} s", flush=True)


def main(words):
    unknown = [word for word in words if word not in PARTS]
    if unknown:
        print(f"scripts/test: there is no part `{unknown[0]}`, but {', '.join(PARTS)}", file=sys.stderr)
        print("0 passed, 1 failed")
        return 2
    begun, counts = time.monotonic(), Counts()
    left_out = NAMED if os.environ.get(BESIDE) else ()
    lines = [[part for part in line if (part.__name__ in words if words else part not in left_out)] for line in LINES]
    with ThreadPoolExecutor(min(len(os.sched_getaffinity(0)), len(LINES))) as lanes:
        for done in [lanes.submit(counts.run, line) for line in lines]:
            done.result()
    used = resource.getrusage(resource.RUSAGE_CHILDREN)
    print(f"{time.monotonic() - begun:.0f} s by the clock, {used.ru_utime + used.ru_stime:.0f} s of processors, at most {used.ru_maxrss // 1024} MB in one process; nothing was proved")
    print(f"{counts.passed} passed, {counts.failed} failed")
    return 1 if counts.failed or not counts.passed else 0


if __name__ == "__main__":
    sys.exit(main(sys.argv[1:]))
