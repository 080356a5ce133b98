#!/usr/bin/env python3
"""Runs calls and rows while memory is refused: scripts/refused.py [PROGRAM ROWS].

The program of crates/cedar_refused makes each of its calls while the first growth is refused, then the second, until one
run ends without a refusal, and says what came of it; scripts/refuse.c refuses. Each public call that may answer want of
memory has to be among its lines: scripts/gate/public_calls.py lists them.
Of the program of crates/cedar_check the first growth of each row is refused, then the second, and so on. A row whose memory
is refused says so, and the next row runs.
Without words they are built without a proof. The last line counts what went as it should and what did not.
"""
import os
import re
import shutil
import subprocess
import sys
import tempfile
from concurrent.futures import ThreadPoolExecutor
from pathlib import Path

import unproved
from gate.public_calls import left_out, public_calls

TOP = Path(__file__).resolve().parent.parent
CALLS = TOP / "crates" / "cedar_refused"
ROWS = TOP / "crates" / "cedar_check"
SECONDS = 570
BEGINS = "memory is refused"
WELL = re.compile(r"[1-9]\d* growths, each refused|no growth")
# Rows with more growths than this are tried at some of them.
MOST_GROWTHS = 8000
SAMPLES = 60


def shim(room):
    """Builds what stands between a program and the C library."""
    kit = Path(shutil.which("rt")).resolve().parent.parent / "toolchain" / "bin"
    made = Path(room, "refuse.so")
    words = ["--target=x86_64-unknown-linux-gnu", "-O2", "-shared", "-fPIC", "-fno-builtin", "-nostdlib", f"--ld-path={kit / 'ld.lld'}"]
    subprocess.run([kit / "clang", *words, "-o", made, TOP / "scripts" / "refuse.c"], stdin=subprocess.DEVNULL, check=True)
    return made


def ran(words, made, **refused):
    """A run of a program, while this is refused."""
    env = {"LD_PRELOAD": str(made), **{f"REFUSE_{name}": str(number) for name, number in refused.items()}}
    return subprocess.run(words, env=env, stdin=subprocess.DEVNULL, capture_output=True, text=True, timeout=SECONDS)


def stored(crate):
    return (crate / "stdout").read_text(encoding="utf8").splitlines()


def names(lines):
    return [line.partition(": ")[0] for line in lines[1:]]


def calls(program, made):
    """The calls that went well, and what is said of the others and of those that are left out."""
    run = ran([program], made)
    lines = run.stdout.splitlines()
    faults = [line for line in lines[1:] if not WELL.fullmatch(line.partition(": ")[2])]
    passed = len(lines[1:]) - len(faults)
    print(*lines, sep="\n")
    if run.returncode != 0:
        faults.append(f"{program.name} ended with status {run.returncode}: {run.stderr.strip()}")
    if lines[:1] != [BEGINS] or names(lines) != names(stored(CALLS)):
        faults.append("its lines are not those of the file stdout, or nothing was refused")
    missing, unknown = left_out(names(lines))
    faults += [f"{call} is not made while memory is refused" for call in missing]
    faults += [f"{call} is no public call that may answer want of memory" for call in unknown]
    print(f"{len(public_calls())} public calls may answer want of memory; {len(missing)} are not among the lines")
    return passed, faults


def without_memory(lines, growths, number, first, step):
    """The lines of the rows while the growth of this number is refused in some of them."""
    hit = [at >= first and (at - first) % step == 0 and number <= growths[at] for at in range(len(lines))]
    return [f"{line.partition(':')[0]}: no memory" if is_hit else line for line, is_hit in zip(lines, hit)]


def row_runs(growths):
    """What to refuse: a growth of each row but the first, which stands behind what the program itself takes; and at some
    growths in every other row alone, so that whole rows stand between them."""
    usual = max(n for n in growths if n <= MOST_GROWTHS)
    each = [(number, 1, 1) for number in range(1, usual + 1)]
    others = [(number, first, 2) for number in (1, 2, 3, 5, 8, 13, 21, 34, 55, 89, 144, 233) for first in (1, 2)]
    some = [(1 + at * (n - 1) // SAMPLES, 1, 1) for n in growths if n > MOST_GROWTHS for at in range(SAMPLES + 1)]
    return each + others + some


def rows(program, made):
    """The runs of rows that went well, and what is said of the others."""
    lines = stored(ROWS)
    told = ran([program], made, GROWTH=0).stderr.split()
    alone = int(ran([program, "no row"], made, GROWTH=0).stderr.split()[0])
    if len(told) != len(lines) or alone == 0:
        return 0, ["the growths of the rows are not told"]
    growths = [int(number) for number in told]

    def run_all(refused):
        number, first, step = refused
        run = ran([program], made, GROWTH=number, FIRST=first, STEP=step)
        wanted = without_memory(lines, growths, number, first, step)
        is_well = run.stdout.splitlines() == wanted and run.returncode == (wanted != lines)
        return None if is_well else f"rows at growth {number}, from row {first} on in steps of {step}: another answer"

    def run_first(number):
        run = ran([program, "1"], made, GROWTH=number, STEP=len(lines))
        wanted = [] if number <= alone else ["row 1: no memory"]
        is_well = run.stdout.splitlines() == wanted and run.returncode == 1
        return None if is_well else f"the first row alone at growth {number}: another answer"

    with ThreadPoolExecutor(os.cpu_count()) as pool:
        answers = [*pool.map(run_all, row_runs(growths)), *pool.map(run_first, range(1, growths[0] + 1))]
    faults = [one for one in answers if one]
    whole = sum(n <= MOST_GROWTHS for n in growths)
    print(f"rows: each growth of {whole} rows, {SAMPLES + 1} growths of each of {len(lines) - whole}: {len(answers)} runs")
    return len(answers) - len(faults), faults


def main(words):
    passed, faults = 0, []
    with tempfile.TemporaryDirectory() as room:
        made = shim(room)
        for part, crate, word in ((calls, CALLS, words[:1]), (rows, ROWS, words[1:])):
            good, bad = part(unproved.named(word, crate.name), made)
            passed += good
            faults += bad
    print(*faults, sep="\n", end="\n" if faults else "")
    print(f"{passed} passed, {len(faults)} failed")
    return 1 if faults else 0


if __name__ == "__main__":
    sys.exit(main(sys.argv[1:]))
