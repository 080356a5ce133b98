#!/usr/bin/env python3
"""Says what the drops of other crates' types cost in the proof of a crate: scripts/measure/drop_cost.py CRATE.

A crate proves the drop of each type whose values it drops, also where the type is of a crate below, because a library hands on
statements and no drops. This checks the crate by one job, with nothing kept of the crate itself, and takes the time from one
function's end to the next as that of the next. The libraries below are built first, so run it where they are kept.
"""
import re
import shutil
import subprocess
import sys
import time
from pathlib import Path

TOP = Path(__file__).resolve().parents[2]
CHECKED = re.compile(r"^checked (\S+), \d+ of \d+$")
DROP = re.compile(r"^\w+::(?:(\w+?)\+\+)?.*Destruct::drop$")


def kind(function, crate, crates):
    """Which row of the table a function belongs to."""
    found = DROP.match(function)
    if not found:
        return "other functions"
    if found[1] == crate:
        return "drops of its own types"
    return "drops of types of crates below" if found[1] in crates else "drops of the standard library's types"


def times(crate):
    """Each function of the crate, with the seconds until its proof had ended, and the seconds of the whole."""
    folder = TOP / "crates" / crate
    shutil.rmtree(folder / "out/incremental", ignore_errors=True)
    begun = last = time.monotonic()
    with subprocess.Popen(["rt", "check", "--progress", "--jobs", "1"], cwd=folder, stdin=subprocess.DEVNULL, stdout=subprocess.PIPE, stderr=subprocess.STDOUT, text=True) as ran:
        found = []
        for line in ran.stdout:
            now = time.monotonic()
            function = CHECKED.match(line)
            if function:
                # (what stands before the first is reading)
                found.append((function[1], now - last if found else 0.0))
                last = now
    if ran.returncode or not found:
        sys.exit(f"{crate} was not proved")
    return found, time.monotonic() - begun


def main():
    if len(sys.argv) != 2:
        sys.exit(__doc__)
    crate = sys.argv[1]
    crates = [it.partition(":")[0] for it in (TOP / "crates.txt").read_text().splitlines() if it and not it.startswith("#")]
    if crate not in crates:
        sys.exit(f"there is no crate {crate}")
    found, whole = times(crate)
    rows = {}
    for function, seconds in found:
        count, sum_ = rows.get(kind(function, crate, crates), (0, 0.0))
        rows[kind(function, crate, crates)] = count + 1, sum_ + seconds
    for name, (count, seconds) in sorted(rows.items()):
        print(f"{count:5} {name}: {seconds:.1f} s, {100 * seconds / whole:.0f} % of the check's {whole:.0f} s")


if __name__ == "__main__":
    main()
