#!/usr/bin/env python3
"""The line of a whole run of scripts/prove, a row of docs/gate.tsv. scripts/prove calls this before the run, and after it:

    gate_line.py begin WHAT                                   prints the columns that are known before the run
    gate_line.py row BEFORE SECONDS USED PASSED FAILED TIMES  prints the row
    gate_line.py remember TOP TIMES                           remembers what proofs of the texts in the checkout TOP took
    gate_line.py shares                                       prints the gate's share of each row of docs/gate.tsv

WHAT is `gate` or `all`. BEFORE is what the first call printed. SECONDS are those of the run by the clock, and USED those of
processors. TIMES is the file that scripts/gate/lanes.py wrote, with a line for each proof that was made. What was not seen is
`?`: for example a proof that was kept has no minutes by the clock. Its minutes of processors are those that it took when it was
made of the same texts by the same kit, where the user's cache remembers them. A row of another machine can be set beside this one
by the seconds of `cedar_frames`, which are the same on each machine but for its speed. The share is what the proofs of the gate's
crates took: their number, and their minutes of processors, of the row's machine and of one on which `cedar_frames` takes 66 seconds.
"""
import hashlib
import os
import re
import sys
import time
from pathlib import Path

sys.path.insert(0, str(Path(__file__).resolve().parent.parent))
import proofs as travelling  # noqa: E402
import stamp  # noqa: E402
import unproved  # noqa: E402
from gate import copies, kept, times  # noqa: E402

TOP = Path(__file__).resolve().parents[2]
TABLE = TOP / "docs" / "gate.tsv"
# What proofs took on this machine: lines of a sum of the kit and of all texts, `proof` or `tests`, and seconds of processors.
RECORD = kept.FOLDER.parent / "cedar-minutes.tsv"
COLUMNS = (
    "commit",
    "date in UTC",
    "gate or all",
    "cores",
    "GB free before",
    "kit",
    "minutes by the clock",
    "minutes of processors",
    "seconds of processors for cedar_frames",
    "passed",
    "failed",
    "proofs, in minutes of rt ci: NAME=BEGUN-PROVED/OF PROCESSORS, where NAME+tests is the proof of the tests",
)
YARDSTICK = "cedar_frames"
# Shares are scaled to a machine on which the yardstick takes so many seconds: that of the row 063a40b8.
YARDSTICK_SECONDS = 66
UNSEEN = stamp.UNSEEN


def gigabytes(text):
    """The memory that a text of /proc/meminfo calls available."""
    found = re.search(r"^MemAvailable: +(\d+) kB$", text, re.M)
    return str(int(found[1]) * 1024 // 10**9) if found else UNSEEN


def known_before(what):
    memory = Path("/proc/meminfo")
    return [
        stamp.output_of("git", "describe", "--always", "--dirty", "--exclude", "*"),
        time.strftime("%Y-%m-%d", time.gmtime()),
        what,
        str(len(os.sched_getaffinity(0))),
        gigabytes(memory.read_text()) if memory.is_file() else UNSEEN,
        stamp.output_of("rt", "version"),
    ]


def sum_of(store, crate):
    return hashlib.sha256(f"{travelling.kit_id()} {store.sum_of_texts(crate)}".encode()).hexdigest()


def remember(proofs, top=TOP, file=RECORD):
    """Remembers what the proofs of the texts in a checkout took."""
    store = travelling.Store(kept.FOLDER, top)
    file.parent.mkdir(parents=True, exist_ok=True)
    with open(file, "a", encoding="utf8") as out:
        out.writelines(f"{sum_of(store, it.crate)}\t{it.part}\t{it.used}\n" for it in proofs)


def remembered(crates, made, top=TOP, file=RECORD):
    """The proofs of these crates that are not among those made, as far as it is remembered what they took."""
    lines = file.read_text(encoding="utf8").splitlines() if file.is_file() else []
    took = {(of, part): int(used) for of, part, used in (line.split("\t") for line in lines)}
    store, known = travelling.Store(kept.FOLDER, top), {(it.crate, it.part) for it in made}
    found = [(crate, part, took.get((sum_of(store, crate), part))) for crate in crates for part in ("proof", "tests")]
    return [times.Proof(crate, part, None, None, None, used) for crate, part, used in found if used is not None and (crate, part) not in known]


def word_of(proof):
    begun, ended, used = (UNSEEN if it is None else f"{it / 60:.1f}" for it in (proof.begun, proof.ended, proof.used))
    return f"{proof.crate}{'+tests' * (proof.part == 'tests')}={begun}-{ended}/{used}"


def row_of(before, seconds, used, passed, failed, proofs):
    minutes = [str(round(int(it) / 60)) for it in (seconds, used)]
    yardstick = next((str(it.used) for it in proofs if (it.crate, it.part) == (YARDSTICK, "proof")), UNSEEN)
    return "\t".join([*before, *minutes, yardstick, passed, failed, " ".join(map(word_of, proofs))])


def minutes_in(word):
    """The name of a proof in a word of a row, and its three numbers, None where unseen."""
    name, _, numbers = word.partition("=")
    return name, [None if it == UNSEEN else float(it) for it in re.split("[-/]", numbers)]


def rows_of(text):
    """The rows of a text of docs/gate.tsv: the columns, and under `proofs` the minutes of each, None where unseen."""
    lines = text.splitlines()
    if not lines or lines[0].split("\t") != list(COLUMNS):
        raise ValueError("the first line does not name the columns")
    found = []
    for line in lines[1:]:
        cells = line.split("\t")
        if len(cells) != len(COLUMNS):
            raise ValueError(f"{len(cells)} columns, where {len(COLUMNS)} are wanted: {line[:60]}")
        row = dict(zip(COLUMNS, cells))
        row["proofs"] = dict(map(minutes_in, row.pop(COLUMNS[-1]).split()))
        found.append(row)
    return found


def share_of(row, crates):
    """How many proofs of these crates a row has, and their minutes of processors, of its machine and scaled; None where unseen."""
    used = [minutes[-1] for name, minutes in row["proofs"].items() if name.partition("+")[0] in crates]
    if None in used or row[COLUMNS[8]] == UNSEEN:
        return None
    return len(used), sum(used), sum(used) * YARDSTICK_SECONDS / int(row[COLUMNS[8]])


def main(words):
    if words == ["shares"]:
        for row in rows_of(TABLE.read_text(encoding="utf8")):
            share = share_of(row, copies.proved_crates(unproved.USES))
            print(row["commit"], row["gate or all"], "unseen" if share is None else "{} proofs, {:.0f} minutes of processors, {:.0f} scaled".format(*share))
        return 0
    if len(words) == 3 and words[0] == "remember":
        remember(times.read(words[2]), words[1])
        return 0
    if len(words) == 2 and words[0] == "begin":
        print("\t".join(known_before(words[1])))
        return 0
    if len(words) != 7 or words[0] != "row":
        print(__doc__, file=sys.stderr)
        return 2
    before, seconds, used, passed, failed, file = words[1:]
    made, crates = times.read(file), [*unproved.USES] if before.split("\t")[2] == "all" else copies.proved_crates(unproved.USES)
    remember(made)
    print(row_of(before.split("\t"), seconds, used, passed, failed, [*remembered(crates, made), *made]))
    return 0


if __name__ == "__main__":
    sys.exit(main(sys.argv[1:]))
