"""Measures programs for the scripts of this folder, which are no part of the gate: instructions, by valgrind, and memory.

A script has a table of rows. At each size of a row a figure is measured and a line is printed; then limits are held against the
figures. The last line counts the limits that hold and those that do not. Who imports this file can import those of scripts/ too.
"""
import re
import resource
import shutil
import subprocess
import sys
import tempfile
from contextlib import ExitStack, contextmanager
from pathlib import Path
from typing import Callable, NamedTuple

sys.path.insert(0, str(Path(__file__).resolve().parent.parent))
import unproved  # noqa: E402

FIGURE = re.compile(r"I\s+refs:\s+([\d,]+)")
COLLECTED = re.compile(r"Collected\s*:\s*(\d+)")
SCOPE = "permit(principal, action, resource)"


def when(condition):
    """A policy with this condition."""
    return f"{SCOPE} when {{ {condition} }};"


def valgrind(tool, *options):
    """The words of valgrind that stand before a program's."""
    if not shutil.which("valgrind"):
        sys.exit("valgrind is needed: apt-get install valgrind")
    return ["valgrind", f"--tool={tool}", *options]


def most_memory(words, room, out):
    """The most memory that a run of these words in a folder has at a time, in KiB."""
    if not shutil.which("time"):
        sys.exit("time is needed: apt-get install time")
    # (what a process has at its beginning counts: with Python that is twenty megabytes, and with `time` it is one)
    held = Path(room, "held")
    subprocess.run(["time", "-q", "-f", "%M", "-o", held, *words], cwd=room, stdin=subprocess.DEVNULL, stdout=out)
    return int(held.read_text(encoding="utf8"))


class Bench:
    """A program, and the folder in which it runs and which has its texts."""

    def __init__(self, program, room):
        self.program, self.room = str(program), Path(room)

    def write(self, name, text):
        """Writes a text. Its path."""
        path = self.room / name
        path.parent.mkdir(exist_ok=True)
        path.write_text(text, encoding="utf8")
        return str(path)

    def case(self, schema, policies, column="strict policy", answer="true"):
        """Writes a file of cases for cedar_cases: one answer is wanted of each of these policies. Its name."""
        self.write("schema.txt", schema)
        lines = ["schema\tschema.txt", f"policy\t{column}", *(f"{policy}\t{answer}" for policy in policies)]
        self.write("case.tsv", "\n".join(lines) + "\n")
        return "case.tsv"

    def ran(self, words, below=(), statuses=(0,)):
        """What a run with these words says on standard error, below valgrind where that is named. It has to end with one of the statuses."""
        done = subprocess.run([*below, self.program, *words], cwd=self.room, stdin=subprocess.DEVNULL, capture_output=True, text=True)
        if done.returncode not in statuses:
            sys.exit(f"{self.program} ended with status {done.returncode}: {done.stdout[-300:]}{done.stderr[-300:]}")
        return done.stderr

    def instructions(self, *words, statuses=(0,)):
        """How many instructions a run takes."""
        said = self.ran(words, valgrind("cachegrind", "--cache-sim=no", "--cachegrind-out-file=/dev/null"), statuses)
        return int(FIGURE.search(said)[1].replace(",", ""))

    def instructions_within(self, function, *words):
        """How many instructions of a run this function takes, with all that it calls."""
        said = self.ran(words, valgrind("callgrind", "--callgrind-out-file=/dev/null", f"--toggle-collect=*{function}*"))
        count = int(COLLECTED.search(said)[1])
        if not count:
            sys.exit(f"{self.program} has no function {function} of its own, so nothing was counted")
        return count

    def held(self, *words):
        """The bytes of output of a run, which stands in the file `out`, and the most memory that it has at a time, in KiB."""
        with open(self.room / "out", "wb") as out:
            most = most_memory([self.program, *words], self.room, out)
        return (self.room / "out").stat().st_size, most


@contextmanager
def bench(words, name):
    """The program that the first word names, and without a word the one of this name without a proof, in a folder of its own."""
    resource.setrlimit(resource.RLIMIT_CORE, (0, 0))
    with tempfile.TemporaryDirectory() as room:
        yield Bench(unproved.named(words[:1], name), room)


class Row(NamedTuple):
    """A measurement. The lines are templates, which may name `what`, `size` and `figure`."""

    what: str
    sizes: tuple
    # The figure at a size, by a bench and the size: a number, or several.
    figure: Callable
    # What is printed at each size; behind it, at all but the first; and at the end. These two may name `times` too, and the first
    # of them `length`: how many times as much as before.
    line: str = ""
    growth: str = ""
    end: str = ""
    # Which of several numbers the limits are of: the last is at least and at most so much, and each is at most so many times the
    # one before.
    of: int = -1
    least: float = None
    most: float = None
    times: float = None
    # The program, where it is not the first of the script.
    program: str = None


def ratios(numbers):
    """How many times as much as the one before each number is."""
    return [after / before for before, after in zip(numbers, numbers[1:])]


def measured(row, bench):
    """Measures a row and prints its lines. For each of its limits whether it holds."""
    numbers, before = [], None
    for size in row.sizes:
        figure = row.figure(bench, size)
        numbers.append(figure[row.of] if isinstance(figure, tuple) else figure)
        line = row.line.format(what=row.what, size=size, figure=figure)
        if row.growth and before:
            line += row.growth.format(times=ratios(numbers)[-1], length=size / before)
        if line:
            print(line, flush=True)
        before = size
    if row.end:
        times = " and ".join(f"{it:.1f}" for it in ratios(numbers))
        print(row.end.format(what=row.what, size=size, figure=figure, times=times), flush=True)
    return list(held_limits(row, numbers))


def held_limits(row, numbers):
    """For each limit of a row whether it holds."""
    if row.least is not None:
        yield numbers[-1] >= row.least
    if row.most is not None:
        yield numbers[-1] <= row.most
    if row.times is not None:
        yield all(after <= row.times * before for before, after in zip(numbers, numbers[1:]))


def main(words, rows, *names):
    """Measures the rows, with the programs of these names, which the words may name in their order. 0 where all limits hold."""
    with ExitStack() as rooms:
        benches = {name: rooms.enter_context(bench(words[at:], name)) for at, name in enumerate(names)}
        results = [it for row in rows for it in measured(row, benches[row.program or names[0]])]
    print(f"{results.count(True)} passed, {results.count(False)} failed")
    return 0 if all(results) else 1
