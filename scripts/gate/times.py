"""The times of proofs that `rt ci` makes, in a file with a line for each: the crate, `proof` or `tests`, the seconds after which it
began and ended, its jobs, and the seconds that it took of processors, its children's with them."""
import os
import subprocess
import time
from collections import Counter, namedtuple
from pathlib import Path


class Measured(subprocess.Popen):
    """A process whose seconds of processors are counted by the folder in which it runs."""

    used = Counter()

    def __init__(self, *words, cwd=None, **given):
        self.folder = str(cwd)
        super().__init__(*words, cwd=cwd, **given)

    def _try_wait(self, flags):
        try:
            pid, status, used = os.wait4(self.pid, flags)
        except ChildProcessError:
            return self.pid, 0
        Measured.used[self.folder] += (used.ru_utime + used.ru_stime) * (pid == self.pid)
        return pid, status


Proof = namedtuple("Proof", "crate part begun ended jobs used")


def of(tasks, top, file):
    """The tasks of `rt ci`, of which each that proves something adds a line to a file."""
    begun, subprocess.Popen = time.monotonic(), Measured

    def timing(key, call):
        def asked(given, jobs):
            folder, since = f"{top}/crates/{key[0]}", time.monotonic() - begun
            used = Measured.used[folder]
            answer = call(given, jobs)
            times = f"{since:.0f}\t{time.monotonic() - begun:.0f}\t{jobs}\t{Measured.used[folder] - used:.0f}"
            if answer and Measured.used[folder] > used:
                with open(file, "a", encoding="utf8") as out:
                    out.write(f"{key[0]}\t{key[1]}\t{times}\n")
            return answer

        return asked

    return {key: (waits, work, memory, timing(key, call) if work else call) for key, (waits, work, memory, call) in tasks.items()}


def read(file):
    """The proofs that a file tells of, as `of` wrote it."""
    lines = Path(file).read_text(encoding="utf8").splitlines() if Path(file).is_file() else []
    return [Proof(crate, part, *map(int, numbers)) for crate, part, *numbers in (line.split("\t") for line in lines)]
