#!/usr/bin/env python3
"""Runs `rt ci` on all processors: scripts/gate/lanes.py [TIMES], which scripts/prove calls in the copy of the repository that it proves.

`rt ci` reckons the memory of a proof by lines, for the largest crates more than twice of the memory that they take, so that
processors idle, and it gives most proofs one job. A proof with two jobs takes 13 to 26 % less of a processor than with one,
because its checks run in forked copies that stay small. So the one function by which `rt` chooses is replaced here, if its
tasks have the form that is known: each proof gets two jobs, or more where the chain that waits for it is long, as far as memory
allows, unless the machine keeps the very proof (scripts/gate/kept.py). Nothing else that proves or counts is touched, and a kit
with other tasks shares by itself. The kit would have to offer two words: the memory of a proof, and the jobs of each.

The file TIMES gets a line for each proof that was made (scripts/gate/times.py).
"""
import os
import sys
from concurrent.futures import FIRST_COMPLETED, ThreadPoolExecutor, wait
from pathlib import Path

sys.path.insert(0, str(Path(__file__).resolve().parent.parent))
from gate import kept, times  # noqa: E402
from gate.kept import Kept  # noqa: E402

# The parts of a crate's work, as `rt` names them.
PARTS = ("proof", "tests", "edits")
# A proof takes at most so many bytes, and so many more for each line of code or of tests, as was seen of each crate.
LEAST = 1_200_000_000
LINE = {"proof": 850_000, "tests": 1_400_000, "edits": 850_000}
# A further job of a proof takes at most so many bytes.
JOB = 1_500_000_000
# A proof has at least so many jobs, and an even number of them; more than so many no longer shorten it.
PAIR = 2
MOST = 4
# While the file stands that this word of the environment names, tests run beside the gate and take so many bytes.
BESIDE = "GATE_BESIDE"
TESTS = 9_000_000_000
# After so many seconds it is seen that they have ended.
LOOK = 10


def chains(tasks):
    """The work of each task and of the longest chain of tasks that wait for it."""
    found = {key: 0 for key in tasks}
    # (a task comes after the tasks that it waits for)
    for key in reversed([*tasks]):
        waits, work, *_ = tasks[key]
        found[key] += work
        for it in waits:
            found[it] = max(found[it], found[key])
    return found


def ready_of(tasks, left, given):
    """The tasks that wait for nothing, after those without work have been done at once."""
    while True:
        ready = [key for key in left if all(it in given for it in tasks[key][0])]
        idle = [key for key in ready if not tasks[key][1]]
        if not idle:
            return ready
        for key in idle:
            left.remove(key)
            given[key] = tasks[key][3](given, 1)


def memory_of(part, task):
    """The memory that a proof takes: `rt` reckons with more of the crates that have many lemmas."""
    _, lines, reckoned, _ = task
    return min(reckoned, LEAST + LINE[part] * lines)


def jobs_of(idle, chains, room):
    """How many jobs the proof with the first of these chains gets: its share of the idle processors, which is as large as its chain
    is long beside the others, in pairs, as far as the memory beside its own goes."""
    share = -(-idle * chains[0] // sum(chains)) // PAIR * PAIR
    return max(1, min(MOST, idle, max(PAIR, share), 1 + int(room // JOB)))


def side_by_side(tasks, processors, memory):
    """Runs tasks side by side, first those with the longest chain behind them, and answers what each gave. A task is the tasks
    that it waits for, its work, its memory, and a call that gets what was given and how many jobs it may use. The memory for
    all is asked for each time."""
    behind, given, running = chains(tasks), {}, {}
    left = sorted(tasks, key=lambda key: -behind[key])
    with ThreadPoolExecutor(processors) as pool:
        while left or running:
            ready = ready_of(tasks, left, given)
            for at, key in enumerate(ready):
                needs = memory_of(key[1], tasks[key])
                idle = processors - sum(jobs for _, jobs, _ in running.values())
                room = memory() - sum(taken for _, _, taken in running.values()) - needs
                if idle >= min(PAIR, processors) and (room >= 0 or not running):
                    jobs = jobs_of(idle, [behind[it] for it in ready[at:]], room)
                    left.remove(key)
                    running[pool.submit(tasks[key][3], given, jobs)] = key, jobs, needs + JOB * (jobs - 1)
            for it in wait(running, LOOK, FIRST_COMPLETED).done if running else ():
                given[running.pop(it)[0]] = it.result()
    return given


def memory_beside(free):
    """How much memory there is for proofs, where so much was free, as long as tests run and afterwards."""
    marker = Path(os.environ.get(BESIDE, ""))
    return lambda: 0.92 * free - TESTS * (os.environ.get(BESIDE, "") != "" and marker.exists())


def are_known(tasks):
    """Whether the tasks of `rt` have the form that `side_by_side` takes."""
    return all(len(key) == 2 and key[1] in PARTS and len(task) == 4 and all(it in tasks for it in task[0]) for key, task in tasks.items())


def ci(rt, over):
    """Runs `rt ci` of the kit's module `rt` in the current folder, over tasks that a function makes of its own. Its status."""
    own = rt.in_lanes

    def in_lanes(tasks):
        if not are_known(tasks):
            print("rt: this kit has other tasks than scripts/gate/lanes.py knows, so it shares processors by itself", flush=True)
            return own(tasks)
        return side_by_side(over(tasks), rt.processors(), memory_beside(rt.free()))

    rt.in_lanes = in_lanes
    return rt.main(["ci"])


def main(words):
    rt = kept.module_of_kit()

    def over(tasks):
        measured = times.of(tasks, os.getcwd(), words[0]) if words else tasks
        return measured if kept.of_kit(rt) else Kept(os.getcwd()).over(measured)

    return ci(rt, over)


if __name__ == "__main__":
    sys.exit(main(sys.argv[1:]))
