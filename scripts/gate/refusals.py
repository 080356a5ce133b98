"""What a check says of a wrong body: whether the prover refuses it by its meaning, which scripts/mutations asks.

A body is refused at a goal of a clause: what the function ensures, what its loops or its type keep, or what it owes to a call.
The prover has to say that the goal is not proved, and not by a limit of its own, or that it fails at some values. Everything else
is breakage, by which no meaning was tried: a proof by hand that names what the edit took away, that does not fit the types which
the edit made, or that comes to a limit. A goal that the search leaves open counts for nothing beside a proof that broke, because
the answer that the goal needs may be the one that broke.
"""
import re
from collections import namedtuple

from gate.edits import Fault

ASKED = re.compile(r"^only=(\d+) proved=(\d+)$", re.M)
LINE = re.compile(r"^fn \w+::(\S+): (\w+)", re.M)
GOAL = re.compile(r"^note: \S+:\d+:\d+: (?:it is not proved that .*?|`search` found no proof )\(`([^`]+)`\)(.*)$", re.M)
ERROR = re.compile(r"^(?:\./)?(\S+):\d+:\d+: error: (?:`([^`]*)`: )?(.*(?:\n .*)*)", re.M)
# That a goal fails at values which the prover has found and checked.
VALUES = re.compile(r"allow values at which this goal is false|\bthe goal fails,? at\b")
# That the prover came to a bound of its own: a right body may come to it too.
LIMIT = re.compile(r"gave up at|step limit|ran out of|outgrew|past its bounds")
# The goals of clauses: the others are that an index is in range, that a sum fits, that a loop ends.
OF_CLAUSE = re.compile(r"^(?:\w+-)?(?:returns|loop|invariant_of|unreachable)\b|-requires\b")

# A goal of a function, and what the prover says of it: shown false by values, left open, or broken off; the last with the file of
# the proof, if it is one by hand.
Said = namedtuple("Said", "function goal word file text")
SHOWN, OPEN, BROKEN = "shown", "open", "broken"


class StillProved(Fault):
    """That the prover has nothing against a body."""


class NotTried(Fault):
    """
    Why a check came to no meaning: the goals whose proofs by hand broke, each a file and a goal, or a limit of the search, to which
    a check alone comes too.
    """

    def __init__(self, why, answers=(), is_at_limit=False):
        super().__init__(f"not tried: {why}")
        self.answers, self.is_at_limit = list(answers), is_at_limit


def is_proved(output):
    """Whether a check says that all that it was asked about is proved; one that did not come to its end says nothing."""
    asked = ASKED.findall(output)
    return bool(asked) and len({*asked[-1]}) == 1


def first_error(output):
    return (ERROR.search(output) or [output])[0][:400]


def is_one_of(function, paths):
    return any(f"::{function}".endswith(f"::{path}") for path in paths)


def all_proved(only, output):
    """Whether a check says of each of these functions that it is proved."""
    proved = [line[1] for line in LINE.finditer(output) if line[2] == "proved"]
    return all(any(is_one_of(function, [path]) for function in proved) for path in only)


def function_of(file, goal, names):
    """The function that an answer in this file is of, where functions have these names; several that call one another share it."""
    folder, _, last = file.removeprefix("proofs/").rpartition("/")[0].rpartition("/")
    first = goal.partition("-")[0]
    return "::".join([*folder.split("/"), first if last.startswith("+") and first in names else last.removeprefix("+")]).lstrip(":")


def is_beside(goal, names):
    """
    Whether a goal is one of these functions' own: in a cycle of calls each has the goals of all, which begin with the name of
    their own. What a call asks for begins with the name that is called.
    """
    function, _, goal = goal.partition("-")
    return function in names and not goal.startswith("requires")


def word_of(text, if_none):
    return SHOWN if VALUES.search(text) else BROKEN if LIMIT.search(text) else if_none


def all_said(output):
    """What is said of each goal: by the search, of the function whose line comes next; and of a proof by hand, of its own."""
    names, at = {line[1].rpartition("::")[2] for line in LINE.finditer(output)}, 0
    for line in LINE.finditer(output):
        beside = names - {line[1].rpartition("::")[2]}
        for found in GOAL.finditer(output, at, line.start()):
            if not is_beside(found[1], beside):
                yield Said(line[1], found[1], word_of(found[2], OPEN), None, found[0])
        at = line.end()
    for file, goal, text in ERROR.findall(output):
        yield Said(function_of(file, goal, names), goal, word_of(text, BROKEN), file, text)


def is_of_another_body(it, said, only, asked):
    """
    Whether a goal of a function that no body turns broke by another body than this one: functions that call one another share a
    file of proofs, and in this file a proof of another body's function broke, and none of this one's.
    """
    sharing = [other.function for other in said if it.file and other.file == it.file]
    others = [function for function in sharing if is_one_of(function, asked)]
    return bool(others) and not any(is_one_of(function, only) for function in others)


def why_not(own, output, only):
    """Why no meaning was tried, by what is said of these functions."""
    broken = [it for it in own if it.word == BROKEN]
    if broken:
        it = broken[0]
        return f"the proof broke at {it.file or 'a limit'}: {it.goal}: {' '.join(it.text.split())[:200]}"
    if own:
        return f"only {' '.join(dict.fromkeys(it.goal for it in own))} of {' '.join(only)} is open, which no clause asks"
    return f"no goal of {' '.join(only)} is open: {first_error(output)}"


def refusal(only, output, asked, by_values=False):
    """
    The goals by which a check refuses the body of these functions, where it refuses no other than those that it was asked about,
    but by another body: any, or those alone that fail at some values.
    """
    if is_proved(output) or all_proved(only, output):
        raise StillProved("NOT REFUSED: it is still proved")
    said = list(all_said(output))
    beside = [it for it in said if not is_one_of(it.function, asked)]
    others = [it.file or it.function for it in beside if not is_of_another_body(it, said, only, asked)]
    own = [it for it in said if is_one_of(it.function, only)]
    of_clauses = [it for it in own if OF_CLAUSE.search(it.goal)]
    goals = [it.goal for it in of_clauses if it.word == SHOWN]
    if not by_values and not any(it.word == BROKEN for it in own):
        goals += [it.goal for it in of_clauses if it.word == OPEN]
    if goals and not others:
        return f"refused at {' '.join(dict.fromkeys(goals))} of {' '.join(only)}"
    if others:
        raise NotTried(f"other functions are refused too: {' '.join(dict.fromkeys(others))}")
    broken = [it for it in own if it.word == BROKEN]
    answers = [(it.file, it.goal) for it in broken if it.goal and f"{it.file}".endswith("/Answers.antt")]
    raise NotTried(why_not(own, output, only), answers, bool(broken) and all(it.file is None for it in broken))


def without_answers(text, goals):
    """A file of answers without those to these goals, which the search then tries."""
    kept, is_left_out = [], False
    for line in text.splitlines():
        if line and not line[0].isspace():
            name = line.removeprefix("pub ").split()[0]
            is_left_out = name in goals
        kept += [] if is_left_out else [line]
    return "\n".join(kept) + "\n"
