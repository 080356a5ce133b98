#!/usr/bin/env python3
"""The self-test of refusals.py, body_tries.py and answers.py: outputs of checks, whether each refuses a body by its meaning, which
checks several bodies get, and answers that are kept.

No prover is asked. The last line counts the samples that went as they should.
"""
import sys
import tempfile
from contextlib import redirect_stdout
from io import StringIO
from pathlib import Path

sys.path.insert(0, str(Path(__file__).resolve().parent.parent))
from gate import answers, body_tries, edits, refusals  # noqa: E402

ONLY = ["rounds::f"]
REFUSED, NOT_TRIED, STILL_PROVED = "refused", "not tried", "still proved"
AT = "proofs/rounds/f/Answers.antt:5:13"
ENDS = "\nfn cedar_host::rounds::f: not proved\nonly=1 proved=0\n"
IT_IS_NOT = "it is not proved that what the function ensures holds when it returns"
FALSE = "the facts known there allow values at which this goal is false"


def by_hand(text, goal="returns", at=AT):
    """A check in which a proof by hand has an error."""
    return f"{at}: error: `{goal}`: {text}{ENDS}"


def by_search(why="", goal="returns", what=IT_IS_NOT):
    """A check in which the search does not prove a goal."""
    return f"note: src/rounds.rt:7:1: {what} (`{goal}`){why}{ENDS}"


def in_cycle(*functions):
    """Proofs by hand that broke in a file that several functions share, because they call one another."""
    at = "proofs/rounds/+cycle/Answers.antt:9:3"
    return "".join(f"{at}: error: `{it}-returns`: this has type `A`, and `B` is expected\nfn cedar_host::rounds::{it}: not proved\n" for it in functions)


OPEN = by_search()
GONE = by_hand("record `Rattle.cedar_host.proofs.rounds.f.Lts.Start` has no field `in-None`\n  the fields that can be named here are `args`")
# That one function is refused, and that another's proof broke, in a check of both.
OTHER = "fn cedar_host::rounds::g: not proved\nonly=2 proved=0\n"

# Each output, and the answer that is right.
SAMPLES = [
    # refused by a meaning
    ("a goal that the search leaves open", OPEN, REFUSED),
    ("a goal of one clause", by_search(goal="returns-in-Some-clause-exact"), REFUSED),
    ("a goal that is false at some values", by_search(f"; {FALSE}"), REFUSED),
    ("a goal of a loop", by_search(goal="loop-x-preserved", what="it is not proved that the invariant of the loop holds"), REFUSED),
    ("a search by hand that ends without a proof", f"note: {AT}: `search` found no proof (`returns`)" + ENDS, REFUSED),
    ("omega, with values", by_hand("`omega`: the goal does not follow from what it read. All of that holds, and the goal fails, at `c.args.n` = 0."), REFUSED),
    ("grind, with values", by_hand("`grind`: the goal does not follow. The hypotheses hold, and the goal fails at `c.args.n` = `0`."), REFUSED),
    ("values beside a proof that broke", GONE.replace(ENDS, "") + "\n" + by_search(f"; {FALSE}", "returns-in-Some"), REFUSED),
    ("a goal of a function in a cycle", by_search(goal="f-returns").replace(ENDS, "\nfn cedar_host::rounds::f: not proved\n" + OTHER), REFUSED),
    ("beside another body that is refused", OPEN.replace("only=1 proved=0\n", "") + by_search().replace("rounds::f:", "rounds::g:"), REFUSED),
    ("beside the proof of another body that broke one of its cycle", in_cycle("g", "h") + OPEN, REFUSED),
    # breakage
    ("a body that broke a proof of its own cycle", in_cycle("f", "h") + OPEN, NOT_TRIED),
    ("beside a proof of a cycle that no body is in", in_cycle("h") + OPEN, NOT_TRIED),
    ("a type that does not fit", by_hand("this has type `A`, and `B` is expected"), NOT_TRIED),
    ("types that differ", by_hand("as printed, the two types differ only where one has `g n` (expected)\n  but this has type `f n ≡ f n`"), NOT_TRIED),
    ("a constructor that is gone", by_hand("data type `Branch` has no constructor `in-None` and no derived definition"), NOT_TRIED),
    ("a field that is gone", GONE, NOT_TRIED),
    ("a field that there is not", by_hand("the record type has no such field"), NOT_TRIED),
    ("a name of no constructor", by_hand("`in-None` names no constructor here, so it would be a variable"), NOT_TRIED),
    ("a case that is not covered", by_hand("no clause covers the case `in-Some w`"), NOT_TRIED),
    ("a name out of scope", by_hand("`c.x` is not in scope"), NOT_TRIED),
    ("a name of nothing", by_hand("`x` is no name here"), NOT_TRIED),
    ("an answer that nothing asks for", by_hand("`returns-in-Ok` is no name that rattle asks for in `Goals`"), NOT_TRIED),
    ("a proof that needs one that is gone", by_hand("`lemma` was not admitted"), NOT_TRIED),
    ("an invariant that is gone", by_hand("`l` has no field `value`", "invariant-loop-x", "proofs/rounds/f/Invariants.antt:4:9"), NOT_TRIED),
    ("the step limit", by_hand("the declaration went over this check's step limit"), NOT_TRIED),
    ("a search by hand that gave up", f"note: {AT}: `search` found no proof (`returns`): search gave up at one of its limits" + ENDS, NOT_TRIED),
    ("a search that gave up", by_search("; `search` gave up at one of its limits"), NOT_TRIED),
    ("grind that gave up", by_search("; `grind` gave up at one of its limits"), NOT_TRIED),
    ("an open goal beside a proof that broke", GONE.replace(ENDS, "") + "\n" + by_search(goal="returns-in-Some"), NOT_TRIED),
    ("an open goal that no clause asks", by_search(goal="index-in_range", what="it is not proved that the index is in range"), NOT_TRIED),
    ("nothing that is said", "only=1 proved=0\n", NOT_TRIED),
    ("a callee that is refused", OPEN.replace("rounds::f:", "rounds::callee:"), NOT_TRIED),
    ("a lemma that broke", by_hand("this has type `A`, and `B` is expected", "lemma", "proofs/Found.antt:9:1"), NOT_TRIED),
    ("another in its cycle", by_search(goal="g-returns").replace(ENDS, "\nfn cedar_host::rounds::f: not proved\n" + OTHER), NOT_TRIED),
    # nothing is said against it
    ("a body that is proved", "fn cedar_host::rounds::f: proved\nonly=1 proved=1\n", STILL_PROVED),
    ("a body that is proved beside one that is not", "fn cedar_host::rounds::f: proved\n" + OTHER, STILL_PROVED),
]
# With values alone an open goal refuses nothing.
BY_VALUES = [("an open goal", OPEN, NOT_TRIED), ("a goal that is false at some values", by_search(f"; {FALSE}"), REFUSED)]
ANSWERS = """use Rattle.demo.proofs.f.Goals as goal

lemma : A
lemma = go
  where
    go : A

    go = refl

pub returns :
    goal.returns
returns c = lemma

pub returns-in-Some : goal.returns-in-Some
returns-in-Some c = refl
"""
LEFT = """use Rattle.demo.proofs.f.Goals as goal

lemma : A
lemma = go
  where
    go : A

    go = refl

pub returns-in-Some : goal.returns-in-Some
returns-in-Some c = refl
"""


def answer(output, by_values=False):
    try:
        refusals.refusal(ONLY, output, ["rounds::f", "rounds::g"], by_values)
        return REFUSED
    except refusals.NotTried:
        return NOT_TRIED
    except refusals.StillProved:
        return STILL_PROVED


def broken_by(output):
    """Why a check came to no meaning, where it came to none."""
    try:
        return refusals.refusal(ONLY, output, ONLY)
    except refusals.NotTried as broken:
        return broken


def answers_that_broke(output):
    return broken_by(output).answers


def is_at_limit(output):
    return broken_by(output).is_at_limit


class Prover:
    """A prover that says of each function of `cedar_json` one text, and of each check without its proof by hand another."""

    def __init__(self, goal, without):
        self.goal, self.without, self.asked = goal, without, []

    def said_of(self, path, texts):
        if path == "texts::is_plain":
            return f"fn cedar_json::{path}: proved\n"
        by_hand = "proofs/" + path.replace("::", "/") + "/Answers.antt"
        return (self.without if by_hand in texts else self.goal.format(file=by_hand)) + f"\nfn cedar_json::{path}: not proved\n"

    def __call__(self, crate, only, texts):
        self.asked.append(sorted(only))
        return "".join(self.said_of(path, texts) for path in only) + f"only={len(only)} proved=0\n"


def body(name):
    return edits.body_of(name, edits.MUTATIONS / f"{name}.edit")


def tries(prover, names):
    """How the tries of these bodies of `cedar_json` went by a prover, and of the right body beside them, and which checks they got."""
    with redirect_stdout(StringIO()):
        found = body_tries.BodyTries(prover)([body(f"bodies/cedar_json/{name}") for name in names])
    return [it.is_well for it in found], prover.asked


def checks_of_several():
    """Samples of bodies that share checks, and whether each went as it should."""
    unit, meant, plain = "escapes::unit", "escapes::meant", "texts::is_plain"
    names, both = ["digits_are_swapped", "a_line_feed_is_a_letter"], sorted([unit, meant])
    is_open = by_search().replace(ENDS, "")
    yield "a check is shared with a right body", tries(Prover(is_open, ""), names) == ([True] * 3, [sorted([plain, *both])])
    broken = "{file}:5:13: error: `returns`: this has type `A`, and `B` is expected"
    shown = by_search(f"; {FALSE}").replace(ENDS, "")
    yield "proofs that broke share a check without them", tries(Prover(broken, shown), names) == ([True] * 3, [sorted([plain, *both]), both])
    yield "no values, no meaning", tries(Prover(broken, is_open), names)[0] == [True, None, None]
    limit = by_search("; `search` gave up at one of its limits").replace(ENDS, "")
    yield "a limit is not tried again", tries(Prover(limit, ""), names) == ([True, None, None], [sorted([plain, *both])])
    names = [*names, "a_control_character_is_plain"]
    alone = [[plain], [plain]]
    yield "a right body that fits no batch is checked alone", tries(Prover(is_open, ""), names)[1] == [sorted([plain, *both]), *alone]


def kept_answers():
    """Samples of answers that are kept in a file of their own, and whether each went as it should."""
    edit, other = sorted(edits.chosen(["bodies/"]).items())[:2]
    with tempfile.TemporaryDirectory() as room:
        answers.FILE = Path(room, "answers.tsv")
        yield "an edit without an answer is left", answers.left(dict([edit, other])) == dict([edit, other])
        answers.keep({edit[0]: "refused at returns of rounds::f", other[0]: NOT_TRIED})
        yield "an edit with an answer is not left", answers.left(dict([edit, other])) == {}
        answers.keep({other[0]: None})
        yield "an answer is taken away", answers.left(dict([edit, other])) == dict([other])
        text = answers.FILE.read_text(encoding="utf8")
        answers.FILE.write_text(text.replace(answers.sum_of(edit[0]), "0" * 16), encoding="utf8")
        yield "an answer for other texts counts for nothing", answers.left(dict([edit])) == dict([edit])


def outcomes():
    """Each sample, and whether it went as it should."""
    yield from kept_answers()
    yield from checks_of_several()
    for name, output, wanted in SAMPLES:
        yield f"{name}: {answer(output)}", answer(output) == wanted
    for name, output, wanted in BY_VALUES:
        yield f"by values: {name}", answer(output, True) == wanted
    yield "a check that did not come to its end", answer("") == NOT_TRIED
    yield "an answer that is taken out", refusals.without_answers(ANSWERS, {"returns"}) == LEFT
    yield "the answers that broke", answers_that_broke(GONE) == [("proofs/rounds/f/Answers.antt", "returns")]
    invariant = by_hand("`l` has no field `x`", "invariant-loop-x", "proofs/rounds/f/Invariants.antt:4:9")
    yield "an invariant is not taken out", answers_that_broke(invariant) == []
    gave_up = by_search("; `search` gave up at one of its limits")
    yield "a limit of the search is its own answer", is_at_limit(gave_up)
    yield "a proof that broke beside it is tried without", not is_at_limit(f"{GONE}\n{gave_up}")
    yield "a proof by hand at a limit is tried without", not is_at_limit(by_hand("the declaration went over this check's step limit"))
    bodies, _ = edits.read_bodies(edits.chosen(["bodies/"]))
    for crate in sorted({it.crate for it in bodies}):
        yield f"{crate} has a right body", bool(edits.controls_of(crate))


def main():
    passed = failed = 0
    for name, well in outcomes():
        passed, failed = passed + well, failed + (not well)
        if not well:
            print(f"not as it should be: {name}")
    print(f"{passed} passed, {failed} failed")
    return 1 if failed else 0


if __name__ == "__main__":
    sys.exit(main())
