"""Tries of wrong and right bodies by as few checks as can be, for scripts/mutations.

Bodies of different functions share a check. Those that wait for the proof of one of them share the next, and so do those whose
proofs by hand broke, without these proofs. A body of which none of these checks says enough gets one alone.
"""
import time
from collections import namedtuple

from gate.edits import Fault, control_of, edited, fit, is_control, read, together
from gate.refusals import NotTried, StillProved, all_proved, all_said, is_one_of, refusal, without_answers

# A try: its name, whether it went well, which is `None` where it came to no meaning, and what was said of it.
Tried = namedtuple("Tried", "name is_well said")
# What is said of a body by no check: no output, and no function that it was asked about.
NOTHING = ("", ())


def tried(name, started, what, *given):
    """Prints how a try went, and answers it."""
    try:
        is_well, word, output = True, "ok", what(*given)
    except NotTried as broken:
        is_well, word, output = None, "NOT TRIED", broken
    except (Fault, OSError) as fault:
        is_well, word, output = False, "FAILED", fault
    print(f"{word}: {name} ({time.monotonic() - started:.0f} s): {output}", flush=True)
    return Tried(name, is_well, str(output))


def texts_without(texts, crate, answers):
    """These texts of a crate, without the answers to goals whose proofs broke: a file, and a goal."""
    files = {file: {goal for it, goal in answers if it == file} for file, _ in answers}
    return texts | {file: without_answers(texts.get(file) or read(crate, file), goals) for file, goals in files.items()}


def broken_of(body, said):
    """Why a check did not try a meaning of a wrong body, where proofs by hand broke, or the search came to a limit."""
    try:
        if not is_control(body):
            refusal(body.only, *said)
    except NotTried as broken:
        return broken if broken.answers or broken.is_at_limit else None
    except Fault:
        pass
    return None


def is_enough(body, *said):
    """Whether a check of several says of a body what one alone would: a refusal, a breakage, or that a right one is proved."""
    if is_control(body):
        return all_proved(body.only, said[0])
    try:
        return bool(refusal(body.only, *said))
    except Fault:
        return broken_of(body, said) is not None


def speaks_of(body, output, _):
    """Whether a check came to the goals of a body."""
    return all_proved(body.only, output) or any(is_one_of(it.function, body.only) for it in all_said(output))


class BodyTries:
    """Tries of bodies by a check: what the prover says of functions of a crate, where files of it have these texts."""

    def __init__(self, check):
        self.check = check

    def said(self, bodies, answers=()):
        """What a check of bodies says, where these answers to goals are left out, and the functions that it was asked about."""
        crate, only, pairs = together(bodies)
        return self.check(crate, only, texts_without(edited(crate, pairs), crate, answers)), only

    def said_together(self, bodies, says_enough, answers_of):
        """
        What checks of several bodies say of each, by their names, without the answers of each. A function that calls another edited
        one waits for that one's proof, so the bodies of which a check says too little are checked again, as long as that helps.
        """
        said = {}
        while len(bodies) > 1 and fit(bodies):
            try:
                found = self.said(bodies, [answer for it in bodies for answer in answers_of.get(it.name, ())])
            except Fault:
                # (together they do not compile)
                break
            told = {it.name: found for it in bodies if says_enough(it, *found)}
            if not told:
                break
            said |= told
            bodies = [it for it in bodies if it.name not in told]
        return said

    def by_values(self, body, broken, said=NOTHING):
        """
        How values refuse a body whose proofs by hand broke, once the search tries their goals without these: values alone, because
        a goal that needs an answer may stay open though it is right.
        """
        try:
            return refusal(body.only, *(self.said([body], broken.answers) if said == NOTHING else said), by_values=True)
        except Fault:
            raise broken from None

    def alone(self, body):
        """How a check alone refuses a body."""
        try:
            return refusal(body.only, *self.said([body]))
        except NotTried as broken:
            if not broken.answers:
                raise
            return self.by_values(body, broken)

    def try_body(self, body, said, values):
        """How the prover refuses a wrong body: by what checks of several said, where that is enough, or by a check alone."""
        try:
            return refusal(body.only, *said)
        except NotTried as broken:
            if broken.is_at_limit:
                raise
            if broken.answers:
                return self.by_values(body, broken, values)
        except Fault:
            pass
        return self.alone(body)

    def try_control(self, control, said, _):
        """That the prover does not refuse a right body: the body is still proved, or it is not tried, because its proof broke."""
        try:
            raise Fault(f"A RIGHT BODY IS REFUSED: {refusal(control.only, *(self.said([control]) if said == NOTHING else said))}")
        except NotTried as broken:
            return f"a right body is not refused: {broken}"
        except StillProved:
            return "a right body is still proved"

    def __call__(self, bodies):
        """Tries wrong bodies by as few checks as can be, in which a right body takes part, or right bodies."""
        started, control = time.monotonic(), None if is_control(bodies[0]) else control_of(bodies)
        every = [control, *bodies] if control else bodies
        # (a control that does not fit these bodies is checked alone)
        said = self.said_together(every if fit(every) else bodies, is_enough, {})
        broken = {it.name: broken_of(it, said.get(it.name, NOTHING)) for it in every}
        answers_of = {name: why.answers for name, why in broken.items() if why and why.answers}
        values = self.said_together([it for it in every if it.name in answers_of], speaks_of, answers_of)
        tries = [(it, self.try_control if is_control(it) else self.try_body) for it in every]
        return [tried(it.name, started, what, it, said.get(it.name, NOTHING), values.get(it.name, NOTHING)) for it, what in tries]
