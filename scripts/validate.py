#!/usr/bin/env python3
"""What scripts/validate does, once the tools are there: scripts/validate.py [--proved] [OPTION..] SCHEMA POLICY..

With --proved the program is proved first where the texts have changed since it was. Without it the proved program runs where
it stands for the texts as they are, and else one that is built of them without a proof. Both are kept, so that a second call
builds nothing. The exit status is the program's, or 70 where it was not built.
"""
import os
import resource
import sys

import proved
import unproved

FAILED = 70


def say(text):
    print(f"scripts/validate: {text}", file=sys.stderr, flush=True)


def begin(program, words):
    """Becomes the program, which gets all the stack there is, because a build without a proof takes more of it."""
    hard = resource.getrlimit(resource.RLIMIT_STACK)[1]
    try:
        resource.setrlimit(resource.RLIMIT_STACK, (hard, hard))
    except (OSError, ValueError):
        pass
    os.execv(program, [str(program), *words])


def main(words):
    is_asked = words[:1] == ["--proved"]
    words = words[is_asked:]
    program = proved.program()
    if program is None and is_asked:
        program = proved.program() if proved.prove() else None
        if program is None:
            return FAILED
    if program is None:
        say("this build is not proved (--proved proves first, and the program stays)")
        program = unproved.program(proved.CRATE)
    begin(program, words)


if __name__ == "__main__":
    proved.stopping()
    try:
        sys.exit(main(sys.argv[1:]))
    except proved.Stopped:
        say("stopped")
        sys.exit(FAILED)
    except (OSError, unproved.KitDoesNotFit, unproved.DoesNotCompile) as error:
        say(f"{error}")
        sys.exit(FAILED)
