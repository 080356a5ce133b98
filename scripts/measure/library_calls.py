#!/usr/bin/env python3
"""Counts the instructions of calls of the C library: scripts/measure/library_calls.py [FOLDER].

FOLDER has a library as scripts/library.py builds it, by default one that this script builds without a proof. A call is made once and
eleven times, under valgrind: a tenth of the difference is its cost. One policy is validated by a schema of 300 actions; 400 policies,
each with an error, have an answer that does not fit the buffer. A library whose header has handles makes these calls by a handle too.
A line has what is measured, thousands of instructions, and milliseconds of the clock, of 100 calls.
"""
import json
import subprocess
import sys
import tempfile
import time
from pathlib import Path

import harness  # noqa: F401 (it makes the scripts of the folder above known)
import library

SOURCE = Path(__file__).resolve().with_suffix(".c")
ACTIONS = "".join(f"action a{i} appliesTo {{ principal: User, resource: Photo, context: {{ ip: String, n{i % 7}: Long }} }};\n" for i in range(300))
SCHEMA = f"entity Team;\nentity User in [Team] {{ vip: Bool, name: String }};\nentity Photo {{ owner: User, public: Bool }};\n{ACTIONS}"
SMALL = "entity User { vip?: Bool };\nentity Photo { owner: User };\naction view appliesTo { principal: User, resource: Photo };\n"
POLICY = 'permit(principal, action == Action::"a7", resource) when { resource.owner == principal && principal.vip };'
WRONG = "permit(principal, action, resource) when { principal.vip };"
LARGE = 1 << 24
# What is measured: the way, the schema, the policies, and the bytes of the buffer.
ROWS = (
    ("one policy, the schema of 300 actions in the call", "validate", SCHEMA, POLICY, LARGE),
    ("one policy, by a handle of this schema", "by", SCHEMA, POLICY, LARGE),
    ("400 policies with an error each, a buffer that is large enough", "validate", SMALL, WRONG * 400, LARGE),
    ("the same, a buffer that is too small, and the call again", "validate", SMALL, WRONG * 400, 1),
    ("the same by a handle, a buffer that is too small, and the answer that was kept", "kept", SMALL, WRONG * 400, 1),
)


def instructions(words):
    done = subprocess.run([*harness.valgrind("cachegrind", "--cache-sim=no", "--cachegrind-out-file=/dev/null"), *words], capture_output=True, text=True)
    if done.returncode:
        raise SystemExit(f"{words} ended with status {done.returncode}\n{done.stderr[-500:]}")
    return int(harness.FIGURE.search(done.stderr)[1].replace(",", ""))


def measure(program, room, way, schema, policies, size):
    call, opened = room / "call.json", room / "schema.json"
    given = {"policies": {"staticPolicies": policies}}
    call.write_text(json.dumps(given if way != "validate" else {"schema": schema, **given}), encoding="utf8")
    opened.write_text(json.dumps({"schema": schema}), encoding="utf8")
    words = [str(program), way, str(call), str(opened), str(size)]
    counted = (instructions([*words, "11"]) - instructions([*words, "1"])) // 10
    start = time.monotonic()
    subprocess.run([*words, "101"], check=True)
    middle = time.monotonic()
    subprocess.run([*words, "1"], check=True)
    return counted, ((middle - start) - (time.monotonic() - middle)) * 10


def main(words):
    with tempfile.TemporaryDirectory(prefix="calls-") as held:
        room = Path(held)
        folder = Path(words[0]) if words else room / "library"
        if not words:
            library.build(folder, library.without_proof)
        program = room / "calls"
        subprocess.run(["cc", "-O1", f"-I{folder / 'include'}", SOURCE, folder / "lib" / "libcedar.a", "-o", program], check=True)
        number = library.abi() if not words else (folder / "include" / "cedar.h").read_text(encoding="utf8").split("#define CEDAR_ABI ")[1][0]
        for name, way, *given in ROWS:
            if way != "validate" and number == "1":
                continue
            counted, clock = measure(program, room, way, *given)
            print(f"{name}\t{counted // 1000}\t{clock:.2f} ms", flush=True)
    return 0


if __name__ == "__main__":
    sys.exit(main(sys.argv[1:]))
