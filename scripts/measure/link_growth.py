#!/usr/bin/env python3
"""What cedar-validate takes for files of links: scripts/measure/link_growth.py [PROGRAM].

PROGRAM is cedar_validate, by default as it is built without a proof. Counted are instructions, by valgrind, or bytes of memory. A
line passes where the figures stay below their limits. It needs valgrind, and is no part of the gate.

**Templates and links.** Ten links for each of so many templates. Four times as many of both take little more than four times as
much.

**Faults of links.** Links without a template, all in one line. Four times as many take little more than four times as much,
because a hundred faults are shown, and their places are found in one reading.

**Places.** So many templates in one line, each with a finding behind its place and with a link, whose place is that of the template.

**Copies.** One template of some 55 KB, and as many links as have 55 KB. Counted is the most memory beyond a run on the template
alone, by the byte of both texts: a run holds one copy of the template at a time.

**Links that are held.** Links without a template. Counted is the most memory beyond a run on no links, by the byte of the file.
`time` tells the memory.
"""
import json
import sys

import harness
from harness import Row

SCHEMA = "entity User { a: Bool };\naction view appliesTo { principal: User, resource: User, context: {} };\n"
FINDING = " when { resource.wrong }"


def template(number, condition=""):
    return f'@id("t{number}") permit(principal == ?principal, action, resource){condition};'


def link(number, of):
    return {"template_id": f"t{of}", "link_id": f"l{number}", "args": {"?principal": 'User::"u"'}}


def files(bench, policies, links):
    """The words of a run on these texts."""
    return bench.write("schema", SCHEMA), bench.write("policies", policies), "-k", bench.write("links", links)


def of_templates(bench, count):
    """The instructions for so many templates, and ten times as many links."""
    links = json.dumps([link(number, number % count) for number in range(10 * count)])
    return bench.instructions(*files(bench, "\n".join(map(template, range(count))), links))


def of_faults(bench, count):
    """The instructions for so many links without a template, in one line."""
    links = json.dumps([link(number, "gone") for number in range(count)])
    return bench.instructions(*files(bench, template(0), links), statuses=(2,))


def of_places(bench, count):
    """The instructions for so many templates in one line, each with a finding and a link."""
    policies = " ".join(template(number, FINDING) for number in range(count))
    links = json.dumps([link(number, number) for number in range(count)])
    return bench.instructions(*files(bench, policies, links), statuses=(1,))


def of_copies(bench, size):
    """The bytes of a template and of its links, which have so many bytes each, the most memory in KiB, and the bytes of it that the
    links add, by the byte of both texts."""
    conditions = " && ".join(["principal.a"] * 300)
    policies = template(0, f" when {{ {conditions} }}" * (size // 4300))
    links = json.dumps([link(number, 0) for number in range(size // 80)], separators=(",", ":"))
    alone = bench.held(*files(bench, policies, "[]"))[1]
    both, most = len(policies) + len(links), bench.held(*files(bench, policies, links))[1]
    return both, most, (most - alone) * 1024 / both


def of_held(bench, count):
    """The bytes of so many links, the most memory in KiB, and how many bytes of it a byte takes."""
    words = files(bench, template(0), "[]")
    least, path = bench.held(*words)[1], bench.room / "links"
    # (by pieces, because this script's own memory would show)
    with open(path, "w", encoding="utf8") as file:
        for number in range(count):
            file.write(("," if number else "[") + json.dumps(link(number, "gone")))
        file.write("]")
    size, most = path.stat().st_size, bench.held(*words)[1]
    return size, most, (most - least) * 1024 / size


OF_LINKS = "{size:,} {what}: {figure:,} instructions"
GROWTH = ", {times:.2f} times as many"
ROWS = (
    Row("templates with ten links each", (125, 500, 2000), of_templates, OF_LINKS, GROWTH, times=4.6),
    Row("links without a template", (250, 1000, 4000), of_faults, OF_LINKS, GROWTH, times=4.6),
    Row("templates in one line with a finding and a link", (125, 500, 2000), of_places, OF_LINKS, GROWTH, times=4.6),
    Row("a template and its links", (55_000,), of_copies, "{what}, {figure[0]:,} bytes: {figure[1]:,} KiB at most, {figure[2]:.1f} bytes a byte for links", most=40),
    Row("links without a template", (200_000,), of_held, "{size:,} {what}, {figure[0]:,} bytes: {figure[1]:,} KiB at most, {figure[2]:.1f} bytes a byte", most=40),
)


if __name__ == "__main__":
    sys.exit(harness.main(sys.argv[1:], ROWS, "cedar_validate"))
