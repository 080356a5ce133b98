"""Tables of laws, which are functions that do nothing: each says what its own comment says, and leads to its clauses."""
import re
from functools import partial

from docs import api_pages, files as listings
from docs.definitions import Gone

TYPECHECK, LEVELS = "cedar_typing/src/typecheck", "cedar_typechecker/src/level_validate"
# The laws of each table: a file of crates, and its laws.
LAWS = {
    "laws_of_the_promise": (
        f"{LEVELS}/promises.rt passing_is_kept required_level_suffices cut_nowhere", f"{LEVELS}/laws.rt required_levels",
        "cedar_host/src/loaded_outcomes.rt loaded_is_enough",
    ),
    "laws_of_policies": (f"{TYPECHECK}/composition.rt passing_is_safe", f"{LEVELS}/promises.rt validations_are_kept", f"{TYPECHECK}/laws.rt examples_of_promises"),
    "laws_of_slices": (f"{LEVELS}/promises.rt passing_needs_slice_alone", f"{LEVELS}/slices.rt slice_soundness targets_are_reached slices_hold"),
    "laws_of_types": (f"{TYPECHECK}/laws.rt type_soundness premises_are_met",),
    "laws_of_copies": (
        f"{TYPECHECK}/typed_copies.rt copies_mean_the_same conditions_mean_the_same", f"{LEVELS}/slices.rt copies_need_slice_alone",
        f"{LEVELS}/promises.rt passing_copy_needs_slice_alone",
    ),
    "laws_of_nodes": ("cedar_node_types/src/lib.rt nodes_have_types reached_nodes_fit condition_types_hold",),
    "laws_of_readings": ("cedar_alike/src/laws.rt typed_once policy_typed_once each_part_decides",),
    "laws_of_modes": (
        f"{TYPECHECK}/refinement.rt strict_is_kept strict_passes_in_permissive permissive_is_kept_in_partial", f"{LEVELS}/laws.rt strict_levels_are_kept",
    ),
    "laws_of_environments": (f"{TYPECHECK}/composition.rt own_environment environments_cover impossible_is_never_true failures_have_errors",),
    "laws_of_responses": ("cedar_host/src/responses.rt responses_need_slice_alone nothing_else_decides examples_of_responses",),
}


def row(path, law, files):
    """A law, with a link to its clauses, and the first paragraph of its comment."""
    found = re.search(rf"((?:^ *///.*\n)+)(?:^ *#\[.*\n)*^ *pub fn {law}\b", files.get(f"crates/{path}", ""), re.M)
    if not found:
        raise Gone(f"scripts/docs/laws.py: crates/{path} has no law `{law}` with a comment")
    lines = [line.strip().removeprefix("///").strip() for line in found[1].splitlines()]
    says = " ".join(lines[:lines.index("")] if "" in lines else lines)
    page = f"api/{path.split('/')[0]}.md"
    link = f"{page}#{api_pages.anchor(law)}" if f"\n### {law}\n" in files.get(f"docs/{page}", "") else f"../crates/{path}"
    return f"| [`{law}`]({link}) | {listings.cell(says)} |"


def shown(name, files):
    rows = [row(path, law, files) for path, *laws in map(str.split, LAWS[name]) for law in laws]
    return ["| Law | What it says |", "|---|---|", *rows]


def makers():
    return {name: partial(shown, name) for name in LAWS}
