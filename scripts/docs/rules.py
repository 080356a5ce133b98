"""The rules of levels, as a table of RULES: definitions of specs/ and constructors of them, each with its own comment."""
from docs import definitions, files as listings

FOLDER, LEVELS = "docs", "crates/cedar_typechecker/specs/Levels"
# Each file, with the definitions of it that are shown, in the order of the page.
LEVEL_RULES = (
    ("Errors", "unless_below"),
    ("Dereferences", "checked_of_base accesses_first checked_of_chain"),
    ("Costs", "root_cost steps_cost"),
    ("Errors", "faults_of_chain level_at_keys"),
    ("Dereferences", "checked_parts next_targets checked_below"),
    ("Chains", "of_entity of_record of_tag of_then of_field good_leaf literal_leaf bad_leaf level"),
)


def levels(files):
    found = [definitions.find(files, f"{LEVELS}/{file}.antt", name) for file, names in LEVEL_RULES for name in names.split()]
    return ["| Rule | What it says |", "|---|---|", *(f"| {it.link(FOLDER)} | {listings.cell(it.sentence())} |" for it in found)]
