"""Files, and functions of files, that the pages show as they stand."""
from functools import partial

from docs import api_pages
from docs.definitions import Gone

SAMPLES = "crates/cedar_samples/src"
# Each piece: the language of its block, its file, and the functions that are shown of it, or none for the whole file.
PIECES = {
    "tour_schema": ("cedar", "examples/tour/photos.cedarschema"),
    "tour_policies": ("cedar", "examples/tour/share.cedar"),
    # (what a run of cedar-validate writes: scripts/gate/application_cases.py --record makes these files)
    **{f"run_{name}": ("console", f"examples/shown/{name}.txt") for name in ("refused", "accepted", "level", "since", "links")},
    "neovim_setup": ("lua", "examples/editors/setup/init.lua"),
    "emacs_setup": ("lisp", "examples/editors/setup/init.el"),
    "helix_setup": ("toml", "examples/editors/setup/languages.toml"),
    "vim_setup": ("vim", "examples/editors/setup/vimrc"),
    "task_setup": ("json", "examples/editors/setup/tasks.json"),
    "pre_commit": ("sh", "examples/ci/pre-commit"),
    "sarif_upload": ("yaml", "examples/ci/sarif.yml"),
    "python_caller": ("python", "examples/languages/first.py"),
    "run_first": ("console", "examples/shown/refused.txt"),
    "neovim_session": ("text", "examples/editors/neovim.txt"),
    "texts_host": ("rust", "crates/cedar_verdicts_tests/src/verdicts_tests/said.rt", "schema_of", "verdicts_shown", "all_shown", "push_said"),
    "rounds_host": ("rust", f"{SAMPLES}/rounds.rt", "load"),
    "own_function": ("rust", "crates/cedar_fixtures/src/tables.rt", "ip"),
    "first_host": ("rust", f"{SAMPLES}/example.rt", "policy", "policies", "run"),
    "store_host": ("rust", f"{SAMPLES}/store.rt", "accepted", "let_in", "serve"),
}

# The pieces of which a page shows only the first lines, and how many.
BEGINNINGS = {"run_first": 5}


def shown(name, files):
    language, path, *functions = PIECES[name]
    if path not in files:
        raise Gone(f"scripts/docs/pieces.py: there is no file {path}")
    lines = files[path].splitlines()
    if functions:
        found = [(function, api_pages.function(files[path], function)) for function in functions]
        gone = [function for function, lines in found if lines is None]
        if gone:
            raise Gone(f"scripts/docs/pieces.py: {path} has no function `{gone[0]}`")
        lines = [line for _, lines in found for line in (*lines, "")][:-1]
    if name in BEGINNINGS:
        lines = [*lines[:BEGINNINGS[name]], ".."]
    fence = "````" if any(line.startswith("```") for line in lines) else "```"
    return [f"{fence}{language}", *lines, fence]


def makers():
    return {name: partial(shown, name) for name in PIECES}
