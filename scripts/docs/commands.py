"""Lists of scripts, with the first sentences of their own comments."""
import re
from functools import partial

from docs.definitions import Gone

LISTS = {
    "checks": [
        "gate/check_text", "gate/gate_samples.py", "gate/refusal_samples.py", "gate/borrows.py", "gate/word_cases.py", "against_cedar",
        "gate/application_cases.py", "refused.py", "where_cases.py", "caller_cases.py", "release_cases.py", "packages_cases.py",
        "web_cases.py", "editor_cases.py", "gate/editor_texts.py",
    ],
    "measurements": [
        "stack.py", "measure/benchmark.py", "measure/policy_speed.py", "measure/growth.py", "measure/schema_growth.py", "measure/input_growth.py", "measure/library_calls.py",
        "measure/link_growth.py", "measure/loading_memory.py", "measure/where_growth.py", "measure/drop_cost.py",
    ],
}


def line(name, files):
    """A script, with the first sentence of its comment, but for how it is called."""
    found = re.search(r'"""(.*?)"""', files.get(f"scripts/{name}", ""), re.S)
    if not found:
        raise Gone(f"scripts/docs/commands.py: there is no scripts/{name} with a comment")
    first = re.split(r"(?<=\.)\s", " ".join(found[1].split()))[0]
    return f"- `{name}`: {re.sub(r': scripts/.*$', '.', first)}"


def listed(name, files):
    return [line(script, files) for script in LISTS[name]]


def makers():
    return {name: partial(listed, name) for name in LISTS}
