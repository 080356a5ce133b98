"""The pictures of the pages, each as a text of Graphviz, and the SVG file that `dot` makes of it.

A picture keeps the sum of its text in its first line, so that a stale one is seen where `dot` is missing. scripts/pages.py draws it
anew only if the text has changed: versions of `dot` place things differently.
"""
import hashlib
import re
import shutil
import subprocess

from docs import files as listings

STYLE = 'node [shape=box, style=rounded, fontname="sans-serif", fontsize=11]; edge [fontname="sans-serif", fontsize=10];'
WALK = r"""
rankdir=LR; node [margin="0.12,0.06"];
schema_text [label="text of a schema"]; policy_text [label="text of a policy"];
schema [label="ValidatorSchema"]; policy [label="Template"];
environments [label="environments:\naction, principal type,\nresource type, links of slots"];
typing [label="types the condition,\nonce per environment"]; typed [label="typed condition,\nerrors"];
names [label="names,\nscope"]; verdict [label="passes?"]; levels [label="level\ndemands"]; impossible [label="impossible?"];
report [label="verdict: accepted or refused,\nfindings with places, level, warnings"];
schema_text -> schema [label="read"]; schema -> environments -> typing; policy_text -> policy [label="read"];
policy -> typing; policy -> names; schema -> names; typing -> typed; typed -> {verdict levels impossible};
{names verdict levels impossible} -> report;
"""
SLICES = r"""
rankdir=LR; fontname="sans-serif"; fontsize=10; style=rounded; compound=true;
request [label="request\nprincipal: alice\naction: view\nresource: photo.jpg"];
subgraph cluster_3 { label="slice of 3 steps: level 3, resource.owner.team.lead == principal";
  subgraph cluster_2 { label="slice of 2 steps: level 2, resource.owner.name";
    subgraph cluster_1 { label="slice of 1 step: level 1, resource.isPublic";
      alice [label="alice"]; photo [label="photo.jpg\nowner: bob"]; }
    bob [label="bob\nteam: web"]; }
  web [label="web\nlead: carol"]; }
carol [label="carol: only her id is compared", style="rounded,dashed"];
request -> alice; request -> photo; photo -> bob [label="owner"]; bob -> web [label="team"]; web -> carol [label="lead"];
"""


def crates(files):
    """The subjects of the crates, with an arrow from each to those that it stands on, none to what these stand on."""
    below = listings.subjects_below(files)
    labels = {subject: r"\n".join([subject, *rows(names)]) for subject, names in listings.subjects_of(files).items()}
    nodes = [f'"{subject}" [label="{label}"];' for subject, label in labels.items()]
    edges = [f'"{subject}" -> "{other}";' for subject, others in below.items() for other in sorted(others)
             if not any(other in below[between] for between in others)]
    return "\n".join([*nodes, *edges])


def rows(names, length=60):
    """Names in rows of some letters."""
    lines = [""]
    for name in names:
        lines = [*lines, name] if len(lines[-1]) + len(name) > length else [*lines[:-1], f"{lines[-1]} {name}".strip()]
    return lines


PICTURES = {"docs/walk.svg": lambda _: WALK, "docs/crates.svg": crates, "docs/slices.svg": lambda _: SLICES}


def text_of(path, files):
    return f"digraph {{\n{STYLE}\n{PICTURES[path](files).strip()}\n}}\n"


def head(text):
    """The first line of a picture of the text."""
    return f"<!-- made by scripts/pages.py of a text of sum {hashlib.sha256(text.encode()).hexdigest()[:16]} -->\n"


def shown(files):
    """The pictures that a page shows."""
    pages = [text for path, text in files.items() if path.startswith("docs/") and path.endswith(".md")]
    return [path for path in PICTURES if any(f"]({path.removeprefix('docs/')})" in text for text in pages)]


def stale(files):
    """The pictures that were not made of the texts as they are, and why."""
    for path in shown(files):
        if not files.get(path, "").startswith(head(text_of(path, files))):
            yield path, 0, "the picture is of an older text: run scripts/pages.py where Graphviz (`dot`) is installed"


def drawn(files):
    """The pictures that are stale, drawn anew: none where `dot` is missing."""
    if not shutil.which("dot"):
        return {}
    return {path: drawing(text_of(path, files)) for path, _, _ in stale(files)}


def drawing(text):
    ran = subprocess.run(["dot", "-Tsvg"], input=text, capture_output=True, text=True, check=True)
    return head(text) + re.sub(r"^.*?(?=<svg)|<!--.*?-->\n?", "", ran.stdout, flags=re.S)
