"""Finds a definition in its file: the line where it begins, the comment above it, and its own lines."""
import re
from dataclasses import dataclass

from docs import trusted


class Gone(Exception):
    """A page names something that is not in the sources."""


@dataclass
class Definition:
    """A definition of a file of specs/, with the number of its first line."""

    name: str
    path: str
    line: int
    comment: str
    type: str

    def link(self, folder):
        """Its name, as a page of this folder links to it."""
        return f"[`{self.name}`]({climb(folder)}{self.path}#L{self.line})"

    def sentence(self):
        """What it says: its comment, or where it has none its type."""
        return self.comment or f"`{self.type}`"


def climb(folder):
    """The way from a folder to the top of the repository."""
    return "../" * len(folder.split("/"))


# How a definition may begin, the likeliest first: a record's field has the form of a definition within a `mutual`.
BEGINNINGS = (
    r"\s*(?:(?:abbrev |unfoldable |data |record )(?:pub )?|pub (?:data |record )){0} [:({{]",
    r"\s*pub {0} :",
    r"\s+(?:[\w'?]+ )*{0}(?: [\w'?]+)* :",
)


def find(files, path, name):
    """The definition of this name in a file; `Gone` where the file has none."""
    lines = files.get(path, "").splitlines()
    for beginning in BEGINNINGS:
        pattern = re.compile(beginning.format(re.escape(name)))
        for at, line in enumerate(lines):
            if pattern.match(line):
                return Definition(name, path, at + 1, " ".join(comment_above(lines, at)), line.partition(" : ")[2])
    raise Gone(f"`{name}` is no definition of {path or 'any file'}")


def is_comment(line):
    return line.strip().startswith("--") and not line.strip().startswith("-- ----")


def comment_above(lines, at):
    """The lines of the comment that ends above a line, without its marks."""
    first = at
    while first and is_comment(lines[first - 1]):
        first -= 1
    return [line.strip()[2:].strip() for line in lines[first:at]]


def text_of(files, found):
    """A definition as it stands in its file, with its comment, up to the next empty line."""
    lines = files[found.path].splitlines()
    first, end = found.line - 1, found.line
    while first and is_comment(lines[first - 1]):
        first -= 1
    while end < len(lines) and lines[end].strip():
        end += 1
    return lines[first:end]
