"""The transcripts in the documents: each block of a document that begins with `$ ` shows commands and what they print."""

import dataclasses
import difflib
import re
import typing

from testing import transcript

BLOCK = re.compile(r"^```(?:text|console)\n(\$ .*?)^```$", re.M | re.S)


@dataclasses.dataclass
class Document:
    """What one document shows: its commands, which run one after another in one folder, and what each prints."""

    name: str
    lines: typing.List[str]

    def commands(self):
        return [line[2:] for line in self.lines if line.startswith("$ ")]


def paths(top):
    return [top / "README.md"] + sorted((top / "docs").glob("*.md")) + sorted((top / "examples").glob("*/README.md"))


def documents(top):
    """The documents that show commands and what they print."""
    for path in paths(top):
        shown = "".join(BLOCK.findall(path.read_text())).replace("\\\n", "")
        if shown:
            yield Document(f"documents: {path.relative_to(top)}", shown.splitlines())


def difference(document, program, top):
    """The difference between what a document shows and what its commands print, or an empty text."""
    made = []
    with transcript.room(program, top) as (folder, environ):
        for command in document.commands():
            output, errors, _ = transcript.made_by(command, folder, environ)
            made += [f"$ {command}"] + output + errors
    if made == document.lines:
        return ""
    shown = list(difflib.unified_diff(document.lines, made, "shown", "printed", lineterm="", n=2))[2:]
    return "\n".join(shown[:60]) + "\n"
