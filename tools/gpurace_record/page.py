"""What a run has found as one page of HTML that needs nothing else."""
from __future__ import annotations

import dataclasses
import html
import importlib.util
import os
import re
import shlex
from typing import Any, Dict, List, Tuple

from . import picture
from .finding import KINDS, SCOPES, Finding
from .judging import Launch, count
from .recording import Missing
from .report import HEADS, NEW, Entry, Report
from .sides import PLACE

AROUND = 6         # lines that are shown around a marked one
MOST_WHOLE = 160   # lines of a text that is shown whole
Marks = Dict[int, Dict[Tuple[str, str], List[str]]]


def needed() -> None:
    """Says which package is missing."""
    missing = [name for name in ("jinja2", "pygments") if not importlib.util.find_spec(name)]
    if missing:
        raise Missing(f"--html needs packages that are missing (Debian: apt-get install {' '.join(f'python3-{name}' for name in missing)})")


@dataclasses.dataclass
class Line:
    """A line of the source, with what is marked in its margin; the number is 0 where lines are left out."""
    number: int
    html: str = ""
    marks: List[Tuple[str, str, str]] = dataclasses.field(default_factory=list)  # a sign, what it means, and its kind


@dataclasses.dataclass
class Shown:
    """A finding with what the page shows of it."""
    number: int
    finding: Finding
    entry: Entry
    kind: str
    picture: str
    maps: List[Tuple[str, str]]


@dataclasses.dataclass
class Kernel:
    name: str
    findings: List[Shown]
    outcomes: List[Tuple[Launch, str, int]]
    sources: List[Tuple[str, List[Line]]]


def highlighted(lines: List[str]) -> List[str]:
    from pygments import highlight
    from pygments.formatters import HtmlFormatter
    from pygments.lexers import CLexer
    return highlight("\n".join(lines) + "\n", CLexer(stripnl=False), HtmlFormatter(nowrap=True)).split("\n")[:len(lines)]


def styles() -> List[str]:
    """The colours of the source on a light and on a dark page."""
    from pygments.formatters import HtmlFormatter
    return ["\n".join(line for line in HtmlFormatter(style=style, nobackground=True).get_style_defs(".code").split("\n")
                      if line.startswith(".code .")) for style in ("default", "monokai")]


def marks_of(shown: List[Shown], file: str) -> Marks:
    """What is marked in the margin of each line of a file: signs with their kinds, and what they mean."""
    found: Dict[int, Dict[Tuple[str, str], List[str]]] = {}

    def mark(place: str, sign: str, meaning: str, kind: str) -> None:
        at = PLACE.fullmatch(place)
        if at and at[1] == file:
            meanings = found.setdefault(int(at[2]), {}).setdefault((sign, kind), [])
            meanings += [meaning] if meaning not in meanings else []

    for it in shown:
        for access in it.finding.accesses:
            mark(access.place, str(it.number), f"finding {it.number}: {access.sentence()}", "racing")
            for step in access.marks:
                if step.what == "barrier":
                    mark(step.place, "═", "barrier", "barrier")
                elif step.order in ("rel", "both") and not step.is_racing:
                    mark(step.place, "↑", f"release ({SCOPES[step.scope]} scope)", "release")
                elif step.order == "acq" and not step.is_racing:
                    mark(step.place, "↓", f"acquire ({SCOPES[step.scope]} scope)", "acquire")
    return found


def source(lines: List[str], marks: Marks) -> List[Line]:
    """The lines around those that are marked, or all of a short text."""
    shown, last = [], 0
    drawn = highlighted(lines)
    for number in range(1, len(lines) + 1):
        if len(lines) > MOST_WHOLE and not any(number - AROUND <= at <= number + AROUND for at in marks):
            continue
        if number != last + 1:
            shown.append(Line(0, f"{number - last - 1} lines"))
        signs = [(sign, "; ".join(meanings), kind) for (sign, kind), meanings in marks.get(number, {}).items()]
        shown.append(Line(number, drawn[number - 1], signs))
        last = number
    return shown + ([Line(0, f"{len(lines) - last} lines")] if last < len(lines) else [])


def kernels_of(report: Report) -> List[Kernel]:
    """Kernels with findings first."""
    shown: Dict[str, List[Shown]] = {}
    for number, entry in enumerate(report.entries().values(), 1):
        it = entry.finding
        maps = [(f"{place.buffer} ({count(place.words, 'word')}{f', in {place.groups} groups' if place.groups > 1 else ''})", drawn)
                for place in it.maps for drawn in [picture.words_map(place)] if drawn]
        shown.setdefault(it.kernel or entry.launches[0].kernel, []).append(Shown(number, it, entry, KINDS[it.kind], picture.race(it), maps))
    outcomes: Dict[str, List[Tuple[Launch, str, int]]] = {name: [] for name in shown}
    for launch, number in report.outcomes():
        outcomes.setdefault(launch.kernel, []).append((launch, HEADS[launch.verdict], number))
    return [Kernel(name, shown.get(name, []), outcomes[name], sources_of(shown.get(name, []))) for name in outcomes]


def sources_of(shown: List[Shown]) -> List[Tuple[str, List[Line]]]:
    """The texts of a kernel's findings. A file whose text changed between launches is there for each."""
    texts: Dict[Tuple[str, Tuple[str, ...]], List[Shown]] = {}
    for it in shown:
        for file, lines in it.entry.launches[0].texts.items():
            texts.setdefault((file, tuple(lines)), []).append(it)
    made = []
    for (file, text), those in texts.items():
        marks = marks_of(those, file)
        if marks:
            made.append((file, source(list(text), marks)))
    return made


def as_html(report: Report, words: List[str]) -> str:
    import jinja2
    folder = os.path.dirname(os.path.realpath(__file__))
    environment = jinja2.Environment(loader=jinja2.FileSystemLoader(folder), autoescape=True, trim_blocks=True, lstrip_blocks=True)
    summary = list(report.summary())
    values: Dict[str, Any] = {"report": report, "kernels": kernels_of(report), "words": shlex.join(words), "status": report.status(), "summary": summary,
                              "styles": styles(), "new": NEW}
    environment.filters["code"] = lambda text: re.sub("`([^`]*)`", r"<code>\1</code>", html.escape(text))
    return environment.get_template("page.html").render(values) + "\n"
