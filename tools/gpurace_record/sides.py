"""What the side files of a launch's folder say: buffers, places and lines of the source, and the numbers of groups and items."""
from __future__ import annotations

import collections
import os
import re
import subprocess
from typing import Dict, Iterable, Iterator, List, NamedTuple, Optional, Set, Tuple

from .elements import Element
from .folders import Info, windows_of
from .records import Group

BUFFER = re.compile(r"(?:g|l (\d+)) (\d+) (\d+) (.+)")
PLACE = re.compile(r"(.+):(\d+):(\d+)")
KERNEL = re.compile(r"\s*(?:(?:__)?kernel\s+(?:void|__attribute__)\b|__kernel\s*$)")  # a line with which one begins
CALLED = " called at "  # between a place and that of each call that leads there, the innermost one first
MOST_RUNS = 5       # of words of a buffer
MOST_COLUMNS = 160  # of a line of source


class Run(NamedTuple):
    """Words one after another; the group is None where they are global."""
    group: Optional[int]
    first: int
    last: int


class Buffer(NamedTuple):
    group: Optional[int]
    first: int
    last: int
    name: str


Buffers = Dict[Optional[int], List[Buffer]]  # by their groups
Spans = List[Tuple[int, int]]                # the first and last words of runs, counted from the start of a buffer


def lines_of(folder: str, name: str) -> Iterator[str]:
    path = os.path.join(folder, name)
    if os.path.isfile(path):
        with open(path, encoding="utf-8", errors="replace", newline="\n") as given:
            yield from (line.rstrip("\n") for line in given)


def by_group(those: Iterable) -> Dict[Optional[int], list]:
    found: Dict[Optional[int], list] = collections.defaultdict(list)
    for it in those:
        found[it.group].append(it)
    return found


def buffers_of(folder: str) -> Buffers:
    return by_group(buffer_of(*said.groups()) for said in map(BUFFER.fullmatch, lines_of(folder, "buffers")) if said)


def buffer_of(group: Optional[str], first: str, words: str, name: str) -> Buffer:
    return Buffer(int(group) if group else None, int(first), int(first) + int(words) - 1, name)


def equal_of(folder: str) -> Dict[Optional[int], List[Run]]:
    """Words that several items have stored to, all the same value: lines `g FIRST LAST` or `l GROUP FIRST LAST`."""
    words = (line.split() for line in lines_of(folder, "equal"))
    return by_group(Run(int(it[1]) if it[0] == "l" else None, int(it[-2]), int(it[-1])) for it in words)


def parts(run: Run, buffers: Buffers) -> Iterator[Tuple[Run, Optional[Buffer]]]:
    """A run of words, cut where a buffer begins or ends; each part with its buffer, or None."""
    first = run.first
    while first <= run.last:
        here = [buffer for buffer in buffers.get(run.group, ()) if first <= buffer.last]
        inside = next((buffer for buffer in here if buffer.first <= first), None)
        end = inside.last if inside else min((buffer.first - 1 for buffer in here), default=run.last)
        yield Run(run.group, first, min(run.last, end)), inside
        first = min(run.last, end) + 1


def joined(spans: Iterable[Tuple[int, int]]) -> Spans:
    """Spans of numbers, those that touch or overlap made one."""
    runs: Spans = []
    for low, high in sorted(spans):
        if runs and low <= runs[-1][1] + 1:
            runs[-1] = (runs[-1][0], max(runs[-1][1], high))
        else:
            runs.append((low, high))
    return runs


def words_in(runs: Iterable[Run]) -> int:
    """How many words there are in runs that may overlap."""
    spans = [joined((run.first, run.last) for run in of_group) for of_group in by_group(runs).values()]
    return sum(last - first + 1 for of_group in spans for first, last in of_group)


def name_of(name: str, space: str, runs: Spans, groups: int, element: Optional[Element]) -> str:
    """The words of one buffer, or of none, of so many groups where they are local; as elements, where these are known."""
    numbers = [str(low) if low == high else f"{low}..{high}" for low, high in runs[:MOST_RUNS]]
    if element:
        shown = ", ".join(element.span(*run) for run in runs[:MOST_RUNS])
    elif name:
        shown = ", ".join(f"{name}[{number}]" for number in numbers)
    else:
        shown = f"{space} word{'s' if len(runs) > 1 or '..' in numbers[0] else ''} " + ", ".join(numbers)
    more = len(runs) - MOST_RUNS
    shown += f" and {more} more run{'s' if more > 1 else ''}" if more > 0 else ""
    return shown + (f" of {groups} groups" if groups > 1 else "")


class Places:
    """The places of events and of barriers' sites in the source, by "GROUP ITEM INDEX" and by the site's number."""

    def __init__(self, folder: str, groups: Dict[int, Group], keys: Set[str]):
        """Of what was read of these groups, by the file of sites; or of these events and all sites, by that of places."""
        self.found: Dict[str, str] = {}
        path = os.path.join(folder, "places")
        if not os.path.isfile(path):
            self.find(groups, list(lines_of(folder, "sites")))
            return
        if not keys and not groups:
            return
        patterns = "".join(f"^{key} \n" for key in sorted(keys)) + "^[0-9]* [^0-9]\n"
        found = subprocess.run(["grep", "-a", "-f", "-", path], input=patterns.encode(), stdout=subprocess.PIPE, env={**os.environ, "LC_ALL": "C"})
        for line in found.stdout.decode(errors="replace").split("\n"):
            fields = line.split(" ", 3)
            is_event = len(fields) == 4 and fields[1][:1].isdigit()
            key = " ".join(fields[:3]) if is_event else fields[0]
            self.found.setdefault(key, line[len(key) + 1:])

    def find(self, groups: Dict[int, Group], sites: List[str]) -> None:
        for number, group in groups.items():
            self.found.update((f"{number} {item} {step.at}", sites[step.site - 1]) for item, step in group.all_steps() if 0 < step.site <= len(sites))
            for step in (step for steps in group.barriers for step in steps if 0 < step.site <= len(sites)):
                self.found.setdefault(str(step.word), sites[step.site - 1])

    def site(self, number: int) -> str:
        return self.found.get(str(number), f"site {number}")

    def event(self, group: int, item: int, index: int) -> str:
        return self.found.get(f"{group} {item} {index}", "")


def part_of(line: str, column: int) -> str:
    """A line without the spaces around it; of a long one the part around a column."""
    line = line.rstrip()
    text = line.lstrip()
    start = max(0, min(column - 1 - (len(line) - len(text)) - MOST_COLUMNS // 2, len(text) - MOST_COLUMNS))
    return ".. " * (start > 0) + text[start:start + MOST_COLUMNS] + " .." * (start + MOST_COLUMNS < len(text))


class Texts:
    """The texts that places are of: those of the folder, and else files that are there."""

    def __init__(self, folder: str):
        self.folder = folder
        self.files: Dict[str, List[str]] = {}

    def line(self, place: str) -> str:
        """What is shown of the line of a place that is no call's, or nothing."""
        at = PLACE.fullmatch(place)
        lines, number = (self.text(at[1]), int(at[2])) if at else ([], 0)
        return part_of(lines[number - 1], int(at[3])) if at and 0 < number <= len(lines) else ""

    def nth(self, place: str) -> int:
        """Which one of the lines that are shown alike the line of a place is, from 1, counted from where its kernel begins."""
        at, text = PLACE.fullmatch(place), self.line(place)
        if not at or not text:
            return 1
        lines = self.text(at[1])[:int(at[2])]
        first = next((number for number in reversed(range(len(lines))) if KERNEL.match(lines[number])), 0)
        return sum(part_of(line, int(at[3])) == text for line in lines[first:])

    def text(self, file: str) -> List[str]:
        if file not in self.files:
            inside = "/" not in file and os.path.isfile(os.path.join(self.folder, file))
            self.files[file] = list(lines_of(self.folder if inside else os.getcwd(), file))
        return self.files[file]


class Shape:
    """The numbers of a launch's groups and items, as people write them."""

    def __init__(self, info: Info):
        sizes = [[int(number) for number in (info[key][0] if info[key] else "0 1 1").split()] for key in ("global", "local")]
        self.local = sizes[1]
        self.groups = [-(-whole // max(part, 1)) for whole, part in zip(*sizes)]
        self.items = self.local[0] * self.local[1] * self.local[2]
        self.dimensions = max([1] + [axis + 1 for axis in range(3) if sizes[0][axis] > 1])
        self.windows = windows_of(info) if info["window"] else []
        self.copying = {tuple(map(int, line.split())) for line in info["copying-item"]}

    def group(self, number: int) -> int:
        """The number in the launch of a group of the trace."""
        for first, count in self.windows:
            if number < count:
                return first + number
            number -= count
        return number

    def name(self, word: str, number: int, sizes: List[int]) -> str:
        """`item 8 (0,1)`; where there is one dimension, `item 8`."""
        if self.dimensions == 1:
            return f"{word} {number}"
        at = (number % sizes[0], number // sizes[0] % sizes[1], number // sizes[0] // sizes[1])
        return f"{word} {number} ({','.join(map(str, at[:self.dimensions]))})"

    def item(self, group: int, item: int) -> str:
        """Who an item of a group of the trace is."""
        return "asynchronous copy" if self.is_copying(group, item) else self.name("item", item, self.local)

    def is_copying(self, group: int, item: int) -> bool:
        return (group, item) in self.copying

    def group_name(self, group: int) -> str:
        """The launch's group that a group of the trace is."""
        return self.name("group", self.group(group), self.groups)

    def who(self, group: int, item: int) -> str:
        return f"{self.group_name(group)}, {self.item(group, item)}"
