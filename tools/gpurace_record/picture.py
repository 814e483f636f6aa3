"""The picture of a race as SVG: the two work-items as lanes, time downwards, and the map of a buffer's racy words."""
from __future__ import annotations

import html
import itertools
import textwrap
from typing import Dict, List, NamedTuple, Optional, Sequence, Tuple

from .finding import ORDERS, SCOPES, WHAT, Access, Finding, Map, Mark

WIDTH, LANES = 400, (104, 296)  # of the picture, and the middles of the lanes
BOX, ROW, LINE = 180, 50, 15    # a node's width, a row's height, a line's
COLUMNS, PLACE = 48, 26         # of the sentence, and of a place
FLAGS = {0: "no flag", 1: "global", 2: "local", 3: "global and local"}
SHORT = {"rmw": "atomic rmw", "both": "acq_rel"}


class Row(NamedTuple):
    """What the two items do beside each other; of a barrier whether it is the group's."""
    first: Optional[Mark]
    second: Optional[Mark]
    is_barrier: bool = False


Lane = Sequence[Optional[Mark]]


def split(marks: List[Mark]) -> Tuple[List[Mark], Mark, List[Mark]]:
    """What comes before the racing access, it, and what comes after it."""
    at = next(number for number, mark in enumerate(marks) if mark.is_racing)
    return marks[:at], marks[at], marks[at + 1:]


def beside(first: Lane, second: Lane) -> List[Row]:
    """Two lanes beside each other; the shorter one ends earlier."""
    return [Row(*pair) for pair in itertools.zip_longest(first, second)]


def level(first: Lane, second: Lane) -> List[Row]:
    """As `beside`, with the racing accesses on one row where both are there."""
    at = [next((number for number, mark in enumerate(lane) if mark and mark.is_racing), -1) for lane in (first, second)]
    if min(at) < 0:
        return beside(first, second)
    return beside([None] * (at[1] - at[0]) + [*first], [None] * (at[0] - at[1]) + [*second])


def is_handed_over(marks: List[Mark], others: List[Mark]) -> bool:
    """Whether a release after the racing access is taken before the other one."""
    after, before = split(marks)[2], split(others)[0]
    return any(mark.key in other.takes for mark in after if mark.key for other in before)


def rows_of(first: List[Mark], second: List[Mark], is_one_group: bool) -> List[Row]:
    """Of one group each barrier is a row of both. Of two groups, the one that hands over is above the one that takes."""
    if is_one_group:
        return rows_of_group(first, second)
    if is_handed_over(first, second):
        return beside(first, []) + beside([], second)
    return beside([], second) + beside(first, []) if is_handed_over(second, first) else level(first, second)


def rows_of_group(first: List[Mark], second: List[Mark]) -> List[Row]:
    rows: List[Row] = []
    instances = sorted({mark.instance for mark in first + second if mark.what == "barrier"})
    lanes = [list(first), list(second)]
    for instance in [*instances, None]:
        parts: List[List[Mark]] = [[], []]
        meets: List[Optional[Mark]] = [None, None]
        for side, lane in enumerate(lanes):
            while lane and lane[0].what != "barrier":
                parts[side].append(lane.pop(0))
            if lane and lane[0].instance == instance:
                meets[side] = lane.pop(0)
        rows += level(parts[0], parts[1])
        if any(meets):
            rows.append(Row(meets[0], meets[1], True))
    return rows


def label(mark: Mark) -> Tuple[str, str]:
    """What a record is, and its place. Of a long place the end is shown."""
    place = mark.place if len(mark.place) <= PLACE else ".." + mark.place[-PLACE:]
    if mark.what == "barrier":
        return "wait_group_events" if mark.is_wait else f"barrier {mark.instance} ({FLAGS[mark.flags]})", place
    what, order, scope = {**WHAT, **SHORT}.get(mark.what, mark.what), {**ORDERS, **SHORT}.get(mark.order), SCOPES.get(mark.scope)
    return what + (f", {order}" if order else ""), f"{scope}, {place}" if scope and place else scope or place


def is_inclusive(one: Mark, other: Mark, is_one_group: bool) -> bool:
    """Whether the scope of each of two atomics has the other in it."""
    return one.scope == other.scope and (one.scope == "dev" or is_one_group)


def text(x: float, y: float, words: str, kind: str = "", anchor: str = "middle") -> str:
    return f'<text x="{x:g}" y="{y:g}" text-anchor="{anchor}" class="{kind}">{html.escape(words)}</text>'


def line(x: float, y: float, to_x: float, to_y: float, kind: str) -> str:
    return f'<line x1="{x:g}" y1="{y:g}" x2="{to_x:g}" y2="{to_y:g}" class="{kind}"/>'


def node(lane: int, y: float, mark: Mark) -> str:
    left, (what, place) = LANES[lane] - BOX / 2, label(mark)
    kind = "racing" if mark.is_racing else "plain"
    return (f'<rect x="{left:g}" y="{y:g}" width="{BOX}" height="38" rx="6" class="{kind}"/>'
            + text(LANES[lane], y + 16, what) + text(LANES[lane], y + 31, place or "place unknown", "small"))


def barrier(y: float, row: Row) -> str:
    """A line across the lanes of the items that come to it."""
    said, place = label(row.first or row.second or Mark("barrier"))
    left, right = (8 if row.first else WIDTH / 2 + 4), (WIDTH - 8 if row.second else WIDTH / 2 - 4)
    absent = "" if row.first and row.second else text(LANES[0 if row.second else 1], y + 23, "does not come", "small halo")
    middle = (left + right) / 2
    return line(left, y + 19, right, y + 19, "barrier") + text(middle, y + 12, said, "small halo") + text(middle, y + 34, place, "small halo") + absent


def band(y: float, lines: List[str]) -> str:
    """The sentence of the cause, between the two accesses."""
    made = f'<rect x="8" y="{y:g}" width="{WIDTH - 16}" height="{len(lines) * LINE + 12}" rx="6" class="cause"/>'
    return made + "".join(text(WIDTH / 2, y + 17 + at * LINE, words, "sentence") for at, words in enumerate(lines))


def race(finding: Finding) -> str:
    """The picture of a race, or nothing where the records of its items are not known."""
    first, second = finding.accesses[:2] if len(finding.accesses) > 1 else (None, None)
    if not first or not second or not first.marks or not second.marks:
        return ""
    rows = rows_of(first.marks, second.marks, first.group == second.group)
    return Picture(finding, first, second, rows).drawn()


class Picture:
    def __init__(self, finding: Finding, first: Access, second: Access, rows: List[Row]):
        self.finding, self.who, self.rows, self.is_one_group = finding, (first.who, second.who), rows, first.group == second.group
        self.lines = textwrap.wrap(finding.message.replace("`", ""), COLUMNS)
        self.place: Dict[int, Tuple[int, float]] = {}  # of a mark its lane and height, by the mark's identity

    def drawn(self) -> str:
        y, top = 62.0, 0.0
        parts: List[str] = []
        at: List[Tuple[int, float]] = []
        for row in self.rows:
            for lane, mark in enumerate((row.first, row.second)):
                if mark:
                    self.place[id(mark)] = (lane, y)
                if mark and not row.is_barrier:
                    parts.append(node(lane, y, mark))
                if mark and mark.is_racing:
                    at.append((lane, y))
            parts += [barrier(y, row)] if row.is_barrier else []
            y += ROW
            if at and not top:
                top = y + 8
                parts.append(band(top, self.lines))
                y = top + len(self.lines) * LINE + 34
        lanes = "".join(line(x, 46, x, y - 4, "lane") for x in LANES)
        heads = "".join(text(x, 18, group) + text(x, 35, item, "small") for x, group, item in self.heads())
        said = html.escape(f"{self.finding.title}: {self.finding.message}")
        return (f'<svg viewBox="0 0 {WIDTH} {y:g}" role="img" aria-label="{said}" class="picture">{heads}{lanes}'
                + self.missing(at, top) + "".join(parts) + self.hand_overs() + "</svg>")

    def heads(self) -> List[Tuple[int, str, str]]:
        return [(x, who.rpartition(", ")[0], who.rpartition(", ")[2]) for x, who in zip(LANES, self.who)]

    def missing(self, at: List[Tuple[int, float]], top: float) -> str:
        """The edge that is not there: from one access through the sentence to the other."""
        bottom = top + len(self.lines) * LINE + 12
        return "".join(line(LANES[lane], y + 38, LANES[lane], top, "missing") if y < top else line(LANES[lane], bottom, LANES[lane], y, "missing")
                       for lane, y in at)

    def hand_overs(self) -> str:
        """Arrows from the releases of one item to the acquires of the other that have taken them, broken where their scopes are too narrow."""
        releases = {mark.key: mark for row in self.rows for mark in (row.first, row.second) if mark and mark.key}
        drawn = []
        for mark in (mark for row in self.rows for mark in (row.first, row.second) if mark):
            for key in mark.takes:
                taken = releases.get(key)
                if taken and self.place[id(taken)][0] != self.place[id(mark)][0]:
                    kind = "hand-over" if is_inclusive(taken, mark, self.is_one_group) else "broken"
                    drawn.append(self.arrow(*self.place[id(taken)], *self.place[id(mark)], kind))
        return "".join(drawn)

    def arrow(self, lane: int, y: float, to_lane: int, to_y: float, kind: str) -> str:
        side = 1 if lane < to_lane else -1
        x, to_x, y, to_y = LANES[lane] + side * BOX / 2, LANES[to_lane] - side * BOX / 2, y + 19, to_y + 19
        return line(x, y, to_x - side * 7, to_y, kind) + f'<path d="M{to_x:g} {to_y:g} l{-side * 8} -4 v8 z" class="{kind}"/>'


def words_map(it: Map) -> str:
    """A strip of the buffer with the racy words marked; nothing where the size of the buffer is not known."""
    if not it.words or not it.spans:
        return ""
    width = 400.0
    spans = "".join(f'<rect x="{first / it.words * width:g}" y="0" width="{max(2.0, (last + 1 - first) / it.words * width):g}" height="16" class="racy"/>'
                    for first, last in it.spans)
    said = html.escape(f"racy words of {it.buffer}: " + ", ".join(f"{first} to {last}" if last > first else str(first) for first, last in it.spans[:20]))
    return (f'<svg viewBox="0 0 400 34" role="img" aria-label="{said}" class="map"><rect x="0" y="0" width="400" height="16" class="words"/>{spans}'
            + text(0, 30, "0", "small", "start") + text(400, 30, str(it.words - 1), "small", "end") + "</svg>")
