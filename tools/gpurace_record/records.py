"""What is read of a group's stream: its barriers, and what some of its items do to some words."""
from __future__ import annotations

import array
import bisect
import struct
from typing import Dict, Iterator, List, NamedTuple, Set, Tuple

from .folders import HEADER, RECORD_FORMS, mapped, streams_in, streams_of

BARRIER, END = 5, 6
GLOBAL, DEVICE = 0, 2  # a space and a scope
KIND_OF = ["read", "write", "load", "store", "rmw", "barrier"]
SCOPE_OF, ORDER_OF = ["", "grp", "dev"], ["", "rlx", "acq", "rel", "both"]
RELEASE = struct.Struct("<HHI")  # that an acquire names
NAMES_AT = 12         # in a record
NO_NAME = (0xffff, 0xffff, 0xffffffff)
MOST_BYTES = 1 << 27  # of a stream that is read
MOST_WORDS = 100      # of an item's atomics that are kept
MOST_HANDS = 100      # of a group's releases and acquires that are kept for all its items


class Step(NamedTuple):
    """A record of an item, its number `at`. Of a barrier `word` is its site and `space` its flags."""
    at: int
    kind: str
    space: int
    scope: str
    order: str
    word: int
    release: int = -1                          # its number among the releases of its item
    names: Tuple[Tuple[int, int, int], ...] = ()  # the releases that it takes: group, item and number
    site: int = 0                              # the line of `sites` that has its place, from 1

    def is_release(self) -> bool:
        return self.order in ("rel", "both")

    def is_acquire(self) -> bool:
        return self.order in ("acq", "both")


Wanted = Dict[int, Set[Tuple[int, int]]]  # of items the words, each with its space


class Atomics(NamedTuple):
    """Of the words on which an item may meet others, its last atomic that stores, and its first one that loads."""
    stores: Dict[Tuple[int, int], Step]
    loads: Dict[Tuple[int, int], Step]

    def note(self, step: Step) -> None:
        word = (step.space, step.word)
        if step.kind != "load" and (word in self.stores or len(self.stores) < MOST_WORDS):
            self.stores[word] = step
        if step.kind != "store" and len(self.loads) < MOST_WORDS:
            self.loads.setdefault(word, step)


class Meetings(NamedTuple):
    """Of the global words on which a group may meet others, its last atomic of device scope that stores, and its first one that loads: the item, the
    number of the record, what it is, its order and its site."""
    stores: Dict[int, Tuple[int, int, int, int, int]]
    loads: Dict[int, Tuple[int, int, int, int, int]]

    def note(self, word: int, met: Tuple[int, int, int, int, int]) -> None:
        if KIND_OF[met[2]] != "load" and (word in self.stores or len(self.stores) < MOST_WORDS):
            self.stores[word] = met
        if KIND_OF[met[2]] != "store" and (word in self.loads or len(self.loads) < MOST_WORDS):
            self.loads.setdefault(word, met)

    @staticmethod
    def step(word: int, met: Tuple[int, int, int, int, int]) -> Tuple[int, Step]:
        item, at, kind, order, site = met
        return item, Step(at, KIND_OF[kind], GLOBAL, SCOPE_OF[DEVICE], ORDER_OF[order], word, site=site)


class Arrivals:
    """The records with which an item has come to each site, by what it does there. Words one after another are one access."""

    def __init__(self) -> None:
        self.of: Dict[Tuple[int, int], array.array] = {}
        self.records, self.last = 0, (0, 0, 0)

    def note(self, site: int, kind: int, word: int) -> None:
        if self.last != (site, kind, word - 1):
            self.of.setdefault((site, kind), array.array("I")).append(self.records)
        self.records, self.last = self.records + 1, (site, kind, word)

    def count(self, step: Step, after: int, at: int) -> int:
        """How often it has come to the site of a step to do the same, after a record and up to another one; 0 where the site is not known."""
        those = self.of.get((step.site, KIND_OF.index(step.kind)), ()) if step.site else ()
        return bisect.bisect_right(those, at) - bisect.bisect_right(those, after)


class Group:
    """The barriers of each item of a group, and its first releases and acquires; and of the wanted items all barriers, releases, acquires and
    accesses to their words, and some atomics of others."""

    def __init__(self, stream: memoryview, wanted: Wanted):
        form, _, self.items, _ = HEADER.unpack_from(stream)
        self.stream, self.form, self.wanted = stream[HEADER.size:], RECORD_FORMS[form], wanted
        self.barriers: List[List[Step]] = [[] for _ in range(self.items)]
        self.steps: Dict[int, List[Step]] = {item: [] for item in wanted}
        self.atomics: Dict[int, Atomics] = {item: Atomics({}, {}) for item in wanted}
        self.hands: List[Tuple[int, Step]] = []
        self.arrivals: Dict[int, Arrivals] = {}
        self.meetings = Meetings({}, {})
        count, releases = [0] * self.items, [0] * self.items
        for at, (kind, space, scope, order, item, site, word) in enumerate(self.form.iter_unpack(self.stream)):
            if kind == BARRIER:
                step = Step(count[item], "barrier", space, "", "", word, site=site)
                self.barriers[item].append(step)
                if item in wanted:
                    self.steps[item].append(step)
            elif kind != END and ((order or (space, word) in wanted[item]) if item in wanted else order > 1 and len(self.hands) < MOST_HANDS):
                names = self.names_at(at) if order in (2, 4) else ()
                self.note(item, Step(count[item], KIND_OF[kind], space, SCOPE_OF[scope], ORDER_OF[order], word, releases[item] if order > 2 else -1,
                                     names, site))
            if order and scope == DEVICE and space == GLOBAL:
                self.meetings.note(word, (item, count[item], kind, order, site))
            count[item] += 1
            releases[item] += order > 2

    def names_at(self, at: int) -> Tuple[Tuple[int, int, int], ...]:
        places = self.stream[at * self.form.size + NAMES_AT:(at + 1) * self.form.size]
        return tuple((name[0], name[1], name[2]) for name in RELEASE.iter_unpack(places) if name != NO_NAME)

    def note(self, item: int, step: Step) -> None:
        has_order = step.is_release() or step.is_acquire()
        if item in self.wanted and (has_order or (step.space, step.word) in self.wanted[item]):
            self.steps[item].append(step)
        if item in self.wanted and step.order:
            self.atomics[item].note(step)
        if has_order and len(self.hands) < MOST_HANDS:
            self.hands.append((item, step))

    def arrivals_of(self, item: int) -> Arrivals:
        """Those of one of the wanted items, which not every race asks for."""
        if not self.arrivals:
            self.arrivals = {it: Arrivals() for it in self.wanted}
            for kind, _, _, _, it, site, word in self.form.iter_unpack(self.stream):
                if it in self.wanted:
                    self.arrivals[it].note(site, kind, word)
        return self.arrivals[item]

    def all_steps(self) -> Iterator[Tuple[int, Step]]:
        """With their items."""
        for item, steps in self.steps.items():
            yield from ((item, step) for step in (*steps, *self.atomics[item].stores.values(), *self.atomics[item].loads.values()))
        yield from self.hands
        yield from (self.meetings.step(word, met) for those in self.meetings for word, met in those.items())

    def phase(self, item: int, index: int) -> int:
        """How many barriers of the item come before its record of this index."""
        return sum(barrier.at < index for barrier in self.barriers[item])

    def whole(self, item: int, step: Step) -> Step:
        """The atomic that a step is a part of: one that takes many names is recorded as loads of its word, and itself right after them."""
        for other in self.steps[item][bisect.bisect_left(self.steps[item], (step.at + 1,)):]:
            is_part = step.kind == "load" and step.site and (step.at + 1, step.site, step.space, step.word) == (other.at, other.site, other.space, other.word)
            if not is_part:
                break
            step = other
        return step

    def step(self, item: int, index: int) -> Step:
        return next(step for step in self.steps[item] if step.at == index)


def groups_of(folder: str, wanted: Dict[int, Wanted]) -> Dict[int, Group]:
    """These groups, by their numbers; those with too many records are left out."""
    found = {}
    for data in map(mapped, streams_of(folder)) if wanted else ():
        for stream in streams_in(data):
            if stream.group in wanted and stream.end is not None and stream.end - stream.start <= MOST_BYTES:
                found[stream.group] = Group(memoryview(data)[stream.start:stream.end], wanted[stream.group])
    return found
