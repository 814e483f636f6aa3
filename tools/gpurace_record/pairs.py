"""The two accesses of a race, and what their items did around them."""
from __future__ import annotations

import bisect
import itertools
import re
from typing import Any, Callable, Dict, Iterable, Iterator, List, Optional, Set, Tuple

from . import causes
from .finding import Access, Mark
from .records import Group, Step
from .sides import CALLED, PLACE, Places, Shape, Texts

MOST_RECORDS = 1 << 32  # of an item
NUMBER = re.compile(r"=\s*(-?\d[\w.]*|true|false)\s*;")  # that is written at the place of its `=`
MOST_STEPS = 3       # of an item on each side of its access that are kept
UPDATE = re.compile(r"\+\+|--|(?:[-+*/%&|^]|<<|>>)=|(?:^|[;{})])\s*([^;{}=]+?)\s*=(?!=)[^;]*?(?<!\w)\1(?!\w)")  # in a line of source


def line_of(place: str) -> str:
    """The file and the line of a place; empty where it is none."""
    at = PLACE.fullmatch(place)
    return f"{at[1]}:{at[2]}" if at else ""


def are_at_one(of: Callable[[str], str], first: Access, second: Access) -> bool:
    """Whether both are at one place, or one line of it, which the same calls lead to."""
    return of(first.place) != "" and (of(first.place), first.calls) == (of(second.place), second.calls)


def is_between(place: str, first: Access, second: Access) -> bool:
    """Whether a place is between those of two accesses in the text, the second one above it. None of them is in a function that is called."""
    at = [PLACE.fullmatch(each) for each in (second.place, place, first.place)]
    if CALLED in place or first.calls or second.calls or len({each[1] if each else "" for each in at}) != 1:
        return False
    lines = [(int(each[2]), int(each[3])) for each in at if each]
    return len(lines) == 3 and lines[0] < lines[1] < lines[2]


def near(own: Step, steps: Iterable[Step]) -> Iterator[Step]:
    """Those of an item's steps that are barriers, or access the word of one of them."""
    return (step for step in steps if step.kind == "barrier" or (step.space, step.word) == (own.space, own.word))


class Pairs:
    """What is between two accesses, each an event of gpurace's answer, by the records of their groups."""

    def __init__(self, groups: Dict[int, Group], places: Places, shape: Shape, texts: Texts, divergent: Set[Tuple[int, int]],
                 waits: Set[int]):
        self.groups, self.places, self.shape, self.texts, self.divergent, self.waits = groups, places, shape, texts, divergent, waits

    def put_marks(self, events: Tuple[Dict[str, Any], Dict[str, Any]], accesses: List[Access]) -> None:
        """Gives both accesses the steps around them. Of two items of a group the same barriers are shown: from the one before the first of
        the two to the one after the last; of many those at both ends."""
        number, group = events[0]["group"], self.groups[events[0]["group"]]
        shown: Optional[Set[int]] = None
        if number == events[1]["group"]:
            low, high = sorted(group.phase(event["item"], event["index"]) for event in events)
            shown = {*range(low - 1, min(high, low + MOST_STEPS) + 1), *range(max(low, high - MOST_STEPS), high + 1)}
        for event, access in zip(events, accesses):
            access.marks = self.marks(event["group"], event["item"], event["index"], shown)

    def marks(self, group: int, item: int, index: int, shown: Optional[Set[int]]) -> List[Mark]:
        """The access of this index and the steps around it; of barriers those that are shown, or are near."""
        racing, steps = self.groups[group].step(item, index), self.groups[group].steps[item]
        word = (racing.space, racing.word)
        near = [step for step in steps if step.is_release() or step.is_acquire()
                or (shown is None if step.kind == "barrier" else (step.space, step.word) == word)]
        at = near.index(racing)
        near = near[max(0, at - MOST_STEPS):at + MOST_STEPS + 1]
        if shown is not None:
            near = [step for step in near if self.groups[group].phase(item, step.at) - 1 in shown or step is racing]
            near += [step for number, step in enumerate(self.groups[group].barriers[item]) if number in shown]
        return [self.mark(group, item, step, step is racing) for step in sorted(near)]

    def mark(self, group: int, item: int, step: Step, is_racing: bool) -> Mark:
        if step.kind != "barrier":
            key = (group, item, step.release) if step.is_release() else ()
            place = self.places.event(group, item, step.at).split(CALLED)[0]
            return Mark(step.kind, place, step.scope, step.order, is_racing=is_racing, key=key, takes=step.names)
        return Mark("barrier", self.places.site(step.word).split(CALLED)[0], instance=self.groups[group].phase(item, step.at),
                    flags=step.space, is_wait=step.word in self.waits)

    def between(self, said: Dict[str, Any], race: Dict[str, Any], accesses: List[Access], is_also_met: bool = False) -> Optional[causes.Pair]:
        """The two accesses with what is between them; None if their records were not read."""
        first, second = race["first"], race["second"]
        if first["group"] not in self.groups or second["group"] not in self.groups:
            return None
        both = one, other = [causes.At(access.what, access.place, access.scope, self.shape.is_copying(event["group"], event["item"]), text=access.text)
                             for access, event in zip(accesses, (first, second))]
        hands = [self.hand_over(first, second), self.hand_over(second, first)]  # the order of the two says nothing of time
        release, acquire = next((both for both in hands if all(both)), hands[0])
        is_one_group = said["one_group"]
        meetings = [self.meeting(first, second), self.meeting(second, first)]
        over = None if is_one_group else self.meeting_over_barriers(first, second) or self.meeting_over_barriers(second, first)
        store, load = meetings[0] or meetings[1] or over or (None, None)
        before = self.barrier_before(first, second) if is_one_group else ""
        barriers = self.barriers_between(first, second) if is_one_group else self.barriers_around(first, second) or self.barriers_around(second, first)
        others = None if is_one_group else self.over_barriers(first, second) or self.over_barriers(second, first)
        late = None if is_one_group else self.before_barriers(first, second) or self.before_barriers(second, first)
        check = self.check(first, second)
        early = self.early_release(first, second, one) or self.early_release(second, first, other)
        is_line = self.is_line_of_updates(first, second, accesses[0].text)
        is_statement = self.are_of_one_statement(*accesses)
        are_rounds = (is_line and is_also_met) or (is_one_group and is_statement)
        return causes.Pair(said["space"], is_one_group, one, other, barriers, before.split(CALLED)[0], release, acquire,
                           self.is_update(first) and self.is_update(second), is_line,
                           store, load, are_at_one(str, *accesses),
                           (self.times(first, first), self.times(second, second)) if are_rounds else (0, 0),
                           self.rounds(first, second, accesses, both, before), early, others, late,
                           all(it and (it[0].place, it[0].site) != (it[1].place, it[1].site) for it in meetings),
                           check, is_also_met=is_also_met, missed=self.missed(first, second) if is_one_group else "",
                           value=self.value(accesses), is_repeated=(are_rounds or check is not None) and (self.is_repeated(first) or self.is_repeated(second)),
                           is_one_statement=is_statement, are_in_turn=is_one_group and not barriers and (self.are_in_turn(first, second) or self.are_in_turn(second, first)))

    def times(self, event: Dict[str, Any], other: Dict[str, Any], after: int = -1) -> int:
        """How often the item of an event has come to the place of another one, after a record of it, up to the event."""
        return self.groups[event["group"]].arrivals_of(event["item"]).count(self.step(other), after, event["index"])

    def are_in_turn(self, one: Dict[str, Any], other: Dict[str, Any]) -> bool:
        """Whether an event's item comes to the place of another event before it and after it, with no barrier between."""
        group, item, at = self.groups[one["group"]], one["item"], one["index"]
        phase, barriers = group.phase(item, at), group.barriers[item]
        start = barriers[phase - 1].at if phase else -1
        end = barriers[phase].at if phase < len(barriers) else MOST_RECORDS
        arrivals, there = group.arrivals_of(item), self.step(other)
        is_same_place = (there.site, there.kind) == (self.step(one).site, self.step(one).kind)
        return not is_same_place and arrivals.count(there, start, at) > 0 and arrivals.count(there, at, end) > 0

    def is_repeated(self, event: Dict[str, Any]) -> bool:
        """Whether the event's item comes to its place several times."""
        return self.groups[event["group"]].arrivals_of(event["item"]).count(self.step(event), -1, MOST_RECORDS) > 1

    def rounds(self, first: Dict[str, Any], second: Dict[str, Any], accesses: List[Access], both: List[causes.At],
               barrier: str) -> Optional[Tuple[causes.At, causes.At]]:
        """The two accesses, if the second here is of a later round of a loop: it is above the last barrier before both in the text and the other
        one below, and since that barrier its item has come to the place of the other one, whose item has not come to its place."""
        for one, other, at in ((first, second, (0, 1)), (second, first, (1, 0))):
            if barrier and is_between(barrier, accesses[at[0]], accesses[at[1]]):
                group = self.groups[one["group"]]
                since = [group.barriers[it["item"]][group.phase(it["item"], it["index"]) - 1].at for it in (one, other)]
                is_later = self.times(other, one, since[1]) > 0 and self.times(one, other, since[0]) == 0
                return (both[at[0]], both[at[1]]) if is_later else None
        return None

    def are_of_one_statement(self, first: Access, second: Access) -> bool:
        """Whether both are at one line, which the same calls lead to, and its text shows that no statement ends between them. All that a macro does
        is at one column."""
        one, other = (PLACE.fullmatch(access.place) for access in (first, second))
        if not one or not other or one[3] == other[3] or not are_at_one(line_of, first, second):
            return False
        start, end = sorted((int(one[3]), int(other[3])))
        line = "".join(self.texts.text(one[1])[int(one[2]) - 1:int(one[2])])
        return line != "" and ";" not in line[start - 1:end - 1]

    def value(self, accesses: List[Access]) -> str:
        """The number that both accesses write, by the text of their lines."""
        values = set()
        for access in accesses:
            at = PLACE.fullmatch(access.place) if access.what == "write" else None
            line = "".join(self.texts.text(at[1])[int(at[2]) - 1:int(at[2])]) if at else ""
            number = NUMBER.match(line, int(at[3]) - 1) if at else None
            values.add(number[1] if number else "")
        return values.pop() if len(values) == 1 else ""

    def is_update(self, event: Dict[str, Any]) -> bool:
        """Whether the event is one of a plain read of a word and the write to it that the item does next."""
        group, item = self.groups[event["group"]], event["item"]
        own = group.step(item, event["index"])
        other = {"read": (1, "write"), "write": (-1, "read")}.get(own.kind)
        return other is not None and any((step.at - own.at, step.kind) == other and (step.space, step.word) == (own.space, own.word)
                                         for step in group.steps[item])

    def is_one_operation(self, race: Dict[str, Any], accesses: List[Access]) -> bool:
        """Whether what both items do should be one atomic operation: they update the word at one line, or read it and then write it."""
        first, second = race["first"], race["second"]
        are_read = first["group"] in self.groups and second["group"] in self.groups
        return are_read and (self.is_line_of_updates(first, second, accesses[0].text) or self.check(first, second) is not None)

    def is_line_of_updates(self, first: Dict[str, Any], second: Dict[str, Any], text: str) -> bool:
        """Whether both items update the word at one line, which has this text. One that swaps words, say, is none."""
        lines = {line_of(self.place(event, step).split(CALLED)[0]) for event in (first, second) for step in [self.step(event), *self.update(event)[-2:]]}
        are_both = self.update(first) and self.update(second)
        is_shown = not text or UPDATE.search(text) or (self.is_update(first) and self.is_update(second))
        return bool(are_both and is_shown) and len(lines) == 1 and "" not in lines

    def update(self, event: Dict[str, Any]) -> List[Step]:
        """Plain reads of the word of the event and the write to it that its item does next, with no barrier between, if the event is one of these."""
        own, steps = self.step(event), self.groups[event["group"]].steps[event["item"]]
        write = next((step for step in near(own, steps[bisect.bisect_left(steps, (own.at,)):]) if step.kind != "read"), own)
        before = reversed(steps[:bisect.bisect_left(steps, (write.at,))])
        reads = list(itertools.takewhile(lambda step: step.kind == "read", near(own, before)))
        return [*reversed(reads), write] if reads and write.kind == "write" else []

    def reads(self, event: Dict[str, Any]) -> Dict[str, Step]:
        """By their places, the plain reads of an event: itself, or those that its item does just before it writes."""
        own = self.step(event)
        return {self.place(event, step): step for step in ([own] if own.kind == "read" else self.update(event)[:-1])}

    def check(self, first: Dict[str, Any], second: Dict[str, Any]) -> Optional[Tuple[causes.At, causes.At]]:
        """A read and the write that an item does next, if one of the two is this write, and the other item reads at the read's place, too."""
        reads = [self.reads(event) for event in (first, second)]
        common = [place for place in reads[0] if place and place in reads[1]]
        for event, own in zip((first, second), reads):
            update = self.update(event)
            if common and update and update[-1].at == event["index"]:
                return self.at(event, own[common[0]]), self.at(event, update[-1])
        return None

    def step(self, event: Dict[str, Any]) -> Step:
        return self.groups[event["group"]].step(event["item"], event["index"])

    def place(self, event: Dict[str, Any], step: Step) -> str:
        """The place of a step of an event's item, with its calls."""
        return self.places.event(event["group"], event["item"], step.at)

    def hand_over(self, one: Dict[str, Any], other: Dict[str, Any]) -> Tuple[Optional[causes.At], Optional[causes.At]]:
        """The release of an event's item after it, and the acquire of another event's item before that one, if there are such. What waits
        for copies is none: the item that copies hands nothing else over."""
        after = [step for step in self.groups[one["group"]].steps[one["item"]] if step.at > one["index"] and step.is_release()
                 and not self.shape.is_copying(one["group"], one["item"])]
        before = [step for step in self.groups[other["group"]].steps[other["item"]] if step.at < other["index"] and step.is_acquire()
                  and not any(self.shape.is_copying(group, item) for group, item, _ in step.names)]
        return self.at(one, after[0]) if after else None, self.at(other, before[-1]) if before else None

    def meeting(self, one: Dict[str, Any], other: Dict[str, Any]) -> Optional[Tuple[causes.At, causes.At]]:
        """An atomic that stores, of an event's item after it, and one that loads the same word, of another event's item before that one."""
        stores, loads = (self.groups[event["group"]].atomics[event["item"]] for event in (one, other))
        words = [word for word, step in stores.stores.items()
                 if step.at > one["index"] and word in loads.loads and loads.loads[word].at < other["index"]]
        if not words:
            return None
        word = min(words, key=lambda word: stores.stores[word].at)
        return self.at(one, stores.stores[word]), self.at(other, loads.loads[word])

    def meeting_over_barriers(self, one: Dict[str, Any], other: Dict[str, Any]) -> Optional[Tuple[causes.At, causes.At]]:
        """An atomic that stores, of an event's group after it, and one that loads the same word, of another event's group before that one. Barriers are
        between, where they are not of the events' items."""
        met, there = self.groups[one["group"]].meetings, self.groups[other["group"]].meetings
        for word in sorted(met.stores.keys() & there.loads.keys()):
            (item, store), (taker, load) = met.step(word, met.stores[word]), there.step(word, there.loads[word])
            if self.is_ordered(one, item, store.at, 1) and self.is_ordered(other, taker, load.at, -1):
                return self.at({**one, "item": item}, store), self.at({**other, "item": taker}, load)
        return None

    def is_ordered(self, event: Dict[str, Any], item: int, at: int, step: int) -> bool:
        """Whether an event on a global word is ordered before a record of an item of its group, or, with the step -1, after it."""
        barriers = self.barriers_to(event, item, at, step)
        return barriers is not None and (not barriers or any(it.flags & 1 and not it.is_divergent for it in barriers))

    def early_release(self, one: Dict[str, Any], other: Dict[str, Any], access: causes.At) -> Optional[Tuple[causes.At, causes.At, causes.At]]:
        """The access of an event, the last release of its item, if that comes before it, and an acquire of another event's item before that one
        that takes this release."""
        releases = [step for step in self.groups[one["group"]].steps[one["item"]] if step.is_release()]
        if not releases or releases[-1].at > one["index"] or self.shape.is_copying(one["group"], one["item"]):
            return None
        name = (one["group"], one["item"], releases[-1].release)
        takes = [step for step in self.groups[other["group"]].steps[other["item"]] if step.at < other["index"] and name in step.names]
        made = (access, self.at(one, releases[-1]), self.at(other, takes[0])) if takes else None
        return made if made and all(at.place for at in made) else None

    def over_barriers(self, one: Dict[str, Any], other: Dict[str, Any]) -> Optional[Tuple[causes.At, causes.At]]:
        """A release by another item of an event's group, with no barrier of these between, and an acquire of the same word in another event's group
        that comes before that event by its item or by a barrier. Both have device scope."""
        group, there = self.groups[one["group"]], self.groups[other["group"]]
        phase, end = group.phase(one["item"], one["index"]), there.phase(other["item"], other["index"])
        full = [at for at, step in enumerate(there.barriers[other["item"]][:end]) if step.space & 1 and (other["group"], at) not in self.divergent]
        for item, release, taker, acquire in self.hands(one, other):
            is_after = (taker == other["item"] and acquire.at < other["index"]) or any(there.phase(taker, acquire.at) <= at for at in full)
            if item != one["item"] and group.phase(item, release.at) <= phase and is_after:
                return self.at({**one, "item": item}, release), self.at({**other, "item": taker}, acquire)
        return None

    def before_barriers(self, one: Dict[str, Any], other: Dict[str, Any]) -> Optional[Tuple[causes.At, causes.At]]:
        """A release by an event's group that comes after it, by its item or by a barrier, and an acquire of the same word by another item of another
        event's group, with no barrier between that and the event. Both have device scope."""
        there = self.groups[other["group"]]
        phase = there.phase(other["item"], other["index"])
        for item, release, taker, acquire in self.hands(one, other):
            if taker != other["item"] and there.phase(taker, acquire.at) == phase and self.is_ordered(one, item, release.at, 1):
                return self.at({**one, "item": item}, release), self.at({**other, "item": taker}, acquire)
        return None

    def hands(self, one: Dict[str, Any], other: Dict[str, Any]) -> Iterator[Tuple[int, Step, int, Step]]:
        """Releases of an event's group and acquires of another event's group, of one word and device scope, each after its item."""
        acquires = [(item, step) for item, step in self.groups[other["group"]].hands if step.is_acquire() and step.scope == "dev"]
        for item, release in self.groups[one["group"]].hands:
            if release.is_release() and release.scope == "dev" and not self.shape.is_copying(one["group"], item):
                yield from ((item, release, taker, acquire) for taker, acquire in acquires
                            if (release.space, release.word) == (acquire.space, acquire.word))

    def barriers_around(self, one: Dict[str, Any], other: Dict[str, Any]) -> List[causes.Barrier]:
        """The barriers between an event and a release by its group, and between an acquire of the same word by another event's group and that event."""
        for item, release, taker, acquire in self.hands(one, other):
            before, after = self.barriers_to(one, item, release.at, 1), self.barriers_to(other, taker, acquire.at, -1)
            if before is not None and after is not None:
                return before + after
        return []

    def barriers_to(self, event: Dict[str, Any], item: int, at: int, step: int) -> Optional[List[causes.Barrier]]:
        """The barriers between an event and a record of an item of its group that comes after it, or, with the step -1, before it; within one item
        none are needed. None if the record does not come there."""
        group = self.groups[event["group"]]
        if item == event["item"]:
            return [] if (at - event["index"]) * step > 0 else None
        start, end = (group.phase(event["item"], event["index"]), group.phase(item, at))[::step]
        return [self.barrier(event["group"], start + k, it) for k, it in enumerate(group.barriers[event["item"]][start:end])] or None

    def missed(self, first: Dict[str, Any], second: Dict[str, Any]) -> str:
        """The place of the divergent barrier that one of two items comes to next after the access, and the other one, with as many barriers before its
        own access, never does."""
        group = self.groups[first["group"]]
        at, other = (group.phase(event["item"], event["index"]) for event in (first, second))
        own = [steps[at] for steps in (group.barriers[event["item"]] for event in (first, second)) if at < len(steps)]
        is_missed = at == other and len(own) == 1 and (first["group"], at) in self.divergent
        return self.places.site(own[0].word).split(CALLED)[0] if is_missed else ""

    def at(self, event: Dict[str, Any], step: Step) -> causes.At:
        place = self.place(event, step).split(CALLED)[0]
        return causes.At(step.kind, place, step.scope, order=step.order, text=self.texts.line(place), site=step.site)

    def barrier_before(self, first: Dict[str, Any], second: Dict[str, Any]) -> str:
        """The place of the last barrier that both items have passed, with its calls, if no other one is between the two; else nothing."""
        group = self.groups[first["group"]]
        at, other = (group.phase(event["item"], event["index"]) - 1 for event in (first, second))
        step = group.barriers[first["item"]][at] if at == other >= 0 else None
        is_one = step is not None and step.word not in self.waits and (first["group"], at) not in self.divergent
        place = self.places.site(step.word) if step and is_one else ""
        return place if PLACE.fullmatch(place) else ""

    def barriers_between(self, first: Dict[str, Any], second: Dict[str, Any]) -> List[causes.Barrier]:
        number, group = first["group"], self.groups[first["group"]]
        phases = sorted((group.phase(event["item"], event["index"]), event["item"]) for event in (first, second))
        steps = group.barriers[phases[1][1]]
        between = [(at, steps[at]) for at in range(phases[0][0], phases[1][0])]
        return [self.barrier(number, at, step) for at, step in between]

    def barrier(self, group: int, at: int, step: Step) -> causes.Barrier:
        """A step of a group's item that is its barrier of this number."""
        return causes.Barrier(self.places.site(step.word), step.space, (group, at) in self.divergent, step.word in self.waits)
