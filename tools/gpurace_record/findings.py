"""What gpurace finds in a recorded launch, in the kernel's own terms: buffers, work-items, lines of source.

Which words race, which two accesses do and what would order them is what `gpurace races --json --causes` says, which barriers diverge
and which acquires are unmatched what `gpurace replay` does. Of the streams only the records of shown items are read.
"""
from __future__ import annotations

import collections
import json
import re
import subprocess
from typing import Any, Dict, Iterator, List, Optional, Set, Tuple

from . import causes
from .elements import Elements
from .finding import Access, Finding, Map, join
from .folders import Info
from .pairs import Pairs
from .records import Wanted, groups_of
from .sides import Places, Run, Shape, Texts, buffers_of, equal_of, joined, name_of, parts, words_in

DIVERGENT = {"missing": "some work-items never reach it", "site": "the work-items are at different barriers",
             "flags": "the work-items give different flags"}
MENDS = {"missing": "its place is outside of branches and loops that they take differently, and before any early return",
         "site": "let all of them come to one barrier, outside of the branch", "flags": "let all of them give the same"}
MOST_KINDS = 200     # of races of a launch
MOST_DIVERGENT = 100  # groups with divergent barriers that are looked at
MOST_SECONDS = 60    # that looking for causes may take
OUT_OF_BOUNDS = re.compile(r"(\d+) (.+?) (read|write|atomic) (\d+) (\d+) (\d+) (.*)")
OUTSIDE = re.compile(r"(?:.* of |in )(.+?),? which has (?:\d+ bytes?|no memory)")


def races_said(program: str, folder: str, most_seconds: int) -> Tuple[List[Dict[str, Any]], str]:
    """The kinds of races, and what is wrong with them. Causes that take too long are left out."""
    words = [program, "races", "--json", "--most", str(MOST_KINDS), folder]
    try:
        ran = subprocess.run([*words, "--causes"], capture_output=True, start_new_session=True, timeout=most_seconds)
    except subprocess.TimeoutExpired:
        ran = subprocess.run(words, capture_output=True, start_new_session=True)
    if ran.returncode != 1:
        return [], ran.stderr.decode(errors="replace").partition("\n")[0]
    kinds = [it for it in map(json.loads, ran.stdout.decode(errors="replace").splitlines()) if it["type"] == "kind"]
    for kind in kinds:
        kind["race"]["cause"] = kind["race"]["cause"] or {"name": "", "sentence": f"the cause was not known after {most_seconds} s"}
    return kinds, ""


def runs_of(kind: Dict[str, Any]) -> List[Run]:
    return [Run(run["first"].get("group"), run["first"]["number"], run["last"]) for run in kind["runs"]]


class Reader:
    """What the lines of a launch's report mean."""

    def __init__(self, program: str, folder: str, info: Info, report: List[str], most_seconds: int = MOST_SECONDS):
        self.kernel = info["kernel"][0] if info["kernel"] else ""
        self.elements = Elements(info["element"])
        self.shape, self.texts, self.buffers, self.equal = Shape(info), Texts(folder), buffers_of(folder), equal_of(folder)
        self.waits = {int(site) for site in info["wait"]}
        self.are_loads_added = any(count != "0" for count in info["acquire-loads-added"])
        lines = [line.split() for line in report]
        self.cut = {int(line[1]) for line in lines if line[0] == "cut"}
        self.divergent = {(int(line[1]), int(line[2])): line[3] for line in lines if line[0] == "diverge"}
        self.looked_at = set(list(dict.fromkeys(group for group, _ in self.divergent))[:MOST_DIVERGENT])
        self.unmatched = [(int(line[1]), int(line[2]), int(line[3]), line[4]) for line in lines if line[0] == "unmatched"]
        has_races = any(line[0] == "race" for line in lines)
        self.kinds, self.fault = races_said(program, folder, most_seconds) if has_races else ([], "")
        wanted = self.wanted()
        self.groups = groups_of(folder, wanted)
        keys = {f"{group} {item} {index}" for group, item, index, _ in self.unmatched}
        keys |= {f"{group} {item} {step.at}" for group, it in self.groups.items() for item, step in it.all_steps()}
        self.places = Places(folder, self.groups, keys)
        self.pairs = Pairs(self.groups, self.places, self.shape, self.texts, set(self.divergent), self.waits)

    def wanted(self) -> Dict[int, Wanted]:
        """The groups and items whose records are read, with the words."""
        found: Dict[int, Wanted] = {group: {} for group in self.looked_at}
        for group, item, _, _ in self.unmatched:
            found.setdefault(group, {}).setdefault(item, set())
        for kind in self.kinds:
            word = kind["race"]["word"]
            for event in (kind["race"]["first"], kind["race"]["second"]):
                items = found.setdefault(event["group"], {})
                items.setdefault(event["item"], set()).add((1 if word["space"] == "local" else 0, word["number"]))
        return found

    def findings(self) -> List[Finding]:
        """Divergence first, since races may follow from it. Findings of one fingerprint are one."""
        found: Dict[str, Finding] = {}
        for finding in [*self.divergences(), *self.races(), *self.unmatched_acquires()]:
            same = found.setdefault(finding.fingerprint(), finding)
            if same is not finding:
                join(same, finding)
        for finding in found.values():
            if finding.kind == "race" and finding.maps:
                finding.title = self.title_of(finding)
        return list(found.values())

    def title_of(self, race: Finding) -> str:
        names = ", ".join(name_of(it.buffer, it.space, it.spans, it.groups, self.elements.of(it.buffer)) for it in race.maps)
        return f"race on {names} ({race.words} words)" if race.words > 1 else f"race on {race.shown}"

    def races(self) -> Iterator[Finding]:
        if self.fault:
            yield Finding("race", self.kernel, f"races that could not be read: {self.fault}")
        self.met = [places for kind, places in ((it, self.places_of(it)) for it in self.kinds)
                    if len(places) > 1 and not self.pairs.is_one_operation(kind["race"], self.accesses(kind))]
        for kind in self.kinds:
            yield self.race(kind)

    @staticmethod
    def places_of(kind: Dict[str, Any]) -> Set[Tuple[str, str]]:
        """The places of two accesses of a group between which a barrier is missing, each after their buffer; none where this is not known."""
        race = kind["race"]
        is_known = race["buffer"] and kind["kind"]["one_group"] and race["cause"]["name"] == "no-barrier"
        return {(race["buffer"]["name"], race[key]["place"] or "") for key in ("first", "second")} if is_known else set()

    def accesses(self, kind: Dict[str, Any]) -> List[Access]:
        return [self.access(kind["kind"][key], kind["race"][key]) for key in ("first", "second")]

    def race(self, kind: Dict[str, Any]) -> Finding:
        said, race = kind["kind"], kind["race"]
        group = race["word"].get("group")
        accesses = self.accesses(kind)
        runs = runs_of(kind)
        finding = Finding("race", self.kernel, "", race["cause"]["name"], race["cause"]["sentence"], words_in(runs), runs,
                          accesses=accesses, maps=self.maps(said["space"], runs))
        finding.is_equal = (said["first"], said["second"]) == ("write", "write") and all(
            any(it.first <= run.first and run.last <= it.last for it in self.equal.get(run.group, ())) for run in runs)
        buffer = race["buffer"]
        element = self.elements.of(buffer["name"]) if buffer else None
        number = buffer["index"] if buffer else race["word"]["number"]
        own = self.places_of(kind)
        pair = self.pairs.between(said, race, accesses, any(own & it and own != it for it in self.met))
        if pair:
            self.pairs.put_marks((race["first"], race["second"]), accesses)
            pair = pair._replace(kind=element.kind_of(number) if element else "", value="" if finding.is_equal else pair.value,
                                 are_equal=finding.is_equal, is_given_twice="=" in buffer["name"] if buffer else False)
            finding.message = causes.sentence(finding.cause, finding.message, pair)
        shown, word = (name_of(buffer["name"] if buffer else "", said["space"], [(number, number)], 1, it) for it in (element, None))
        finding.shown = shown + ("" if group is None else f" of {self.shape.group_name(group)}")
        finding.word = word if word != shown else ""
        return finding

    def access(self, what: str, event: Dict[str, Any]) -> Access:
        group, item, index = event["group"], event["item"], event["index"]
        access = Access(what, self.shape.who(group, item), group=self.shape.group(group), item=item, index=index)
        access.put_at(event["place"] or "", self.texts)
        if group in self.groups:
            step = self.groups[group].step(item, index)
            step = self.groups[group].whole(item, step) if self.are_loads_added else step
            access.what, access.scope, access.order = step.kind, step.scope, step.order
        return access

    def maps(self, space: str, runs: List[Run]) -> List[Map]:
        """The runs by their buffers; local words of all groups that have them together."""
        spans: Dict[str, Set[Tuple[int, int]]] = collections.defaultdict(set)
        groups: Dict[str, Set[Optional[int]]] = collections.defaultdict(set)
        sizes: Dict[str, int] = {}
        for run in runs:
            for part, buffer in parts(run, self.buffers):
                name, start = (buffer.name, buffer.first) if buffer else ("", 0)
                sizes[name] = buffer.last - buffer.first + 1 if buffer else 0
                spans[name].add((part.first - start, part.last - start))
                groups[name].add(part.group)
        return [Map(name, space, sizes[name], len(groups[name]), joined(spans[name])) for name in spans]

    def divergences(self) -> Iterator[Finding]:
        """Those at the same places are one finding."""
        alike: Dict[Any, List[Tuple[bool, int, int]]] = collections.defaultdict(list)
        for (group, instance), cause in self.divergent.items():
            if group in self.groups:
                is_cut = group in self.cut and cause == "missing"
                alike[cause, tuple(sorted(place for place, *_ in self.came(group, instance)))].append((is_cut, group, instance))
        following = words_in([run for kind in self.kinds if kind["race"]["cause"]["name"] == "divergent" for run in runs_of(kind)])
        mends = dict(MENDS)
        for (cause, _), instances in alike.items():
            finding = self.divergence(cause, *min(instances), len(instances) - 1, following)
            mend = "" if finding.is_doubtful else mends.pop(cause, "")  # of others the first one may be the cause
            finding.message += f"; {mend}" if mend else ""
            yield finding
        if self.divergent and not alike:
            yield Finding("divergence", self.kernel, f"{len(self.divergent)} divergent barriers")

    def came(self, number: int, instance: int) -> Tuple[Tuple[str, str, int, int], ...]:
        """The items of a group by the place of their barrier, which is empty where they had none, and by its flags where these differ alone: these,
        how many, and the first."""
        came: Dict[Tuple[str, str], List[int]] = collections.defaultdict(list)
        by_flags = self.divergent[number, instance] == "flags"
        for item, barriers in enumerate(self.groups[number].barriers):
            if self.shape.is_copying(number, item):
                continue
            step = barriers[instance] if instance < len(barriers) else None
            came[(self.places.site(step.word), causes.flags_of(step.space) if by_flags else "") if step else ("", "")].append(item)
        return tuple((*at, len(items), items[0]) for at, items in came.items())

    def divergence(self, cause: str, is_cut: bool, group: int, instance: int, others: int, following: int) -> Finding:
        seen = sum(number in self.groups for number, _ in self.divergent)
        more = f", and {others} more alike" if others else ""
        more += f" ({seen} of {len(self.divergent)} were looked at)" if seen < len(self.divergent) else ""
        who = self.shape.group_name(group)
        message = DIVERGENT[cause] + (", or theirs is among the records that were lost" if is_cut else "")
        message += f"; {following} race{'s follow' if following > 1 else ' follows'} from it" if following else ""
        accesses = []
        for place, flags, count, first in self.came(group, instance):
            items = f"{count} work-items, the first is {self.shape.item(group, first)}" if count > 1 else self.shape.item(group, first)
            items += f", with {flags}" if flags else ""
            accesses.append(Access("barrier" if place else "no barrier", items).put_at(place, self.texts))
        return Finding("divergence", self.kernel, f"divergent barrier, number {instance} of {who}{more}", cause, message, accesses=accesses,
                       is_doubtful=is_cut)

    def unmatched_acquires(self) -> Iterator[Finding]:
        for group, item, index, cause in self.unmatched:
            access = Access("acquire", self.shape.who(group, item), group=self.shape.group(group), item=item, index=index)
            access.put_at(self.places.event(group, item, index), self.texts)
            yield Finding("unmatched", self.kernel, f"acquire without its release ({cause})", cause,
                          "this is mostly a fault of the recorder; what waits for the acquire is not judged", accesses=[access])


def out_of_bounds(info: Info, folder: str) -> Iterator[Finding]:
    """Accesses out of all buffers, each place once: what it does, and where the first one went."""
    shape, texts, kernel = Shape(info), Texts(folder), (info["kernel"] or [""])[0]
    for line in info["out-of-bounds"]:
        said = OUT_OF_BOUNDS.fullmatch(line)
        if not said:
            raise ValueError(f"info.txt has a line out-of-bounds {line}")
        number, place, how, size, group, item, where = said.groups()
        by = "asynchronous copy" if int(item) == shape.items else shape.name("item", int(item), shape.local)
        who = f"{shape.name('group', int(group), shape.groups)}, {by}"
        named = OUTSIDE.fullmatch(where)
        maps = [Map(named[1], "", 0, 1, [])] if named else []
        yield Finding("out-of-bounds", kernel, f"out of bounds: {how} of {size} byte{'' if size == '1' else 's'}, {where}", "out-of-bounds",
                      "" if number == "1" else f"{number} times", accesses=[Access(how, who).put_at(place, texts)], maps=maps)
