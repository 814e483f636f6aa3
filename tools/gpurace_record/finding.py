"""A finding: a mistake in a launch, in the kernel's own terms, with what is shown of it."""
from __future__ import annotations

import dataclasses
import hashlib
import json
from typing import Iterator, List, Tuple

from .causes import ATOMICS
from .sides import CALLED, Run, Texts, joined, words_in

KINDS = {"divergence": "divergent barrier", "out-of-bounds": "out of bounds", "race": "race",
         "unmatched": "unmatched acquire"}  # in the order in which they are shown
WHAT = {kind: f"atomic {name}" for kind, name in ATOMICS.items()}
ORDERS = {"rlx": "relaxed", "acq": "acquire", "rel": "release", "both": "acquire and release"}
SCOPES = {"grp": "work-group", "dev": "device"}
NEW = "new"          # the state of a finding that is neither known nor suppressed
NO_PLACE = "unknown place"
MOST_COLUMNS = 90    # of a line of several sentences


@dataclasses.dataclass
class Mark:
    """A record of an item of a race, for the picture: a barrier, a release, an acquire, or an access to the word."""
    what: str
    place: str = ""
    scope: str = ""
    order: str = ""
    instance: int = -1  # of a barrier
    flags: int = 0
    is_wait: bool = False  # for copies, which is recorded as a barrier of no memory
    is_racing: bool = False
    key: Tuple[int, ...] = ()                # of a release: the group and the item of the trace, and its number
    takes: Tuple[Tuple[int, ...], ...] = ()  # of an acquire: such releases


@dataclasses.dataclass
class Call:
    """A call that leads to a place, and the line of the source."""
    place: str
    text: str


@dataclasses.dataclass
class Access:
    """Something that an item did, or several did alike, and its place."""
    what: str
    who: str
    place: str = ""
    text: str = ""  # the line of the source
    calls: List[Call] = dataclasses.field(default_factory=list)  # the innermost one first
    nth: Tuple[int, ...] = (1,)  # which line of its text in its kernel it is, and each call's
    scope: str = ""
    order: str = ""
    group: int = 0
    item: int = 0
    index: int = 0
    marks: List[Mark] = dataclasses.field(default_factory=list)

    def lines(self) -> Iterator[str]:
        if self.what in ("barrier", "no barrier"):
            yield f"{self.place or self.what}: {self.who}"
        else:
            yield self.sentence()
        yield from [f"    {self.text}"] if self.text else []
        for call in self.calls:
            yield f"    called at {call.place}" + (f": {call.text}" if call.text else "")

    def put_at(self, place: str, texts: Texts) -> Access:
        """Gives it its place, which may name the calls that lead there."""
        self.place, *calls = place.split(CALLED)
        self.text, self.calls = texts.line(self.place), [Call(call, texts.line(call)) for call in calls]
        self.nth = (texts.nth(self.place), *map(texts.nth, calls))
        return self

    def where(self) -> str:
        """The lines of the source, each with its number if it is a further one of its text; where these are not known the places, and else
        what is done."""
        lines = [self.text or self.place or self.what, *(call.text or call.place for call in self.calls)]
        return " < ".join(line + (f" #{nth}" if nth > 1 else "") for line, nth in zip(lines, self.nth))

    def sentence(self) -> str:
        how = ", ".join(word for word in (ORDERS.get(self.order), self.scope and f"{SCOPES[self.scope]} scope") if word)
        return f"{self.place or NO_PLACE}: {WHAT.get(self.what, self.what)}{' (' + how + ')' if how else ''} by {self.who}"


@dataclasses.dataclass
class Map:
    """The racy words of a buffer, in all groups that have it; of words of no buffer the name is empty."""
    buffer: str
    space: str
    words: int   # that the buffer has, racy or not
    groups: int
    spans: List[Tuple[int, int]]  # the racy ones


@dataclasses.dataclass
class Finding:
    """A mistake. Two are the same where their fingerprints are."""
    kind: str                # race, divergence, out-of-bounds, unmatched
    kernel: str
    title: str
    cause: str = ""          # its name
    message: str = ""        # a sentence
    words: int = 0           # of a race, how many
    runs: List[Run] = dataclasses.field(default_factory=list)  # these words, of which several races may have one
    shown: str = ""          # the word that the two accesses race on
    word: str = ""           # its name to `gpurace explain`, if that is another one
    accesses: List[Access] = dataclasses.field(default_factory=list)
    maps: List[Map] = dataclasses.field(default_factory=list)
    is_equal: bool = False   # all stores to each of the words write the same value
    is_doubtful: bool = False
    state: str = NEW         # or known, or suppressed; `why` says why
    why: str = ""

    def buffers(self) -> List[str]:
        return sorted({it.buffer for it in self.maps} - {""})

    def texts(self) -> List[str]:
        return sorted({it.where() for it in self.accesses})

    def fingerprint(self) -> str:
        """Survives lines that are added elsewhere: it has the kernel, the buffers, the cause, and the lines' texts with their numbers among those
        of one text."""
        return fingerprint_of(self.kind, self.kernel, self.buffers(), self.cause, self.texts())

    def on(self) -> str:
        """The word that the two accesses race on, with its name to `gpurace explain`."""
        return self.shown + (f", which gpurace explain calls {self.word}" if self.word else "")

    def sentences(self) -> List[str]:
        """The message, each sentence on a line; short ones share one."""
        lines: List[str] = []
        for said in filter(None, self.message.split("; ")):
            if lines and len(lines[-1]) + len("; ") + len(said) <= MOST_COLUMNS:
                lines[-1] += f"; {said}"
            else:
                lines.append(said)
        return lines

    def lines(self) -> Iterator[str]:
        on = f"; on {self.on()}" if self.words > 1 else self.on()[len(self.shown):]
        yield self.title + on + (" (doubtful)" if self.is_doubtful else "")
        for access in self.accesses:
            yield from (f"    {line}" for line in access.lines())
        yield from (f"    {line}" for line in self.sentences())
        if self.is_equal:
            yield f"    all stores to {'it' if self.words == 1 else 'each of them'} write the same value"


def fingerprint_of(kind: str, kernel: str, buffers: List[str], cause: str, texts: List[str]) -> str:
    return hashlib.sha256(json.dumps([kind, kernel, buffers, cause, texts]).encode()).hexdigest()[:32]


def join(one: Finding, other: Finding) -> None:
    """Puts what another finding of one fingerprint has to the first one: its words, and lines of one text in other files."""
    lines = {access.place.rpartition(":")[0] for access in one.accesses}
    one.accesses += [access for access in other.accesses if access.place.rpartition(":")[0] not in lines]
    one.runs += other.runs
    one.words = words_in(one.runs)
    one.is_equal = one.is_equal and other.is_equal
    for it in other.maps:
        same = next((mine for mine in one.maps if (mine.buffer, mine.space) == (it.buffer, it.space)), None)
        if same:
            same.spans, same.groups = joined(same.spans + it.spans), max(same.groups, it.groups)
        else:
            one.maps.append(it)
