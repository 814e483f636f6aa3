"""What is said of all launches of a run: each outcome once, the reasons that keep it from being an answer, and the status."""
from __future__ import annotations

import contextlib
import dataclasses
import os
import sys
from typing import Callable, Dict, Iterator, List, Optional, Tuple

from .finding import NEW, Finding
from .judging import FOUND, INCOMPLETE, Launch, Reason, count
from .sources import Sources

NAME = "gpurace-judge" if os.path.basename(sys.argv[0]) == "gpurace-judge" else "gpurace-record"  # who says it
NO_LAUNCH = {"gpurace-judge": "no launch was recorded there: no folder has an info.txt, or a file whose name ends in .gpurace",
             "gpurace-record": "no launch was recorded: the program launched no kernel, or none of that name or number"}
MOST_SHOWN = 20    # findings of an outcome
MOST_ALIKE = 3     # reasons of one name, kernels of a reason, and races of one buffer and one cause that are shown
HEADS = {"found": "FOUND", "doubtful": "doubtful", "incomplete": "nothing found in what was recorded", "nothing": "nothing found",
         "known": "nothing new found"}


@dataclasses.dataclass
class Entry:
    """A finding, the launches that have it, and whether it is new, known or suppressed."""
    finding: Finding
    launches: List[Launch]
    state: str = NEW
    why: str = ""      # it is suppressed
    first: str = ""    # the launch in which it is shown


def say(text: str) -> None:
    with contextlib.suppress(OSError):  # its terminal may be gone
        print(f"{NAME}: {text}", file=sys.stderr, flush=True)


def names_of(kernels: List[str]) -> str:
    names = sorted(set(kernels))
    return ", ".join(names[:MOST_ALIKE]) + (f" and {len(names) - MOST_ALIKE} more" if len(names) > MOST_ALIKE else "")


class Filter:
    """Says of findings that they are known, or suppressed."""

    def see(self, finding: Finding) -> None:
        raise NotImplementedError

    def lines(self, report: Report) -> Iterator[str]:
        raise NotImplementedError


class Report:
    """The launches of a run. The first of each outcome is shown at once."""

    def __init__(self, kept: Optional[str] = None, show: Callable[[str], None] = say):
        self.kept, self.show = kept, show
        self.launches: List[Launch] = []
        self.run_reasons: List[Reason] = []  # with the kernels of launches that were not judged
        self.unrecorded: List[Reason] = []  # launches that the driver ran, by their reason
        self.filters: List[Filter] = []     # of what is known or suppressed
        self.sources: Optional[Sources] = None
        self.seen: Dict[Tuple, int] = {}

    def add(self, launch: Launch) -> None:
        if self.sources:
            self.sources.name_files(launch)
        for finding in launch.findings:
            for it in self.filters:
                if finding.state == NEW:
                    it.see(finding)
        launch.decide()
        outcome = launch.outcome()
        self.launches.append(launch)
        self.seen[outcome] = self.seen.get(outcome, 0) + 1
        if self.seen[outcome] == 1:
            what = launch.findings[0].title if launch.findings else launch.reasons[0].text if launch.reasons else ""
            self.show(f"{self.name(launch)}: {HEADS[launch.verdict]}{': ' if what else ''}{what}")

    def sort(self) -> None:
        self.launches.sort(key=lambda launch: (launch.seed or 0, launch.number, launch.folder))

    @staticmethod
    def name(launch: Launch) -> str:
        return (f"launch {launch.number}, {launch.kernel}" + (f", with seed {launch.seed}" if launch.seed is not None else "")
                + (f", of {launch.label}" if launch.label and launch.findings else ""))

    def entries(self) -> Dict[str, Entry]:
        """The findings by their fingerprints, in the order in which they came."""
        found: Dict[str, Entry] = {}
        for launch in self.launches:
            for finding in launch.findings:
                entry = found.setdefault(finding.fingerprint(), Entry(finding, [], finding.state, finding.why, self.name(launch)))
                entry.launches.append(launch)
        return found

    def status(self) -> int:
        new = [finding for launch in self.launches for finding in launch.findings if finding.state == NEW]
        if any(not finding.is_doubtful for finding in new):
            return FOUND
        return INCOMPLETE if new or self.reasons() else 0

    def reasons(self) -> List[Reason]:
        """Why the run is no answer, where nothing is found: reasons of one text are one."""
        found: Dict[Tuple[str, str], Reason] = {}
        for launch in self.launches:
            own = list(launch.reasons)
            for finding in launch.findings:
                if finding.is_doubtful and finding.state == NEW:
                    own.append(Reason("doubtful", f"doubtful: {finding.title}{self.places_of(finding)}"))
            for reason in own:
                found.setdefault((reason.name, reason.text), Reason(reason.name, reason.text)).kernels.append(launch.kernel)
        none = [] if self.launches or self.unrecorded or self.not_judged() else [Reason("no-launch", NO_LAUNCH[NAME])]
        return [*self.run_reasons, *none, *self.unrecorded, *found.values()]

    def not_judged(self) -> int:
        """How many launches were made that are not among those of the report."""
        return sum(len(reason.kernels) for reason in [*self.run_reasons, *self.unrecorded])

    @staticmethod
    def places_of(finding: Finding) -> str:
        places = [access.place for access in finding.accesses if access.place]
        return f", at {' and '.join(dict.fromkeys(places))}" if places else ""

    def outcomes(self) -> List[Tuple[Launch, int]]:
        """The first launch of each outcome, and how many there are of it."""
        first: Dict[Tuple, Launch] = {}
        number: Dict[Tuple, int] = {}
        for launch in self.launches:
            outcome = launch.outcome()
            first.setdefault(outcome, launch)
            number[outcome] = number.get(outcome, 0) + 1
        return [(launch, number[outcome]) for outcome, launch in first.items()]

    def lines(self) -> Iterator[str]:
        named: Dict[str, str] = {}
        for launch, number in self.outcomes():
            yield from self.launch_lines(launch, number, named)
        yield from (f"{NAME}: {line}" for line in self.summary())

    def launch_lines(self, launch: Launch, number: int, named: Dict[str, str]) -> Iterator[str]:
        """What is said of the launches of an outcome. A finding of an earlier one is only named."""
        is_recorded = bool(launch.size)
        head = HEADS[launch.verdict] if is_recorded else launch.reasons[0].text
        size = f" ({launch.size}, {count(launch.records, 'record')})" if is_recorded else ""
        yield f"{self.name(launch)}: {head}{size}" + (f", and {count(number - 1, 'launch')} alike" if number > 1 else "")
        if launch.findings:
            yield f"    {launch.end}" + (f", in {launch.folder}" if self.kept else "")
        alike: Dict[Tuple[str, ...], int] = {}
        for finding in launch.findings[:MOST_SHOWN]:
            mistake = (finding.kind, finding.message, *finding.buffers())
            alike[mistake] = alike.get(mistake, 0) + 1
            state = "" if finding.state == NEW else f" ({finding.state}{': ' if finding.why else ''}{finding.why})"
            first = named.setdefault(finding.fingerprint(), self.name(launch))
            title, *lines = finding.lines()
            if finding.state != NEW:  # so that what is new is seen
                yield f"    {title}{state}{self.places_of(finding)}"
                continue
            if finding.kind == "race" and alike[mistake] > MOST_ALIKE:  # as where items of a group are taken to run in step
                yield f"    {finding.title}{self.places_of(finding)}: likewise"
                continue
            yield f"    {title}" + (f": as in {first}" if first != self.name(launch) else ":" if lines else "")
            yield from (f"    {line}" for line in (lines if first == self.name(launch) else []))
        if len(launch.findings) > MOST_SHOWN:
            yield f"    and {len(launch.findings) - MOST_SHOWN} more findings"
        yield from (f"    note: {text}" for text in [*(reason.text for reason in launch.reasons if is_recorded), *launch.notes])

    def summary(self) -> Iterator[str]:
        """The status and its reasons first."""
        status, reasons = self.status(), self.reasons()
        new = [entry for entry in self.entries().values() if entry.state == NEW and not entry.finding.is_doubtful]
        is_known = any(finding.state != NEW for launch in self.launches for finding in launch.findings)
        verdicts, more = [launch.verdict for launch in self.launches], self.not_judged()
        none = "nothing new found" if is_known else "nothing found"
        none += " for certain" if "doubtful" in verdicts else ""
        said = {0: none, FOUND: count(len(new), "finding"), INCOMPLETE: f"{none}, which is no answer"}[status]
        yield f"{said}{':' if status == INCOMPLETE else '; but besides:' if reasons else ''}"
        shown: Dict[str, int] = {}
        for reason in reasons:
            shown[reason.name] = shown.get(reason.name, 0) + 1
            if shown[reason.name] <= MOST_ALIKE:
                where = f" ({count(len(reason.kernels), 'launch')} of {names_of(reason.kernels)})" if reason.kernels else ""
                yield f"    {reason.text}{where}"
        for name, number in shown.items():
            if number > MOST_ALIKE:
                yield f"    and {number - MOST_ALIKE} more ({name})"
        for it in self.filters:
            yield from it.lines(self)
        others = "".join(f"{verdicts.count(it)} with {it} ones, " for it in ("doubtful", "known") if it in verdicts)
        yield (f"{count(len(verdicts) + more, 'launch')}: {verdicts.count('found')} with findings, {others}{verdicts.count('nothing')} without, "
               f"{verdicts.count('incomplete') + more} not judged whole"
               + (f"; they are in {self.kept}" if self.kept else "; --keep DIR keeps them"))


def unrecorded(folder: str) -> List[Reason]:
    """The launches that the driver ran, by their reason."""
    kernels: Dict[str, List[str]] = {}
    path = os.path.join(folder, "not-recorded.txt")
    with open(path if os.path.exists(path) else os.devnull, errors="replace") as lines:
        for line in lines:
            words = line.rstrip("\n").split("\t", 2)
            if len(words) == 3:  # or the disk had no room for it
                kernels.setdefault(words[2], []).append(words[1])
    return [Reason("not-recorded", f"not recorded: {reason}", names) for reason, names in kernels.items()]
