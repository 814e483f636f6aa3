"""One recorded launch: what its folder says, and what gpurace finds in it."""
from __future__ import annotations

import dataclasses
import os
import re
import subprocess
import traceback
from typing import Dict, Iterator, List, Optional, Tuple

from .finding import KINDS, NEW, Finding
from .findings import Reader, out_of_bounds
from .folders import Info, end_files, info_of, kept_of, may_acquire, streams_of, windows_of
from .pipes import Piped
from .sides import CALLED, PLACE, Texts

FOUND, INCOMPLETE = 1, 2
MOST_PLACES = 3  # of one kind that are shown
FENCES = ("fence", "fences-not-recorded")  # lines of info.txt
FENCE = "a fence alone orders nothing between work-items"
OF_GROUP = "mem_fence orders nothing between two work-groups"
NOT_JUDGED = ("a fence may order the two, which is not judged; in its place let the atomic after the one access have memory_order_release, and that "
              "before the other one memory_order_acquire (OpenCL C 2.0)")
OF_OPENCL1 = re.compile(r"(?:read_|write_)?mem_fence\b")
NOT_ALL_KEPT = "only its first records are shown, but all are counted, since it has more than are kept; --keep DIR shows all"


def count(number: int, what: str) -> str:
    ending = "" if number == 1 else "es" if what.endswith("ch") else "s"
    return f"{number} {what}{ending}"


@dataclasses.dataclass
class Reason:
    """Why a launch, or a run, of which nothing is found is no answer."""
    name: str
    text: str
    kernels: List[str] = dataclasses.field(default_factory=list)  # of a run, those it is about


@dataclasses.dataclass
class Launch:
    """A launch that was judged."""
    number: int
    kernel: str
    folder: str
    label: str = ""           # of the test that made it
    seed: Optional[int] = None
    size: str = ""
    records: int = 0
    verdict: str = "nothing"  # found, doubtful, incomplete, known or nothing
    end: str = ""             # the report's last line
    findings: List[Finding] = dataclasses.field(default_factory=list)
    reasons: List[Reason] = dataclasses.field(default_factory=list)
    notes: List[str] = dataclasses.field(default_factory=list)
    texts: Dict[str, List[str]] = dataclasses.field(default_factory=dict)  # the files of its findings

    def outcome(self) -> Tuple:
        """What launches have in common that are shown as one."""
        return (self.kernel, self.label if self.findings else "", self.verdict, tuple(sorted({it.fingerprint() for it in self.findings})),
                tuple(sorted({reason.text for reason in self.reasons})))

    def decide(self) -> None:
        new = [it for it in self.findings if it.state == NEW]
        is_found = any(not it.is_doubtful for it in new)
        self.verdict = ("found" if is_found else "doubtful" if new else "incomplete" if self.reasons
                        else "known" if self.findings else "nothing")


def replay(program: str, streams: List[str]) -> Tuple[int, List[str], str]:
    """The status of gpurace's report on these files, its lines, and what is wrong."""
    ran = subprocess.run([program, "replay", *streams], stdin=subprocess.DEVNULL, capture_output=True, start_new_session=True)
    return ran.returncode, ran.stdout.decode().splitlines(), ran.stderr.decode(errors="replace").strip().replace("\ngpurace: ", "; ")


def judged(program: str, folder: str, piped: Optional[Piped] = None) -> Launch:
    """The launch in the folder, also where it could not be judged."""
    try:
        return judged_by(program, folder, piped)
    except Exception as fault:
        traceback.print_exc()
        number, _, kernel = os.path.basename(os.path.abspath(folder)).partition("-")
        launch = Launch(int(number) if number.isdigit() else 0, kernel, folder)
        launch.reasons.append(Reason("fault", f"not judged: {fault}"))
        return launch


def judged_by(program: str, folder: str, piped: Optional[Piped]) -> Launch:
    """One that was judged while it was recorded is shown by what is in files."""
    info = info_of(folder)
    if info["cut"] and info["groups"] and not piped:  # some groups may never have begun
        end_files(folder, info)
    kernel = info["kernel"][0] if info["kernel"] else ""
    launch = Launch(int(info["launch"][0]) if info["launch"] else 0, kernel or os.path.basename(os.path.abspath(folder)), folder,
                    label=(info["label"] or [""])[0])
    is_begun = os.path.exists(os.path.join(folder, "begun.txt")) or not streams_of(folder)
    if info["not-recorded"] or (not kernel and is_begun):
        launch.reasons.append(Reason("not-recorded", "not recorded: " + (info["not-recorded"] or ["the folder is not whole"])[0]))
    else:
        judge(program, launch, info, piped)
    return launch


def report_of(program: str, launch: Launch, info: Info, piped: Optional[Piped]) -> Tuple[int, List[str], str]:
    """The status and the lines of gpurace's report, and what is wrong. Of a launch that pipes have judged, what is in files is shown."""
    by_pipes, of_pipes = piped.finish(info) if piped else (None, [])
    if by_pipes == 0:
        return 0, of_pipes, ""
    status, report, fault = replay(program, streams_of(launch.folder))
    if by_pipes == FOUND and status in (0, FOUND):
        launch.notes.append(NOT_ALL_KEPT)
        launch.end = of_pipes[-1][4:]
        known = set(of_pipes)  # the streams in files end as cut, and items that are not there never came
        report = [line for line in report if line in known or not line.startswith(("cut", "diverge", "unmatched"))]
        return FOUND, report if status == FOUND else of_pipes, ""
    if by_pipes is not None:  # not all has come
        info["cut"].append("")
    if by_pipes not in (None, FOUND, INCOMPLETE):
        how = f"by signal {-by_pipes}" if by_pipes < 0 else f"with status {by_pipes}"
        launch.reasons.append(Reason("fault", f"what judged it while it was recorded was ended {how}, as where memory runs out: only its first records "
                                              "are shown; --groups records less of it"))
    return status, report, fault


def judge(program: str, launch: Launch, info: Info, piped: Optional[Piped]) -> None:
    status, report, fault = report_of(program, launch, info, piped)
    if status not in (0, FOUND):
        launch.reasons.append(Reason("refused", f"the trace was refused: {fault}"))
        return
    launch.end = launch.end or report[-1][4:]
    launch.size, launch.records = size_of(info, report)
    found = Reader(program, launch.folder, info, report).findings() if status == FOUND else []
    if status == FOUND and not found:  # no record of it is in files
        found = [Finding("race", launch.kernel, first_of(report[2:-1]))]
    look_at_fences(launch, info, found)
    launch.reasons += reasons_of(info, report)
    launch.notes += notes_of(info)
    is_doubtful = any(reason.name in ("hand-overs", "orders") for reason in launch.reasons)
    for finding in found:
        finding.is_doubtful = finding.is_doubtful or (finding.kind == "race" and is_doubtful)
    launch.findings = sorted([*found, *out_of_bounds(info, launch.folder)], key=lambda it: list(KINDS).index(it.kind))
    launch.texts = texts_of(launch)


def look_at_fences(launch: Launch, info: Info, found: List[Finding]) -> None:
    """Which of the findings fences make doubtful: the order that they give is not in the trace. It may only take races away, so that a launch without
    any is judged. Without atomics fences order nothing, and those of OpenCL 1.x order no two work-groups."""
    fences, races = counted(info, *FENCES), [it for it in found if it.kind == "race"]
    if not fences:
        return
    are_alone = info["atomics"] == ["no"] and not info["note"]
    are_of_group = not are_alone and are_of_opencl1(launch.folder, fences)
    why = FENCE if are_alone else OF_GROUP
    for race in races:
        race.is_doubtful = race.is_doubtful or not (are_alone or (are_of_group and race.cause == "no-hand-over"))
        race.message += f"; {NOT_JUDGED if race.is_doubtful else why}" if race.cause in ("no-barrier", "no-hand-over") else ""
    if any(it.is_doubtful for it in races):
        return
    why = f"no work-item does an atomic access, and {FENCE}" if are_alone else why if races else "what they order is not seen, and does not race without it"
    launch.notes.append(f"fences: {at_places(fences)}: {why}")
    for key in FENCES:
        info[key] = []


def are_of_opencl1(folder: str, fences: List[str]) -> bool:
    """Whether each of the places is one of mem_fence or its like in the text, and no atomic acquires, so that no order leads to another work-group."""
    texts = Texts(folder)
    places = [PLACE.fullmatch(line.partition(" ")[2].split(CALLED)[0]) for line in fences]
    lines = ["".join(texts.text(at[1])[int(at[2]) - 1:int(at[2])])[int(at[3]) - 1:] if at else "" for at in places]
    return all(map(OF_OPENCL1.match, lines)) and not may_acquire(folder)


def first_of(lines: List[str]) -> str:
    """The first lines of a report, and how many more there are."""
    more = len(lines) - MOST_PLACES
    return "; ".join(lines[:MOST_PLACES]) + (f" and {more} more" if more > 0 else "")


def size_of(info: Info, report: List[str]) -> Tuple[str, int]:
    """The sizes of a launch as text, and its records; by the report, where no info.txt has them."""
    words = report[1].split()
    if not info["local"]:
        return f"{count(int(words[1]), 'group')}, {words[3]} work-items", int(words[5])
    x, y, z = map(int, info["local"][0].split())
    return f"{count(kept_of(info), 'group')} of {count(x * y * z, 'work-item')}", int(info["records"][0])


def texts_of(launch: Launch) -> Dict[str, List[str]]:
    """The files that the findings' places are of."""
    texts = Texts(launch.folder)
    places = (access.place for it in launch.findings for access in it.accesses)
    files = {at[1] for at in map(PLACE.fullmatch, places) if at}
    return {file: texts.text(file) for file in sorted(files) if texts.text(file)}


def at_places(lines: List[str]) -> str:
    """`N, at PLACE, PLACE, ..` of lines `COUNT PLACE`."""
    pairs = [line.partition(" ")[::2] for line in lines]
    where = ", ".join(place for _, place in pairs[:MOST_PLACES] if place) + (", .." if len(pairs) > MOST_PLACES else "")
    return f"{sum(int(number) for number, _ in pairs)}" + (f", at {where}" if where else "")


def counted(info: Info, *keys: str) -> List[str]:
    """The lines `COUNT PLACE`, or `COUNT`, of these keys that count something."""
    return [line for key in keys for line in info[key] if line.split(" ")[0] != "0"]


def reasons_of(info: Info, report: List[str]) -> Iterator[Reason]:
    """What keeps a launch in which nothing is found from having been judged whole."""
    cut = [line.split()[1] for line in report if line.startswith("cut ")] or info["cut"]
    if cut:
        groups, most = report[1].split()[1], info["most-records"]
        why = f"--most-records {most[0]} allows no more" if most else "a group did more than a trace has room for, or was stopped"
        yield Reason("cut", f"records of {len(cut)} of {groups} groups were lost (the first is group {cut[0] or 0}): "
                     + ("the program ended while its kernel ran" if info["died"] else why))
    if info["window"]:
        groups = ", ".join(f"{first} to {first + number - 1}" for first, number in windows_of(info))
        yield Reason("window", f"only groups {groups} of {info['groups'][0]} were recorded")
    for name, keys, text in (("fences", FENCES, "fences, which are not recorded: the order that they give is not seen"),
                             ("images", ("image",), "accesses of images, which are not judged"),
                             ("orders", ("orders-not-known",), "atomics whose order is not known, taken as relaxed"),
                             ("scopes", ("narrow-scope",), "atomics of work-item or sub-group scope, taken as of work-group scope: a race in a group "
                              "may be missed"),
                             ("hand-overs", ("names-outside-window",), "hand-overs from groups outside the window, not recorded")):
        lines = counted(info, *keys)
        if lines:
            yield Reason(name, f"{text}: {at_places(lines)}")
    for text in info["note"]:
        yield Reason("operations", f"not recorded: {text}")


def notes_of(info: Info) -> Iterator[str]:
    """What a reader of the findings has to know besides."""
    if info["window"]:
        numbers, first = [], 0
        for _, number in windows_of(info):
            numbers.append(f"{first} to {first + number - 1}")
            first += number
        yield f"in the trace these groups are {', '.join(numbers)}"
