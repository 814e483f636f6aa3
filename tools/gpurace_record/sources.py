"""The files of a source tree that the texts of kernels are of: what is said of a launch then names these."""
from __future__ import annotations

import collections
import os
import re
from typing import Dict, List, NamedTuple, Optional, Tuple

from .judging import Launch
from .sides import PLACE, Texts, lines_of

ENDINGS = (".cl", ".clh", ".ocl", ".h", ".hh", ".hpp", ".inc", ".in", ".c", ".cc", ".cpp", ".cxx", ".py")
MOST_BYTES = 1 << 20  # of a file that is looked at
LEAST_LENGTH, MOST_TIMES = 4, 8  # of a line that says what text it is of: its length, and how often it is there
SAID = re.compile(r"(?<![\w./-])([\w.-]+):(\d+)(?=:\d)")


class Alike(NamedTuple):
    """A file that has a text, or a part of it, so many lines further down."""
    lines: int
    file: str
    shift: int


class Sources:
    def __init__(self, folder: str):
        self.folder = folder
        self.files: Optional[Dict[str, List[str]]] = None  # read when the first launch wants them
        self.found: Dict[Tuple[str, ...], List[Alike]] = {}

    def name_files(self, launch: Launch) -> None:
        """Names the files in all that is said of a launch whose folder is still there."""
        texts = Texts(launch.folder)

        def renamed(text: str) -> str:
            return SAID.sub(lambda at: self.place(launch.folder, texts, at), text)

        for finding in launch.findings:
            finding.title, finding.message = renamed(finding.title), renamed(finding.message)
            for access in finding.accesses:
                for it in (access, *access.calls, *access.marks):
                    it.place = renamed(it.place)
        for reason in launch.reasons:
            reason.text = renamed(reason.text)
        named = {at[1] for it in launch.findings for access in it.accesses for at in [PLACE.fullmatch(access.place)] if at}
        launch.texts = {file: (self.files or {}).get(file) or texts.text(file) for file in sorted(named)}

    def place(self, folder: str, texts: Texts, at: re.Match) -> str:
        file, number = at[1], int(at[2])
        lines = texts.text(file) if os.path.isfile(os.path.join(folder, file)) else []
        if not 0 < number <= len(lines):
            return at[0]
        for it in self.alike(lines):
            there, own = (self.files or {})[it.file], number - 1 + it.shift
            if 0 <= own < len(there) and there[own].strip() == lines[number - 1].strip():
                return f"{it.file}:{own + 1}"
        return at[0]

    def alike(self, lines: List[str]) -> List[Alike]:
        """The files that have half of a text at one distance, or half of which the text has; the likest first."""
        text = tuple(lines)
        if text not in self.found:
            self.files = self.read() if self.files is None else self.files
            numbers = numbers_of(lines)
            those = [alike_of(numbers, file, there) for file, there in self.files.items()]
            self.found[text] = sorted((it for it in those if it), key=lambda it: (-it.lines, len(it.file), it.file))
        return self.found[text]

    def read(self) -> Dict[str, List[str]]:
        files = {}
        for path, folders, names in os.walk(self.folder):
            folders[:] = [name for name in folders if not name.startswith(".")]
            for name in names:
                file = os.path.normpath(os.path.join(path, name))
                file = file if "/" in file else f"./{file}"
                if name.endswith(ENDINGS) and os.path.isfile(file) and os.path.getsize(file) <= MOST_BYTES:
                    files[file] = list(lines_of(path, name))
        return files


def numbers_of(lines: List[str]) -> Dict[str, List[int]]:
    """Where the lines are that say what text they are of."""
    numbers: Dict[str, List[int]] = collections.defaultdict(list)
    for number, line in enumerate(lines):
        if len(line.strip()) >= LEAST_LENGTH:
            numbers[line.strip()].append(number)
    return {line: those for line, those in numbers.items() if len(those) <= MOST_TIMES}


def alike_of(numbers: Dict[str, List[int]], file: str, there: List[str]) -> Optional[Alike]:
    own = numbers_of(there)
    shifts = collections.Counter(at - number for line, those in numbers.items() for number in those for at in own.get(line, ()))
    (shift, count), = shifts.most_common(1) or [(0, 0)]
    least = min(sum(map(len, numbers.values())), sum(map(len, own.values())))
    return Alike(count, file, shift) if 0 < least <= 2 * count else None
