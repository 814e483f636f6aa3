"""Writes what a run has found: files whole or not at all, and into pipes and devices as they are."""
from __future__ import annotations

import contextlib
import os
from typing import Callable, List, Optional, Tuple

from .judging import Reason
from .report import Report, say

STANDARD_OUTPUT = "/dev/stdout"
MOST_LINKS = 40  # from one to the next, as Linux has it


def open_file(path: str) -> Optional[int]:
    """The number of the open file that a path names, as /dev/stdout and /dev/fd/3 do."""
    for _ in range(MOST_LINKS):
        folder, name = os.path.split(path)
        if os.path.realpath(folder) == f"/proc/{os.getpid()}/fd" and name.isdigit():
            return int(name)
        if not os.path.islink(path):
            break
        path = os.path.join(folder, os.readlink(path))
    return None


def name_of(path: str) -> str:
    """One for all paths of a file."""
    number = open_file(path)
    return os.path.realpath(path) if number is None else f"/dev/fd/{number}"


def is_stream(path: str) -> bool:
    """Whether it is written into as it is, and can't be written again."""
    return open_file(path) is not None or (os.path.exists(path) and not os.path.isfile(path))


def can_be_written(path: str) -> bool:
    if is_stream(path):
        return not os.path.isdir(path) and os.access(path, os.W_OK)
    return os.access(os.path.dirname(os.path.realpath(path)), os.W_OK)


def write(path: str, text: str) -> None:
    """Writes a regular file, or a new one, whole or not at all; into a link's target, and into what is there otherwise."""
    content = text.encode("utf-8", "surrogateescape")
    try:
        if is_stream(path):
            number = open_file(path)
            with open(os.open(path, os.O_WRONLY) if number is None else os.dup(number), "wb") as out:
                out.write(content)
        else:
            replace(os.path.realpath(path), content)
    except OSError as error:
        raise OSError(error.errno, error.strerror, path) from None


def replace(path: str, content: bytes) -> None:
    part = f"{path}.part"
    try:
        with open(part, "wb") as out:
            out.write(content)
        os.replace(part, path)
    except OSError:
        with contextlib.suppress(OSError):
            os.remove(part)
        raise


def write_all(outputs: List[Tuple[str, Callable[[], str]]], report: Report) -> None:
    """Writes each file, and then into each stream. What can't be written is a reason of the report: the files are written again, with it."""
    left, at = sorted(outputs, key=lambda it: is_stream(it[0])), 0
    while at < len(left):
        path, text = left[at]
        try:
            write(path, text())
            at += 1
        except OSError as error:
            left = [it for it in left[:at] if not is_stream(it[0])] + left[at + 1:]
            if path == STANDARD_OUTPUT and isinstance(error, BrokenPipeError):  # who reads has had enough
                continue
            at = 0
            say(f"{path}: {error.strerror}")
            report.run_reasons.append(Reason("fault", f"{path} could not be written: {error.strerror}"))
