"""The files of a recorded launch: what info.txt says, and its streams, also how those are ended whose program died."""
from __future__ import annotations

import collections
import glob
import mmap
import os
import shutil
import struct
from typing import Dict, Iterator, List, NamedTuple, Optional, Tuple, cast

JOINED = "groups.gpurace"  # of a launch of many groups, with their streams in the order in which they ended
END = 6
MOST_GROUPS = 64  # that have a file each
HEADER = struct.Struct("<4sHHI")
SHORT, LONG = struct.Struct("<BBBBHHI8x"), struct.Struct("<BBBBHHI32x")  # names are passed over
RECORD_FORMS = {b"GRT1": SHORT, b"GRT2": LONG, b"GRT3": SHORT, b"GRT4": LONG}
Info = Dict[str, List[str]]  # the lines of info.txt by their first words


class Stream(NamedTuple):
    """A stream in the bytes of a file; the end is None where it has none."""
    group: int
    start: int
    end: Optional[int]
    records: int
    is_cut: bool = False


def info_of(folder: str, name: str = "info.txt") -> Info:
    """The lines of the file by their first words; a folder without info.txt is not whole."""
    path = os.path.join(folder, name)
    info = collections.defaultdict(list)
    with open(path, errors="replace") if os.path.exists(path) else open(os.devnull) as lines:
        for line in lines:
            key, _, value = line.rstrip("\n").partition(" ")
            info[key].append(value)
    return info


def windows_of(info: Info) -> List[Tuple[int, int]]:
    """The first group and the number of groups of each part of the launch that was recorded."""
    pairs = (line.split() for line in info["window"] or ["0 " + info["groups"][0]])
    return [(int(first), int(number)) for first, number in pairs]


def kept_of(info: Info) -> int:
    """How many groups the trace has."""
    return sum(number for _, number in windows_of(info))


def streams_of(folder: str) -> List[str]:
    """The files of a launch's streams, in order."""
    return sorted(glob.glob(os.path.join(glob.escape(folder), "*.gpurace")))


def may_acquire(folder: str) -> bool:
    """Whether the launch's streams are of a version that the native recorder takes where an atomic may acquire."""
    return any(RECORD_FORMS.get(mapped(path)[:4]) is LONG for path in streams_of(folder))


def mapped(path: str) -> bytes:
    """The bytes of a file, which come into memory when they are looked at."""
    with open(path, "rb") as given:
        return cast(bytes, mmap.mmap(given.fileno(), 0, access=mmap.ACCESS_READ)) if os.path.getsize(path) else b""


def streams_in(data: bytes) -> Iterator[Stream]:
    """The streams that come one after another in the bytes of a file. After one without an end there is none."""
    at = 0
    while data[at:at + 4] in RECORD_FORMS and at + HEADER.size <= len(data):
        form, group, _, _ = HEADER.unpack_from(data, at)
        start, size = at + HEADER.size, RECORD_FORMS[form].size
        records = records_of(data, start, size)
        end = start + records * size
        if end > len(data) or records == 0 or data[end - size] != END:
            yield Stream(group, at, None, (len(data) - start) // size)
            return
        yield Stream(group, at, end, records, is_cut=data[end - size + 1] == 1)
        at = end


def records_of(data: bytes, start: int, size: int) -> int:
    """How many records begin there, up to an end or that of the bytes."""
    records, step = 0, 256
    while start + records * size < len(data):
        kinds = data[start + records * size:start + (records + step) * size:size]
        found = kinds.find(END)
        if found >= 0:
            return records + found + 1
        records, step = records + len(kinds), min(2 * step, 1 << 20)
    return records


def end_streams(folder: str) -> str:
    """Makes a launch whole whose program died: its streams end as cut after their last whole record. Answers what kept it from that."""
    begun = info_of(folder, "begun.txt")
    if not begun["kernel"]:
        return ""
    try:
        kept, items, records = end_files(folder, begun)
        with open(os.path.join(folder, "begun.txt")) as text:
            lines = text.read()
        cut = "".join(f"cut {group}\n" for group in range(kept))
        with open(os.path.join(folder, "info.txt"), "w") as out:
            out.write(lines + f"items {kept * items}\nrecords {records}\ndied 1\n" + cut)
        os.remove(os.path.join(folder, "begun.txt"))
    except OSError as error:
        return f"{folder} could not be written: {error.strerror}"
    return ""


def end_files(folder: str, info: Info) -> Tuple[int, int, int]:
    """Ends the streams that have no end; answers how many groups and items of each there are, and how many records."""
    kept, (x, y, z) = kept_of(info), map(int, info["local"][0].split())
    items, launch = x * y * z + (1 if info["copying-item"] else 0), int(info["launch"][0])
    heads = [HEADER.pack(b"GRT3", group, items, launch) for group in range(kept)]
    if kept > MOST_GROUPS:
        return kept, items, end_joined(folder, heads)
    return kept, items, sum(end_stream(os.path.join(folder, f"group{at:02}.gpurace"), head) for at, head in enumerate(heads))


def end_joined(folder: str, heads: List[bytes]) -> int:
    """As `end_stream`, of the file of all. A stream that was not joined has a part of it in a file, or nothing."""
    path, came, end, records = os.path.join(folder, JOINED), set(), 0, 0
    data = mapped(path) if os.path.exists(path) else b""
    for stream in streams_in(data):
        if stream.end is None:  # it was being joined
            with open(part_of(folder, stream.group), "ab") as out:
                out.write(b"" if out.tell() else data[stream.start:])
            break
        came.add(stream.group)
        end, records = stream.end, records + stream.records
    with open(path, "ab") as joined:
        joined.truncate(end)
        for group in set(range(len(heads))) - came:
            part = part_of(folder, group)
            if not os.path.exists(part):
                joined.write(heads[group] + cut_end(heads[group]))
                records += 1
                continue
            records += end_stream(part, heads[group])
            with open(part, "rb") as given:
                shutil.copyfileobj(given, joined)
            os.remove(part)
    return records


def part_of(folder: str, group: int) -> str:
    return os.path.join(folder, f"group{group:02}.part")


def end_stream(path: str, begun: bytes) -> int:
    """Ends a stream that has no end, and answers how many records it has. One without a header has not more than this."""
    with open(path, "r+b" if os.path.exists(path) else "w+b") as stream:
        head = stream.read(HEADER.size)
        if len(head) < HEADER.size or head[:4] not in RECORD_FORMS:
            head = begun
            stream.truncate(0)
            stream.seek(0)
            stream.write(head)
        size = RECORD_FORMS[head[:4]].size
        records = (stream.seek(0, os.SEEK_END) - HEADER.size) // size
        if records:
            stream.seek(HEADER.size + (records - 1) * size)
            if stream.read(1) == b"\6":
                return records
        stream.truncate(HEADER.size + records * size)
        stream.seek(0, os.SEEK_END)
        stream.write(cut_end(head))
        return records + 1


def cut_end(head: bytes) -> bytes:
    """The end of a stream of which records were lost."""
    return bytes([END, 1]) + bytes(10) + b"\xff" * (RECORD_FORMS[head[:4]].size - 12)
