"""Words of a buffer as elements of its type: `l_data[1].x`, if a line `element NAME TYPE` of info.txt says it (tools/recorder/types.h)."""
from __future__ import annotations

import json
import re
from typing import Any, Dict, Iterable, NamedTuple, Optional, Tuple

BYTES = {"char": 1, "uchar": 1, "short": 2, "ushort": 2, "half": 2, "int": 4, "uint": 4, "float": 4, "long": 8, "ulong": 8, "double": 8}
GRAINS = {"byte": 1, "half": 2}
NUMBERS = re.compile(r"([a-z]+)(\d*)")
Type = Any  # as JSON has it


class Element(NamedTuple):
    name: str   # of the buffer, without its grain
    type: Type
    grain: int  # the bytes of a word

    def kind_of(self, word: int) -> str:
        """The kind of number that a word has; empty where it has none."""
        return step(self.type, word * self.grain % bytes_of(self.type))[1]

    def span(self, first: int, last: int) -> str:
        """The name of these words."""
        return self.name + span_of_elements(self.type, first * self.grain, (last + 1) * self.grain - 1)


class Elements:
    def __init__(self, lines: Iterable[str]):
        """By lines `NAME TYPE`."""
        self.types: Dict[str, Type] = {name: json.loads(type) for name, _, type in (line.partition(" ") for line in lines)}

    def of(self, buffer: str) -> Optional[Element]:
        """The element of a buffer; None where its type is not known."""
        name, _, grain = buffer.rpartition(".")
        name, grain = (name, grain) if grain in GRAINS and name else (buffer, "")
        types = [self.types.get(it, 0) for it in name.split("=")]  # of the arguments that it is
        is_known = bytes_of(types[0]) != 0 and all(it == types[0] for it in types)
        return Element(name, types[0], GRAINS.get(grain, 4)) if is_known else None


def numbers_of(type: str) -> Tuple[str, int]:
    """The kind of the numbers of a vector, and how many there are; 1 of a number."""
    kind, count = NUMBERS.fullmatch(type).groups()  # type: ignore[union-attr]
    return kind, int(count or 1)


def bytes_of(type: Type) -> int:
    if isinstance(type, str):
        kind, count = numbers_of(type)
        return BYTES[kind] * (4 if count == 3 else count)
    if isinstance(type, list):
        return type[0] * bytes_of(type[1])
    return type["bytes"] if isinstance(type, dict) else type


def component(number: int, components: int) -> str:
    return "xyzw"[number] if components <= 4 else f"s{number:x}"


def member_at(type: Type, byte: int) -> Tuple[int, str, Type]:
    """The member of a struct that has a byte, or, of what is between two, the one before it."""
    return [it for it in type["members"] if it[0] <= byte][-1]


def step(type: Type, byte: int) -> Tuple[str, str]:
    """The name of the number that has a byte of a value, and its kind."""
    if isinstance(type, list):
        at, inner = divmod(byte, bytes_of(type[1]))
        name, kind = step(type[1], inner)
        return f"[{at}]{name}", kind
    if isinstance(type, dict):
        start, member, inner = member_at(type, byte)
        name, kind = step(inner, min(byte - start, bytes_of(inner) - 1))
        return f".{member}{name}", kind
    if not isinstance(type, str):
        return "", ""
    kind, count = numbers_of(type)
    return "" if count == 1 else f".{component(min(byte // BYTES[kind], count - 1), count)}", kind


def is_whole(type: Type, first: int, last: int) -> bool:
    """Whether these bytes have the first number of a value and the last one, or are none of its numbers."""
    is_filling = isinstance(type, str) and numbers_of(type)[1] == 3 and first >= bytes_of(type) * 3 // 4
    return is_filling or (step(type, first) == step(type, 0) and step(type, last) == step(type, bytes_of(type) - 1))


def span_of(type: Type, first: int, last: int) -> str:
    """What of a value these bytes are."""
    if isinstance(type, list):
        return span_of_elements(type[1], first, last)
    if is_whole(type, first, last):
        return ""
    if isinstance(type, dict):
        (start, name, inner), (other, _, _) = member_at(type, first), member_at(type, last)
        if start == other:
            return f".{name}{span_of(inner, first - start, min(last - start, bytes_of(inner) - 1))}"
        return f"{step(type, first)[0]}..{step(type, last)[0][1:]}"
    low, high = step(type, first)[0][1:], step(type, last)[0][1:]
    between = f"{low}..{high}" if numbers_of(type)[1] > 4 else "xyzw"["xyzw".index(low):"xyzw".index(high) + 1]
    return "." + (low if low == high else between)


def rows_of(type: Type) -> Tuple[Tuple[int, ...], Type]:
    """The sizes of arrays in arrays, the outermost first, and what is in them."""
    if not isinstance(type, list):
        return (), type
    rows, inner = rows_of(type[1])
    return (type[0], *rows), inner


def index(rows: Tuple[int, ...], number: int) -> str:
    """The indices of an element, each in brackets."""
    text = ""
    for size in reversed(rows):
        number, at = divmod(number, size)
        text = f"[{at}]{text}"
    return f"[{number}]{text}"


def span_of_elements(type: Type, first: int, last: int) -> str:
    """These bytes of values of a type, one after another: of one row `[1][2..5]`, else `[1][2]..[3][0]`."""
    rows, inner = rows_of(type)
    size = bytes_of(inner)
    low, high = index(rows, first // size), index(rows, last // size)
    if low == high:
        return low + span_of(inner, first % size, last % size)
    if not (is_whole(inner, first % size, size - 1) and is_whole(inner, 0, last % size)):
        return f"{low}{step(inner, first % size)[0]}..{high}{step(inner, last % size)[0]}"
    row = low.rindex("[") + 1
    return f"{low[:-1]}..{high[row:]}" if low[:row] == high[:row] else f"{low}..{high}"
