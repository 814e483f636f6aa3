"""Traces whose items do one thing again and again.

A shape is `barriers` (items write and read words between barriers), `atomics` (atomic adds on 64 words, and plain reads of
words that nobody writes), `messages` (each item hands a word to the next by a release and an acquire with a name), or one
word for all: `writers` (plain writes, a race but for one item), `readers` (plain reads) or `adders` (device atomics).
Items are in work-groups of at most 256. The number of records is that of all streams, ends included, and is met nearly.
"""
import struct

READ, WRITE, LOAD, STORE, RMW, BARRIER, END = range(7)
GLOBAL = 0
GROUP_SCOPE, DEVICE = 1, 2
RELAXED, ACQUIRE, RELEASE, BOTH = 1, 2, 3, 4
NO_NAME = b"\xff" * 8


def record(kind, one, scope, order, item, word, name=NO_NAME):
    return struct.pack("<BBBBHHI", kind, one, scope, order, item, 0, word) + name


def groups_of(items):
    return [min(256, items - first) for first in range(0, items, 256)]


def barriers(group, size, count):
    base = group * 1_000_000
    rounds = max(1, count // (3 * size))
    for turn in range(rounds):
        for item in range(size):
            yield record(WRITE, GLOBAL, 0, 0, item, base + item)
        for item in range(size):
            yield record(BARRIER, 1, 0, 0, item, 2 * turn)
        for item in range(size):
            yield record(READ, GLOBAL, 0, 0, item, base + (item + 1) % size)
        for item in range(size):
            yield record(BARRIER, 1, 0, 0, item, 2 * turn + 1)


def atomics(group, size, count):
    for turn in range(count):
        item = turn % size
        if turn % 4:
            yield record(READ, GLOBAL, 0, 0, item, 1_000_000 + turn % 4096)
        else:
            yield record(RMW, GLOBAL, DEVICE, RELAXED, item, turn % 64)


def messages(group, size, count):
    base = group * 1_000_000
    for turn in range(max(1, count // 4)):
        item, after = turn % size, (turn + 1) % size
        number = turn // size
        word, flag = base + 2 * (turn % size), base + 2 * (turn % size) + 1
        yield record(WRITE, GLOBAL, 0, 0, item, word)
        yield record(STORE, GLOBAL, DEVICE, RELEASE, item, flag)
        yield record(LOAD, GLOBAL, DEVICE, ACQUIRE, after, flag, struct.pack("<HHI", group, item, number))
        yield record(READ, GLOBAL, 0, 0, after, word)


def one_word(kind, scope, order):
    def accesses(group, size, count):
        for turn in range(count):
            yield record(kind, GLOBAL, scope, order, turn % size, 0)
    return accesses


SHAPES = {
    "barriers": barriers, "atomics": atomics, "messages": messages,
    "writers": one_word(WRITE, 0, 0), "readers": one_word(READ, 0, 0), "adders": one_word(RMW, DEVICE, RELAXED),
}


def write(out, shape, records, items):
    """Writes the streams into a file."""
    sizes = groups_of(items)
    for group, size in enumerate(sizes):
        out.write(b"GRT1" + struct.pack("<HHI", group, size, 7))
        out.writelines(SHAPES[shape](group, size, records // len(sizes)))
        out.write(record(END, 0, 0, 0, 0, 0))
