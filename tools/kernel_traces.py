#!/usr/bin/env python3
"""Large traces for performance runs, one file per group (g00, g01, ..) in DIR, of version 1, or 3
where the launch is too large for it; of more than 64 groups DIR/joined alone. It prints how many racy words their report must have.

kernel_traces.py KERNEL DIR [--groups N] [--items N] [--iterations N] [--records N] [--variant V] [--joined]

  matmul     local tiles, barriers with the local flag, shared global reads, own writes: no race
  histogram  device atomics on shared bins: no race; variant grp: group scope, bins of two groups race
  reduction  a tree in local memory with barriers: no race; variant missing: the first barrier is
             left out, the upper half of each group's words races
  messages   a ring of groups by device release and acquire with names, acknowledged: no race;
             variant noack: every message word races; variant grp: messages and flags race
  lastblock  each group sums up in local memory, writes its part and counts itself by a device
             read-modify-write that names the one before; the last group reads all parts: no race
  sparse     random items and words, own or read only, and up to eight planted races

`--records N` picks the iterations for about N records in all.
"""
import argparse
import random
import struct
import sys
import time
from array import array
from operator import add
from pathlib import Path


assert sys.byteorder == 'little' and array('I').itemsize == 4
READ, WRITE, LOCAL_READ, LOCAL_WRITE = 0x0000, 0x0001, 0x0100, 0x0101
BAR_GLOBAL, BAR_LOCAL, BAR_BOTH = 0x0105, 0x0205, 0x0305
RMW_BOTH = 0x04020004
RMW_RELAXED, STORE_RELEASE, LOAD_ACQUIRE = 0x01020004, 0x03020003, 0x02020002
TO_GROUP = 0x00010000 ^ 0x00020000  # turns device into group scope
FREE = 0xffffffff
DATA = 1 << 20                      # global words from here on are the kernels' data


class Stream:
    """The records of one group; `head` is bytes 0 to 3 of a record as a number."""
    templates, magic = {}, b'GRT1'

    def __init__(self, group, items):
        self.group, self.items, self.everyone = group, items, tuple(range(items))
        self.parts, self.records, self.blocks = [self.magic + struct.pack('<HHI', group, items, 7)], 0, {}

    def step(self, head, words, items=None):
        """One record of each of the items (all of them by default), with these words."""
        items = self.everyone if items is None else items
        key = (head, items)
        if key not in self.templates:
            self.templates[key] = array('I', [n for i in items for n in (head, i, 0, FREE, FREE)])
        block = self.templates[key][:]
        block[2::5] = array('I', words)
        self.put(block.tobytes())

    def same(self, head, words):
        """`step` for words that come again in each iteration."""
        key = (head, words)
        if key not in self.blocks:
            self.step(head, words)
            self.blocks[key] = self.parts[-1]
        else:
            self.put(self.blocks[key])

    def barrier(self, head, site):
        self.same(head, (site,) * self.items)

    def one(self, head, item, word, name=(FREE & 0xffff, FREE & 0xffff, FREE)):
        self.put(struct.pack('<IIIHHI', head, item, word, *name))

    def put(self, data):
        self.parts.append(data)
        self.records += len(data) // 20

    def close(self):
        self.one(6, 0, 0)
        assert self.records <= 16777216, 'too many records in a stream'
        return b''.join(self.parts)


def globals_of(numbers):
    return [(0, n) for n in sorted(numbers)]


def matmul(streams, groups, items, iterations, variant):
    turned = [tuple(range(j, items)) + tuple(range(j)) for j in range(min(items, 8))]
    for s in streams:
        for it in range(iterations):
            row = DATA + it * items
            s.step(READ, range(row, row + items))
            s.same(LOCAL_WRITE, range(items))
            s.step(READ, range(row + (1 << 28), row + (1 << 28) + items))
            s.same(LOCAL_WRITE, range(items, 2 * items))
            s.barrier(BAR_LOCAL, 1)
            for words in turned:
                s.same(LOCAL_READ, words)
            s.barrier(BAR_LOCAL, 2)
        start = DATA + (1 << 29) + s.group * items
        s.step(WRITE, range(start, start + items))
    return []


def histogram(streams, groups, items, iterations, variant):
    rng, bins, touched = random.Random(1), 256, {}
    head = RMW_RELAXED ^ (TO_GROUP if variant == 'grp' else 0)
    for s in streams:
        for it in range(iterations):
            start = DATA + (it * groups + s.group) * items
            s.step(READ, range(start, start + items))
            chosen = rng.randbytes(items)
            s.step(head, tuple(chosen))
            if variant == 'grp':
                for n in set(chosen):
                    touched.setdefault(n, set()).add(s.group)
    assert bins == 256
    return globals_of(n for n, by in touched.items() if len(by) > 1)


def reduction(streams, groups, items, iterations, variant):
    if items & (items - 1):
        raise SystemExit('reduction needs a power of two as items')
    for s in streams:
        for it in range(iterations):
            start = DATA + (it * groups + s.group) * items
            s.step(READ, range(start, start + items))
            s.same(LOCAL_WRITE, range(items))
            if variant != 'missing':
                s.barrier(BAR_LOCAL, 0)
            half = items // 2
            while half:
                some = tuple(range(half))
                s.step(LOCAL_READ, range(half), some)
                s.step(LOCAL_READ, range(half, 2 * half), some)
                s.step(LOCAL_WRITE, range(half), some)
                s.barrier(BAR_LOCAL, half)
                half //= 2
            s.one(WRITE, 0, s.group * iterations + it)
    upper = range(items // 2, items) if variant == 'missing' and items > 1 and iterations else ()
    return [(1, g, n) for g in range(groups) for n in upper]


def messages(streams, groups, items, iterations, variant):
    scope = TO_GROUP if variant == 'grp' else 0
    store, load = STORE_RELEASE ^ scope, LOAD_ACQUIRE ^ scope
    acks = variant != 'noack'
    per = 1 + acks                          # releases of item 0 per iteration
    flag, ack, message = 0, max(64, groups), DATA        # the first words of each
    for s in streams:
        g, left, right = s.group, (s.group - 1) % groups, (s.group + 1) % groups
        own, theirs = (range(message + h * items, message + (h + 1) * items) for h in (g, left))
        turned = [*theirs[1:], theirs[0]]
        for it in range(iterations):
            if acks and it:
                s.one(load, 0, ack + right, (right, 0, per * (it - 1) + 1))
            s.barrier(BAR_GLOBAL, 1)
            s.same(WRITE, own)
            s.barrier(BAR_GLOBAL, 2)
            s.one(store, 0, flag + g)
            s.one(load, 0, flag + left, (left, 0, per * it))
            s.barrier(BAR_GLOBAL, 3)
            s.same(READ, tuple(turned))
            s.barrier(BAR_BOTH, 4)
            if acks:
                s.one(store, 0, ack + g)
    if groups == 1 or variant is None or (variant == 'noack' and iterations < 2):
        return []
    racy = set(range(message, message + groups * items)) if iterations else set()
    if variant == 'grp' and iterations:
        racy |= set(range(flag, flag + groups)) | (set(range(ack, ack + groups)) if iterations > 1 else set())
    return globals_of(racy)


def lastblock(streams, groups, items, iterations, variant):
    part, count, total = DATA, 1, 2
    for s in streams:
        for _ in range(iterations):
            s.same(LOCAL_WRITE, range(items))
            s.barrier(BAR_LOCAL, 1)
            s.same(LOCAL_READ, tuple((i + 1) % items for i in range(items)))
            s.barrier(BAR_LOCAL, 2)
        s.one(WRITE, 0, part + s.group)
        if s.group:
            s.one(RMW_BOTH, 0, count, (s.group - 1, 0, 0))
        else:
            s.one(RMW_BOTH, 0, count)
        s.barrier(BAR_BOTH, 3)
        if s.group == groups - 1:
            for start in range(0, groups, items):
                words = range(part + start, part + min(start + items, groups))
                s.step(READ, words, tuple(range(len(words))))
            s.one(WRITE, 0, total)
    return []


def sparse(streams, groups, items, iterations, variant):
    rng, planted, racy = random.Random(1), {}, set()
    for k in range(8):
        writer = (k % groups, 7 * k % items)
        reader = ((5 * k + 1) % groups, (3 * k + 1) % items)
        if writer != reader:
            for head, (g, i) in ((WRITE, writer), (READ, reader)):
                planted.setdefault((g, k * iterations // 8), []).append((head, i, k))
            racy.add(k)
    for s in streams:
        chosen = [tuple(rng.sample(s.everyone, rng.randint(1, items))) for _ in range(16)]
        own = [[DATA + ((s.group * 256 + i) << 8) for i in some] for some in chosen]
        for it in range(iterations):
            for head, i, word in planted.get((s.group, it), ()):
                s.one(head, i, word)
            n = rng.randrange(16)
            some, noise = chosen[n], rng.randbytes(len(chosen[n]))
            head = rng.choice((READ, WRITE, LOCAL_READ, LOCAL_WRITE, READ, RMW_RELAXED))
            if head == READ and noise[0] & 1:
                s.step(READ, map(add, [1000] * len(some), noise), some)
            else:
                s.step(head, map(add, own[n], noise), some)
    return globals_of(racy) if iterations else []


KERNELS = {'matmul': (matmul, ()), 'histogram': (histogram, ('grp',)), 'reduction': (reduction, ('missing',)),
           'messages': (messages, ('noack', 'grp')), 'lastblock': (lastblock, ()), 'sparse': (sparse, ())}


def make(kernel, groups, items, iterations, variant=None):
    """The streams, the racy words that their report must have, and the number of records."""
    Stream.magic = b'GRT3' if groups > 64 or items > 256 else b'GRT1'
    streams = [Stream(g, items) for g in range(groups)]
    races = KERNELS[kernel][0](streams, groups, items, iterations, variant)
    blobs = [s.close() for s in streams]
    return blobs, races, sum(s.records for s in streams)


def main():
    options = argparse.ArgumentParser(description=__doc__, formatter_class=argparse.RawDescriptionHelpFormatter)
    options.add_argument('kernel', choices=KERNELS)
    options.add_argument('dir', type=Path)
    options.add_argument('--groups', type=int, default=16)
    options.add_argument('--items', type=int, default=256)
    options.add_argument('--iterations', type=int, default=10)
    options.add_argument('--records', type=int, help='about so many records, in place of --iterations')
    options.add_argument('--variant')
    options.add_argument('--joined', action='store_true', help='also DIR/joined, all streams in one file')
    given = options.parse_args()
    if given.variant not in (None, *KERNELS[given.kernel][1]):
        options.error(f'variants of {given.kernel}: {KERNELS[given.kernel][1]}')
    if not (1 <= given.groups <= 65535 and 1 <= given.items <= 1024):
        options.error('groups are 1 to 65535, items 1 to 1024')
    start = time.monotonic()
    if given.records:
        one, ten = (make(given.kernel, given.groups, given.items, n, given.variant)[2] for n in (0, 16))
        given.iterations = max(1, round((given.records - one) / ((ten - one) / 16)))
    blobs, races, records = make(given.kernel, given.groups, given.items, given.iterations, given.variant)
    given.dir.mkdir(parents=True, exist_ok=True)
    if given.groups <= 64:
        for g, blob in enumerate(blobs):
            (given.dir / f'g{g:02}').write_bytes(blob)
    if given.joined or given.groups > 64:
        (given.dir / 'joined').write_bytes(b''.join(blobs))
    print(f'{given.kernel}: {records} records, {sum(map(len, blobs))} bytes, {len(races)} races, '
          f'{given.iterations} iterations, {time.monotonic() - start:.1f} s')
    return 0


if __name__ == '__main__':
    sys.exit(main())
