"""Many records at once, as bytes and as lines."""

import array

from testing.program import END, access

SIZE = len(END)


def accesses(kind, words, items=1):
    """The bytes of plain accesses to global words (a range), one after another, by the items below this number in turn."""
    count = len(words)
    made = bytearray(access(0, kind, 0, 0) * count)
    numbers = array.array("I", words).tobytes()
    for byte in range(4):
        made[8 + byte :: SIZE] = numbers[byte::4]
    turns = bytes(range(items)) * (count // items + 1)
    made[4::SIZE] = turns[:count]
    return bytes(made)


def lines(start, words):
    """A line for each word, which begins so and ends in the word."""
    return "".join(f"{start}{word}\n" for word in words).encode()


def report(groups, items, records, words):
    """The report of a launch whose races are on these global words, and which has nothing else to say."""
    top = f"gpurace 1\ngroups {groups} items {items} records {records}\n"
    return top.encode() + lines("race global ", words) + f"end races {len(words)} diverge 0 unmatched 0 held 0\n".encode()
