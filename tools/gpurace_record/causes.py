"""What would order the two accesses of a race: the cause is gpurace's, the names and places beside it are of the records."""
from __future__ import annotations

import re
from typing import List, NamedTuple, Optional, Tuple

DEVICE = "`memory_scope_device`"
ATOMICS = {"load": "load", "store": "store", "rmw": "read-modify-write"}
COPY = "nothing orders the two; wait_group_events after the copy would, or, if the copy comes last, a barrier before it"
GROUPS = ("nothing orders the two, and a barrier never orders two groups; a second kernel, a word for each group, or a release that an "
          "acquire takes, at memory_scope_device, would mend it")
CALL = r"(?<![-=!<>+*/%&|^])=\s*f?{}\s*\((?:[^()]|\([^()]*\))*\)\s*;"  # the word is what a function gives, and no more
UPDATES = {"add": re.compile(r"\+\+|\+="), "sub": re.compile(r"--|-="), "or": re.compile(r"\|="), "and": re.compile("&="), "xor": re.compile(r"\^="),
           "max": re.compile(CALL.format("max")), "min": re.compile(CALL.format("min")), "cmpxchg": re.compile(r"(?:[*/%]|<<|>>)=")}
ATOMICS_OF = {"add": ("inc", "add"), "sub": ("dec", "sub"), "greatest": ("max", "min"), "": ("add", "cmpxchg")}  # else the operation itself
EXTENDED = ("or", "and", "xor", "max", "min", "greatest")  # of cl_khr_int64_extended_atomics
STATEMENT = re.compile(r"\b(?:if|while)\b")
CONDITION = re.compile(rf"{STATEMENT.pattern}|\?")
CHECKS = {"cmpxchg": re.compile(r"[=!]="), "greatest": re.compile(r"(?<![-<>])[<>](?![<>])")}  # in a line with a condition
OWN = {"read": "load (in OpenCL 1.2 an atomic_or with 0)", "write": "store (in OpenCL 1.2 an atomic_xchg)"}
ONE_WRITE = "both items write it at this place; let one of them do so, or give each a word of its own by another index; a barrier "
IN_ROUNDS, NEVER = "would order only rounds of a loop", "never orders two groups"
OWN_WORDS = "; if each is to write a word of its own, an index is wrong"
SPLIT = "; both are of one statement; where they are of one round, read into a private variable before the barrier and write after it"
TO_ANOTHER = "; both are of one statement; let the kernel write to another buffer than it reads"
GIVEN_TWICE = "; the buffer is given as two arguments: if that is a mistake, give the kernel another one to write to"
END = "the missing barrier's place is the end of the loop's body, outside of branches that not all work-items take"
IN_TURN = f"; one of the items comes to both places in turn; if these are rounds of a loop, {END}"
WAITS = re.compile(r"\bwhile\s*\(.*\)\s*(?:;|\{\s*\})")
FLAG = ("nothing orders the two; the read waits for the write; make that an atomic store with memory_order_release, and the read an atomic load with "
        "memory_order_acquire")
WAITING = "since it waits, make it an atomic load with memory_order_acquire"
LOOP = "loop"  # the name of what no one atomic does
ASSIGNED = re.compile(r"([^\s;{}]+)\s*(?<![-=!<>+*/%&|^])=(?!=)\s*([^;=]+?)\s*;")  # to what a line writes by `=`, and what
ZERO = re.compile(r"!(?!=)|\b(?:return|continue|break)\b")  # asks whether a word is 0
TURNED = str.maketrans("<>", "><")
HAND_OVER = "nothing orders the two; a release that an acquire takes would"  # in one group
OLD = re.compile(r"\batom(?:ic)?_(?:add|sub|xchg|inc|dec|cmpxchg|min|max|and|or|xor)\b")  # an atomic of OpenCL 1.x
RELAXED = "atomics of OpenCL 1.x are relaxed, and those of OpenCL C 2.0 that end in _explicit take an order"
FLAGS = {"global": (1, "CLK_GLOBAL_MEM_FENCE"), "local": (2, "CLK_LOCAL_MEM_FENCE")}


class At(NamedTuple):
    """An access, a release or an acquire, and its place."""
    what: str
    place: str
    scope: str = ""
    is_copy: bool = False  # of the item that does asynchronous copies
    order: str = ""
    text: str = ""         # the line of the source
    site: int = 0          # the line of the file of sites that has the place


class Barrier(NamedTuple):
    """A barrier that one of the two accesses comes after and the other does not."""
    place: str
    flags: int
    is_divergent: bool
    is_wait: bool = False  # it is a wait_group_events


class Pair(NamedTuple):
    """The two accesses of a race, and what their items did between them."""
    space: str
    is_one_group: bool
    first: At
    second: At
    barriers: List[Barrier]
    before: str            # the place of the last barrier before both, if none is between
    release: Optional[At]  # after the first access
    acquire: Optional[At]  # before the second one
    are_updates: bool = False  # both items read the word and write it next, as `++` does
    is_one_line: bool = False  # both items read the word and write it at one line, the same
    store: Optional[At] = None  # an atomic of a word after the one access, and one of the same word before the other
    load: Optional[At] = None
    are_at_one_place: bool = False  # with the same calls that lead there
    times: Tuple[int, int] = (0, 0)  # of two accesses of one statement, how often each item has come to its place; 0 where that is not known
    rounds: Optional[Tuple[At, At]] = None      # the two, the second of a later round of a loop
    early: Optional[Tuple[At, At, At]] = None   # an access, a release before it, and an acquire before the other access that takes it
    others: Optional[Tuple[At, At]] = None      # a release that no barrier puts after the one access, and an acquire before the other, of one word
    late: Optional[Tuple[At, At]] = None    # a release after the one access, and an acquire that no barrier puts before the other, of one word
    is_locked: bool = False         # there are such atomics in both directions, at two places, as of a lock
    check: Optional[Tuple[At, At]] = None  # a read by both items, and the write of one of them that comes next
    missed: str = ""                # the place of a divergent barrier after the access of one item, to which the other never comes
    is_also_met: bool = False       # in its group, items that are at other places race with one of the two, too, and lack a barrier
    is_repeated: bool = False       # of two accesses of one statement, one of the items comes to its place several times
    is_one_statement: bool = False
    are_in_turn: bool = False       # one of the items comes to both places in turn, with no barrier between
    is_given_twice: bool = False    # the buffer is two arguments
    are_equal: bool = False         # all stores write the same value
    kind: str = ""                  # the type of the word, where the kernel's text says it
    value: str = ""                 # the number that both items write, where the text has it


def flags_of(flags: int) -> str:
    """The flags of a barrier, as in the source."""
    return " | ".join(name for bit, name in FLAGS.values() if flags & bit) or "no flag"


def sentence(name: str, said: str, pair: Pair) -> str:
    """The cause of this name as a sentence; what gpurace has said where the records say nothing more."""
    is_twice = pair.is_given_twice and name in ("no-barrier", "no-hand-over") and pair.first.what != pair.second.what
    more = f"; both write {pair.value}" if pair.value else GIVEN_TWICE if is_twice else ""
    special = {"flags": of_flags, "scope": of_scope, "divergent": of_divergence, "no-hand-over": of_groups}.get(name, of_nothing)
    return (special(said, pair) or said) + more


def of_flags(_: str, pair: Pair) -> str:
    bit, flag = FLAGS[pair.space]
    weak = [barrier for barrier in pair.barriers if not barrier.is_divergent and not barrier.flags & bit]
    for barrier in weak:
        if not barrier.is_wait:
            return f"the barrier at {barrier.place} does not order {pair.space} memory: give it {flag}"
    if weak and (pair.first.is_copy or pair.second.is_copy):
        return COPY
    return weak and f"wait_group_events at {weak[0].place} waits for copies and is no barrier: put a barrier with {flag} between the two"


def of_scope(_: str, pair: Pair) -> str:
    narrow = [at for at in (pair.first, pair.second, pair.release, pair.acquire) if at and at.scope == "grp" and at.place]
    places = " and ".join(dict.fromkeys(at.place for at in narrow))
    if places and pair.is_one_group:
        return f"the scope at {places} does not include {DEVICE}: use {DEVICE}"
    return places and f"the scope at {places} reaches no other group: use {DEVICE}"


def of_divergence(said: str, pair: Pair) -> str:
    place = next((barrier.place for barrier in pair.barriers if barrier.is_divergent), "")
    return place and f"the barrier at {place} between the two is divergent, and orders nothing"


def of_nothing(said: str, pair: Pair) -> str:
    """Nothing orders the two: one may be of a copy that goes on, or plain beside atomics, a hand-over may not meet, or both items may
    update the word."""
    if pair.is_one_group and (pair.first.is_copy or pair.second.is_copy):
        return COPY
    for one, other in ((pair.first, pair.second), (pair.second, pair.first)):
        if one.what not in ATOMICS and other.what in ATOMICS:
            order = "put one of them in a second kernel"
            if pair.is_one_group:
                order = f"put a barrier with {FLAGS[pair.space][1]} between the two"
            mend = f"{order}, or, if they may come in any order, make it an atomic {OWN[one.what]}"
            return f"a plain {one.what} beside atomics; {WAITING if is_waiting(one) else mend}"
    if pair.early:
        access, release, acquire = pair.early
        mend = f"{said}, or a release after the {access.what}" if pair.is_one_group else f"nothing orders the two; a release after the {access.what} would"
        return f"{mend}; the acquire at {acquire.place} takes that at {release.place}, which comes before the {access.what} at {access.place}"
    if not pair.is_one_group and pair.release and pair.acquire and pair.release.place and pair.acquire.place:
        return f"{said}; the release at {pair.release.place} and the acquire at {pair.acquire.place} do not meet"
    weak = of_hand_over(said, pair)
    if pair.is_one_line and not weak and not pair.is_also_met:
        return f"{of_update(pair.kind, pair.first.text)}; each item reads the word and writes it at this line"
    check = "" if weak or pair.is_one_line else of_check(said, pair)
    if pair.is_one_line or (pair.are_updates and not check):
        mend = weak or said + (of_one_statement(pair) if pair.is_one_line else "")
        return f"{mend}; or make each item's read and write of the word one atomic operation"
    return weak or check or of_others(pair) or of_wait(pair) or of_barrier(said, pair)


def is_waiting(at: At) -> bool:
    """Whether an access is a read of a loop that does nothing else."""
    return at.what == "read" and WAITS.search(at.text) is not None


def of_wait(pair: Pair) -> str:
    """An item waits for what another one writes, and both accesses are plain."""
    waiting = [at for at in (pair.first, pair.second) if is_waiting(at)]
    return FLAG if len(waiting) == 1 else ""


def of_check(said: str, pair: Pair) -> str:
    """Both items read the word in a condition, and one writes it then, as the other may have done. Rounds of a loop may look so."""
    are_writes = pair.first.what == pair.second.what == "write"
    if not pair.check or pair.rounds or (are_writes and pair.is_also_met):
        return ""
    read, write = pair.check
    if not CONDITION.search(read.text):
        return of_read_before(pair, f"items read the word at {read.place} and then write it at {write.place}", of_update(pair.kind, write.text))
    atomic = of_operation(pair.kind, checked(read.text, write.text))
    if not pair.is_also_met and all(pair.times) and not pair.is_repeated:
        return f"{atomic}; items read the word at this line and then write it"
    if not pair.is_one_group:
        return f"items read the word at {read.place} and then write it at {write.place}; {atomic}"
    rounds = of_one_statement(pair) if pair.times[0] != pair.times[1] else ""
    return f"{said}{rounds}; or, where items read the word at {read.place} and then write it at {write.place}, {atomic}"


def of_read_before(pair: Pair, where: str, atomic: str) -> str:
    """Both items read the word, in no condition, and one writes it then. A barrier orders two writes of one place only if these are of two rounds of a
    loop."""
    if pair.first.what == pair.second.what:
        are_rounds = not pair.are_at_one_place or (pair.is_one_group and pair.is_repeated)
        return "" if are_rounds else f"{where}; {atomic}"
    return "" if pair.is_one_group else f"{GROUPS}; or, where {where}, {atomic}"


def of_update(kind: str, line: str) -> str:
    """The atomic for what a line does to a word of this type, where its text says that."""
    found = [name for name, pattern in UPDATES.items() if pattern.search(line)]
    found = found or [name for name, pattern in CHECKS.items() if CONDITION.search(line) and pattern.search(line)]
    return of_operation(kind, found[0] if len(found) == 1 else "")


def checked(check: str, write: str) -> str:
    """The name of the atomic that does what a check of a word and the write to it that follows do, by the texts of their lines: one that asks for a value,
    or compares the word with what is written; else that of a loop."""
    written, is_less = ASSIGNED.findall(write), CHECKS["greatest"].search(check)
    if not STATEMENT.search(check):
        return "greatest" if is_less else "cmpxchg"
    is_asked = "==" in check or "while" in check or ("!=" not in check and ZERO.search(check))
    if not is_less and written and is_asked:
        return "cmpxchg"
    if len(written) != 1:
        return LOOP
    word, value = (r"\s*".join(map(re.escape, re.findall(r"\w+|\S", it))) for it in written[0])
    found = {sign.translate(TURNED) if is_turned else sign for is_turned, one, other in ((False, word, value), (True, value, word))
             for sign in re.findall(rf"(?<![\w.\]*]){one}\s*([<>]|!=)=?\s*{other}(?![\w.\[(])", check)}
    return {"<": "max", ">": "min", "!=": "xchg"}[found.pop()] if len(found) == 1 else LOOP


def of_operation(kind: str, name: str) -> str:
    """The atomic for an operation on a word of this type."""
    if name == LOOP and kind not in ("float", "double"):
        of_long = " (atom_cmpxchg of cl_khr_int64_base_atomics)" if kind in ("long", "ulong") else ""
        return f"let one item do both, or use a loop of atomic_cmpxchg{of_long}, begun by an atomic read, that writes only while the check holds"
    names, is_fetched = ATOMICS_OF.get(name, (name,)), name not in ("", "cmpxchg", "xchg", "greatest")
    fetch = [f"atomic_fetch_{name}"] if is_fetched else []
    if kind in ("float", "double"):
        loop, lacks = "atomic_cmpxchg" if kind == "float" else "atom_cmpxchg", f"atomic_{name}" if is_fetched else "other atomic"
        return f"use a loop of {loop} on the bits, begun by an atomic read (OpenCL C has no {lacks} of {kind}), or give each item a word of its own"
    if kind in ("int", "uint"):
        return f"use an atomic, such as {listed([*(f'atomic_{it}' for it in names), *fetch])}"
    if kind in ("long", "ulong"):
        extension = f"cl_khr_int64_{'extended' if name in EXTENDED else 'base'}_atomics"
        return f"use an atomic, such as {listed([listed([f'atom_{it}' for it in names]) + f' (of {extension})', *fetch])}"
    of_int = listed([f"atomic_{it}" for it in names])
    if kind:
        return f"use an atomic of an int, such as {of_int} (OpenCL C has none of {kind})"
    return f"use an atomic (such as {of_int} of an int, or a loop of atomic_cmpxchg of a float)"


def listed(names: List[str]) -> str:
    """`a, b or c`."""
    return " or ".join([*([", ".join(names[:-1])] if names[1:] else []), names[-1]])


def of_hand_over(said: str, pair: Pair) -> str:
    """A hand-over by atomics one of which orders nothing. In a group those that modify, as counters, may be there although a barrier is
    missing."""
    if not pair.store or not pair.load or (pair.is_one_group and not pair.is_locked and pair.load.what != "load"):
        return ""
    lead = said if not pair.is_one_group else HAND_OVER if pair.is_locked else f"{said}, or a release that an acquire takes"
    weak = of_orders(pair.store, pair.load)
    return weak and f"{lead}; {weak}"


def of_others(pair: Pair) -> str:
    """A barrier that is missing before another item of the group hands over to the other group, or after one of this has taken that."""
    for hands, would in ((pair.others, "before the release at {0} would, where the acquire at {1} takes its value"),
                         (pair.late, "after the acquire at {1} would, where that takes the value of the release at {0}")):
        if hands and all(at.place for at in hands):
            return f"nothing orders the two; a barrier with {FLAGS['global'][1]} {would.format(*(at.place for at in hands))}"
    return ""


def of_barrier(said: str, pair: Pair) -> str:
    """A barrier that is missing in a group: where, or why there is no room for it."""
    if not pair.is_one_group:
        return ""
    are_writes = pair.first.what == pair.second.what == "write"
    if pair.are_at_one_place and are_writes:
        return ONE_WRITE + IN_ROUNDS
    before = f"; the last barrier before both is at {pair.before}" if pair.before else ""
    before += f"; one of the two items never comes to the divergent barrier at {pair.missed}" if pair.missed else ""
    if pair.rounds:
        one, other = pair.rounds
        return f"{said}{before}; the {one.what} at {one.place} is of one round of a loop and the {other.what} at {other.place} of a later one; {END}"
    rounds = "" if are_writes else of_one_statement(pair)
    if pair.are_in_turn and not rounds and not pair.missed:
        return f"{said}{before}{IN_TURN}"
    are_unlike = are_writes and not pair.are_equal and not pair.value and pair.first.place and pair.second.place
    return said + rounds + before + (OWN_WORDS if are_unlike else "")


def of_one_statement(pair: Pair) -> str:
    """What is known of the rounds of a loop that two accesses of one statement are of."""
    if not all(pair.times):
        return ""
    if pair.times[0] == pair.times[1]:
        return "" if pair.is_one_line else SPLIT + (f"; where they are of two, {END}" if pair.is_repeated else "")
    first, second = ({1: "once", 2: "twice"}.get(time, f"{time} times") for time in pair.times)
    return f"; the first of the two items has come to this line {first} and the second {second}; if these are rounds of a loop, {END}"


def of_groups(said: str, pair: Pair) -> str:
    """Nothing orders two groups."""
    found = of_nothing(said, pair)
    if found:
        return found
    are_writes = pair.first.what == pair.second.what == "write"
    if pair.are_at_one_place and are_writes:
        return ONE_WRITE + NEVER
    return GROUPS + (TO_ANOTHER if pair.is_one_statement and not are_writes else "")


def of_orders(store: At, load: At) -> str:
    """Which of two atomics of one word hands nothing over."""
    lacking = ((store, ("rel", "both"), "release"), (load, ("acq", "both"), "acquire"))
    weak = [f"the {ATOMICS[at.what]} at {at.place} is no {lacks}" for at, orders, lacks in lacking if at.order not in orders]
    why = f"; {RELAXED}" if weak and any(OLD.search(at.text) for at in (store, load)) else ""
    return " and ".join(weak) + why if store.place and load.place else ""
