"""Launches and their reports by the definitions of docs/MODEL.md, worked out step by step; also random launches, which the fuzzers try."""
from collections import defaultdict

MODIFIES = ("w", "st", "rmw")
ATOMIC = ("ld", "st", "rmw")


class Event:
    """A record of an item, by its item (group, item) and its index."""

    def __init__(self, at, index, kind, memory="g", word=0, scope="", order="", names=()):
        self.at, self.index, self.kind, self.memory, self.word = at, index, kind, memory, word
        self.scope, self.order, self.names = scope, order, names
        self.waits, self.settled = [], True

    def text(self):
        if self.kind == "bar":
            return f"{self.at[1]} bar {self.word} {self.memory}"
        words = [str(self.at[1]), self.kind, self.memory, str(self.word), self.scope, self.order]
        words += [f"< {group} {item} {release}" for (group, item), release in self.names]
        return " ".join(word for word in words if word)

    def location(self):
        return ("local", self.at[0], self.word) if self.memory == "l" else ("global", self.word)

    def releases(self):
        return self.order in ("rel", "both")


def inclusive(one, other):
    return one.scope == other.scope and (one.scope == "dev" or one.at[0] == other.at[0])


def random_launch(choose, least, most):
    """The sizes of the groups, and of each item its events."""
    sizes = [choose.randint(1, 3) for _ in range(choose.randint(least, most))]
    busy = choose.sample(range(len(sizes)), min(len(sizes), choose.randint(2, 12)))
    traces, released = defaultdict(list), []
    for _ in range(choose.randint(5, 120)):
        group = choose.choice(busy)
        at = (group, choose.randrange(sizes[group]))
        if choose.random() < 0.08:
            site, flags = choose.randrange(2) if choose.random() < 0.1 else 7, choose.choice(("g", "l", "gl", "-"))
            for item in range(sizes[group] - (choose.random() < 0.1)):
                trace = traces[group, item]
                trace.append(Event((group, item), len(trace), "bar", flags, site))
            continue
        kind = choose.choice(("r", "w", "ld", "st", "rmw", "rmw"))
        event = Event(at, len(traces[at]), kind, choose.choice("ggl"), choose.randrange(4))
        if kind in ATOMIC:
            event.scope = choose.choice(("grp", "dev", "dev"))
            event.order = choose.choice({"ld": ("rlx", "acq"), "st": ("rlx", "rel"), "rmw": ("rlx", "acq", "rel", "both")}[kind])
            if event.order in ("acq", "both") and released and choose.random() < 0.8:
                same = [name for name, word in released if word == event.location()] or [choose.choice(released)[0]]
                event.names = tuple(sorted(set(choose.sample(same, min(len(same), choose.randint(1, 3))))))
                if choose.random() < 0.03:
                    event.names = (((len(sizes) - 1, 0), 900),)
        if event.releases():
            number = sum(1 for other in traces[at] if other.releases())
            released.append(((at, number), event.location()))
        traces[at].append(event)
    return sizes, traces


def launch_of(text):
    """The sizes of the groups of a trace, and of each item its events."""
    sizes, traces, group = {}, defaultdict(list), 0
    for line in text.splitlines():
        words = line.partition("@")[0].split()
        if not words or words[0] == "end":
            continue
        if words[0] == "group":
            group = int(words[1])
            sizes[group] = int(words[3])
            continue
        at = (group, int(words[0]))
        trace = traces[at]
        if words[1] == "bar":
            trace.append(Event(at, len(trace), "bar", words[3], int(words[2])))
            continue
        kind, memory, word, more = words[1], words[2], int(words[3]), words[4:]
        scope, order = more[:2] if kind in ATOMIC else ("", "")
        names = [more[place + 1:place + 4] for place, text in enumerate(more) if text == "<"]
        names = tuple(((int(name[0]), int(name[1])), int(name[2])) for name in names)
        trace.append(Event(at, len(trace), kind, memory, word, scope, order, names))
    return [sizes[group] for group in sorted(sizes)], traces


def as_text(choose, sizes, traces):
    """The streams, each of a version that has room for it; their records are interleaved in a random way, and have random sites."""
    lines = []
    for group, items in enumerate(sizes):
        lists = [list(traces.get((group, item), ())) for item in range(items)]
        few = all(len(event.names) < 2 for events in lists for event in events)
        lines.append(f"group {group} items {items} launch 7 {'v3' if few else 'v4'}")
        while any(lists):
            site = choose.choice(("", "", f" @{choose.randint(1, 65535)}"))
            lines.append(choose.choice([events for events in lists if events]).pop(0).text() + site)
        lines.append("end")
    return "".join(line + "\n" for line in lines)


def instances(sizes, traces):
    """Of each group that has barriers, its instances: barriers by item."""
    found = defaultdict(dict)
    for (group, item), events in traces.items():
        for number, barrier in enumerate(event for event in events if event.kind == "bar"):
            found[group, number][item] = barrier
    return found


def divergence(size, barriers):
    """Why an instance is divergent, or None."""
    if len(barriers) < size:
        return "missing"
    if len({barrier.word for barrier in barriers.values()}) > 1:
        return "site"
    return "flags" if len({barrier.memory for barrier in barriers.values()}) > 1 else None


def named_releases(traces, event):
    """The release that each name of an event names, or None."""
    for at, number in event.names:
        releases = [other for other in traces.get(at, ()) if other.releases()]
        yield releases[number] if number < len(releases) else None


def relate(sizes, traces):
    """Fills in what each event waits for. The base pairs of both memories, and the divergent instances."""
    pairs, divergent = {"g": defaultdict(list), "l": defaultdict(list)}, []
    for events in traces.values():
        for before, after in zip(events, events[1:]):
            after.waits.append(before)
            for memory in "gl":
                pairs[memory][before].append(after)
        for event in events:
            for release in named_releases(traces, event):
                if release is None or release.location() != event.location():
                    event.settled = False
                    continue
                event.waits.append(release)
                if inclusive(release, event):
                    pairs[event.memory][release].append(event)
    for (group, number), barriers in instances(sizes, traces).items():
        cause = divergence(sizes[group], barriers)
        if cause:
            divergent.append((group, number, cause))
            continue
        relate_instance(traces, pairs, list(barriers.values()))
    return pairs, sorted(divergent)


def relate_instance(traces, pairs, barriers):
    for barrier in barriers:
        for other in barriers:
            if other.index:
                barrier.waits.append(traces[other.at][other.index - 1])
            for event in traces[other.at][other.index + 1:other.index + 2]:
                event.waits.append(barrier)
                for memory in "gl":
                    if memory in barrier.memory:
                        pairs[memory][barrier].append(event)


def grounded_of(events):
    """The events that some stage has."""
    grounded, count = set(), -1
    while count != len(grounded):
        count = len(grounded)
        grounded |= {event for event in events if event.settled and all(wait in grounded for wait in event.waits)}
    return grounded


def cause_of(traces, event):
    found = list(named_releases(traces, event))
    if None in found:
        return "absent"
    return "otherword" if any(release.location() != event.location() for release in found) else "behind"


def reached(pairs, event):
    seen, ahead = set(), [event]
    while ahead:
        for later in pairs.get(ahead.pop(), ()):
            if later not in seen:
                seen.add(later)
                ahead.append(later)
    return seen


def may_race(one, other):
    if one.at == other.at or not (one.kind in MODIFIES or other.kind in MODIFIES):
        return False
    return not (one.kind in ATOMIC and other.kind in ATOMIC and inclusive(one, other))


def events_of(traces):
    return [event for trace in traces.values() for event in trace]


def races_of(grounded, pairs):
    """Of each word the pairs of events that race on it."""
    words, races = defaultdict(list), {}
    for event in grounded:
        if event.kind != "bar":
            words[event.location()].append(event)
    for word, accesses in words.items():
        after = {event: reached(pairs[event.memory], event) for event in accesses}
        found = [(one, other) for one in accesses for other in accesses
                 if may_race(one, other) and other not in after[one] and one not in after[other]]
        races.update({word: found} if found else {})
    return races


def report_of(sizes, traces):
    events = events_of(traces)
    pairs, divergent = relate(sizes, traces)
    grounded = grounded_of(events)
    racy = sorted(races_of(grounded, pairs))
    unmatched = sorted((event.at, event.index, cause_of(traces, event)) for event in events if event not in grounded and event.names
                       and (event.index == 0 or traces[event.at][event.index - 1] in grounded))
    lines = ["gpurace 1", f"groups {len(sizes)} items {sum(sizes)} records {len(events) + len(sizes)}"]
    lines += [f"race {' '.join(str(part) for part in word)}" for word in racy]
    lines += [f"diverge {group} {number} {cause}" for group, number, cause in divergent]
    lines += [f"unmatched {at[0]} {at[1]} {index} {cause}" for at, index, cause in unmatched]
    held = len(events) - len(grounded)
    lines.append(f"end races {len(racy)} diverge {len(divergent)} unmatched {len(unmatched)} held {held}")
    return "".join(line + "\n" for line in lines)
