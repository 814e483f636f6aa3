"""Whether two recordings of a kernel have the same records of each work-item, at the same places of the source. Names of releases are not
compared, since they depend on the run."""
import os

from gpurace_record.folders import END, HEADER, RECORD_FORMS, mapped, streams_in, streams_of

GRAINS = {"": 4, "half": 2, "byte": 1}
BARRIER = 5


def buffers_of(folder):
    """Of each buffer its group or None, first word, words, name and grain."""
    for line in open(os.path.join(folder, "buffers")):
        words = line.rstrip("\n").split(" ", 3 if line[0] == "g" else 4)
        group = None if words[0] == "g" else int(words.pop(1))
        name, _, grain = words[3].rpartition(".")
        if grain not in GRAINS or not name:
            name, grain = words[3], ""
        yield group, int(words[1]), int(words[2]), name, GRAINS[grain]


def recording(folder):
    """Of each item its records, each as what it does, where in which buffer, and its place in the source."""
    buffers, sites, items = list(buffers_of(folder)), open(os.path.join(folder, "sites")).read().splitlines(), {}

    def where(memory, group, word):
        for of, first, words, name, grain in buffers:
            if (of is None) == (memory == 0) and of in (None, group) and first <= word < first + words:
                return name, (word - first) * grain
        return "nowhere", word

    for data in map(mapped, streams_of(folder)):
        for stream in streams_in(data):
            form, body = data[stream.start:stream.start + 4], memoryview(data)[stream.start + HEADER.size:stream.end]
            for kind, memory, scope, order, item, site, word in RECORD_FORMS[form].iter_unpack(body):
                if kind == END:
                    continue
                records = items.setdefault((stream.group, item), [])
                is_barrier = kind == BARRIER
                records.append((kind, memory, scope, order, None if is_barrier else where(memory, stream.group, word), sites[site - 1]))
    return items


def differences(first, second):
    """Lines on the items whose records differ, the first of them in full."""
    one, other = recording(first), recording(second)
    differing = [key for key in sorted(one.keys() | other.keys()) if one.get(key, []) != other.get(key, [])]
    if not differing:
        return []
    a, b = one.get(differing[0], []), other.get(differing[0], [])
    at = next((n for n, pair in enumerate(zip(a, b)) if pair[0] != pair[1]), min(len(a), len(b)))
    return [f"{len(differing)} of {len(one)} items differ; item {differing[0]}, record {at}: {a[at:at + 1]} and {b[at:at + 1]}"]
