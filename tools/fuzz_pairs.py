#!/usr/bin/env python3
"""Compares the races of launches with the definition of docs/MODEL.md, worked out step by step.

fuzz_pairs.py [--launches N] [--seed S] [--program FILE]

The launches are those of the examples and random ones, in which each event has a place of a few, or none. Of each racy word the pairs of
an operation and a place that race have to be those of the kinds that `races` writes, each pair once, with two events that race, of two
groups if there are such; the cause of each race has to be the first that applies (docs/OUTPUT.md, "explain --long"); the divergent
barriers and unmatched acquires have to be those of the report; and of the first divergent barrier each item has to be shown with what it
came with. A launch of which anything else is shown is left in a file `different` of the working folder.
"""
import argparse
import json
import pathlib
import random
import subprocess
import sys
import tempfile
from collections import defaultdict

sys.dont_write_bytecode = True

from launch_model import (  # noqa: E402
    ATOMIC, Event, as_text, divergence, events_of, grounded_of, instances, launch_of, races_of, random_launch, relate,
    report_of,
)

TOP = pathlib.Path(__file__).resolve().parent.parent
OPERATIONS = {"r": "read", "w": "write", "ld": "load", "st": "store", "rmw": "rmw"}


def side_of(event, places):
    """What an access does, and where."""
    return OPERATIONS[event.kind], places.get((*event.at, event.index))


def word_of(said):
    return ("local", said["group"], said["number"]) if said["space"] == "local" else ("global", said["number"])


def words_of(kind):
    for run in kind["runs"]:
        first = word_of(run["first"])
        for number in range(first[-1], run["last"] + 1):
            yield (*first[:-1], number)


def access_in(kind, which):
    """What a kind says of one of its two accesses: what it does and where, and the event."""
    event = kind["race"][which]
    return (kind["kind"][which], event["place"]), (event["group"], event["item"], event["index"])


def wrong(lines, races, places):
    """What is wrong with the kinds that `races` writes of these races, or None."""
    kinds = [line for line in lines if line["type"] == "kind"]
    one_group = defaultdict(lambda: True)
    for word, found in races.items():
        for one, other in found:
            one_group[word, frozenset((side_of(one, places), side_of(other, places)))] &= one.at[0] == other.at[0]
    expected = {(*pair, alone) for pair, alone in one_group.items()}
    said = [(word, frozenset((access_in(kind, "first")[0], access_in(kind, "second")[0])), kind["kind"]["one_group"]) for kind in kinds for word in words_of(kind)]
    if len(said) != len(set(said)) or set(said) != expected:
        return f"pairs missing {expected - set(said)}, not there {set(said) - expected}"
    for kind in kinds:
        (one, first), (other, second) = access_in(kind, "first"), access_in(kind, "second")
        shown = {((*a.at, a.index), (*b.at, b.index)): (side_of(a, places), side_of(b, places)) for a, b in races[word_of(kind["race"]["word"])]}
        if shown.get((first, second)) != (one, other):
            return f"the pair that is shown does not race so: {kind}"
    alike = [access_in(kind, "first")[0] == access_in(kind, "second")[0] for kind in kinds]
    if alike != sorted(alike):
        return "a pair of one place comes before a pair of two"
    return None if lines[-1]["races"] == len(races) else "the number of racy words"


def name_of(event):
    return (*event.at, event.index)


def relaxed(traces, rule):
    """The traces where the flags of each barrier name both memories, or each atomic has device scope."""
    changed = defaultdict(list)
    for events in traces.values():
        for event in events:
            memory = "gl" if rule == "flags" and event.kind == "bar" else event.memory
            scope = "dev" if rule == "scope" and event.kind in ATOMIC else event.scope
            changed[event.at].append(Event(event.at, event.index, event.kind, memory, event.word, scope, event.order, event.names))
    return changed


def judged(sizes, traces):
    """The events that are grounded, and the pairs of them that race."""
    pairs, _ = relate(sizes, traces)
    grounded = grounded_of(events_of(traces))
    races = {frozenset(map(name_of, pair)) for found in races_of(grounded, pairs).values() for pair in found}
    return set(map(name_of, grounded)), races


def are_parted(sizes, traces, pair):
    """Whether one of two events of a group comes after its item's barrier of a divergent instance, and the other does not."""
    group = pair[0][0]
    for (at, _), barriers in instances(sizes, traces).items():
        if at == group and divergence(sizes[group], barriers):
            after = [item in barriers and barriers[item].index < index for _, item, index in pair]
            if after[0] != after[1]:
                return True
    return False


def wrong_cause(lines, sizes, traces):
    """A race of another cause than is said, or None."""
    relaxing = [(rule, *judged(sizes, relaxed(traces, rule))) for rule in ("flags", "scope")]
    for kind in (line for line in lines if line["type"] == "kind"):
        pair = access_in(kind, "first")[1], access_in(kind, "second")[1]
        mended = [rule for rule, grounded, races in relaxing if grounded.issuperset(pair) and frozenset(pair) not in races]
        alone = "divergent" if pair[0][0] == pair[1][0] and are_parted(sizes, traces, pair) else "no-barrier"
        cause = mended[0] if mended else "no-hand-over" if pair[0][0] != pair[1][0] else alone
        if kind["race"]["cause"]["name"] != cause:
            return f"the cause of {pair} is {cause}: {kind}"
    return None


def wrong_arrivals(lines, sizes, traces, sites):
    """What is wrong with what the items brought to the first divergent barrier, or None."""
    divergent = [at for at, barriers in instances(sizes, traces).items() if divergence(sizes[at[0]], barriers)]
    found = [line for line in lines if line["type"] == "arrivals"]
    if [(line["group"], line["instance"]) for line in found] != sorted(divergent)[:1]:
        return f"the first divergent barrier is not {sorted(divergent)[:1]}: {found}"
    for line in found:
        barriers = instances(sizes, traces)[line["group"], line["instance"]]
        came = [barriers.get(item) for item in range(sizes[line["group"]])]
        expected = [barrier and (barrier.word, "g" in barrier.memory, "l" in barrier.memory, sites.get(barrier.word)) for barrier in came]
        said = []
        for run in line["items"]:
            barrier = run["barrier"]
            brought = barrier and (barrier["site"], barrier["global"], barrier["local"], barrier["place"])
            said += [brought] * (run["last"] - run["first"] + 1)
        if said != expected:
            return f"the items came with {expected}: {line}"
    return None


def wrong_findings(lines, sizes, traces):
    """What is wrong with the divergent barriers and unmatched acquires, or None."""
    said = [f"diverge {line['group']} {line['instance']} {line['cause']}" for line in lines if line["type"] == "diverge"]
    for line in lines:
        if line["type"] == "unmatched":
            event = line["event"]
            said.append(f"unmatched {event['group']} {event['item']} {event['index']} {line['cause']}")
    due = [line for line in report_of(sizes, traces).splitlines() if line.startswith(("diverge", "unmatched"))]
    return None if said == due else f"the report has {due}: {said}"


def judge(program, name, text, sizes, traces, places, sites):
    """Stops if the kinds that `races` writes of a launch are wrong."""
    with tempfile.TemporaryDirectory() as folder:
        packed = pathlib.Path(folder, "launch")
        packed.write_bytes(subprocess.run([program, "pack"], input=text.encode(), capture_output=True, check=True).stdout)
        lines = "".join(f"{' '.join(str(part) for part in event)} {place}\n" for event, place in places.items())
        lines += "".join(f"{site} {place}\n" for site, place in sites.items())
        pathlib.Path(folder, "side").write_text(lines)
        words = [program, "races", "--causes", "--json", "--places", f"{folder}/side", str(packed)]
        run = subprocess.run(words, capture_output=True, check=False)
    said = run.stdout.decode()
    pairs, _ = relate(sizes, traces)
    races = races_of(grounded_of(events_of(traces)), pairs)
    told = [json.loads(line) for line in said.splitlines()]
    why = run.stderr.decode()
    if run.returncode < 2:
        why = wrong(told, races, places) or wrong_cause(told, sizes, traces)
        why = why or wrong_findings(told, sizes, traces) or wrong_arrivals(told, sizes, traces, sites)
    if why:
        pathlib.Path("different").write_text(f"{name}: {why}\n\nplaces:\n{lines}\nsaid:\n{said}\n{text}", encoding="utf-8")
        sys.exit(f"{name}: {why} (see the file `different`)")


def main():
    parser = argparse.ArgumentParser(description=__doc__.splitlines()[0])
    parser.add_argument("--launches", type=int, default=2000)
    parser.add_argument("--seed", type=int, default=1)
    parser.add_argument("--program", default=str(TOP / "gpurace"))
    arguments = parser.parse_args()
    examples = sorted((TOP / "examples").glob("*/trace.txt"))
    for path in examples:
        text = path.read_text()
        judge(arguments.program, path.parent.name, text, *launch_of(text), {}, {})
    for seed in range(arguments.seed, arguments.seed + arguments.launches):
        choose = random.Random(seed)
        sizes, traces = random_launch(choose, 1, 6)
        text = as_text(choose, sizes, traces)
        places = {(*event.at, event.index): f"kernel.cl:{choose.randrange(4)}" for event in events_of(traces) if choose.random() < 0.8}
        sites = {site: f"kernel.cl:{10 + site}" for site in (0, 1, 7) if choose.random() < 0.5}
        judge(arguments.program, f"seed {seed}", text, sizes, traces, places, sites)
    tried = f"{len(examples)} examples and {arguments.launches} launches"
    print(f"{tried}: each pair that races is shown, with its cause, and no other, with all other findings and what came to divergent barriers")


if __name__ == "__main__":
    main()
