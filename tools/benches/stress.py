"""Runs `gpurace run` again and again, and compares what it writes with what `gpurace replay` writes on the same streams.

Each of N runs (10,000) takes an example of examples, its streams in any order, 1 to 8 workers, 1 to 4 queues,
a capacity of 1 to 65,536, often 1, and 1, 2 or 4 processors. Then, on 1, 2 and 4 processors each: 64 groups that wait for
one another through queues of one place; a stream that stalls for a second, with the program's processor time
too; a stream that is cut in the middle, as a file and as a pipe; and a folder in the place of a file. Standard output,
standard error and status must be those of `replay`, and no run may take more than 60 seconds. Also each allocation of a
run is refused in turn (tools/refuse.c): the run must say that memory ran out or a thread could not be started, or
answer as ever. The same seed gives the same runs. Says at the end how many were made; the status is 1 where one differed or
hung. Needs taskset and a C compiler.
"""

import argparse
import contextlib
import dataclasses
import os
import pathlib
import random
import subprocess
import sys
import tempfile
import threading
import time

from benches.measured import TOP, program

EXAMPLES = TOP / "examples"
BOUND = 60
PROCESSORS = (1, 2, 4)
HEADER_LENGTH = 12
RECORD_LENGTHS = {b"GRT1": 20, b"GRT2": 44, b"GRT3": 20, b"GRT4": 44}
END = 6


def fault_line(errors):
    """The line of a fault, without the lines below it."""
    return errors[:errors.find(b"\n") + 1]


@dataclasses.dataclass
class Answer:
    """What a run of the program writes, and its status."""

    status: int
    text: bytes
    errors: bytes


@dataclasses.dataclass
class Plan:
    """How a run is set up."""

    workers: int
    queues: int
    capacity: int
    processors: int

    def words(self):
        return ["--workers", str(self.workers), "--queues", str(self.queues), "--capacity", str(self.capacity)]


@dataclasses.dataclass
class Launch:
    """A launch's streams in the order in which they are given, and what `replay` answers."""

    name: str
    streams: list
    wanted: Answer


class Stress:
    def __init__(self, program, folder):
        self.program = program
        self.folder = pathlib.Path(folder)
        self.made = 0
        self.failed = 0
        self.longest = 0.0

    def call(self, words, given=b""):
        ran = subprocess.run([self.program, *words], input=given, capture_output=True, timeout=BOUND)
        return Answer(ran.returncode, ran.stdout, fault_line(ran.stderr))

    def launch(self, name, streams):
        return Launch(name, streams, self.call(["replay"], b"".join(streams)))

    def files_of(self, launch):
        """Files that have the streams of a launch."""
        files = []
        for place, stream in enumerate(launch.streams):
            files.append(self.folder / f"stream{place}")
            files[-1].write_bytes(stream)
        return files

    def run(self, name, plan, files, *wanted, settings=(), pass_fds=()):
        """Runs the streams of files, and compares with the answers that are right. Gives the seconds of processor time."""
        self.made += 1
        words = ["taskset", "-c", f"0-{plan.processors - 1}", "env", *settings, self.program, "run", *plan.words()]
        words += map(str, files)
        before, start = os.times(), time.monotonic()
        try:
            ran = subprocess.run(words, stdin=subprocess.DEVNULL, capture_output=True, timeout=BOUND, pass_fds=pass_fds)
            answer = Answer(ran.returncode, ran.stdout, fault_line(ran.stderr))
        except subprocess.TimeoutExpired:
            answer = f"more than {BOUND} seconds"
        self.longest = max(self.longest, time.monotonic() - start)
        if answer not in wanted:
            self.failed += 1
            print(f"{name}, {plan}: {answer} in place of {wanted[0]}", file=sys.stderr, flush=True)
        after = os.times()
        return after.children_user + after.children_system - before.children_user - before.children_system


def streams_of(joined):
    """The streams that come one after another."""
    streams = []
    while joined:
        length = RECORD_LENGTHS[joined[:4]]
        end = HEADER_LENGTH
        while joined[end] != END:
            end += length
        streams.append(joined[: end + length])
        joined = joined[end + length :]
    return streams


def examples(stress):
    """The launches of the examples that are accepted."""
    launches = []
    for folder in sorted(EXAMPLES.iterdir()):
        text = folder / "trace.txt"
        if text.exists():
            packed = stress.call(["pack"], text.read_bytes())
            launches.append(stress.launch(folder.name, streams_of(packed.text)))
    return launches


def random_plan(chance):
    capacity = chance.choice((1, 1, chance.randint(2, 8), 1024, chance.randint(1, 65536)))
    return Plan(chance.randint(1, 8), chance.randint(1, 4), capacity, chance.choice(PROCESSORS))


def run_examples(stress, runs, chance):
    launches = examples(stress)
    print(f"{len(launches)} examples", flush=True)
    for number in range(runs):
        launch = chance.choice(launches)
        files = chance.sample(stress.files_of(launch), len(launch.streams))
        stress.run(launch.name, random_plan(chance), files, launch.wanted)
        if (number + 1) % 1000 == 0:
            print(f"{number + 1} runs of examples, {stress.failed} failed", flush=True)


def ring(stress, groups=64, rounds=50):
    """Each group hands a word to the next one, by a release that the next one waits for; the last group's has a race."""
    streams = []
    for group in range(groups):
        before = group - 1
        lines = [f"group {group} items 2 launch 7"]
        for turn in range(rounds):
            if group:
                lines += [f"0 ld g {before} dev acq < {before} 0 {turn}", f"0 r g {1000 + before}"]
            lines += [f"1 w l {turn}", f"0 w g {1000 + group}", f"0 st g {group} dev rel"]
        streams.append(stress.call(["pack"], "\n".join([*lines, "end", ""]).encode()).text)
    return stress.launch("ring", streams)


def run_ring(stress):
    launch = ring(stress)
    files = stress.files_of(launch)
    for processors in PROCESSORS:
        for workers, queues in ((1, 1), (8, 1), (2, 4), (8, 4)):
            stress.run(launch.name, Plan(workers, queues, 1, processors), files, launch.wanted)
            stress.run(launch.name, Plan(workers, queues, 1, processors), files[::-1], launch.wanted)


@contextlib.contextmanager
def pipe(path, pieces, pause):
    """A pipe that gives pieces, with a pause between two of them."""

    def give():
        with contextlib.suppress(BrokenPipeError), open(path, "wb", buffering=0) as it:
            for place, piece in enumerate(pieces):
                time.sleep(pause if place else 0)
                it.write(piece)

    path.unlink(missing_ok=True)
    os.mkfifo(path)
    giver = threading.Thread(target=give, daemon=True)
    giver.start()
    yield path
    giver.join(BOUND)
    path.unlink()


def two_groups(stress):
    text = lambda group: "".join(f"{turn % 4} w g {turn + 100 * group}\n" for turn in range(400))
    packed = [stress.call(["pack"], f"group {group} items 4 launch 7\n{text(group)}end\n".encode()).text for group in (0, 1)]
    return stress.launch("two groups", packed)


def run_stalled(stress):
    """The second of two streams stops for a second before its header, or in the middle of a record."""
    launch = two_groups(stress)
    for processors in PROCESSORS:
        for cut in (0, 5, 4007):
            files = stress.files_of(launch)
            with pipe(files[1], [launch.streams[1][:cut], launch.streams[1][cut:]], 1.0):
                busy = stress.run(f"stalled at {cut}", Plan(8, 4, 1, processors), files, launch.wanted)
            print(f"stalled for a second at byte {cut} on {processors}: {busy:.2f} s of processor time", flush=True)


def run_cut(stress):
    """The second of two streams ends in the middle, as a file and as a pipe; or it is a folder."""
    launch = two_groups(stress)
    truncated = Answer(2, b"", b"gpurace: stream 1: truncated\n")
    for processors in PROCESSORS:
        plan = Plan(2, 1, 1, processors)
        for cut in (0, 11, 12, 31, 4007, len(launch.streams[1]) - 1):
            first, second = stress.files_of(launch)
            second.write_bytes(launch.streams[1][:cut])
            stress.run(f"cut off at {cut}", plan, [first, second], truncated)
            with pipe(second, [launch.streams[1][:cut]], 0):
                stress.run(f"a pipe cut off at {cut}", plan, [first, second], truncated)
        first, second = stress.files_of(launch)
        stress.run("a folder", plan, [first, stress.folder], Answer(5, b"", b"gpurace: read fault\n"))


def refusing(folder):
    """A library that refuses a program one allocation."""
    library = pathlib.Path(folder) / "refuse.so"
    subprocess.run(["cc", "-shared", "-fPIC", "-O2", "-o", library, TOP / "tools/refuse.c"], check=True)
    return library


def run_refused(stress):
    """Each allocation of a run in which two groups race on fifty words is refused in turn."""
    library = refusing(stress.folder)
    lines = [[f"0 w g {word}" for word in range(100)], [f"0 r g {word}" for word in range(50, 149)]]
    texts = ["\n".join([f"group {group} items 1 launch 7", *its, "end", ""]) for group, its in enumerate(lines)]
    launch = stress.launch("refusals", [stress.call(["pack"], text.encode()).text for text in texts])
    files = stress.files_of(launch)
    wanting = [Answer(4, b"", b"gpurace: out of memory\n"), Answer(4, b"", b"gpurace: no thread\n")]
    for plan in (Plan(2, 1, 1, 4), Plan(2, 1, 1024, 1), Plan(8, 4, 1, 2)):
        number, was_refused = 0, True
        while was_refused:
            number += 1
            inlet, outlet = os.pipe()
            settings = [f"LD_PRELOAD={library}", f"REFUSED={number}", f"REFUSED_TO={outlet}"]
            words = [f"allocation {number} refused", plan, files, launch.wanted, *wanting]
            stress.run(*words, settings=settings, pass_fds=[outlet])
            os.close(outlet)
            with open(inlet, "rb") as it:
                was_refused = bool(it.read())
        print(f"{plan}: {number - 1} allocations refused in turn, {stress.failed} failed", flush=True)


def main(given):
    parser = argparse.ArgumentParser(description=__doc__, formatter_class=argparse.RawDescriptionHelpFormatter)
    parser.add_argument("--runs", type=int, default=10_000)
    parser.add_argument("--seed", type=int, default=1)
    words = parser.parse_args(given)
    with tempfile.TemporaryDirectory() as folder:
        stress = Stress(program(), folder)
        run_ring(stress)
        run_stalled(stress)
        run_cut(stress)
        run_refused(stress)
        run_examples(stress, words.runs, random.Random(words.seed))
    print(f"{stress.made} runs, {stress.failed} failed, the longest took {stress.longest:.2f} s")
    return 1 if stress.failed else 0
