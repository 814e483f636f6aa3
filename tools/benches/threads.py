"""How fast `gpurace run` is beside `gpurace replay`, on the same traces, in turn. The machine's load is shown before each kernel, since other work
takes processors away."""

import os
import pathlib
import sys
import tempfile

from benches.measured import add_traces, kernel_trace, measured, median, parser, program

WORKERS = (1, 2, 4)


def commands(folder, capacity):
    """The commands that are measured, by name, each with the file on its standard input."""
    files = sorted(map(str, pathlib.Path(folder).glob("g[0-9][0-9]")))
    yield "replay", [program(), "replay"], pathlib.Path(folder) / "joined"
    for workers in WORKERS:
        yield f"run, {workers} workers", [program(), "run", "--workers", str(workers), "--capacity", str(capacity), *files], os.devnull


def are_equal(kernel, records, given):
    """Measures on a trace of a kernel, and answers whether all reports were the same."""
    with tempfile.TemporaryDirectory() as folder:
        _, count = kernel_trace(kernel, folder, records, given.groups, given.items)
        print(f"{kernel}: {count} records, load {os.getloadavg()[0]:.1f}", flush=True)
        taken = {}
        for _ in range(given.turns):
            for name, words, file in commands(folder, given.capacity):
                taken.setdefault(name, []).append(measured(words, file))
    for name, runs in taken.items():
        run = median(runs)
        print(f"  {name:14} {run.costs()}, {count / run.wall:>11,.0f} a second", flush=True)
    return len({run.text for runs in taken.values() for run in runs}) == 1


def main(words):
    made = parser(__doc__)
    add_traces(made)
    made.add_argument("--capacity", type=int, default=1024)
    given = made.parse_args(words)
    same = [are_equal(kernel, records, given) for records in given.records or [1_000_000] for kernel in given.kernels]
    if not all(same):
        print("the reports differ", file=sys.stderr)
    return 0 if all(same) else 1
