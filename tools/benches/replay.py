"""How long `gpurace replay` takes, and how much memory and how many instructions."""

import os
import pathlib
import sys
import tempfile

from benches import shapes
from benches.measured import RECORD_LENGTH, add_traces, instructions, kernel_trace, measured, median, parser, program

SHAPES = [(shape, items) for shape in ("barriers", "atomics", "messages") for items in (1, 64, 2048)]
SHAPES += [("writers", 1), ("readers", 2048), ("adders", 2048)]  # of one word


def traces(given, records, folder):
    """The name of each trace, the file, and its records."""
    if not given.shapes:
        for kernel in given.kernels:
            yield (kernel, *kernel_trace(kernel, folder, records, given.groups, given.items))
        return
    for shape, items in SHAPES:
        path = pathlib.Path(folder) / "shape"
        with open(path, "wb") as out:
            shapes.write(out, shape, records, items)
        yield f"{shape} of {items}", path, os.path.getsize(path) // RECORD_LENGTH


def main(words):
    made = parser(__doc__)
    add_traces(made)
    made.add_argument("--shapes", action="store_true", help="traces of 1, 64 and 2,048 items in place of kernels (benches/shapes.py)")
    made.add_argument("--instructions", action="store_true", help="counts instructions too, by valgrind")
    made.add_argument("--share", default="", metavar="FUNCTION", help="with --instructions, those within it, as gr_shadow::shadow::Shadow::add")
    given = made.parse_args(words)
    command = [program(), "replay"]
    for records in given.records or [1_000_000]:
        with tempfile.TemporaryDirectory() as folder:
            for name, path, count in traces(given, records, folder):
                run = median([measured(command, path) for _ in range(given.turns)])
                line = f"{name:18} {count:>9} records: {run.costs()}, {count / run.wall:>11,.0f} a second"
                if given.instructions:
                    all_, within = instructions(command, path, given.share)
                    line += f", {all_ / count:7,.0f} instructions a record"
                    line += f", {100 * within / all_:.1f} % in {given.share}" if given.share else ""
                print(line, flush=True)
                if run.status not in (0, 1):
                    sys.exit(f"status {run.status}")
    return 0
