"""How long recording and judging take: a tiled product (of side 128: 5.0 million records), many small launches, and the simulator."""

import glob
import os
import shutil
import subprocess
import sys
import tempfile

from benches.measured import TOP, measured, median, parser, program

RECORD, JUDGE = TOP / "tools" / "gpurace-record", TOP / "tools" / "gpurace-judge"
LAUNCHES = [sys.executable, TOP / "tools" / "benches" / "launches.py"]


class Bench:
    def __init__(self, turns, room):
        self.turns, self.room = turns, room
        self.environ = {**os.environ, "GPURACE_PROGRAM": program(), "POCL_CACHE_DIR": os.path.join(room, "pocl")}

    def take(self, name, words, before=lambda: None):
        """The medians of some runs, the first of which builds what is kept and does not count."""
        runs = []
        for _ in range(self.turns + 1):
            before()
            runs.append(measured([*map(str, words)], env=self.environ, stderr=subprocess.DEVNULL))
        run = median(runs[1:])
        print(f"  {name:46} {run.wall:7.3f} s, busy {run.busy:7.3f} s" + ("" if run.status == 0 else f", status {run.status}"), flush=True)
        return run

    def kept(self, words, *options):
        """Records into a new folder each time, and answers it."""
        kept = os.path.join(self.room, "kept")
        self.take("recorded, with all files", [RECORD, "--only-record", "--keep", kept, *options, *words], lambda: shutil.rmtree(kept, ignore_errors=True))
        return kept

    def product(self, side):
        words = [*LAUNCHES, "product", side]
        print(f"a product of side {side}")
        self.take("the program alone", words)
        folder = glob.glob(os.path.join(self.kept(words), "000-*"))[0]
        with open(os.path.join(folder, "info.txt")) as lines:
            print("".join(f"    {line}" for line in lines if line.startswith(("records", "kernel-seconds"))), end="")
        self.take("gpurace replay", [self.environ["GPURACE_PROGRAM"], "replay", folder])
        self.take("gpurace-judge", [JUDGE, folder])
        self.take("recorded and judged", [RECORD, *words])

    def small(self, launches):
        words = [*LAUNCHES, "small", launches, 4, 64]
        print(f"{launches} launches of 4 groups of 64 work-items")
        self.take("the program alone", words)
        self.kept(words)
        self.take("recorded and judged", [RECORD, *words])
        self.take("the same with --jobs 3", [RECORD, "--jobs", 3, *words])

    def simulator(self, side):
        words = [*LAUNCHES, "product", side]
        print(f"the simulator: a product of side {side}")
        self.take("Oclgrind alone", ["oclgrind", *words])
        self.take("Oclgrind alone, one thread", ["oclgrind", "--num-threads", 1, *words])
        self.take("Oclgrind alone, one thread, -O0", ["oclgrind", "--num-threads", 1, "--build-options", "-O0", *words])
        self.kept(words, "--simulator")
        self.take("recorded and judged", [RECORD, "--simulator", *words])


def main(words):
    made = parser(__doc__)
    made.add_argument("--side", type=int, default=128, help="of the product, a multiple of 16 (128)")
    made.add_argument("--launches", type=int, nargs="*", default=[300, 1000], help="small ones (300 and 1000)")
    made.add_argument("--simulated-side", type=int, default=64, help="of the product on the simulator (64)")
    given = made.parse_args(words)
    with tempfile.TemporaryDirectory() as room:
        bench = Bench(given.turns, room)
        bench.product(given.side)
        for launches in given.launches:
            bench.small(launches)
        if shutil.which("oclgrind"):
            bench.simulator(given.simulated_side)
    return 0
