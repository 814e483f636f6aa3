"""What the benches share: the program, traces of kernels, and what a run of a command takes."""

import argparse
import dataclasses
import os
import pathlib
import re
import resource
import statistics
import subprocess
import sys
import tempfile
import time

TOP = pathlib.Path(__file__).resolve().parent.parent.parent
KERNELS = ("matmul", "histogram", "reduction", "messages", "sparse")
RECORD_LENGTH = 20  # of versions 1 and 3, which the traces here have


@dataclasses.dataclass
class Run:
    """What a command wrote, its status, and what it took: wall time and processor time in seconds, and the greatest memory in MiB."""

    text: bytes
    status: int
    wall: float
    busy: float
    peak: float

    def costs(self):
        return f"{self.wall:7.2f} s, busy {self.busy:7.2f} s, {self.peak:5.0f} MiB"


def program():
    """The program that is measured."""
    named = os.environ.get("GPURACE_PROGRAM")
    return named or subprocess.run([TOP / "gpurace", "--which"], stdout=subprocess.PIPE, check=True, text=True).stdout.strip()


def peak_of(process):
    """The greatest memory of a process so far, in MiB; 0 where it has ended."""
    try:
        with open(f"/proc/{process}/status") as lines:
            return next((int(line.split()[1]) / 1024 for line in lines if line.startswith("VmHWM")), 0.0)
    except OSError:
        return 0.0


def measured(words, given=os.devnull, **settings):
    """One run of a command with this file as its standard input. Its memory is looked at each millisecond, since what the system says of it at
    its end counts that of this script, too."""
    start, peak, own = time.monotonic(), 0.0, resource.getrusage(resource.RUSAGE_SELF).ru_maxrss
    with open(given, "rb") as it, tempfile.TemporaryFile() as out, subprocess.Popen(words, stdin=it, stdout=out, **settings) as child:
        while os.waitid(os.P_PID, child.pid, os.WEXITED | os.WNOHANG | os.WNOWAIT) is None:
            peak = max(peak, peak_of(child.pid))
            time.sleep(0.001)
        wall = time.monotonic() - start
        _, status, used = os.wait4(child.pid, 0)
        child.returncode = os.waitstatus_to_exitcode(status)
        out.seek(0)
        peak = used.ru_maxrss / 1024 if used.ru_maxrss > own else peak
        return Run(out.read(), child.returncode, wall, used.ru_utime + used.ru_stime, peak)


def median(runs):
    """The medians of what runs of one command took."""
    figures = (statistics.median(getattr(run, name) for run in runs) for name in ("wall", "busy", "peak"))
    return Run(runs[0].text, runs[0].status, *figures)


def instructions(words, given, share=""):
    """How many instructions a command takes as valgrind counts them, and of these the part within functions of this name."""
    with tempfile.TemporaryDirectory() as room, open(given, "rb") as it:
        calls = os.path.join(room, "calls")
        ran = subprocess.run(["valgrind", "--tool=callgrind", f"--callgrind-out-file={calls}", *words], stdin=it, stdout=subprocess.DEVNULL,
                             stderr=subprocess.PIPE, check=False)
        counted = int(re.search(rb"Collected : (\d+)", ran.stderr)[1])
        if not share:
            return counted, 0
        lines = subprocess.run(["callgrind_annotate", "--inclusive=yes", "--threshold=100", calls], stdout=subprocess.PIPE, text=True, check=True).stdout
        within = next((line.split()[0] for line in lines.splitlines() if share in line), "0")
        return counted, int(within.replace(",", ""))


def kernel_trace(kernel, folder, records, groups, items, variant=""):
    """Has a trace made, joined and by groups, and answers the joined one and how many records it has."""
    words = [sys.executable, TOP / "tools/kernel_traces.py", kernel, folder, "--joined", "--records", str(records)]
    words += ["--groups", str(groups), "--items", str(items)] + (["--variant", variant] if variant else [])
    subprocess.run(words, check=True, stdout=subprocess.DEVNULL)
    joined = pathlib.Path(folder) / "joined"
    return joined, joined.stat().st_size // RECORD_LENGTH


def parser(document):
    made = argparse.ArgumentParser(description=document, formatter_class=argparse.RawDescriptionHelpFormatter)
    made.add_argument("--turns", type=int, default=3, metavar="N", help="runs of each command, whose medians are shown (3)")
    return made


def add_traces(made):
    """The options that say which traces are made."""
    made.add_argument("records", type=int, nargs="*", metavar="RECORDS", help="records of a trace, about (1000000)")
    made.add_argument("--groups", type=int, default=16)
    made.add_argument("--items", type=int, default=32, help="of a group")
    made.add_argument("--kernels", nargs="+", default=list(KERNELS), metavar="KERNEL", help="those of tools/kernel_traces.py (five of them)")
