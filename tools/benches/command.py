"""The command line of tools/bench."""

import importlib
import sys

USAGE = """usage: tools/bench WHAT [OPTION..]; tools/bench WHAT --help says more

  replay      gpurace replay on traces of kernels: instructions, time and memory
  questions   races, explain and history beside replay, on traces with races
  threads     gpurace run beside gpurace replay
  stress      gpurace run again and again in random settings: each report must be that of replay
  record      recording and judging: large launches, many small ones, the simulator
  programs    other people's programs, plain and recorded, and what is found in them

GPURACE_PROGRAM names another program than that of this tree. None of this is in the gate.
"""
NAMES = ("replay", "questions", "threads", "stress", "record", "programs")


def main():
    if len(sys.argv) < 2 or sys.argv[1] not in NAMES:
        print(USAGE, end="", file=sys.stdout if sys.argv[1:] in (["--help"], ["-h"]) else sys.stderr)
        return 0 if sys.argv[1:] in (["--help"], ["-h"]) else 3
    sys.argv[0] = f"tools/bench {sys.argv[1]}"
    return importlib.import_module(f"benches.{sys.argv[1]}").main(sys.argv[2:])
