#!/usr/bin/env python3
"""Compares the reports of random whole launches with the definitions of docs/MODEL.md, worked out step by step.

fuzz_launches.py [--launches N] [--seed S] [--program FILE] [--groups LEAST:MOST]

A launch has 65 to 2,000 groups of one to three items, most of which do nothing. A launch whose report is another one is left in a file
`different` of the working folder, as text, with what was expected.
"""
import argparse
import random
import subprocess
import sys

sys.dont_write_bytecode = True

from launch_model import as_text, random_launch, report_of  # noqa: E402


def main():
    parser = argparse.ArgumentParser(description=__doc__.splitlines()[0])
    parser.add_argument("--launches", type=int, default=200)
    parser.add_argument("--seed", type=int, default=1)
    parser.add_argument("--program", default="gpurace")
    parser.add_argument("--groups", default="65:2000")
    arguments = parser.parse_args()
    least, most = (int(part) for part in arguments.groups.split(":"))
    for seed in range(arguments.seed, arguments.seed + arguments.launches):
        choose = random.Random(seed)
        sizes, traces = random_launch(choose, least, most)
        text = as_text(choose, sizes, traces)
        packed = subprocess.run([arguments.program, "pack"], input=text.encode(), capture_output=True, check=True).stdout
        said = subprocess.run([arguments.program, "replay"], input=packed, capture_output=True, check=False).stdout.decode()
        expected = report_of(sizes, traces)
        if said != expected:
            with open("different", "w", encoding="utf-8") as file:
                file.write(f"seed {seed}\n\nexpected:\n{expected}\nsaid:\n{said}\n{text}")
            sys.exit(f"seed {seed}: the report is another one (see the file `different`)")
    print(f"{arguments.launches} launches, seeds {arguments.seed} to {arguments.seed + arguments.launches - 1}: each report is as defined")


if __name__ == "__main__":
    main()
