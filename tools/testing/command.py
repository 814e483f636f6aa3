"""The command line of ./test."""

import argparse
import collections
import os
import pathlib
import subprocess
import sys

from repository import BUILT
from testing import gate, suite, transcript


def arguments(document):
    parser = argparse.ArgumentParser(description=document, formatter_class=argparse.RawDescriptionHelpFormatter)
    parser.add_argument("names", metavar="NAME", nargs="*")
    parser.add_argument("--list", action="store_true", help="print the names of all tests")
    parser.add_argument("--prove", action="store_true", help="prove everything first")
    parser.add_argument("--program", metavar="FILE", help="the program to test")
    return parser.parse_args()


def program_of(words, top):
    """The program that is tested: the one that is named, or the one that ./gpurace runs."""
    if words.program:
        return pathlib.Path(words.program).resolve()
    which = subprocess.run([top / "gpurace", "--which"], stdout=subprocess.PIPE, check=False)
    if which.returncode:
        sys.exit(which.returncode)
    return pathlib.Path(which.stdout.decode().strip())


def say_progress(done, most):
    if sys.stderr.isatty():
        print(f"\r{done} of {most} tests", end="" if done < most else "\r\033[K", file=sys.stderr, flush=True)


def say_failure(outcome):
    if sys.stderr.isatty():
        print("\r\033[K", end="", file=sys.stderr, flush=True)
    print(f"failed: {outcome.name}: repeat it by ./test '{outcome.name}'")
    print("".join(f"    {line}\n" for line in outcome.why.splitlines()), end="", flush=True)


def tested(words, found):
    """Runs the tests that are named, and counts what came of them."""
    most = sum(suite.is_named(name, words.names) for it in found for name in it.names)
    counts, why_skipped = collections.Counter(), collections.Counter()
    for outcome in suite.outcomes(found, words.names):
        counts[outcome.kind] += 1
        if outcome.kind == "failed":
            say_failure(outcome)
        elif outcome.kind == "skipped":
            why_skipped[outcome.why] += 1
        say_progress(sum(counts.values()), most)
    for why, count in sorted(why_skipped.items()):
        print(f"skipped {count}: {why}")
    return counts


def main(document, top):
    words = arguments(document)
    counts = collections.Counter()
    if words.prove:
        counts += gate.proved(top)
        if counts["failed"]:
            return ended(counts)
        words.program = BUILT
    program = program_of(words, top)
    try:
        found = suite.groups(top, program)
    except transcript.Unreadable as error:
        print(f"failed: {error}")
        return ended(counts + collections.Counter(failed=1))
    if words.list:
        print("".join(f"{name}\n" for it in found for name in it.names), end="")
        return 0
    os.environ["GPURACE"] = str(program)
    return ended(counts + tested(words, found))


def ended(counts):
    print(f"{counts['passed']} passed, {counts['failed']} failed, {counts['skipped']} skipped")
    return 1 if counts["failed"] or not counts["passed"] else 0
