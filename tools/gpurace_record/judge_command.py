"""The command line of gpurace-judge: judges recorded launches, wherever they are from."""
from __future__ import annotations

import argparse
import concurrent.futures
import os
from typing import Iterator, List

from .command import STATUSES, WRONG_WORDS, Parser, above_zero, add_outputs, conclude, find_gpurace, guarded, report_for, stop, width
from .folders import end_streams
from .judging import Launch, judged
from .progress import Progress
from .recording import TOOLS, Missing
from .report import say, unrecorded


def launches_below(folder: str) -> Iterator[str]:
    """The folders of launches there, the folder itself among them."""
    for path, folders, names in os.walk(folder):
        folders.sort()
        if {"info.txt", "begun.txt"} & set(names) or any(name.endswith(".gpurace") for name in names):
            folders.clear()
            yield path


def judge_folder(program: str, folder: str) -> Launch:
    if os.path.exists(os.path.join(folder, "begun.txt")):
        fault = end_streams(folder)
        if fault:
            say(fault)
    return judged(program, folder)


def judge_there(tools: str, program: str, folder: str) -> Launch:
    """Judges a folder on a machine of a cluster, which has the same files."""
    import sys
    sys.path[:0] = [] if tools in sys.path else [tools]
    from gpurace_record.judge_command import judge_folder
    return judge_folder(program, folder)


judge_there.__module__ = "__main__"  # so that it is sent whole, and not by the name of a module that is not there yet


def on_cluster(address: str, program: str, paths: List[str]) -> Iterator[Launch]:
    """Has the workers of a Dask scheduler judge the folders; those of a worker that is lost are judged by others."""
    try:
        import distributed
    except ImportError:
        raise Missing("--scheduler needs the package python3-distributed (Debian: apt-get install python3-distributed)") from None
    with distributed.Client(address) as client:
        futures = [client.submit(judge_there, TOOLS, program, path, pure=False) for path in paths]
        yield from (future.result() for future in futures)


def on_this_machine(jobs: int, program: str, paths: List[str]) -> Iterator[Launch]:
    with concurrent.futures.ThreadPoolExecutor(jobs) as pool:
        yield from pool.map(judge_folder, [program] * len(paths), paths)


def parser() -> Parser:
    made = Parser(prog="gpurace-judge", allow_abbrev=False, formatter_class=width, usage="gpurace-judge [OPTION..] DIR..",
                  description="Judges recorded launches: each DIR is the folder of one, or has folders of launches below it.", epilog=STATUSES)
    made.add_argument("folders", nargs="+", metavar="DIR", help="recorded by gpurace-record --keep, or by a runtime of your own")
    made.add_argument("--jobs", metavar="N", type=above_zero, default=str(len(os.sched_getaffinity(0))),
                      help="judges N launches at once (as many as processors)")
    made.add_argument("--scheduler", metavar="ADDRESS", help="judges on the workers of this Dask scheduler, which see the same files")
    add_outputs(made)
    return made


def judge(options: argparse.Namespace) -> int:
    program, report = os.path.abspath(find_gpurace()), report_for(options, ", ".join(options.folders))
    paths = list(dict.fromkeys(os.path.realpath(path) for folder in options.folders for path in launches_below(folder)))
    launches = on_cluster(options.scheduler, program, paths) if options.scheduler else on_this_machine(int(options.jobs), program, paths)
    with Progress(len(paths)) as progress:
        for number, launch in enumerate(launches, 1):
            report.add(launch)
            progress.left(len(paths) - number)
    for folder in options.folders:
        report.unrecorded += unrecorded(folder)
    report.sort()
    return conclude(report, options)


def main(words: List[str]) -> int:
    options = parser().parse_args(words)
    options.words = []
    for folder in options.folders:
        if not os.path.isdir(folder):
            stop(WRONG_WORDS, f"there is no folder {folder}")
    return guarded(lambda: judge(options))
