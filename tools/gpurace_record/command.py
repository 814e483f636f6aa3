"""The command line of gpurace-record."""
from __future__ import annotations

import argparse
import os
import re
import shutil
import subprocess
import sys
import traceback
from functools import partial
from typing import Callable, Dict, List, NoReturn, Optional, Tuple

from . import native, outputs, page, recording, simulator
from .judges import Judge
from .judging import INCOMPLETE, Reason, count
from .known import Baseline, Suppressions, Wrong
from .recording import Missing, Run, Stopped
from .report import NAME, Filter, Report, say, unrecorded
from .sources import Sources
from .writing import STANDARD_OUTPUT, can_be_written, name_of, write_all

WRONG_WORDS, MISSING = 3, 70
OF_REPORT = (*outputs.FORMS, "baseline", "update_baseline", "suppress", "sources", "error_exitcode")
PARTS = re.compile("[0-9]{1,9}:[0-9]{1,9}(,[0-9]{1,9}:[0-9]{1,9})*")
RUNS = """\
Kernels run instrumented on the host's threads, at native speed, whatever the device is. If a package is missing, it says which.
"""
STATUSES = """\
The program gpurace is the one of this tree, or the one that was installed with this command, or the one on the path; GPURACE_PROGRAM names another.

The status is
  0   all launches were recorded whole, the program ended well, and nothing was found
  1   something was found: a race, a divergent barrier, an access out of bounds (N with --error-exitcode N)
  2   nothing was found, but not all was judged; the summary begins with the reasons
  3   wrong words on the command line
  70  something is missing that is needed
"""


class Parser(argparse.ArgumentParser):
    def error(self, message: str) -> NoReturn:
        stop(WRONG_WORDS, f"{message}; {NAME} --help lists the options")


def stop(status: int, text: str) -> NoReturn:
    say(text)
    sys.exit(status)


def number(text: str) -> str:
    if not (text.isdigit() and text.isascii() and len(text) < 16):
        raise argparse.ArgumentTypeError("a number is needed")
    return text


def above_zero(text: str) -> str:
    if int(number(text)) == 0:
        raise argparse.ArgumentTypeError("a number above 0 is needed")
    return text


def output(text: str) -> str:
    return STANDARD_OUTPUT if text == "-" else text


def exit_status(text: str) -> str:
    if not 0 < int(number(text)) < 256:
        raise argparse.ArgumentTypeError("a number from 1 to 255 is needed")
    return text


def windows(text: str) -> str:
    parts = [tuple(map(int, part.split(":"))) for part in text.split(",")] if PARTS.fullmatch(text) else []
    bounds = [bound for first, length in parts for bound in (first, first + length)]
    if not all(length > 0 for _, length in parts) or not bounds or bounds != sorted(bounds):
        raise argparse.ArgumentTypeError("FIRST:COUNT is needed, as 0:8, or several in ascending order, as 0:8,248:8")
    return text


def width(prog: str) -> argparse.RawDescriptionHelpFormatter:
    return argparse.RawDescriptionHelpFormatter(prog, width=130)


def parser() -> Parser:
    made = Parser(prog="gpurace-record", allow_abbrev=False, epilog=RUNS + STATUSES, formatter_class=width,
                  usage="gpurace-record [OPTION..] [--] PROGRAM ARG..  |  [OPTION..] FILE.sim  |  --check",
                  description="Records the kernels that a program launches, and says what gpurace finds in them, with lines of source.")
    made.add_argument("words", nargs=argparse.REMAINDER, metavar="PROGRAM", help="the program and its arguments, or a simulator file of oclgrind-kernel")
    made.add_argument("--check", action="store_true", help="says what this machine has and what is missing, and records one small kernel")
    made.add_argument("--keep", metavar="DIR", help="keeps the launches in DIR, a new folder or an empty one")
    made.add_argument("--kernel", metavar="NAME", help="records only the launches of this kernel")
    made.add_argument("--launch", metavar="N", type=number, help="records only launch N; all launches of the program count, from 0")
    made.add_argument("--groups", metavar="FIRST:COUNT", type=windows,
                      help="records COUNT work-groups of each launch, from FIRST on, and no others; 0:8,248:8 is two such parts")
    made.add_argument("--build-options", metavar="TEXT", help="more options for the compiler of the kernels")
    made.add_argument("--max-group-size", metavar="N", type=number, help="the size that the device reports for its largest work-group (1024)")
    made.add_argument("--only-record", action="store_true", help="writes the launches and judges none; needs --keep")
    made.add_argument("--jobs", metavar="N", type=above_zero, default="1", help="judges N launches at once (1)")
    made.add_argument("--ignore-program-status", action="store_true", help="accepts a program that ends with a status other than 0")
    add_outputs(made)
    own = made.add_argument_group("of the native recorder")
    own.add_argument("--most-records", metavar="N", type=number,
                     help="records at most N accesses and barriers of each launch; what comes after them is reported as cut")
    own.add_argument("--timeout", metavar="S", type=number, help="ends the program if a kernel has not ended after S seconds")
    own.add_argument("--seed", metavar="N", type=number, help="makes the order of work-items and work-groups a function of N, on one thread")
    own.add_argument("--schedules", metavar="K", type=above_zero, help="runs the program K times, with the seeds N, N + 1 and so on")
    other = made.add_argument_group("of the simulator")
    other.add_argument("--simulator", action="store_true", help="records on the simulator Oclgrind, as it does with a FILE.sim")
    other.add_argument("--opencl20", action="store_true", help="compiles all kernels as OpenCL C 2.0, with its atomics, whatever their own options say")
    other.add_argument("--optimized", action="store_true", help="compiles kernels as Oclgrind does by itself, and not with -O0")
    return made


def add_outputs(made: argparse.ArgumentParser) -> None:
    """The options of what is reported, and in which form."""
    forms = made.add_argument_group("of the report", "An output FILE that is - is standard output.")
    for form, what in (("json", "every launch and every finding as JSON"), ("sarif", "the findings as SARIF 2.1.0"),
                       ("junit", "a case for each kernel as JUnit"), ("html", "a page to look at: sources, findings, pictures"),
                       ("report", "the report as text, in place of standard output")):
        forms.add_argument(f"--{form}", metavar="FILE", type=output, help=f"writes {what}")
    forms.add_argument("--baseline", metavar="FILE", help="the findings of this file are known, and only others count")
    forms.add_argument("--update-baseline", action="store_true", help="writes what is found into the baseline, so that it is known")
    forms.add_argument("--suppress", metavar="FILE", help="lines KEY PATTERN .. -- WHY, with the keys kernel, buffer and place: these don't count")
    forms.add_argument("--sources", metavar="DIR", help="names the files of DIR that have the kernels' texts, in place of kernel.cl")
    forms.add_argument("--error-exitcode", metavar="N", type=exit_status, help="the status if something was found, in place of 1")


def report_for(options: argparse.Namespace, kept: Optional[str]) -> Report:
    """A report by the files that are named; one that can't be written is reported before the program runs."""
    report = Report(kept)
    report.filters = filters_of(options)
    if options.sources and not os.path.isdir(options.sources):
        stop(WRONG_WORDS, f"there is no folder {options.sources}")
    report.sources = Sources(options.sources) if options.sources else None
    return report


def filters_of(options: argparse.Namespace) -> List[Filter]:
    """What is known or suppressed."""
    named: Dict[str, str] = {}
    for name in (*outputs.FORMS, "baseline", "suppress"):
        path = getattr(options, name)
        if path and (name in outputs.FORMS or (name == "baseline" and options.update_baseline)) and not can_be_written(path):
            stop(WRONG_WORDS, f"{path} can't be written")
        if path and named.setdefault(name_of(path), name) != name:
            stop(WRONG_WORDS, f"--{named[name_of(path)]} and --{name} name one file: {path}")
    if options.html:
        page.needed()
    if options.update_baseline and not options.baseline:
        stop(WRONG_WORDS, "--update-baseline needs --baseline FILE")
    try:
        suppressed: List[Filter] = [Suppressions(options.suppress)] if options.suppress else []
        return suppressed + ([Baseline(options.baseline, options.update_baseline)] if options.baseline else [])
    except Wrong as wrong:
        stop(WRONG_WORDS, str(wrong))


def parted(made: Parser, words: List[str]) -> Tuple[List[str], List[str]]:
    """The options, each joined with its value, which may begin as an option does; and the program's words, which `--` may come before."""
    joined, at = [], 0
    while at < len(words) and words[at].startswith("-") and words[at] != "--":
        option = made._option_string_actions.get(words[at])
        has_value = option is not None and option.nargs is None and at + 1 < len(words)
        joined.append(f"{words[at]}={words[at + 1]}" if has_value else words[at])
        at += 2 if has_value else 1
    return joined, words[at + 1:] if words[at:at + 1] == ["--"] else words[at:]


def no_program(name: str) -> str:
    """Why there is no program of this name: it may be in this folder, which is not on the path, or be a file that can't be run."""
    here = os.path.join(".", name)
    if os.path.dirname(name) == "" and shutil.which(here):
        return f"there is no program {name} on the path; {here} is one"
    return f"{name} is not executable" if os.path.isfile(name) else f"there is no program {name}"


def options_of(words: List[str]) -> argparse.Namespace:
    made = parser()
    own, program = parted(made, words)
    options = made.parse_args(own)
    options.words += program
    if options.check:
        return options
    if not options.words:
        stop(WRONG_WORDS, "which program? usage: gpurace-record [OPTION..] PROGRAM ARG..")
    is_file = options.words[0].endswith(".sim")
    options.simulator = options.simulator or is_file
    if not (os.path.isfile(options.words[0]) if is_file else shutil.which(options.words[0])):
        stop(WRONG_WORDS, f"there is no file {options.words[0]}" if is_file else no_program(options.words[0]))
    for name in ("most_records", "timeout", "seed", "schedules"):
        if getattr(options, name) is not None and options.simulator:
            stop(WRONG_WORDS, f"the simulator has no --{name.replace('_', '-')}")
    if (options.optimized or options.opencl20) and not options.simulator:
        stop(WRONG_WORDS, f"--{'optimized' if options.optimized else 'opencl20'} is of --simulator")
    if options.only_record and not options.keep:
        stop(WRONG_WORDS, "--only-record needs --keep DIR")
    for name in OF_REPORT:
        if options.only_record and getattr(options, name):
            stop(WRONG_WORDS, f"--only-record judges nothing, so it takes no --{name.replace('_', '-')}")
    if options.keep and os.path.exists(options.keep) and (not os.path.isdir(options.keep) or os.listdir(options.keep)):
        stop(WRONG_WORDS, f"{options.keep} is {'not empty' if os.path.isdir(options.keep) else 'no folder'}")
    return options


def find_gpurace() -> str:
    """The program that judges: the one of this tree, the one that was installed with this command, or the one on the path. The one of the tree
    is run without its script, which takes longer to find it than it takes to judge."""
    script, beside = (os.path.normpath(os.path.join(recording.TOOLS, *up, "gpurace")) for up in ([".."], ["..", ".."]))
    program = os.environ.get("GPURACE_PROGRAM") or ""
    try:
        if not program and os.path.exists(script):
            program = subprocess.run([script, "--which"], stdout=subprocess.PIPE, text=True).stdout.strip()
        program = program or next((it for it in (shutil.which(beside), shutil.which("gpurace")) if it), "gpurace")
        ran = subprocess.run([program, "--version"], stdout=subprocess.DEVNULL, stdin=subprocess.DEVNULL)
    except OSError as error:
        stop(MISSING, f"{program}: {error.strerror}")
    if ran.returncode != 0:
        stop(MISSING, f"{program} does not run")
    return program


class Recorder:
    """Runs the program as the options say, once or with several seeds, and judges its launches meanwhile."""

    def __init__(self, options: argparse.Namespace):
        self.options = options
        self.program = "" if options.only_record else find_gpurace()
        self.report = report_for(options, options.keep)
        if options.simulator:
            self.command = simulator.words(simulator.find(options.words[0]), simulator.build(say), options) + options.words
        else:
            self.command, self.out = options.words, native.build(say)

    def run(self) -> None:
        number = int(self.options.schedules or 1)
        seeds: List[Optional[int]] = [None]
        if self.options.seed or self.options.schedules:
            seeds = [int(self.options.seed or 1) + at for at in range(number)]
        with recording.folder_of_run() as (room, lock):
            top = os.path.abspath(self.options.keep) if self.options.keep else os.path.join(room, "launches")
            folders = {seed: os.path.join(top, f"seed-{seed}") if number > 1 else top for seed in seeds}
            for folder in folders.values():
                try:
                    recording.begin(folder)
                except OSError as error:
                    stop(WRONG_WORDS, f"{folder} can't be written: {error.strerror}")
            for seed, folder in folders.items():
                self.run_once(room, folder, seed, lock)
                if any(reason.name == "stopped" for reason in self.report.run_reasons):
                    break
        self.report.sort()

    def run_once(self, room: str, folder: str, seed: Optional[int], lock: int) -> None:
        options = self.options
        tests = os.path.join(room, "tests")
        os.makedirs(tests, exist_ok=True)
        judge = Judge(self.program, folder, self.report, bool(options.keep), int(options.jobs), seed, tests) if self.program else None
        if judge:
            judge.start()
        variables = (simulator.environment(options, folder) if options.simulator else
                     native.environment(self.out, options, folder, seed, is_judged=not options.keep))
        run = Run(self.command, {**variables, **recording.of_tests(tests, judge is not None)}, lock)
        reasons = run.reasons(options.timeout, options.ignore_program_status)
        self.report.run_reasons += reasons + (recording.under_way(folder) if reasons else [])
        if options.simulator and run.stopped_by:
            self.report.run_reasons.append(Reason("stopped", simulator.NEVER_ENDS))
        if judge:
            self.finish(judge)
        self.report.unrecorded += unrecorded(folder) + recording.end(folder)
        if options.simulator and run.status != 0 and not (self.report.launches or self.report.not_judged()) and not options.opencl20:
            self.report.run_reasons.append(Reason("no-launch", simulator.NOT_BUILT))

    def finish(self, judge: Judge) -> None:
        """Waits for the judging, which may be stopped, and says what it has left."""
        is_stopped = False
        try:
            judge.finish()
        except Stopped:
            is_stopped = True
        kernels = judge.stop()
        if is_stopped or kernels:
            how = "was stopped" if is_stopped else "failed"
            where = f"gpurace-judge {judge.folder} judges them" if judge.is_kept else "they are gone: --keep DIR keeps them"
            left = f" with {count(len(kernels), 'launch')} recorded and not judged; {where}" if kernels else ""
            self.report.run_reasons.append(Reason("stopped" if is_stopped else "fault", f"the judging {how}{left}", kernels))

    def only_recorded(self) -> int:
        kept = self.options.keep
        launches = [name for path, folders, _ in sorted(os.walk(kept)) for name in sorted(folders) if name[:1].isdigit()]
        print(f"gpurace-record: recorded in {kept}: {', '.join(launches) or 'no launch'}")
        reasons = self.report.run_reasons + self.report.unrecorded
        for reason in reasons:
            print(f"gpurace-record:     {reason.text}")
        return 0 if launches and not reasons else INCOMPLETE


def record(options: argparse.Namespace) -> int:
    recorder = Recorder(options)
    recorder.run()
    if options.only_record:
        return recorder.only_recorded()
    return conclude(recorder.report, options)


def conclude(report: Report, options: argparse.Namespace) -> int:
    """Writes what there is, and answers the status."""
    made = [(getattr(options, form), partial(make, report, options.words)) for form, make in outputs.FORMS.items() if getattr(options, form)]
    made += [(it.path, partial(it.text, report)) for it in report.filters if isinstance(it, Baseline) and options.update_baseline]
    write_all(made if options.report else [*made, (STANDARD_OUTPUT, partial(outputs.as_text, report, options.words))], report)
    status = report.status()
    return int(options.error_exitcode) if status == 1 and options.error_exitcode else status


def guarded(run: Callable[[], int]) -> int:
    """Runs a command: its reader may stop reading, and Ctrl-C may stop it after the program's end. A fault is no finding."""
    recording.stop_at_signals()
    try:
        return run()
    except Missing as missing:
        stop(MISSING, str(missing))
    except Stopped:
        return INCOMPLETE
    except BrokenPipeError:
        os.dup2(os.open(os.devnull, os.O_WRONLY), sys.stdout.fileno())
        return INCOMPLETE
    except OSError as fault:
        say(str(fault))
        return INCOMPLETE
    except Exception:
        traceback.print_exc()
        return INCOMPLETE


def main(words: List[str]) -> int:
    options = options_of(words)
    if options.check:
        return guarded(lambda: 0 if native.check(say) else MISSING)
    return guarded(lambda: record(options))
