"""Judges the launches of a program while it runs."""
from __future__ import annotations

import concurrent.futures
import json
import os
import shutil
import threading
import time
import traceback
from typing import Dict, List, Optional, Set

from .folders import end_streams, info_of
from .judging import Launch, Reason, judged
from .pipes import Piped, start
from .progress import Progress
from .report import NEW, Report

PAUSE = 0.02     # seconds between two looks at the folder
MOST_FAULTS = 3  # after the program's end


class Judge(threading.Thread):
    """Judges launches as soon as they are recorded. A folder that is not kept is removed when it is judged: the recorder waits for that where
    much is not judged yet. Of a launch of many records it reads pipes while they are recorded."""

    def __init__(self, program: str, folder: str, report: Report, is_kept: bool, jobs: int, seed: Optional[int], tests: str):
        """`tests` is a folder in which the plugin of pytest asks, and gets its answers."""
        super().__init__(daemon=True)
        self.tests = tests
        self.program, self.folder, self.report, self.is_kept, self.seed = program, folder, report, is_kept, seed
        self.seen: Set[str] = set()
        self.piped: Dict[str, Optional[Piped]] = {}  # None where it can't be judged so
        self.waiting = 0  # launches that are being judged, or are next
        self.is_over, self.is_stopped, self.lock, self.starter = False, False, threading.Lock(), start
        self.pool = concurrent.futures.ThreadPoolExecutor(jobs)

    def run(self) -> None:
        """What fails is tried again, since the recorder waits for the judge; once the program is over, a few times."""
        faults: List[str] = []
        while not self.is_over or len(faults) < MOST_FAULTS:
            try:
                self.judge_until_over()
                break
            except Exception as fault:
                if self.is_stopped:  # its folder may be gone
                    break
                if str(fault) not in faults:
                    if not isinstance(fault, OSError):  # whose message says it all
                        traceback.print_exc()
                    self.report.run_reasons.append(Reason("fault", f"the judging failed, and was tried again: {fault}"))
                faults = [*faults, str(fault)] if self.is_over else [str(fault)]
                time.sleep(PAUSE)
        self.pool.shutdown()

    def judge_until_over(self) -> None:
        while not self.is_over:
            for name in self.having("piped.txt"):
                if name not in self.piped:
                    self.piped[name] = self.pipe(name)
            asked = [name for name in os.listdir(self.tests) if name.startswith("asked")]
            if not self.judge_all():
                time.sleep(PAUSE / 10 if asked else PAUSE)
            for name in asked:  # what was recorded before it asked is judged
                os.remove(os.path.join(self.tests, name))
        self.judge_all()
        faults = [(name, end_streams(os.path.join(self.folder, name))) for name in self.having("begun.txt")]
        self.judge_all()
        self.report.unrecorded += [Reason("not-recorded", f"not recorded: {fault}", [name.partition("-")[2]]) for name, fault in faults if fault]

    def pipe(self, name: str) -> Optional[Piped]:
        """Has a launch judged while it is recorded; where no process can be started for it, it is cut, and judged by what is in files."""
        try:
            return Piped(self.program, os.path.join(self.folder, name), self.starter)
        except OSError as fault:
            with self.lock:
                self.report.run_reasons.append(Reason("fault", f"{name} could not be judged while it was recorded, so that records of it are lost: {fault}"))
            return None

    def having(self, file: str) -> List[str]:
        """The folders with this file that are not judged yet."""
        names = [name for name in os.listdir(self.folder) if name not in self.seen and name.partition("-")[0].isdigit()]
        return [name for name in sorted(names, key=lambda name: (int(name.partition("-")[0]), name))
                if os.path.exists(os.path.join(self.folder, name, file))]

    def judge_all(self) -> bool:
        """Has the launches judged that have ended; answers whether there was one."""
        ended = self.having("info.txt")
        with self.lock:
            self.seen.update(ended)
            self.waiting += len(ended)
        list(self.pool.map(self.judge, ended))
        return bool(ended)

    def judge(self, name: str) -> None:
        path, piped = os.path.join(self.folder, name), self.piped.pop(name, None)
        if self.is_stopped:
            return
        launch = judged(self.program, path, piped)
        launch.seed = self.seed
        with self.lock:
            self.waiting -= 1
            if self.is_stopped:
                return
            self.report.add(launch)
            if launch.label:
                self.tell_test(launch)
        if not self.is_kept:
            judged_path = os.path.join(self.folder, f"judged-{name}")
            os.rename(path, judged_path)
            self.seen.discard(name)  # another process of the program may have a launch of this number
            shutil.rmtree(judged_path, ignore_errors=True)

    def tell_test(self, launch: Launch) -> None:
        new = [it for it in launch.findings if it.state == NEW and not it.is_doubtful]
        found = [{"fingerprint": it.fingerprint(), "text": list(it.lines())} for it in new]
        with open(os.path.join(self.tests, "judged"), "a") as out:
            out.write(json.dumps({"label": launch.label, "findings": found}) + "\n")

    def left(self) -> int:
        """How many launches have ended and are not judged."""
        return self.waiting + len(self.having("info.txt"))

    def stop(self) -> List[str]:
        """Nothing more is shown. Answers the kernels of the launches that were recorded and not judged; what kept one from being judged at the
        end is shown already."""
        files = ("info.txt", "begun.txt") if self.is_alive() else ("info.txt",)
        with self.lock:
            self.is_stopped = True
            judged_paths = {launch.folder for launch in self.report.launches}
            paths = [os.path.join(self.folder, name) for name in sorted(os.listdir(self.folder)) if name.partition("-")[0].isdigit()]
        infos = [[info_of(path, file)["kernel"] for file in files] for path in paths if path not in judged_paths]
        return [next(filter(None, kernels))[0] for kernels in infos if any(kernels)]

    def finish(self) -> None:
        """The program is over: waits until what is left is judged, the launches that it did not end too."""
        self.is_over = True
        with Progress(self.left()) as progress:
            while progress.bar and self.is_alive():
                progress.left(self.left())
                self.join(PAUSE * 5)
        self.join()
