"""The streams of launches, judged through pipes while they are recorded."""
from __future__ import annotations

import atexit
import contextlib
import glob
import os
import shutil
import subprocess
from typing import Any, Callable, List, Tuple

from .folders import JOINED, Info, end_files, streams_of

STILL_OURS = ["sh", "-c", '[ "$PPID" = "$0" ] && exec "$@"', str(os.getpid())]


def dies_with_us() -> List[str]:
    """The words before those of a process that ends with the thread that starts it, however that ends; none where there is no setpriv."""
    return ["setpriv", "--pdeathsig", "KILL"] if shutil.which("setpriv") else []


def start(words: List[str], **more: Any) -> subprocess.Popen:
    """Starts a process that Ctrl-C is not for, and that ends with us."""
    words = dies_with_us() + STILL_OURS + words
    return subprocess.Popen(words, stdout=subprocess.PIPE, stderr=subprocess.DEVNULL,
                            start_new_session=True, **more)


def bounded(words: List[str]) -> List[str]:
    """A process that may have the memory that is free now, and ends where it wants more, in place of another one."""
    with contextlib.suppress(OSError), open("/proc/meminfo") as lines:
        free = next((line.split()[1] for line in lines if line.startswith("MemAvailable:")), "")
        if free and shutil.which("prlimit"):
            return ["prlimit", f"--as={int(free) * 1024}", *words]
    return words


class Piped:
    """gpurace reads the streams of a launch while it is recorded: of each group, or of all, a file and then a pipe."""

    def __init__(self, program: str, folder: str, starter: Callable[..., subprocess.Popen] = start):
        """OSError where a process can't be started. The pipes are gone then, so that the recorder takes the records that it has for them as lost."""
        self.folder = folder
        self.started: List[subprocess.Popen] = []
        atexit.register(self.kill)
        try:
            self.reads, self.run = self.start(program, starter)
        except OSError:
            self.kill()
            for pipe in self.pipes():
                os.unlink(pipe)
            raise

    def start(self, program: str, starter: Callable[..., subprocess.Popen]) -> Tuple[List[subprocess.Popen], subprocess.Popen]:
        """Starts a process that reads each stream, and the one that judges them."""
        streams = streams_of(self.folder)
        streams += [pipe[:-5] for pipe in self.pipes() if pipe[:-5] not in streams]
        for stream in streams:
            self.started.append(starter(["cat", *filter(os.path.exists, (stream, stream + ".pipe"))]))
        reads = list(self.started)
        outputs = [read.stdout for read in reads if read.stdout]
        files = [output.fileno() for output in outputs]
        words = [program, "run", "--capacity", "65536", "--queues", "4", *(f"/dev/fd/{file}" for file in files)]
        is_joined = os.path.join(self.folder, JOINED) in streams
        self.started.append(starter(bounded([program, "replay"]), stdin=files[0]) if is_joined else starter(bounded(words), pass_fds=files))
        for output in outputs:
            output.close()
        return reads, self.started[-1]

    def kill(self) -> None:
        for process in self.started:
            process.kill()

    def pipes(self) -> List[str]:
        return sorted(glob.glob(os.path.join(glob.escape(self.folder), "*.pipe")))

    def finish(self, info: Info) -> Tuple[int, List[str]]:
        """The launch is over: the status and the lines of its report. Pipes that nobody has written to end, too."""
        for pipe in self.pipes():
            file = os.open(pipe, os.O_RDWR | os.O_NONBLOCK)  # who waits for a writer has had one
            os.unlink(pipe)
            os.close(file)
        report = self.run.communicate()[0].decode().splitlines()
        for read in self.reads:
            read.wait()
        end_files(self.folder, info)
        return self.run.returncode, report
