"""Runs a program under a recorder, and says how it ended."""
from __future__ import annotations

import contextlib
import fcntl
import glob
import os
import re
import shutil
import signal
import stat
import subprocess
import tempfile
import time
from typing import Callable, Dict, Iterator, List, Optional, Tuple

from .folders import Info, info_of, kept_of, mapped, streams_in, streams_of
from .judging import Reason, count
from .pipes import dies_with_us

TOOLS = os.path.dirname(os.path.dirname(os.path.realpath(__file__)))
CLOSES = 10.0   # seconds that a program has to end after a signal
TOGETHER = 1.0  # seconds, in which signals are one
SHARED_MEMORY, LEAST_ROOM = "/dev/shm", 1 << 30
ALL_NOTED = "all-noted"  # a file that the recorder removes, which takes no room, where it can't note a launch that it has not recorded
TIMED_OUT = 124  # the status of a program that the recorder has ended


class Stopped(KeyboardInterrupt):
    """Ctrl-C, SIGTERM or SIGHUP came."""

    def __init__(self, number: int):
        super().__init__(number)
        self.number = number


def stop_at_signals() -> None:
    """Has signals raise `Stopped`, but one that is ignored, as under nohup. Those that come together are one: `timeout` sends its signal twice."""
    times = [-TOGETHER]

    def stop(number: int, _: object) -> None:
        times.append(time.monotonic())
        if times[-1] - times[-2] >= TOGETHER:
            raise Stopped(number)

    for number in (signal.SIGINT, signal.SIGTERM, signal.SIGHUP):
        if signal.getsignal(number) != signal.SIG_IGN:
            signal.signal(number, stop)


class Run:
    """A run of the program: its status, negative where a signal ended it, and what stopped it."""

    def __init__(self, words: List[str], variables: Dict[str, str], lock: int):
        """The program keeps the lock of the folder that it writes to."""
        self.stopped_by = ""
        with subprocess.Popen([*dies_with_us(), *words], env=variables, pass_fds=[lock]) as program:
            self.status = self.wait(program)
        if self.stopped_by:
            end_others(variables["GPURACE_OUT"])

    def wait(self, program: subprocess.Popen) -> int:
        """A signal that stops us stops the program, too: it is sent there, and SIGKILL where that doesn't end it. A terminal sends Ctrl-C to
        both, and the program may take a second one for another wish, so it has time to end by the first."""
        sent: List[Tuple[float, int]] = []  # after how many seconds which signal is sent
        while True:
            try:
                return program.wait(sent[0][0] if sent else None)
            except Stopped as why:
                if not self.stopped_by:
                    self.stopped_by = "Ctrl-C" if why.number == signal.SIGINT else signal_name(why.number)
                    sent = [(CLOSES / 2 if why.number == signal.SIGINT else 0.0, why.number), (CLOSES, signal.SIGKILL)]
            except subprocess.TimeoutExpired:
                program.send_signal(sent.pop(0)[1])

    def reasons(self, timeout: Optional[str], is_ignored: bool) -> List[Reason]:
        """Why the run may not have launched all that it should."""
        if self.stopped_by:
            return [Reason("stopped", f"{self.stopped_by} stopped the program")]
        if timeout and self.status == TIMED_OUT:
            return [Reason("timeout", f"a kernel had not ended after {timeout} s, which stopped the program")]
        if self.status == 0 or is_ignored:
            return []
        if self.status > 0:
            return [Reason("program-status", f"the program ended with status {self.status}")]
        return [Reason("program-signal", f"the program ended with signal {-self.status} ({signal_name(-self.status)})")]


def signalled(folder: str, number: int) -> bool:
    """Sends a signal to the processes that have the recorder's layer and write to this folder. Answers whether there are any."""
    found = []
    for pid in filter(str.isdigit, os.listdir("/proc") if os.path.isdir("/proc") else ()):
        with contextlib.suppress(OSError), open(f"/proc/{pid}/environ", "rb") as variables, open(f"/proc/{pid}/maps", "rb") as files:
            if b"GPURACE_OUT=" + os.fsencode(folder) in variables.read().split(b"\0") and b"/layer.so\n" in files.read():
                os.kill(int(pid), number)
                found.append(pid)
    return bool(found)


def end_others(folder: str) -> None:
    """The program was stopped. What it has started, as a script does, is stopped, too, and may still write what is recorded."""
    ends_at = time.monotonic() + CLOSES
    is_left = signalled(folder, signal.SIGTERM)
    with contextlib.suppress(Stopped):
        while is_left and time.monotonic() < ends_at:
            time.sleep(0.05)
            is_left = signalled(folder, 0)
    if is_left:
        signalled(folder, signal.SIGKILL)


def under_way(folder: str) -> List[Reason]:
    """The launches that had not ended when the program did, and what there is of them."""
    infos = ((path, info_of(path, "begun.txt")) for path in sorted(glob.glob(os.path.join(glob.escape(folder), "*"))))
    return [Reason("cut", text_of_begun(path, info)) for path, info in infos if info["groups"]]


def text_of_begun(path: str, info: Info) -> str:
    sizes = ", ".join(f"{which} size {size_text(info[which][0])}" for which in ("global", "local"))
    text = f"launch {info['launch'][0]}, {info['kernel'][0]}, was under way ({sizes})"
    if os.path.exists(os.path.join(path, "piped.txt")):  # files have only the first records
        return text
    files = streams_of(path) + glob.glob(os.path.join(glob.escape(path), "*.part"))
    streams = [stream for file in files for stream in streams_in(mapped(file))]
    ended, records = sum(stream.end is not None and not stream.is_cut for stream in streams), sum(stream.records for stream in streams)
    return f"{text}: it left {count(records, 'record')}, and {ended} of {count(kept_of(info), 'work-group')} were recorded to their end"


def size_text(sizes: str) -> str:
    """Three sizes, without the last ones that are 1."""
    return re.sub("(?: 1){1,2}$", "", sizes).replace(" ", " x ")


def signal_name(number: int) -> str:
    try:
        return signal.Signals(number).name
    except ValueError:
        return "unknown"


def cache() -> str:
    """The user's folder for what is kept between runs; where HOME can't be written one below TMPDIR, of this user alone."""
    usual = os.path.join(os.environ.get("XDG_CACHE_HOME") or os.path.expanduser("~/.cache"), "gpurace")
    other = os.path.join(tempfile.gettempdir(), f"gpurace_of_{os.getuid()}")
    for folder in (usual, other):
        with contextlib.suppress(OSError):
            os.makedirs(folder, 0o700, exist_ok=True)
            state = os.lstat(folder)
            is_alone = stat.S_ISDIR(state.st_mode) and state.st_uid == os.getuid() and not state.st_mode & 0o077
            if os.access(folder, os.W_OK) and (is_alone or folder == usual):
                return folder
    raise Missing(f"neither {usual} nor {other} can be written by this user alone: let XDG_CACHE_HOME name a folder that can")


def of_tests(folder: str, is_judged: bool) -> Dict[str, str]:
    """What a program that runs tests needs to say which one makes a launch, and to get what was found: the plugin of pytest does both."""
    plugins = os.path.join(os.path.dirname(os.path.realpath(__file__)), "plugin")
    paths = [plugins] + ([os.environ["PYTHONPATH"]] if os.environ.get("PYTHONPATH") else [])
    return {"PYTHONPATH": os.pathsep.join(paths), "GPURACE_TESTS": folder if is_judged else "",
            "GPURACE_LABEL": os.environ.get("GPURACE_LABEL") or os.path.join(folder, "label")}


def room() -> Optional[str]:
    """The folder for launches that are not kept: in memory, where there is room. On a disk it takes longer to make and remove their files
    than to judge them."""
    if os.environ.get("TMPDIR") or not os.access(SHARED_MEMORY, os.W_OK):
        return None
    sizes = os.statvfs(SHARED_MEMORY)
    return SHARED_MEMORY if sizes.f_bavail * sizes.f_frsize >= LEAST_ROOM else None


@contextlib.contextmanager
def folder_of_run() -> Iterator[Tuple[str, int]]:
    """A folder for launches, and the lock of it. One that a killed run has left, and whose program has ended, is removed."""
    for lock in glob.glob(os.path.join(room() or tempfile.gettempdir(), "gpurace-*", "lock")):
        with contextlib.suppress(OSError), open(lock) as held:  # or it is in use
            fcntl.flock(held, fcntl.LOCK_EX | fcntl.LOCK_NB)
            shutil.rmtree(os.path.dirname(lock), ignore_errors=True)
    with tempfile.TemporaryDirectory(prefix="gpurace-", dir=room()) as folder, open(os.path.join(folder, "new"), "w") as lock_file:
        with contextlib.suppress(OSError):  # where there are no locks nothing is removed
            fcntl.flock(lock_file, fcntl.LOCK_EX)
            os.rename(lock_file.name, os.path.join(folder, "lock"))
        yield folder, lock_file.fileno()


def begin(folder: str) -> None:
    """Makes the folder to which launches go."""
    os.makedirs(folder, exist_ok=True)
    with open(os.path.join(folder, ALL_NOTED), "w"):
        pass


def end(folder: str) -> List[Reason]:
    """What is not known of the launches that the recorder has left to the driver."""
    try:
        os.remove(os.path.join(folder, ALL_NOTED))
    except FileNotFoundError:
        return [Reason("not-recorded", "not recorded: launches that could not be noted either, as where the disk is full")]
    return []


class Missing(Exception):
    """What is needed and not there."""


def missing_of(needed: List[Tuple[str, str]]) -> List[str]:
    """The packages of those commands and files that are not there."""
    return [package for name, package in needed if not (os.path.exists(name) or shutil.which(name))]


def build(name: str, takes: str, folder: str, own: str, parts: List[str], sources: List[str], missing: List[str], say: Callable[[str], None]) -> str:
    """The folder with these parts of a recorder, which make builds where one is missing or older than the sources; one process at a time. Who can't
    write to the recorder's folder takes what is built there, or has a folder of this name."""
    newest, out = max(map(os.path.getmtime, sources)), os.path.join(folder, "out")

    def is_built() -> bool:
        paths = [os.path.join(out, part) for part in parts]
        return all(os.access(path, os.R_OK) and os.path.getmtime(path) >= newest for path in paths)

    if not is_built() and not os.access(folder, os.W_OK):
        out = os.path.join(cache(), own)
    if is_built():
        return out
    if missing:
        raise Missing(f"building {name} needs packages that are missing (Debian: apt-get install {' '.join(missing)})")
    try:
        os.makedirs(out, exist_ok=True)
        lock = open(os.path.join(out, "lock"), "w")
    except OSError as error:
        raise Missing(f"{name} could not be built: {error.filename}: {error.strerror}") from None
    with lock:
        fcntl.flock(lock, fcntl.LOCK_EX)
        if is_built():  # by who had the lock before
            return out
        say(f"building {name}, which takes {takes} the first time")
        built = subprocess.run(["make", "-s", f"-j{os.cpu_count() or 2}", "-C", folder, f"OUT={os.path.relpath(out, folder)}"], capture_output=True, text=True)
        if built.returncode != 0:
            raise Missing(f"{name} could not be built:\n" + built.stderr)
        for part in parts:
            os.utime(os.path.join(out, part))
    return out
