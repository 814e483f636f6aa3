"""Tests written as commands and what they print; tests/README.md says how."""

import contextlib
import dataclasses
import difflib
import os
import pathlib
import shutil
import subprocess
import tempfile
import typing

# how long one command may take, in seconds
SECONDS = 120
REST = "[..]"


class Unreadable(Exception):
    """A line of a transcript that has no meaning there."""


@dataclasses.dataclass
class Stored:
    """A file that the runs find: its text, or the stream or bytes that the text says."""

    kind: str  # text, stream or bytes
    name: str
    lines: typing.List[str] = dataclasses.field(default_factory=list)


@dataclasses.dataclass
class Run:
    name: str
    command: str = ""
    output: typing.List[str] = dataclasses.field(default_factory=list)
    errors: typing.List[str] = dataclasses.field(default_factory=list)
    status: int = 0


@dataclasses.dataclass
class Transcript:
    files: typing.List[Stored] = dataclasses.field(default_factory=list)
    runs: typing.List[Run] = dataclasses.field(default_factory=list)


def read(path, name):
    """The transcript that a file has."""
    lines = iter(enumerate(path.read_text().splitlines(), start=1))
    found = Transcript()
    for number, line in lines:
        kind, _, rest = line.partition(" ")
        if kind == "--":
            found.files.append(stored(rest, lines))
        elif kind == "#" and rest:
            found.runs.append(run_of(f"{name}: {rest}", lines, f"{path.name}:{number}"))
        elif line:
            raise Unreadable(f"{path.name}:{number}: neither a file (`-- KIND NAME`) nor a run (`# NAME`): {line}")
    return found


def stored(words, lines):
    """The file whose lines follow, up to an empty one."""
    kind, _, name = words.partition(" ")
    found = Stored(kind, name)
    for _, line in lines:
        if not line:
            break
        found.lines.append(line)
    return found


def run_of(name, lines, place):
    """The run whose command and outcome follow, up to its status."""
    found = Run(name)
    for _, line in lines:
        kind, _, rest = line.partition(" ")
        if not found.command and kind == "$":
            found.command = rest
        elif not found.command and kind == "#":
            continue
        elif kind == "=":
            found.status = int(rest)
            return found
        elif kind == "!":
            found.errors.append(rest)
        else:
            found.output.append(line)
    raise Unreadable(f"{place}: the run has no command and status")


def put_file(stored, program, folder):
    """Writes a stored file into a folder."""
    text = "".join(f"{line}\n" for line in stored.lines).encode()
    if stored.kind == "bytes":
        text = bytes.fromhex(text.decode())
    elif stored.kind == "stream":
        text = subprocess.run([program, "pack"], input=text, stdout=subprocess.PIPE, check=True).stdout
    elif stored.kind != "text":
        raise Unreadable(f"a file is `text`, `stream` or `bytes`, and not `{stored.kind}`: {stored.name}")
    path = folder / stored.name
    path.parent.mkdir(parents=True, exist_ok=True)
    path.write_bytes(text)


@contextlib.contextmanager
def room(program, top):
    """A folder to run commands in, with the examples, the tools and the program that is tested, which is `gpurace` there; and the
    environment of the commands."""
    place = pathlib.Path(tempfile.mkdtemp(prefix="gpurace-test-"))
    try:
        folder = place / "here"
        for made in (folder, place / "bin"):
            made.mkdir()
        for link in (place / "bin" / "gpurace", folder / "gpurace"):
            link.symlink_to(program)
        for name in ("examples", "tools"):
            (folder / name).symlink_to(top / name)
        yield folder, {"PATH": f"{place / 'bin'}:{os.environ.get('PATH', os.defpath)}", "LC_ALL": "C.UTF-8", "TMPDIR": str(place)}
    finally:
        shutil.rmtree(place, ignore_errors=True)


def made_by(command, folder, environ):
    """What a command writes, what it says on standard error, and its status."""
    try:
        ran = subprocess.run(["sh", "-c", command], cwd=folder, env=environ, stdin=subprocess.DEVNULL, stdout=subprocess.PIPE, stderr=subprocess.PIPE, timeout=SECONDS)
    except subprocess.TimeoutExpired:
        return [f"(no end within {SECONDS} seconds)"], [], -1
    return lines_of(ran.stdout), lines_of(ran.stderr), ran.returncode


def lines_of(written):
    """The lines of what was written. A last line without its line feed ends in a backslash."""
    text = written.decode(errors="backslashreplace")
    lines = text.split("\n")
    last = lines.pop()
    return lines + [f"{last}\\"] if last else lines


def is_as_expected(lines, expected):
    """Whether lines are those that are expected; `[..]` may replace the rest of a line, or all further lines."""
    if expected and expected[-1] == REST:
        expected = expected[:-1]
        lines = lines[: len(expected)]
    if len(lines) != len(expected):
        return False
    return all(line.startswith(it[: -len(REST)]) if it.endswith(REST) else line == it for line, it in zip(lines, expected))


def difference_of(run, output, errors, status):
    """The difference between what is expected of a run and what came of it, or an empty text."""
    if status == run.status and is_as_expected(output, run.output) and is_as_expected(errors, run.errors):
        return ""
    expected = run.output + [f"! {line}" for line in run.errors] + [f"= {run.status}"]
    made = output + [f"! {line}" for line in errors] + [f"= {status}"]
    shown = list(difflib.unified_diff(expected, made, "expected", "made", lineterm="", n=2))[2:]
    return "\n".join([f"$ {run.command}"] + shown[:60]) + "\n"


def differences(transcript, program, top, is_wanted):
    """Makes the runs in a folder of their own, and gives each wanted one with its difference. A run may use what those above it
    wrote, so all up to the last wanted one are made."""
    wanted = [number for number, it in enumerate(transcript.runs) if is_wanted(it.name)]
    if not wanted:
        return
    with room(program, top) as (folder, environ):
        for it in transcript.files:
            put_file(it, program, folder)
        for run in transcript.runs[: wanted[-1] + 1]:
            difference = difference_of(run, *made_by(run.command, folder, environ))
            if is_wanted(run.name):
                yield run, difference
