"""What tests that are written in Python use: the program, folders, traces."""

import contextlib
import os
import pathlib
import shutil
import struct
import subprocess
import sys
import tempfile
import unittest

TOP = pathlib.Path(__file__).resolve().parent.parent.parent
SECONDS = 120


def python_with(*modules):
    """A Python that has these modules: that which runs the tests, or that of Debian's packages; None where neither has them."""
    for python in (sys.executable, "/usr/bin/python3"):
        words = [python, "-c", "".join(f"import {name}\n" for name in modules)]
        if os.path.exists(python) and subprocess.run(words, stderr=subprocess.DEVNULL, check=False).returncode == 0:
            return python
    return None


def read_terminal(file):
    """What was written to a terminal, whose end is an error."""
    parts = []
    with contextlib.suppress(OSError):
        while part := os.read(file, 1 << 16):
            parts.append(part)
    return b"".join(parts)


def pack(text):
    """The bytes of the streams that a text says."""
    return subprocess.run([os.environ["GPURACE"], "pack"], input=text.encode(), stdout=subprocess.PIPE, check=True).stdout


def header(group, items, launch=7):
    """The bytes of a header of version 1."""
    return b"GRT1" + struct.pack("<HHI", group, items, launch)


def access(item, kind, space, word):
    """The bytes of a plain read (kind 0) or write (kind 1) of a word of global (space 0) or local (space 1) memory."""
    return struct.pack("<BBBBHHI", kind, space, 0, 0, item, 0, word) + b"\xff" * 8


END = b"\x06" + bytes(11) + b"\xff" * 8


class RoomTest(unittest.TestCase):
    """A test with a folder of its own."""

    def setUp(self):
        self.room = pathlib.Path(tempfile.mkdtemp(prefix="gpurace-test-"))
        self.addCleanup(shutil.rmtree, self.room, ignore_errors=True)


class ProgramTest(RoomTest):
    """A test of the program, in a folder of its own."""

    def setUp(self):
        super().setUp()
        self.folder = self.room

    def gpurace(self, *words, given=b"", **settings):
        """Runs the program on these words and this standard input."""
        settings = {"stdout": subprocess.PIPE, "stderr": subprocess.PIPE, "timeout": SECONDS, "cwd": self.folder, **settings}
        return subprocess.run([os.environ["GPURACE"], *map(str, words)], input=given, check=False, **settings)

    def put(self, name, content):
        """Writes a file into the test's folder."""
        path = self.folder / name
        path.write_bytes(content)
        return path

    def assert_run(self, ran, output, status, errors=b""):
        """What a run wrote, its status and what it said on standard error are these."""
        self.assertEqual((ran.stdout, ran.returncode, ran.stderr), (output, status, errors))
