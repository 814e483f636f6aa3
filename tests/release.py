"""The program in release/, and the script that runs it."""

import os
import pathlib
import shutil
import subprocess
import tempfile
import unittest

from testing.launches import put_racy
from testing.program import TOP, pack


def copy_of_repository(to):
    """A repository with the program that is tested as its release, and as what rt ci built."""
    for name in ("gpurace", "crates.txt", "HANDLES"):
        shutil.copy2(TOP / name, to / name)
    shutil.copytree(TOP / "tools", to / "tools")
    shutil.copytree(TOP / "recorder", to / "recorder", ignore=shutil.ignore_patterns("out"))
    shutil.copytree(TOP / "crates", to / "crates", ignore=shutil.ignore_patterns("out", "proofs", "wrong", "must-fail"))
    built = to / "crates" / "gr_cli" / "out" / "gr_cli"
    built.parent.mkdir()
    shutil.copyfile(os.environ["GPURACE"], built)
    built.chmod(0o755)
    kit = to / "kit" / "rt"
    kit.parent.mkdir()
    kit.write_text("#!/bin/sh\necho a kit\n")
    kit.chmod(0o755)
    return built


class Release(unittest.TestCase):
    def setUp(self):
        self.top = pathlib.Path(tempfile.mkdtemp(prefix="gpurace-test-"))
        self.addCleanup(shutil.rmtree, self.top, ignore_errors=True)
        self.built = copy_of_repository(self.top)
        self.source = self.top / "crates" / "gr_model" / "src" / "lib.rt"
        self.definition = self.top / "crates" / "gr_model" / "specs" / "Races.antt"
        self.assertEqual(self.release("take").returncode, 0)

    def release(self, *words):
        environ = {**os.environ, "PATH": f"{self.top / 'kit'}:{os.environ['PATH']}"}
        return subprocess.run([self.top / "tools" / "release", *words], stdout=subprocess.PIPE, stderr=subprocess.PIPE, env=environ, check=False)

    def script(self, *words, **settings):
        settings = {"input": b"", "stdout": subprocess.PIPE, "stderr": subprocess.PIPE, "check": False, **settings}
        return subprocess.run([self.top / "gpurace", *words], **settings)

    def change_a_byte(self):
        kept = self.top / "release" / "gpurace"
        content = bytearray(kept.read_bytes())
        content[-1] ^= 1
        kept.write_bytes(content)

    def test_what_was_taken_is_accepted(self):
        self.assertEqual(self.release("check", "--strict").returncode, 0)
        self.assertEqual((self.top / "release" / "KIT").read_text(), "a kit\n")

    def test_a_changed_byte_is_refused(self):
        self.change_a_byte()
        self.assertEqual(self.release("check").returncode, 1)
        self.assertEqual(self.release("check", "--strict").returncode, 1)

    def test_a_changed_source_or_definition_is_named_and_strictly_refused(self):
        for changed in (self.source, self.definition):
            self.assertEqual(self.release("take").returncode, 0)
            changed.write_text(changed.read_text() + "\n")
            self.assertIn(b": %s\n" % bytes(changed.relative_to(self.top)), self.release("check").stderr)
            self.assertEqual(self.release("check").returncode, 0)
            self.assertEqual(self.release("check", "--strict").returncode, 1)

    def test_an_added_source_is_strictly_refused(self):
        (self.source.parent / "more.rt").write_text("")
        self.assertEqual(self.release("check", "--strict").returncode, 1)

    def test_a_part_of_the_release_that_is_missing_is_refused(self):
        for name in ("SOURCES", "KIT"):
            self.assertEqual(self.release("take").returncode, 0)
            (self.top / "release" / name).unlink()
            self.assertEqual(self.release("check").returncode, 1)

    def test_the_script_runs_what_was_built_while_no_source_is_newer(self):
        self.assertEqual(self.script("--which").stdout, b"%s\n" % bytes(self.built))
        later = self.built.stat().st_mtime + 10
        os.utime(self.source, (later, later))
        self.assertEqual(self.script("--which").stdout, b"%s\n" % bytes(self.top / "release" / "gpurace"))

    def test_the_script_runs_the_release_of_a_new_clone_and_says_nothing(self):
        self.built.unlink()
        race = pack("group 0 items 2 launch 7\n0 w g 16\n1 r g 16\nend\n")
        ran = self.script("replay", input=race)
        self.assertEqual((ran.returncode, ran.stderr), (1, b""))
        self.assertIn(b"race global 16\n", ran.stdout)

    def test_the_script_says_what_a_program_that_does_not_run_wants(self):
        self.built.unlink()
        (self.top / "release" / "gpurace").write_bytes(b"\x7fELF of another machine")
        ran = self.script("replay")
        self.assertEqual((ran.returncode, ran.stdout), (70, b""))
        self.assertIn(b"glibc 2.34", ran.stderr)

    def test_the_script_says_that_there_is_no_program(self):
        self.built.unlink()
        (self.top / "release" / "gpurace").unlink()
        self.assertEqual(self.script("replay").returncode, 70)

    def test_the_script_installs_the_program(self):
        self.assertEqual(self.script("--install", self.top / "somewhere" / "bin").returncode, 0)
        installed = self.top / "somewhere" / "bin" / "gpurace"
        ran = subprocess.run([installed, "--version"], stdout=subprocess.PIPE, check=True)
        self.assertTrue(ran.stdout.startswith(b"gpurace "))

    def test_the_script_installs_what_records_and_judges(self):
        """It needs nothing of the tree, and takes the program beside it, or that on the path."""
        place = self.top / "somewhere" / "bin"
        for _ in range(2):  # also where it is installed already
            self.assertEqual(self.script("--install", place).returncode, 0)
        put_racy(self.top / "kept")
        for name in ("gpurace", "crates", "tools", "recorder"):
            (self.top / name).rename(self.top / f"{name}-moved")
        environ = {"PATH": "/usr/bin:/bin"}
        ran = subprocess.run([place / "gpurace-judge", self.top / "kept"], stdout=subprocess.PIPE, stderr=subprocess.PIPE, env=environ, check=False)
        self.assertEqual(ran.returncode, 1)
        self.assertIn(b"race on tile[8] of group 0", ran.stdout)
        (place / "gpurace").rename(self.top / "gpurace")
        ran = subprocess.run([place / "gpurace-judge", self.top / "kept"], stdout=subprocess.PIPE, stderr=subprocess.PIPE, env={"PATH": f"/usr/bin:/bin:{self.top}"}, check=False)
        self.assertEqual(ran.returncode, 1)
        ran = subprocess.run([place / "gpurace-record", "--help"], stdout=subprocess.PIPE, env=environ, check=False)
        self.assertIn(b"usage: gpurace-record", ran.stdout)

    def test_the_script_wants_a_folder_to_install_to(self):
        self.assertEqual(self.script("--install").returncode, 3)

    def test_the_script_says_what_a_build_wants(self):
        ran = self.script("--build", env={"PATH": "/usr/bin:/bin"})
        self.assertEqual(ran.returncode, 70)
        self.assertIn(b"the Rattle kit's rt is not on the path", ran.stderr)
