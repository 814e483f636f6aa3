"""Where gpurace-record has the recorder built, and what it keeps between runs."""

import os
import pathlib
import shutil
import subprocess
import sys

from testing.program import TOP, RoomTest

MAKEFILE = "all:\n\tmkdir -p $(OUT) && echo built > $(OUT)/part\n"
CACHE = "print(recording.cache())"
BUILD = """
can, is_mine = os.access, sys.argv[2] == "mine"
os.access = lambda path, mode: can(path, mode) and (is_mine or (path, mode) != ("recorder", os.W_OK))
print(recording.build("a part", "no time", "recorder", "own", ["part"], ["recorder/Makefile"], [], lambda text: None))
"""


class Building(RoomTest):
    def setUp(self):
        super().setUp()
        (self.room / "tmp").mkdir()
        self.cached = "kept"

    def said(self, code, *words):
        """What this says with the package's module `recording`."""
        head = "import os, sys\nsys.path.insert(0, sys.argv[1])\nfrom gpurace_record import recording\n"
        environ = {**os.environ, "XDG_CACHE_HOME": self.cached, "TMPDIR": "tmp", "PYTHONDONTWRITEBYTECODE": "1"}
        ran = subprocess.run([sys.executable, "-c", head + code, str(TOP / "tools"), *words], stdout=subprocess.PIPE, stderr=subprocess.PIPE, text=True,
                             cwd=self.room, env=environ, check=False)
        return (ran.stdout or ran.stderr).splitlines()[-1]

    def test_what_is_kept_is_the_user_s_own(self):
        self.assertEqual(self.said(CACHE), "kept/gpurace")

    def test_where_home_can_t_be_written_there_is_another_folder_of_the_user_alone(self):
        self.cached = os.devnull
        other = pathlib.Path(self.said(CACHE))
        self.assertEqual((other.parent, other.stat().st_mode & 0o777), (self.room / "tmp", 0o700))
        self.assertEqual(self.said(CACHE), str(other), "it is taken again")
        other.chmod(0o770)
        self.assertIn("XDG_CACHE_HOME name a folder", self.said(CACHE))
        other.rename(self.room / "mine")
        (self.room / "mine").chmod(0o700)
        other.symlink_to(self.room / "mine")
        self.assertIn("XDG_CACHE_HOME name a folder", self.said(CACHE))

    def test_what_another_user_has_built_is_taken(self):
        if not shutil.which("make"):
            self.skipTest("make is missing")
        folder = self.room / "recorder"
        folder.mkdir()
        (folder / "Makefile").write_text(MAKEFILE)
        self.assertEqual(self.said(BUILD, "another's"), "kept/gpurace/own", "there is none")
        self.assertEqual(self.said(BUILD, "mine"), "recorder/out")
        self.assertEqual(self.said(BUILD, "another's"), "recorder/out")
        os.utime(folder / "out" / "part", (999, 999))
        self.assertEqual(self.said(BUILD, "another's"), "kept/gpurace/own", "it is older than its source")
        self.assertEqual(self.said(BUILD, "mine"), "recorder/out")
