"""The C header for producers: what it refuses, and what it writes."""

import os
import shutil
import subprocess
import unittest

from testing.program import TOP


class Header(unittest.TestCase):
    def test_its_programs_write_and_refuse_as_they_are_to(self):
        for compiler in (os.environ.get("CC", "cc"), os.environ.get("CXX", "c++")):
            if not shutil.which(compiler):
                self.skipTest(f"there is no compiler `{compiler}`")
        environ = {**os.environ, "GPURACE_PROGRAM": os.environ["GPURACE"]}
        ran = subprocess.run(["sh", TOP / "tools" / "check_header.sh"], env=environ, stdout=subprocess.PIPE, stderr=subprocess.STDOUT, timeout=240, check=False)
        self.assertEqual(ran.returncode, 0, ran.stdout.decode(errors="replace"))
