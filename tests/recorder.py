"""The recorders: what is said of kernels that are recorded natively and on the simulator."""

import os
import shutil
import subprocess
import sys
import unittest

from testing.program import TOP

RECORDER = TOP / "tools" / "recorder"
SIMULATOR = ("oclgrind", "oclgrind-kernel", "llvm-config-14", "c++", "cc", "make")
NATIVE = ("clang-15", "llvm-config-15", "c++", "make")


class Recorder(unittest.TestCase):
    def assert_passes(self, *words):
        environ = {**os.environ, "GPURACE_PROGRAM": os.environ["GPURACE"]}
        ran = subprocess.run(words, env=environ, stdout=subprocess.PIPE, stderr=subprocess.STDOUT, timeout=1800, check=False)
        self.assertEqual(ran.returncode, 0, ran.stdout.decode(errors="replace"))
        return ran.stdout.decode(errors="replace")

    def want(self, commands):
        missing = [it for it in commands if not shutil.which(it)]
        if missing:
            self.skipTest(f"this recorder wants {', '.join(missing)}")

    def test_kernels_on_the_simulator(self):
        self.want(SIMULATOR)
        said = self.assert_passes("sh", RECORDER / "check.sh")
        if "SKIPPED" in said:
            self.skipTest(said.strip())

    def test_kernels_on_the_host(self):
        self.want(NATIVE)
        self.assert_passes(sys.executable, TOP / "recorder" / "tests" / "run")
