"""Launches that are judged by the workers of a Dask scheduler, one of which is ended in the middle."""

import json
import os
import re
import shutil
import subprocess
import time
import unittest

from testing.launches import put_racy, put_right, put_script
from testing.program import TOP, RoomTest, python_with

PYTHON = python_with("distributed") if shutil.which("dask-scheduler") and shutil.which("dask-worker") else None
LAUNCHES = 16


@unittest.skipUnless(PYTHON, "python3-distributed is missing")
class Cluster(RoomTest):
    def setUp(self):
        super().setUp()
        self.slow = self.room / "gpurace"
        put_script(self.slow, f"[ \"$1\" = replay ] && sleep 0.3\nexec '{os.environ['GPURACE']}' \"$@\"\n")
        for number in range(LAUNCHES):
            (put_racy if number % 3 == 0 else put_right)(self.room / "kept", number)

    def start(self, *words):
        with open(self.room / f"{words[0]}.log", "w") as log:
            process = subprocess.Popen([*words, "--no-dashboard"], stdout=log, stderr=log, cwd=self.room)
        self.addCleanup(process.wait, 30)
        self.addCleanup(process.kill)
        return process

    def judge(self, name, *options):
        words = [PYTHON, str(TOP / "tools" / "gpurace-judge"), *options, "--json", str(self.room / name), str(self.room / "kept")]
        return subprocess.Popen(words, stdout=subprocess.PIPE, stderr=subprocess.STDOUT, text=True, env={**os.environ, "GPURACE_PROGRAM": str(self.slow)})

    def address(self):
        """That on which the scheduler listens."""
        end = time.monotonic() + 60
        while time.monotonic() < end:
            found = re.search(r"Scheduler at:\s+(tcp://\S+)", (self.room / "dask-scheduler.log").read_text())
            if found:
                return found[1]
            time.sleep(0.1)
        self.fail((self.room / "dask-scheduler.log").read_text())

    def test_a_worker_is_lost(self):
        self.start("dask-scheduler", "--host", "127.0.0.1", "--port", "0")
        address = self.address()
        workers = [self.start("dask-worker", address, "--nthreads", "1", "--no-nanny", "--name", name) for name in ("first", "second")]
        run = self.judge("cluster.json", "--scheduler", address)
        while "launch" not in run.stdout.readline():  # the first line comes when a launch is judged
            self.assertIsNone(run.poll())
        workers[0].kill()
        self.assertEqual((run.communicate(timeout=300)[1], run.returncode), (None, 1))
        alone = self.judge("alone.json", "--jobs", "1")
        self.assertEqual((alone.communicate(timeout=300)[1], alone.returncode), (None, 1))
        made = [json.loads((self.room / name).read_text()) for name in ("cluster.json", "alone.json")]
        self.assertEqual(made[0], made[1])
        self.assertEqual([it["number"] for it in made[0]["launches"]], list(range(LAUNCHES)))
        self.assertEqual([it["verdict"] for it in made[0]["launches"]], ["nothing" if number % 3 else "found" for number in range(LAUNCHES)])
