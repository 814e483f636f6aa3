"""Each example by every command that judges it."""

import unittest

from testing.program import TOP, ProgramTest

SETTINGS = (("1", "1", "1"), ("2", "1", "1024"), ("3", "3", "2"), ("8", "4", "65536"))


def streams_of(text):
    """The text of each stream."""
    return [f"group {it}" for it in text.split("group ")[1:]]


def races_of(report):
    return {line for line in report.decode().splitlines() if line.startswith("race ")}


class Example(ProgramTest):
    """The tests of one example, which a class for each example below has."""

    path = None

    def setUp(self):
        super().setUp()
        self.text = (self.path / "trace.txt").read_bytes()
        self.report = (self.path / "report.txt").read_bytes()
        counts = dict(zip(*[iter(self.report.decode().split("\nend ")[1].split())] * 2))
        self.status = int(any(counts[it] != "0" for it in ("races", "diverge", "unmatched")))
        self.stream = self.gpurace("pack", given=self.text).stdout
        self.names = []
        for number, text in enumerate(streams_of(self.text.decode())):
            self.names.append(self.put(f"stream{number}", self.gpurace("pack", given=text.encode()).stdout).name)

    def examine_replay(self):
        self.assert_run(self.gpurace("replay", given=self.stream), self.report, self.status)

    def examine_dump(self):
        self.assert_run(self.gpurace("dump", given=self.stream), self.text, 0)

    def examine_upgrade(self):
        upgraded = self.gpurace("upgrade", given=self.stream).stdout
        self.assert_run(self.gpurace("replay", given=upgraded), self.report, self.status)

    def examine_run(self):
        for workers, queues, capacity in SETTINGS:
            words = ("--workers", workers, "--queues", queues, "--capacity", capacity)
            self.assert_run(self.gpurace("run", *words, *self.names), self.report, self.status)

    def examine_explain(self):
        for line in races_of(self.report):
            words = line.split()[1:]
            place = ("g", words[1]) if words[0] == "global" else (f"l{words[1]}", words[2])
            ran = self.gpurace("explain", *place, *self.names)
            self.assertEqual((ran.stdout.decode().partition(":")[0], ran.returncode), (line, 1))

    def examine_races(self):
        ran = self.gpurace("races", *self.names)
        self.assertEqual(ran.returncode, int(bool(races_of(self.report))))
        self.assertIn(f"races {len(races_of(self.report))}", ran.stdout.decode().splitlines()[-1])


def load_tests(loader, standard_tests, pattern):
    """A test of each example by each command."""
    suite = unittest.TestSuite()
    for path in sorted((TOP / "examples").iterdir()):
        if path.is_dir():
            for name in [it for it in dir(Example) if it.startswith("examine_")]:
                made = type("Example", (Example,), {"path": path, f"test_{path.name}_by_{name[8:]}": getattr(Example, name)})
                suite.addTest(made(f"test_{path.name}_by_{name[8:]}"))
    return suite
