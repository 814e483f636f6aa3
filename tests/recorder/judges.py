"""Launches that are judged while they are recorded, by a recorder that the test plays."""

import os
import time

from testing.launches import info, put_launch, put_right, put_script
from testing.program import RoomTest

from gpurace_record.judges import Judge
from gpurace_record.judging import Reason
from gpurace_record.report import Report


class Judges(RoomTest):
    def setUp(self):
        super().setUp()
        (self.room / "tests").mkdir()
        self.folder = self.room / "kept" / "000-sums"
        self.pipe = self.folder / "group00.gpurace.pipe"
        self.report = Report(show=lambda line: None)
        self.judge = Judge(os.environ["GPURACE"], str(self.room / "kept"), self.report, True, 1, None, str(self.room / "tests"))

    def put(self):
        """A launch under way: a write of each item is in the file, and what comes then would go through the pipe."""
        put_launch(self.folder, ["group 0 items 2 launch 0\n0 w g 5\n1 w g 5\nend\n"], {"begun.txt": info("sums", 0).partition("items")[0]})
        stream = self.folder / "group00.gpurace"
        stream.write_bytes(stream.read_bytes()[:12 + 2 * 20])
        os.mkfifo(self.pipe)
        (self.folder / "piped.txt").write_text("\n")

    def wait(self, is_so):
        end = time.monotonic() + 60
        while not is_so():
            self.assertLess(time.monotonic(), end)
            time.sleep(0.01)

    def is_written(self, rest):
        """Writes into the pipe where a process reads it, and does not wait for one."""
        try:
            out = os.open(self.pipe, os.O_WRONLY | os.O_NONBLOCK)
        except OSError:
            return False
        os.write(out, rest)
        os.close(out)
        return True

    def end(self, more=""):
        """As the recorder does when the last group has ended."""
        part = self.folder / "info.part"
        part.write_text(info("sums", 0, more=more))
        part.rename(self.folder / "info.txt")
        (self.folder / "begun.txt").unlink()
        self.judge.finish()
        launch, = self.report.launches
        return launch

    def test_what_comes_through_the_pipe_is_judged(self):
        self.put()
        self.judge.start()
        self.wait(lambda: self.is_written(bytes([6]) + bytes(11) + b"\xff" * 8))
        launch = self.end()
        self.assertEqual(([it.title for it in launch.findings], launch.reasons, self.report.run_reasons), (["race on global word 5"], [], []))

    def test_that_a_judge_was_killed_is_said(self):
        """What is in files is shown."""
        killed = self.room / "killed"
        put_script(killed, f'[ "$1" = run ] && kill -KILL $$\nexec "{os.environ["GPURACE"]}" "$@"\n')
        self.judge.program = str(killed)
        self.put()
        self.judge.start()
        self.wait(lambda: self.judge.piped)
        launch = self.end()
        self.assertEqual(([it.title for it in launch.findings], [it.name for it in launch.reasons]), (["race on global word 5"], ["fault", "cut"]))
        self.assertIn("was ended by signal 9, as where memory runs out", launch.reasons[0].text)

    def test_what_fails_is_tried_again(self):
        """Twice no folder can be looked at."""
        having, faults = self.judge.having, [OSError(24, "Too many open files")] * 2

        def having_sometimes(file):
            if faults:
                raise faults.pop()
            return having(file)

        self.put()
        self.pipe.unlink()
        (self.folder / "piped.txt").unlink()
        self.judge.having = having_sometimes
        self.judge.start()
        self.wait(lambda: not faults)
        launch = self.end("cut 0\n")
        self.assertEqual([it.title for it in launch.findings], ["race on global word 5"])
        self.assertEqual([it.text for it in self.report.run_reasons], ["the judging failed, and was tried again: [Errno 24] Too many open files"])

    def test_a_folder_that_cant_be_written(self):
        """The launch is no answer, though others may be."""
        self.put()
        self.pipe.unlink()
        (self.folder / "piped.txt").unlink()
        (self.folder / "group00.gpurace").unlink()
        (self.folder / "group00.gpurace").mkdir()
        self.judge.start()
        self.judge.finish()
        self.assertEqual(([(it.text, it.kernels) for it in self.report.unrecorded], self.report.status()),
                         ([(f"not recorded: {self.folder} could not be written: Is a directory", ["sums"])], 2))
        self.assertEqual(self.judge.stop(), [])

    def test_a_judging_that_is_stopped(self):
        """One launch is judged, one is not, and one has not ended: no more is shown."""
        put_right(self.room / "kept", 1, "first")
        self.judge.start()
        self.wait(lambda: self.report.launches)
        started = self.room / "started"
        self.judge.program = str(self.room / "waits")
        put_script(self.room / "waits", f'touch "{started}"\nsleep 1\nexec "{os.environ["GPURACE"]}" "$@"\n')
        put_right(self.room / "kept", 2, "second")
        self.wait(started.exists)
        put_launch(self.folder, [], {"begun.txt": info("sums", 0)})
        self.assertEqual(self.judge.stop(), ["sums", "second"])
        self.judge.finish()
        self.assertEqual(([launch.kernel for launch in self.report.launches], self.report.run_reasons, self.report.unrecorded), (["first"], [], []))

    def test_launches_that_are_not_judged_were_launched(self):
        self.report.run_reasons.append(Reason("stopped", "the judging was stopped", ["sums", "sums"]))
        self.assertEqual(list(self.report.summary()), [
            "nothing found, which is no answer:", "    the judging was stopped (2 launches of sums)",
            "2 launches: 0 with findings, 0 without, 2 not judged whole; --keep DIR keeps them"])

    def test_no_process_can_be_started(self):
        """The pipe goes, so that the recorder does not wait for it; what is in the file is judged, as cut, and the run is no answer."""
        def fail(*_, **__):
            raise OSError(24, "Too many open files")

        self.put()
        self.judge.starter = fail
        self.judge.start()
        self.wait(lambda: not self.pipe.exists())
        launch = self.end("cut 0\n")
        self.assertEqual([it.title for it in launch.findings], ["race on global word 5"])
        self.assertEqual([it.name for it in launch.reasons], ["cut"])
        self.assertEqual([it.text for it in self.report.run_reasons], [
            "000-sums could not be judged while it was recorded, so that records of it are lost: [Errno 24] Too many open files"])
