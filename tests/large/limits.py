"""Streams as long as a stream may be, and one record longer."""

import subprocess

from testing.many import SIZE
from testing.program import ProgramTest

MOST_RECORDS = 16_777_216


class Limits(ProgramTest):
    def packed(self, records, **settings):
        """What `pack` does with a text of so many records and an end."""
        script = f"echo group 0 items 1 launch 7; yes '0 r g 0' | head -n {records}; echo end"
        with subprocess.Popen(["sh", "-c", script], stdout=subprocess.PIPE) as text:
            return self.gpurace("pack", given=None, stdin=text.stdout, **settings)

    def test_a_stream_of_the_most_records(self):
        with open(self.folder / "stream", "wb") as stream:
            ran = self.packed(MOST_RECORDS - 1, stdout=stream)
        self.assertEqual((ran.returncode, ran.stderr), (0, b""))
        self.assertEqual((self.folder / "stream").stat().st_size, 12 + MOST_RECORDS * SIZE)

    def test_a_stream_of_one_record_more(self):
        self.assert_run(self.packed(MOST_RECORDS), b"", 2, b"gpurace: line 16777218: too many records\n")
