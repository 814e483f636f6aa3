"""Texts and streams of more than 64 MiB, and as long as a stream may be."""

from testing.many import SIZE, accesses, lines, report
from testing.program import END, ProgramTest, access, header

MEBIBYTES_64 = 1 << 26
FIRST = 4_000_000_000
RECORDS = 4_000_000


class LargeStreams(ProgramTest):
    def setUp(self):
        """One stream of two items: item 0 writes many words, each once, and item 1 reads the last of them, which is the only race."""
        super().setUp()
        words = range(FIRST, FIRST + RECORDS)
        self.stream = header(0, 2) + accesses(1, words) + access(1, 0, 0, words[-1]) + END
        self.report = report(1, 2, RECORDS + 2, words[-1:])
        self.assertGreater(len(self.stream), MEBIBYTES_64)

    def text(self):
        made = b"group 0 items 2 launch 7\n" + lines("0 w g ", range(FIRST, FIRST + RECORDS))
        return made + b"1 r g %d\nend\n" % (FIRST + RECORDS - 1)

    def assert_writes(self, command, given, output, status=0):
        """The program writes these bytes. Where it does not, the failure does not show them."""
        ran = self.gpurace(command, given=given)
        self.assertEqual((len(ran.stdout), ran.returncode, ran.stderr), (len(output), status, b""))
        self.assertTrue(ran.stdout == output)

    def test_a_text_is_packed(self):
        text = self.text()
        self.assertGreater(len(text), MEBIBYTES_64 - RECORDS)
        self.assert_writes("pack", text, self.stream)

    def test_a_stream_is_dumped(self):
        self.assert_writes("dump", self.stream, self.text())

    def test_a_stream_is_judged(self):
        self.assert_writes("replay", self.stream, self.report, 1)

    def test_a_stream_is_upgraded(self):
        count = len(self.stream) // SIZE
        made = bytearray((bytes(12) + b"\xff" * 32) * count)
        for byte in range(12):
            made[byte::44] = self.stream[12 + byte :: SIZE]
        self.assert_writes("upgrade", self.stream, b"GRT2" + self.stream[4:12] + bytes(made))
