"""Streams that break off: each beginning of them is refused, and `dump --partial` writes what comes before the break."""

from testing.program import ProgramTest, pack

RACE = b"group 0 items 2 launch 7\n0 w g 16\n1 r g 16\nend\n"
TRUNCATED = b"gpurace: stream 0: truncated\n"


class Prefixes(ProgramTest):
    def assert_refused(self, stream, size, commands):
        """Each beginning of a stream with records of this size, but none of it and all of it, is refused as truncated by these commands and by
        `run`."""
        for length in range(1, len(stream)):
            with self.subTest(bytes=length):
                for command in commands:
                    self.assert_run(self.gpurace(command, given=stream[:length]), b"", 2, TRUNCATED)
                self.put("stream", stream[:length])
                where = f"record {(length - 12) // size}" if length >= 12 else "header"
                self.assert_run(self.gpurace("run", "stream"), b"", 2, TRUNCATED + f"gpurace: stream: stream 0, at its {where}\n".encode())

    def test_each_prefix_of_a_race(self):
        stream = pack(RACE.decode())
        self.assertEqual(len(stream), 72)
        self.assert_refused(stream, 20, ("replay", "dump", "upgrade"))

    def test_each_prefix_in_version_2(self):
        stream = pack(RACE.decode().replace("launch 7", "launch 7 v2"))
        self.assertEqual(len(stream), 144)
        self.assert_refused(stream, 44, ("replay",))

    def test_a_file_of_nothing_is_no_stream(self):
        self.put("stream", b"")
        self.assert_run(self.gpurace("run", "stream"), b"", 2, TRUNCATED + b"gpurace: stream: the file is empty\n")

    def test_the_lines_before_the_break_are_dumped_in_part(self):
        stream = pack(RACE.decode())
        lines = RACE.splitlines(keepends=True)
        for length in range(1, len(stream)):
            with self.subTest(bytes=length):
                whole = 0 if length < 12 else 1 + (length - 12) // 20
                text = b"".join(lines[:whole])
                self.assert_run(self.gpurace("dump", "--partial", given=stream[:length]), text, 2, TRUNCATED)
                ran = self.gpurace("dump", "--partial", given=stream + stream[:length])
                self.assert_run(ran, RACE + text, 2, TRUNCATED.replace(b"stream 0", b"stream 1"))
