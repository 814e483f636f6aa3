"""Launches with many groups, items, records and races."""

import resource
import struct

from testing.many import accesses, report
from testing.program import END, ProgramTest, access, header

SETTINGS = ((1, 1, 1024), (2, 3, 1024), (3, 4, 7), (8, 4, 65536))


class LargeLaunches(ProgramTest):
    def assert_judged(self, streams, expected, settings=SETTINGS):
        """`replay` writes this report of the streams, and so does `run` with each setting: workers, queues, capacity."""
        self.assert_run(self.gpurace("replay", given=b"".join(streams)), expected, 1)
        files = [self.put(f"stream{number}", stream) for number, stream in enumerate(streams)]
        for workers, queues, capacity in settings:
            with self.subTest(workers=workers, queues=queues, capacity=capacity):
                words = ("--workers", workers, "--queues", queues, "--capacity", capacity)
                self.assert_run(self.gpurace("run", *words, *files), expected, 1)

    def test_64_groups_of_256_items(self):
        """The first item of all reads a word, and the last one writes it."""
        done = {0: access(0, 0, 0, 16), 63: access(255, 1, 0, 16)}
        streams = [header(group, 256) + done.get(group, b"") + END for group in range(64)]
        self.assert_judged(streams, report(64, 16_384, 66, [16]), SETTINGS + ((8, 4, 1),))

    def test_64_groups_in_descending_order(self):
        """The last item of each group writes a word of its own, but the first one's is read by group 63 too."""
        streams = [header(group, 32) + access(31, 1, 0, 1_000 + group) + END for group in range(63, -1, -1)]
        streams[0] = header(63, 32) + access(0, 0, 0, 1_000) + access(31, 1, 0, 1_063) + END
        self.assert_judged(streams, report(64, 2_048, 129, [1_000]))

    def test_70_000_races(self):
        """Each of six groups accesses 70,000 words by 256 items in turn; group 1 reads what group 0 writes."""
        count = 70_000
        words = [range(place * count, (place + 1) * count) for place in (0, 0, 2, 3, 4, 5)]
        streams = [header(group, 256) + accesses(int(group == 0), words[group], 256) + END for group in range(6)]
        self.assert_judged(streams, report(6, 6 * 256, 6 * (count + 1), words[0]))

    def test_more_records_than_16_bits_count_before_a_release(self):
        """Group 1 reads what group 0 wrote in 70,000 records, all before the release that it acquires."""
        count = 70_000
        release = b"\x03\x00\x02\x03" + access(0, 0, 0, 4_000_000)[4:]
        acquire = b"\x02\x00\x02\x02" + access(0, 0, 0, 4_000_000)[4:12] + bytes(8)
        writes = header(0, 1) + accesses(1, range(count)) + release + access(0, 1, 0, count) + END
        reads = header(1, 1) + acquire + accesses(0, range(count + 1)) + END
        self.assert_judged([writes, reads], report(2, 2, 2 * count + 6, [count]))

    def test_100_000_records_wait(self):
        """The records of group 0 come after acquires of group 1's two releases; what is written after the second one races."""
        count = 100_000
        release = b"\x03\x00\x02\x03" + access(0, 0, 0, 20)[4:]
        acquires = [b"\x02\x00\x02\x02" + access(0, 0, 0, 20)[4:12] + bytes([1, 0, 0, 0, number, 0, 0, 0]) for number in (0, 1)]
        waits = header(0, 1) + acquires[0] + access(0, 0, 0, 16) * count + acquires[1] + accesses(0, range(24, 26)) + END
        releases = header(1, 1) + access(0, 1, 0, 16) + release + access(0, 1, 0, 24) + release + access(0, 1, 0, 25) + END
        expected = report(2, 2, count + 11, [25])
        self.assert_judged([waits, releases], expected, SETTINGS[:1])
        self.assert_judged([releases, waits], expected, SETTINGS[1:2])

    def test_groups_that_have_ended_take_no_memory(self):
        """Each of 2,000 groups of 256 items writes local words, meets, and reads others. If all were kept, 128 MiB would be too little."""
        items, groups, room = range(256), 2_000, 128 << 20
        writes = b"".join(access(item, 1, 1, item) for item in items)
        meets = b"".join(b"\x05\x02" + access(item, 0, 0, 1)[2:] for item in items)
        reads = b"".join(access(item, 0, 1, 255 - item) for item in items)
        streams = (b"GRT3" + header(group, 256)[4:] + writes + meets + reads + END for group in range(groups))
        path = self.put("stream", b"".join(streams))
        ran = self.gpurace("replay", path, preexec_fn=lambda: resource.setrlimit(resource.RLIMIT_AS, (room, room)))
        self.assert_run(ran, report(groups, groups * 256, groups * 769, []), 0)

    def test_local_words_of_groups_that_have_ended_take_no_memory_in_threads(self):
        """Each of 2,000 groups of 256 items writes 1,024 local words. If all were kept, 512 MiB would be too little for `run`."""
        groups, room = 2_000, 512 << 20
        writes = b"".join(access(word % 256, 1, 1, word) for word in range(1_024))
        streams = (b"GRT3" + header(group, 256)[4:] + writes + END for group in range(groups))
        path = self.put("stream", b"".join(streams))
        ran = self.gpurace("run", path, preexec_fn=lambda: resource.setrlimit(resource.RLIMIT_AS, (room, room)))
        self.assert_run(ran, report(groups, groups * 256, groups * 1_025, []), 0)

    def test_local_words_of_groups_that_wait_for_the_next_one_take_no_memory(self):
        """Each of 2,000 groups writes 1,024 local words and waits for the next group. If all were kept, 128 MiB would be too little."""
        groups, room = 2_000, 128 << 20
        writes = b"".join(access(word % 256, 1, 1, word) for word in range(1_024))
        streams = []
        for group in range(groups):
            release = b"\x03\x00\x02\x03" + access(0, 0, 0, 4 * group)[4:]
            acquire = b"\x02\x00\x02\x02" + access(0, 0, 0, 4 * group + 4)[4:12] + struct.pack("<HHI", group + 1, 0, 0)
            streams.append(b"GRT3" + header(group, 256)[4:] + writes + release + acquire * (group + 1 < groups) + END)
        path = self.put("stream", b"".join(streams))
        ran = self.gpurace("replay", path, preexec_fn=lambda: resource.setrlimit(resource.RLIMIT_AS, (room, room)))
        self.assert_run(ran, report(groups, groups * 256, groups * 1_027 - 1, []), 0)

    def test_60_000_groups_take_little_time(self):
        """Each group has one item, which writes a word of its own. If a header were compared with all before it, 2 seconds would be too little."""
        streams = (b"GRT3" + header(group, 1)[4:] + access(0, 1, 0, group) + END for group in range(60_000))
        path = self.put("stream", b"".join(streams))
        for words in ("explain", "g", 0), ("history", "g", 0), ("races",), ("check",):
            with self.subTest(command=words[0]):
                ran = self.gpurace(*words, path, preexec_fn=lambda: resource.setrlimit(resource.RLIMIT_CPU, (2, 2)))
                self.assertEqual((ran.returncode, ran.stderr), (0, b""))

    def test_more_files_than_may_be_open(self):
        """Each of 400 groups has a file of its own, and 300 files may be open."""
        groups, most = 400, 300
        paths = [self.put(f"stream{group}", b"GRT3" + header(group, 1)[4:] + END) for group in range(groups)]
        for command in ("run", "replay", "races"):
            with self.subTest(command=command):
                ran = self.gpurace(command, *paths, preexec_fn=lambda: resource.setrlimit(resource.RLIMIT_NOFILE, (most, most)))
                self.assertEqual((ran.returncode, ran.stderr), (0, b""))
