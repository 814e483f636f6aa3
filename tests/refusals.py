"""What each command answers where one of its allocations, openings, reads or writes is refused, each in turn."""

import errno
import functools
import json
import os
import re
import shutil
import subprocess

from testing.program import END, TOP, ProgramTest, access, header, pack

RACE = header(0, 2) + access(0, 1, 0, 16) + access(1, 0, 0, 16) + END
TEXT = "group 0 items 2 launch 7\n0 w g 16\n1 r g 16\nend\n"
SIDES = ("--places", "places", "--buffers", "buffers")

NO_MEMORY = (b"", b"gpurace: out of memory\n", 4)
NO_THREAD = (b"", b"gpurace: no thread\n", 4)
READ_FAULT = b"gpurace: read fault\n"
WRITE_FAULT = b"gpurace: write fault\n"

# commands on standard input
INPUTS = ("replay", "replay --json", "dump", "dump --partial", "upgrade")

# commands on a file
FILES = ("explain g 16", "explain --long g 16", "races", "races --causes", "history g 16", "run", "check", "why-held 0 0 0")

# commands whose answer is JSON
JSON = ("explain --json g 16", "explain --long --json g 16", "races --json", "races --json --causes", "run --json", "check --json", "history --json g 16", "why-held --json 0 0 0")

# words for which help is written, and words that are no command's
WORDS = ("--help", "help run", "--version", "--quiet", "explain l65535 16 race", "run --workers many race")

# questions about a launch
QUESTIONS = (*FILES, "run --workers 2 --queues 2 --capacity 1", "explain --long l0 4", "why-held 0 1 1")

# texts with each kind of record
TEXTS = (
    "group 0 items 1 launch 7\n0 w g 16\n0 st g 20 dev rel\nend\ngroup 1 items 1 launch 7\n0 ld g 20 dev acq < 0 0 0\n0 r g 16\nend\n",
    "group 0 items 256 launch 7\n0 w g 16\n1 r g 16\n3 st g 16 dev rel\n4 ld g 16 dev acq < 0 3 0\n"
    "255 rmw l 4294967295 grp both < 63 255 16777215\n0 bar 7 gl\nend cut\n",
    "group 0 items 3 launch 7 v2\n2 ld g 20 dev acq < 0 0 0 < 0 1 0\nend\n",
)

# launches whose reports have every kind of line, hand-overs to a group that comes first, and races of each cause; whose words are handed on;
# whose events are held for each reason; and what is no launch
LAUNCHES = {
    "every line": "group 0 items 2 launch 7\n0 w g 4294967295\n1 w g 4294967295\n0 bar 1 gl\n1 bar 1 g\n0 w g 100\n1 w g 100\n"
    "1 ld g 20 dev acq < 2 0 9\nend\ngroup 1 items 3 launch 7\n0 w l 7\n1 w l 7\n0 bar 1 l\n1 bar 2 l\n2 bar 1 l\n0 bar 3 l\n1 bar 3 l\n"
    "0 st g 24 dev rel\n1 ld g 20 dev acq < 1 0 0\nend cut\ngroup 2 items 12 launch 7\n9 w l 7\n11 w l 7\n9 rmw g 28 dev both < 2 9 0\n"
    "11 ld g 28 dev acq < 2 9 0\n0 w g 9\n1 r g 9\nend cut\n",
    "a hand-over to a group that comes first": "group 1 items 2 launch 7 v2\n0 ld g 20 dev acq < 0 0 0 < 0 1 0\n0 r g 16\n0 r g 24\n0 bar 1 gl\n"
    "1 bar 1 gl\n1 rmw g 28 dev both < 0 0 1\nend\ngroup 0 items 6 launch 7\n0 w g 16\n0 st g 20 dev rel\n1 w g 24\n1 st g 20 dev rel\n"
    "0 st g 28 dev rel\n0 rmw g 32 dev rlx\n1 rmw g 32 dev rlx\n2 rmw g 32 dev rlx\n3 rmw g 32 dev rlx\n4 rmw g 32 dev rlx\n5 rmw g 32 dev rlx\n"
    "5 r g 32\nend\n",
    "a race of each cause": "group 0 items 2 launch 7\n0 w g 16\n0 w l 4\n0 rmw g 24 grp rlx\n0 w g 28\n0 bar 1 g\n0 bar 2 g\n0 r g 32\n1 r g 16\n"
    "1 bar 1 g\n1 r l 4\n1 w g 32\nend\ngroup 1 items 1 launch 7\n0 rmw g 24 grp rlx\n0 r g 28\nend\n",
    "a word handed to two items and back by one": "group 0 items 3 launch 7\n0 w g 16\n0 st g 20 dev rel\n1 ld g 20 dev acq < 0 0 0\n1 r g 16\n"
    "2 ld g 20 dev acq < 0 0 0\n2 r g 16\n2 st g 24 dev rel\n0 ld g 24 dev acq < 0 2 0\n0 w g 16\nend\n",
    "a hand-over at work-group scope": "group 1 items 1 launch 7\n0 ld g 20 grp acq < 0 0 0\n0 r g 16\nend\n"
    "group 0 items 1 launch 7\n0 w g 16\n0 st g 20 grp rel\nend\n",
    "a chain of events that are held": "group 0 items 4 launch 7\n0 ld g 20 dev acq < 0 3 0\n0 st g 24 dev rel\n1 ld g 24 dev acq < 0 0 0\n1 r g 16\nend\n",
    "a circle of events that are held": "group 0 items 3 launch 7\n0 ld g 20 dev acq < 0 1 0\n0 st g 24 dev rel\n1 ld g 24 dev acq < 0 0 0\n"
    "1 st g 20 dev rel\n2 ld g 24 dev acq < 0 0 0\nend\n",
    "events that are held at a barrier": "group 1 items 2 launch 7\n1 bar 1 g\n1 st g 20 dev rel\n0 ld g 24 dev acq < 1 1 0\n0 bar 1 g\nend\n"
    "group 0 items 1 launch 7\n0 ld g 20 dev acq < 1 1 0\nend\n",
    "a group that is given twice": TEXT + TEXT,
    "a missing group": "group 0 items 1 launch 7\nend\ngroup 2 items 1 launch 7\nend\n",
    "a header alone": header(0, 2),
}

# a stream that breaks off in its third record, and the text of what comes before
BROKEN = RACE[:52]
BEFORE = TEXT[:-4].encode()
TRUNCATED = b"gpurace: stream 0: truncated\n"

# a launch with side files: between a write and a read of word 16 are two barriers, a release and an acquire
NOTED = """group 0 items 2 launch 7
0 w g 16
0 bar 9 l
1 bar 9 l
1 bar 4 -
0 bar 4 -
0 rmw g 20 dev both
1 ld g 28 dev acq
1 r g 16
0 w l 4
1 w l 4
end
"""
PLACES = b"""0 0 0 pass.cl:4
0 0 0 pass.cl:5
9 pass.cl:6 in a loop
0 0 3 pass.cl:8
9 fill.cl:1
3 pass.cl:7
0 1 2 pass.cl:11
0 1 3 pass.cl:4
0 1 4 fill.cl:3 of the tile
"""
BUFFERS = b"g 12 8 flags\ng 16 1 late\nl 0 0 16 tile\n"

# more than any of them has
MOST = 5_000

# how an access of a history is ordered with those above it, in a line of text and in one of JSON
ORDER = re.compile(rb"( races with .*?)? ordered after (none|all( others)?( but .*?)?)(?= at |$)")
ORDER_KEYS = ("behind", "races_with", "unordered_with")


def without_standing(line):
    """A line of a history, whatever is above it."""
    if not line.startswith(b"{"):
        return ORDER.sub(b"", line)
    return json.dumps({key: value for key, value in json.loads(line).items() if key not in ORDER_KEYS}).encode()


def shown(words, ran):
    """What a run wrote and ended with. A history may be in another lawful order, in which other accesses are above each."""
    lines = ran.stdout.splitlines()
    return sorted(map(without_standing, lines)) if words[0] == "history" else lines, ran.returncode


def are_some(said, due):
    """Whether these are lines of those, in their order, each of which may be cut short."""
    left = iter(due)
    return all(any(it.startswith(line) if line else not it for it in left) for line in said)


def has_answer(words, ran, answer):
    """Whether a run has the answer. Of the notes below it a part may be missing: there was no memory for it."""
    said, due = ran.stderr.splitlines(), answer.stderr.splitlines()
    return shown(words, ran) == shown(words, answer) and said[:1] == due[:1] and are_some(said, due)


class Refusals(ProgramTest):
    def setUp(self):
        super().setUp()
        if not shutil.which("cc"):
            self.skipTest("this test wants a C compiler")
        self.library = self.folder / "refuse.so"
        subprocess.run(["cc", "-shared", "-fPIC", "-O2", "-o", self.library, TOP / "tools" / "refuse.c"], check=True)
        for name, content in (("race", RACE), ("places", b"0 0 0 a:1\n"), ("buffers", b"g 12 8 flags\n")):
            self.put(name, content)

    def with_refused(self, words, given, **settings):
        """A run with something refused, and whether there was such a call."""
        taken, to = os.pipe()
        environ = {**os.environ, "LD_PRELOAD": str(self.library), "REFUSED_TO": str(to)}
        environ.update((name, str(value)) for name, value in settings.items())
        ran = self.gpurace(*words, given=given, env=environ, pass_fds=[to])
        os.close(to)
        with os.fdopen(taken, "rb") as pipe:
            return ran, bool(pipe.read())

    def each_refused(self, words, given, answer, **settings):
        """The numbers of the calls that can be refused, from 1, and the run of each. A run in which none is refused has the answer. Threads
        don't make the same calls each time: several such runs end it."""
        refused, others = 0, 0
        for number in range(1, MOST):
            ran, is_refused = self.with_refused(words, given, REFUSED=number, **settings)
            if is_refused:
                refused += 1
                yield number, ran
                continue
            self.assertEqual((shown(words, ran), ran.stderr), (shown(words, answer), answer.stderr), f"{words}, call {number}")
            others += 1
            if others == (3 if words[0] == "run" else 1):
                self.assertGreater(refused, 0, f"{words}: nothing was refused")
                return
        self.fail(f"{words} has more calls")

    def assert_wanting(self, words, given=b"", **settings):
        """Each run with an allocation refused has the answer, or says that memory ran out, or that a thread can't be started, and writes
        nothing. Gives the answer."""
        answer, wanting = self.gpurace(*words, given=given), 0
        for number, ran in self.each_refused(words, given, answer, **settings):
            if not has_answer(words, ran, answer):
                wanted = NO_THREAD if words[0] == "run" and b"thread" in ran.stderr else NO_MEMORY
                self.assertEqual((ran.stdout, ran.stderr, ran.returncode), wanted, f"{words}, call {number}")
                wanting += 1
        self.assertGreater(wanting, 0, f"{words}: no refusal is reported")
        return answer

    def assert_wanting_of_input(self, words, given=b""):
        """The same, from the first allocation after a file is opened or standard input is read."""
        return self.assert_wanting(words, given, REFUSED_FROM="input")


class Growths(Refusals):
    def test_commands_on_standard_input(self):
        for words in INPUTS:
            with self.subTest(words=words):
                self.assert_wanting(words.split(), RACE)
        self.assert_wanting(["pack"], TEXT.encode())

    def test_commands_on_files(self):
        for words in FILES:
            with self.subTest(words=words):
                self.assert_wanting([*words.split(), "race"])

    def test_answers_as_JSON(self):
        for words in JSON:
            with self.subTest(words=words):
                for line in self.assert_wanting([*words.split(), "race"]).stdout.splitlines():
                    json.loads(line)

    def test_words_that_ask_for_help_or_are_no_command(self):
        for words in WORDS:
            with self.subTest(words=words):
                self.assert_wanting(words.split())

    def test_texts_with_each_kind_of_record(self):
        for text in TEXTS:
            self.assert_wanting_of_input(["pack"], text.encode())
            for words in ("dump", "dump --partial", "upgrade"):
                with self.subTest(words=words, text=text):
                    self.assert_wanting_of_input(words.split(), pack(text))

    def test_a_stream_that_breaks_off_is_dumped_in_part(self):
        answer = self.assert_wanting_of_input(["dump", "--partial"], BROKEN)
        self.assert_run(answer, BEFORE, 2, TRUNCATED)

    def ask_all(self, launch):
        """The report of a launch, and all questions about it."""
        stream = pack(launch) if isinstance(launch, str) else launch
        self.put("launch", stream)
        self.assert_wanting_of_input(["replay"], stream)
        for words in QUESTIONS:
            with self.subTest(words=words):
                self.assert_wanting_of_input([*words.split(), "launch"])

    def test_questions_with_side_files(self):
        for name, content in (("launch", pack(NOTED)), ("places", PLACES), ("buffers", BUFFERS)):
            self.put(name, content)
        for words in ("explain --long g 16", "explain --long l0 4", "races", "races --causes", "history g 16"):
            with self.subTest(words=words):
                self.assert_wanting_of_input([*words.split(), *SIDES, "launch"])

    def test_records_that_wait_for_a_later_stream(self):
        """Group 0 acquires what group 1 releases first, reads more words than its events may wait, and acquires again."""
        reads = "0 r g 16\n" * 12_000
        waits = f"group 0 items 1 launch 7\n0 ld g 20 dev acq < 1 0 0\n{reads}0 ld g 20 dev acq < 1 0 1\n0 r g 24\n0 r g 28\nend\n"
        releases = "group 1 items 1 launch 7\n0 w g 16\n0 st g 20 dev rel\n0 w g 24\n0 st g 20 dev rel\n0 w g 28\nend\n"
        answer = self.assert_wanting_of_input(["replay"], pack(waits + releases))
        self.assertEqual(answer.stdout.splitlines()[2:], [b"race global 28", b"end races 1 diverge 0 unmatched 0 held 0"])


for name_of_launch, launch_of_name in LAUNCHES.items():
    setattr(Growths, f"test_questions_about_{name_of_launch.replace(' ', '_')}", functools.partialmethod(Growths.ask_all, launch_of_name))


class Openings(Refusals):
    def test_a_file_that_wants_memory_to_be_opened(self):
        for words in (*FILES, *JSON):
            with self.subTest(words=words):
                self.assert_wanting([*words.split(), "race"], REFUSED_KIND="open")


class Reads(Refusals):
    """Each read gives one byte. From one of them on, all fail."""

    def each_read(self, words, given=b""):
        """The answer, and the runs of which a read failed."""
        answer = self.gpurace(*words, given=given)
        failing = self.each_refused(words, given, answer, REFUSED_KIND="read", REFUSED_ERROR=errno.EIO, REFUSED_SIZE=1)
        return answer, [ran for _, ran in failing]

    def test_standard_input_that_fails(self):
        for words, given in (*((words, RACE) for words in INPUTS), ("dump --partial", BROKEN), ("pack", TEXT.encode())):
            with self.subTest(words=words):
                _, failing = self.each_read(words.split(), given)
                self.assertGreater(len(failing), len(given))
                for ran in failing:
                    self.assert_run(ran, b"", 5, READ_FAULT)

    def test_a_fault_comes_before_a_failure_after_it(self):
        answer, failing = self.each_read(["replay"], RACE[:13] + b"\x02" + RACE[14:])
        self.assert_run(answer, b"", 2, b"gpurace: stream 0: bad field 1\n")
        self.assertEqual(len(failing), 32)
        for ran in failing:
            self.assert_run(ran, b"", 5, READ_FAULT)

    def test_files_that_fail(self):
        for name, content in (("launch", pack(NOTED)), ("places", PLACES), ("buffers", BUFFERS)):
            self.put(name, content)
        for words in ("races --causes", "explain --long g 16", "history g 16", "why-held 0 0 0", "check", "run"):
            sides = SIDES if words.startswith(("races", "explain", "history")) else ()
            line = READ_FAULT if words.startswith(("explain", "run")) else b""
            due = b"%sgpurace: %s: Input/output error\n" % (line, b"places" if sides else b"launch")
            with self.subTest(words=words):
                for ran in self.each_read([*words.split(), *sides, "launch"])[1]:
                    self.assert_run(ran, b"", 5, due)


class Writes(Refusals):
    """Each write takes seven bytes. From one of them on, all fail or take nothing."""

    def assert_prefixes(self, words, given=b""):
        answer = self.gpurace(*words, given=given)
        for error in (errno.ENOSPC, 0):
            failing = list(self.each_refused(words, given, answer, REFUSED_KIND="write", REFUSED_ERROR=error, REFUSED_SIZE=7))
            self.assertEqual(len(failing), -(-len(answer.stdout) // 7), words)
            for number, ran in failing:
                self.assert_run(ran, answer.stdout[: 7 * (number - 1)], 5, WRITE_FAULT)

    def test_standard_output_that_fails(self):
        for words in INPUTS:
            with self.subTest(words=words):
                self.assert_prefixes(words.split(), RACE)
        for words in (*FILES, *JSON):
            with self.subTest(words=words):
                self.assert_prefixes([*words.split(), "race"])
        self.assert_prefixes(["dump", "--partial"], BROKEN)
        self.assert_prefixes(["pack"], TEXT.encode())
        self.assert_prefixes(["--version"])
