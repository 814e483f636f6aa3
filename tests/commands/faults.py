"""What every command answers where it can't read or write, and that it opens each file once."""

import os
import resource
import select
import subprocess
import threading

from testing.program import END, ProgramTest, access, header

RACE = header(0, 2) + access(0, 1, 0, 16) + access(1, 0, 0, 16) + END
CUT_OFF = RACE[:31]
TEXT = b"group 0 items 2 launch 7\n0 w g 16\n1 r g 16\nend\n"
READ_FAULT = b"gpurace: read fault\n"
NO_FILE = b"gpurace: missing: No such file or directory\n"
NO_STREAM = b"gpurace: folder: no stream in this folder: no file whose name ends in .gpurace\n"
IS_FOLDER = b"gpurace: folder: Is a directory\n"
WRITE_FAULT = b"gpurace: write fault\n"

# commands on standard input, and their status on a race
INPUTS = {"": 1, "replay": 1, "replay --json": 1, "dump": 0, "dump --partial": 0, "upgrade": 0}

# commands on files, which follow the words, and their status on a race
FILES = {
    "explain g 16": 1,
    "explain --json g 16": 1,
    "explain --long g 16": 1,
    "explain --long --json g 16": 1,
    "races": 1,
    "races --causes": 1,
    "races --json": 1,
    "races --json --causes": 1,
    "history g 16": 1,
    "history --json g 16": 1,
    "run": 1,
    "run --json": 1,
    "check": 0,
    "check --json": 0,
    "why-held 0 0 0": 0,
    "why-held --json 0 0 0": 0,
}

# commands with side files
SIDES = ("explain --long g 16", "explain --long --json g 16", "races", "races --json", "history g 16", "history --json g 16")

# words for which help or the version is written
HELP = ("--help", "-h", "help", "--version", "replay --help", "help run")


def read_fault(words, said):
    """What a command says if a file can't be read, with this as the reason: some say it in place of the line of the fault."""
    return READ_FAULT + said if words.split()[0] in ("explain", "run") else said


class FaultTest(ProgramTest):
    def setUp(self):
        super().setUp()
        for name, content in (("race", RACE), ("cut", CUT_OFF), ("places", b"0 0 0 a:1\n"), ("buffers", b"g 12 8 flags\n")):
            self.put(name, content)
        (self.folder / "folder").mkdir()

    def all_commands(self):
        """The words of each command, its standard input, and its status."""
        yield ["pack"], TEXT, 0
        for words, status in INPUTS.items():
            yield words.split(), RACE, status
        for words, status in FILES.items():
            yield [*words.split(), "race"], b"", status
        for words in HELP:
            yield words.split(), b"", 0


def pipe_without_reader():
    """The end to write to, once nobody has the other: a process that another thread starts has it for a moment."""
    reader, writer = os.pipe()
    os.close(reader)
    errors = select.poll()
    errors.register(writer, 0)
    errors.poll(60_000)
    return writer


class Outputs(FaultTest):
    def test_each_command_writes_to_standard_output_alone(self):
        for words, given, status in self.all_commands():
            with self.subTest(words=words):
                ran = self.gpurace(*words, given=given)
                self.assertEqual((ran.returncode, ran.stderr), (status, b""))
                self.assertNotEqual(ran.stdout, b"")

    def test_a_full_disk_under_each_command(self):
        for words, given, _ in self.all_commands():
            with self.subTest(words=words), open("/dev/full", "wb") as full:
                self.assert_run(self.gpurace(*words, given=given, stdout=full), None, 5, WRITE_FAULT)

    def test_a_closed_pipe_under_each_command(self):
        for words, given, _ in self.all_commands():
            with self.subTest(words=words):
                writer = pipe_without_reader()
                self.assert_run(self.gpurace(*words, given=given, stdout=writer), None, 5, WRITE_FAULT)
                os.close(writer)

    def test_a_full_disk_under_the_text_of_a_refusal(self):
        for words in (["check", "cut"], ["check", "--json", "cut"]):
            with self.subTest(words=words), open("/dev/full", "wb") as full:
                self.assert_run(self.gpurace(*words, stdout=full), None, 5, WRITE_FAULT)

    def test_errors_that_can_not_be_written_keep_their_status(self):
        for words, given, status in ((["--quiet"], b"", 3), (["explain", "l65535", "16", "race"], b"", 3), (["replay"], CUT_OFF, 2)):
            with self.subTest(words=words), open("/dev/full", "wb") as full:
                self.assert_run(self.gpurace(*words, given=given, stdout=full, stderr=full), None, status, None)

    def test_help_is_whole(self):
        ran = self.gpurace("--help")
        self.assertTrue(ran.stdout.endswith(b"\n  5  reading or writing failed\n"), ran.stdout[-100:])


class Inputs(FaultTest):
    def test_standard_input_that_can_not_be_read(self):
        for words in ["pack", *INPUTS]:
            folder = os.open(self.folder, os.O_RDONLY)
            ran = subprocess.run([os.environ["GPURACE"], *words.split()], stdin=folder, capture_output=True, check=False)
            os.close(folder)
            with self.subTest(words=words):
                self.assert_run(ran, b"", 5, READ_FAULT)

    def test_files_that_are_missing_or_can_not_be_read(self):
        for words in FILES:
            for names in (["missing"], ["folder"], ["cut", "missing"], ["race", "missing"], ["folder", "missing"]):
                said = NO_FILE if "missing" in names else NO_STREAM
                with self.subTest(words=words, names=names):
                    self.assert_run(self.gpurace(*words.split(), *names), b"", 5, read_fault(words, said))

    def test_a_file_that_is_refused_before_one_that_can_not_be_read(self):
        for words in FILES:
            if not words.startswith(("run", "check")):
                with self.subTest(words=words):
                    self.assert_run(self.gpurace(*words.split(), "cut", "folder"), b"", 5, read_fault(words, NO_STREAM))

    def test_side_files_that_are_missing_or_can_not_be_read(self):
        for words in SIDES:
            for option in ("--places", "--buffers"):
                for name, said in (("missing", NO_FILE), ("folder", IS_FOLDER)):
                    with self.subTest(words=words, option=option, name=name):
                        self.assert_run(self.gpurace(*words.split(), option, name, "cut"), b"", 5, read_fault(words, said))

    def test_files_are_read_from_standard_input(self):
        for words, status in FILES.items():
            with self.subTest(words=words):
                ran, of_a_file = self.gpurace(*words.split(), "/dev/stdin", given=RACE), self.gpurace(*words.split(), "race")
                self.assert_run(ran, of_a_file.stdout, status)


class Memory(FaultTest):
    """Launches that are larger than the memory that the program may have."""

    most = 64 << 20

    def limit(self):
        resource.setrlimit(resource.RLIMIT_AS, (self.most, self.most))

    def test_files_that_are_too_large_for_the_memory(self):
        if self.gpurace("--version", preexec_fn=self.limit).returncode:
            self.skipTest("a program that is built with checks wants more memory")
        self.put("large", header(0, 1) + access(0, 0, 0, 16) * (self.most // 20) + END)
        for words in FILES:
            if not words.startswith("run"):
                with self.subTest(words=words):
                    ran = self.gpurace(*words.split(), "large", preexec_fn=self.limit)
                    self.assert_run(ran, b"", 4, b"gpurace: out of memory\n")


class Threads(FaultTest):
    """Runs in a memory that holds the stacks of some threads: of the sequencer, of each worker and of the reader of one stream."""

    stack = 1 << 30

    def run_with_room_for(self, threads, workers, name="race"):
        most = threads * self.stack + self.stack // 2

        def limit():
            resource.setrlimit(resource.RLIMIT_STACK, (self.stack, self.stack))
            resource.setrlimit(resource.RLIMIT_AS, (most, most))

        return self.gpurace("run", "--workers", workers, "--queues", "1", name, preexec_fn=limit)

    def test_a_thread_that_can_not_be_started(self):
        for workers in (1, 4):
            for threads in range(workers + 2):
                with self.subTest(workers=workers, threads=threads):
                    self.assert_run(self.run_with_room_for(threads, workers), b"", 4, b"gpurace: no thread\n")

    def test_a_missing_thread_is_reported_before_a_stream_that_is_cut_off(self):
        for threads in range(3):
            with self.subTest(threads=threads):
                self.assert_run(self.run_with_room_for(threads, 1, "cut"), b"", 4, b"gpurace: no thread\n")
        self.assert_run(self.run_with_room_for(3, 1, "cut"), b"", 2, b"gpurace: stream 0: truncated\ngpurace: cut: stream 0, at its record 0\n")

    def test_room_for_each_thread(self):
        for workers in (1, 4):
            with self.subTest(workers=workers):
                self.assert_run(self.run_with_room_for(workers + 2, workers), self.gpurace("replay", given=RACE).stdout, 1)


class Pipes(FaultTest):
    """Files that are pipes, whose bytes are there once."""

    def put_pipes(self, names):
        for name in names:
            os.mkfifo(self.folder / f"{name}.pipe")
            threading.Thread(target=self.fill, args=[name], daemon=True).start()

    def fill(self, name):
        """Writes the bytes of a file once into its pipe, and takes the pipe away."""
        pipe = self.folder / f"{name}.pipe"
        with open(pipe, "wb") as opened:
            pipe.unlink()
            opened.write((self.folder / name).read_bytes())

    def test_each_stream_is_opened_once(self):
        for words, status in FILES.items():
            with self.subTest(words=words):
                self.put_pipes(["race"])
                ran, of_a_file = self.gpurace(*words.split(), "race.pipe"), self.gpurace(*words.split(), "race")
                self.assert_run(ran, of_a_file.stdout, status)

    def test_each_side_file_is_opened_once(self):
        for words in SIDES:
            with self.subTest(words=words):
                names = ("places", "buffers", "race")
                self.put_pipes(names)
                ran, of_files = (self.gpurace(*words.split(), "--places", f"places{it}", "--buffers", f"buffers{it}", f"race{it}") for it in (".pipe", ""))
                self.assertIn(b"flags", ran.stdout)
                self.assertIn(b"a:1", ran.stdout)
                self.assert_run(ran, of_files.stdout, 1)
