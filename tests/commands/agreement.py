"""The commands that report on a launch agree with its report, on each launch of the runs beside this file that ask for a word."""

import json
import re
import unittest

from testing import transcript
from testing.program import TOP, ProgramTest, pack

ASKED = re.compile(r"(?:gpurace explain|gpurace explain --long|gpurace history|sh cause) (?:g|l\d+) \d+ (.*)")
WORDS_OF_A_LINE = re.compile(r"(global|local \d+) (\d+)(?:\.\.(\d+))?")


class Agreement(ProgramTest):
    """The tests of one launch, whose streams are texts by their names. A class for each launch has them."""

    streams = {}

    def examine(self):
        for name, text in self.streams.items():
            self.put(name, pack(text))
        ran = self.gpurace("run", *self.streams)
        if ran.returncode == 2:
            self.assert_refused(ran.stderr)
            return
        races = [line[5:] for line in ran.stdout.decode().splitlines() if line.startswith("race ")]
        self.assert_races(races)
        for space, word in sorted(self.words()):
            named = f"{'global' if space == 'g' else 'local ' + space[1:]} {word}"
            with self.subTest(word=named):
                self.assert_word((space, word), named, named in races)

    def words(self):
        """The words that are accessed, and one that is not."""
        yield "g", "4294967295"
        for text in self.streams.values():
            for line in text.splitlines():
                if line.startswith("group "):
                    group = line.split()[1]
                elif not line.startswith("end") and " bar " not in line:
                    _, _, space, word = line.split()[:4]
                    yield space.replace("l", f"l{group}"), word

    def assert_refused(self, fault):
        """Each command reports the fault that `run` reports."""
        for words in ("races", "explain g 16", "history g 16", "why-held 0 0 0"):
            self.assert_run(self.gpurace(*words.split(), *self.streams), b"", 2, fault)
        line = fault.split(b"\n")[0] + b"\n"
        self.assertTrue(self.gpurace("check", *self.streams).stdout.startswith(line))

    def assert_races(self, races):
        """`races` has just the racy words, as text and as JSON."""
        ran = self.gpurace("races", *self.streams)
        found = []
        for line in ran.stdout.decode().splitlines():
            for memory, first, last in WORDS_OF_A_LINE.findall(line) if line.startswith("words ") else []:
                found += [f"{memory} {word}" for word in range(int(first), int(last or first) + 1)]
        self.assertEqual((sorted(set(found)), ran.returncode), (sorted(races), int(bool(races))))
        ran = self.gpurace("races", "--json", *self.streams)
        self.assertEqual((json.loads(ran.stdout.splitlines()[-1])["races"], ran.returncode), (len(races), int(bool(races))))

    def assert_word(self, word, named, is_racy):
        """Each command says of a word whether it has a race, as the report does."""
        ran = self.gpurace("explain", *word, *self.streams)
        self.assertTrue(ran.stdout.decode().startswith(f"race {named}: " if is_racy else f"no race {named}\n"), ran.stdout)
        long = self.gpurace("explain", "--long", *word, *self.streams)
        self.assertEqual((long.stdout.splitlines()[0], long.returncode), (ran.stdout.strip(), int(is_racy)))
        found = json.loads(self.gpurace("explain", "--json", *word, *self.streams).stdout)
        self.assertEqual(found["type"], "race" if is_racy else "no race")
        history = self.gpurace("history", *word, *self.streams).stdout.decode().splitlines()[-1]
        self.assertEqual(history.split()[-1], "yes" if is_racy else "no")


def launches(path):
    """The launches of a file's runs: the streams of each by their names."""
    found = transcript.read(path, path.stem)
    texts = {it.name: "".join(f"{line}\n" for line in it.lines) for it in found.files if it.kind == "stream"}
    for run in found.runs:
        asked = ASKED.fullmatch(run.command)
        if asked and all(name in texts for name in asked[1].split()):
            yield {name: texts[name] for name in asked[1].split()}


def load_tests(loader, standard_tests, pattern):
    """A test of each launch."""
    suite, seen = unittest.TestSuite(), set()
    for path in sorted((TOP / "tests" / "commands").glob("*.run")):
        for streams in launches(path):
            if tuple(streams.values()) not in seen:
                seen.add(tuple(streams.values()))
                name = f"test_{path.stem}_{'_'.join(streams)}"
                suite.addTest(type("Agreement", (Agreement,), {"streams": streams, name: Agreement.examine})(name))
    return suite
