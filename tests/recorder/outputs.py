"""What gpurace-judge says and writes of launches that are written here by hand: statuses, JSON, SARIF, JUnit, baselines, suppressions."""

import json
import os
import resource
import shutil
import subprocess
import sys
import xml.etree.ElementTree as xml

from testing.launches import BUFFERS, KERNEL, info, put_launch, put_racy, put_right
from testing.program import TOP, RoomTest, python_with

from gpurace_record.finding import Finding
from gpurace_record.judging import Launch
from gpurace_record.known import Baseline, entry_of
from gpurace_record.report import Report
from gpurace_record.writing import write

VALIDATES = python_with("jsonschema")
VALIDATE = "import json, jsonschema, sys; jsonschema.validate(json.loads(sys.argv[1]), json.load(open(sys.argv[2])))"
JUDGE = TOP / "tools" / "gpurace-judge"


class Outputs(RoomTest):
    def setUp(self):
        super().setUp()
        self.kept = self.room / "kept"

    def judge(self, *options, status):
        """What gpurace-judge says of the launches, with this status."""
        return self.ran(*options, status=status).stdout.splitlines()

    def ran(self, *options, status, **more):
        """A run of gpurace-judge that had this status."""
        words = [sys.executable, str(JUDGE), *options, str(self.kept)]
        settings = {"stdout": subprocess.PIPE, "stderr": subprocess.PIPE, "text": True, **more}
        ran = subprocess.run(words, cwd=self.room, timeout=300, check=False, env={**os.environ, "GPURACE_PROGRAM": os.environ["GPURACE"]}, **settings)
        self.assertEqual(ran.returncode, status, (ran.stdout or "") + (ran.stderr or ""))
        return ran

    def made(self, name):
        return json.loads((self.room / name).read_text())

    def assert_valid(self, made, schema):
        if not VALIDATES:
            self.skipTest("python3-jsonschema is missing")
        ran = subprocess.run([VALIDATES, "-c", VALIDATE, json.dumps(made), str(schema)], stderr=subprocess.PIPE, text=True, check=False)
        self.assertEqual(ran.returncode, 0, ran.stderr)


class Statuses(Outputs):
    def test_nothing_found(self):
        put_right(self.kept)
        self.assertEqual(self.judge(status=0), [
            "launch 0, right: nothing found (1 group of 2 work-items, 9 records)", "gpurace-judge: nothing found",
            f"gpurace-judge: 1 launch: 0 with findings, 1 without, 0 not judged whole; they are in {self.kept}"])

    def test_found(self):
        put_racy(self.kept)
        self.judge(status=1)
        self.judge("--error-exitcode", "42", status=42)

    def test_equal_launches_are_one_line(self):
        for number in range(3):
            put_racy(self.kept, number)
        put_right(self.kept, 3)
        lines = self.judge(status=1)
        self.assertEqual([line for line in lines if line.startswith("launch")], [
            "launch 0, sums: FOUND (1 group of 2 work-items, 9 records), and 2 launches alike", "launch 3, right: nothing found (1 group of 2 work-items, 9 records)"])
        self.assertIn("gpurace-judge: 4 launches: 3 with findings, 1 without, 0 not judged whole", lines[-1])

    def test_races_of_one_buffer_and_one_cause(self):
        """Item 0 writes tile[0..4] at a line each, and item 1 reads them at line 9: three are shown whole, and of the others a line each."""
        steps = "".join(f"0 w l {word}\n" for word in range(5)) + "".join(f"1 r l {word}\n" for word in range(5))
        places = "".join(f"0 0 {word} a.cl:{word + 1}:1\n0 1 {word} a.cl:9:1\n" for word in range(5))
        put_launch(self.kept / "000-steps", [f"group 0 items 2 launch 0\n{steps}end\n"], {
            "info.txt": info("steps", 0), "places": places, "buffers": "l 0 0 16 tile\n"})
        races = [line.strip().partition(", at ") for line in self.judge(status=1) if "race on" in line]
        self.assertEqual([head for head, _, _ in races], [f"race on tile[{word}] of group 0{':' if word < 3 else ''}" for word in range(5)])
        self.assertEqual([set(rest.replace(" and ", ": ").split(": ")) for _, _, rest in races[3:]],
                         [{f"a.cl:{word + 1}:1", "a.cl:9:1", "likewise"} for word in (3, 4)])

    def test_what_keeps_a_launch_from_being_an_answer_comes_first_in_the_summary(self):
        put_right(self.kept, more="image 2 kernel.cl:3:5\n")
        put_right(self.kept, 1, "other", more="not-recorded a work-group has 2048 work-items\n")
        lines = [line for line in self.judge(status=2) if line.startswith("gpurace-judge")]
        self.assertEqual(lines[:3], [
            "gpurace-judge: nothing found, which is no answer:",
            "gpurace-judge:     accesses of images, which are not judged: 2, at kernel.cl:3:5 (1 launch of right)",
            "gpurace-judge:     not recorded: a work-group has 2048 work-items (1 launch of other)"])
        self.judge("--error-exitcode", "42", status=2)

    def test_a_doubtful_race_is_not_found(self):
        put_racy(self.kept, more="orders-not-known 2\n")
        lines = self.judge(status=2)
        self.assertEqual(lines[-4], "gpurace-judge: nothing found for certain, which is no answer:")
        self.assertIn("gpurace-judge:     doubtful: race on tile[8] of group 0, at kernel.cl:3:13 and kernel.cl:5:20 (1 launch of sums)", lines)
        self.assertIn("gpurace-judge: 1 launch: 0 with findings, 1 with doubtful ones, 0 without, 0 not judged whole", lines[-1])

    def test_no_launch(self):
        self.kept.mkdir()
        self.assertIn("no launch was recorded", self.judge(status=2)[1])

    def test_a_launch_whose_program_died(self):
        """Its stream ends within a record, and no info.txt is there."""
        put_right(self.kept)
        folder = self.kept / "000-right"
        (folder / "begun.txt").write_text("".join(f"{line}\n" for line in info("right", 0).splitlines()[:5]))
        (folder / "info.txt").unlink()
        stream = folder / "group00.gpurace"
        stream.write_bytes(stream.read_bytes()[:12 + 20 + 7])
        said = "records of 1 of 1 groups were lost (the first is group 0): the program ended while its kernel ran"
        self.assertIn(said, "".join(self.judge(status=2)))
        self.assertIn(said, "".join(self.judge(status=2)), "also when it is judged again")

    def test_groups_that_never_began(self):
        """Of three groups the first was cut, and the others have no stream."""
        put_launch(self.kept / "000-three", ["group 0 items 2 launch 0\n0 w g 1\nend cut\n"], {"info.txt": info("three", 0, 3, "cut 0\ncut 1\ncut 2\n")})
        self.assertIn("records of 3 of 3 groups were lost (the first is group 0)", "".join(self.judge(status=2)))

    def test_records_beyond_the_most(self):
        put_launch(self.kept / "000-most", ["group 0 items 2 launch 0\n0 w g 1\nend cut\n"], {"info.txt": info("most", 0, more="cut 0\nmost-records 1\n")})
        self.assertIn("records of 1 of 1 groups were lost (the first is group 0): --most-records 1 allows no more", "".join(self.judge(status=2)))

    def test_a_launch_that_cant_be_judged_is_no_answer(self):
        put_right(self.kept)
        put_right(self.kept, 1, "other")
        (self.kept / "001-other" / "info.txt").write_text("kernel other\nlaunch 1\nlocal two\n")
        lines = self.judge(status=2)
        self.assertIn("not judged: ", lines[1])
        self.assertIn("2 launches: 0 with findings, 1 without, 1 not judged whole", lines[-1])

    def test_numbers_that_are_none(self):
        put_right(self.kept)
        for words in (("--jobs", "0"), ("--jobs", "x"), ("--error-exitcode", "0"), ("--error-exitcode", "256"), ("--error-exitcode", "-1")):
            self.judge(*words, status=3)

    def test_streams_of_a_runtime_of_ones_own(self):
        put_launch(self.kept / "mine", ["group 0 items 2 launch 7\n0 w g 5\n1 w g 5\nend\n"], {})
        lines = self.judge(status=1)
        self.assertEqual(lines[:3], ["launch 0, mine: FOUND (1 group, 2 work-items, 3 records)", f"    races 1 diverge 0 unmatched 0 held 0, in {self.kept}/mine",
                                    "    race on global word 5:"])


class Forms(Outputs):
    def put_all(self):
        put_racy(self.kept)
        put_racy(self.kept, 1)
        put_racy(self.kept, 2, "doubtful", more="orders-not-known 2\nelement tile \"float2\"\n")
        put_right(self.kept, 3)
        files = {"info.txt": info("divergent", 4, more="out-of-bounds 1 kernel.cl:3:9 write 4 0 1 16 bytes after the end of output, which has 128 bytes\n"),
                 "kernel.cl": KERNEL, "places": "1 kernel.cl:5:9\n", "buffers": BUFFERS}
        put_launch(self.kept / "004-divergent", ["group 0 items 2 launch 4\n0 bar 1 l\nend\n"], files)

    def test_json(self):
        self.put_all()
        self.judge("--json", "made.json", status=1)
        made = self.made("made.json")
        self.assertEqual([(it["number"], it["kernel"], it["verdict"], len(it["findings"])) for it in made["launches"]], [
            (0, "sums", "found", 1), (1, "sums", "found", 1), (2, "doubtful", "doubtful", 1), (3, "right", "nothing", 0), (4, "divergent", "found", 2)])
        race, doubtful, divergence, outside = made["findings"]
        self.assertEqual([(it["shown"], it["word"]) for it in (race, doubtful)], [("tile[8] of group 0", None), ("tile[4].x of group 0", "tile[8]")])
        self.assertEqual((race["kind"], race["title"], race["cause"], race["launches"], race["words"]), ("race", "race on tile[8] of group 0", "no-barrier", 2, 1))
        self.assertEqual(race["buffers"], [{"buffer": "tile", "space": "local", "words": 16, "groups": 1, "spans": [[8, 8]]}])
        self.assertEqual([(it["what"], it["who"], it["place"], it["text"]) for it in race["accesses"]], [
            ("write", "group 0, item 1", "kernel.cl:3:13", "tile[l] = input[l];"), ("read", "group 0, item 0", "kernel.cl:5:20", "tile[l] += tile[l + 8];")])
        self.assertEqual([divergence["kind"], divergence["cause"], outside["kind"]], ["divergence", "missing", "out-of-bounds"])
        self.assert_valid(made, TOP / "docs" / "record.schema.json")

    def test_sarif(self):
        self.put_all()
        self.judge("--sarif", "made.sarif", status=1)
        made = self.made("made.sarif")
        run = made["runs"][0]
        self.assertEqual([(it["ruleId"], it["level"], it["occurrenceCount"]) for it in run["results"]], [
            ("DataRace", "error", 2), ("DataRace", "warning", 1), ("DivergentBarrier", "error", 1), ("OutOfBounds", "error", 1)])
        race = run["results"][0]
        self.assertEqual(race["message"]["text"], "race on tile[8] of group 0: nothing orders the two; a barrier with CLK_LOCAL_MEM_FENCE between them would")
        places = [it["physicalLocation"] for it in race["locations"] + race["relatedLocations"]]
        self.assertEqual([(it["artifactLocation"]["uri"], it["region"]["startLine"], it["region"]["startColumn"]) for it in places],
                         [("sums/kernel.cl", 3, 13), ("sums/kernel.cl", 5, 20)])
        self.assertEqual([it["contents"]["text"] for it in run["artifacts"]], [KERNEL] * 3)
        self.assert_valid(made, TOP / "tests" / "recorder" / "sarif.schema.json")

    def test_sarif_of_texts_of_one_name(self):
        """Each result's line is a line of its own text, whose artifact has a URI of its own."""
        put_racy(self.kept)
        put_racy(self.kept, 1, added_lines=7)
        put_racy(self.kept, 2)
        (self.kept / "001-sums" / "kernel.cl").write_text("\n" * 7 + KERNEL.replace("input[l];", "input[l] + 1;"))
        self.judge("--sarif", "made.sarif", status=1)
        run = self.made("made.sarif")["runs"][0]
        texts = {it["location"]["uri"]: it["contents"]["text"].splitlines() for it in run["artifacts"]}
        places = [it["locations"][0]["physicalLocation"] for it in run["results"]]
        found = [(it["artifactLocation"]["uri"], it["region"]["startLine"]) for it in places]
        self.assertEqual([*sorted(texts), *found], ["sums.2/kernel.cl", "sums/kernel.cl", ("sums/kernel.cl", 3), ("sums.2/kernel.cl", 10)])
        self.assertEqual([texts[uri][line - 1].strip() for uri, line in found], ["tile[l] = input[l];", "tile[l] = input[l] + 1;"])

    def test_calls_that_lead_to_an_access(self):
        """The access of line 3 is in a function that line 5 calls: JSON, SARIF and the fingerprint have the call."""
        put_racy(self.kept)
        self.judge("--json", "made.json", status=1)
        plain = self.made("made.json")["findings"][0]
        places = self.kept / "000-sums" / "places"
        places.write_text(places.read_text().replace("0 1 0 kernel.cl:3:13", "0 1 0 kernel.cl:3:13 called at kernel.cl:5:9"))
        self.judge("--json", "made.json", "--sarif", "made.sarif", status=1)
        finding = self.made("made.json")["findings"][0]
        self.assertEqual([it["calls"] for it in finding["accesses"]], [[], [{"place": "kernel.cl:5:9", "text": "tile[l] += tile[l + 8];"}]])
        self.assertEqual([it["place"] for it in finding["accesses"]], ["kernel.cl:5:20", "kernel.cl:3:13"])
        self.assertNotEqual(finding["fingerprint"], plain["fingerprint"])
        self.assert_valid(self.made("made.json"), TOP / "docs" / "record.schema.json")
        stack, = self.made("made.sarif")["runs"][0]["results"][0]["stacks"]
        self.assertEqual([frame["location"]["physicalLocation"]["region"]["startLine"] for frame in stack["frames"]], [3, 5])
        self.assert_valid(self.made("made.sarif"), TOP / "tests" / "recorder" / "sarif.schema.json")

    def test_junit(self):
        self.put_all()
        self.judge("--junit", "made.xml", status=1)
        suite = xml.parse(self.room / "made.xml").getroot().find("testsuite")
        self.assertEqual({key: suite.get(key) for key in ("tests", "failures", "errors", "skipped")}, {"tests": "5", "failures": "2", "errors": "0", "skipped": "1"})
        self.assertEqual([(case.get("classname"), case.get("name"), [it.tag for it in case]) for case in suite], [
            ("kernels", "sums", ["failure"]), ("kernels", "doubtful", ["skipped"]), ("kernels", "right", []), ("kernels", "divergent", ["failure"]),
            ("run", "the run", [])])
        self.assertIn("kernel.cl:3:13: write by group 0, item 1", suite[0][0].text)

    def test_junit_has_what_keeps_a_run_from_being_an_answer(self):
        self.kept.mkdir()
        self.judge("--junit", "made.xml", status=2)
        suite = xml.parse(self.room / "made.xml").getroot().find("testsuite")
        self.assertEqual([(case.get("name"), [it.tag for it in case]) for case in suite], [("the run", ["error"])])

    def test_characters_that_xml_has_not(self):
        put_racy(self.kept)
        (self.kept / "000-sums" / "kernel.cl").write_text(KERNEL.replace("input[l];", "input[l]; // \x01 <&>"))
        self.judge("--junit", "made.xml", status=1)
        self.assertIn("input[l]; // ? <&>", xml.parse(self.room / "made.xml").getroot().find(".//failure").text)


class Files(Outputs):
    """Where outputs go."""

    def test_a_file_that_cant_be_written(self):
        put_right(self.kept)
        self.judge("--json", "nowhere/made.json", status=3)
        self.judge("--json", str(self.kept), status=3)

    def test_a_file_that_cant_be_put_in_its_place(self):
        """It was a file when the words were looked at; no part of it stays."""
        made = self.room / "made.json"
        made.mkdir()
        with self.assertRaises(OSError) as fault:
            write(str(made), "text")
        self.assertEqual((fault.exception.filename, [it.name for it in self.room.iterdir()]), (str(made), ["made.json"]))

    def test_a_link_leads_where_it_did(self):
        put_right(self.kept)
        (self.room / "target").write_text("old")
        for name, target in (("link", "target"), ("to link", "link"), ("to nothing", "new")):
            (self.room / name).symlink_to(target)
            self.judge("--json", name, status=0)
            self.assertEqual((os.readlink(self.room / name), self.made(target)["status"]), (target, 0))

    def test_a_device_a_pipe_and_an_open_file_are_written_into(self):
        """The device is a terminal."""
        put_right(self.kept)
        os.mkfifo(self.room / "fifo")
        terminal, device = os.openpty()
        self.addCleanup(os.close, device)
        pipe, to_pipe = os.pipe()
        reads = [os.open(self.room / "fifo", os.O_RDONLY | os.O_NONBLOCK), terminal, pipe]
        (self.room / "link").symlink_to(os.ttyname(device))
        self.ran("--json", "fifo", "--sarif", "link", "--junit", f"/dev/fd/{to_pipe}", status=0, pass_fds=[to_pipe])
        os.close(to_pipe)
        self.assertTrue((self.room / "fifo").is_fifo() and (self.room / "link").is_char_device())
        for read, said in zip(reads, ('"gpurace_record": 1', '"version": "2.1.0"', "<testsuites>")):
            self.assertIn(said, os.read(read, 1 << 16).decode())
            os.close(read)

    def test_standard_output_goes_on_as_it_is(self):
        """It is a file, and not the program's alone: what is there stays. With --report it has no report."""
        put_right(self.kept)
        with open(self.room / "out", "w") as out:
            out.write("before\n")
            out.flush()
            self.ran("--json", "-", "--report", "report", status=0, stdout=out)
            out.write("after\n")
        lines = (self.room / "out").read_text().splitlines()
        self.assertEqual((lines[0], json.loads("\n".join(lines[1:-1]))["status"], lines[-1]), ("before", 0, "after"))
        self.assertEqual((self.room / "report").read_text().splitlines(), self.judge(status=0))

    def test_a_reader_that_ends_is_no_fault(self):
        put_racy(self.kept)
        pipe, to_pipe = os.pipe()
        os.close(pipe)
        ran = self.ran("--json", "made.json", status=1, stdout=to_pipe)
        os.close(to_pipe)
        self.assertNotIn("Broken pipe", ran.stderr)
        self.assertEqual(self.made("made.json")["status"], 1)

    def test_a_standard_error_that_cant_be_written_changes_nothing(self):
        put_right(self.kept)
        with open("/dev/full", "w") as full:
            ran = self.ran(status=0, stderr=full)
        self.assertEqual(ran.stdout.splitlines(), self.judge(status=0))

    def test_one_that_fails_is_a_reason_in_the_others(self):
        put_right(self.kept)
        (self.room / "full").symlink_to("/dev/full")
        (self.room / "made.xml.part").mkdir()
        ran = self.ran("--json", "made.json", "--sarif", "full", "--junit", "made.xml", status=2)
        faults = [("made.xml", "Is a directory"), ("full", "No space left on device")]
        self.assertEqual([line for line in ran.stderr.splitlines() if "made.xml" in line or "full" in line],
                         [f"gpurace-judge: {path}: {why}" for path, why in faults])
        said = [f"{path} could not be written: {why}" for path, why in faults]
        self.assertEqual([(it["name"], it["text"]) for it in self.made("made.json")["reasons"]], [("fault", text) for text in said])
        self.assertEqual((self.made("made.json")["status"], ran.stdout.splitlines()[1:4]), (
            2, ["gpurace-judge: nothing found, which is no answer:", *(f"gpurace-judge:     {text}" for text in said)]))

    def test_a_baseline_is_written_whole_or_not_at_all(self):
        """No file may be as long as the new one."""
        put_racy(self.kept)
        old = json.dumps({"gpurace_baseline": 1, "findings": []})
        (self.room / "known.json").write_text(old)

        def limit():
            resource.setrlimit(resource.RLIMIT_FSIZE, (100, 100))
        ran = self.ran("--baseline", "known.json", "--update-baseline", status=2, preexec_fn=limit)
        self.assertIn("gpurace-judge: known.json: File too large\n", ran.stderr)
        self.assertEqual(((self.room / "known.json").read_text(), sorted(it.name for it in self.room.iterdir())), (old, ["kept", "known.json"]))

    def test_two_of_one_path_are_refused(self):
        put_right(self.kept)
        (self.room / "link").symlink_to("made")
        for words, said in ((("--json", "made", "--sarif", "./made"), "--json and --sarif name one file: ./made"),
                            (("--report", "link", "--html", "made"), "--html and --report name one file: link"),
                            (("--json", "/dev/stdout", "--sarif", "/dev/fd/1"), "--json and --sarif name one file: /dev/fd/1"),
                            (("--json", "-", "--sarif", "/dev/stdout"), "--json and --sarif name one file: /dev/stdout"),
                            (("--json", "link", "--baseline", "made", "--update-baseline"), "--json and --baseline name one file: made")):
            self.assertEqual(self.ran(*words, status=3).stderr, f"gpurace-judge: {said}\n")
        self.ran("--json", "/dev/stdout", "--report", "/dev/stderr", status=0, stderr=subprocess.STDOUT)


class Sources(Outputs):
    """The text of the launch has the race at lines 3 and 5."""

    def setUp(self):
        super().setUp()
        put_racy(self.kept)

    def put(self, name, text):
        (self.room / name).parent.mkdir(parents=True, exist_ok=True)
        (self.room / name).write_text(text)

    def assert_places(self, first, second):
        lines = "".join(self.judge("--sources", "tree", "--sarif", "made.sarif", status=1))
        self.assertIn(f"{first}: read by group 0, item 0", lines)
        self.assertIn(f"{second}: write by group 0, item 1", lines)
        return self.made("made.sarif")["runs"][0]

    def test_the_file_of_the_text(self):
        self.put("tree/lib/sums.cl", KERNEL)
        self.put("tree/lib/copied/sums.cl", KERNEL)
        self.put("tree/.git/s.cl", KERNEL)
        run = self.assert_places("tree/lib/sums.cl:5:20", "tree/lib/sums.cl:3:13")
        self.assertEqual(run["results"][0]["locations"][0]["physicalLocation"]["artifactLocation"]["uri"], "tree/lib/sums.cl")
        self.assertEqual(run["artifacts"], [{"location": {"uri": "tree/lib/sums.cl"}, "contents": {"text": KERNEL}}])

    def test_a_file_whose_name_has_other_characters(self):
        """By RFC 3986 a space is %20, and the two bytes of an é in UTF-8 are %C3%A9."""
        self.put("tree/an é/s 1.cl", KERNEL)
        run = self.assert_places("tree/an é/s 1.cl:5:20", "tree/an é/s 1.cl:3:13")
        self.assertEqual({it["location"]["uri"] for it in run["artifacts"]}, {"tree/an%20%C3%A9/s%201.cl"})

    def test_a_text_within_a_program(self):
        self.put("tree/sums.py", "import pyopencl\n\nTEXT = \"\"\"" + KERNEL + "\"\"\"\n" + "".join(f"print({number})\n" for number in range(40)))
        self.assert_places("tree/sums.py:7:20", "tree/sums.py:5:13")

    def test_a_file_within_a_text(self):
        self.put("tree/sums.cl", "".join(KERNEL.splitlines(keepends=True)[2:]))
        self.put("tree/other.cl", KERNEL.replace("tile", "pile").replace("sums", "others"))
        self.assert_places("tree/sums.cl:3:20", "tree/sums.cl:1:13")

    def test_no_file_has_the_text(self):
        self.put("tree/sums.cl", KERNEL.replace("tile", "pile"))
        self.assert_places("kernel.cl:5:20", "kernel.cl:3:13")

    def test_no_folder(self):
        self.judge("--sources", "nowhere", status=3)


class Known(Outputs):
    def test_a_baseline_is_written_and_then_only_new_findings_count(self):
        put_racy(self.kept)
        self.judge("--baseline", "known.json", status=3)
        self.judge("--baseline", "known.json", "--update-baseline", status=0)
        self.assertEqual(self.made("known.json"), {"gpurace_baseline": 1, "findings": [
            {"kind": "race", "kernel": "sums", "buffers": ["tile"], "cause": "no-barrier", "texts": ["tile[l] += tile[l + 8];", "tile[l] = input[l];"]}]})
        lines = self.judge("--baseline", "known.json", "--json", "made.json", "--sarif", "made.sarif", "--junit", "made.xml", status=0)
        self.assertIn("launch 0, sums: nothing new found (1 group of 2 work-items, 9 records)", lines)
        self.assertEqual([line for line in lines if line.startswith("    race on")], ["    race on tile[8] of group 0 (known), at kernel.cl:3:13 and kernel.cl:5:20"])
        self.assertNotIn("tile[l] += tile[l + 8];", "".join(lines))  # known ones have a line each
        self.assertEqual(lines[-3:-1], ["gpurace-judge: nothing new found", "gpurace-judge: 1 known finding of known.json"])
        self.assertIn("1 launch: 0 with findings, 1 with known ones, 0 without, 0 not judged whole", lines[-1])
        self.assertEqual(self.made("made.json")["findings"][0]["state"], "known")
        self.assertEqual(self.made("made.sarif")["runs"][0]["results"][0]["baselineState"], "unchanged")
        self.assertEqual([it.tag for it in xml.parse(self.room / "made.xml").getroot().find(".//testcase")], [])

    def test_a_known_finding_survives_added_lines(self):
        put_racy(self.kept)
        self.judge("--baseline", "known.json", "--update-baseline", status=0)
        put_racy(self.kept, 1, added_lines=7)
        self.judge("--baseline", "known.json", status=0)
        put_racy(self.kept, 2, kernel="others")
        self.judge("--baseline", "known.json", "--sarif", "made.sarif", status=1)
        self.assertEqual([it["baselineState"] for it in self.made("made.sarif")["runs"][0]["results"]], ["unchanged", "new"])

    def test_a_further_place_of_a_known_text_is_new(self):
        """Both items write one word at one of two lines of one text. Lines above it change nothing, not even a kernel that has this text, but one of this
        text in its own kernel does."""
        def put(launch, line, text):
            shutil.rmtree(self.kept, ignore_errors=True)
            places = "".join(f"0 {item} 0 kernel.cl:{line}:1\n" for item in (0, 1))
            put_launch(self.kept / "sums", [f"group 0 items 2 launch {launch}\n0 w g 0\n1 w g 0\nend\n"],
                       {"info.txt": info("sums", launch), "kernel.cl": text, "places": places, "buffers": BUFFERS})

        kernel, other = "kernel void sums(..) {\na[0] = n;\nn++;\na[0] = n;\n}\n", "kernel void other(..) {\na[0] = n;\n}\n"
        put(0, 2, kernel)
        self.judge("--baseline", "known.json", "--update-baseline", status=0)
        for line, text, status in ((2, kernel, 0), (5, other + kernel, 0), (4, kernel, 1), (7, other + kernel, 1), (3, kernel.replace("{\n", "{\na[0] = n;\n"), 1)):
            put(1, line, text)
            lines = self.judge("--baseline", "known.json", status=status)
            self.assertEqual("gpurace-judge:     gone: race in sums on input, `a[0] = n;`" in lines, status == 1, (line, text))

    def test_a_cause_that_was_not_known_in_time_is_like_any_other(self):
        """In the baseline, or in the run: the finding is known, and not gone. Another cause is another finding."""
        known, race = Finding("race", "sums", "", "no-barrier"), Finding("race", "sums", "", "no-barrier")
        for causes, state in ((("no-barrier", "no-barrier"), "known"), (("", "no-barrier"), "known"), (("no-barrier", ""), "known"), (("flags", "no-barrier"), "new")):
            known.cause, race.cause, race.state = *causes, "new"
            path = self.room / "known.json"
            path.write_text(json.dumps({"gpurace_baseline": 1, "findings": [entry_of(known)]}))
            baseline, report, launch = Baseline(str(path), False), Report(show=lambda line: None), Launch(0, "sums", "")
            report.filters, launch.findings = [baseline], [race]
            report.add(launch)
            self.assertEqual((race.state, baseline.gone(report)), (state, [] if state == "known" else [entry_of(known)]))

    def test_a_known_finding_that_is_gone_is_named(self):
        put_racy(self.kept)
        self.judge("--baseline", "known.json", "--update-baseline", status=0)
        (self.kept / "000-sums").rename(self.room / "racy")
        put_right(self.kept, 1)
        self.assertNotIn("gone", "".join(self.judge("--baseline", "known.json", status=0)))  # its kernel was not launched
        put_right(self.kept, 0, "sums")
        lines = self.judge("--baseline", "known.json", "--sarif", "made.sarif", "--json", "made.json", status=0)
        self.assertIn("gpurace-judge:     gone: race in sums on tile, `tile[l] += tile[l + 8];`, `tile[l] = input[l];`", lines)
        self.assertEqual([it["baselineState"] for it in self.made("made.sarif")["runs"][0]["results"]], ["absent"])
        self.assertEqual(len(self.made("made.json")["gone"]), 1)
        self.assert_valid(self.made("made.sarif"), TOP / "tests" / "recorder" / "sarif.schema.json")
        self.judge("--baseline", "known.json", "--update-baseline", status=0)
        self.assertEqual(self.made("known.json")["findings"], [])

    def test_a_file_that_is_no_baseline(self):
        put_right(self.kept)
        (self.room / "known.json").write_text('{"gpurace_baseline": 2, "findings": []}')
        self.judge("--baseline", "known.json", status=3)

    def test_suppressions(self):
        put_racy(self.kept)
        put_racy(self.kept, 1)
        (self.room / "quiet").write_text("# of the sums\n\nkernel sum* buffer tile place kernel.cl:3:* -- known to its author\nkernel other -- never\n")
        lines = self.judge("--suppress", "quiet", "--json", "made.json", "--sarif", "made.sarif", status=0)
        self.assertIn("    race on tile[8] of group 0 (suppressed: known to its author), at kernel.cl:3:13 and kernel.cl:5:20", lines)
        self.assertIn("gpurace-judge: quiet, line 3: suppressed 2 times: known to its author", lines)
        self.assertIn("gpurace-judge: quiet, line 4: matched nothing: never", lines)
        self.assertEqual(self.made("made.json")["suppressions"], [
            {"line": 3, "kernel": "sum*", "buffer": "tile", "place": "kernel.cl:3:*", "why": "known to its author", "matched": 2},
            {"line": 4, "kernel": "other", "why": "never", "matched": 0}])
        self.assertEqual(self.made("made.sarif")["runs"][0]["results"][0]["suppressions"], [{"kind": "external", "justification": "known to its author"}])
        self.assert_valid(self.made("made.json"), TOP / "docs" / "record.schema.json")

    def test_a_suppression_of_another_buffer_or_place_matches_nothing(self):
        put_racy(self.kept)
        for pattern in ("buffer input", "place kernel.cl:4:*", "kernel sums buffer input"):
            (self.room / "quiet").write_text(f"{pattern} -- why\n")
            self.judge("--suppress", "quiet", status=1)

    def test_lines_that_suppress_nothing_are_refused(self):
        put_racy(self.kept)
        for line in ("kernel sums", "kernel -- why", "line 3 -- why", "kernel sums -- ", " -- why", "kernel sums kernel sums -- why"):
            (self.room / "quiet").write_text(line + "\n")
            self.judge("--suppress", "quiet", status=3)
