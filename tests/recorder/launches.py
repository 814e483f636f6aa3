"""What is said of launches that are written here by hand: expected values are worked out from docs/MODEL.md and docs/FORMATS.md."""

import os
import pathlib
import tempfile
import unittest

from testing.launches import BUFFERS, PLACES, SIDES, info, put_launch, put_script

from gpurace_record.causes import checked, of_operation, of_update
from gpurace_record.finding import Finding, join
from gpurace_record.findings import Reader
from gpurace_record.folders import info_of
from gpurace_record.judging import first_of, judged, replay
from gpurace_record.sides import Run, Texts

INFO = info("sums", 7, 2)
LOCAL = "nothing orders the two; a barrier with CLK_LOCAL_MEM_FENCE between them would"
GLOBAL = "nothing orders the two; a barrier with CLK_GLOBAL_MEM_FENCE between them would"
GROUPS = ("nothing orders the two, and a barrier never orders two groups; a second kernel, a word for each group, or a release that an acquire takes, "
          "at memory_scope_device, would mend it")
ONE_OF_THEM = "both items write it at this place; let one of them do so, or give each a word of its own by another index; a barrier "
ONE_WRITE, ONE_WRITE_OF_GROUPS = f"{ONE_OF_THEM}would order only rounds of a loop", f"{ONE_OF_THEM}never orders two groups"
OWN_WORDS = "; if each is to write a word of its own, an index is wrong"
NOT_JUDGED = ("; a fence may order the two, which is not judged; in its place let the atomic after the one access have memory_order_release, and that "
              "before the other one memory_order_acquire (OpenCL C 2.0)")
HAND_OVER = "nothing orders the two; a release that an acquire takes, at memory_scope_device, would"
END = "the missing barrier's place is the end of the loop's body, outside of branches that not all work-items take"
ROUNDS = f"; the first of the two items has come to this line twice and the second once; if these are rounds of a loop, {END}"
IN_TURN = f"; one of the items comes to both places in turn; if these are rounds of a loop, {END}"
OUTSIDE = "its place is outside of branches and loops that they take differently, and before any early return"


def tile(group):
    """Item 0 writes tile[0] and reads tile[8] and tile[9], which item 1 writes; no barrier is between."""
    return f"group {group} items 2 launch 7\n0 w l 64\n0 r l 72\n0 r l 73\n1 w l 72\n1 w l 73\nend\n"


def in_lines(message, at_first=0):
    """The sentences of a message, each on a line of a report; the first one goes on after so many semicolons."""
    parts = message.split("; ")
    return "\n    ".join(["; ".join(parts[:at_first + 1]), *parts[at_first + 1:]])


class Launches(unittest.TestCase):
    def judged(self, streams, files):
        """The launch that these streams and side files are."""
        with tempfile.TemporaryDirectory() as folder:
            place = pathlib.Path(folder) / "sums"
            put_launch(place, streams, files)
            launch = judged(os.environ["GPURACE"], str(place))
        launch.decide()
        return launch

    def assert_report(self, streams, files, verdict, report):
        launch = self.judged(streams, files)
        lines = [line for it in launch.findings for line in it.lines()] + [f"reason {it.name}: {it.text}" for it in launch.reasons]
        self.assertEqual((launch.verdict, "".join(f"{line}\n" for line in lines).replace(launch.folder, "FOLDER")), (verdict, report))

    def test_a_barrier_is_missing(self):
        """The accesses to tile[8] have places, those to tile[9] have none: two kinds."""
        self.assert_report([tile(0), tile(1)], SIDES, "found", f"""\
race on tile[8] of 2 groups (2 words); on tile[8] of group 0
    kernel.cl:3:13: write by group 0, item 1
        tile[l] = input[l];
    kernel.cl:5:20: read by group 0, item 0
        tile[l] += tile[l + 8];
    {LOCAL}
race on tile[9] of 2 groups (2 words); on tile[9] of group 0
    unknown place: write by group 0, item 1
    unknown place: read by group 0, item 0
    {LOCAL}
""")

    def test_no_places_and_no_buffers(self):
        self.assert_report([tile(0)], {}, "found", f"""\
race on local words 72..73 (2 words); on local word 72 of group 0
    unknown place: write by group 0, item 1
    unknown place: read by group 0, item 0
    {LOCAL}
""")

    def test_an_asynchronous_copy(self):
        streams = ["group 0 items 2 launch 7\n0 r l 64\n1 r l 64\n1 w l 64\nend\n"]
        self.assert_report(streams, {**SIDES, "info.txt": INFO + "copying-item 0 1\n", "places": PLACES + "0 1 1 kernel.cl:5:20\n"}, "found", f"""\
race on tile[0] of group 0
    kernel.cl:3:13: read by group 0, item 0
        tile[l] = input[l];
    kernel.cl:5:20: write by group 0, asynchronous copy
        tile[l] += tile[l + 8];
    nothing orders the two
    wait_group_events after the copy would, or, if the copy comes last, a barrier before it
""")

    def test_equal_values(self):
        """Both words of the output got one value, and so did the word of group 0's tile, but not that of group 1's."""
        streams = ["group 0 items 2 launch 7\n0 w g 128\n1 w g 128\n0 w g 129\n1 w g 129\n0 w l 64\n1 w l 64\nend\n",
                   "group 1 items 2 launch 7\n0 w l 64\n1 w l 64\nend\n"]
        self.assert_report(streams, {"buffers": BUFFERS, "equal": "g 127 130\nl 0 64 64\n"}, "found", f"""\
race on output[0..1] (2 words); on output[0]
    unknown place: write by group 0, item 0
    unknown place: write by group 0, item 1
    {GLOBAL}
    all stores to each of them write the same value
race on tile[0] of 2 groups (2 words); on tile[0] of group 0
    unknown place: write by group 0, item 0
    unknown place: write by group 0, item 1
    {LOCAL}
""")

    def test_an_atomic_that_takes_many_names(self):
        """It is loads and itself, all of one place. At another place a load is one."""
        streams = ["group 0 items 1 launch 7 v3\n0 rmw g 5 grp both @1\nend\n",
                   "group 1 items 1 launch 7 v3\n0 ld g 5 grp acq @{}\n0 ld g 5 grp acq @2\n0 rmw g 5 grp both @2\nend\n"]
        update, load = ("rmw", "both"), ("load", "acq")
        for site, seen in ((2, [[update, update]]), (1, [[update, load], [update, update]])):
            launch = self.judged([streams[0], streams[1].format(site)], {"info.txt": INFO + "acquire-loads-added 2\n", "sites": "a.cl:1:1\na.cl:2:1\n"})
            self.assertEqual(sorted([(it.what, it.order) for it in finding.accesses] for finding in launch.findings), seen)

    def test_a_number_that_both_write(self):
        """The text has it after its `=`; where a file says that all stores write one value, that is enough."""
        stream = "group 0 items 2 launch 7 v3\n0 w g 5 @1\n1 w g 5 @{}\nend\n"
        files = {"sites": "kernel.cl:1:11\nkernel.cl:2:4\n"}
        for site, text, said in ((1, "if (x) *a = 0;", f"{ONE_WRITE}; both write 0"), (1, "if (x) *a = x;", ONE_WRITE), (1, "if (x) *a = 0 + x;", ONE_WRITE),
                                 (2, "if (x) *a = 1.5f;\n*a = 1.5f;", f"{GLOBAL}; both write 1.5f"), (2, "if (x) *a = 0;\n*a = 1;", GLOBAL + OWN_WORDS)):
            launch = self.judged([stream.format(site)], {**files, "kernel.cl": text})
            self.assertEqual([it.message for it in launch.findings], [said], text)
        launch = self.judged([stream.format(1)], {**files, "kernel.cl": "if (x) *a = 0;", "equal": "g 5 5\n"})
        self.assertEqual([(it.message, it.is_equal) for it in launch.findings], [(ONE_WRITE, True)])

    def test_words_of_a_buffer_and_of_none(self):
        """Words with one place of two are of one kind. Both accesses to output[0] have a place, so it is of another."""
        streams = ["group 0 items 1 launch 7\n0 w g 5\n0 w g 128\n0 w g 200\nend\n",
                   "group 1 items 1 launch 7 v2\n0 w g 200\n0 w g 128\n0 w g 5\nend\n"]
        self.assert_report(streams, SIDES, "found", f"""\
race on input[5], global word 200 (2 words); on input[5]
    unknown place: write by group 1, item 0
    kernel.cl:3:13: write by group 0, item 0
        tile[l] = input[l];
    {in_lines(GROUPS)}
race on output[0]
    kernel.cl:5:20: write by group 0, item 0
        tile[l] += tile[l + 8];
    kernel.cl:5:20: write by group 1, item 0
        tile[l] += tile[l + 8];
    {in_lines(ONE_WRITE_OF_GROUPS)}
""")

    def test_both_sides_of_one_mistake_are_one_finding(self):
        """Words 0 and 2 race at the same two lines, and which of the two items is the smaller one differs."""
        self.assert_report(["group 0 items 2 launch 7\n0 w g 0\n1 r g 0\n0 r g 2\n1 w g 2\nend\n"],
                         {"buffers": "g 0 8 input\n", "places": "0 0 0 a.cl:1:1\n0 1 0 a.cl:2:1\n0 0 1 a.cl:2:1\n0 1 1 a.cl:1:1\n"}, "found", f"""\
race on input[0], input[2] (2 words); on input[0]
    a.cl:1:1: write by group 0, item 0
    a.cl:2:1: read by group 0, item 1
    {GLOBAL}
""")

    def test_a_harmless_race_hides_no_other_one(self):
        """Both items store at line 2; after the barrier item 0 stores at line 5 what item 1 reads at line 7."""
        self.assert_report(["group 0 items 2 launch 7\n0 w g 0\n1 w g 0\n0 bar 3 g\n1 bar 3 g\n0 w g 0\n1 r g 0\nend\n"],
                         {"buffers": "g 0 1 flag\n", "places": "0 0 0 a.cl:2:13\n0 1 0 a.cl:2:13\n0 0 2 a.cl:5:17\n0 1 2 a.cl:7:19\n"}, "found", f"""\
race on flag[0]
    a.cl:5:17: write by group 0, item 0
    a.cl:7:19: read by group 0, item 1
    {GLOBAL}
race on flag[0]
    a.cl:2:13: write by group 0, item 0
    a.cl:2:13: write by group 0, item 1
    {in_lines(ONE_WRITE)}
""")

    def test_races_of_one_text_at_several_lines_are_several_findings(self):
        """Both items write tile[0] at line 2, and after a barrier at line 4, whose text is the same."""
        text = "if (l < 2)\n  tile[0] = n;\nbarrier(F);\ntile[0] = n;\n"
        steps = "0 w l 64\n1 w l 64\n0 bar 3 l\n1 bar 3 l\n0 w l 64\n1 w l 64\n"
        places = "".join(f"0 {item} {at} kernel.cl:{line}\n" for item in (0, 1) for at, line in ((0, "2:11"), (2, "4:9")))
        launch = self.judged([f"group 0 items 2 launch 7\n{steps}end\n"], {"buffers": BUFFERS, "kernel.cl": text, "places": places})
        self.assertEqual([([access.place for access in it.accesses], it.texts()) for it in launch.findings],
                         [(["kernel.cl:2:11"] * 2, ["tile[0] = n;"]), (["kernel.cl:4:9"] * 2, ["tile[0] = n; #2"])])

    def test_lines_of_one_text_in_two_files_are_all_shown(self):
        """A kernel has two files as parts of its text."""
        places = "".join(f"0 {item} {at} {file}:1:1\n" for item in (0, 1) for at, file in enumerate(("a.inc", "b.inc")))
        steps = "".join(f"{item} w l {word}\n" for item in (0, 1) for word in (64, 65))
        files = {"buffers": BUFFERS, "a.inc": "a[i] = 1;\n", "b.inc": "a[i] = 1;\n", "places": places}
        (finding,) = self.judged([f"group 0 items 2 launch 7\n{steps}end\n"], files).findings
        self.assertEqual((finding.words, [it.place for it in finding.accesses]), (2, ["a.inc:1:1"] * 2 + ["b.inc:1:1"] * 2))

    def test_calls_of_one_text_are_several_findings(self):
        """A function that writes tile[0] is called by both items at line 4, and then at line 5."""
        text = "void put(local int *tile) {\n  *tile = 1;\n}\n  put(tile);\n  put(tile);\n"
        places = "".join(f"0 {item} {at} kernel.cl:2:9 called at kernel.cl:{4 + at}:3\n" for item in (0, 1) for at in (0, 1))
        steps = "".join(f"{item} w l {word}\n" for item in (0, 1) for word in (64, 65))
        launch = self.judged([f"group 0 items 2 launch 7\n{steps}end\n"], {"buffers": BUFFERS, "kernel.cl": text, "places": places})
        self.assertEqual([it.texts() for it in launch.findings], [["*tile = 1; < put(tile);"], ["*tile = 1; < put(tile); #2"]])

    def test_which_one_of_the_lines_of_a_text(self):
        """Each kernel counts for itself. Of long lines those count that are shown alike."""
        texts, long_line = Texts(""), "x" * 300
        texts.files["a.cl"] = ["// a kernel void of sense", "f();", "  f();", "kernel void a() {", " f(); ", "f(); g();", "f();", "__kernel __attribute__((x))", "f();",
                               long_line + "1", long_line + "2", "__kernel", "f();"]
        for line, nth in ((2, 1), (3, 2), (5, 1), (6, 1), (7, 2), (9, 1), (10, 1), (11, 2), (13, 1), (14, 1)):
            self.assertEqual(texts.nth(f"a.cl:{line}:1"), nth, line)
        self.assertEqual((texts.nth("a.cl:11:300"), texts.nth("site 3")), (1, 1))

    def test_a_word_of_two_kinds_is_one_word(self):
        """Words 3 to 5 and 5 to 6 of global memory are four; word 5 of a group is another one."""
        one, other = Finding("race", "sums", "", words=3, runs=[Run(None, 3, 5)]), Finding("race", "sums", "", words=3, runs=[Run(None, 5, 6), Run(0, 5, 5)])
        join(one, other)
        self.assertEqual(one.words, 5)

    def test_one_place_that_is_called_twice_is_two_stacks(self):
        """Items 0 and 1 write tile[1] by the calls of lines 7 and 6, and tile[6] both by that of line 7, which a function makes."""
        text = ("void put(local int *tile, int at, int value) {\n    tile[at] = value;\n}\nkernel void sums(global int *input, global int *output) {\n"
                "    local int tile[16];\n    put(tile, l, 1);\n    put(tile, l + 1, 2);\n}\n")
        first, second = ("kernel.cl:2:14 called at kernel.cl:6:5", "kernel.cl:2:14 called at kernel.cl:7:5")
        streams = ["group 0 items 2 launch 7\n0 w l 65\n1 w l 65\n0 w l 70\n1 w l 70\nend\n"]
        places = f"0 0 0 {second}\n0 1 0 {first}\n0 0 1 {second} called at other.cl:9:1\n0 1 1 {second}\n"
        self.assert_report(streams, {"buffers": BUFFERS, "kernel.cl": text, "places": places}, "found", f"""\
race on tile[1] of group 0
    kernel.cl:2:14: write by group 0, item 0
        tile[at] = value;
        called at kernel.cl:7:5: put(tile, l + 1, 2);
    kernel.cl:2:14: write by group 0, item 1
        tile[at] = value;
        called at kernel.cl:6:5: put(tile, l, 1);
    {in_lines(LOCAL + OWN_WORDS, 1)}
race on tile[6] of group 0
    kernel.cl:2:14: write by group 0, item 1
        tile[at] = value;
        called at kernel.cl:7:5: put(tile, l + 1, 2);
    kernel.cl:2:14: write by group 0, item 0
        tile[at] = value;
        called at kernel.cl:7:5: put(tile, l + 1, 2);
        called at other.cl:9:1
    {in_lines(LOCAL + OWN_WORDS, 1)}
""")

    def test_a_barrier_that_is_called_twice(self):
        """Items 0 and 1 come to the barrier of line 2 by two calls."""
        text = "void meet() {\n    barrier(CLK_LOCAL_MEM_FENCE);\n}\nkernel void sums() {\n    if (l) meet();\n    else meet();\n}\n"
        places = "1 kernel.cl:2:5 called at kernel.cl:5:12\n2 kernel.cl:2:5 called at kernel.cl:6:10\n"
        self.assert_report(["group 0 items 2 launch 7\n1 bar 1 l\n0 bar 2 l\nend\n"], {"info.txt": INFO, "kernel.cl": text, "places": places}, "found", """\
divergent barrier, number 0 of group 0
    kernel.cl:2:5: item 0
        barrier(CLK_LOCAL_MEM_FENCE);
        called at kernel.cl:6:10: else meet();
    kernel.cl:2:5: item 1
        barrier(CLK_LOCAL_MEM_FENCE);
        called at kernel.cl:5:12: if (l) meet();
    the work-items are at different barriers
    let all of them come to one barrier, outside of the branch
""")

    def test_two_pairs_of_places(self):
        """Words 0 and 4 race at the same two places, and word 2 at others."""
        streams = ["group 0 items 4 launch 7\n0 w g 0\n1 r g 0\n0 w g 2\n1 r g 2\n0 w g 4\n1 r g 4\nend\n"]
        places = "0 0 0 a.cl:1:1\n0 1 0 a.cl:2:1\n0 0 1 a.cl:3:1\n0 1 1 a.cl:4:1\n0 0 2 a.cl:1:1\n0 1 2 a.cl:2:1\n"
        self.assert_report(streams, {"buffers": "g 0 8 input\n", "places": places}, "found", f"""\
race on input[0], input[4] (2 words); on input[0]
    a.cl:1:1: write by group 0, item 0
    a.cl:2:1: read by group 0, item 1
    {GLOBAL}
race on input[2]
    a.cl:3:1: write by group 0, item 0
    a.cl:4:1: read by group 0, item 1
    {GLOBAL}
""")

    def test_two_buffers_of_local_memory(self):
        streams = [f"group {group} items 2 launch 7\n0 w l 64\n0 w l 128\n1 r l 128\n1 r l 64\nend\n" for group in (0, 1)]
        self.assert_report(streams, {"buffers": "".join(f"l {group} 64 1 sum\nl {group} 128 4 tile\n" for group in (0, 1))}, "found", f"""\
race on sum[0] of 2 groups, tile[0] of 2 groups (4 words); on sum[0] of group 0
    unknown place: write by group 0, item 0
    unknown place: read by group 0, item 1
    {LOCAL}
""")

    def test_a_flag_is_missing_and_scopes_are_too_narrow(self):
        streams = ["group 0 items 2 launch 7 v2\n0 bar 3 l\n1 bar 3 l\n0 w g 1\n1 bar 4 l\n0 bar 4 l\n1 r g 1\n0 rmw g 2 grp both\nend\n",
                   "group 1 items 1 launch 7 v2\n0 ld g 2 grp acq < 0 0 0\nend\n"]
        places = "3 a b.cl:1:2\n4 a b.cl:9:2\n0 0 3 lock.cl:4:7\n1 0 0 lock.cl:8:7\n"
        self.assert_report(streams, {"places": places}, "found", """\
race on global word 1
    unknown place: write by group 0, item 0
    unknown place: read by group 0, item 1
    the barrier at a b.cl:9:2 does not order global memory: give it CLK_GLOBAL_MEM_FENCE
race on global word 2
    lock.cl:4:7: atomic read-modify-write (acquire and release, work-group scope) by group 0, item 0
    lock.cl:8:7: atomic load (acquire, work-group scope) by group 1, item 0
    the scope at lock.cl:4:7 and lock.cl:8:7 reaches no other group: use `memory_scope_device`
""")

    def test_two_scopes_in_a_group(self):
        launch = self.judged(["group 0 items 2 launch 7\n0 st g 9 grp rlx\n1 ld g 9 dev rlx\nend\n"], {"places": "0 0 0 a.cl:1:1\n0 1 0 a.cl:2:1\n"})
        self.assertEqual([it.message for it in launch.findings], ["the scope at a.cl:1:1 does not include `memory_scope_device`: use `memory_scope_device`"])

    def test_a_hand_over_whose_scope_is_too_narrow(self):
        """The plain accesses race since the release and the acquire between them have work-group scope; so do these themselves."""
        streams = ["group 0 items 1 launch 7\n0 w g 16\n0 st g 20 grp rel\nend\n", "group 1 items 1 launch 7\n0 ld g 20 grp acq < 0 0 0\n0 r g 16\nend\n"]
        narrow = "the scope at f.cl:4:9 and f.cl:5:13 reaches no other group: use `memory_scope_device`"
        self.assert_report(streams, {"places": "0 0 0 f.cl:3:9\n0 0 1 f.cl:4:9\n1 0 0 f.cl:5:13\n1 0 1 f.cl:6:9\n"}, "found", f"""\
race on global word 16
    f.cl:3:9: write by group 0, item 0
    f.cl:6:9: read by group 1, item 0
    {narrow}
race on global word 20
    f.cl:4:9: atomic store (release, work-group scope) by group 0, item 0
    f.cl:5:13: atomic load (acquire, work-group scope) by group 1, item 0
    {narrow}
""")

    def test_a_hand_over_that_is_none(self):
        """Neither, one or the other of the two atomics orders, or the acquire took no value of the release; a third atomic, after the read,
        has no part in it. Which item is shown first makes no difference."""
        store, load = "the store at f.cl:4:9 is no release", "the load at f.cl:5:13 is no acquire"
        for store_order, load_order, more in (("rlx", "rlx", f"; {store} and {load}"), ("rlx", "acq", f"; {store}"), ("rel", "rlx", f"; {load}"),
                                              ("rel", "acq", "; the release at f.cl:4:9 and the acquire at f.cl:5:13 do not meet")):
            sides = [(f"0 w g 16\n0 st g 20 dev {store_order}\n", ("f.cl:3:9", "f.cl:4:9"), ("write", "f.cl:3:9")),
                     (f"0 ld g 20 dev {load_order}\n0 r g 16\n0 ld g 24 dev rlx\n", ("f.cl:5:13", "f.cl:6:9"), ("read", "f.cl:6:9"))]
            for both in (sides, sides[::-1]):
                streams = [f"group {group} items 1 launch 7\n{steps}end\n" for group, (steps, _, _) in enumerate(both)]
                places = "".join(f"{group} 0 {at} {place}\n" for group, (_, places, _) in enumerate(both) for at, place in enumerate(places))
                (finding,) = self.judged(streams, {"places": places}).findings
                shown = [(access.what, access.place) for access in finding.accesses]
                self.assertEqual((finding.message, shown), (HAND_OVER + more, [access for _, _, access in both]))

    def test_atomics_of_two_words_hand_nothing_over(self):
        streams = ["group 0 items 1 launch 7\n0 w g 16\n0 st g 20 dev rlx\nend\n", "group 1 items 1 launch 7\n0 ld g 24 dev rlx\n0 r g 16\nend\n"]
        launch = self.judged(streams, {"places": "0 0 0 f.cl:3:9\n0 0 1 f.cl:4:9\n1 0 0 f.cl:5:13\n1 0 1 f.cl:6:9\n"})
        self.assertEqual([it.message for it in launch.findings], [GROUPS])

    def test_a_lock_that_is_let_go_relaxed(self):
        """Both items also read the word and write it next."""
        inside = "0 rmw g 20 dev acq\n0 r g 16\n0 w g 16\n0 rmw g 20 dev rlx\nend\n"
        places = "".join(f"{group} 0 {at} f.cl:{at + 3}:9\n" for group in (0, 1) for at in range(4))
        launch = self.judged([f"group {group} items 1 launch 7\n{inside}" for group in (0, 1)], {"places": places})
        self.assertEqual({it.message for it in launch.findings}, {
            f"{HAND_OVER}; the read-modify-write at f.cl:6:9 is no release; or make each item's read and write of the word one atomic operation"})

    def test_causes_that_take_too_long(self):
        """A program that does not answer with causes, and without them as ever."""
        with tempfile.TemporaryDirectory() as folder:
            slow = pathlib.Path(folder) / "gpurace"
            put_script(slow, f"case \"$*\" in *--causes*) exec sleep 100;; esac\nexec '{os.environ['GPURACE']}' \"$@\"\n")
            place = pathlib.Path(folder) / "sums"
            put_launch(place, [tile(0)], {})
            report = replay(os.environ["GPURACE"], [str(place / "group00.gpurace")])[1]
            found = Reader(str(slow), str(place), info_of(str(place)), report, most_seconds=1).findings()
        self.assertEqual([(it.words, it.cause, it.message) for it in found], [(2, "", "the cause was not known after 1 s")])

    def test_a_plain_access_beside_atomics(self):
        """In one group a barrier may be what is missing; none orders two groups."""
        atomic, plain = "rmw g 5 dev rlx", "r g 5"
        two_groups = [f"group {group} items 1 launch 7\n0 {step}\nend\n" for group, step in enumerate((atomic, plain))]
        one_group = [f"group 0 items 2 launch 7\n0 {atomic}\n1 {plain}\nend\n"]
        for streams, other, mend in ((one_group, "group 0, item 1", "put a barrier with CLK_GLOBAL_MEM_FENCE between the two"),
                                     (two_groups, "group 1, item 0", "put one of them in a second kernel")):
            self.assert_report(streams, {}, "found", f"""\
race on global word 5
    unknown place: atomic read-modify-write (relaxed, device scope) by group 0, item 0
    unknown place: read by {other}
    a plain read beside atomics
    {mend}, or, if they may come in any order, make it an atomic load (in OpenCL 1.2 an atomic_or with 0)
""")

    def test_items_that_count(self):
        """Each reads the word and writes it next; then one writes another word."""
        atomic = f"{GLOBAL}; or make each item's read and write of the word one atomic operation"
        for word, messages in ((5, [atomic, atomic]), (6, [GLOBAL])):
            launch = self.judged([f"group 0 items 2 launch 7\n0 r g 5\n0 w g 5\n1 r g 5\n1 w g {word}\nend\n"], {})
            self.assertEqual([it.message for it in launch.findings], messages)

    def test_items_that_count_at_one_line(self):
        """Items of one group, and of two, count at line 4 of a file, or in two steps; between the two another word is read. An atomic comes first."""
        atomic = "use an atomic (such as atomic_add or atomic_cmpxchg of an int, or a loop of atomic_cmpxchg of a float); each item reads the word and " \
                 "writes it at this line"
        counts = "r g 5", "r g 9", "w g 5"
        one_group = ["group 0 items 2 launch 7\n" + "".join(f"{item} {step}\n" for item in (0, 1) for step in counts) + "end\n"]
        two_groups = [f"group {group} items 1 launch 7\n" + "".join(f"0 {step}\n" for step in counts) + "end\n" for group in (0, 1)]
        two_writes, one_write = ({GLOBAL, GLOBAL + OWN_WORDS}, {GROUPS}), ({GLOBAL, ONE_WRITE}, {GROUPS, ONE_WRITE_OF_GROUPS})
        for at, (streams, items) in enumerate(((one_group, ("0 0", "0 1")), (two_groups, ("0 0", "1 0")))):
            at_one_line = "".join(f"{item} 0 a.cl:4:9 called at a.cl:{line}:1\n{item} 2 a.cl:4:5\n" for item, line in zip(items, (7, 8)))
            launch = self.judged(streams, {"places": at_one_line})
            self.assertEqual({it.message for it in launch.findings}, {atomic})
            for places, said in ((at_one_line.replace("a.cl:4:5", "a.cl:5:5"), one_write[at]),
                                 (at_one_line.replace(f"{items[1]} 2 a.cl:4:5", f"{items[1]} 2 b.cl:4:5"), two_writes[at])):
                self.assertEqual({it.message for it in self.judged(streams, {"places": places}).findings}, said)

    def test_items_that_swap_at_one_line(self):
        """Each reads the word and another one, and writes it. Where the line's text has no update of it, that is no count."""
        steps = "".join(f"{item} {step}\n" for item in (0, 1) for step in ("r g 5", "r g 9", "w g 5"))
        streams = [f"group 0 items 2 launch 7\n{steps}end\n"]
        places = "".join(f"0 {item} {index} kernel.cl:1:9\n" for item in (0, 1) for index in (0, 2))
        for line, message in (("t = *a; *a = *b; *b = t;", GLOBAL), ("SWAP(a[l], a[l + 1]);", GLOBAL), ("v[l] = v[l + 1];", GLOBAL),
                              ("*a = *b + *a;", "use an atomic"), ("if (*b == 1) ++*a;", "use an atomic"),
                              ("v[l] >>= *b;", "use an atomic")):
            for it in self.judged(streams, {"places": places, "kernel.cl": line}).findings:
                self.assertTrue(it.message.startswith(message), f"{line}: {it.message}")

    def test_items_that_read_a_word_before_they_write_it(self):
        """Item 0 reads the word in a condition and then writes it, another item reads it there, too. It is no such check if the reads are at two places,
        in no condition or with a barrier between; where an item comes to its place several times, it may be one."""
        def message(text, steps, places="kernel.cl:1:5 kernel.cl:1:14", groups=1):
            form = "group {} items {} launch 7 v3\n{}end\n"
            streams = [form.format(0, 2, "".join(steps))] if groups == 1 else [form.format(0, 1, steps[0]), form.format(1, 1, steps[1].replace("1 ", "0 ", 1))]
            return self.judged(streams, {"kernel.cl": text, "sites": "".join(f"{place}\n" for place in places.split())}).findings[0].message

        first, second, two = "0 r g 5 @1\n0 w g 5 @2\n", "1 r g 5 @1\n", "kernel.cl:1:5 kernel.cl:2:1"
        cmpxchg, most = ("use an atomic (such as {} of an int, or a loop of atomic_cmpxchg of a float)".format(it) for it in ("atomic_cmpxchg", "atomic_max"))
        where = "or, where items read the word at kernel.cl:1:5 and then write it at kernel.cl:2:1, "
        self.assertEqual(message("if (*a == 0) *a = 1;", (first, second)), f"{cmpxchg}; items read the word at this line and then write it")
        self.assertEqual(message("if (x > *a)\n*a = x;", (first, second), two), f"{GLOBAL}; {where}{most}")
        self.assertEqual(message("if (x > *a)\n*a = x;", (first, second), two, 2),
                         f"items read the word at kernel.cl:1:5 and then write it at kernel.cl:2:1; {most}")
        self.assertEqual(message("int t = *a;\n*a = x;", (first, second), two), GLOBAL)
        self.assertEqual(message("if (x > *a)\n*a = x;", (first, second.replace("@1", "@3")), f"{two} kernel.cl:3:1"), GLOBAL)
        self.assertEqual(message("if (x > *a)\n*a = x;", ("0 r g 5 @1\n0 bar 1 g @3\n0 w g 5 @2\n", "1 bar 1 g @3\n1 r g 5 @1\n"), f"{two} b.cl:9:9"),
                         f"{GLOBAL}; the last barrier before both is at b.cl:9:9")
        where = where.replace("2:1", "1:14")
        self.assertEqual(message("if (*a == 0) *a = 1;", (first, "1 r g 7 @1\n" + second)), f"{GLOBAL}{ROUNDS}; {where}{cmpxchg}")
        self.assertEqual(message("if (*a == 0) *a = 1;", (first + "0 r g 7 @1\n", second)), f"{cmpxchg}; items read the word at this line and then write it")
        self.assertEqual(message("if (*a == 0) *a = 1;", (first, second + "1 r g 7 @1\n")), f"{GLOBAL}; {where}{cmpxchg}")

    def test_what_a_check_and_a_write_are(self):
        """One atomic does both only if the check asks for a value, or compares with what is written; for all else there is a loop of one."""
        loop = "let one item do both, or use a loop of atomic_cmpxchg, begun by an atomic read, that writes only while the check holds"
        for check, write, advice in (("if (*a == 0)", "*a = i + 1;", "atomic_cmpxchg"), ("while (*a != 0) ;", "*a = 1;", "atomic_cmpxchg"),
                                     ("if (a[w] != 1)", "a[w] = 1;", "atomic_xchg"), ("if (a[w] != 1)", "a[w] = 10;", loop), ("if (a[w] != 1)", "a[w]++;", loop),
                                     ("if (in[i] > *a)", "*a = in[i];", "atomic_max or atomic_fetch_max"), ("if (*a <= x+1)", "*a = x + 1;", "atomic_max or atomic_fetch_max"),
                                     ("if (*a > x) {", "*a = x;", "atomic_min or atomic_fetch_min"), ("if (f(x) < *a)", "*a = f(x);", "atomic_min or atomic_fetch_min"),
                                     ("if (!seen[w]) {", "seen[w] = 1;", "atomic_cmpxchg"), ("if (seen[w]) continue;", "seen[w] = 1;", "atomic_cmpxchg"),
                                     ("if (x < n && x > p->a)", "p->a = x;", "atomic_max or atomic_fetch_max"), ("if (f > x && !*b)", "*a = x;", loop),
                                     ("if (*a > 3)", "*a = 0;", loop), ("if (*a > 30)", "*a = 3;", loop), ("if (**a > x)", "*a = x;", loop), ("if (*a < 10)", "*a += 1;", loop),
                                     ("if (x > *a) { *a = x; *b = i; }", "if (x > *a) { *a = x; *b = i; }", loop), ("if (*a == 0)", "*a |= 1;", loop),
                                     ("*a = x > *a ? x : *a;", "*a = x > *a ? x : *a;", "atomic_max or atomic_min")):
            self.assertEqual(of_operation("int", checked(check, write)), advice if advice == loop else f"use an atomic, such as {advice}", check + write)
        self.assertEqual(of_operation("ulong", checked("if (*a > 3)", "*a = 0;")), loop.replace("cmpxchg", "cmpxchg (atom_cmpxchg of cl_khr_int64_base_atomics)"))
        self.assertTrue(of_operation("float", checked("if (*a > 3)", "*a = 0;")).startswith("use a loop of atomic_cmpxchg on the bits"))

    def test_an_item_that_waits(self):
        """It reads a flag in a loop that does nothing else, in the same group or another one; the flag is stored plainly, or by an atomic."""
        flag = ("nothing orders the two; the read waits for the write; make that an atomic store with memory_order_release, and the read an atomic load with "
                "memory_order_acquire")
        beside = "a plain read beside atomics; since it waits, make it an atomic load with memory_order_acquire"
        files = {"kernel.cl": "*ready = 1;\nwhile (*ready == 0) ;\nwhile (a[i] > x) i++;\n", "sites": "kernel.cl:1:8\nkernel.cl:2:8\nkernel.cl:3:8\n"}
        for store, line, messages in (("w g 5", 2, (flag, flag)), ("st g 5 dev rel", 2, (beside, beside)), ("w g 5", 3, (GLOBAL, GROUPS))):
            for groups, message in zip((1, 2), messages):
                steps, second = (f"0 {store} @1\n", f"{2 - groups} r g 5 @{line}\n"), "end\ngroup 1 items 2 launch 7 v3\n" if groups == 2 else ""
                launch = self.judged([f"group 0 items 2 launch 7 v3\n{steps[0]}{second}{steps[1]}end\n"], files)
                self.assertEqual([it.message for it in launch.findings], [message])

    def test_items_of_two_groups_that_read_what_neighbours_write(self):
        """By one statement: then the kernel needs another buffer. By two it may be anything."""
        streams = ["group 0 items 1 launch 7 v3\n0 w g 5 @1\nend\n", "group 1 items 1 launch 7 v3\n0 r g 5 @2\nend\n"]
        for line, more in (("u[g] = u[g - 1];", "; both are of one statement; let the kernel write to another buffer than it reads"), ("u[g] = 1; u[g - 1];", "")):
            launch = self.judged(streams, {"kernel.cl": line, "sites": "kernel.cl:1:6\nkernel.cl:1:11\n"})
            self.assertEqual([it.message for it in launch.findings], [GROUPS + more])

    def test_items_that_count_in_rounds_of_a_loop(self):
        """Item 1 adds to word 5 of a buffer and then to word 6, item 0 to word 5. If item 0 reads word 6 at another place, an atomic is no mend alone."""
        sites, adds = "kernel.cl:1:1\nkernel.cl:1:9\n", "{0} r g {1} @1\n{0} w g {1} @1\n"
        atomic = "use an atomic (such as atomic_inc or atomic_add of an int, or a loop of atomic_cmpxchg of a float); each item reads the word and writes it at this line"
        for other, message in (("", atomic), ("0 r g 6 @2\n", f"{GLOBAL}; or make each item's read and write of the word one atomic operation")):
            stream = f"group 0 items 2 launch 7 v3\n{adds.format(1, 5)}{adds.format(1, 6)}{other}{adds.format(0, 5)}end\n"
            launch = self.judged([stream], {"kernel.cl": "a[i] += a[k];", "sites": sites, "buffers": "g 0 9 a\n"})
            self.assertEqual([it.message for it in launch.findings], [message])

    def test_the_part_of_a_long_line(self):
        """Its end, its start, and what is around a column; spaces before it are none of it."""
        line = "".join(f"{number:9};" for number in range(40))  # 392 characters without the spaces before the first number
        texts = Texts("")
        texts.files["a.cl"] = [f"    {line.strip()}", line.strip()[:160]]
        for place, shown in (("a.cl:1:5", line.strip()[:160] + " .."), ("a.cl:1:395", ".. " + line[-160:]),
                             ("a.cl:1:205", ".. " + line.strip()[120:280] + " .."), ("a.cl:2:150", line.strip()[:160]), ("a.cl:3:1", "")):
            self.assertEqual(texts.line(place), shown)

    def test_what_counts_by_its_type(self):
        """Two items count in element 1 of a buffer at one line: what is advised is there for its type."""
        streams = ["group 0 items 2 launch 7\n" + "".join(f"{item} {kind} g 5\n" for item in (0, 1) for kind in "rw") + "end\n"]
        places = "".join(f"0 {item} {index} kernel.cl:1:9\n" for item in (0, 1) for index in (0, 1))
        for kind, advice in (('"uint"', "use an atomic, such as atomic_inc, atomic_add or atomic_fetch_add; "), ('[2,{"bytes":4,"members":[[0,"count","short"]]}]',
                              "use an atomic of an int, such as atomic_inc or atomic_add (OpenCL C has none of short); "),
                             ('"ulong"', "use an atomic, such as atom_inc or atom_add (of cl_khr_int64_base_atomics) or atomic_fetch_add; "),
                             ('"float4"', "use a loop of atomic_cmpxchg on the bits, begun by an atomic read (OpenCL C has no atomic_add of float), or give each item "),
                             ('"double"', "use a loop of atom_cmpxchg on the bits, begun by an atomic read (OpenCL C has no atomic_add of double), or give each item "),
                             ('"short"', "use an atomic of an int, such as atomic_inc or atomic_add (OpenCL C has none of short); "),
                             ("0", "use an atomic (such as atomic_inc or atomic_add of an int, or a loop of atomic_cmpxchg of a float); ")):
            files = {"info.txt": INFO + f"element bins {kind}\n", "places": places, "buffers": "g 4 9 bins\n", "kernel.cl": "bins[1]++;\n"}
            for it in self.judged(streams, files).findings:
                self.assertTrue(it.message.startswith(advice), it.message)

    def test_what_a_line_does_by_its_text(self):
        """The atomics that OpenCL C has: of 64 bits by two extensions, of a float none that computes. Where the text does not tell it is left open."""
        for kind, line, advice in (("int", "a[i]++;", "use an atomic, such as atomic_inc, atomic_add or atomic_fetch_add"),
                                   ("uint", "*a -= x;", "use an atomic, such as atomic_dec, atomic_sub or atomic_fetch_sub"),
                                   ("int", "*a = max(*a, x[i]);", "use an atomic, such as atomic_max or atomic_fetch_max"),
                                   ("int", "*a=min( *a, f(x));", "use an atomic, such as atomic_min or atomic_fetch_min"),
                                   ("uint", "a[i >> 5] |= 1u << (i & 31);", "use an atomic, such as atomic_or or atomic_fetch_or"),
                                   ("uint", "*a &= x;", "use an atomic, such as atomic_and or atomic_fetch_and"),
                                   ("uint", "*a ^= x;", "use an atomic, such as atomic_xor or atomic_fetch_xor"),
                                   ("int", "*a *= x;", "use an atomic, such as atomic_cmpxchg"),
                                   ("int", "*a = *a + max(x, y);", "use an atomic, such as atomic_add or atomic_cmpxchg"),
                                   ("int", "*a = max(*a, x) + 1;", "use an atomic, such as atomic_add or atomic_cmpxchg"),
                                   ("int", "i++; *a |= x;", "use an atomic, such as atomic_add or atomic_cmpxchg"),
                                   ("int", "*a == max(*a, x);", "use an atomic, such as atomic_add or atomic_cmpxchg"),
                                   ("long", "*a |= x;", "use an atomic, such as atom_or (of cl_khr_int64_extended_atomics) or atomic_fetch_or"),
                                   ("ulong", "*a -= x;", "use an atomic, such as atom_dec or atom_sub (of cl_khr_int64_base_atomics) or atomic_fetch_sub"),
                                   ("char", "*a &= x;", "use an atomic of an int, such as atomic_and (OpenCL C has none of char)"),
                                   ("float", "*a = fmax(*a, x);", "use a loop of atomic_cmpxchg on the bits, begun by an atomic read (OpenCL C has no atomic_max of "
                                    "float), or give each item a word of its own"),
                                   ("float", "*a *= x;", "use a loop of atomic_cmpxchg on the bits, begun by an atomic read (OpenCL C has no other atomic of "
                                    "float), or give each item a word of its own"),
                                   ("int", "if (x > *a) *a = x;", "use an atomic, such as atomic_max or atomic_min"),
                                   ("int", "if (p->a == 0) p->a = 1;", "use an atomic, such as atomic_cmpxchg"),
                                   ("int", "*a = *a != x ? x : 0;", "use an atomic, such as atomic_cmpxchg"),
                                   ("long", "*a = *a < x ? x : *a;", "use an atomic, such as atom_max or atom_min (of cl_khr_int64_extended_atomics)"),
                                   ("int", "if (x < n && *a == x) *a = 0;", "use an atomic, such as atomic_add or atomic_cmpxchg"),
                                   ("float", "if (x < *a) *a = x;", "use a loop of atomic_cmpxchg on the bits, begun by an atomic read (OpenCL C has no other atomic of "
                                    "float), or give each item a word of its own"),
                                   ("", "*a ^= x;", "use an atomic (such as atomic_xor of an int, or a loop of atomic_cmpxchg of a float)")):
            self.assertEqual(of_update(kind, line), advice, line)

    def test_a_barrier_is_missing_before_another_item_hands_over(self):
        """Item 1 of group 0 writes, and item 0 counts; in group 1 item 0 counts, and item 1 reads after a barrier. Where the barrier names local memory
        alone, or the counters are two, a barrier before the count is no mend; nor where what releases is no work-item, but does copies."""
        def message(flags, word, more=""):
            streams = ["group 0 items 2 launch 7\n1 w g 5\n0 rmw g 9 dev both\nend\n",
                       f"group 1 items 2 launch 7\n0 rmw g {word} dev both\n0 bar 3 {flags}\n1 bar 3 {flags}\n1 r g 5\nend\n"]
            launch = self.judged(streams, {"info.txt": INFO + more, "places": "0 1 0 a.cl:1:1\n0 0 0 a.cl:2:1\n1 0 0 a.cl:2:1\n1 1 1 a.cl:5:1\n3 a.cl:3:1\n"})
            return [it.message for it in launch.findings]

        self.assertEqual(message("gl", 9), ["nothing orders the two; a barrier with CLK_GLOBAL_MEM_FENCE before the release at a.cl:2:1 would, where the "
                                            "acquire at a.cl:2:1 takes its value"])
        self.assertEqual([message("l", 9), message("gl", 8), message("gl", 9, "copying-item 0 0\n")], [[GROUPS]] * 3)

    def test_a_barrier_is_missing_after_another_item_has_taken(self):
        """Item 1 of group 0 writes, a barrier is next and item 0 releases; in group 1 item 0 takes that, and item 1 reads. Where the first barrier names
        local memory alone, or there is one before item 0 takes, a barrier after that is not what is missing."""
        places = "0 1 0 a.cl:1:1\n0 0 1 a.cl:3:1\n1 0 0 a.cl:4:1\n1 0 1 a.cl:4:1\n1 1 0 a.cl:6:1\n1 1 1 a.cl:6:1\n"
        late = "nothing orders the two; a barrier with CLK_GLOBAL_MEM_FENCE after the acquire at a.cl:4:1 would, where that takes the value of the release at a.cl:3:1"
        for flags, takes, message in (("g", "0 ld g 9 dev acq < 0 0 0\n1 r g 5\n", late), ("g", "1 r g 5\n0 ld g 9 dev acq < 0 0 0\n", late),
                                      ("l", "0 ld g 9 dev acq < 0 0 0\n1 r g 5\n", GROUPS), ("g", "1 r g 5\n1 bar 3 g\n0 bar 3 g\n0 ld g 9 dev acq < 0 0 0\n", GROUPS)):
            gives = f"group 0 items 2 launch 7\n1 w g 5\n0 bar 2 {flags}\n1 bar 2 {flags}\n0 st g 9 dev rel\nend\n"
            launch = self.judged([gives, f"group 1 items 2 launch 7\n{takes}end\n"], {"places": places})
            self.assertEqual([it.message for it in launch.findings], [message])

    def test_items_that_read_a_word_and_write_it_later(self):
        """In no condition, at two places. Of a read and a write in one group a barrier is missing, and of writes at one place in rounds of a loop."""
        text, sites = "at = *count;\n*count = at + 1;\n*other = at;\n", "kernel.cl:1:6\nkernel.cl:2:8\nkernel.cl:3:8\n"
        atomic = "use an atomic (such as atomic_add or atomic_cmpxchg of an int, or a loop of atomic_cmpxchg of a float)"
        where = "items read the word at kernel.cl:1:6 and then write it at kernel.cl:2:8"
        counts, again, reads = "{0} r g 5 @1\n{0} w g 2{0} @3\n{0} w g 5 @2\n", "{0} r g 7 @1\n{0} w g 7 @2\n", "{0} r g 5 @1\n{0} w g 8 @3\n"
        next_to_it, one = counts.replace("{0} w g 2{0} @3\n", ""), f"{GLOBAL}; or make each item's read and write of the word one atomic operation"
        one_group, two_groups = "group 0 items 2 launch 7 v3\n{}{}end\n", "group 0 items 2 launch 7 v3\n{}end\ngroup 1 items 2 launch 7 v3\n{}end\n"
        for form, steps, messages in ((one_group, (counts, counts), {GLOBAL, f"{where}; {atomic}"}), (one_group, (counts, reads), {GLOBAL}),
                                      (one_group, (next_to_it, next_to_it), {one, f"{where}; {atomic}"}),
                                      (one_group, (counts + again, counts), {GLOBAL + IN_TURN, ONE_WRITE}), (two_groups, (counts, reads), {f"{GROUPS}; or, where {where}, {atomic}"}),
                                      (two_groups, (counts + again, counts), {f"{GROUPS}; or, where {where}, {atomic}", f"{where}; {atomic}"})):
            stream = form.format(*(it.format(item) for it, item in zip(steps, (0, 1))))
            launch = self.judged([stream], {"kernel.cl": text, "sites": sites})
            self.assertEqual({it.message for it in launch.findings}, messages, stream)

    def test_a_buffer_that_is_two_arguments(self):
        """Where one item reads and another one writes it may be another buffer that was meant; of two writes, and beside a barrier, that is not said."""
        twice = "; the buffer is given as two arguments: if that is a mistake, give the kernel another one to write to"
        flags = "the barrier at site 3 does not order global memory: give it CLK_GLOBAL_MEM_FENCE"
        for name, steps, message in (("in=out", "0 r g 5\n1 w g 5\n", GLOBAL + twice), ("in=out", "0 w g 5\n1 w g 5\n", GLOBAL), ("in", "0 r g 5\n1 w g 5\n", GLOBAL),
                                     ("in=out", "0 r g 5\n0 bar 3 l\n1 bar 3 l\n1 w g 5\n", flags)):
            launch = self.judged([f"group 0 items 2 launch 7\n{steps}end\n"], {"buffers": f"g 0 9 {name}\n"})
            self.assertEqual([it.message for it in launch.findings], [message])

    def test_a_barrier_that_does_not_order_what_is_handed_over(self):
        """An item writes and counts, and another one reads after a count in the other group; between the two and the counts a barrier names local memory."""
        places = "0 0 0 a.cl:1:1\n0 1 0 a.cl:1:1\n2 a.cl:2:1\n3 a.cl:3:1\n"
        counts, reads = "0 rmw g 9 dev both\n", "group 1 items 2 launch 7\n0 rmw g 9 dev both < 0 0 0\n0 bar 3 {0}\n1 bar 3 {0}\n1 r g 5\nend\n"
        for writes, flags, place in ((f"0 w g 5\n{counts}", "l", "a.cl:3:1"), (f"1 w g 5\n0 bar 2 l\n1 bar 2 l\n{counts}", "gl", "a.cl:2:1")):
            launch = self.judged([f"group 0 items 2 launch 7\n{writes}end\n", reads.format(flags)], {"places": places})
            self.assertEqual([it.message for it in launch.findings], [f"the barrier at {place} does not order global memory: give it CLK_GLOBAL_MEM_FENCE"])

    def test_a_release_that_comes_before_the_write(self):
        """Of items of two groups, and of one. A later release that nobody takes does not meet the acquire."""
        gives, takes = "0 st g 9 dev rel\n0 w g 5\n", "ld g 9 dev acq < 0 0 0\n"
        places = "0 0 0 a.cl:1:1\n0 0 1 a.cl:2:1\n0 0 2 a.cl:3:1\n{0} 0 a.cl:4:1\n{0} 1 a.cl:5:1\n"
        early = "; the acquire at a.cl:4:1 takes that at a.cl:1:1, which comes before the write at a.cl:2:1"
        two_groups = [f"group 0 items 1 launch 7\n{gives}end\n", f"group 1 items 1 launch 7\n0 {takes}0 r g 5\nend\n"]
        one_group = [f"group 0 items 2 launch 7\n{gives}1 {takes}1 r g 5\nend\n"]
        late = [two_groups[0].replace("end", "0 st g 9 dev rel\nend"), two_groups[1]]
        for streams, reader, said in ((two_groups, "1 0", f"nothing orders the two; a release after the write would{early}"),
                                      (one_group, "0 1", f"{GLOBAL}, or a release after the write{early}"),
                                      (late, "1 0", f"{HAND_OVER}; the release at a.cl:3:1 and the acquire at a.cl:4:1 do not meet")):
            launch = self.judged(streams, {"places": places.format(reader)})
            self.assertEqual([it.message for it in launch.findings], [said])

    def test_a_wait_is_no_barrier(self):
        """Item 0 writes before a wait for copies what item 1 reads after it, or what the copy reads on."""
        files = {**SIDES, "info.txt": INFO + "copying-item 0 2\nwait 3\n", "places": "3 kernel.cl:4:5\n"}
        for streams, message in (
                (["group 0 items 3 launch 7\n0 w l 64\n0 bar 3 -\n1 bar 3 -\n2 bar 3 -\n1 r l 64\nend\n"],
                 "wait_group_events at kernel.cl:4:5 waits for copies and is no barrier: put a barrier with CLK_LOCAL_MEM_FENCE between the two"),
                (["group 0 items 3 launch 7\n0 w l 64\n0 bar 3 -\n1 bar 3 -\n2 bar 3 -\n2 r l 64\nend\n"],
                 "nothing orders the two; wait_group_events after the copy would, or, if the copy comes last, a barrier before it"),
                (["group 0 items 3 launch 7\n0 w l 64\n0 bar 3 -\n1 bar 3 -\n2 bar 3 -\n0 bar 4 g\n1 bar 4 g\n2 bar 4 g\n1 r l 64\nend\n"],
                 "the barrier at site 4 does not order local memory: give it CLK_LOCAL_MEM_FENCE")):
            self.assertEqual([it.message for it in self.judged(streams, files).findings], [message])

    def test_a_barrier_within_one_line_is_no_count(self):
        """Each item reads the word before a barrier, and writes it after that."""
        places = "".join(f"0 {item} {at} a.cl:4:9\n" for item in (0, 1) for at in (0, 2))
        launch = self.judged(["group 0 items 2 launch 7\n" + "".join(f"{item} r g 5\n{item} bar 3 g\n{item} w g 5\n" for item in (0, 1)) + "end\n"],
                             {"places": places})
        self.assertEqual({it.message for it in launch.findings}, {ONE_WRITE})

    def test_the_first_lines_of_a_report(self):
        lines = [f"race global {number}" for number in range(5)]
        self.assertEqual(first_of(lines[:1]), "race global 0")
        self.assertEqual(first_of(lines), "race global 0; race global 1; race global 2 and 2 more")

    def test_a_stream_that_is_not_whole(self):
        """What is wrong and where is one line."""
        with tempfile.TemporaryDirectory() as folder:
            path = pathlib.Path(folder) / "group0.gpurace"
            path.write_bytes(b"GRT1")
            wrong = f"gpurace: stream 0: truncated; {path}: stream 0, at its header"
            self.assertEqual(replay(os.environ["GPURACE"], [str(path)]), (2, [], wrong))

    def test_divergent_barriers_come_first(self):
        streams = ["group 0 items 3 launch 7 v2\n0 bar 1 l\n1 bar 2 l\n0 w g 1\n1 w g 0\n0 bar 1 l\n1 bar 2 l\n0 r g 0\nend\n"]
        self.assert_report(streams, {**SIDES, "places": "1 kernel.cl:3:1\n2 kernel.cl:5:1\n"}, "found", f"""\
divergent barrier, number 0 of group 0, and 1 more alike
    kernel.cl:3:1: item 0
        tile[l] = input[l];
    kernel.cl:5:1: item 1
        tile[l] += tile[l + 8];
    no barrier: item 2
    some work-items never reach it; 1 race follows from it
    {OUTSIDE}
race on input[0]
    unknown place: write by group 0, item 1
    unknown place: read by group 0, item 0
    the barrier at kernel.cl:3:1 between the two is divergent, and orders nothing
""")

    def test_divergent_barriers_of_one_text(self):
        """The first barriers are at lines 2 and 4, whose text is the same; only line 4 has the second and third ones, which differ in their
        items."""
        streams = ["group 0 items 3 launch 7 v2\n0 bar 1 l\n1 bar 2 l\n0 bar 2 l\n0 bar 2 l\n1 bar 2 l\nend\n"]
        self.assert_report(streams, {"kernel.cl": "if (a)\n  barrier(F);\nif (b)\n  barrier(F);\n", "places": "1 kernel.cl:2:3\n2 kernel.cl:4:3\n"}, "found", f"""\
divergent barrier, number 0 of group 0
    kernel.cl:2:3: item 0
        barrier(F);
    kernel.cl:4:3: item 1
        barrier(F);
    no barrier: item 2
    some work-items never reach it
    {OUTSIDE}
divergent barrier, number 1 of group 0, and 1 more alike
    kernel.cl:4:3: 2 work-items, the first is item 0
        barrier(F);
    no barrier: item 2
    some work-items never reach it
""")

    def test_a_divergence_by_flags(self):
        """Items 0 and 2 give local memory, item 1 both, and item 3 none. Where an item is missing the flags are no matter."""
        steps = "0 bar 1 l\n1 bar 1 gl\n2 bar 1 l\n3 bar 1 -\n"
        for items, accesses in ((4, ["2 work-items, the first is item 0, with CLK_LOCAL_MEM_FENCE", "item 1, with CLK_GLOBAL_MEM_FENCE | CLK_LOCAL_MEM_FENCE",
                                     "item 3, with no flag"]), (5, ["4 work-items, the first is item 0", "item 4"])):
            launch = self.judged([f"group 0 items {items} launch 7\n{steps}end\n"], {"places": "1 b.cl:1:2\n"})
            said = "the work-items give different flags; let all of them give the same" if items == 4 else f"some work-items never reach it; {OUTSIDE}"
            self.assertEqual([([it.who for it in finding.accesses], finding.message) for finding in launch.findings], [(accesses, said)])

    def test_a_read_and_a_write_of_one_statement(self):
        """Item 0 reads at one column what item 1 writes at another. How often they have come there the sites tell: two words one after another are one
        access. One that comes there again, later, may be in another round. Two statements of one line may be anywhere, and between two writes there is no room for a barrier."""
        split = "; both are of one statement; where they are of one round, read into a private variable before the barrier and write after it"
        one, two = "a[l] += a[l + s];\n", "a[l] = s; s += a[l];\n"
        for line, steps, more in ((one, "0 r g 5 @1\n1 w g 5 @2\n", split), (one, "0 r g 4 @1\n0 r g 5 @1\n1 w g 5 @2\n", split),
                                  (one, "0 r g 5 @1\n0 r g 7 @1\n1 w g 5 @2\n", f"{split}; where they are of two, {END}"),
                                  (one, "0 r g 7 @1\n0 r g 5 @1\n1 r g 5 @2\n1 w g 5 @2\n", ROUNDS), (two, "0 r g 7 @1\n0 r g 5 @1\n1 w g 5 @2\n", ""),
                                  (two, "0 r g 5 @1\n1 w g 5 @2\n", ""), (one, "0 w g 5 @1\n1 w g 5 @2\n", OWN_WORDS)):
            launch = self.judged([f"group 0 items 2 launch 7 v3\n{steps}end\n"], {"kernel.cl": line, "sites": "kernel.cl:1:16\nkernel.cl:1:5\n"})
            self.assertEqual([it.message for it in launch.findings], [GLOBAL + more], line + steps)
        sites = "kernel.cl:1:16\nkernel.cl:1:5\n"
        for why, stream, files in (("a macro", " v3\n0 r g 5 @1\n1 w g 5 @2", {"kernel.cl": one, "sites": sites.replace(":16", ":5")}),
                                   ("no text", " v3\n0 r g 5 @1\n1 w g 5 @2", {"sites": sites}),
                                   ("how often is not known", "\n0 r g 5\n1 w g 5", {"kernel.cl": one, "places": "0 0 0 kernel.cl:1:16\n0 1 0 kernel.cl:1:5\n"})):
            launch = self.judged([f"group 0 items 2 launch 7{stream}\nend\n"], files)
            self.assertEqual([it.message for it in launch.findings], [GLOBAL], why)

    def test_rounds_of_a_loop(self):
        """The loop writes, passes a barrier and reads. Item 0 writes in its second round what item 1 reads in its first one. That these are rounds is
        known if item 0 has come to the read before, and item 1 has not come to the write, and if no function is called."""
        writes, waits, reads = "kernel.cl:2:9", "kernel.cl:3:1", "kernel.cl:4:9"
        before = f"; the last barrier before both is at {waits}"
        rounds = (f"{before}; the read at {reads} is of one round of a loop and the write at {writes} of a later one; the missing barrier's place is the end of "
                  "the loop's body, outside of branches that not all work-items take")
        first, second = "0 w g 7 @1\n0 bar 3 g @2\n0 r g 8 @3\n0 w g 5 @1\n", "1 w g 9 @1\n1 bar 3 g @2\n1 r g 5 @3\n"
        for steps, places, more in ((first + second, (writes, waits, reads), rounds), (second + first, (writes, waits, reads), rounds),
                                    (first.replace("0 r g 8 @3\n", "") + second, (writes, waits, reads), before),
                                    (first + second.replace("1 r", "1 w g 9 @1\n1 r"), (writes, waits, reads), before),
                                    (first + second, (waits, writes, reads), f"; the last barrier before both is at {writes}"),
                                    (first + second, (writes, f"{waits} called at kernel.cl:3:5", reads), before),
                                    (first + second, (writes, waits, f"{reads} called at kernel.cl:9:1"), before)):
            launch = self.judged([f"group 0 items 2 launch 7 v3\n{steps}end\n"], {"sites": "".join(f"{place}\n" for place in places)})
            self.assertEqual([it.message for it in launch.findings], [GLOBAL + more], places)

    def test_a_loop_without_a_barrier(self):
        """Item 1 comes to the read, to the write and to the read again, and item 0 reads what it writes. After a barrier, or with no further read, these
        need be no rounds; nor are reads one after another before all writes."""
        sites = "kernel.cl:2:9\nkernel.cl:3:9\nkernel.cl:4:9\n"
        for steps, more in (("1 r g 7 @1\n1 w g 5 @2\n1 r g 9 @1\n0 r g 5 @1\n", IN_TURN), ("1 r g 7 @1\n1 w g 5 @2\n0 r g 5 @1\n", ""),
                            ("1 r g 7 @1\n1 w g 5 @2\n1 bar 1 g @3\n1 r g 9 @1\n0 r g 5 @1\n0 bar 1 g @3\n", ""),
                            ("1 r g 7 @1\n1 r g 9 @1\n1 w g 5 @2\n1 w g 6 @2\n0 r g 5 @1\n", "")):
            launch = self.judged([f"group 0 items 2 launch 7 v3\n{steps}end\n"], {"sites": sites})
            self.assertEqual([it.message for it in launch.findings], [GLOBAL + more], steps)

    def test_a_hand_over_by_atomics_that_are_relaxed_and_barriers(self):
        """Item 1 of group 0 writes and item 0 stores a flag, in group 1 item 0 loads it and item 1 reads. If a barrier between names local memory alone,
        or is not there, a release and an acquire are not what is missing."""
        text = "group 0 items 2 launch 7\n1 w g 5\n{0}0 st g 9 dev {1}\nend\n", "group 1 items 2 launch 7\n0 ld g 9 dev {1}\n{0}1 r g 5\nend\n"
        places = "0 1 0 a.cl:1:1\n0 0 1 a.cl:3:1\n1 0 0 a.cl:4:1\n1 1 1 a.cl:6:1\n"
        full, narrow = ("0 bar 3 {0}\n1 bar 3 {0}\n".format(flags) for flags in ("gl", "l"))
        store, load = "the store at a.cl:3:1 is no release", "the load at a.cl:4:1 is no acquire"
        for barriers, orders, message in (((full, full), ("rlx", "rlx"), f"{HAND_OVER}; {store} and {load}"), ((full, full), ("rel", "rlx"), f"{HAND_OVER}; {load}"),
                                          ((full, narrow), ("rlx", "rlx"), GROUPS), ((narrow, full), ("rlx", "rlx"), GROUPS), ((full, ""), ("rlx", "rlx"), GROUPS)):
            launch = self.judged([it.format(barrier, order) for it, barrier, order in zip(text, barriers, orders)], {"places": places})
            self.assertEqual([it.message for it in launch.findings], [message])

    def test_the_sentences_of_a_message(self):
        """Two share a line of 90 columns; a longer one is on a line of its own."""
        for lengths, lines in (((), []), ((20, 68), [90]), ((20, 69), [20, 69]), ((100, 10, 70, 20), [100, 82, 20])):
            finding = Finding("race", "sums", "", message="; ".join("x" * it for it in lengths))
            self.assertEqual([len(line) for line in finding.sentences()], lines)

    def test_the_last_barrier_before_both(self):
        """In the second round of a loop item 0 writes what item 1 has read in the first one: in the text a barrier is between the two lines."""
        streams = ["group 0 items 2 launch 7\n0 w g 5\n0 bar 3 g\n1 bar 3 g\n1 r g 5\n0 w g 5\nend\n"]
        places = "3 kernel.cl:3:1\n0 0 0 kernel.cl:2:9\n0 0 2 kernel.cl:2:9\n0 1 1 kernel.cl:4:9\n"
        launch = self.judged(streams, {"places": places})
        self.assertEqual([it.message for it in launch.findings], [f"{GLOBAL}; the last barrier before both is at kernel.cl:3:1"])

    def test_a_lock_of_atomics_that_are_relaxed(self):
        """Items of one group, and of two, add to a word between two atomics of another word. A barrier is no mend within a lock."""
        steps = "rmw g 9 dev rlx", "r g 5", "w g 5", "rmw g 9 dev rlx"
        one_group = ["group 0 items 2 launch 7\n" + "".join(f"{item} {step}\n" for item in (0, 1) for step in steps) + "end\n"]
        two_groups = [f"group {group} items 1 launch 7\n" + "".join(f"0 {step}\n" for step in steps) + "end\n" for group in (0, 1)]
        old = "while (atomic_cmpxchg(lock, 0, 1)) ;\n*total += 1;\natomic_xchg(lock, 0);\n"
        new = old.replace("cmpxchg(", "exchange_explicit(").replace("xchg(", "store_explicit(")
        why = "; atomics of OpenCL 1.x are relaxed, and those of OpenCL C 2.0 that end in _explicit take an order"
        in_group = "nothing orders the two; a release that an acquire takes would"
        for streams, items, said in ((one_group, ("0 0", "0 1"), in_group), (two_groups, ("0 0", "1 0"), HAND_OVER)):
            places = "".join(f"{item} {index} kernel.cl:{line}:1\n" for item in items for index, line in enumerate((1, 2, 2, 3)))
            for text, ending in ((old, why), (new, "")):
                message = self.judged(streams, {"places": places, "kernel.cl": text}).findings[0].message
                self.assertEqual(message, f"{said}; the read-modify-write at kernel.cl:3:1 is no release and the read-modify-write at kernel.cl:1:1 is no "
                                 f"acquire{ending}; or make each item's read and write of the word one atomic operation")

    def test_a_counter_in_a_group_is_no_lock(self):
        """Each item counts at one line before and after its access. Two atomics that a macro has at one place are a lock."""
        for sites, message in (((1, 1), GLOBAL), ((1, 2), "nothing orders the two; a release that an acquire takes would; the read-modify-write at kernel.cl:1:1 "
                                                  "is no release and the read-modify-write at kernel.cl:1:1 is no acquire")):
            steps = "".join("{0} rmw g 9 dev rlx @{1}\n{0} {2} g 5 @3\n{0} rmw g 9 dev rlx @{3}\n".format(item, sites[0], kind, sites[1])
                            for item, kind in enumerate("wr"))
            launch = self.judged([f"group 0 items 2 launch 7 v3\n{steps}end\n"], {"sites": "kernel.cl:1:1\nkernel.cl:1:1\nkernel.cl:2:1\n"})
            self.assertEqual([it.message for it in launch.findings], [message])

    def test_a_barrier_to_which_one_of_two_items_comes(self):
        """It is divergent. One that both come to, with other sites, is another matter."""
        for other, more in (("", "; one of the two items never comes to the divergent barrier at a.cl:3:1"), ("1 bar 4 g\n", "")):
            launch = self.judged([f"group 0 items 2 launch 7\n0 w g 5\n0 bar 3 g\n1 r g 5\n{other}end\n"], {"places": "3 a.cl:3:1\n4 a.cl:4:1\n"})
            self.assertEqual([it.message for it in launch.findings if it.kind == "race"], [GLOBAL + more])

    def test_a_hand_over_in_a_group_by_atomics_that_are_relaxed(self):
        """A counter in the place of the load is no hand-over: there a barrier is missing."""
        places = "0 0 0 a.cl:1:1\n0 0 1 a.cl:2:1\n0 1 0 a.cl:3:1\n0 1 1 a.cl:4:1\n"
        weak = ", or a release that an acquire takes; the store at a.cl:2:1 is no release and the load at a.cl:3:1 is no acquire"
        for load, more in (("ld", weak), ("rmw", "")):
            streams = [f"group 0 items 2 launch 7\n0 w g 5\n0 st g 9 grp rlx\n1 {load} g 9 grp rlx\n1 r g 5\nend\n"]
            self.assertEqual([it.message for it in self.judged(streams, {"places": places}).findings], [GLOBAL + more])

    def test_more_divergent_barriers_than_are_looked_at(self):
        launch = self.judged([f"group {group} items 2 launch 7 v3\n0 bar 1 l\nend\n" for group in range(102)], {})
        self.assertEqual([it.title for it in launch.findings],
                         ["divergent barrier, number 0 of group 0, and 99 more alike (100 of 102 were looked at)"])

    def test_streams_in_one_file(self):
        streams = ["group 1 items 2 launch 7\n0 bar 3 l\n1 w g 1\nend\n" "group 2 items 1 launch 7\nend\n"
                   "group 0 items 2 launch 7\n0 bar 3 l\n1 bar 3 l\nend cut\n"]
        self.assert_report(streams, {"places": "3 b.cl:1:2\n"}, "found", f"""\
divergent barrier, number 0 of group 1
    b.cl:1:2: item 0
    no barrier: item 1
    some work-items never reach it
    {OUTSIDE}
reason cut: records of 1 of 3 groups were lost (the first is group 0): a group did more than a trace has room for, or was stopped
""")

    def test_an_acquire_without_its_release(self):
        places = "0 1 0 kernel.cl:3:9\n0 1 0 late.cl:1:1\n0 1 1 kernel.cl:5:9\n"
        self.assert_report(["group 0 items 2 launch 7 v2\n0 w g 1\n1 ld g 2 dev acq < 0 0 0\n1 r g 1\nend\n"], {**SIDES, "places": places}, "found", """\
acquire without its release (absent)
    kernel.cl:3:9: acquire by group 0, item 1
        tile[l] = input[l];
    this is mostly a fault of the recorder; what waits for the acquire is not judged
""")

    def test_a_divergence_among_lost_records_is_doubtful(self):
        self.assert_report(["group 0 items 2 launch 7\n0 bar 1 l\nend cut\n"], {}, "doubtful", """\
divergent barrier, number 0 of group 0 (doubtful)
    site 1: item 0
    no barrier: item 1
    some work-items never reach it, or theirs is among the records that were lost
reason cut: records of 1 of 1 groups were lost (the first is group 0): a group did more than a trace has room for, or was stopped
""")

    def test_nothing_but_lost_records(self):
        self.assert_report(["group 0 items 1 launch 7 v2\n0 w g 1\nend cut\n"], SIDES, "incomplete", """\
reason cut: records of 1 of 1 groups were lost (the first is group 0): a group did more than a trace has room for, or was stopped
""")

    def test_no_mistake(self):
        self.assert_report(["group 0 items 2 launch 7 v2\n0 w g 1\n0 bar 1 g\n1 bar 1 g\n1 r g 1\nend\n"], SIDES, "nothing", "")

    def test_places_that_are_refused(self):
        self.assert_report([tile(0)], {"places": "0 0 0 kernel.cl:3:13\n0 0\n"}, "found", """\
races that could not be read: gpurace: places: line 2: bad line
""")

    def test_a_group_that_is_not_there(self):
        self.assert_report([tile(1)], SIDES, "incomplete", """\
reason refused: the trace was refused: gpurace: group 0 missing; FOLDER/group00.gpurace: it has no stream of this group
""")

    def test_a_race_in_a_launch_with_fences_is_doubtful(self):
        info = INFO + "fence 3 kernel.cl:4:9\nfence 1 kernel.cl:5:9\nimage 2 kernel.cl:5:1\nnote calls of printf\natomics yes\n"
        self.assert_report(["group 0 items 2 launch 7\n0 w g 1\n1 w g 1\nend\n", "group 1 items 2 launch 7\nend\n"], {"info.txt": info}, "doubtful", f"""\
race on global word 1 (doubtful)
    unknown place: write by group 0, item 0
    unknown place: write by group 0, item 1
    {in_lines(GLOBAL + NOT_JUDGED, 1)}
reason fences: fences, which are not recorded: the order that they give is not seen: 4, at kernel.cl:4:9, kernel.cl:5:9
reason images: accesses of images, which are not judged: 2, at kernel.cl:5:1
reason operations: not recorded: calls of printf
""")

    def test_fences_alone_order_nothing(self):
        """A race is found, unless an item has done an atomic access, or may have: where the recorder does not say, or something is not recorded. That
        nothing is found is an answer: a fence can only order more."""
        alone, none = "a fence alone orders nothing between work-items", "what they order is not seen, and does not race without it"
        racy, right = (f"group 0 items 2 launch 7\n0 w g 1\n1 w g {word}\nend\n" for word in (1, 2))
        alone = f"no work-item does an atomic access, and {alone}"
        for stream, more, verdict, messages, note in (
                (racy, "atomics no\n", "found", [f"{GLOBAL}; {alone.partition(', and ')[2]}"], alone), (right, "atomics no\n", "nothing", [], alone),
                (racy, "atomics yes\n", "doubtful", [GLOBAL + NOT_JUDGED], ""), (right, "", "nothing", [], none), (right, "atomics yes\n", "nothing", [], none),
                (racy, "atomics no\nnote calls of sub_group_any\n", "doubtful", [GLOBAL + NOT_JUDGED], "")):
            for fences, where in (("fence 3 kernel.cl:4:9\n", "3, at kernel.cl:4:9"), ("fences-not-recorded 2\n", "2")):
                launch = self.judged([stream], {"info.txt": info("sums", 7, more=fences + more)})
                self.assertEqual((launch.verdict, [it.message for it in launch.findings]), (verdict, messages))
                self.assertEqual(launch.notes, [f"fences: {where}: {note}"] if note else [])

    def test_fences_of_opencl_1(self):
        """They order no two work-groups. Within one they may, and so may another fence, and one in a kernel whose atomics may acquire."""
        two_groups = ["group 0 items 2 launch 7{0}\n0 w g 1\nend\n", "group 1 items 2 launch 7{0}\n0 r g 1\nend\n"]
        one_group = ["group 0 items 2 launch 7{0}\n0 w g 1\n1 r g 1\nend\n", "group 1 items 2 launch 7{0}\nend\n"]
        fence, of_groups = "  write_mem_fence(F);", f"{GROUPS}; mem_fence orders nothing between two work-groups"
        for streams, version, text, verdict, message in (
                (two_groups, "", fence, "found", of_groups), (two_groups, " v3", fence.replace("write_", ""), "found", of_groups),
                (two_groups, " v2", fence, "doubtful", GROUPS + NOT_JUDGED), (two_groups, "", "  atomic_work_item_fence(F);", "doubtful", GROUPS + NOT_JUDGED),
                (two_groups, "", "  FENCE;", "doubtful", GROUPS + NOT_JUDGED), (one_group, "", fence, "doubtful", GLOBAL + NOT_JUDGED)):
            files = {"info.txt": INFO + "fence 2 kernel.cl:1:3 called at kernel.cl:9:1\natomics yes\n", "kernel.cl": text}
            launch = self.judged([it.format(version) for it in streams], files)
            self.assertEqual((launch.verdict, [it.message for it in launch.findings]), (verdict, [message]), text)

    def test_atomics_of_a_narrow_scope(self):
        """A race is found as ever; that there is none is no answer."""
        said = "reason scopes: atomics of work-item or sub-group scope, taken as of work-group scope: a race in a group may be missed: 3, at kernel.cl:4:9\n"
        files = {"info.txt": INFO + "narrow-scope 3 kernel.cl:4:9\n"}
        self.assert_report(["group 0 items 2 launch 7\n0 ld g 1 grp acq\nend\n", "group 1 items 2 launch 7\nend\n"], files, "incomplete", said)
        streams = ["group 0 items 2 launch 7\n0 w g 1\n1 w g 1\nend\n", "group 1 items 2 launch 7\nend\n"]
        self.assert_report(streams, files, "found", f"""\
race on global word 1
    unknown place: write by group 0, item 0
    unknown place: write by group 0, item 1
    {GLOBAL}
{said}""")

    def test_an_access_out_of_bounds_is_a_finding_also_beside_fences(self):
        info = INFO + "fence 1 kernel.cl:5:9\nout-of-bounds 2 kernel.cl:3:9 write 4 1 1 16 bytes after the end of output, which has 128 bytes\n"
        launch = self.judged(["group 0 items 2 launch 7\nend\n", "group 1 items 2 launch 7\nend\n"], {**SIDES, "info.txt": info})
        self.assertEqual((launch.verdict, launch.findings[0].buffers()), ("found", ["output"]))
        self.assertEqual(list(launch.findings[0].lines()), [
            "out of bounds: write of 4 bytes, 16 bytes after the end of output, which has 128 bytes",
            "    kernel.cl:3:9: write by group 1, item 1", "        tile[l] = input[l];", "    2 times"])

    def test_coordinates(self):
        """Of 6 x 4 items in groups of 3 x 2, in the third and fourth group, which are the trace's 0 and 1: items 5 (2,1) and 4 (1,1)."""
        info = "kernel sums\nlaunch 7\nglobal 6 4 1\nlocal 3 2 1\ngroups 4\nwindow 2 2\nitems 12\nrecords 4\n"
        self.assert_report(["group 0 items 6 launch 7\n5 w g 1\nend\n", "group 1 items 6 launch 7\n4 w g 1\nend\n"], {"info.txt": info}, "found", f"""\
race on global word 1
    unknown place: write by group 2 (0,1), item 5 (2,1)
    unknown place: write by group 3 (1,1), item 4 (1,1)
    {in_lines(GROUPS)}
reason window: only groups 2 to 3 of 4 were recorded
""")

    def test_elements_of_their_types(self):
        """Word 5 of l_data is the component y of its second float4, and words 8 to 11 are all of the third; byte 6 of marks is its seventh element.
        The type of `other` is not known: its words are shown as words."""
        elements = 'element marks "uchar"\nelement l_data "float4"\n'
        streams = ["group 0 items 2 launch 7\n0 w l 5\n1 w l 5\n0 w l 8\n1 w l 8\n0 w l 9\n1 w l 9\n0 w l 10\n1 w l 10\n0 w l 11\n1 w l 11\n"
                   "0 w g 6\n1 r g 6\n0 r g 40\n1 w g 40\nend\n", "group 1 items 2 launch 7\nend\n"]
        launch = self.judged(streams, {"info.txt": INFO + elements, "buffers": "g 0 16 marks.byte\ng 32 16 other\nl 0 0 64 l_data\n"})
        self.assertEqual(sorted(next(it.lines()) for it in launch.findings), [
            "race on l_data[1].y, l_data[2] (5 words); on l_data[1].y of group 0, which gpurace explain calls l_data[5]",
            "race on marks[6], other[8] (2 words); on marks[6], which gpurace explain calls marks.byte[6]"])

    def test_the_text_of_a_file_that_is_included(self):
        with tempfile.TemporaryDirectory() as folder:
            path = pathlib.Path(folder) / "scan.h"
            path.write_text("// scan\nout[0] = 1;\n")
            launch = self.judged(["group 0 items 2 launch 7\n0 w g 1\n1 w g 1\nend\n"], {"places": f"0 0 0 {path}:2:1\n0 1 0 {folder}/none.h:2:1\n"})
        self.assertEqual([access.text for access in launch.findings[0].accesses], ["out[0] = 1;", ""])
        self.assertEqual(list(launch.texts), [str(path)])
