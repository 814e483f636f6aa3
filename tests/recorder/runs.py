"""What is said of how a program ended."""

from testing.launches import info, put_launch
from testing.program import RoomTest

from gpurace_record.recording import under_way


class Runs(RoomTest):
    def test_groups_that_were_recorded_to_their_end(self):
        """One has two records, an end among them; one ends as cut; and one has a record and no end."""
        streams = [f"group {group} items 2 launch 3\n{lines}" for group, lines in enumerate(("0 w g 1\nend\n", "end cut\n", "1 w g 1\nend\n"))]
        put_launch(self.room / "003-three", streams, {"begun.txt": info("three", 3, 3)})
        path = self.room / "003-three" / "group02.gpurace"
        path.write_bytes(path.read_bytes()[:12 + 20])
        reason, = under_way(str(self.room))
        self.assertEqual(reason.text, "launch 3, three, was under way (global size 6, local size 2): it left 4 records, and 1 of 3 work-groups were "
                                      "recorded to their end")
