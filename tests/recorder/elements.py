"""Words of a buffer as elements: worked out from the sizes of OpenCL's types."""

import unittest

import testing.launches  # noqa: F401  it knows where the package is

from gpurace_record.elements import Elements
from gpurace_record.sides import name_of

PARTICLE = '{"bytes":32,"members":[[0,"position","float3"],[16,"mass","half"],[20,"next",{"bytes":8,"members":[[0,"at",[2,"int"]]]}],[28,"link",4]]}'


class ElementsOfWords(unittest.TestCase):
    def assert_names(self, lines, names):
        elements = Elements(lines)
        for name, first, last, expected in names:
            self.assertEqual(elements.of(name).span(first, last), expected, (name, first, last))

    def test_words_and_what_they_are_of(self):
        types = {"vectors": "float4", "doubles": "double", "pairs": "double2", "bytes": "uchar4", "threes": "float3", "wide": "float16", "shorts": "short2",
                 "small": "uchar", "count": "int"}
        self.assert_names([f'{name} "{type}"' for name, type in types.items()], (
            ("vectors", 4, 4, "vectors[1].x"), ("vectors", 4, 7, "vectors[1]"), ("vectors", 4, 11, "vectors[1..2]"), ("vectors", 5, 6, "vectors[1].yz"),
            ("vectors", 5, 10, "vectors[1].y..[2].z"), ("doubles", 5, 5, "doubles[2]"), ("doubles", 4, 7, "doubles[2..3]"),
            ("pairs", 6, 7, "pairs[1].y"), ("bytes", 2, 2, "bytes[2]"), ("bytes.byte", 5, 5, "bytes[1].y"), ("small", 3, 3, "small[12..15]"),
            ("small.byte", 3, 3, "small[3]"), ("threes", 6, 6, "threes[1].z"), ("threes", 7, 7, "threes[1]"), ("threes", 4, 7, "threes[1]"),
            ("wide", 17, 19, "wide[1].s1..s3"), ("wide", 31, 31, "wide[1].sf"), ("shorts.half", 3, 3, "shorts[1].y"), ("count", 0, 0, "count[0]")))

    def test_arrays_of_arrays(self):
        """Each type is that of an element of the outermost array."""
        self.assert_names(['tile [4,"float"]', 'cube [3,[5,"float4"]]', 'small [2,"uchar"]', 'rows [8,"double"]'], (
            ("tile", 5, 5, "tile[1][1]"), ("tile", 4, 7, "tile[1][0..3]"), ("tile", 3, 4, "tile[0][3]..[1][0]"),
            ("tile", 0, 11, "tile[0][0]..[2][3]"),
            ("cube", 85, 85, "cube[1][1][1].y"), ("cube", 84, 91, "cube[1][1][1..2]"), ("cube", 59, 60, "cube[0][2][4].w..[1][0][0].x"),
            ("small.byte", 3, 3, "small[1][1]"), ("small", 1, 1, "small[2][0]..[3][1]"), ("rows", 16, 17, "rows[1][0]")))

    def test_members_of_structs(self):
        """Bytes 18 and 19 of an element are no member's, and its last four are a member that has no parts."""
        self.assert_names([f"p {PARTICLE}"], (
            ("p", 9, 9, "p[1].position.y"), ("p", 8, 10, "p[1].position"), ("p", 12, 12, "p[1].mass"), ("p", 13, 13, "p[1].next.at[0]"),
            ("p", 13, 14, "p[1].next"), ("p", 14, 14, "p[1].next.at[1]"), ("p", 15, 15, "p[1].link"), ("p", 0, 7, "p[0]"), ("p", 0, 15, "p[0..1]"),
            ("p", 10, 12, "p[1].position.z..mass"), ("p", 12, 17, "p[1].mass..[2].position.y"), ("p.half", 25, 25, "p[1].mass")))

    def test_kinds_of_numbers(self):
        elements = Elements([f"p {PARTICLE}", 'small "uchar"'])
        self.assertEqual([elements.of("p").kind_of(word) for word in (9, 12, 14, 15)], ["float", "half", "int", ""])
        self.assertEqual(elements.of("small.byte").kind_of(3), "uchar")

    def test_more_runs_than_are_shown(self):
        for runs, more in ((5, ""), (6, " and 1 more run"), (7, " and 2 more runs")):
            self.assertEqual(name_of("a", "global", [(2 * at, 2 * at) for at in range(runs)], 1, None), f"a[0], a[2], a[4], a[6], a[8]{more}")

    def test_a_type_that_is_not_known(self):
        """Nor is that of two arguments of two types."""
        elements = Elements(['a "float2"', 'b "float2"', 'c "float"', "bare 0"])
        self.assertEqual([elements.of(name) for name in ("unknown", "a=c", "a=unknown", "bare=bare", "bare", "")], [None] * 6)
        self.assertEqual(elements.of("a=b").span(3, 3), "a=b[1].y")
