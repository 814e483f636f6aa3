"""Large launches by the commands that report on them: what each writes is known from how the launch was made."""

import itertools
import json
import re
import struct

from testing.program import END, ProgramTest, access, header, pack

READ, WRITE = 0, 1
GLOBAL, LOCAL = 0, 1
NO_BARRIER = "nothing orders the two; a barrier with CLK_{}_MEM_FENCE between them would"
NO_HAND_OVER = "nothing orders the two; a release that an acquire takes, at memory_scope_device, would"
WIDER_SCOPE = "if every atomic had memory_scope_device, the two would not race"

# what two accesses do that race, whatever their scope, and whether or not they are of one group
RACING = [
    *[("read", it) for it in ("write", "store", "rmw")],
    *[("write", it) for it in ("read", "write", "load", "store", "rmw")],
    *[(it, "read") for it in ("store", "rmw")],
    *[(it, "write") for it in ("load", "store", "rmw")],
]
# the operations in the order in which a kind has them
ORDER = ("write", "store", "rmw", "read", "load")
TEXTS = {
    "read": "r {}",
    "write": "w {}",
    "load": "ld {} grp rlx",
    "store": "st {} grp rlx",
    "rmw": "rmw {} grp rlx",
}


def line_of(item, kind, space, word):
    """The line of an access; atomics are relaxed and have work-group scope."""
    return f"{item} {TEXTS[kind].format(f'{space} {word}')}\n"


class Launch:
    """A launch of two groups of two items, in which pairs of accesses race, each pair on a word of its own: the first access of a pair
    is of item 0 of group 0, and the second one of item 1 of group 0 or of item 0 of group 1."""

    def __init__(self):
        self.lines = [[], [], []]  # of the three items
        self.races = []

    def add(self, space, word, first, second, one_group, cause):
        """Adds a pair. Its word is above those of all pairs before it, and local ones come last."""
        other = 1 if one_group else 2
        self.races.append((space, word, first, second, one_group, cause, len(self.lines[0]), len(self.lines[other])))
        self.lines[0].append(line_of(0, first, space, word))
        self.lines[other].append(line_of(1 if one_group else 0, second, space, word))

    def streams(self):
        one, two, other = ("".join(it) for it in self.lines)
        return pack(f"group 0 items 2 launch 7\n{one}{two}end\n"), pack(f"group 1 items 2 launch 7\n{other}end\n")

    def kinds(self):
        """The races by their kinds: those of two operations first, then in the order of the kinds' first words."""
        found = {}
        for race in self.races:
            space, _, first, second, one_group, cause, _, _ = race
            operations = sorted((first, second), key=ORDER.index)
            found.setdefault((space, *operations, one_group, cause), []).append(race)
        return dict(sorted(found.items(), key=lambda it: it[0][1] == it[0][2]))

    def text(self):
        """What `races --causes` writes. No two words of a kind follow each other."""
        written = []
        for (space, first, second, one_group, (cause, sentence)), races in self.kinds().items():
            memory, group = ("global", "") if space == "g" else ("local", "0 ")
            names = " ".join(f"{memory} {group}{race[1]}" for race in races[:5])
            more = f" and {len(races) - 5} more" if len(races) > 5 else ""
            _, word, *operations, _, _, index, other = races[0]
            events = [f"0 0 {index}", f"0 1 {other}" if one_group else f"1 0 {other}"]
            one, two = events if operations == [first, second] else events[::-1]
            written.append(f"kind {memory} {first} {second} {'one group' if one_group else 'two groups'} words {len(races)}\n")
            written.append(f"words {names}{more}\nrace {memory} {group}{word}: {one} with {two}\ncause {cause}: {sentence}\n")
        return "".join(written) + f"end kinds {len(self.kinds())} races {len(self.races)} diverge 0 unmatched 0 held 0\n"


def launch_of_22_kinds(pairs):
    """So many pairs of 22 kinds, each but those of one operation in both orders of its accesses, one pair after another."""
    kinds = [("g", *it, False, ("no-hand-over", NO_HAND_OVER)) for it in RACING]
    kinds += [("g", *it, True, ("no-barrier", NO_BARRIER.format("GLOBAL"))) for it in RACING]
    kinds += [("g", "rmw", "rmw", False, ("scope", WIDER_SCOPE))]
    local = [("l", *it, True, ("no-barrier", NO_BARRIER.format("LOCAL"))) for it in RACING]
    made, of_globals = Launch(), pairs * len(kinds) // (len(kinds) + len(local))
    for number in range(pairs):
        row, place = (kinds, number) if number < of_globals else (local, number - of_globals)
        space, first, second, one_group, cause = row[place % len(row)]
        made.add(space, number, first, second, one_group, cause)
    return made


def line_of_json(**keys):
    return '{"gpurace":1,' + json.dumps(keys, separators=(",", ":"), sort_keys=True)[1:] + "\n"


class Races(ProgramTest):
    def assert_causes(self, pairs):
        made = launch_of_22_kinds(pairs)
        self.assertEqual(len(made.kinds()), 22)
        for number, stream in enumerate(made.streams()):
            self.put(f"group{number}", stream)
        self.assert_run(self.gpurace("races", "--causes", "group0", "group1"), made.text().encode(), 1)

    def test_300_races_of_22_kinds_with_their_causes(self):
        self.assert_causes(300)

    def test_70000_races_of_22_kinds_with_their_causes(self):
        self.assert_causes(70_000)

    def put_writes(self, words):
        """Two items write each of these words, which are even ones from 0 on."""
        lines = [access(item, WRITE, GLOBAL, 2 * word) for item in (0, 1) for word in range(words)]
        self.put("writes", header(0, 2) + b"".join(lines) + END)

    def test_2000_races_as_JSON(self):
        self.put_writes(2_000)
        words = [{"number": 2 * word, "space": "global"} for word in range(2_000)]
        event = {"group": 0, "index": 0, "place": None}
        race = {"buffer": None, "cause": None, "first": {**event, "item": 0}, "second": {**event, "item": 1}, "word": words[0]}
        kind = {"all_write_here": False, "first": "write", "one_group": True, "second": "write", "space": "global"}
        runs = [{"first": word, "last": word["number"]} for word in words]
        wanted = line_of_json(kind=kind, race=race, runs=runs, type="kind", words=2_000) + line_of_json(diverge=0, held=0, kinds=1, races=2_000, type="end", unmatched=0)
        self.assert_run(self.gpurace("races", "--json", "writes"), wanted.encode(), 1)

    def test_a_report_of_2000_races_as_JSON(self):
        self.put_writes(2_000)
        wanted = line_of_json(groups=1, items=2, records=4_001, type="launch")
        wanted += "".join(line_of_json(type="race", word={"number": 2 * word, "space": "global"}) for word in range(2_000))
        wanted += line_of_json(diverge=0, held=0, races=2_000, type="end", unmatched=0)
        self.assert_run(self.gpurace("run", "--json", "writes"), wanted.encode(), 1)


class SideFiles(ProgramTest):
    """Side files of 5 MB, of which only the last line is about the launch."""

    def setUp(self):
        super().setUp()
        self.put("race", header(0, 2) + access(0, WRITE, GLOBAL, 16) + access(1, READ, GLOBAL, 16) + END)
        places = [f"0 255 {index} kernel.cl:{index}:1" for index in range(180_000)] + ["0 1 0 kernel.cl:9:3"]
        buffers = [f"g {1_000 + word} 1 buffer{word}" for word in range(220_000)] + ["g 12 8 flags"]
        for name, lines in (("places", places), ("buffers", buffers)):
            text = "".join(f"{line}\n" for line in lines).encode()
            self.assertGreater(len(text), 5_000_000)
            self.put(name, text)

    def test_races_by_side_files_of_5_MB(self):
        wanted = b"kind global write read one group words 1\nwords global 16\nrace global 16: 0 0 0 with 0 1 0\n"
        wanted += b"buffer flags[4]\nsecond kernel.cl:9:3\nend kinds 1 races 1 diverge 0 unmatched 0 held 0\n"
        self.assert_run(self.gpurace("races", "--places", "places", "--buffers", "buffers", "race"), wanted, 1)

    def test_history_by_side_files_of_5_MB(self):
        self.put("one_item", header(0, 2) + access(1, READ, GLOBAL, 16) + access(1, WRITE, GLOBAL, 16) + END)
        wanted = b"buffer flags[4]\naccess 0 1 0 read record 0 phase 0 ordered after none at kernel.cl:9:3\n"
        wanted += b"access 0 1 1 write record 1 phase 0 ordered after all\nend accesses 2 held 0 races no\n"
        self.assert_run(self.gpurace("history", "--places", "places", "--buffers", "buffers", "g", "16", "one_item"), wanted, 0)


class Groups(ProgramTest):
    """Launches of 64 groups."""

    names = [f"group{number}" for number in range(64)]

    def put_hand_over(self):
        """In each group item 31 modifies word 16; in group 0 item 0 hands 1,000 words to item 1 before."""
        handed = "".join(f"0 w g {1_000 + it}\n0 st g 20 dev rel\n1 ld g 20 dev acq < 0 0 {it}\n1 r g {1_000 + it}\n" for it in range(1_000))
        for number, name in enumerate(self.names):
            self.put(name, pack(f"group {number} items 32 launch 7\n{'' if number else handed}31 rmw g 16 grp rlx\nend\n"))

    def test_a_word_of_64_groups(self):
        self.put_hand_over()
        line = "race global 16: 0 31 0 with 1 31 0\n"
        self.assert_run(self.gpurace("explain", "g", "16", *self.names), line.encode(), 1)
        long = "first rmw grp rlx record 4000 phase 0\nsecond rmw grp rlx record 0 phase 0\n" + f"cause scope: {WIDER_SCOPE}\n"
        self.assert_run(self.gpurace("explain", "--long", "g", "16", *self.names), (line + long).encode(), 1)

    def test_races_of_64_groups_with_side_files(self):
        """Items 0 and 31 of each group write 200 local words, no two of them side by side. The places of item 31's first 199 are known: each
        is one of a kind with that of item 0, which is not. Then come the pairs of one place: that of word 16, and that of the last local words."""
        local = "".join(f"31 w l {2 * it}\n0 w l {2 * it}\n" for it in range(200))
        for number, name in enumerate(self.names):
            self.put(name, pack(f"group {number} items 32 launch 7\n31 rmw g 16 grp rlx\n{local}end\n"))
        places = "".join(f"{group} 31 {index} scan.cl:{index}\n" for group in reversed(range(64)) for index in range(200))
        self.put("places", places.encode())
        self.put("buffers", "".join(f"g {1_000 + it} 1 out\n" for it in range(10_000)).encode() + b"g 12 8 flags\n")
        ran = self.gpurace("races", "--places", "places", "--buffers", "buffers", *self.names)
        lines = ran.stdout.decode().splitlines()
        kind = "kind local write write one group words 64"
        groups = "words " + " ".join(f"local {group} {{0}}" for group in range(5)) + " and 59 more"
        pairs = [[kind, groups.format(2 * it), f"race local 0 {2 * it}: 0 0 {it} with 0 31 {it + 1}", f"second scan.cl:{it + 1}"] for it in range(199)]
        self.assertEqual(lines[:4 * 199], [line for pair in pairs for line in pair])
        self.assertEqual(lines[4 * 199:][:2], ["kind global rmw rmw two groups words 1", "words global 16"])
        self.assertRegex(lines[4 * 199 + 2], "^race global 16: ")
        self.assertEqual(lines[4 * 199 + 3:][:4], ["buffer flags[4]", "first scan.cl:0", "second scan.cl:0", kind])
        self.assertEqual(lines[4 * 199 + 7:-1], [groups.format(398), "race local 0 398: 0 0 199 with 0 31 200"])
        self.assertEqual((lines[-1], ran.returncode, ran.stderr), ("end kinds 201 races 12801 diverge 0 unmatched 0 held 0", 1, b""))

    def put_reads(self):
        """Item 0 of each group reads as many words as the group's number says."""
        for number, name in enumerate(self.names):
            self.put(name, header(number, 1) + access(0, READ, GLOBAL, 4) * number + END)

    def test_a_check_of_64_files(self):
        self.put_reads()
        counts = {"reads": 2_016, "writes": 0, "loads": 0, "stores": 0, "rmws": 0, "barriers": 0, "ends": 64}
        text = "".join(f"{name} {count}\n" for name, count in {"groups": 64, "items": 64, "records": 2_080, **counts}.items())
        self.assert_run(self.gpurace("check", *reversed(self.names)), text.encode(), 0)
        line = line_of_json(accepted=True, groups=64, items=64, kinds=counts, records=2_080, type="check")
        self.assert_run(self.gpurace("check", "--json", *self.names), line.encode(), 0)

    def test_a_fault_in_the_last_of_64_files(self):
        self.put_reads()
        stream = bytearray((self.folder / "group63").read_bytes())
        stream[12 + 63 * 20 + 11] = 1  # a word of its end
        self.put("group63", bytes(stream))
        fault = b"gpurace: stream 63: bad field 11\n"
        said = fault + b"gpurace: group63: stream 63, at its record 63\n"
        self.assert_run(self.gpurace("run", *self.names), b"", 2, said)
        self.assert_run(self.gpurace("races", *self.names), b"", 2, said)
        wrong = "this byte of the record has a value that a record of its kind may not have there"
        right = "the bytes 4, 5 and 8 to 11 of an end are 0, since an end is of no work-item and has no word"
        text = f"file group63\nrecord 63 byte 1272\nwrong: {wrong}\nright: {right}\n"
        self.assert_run(self.gpurace("check", *self.names), fault + text.encode(), 2)
        place = {"byte": 1_272, "file": "group63", "record": 63, "stream": 63}
        line = line_of_json(accepted=False, fault="stream 63: bad field 11", place=place, right=right, type="check", wrong=wrong)
        self.assert_run(self.gpurace("check", "--json", *self.names), line.encode(), 2)

    def test_a_missing_group_of_64(self):
        self.put_reads()
        names = [name for name in self.names if name != "group40"]
        self.assert_run(self.gpurace("races", *names), b"", 2, b"gpurace: group 40 missing\ngpurace: group0 to group63: none has a stream of this group\n")


def named(before, names, count):
    """So many events, of which the first eight are named."""
    return f"{before} {', '.join(names[:8])}" + (f" and {count - 8} more" if count > 8 else "")


def singles_of(line, record_of):
    """The lines of the accesses of a line, each as if it were alone."""
    spans = re.fullmatch(r"access (\d+) (\d+) (\d+) to (\d+) (.*) record (\d+) to (\d+) (.*)", line)
    if not spans:
        return [line]
    group, item, first, last, kind, first_record, last_record, rest = spans.groups()
    ends = record_of(int(item), int(first)), record_of(int(item), int(last))
    assert ends == (int(first_record), int(last_record)), line
    indices = range(int(first), int(last) + 1)
    return [f"access {group} {item} {index} {kind} record {record_of(int(item), index)} {rest}" for index in indices]


class Histories(ProgramTest):
    """Histories of a word whose accesses nothing orders but that some are of one item."""

    def assert_history(self, files, kind, record_of, rows, end, status):
        """Each access is after just those of its item that are above it, and races with the others where these are writes.
        `record_of` has the number of an access's record. So many lines have them all, and the last one says how many they are."""
        ran = self.gpurace("history", "g", "16", *files)
        *lines, last = ran.stdout.decode().splitlines()
        self.assertEqual((len(lines), last, ran.returncode, ran.stderr), (rows, end, status, b""))
        singles = [single for line in lines for single in singles_of(line, record_of)]
        self.assertEqual(len(singles), int(end.split()[2]))
        above = {}
        for number, line in enumerate(singles):
            group, item, index = (int(it) for it in line.split()[1:4])
            names = above.setdefault((group, item), [])
            self.assertEqual(index, len(names))
            of_others = (it for key, its in above.items() if key != (group, item) for it in its)
            others, unordered = list(itertools.islice(of_others, 8)), number - len(names)
            races = named(" races with", others, unordered) if unordered and kind == "write" else ""
            all_but = named(" but", others, unordered) if unordered and not races else ""
            after = f" ordered after all{' others' if races else ''}{all_but}" if names else " ordered after none"
            record = record_of(item, index)
            self.assertEqual(line, f"access {group} {item} {index} {kind} record {record} phase 0{races}{after}")
            names.append(f"{group} {item} {index}")

    def test_2000_writes_of_two_items(self):
        """The items take turns."""
        self.put("turns", header(0, 2) + b"".join(access(number % 2, WRITE, GLOBAL, 16) for number in range(2_000)) + END)
        end = "end accesses 2000 held 0 races yes"
        self.assert_history(["turns"], "write", lambda item, index: 2 * index + item, 2_000, end, 1)

    def test_20000_reads_of_5000_items(self):
        """Each item of 20 groups reads the word four times: its first read is after none of its own, the others are alike."""
        reads = b"".join(access(item, READ, GLOBAL, 16) * 4 for item in range(250))
        files = [self.put(f"group{group}", header(group, 250) + reads + END).name for group in range(20)]
        end = "end accesses 20000 held 0 races no"
        self.assert_history(files, "read", lambda item, index: 4 * item + index, 10_000, end, 0)

    def test_2000_accesses_of_one_item(self):
        self.put("writes", header(0, 1) + access(0, WRITE, GLOBAL, 16) * 2_000 + END)
        wanted = b"access 0 0 0 write record 0 phase 0 ordered after none\naccess 0 0 1 to 1999 write record 1 to 1999 phase 0 ordered after all\n"
        self.assert_run(self.gpurace("history", "g", "16", "writes"), wanted + b"end accesses 2000 held 0 races no\n", 0)

    def test_262144_items_that_count(self):
        """Each item of 1,024 groups adds one to a counter."""
        adds = b"".join(b"\x04\x00\x02\x01" + access(item, 0, GLOBAL, 16)[4:] for item in range(256))
        self.put("counter", b"".join(b"GRT3" + header(group, 256)[4:] + adds + END for group in range(1_024)))
        end = "end accesses 262144 held 0 races no"
        self.assert_history(["counter"], "rmw dev rlx", lambda item, index: item, 262_144, end, 0)
        self.assert_run(self.gpurace("explain", "g", "16", "counter"), b"no race global 16\n", 0)

    def test_1024_items_of_one_group_that_count(self):
        """Each item adds one to a counter in local memory, at work-group scope, 64 times."""
        adds = b"".join(b"\x04\x01\x01\x01" + access(item, 0, LOCAL, 16)[4:] for item in range(1_024)) * 64
        self.put("counter", b"GRT3" + header(0, 1_024)[4:] + adds + END)
        self.assert_run(self.gpurace("explain", "l0", "16", "counter"), b"no race local 0 16\n", 0)
        last = self.gpurace("history", "l0", "16", "counter").stdout.splitlines()[-1]
        self.assertEqual(last, b"end accesses 65536 held 0 races no")

    def test_65536_items_that_take_turns(self):
        """Each item takes the release of the one before it, in its own group or at the end of the group before."""
        items, streams, wanted = range(256), [], []
        for group in range(256):
            before = [struct.pack("<HHI", group, max(item, 1) - 1, 0) for item in items]
            before[0] = struct.pack("<HHI", group - 1, 255, 0) if group else access(0, 0, 0, 0)[12:]
            adds = (b"\x04\x00\x02\x04" + access(item, 0, GLOBAL, 16)[4:12] + before[item] for item in items)
            streams.append(b"GRT3" + header(group, 256)[4:] + b"".join(adds) + END)
            wanted += (f"access {group} {item} 0 rmw dev both record {item} phase 0 ordered after all\n" for item in items)
        wanted[0] = "access 0 0 0 rmw dev both record 0 phase 0 ordered after none\n"
        self.put("turns", b"".join(streams))
        wanted.append("end accesses 65536 held 0 races no\n")
        self.assert_run(self.gpurace("history", "g", "16", "turns"), "".join(wanted).encode(), 0)


class Chains(ProgramTest):
    """Why events are held that wait for others, one after another."""

    def test_a_chain_of_5000_links(self):
        """Each of 2,500 items waits for a release of the one before it, and the first for one that is not there."""
        items = [divmod(number, 256) for number in range(2_500)]
        texts = [f"group {group} items 256 launch 7\n" for group in range(10)]
        links = ["held 0 0 0 absent 9 255 0\n", "held 0 0 1 after 0 0 0\n"]
        names = ["9 255 0"] + [f"{group} {item} 0" for group, item in items]
        for number, (group, item) in enumerate(items):
            texts[group] += f"{item} ld g {number} dev acq < {names[number]}\n{item} st g {number + 1} dev rel\n"
            if number:
                before = " ".join(map(str, items[number - 1]))
                links.append(f"held {group} {item} 0 release {before} 1\n")
                links.append(f"held {group} {item} 1 after {group} {item} 0\n")
        files = [self.put(f"group{group}", pack(f"{text}end\n")).name for group, text in enumerate(texts)]
        self.assertEqual(len(links), 5_000)
        self.assert_run(self.gpurace("why-held", *items[-1], 1, *files), "".join(reversed(links)).encode(), 1)

    def test_a_chain_in_group_40(self):
        files = [self.put(f"group{group}", header(group, 1) + END).name for group in range(40)]
        text = "0 ld g 20 dev acq < 40 3 0\n0 st g 24 dev rel\n1 ld g 24 dev acq < 40 0 0\n1 r g 16\n"
        files.append(self.put("group40", pack(f"group 40 items 4 launch 7\n{text}end\n")).name)
        links = "held 40 1 1 after 40 1 0\nheld 40 1 0 release 40 0 1\nheld 40 0 1 after 40 0 0\nheld 40 0 0 absent 40 3 0\n"
        self.assert_run(self.gpurace("why-held", 40, 1, 1, *files), links.encode(), 1)
