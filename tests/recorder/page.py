"""The page of --html: what it shows, its pictures, and that a browser has nothing to say against it."""

import os
import re
import shutil
import subprocess
import unittest

from testing.launches import KERNEL, SIDES, info, put_launch, put_racy, put_right
from testing.program import TOP, RoomTest, python_with

from gpurace_record import picture
from gpurace_record.finding import Map, Mark

PYTHON = python_with("jinja2", "pygments")
BROWSER = ["chromium", "--headless=new", "--no-sandbox", "--disable-gpu", "--disable-dev-shm-usage", "--enable-logging=stderr", "--dump-dom"]

TRY = """<script>
const seen = [];
const rows = () => [...document.querySelectorAll("#table tbody tr")].filter(row => !row.hidden).map(row => row.cells[0].textContent).join();
const filter = document.getElementById("filter"), state = document.getElementById("state");
seen.push(rows());
document.querySelectorAll("#table th button")[3].click(); seen.push(rows());
document.querySelectorAll("#table th button")[3].click(); seen.push(rows());
filter.value = "tile sums"; filter.dispatchEvent(new Event("input")); seen.push(rows());
filter.value = ""; state.value = "doubtful"; state.dispatchEvent(new Event("input")); seen.push(rows());
seen.push(document.documentElement.scrollWidth > innerWidth ? "too wide" : "fits");
document.body.dataset.seen = seen.join(";");
</script>"""


def barrier(instance, flags=2):
    return Mark("barrier", f"k.cl:{instance + 1}:1", instance=instance, flags=flags)


RACING, READ = Mark("write", is_racing=True), Mark("read")


class Pictures(unittest.TestCase):
    def test_a_barrier_of_both_is_one_row(self):
        rows = picture.rows_of([READ, barrier(0), RACING], [barrier(0), RACING], True)
        self.assertEqual(rows, [picture.Row(READ, None), picture.Row(barrier(0), barrier(0), True), picture.Row(RACING, RACING)])

    def test_a_barrier_to_which_one_item_does_not_come(self):
        rows = picture.rows_of([RACING], [barrier(0), RACING], True)
        self.assertEqual(rows, [picture.Row(RACING, None), picture.Row(None, barrier(0), True), picture.Row(None, RACING)])

    def test_accesses_between_the_same_barriers_are_beside_each_other(self):
        self.assertEqual(picture.rows_of([READ, READ, RACING], [RACING, READ], True), [
            picture.Row(READ, None), picture.Row(READ, None), picture.Row(RACING, RACING), picture.Row(None, READ)])

    def test_what_a_barrier_is(self):
        self.assertEqual(picture.label(barrier(1)), ("barrier 1 (local)", "k.cl:2:1"))
        self.assertEqual(picture.label(Mark("barrier", "k.cl:2:1", instance=1, is_wait=True)), ("wait_group_events", "k.cl:2:1"))

    def test_who_hands_over_is_above_who_takes(self):
        release, acquire = Mark("store", order="rel", scope="grp", key=(0, 1, 2)), Mark("load", order="acq", scope="grp", takes=((0, 1, 2),))
        self.assertEqual(picture.rows_of([RACING, release], [acquire, RACING], False), [
            picture.Row(RACING, None), picture.Row(release, None), picture.Row(None, acquire), picture.Row(None, RACING)])
        self.assertFalse(picture.is_inclusive(release, acquire, False))
        self.assertTrue(picture.is_inclusive(release, acquire, True))

    def test_the_map_of_racy_words(self):
        """Words 8 to 15 of 16 are the second half of 400 pixels; word 3 of 1,600 is at least two pixels wide."""
        self.assertIn('<rect x="200" y="0" width="200"', picture.words_map(Map("tile", "local", 16, 1, [(8, 15)])))
        self.assertIn('<rect x="0.75" y="0" width="2"', picture.words_map(Map("tile", "local", 1600, 1, [(3, 3)])))
        self.assertEqual(picture.words_map(Map("", "global", 0, 1, [(3, 3)])), "")


@unittest.skipUnless(PYTHON, "python3-jinja2 or python3-pygments is missing")
class Page(RoomTest):
    def setUp(self):
        super().setUp()
        kept = self.room / "kept"
        put_racy(kept)
        put_racy(kept, 1, "doubtful", more="orders-not-known 2\n")
        put_right(kept, 2)
        streams = ["group 0 items 2 launch 3\n0 bar 1 l\n0 bar 2 l\n0 w g 128\n1 bar 1 l\n1 w g 128\nend\n"]
        put_launch(kept / "003-another", streams, {**SIDES, "info.txt": info("another", 3, more='element output "int2"\n'), "kernel.cl": "// <b>&amp;\n" + KERNEL,
                                                   "places": "1 kernel.cl:4:1\n2 kernel.cl:5:1\n0 0 2 kernel.cl:4:9\n0 1 1 kernel.cl:6:9\n"})
        words = [PYTHON, str(TOP / "tools" / "gpurace-judge"), "--html", str(self.room / "page.html"), str(kept)]
        ran = subprocess.run(words, env={**os.environ, "GPURACE_PROGRAM": os.environ["GPURACE"]}, capture_output=True, timeout=300, check=False)
        self.assertEqual(ran.returncode, 1, ran.stderr)
        self.text = (self.room / "page.html").read_text()

    def test_what_it_shows(self):
        self.assertEqual(re.findall('<h2 id="kernel-([^"]*)"', self.text), ["sums", "doubtful", "another", "right"])
        self.assertEqual(len(re.findall("<article", self.text)), 4)
        self.assertEqual(len(re.findall('<svg [^>]*class="picture"', self.text)), 3)  # of each race; none of the divergence
        self.assertIn("// &lt;b&gt;&amp;amp;", self.text)
        self.assertIn("barrier 1 (local)", self.text)
        self.assertIn("does not come", self.text)
        self.assertIn('class="badge doubtful">doubtful<', self.text)
        self.assertIn('<td class="wide">kernel.cl:3:13, kernel.cl:5:20</td>', self.text)
        self.assertEqual(re.findall('<p class="soft">On (.*):</p>', self.text), ["output[0].x, which gpurace explain calls output[0]"])
        self.assertEqual(re.findall('<p class="message">(some work-items[^<]*|its place[^<]*)</p>', self.text), [
            "some work-items never reach it; 1 race follows from it", "its place is outside of branches and loops that they take differently, and before any early return"])

    def test_it_needs_nothing_else(self):
        self.assertEqual(re.findall(r'(?:src|href)="(?!#|data:)|@import|url\((?!data:)', self.text), [])

    def browse(self, page, width):
        words = [*BROWSER, f"--user-data-dir={self.room}/profile", f"--window-size={width},900", page.as_uri()]
        return subprocess.run(words, stdout=subprocess.PIPE, stderr=subprocess.PIPE, text=True, timeout=300, check=False)

    @unittest.skipUnless(shutil.which("chromium"), "chromium is missing")
    def test_in_a_browser(self):
        """The table sorts by kernel, both ways, and filters by words and by state; nothing is said on the console, at two widths."""
        page = self.room / "tried.html"
        page.write_text("<p>begun</p>")
        if "begun" not in self.browse(page, 1280).stdout:
            self.skipTest("chromium does not run here")
        page.write_text(self.text.replace("</body>", TRY + "</body>"))
        for width in (1280, 500):
            ran = self.browse(page, width)
            seen = re.search('data-seen="([^"]*)"', ran.stdout)
            self.assertTrue(seen, ran.stderr[-2000:])
            self.assertEqual(seen[1].split(";"), ["1,2,3,4", "3,4,2,1", "1,2,3,4", "1", "2", "fits"])
            self.assertNotIn("CONSOLE", ran.stderr)
