"""What the tools that call `sam` write of the examples; left out where the program isn't built."""

import os
import re
import shutil
import subprocess
import sys
import tempfile
import unittest

HERE = os.path.dirname(os.path.abspath(__file__))
TOOLS = os.path.join(HERE, "..")
EXAMPLES = os.path.join(HERE, "..", "..", "examples")
BUILT = os.environ.get("SAM") or os.path.join(HERE, "..", "..", "crates", "sam_cli", "out", "sam_cli")
BROWSER = shutil.which("chromium") or shutil.which("chromium-browser") or shutil.which("google-chrome")
sys.path.insert(0, TOOLS)

from sam_calls import Refused, graph_of, lines_of, streams_of  # noqa: E402


def examples():
    """The program of each example that has its tensor files and one statement, so one graph."""
    paths = (os.path.join(EXAMPLES, name, "p.sam") for name in sorted(os.listdir(EXAMPLES)))
    return [path for path in paths if os.path.exists(path) and tensor_files(path) and statements(path) == 1]


def statements(program):
    return sum(row[0] == "result" for row in lines_of(program))


def tensor_files(program):
    names = [row[5] for row in lines_of(program) if row[0] == "tensor"]
    return all(os.path.exists(os.path.join(os.path.dirname(program), name)) for name in names)


def tool(name, *words):
    return subprocess.run([sys.executable, os.path.join(TOOLS, name), *words], capture_output=True, text=True)


def dumped(page, anchor):
    """The text of a page after its script has run, as a browser without a window has it."""
    words = [BROWSER, "--headless", "--no-sandbox", "--disable-gpu", "--virtual-time-budget=2000", "--dump-dom", f"file://{page}{anchor}"]
    return subprocess.run(words, capture_output=True, text=True, timeout=60).stdout


def pictured(page, anchor, png):
    """The bytes of a picture that the browser takes of a page."""
    words = [BROWSER, "--headless", "--no-sandbox", "--disable-gpu", "--window-size=1000,1000", f"--screenshot={png}", f"file://{page}{anchor}"]
    subprocess.run(words, capture_output=True, timeout=60)
    with open(png, "rb") as file:
        return file.read()


@unittest.skipUnless(os.path.exists(BUILT), "the program isn't built")
class Runs(unittest.TestCase):
    def setUp(self):
        self.folder = tempfile.TemporaryDirectory()
        self.addCleanup(self.folder.cleanup)
        self.page = os.path.join(self.folder.name, "page.html")

    @unittest.skipUnless(shutil.which("dot"), "there is no graphviz")
    def test_draw_every_example(self):
        for program in examples():
            graph = graph_of(program)
            for words in ([], ["--streams"], ["--count"], ["--waiting"]):
                done = tool("draw", program, "--svg", *words)
                self.assertEqual(done.stderr, "", program)
                drawn = re.findall(r'class="(node|edge)"', done.stdout)
                self.assertEqual(drawn.count("node"), len(graph["blocks"]), program)
                self.assertEqual(drawn.count("edge"), len(graph["channels"]), program)

    @unittest.skipUnless(shutil.which("dot"), "there is no graphviz")
    def test_draw_a_fused_graph(self):
        done = tool("draw", os.path.join(EXAMPLES, "fused-sum", "p.sam"), "--fused", "--count", "--svg")
        drawn = re.findall(r'class="(node|edge)"', done.stdout)
        self.assertEqual((done.stderr, drawn.count("node"), drawn.count("edge")), ("", 16, 24))

    def test_refusals_are_those_of_sam(self):
        program = os.path.join(self.folder.name, "p.sam")
        with open(program, "w", encoding="ascii") as file:
            file.write("result x 4 c 1\ncompute x(i) = b(i)\nloops i\n")
        for name in ("draw", "page", "study"):
            done = tool(name, program)
            self.assertEqual((done.returncode, done.stdout), (1, ""), name)
            self.assertIn("sam: program line 2: UnknownName b", done.stderr)
        with self.assertRaises(Refused):
            streams_of(program)

    def test_faults_have_the_names_of_the_users_files(self):
        program = os.path.join(self.folder.name, "p.sam")
        shutil.copy(os.path.join(EXAMPLES, "checked-matrix-product", "p.sam"), program)
        for words in (["draw", program, "--count"], ["page", program], ["study", program]):
            done = tool(*words)
            self.assertEqual((done.returncode, done.stdout), (1, ""), words)
            self.assertIn(f"{words[0]}: sam: missing B.tns", done.stderr)

    def test_a_wrong_schedule_is_refused(self):
        schedule = os.path.join(self.folder.name, "s.txt")
        with open(schedule, "w", encoding="ascii") as file:
            file.write("0\n3 4\n")
        done = tool("page", os.path.join(EXAMPLES, "plain-product", "p.sam"), "--schedule", schedule)
        self.assertIn("page: sam: schedule line 2", done.stderr)

    @unittest.skipUnless(shutil.which("dot") and BROWSER, "there is no graphviz or no browser")
    def test_page_in_a_browser(self):
        program = os.path.join(EXAMPLES, "plain-product", "p.sam")
        self.assertEqual(tool("page", program, "--out", self.page).stderr, "")
        for channel, said in ((0, "root, 2 of 2"), (7, "product 0 1 3 rank 1, 3 of 3"), (10, "product 0 1 3 partial 2, 3 of 3")):
            self.assertTrue(f"Channel {channel}: {said} tokens sent" in dumped(self.page, f"#channel{channel}"), channel)
        begun = dumped(self.page, "#channel7@0")
        self.assertTrue("Channel 7: product 0 1 3 rank 1, 0 of 3 tokens sent" in begun)
        self.assertEqual(begun.count('class="unsent"'), 3)
        pictures = [pictured(self.page, anchor, os.path.join(self.folder.name, "page.png")) for anchor in ("#channel7@0", "#channel7", "#channel5")]
        self.assertEqual(len(set(pictures)), 3)
        self.assertTrue(all(picture.startswith(b"\x89PNG") and len(picture) > 20_000 for picture in pictures))

    @unittest.skipUnless(shutil.which("dot") and BROWSER, "there is no graphviz or no browser")
    def test_page_of_a_stall(self):
        program = os.path.join(EXAMPLES, "stalled-sum", "p.sam")
        self.assertEqual(tool("page", program, "--of", "7=1", "--out", self.page).stderr, "")
        self.assertTrue("block 4 waits: channel 7 is full" in dumped(self.page, ""))

    @unittest.skipUnless(shutil.which("dot") and BROWSER, "there is no graphviz or no browser")
    def test_page_of_a_fused_graph(self):
        program = os.path.join(EXAMPLES, "fused-sum", "p.sam")
        self.assertEqual(tool("page", program, "--fused", "--capacity", "1", "--out", self.page).stderr, "")
        shown = dumped(self.page, "#channel23")
        self.assertTrue("Channel 23: " in shown and " waits: " not in shown)

    @unittest.skipUnless(shutil.which("dot"), "there is no graphviz")
    def test_pages_of_every_example(self):
        for program in examples():
            self.assertEqual(tool("page", program, "--out", self.page).stderr, "", program)

    def test_study(self):
        program = os.path.join(EXAMPLES, "matrix-product-by-vectors", "p.sam")
        plot = os.path.join(self.folder.name, "plot.svg")
        done = tool("study", program, "--plot", plot)
        rows = [line.split(" | ") for line in done.stdout.splitlines()[2:]]
        self.assertEqual(sorted(row[0].strip("| ") for row in rows), ["i j k", "i k j", "j i k", "j k i", "k i j", "k j i"])
        for row in rows:
            self.assertEqual((len(row), row[2]), (9, "plain"), row)
        with open(plot, encoding="utf-8") as file:
            self.assertEqual(file.read().count("<rect"), 6)

    def test_several_statements_have_no_one_graph(self):
        for name in ("study", "draw"):
            done = tool(name, os.path.join(EXAMPLES, "triangles", "p.sam"))
            self.assertEqual(done.stderr, f"{name}: sam: program line 6: ManyStatements\n")

    def test_study_of_both_lowerings(self):
        done = tool("study", os.path.join(EXAMPLES, "fused-sum", "p.sam"))
        rows = [line.strip("| ").split(" | ") for line in done.stdout.splitlines()[2:]]
        self.assertEqual([row[0] for row in rows], ["i j", "i j", "j i", "j i"])
        self.assertEqual([row[2:5] for row in rows], 2 * [["plain", "24", "38"], ["fused", "16", "24"]])
        self.assertEqual([row[7] for row in rows[:2]], ["2", "1"])


if __name__ == "__main__":
    unittest.main()
