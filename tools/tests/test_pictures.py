"""What is drawn of the graphs in `tools/data` and of the texts that examples keep."""

import json
import os
import subprocess
import sys
import unittest

HERE = os.path.dirname(os.path.abspath(__file__))
TOOLS = os.path.join(HERE, "..")
EXAMPLES = os.path.join(HERE, "..", "..", "examples")
sys.path.insert(0, TOOLS)

from graph_picture import Picture, shortened  # noqa: E402
from sam_calls import channels_of, lines_of, waiting_in  # noqa: E402

NO_GRAPHS = ["", "[]", '{"blocks":[]}', '{"blocks":[{"kind":"root"}],"channels":[]}']


def read(*path):
    with open(os.path.join(*path), encoding="utf-8") as file:
        return file.read()


def draw(text, *words):
    return subprocess.run([sys.executable, os.path.join(TOOLS, "draw"), *words], input=text, capture_output=True, text=True)


class Pictures(unittest.TestCase):
    def setUp(self):
        self.graph = json.loads(read(TOOLS, "data", "plain-product.json"))
        self.streams = channels_of(read(EXAMPLES, "streams-of-a-product", "expected"))

    def test_kept_texts(self):
        names = [name[: -len(".json")] for name in os.listdir(os.path.join(TOOLS, "data")) if name.endswith(".json")]
        self.assertGreaterEqual(len(names), 2)
        for name in names:
            done = draw(read(TOOLS, "data", f"{name}.json"))
            self.assertEqual(done.stdout, read(TOOLS, "data", f"{name}.dot"), name)

    def test_no_graph(self):
        for text in NO_GRAPHS:
            done = draw(text)
            self.assertEqual((done.returncode, done.stdout), (1, ""), text)
            self.assertIn("is not the JSON of a graph", done.stderr)

    def test_wrong_words(self):
        for words in (["--streams"], ["--count"], ["--waiting"], ["--fused"], ["p.sam", "--capacity", "1"], ["p.sam", "--streams", "--count"]):
            self.assertEqual(draw("", *words).returncode, 2, words)

    def test_streams(self):
        text = Picture(labels=False, streams=self.streams).text(self.graph)
        self.assertIn('label="3\\n2 3 S0 D"', text)
        self.assertEqual(text.count(" -> "), 15)

    def test_counts(self):
        text = Picture(labels=False, streams=self.streams, counted=True).text(self.graph)
        self.assertIn('label="0\\n2 tokens", penwidth="5.0"', text)
        self.assertIn('label="1\\n4 tokens", penwidth="9.0"', text)

    def test_long_streams_are_shortened(self):
        tokens = [str(n) for n in range(100)]
        self.assertEqual(shortened(tokens[:24]), " ".join(tokens[:24]))
        self.assertEqual(shortened(tokens), " ".join(tokens[:12]) + " .. 76 more .. " + " ".join(tokens[88:]))

    def test_waiting(self):
        waiting = waiting_in(read(EXAMPLES, "stalled-sum", "expected"))
        self.assertEqual((len(waiting), waiting[4], waiting[22]), (12, ("full", 7), ("empty", 8)))
        text = Picture(labels=False, waiting={3: ("full", 5)}).text(self.graph)
        self.assertEqual(text.count("waits: 5 is full"), 1)
        self.assertIn('label="5", color="#c0392b"', text)

    def test_lines_of_a_program(self):
        rows = lines_of(os.path.join(EXAMPLES, "plain-product", "p.sam"))
        self.assertEqual([row[0] for row in rows], ["tensor", "tensor", "result", "compute", "loops"])


if __name__ == "__main__":
    unittest.main()
