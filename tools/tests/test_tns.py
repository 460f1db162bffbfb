"""What `tns` writes of small files of each kind, and what it refuses."""

import gzip
import os
import subprocess
import sys
import tempfile
import unittest

TOOLS = os.path.join(os.path.dirname(os.path.abspath(__file__)), "..")

try:
    import scipy.sparse
except ImportError:
    scipy = None

MARKETS = [
    ("coordinate integer general\n2 3 2\n2 3 5\n1 1 -7\n", "2 3 5\n1 1 -7\n"),
    ("coordinate real general\n% a note\n\n2 3 2\n2 3 5.0\n1 1 -7e1\n", "2 3 5\n1 1 -70\n"),
    ("coordinate pattern symmetric\n3 3 2\n3 1\n2 2\n", "3 1 1\n1 3 1\n2 2 1\n"),
    ("coordinate integer skew-symmetric\n3 3 1\n3 1 4\n", "3 1 4\n1 3 -4\n"),
    ("array integer general\n2 2\n1\n0\n3\n4\n", "1 1 1\n1 2 3\n2 2 4\n"),
    ("array integer symmetric\n2 2\n1\n5\n0\n", "1 1 1\n2 1 5\n1 2 5\n"),
    ("coordinate integer general\n2 2 0\n", ""),
]

REFUSED = [
    ("coordinate complex general\n1 1 1\n1 1 1 0\n", "line 1: values of the field complex are not taken"),
    ("coordinate real hermitian\n1 1 1\n1 1 1\n", "line 1: coordinate hermitian matrices are not taken"),
    ("coordinate real general\n1 1 1\n1 1 1.5\n", "line 3: 1.5 is no whole number"),
    ("coordinate real general\n1 1 1\n1 1 nan\n", "line 3: nan is no whole number"),
    ("coordinate real general\n1 1 1\n1 1 x\n", "line 3: x is no number"),
    ("coordinate integer general\n1 1 1\n1 1 18446744073709551616\n", "line 3: 18446744073709551616 is not from -2^63 to 2^64-1"),
    ("coordinate integer general\n2 2 1\n3 1 1\n", "line 3: 3 is no coordinate from 1 to 2"),
    ("coordinate integer general\n2 2 2\n1 1 1\n", "1 of 2 entries"),
    ("coordinate integer general\n2 2 1\n1 1 1\n2 2 2\n", "line 4: not one of 1 entries of 3 words"),
    ("coordinate integer general\n2 2\n", "line 2: no sizes of a matrix"),
]


class Tns(unittest.TestCase):
    def setUp(self):
        self.folder = tempfile.TemporaryDirectory()
        self.addCleanup(self.folder.cleanup)

    def path(self, name):
        return os.path.join(self.folder.name, name)

    def call(self, *words):
        program = os.path.join(TOOLS, "tns")
        return subprocess.run([sys.executable, program, *words], cwd=self.folder.name, capture_output=True, text=True)

    def write(self, name, text):
        with open(self.path(name), "w", encoding="ascii") as file:
            file.write(text)

    def read(self, name):
        with open(self.path(name), encoding="ascii") as file:
            return file.read()

    def test_markets(self):
        for text, entries in MARKETS:
            self.write("a.mtx", "%%MatrixMarket matrix " + text)
            done = self.call("from", "a.mtx", "--name", "B", "--formats", "dc")
            self.assertEqual(done.stderr, "", text)
            self.assertEqual(self.read("a.tns"), entries)

    def test_line_of_a_program(self):
        self.write("a.mtx", "%%MatrixMarket matrix coordinate integer general\n2 3 0\n")
        done = self.call("from", "a.mtx", "--name", "C", "--formats", "dc", "--order", "2,1", "--out", "c.tns")
        self.assertEqual(done.stdout, "tensor C 2x3 dc 2,1 c.tns\n")

    def test_refused(self):
        for text, said in REFUSED:
            self.write("a.mtx", "%%MatrixMarket matrix " + text)
            done = self.call("from", "a.mtx")
            self.assertEqual(done.returncode, 1, text)
            self.assertIn(said, done.stderr)
            self.assertEqual(os.listdir(self.folder.name), ["a.mtx"])

    def test_wrong_words(self):
        self.write("a.mtx", "%%MatrixMarket matrix coordinate integer general\n2 3 0\n")
        for words in (["--formats", "d"], ["--formats", "dx"], ["--order", "1,1"], ["--order", "1"]):
            self.assertIn("of the 2 levels", self.call("from", "a.mtx", *words).stderr)
        self.assertIn("not a file", self.call("from", "a.txt").stderr)
        self.assertIn("No such file", self.call("from", "b.mtx").stderr)

    def test_frostt(self):
        with gzip.open(self.path("t.tns.gz"), "wt", encoding="ascii") as file:
            file.write("# a note\n1 9 2 3.0\n4 1 1 2\n")
        done = self.call("from", "t.tns.gz", "--name", "T")
        self.assertEqual(done.stdout, "tensor T 4x9x2 ccc 1,2,3 t.tns\n")
        self.assertEqual(self.read("t.tns"), "1 9 2 3\n4 1 1 2\n")

    def test_frostt_refused(self):
        for line, said in (("1 2", "2 words, where the first entry has 3"), ("0 1 2", "0 is no coordinate"), ("1 1 0.5", "0.5 is no whole number")):
            with gzip.open(self.path("t.tns.gz"), "wt", encoding="ascii") as file:
                file.write(f"1 1 1\n{line}\n")
            self.assertIn(f"line 2: {said}", self.call("from", "t.tns.gz").stderr)
            self.assertEqual(os.listdir(self.folder.name), ["t.tns.gz"])

    def test_to_market_and_back(self):
        self.write("x.tns", "1 2 -3\n2 1 4\n")
        self.assertEqual(self.call("to", "x.tns", "x.mtx", "--dims", "2x5").stderr, "")
        self.assertEqual(self.read("x.mtx"), "%%MatrixMarket matrix coordinate integer general\n2 5 2\n1 2 -3\n2 1 4\n")
        self.call("from", "x.mtx", "--out", "y.tns")
        self.assertEqual(self.read("y.tns"), self.read("x.tns"))
        self.assertIn("outside of 2x1", self.call("to", "x.tns", "z.mtx", "--dims", "2x1").stderr)

    @unittest.skipIf(scipy is None, "there is no SciPy")
    def test_to_scipy_and_back(self):
        self.write("x.tns", "1 2 -3\n2 1 4\n")
        self.assertEqual(self.call("to", "x.tns", "x.npz").stderr, "")
        self.assertEqual(scipy.sparse.load_npz(self.path("x.npz")).toarray().tolist(), [[0, -3], [4, 0]])
        self.call("from", "x.npz", "--out", "y.tns")
        self.assertEqual(self.read("y.tns"), self.read("x.tns"))


if __name__ == "__main__":
    unittest.main()
