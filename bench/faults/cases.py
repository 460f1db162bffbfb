"""The programs that the sweeps run, with their files, and how a run is made and judged."""
import os
import subprocess
import sys
import tempfile

VECTORS = {"b.tns": "1 2\n3 5\n", "c.tns": "3 7\n4 1\n"}
MATRICES = {"B.tns": "1 1 2\n1 2 3\n2 2 4\n", "C.tns": "1 1 5\n2 1 6\n2 2 7\n"}


def program(*lines):
    return "".join(line + "\n" for line in lines)


def contraction(orders, loops):
    return {"p.sam": program(f"tensor B 2x2 cc {orders[0]} B.tns", f"tensor C 2x2 cc {orders[1]} C.tns", "result X 2x2 cc 1,2",
                             "compute X(i,j) = B(i,k) * C(k,j)", f"loops {loops}"), **MATRICES}


# each case: its files, among them p.sam and a schedule s.txt
CASES = {
    "product": {"p.sam": program("tensor b 4 c 1 b.tns", "tensor c 4 c 1 c.tns", "result x 4 c 1", "compute x(i) = b(i) * c(i)", "loops i"),
                **VECTORS},
    "sum of two matrices": {"p.sam": program("tensor B 3x2 dc 1,2 B.tns", "tensor C 3x2 dc 1,2 C.tns", "result X 3x2 cc 1,2",
                                             "compute X(i,j) = B(i,j) + C(i,j)", "loops i j"), "B.tns": "3 1 4\n", "C.tns": "1 2 7\n"},
    "scalar reducer": contraction(("1,2", "2,1"), "i j k"),
    "vector reducer": contraction(("1,2", "1,2"), "i k j"),
    "matrix reducer": contraction(("2,1", "1,2"), "k i j"),
}
for files in CASES.values():
    files["s.txt"] = "".join(f"{block}\n" for block in (0, 0, 10, 10, 1, 2, 3, 3, 4, 5, 6))

COMMANDS = {
    "check": ["check", "p.sam"],
    "lower": ["lower", "p.sam"],
    "streams": ["streams", "p.sam"],
    "moment": ["moment", "p.sam", "--schedule", "s.txt"],
    "step": ["step", "p.sam", "--schedule", "s.txt"],
    "run": ["run", "p.sam"],
}


def folder_of(files):
    """A folder that holds these files; the caller removes it."""
    folder = tempfile.TemporaryDirectory()
    for name, text in files.items():
        with open(os.path.join(folder.name, name), "w") as file:
            file.write(text)
    return folder


def run(program, words, folder, env=None, seconds=60, **rest):
    """Status, output and errors of the program in a folder."""
    rest.setdefault("stdout", subprocess.PIPE)
    ended = subprocess.run([program, *words], cwd=folder, env=env or {}, stderr=subprocess.PIPE, timeout=seconds, **rest)
    return ended.returncode, ended.stdout, ended.stderr


class Findings:
    """Counts answers, and keeps what no answer explains."""

    def __init__(self):
        self.answers = {}
        self.unexplained = []

    def count(self, answer):
        self.answers[answer] = self.answers.get(answer, 0) + 1

    def add(self, what):
        self.unexplained.append(what)
        print("UNEXPLAINED:", what, flush=True)

    def told(self, name):
        counts = ", ".join(f"{n} times {answer}" for answer, n in sorted(self.answers.items()))
        print(f"{name}: {counts}; unexplained: {len(self.unexplained)}", flush=True)


def program_word():
    """The program that is named as the first word."""
    if len(sys.argv) < 2:
        sys.exit(f"usage: {sys.argv[0]} PROGRAM")
    return os.path.abspath(sys.argv[1])
