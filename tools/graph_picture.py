"""A graph's text for graphviz: a box for each block, an arrow for each channel."""

import re
import subprocess

# A label is folded between its tree's words and its attribute's.
ATTRIBUTE = re.compile(r" (?=coordinate|rank|factor|partial|whole|value|present|literal)")

STREAM_COLOR = "#f4f4f0"
TENSOR_COLOR = "#dde8f6"
JOIN_COLOR = "#f6e7d5"
ARITHMETIC_COLOR = "#e4f0dc"
RESULT_COLOR = "#eee2f2"
WAITING_COLOR = "#f7c6c0"
FULL_COLOR = "#c0392b"

COLORS = {
    "scan": TENSOR_COLOR,
    "array": TENSOR_COLOR,
    "intersect": JOIN_COLOR,
    "union": JOIN_COLOR,
    "fill": JOIN_COLOR,
    "mul": ARITHMETIC_COLOR,
    "add": ARITHMETIC_COLOR,
    "sub": ARITHMETIC_COLOR,
    "const": ARITHMETIC_COLOR,
    "sumscalar": ARITHMETIC_COLOR,
    "sumvector": ARITHMETIC_COLOR,
    "summatrix": ARITHMETIC_COLOR,
    "writelevel": RESULT_COLOR,
    "writevalue": RESULT_COLOR,
}

HEAD = """digraph {
    rankdir=LR; nodesep=0.2; ranksep=0.35;
    node [shape=box, style="rounded,filled", fontname="Helvetica", fontsize=11, margin="0.1,0.04", height=0.3];
    edge [fontname="Helvetica", fontsize=8, fontcolor="#333333", color="#777777", arrowsize=0.6];
"""

# An arrow's text has at most so many tokens, half from either end.
TOKENS_MOST = 24
WIDTH_MOST = 9


class NoGraphviz(Exception):
    """There is no `dot` on the path, or it failed."""


def quoted(text):
    """Text as graphviz reads it, with its line breaks."""
    escaped = text.replace("\\", "\\\\").replace('"', '\\"')
    return '"' + escaped.replace("\n", "\\n") + '"'


def block_text(number, block):
    """A block's number and kind, the tensor that it reads or writes, and the level or the constant."""
    text = " ".join(word for word in (str(number), block["kind"], block["name"]) if word)
    if block["kind"] in ("scan", "writelevel"):
        text += "\nlevel " + str(block["arg"][0])
    if block["kind"] == "const":
        text += "\n" + str(block["arg"][0])
    return text


def shortened(tokens):
    """A stream on one line, its middle left out where it is long."""
    if len(tokens) <= TOKENS_MOST:
        return " ".join(tokens)
    half = TOKENS_MOST // 2
    return " ".join(tokens[:half] + [f".. {len(tokens) - TOKENS_MOST} more .."] + tokens[-half:])


class Picture:
    """What is drawn of a graph beside its blocks and channels."""

    def __init__(self, labels=True, streams=None, counted=False, waiting=None, named=False):
        self.labels = labels
        self.streams = streams
        self.counted = counted
        self.waiting = waiting or {}
        self.named = named

    def channel_text(self, number, channel):
        """A channel's number, its label, folded, and its tokens or how many they are."""
        lines = [str(number)]
        if self.labels:
            lines += ATTRIBUTE.split(channel["label"], maxsplit=1)
        if self.counted:
            lines.append(f"{len(self.streams[number])} tokens")
        elif self.streams:
            lines.append(shortened(self.streams[number]))
        return "\n".join(lines)

    def block_line(self, number, block):
        color = WAITING_COLOR if number in self.waiting else COLORS.get(block["kind"], STREAM_COLOR)
        said = {"label": block_text(number, block), "fillcolor": color}
        if number in self.waiting:
            room, channel = self.waiting[number]
            said["label"] += f"\nwaits: {channel} is {room}"
        if self.named:
            said["id"] = f"block{number}"
        return f"    b{number} [{attributes(said)}];\n"

    def channel_line(self, number, channel):
        said = {"label": self.channel_text(number, channel)}
        if self.counted:
            most = max(len(tokens) for tokens in self.streams)
            said["penwidth"] = f"{1 + (WIDTH_MOST - 1) * len(self.streams[number]) / most:.1f}"
        if ("full", number) in self.waiting.values():
            said["color"] = FULL_COLOR
        if self.named:
            said["id"] = f"channel{number}"
        return f"    b{channel['from'][0]} -> b{channel['to'][0]} [{attributes(said)}];\n"

    def text(self, graph):
        """The lines of graphviz's text, blocks first, in the order of their numbers."""
        lines = [self.block_line(number, block) for number, block in enumerate(graph["blocks"])]
        lines += [self.channel_line(number, channel) for number, channel in enumerate(graph["channels"])]
        return HEAD + "".join(lines) + "}\n"


def attributes(said):
    return ", ".join(f"{name}={quoted(text)}" for name, text in said.items())


def svg_of(text):
    """The picture that graphviz draws of its text."""
    try:
        return subprocess.run(["dot", "-Tsvg"], input=text, capture_output=True, text=True, check=True).stdout
    except (OSError, subprocess.CalledProcessError) as fault:
        raise NoGraphviz(f"graphviz's `dot` is needed for a picture: {fault}") from fault
