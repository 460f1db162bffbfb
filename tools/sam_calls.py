"""Calls of the program `sam`, and what its texts say: graphs, streams, moments and lists of waiting blocks."""

import json
import os
import re
import subprocess

TOP = os.path.join(os.path.dirname(os.path.abspath(__file__)), "..")
PROGRAM = os.environ.get("SAM") or os.path.join(TOP, "sam")

STALLED = 8
WAITING = re.compile(r"sam: stalled: block (\d+) (full|empty) channel (\d+)")


class Refused(Exception):
    """What `sam` says on standard error when it answers with another status than 0."""

    def __init__(self, status, text):
        super().__init__(text.strip())
        self.status = status


def call(command, program, *options):
    """The text that `sam COMMAND PROGRAM OPTIONS..` prints, called in the program's folder, where its files are found."""
    folder, name = os.path.split(os.path.abspath(program))
    done = subprocess.run([PROGRAM, command, *options, "--", name], cwd=folder, capture_output=True, text=True)
    if done.returncode != 0:
        raise Refused(done.returncode, done.stderr or f"sam: status {done.returncode}")
    return done.stdout


def graph_of(program, *options):
    """The graph that the program is lowered to, as the value of its JSON."""
    return json.loads(call("lower", program, *options))


def channels_of(text):
    """For each channel its tokens, as words: what `streams` and `moment` print."""
    return [line.split(":", 1)[1].split() for line in text.splitlines()]


def streams_of(program, *options):
    """For each channel all tokens that pass over it."""
    return channels_of(call("streams", program, *options))


def waiting_in(text):
    """For each block of a stall's list, whether its channel is full or empty, and which channel."""
    return {int(block): (room, int(channel)) for block, room, channel in WAITING.findall(text)}


def waiting_of(program, *options):
    """The blocks that wait when no block can move any more, as `waiting_in` tells them; none where the run ends."""
    try:
        call("step", program, *options)
    except Refused as answer:
        if answer.status != STALLED:
            raise
        return waiting_in(str(answer))
    return {}


def lines_of(program):
    """The words of each line of a program file that isn't skipped."""
    with open(program, encoding="utf-8", errors="replace") as file:
        rows = [line.split() for line in file]
    return [row for row in rows if row and not row[0].startswith("#")]
