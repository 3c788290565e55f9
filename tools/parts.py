"""Reads a long report in parts, one for each processor, and puts together what they tell."""

from __future__ import annotations

import os
import re
from dataclasses import dataclass
from multiprocessing import get_context
from typing import BinaryIO

import report
from endings import BadInput, reading
from reader import Reader, read_story
from script import Script
from story import Story
from uncollected import uncollected

# A shorter part takes as long to hand over as to read, in octets.
LEAST_PART = 4 << 20
# A group that tells its moment, so that a part that begins with it needs nothing of the one before.
BEGINS = re.compile(rb"\n(?=[0-9]+ (?:heard|answered) )")
FIRST_SENT = re.compile(rb"\n[0-9]+ send ([0-9]+) ")


class Slice:
    """A stretch of a file."""

    def __init__(self, stream: BinaryIO, start: int, end: int) -> None:
        stream.seek(start)
        self.stream, self.left = stream, end - start

    def read(self, size: int) -> bytes:
        octets = self.stream.read(min(size, self.left))
        self.left -= len(octets)
        return octets


class PartReader(Reader):
    """Reads a part by itself. Groups with lines of which there are few are kept: they hang on those before them."""

    def __init__(self, script: Script | None) -> None:
        super().__init__(script)
        self.kept: list[tuple[bytes, float]] = []

    def take_others(self, block: report.Block) -> None:
        for number, place in {it[1]: it.start() for it in block.others}.items():
            start, end = block.group(number, place)
            self.kept.append((block.text[start:end], self.moment(block, number, place)))

    def keep_receivers(self, block: report.Block) -> None:
        """(a part does not tell whose the datagrams of those before it are, by which they are numbered)"""

    def node(self, block: report.Block, script: Script, number: bytes, word: bytes) -> bytes:
        """(whose a datagram was that was sent in an earlier part is not known here)"""
        is_delivered = script.line(int(number)).startswith(b"deliver ")
        return b"" if is_delivered else super().node(block, script, number, word)


@dataclass(slots=True)
class Part:
    """What a part tells: its own story, the groups that were kept with their moments, and where its numbers end.

    `number` is that of its first group, and `before` that of the last datagram before it.
    """

    story: Story
    kept: list[tuple[bytes, float]]
    number: int
    before: int
    progress: report.Reading


def read_part(name: str, start: int, end: int, script: Script | None) -> Part | None:
    """Reads a part, or gives nothing where something in it is refused."""
    with open(name, "rb") as stream:
        stream.seek(start)
        front = b"\n" + stream.read(min(end - start, 1 << 20))
        first, number = FIRST_SENT.search(front), report.NUMBER.match(front)
        before = int(first[1]) - 1 if first else 0
        progress = report.Reading(count=before)
        reader = PartReader(script)
        try:
            reader.read_blocks(Slice(stream, start, end), progress)
        except BadInput:
            return None
    return Part(reader.story, reader.kept, int(number[1]) if number else 0, before, progress)


def cuts(stream: BinaryIO, size: int, count: int) -> list[int]:
    """Where so many parts of a file begin and end, each but the first at a group that tells its moment."""
    places = [0]
    for part in range(1, count):
        stream.seek(size * part // count)
        found = BEGINS.search(stream.read(1 << 20))
        if found and size * part // count + found.end() > places[-1]:
            places.append(size * part // count + found.end())
    return [*places, size]


# What the processes that read parts are handed as they begin.
given: tuple[str, Script | None] = ("", None)


def read_given(stretch: tuple[int, int]) -> Part | None:
    return read_part(given[0], *stretch, given[1])


def read_in_parts(name: str, script: Script | None) -> Story | None:
    """The story of a long report, or nothing where it is short, or where something in it is to be refused."""
    global given
    size = os.path.getsize(name)
    count = min(len(os.sched_getaffinity(0)), size // LEAST_PART)
    if count < 2:
        return None
    with open(name, "rb") as stream:
        places = cuts(stream, size, count)
    given = (name, script)
    try:
        with get_context("fork").Pool(len(places) - 1) as pool:
            parts = pool.map(read_given, list(zip(places, places[1:])))
    except OSError:
        # (no further processes are to be had)
        return None
    try:
        return joined([it for it in parts if it], script) if None not in parts else None
    except BadInput:
        return None


def joined(parts: list[Part], script: Script | None) -> Story | None:
    """The story of all parts, or nothing where one does not go on where the one before it ended."""
    reader = Reader(script)
    for part, following in zip(parts, [*parts[1:], None]):
        if following is None:
            reader.see_end(part.progress)
        elif part.progress.ended or part.progress.count != following.before or part.progress.last > following.number:
            return None
        for text, moment in part.kept:
            # (a line that is refused here is looked for from the front)
            block = report.Block(1, text + b"\n")
            block.cut()
            block.see()
            reader.before = moment
            reader.take_others(block)
        add(reader.story, part.story)
    return reader.story


def add(story: Story, part: Story) -> None:
    for name, of_part in part.grandmasters.items():
        master = story.grandmaster(name)
        master.stamps += of_part.stamps
        for kind, counts in of_part.sent_to.items():
            for receiver, count in counts.items():
                master.sent_to[kind][receiver] += count
        for moment, clock_class in of_part.classes:
            if not master.classes or master.classes[-1][1] != clock_class:
                master.classes.append((moment, clock_class))
    for ip, told in part.slaves.items():
        slave = story.slave(ip)
        for kind, count in told.heard.items():
            slave.heard[kind] += count
        for moment, name in told.selections:
            if not slave.selections or slave.selections[-1][1] != name:
                slave.selections.append((moment, name))
    for at in (part.start, part.end):
        if at is not None:
            story.see(at)


def story_of(name: str, script_name: str | None, capacities: dict[str, int]) -> Story:
    """Reads the report of this name, or standard input for `-`, beside its script, where there is one."""
    script = None
    if script_name is not None:
        with reading(script_name, "name the script of the report") as stream:
            script = Script(stream.read())
    with uncollected(), reading(name, "name a report of ptpuni replay, or - for standard input") as stream:
        story = read_in_parts(name, script) if name != "-" else None
        if story is None:
            return read_story(stream, script, capacities)
    story.settle(script, capacities)
    return story
