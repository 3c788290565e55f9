"""A script of `ptpuni replay` or `ptpuni pools`, read beside the report of it (docs/FORMATS.md)."""

from __future__ import annotations

import re
from dataclasses import dataclass

from ptp import SECOND

# What tools/scenario writes of an outage.
OUTAGE = re.compile(rb"# From ([0-9.]+) until ([0-9.]+) s all from and to (.+) is lost\.")
RX = {b"rx", b"deliver"}
# The lines of a script that set something up, or say it in a comment.
SET_UP = re.compile(rb"\n((?:gm|pool|stop|# From) [^\n]*)")
EVENTS = {*RX, b"turn", b"tick", b"flag", b"judge", b"stop", b"capacity"}
# On which events each line of a report may stand first.
FITS = {
    b"send": EVENTS,
    b"selected": EVENTS,
    b"capacity": {b"capacity"},
    b"nobody": {b"deliver"},
}


@dataclass(frozen=True, slots=True)
class Outage:
    """A time in which all from and to these nodes was lost, in seconds."""

    start: float
    end: float
    who: str


class Script:
    """The lines of a script, and what they set up."""

    def __init__(self, text: bytes) -> None:
        self.lines = text.removesuffix(b"\n").split(b"\n") if text else []
        self.capacities: dict[str, int] = {}
        self.networks: dict[str, str] = {}
        self.outages: list[Outage] = []
        self.stops: dict[str, float] = {}
        for found in SET_UP.finditer(b"\n" + text):
            self.note(found[1])

    def note(self, line: bytes) -> None:
        words = line.split()
        if len(words) == 8 and words[0] == b"gm" and words[6].isdigit():
            self.capacities[words[1].decode()] = int(words[6])
        elif len(words) == 4 and words[0] == b"pool" and words[3].isdigit():
            name = f"pool {len(self.networks) + 1}"
            self.networks[name] = f"{words[1].decode()}/{words[2].decode()}"
            self.capacities[name] = int(words[3])
        elif len(words) == 3 and words[0] == b"stop" and words[1].isdigit():
            self.stops[words[2].decode()] = int(words[1]) / SECOND
        elif found := OUTAGE.match(line):
            self.outages.append(Outage(float(found[1]), float(found[2]), found[3].decode()))

    def line(self, number: int) -> bytes:
        """The line with this number, or nothing where there is no such line."""
        return self.lines[number - 1] if number <= len(self.lines) else b""

    def moment(self, number: int) -> float | None:
        """The moment of a line in seconds, where it is that of an event."""
        words = self.line(number).split(b" ", 2)
        return int(words[1]) / SECOND if len(words) == 3 and words[0] in EVENTS and words[1].isdigit() else None


def fits(word: bytes, event: bytes) -> bool:
    """Whether a line of a report with this word may stand first on a line of a script with this one."""
    return event in FITS.get(word, RX) or word == b"bad"
