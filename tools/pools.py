"""Reads outputs of `ptpuni pools` into what they tell (tools/story.py)."""

from __future__ import annotations

import re
from collections.abc import Iterable
from itertools import chain

import ptp
import report
from ptp import SECOND
from report import Refused
from script import Script
from story import Client, Grandmaster, Story, Term, moment_of, read_datagram


class PoolReader:
    """Reads what `ptpuni pools` writes: datagrams by pool, in which the decisions are those of their TLVs."""

    FORM = re.compile(rb"[0-9]+ (?:stranger|pool [0-9]+ send (?:event|general) %s (?:[0-9a-f]{2})+|bad .+)" % report.IP)

    def __init__(self, script: Script | None = None) -> None:
        self.story = Story()
        self.script = script
        self.number = b""
        self.now = 0.0

    def read(self, first: bytes, rest: Iterable[bytes]) -> Story:
        """Reads the first line, and those behind it."""
        at = 0
        for at, line in enumerate(chain([first], rest), 1):
            line = line.rstrip(b"\n")
            words = line.split(b" ")
            if words[0] == b"end" and len(words) == 2:
                return self.story
            if not self.FORM.fullmatch(line):
                raise Refused(f"line {at}: no form of an output of pools: `{report.short(line)}`")
            if words[1] == b"bad":
                self.story.refused = f"line {int(words[0])} of the script was refused: {b' '.join(words[2:]).decode()}"
                return self.story
            if words[0] != self.number:
                self.number = words[0]
                self.see_event(at, words)
            if words[1] == b"pool":
                self.take(at, "pool " + words[2].decode(), words[5], words[6])
        raise Refused(f"line {at + 1}: the text ends without `end LINES`")

    def see_event(self, at: int, words: list[bytes]) -> None:
        """Sees that the script's line can be that of these lines, and takes its moment."""
        if not self.script:
            return
        line = self.script.line(int(words[0]))
        event = line.split()
        is_event = len(event) == 4 and event[0] in (b"rx", b"turn") and event[1].isdigit()
        if not is_event or (event[0] == b"turn" and words[1:3] != [b"pool", event[2]]):
            text = f"it does not fit line {int(words[0])} of the script: `{report.short(line)}`"
            raise Refused(f"line {at}: {text}")
        self.now = int(event[1]) / SECOND
        self.story.see(self.now)

    def take(self, at: int, name: str, ip: bytes, digits: bytes) -> None:
        pool = self.story.grandmaster(name)
        message = read_datagram(at, digits)
        if message.kind:
            pool.stamps += digits[68:88]
            pool.sent_to[message.kind][ip] += 1
            if not self.script:
                self.now = max(self.now, moment_of(digits[68:88]))
                self.story.see(self.now)
        for tlv in message.tlvs:
            self.decide(pool, (ip.decode(), str(message.target)), tlv)

    def decide(self, pool: Grandmaster, client: Client, tlv: ptp.Tlv) -> None:
        kind, now = ptp.KINDS.get(tlv.code), self.now
        if isinstance(tlv, ptp.Acknowledge) and kind:
            pool.end(client, kind, now)
            pool.mark("cancelled", now)
        elif isinstance(tlv, ptp.Grant) and kind and tlv.seconds:
            pool.grant(client, kind, Term(now, now + tlv.seconds, ptp.rate_of(tlv.log), client[0], kind))
        elif isinstance(tlv, ptp.Grant) and kind and ptp.LEAST_LOG[kind] <= tlv.log <= ptp.GREATEST_LOG:
            pool.deny(client, kind, now, ptp.rate_of(tlv.log))
        elif isinstance(tlv, ptp.Grant):
            pool.mark("outside", now)
