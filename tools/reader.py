"""Reads reports, beside their scripts, into what they tell (tools/story.py): each line once, and by columns."""

from __future__ import annotations

import re
from collections.abc import Callable
from dataclasses import dataclass
from itertools import compress
from typing import BinaryIO

import pools
import ptp
import report
import script as scripts
from ptp import SECOND
from report import Refused
from script import Script
from story import Grandmaster, Slave, Story, moment_of, read_datagram

DECISIONS = {b"granted", b"short", b"outside", b"cancelled", b"nothing"}
# The first moment that a text tells: one that a line names, or the timestamp of a message that was sent.
TOLD = re.compile(rb" at ([0-9]+)|\n[0-9]+ send [0-9]+ [0-9.]+ [0-9.]+ [a-z]+ 0[09b][0-9a-f]{66}([0-9a-f]{20})")
# So many lines of a report are all compared with its script, and behind them some of each block.
ALL_LINES, SOME_LINES = 10000, 400
# Which word of a line that is compared is the node on whose event it stands.
NODE = {b"send": 3, b"selected": 2}


@dataclass(frozen=True, slots=True)
class Front:
    """What datagrams of one front are: messages of a kind, or of none, from a grandmaster to an address."""

    kind: str
    sender: str
    receiver: bytes


class Reader:
    """Reads a report into a story, block by block and by columns. Lines with one number are a group."""

    def __init__(self, script: Script | None = None) -> None:
        self.story = Story()
        self.script = script
        # The kind of a datagram, or an empty text, by its first octets and its length; what is known of each front.
        self.kinds: dict[tuple[bytes, int], str] = {}
        self.known: dict[tuple[bytes, int], Front] = {}
        # What each slave selects, as a report says it, and the moment that was told last.
        self.chosen: dict[bytes, bytes] = {}
        self.before = 0.0
        self.changed: tuple[bytes, Grandmaster] | None = None
        # To whom each datagram was sent, and each address of these once.
        self.receivers: list[bytes] = []
        self.addresses: dict[bytes, bytes] = {}

    def read(self, stream: report.Readable) -> Story:
        reading = report.Reading()
        self.read_blocks(stream, reading)
        self.see_end(reading)
        return self.story

    def read_blocks(self, stream: report.Readable, reading: report.Reading) -> None:
        for text in report.texts(stream):
            block = reading.block(text)
            if block.count:
                self.take(block)

    def see_end(self, reading: report.Reading) -> None:
        if not reading.ended:
            raise Refused(f"line {reading.lines + 1}: the text ends without `end LINES DATAGRAMS`")
        found = report.END.fullmatch(reading.ended)
        if found and self.script and len(self.script.lines) != int(found[1]):
            lines = len(self.script.lines)
            raise Refused(f"line {reading.lines}: it ends {int(found[1])} lines, and the script has {lines}")

    def take(self, block: report.Block) -> None:
        if self.script:
            self.compare(block, self.script)
        self.take_sent(block)
        self.take_others(block)
        self.take_heard(block)
        self.take_selected(block)
        self.see_moments(block)
        self.before = self.moment_before(block, len(block.text) - 1)

    # -- moments -----------------------------------------------------------------------------------------------------

    def see_moments(self, block: report.Block) -> None:
        """Takes the least and the greatest moments of a block, so far as they are told, and that of its last group."""
        moments = [self.moment(block, *it) for it in block.ends()]
        lengths = set(map(len, block.moments))
        for length in lengths:
            # (digits of one width are in the order of their numbers)
            told = [it for it in block.moments if len(it) == length] if len(lengths) > 1 else block.moments
            moments += [moment_of(min(told)), moment_of(max(told))]
        for number, place in {it[1]: it.start() for it in block.others}.items():
            moments.append(self.moment(block, number, place))
        for it in moments:
            self.story.see(it)

    def moment(self, block: report.Block, number: bytes, place: int) -> float:
        """A group's moment, of which a line begins at the place: told by its lines, else by the script, else no sooner
        than the last one told before it."""
        start, end = block.group(number, place)
        if told := TOLD.search(block.text, start, end):
            return moment_of(told[1] or told[2])
        event = self.script.moment(int(number)) if self.script else None
        return event if event is not None else self.moment_before(block, start)

    def moment_before(self, block: report.Block, end: int) -> float:
        """The last moment that is told before a place of the block, or before the block."""
        while end > 0:
            start = max(block.text.rfind(b"\n", 0, end), 0)
            if told := TOLD.search(block.text, start, end):
                return moment_of(told[1] or told[2])
            end = start
        return self.before

    # -- the script --------------------------------------------------------------------------------------------------

    def compare(self, block: report.Block, script: Script) -> None:
        """Sees that groups can be what their lines of the script come to."""
        self.keep_receivers(block)
        lines = block.lines(None if block.first < ALL_LINES else SOME_LINES)
        rows = [it.split(b" ", 4) for it in lines]
        firsts = {it[0]: it[1] for it in reversed(rows)}
        nodes = {number: self.node(block, script, number, word) for number, word in reversed(firsts.items())}
        for row in rows:
            if row[1] in NODE and nodes[row[0]] not in (b"", row[NODE[row[1]]]):
                raise self.misfit(block, row[0])

    def keep_receivers(self, block: report.Block) -> None:
        # (what is kept of many rows is shared: what lies between what is freed is slow to come by)
        addresses = [(front, front.split(b" ", 2)[1]) for front, _ in block.kinds]
        receivers = {front: self.addresses.setdefault(it, it) for front, it in addresses}
        self.receivers += map(receivers.__getitem__, block.fronts)

    def node(self, block: report.Block, script: Script, number: bytes, word: bytes) -> bytes:
        """The node of a script's line, where it is an event, of which the word has to be what can come of it."""
        line = script.line(int(number)).split(b" ", 3)
        if not scripts.fits(word, line[0]):
            raise self.misfit(block, number)
        if line[0] not in scripts.EVENTS or len(line) < 3:
            return b""
        if line[0] != b"deliver":
            return line[2]
        place = int(line[2]) if line[2].isdigit() else 0
        if not 0 < place <= len(self.receivers):
            raise self.misfit(block, number)
        return self.receivers[place - 1]

    def misfit(self, block: report.Block, number: bytes) -> Refused:
        text = report.short(self.script.line(int(number))) if self.script else ""
        at = block.at(block.group(number)[0])
        return Refused(f"line {at}: it does not fit line {int(number)} of the script: `{text}`")

    # -- lines that there are many of --------------------------------------------------------------------------------

    def take_sent(self, block: report.Block) -> None:
        fronts = {key: self.known.get(key) or self.look_at(block, *key) for key in block.kinds}
        takes = {key[0]: self.take_front(front, block.kinds[key]) for key, front in fronts.items()}
        for front, rest in zip(block.fronts, block.rests):
            takes[front](rest[60:80])
        self.take_announces(block, {key[0] for key, front in fronts.items() if front.kind == "announce"})

    def take_front(self, front: Front, count: int) -> Callable[[bytes], None]:
        """Counts datagrams of a front, and gives what takes their timestamps: those that are of no kind have none."""
        if not front.kind:
            return bytearray().extend
        master = self.story.grandmaster(front.sender)
        master.sent_to[front.kind][front.receiver] += count
        return master.stamps.extend

    def look_at(self, block: report.Block, front: bytes, length: int) -> Front:
        """Reads the first datagram of a front with so many digits behind it, unless one like it was read before."""
        sender, receiver, _, head = front.split(b" ")
        kind = self.kinds.get((head, length))
        if kind is None:
            at = [*zip(block.fronts, map(len, block.rests))].index((front, length))
            message = read_datagram(block.line_of(block.datagrams[at]), head + block.rests[at])
            kind = self.kinds[head, length] = message.kind or ""
        self.known[front, length] = made = Front(kind, sender.decode(), receiver)
        return made

    def take_announces(self, block: report.Block, fronts: set[bytes]) -> None:
        """Takes the clockClasses of the datagrams that have these fronts."""
        for front, rest in compress(zip(block.fronts, block.rests), map(fronts.__contains__, block.fronts)):
            master = self.story.grandmaster(front.split(b" ", 1)[0].decode())
            master.announce(rest[60:80], int(rest[88:90], 16))

    def take_heard(self, block: report.Block) -> None:
        for (head, chosen), count in block.told.items():
            if head:
                self.slave(chosen.split(b" ")[0]).heard[head.split(b" ")[0].decode()] += count

    def take_selected(self, block: report.Block) -> None:
        if {chosen for _, chosen in block.told} <= set(self.chosen.values()):
            return
        for found in report.SELECTED.finditer(block.text):
            ip, name = found[2].split(b" ")
            if self.chosen.get(ip) != found[2]:
                self.chosen[ip] = found[2]
                self.slave(ip).selections.append((self.moment(block, found[1], found.start()), name.decode()))

    def slave(self, ip: bytes) -> Slave:
        return self.story.slave(ip.decode())

    # -- lines that there are few of ---------------------------------------------------------------------------------

    def take_others(self, block: report.Block) -> None:
        decided: dict[bytes, list[re.Match[bytes]]] = {}
        for it in block.others:
            word = it[2].split(b" ", 1)[0]
            if word in DECISIONS:
                decided.setdefault(it[1], []).append(it)
        for it in block.others:
            words = it[2].split(b" ")
            if its := decided.pop(it[1], None):
                self.decide(block, its)
            elif words[0] == b"capacity":
                self.change(block, it, words)
            elif words[0] == b"shed":
                self.shed(block, it, words)
            elif words[0] == b"denial":
                start, end = block.group(it[1], it.start())
                if found := report.SELECTED.search(block.text, start, end + 1):
                    self.slave(found[2].split(b" ")[0]).denials += 1
            elif words[0] == b"bad":
                self.story.refused = f"line {int(it[1])} of the script was refused: {b' '.join(words[1:]).decode()}"

    def decide(self, block: report.Block, decisions: list[re.Match[bytes]]) -> None:
        """The reply to what was decided, which its group has, names the grandmaster and its client."""
        number, place = decisions[0][1], decisions[0].start()
        start, end = block.group(number, place)
        reply = report.SENT.search(block.text, start, end + 1)
        message = read_datagram(block.line_of(int(reply[2])), reply[4]) if reply else None
        if reply is None or message is None or message.target is None:
            at = block.at(place)
            raise Refused(f"line {at}: a decision without the reply that names its grandmaster")
        sender, receiver = (it.decode() for it in reply[3].split(b" ")[:2])
        master, client = self.story.grandmaster(sender), (receiver, str(message.target))
        now = self.moment(block, number, place)
        event = self.script.moment(int(number)) if self.script else None
        if event is not None and now < event:
            raise self.misfit(block, number)
        for it in decisions:
            words = it[2].split(b" ")
            if words[0] == b"short" and self.script and self.capacity(master) != int(words[10]):
                raise self.misfit(block, number)
            master.decide(client, words, now)

    def capacity(self, master: Grandmaster) -> int | None:
        """The capacity in force by the script, and by the changes of the report."""
        if master.capacities:
            return master.capacities[-1][1]
        return self.script.capacities.get(master.name) if self.script else None

    def change(self, block: report.Block, line: re.Match[bytes], words: list[bytes]) -> None:
        number = line[1]
        moment = self.moment(block, number, line.start())
        if self.script:
            event = self.script.moment(int(number))
            if self.script.line(int(number)).split()[2:] != words[1:3] or event is None or moment < event:
                raise self.misfit(block, number)
        master = self.story.grandmaster(words[1].decode())
        master.capacities.append((moment, int(words[2])))
        self.changed = (number, master)

    def shed(self, block: report.Block, line: re.Match[bytes], words: list[bytes]) -> None:
        if self.changed is None or self.changed[0] != line[1]:
            raise Refused(f"line {block.at(line.start())}: a grant is shed without a change of capacity above it")
        client = (words[3].decode(), words[4].decode())
        self.changed[1].shed(client, words[1].decode(), self.changed[1].capacities[-1][0])


def read_story(stream: BinaryIO, script: Script | None = None, capacities: dict[str, int] | None = None) -> Story:
    """Reads a report, or an output of pools; a script has to be that of the report."""
    head = stream.readline()
    words = head.split()
    is_of_pools = words[1:2] in ([b"pool"], [b"stranger"]) or len(words) == 2 and words[0] == b"end"
    story = pools.PoolReader(script).read(head, stream) if is_of_pools else Reader(script).read(Behind(head, stream))
    story.settle(script, capacities or {})
    return story


class Behind:
    """A stream of which the front was read already."""

    def __init__(self, front: bytes, stream: BinaryIO) -> None:
        self.front, self.stream = front, stream

    def read(self, size: int) -> bytes:
        front, self.front = self.front, b""
        return front or self.stream.read(size)
