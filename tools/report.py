"""Reports of `ptpuni replay`, read line by line, each line once (docs/FORMATS.md)."""

from __future__ import annotations

import re
from collections import Counter
from collections.abc import Iterator
from dataclasses import dataclass, field
from itertools import compress, islice
from typing import Protocol

from endings import BadInput

# The forms of a report's lines behind their number. A word of capitals is a field, whose form is below; where a form
# has one field name twice the second has a 2.
FORMS = """
granted KIND LOG at AT until UNTIL
short KIND LOG at AT others OTHERS rate RATE capacity CAPACITY
outside type CODE
outside log KIND LOG
outside duration KIND LOG SECONDS
cancelled KIND at AT
nothing KIND at AT
nothing CODE
answered at AT
silent nogrant at AT
silent soon at AT earliest EARLIEST
heard announce IP class CLASS at AT
heard sync IP seq SEQ at AT
heard follow_up IP at AT
heard delay_resp IP seq SEQ at AT
grant KIND SECONDS
denial KIND
cancel KIND
cancel CODE
ack KIND
ack CODE
ignored fault FAULT
ignored type TYPE
ignored other OTHER
ignored stranger
ignored domain DOMAIN
ignored target
capacity IP CAPACITY at AT
shed KIND LOG IP IDENTITY
nobody
send NUMBER FROM TO CHANNEL HEX
selected SLAVE MASTER
bad CAUSE
"""

NUMERAL = rb"(?:[1-9][0-9]{0,18}+|0)"
OCTET = rb"(?:25[0-5]|2[0-4][0-9]|1[0-9][0-9]|[1-9]?[0-9])"
IP = rb"%s(?:\.%s){3}" % (OCTET, OCTET)
FIELDS = {
    "KIND": rb"(?:announce|sync|delay_resp)",
    "LOG": rb"(?:0|-?[1-9][0-9]{0,2})",
    "IP": IP,
    "FROM": IP,
    "TO": IP,
    "SLAVE": IP,
    "MASTER": rb"(?:none|%s)" % IP,
    "IDENTITY": rb"[0-9a-f]{16}/%s" % NUMERAL,
    "CHANNEL": rb"(?:event|general)",
    "HEX": rb"(?:(?:[0-9a-f]{2})+|-)",
    "FAULT": rb"(?:short|version|sdo|length|body|toomany|tlv)(?: [a-z0-9]+)+",
    "CAUSE": rb"(?:size|long|text|word|count|field [0-9]+|order|node|full|number|stock)",
}
END = re.compile(rb"end (%s) (%s)" % (NUMERAL, NUMERAL))
# The last line of a report.
LAST = re.compile(rb"\n(end [^\n]*|[0-9]+ bad [^\n]*)")

# How much is read at once, and how much of that is cut at once, in octets.
BLOCK, ROWS = 1 << 19, 1 << 15


class Readable(Protocol):
    def read(self, size: int, /) -> bytes: ...


class Refused(BadInput):
    """Why a text is no report: the number of its line, and the cause."""


def forms_by_word() -> dict[bytes, re.Pattern[bytes]]:
    """For each word behind the number the pattern of all lines that have it."""
    by_word: dict[bytes, list[bytes]] = {}
    for text in FORMS.strip().split("\n"):
        words = [FIELDS.get(it, NUMERAL) if it.isupper() else it.encode() for it in text.split()]
        by_word.setdefault(words[0], []).append(b" ".join(words))
    return {word: re.compile(b"%s (?:%s)" % (NUMERAL, b"|".join(forms))) for word, forms in by_word.items()}


BY_WORD = forms_by_word()


def has_form(line: bytes) -> bool:
    """Whether a line, but the last one of a report, has one of the forms."""
    words = line.split(b" ", 2)
    pattern = BY_WORD.get(words[1]) if len(words) > 1 else None
    return bool(pattern and pattern.fullmatch(line))


class Known(dict[bytes, bool]):
    """Which words have a form: each is looked at once."""

    def __init__(self, pattern: bytes) -> None:
        self.pattern = re.compile(pattern)

    def __missing__(self, word: bytes) -> bool:
        self[word] = has = bool(self.pattern.fullmatch(word))
        return has


NUMBER = re.compile(rb"\n([0-9]+) ")
GROUP = re.compile(rb"\n([0-9]+) ([a-z]+)")
SELECTED = re.compile(rb"\n([0-9]+) selected ([0-9.]+ [0-9.none]+)(?=\n)")
SENT = re.compile(rb"\n([0-9]+) send ([0-9]+) ([0-9.]+ [0-9.]+ [a-z]+) ([0-9a-f]+)(?=\n)")
# The lines of which there are most: what a slave selects, and a datagram, each with what was heard or answered right
# before it. What is taken and not given back (++) is tried once. Of a datagram the first four octets are a group.
MANY = re.compile(
    rb"\n(NUMERAL) (?:(?:heard ([a-z_]++ [0-9.]++ [a-z]++) NUMERAL|answered) at (NUMERAL)\n\1 )?"
    rb"(?:selected ([0-9.]++ [0-9.none]++)"
    rb"|send (NUMERAL) ([0-9.]++ [0-9.]++ [a-z]++ [0-9a-f]{1,8}+)([0-9a-f]*+))(?=\n)".replace(b"NUMERAL", NUMERAL)
)
LINE = re.compile(rb"\n[^\n]*")
OTHER = re.compile(rb"\n([0-9]+) (?!selected |send |heard |answered )([^\n]*)")
# Parts of these, of which there are few, each looked at once.
CHOSEN = Known(rb"%s (?:none|%s)" % (IP, IP))
FRONT = Known(rb"%s %s (?:event|general) (?:[0-9a-f]{2}){1,4}" % (IP, IP))
HEAD = Known(rb"(?:sync|delay_resp) %s seq|announce %s class" % (IP, IP))


def short(line: bytes) -> str:
    text = line.decode("ascii", "replace")
    return text if len(text) <= 60 else text[:57] + "..."


@dataclass(slots=True)
class Block:
    """Lines of a report by columns. Its text has an end of line before each line, and one behind the last one.

    `numbers` are those of the script's lines on which something is selected or sent. Of a datagram `fronts` has the way
    and the first four octets, and `rests` the digits behind them; `kinds` counts them by front and length of the rest.
    `told` counts what slaves select, by what they heard right before it. `moments` are those of what was heard and
    answered, and `others` all lines of which there are few.
    """

    first: int
    text: bytes
    numbers: list[bytes] = field(default_factory=list)
    datagrams: list[int] = field(default_factory=list)
    fronts: list[bytes] = field(default_factory=list)
    rests: list[bytes] = field(default_factory=list)
    moments: list[bytes] = field(default_factory=list)
    others: list[re.Match[bytes]] = field(default_factory=list)
    kinds: Counter[tuple[bytes, int]] = field(default_factory=Counter)
    told: Counter[tuple[bytes, bytes]] = field(default_factory=Counter)
    # How many lines there are, and how many of these are in no column.
    count: int = 0
    missing: int = 0

    def at(self, offset: int) -> int:
        """The number of the report's line that begins behind this place of the text."""
        return self.first + self.text.count(b"\n", 0, offset)

    def line_of(self, datagram: int) -> int:
        """The number of the report's line that has the datagram of this number."""
        return self.at(self.text.index(b" send %d " % datagram)) - 1

    def group(self, number: bytes, place: int | None = None) -> tuple[int, int]:
        """From where to where the lines of a group stand in the text; one begins at the place, where that is known."""
        mark = b"\n%s " % number
        start = end = self.text.index(mark) if place is None else place
        while start > 0 and self.text.startswith(mark, before := self.text.rfind(b"\n", 0, start)):
            start = before
        while self.text.startswith(mark, end):
            end = self.text.index(b"\n", end + 1)
        return start, end

    def lines(self, count: int | None = None) -> list[bytes]:
        """The first lines, as many as wanted, or all."""
        end = len(self.text) - 1
        if count is not None:
            end = next(islice((it.end() for it in LINE.finditer(self.text)), count - 1, None), end)
        return self.text[1:end].split(b"\n")

    def cut(self) -> None:
        """Cuts the lines of which there are many into columns."""
        start, behind = 0, len(self.text) - 1
        while start < behind:
            # (rows of which there are few fit into the cache of a processor)
            end = group_behind(self.text, start + ROWS) if start + ROWS < behind else behind
            self.take_rows(MANY.findall(self.text, start, end + 1))
            start = end
        self.count = self.text.count(b"\n") - 1
        self.missing = self.count - len(self.numbers) - len(self.moments)

    def take_rows(self, rows: list[tuple[bytes, ...]]) -> None:
        """Takes lines as they were found, each with that right before it that was heard or answered."""
        if not rows:
            return
        numbers, heads, moments, chosen, datagrams, fronts, rests = zip(*rows)
        rests = tuple(compress(rests, fronts))
        self.numbers += numbers
        self.datagrams += map(int, filter(None, datagrams))
        self.moments += filter(None, moments)
        self.told.update(compress(zip(heads, chosen), chosen))
        fronts = tuple(filter(None, fronts))
        self.kinds.update(zip(fronts, map(len, rests)))
        self.fronts += fronts
        self.rests += rests

    def see(self) -> None:
        """Takes the lines of which there are few, and sees that each line has a form of a report."""
        if self.missing:
            self.others = list(OTHER.finditer(self.text))
        if self.missing != len(self.others) or not self.are_known():
            self.see_forms()
        for it in self.others:
            line = it[0][1:]
            if not has_form(line):
                raise Refused(f"line {self.at(it.start())}: no form of a report: `{short(line)}`")

    def are_known(self) -> bool:
        """Whether those parts of the columns have their forms of which there are few."""
        are_sent = all(FRONT[front] and not length & 1 for front, length in self.kinds)
        return are_sent and all(CHOSEN[chosen] and (not head or HEAD[head]) for head, chosen in self.told)

    def ends(self) -> list[tuple[bytes, int]]:
        """The numbers of its first line and of its last one, and where these begin."""
        places = (0, self.text.rfind(b"\n", 0, len(self.text) - 1))
        return [(self.text[it + 1 : self.text.index(b" ", it)], it) for it in places]

    def see_forms(self) -> None:
        """Looks at each line by itself, where they are not all of the forms of which there are many."""
        for at, line in enumerate(self.lines(), self.first):
            if not has_form(line):
                raise Refused(f"line {at}: no form of a report: `{short(line)}`")
            if line.endswith(b" -"):
                raise Refused(f"line {at}: the datagram is no PTP message: short 0")


@dataclass(slots=True)
class Reading:
    """Where in a report the reading is."""

    lines: int = 0
    last: int = 0
    count: int = 0
    ended: bytes = b""

    def block(self, text: bytes) -> Block:
        """The next lines, each behind an end of line, by columns; it raises Refused at the first that has no place."""
        if self.ended:
            raise self.behind(self.lines + 1)
        block = Block(self.lines + 1, text + b"\n")
        block.cut()
        found = LAST.search(text) if block.missing else None
        if found:
            # (the line `end` is of no block)
            body = text[: found.start(1) - 1 if found[1].startswith(b"end") else found.end(1)]
            block = Block(self.lines + 1, body + b"\n")
            block.cut()
        block.see()
        self.see_numbers(block)
        self.see_sends(block)
        self.lines += block.count
        if found:
            self.lines += found[1].startswith(b"end")
            self.see_end(found[1])
            if text[found.end(1) :].strip(b"\n"):
                raise self.behind(self.lines + 1)
        return block

    def behind(self, at: int) -> Refused:
        text = self.ended.decode("ascii", "replace")
        return Refused(f"line {at}: it stands behind the last line of a report, `{text}`")

    def see_numbers(self, block: Block) -> None:
        # (where all lines are of rows, those that the rows do not number have the number of the one behind them)
        numbers = NUMBER.findall(block.text) if block.others else block.numbers
        if not numbers:
            return
        # (digits of one width are in the order of their numbers)
        values = numbers if len(set(map(len, numbers))) == 1 else list(map(int, numbers))
        if int(numbers[0]) < max(self.last, 1) or values != sorted(values):
            raise self.lower(block)
        self.last = int(numbers[-1])

    def lower(self, block: Block) -> Refused:
        values = [max(self.last, 1), *map(int, NUMBER.findall(block.text))]
        at = next(it for it in range(1, len(values)) if values[it] < values[it - 1])
        text = f"its number {values[at]} is lower than {values[at - 1]} above it"
        return Refused(f"line {block.first + at - 1}: {text}")

    def see_sends(self, block: Block) -> None:
        counted = block.datagrams
        if counted != list(range(self.count + 1, self.count + 1 + len(counted))):
            at = next(it for it, number in enumerate(counted) if number != self.count + 1 + it)
            line = block.line_of(counted[at])
            raise Refused(f"line {line}: datagram {counted[at]} stands where {self.count + 1 + at} is next")
        self.count += len(counted)

    def see_end(self, line: bytes) -> None:
        found = END.fullmatch(line)
        if not found and not has_form(line):
            raise Refused(f"line {self.lines}: no form of a report: `{short(line)}`")
        if found and (int(found[1]) < self.last or int(found[2]) != self.count):
            text = f"`{line.decode()}` ends a report of line {self.last} and {self.count} datagrams"
            raise Refused(f"line {self.lines}: {text}")
        self.ended = line


def texts(stream: Readable) -> Iterator[bytes]:
    """The text in parts of whole groups of lines with one number, each line behind an end of line."""
    rest = b"\n"
    while part := stream.read(BLOCK):
        text = rest + part
        cut = last_group(text)
        if cut:
            yield text[:cut]
        rest = text[cut:]
    rest = rest.removesuffix(b"\n")
    if rest:
        yield rest


def last_group(text: bytes) -> int:
    """Where the group begins to which the last whole line of a text belongs."""
    start = text.rfind(b"\n", 0, max(text.rfind(b"\n"), 0))
    number = text[start + 1 :].split(b" ", 1)[0] + b" "
    while start > 0 and text.startswith(number, (before := text.rfind(b"\n", 0, start)) + 1):
        start = before
    return max(start, 0)


def group_behind(text: bytes, place: int) -> int:
    """Where the first group begins that begins behind a place, or where the text ends."""
    start = text.find(b"\n", place, len(text) - 1)
    while start > 0 and text.startswith(number_at(text, text.rfind(b"\n", 0, start)), start):
        start = text.find(b"\n", start + 1, len(text) - 1)
    return start if start > 0 else len(text) - 1


def number_at(text: bytes, start: int) -> bytes:
    """The end of line at a place, with the number behind it."""
    return text[start : text.find(b" ", start) + 1]
