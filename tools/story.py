"""What a report tells, as columns of numbers: what grandmasters held and sent, and what slaves selected and got."""

from __future__ import annotations

from collections import defaultdict
from collections.abc import Iterable
from dataclasses import dataclass, field
from itertools import accumulate

import ptp
import script as scripts
from ptp import SECOND
from report import Refused
from script import Script

# A client: its address and its identity.
Client = tuple[str, str]
# By address and kind how many messages were granted, and over how many seconds.
Granted = dict[tuple[str, str], tuple[float, float]]
# How long a client goes on wanting what it was denied: a slave asks again a minute after a denial.
PATIENCE = 60.0


@dataclass(slots=True)
class Term:
    """What a grant of a kind to an address holds: a rate in sixteenths, from a moment to another, in seconds."""

    start: float
    end: float
    rate: int
    ip: str = ""
    kind: str = ""


def summed_terms(terms: Iterable[Term]) -> list[tuple[float, float]]:
    """The sum of the rates, from each moment at which it changes."""
    changes: dict[float, int] = {}
    for term in terms:
        changes[term.start] = changes.get(term.start, 0) + term.rate
        changes[term.end] = changes.get(term.end, 0) - term.rate
    moments = sorted(changes)
    return list(zip(moments, accumulate(changes[it] for it in moments)))


class Columns(dict[str, defaultdict[bytes, int]]):
    """How many messages of each kind were sent to each address."""

    def __missing__(self, kind: str) -> defaultdict[bytes, int]:
        self[kind] = made = defaultdict[bytes, int](int)
        return made


def moment_of(digits: bytes) -> float:
    """A moment in seconds, of a timestamp's twenty hexadecimal digits, or of a number of nanoseconds."""
    if len(digits) == 20:
        return int(digits[:12], 16) + int(digits[12:], 16) / SECOND
    return int(digits) / SECOND


def digits_of(moment: float) -> bytes:
    """The twenty digits of the timestamp of a moment."""
    nanos = int(moment * SECOND)
    return b"%012x%08x" % (nanos // SECOND, nanos % SECOND) if nanos >= 0 else b""


@dataclass(slots=True)
class Grandmaster:
    """What a report tells of one grandmaster, with moments in seconds and rates in sixteenths."""

    name: str
    terms: list[Term] = field(default_factory=list)
    live: dict[tuple[Client, str], Term] = field(default_factory=dict)
    # What was denied, or shed, and is wanted still.
    wanted: list[Term] = field(default_factory=list)
    unmet: dict[tuple[Client, str], Term] = field(default_factory=dict)
    marks: dict[str, list[float]] = field(default_factory=lambda: {"granted": [], "denied": [], "shed": []})
    capacities: list[tuple[float, int]] = field(default_factory=list)
    opening: int | None = None
    # The timestamps of its messages, as twenty digits each, one behind the other.
    stamps: bytearray = field(default_factory=bytearray)
    sent_to: Columns = field(default_factory=Columns)
    classes: list[tuple[float, int]] = field(default_factory=list)
    network: str = ""

    @property
    def title(self) -> str:
        if self.name.startswith("pool "):
            return self.name.capitalize() + (f", {self.network}" if self.network else "")
        return f"Grandmaster {self.name}"

    @property
    def count(self) -> int:
        """How many messages it sent."""
        return len(self.stamps) // 20

    def stamps_in_order(self) -> list[bytes]:
        stamps = bytes(self.stamps)
        return sorted([stamps[at : at + 20] for at in range(0, len(stamps), 20)])

    @property
    def sent(self) -> list[float]:
        """The moments of its messages, in order."""
        return [moment_of(it) for it in self.stamps_in_order()]

    def mark(self, name: str, moment: float) -> None:
        self.marks.setdefault(name, []).append(moment)

    def end(self, client: Client, kind: str, moment: float) -> Term | None:
        """A decision on a client and kind ends what it held before, and what it wanted; it gives what it held."""
        if unmet := self.unmet.pop((client, kind), None):
            unmet.end = min(unmet.end, moment)
        if term := self.live.pop((client, kind), None):
            term.end = min(term.end, moment)
        return term

    def grant(self, client: Client, kind: str, term: Term) -> None:
        self.end(client, kind, term.start)
        self.live[client, kind] = term
        self.terms.append(term)
        self.mark("granted", term.start)

    def deny(self, client: Client, kind: str, moment: float, rate: int) -> None:
        """A grant that the client has goes on beside its denial, so that it wants what is above that."""
        if unmet := self.unmet.pop((client, kind), None):
            unmet.end = min(unmet.end, moment)
        old = self.live.get((client, kind))
        more = rate - (old.rate if old and old.end > moment else 0)
        self.want(client, kind, Term(moment, moment + PATIENCE, max(more, 0)))
        self.mark("denied", moment)

    def shed(self, client: Client, kind: str, moment: float) -> None:
        old = self.live.get((client, kind))
        until = old.end if old else moment
        self.end(client, kind, moment)
        if old and until > moment:
            self.want(client, kind, Term(moment, until, old.rate))
        self.mark("shed", moment)

    def want(self, client: Client, kind: str, term: Term) -> None:
        self.unmet[client, kind] = term
        self.wanted.append(term)

    def announce(self, stamp: bytes, clock_class: int) -> None:
        if not self.classes or self.classes[-1][1] != clock_class:
            self.classes.append((moment_of(stamp), clock_class))

    def decide(self, client: Client, words: list[bytes], now: float) -> None:
        """What a line of a decision says, of which these are the words behind its number."""
        kind = words[1].decode()
        match words[0]:
            case b"granted":
                until, rate = int(words[6]) / SECOND, ptp.rate_of(int(words[2]))
                self.grant(client, kind, Term(now, until, rate, client[0], kind))
            case b"short":
                self.deny(client, kind, now, int(words[8]))
                if not self.capacities:
                    self.opening = int(words[10])
            case b"cancelled":
                self.end(client, kind, now)
                self.mark("cancelled", now)
            case b"outside":
                self.mark("outside", now)

    def held(self) -> list[tuple[float, float]]:
        """The sum of the rates held, from each moment at which it changes."""
        return summed_terms(self.terms)

    def most_wanted(self) -> int:
        """The capacity that would have done: the most that was held and wanted at a moment."""
        return int(max((value for _, value in summed_terms([*self.terms, *self.wanted])), default=0))

    def force(self, start: float) -> list[tuple[float, float]]:
        """The capacity in force, from each moment at which it changes, as far as it is known."""
        opening = [] if self.opening is None else [(start, self.opening)]
        return [(at, float(value)) for at, value in [*opening, *self.capacities]]


@dataclass(slots=True)
class Slave:
    """What a report tells of one slave: what it selected from when on, and how many messages of a kind it accepted."""

    ip: str
    selections: list[tuple[float, str]] = field(default_factory=list)
    heard: dict[str, int] = field(default_factory=lambda: dict.fromkeys(ptp.CODES, 0))
    denials: int = 0
    end: float | None = None

    def times(self, end: float) -> list[tuple[float, float, str]]:
        """From when until when it selected which master, or none."""
        last = min(end, self.end) if self.end is not None else end
        ends = [at for at, _ in self.selections[1:]] + [max(last, self.selections[-1][0])]
        return [(at, until, name) for (at, name), until in zip(self.selections, ends)]

    def without(self, end: float) -> list[float]:
        """How long each time without a master was."""
        return [until - at for at, until, name in self.times(end) if name == "none" and until > at]

    def availability(self, end: float) -> float:
        """The share of its time in which it had a master."""
        times = self.times(end)
        whole = times[-1][1] - times[0][0]
        return 1 - sum(self.without(end)) / whole if whole > 0 else float(times[-1][2] != "none")

    @property
    def changes(self) -> int:
        """How often it went from one master to another one, whether or not it had none between."""
        chosen = [name for _, name in self.selections if name != "none"]
        return sum(one != other for one, other in zip(chosen, chosen[1:]))


@dataclass(slots=True)
class Story:
    """What a report tells, with moments in seconds."""

    grandmasters: dict[str, Grandmaster] = field(default_factory=dict)
    slaves: dict[str, Slave] = field(default_factory=dict)
    outages: list[scripts.Outage] = field(default_factory=list)
    start: float | None = None
    end: float = 0.0
    refused: str = ""

    def grandmaster(self, name: str) -> Grandmaster:
        return self.grandmasters.setdefault(name, Grandmaster(name))

    def slave(self, ip: str) -> Slave:
        return self.slaves.setdefault(ip, Slave(ip))

    def see(self, moment: float) -> None:
        self.start = moment if self.start is None else min(self.start, moment)
        self.end = max(self.end, moment)

    def granted(self) -> Granted:
        """What each address was granted of each kind, one grant after the other."""
        sums: Granted = {}
        for master in self.grandmasters.values():
            for term in master.terms:
                length = max(min(term.end, self.end) - term.start, 0.0)
                messages, seconds = sums.get((term.ip, term.kind), (0.0, 0.0))
                sums[term.ip, term.kind] = (messages + term.rate / 16 * length, seconds + length)
        return sums

    def got(self, ip: str, kind: str) -> int:
        """How many messages of a kind came to the slave, or where no slave tells it, were sent to the address."""
        if slave := self.slaves.get(ip):
            return slave.heard[kind]
        return sum(it.sent_to[kind][ip.encode()] for it in self.grandmasters.values())

    def settle(self, script: Script | None, capacities: dict[str, int]) -> None:
        """Takes what is told besides the report."""
        known = script.capacities if script else {}
        for name, master in self.grandmasters.items():
            master.opening = capacities.get(name, capacities.get("", known.get(name, master.opening)))
            master.network = script.networks.get(name, "") if script else ""
        if script:
            self.outages = script.outages
            for ip, moment in script.stops.items():
                if ip in self.slaves:
                    self.slaves[ip].end = moment


def by_number(name: str) -> list[int]:
    """By which addresses, and pools, are sorted."""
    return [int(it) for it in name.removeprefix("pool ").split(".")]


def read_datagram(at: int, digits: bytes) -> ptp.Message:
    try:
        return ptp.read_message(bytes.fromhex(digits.replace(b"-", b"").decode()))
    except ptp.Fault as fault:
        raise Refused(f"line {at}: the datagram is no PTP message: {fault}") from fault
