"""What the grandmasters and slaves of a scenario send, by the rules of docs/PROFILE.md.

Moments are in nanoseconds. Nothing here is proved: `ptpuni replay` says of each scenario whether its nodes send just this
(beside.py).
"""

from __future__ import annotations

from collections.abc import Callable, Sequence
from dataclasses import dataclass
from functools import partial
from ipaddress import IPv4Address
from operator import attrgetter

import plan as plans
import ptp
from plan import Outage, Plan
from ptp import SECOND

MINUTE = 60 * SECOND
KINDS = tuple(ptp.CODES)
# By what a report says of the datagrams of a type: the channel and the first octet.
TYPES = {"announce": "general 0b", "sync": "event 00", "delay_resp": "general 09"}
DELAY_REQ, SIGNALING = "event 01", "general 0c"
# How datagrams fare from one node to another one: the least delay, how many delays from it on are as likely, the bits of
# that number, the shares that are lost and repeated, and the outages.
Fate = tuple[int, int, int, float, float, list[Outage]]


@dataclass(slots=True)
class Way:
    """The datagrams of a type from one node to another one, and what one of them makes its receiver send as it arrives.

    `number` is that of what a report says of them. `take` is None where what arrives makes its receiver send nothing in
    any case.
    """

    number: int
    fate: Fate
    take: Act | None = None

    def __lt__(self, other: Way) -> bool:
        """Of two copies of one datagram that arrive at one moment either may be first."""
        return False

    def carrying(self, take: Act) -> Way:
        """The way of one datagram that makes its receiver do this."""
        return Way(self.number, self.fate, take)


# What happens to a node at a moment: it gives the ways of what the node sends, in order.
Act = Callable[[int], Sequence[Way]]


def nothing(moment: int) -> Sequence[Way]:
    return ()


class Ways:
    """Makes the ways of a plan, and numbers them from 0."""

    def __init__(self, plan: Plan) -> None:
        self.plan = plan
        self.spelled: list[bytes] = []

    def way(self, sender: str, receiver: str, message: str) -> Way:
        ends = frozenset((sender, receiver))
        link = self.plan.link_of(ends)
        width = link.greatest - link.least + 1
        outages = [it for it in self.plan.outages if it.ends <= ends]
        self.spelled.append(f"{sender} {receiver} {message}".encode())
        fate = (link.least, width, width.bit_length(), link.loss, link.repeat, outages)
        return Way(len(self.spelled) - 1, fate)


@dataclass(slots=True)
class Lease:
    """What a grandmaster has granted to a client of a kind, and when it may send the next message of it."""

    way: Way
    period: int
    rate: int
    start: int = 0
    until: int = 0
    earliest: int = 0

    def grant(self, moment: int, duration: int) -> None:
        """A grant that finds the one before it live goes on with its messages."""
        if moment >= self.until:
            self.earliest = moment + self.period
        self.start, self.until = moment, moment + duration

    def end(self) -> None:
        self.until = 0

    def answer(self, moment: int) -> Sequence[Way]:
        """What a Delay_Req makes the grandmaster send."""
        if not self.earliest <= moment < self.until:
            return ()
        self.earliest = max(self.earliest + self.period, moment)
        return (self.way,)


class Grandmaster:
    """A grandmaster; `pairs` are the slaves of which it is a master, in the order of their addresses."""

    def __init__(self, made: plans.Grandmaster) -> None:
        self.ip = made.ip
        self.domain = made.domain
        self.capacity = made.capacity
        self.longest = made.max_duration
        self.pairs: list[Pair] = []
        self.turned: dict[int, list[Lease]] = {}

    def add(self, pair: Pair) -> None:
        self.pairs.append(pair)
        self.pairs.sort(key=lambda it: IPv4Address(it.slave.ip))
        tables: dict[int, list[Lease]] = {}
        for it in self.pairs:
            leases = [it.leases["announce"], it.leases["sync"]]
            tables.setdefault(it.slave.table, []).extend(leases)
        self.turned = tables

    def turn(self, table: int, moment: int) -> Sequence[Way]:
        """A message for each live grant of Announce and Sync of a table that is due, the earliest first."""
        due = [it for it in self.turned[table] if it.earliest <= moment < it.until]
        due.sort(key=attrgetter("earliest"))
        for it in due:
            it.earliest = moment + it.period
        return [it.way for it in due]

    def live(self, moment: int) -> list[tuple[Pair, str]]:
        """The live grants, by client and then by kind."""
        return [(pair, kind) for pair in self.pairs for kind, it in pair.leases.items() if moment < it.until]

    def granted(self, lease: Lease, moment: int, seconds: int) -> int:
        """Decides on a request. It gives for how many seconds it is granted, or 0."""
        others = sum(it.leases[kind].rate for it, kind in self.live(moment) if it.leases[kind] is not lease)
        if others + lease.rate > self.capacity:
            return 0
        seconds = min(seconds, self.longest)
        lease.grant(moment, seconds * SECOND)
        return seconds

    def resize(self, capacity: int, moment: int) -> Sequence[Way]:
        """Takes a capacity, for which the newest grants are shed, and tells each client of it."""
        self.capacity = capacity
        live = self.live(moment)
        held = sum(pair.leases[kind].rate for pair, kind in live)
        ways = []
        for pair, kind in sorted(reversed(live), key=lambda it: it[0].leases[it[1]].start, reverse=True):
            if held <= capacity:
                break
            held -= pair.leases[kind].rate
            pair.leases[kind].end()
            ways.append(pair.told(partial(pair.shed, kind)))
        return ways


@dataclass(slots=True)
class Want:
    """When a slave asks a master for a kind: from when on by the asks that are not answered, the denials and the grant."""

    asks: int = 0
    asked: int = 0
    refused: int = 0
    renewed: int = 0
    until: int = 0

    @property
    def gate(self) -> int:
        return max(self.asked, self.refused, self.renewed)

    def ask(self, moment: int) -> None:
        self.asks += 1
        self.asked = moment + (SECOND if self.asks % 3 else MINUTE)

    def grant(self, moment: int, seconds: int) -> None:
        self.asks = self.asked = 0
        self.renewed, self.until = moment + seconds * SECOND // 2, moment + seconds * SECOND

    def refuse(self, moment: int) -> None:
        self.asks = self.asked = 0
        self.refused = moment + MINUTE

    def end(self) -> None:
        self.renewed = self.until = 0


class Pair:
    """A slave and one of its masters, and what each of them knows of the other one."""

    def __init__(self, slave: Slave, grandmaster: Grandmaster, ways: Ways) -> None:
        self.slave, self.grandmaster = slave, grandmaster
        there, back = (slave.ip, grandmaster.ip), (grandmaster.ip, slave.ip)
        self.requests, self.answers = ways.way(*there, SIGNALING), ways.way(*back, SIGNALING)
        self.probe = ways.way(*there, DELAY_REQ)
        self.wants = {kind: Want() for kind in slave.logs}
        self.leases = {
            kind: Lease(ways.way(*back, TYPES[kind]), ptp.period_of(log), ptp.rate_of(log))
            for kind, log in slave.logs.items()
        }
        # From when on the slave asks for something, and from when and until when it sends the next Delay_Req.
        self.asks_at = 0
        self.probes_at = self.probes_until = 0
        self.probe_period = 0
        # A node takes nothing from another domain.
        self.is_heard = slave.domain == grandmaster.domain
        if lease := self.leases.get("delay_resp"):
            self.probe.take = lease.answer if self.is_heard else nothing
            self.probe_period = lease.period

    def told(self, take: Act) -> Way:
        """A Signaling of the grandmaster."""
        return self.answers.carrying(take if self.is_heard else nothing)

    def tells(self, take: Act) -> Way:
        """A Signaling of the slave."""
        return self.requests.carrying(take if self.is_heard else nothing)

    def ask(self, moment: int) -> Way:
        """The slave asks for all kinds that are due."""
        due = [kind for kind, it in self.wants.items() if it.gate <= moment]
        for kind in due:
            self.wants[kind].ask(moment)
        self.settle()
        return self.tells(partial(self.decide, due))

    def decide(self, kinds: list[str], moment: int) -> Sequence[Way]:
        """The grandmaster was asked for these kinds, and answers in one Signaling."""
        seconds = {it: self.grandmaster.granted(self.leases[it], moment, self.slave.duration) for it in kinds}
        return (self.told(partial(self.heed, seconds)),)

    def heed(self, seconds: dict[str, int], moment: int) -> Sequence[Way]:
        """The slave was granted kinds for so many seconds, or was denied those with none."""
        for kind, granted in seconds.items():
            if not granted:
                self.wants[kind].refuse(moment)
                continue
            if kind == "delay_resp" and moment >= self.wants[kind].until:
                self.probes_at = moment + self.probe_period
            self.wants[kind].grant(moment, granted)
        self.settle()
        return ()

    def shed(self, kind: str, moment: int) -> Sequence[Way]:
        """The slave was sent a CANCEL, and acknowledges it."""
        self.wants[kind].refuse(moment)
        self.wants[kind].end()
        self.settle()
        return (self.tells(nothing),)

    def cancel(self, kinds: list[str], moment: int) -> Sequence[Way]:
        """The grandmaster was sent CANCELs, and acknowledges them."""
        for it in kinds:
            self.leases[it].end()
        return (self.told(nothing),)

    def stop(self, moment: int) -> Sequence[Way]:
        """The slave cancels what it is granted."""
        live = [kind for kind, it in self.wants.items() if moment < it.until]
        for it in self.wants.values():
            it.end()
        self.settle()
        return (self.tells(partial(self.cancel, live)),) if live else ()

    def settle(self) -> None:
        self.asks_at = min(it.gate for it in self.wants.values())
        if "delay_resp" in self.wants:
            self.probes_until = self.wants["delay_resp"].until


class Slave:
    """A slave; `logs` has the logarithm of the interval of each kind that it asks for."""

    def __init__(self, made: plans.Slave, grandmasters: dict[str, Grandmaster], ways: Ways) -> None:
        self.ip = made.ip
        self.domain = made.domain
        self.table = made.table
        self.duration = made.duration
        logs = dict(zip(KINDS, (made.log_announce, made.log_sync, made.log_delay)))
        self.logs = {kind: log for kind, log in logs.items() if log is not None}
        self.pairs = [Pair(self, grandmasters[it.ip], ways) for it in made.masters]
        self.ticked = self.pairs
        for pair in self.pairs:
            pair.grandmaster.add(pair)

    def tick(self, moment: int) -> Sequence[Way]:
        """Each master is sent what is due."""
        ways = []
        for it in self.ticked:
            if it.asks_at <= moment:
                ways.append(it.ask(moment))
            if it.probes_at <= moment < it.probes_until:
                it.probes_at = moment + it.probe_period
                ways.append(it.probe)
        return ways

    def stop(self, moment: int) -> Sequence[Way]:
        self.ticked = []
        return [way for pair in self.pairs for way in pair.stop(moment)]
