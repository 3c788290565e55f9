"""The report of what a capture shows of a grandmaster, in the form that `ptpuni audit` reads (docs/AUDIT.md)."""

from __future__ import annotations

import heapq
from collections import Counter
from collections.abc import Iterator, Sequence
from dataclasses import dataclass, field

import ptp
from endings import BadInput
from ptp import SECOND
from wire import Answer, Cancels, Lease, Timed, Unanswered, Wire

# What `audit` reads at most, and room for the last line of a report.
LARGEST_REPORT = 67108864
END_ROOM = 64

# A datagram that was sent: to an address, by a channel, with its octets.
Sent = tuple[str, str, bytes]
Group = tuple[list[str], list[Sent]]


class Untold(BadInput):
    """What a report lacks, and what to do."""


@dataclass(slots=True)
class Held:
    """A grant as an audit keeps it; `edge` is the earliest moment of its next message.

    Where it is unsure its chain may have begun before what was seen, so that it may be earlier; where it is open a
    request has no answer, so that the grant may go on. `grants` and `message` tell all this anew where a report begins.
    """

    log: int
    until: int
    edge: int
    is_unsure: bool
    is_open: bool = False
    grants: list[tuple[int, Group]] = field(default_factory=list)
    message: tuple[int, Group] | None = None


class Total:
    """The sum of the rates that are held at a moment, for moments that do not fall."""

    def __init__(self) -> None:
        self.rates: dict[Lease, tuple[int, int]] = {}
        self.ends: list[tuple[int, Lease]] = []
        self.sum = 0
        self.most = 0

    def put(self, lease: Lease, moment: int, until: int, rate: int) -> None:
        self.end(lease)
        self.rates[lease] = (until, rate)
        heapq.heappush(self.ends, (until, lease))
        self.sum += rate
        self.most = max(self.most, self.at(moment))

    def end(self, lease: Lease) -> None:
        self.sum -= self.rates.pop(lease, (0, 0))[1]

    def at(self, moment: int) -> int:
        while self.ends and self.ends[0][0] <= moment:
            until, lease = heapq.heappop(self.ends)
            if self.rates.get(lease, (0, 0))[0] == until:
                self.end(lease)
        return self.sum

    def others(self, lease: Lease, moment: int) -> int:
        """The rates beside that of the lease itself."""
        return self.at(moment) - self.rates.get(lease, (0, 0))[1]


@dataclass(slots=True)
class Piece:
    """A report as it is written, with its groups and datagrams numbered from 1."""

    ip: str
    lines: list[str] = field(default_factory=list)
    size: int = 0
    groups: int = 0
    sent: int = 0

    def put(self, group: Group, limit: int) -> bool:
        """Puts a group of lines, where there is room for it."""
        said, sent = group
        lines = [f"{self.groups + 1} {it}" for it in said]
        for at, (receiver, channel, octets) in enumerate(sent, self.sent + 1):
            lines.append(f"{self.groups + 1} send {at} {self.ip} {receiver} {channel} {octets.hex()}")
        size = sum(len(it) + 1 for it in lines)
        if self.size + size + END_ROOM > limit:
            return False
        self.lines += lines
        self.size += size
        self.groups += 1
        self.sent += len(sent)
        return True

    def text(self) -> str:
        return "".join(f"{it}\n" for it in [*self.lines, f"end {self.groups} {self.sent}"])


@dataclass(slots=True)
class Reporter:
    """Tells what was seen in reports, each small enough to be read.

    The capacities are those that it begins with and that come with each change which sends CANCELs. `slack` is how much
    too early a message may be, in nanoseconds. Where the capture is whole nothing is left out for want of a grant.
    Messages of other kinds are left out, and their grants are not.
    """

    wire: Wire
    capacities: Sequence[int] = ()
    slack: int = 0
    is_whole: bool = False
    kinds: Sequence[str] = tuple(ptp.CODES)
    limit: int = LARGEST_REPORT
    counts: Counter[str] = field(default_factory=Counter)
    forgiven: list[int] = field(default_factory=list)
    held: dict[Lease, Held] = field(default_factory=dict)
    # What was decided on in the capture, and what messages came of before.
    decided: set[Lease] = field(default_factory=set)
    unknown: set[Lease] = field(default_factory=set)
    total: Total = field(default_factory=Total)
    changes: int = 0
    changed: tuple[int, Group] | None = None
    pieces: list[Piece] = field(default_factory=list)
    restated: int = 0

    def run(self) -> None:
        self.pieces.append(Piece(self.wire.ip))
        ranks = {Answer: 0, Cancels: 0, Unanswered: 1, Timed: 2}
        events: list[Answer | Cancels | Timed | Unanswered] = [*self.wire.decisions, *self.wire.unanswered]
        events += self.wire.messages
        due = [(it.at or 0, ranks[type(it)], order, it) for order, it in enumerate(events)]
        heapq.heapify(due)
        while due:
            at, rank, order, event = heapq.heappop(due)
            if isinstance(event, Timed):
                if later := self.message(event, at):
                    heapq.heappush(due, (later, rank, order, event))
            elif isinstance(event, Answer):
                self.answer(event)
            elif isinstance(event, Cancels):
                self.cancels(event)
            elif known := self.held.get(event.lease):
                known.is_open = True

    def put(self, moment: int, group: Group) -> None:
        if self.pieces[-1].put(group, self.limit):
            return
        piece = Piece(self.wire.ip)
        self.pieces.append(piece)
        known = [it for it in self.held.values() if it.until > moment]
        again = [told for it in known for told in [*it.grants, *([it.message] if it.message else [])]]
        again += [self.changed] if self.changed else []
        for _, told in sorted(again, key=lambda it: it[0]):
            piece.put(told, self.limit)
        self.restated += len(again)
        if not piece.put(group, self.limit):
            raise Untold(f"a report of at most {self.limit} octets has no room for the grants of one moment")

    # -- decisions ---------------------------------------------------------------------------------------------------

    def answer(self, answer: Answer) -> None:
        said = []
        for place, (tlv, asked) in enumerate(zip(answer.tlvs, answer.asked)):
            kind = ptp.KINDS.get(tlv.code)
            if isinstance(tlv, ptp.Acknowledge):
                said.append(self.acknowledged(tlv, answer, kind))
            elif isinstance(tlv, ptp.Grant) and tlv.seconds and kind:
                said.append(self.granted(tlv, answer, kind, place))
            elif isinstance(tlv, ptp.Grant):
                said.append(self.denied(tlv, asked, (answer.client[0], kind), answer.at))
        self.put(answer.at, (said, [(answer.client[0], "general", answer.octets)]))

    def acknowledged(self, tlv: ptp.Acknowledge, answer: Answer, kind: str | None) -> str:
        if kind is None:
            return f"nothing {tlv.code}"
        lease = (answer.client[0], kind)
        known = self.held.pop(lease, None)
        self.total.end(lease)
        self.decided.add(lease)
        return f"{'cancelled' if known and known.until > answer.at else 'nothing'} {kind} at {answer.at}"

    def granted(self, tlv: ptp.Grant, answer: Answer, kind: str, place: int) -> str:
        lease, at = (answer.client[0], kind), answer.at
        until = at + tlv.seconds * SECOND
        said = f"granted {kind} {tlv.log} at {at} until {until}"
        alone = [said], [(lease[0], "general", ptp.with_tlvs(answer.octets, [place]))]
        old, period = self.held.get(lease), ptp.period_of(tlv.log)
        if old and old.until > at and old.log == tlv.log:
            new = Held(tlv.log, until, old.edge, old.is_unsure, grants=[*old.grants, (at, alone)], message=old.message)
        else:
            new = Held(tlv.log, until, at + period, self.is_unsure(lease, answer, period), grants=[(at, alone)])
        self.held[lease] = new
        self.decided.add(lease)
        self.total.put(lease, at, until, ptp.rate_of(tlv.log))
        self.counts["grants"] += 1
        return said

    def is_unsure(self, lease: Lease, answer: Answer, period: int) -> bool:
        """Whether a chain may have begun before this grant, or the grant before it was seen."""
        if self.is_whole:
            return False
        if lease not in self.decided and (lease in self.unknown or answer.most < (self.wire.start or 0) + period):
            return True
        old = self.held.get(lease)
        return None in answer.asked or bool(old and old.is_open)

    def denied(self, tlv: ptp.Grant, asked: ptp.Tlv | None, lease: tuple[str, str | None], at: int) -> str:
        ip, kind = lease
        if kind is None:
            return f"outside type {tlv.code}"
        if not ptp.LEAST_LOG[kind] <= tlv.log <= ptp.GREATEST_LOG:
            return f"outside log {kind} {tlv.log}"
        if isinstance(asked, ptp.Request) and asked.seconds < ptp.LEAST_DURATION:
            return f"outside duration {kind} {tlv.log} {asked.seconds}"
        self.counts["denials"] += 1
        others = self.total.others((ip, kind), at)
        return f"short {kind} {tlv.log} at {at} others {others} rate {ptp.rate_of(tlv.log)} capacity {self.capacity()}"

    def capacity(self) -> int:
        if not self.capacities:
            raise Untold("it has denials or CANCELs of the grandmaster: say its capacity by --capacity N")
        return self.capacities[min(self.changes, len(self.capacities) - 1)]

    def cancels(self, event: Cancels) -> None:
        """A change of capacity that sheds grants. CANCELs of grants that are not known are left out."""
        shed: list[str] = []
        told: list[Sent] = []
        self.changes += 1
        for client, kind, octets in event.sent:
            self.decided.add((client[0], kind))
            known = self.held.pop((client[0], kind), None)
            if known and known.until > event.at:
                shed.append(f"shed {kind} {known.log} {client[0]} {client[1]}")
                told.append((client[0], "general", octets))
                self.total.end((client[0], kind))
            else:
                self.counts["CANCELs of grants that are not known"] += 1
        said = f"capacity {self.wire.ip} {self.capacity()} at {event.at}"
        self.changed = (event.at, ([said], []))
        self.put(event.at, ([said, *shed], told))
        self.counts["sheddings"] += len(shed)

    # -- messages ----------------------------------------------------------------------------------------------------

    def message(self, timed: Timed, at: int) -> int | None:
        """Tells a message, or leaves it out; or gives the later moment at which it is to be told, by the slack."""
        known = self.held.get(timed.lease)
        if why := self.why_left_out(timed, known, at):
            self.counts[why] += 1
            return None
        early = timed.at or 0
        if known and at < known.edge < known.until and known.edge - early <= self.slack:
            return known.edge
        if known and at > early and at >= known.edge:
            self.forgiven.append(at - early)
            timed.octets = ptp.with_stamp(timed.octets, at)
        channel = "event" if timed.kind == "sync" else "general"
        said = [f"answered at {at}"] if timed.kind == "delay_resp" else []
        group = said, [(timed.receiver, channel, timed.octets)]
        self.put(at, group)
        self.counts["messages"] += 1
        if known:
            self.pay(known, timed, at, group)
        return None

    def why_left_out(self, timed: Timed, known: Held | None, at: int) -> str | None:
        if timed.kind not in self.kinds:
            return f"messages of the kind {timed.kind}, which --kinds does not name"
        if self.is_whole or known is None and timed.lease in self.decided:
            return None
        if known is None:
            self.unknown.add(timed.lease)
            return "messages of grants that were made before the capture"
        if at >= known.until and known.is_open:
            return "messages behind a request whose answer was not seen"
        if at < known.edge and known.is_unsure:
            return "early messages of a chain whose beginning was not seen"
        return None

    def pay(self, known: Held, timed: Timed, at: int, group: Group) -> None:
        """Keeps what a message does to its grant, and of what was told what is needed to tell it anew."""
        period = ptp.period_of(known.log)
        credit = known.edge + period
        known.edge = max(credit, at) if timed.kind == "delay_resp" else at + period
        known.is_unsure = known.is_unsure and timed.kind == "delay_resp" and at < credit
        known.message = (at, group)
        # A chain that begins at this grant has the edge of the whole one after this message, or an earlier one.
        room = 2 * period if timed.kind == "delay_resp" else period
        while len(known.grants) > 1 and known.grants[1][0] + room <= at:
            del known.grants[0]

    # -- what is to be known of it -----------------------------------------------------------------------------------

    def remarks(self) -> Iterator[str]:
        """What the reports hold and lack, one thing in a line."""
        counts = self.counts
        shed = f", {counts['sheddings']} sheddings" if counts["sheddings"] else ""
        told = f"{counts['grants']} grants, {counts['denials']} denials{shed}, {counts['messages']} messages"
        yield f"{told}, {self.total.most} held at most, stamped up to {self.wire.late / 10**6:.3f} ms before the wire"
        for moment, clock_class in self.wire.classes[1:]:
            yield f"clockClass {clock_class} from {moment / SECOND:.3f} s on"
        if self.forgiven:
            most = max(self.forgiven)
            early = f"{len(self.forgiven)} messages before their time"
            yield f"forgiven {early}, of {most} ns at most (--slack {self.slack})"
        told_already = ("grants", "denials", "messages", "sheddings")
        for name, count in [*self.wire.counts.items(), *counts.items()]:
            if count and name not in told_already:
                yield f"{'' if 'taken' in name else 'left out '}{count} {name}"
        if self.wire.unanswered:
            yield f"{len(self.wire.unanswered)} requests whose answer was not seen"
        if len(self.pieces) > 1:
            yield f"{len(self.pieces)} reports, in which {self.restated} groups are told once more"
