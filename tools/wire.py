"""What a capture shows of one grandmaster: its answers, its CANCELs and its messages, at moments of its own clock."""

from __future__ import annotations

from bisect import bisect_left, bisect_right
from collections import Counter, defaultdict
from collections.abc import Iterable
from dataclasses import dataclass, field

import ptp
from capture import Datagram
from ptp import SECOND

Client = tuple[str, ptp.PortIdentity]
# What can be granted: a kind to an address, since an audit knows one client at an address.
Lease = tuple[str, str]


@dataclass(slots=True)
class Asked:
    """A REQUEST or CANCEL that waits for its answer."""

    moment: int
    sequence: int
    tlv: ptp.Tlv


@dataclass(slots=True)
class Answer:
    """A Signaling that answers a client, and what each of its TLVs was asked, or None where that was not seen.

    It was decided between `least`, when the request was seen, and `most`, when the answer was seen; `at` is taken.
    """

    client: Client
    octets: bytes
    tlvs: tuple[ptp.Tlv, ...]
    asked: tuple[ptp.Tlv | None, ...]
    least: int
    most: int
    at: int = 0


@dataclass(slots=True)
class Cancels:
    """CANCELs that the grandmaster sent one behind the other, each with its client, its kind and a Signaling for it."""

    most: int
    sent: list[tuple[Client, str, bytes]]
    at: int = 0


@dataclass(slots=True)
class Timed:
    """A Sync, an Announce or a Delay_Resp, with its timestamp's moment, or None where it has no timestamp."""

    receiver: str
    kind: str
    octets: bytes
    seen: int
    at: int | None

    @property
    def lease(self) -> Lease:
        return self.receiver, self.kind


@dataclass(slots=True)
class Unanswered:
    """A REQUEST whose answer was not seen."""

    lease: Lease
    at: int


def is_told(tlv: ptp.Tlv) -> bool:
    """Whether a report has a line for an answer: it has none for a grant that is outside of every profile."""
    if isinstance(tlv, ptp.Grant) and tlv.seconds:
        kind = ptp.KINDS.get(tlv.code)
        return kind is not None and ptp.LEAST_LOG[kind] <= tlv.log <= ptp.GREATEST_LOG
    return isinstance(tlv, ptp.Grant | ptp.Acknowledge)


def is_answered_by(asked: ptp.Tlv, tlv: ptp.Tlv) -> bool:
    if isinstance(asked, ptp.Request) and isinstance(tlv, ptp.Grant):
        return (asked.code, asked.log) == (tlv.code, tlv.log)
    return isinstance(asked, ptp.Cancel) and isinstance(tlv, ptp.Acknowledge) and asked.code == tlv.code


class Clock:
    """The grandmaster's clock beside that of the capture.

    A message is stamped before it is seen. So the greatest of `stamp - seen` within a second is what its clock is ahead
    by, less the shortest time from a stamp to the wire.
    """

    def __init__(self, pairs: Iterable[tuple[int, int]]) -> None:
        self.ahead: dict[int, int] = {}
        for seen, stamp in pairs:
            second = seen // SECOND
            self.ahead[second] = max(stamp - seen, self.ahead.get(second, stamp - seen))
        self.seconds = sorted(self.ahead)

    def moment(self, seen: int) -> int:
        second = seen // SECOND
        near = [self.ahead[it] for it in (second - 1, second, second + 1) if it in self.ahead]
        if not near and self.seconds:
            at = bisect_left(self.seconds, second)
            around = self.seconds[max(at - 1, 0) : at + 1]
            near = [self.ahead[min(around, key=lambda it: abs(it - second))]]
        return max(seen + max(near, default=0), 0)


@dataclass(slots=True)
class Wire:
    """What was seen of the grandmaster of an address. `late` is the longest way from a stamp to the wire."""

    ip: str
    start: int | None = None
    late: int = 0
    decisions: list[Answer | Cancels] = field(default_factory=list)
    messages: list[Timed] = field(default_factory=list)
    unanswered: list[Unanswered] = field(default_factory=list)
    classes: list[tuple[int, int]] = field(default_factory=list)
    counts: Counter[str] = field(default_factory=Counter)
    pending: defaultdict[Client, list[Asked]] = field(default_factory=lambda: defaultdict(list))
    halves: dict[tuple[str, ptp.PortIdentity, int], Timed] = field(default_factory=dict)

    def take(self, datagram: Datagram) -> None:
        if self.ip not in (datagram.sender, datagram.receiver):
            return
        self.start = datagram.moment if self.start is None else self.start
        try:
            message = ptp.read_message(datagram.octets)
        except ptp.Fault:
            self.counts["that spell no PTP message"] += 1
            return
        if datagram.sender != self.ip:
            for tlv in message.tlvs:
                if isinstance(tlv, ptp.Request | ptp.Cancel):
                    asked = Asked(datagram.moment, message.sequence, tlv)
                    self.pending[datagram.sender, message.source].append(asked)
        elif message.target and message.type == 12:
            self.take_signaling(datagram, message, (datagram.receiver, message.target))
        elif message.kind or message.type == 8:
            self.take_timed(datagram, message)

    def take_signaling(self, datagram: Datagram, message: ptp.Message, client: Client) -> None:
        octets, tlvs = ptp.trimmed(datagram.octets), message.tlvs
        for place, tlv in enumerate(tlvs):
            if isinstance(tlv, ptp.Cancel) and (kind := ptp.KINDS.get(tlv.code)):
                self.take_cancel(datagram.moment, (client, kind, ptp.with_tlvs(octets, [place])))
        untold = sum(isinstance(it, ptp.Grant) and not is_told(it) for it in tlvs)
        self.counts["grants outside of every profile"] += untold
        places = [it for it, tlv in enumerate(tlvs) if is_told(tlv)]
        if not places:
            return
        asked = [self.match(client, message.sequence, tlvs[it]) for it in places]
        moments = [it.moment for it in asked if it]
        answer = Answer(
            client,
            ptp.with_tlvs(octets, places),
            tuple(tlvs[it] for it in places),
            tuple(it.tlv if it else None for it in asked),
            moments[0] if moments else datagram.moment,
            datagram.moment,
        )
        self.decisions.append(answer)

    def match(self, client: Client, sequence: int, tlv: ptp.Tlv) -> Asked | None:
        """What this answers: that of its sequenceId, else the first that waits. Older ones wait no more."""
        waiting = self.pending[client]
        fitting = [it for it in waiting if is_answered_by(it.tlv, tlv)]
        if not fitting:
            return None
        found = next((it for it in fitting if it.sequence == sequence), fitting[0])
        for older in fitting[: fitting.index(found)]:
            waiting.remove(older)
            self.leave_unanswered(client, older)
        waiting.remove(found)
        return found

    def leave_unanswered(self, client: Client, asked: Asked) -> None:
        kind = ptp.KINDS.get(asked.tlv.code)
        if kind and isinstance(asked.tlv, ptp.Request):
            self.unanswered.append(Unanswered((client[0], kind), asked.moment))

    def take_cancel(self, moment: int, sent: tuple[Client, str, bytes]) -> None:
        """CANCELs within a second and without an answer between are those of one change of capacity."""
        last = self.decisions[-1] if self.decisions else None
        if isinstance(last, Cancels) and moment < last.most + SECOND:
            last.sent.append(sent)
        else:
            self.decisions.append(Cancels(moment, [sent]))

    def take_timed(self, datagram: Datagram, message: ptp.Message) -> None:
        stamp = message.stamp[0] * SECOND + message.stamp[1] if message.stamp else 0
        half = (datagram.receiver, message.source, message.sequence)
        if message.type == 8:
            if (sync := self.halves.pop(half, None)) and stamp:
                sync.at, sync.octets = stamp, ptp.with_stamp(sync.octets, stamp)
            return
        kind = message.kind or ""
        timed = Timed(datagram.receiver, kind, ptp.trimmed(datagram.octets), datagram.moment, stamp or None)
        self.messages.append(timed)
        if kind == "sync" and message.is_two_step:
            self.halves[half] = timed
        if message.clock_class is not None and (not self.classes or self.classes[-1][1] != message.clock_class):
            self.classes.append((datagram.moment, message.clock_class))

    def finish(self) -> None:
        """Gives each its moment, once all was seen."""
        clock = Clock((it.seen, it.at) for it in self.messages if it.at is not None)
        self.counts["Syncs without their Follow_Up, taken by their own timestamp or the capture's"] += len(self.halves)
        for it in self.messages:
            seen = clock.moment(it.seen)
            if it.at is None:
                self.counts["messages without a timestamp, taken at the capture's moment"] += 1
                it.at, it.octets = seen, ptp.with_stamp(it.octets, seen)
            self.late = max(self.late, seen - it.at)
        for client, waiting in self.pending.items():
            for asked in waiting:
                self.leave_unanswered(client, asked)
        for each in self.unanswered:
            each.at = clock.moment(each.at)
        self.start = clock.moment(self.start or 0)
        self.place_decisions(clock)

    def place_decisions(self, clock: Clock) -> None:
        """Puts each decision between its request and its answer, none before the one before it."""
        stamps: defaultdict[Lease, list[int]] = defaultdict(list)
        decided: defaultdict[Lease, list[int]] = defaultdict(list)
        for it in self.messages:
            stamps[it.lease].append(it.at or 0)
        for decision in self.decisions:
            decision.most = clock.moment(decision.most)
            if isinstance(decision, Answer):
                decision.least = clock.moment(decision.least)
                for lease in leases_of(decision):
                    decided[lease].append(decision.least)
        for moments in [*stamps.values(), *decided.values()]:
            moments.sort()
        last = 0
        for decision in self.decisions:
            needed = least_moment(decision, stamps, decided) if isinstance(decision, Answer) else decision.most
            decision.at = last = max(last, needed)


def leases_of(answer: Answer) -> list[Lease]:
    """The lease of each TLV that decides on one, and of another an empty kind."""
    return [(answer.client[0], "" if is_denial(it) else ptp.KINDS.get(it.code, "")) for it in answer.tlvs]


def is_denial(tlv: ptp.Tlv) -> bool:
    return isinstance(tlv, ptp.Grant) and not tlv.seconds


def least_moment(answer: Answer, stamps: dict[Lease, list[int]], decided: dict[Lease, list[int]]) -> int:
    """The first moment between `least` and `most` at which the answer can have been decided, by the messages around it.

    A message behind `least` that is sooner than a period is of the grant before it. One at the very end of a grant that
    nothing followed tells how late the grant began.
    """
    needed = answer.least
    for lease, tlv in zip(leases_of(answer), answer.tlvs):
        seen, others = stamps.get(lease, []), decided[lease]
        soon = answer.most
        if isinstance(tlv, ptp.Grant) and tlv.seconds:
            soon = min(soon, answer.least + ptp.period_of(tlv.log) - 1)
            length = tlv.seconds * SECOND
            following = bisect_right(others, answer.least)
            at = bisect_left(seen, answer.most + length) - 1
            is_over = following == len(others) or others[following] >= answer.least + length
            if is_over and at >= 0 and seen[at] >= answer.least + length:
                needed = max(needed, seen[at] - length + 1)
        at = bisect_right(seen, soon) - 1
        if at >= 0 and seen[at] > answer.least:
            needed = max(needed, seen[at] + 1)
    return min(needed, max(answer.most, answer.least))
