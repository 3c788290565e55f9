"""What one grandmaster grants and sends, as far as it can be told from the datagrams to and from it."""

from __future__ import annotations

from collections import Counter, deque
from dataclasses import dataclass, field
from typing import Any

import ptp
from capture import Datagram

Owner = tuple[str, ptp.PortIdentity]
# Whose a Sync or an Announce is, which name no client, while nothing else was seen at its address.
NOBODY = ptp.PortIdentity(0, 0)
# The states of a lease, in the order in which they are summed. Of one that was granted before the first datagram only
# its messages are known.
STATES = ("granted", "denied", "not seen yet", "over", "cancelled", "gave up")
# Below this share of what it was granted a client gets less; a grant is judged after so many periods.
ENOUGH, PERIODS = 0.8, 8


def rate(log: int) -> float:
    """Messages a second for a logarithm, of any size."""
    return 2.0**-log


@dataclass(slots=True)
class Lease:
    """What a client has of one kind, since a moment. Moments are in nanoseconds."""

    since: int
    log: int = 0
    until: int = 0
    grants: int = 0
    denials: int = 0
    last_answer: str = ""
    seen: int = 0
    recent: deque[int] = field(default_factory=deque)
    # When the client asked for a message, where it asks for each.
    asked: deque[int] = field(default_factory=deque)
    is_asked: bool = False
    granted_at: int = 0

    def is_live(self, now: int) -> bool:
        return now < self.until

    def see(self, moment: int) -> None:
        self.seen += 1
        self.recent.append(moment)

    def ask(self, moment: int) -> None:
        self.is_asked = True
        self.asked.append(moment)

    def per_second(self, moments: deque[int], now: int, window: int) -> float:
        """How many of these a second in the window before now, or since it began, where that is later."""
        while moments and moments[0] <= now - window:
            moments.popleft()
        return len(moments) * ptp.SECOND / max(min(window, now - self.since), ptp.SECOND)

    def seen_per_second(self, now: int, window: int) -> float:
        return self.per_second(self.recent, now, window)

    def state(self, now: int) -> str:
        if self.is_live(now):
            return "granted"
        if not self.last_answer:
            return "not seen yet"
        return "over" if self.last_answer == "granted" else self.last_answer

    def is_short(self, now: int, window: int) -> bool:
        """Whether the client gets less than it was granted, and asked for where it asks for each message."""
        asked, due = self.per_second(self.asked, now, window), rate(self.log)
        judged = PERIODS / due * ptp.SECOND
        if not self.is_live(now) or judged > window or now - self.granted_at < judged:
            return False
        return self.seen_per_second(now, window) < ENOUGH * (min(due, asked) if self.is_asked else due)


@dataclass(slots=True)
class Ledger:
    """What was seen of the grandmaster of this address."""

    ip: str
    window: int
    capacity: int | None = None
    leases: dict[Owner, dict[str, Lease]] = field(default_factory=dict)
    by_address: dict[str, Owner] = field(default_factory=dict)
    counts: Counter[str] = field(default_factory=Counter)
    source: ptp.PortIdentity | None = None
    domain: int | None = None
    clock_class: int | None = None
    last: int = 0
    # When packets were missed last, by which rates are too low for the length of the window.
    missed_at: int | None = None

    def take(self, datagram: Datagram) -> None:
        """Takes one datagram; what is neither to nor from the grandmaster is passed over."""
        if self.ip not in (datagram.sender, datagram.receiver):
            return
        self.last = max(self.last, datagram.moment)
        try:
            message = ptp.read_message(datagram.octets)
        except ptp.Fault:
            self.counts["unreadable"] += 1
            return
        if datagram.sender == self.ip:
            self.take_sent(datagram, message)
        else:
            self.take_received(datagram, message)

    def take_sent(self, datagram: Datagram, message: ptp.Message) -> None:
        self.source, self.domain = message.source, message.domain
        if message.clock_class is not None:
            self.clock_class = message.clock_class
        if message.type == 12 and message.target:
            owner = (datagram.receiver, message.target)
            for tlv in message.tlvs:
                self.take_answer(owner, tlv, datagram.moment)
        elif message.kind:
            owner = self.owner_of(datagram.receiver, message)
            self.lease(owner, message.kind, datagram.moment).see(datagram.moment)

    def take_answer(self, owner: Owner, tlv: ptp.Tlv, moment: int) -> None:
        """A TLV of a Signaling that the grandmaster sent to a client."""
        kind = ptp.KINDS.get(tlv.code)
        if isinstance(tlv, ptp.Acknowledge):
            self.counts["acknowledges sent"] += 1
        elif isinstance(tlv, ptp.Cancel):
            self.counts["cancels sent"] += 1
            self.end(owner, kind, moment, "cancelled")
        elif isinstance(tlv, ptp.Grant) and kind:
            lease = self.lease(owner, kind, moment)
            if tlv.seconds:
                self.counts["grants"] += 1
                lease.grants += 1
                lease.granted_at = lease.granted_at if lease.is_live(moment) and lease.log == tlv.log else moment
                lease.log, lease.until = tlv.log, moment + tlv.seconds * ptp.SECOND
                lease.last_answer = "granted"
            else:
                self.counts["denials"] += 1
                lease.denials += 1
                lease.last_answer = "denied"

    def take_received(self, datagram: Datagram, message: ptp.Message) -> None:
        owner = (datagram.sender, message.source)
        if message.type == 1:
            self.counts["delay_reqs"] += 1
            if lease := self.leases.get(owner, {}).get("delay_resp"):
                lease.ask(datagram.moment)
        for tlv in message.tlvs:
            if isinstance(tlv, ptp.Request):
                self.counts["requests"] += 1
                self.by_address[datagram.sender] = owner
                self.adopt(owner)
            elif isinstance(tlv, ptp.Cancel):
                self.counts["cancels received"] += 1
                self.end(owner, ptp.KINDS.get(tlv.code), datagram.moment, "gave up")
            elif isinstance(tlv, ptp.Acknowledge):
                self.counts["acknowledges received"] += 1

    def owner_of(self, receiver: str, message: ptp.Message) -> Owner:
        """Whose a timing message is: its target's, where it names one, else the client's that was last seen there."""
        if message.target:
            known = self.by_address.get(receiver)
            if known and known[1] == message.target:
                return known
            owners = (it for it in self.leases if it[1] == message.target)
            return next(owners, (receiver, message.target))
        return self.by_address.get(receiver, (receiver, NOBODY))

    def lease(self, owner: Owner, kind: str, moment: int) -> Lease:
        if owner[1].clock:
            self.by_address.setdefault(owner[0], owner)
            self.adopt(owner)
        return self.leases.setdefault(owner, {}).setdefault(kind, Lease(moment))

    def adopt(self, owner: Owner) -> None:
        """Gives a client that is known now what was seen at its address before."""
        for kind, lease in self.leases.pop((owner[0], NOBODY), {}).items():
            self.leases.setdefault(owner, {}).setdefault(kind, lease)

    def end(self, owner: Owner, kind: str | None, moment: int, why: str) -> None:
        if kind and (lease := self.leases.get(owner, {}).get(kind)):
            lease.until = min(lease.until, moment)
            lease.last_answer = why

    def held(self, now: int) -> float:
        """The sum of the rates that are granted now, in sixteenths of a message per second."""
        live = (it for kinds in self.leases.values() for it in kinds.values() if it.is_live(now))
        return sum(16 * rate(it.log) for it in live)

    def snapshot(self, now: int, missed: int = 0, missed_now: int = 0) -> dict[str, Any]:
        """All of it at a moment, as it is written in JSON, those first that get less than they were granted."""
        held = self.held(now)
        self.missed_at = now if missed_now else self.missed_at
        are_least = self.missed_at is not None and now - self.missed_at < self.window
        owners = sorted(self.leases.items(), key=by_address)
        clients = [self.client(owner, kinds, now, are_least) for owner, kinds in owners]
        clients.sort(key=lambda it: not it["short"])
        leases = [it[kind] for it in clients for kind in ptp.CODES if kind in it]
        return {
            "moment": now / ptp.SECOND,
            "grandmaster": self.ip,
            "identity": str(self.source) if self.source else None,
            "domain": self.domain,
            "class": self.clock_class,
            "capacity": self.capacity,
            "held": int(held) if held == int(held) else held,
            "states": {it: sum(lease["state"] == it for lease in leases) for it in STATES},
            "short": sum(it["short"] for it in clients),
            "counts": dict(sorted(self.counts.items())),
            "missed": missed,
            "missed_now": missed_now,
            "rates_are_least": are_least,
            "clients": clients,
        }

    def client(self, owner: Owner, kinds: dict[str, Lease], now: int, are_least: bool) -> dict[str, Any]:
        """What a client has. Where packets were missed nobody is said to get too little."""
        leases = {kind: told(kinds[kind], now, self.window, are_least) for kind in ptp.CODES if kind in kinds}
        return {
            "address": owner[0],
            "identity": str(owner[1]) if owner[1].clock else None,
            "short": any(it["short"] for it in leases.values()),
            **leases,
        }


def by_address(item: tuple[Owner, dict[str, Lease]]) -> tuple[list[int], ptp.PortIdentity]:
    return [int(it) for it in item[0][0].split(".")], item[0][1]


def told(lease: Lease, now: int, window: int, are_least: bool) -> dict[str, Any]:
    state = lease.state(now)
    return {
        "state": state,
        "short": lease.is_short(now, window) and not are_least,
        "until": lease.until / ptp.SECOND if lease.until else None,
        # (of a grant that was not seen it is not known)
        "granted_per_second": rate(lease.log) if state == "granted" else None if state == "not seen yet" else 0,
        "seen_per_second": round(lease.seen_per_second(now, window), 3),
        "seen": lease.seen,
        "grants": lease.grants,
        "denials": lease.denials,
    }
