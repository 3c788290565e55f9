"""What happens in a scenario, event by event, and where the datagrams that its nodes send arrive."""

from __future__ import annotations

import random
from array import array
from collections.abc import Iterator
from functools import partial
from heapq import heappop, heappush

from agenda import MARK, Agenda, Group
from nodes import Act, Grandmaster, Slave, Way, Ways, nothing
from plan import SECOND, Change, Outage, Plan

# A part has about so many lines that are told.
PART_LINES = 4000


class Part:
    """What happens in a part of a scenario."""

    def __init__(self) -> None:
        # The moment before which it is whole.
        self.until = 0
        # The lines that a replay is told, of each how many datagrams it sends, and the numbers of these datagrams' ways.
        self.told: list[str] = []
        self.counts = array("I")
        self.ways = array("I")
        # The moments and the numbers of what arrives, and the lines of what is set, with their moments.
        self.arrivals = array("q")
        self.numbers = array("I")
        self.texts: list[tuple[int, str]] = []


class Course:
    """A plan that is run.

    What a slave is sent, but for Signalings, makes it send nothing: it is not among what a replay is told.
    """

    def __init__(self, plan: Plan) -> None:
        self.plan = plan
        self.chance = random.Random(plan.seed)
        self.ways = Ways(plan)
        self.grandmasters = {it.ip: Grandmaster(it) for it in plan.grandmasters}
        self.slaves = {it.ip: Slave(it, self.grandmasters, self.ways) for it in plan.slaves}
        self.agenda = Agenda(plan.length)
        # What makes its receiver send something, by the moment of its arrival and its number, as a heap.
        self.flying: list[tuple[int, int, Way]] = []
        self.datagrams = 0
        # The moments and ways of what was sent and was not let arrive yet.
        self.moments: list[int] = []
        self.sent: list[Way] = []
        self.part = Part()

    def set_up(self) -> None:
        lines = [it.line() for it in self.plan.grandmasters]
        for it in self.plan.slaves:
            lines += it.lines()
            stop = self.plan.length if it.stop is None else min(it.stop - 1, self.plan.length)
            self.agenda.add(it.start, f"tick {MARK} {it.ip}", self.slaves[it.ip].tick, self.plan.tick, stop)
            if it.stop is not None:
                self.agenda.add(it.stop, f"stop {MARK} {it.ip}", self.slaves[it.ip].stop)
        for ip, grandmaster in self.grandmasters.items():
            for table in sorted(grandmaster.turned):
                act = partial(grandmaster.turn, table)
                self.agenda.add(self.plan.turn, f"turn {MARK} {ip} {table}", act, self.plan.turn)
        for change in self.plan.changes:
            self.agenda.add(change.at, change.line(MARK), self.act_of(change))
        for outage in self.plan.outages:
            self.tell_outage(outage)
        self.part.told = [f"{it}\n" for it in lines]
        self.part.counts.extend([0] * len(lines))
        self.part.texts = [(-1, it) for it in self.part.told]

    def act_of(self, change: Change) -> Act:
        """What a change makes its node do."""
        if change.words == "capacity":
            ip, capacity = change.rest.split()
            return partial(self.grandmasters[ip].resize, int(capacity))
        return self.slaves[change.rest].stop if change.words == "stop" else nothing

    def tell_outage(self, outage: Outage) -> None:
        """Says in the script when an outage begins and ends."""
        who = " and ".join(sorted(outage.ends))
        times = f"{seconds(outage.start)} until {seconds(outage.until)}"
        self.agenda.add(outage.start, f"# From {times} s all from and to {who} is lost.", None)
        self.agenda.add(outage.until, f"# The outage of {who} is over.", None)

    def parts(self) -> Iterator[Part]:
        """All that happens."""
        self.set_up()
        for moment, group in self.agenda:
            self.arrive(moment)
            self.happen(moment, group)
            self.send()
            if len(self.part.counts) > PART_LINES:
                yield self.cut(moment)
        self.arrive(self.plan.length + 1)
        self.send()
        yield self.cut(self.plan.length + 1)

    def cut(self, moment: int) -> Part:
        part, self.part = self.part, Part()
        part.until = moment
        return part

    def arrive(self, until: int) -> None:
        """What makes its receiver send something arrives, as far as that is before a moment."""
        flying, moments, sent = self.flying, self.moments, self.sent
        tell, count = self.part.told.append, self.part.counts.append
        while flying and flying[0][0] < until:
            moment, number, way = heappop(flying)
            tell(f"deliver {moment} {number}\n")
            assert way.take
            ways = way.take(moment)
            count(len(ways))
            for it in ways:
                moments.append(moment)
                sent.append(it)
                if it.take:
                    self.send()

    def happen(self, moment: int, group: Group) -> None:
        """What is set at a moment happens."""
        text = group.at(moment)
        self.part.texts.append((moment, text))
        if group.acts:
            self.part.told.append(text)
        before = len(self.sent)
        for act in group.acts:
            ways = act(moment)
            self.part.counts.append(len(ways))
            self.sent += ways
        self.moments += [moment] * (len(self.sent) - before)

    def send(self) -> None:
        """Lets what was sent arrive, once, twice or never."""
        # (nearly all arrive once, and are done with here: this is gone through for each of them)
        draw, bits, flying = self.chance.random, self.chance.getrandbits, self.flying
        add_arrival, add_number = self.part.arrivals.append, self.part.numbers.append
        number = self.datagrams
        for moment, way in zip(self.moments, self.sent):
            number += 1
            least, width, width_bits, loss, repeat, outages = way.fate
            is_lost, is_twice = draw() < loss, draw() < repeat
            while (above := bits(width_bits)) >= width:
                pass
            arrival = moment + least + above
            if is_lost or is_twice or outages:
                self.fare(way, number, moment, arrival, is_lost, is_twice)
                continue
            add_arrival(arrival)
            add_number(number)
            if way.take:
                heappush(flying, (arrival, number, way))
        self.datagrams = number
        self.part.ways.extend([it.number for it in self.sent])
        self.moments.clear()
        self.sent.clear()

    def fare(self, way: Way, number: int, moment: int, arrival: int, is_lost: bool, is_twice: bool) -> None:
        """Lets a datagram arrive that is lost or repeated, or may meet an outage."""
        arrivals = [arrival]
        least, width, width_bits, _, _, outages = way.fate
        if is_twice:
            while (above := self.chance.getrandbits(width_bits)) >= width:
                pass
            arrivals.append(moment + least + above)
        for it in arrivals:
            is_cut = any(outage.covers(moment) or outage.covers(it) for outage in outages)
            if is_lost or is_cut:
                continue
            self.part.arrivals.append(it)
            self.part.numbers.append(number)
            if way.take:
                heappush(self.flying, (it, number, way))


def seconds(nanos: int) -> str:
    return f"{nanos // SECOND}.{nanos % SECOND:09d}".rstrip("0").rstrip(".")
