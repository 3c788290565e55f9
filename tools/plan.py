"""Scenarios as a planner writes them, in TOML: grandmasters, slaves, links, outages and changes."""

from __future__ import annotations

import tomllib
from collections import Counter
from collections.abc import Callable, Iterable
from dataclasses import dataclass, field
from decimal import Decimal
from difflib import get_close_matches
from ipaddress import AddressValueError, IPv4Address
from typing import Any

from endings import BadInput

SECOND = 10**9
LONGEST = 2**62 // SECOND - 1
RULES = ("flag", "gap")
# How many judges of a rule a script has.
JUDGES = 64


class PlanError(BadInput):
    """What is wrong in a scenario, and where."""


@dataclass(frozen=True, slots=True)
class Grandmaster:
    ip: str
    clock: str
    port: int
    domain: int
    clock_class: int
    capacity: int
    max_duration: int

    def line(self) -> str:
        who = f"gm {self.ip} {self.clock} {self.port} {self.domain}"
        return f"{who} {self.clock_class} {self.capacity} {self.max_duration}"


@dataclass(frozen=True, slots=True)
class Master:
    ip: str
    priority: int
    judge: str


@dataclass(frozen=True, slots=True)
class Slave:
    """A slave; `start` and `stop` are the moments of its first tick and of its stop, in nanoseconds."""

    ip: str
    clock: str
    port: int
    domain: int
    wait_to_restore: int
    announce_timeout: int
    sync_timeout: int
    delay_timeout: int
    log_announce: int
    log_sync: int
    log_delay: int | None
    duration: int
    masters: tuple[Master, ...]
    start: int
    stop: int | None

    @property
    def table(self) -> int:
        """The table of a grandmaster to which it belongs as a client."""
        return (int(self.clock[-2:], 16) + self.port) % 4

    def lines(self) -> list[str]:
        log_delay = "-" if self.log_delay is None else self.log_delay
        timeouts = f"{self.announce_timeout} {self.sync_timeout} {self.log_announce} {self.log_sync} {log_delay}"
        who = f"slave {self.ip} {self.clock} {self.port} {self.domain} {self.wait_to_restore}"
        first = f"{who} {timeouts} {self.duration} {self.delay_timeout}"
        return [first, *(f"master {self.ip} {it.ip} {it.priority} {it.judge}" for it in self.masters)]


@dataclass(frozen=True, slots=True)
class Link:
    """How datagrams fare on their way: the delay from least to greatest, and the shares lost and repeated."""

    least: int
    greatest: int
    loss: float
    repeat: float


@dataclass(frozen=True, slots=True)
class Outage:
    """A time in which what goes to or from one address, or between two, is lost."""

    ends: frozenset[str]
    start: int
    until: int

    def covers(self, moment: int) -> bool:
        return self.start <= moment < self.until


@dataclass(frozen=True, slots=True)
class Change:
    """What an operator does at a moment: a line of the script, by its words before its moment and behind it.

    One that has no moment has nothing behind.
    """

    at: int
    words: str
    rest: str = ""

    def line(self, moment: str) -> str:
        """Its line, with a mark for the moment."""
        return f"{self.words} {moment} {self.rest}" if self.rest else self.words


@dataclass(slots=True)
class Plan:
    length: int
    seed: int
    tick: int
    turn: int
    link: Link
    grandmasters: list[Grandmaster]
    slaves: list[Slave]
    links: dict[frozenset[str], Link] = field(default_factory=dict)
    outages: list[Outage] = field(default_factory=list)
    changes: list[Change] = field(default_factory=list)

    def link_of(self, ends: frozenset[str]) -> Link:
        return self.links.get(ends, self.link)


REQUIRED: Any = object()


class Table:
    """A table of the TOML, from which keys are taken one by one; one that is left over is refused."""

    def __init__(self, name: str, entries: Any) -> None:
        if not isinstance(entries, dict):
            raise PlanError(f"{name}: it is no table")
        self.name = name
        self.entries = dict(entries)
        self.keys: set[str] = set()

    def meant(self, key: str, keys: Iterable[str]) -> str:
        """Which of the keys one of a wrong name is like, as the end of a sentence."""
        like = get_close_matches(key, list(keys), 1)
        return f": is {like[0]} meant?" if like else ""

    def wrong(self, key: str, why: str) -> PlanError:
        return PlanError(f"{self.name}{'.' if self.name else ''}{key}: {why}")

    def take(self, key: str, read: Callable[[Any], Any], default: Any = REQUIRED) -> Any:
        self.keys.add(key)
        if key not in self.entries:
            if default is REQUIRED:
                for other in get_close_matches(key, list(self.entries), 1):
                    raise self.wrong(other, f"there is no such key here: is {key} meant?")
                raise self.wrong(key, "it is required")
            return default
        try:
            return read(self.entries.pop(key))
        except (ValueError, TypeError) as error:
            raise self.wrong(key, str(error)) from error

    def number(self, key: str, least: int, greatest: int, default: Any = REQUIRED) -> Any:
        def read(value: Any) -> int:
            if isinstance(value, bool) or not isinstance(value, int) or not least <= value <= greatest:
                raise ValueError(f"{shown(value)} is no whole number from {least} to {greatest}")
            return value

        return self.take(key, read, default)

    def tables(self, key: str) -> list[Table]:
        entries = self.take(key, lambda it: it, [])
        if not isinstance(entries, list):
            raise self.wrong(key, "it is no list of tables")
        return [Table(f"{key}[{at}]", it) for at, it in enumerate(entries)]

    def done(self) -> None:
        for key in self.entries:
            raise self.wrong(key, f"there is no such key here{self.meant(key, self.keys)}")


def shown(value: Any) -> str:
    return str(value) if isinstance(value, (Decimal, int)) else repr(value)


def moment(value: Any) -> int:
    """Seconds as a whole number of nanoseconds."""
    if isinstance(value, bool) or not isinstance(value, (int, Decimal)) or not 0 <= value <= LONGEST:
        raise ValueError(f"{shown(value)} is no number of seconds from 0 to {LONGEST}")
    return int(Decimal(value) * SECOND)


def interval(value: Any) -> int:
    if not (taken := moment(value)):
        raise ValueError("it is not above 0")
    return taken


def share(value: Any) -> float:
    if isinstance(value, bool) or not isinstance(value, (int, Decimal)) or not 0 <= value <= 1:
        raise ValueError(f"{shown(value)} is no share from 0 to 1")
    return float(value)


def delays(value: Any) -> tuple[int, int]:
    """One delay, or the least and the greatest."""
    both = value if isinstance(value, list) else [value, value]
    if len(both) != 2:
        raise ValueError("it is neither a number of seconds nor a list of two")
    least, greatest = interval(both[0]), interval(both[1])
    if least > greatest:
        raise ValueError("the first is the greater one")
    return least, greatest


def address(value: Any) -> str:
    try:
        return str(IPv4Address(str(value)))
    except AddressValueError as error:
        raise ValueError(f"{shown(value)} is no IPv4 address") from error


def clock(value: Any) -> str:
    if not isinstance(value, str) or len(value) != 16 or set(value.lower()) - set("0123456789abcdef"):
        raise ValueError(f"{shown(value)} is no clock identity of 16 hexadecimal digits")
    return value.lower()


def truth(value: Any) -> bool:
    if not isinstance(value, bool):
        raise ValueError(f"{shown(value)} is neither true nor false")
    return value


def rule(value: Any) -> str:
    if value not in RULES:
        raise ValueError(f"{shown(value)} is neither flag nor gap")
    return str(value)


def grandmaster(table: Table) -> Grandmaster:
    ip = table.take("ip", address)
    made = Grandmaster(
        ip=ip,
        clock=table.take("clock", clock, f"0a00fffe{int(IPv4Address(ip)):08x}"),
        port=table.number("port", 1, 65534, 1),
        domain=table.number("domain", 4, 23, 4),
        clock_class=table.number("class", 0, 255, 84),
        capacity=table.number("capacity", 1, 16777216),
        max_duration=table.number("max_duration", 60, 1000, 1000),
    )
    table.done()
    return made


def master(name: str, at: int, entry: Any) -> Master:
    """A master of a slave: an address alone, whose priority is then its place, or a table."""
    table = Table(name, {"ip": entry, "priority": at + 1} if isinstance(entry, str) else entry)
    made = Master(table.take("ip", address), table.number("priority", 0, 255, 128), table.take("judge", rule, "flag"))
    table.done()
    return made


def slaves(table: Table) -> list[Slave]:
    """The slaves of one table: `count` of them with consecutive addresses, whose starts are spread over a time."""
    count = table.number("count", 1, 10000, 1)
    ip = IPv4Address(table.take("ip", address))
    first_clock = int(table.take("clock", clock, f"0a00fffe{int(ip):08x}"), 16)
    start, spread = table.take("start", moment, 0), table.take("spread", moment, 0)
    entries = table.take("masters", list)
    shared = {
        "port": table.number("port", 1, 65534, 1),
        "domain": table.number("domain", 4, 23, 4),
        "wait_to_restore": table.number("wait_to_restore", 0, 720, 300),
        "announce_timeout": table.number("announce_timeout", 2, 10, 3),
        "sync_timeout": table.number("sync_timeout", 2, 10, 3),
        "delay_timeout": table.number("delay_timeout", 2, 10, 3),
        "log_announce": table.number("log_announce", -3, 4, 1),
        "log_sync": table.number("log_sync", -7, 4, -4),
        "log_delay": table.number("log_delay", -7, 4, None),
        "duration": table.number("duration", 60, 1000, 300),
        "masters": tuple(master(f"{table.name}.masters[{at}]", at, it) for at, it in enumerate(entries)),
        "stop": table.take("stop", moment, None),
    }
    table.done()
    return [
        Slave(ip=str(ip + at), clock=f"{first_clock + at:016x}", start=start + spread * at // count, **shared)
        for at in range(count)
    ]


def link(table: Table, least: int, greatest: int, loss: float, repeat: float) -> Link:
    least, greatest = table.take("delay", delays, (least, greatest))
    return Link(least, greatest, table.take("loss", share, loss), table.take("repeat", share, repeat))


def pair(value: Any) -> frozenset[str]:
    ends = frozenset(address(it) for it in value) if isinstance(value, list) else frozenset()
    if len(ends) != 2:
        raise ValueError("it is no list of two addresses")
    return ends


def outage(table: Table) -> Outage:
    ends = table.take("between", pair, None) or frozenset([table.take("node", address)])
    made = Outage(ends, table.take("from", moment), table.take("until", moment))
    table.done()
    return made


def change(table: Table) -> Change:
    """One change: the capacity or class of a grandmaster, or a slave's stop, flag or judge."""
    at, node = table.take("at", moment), table.take("node", address)
    match next(iter(table.entries), None):
        case "capacity":
            line = ("capacity", f"{node} {table.number('capacity', 1, 16777216)}")
        case "class":
            line = (f"class {node} {table.number('class', 0, 255)}", "")
        case "stop":
            if not table.take("stop", truth):
                raise table.wrong("stop", "it is false")
            line = ("stop", node)
        case "master" | "unusable" | "judge":
            of = table.take("master", address)
            if "judge" in table.entries:
                line = ("judge", f"{node} {of} {table.take('judge', rule)}")
            else:
                line = ("flag", f"{node} {of} {int(table.take('unusable', truth))}")
        case _:
            raise table.wrong("node", "none of capacity, class, stop, unusable and judge is there")
    table.done()
    return Change(at, *line)


def check_nodes(plan: Plan) -> None:
    masters = {it.ip for it in plan.grandmasters}
    nodes = masters | {it.ip for it in plan.slaves}
    if not masters or not plan.slaves:
        raise PlanError("a scenario has at least one grandmaster and one slave")
    if len(nodes) != len(plan.grandmasters) + len(plan.slaves):
        raise PlanError("two nodes have one address")
    for it in plan.slaves:
        for ip in sorted({of.ip for of in it.masters} - masters):
            raise PlanError(f"slaves: the master {ip} of {it.ip} is none of the grandmasters")
        if not 1 <= len(it.masters) <= 16:
            raise PlanError(f"slaves: {it.ip} has {len(it.masters)} masters, and a slave has 1 to 16")
        for ip, count in Counter(of.ip for of in it.masters).items():
            if count > 1:
                raise PlanError(f"slaves: {it.ip} has the master {ip} twice")
    for it in plan.outages:
        if strangers := it.ends - nodes:
            raise PlanError(f"outages: {min(strangers)} is no node's address")
    for ends in plan.links:
        if strangers := ends - nodes:
            raise PlanError(f"links: {min(strangers)} is no node's address")


def check_changes(plan: Plan) -> None:
    """Each change is one of a grandmaster, or of a slave, or of a slave and one of its masters."""
    grandmasters = {it.ip for it in plan.grandmasters}
    masters = {it.ip: {of.ip for of in it.masters} for it in plan.slaves}
    for it in plan.changes:
        name, *nodes = f"{it.words} {it.rest}".split()
        if name in ("capacity", "class"):
            if nodes[0] not in grandmasters:
                raise PlanError(f"changes: {nodes[0]} is no grandmaster, of which the {name} could change")
        elif nodes[0] not in masters:
            raise PlanError(f"changes: {nodes[0]} is no slave")
        elif name != "stop" and nodes[1] not in masters[nodes[0]]:
            raise PlanError(f"changes: {nodes[1]} is no master of {nodes[0]}")


def check_judges(plan: Plan) -> None:
    """Each master of a slave takes a judge of its rule, and so does each change of a judge."""
    taken = Counter(master.judge for slave in plan.slaves for master in slave.masters)
    taken += Counter(it.rest.split()[-1] for it in plan.changes if it.words == "judge")
    for rule_name, count in taken.items():
        if count > JUDGES:
            text = f"the judge {rule_name} is wanted {count} times, once a master of a slave and once a change of judge"
            raise PlanError(f"slaves: {text}, and a script has {JUDGES}: take fewer slaves or masters")


def read_plan(text: str) -> Plan:
    """Reads a scenario, or raises PlanError."""
    try:
        top = Table("", tomllib.loads(text, parse_float=Decimal))
    except tomllib.TOMLDecodeError as error:
        raise PlanError(str(error)) from error
    grandmasters = [grandmaster(it) for it in top.tables("grandmasters")]
    all_slaves = [it for table in top.tables("slaves") for it in slaves(table)]
    whole = link(top, SECOND // 1000, SECOND // 1000, 0.0, 0.0)
    shortest = min((2.0 ** min(it.log_announce, it.log_sync) for it in all_slaves), default=1.0)
    asked = min((2.0**it.log_delay for it in all_slaves if it.log_delay is not None), default=1.0)
    plan = Plan(
        length=top.take("length", interval),
        seed=top.number("seed", 0, 2**63 - 1, 0),
        tick=top.take("tick", interval, int(min(1.0, asked) * SECOND)),
        turn=top.take("turn", interval, int(min(1.0, shortest) * SECOND)),
        link=whole,
        grandmasters=grandmasters,
        slaves=all_slaves,
        outages=[outage(it) for it in top.tables("outages")],
        changes=[change(it) for it in top.tables("changes")],
    )
    for table in top.tables("links"):
        ends = table.take("between", pair)
        plan.links[ends] = link(table, whole.least, whole.greatest, whole.loss, whole.repeat)
        table.done()
    top.done()
    check_nodes(plan)
    check_changes(plan)
    check_judges(plan)
    return plan
