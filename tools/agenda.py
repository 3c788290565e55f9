"""What happens in a scenario at set times, in order: what was added first at one moment comes first."""

from __future__ import annotations

import heapq
from collections.abc import Iterator
from dataclasses import dataclass

from nodes import Act, nothing

# Where the moment stands in the form of a line.
MARK = "@"
@dataclass(frozen=True, slots=True)
class Event:
    """A line with a mark for its moment, and what happens at it, or None for a comment. It comes again until a moment."""

    line: str
    act: Act | None
    until: int


class Group:
    """Events of one moment, which come again together after `every` nanoseconds, where that is not 0."""

    def __init__(self, every: int, events: list[Event]) -> None:
        self.every = every
        self.events: list[Event] = []
        self.join(events)

    def join(self, events: list[Event]) -> None:
        self.events += events
        self.text = "".join([it.line for it in self.events])
        self.acts = [it.act for it in self.events if it.act]
        self.until = min([it.until for it in self.events])

    def at(self, moment: int) -> str:
        """Its lines with a moment."""
        return self.text.replace(MARK, str(moment))


class Agenda:
    """What is set, by its moments, up to the end of a scenario."""

    def __init__(self, length: int) -> None:
        self.length = length
        # The groups that are to come, as a heap, each with its moment and its number.
        self.groups: list[tuple[int, int, Group]] = []
        self.count = 0
        self.latest: tuple[int, Group] | None = None

    def add(self, moment: int, line: str, act: Act | None = nothing, every: int = 0, until: int | None = None) -> None:
        """Adds a line, which comes again until a moment where `every` is not 0."""
        if moment <= self.length:
            self.push(moment, Group(every, [Event(f"{line}\n", act, self.length if until is None else until)]))

    def push(self, moment: int, group: Group) -> None:
        self.count += 1
        self.latest = (moment, group)
        heapq.heappush(self.groups, (moment, self.count, group))

    def come_again(self, moment: int, group: Group) -> None:
        """Adds the next of a group. Of two of one interval that are added one right behind the other, one is made."""
        due = moment + group.every
        if due > group.until:
            events = [it for it in group.events if due <= it.until]
            if not events:
                return
            group = Group(group.every, events)
        if self.latest and self.latest[0] == due and self.latest[1].every == group.every:
            self.latest[1].join(group.events)
        else:
            self.push(due, group)

    def __iter__(self) -> Iterator[tuple[int, Group]]:
        """All groups with their moments, in order."""
        while self.groups:
            moment, _, group = heapq.heappop(self.groups)
            yield moment, group
            if group.every:
                self.come_again(moment, group)
