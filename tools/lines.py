"""The script of a scenario, which is written by a process of its own.

At one moment that comes first which is set, in the order in which it happens, and then what arrives, by the numbers of the
datagrams.
"""

from __future__ import annotations

from bisect import bisect_left
from collections import deque
from collections.abc import Iterable
from multiprocessing.connection import Connection

LARGEST_SCRIPT = 67108864


class Lines:
    """The lines of a script: what is set is added in order, and what arrives in any."""

    def __init__(self) -> None:
        # Of what arrives the moment and the number of the datagram; of what is set a number below 0, in order.
        self.waiting: list[tuple[int, int]] = []
        self.texts: deque[str] = deque()
        self.count = -LARGEST_SCRIPT
        self.written: list[str] = []
        self.size = 0

    def write(self, text: str) -> None:
        self.written.append(text)
        self.size += len(text)

    def add(self, arrivals: Iterable[int], numbers: Iterable[int], texts: list[tuple[int, str]]) -> None:
        """Adds what arrives, and the lines of what is set, each with its moment."""
        self.waiting.extend(zip(arrivals, numbers))
        for self.count, (moment, text) in enumerate(texts, self.count + 1):
            self.waiting.append((moment, self.count))
            self.texts.append(text)

    def settle(self, moment: int) -> None:
        """Writes the lines before a moment, in order: nothing is added before it any more."""
        self.waiting.sort()
        end = bisect_left(self.waiting, (moment,))
        text = self.texts.popleft
        self.write("".join([f"deliver {at} {it}\n" if it > 0 else text() for at, it in self.waiting[:end]]))
        del self.waiting[:end]


def write_lines(told: Connection, head: str) -> bytes:
    """Writes a script from its parts; where it is larger than the largest one it ends with that."""
    lines = Lines()
    lines.write(head)
    while lines.size <= LARGEST_SCRIPT and (part := told.recv()):
        moment, *added = part
        lines.add(*added)
        lines.settle(moment)
    return "".join(lines.written).encode()
