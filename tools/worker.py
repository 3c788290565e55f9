"""A process beside a tool, which is told parts of something one by one, and answers at the end."""

from __future__ import annotations

from collections.abc import Callable
from multiprocessing import get_context
from multiprocessing.connection import Connection
from typing import Any

import endings


def run(work: Callable[..., Any], own: Connection, other: Connection, given: tuple[Any, ...]) -> None:
    other.close()
    try:
        own.send(work(own, *given))
    except (EOFError, ConnectionError, KeyboardInterrupt):
        # (who started it has ended, or ends)
        pass


class Worker:
    """Runs `work` in a process of its own: it receives what is told, up to None, and what it gives is the answer.

    It may answer before it is told all.
    """

    def __init__(self, work: Callable[..., Any], *given: Any) -> None:
        context = get_context("fork")
        try:
            self.own, other = context.Pipe()
            self.process = context.Process(target=run, args=(work, other, self.own, given), daemon=True)
            self.process.start()
        except OSError as error:
            why = f"no further process is to be had: {error.strerror}"
            raise endings.Stopped(endings.UNAVAILABLE, why) from error
        other.close()

    def tell(self, part: Any) -> bool:
        """Tells it a part, and says no where it has answered already."""
        try:
            self.own.send(part)
        except ConnectionError:
            return False
        return True

    def answer(self) -> Any:
        """Tells it that there is no more, and waits for its answer."""
        self.tell(None)
        try:
            return self.own.recv()
        except (EOFError, ConnectionError):
            raise endings.Stopped(endings.INTERNAL, "a process that worked beside it has ended") from None

    def __enter__(self) -> Worker:
        return self

    def __exit__(self, *_: object) -> None:
        self.close()

    def close(self) -> None:
        self.process.kill()
        self.process.join()
        self.own.close()
