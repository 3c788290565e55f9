"""Processes beside a tool."""

from __future__ import annotations

import os
import select
import signal
import subprocess
import sys
import unittest
from multiprocessing.connection import Connection
from pathlib import Path
from unittest import mock

import endings
import worker
from support import PATIENCE, TOOLS

# One that waits to be told more; who started it says its number, and is killed.
KILLED = """
import os, signal, test_worker, worker
it = worker.Worker(test_worker.summed, 5)
print(it.process.pid, flush=True)
os.kill(os.getpid(), signal.SIGKILL)
"""


def summed(told: Connection, first: int) -> int:
    return first + sum(iter(told.recv, None))


def three(told: Connection) -> list[int]:
    """Answers after three."""
    return [told.recv() for _ in range(3)]


def ended(told: Connection) -> None:
    os._exit(3)


class Workers(unittest.TestCase):
    def test_an_answer(self) -> None:
        with worker.Worker(summed, 5) as it:
            self.assertTrue(it.tell(10) and it.tell(20))
            self.assertEqual(it.answer(), 35)

    def test_an_early_answer(self) -> None:
        """Who goes on to tell is told so."""
        with worker.Worker(three) as it:
            self.assertTrue(it.tell(1) and it.tell(2) and it.tell(3))
            it.process.join()
            self.assertFalse(it.tell(4))
            self.assertEqual(it.answer(), [1, 2, 3])

    def test_one_that_ends(self) -> None:
        with worker.Worker(ended) as it, self.assertRaises(endings.Stopped) as caught:
            it.answer()
        self.assertEqual(caught.exception.status, endings.INTERNAL)

    def test_one_that_is_not_needed_any_more(self) -> None:
        with worker.Worker(summed, 5) as it:
            process = it.process
        self.assertFalse(process.is_alive())

    def test_one_whose_starter_was_killed(self) -> None:
        """It ends, too: it has no end of its own to what it is told."""
        path = f"{TOOLS}:{Path(__file__).resolve().parent}"
        words = [sys.executable, "-B", "-c", KILLED]
        with subprocess.Popen(words, stdout=subprocess.PIPE, env=os.environ | {"PYTHONPATH": path}) as started:
            assert started.stdout
            number = int(started.stdout.readline())
            # (both have this output, which is over when both have ended)
            is_over = bool(select.select([started.stdout], [], [], PATIENCE)[0])
            if not is_over:
                os.kill(number, signal.SIGKILL)
        self.assertTrue(is_over)

    def test_none_is_to_be_had(self) -> None:
        with mock.patch("os.fork", side_effect=BlockingIOError(11, "Resource temporarily unavailable")):
            with self.assertRaises(endings.Stopped) as caught:
                worker.Worker(three)
        self.assertEqual(caught.exception.status, endings.UNAVAILABLE)


if __name__ == "__main__":
    unittest.main()
