"""Lines that are waited for: those of a daemon, whose output is a pipe, and those that go to a terminal.

It refuses a program that keeps such lines back until a block is full or its run has ended.
"""

from __future__ import annotations

import os
import pty
import select
import socket
import subprocess
import tty
import unittest

from support import PATIENCE, program, wants_program

# A slave that asks at an address where nobody answers, for longer than any test takes.
SLAVE = """
ip = "127.0.0.1"
event_port = {event}
general_port = {general}
clock = "00b0aefffe000010"
rounds = 4294967295

[[masters]]
ip = "127.0.0.2"
"""


def free_ports() -> tuple[int, int]:
    """Two numbers of UDP ports that nobody has at the loopback address."""
    with socket.socket(type=socket.SOCK_DGRAM) as event, socket.socket(type=socket.SOCK_DGRAM) as general:
        for it in (event, general):
            it.bind(("127.0.0.1", 0))
        return event.getsockname()[1], general.getsockname()[1]


def piece(source: int) -> bytes:
    """What comes out of a pipe or a terminal next; nothing where nothing comes."""
    ready, _, _ = select.select([source], [], [], PATIENCE)
    return os.read(source, 4096) if ready else b""


@wants_program
class Pipe(unittest.TestCase):
    def test_a_slave_tells_its_first_selection_while_it_runs(self) -> None:
        event, general = free_ports()
        words = [str(program()), "slave"]
        with subprocess.Popen(words, stdin=subprocess.PIPE, stdout=subprocess.PIPE) as daemon:
            assert daemon.stdin and daemon.stdout
            daemon.stdin.write(SLAVE.format(event=event, general=general).encode())
            daemon.stdin.close()
            try:
                self.assertEqual(piece(daemon.stdout.fileno()), b"round 1 selected none\n")
                self.assertIsNone(daemon.poll())
            finally:
                daemon.kill()


@wants_program
class Terminal(unittest.TestCase):
    def test_a_replay_answers_a_line_before_the_next_is_told(self) -> None:
        try:
            terminal, output = pty.openpty()
        except OSError:
            self.skipTest("no pseudo-terminal is to be had")
        tty.setraw(output)
        with subprocess.Popen([str(program()), "replay"], stdin=subprocess.PIPE, stdout=output, bufsize=0) as replay:
            os.close(output)
            assert replay.stdin
            try:
                replay.stdin.write(b"gm 10.0.0.1 0a00000000000001 1 4 84 8 300\n")
                for line in (2, 3):
                    replay.stdin.write(b"rx 1 10.0.0.1 10.0.0.1 -\n")
                    self.assertEqual(piece(terminal), b"%d ignored fault short 0\n" % line)
            finally:
                replay.kill()
                os.close(terminal)


if __name__ == "__main__":
    unittest.main()
