"""A `ptpuni replay` that runs beside a tool: it is told a script, and what it sends has to be what was foretold."""

from __future__ import annotations

import fcntl
import os
import re
import select
import subprocess
from array import array
from collections.abc import Iterable, Sequence
from multiprocessing.connection import Connection

import endings
from worker import Worker

# What it says of a datagram that a line sent: the number of the line, and the way of the datagram with its first octet.
SENT = re.compile(rb"\n([0-9]+) send [0-9]+ ([0-9.]+ [0-9.]+ [a-z]+ [0-9a-f]{2})")
BAD = re.compile(rb"\n([0-9]+ bad [^\n]*)")
# How long it may do nothing, in seconds.
PATIENCE = 600.0
# The size of the pipes to it and from it, in octets, and fcntl's number for that.
PIPE, SET_PIPE_SIZE = 1 << 20, 1031
EARLY = "ended before its script did"
DIFFERS = "does not do what docs/PROFILE.md says"


def widen(end: int) -> None:
    """Makes a pipe larger, where that is allowed."""
    try:
        fcntl.fcntl(end, SET_PIPE_SIZE, PIPE)
    except OSError:
        pass


class ReplayError(RuntimeError):
    """Why the program did not do what was foretold, or is not to be had."""

    def __init__(self, why: str, status: int = endings.INTERNAL) -> None:
        super().__init__(why)
        self.status = status


class Check:
    """Compares what is sent with what was foretold, as both become known: by line and way, as a report spells them."""

    def __init__(self, spelled: list[bytes]) -> None:
        self.spelled = spelled
        self.foretold: list[tuple[bytes, bytes]] = []
        self.sent: list[tuple[bytes, bytes]] = []
        # How many lines were told, and how many datagrams are as foretold.
        self.lines = 0
        self.agreed = 0
        # The last line of the report that is whole, and what is behind it, each with the line's end before it.
        self.last, self.rest = b"", b"\n"

    def tell(self, counts: Sequence[int], ways: Iterable[int]) -> None:
        """Takes how many datagrams each further line sends, and the ways of these."""
        lines = [it for at, count in enumerate(counts, self.lines + 1) for it in (b"%d" % at,) * count]
        self.foretold += zip(lines, map(self.spelled.__getitem__, ways))
        self.lines += len(counts)

    def read(self, octets: bytes) -> str:
        """Takes octets of the report, and says what is wrong with them."""
        text = self.rest + octets
        end = text.rfind(b"\n")
        text, self.rest = text[:end], text[end:]
        self.last = text[text.rfind(b"\n") :] or self.last
        if b" bad " in text and (bad := BAD.search(text)):
            return f"refused a line: {bad[1].decode()}"
        self.sent += SENT.findall(text)
        return ""

    def compare(self) -> str:
        """Compares what is known of both, and says where they differ."""
        count = min(len(self.foretold), len(self.sent))
        foretold, sent = self.foretold[:count], self.sent[:count]
        if foretold != sent:
            at = next(at for at in range(count) if foretold[at] != sent[at])
            told = f"{said(*sent[at])}, and not {said(*foretold[at])}"
            return f"{DIFFERS}: it sends datagram {self.agreed + at + 1} {told}"
        del self.foretold[:count], self.sent[:count]
        self.agreed += count
        return ""

    def end(self) -> str:
        """Says at the end of the report what is wrong with it."""
        words = self.last.split()
        if self.rest != b"\n" or words[:1] != [b"end"] or int(words[1]) != self.lines:
            return EARLY
        due = self.agreed + len(self.foretold)
        sent = max(int(words[2]), self.agreed + len(self.sent))
        return f"{DIFFERS}: it sends {sent} datagrams, and not {due}" if sent != due else ""


def said(line: bytes, way: bytes) -> str:
    return f"on line {line.decode()} of what it is told ({way.decode()})"


def check(report: int, told: Connection, spelled: list[bytes]) -> str:
    """Reads a report, and what is told of its script, both to their ends or to what is wrong, and says what that is."""
    found = Check(spelled)
    sources: list[int | Connection] = [report, told]
    while sources:
        ready, _, _ = select.select(sources, [], [], PATIENCE)
        if not ready:
            return f"did nothing for {PATIENCE:.0f} s"
        if told in ready:
            if lines := told.recv():
                found.tell(*lines)
            else:
                sources.remove(told)
        if report in ready:
            octets = os.read(report, PIPE)
            if why := found.read(octets):
                return why
            if not octets:
                sources.remove(report)
        if why := found.compare():
            return why
    return found.end()


def run_check(told: Connection, report: int, output: int, spelled: list[bytes]) -> str:
    """(the output is the program's, and another end of it would keep the report from its end)"""
    os.close(output)
    return check(report, told, spelled)


class Replay:
    """A `ptpuni replay` that is told a script, while another process compares what it sends with what was foretold.

    Lines are told by their text, with how many datagrams each sends, and the numbers of their ways, which `spelled` has
    as the report says them.
    """

    def __init__(self, program: str, spelled: list[bytes]) -> None:
        self.program = program
        report, output = os.pipe()
        for end in (report, output):
            widen(end)
        try:
            # (this comes first, so that it has no end of the pipe to the program)
            self.checker = Worker(run_check, report, output, spelled)
            self.process = subprocess.Popen([program, "replay"], stdin=subprocess.PIPE, stdout=output, bufsize=0)
        except OSError as error:
            self.checker.close()
            why = f"{program} does not start: {error.strerror}: name a built program by PTPUNI=FILE"
            raise ReplayError(why, endings.UNAVAILABLE) from error
        finally:
            for end in (report, output):
                os.close(end)
        assert self.process.stdin
        self.input = self.process.stdin.fileno()
        os.set_blocking(self.input, False)
        widen(self.input)

    def tell(self, text: str, counts: array[int], ways: array[int]) -> None:
        """Tells it lines, each with its end."""
        octets = memoryview(text.encode())
        room = select.poll()
        room.register(self.input, select.POLLOUT)
        is_on = self.checker.tell((counts, ways))
        while is_on and octets:
            if not room.poll(PATIENCE * 1000):
                raise ReplayError(f"{self.program} read nothing for {PATIENCE:.0f} s")
            try:
                octets = octets[os.write(self.input, octets) :]
            except BrokenPipeError:
                is_on = False
        if not is_on:
            self.end()

    def end(self) -> None:
        """Ends the script, and sees that all is as was foretold."""
        assert self.process.stdin
        self.process.stdin.close()
        why = self.checker.answer()
        if why in ("", EARLY):
            # (its report is over, and so is it)
            status = self.process.wait()
            if why or status:
                why = f"ended with status {status}{' before its script did' if why else ''}"
        if why:
            raise ReplayError(f"{self.program} {why}")

    def __enter__(self) -> Replay:
        return self

    def __exit__(self, *_: object) -> None:
        self.close()

    def close(self) -> None:
        if self.process.poll() is None:
            self.process.kill()
            self.process.wait()
        self.checker.close()
