"""What the tests share: the tools as modules and as commands, the program, and captures that are made."""

from __future__ import annotations

import importlib.util
import io
import os
import struct
import subprocess
import sys
import unittest
from collections.abc import Iterable
from functools import cache
from importlib.machinery import SourceFileLoader
from ipaddress import IPv4Address
from pathlib import Path
from types import ModuleType
from unittest import mock

TOOLS = Path(__file__).resolve().parent.parent
EXAMPLES = TOOLS.parent / "examples"
DATA = Path(__file__).resolve().parent / "data"
REPORT = DATA / "falling-capacity.report"
PTP4L = DATA / "ptp4l.pcap"
# What takes a second on an idle machine may take minutes on a busy one: in seconds.
PATIENCE = 300


@cache
def tool(name: str) -> ModuleType:
    """A tool's script as a module."""
    loader = SourceFileLoader(name.replace("-", "_"), str(TOOLS / name))
    spec = importlib.util.spec_from_loader(loader.name, loader)
    assert spec
    module = importlib.util.module_from_spec(spec)
    sys.modules[loader.name] = module
    loader.exec_module(module)
    return module


class Stream(io.TextIOWrapper):
    """A standard stream in memory."""

    def __init__(self, given: bytes = b"") -> None:
        self.octets = io.BytesIO(given)
        super().__init__(self.octets, encoding="utf-8")

    def content(self) -> bytes:
        self.flush()
        return self.octets.getvalue()


def run(name: str, *words: str | Path, given: bytes = b"") -> subprocess.CompletedProcess[bytes]:
    """Runs a tool to its end, in this process: to start python so often takes longer than the tests."""
    argv = [name, *map(str, words)]
    out, err = Stream(), Stream()
    with (
        mock.patch.multiple(sys, argv=argv, stdin=Stream(given), stdout=out, stderr=err),
        mock.patch("signal.signal"),
    ):
        try:
            status = tool(name).main()
        except SystemExit as end:
            status = int(end.code or 0)
    return subprocess.CompletedProcess(argv, status, out.content(), err.content())


@cache
def program() -> Path | None:
    """The program, where there is one that need not be built first."""
    found = os.environ.get("PTPUNI") or subprocess.run(
        [str(TOOLS.parent / "ptpuni"), "--where"], capture_output=True, text=True
    ).stdout.removesuffix("\n")
    return Path(found) if found and os.access(found, os.X_OK) else None


wants_program = unittest.skipUnless(program(), "no program is built, and $PTPUNI names none")


def ptpuni(word: str, given: bytes) -> bytes:
    return subprocess.run([str(program()), word], input=given, capture_output=True, timeout=PATIENCE).stdout


def ip_packet(sender: str, receiver: str, port: int, octets: bytes) -> bytes:
    udp = struct.pack(">HHHH", port, port, len(octets) + 8, 0) + octets
    addresses = IPv4Address(sender).packed + IPv4Address(receiver).packed
    return struct.pack(">BBHHHBBH", 0x45, 0, len(udp) + 20, 0, 0, 64, 17, 0) + addresses + udp


def ethernet(packet: bytes, tag: bytes = b"") -> bytes:
    return bytes(12) + tag + b"\x08\x00" + packet


def pcap(frames: Iterable[tuple[int, bytes]], order: str = "<", link_type: int = 1, per_second: int = 10**6) -> bytes:
    """A pcap of frames with moments in nanoseconds."""
    magic = 0xA1B2C3D4 if per_second == 10**6 else 0xA1B23C4D
    made = [struct.pack(order + "IHHiIII", magic, 2, 4, 0, 0, 65535, link_type)]
    for moment, frame in frames:
        parts = moment % 10**9 * per_second // 10**9
        made.append(struct.pack(order + "IIII", moment // 10**9, parts, len(frame), len(frame)) + frame)
    return b"".join(made)


def pcapng(frames: Iterable[tuple[int, bytes]], order: str = "<", name: str = "", digits: int = 9) -> bytes:
    """A section of pcapng with frames, whose moments are counted by so many digits of a second."""

    def block(block_type: int, body: bytes) -> bytes:
        size = struct.pack(order + "I", len(body) + 12)
        return struct.pack(order + "I", block_type) + size + body + size

    option = struct.pack(order + "HHBxxxHH", 9, 1, digits, 0, 0)
    if name:
        octets = name.encode()
        option = struct.pack(order + "HH", 2, len(octets)) + octets + bytes(-len(octets) % 4) + option
    made = block(0x0A0D0D0A, struct.pack(order + "IHHq", 0x1A2B3C4D, 1, 0, -1))
    made += block(1, struct.pack(order + "HHI", 1, 0, 0) + option)
    for moment, frame in frames:
        parts = moment * 10**digits // 10**9
        head = struct.pack(order + "IIIII", 0, parts >> 32, parts & 0xFFFFFFFF, len(frame), len(frame))
        made += block(6, head + frame + bytes(-len(frame) % 4))
    return made


def signaling(source: str, target: str, sequence: int, tlvs: str) -> bytes:
    """A Signaling; identities are 20 hexadecimal digits, and TLVs digits too."""
    length = 44 + len(tlvs) // 2
    return bytes.fromhex(f"0c12{length:04x}04000400{'00' * 12}{source}{sequence:04x}057f{target}{tlvs}")


def timing(message_type: int, source: str, sequence: int, moment: int, flags: int = 0x400, rest: str = "") -> bytes:
    """A Sync (0), Delay_Req (1), Follow_Up (8), Delay_Resp (9) or Announce (11) with the timestamp of a moment."""
    seconds, nanos = divmod(moment, 10**9)
    length = 44 + len(rest) // 2
    head = f"{message_type:02x}12{length:04x}0400{flags:04x}{'00' * 12}{source}{sequence:04x}007f"
    return bytes.fromhex(f"{head}{seconds:012x}{nanos:08x}{rest}")


Event = tuple[int, str, str, bytes]


def capture_of(events: Iterable[Event]) -> bytes:
    """A capture of datagrams, each with its moment in nanoseconds, its sender and its receiver."""
    frames = []
    for moment, sender, receiver, octets in events:
        port = 319 if octets[0] & 15 in (0, 1) else 320
        frames.append((moment, ethernet(ip_packet(sender, receiver, port, octets))))
    return pcap(frames, per_second=10**9)


def beside(ip: str, script: str, report: str) -> list[Event]:
    """What a capture beside a grandmaster shows, where its script and its report tell what happened."""
    sent: dict[int, list[Event]] = {}
    ways: dict[str, tuple[str, str, bytes]] = {}
    for line in report.splitlines():
        words = line.split()
        if words[1] == "send":
            ways[words[2]] = (words[3], words[4], bytes.fromhex(words[6]))
            if words[3] == ip:
                sent.setdefault(int(words[0]), []).append((0, *ways[words[2]]))
    seen: list[Event] = []
    for number, line in enumerate(script.splitlines(), 1):
        words = line.split()
        moment = int(words[1]) if len(words) > 1 and words[1].isdigit() else 0
        if words and words[0] == "rx" and words[2] == ip and words[4] != "-":
            seen.append((moment, words[3], ip, bytes.fromhex(words[4])))
        elif words and words[0] == "deliver" and ways[words[2]][1] == ip:
            seen.append((moment, *ways[words[2]]))
        seen += [(moment, *it[1:]) for it in sent.get(number, [])]
    return seen
