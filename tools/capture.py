"""Captures of a network, pcap and pcapng, read into datagrams of UDP over IPv4."""

from __future__ import annotations

import struct
from collections import Counter
from collections.abc import Iterator
from dataclasses import dataclass, field
from functools import lru_cache
from typing import BinaryIO

from endings import BadInput

SECOND = 10**9
ETHERNET, LOOPBACK, RAW, LINUX_SLL, LINUX_SLL2 = 1, 0, (12, 101, 228), 113, 276
IPV4, IPV6, PTP_ETHERTYPE = 0x0800, 0x86DD, 0x88F7
VLANS = (0x8100, 0x88A8)


class NotACapture(BadInput):
    """Why a file is no capture."""


@dataclass(slots=True)
class Datagram:
    """A datagram and its moment, in nanoseconds of the clock that the capture was made by."""

    moment: int
    sender: str
    sender_port: int
    receiver: str
    receiver_port: int
    octets: bytes


@dataclass(slots=True)
class Capture:
    """A capture that is read from a stream, also one that is still being written. What it leaves out is counted."""

    stream: BinaryIO
    left_out: Counter[str] = field(default_factory=Counter)

    def datagrams(self) -> Iterator[Datagram]:
        for moment, link_type, frame in self.frames():
            packet = self.packet_of(link_type, frame)
            if packet is not None and (datagram := self.datagram_of(moment, packet)):
                yield datagram

    def take(self, size: int) -> bytes:
        """So many octets, or fewer where the stream ends before."""
        octets = self.stream.read(size)
        while 0 < len(octets) < size and (more := self.stream.read(size - len(octets))):
            octets += more
        return octets

    def frames(self) -> Iterator[tuple[int, int, bytes]]:
        magic = self.take(4)
        match magic.hex():
            case "a1b2c3d4" | "a1b23c4d":
                yield from self.pcap(">", 1 if magic[2] == 0x3C else 1000)
            case "d4c3b2a1" | "4d3cb2a1":
                yield from self.pcap("<", 1 if magic[1] == 0x3C else 1000)
            case "0a0d0d0a":
                yield from self.pcapng()
            case _:
                raise NotACapture(f"it begins with {magic.hex() or 'nothing'}: neither pcap nor pcapng")

    def pcap(self, order: str, scale: int) -> Iterator[tuple[int, int, bytes]]:
        head = self.take(20)
        if len(head) < 20:
            raise NotACapture("its header is cut off")
        link_type = struct.unpack(order + "I", head[16:])[0] & 0xFFFF
        while record := self.take(16):
            if len(record) < 16:
                self.left_out["cut off at the end of the file"] += 1
                return
            seconds, parts, size, _ = struct.unpack(order + "IIII", record)
            if size > 1 << 20:
                raise NotACapture(f"a record of {size} octets")
            frame = self.take(size)
            if len(frame) < size:
                self.left_out["cut off at the end of the file"] += 1
                return
            yield seconds * SECOND + parts * scale, link_type, frame

    def pcapng(self) -> Iterator[tuple[int, int, bytes]]:
        order, interfaces = "<", list[tuple[int, int]]()
        lead = b"\x0a\x0d\x0d\x0a" + self.take(8)
        while len(lead) == 12:
            if lead[:4] == b"\x0a\x0d\x0d\x0a":
                order, interfaces = ">" if lead[8:] == b"\x1a\x2b\x3c\x4d" else "<", []
            block_type, size = struct.unpack(order + "II", lead[:8])
            if size < 12 or size % 4 or size > 1 << 24:
                raise NotACapture(f"a block of {size} octets")
            block = lead[8:] + self.take(size - 12)
            if len(block) < size - 8:
                self.left_out["cut off at the end of the file"] += 1
                return
            body = block[:-4]
            if block_type == 1:
                interfaces.append((struct.unpack(order + "H", body[:2])[0], ticks_a_second(order, body[8:])))
            elif block_type == 6:
                at, high, low, length, _ = struct.unpack(order + "IIIII", body[:20])
                if at >= len(interfaces):
                    raise NotACapture(f"a packet of interface {at}, which it does not describe")
                link_type, per_second = interfaces[at]
                yield (high << 32 | low) * SECOND // per_second, link_type, body[20 : 20 + length]
            elif block_type == 3:
                self.left_out["without a moment"] += 1
            lead = self.take(12)

    def packet_of(self, link_type: int, frame: bytes) -> bytes | None:
        """The IPv4 packet of a frame."""
        if link_type in RAW:
            ethertype, packet = (IPV6 if frame[:1] and frame[0] >> 4 == 6 else IPV4), frame
        elif link_type == LOOPBACK:
            ethertype, packet = (IPV4 if 2 in (frame[0], frame[3]) else IPV6) if len(frame) > 4 else 0, frame[4:]
        elif link_type in (ETHERNET, LINUX_SLL, LINUX_SLL2):
            at, behind = {ETHERNET: (12, 14), LINUX_SLL: (14, 16), LINUX_SLL2: (0, 20)}[link_type]
            ethertype = int.from_bytes(frame[at : at + 2])
            while ethertype in VLANS:
                ethertype = int.from_bytes(frame[behind + 2 : behind + 4])
                behind += 4
            packet = frame[behind:]
        else:
            self.left_out[f"of link type {link_type}"] += 1
            return None
        if ethertype == IPV4:
            return packet
        if ethertype in (IPV6, PTP_ETHERTYPE):
            self.left_out["IPv6" if ethertype == IPV6 else "PTP over Ethernet"] += 1
        return None

    def datagram_of(self, moment: int, packet: bytes) -> Datagram | None:
        """The UDP datagram of an IPv4 packet, where it is a whole one."""
        behind = (packet[0] & 15) * 4 if packet else 0
        if len(packet) < 20 or packet[0] >> 4 != 4 or behind < 20 or packet[9] != 17:
            return None
        if int.from_bytes(packet[6:8]) & 0x3FFF:
            self.left_out["fragments"] += 1
            return None
        sender_port, receiver_port, size = struct.unpack(">HHH", packet[behind : behind + 8][:6].ljust(6, b"\0"))
        octets = packet[behind + 8 : behind + size]
        if size < 8 or len(octets) < size - 8:
            self.left_out["cut short by the capture"] += 1
            return None
        return Datagram(moment, dotted(packet[12:16]), sender_port, dotted(packet[16:20]), receiver_port, octets)


@lru_cache(maxsize=65536)
def dotted(octets: bytes) -> str:
    return ".".join(map(str, octets))


def ticks_a_second(order: str, options: bytes) -> int:
    """How an interface of a pcapng counts time: its option if_tsresol, or microseconds."""
    while len(options) >= 4:
        code, size = struct.unpack(order + "HH", options[:4])
        if code == 9 and size == 1 and len(options) > 4:
            base, power = 2 if options[4] & 0x80 else 10, options[4] & 0x7F
            return int(base**power)
        if code == 0:
            break
        options = options[4 + size + -size % 4 :]
    return 10**6
