"""PTP datagrams read from their octets (docs/FORMATS.md)."""

from __future__ import annotations

import struct
from collections.abc import Iterable, Iterator
from dataclasses import dataclass
from typing import NamedTuple

SECOND = 10**9
CODES = {"announce": 11, "sync": 0, "delay_resp": 9}
KINDS = {code: kind for kind, code in CODES.items()}
# The logarithms at which each kind can be granted (docs/PROFILE.md).
LEAST_LOG = {"announce": -3, "sync": -7, "delay_resp": -7}
GREATEST_LOG = 4
# The shortest duration that can be granted, in seconds.
LEAST_DURATION = 60


def rate_of(log: int) -> int:
    """The rate of messages that are 2^log seconds apart, in sixteenths of a message per second."""
    return 1 << (4 - log)


def period_of(log: int) -> int:
    """2^log seconds in nanoseconds, for logarithms in the range of a kind."""
    return SECOND << log if log >= 0 else SECOND >> -log


class Fault(ValueError):
    """Why octets are no PTP message."""


# -- Datagrams (IEEE 1588-2019 clauses 13 and 14) --------------------------------------------------------------------


class PortIdentity(NamedTuple):
    """A sourcePortIdentity, or a target."""

    clock: int
    port: int

    def __str__(self) -> str:
        return f"{self.clock:016x}/{self.port}"


@dataclass(frozen=True, slots=True)
class Request:
    code: int
    log: int
    seconds: int


@dataclass(frozen=True, slots=True)
class Grant:
    """A GRANT; with 0 seconds it is a denial."""

    code: int
    log: int
    seconds: int


@dataclass(frozen=True, slots=True)
class Cancel:
    code: int


@dataclass(frozen=True, slots=True)
class Acknowledge:
    code: int


Tlv = Request | Grant | Cancel | Acknowledge


@dataclass(slots=True)
class Message:
    """A message as far as these tools read it. Fields that its type does not have are None."""

    type: int
    domain: int
    flags: int
    source: PortIdentity
    sequence: int
    stamp: tuple[int, int] | None = None
    target: PortIdentity | None = None
    clock_class: int | None = None
    tlvs: tuple[Tlv, ...] = ()

    @property
    def kind(self) -> str | None:
        """The kind of message that can be granted, or None for any other."""
        return KINDS.get(self.type)

    @property
    def is_two_step(self) -> bool:
        """Whether a Sync has twoStepFlag: a Follow_Up has its timestamp."""
        return bool(self.flags & 0x0200)


LEAST_LENGTH = {0: 44, 1: 44, 8: 44, 9: 54, 11: 64, 12: 44}
TLV_LENGTH = {4: 6, 5: 8, 6: 2, 7: 2}


def identity(octets: bytes) -> PortIdentity:
    return PortIdentity(int.from_bytes(octets[:8]), int.from_bytes(octets[8:10]))


def timestamp(octets: bytes) -> tuple[int, int]:
    return int.from_bytes(octets[:6]), int.from_bytes(octets[6:10])


def cut_tlvs(octets: bytes) -> Iterator[tuple[int, bytes]]:
    """The TLVs of unicast negotiation, in order, each as its type and value; others are skipped."""
    at = 0
    while at < len(octets):
        if at + 4 > len(octets):
            raise Fault(f"tlv {at} short {len(octets) - at}")
        tlv_type = int.from_bytes(octets[at : at + 2])
        length = int.from_bytes(octets[at + 2 : at + 4])
        value = octets[at + 4 : at + 4 + length]
        if len(value) < length:
            raise Fault(f"tlv {at} overrun {length} {len(value)}")
        if TLV_LENGTH.get(tlv_type, length) != length:
            raise Fault(f"tlv {at} length {tlv_type} {length}")
        at += 4 + length
        if tlv_type in TLV_LENGTH:
            yield tlv_type, value


def read_tlvs(octets: bytes) -> Iterator[Tlv]:
    """The TLVs of unicast negotiation, in order."""
    for tlv_type, value in cut_tlvs(octets):
        code = value[0] >> 4
        if tlv_type in (4, 5):
            log = int.from_bytes(value[1:2], signed=True)
            seconds = int.from_bytes(value[2:6])
            yield Request(code, log, seconds) if tlv_type == 4 else Grant(code, log, seconds)
        else:
            yield Cancel(code) if tlv_type == 6 else Acknowledge(code)


def trimmed(octets: bytes) -> bytes:
    """A message without what stands behind its messageLength."""
    return octets[: int.from_bytes(octets[2:4])]


def with_tlvs(octets: bytes, places: Iterable[int]) -> bytes:
    """A Signaling with those alone of its TLVs of unicast negotiation that stand at these places."""
    cut = list(cut_tlvs(trimmed(octets)[44:]))
    kept = b"".join(struct.pack(">HH", cut[it][0], len(cut[it][1])) + cut[it][1] for it in places)
    return octets[:2] + struct.pack(">H", 44 + len(kept)) + octets[4:44] + kept


def with_stamp(octets: bytes, moment: int) -> bytes:
    """A timing message with the timestamp of a moment, in nanoseconds."""
    seconds, rest = divmod(moment, SECOND)
    return octets[:34] + seconds.to_bytes(6) + rest.to_bytes(4) + octets[44:]


def read_message(octets: bytes) -> Message:
    """Reads one PTP message, or raises Fault. Octets behind its messageLength are free."""
    if len(octets) < 34:
        raise Fault(f"short {len(octets)}")
    if octets[1] & 15 != 2:
        raise Fault(f"version {octets[1] & 15}")
    if octets[0] >> 4:
        raise Fault(f"sdo {octets[0] >> 4}")
    length = int.from_bytes(octets[2:4])
    if not 34 <= length <= len(octets):
        raise Fault(f"length {length} {len(octets)}")
    message_type = octets[0] & 15
    if length < LEAST_LENGTH.get(message_type, 34):
        raise Fault(f"body {length} {LEAST_LENGTH[message_type]}")
    flags = int.from_bytes(octets[6:8])
    head = (message_type, octets[4], flags, identity(octets[20:30]), int.from_bytes(octets[30:32]))
    body = octets[34:length]
    match message_type:
        case 0 | 1 | 8:
            return Message(*head, stamp=timestamp(body))
        case 9:
            return Message(*head, stamp=timestamp(body), target=identity(body[10:20]))
        case 11:
            return Message(*head, stamp=timestamp(body), clock_class=body[14])
        case 12:
            return Message(*head, target=identity(body), tlvs=tuple(read_tlvs(body[10:])))
    return Message(*head)
