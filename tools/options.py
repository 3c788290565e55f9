"""Words of the command line that more than one tool takes, as types of argparse."""

from __future__ import annotations

from argparse import ArgumentParser, ArgumentTypeError
from collections.abc import Callable
from ipaddress import AddressValueError, IPv4Address
from typing import NoReturn

import endings
import ptp

GREATEST_CAPACITY = 16777216
PTP_PORTS = (319, 320)


class Parser(ArgumentParser):
    """A parser that says in one line what is wrong with the words, and ends as the program does."""

    def error(self, message: str) -> NoReturn:
        self.exit(endings.USAGE, f"{self.prog}: {message}: see {self.prog} --help\n")


def address(text: str) -> str:
    try:
        return str(IPv4Address(text))
    except AddressValueError:
        raise ArgumentTypeError(f"{text!r} is no IPv4 address") from None


def whole(least: int, greatest: int) -> Callable[[str], int]:
    """A whole number in a range."""

    def read(text: str) -> int:
        if not text.isascii() or not text.isdigit() or not least <= int(text) <= greatest:
            raise ArgumentTypeError(f"{text!r} is no whole number from {least} to {greatest}")
        return int(text)

    return read


capacity = whole(1, GREATEST_CAPACITY)
port = whole(1, 65535)


def capacity_of(text: str) -> tuple[str, int]:
    """A capacity alone, or that of one address, as IP=N."""
    ip, found, value = text.rpartition("=")
    return address(ip) if found else "", capacity(value)


def add_capacities(parser: ArgumentParser) -> None:
    about = "the opening capacity, in sixteenths of a message per second, of all grandmasters or of one"
    parser.add_argument("--capacity", metavar="[IP=]N", type=capacity_of, action="append", default=[], help=about)


def capacities(text: str) -> tuple[int, ...]:
    """Capacities, with commas between."""
    return tuple(capacity(it) for it in text.split(","))


def kinds(text: str) -> tuple[str, ...]:
    """Kinds of messages, with commas between."""
    for it in text.split(","):
        if it not in ptp.CODES:
            raise ArgumentTypeError(f"{it!r} is none of {', '.join(ptp.CODES)}")
    return tuple(text.split(","))


def ports(text: str) -> tuple[int, ...]:
    """UDP ports, with commas between."""
    return tuple(port(it) for it in text.split(","))


def seconds(text: str) -> float:
    try:
        value = float(text)
    except ValueError:
        value = 0.0
    if not 1e-9 <= value <= 1e9:
        raise ArgumentTypeError(f"{text!r} is no number of seconds above 0")
    return value
