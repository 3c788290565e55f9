"""How the tools end: with the statuses of the program, and one line that names the file and says what to do."""

from __future__ import annotations

import errno
import os
import shutil
import sys
from collections.abc import Iterator
from contextlib import contextmanager
from dataclasses import dataclass
from typing import BinaryIO

# The words are none of the usage line; the input is of no form; it can't be read; the output can't be written; a right
# or a program is wanting; a program did not do what it should.
USAGE, INPUT, UNREAD, UNWRITTEN, UNAVAILABLE, INTERNAL = 64, 65, 66, 67, 69, 70


# How a disk says that it takes no more.
NO_ROOM = (errno.ENOSPC, errno.EDQUOT, errno.EFBIG, errno.EIO)


class BadInput(ValueError):
    """Why an input is of no form."""


class Stopped(Exception):
    """What ends a tool, with its status."""

    def __init__(self, status: int, why: str) -> None:
        super().__init__(why)
        self.status = status


@dataclass(slots=True)
class Ended:
    """How a tool ended: its status, and whether that is only since nobody read on."""

    status: int = 0
    is_unread: bool = False


@contextmanager
def ending(tool: str) -> Iterator[Ended]:
    """Says in one line what stopped the tool, and keeps its status."""
    ended = Ended()
    try:
        yield ended
        sys.stdout.flush()
    except Stopped as stopped:
        print(f"{tool}: {stopped}", file=sys.stderr)
        ended.status = stopped.status
    except BrokenPipeError:
        # (which is no fault; without this python would try to write what is left at its end, and say so)
        os.dup2(os.open(os.devnull, os.O_WRONLY), sys.stdout.fileno())
        ended.status, ended.is_unread = UNWRITTEN, True
    except OSError as error:
        if error.errno not in NO_ROOM:
            raise
        print(f"{tool}: standard output: {error.strerror}: make room, or write it elsewhere", file=sys.stderr)
        ended.status = UNWRITTEN


def need(program: str) -> None:
    """Ends the tool where a program that it starts is not to be had."""
    if not shutil.which(program):
        raise Stopped(UNAVAILABLE, f"{program}: it is not in PATH: install it, or name the folder that has it in PATH")


@contextmanager
def reading(name: str, hint: str) -> Iterator[BinaryIO]:
    """A file, or standard input for `-`. What goes wrong is said with its name, and with a hint where it isn't read."""
    try:
        if name == "-":
            yield sys.stdin.buffer
        else:
            with open(name, "rb") as stream:
                yield stream
    except BadInput as error:
        raise Stopped(INPUT, f"{name}: {error}") from error
    except OSError as error:
        raise Stopped(UNREAD, f"{name}: {error.strerror}: {hint}") from error
