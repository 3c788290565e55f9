"""Writes a capture of what goes to and from an address for some seconds, as `observe` hears it: FILE IP SECONDS."""

from __future__ import annotations

import sys
import time
from pathlib import Path

from support import ip_packet, pcap, tool


def main() -> None:
    file, ip, seconds = sys.argv[1:]
    listener = tool("observe").Listener(ip, None)
    Path(f"{file}.ready").touch()
    frames = []
    for it in listener.hear(time.monotonic() + float(seconds)):
        frames.append((it.moment, ip_packet(it.sender, it.receiver, it.receiver_port, it.octets)))
    Path(file).write_bytes(pcap(frames, per_second=10**9, link_type=101))


main()
