"""Captures: turned into lines and scripts, and observed."""

from __future__ import annotations

import argparse
import io
import json
import os
import socket
import struct
import subprocess
import tempfile
import time
import unittest
from pathlib import Path
from typing import Any
from unittest import mock

import capture
import endings
import ptp
from ledger import Lease, Ledger
from support import (
    EXAMPLES,
    PTP4L,
    REPORT,
    TOOLS,
    ethernet,
    ip_packet,
    pcap,
    pcapng,
    program,
    ptpuni,
    run,
    signaling,
    timing,
    tool,
    wants_program,
)

from_pcap = tool("from-pcap")
SCRIPT = EXAMPLES / "falling-capacity.script"
GM, SLAVE = "192.0.2.1", "192.0.2.2"
FIRST = "0c02003604000400000000000000000000000000ee7bdcfffe2da55d00010000057fffffffffffffffffffff00040006b0000000003c"
FRAME = ethernet(ip_packet("10.0.1.17", "10.0.0.1", 320, bytes.fromhex(FIRST)))
MOMENT = 1_700_000_000_123_456_789


def read(octets: bytes) -> list[capture.Datagram]:
    return list(capture.Capture(io.BytesIO(octets)).datagrams())


def capture_of_report() -> bytes:
    """What the report of falling-capacity.script sends, as a capture with the moments of its script."""
    moments = {at: it.split()[1] for at, it in enumerate(SCRIPT.read_text().splitlines(), 1) if len(it.split()) > 1}
    frames = []
    for line in REPORT.read_text().splitlines():
        number, word, *rest = line.split()
        if word == "send":
            port = 319 if rest[3] == "event" else 320
            octets = ip_packet(rest[1], rest[2], port, bytes.fromhex(rest[4]))
            frames.append((MOMENT + int(moments[int(number)]), ethernet(octets)))
    return pcap(frames, per_second=10**9)


class Captures(unittest.TestCase):
    def test_forms(self) -> None:
        microseconds = MOMENT // 1000 * 1000
        wanted = [(it, "10.0.1.17", "10.0.0.1", FIRST) for it in (MOMENT, microseconds)]
        frames = [(MOMENT, FRAME)]
        sll = [(MOMENT, bytes(14) + b"\x08\x00" + FRAME[14:])]
        sll2 = [(MOMENT, b"\x08\x00" + bytes(18) + FRAME[14:])]
        tagged = [(MOMENT, ethernet(FRAME[14:], b"\x81\x00\x00\x07"))]
        made = {
            "nanoseconds": (pcap(frames, per_second=10**9), wanted[0]),
            "microseconds": (pcap(frames), wanted[1]),
            "big endian": (pcap(frames, ">"), wanted[1]),
            "pcapng": (pcapng(frames), wanted[0]),
            "pcapng, big endian": (pcapng(frames, ">"), wanted[0]),
            "VLAN": (pcap(tagged), wanted[1]),
            "Linux cooked": (pcap(sll, link_type=113), wanted[1]),
            "Linux cooked 2": (pcap(sll2, link_type=276), wanted[1]),
            "raw": (pcap([(MOMENT, FRAME[14:])], link_type=101), wanted[1]),
            "loopback": (pcap([(MOMENT, b"\2\0\0\0" + FRAME[14:])], link_type=0), wanted[1]),
        }
        for name, (octets, told) in made.items():
            got = [(it.moment, it.sender, it.receiver, it.octets.hex()) for it in read(octets)]
            self.assertEqual(got, [told], name)

    def test_interfaces_of_any_name(self) -> None:
        """Options of pcapng are padded to four octets, and the name stands before what counts time."""
        for name in ("e", "lo", "sl0", "eth0", "wlan0", "wlp2s0", "enp0s31", "enp0s31f6"):
            self.assertEqual([it.moment for it in read(pcapng([(MOMENT, FRAME)], name=name))], [MOMENT], name)

    def test_sections(self) -> None:
        """Each section of a pcapng has interfaces of its own: here they count time by other digits."""
        octets = pcapng([(MOMENT, FRAME)], digits=9) + pcapng([(MOMENT, FRAME)], ">", digits=3)
        self.assertEqual([it.moment for it in read(octets)], [MOMENT, MOMENT // 10**6 * 10**6])

    def test_octets_behind_the_datagram_are_padding(self) -> None:
        self.assertEqual(read(pcap([(MOMENT, FRAME + bytes(6))]))[0].octets.hex(), FIRST)

    def test_left_out(self) -> None:
        packet = bytearray(FRAME[14:])
        packet[6] = 0x20
        frames = [
            bytes(12) + b"\x86\xdd" + bytes(60),
            bytes(12) + b"\x88\xf7" + bytes(44),
            ethernet(bytes(packet)),
            FRAME[:60],
            b"",
            ethernet(b""),
        ]
        reader = capture.Capture(io.BytesIO(pcap([(MOMENT, it) for it in frames]) + bytes(7)))
        self.assertEqual(list(reader.datagrams()), [])
        names = ("IPv6", "PTP over Ethernet", "fragments", "cut short by the capture", "cut off at the end of the file")
        self.assertEqual([reader.left_out[it] for it in names], [1] * 5)

    def test_no_capture(self) -> None:
        for octets in (b"", b"hello", b"\xa1\xb2\xc3\xd4", pcap([]) + b"\xff" * 16, pcapng([])[:28] + b"\xff" * 12):
            with self.assertRaises(capture.NotACapture):
                read(octets)


class FromPcap(unittest.TestCase):
    """A capture of ptp4l as grandmaster and slave; what is expected of it was told by tshark."""

    def test_show(self) -> None:
        ran = run("from-pcap", "show", PTP4L)
        self.assertEqual((ran.returncode, ran.stderr), (0, b""))
        lines = ran.stdout.decode().splitlines()
        self.assertEqual(lines[0], "# 1795828565.111978000 192.0.2.2:320 > 192.0.2.1:320")
        self.assertEqual((len(lines), lines[1]), (120, FIRST))
        plain = run("from-pcap", "show", "--plain", "-", given=PTP4L.read_bytes()).stdout.decode().splitlines()
        self.assertEqual(plain, [it for it in lines if not it.startswith("#")])
        types = [int(it[1], 16) for it in plain]
        self.assertEqual([types.count(it) for it in (0, 1, 8, 9, 11, 12)], [14, 12, 14, 12, 3, 5])

    def test_script_of_the_grandmaster(self) -> None:
        lines = run("from-pcap", "script", PTP4L, "--capacity", "640", "--max-duration", "300").stdout.decode()
        first, *rest = lines.splitlines()
        self.assertEqual(first, "gm 192.0.2.1 5a6e81fffe130d68 1 4 84 640 300")
        # The grandmaster was handed two Signalings and twelve Delay_Reqs.
        self.assertEqual((len(rest), rest[0]), (14, f"rx 0 {GM} {SLAVE} {FIRST}"))
        self.assertEqual(rest[1].split()[:2], ["rx", "5010577000"])

    def test_script_with_turns(self) -> None:
        lines = run("from-pcap", "script", PTP4L, "--turn", "0.5").stdout.decode().splitlines()
        moments = [int(it.split()[1]) for it in lines[1:]]
        self.assertEqual(moments, sorted(moments))
        # The last datagram comes 5.836 s behind the first.
        self.assertEqual(sum(it.startswith("turn ") for it in lines), 4 * 11)

    def test_script_of_the_slave(self) -> None:
        lines = run("from-pcap", "script", PTP4L, "--slave", SLAVE).stdout.decode().splitlines()
        self.assertEqual(lines[0], f"slave {SLAVE} ee7bdcfffe2da55d 1 4 300 3 3 0 -4 -4 60")
        self.assertEqual(lines[1], f"master {SLAVE} {GM} 1 flag")
        self.assertEqual(sum(it.startswith("rx ") for it in lines), 60 - 14)
        self.assertEqual(sum(it.startswith("tick ") for it in lines), 6)

    def test_turns_come_before_a_datagram_of_their_moment(self) -> None:
        """Turns are due from one interval behind the first datagram on; one at a datagram's moment stands before it."""
        moments = (0, 10**9, 10**9 + 1)
        frames = [(MOMENT + it, ethernet(ip_packet(SLAVE, GM, 320, bytes.fromhex(FIRST)))) for it in moments]
        given = pcap(frames, per_second=10**9)
        lines = run("from-pcap", "script", "-", "--gm", GM, "--turn", "1", given=given).stdout.decode().splitlines()
        turns = [f"turn {10**9} {GM} {table}" for table in range(4)]
        of_rx = [f"rx {it} {GM} {SLAVE} {FIRST}" for it in moments]
        self.assertEqual(lines[1:], [of_rx[0], *turns, *of_rx[1:]])

    def test_ticks_begin_with_the_first_datagram(self) -> None:
        frames = [(MOMENT + it, ethernet(ip_packet(SLAVE, GM, 320, bytes.fromhex(FIRST)))) for it in (0, 2 * 10**9)]
        words = ("script", "-", "--slave", SLAVE, "--tick", "1")
        lines = run("from-pcap", *words, given=pcap(frames, per_second=10**9)).stdout.decode().splitlines()
        self.assertEqual(lines[2:], [f"tick {it * 10**9} {SLAVE}" for it in range(3)])

    def slave(self, *asks: tuple[str, str]) -> list[str]:
        """The lines of a script with a slave that asks these addresses for these TLVs, in hexadecimal digits."""
        frames = []
        for at, (ip, tlvs) in enumerate(asks):
            octets = bytes.fromhex("0c12" + f"{44 + len(tlvs) // 2:04x}" + FIRST[8:88] + tlvs)
            frames.append((MOMENT + at, ethernet(ip_packet(SLAVE, ip, 320, octets))))
        ran = run("from-pcap", "script", "-", "--slave", SLAVE, given=pcap(frames))
        self.assertEqual((ran.returncode, ran.stderr), (0, b""))
        return ran.stdout.decode().splitlines()

    def test_a_slave_asks_as_it_did_at_first(self) -> None:
        """Of two asks of a kind the first counts, and of all that it asked at first the shortest duration."""
        announce, sync = "00040006b0010000012c", "0004000600fc0000003c"
        first = self.slave((GM, announce), (GM, sync), (GM, "00040006b0000000003c"), (GM, "0004000600fb0000003c"))[0]
        self.assertEqual(first, f"slave {SLAVE} ee7bdcfffe2da55d 1 4 300 3 3 1 -4 - 60")
        first = self.slave((GM, announce), (GM, "0004000600fc000000c8"))[0]
        self.assertEqual(first.split()[-1], "200")

    def test_a_slave_has_sixteen_masters(self) -> None:
        asked = [(f"10.0.0.{it}", "00040006b0010000012c") for it in range(1, 18)]
        lines = self.slave(*asked)
        masters = [f"master {SLAVE} 10.0.0.{it} {it} flag" for it in range(1, 17)]
        self.assertEqual([it for it in lines if it.startswith("master ")], masters)

    def test_domains_and_ports(self) -> None:
        """A script's nodes are in the domains 4 to 23, and have the ports 1 to 65534."""
        for place, size, fitting, others in ((4, 1, (4, 23), (3, 24)), (28, 2, (1, 65534), (0, 65535))):
            for value in (*fitting, *others):
                octets = bytearray.fromhex(FIRST)
                octets[place : place + size] = value.to_bytes(size)
                frame = ethernet(ip_packet(SLAVE, GM, 320, bytes(octets)))
                ran = run("from-pcap", "script", "-", "--slave", SLAVE, given=pcap([(MOMENT, frame)]))
                self.assertEqual(ran.returncode, 0 if value in fitting else 65, value)

    def test_sizes(self) -> None:
        """A datagram has 1 to 2048 octets, and the output what the program reads at most."""
        for size, status in ((0, 65), (1, 0), (2047, 0), (2048, 0), (2049, 65)):
            frame = ethernet(ip_packet(SLAVE, GM, 320, bytes(size)))
            ran = run("from-pcap", "show", "--plain", "-", given=pcap([(MOMENT, frame)]))
            self.assertEqual((ran.returncode, len(ran.stdout)), (status, 0 if status else 2 * size + 1), size)
        whole = len(run("from-pcap", "show", PTP4L).stdout)
        for largest, status in ((whole, 0), (whole - 1, 65)):
            with mock.patch.object(from_pcap, "LARGEST_SCRIPT", largest):
                self.assertEqual(run("from-pcap", "show", PTP4L).returncode, status)

    def test_refused(self) -> None:
        other_domain = bytearray(FRAME)
        other_domain[14 + 28 + 4] = 0
        zero = bytes(other_domain)
        other_log = bytearray(FRAME)
        other_log[-5] = 5
        fast = bytes(other_log)
        refused = [
            (("show", "-"), b"hello", b"it begins with 68656c6c: neither pcap nor pcapng"),
            (("show", "-"), pcap([]), b"no PTP over UDP and IPv4 to port 319 or 320"),
            (("show", "-", "--ports", "1319"), PTP4L.read_bytes(), b"to port 1319"),
            (("script", "-"), pcap([(MOMENT, FRAME)]), b"nobody grants anything in this capture"),
            (("script", "-", "--gm", "10.0.1.17"), pcap([(MOMENT, zero)]), b"10.0.1.17 is in domain 0"),
            (("script", "-", "--slave", "10.0.0.1"), pcap([(MOMENT, FRAME)]), b"10.0.0.1 asks for nothing"),
            (("script", "-", "--slave", "10.0.1.17"), pcap([(MOMENT, fast)]), b"asks for announce at the logarithm 5"),
        ]
        for words, given, why in refused:
            ran = run("from-pcap", *words, given=given)
            self.assertEqual((ran.returncode, ran.stdout), (65, b""), words)
            self.assertIn(why, ran.stderr)
        self.assertEqual(run("from-pcap", "show", "/nowhere").returncode, 66)

    @wants_program
    def test_the_program_takes_both(self) -> None:
        shown = ptpuni("show", run("from-pcap", "show", PTP4L).stdout).splitlines()
        self.assertEqual((shown[-1], sum(b" fault " in it for it in shown)), (b"end 120", 0))
        report = ptpuni("replay", run("from-pcap", "script", PTP4L, "--turn", "0.0625").stdout).splitlines()
        self.assertTrue(report[-1].startswith(b"end "))
        # ptp4l asked for three kinds, and this program grants them as ptp4l did.
        self.assertEqual(sum(b" granted " in it for it in report), 3)
        self.assertEqual(sum(b" ignored " in it for it in report), 0)
        self.assertIsNotNone(program())


class Scripts(unittest.TestCase):
    def test_each_tool_is_a_command(self) -> None:
        for name in ("from-pcap", "observe", "plot", "scenario", "summary"):
            quiet = {**os.environ, "PYTHONDONTWRITEBYTECODE": "1"}
            ran = subprocess.run([str(TOOLS / name), "--help"], capture_output=True, env=quiet)
            self.assertEqual((ran.returncode, ran.stderr), (0, b""), name)
            self.assertTrue(ran.stdout.startswith(f"usage: {name} ".encode()), name)


class Observed(unittest.TestCase):
    def observe(self, given: bytes, ip: str, *words: str) -> list[dict[str, Any]]:
        ran = run("observe", ip, "--read", "-", "--json", *words, given=given)
        self.assertEqual((ran.returncode, ran.stderr), (0, b""))
        return [json.loads(it) for it in ran.stdout.splitlines()]

    def test_ptp4l(self) -> None:
        last = self.observe(PTP4L.read_bytes(), GM, "--capacity", "640")[-1]
        self.assertEqual(last["counts"], {"delay_reqs": 12, "grants": 3, "requests": 3})
        told = [last[it] for it in ("identity", "domain", "class", "capacity", "held")]
        self.assertEqual(told, ["5a6e81fffe130d68/1", 4, 84, 640, 528])
        (client,) = last["clients"]
        self.assertEqual((client["address"], client["identity"]), (SLAVE, "ee7bdcfffe2da55d/1"))
        self.assertEqual([client[it]["seen"] for it in ptp.CODES], [3, 14, 12])
        self.assertEqual([client[it]["granted_per_second"] for it in ptp.CODES], [1, 16, 16])
        self.assertAlmostEqual(client["announce"]["until"], 1795828565.112323 + 60, places=5)
        self.assertAlmostEqual(client["sync"]["seen_per_second"], 14 / 1.0, delta=3)

    def test_each_moment(self) -> None:
        """Grants, sheddings, CANCELs, denials and grants again, as the report of falling-capacity.script has them."""
        lines = self.observe(capture_of_report(), "10.0.0.1", "--every", "1", "--capacity", "48")
        at = {round(it["moment"] - MOMENT / 10**9): it for it in lines}
        self.assertEqual([at[it]["held"] for it in (1, 9, 11, 72, 131)], [24, 48, 24, 24, 24])
        self.assertEqual(lines[-1]["held"], 48)
        self.assertEqual(at[11]["counts"]["cancels sent"], 2)
        self.assertEqual(at[11]["clients"][1]["sync"]["state"], "cancelled")
        self.assertEqual(at[72]["counts"]["denials"], 2)
        self.assertEqual(at[72]["clients"][1]["announce"]["state"], "denied")
        self.assertEqual(lines[-1]["counts"], {**at[72]["counts"], "requests": 8, "grants": 6})
        self.assertEqual([it["address"] for it in lines[-1]["clients"]], ["10.0.1.17", "10.0.1.18"])

    def test_a_grant_runs_out(self) -> None:
        with_end = capture_of_report()
        late = ethernet(ip_packet("10.0.0.1", "10.0.1.17", 320, bytes.fromhex(FIRST)))
        tail = pcap([(MOMENT + 305 * 10**9, late)], per_second=10**9)[24:]
        last = self.observe(with_end + tail, "10.0.0.1", "--every", "50")[-1]
        (client,) = (it for it in last["clients"] if it["address"] == "10.0.1.17")
        self.assertEqual((last["held"], client["sync"]["state"]), (24, "over"))

    def test_denials_and_cancels(self) -> None:
        """A denial leaves the former grant as it is; a CANCEL of the client ends its grant, and of no other kind."""
        seen = Ledger("10.0.0.1", 10 * ptp.SECOND)
        head, own, ones = "0c120038040004" + "00" * 13, "0a000000000000010001", "ff" * 10
        client = "0a000000000000110001"

        def signal(second: int, from_master: bool, tlvs: str) -> None:
            source, target = (own, client) if from_master else (client, ones)
            octets = bytearray.fromhex(head + source + "0000057f" + target + tlvs)
            octets[3] = len(octets)
            ways = ("10.0.0.1", 320, "10.0.1.17", 320) if from_master else ("10.0.1.17", 320, "10.0.0.1", 320)
            seen.take(capture.Datagram(second * ptp.SECOND, *ways, bytes(octets)))

        signal(1, True, "00050008b0010000012c0001" + "0005000800000000003c0001")
        self.assertEqual((seen.held(2 * ptp.SECOND), seen.held(61 * ptp.SECOND)), (24, 8))
        signal(2, True, "00050008b001000000000000")
        self.assertEqual((seen.held(3 * ptp.SECOND), seen.counts["denials"]), (24, 1))
        signal(4, False, "00060002b000")
        self.assertEqual((seen.held(5 * ptp.SECOND), seen.counts["cancels received"]), (16, 1))
        signal(6, True, "000500080002" + "0000012c0001")
        self.assertEqual((seen.held(7 * ptp.SECOND), seen.held(306 * ptp.SECOND)), (4, 0))

    def test_begun_amid_syncs(self) -> None:
        """Syncs name no client: those before the first message that does are its client's, too."""
        every = read(PTP4L.read_bytes())
        of_sync = [it for it, each in enumerate(every) if each.octets[0] & 15 == 0]
        seen = Ledger(GM, 10 * ptp.SECOND)
        for it in every[of_sync[0] :]:
            seen.take(it)
        (client,) = seen.snapshot(seen.last)["clients"]
        self.assertEqual((client["identity"], client["sync"]["seen"]), ("ee7bdcfffe2da55d/1", len(of_sync)))

    def test_begun_late(self) -> None:
        """A client that was granted before is served: that is seen, and not called ungranted, until a renewal tells."""
        every = read(PTP4L.read_bytes())
        first = next(at for at, it in enumerate(every) if it.octets[0] & 15 == 9)
        seen = Ledger(GM, 10 * ptp.SECOND)
        for it in every[first:]:
            seen.take(it)
        shown = seen.snapshot(seen.last)
        (client,) = shown["clients"]
        states = [(client[it]["state"], client[it]["granted_per_second"]) for it in ("sync", "delay_resp")]
        self.assertEqual(states, [("not seen yet", None)] * 2)
        self.assertEqual((shown["held"], shown["states"]["not seen yet"]), (0, 2))
        self.assertGreater(client["sync"]["seen_per_second"], 10)
        head = list(tool("observe").head_lines(shown))
        self.assertEqual(head[1], "granted 0 messages/s, 0/16, and what 2 grants hold that were not seen yet")
        self.assertEqual(head[2], "2 not seen yet; 0 of 1 clients get less than they were granted")
        row = next(it for it in tool("observe").client_lines(shown) if " sync " in it)
        self.assertRegex(row, "sync +not seen yet +- +- +[?] +1[0-9.]+ ")

    def lease(self, log: int, moments: list[int]) -> Lease:
        """A grant at 0 for 300 s, of which messages were seen at these seconds."""
        lease = Lease(0, log=log, until=300 * ptp.SECOND, last_answer="granted")
        for it in moments:
            lease.see(it * ptp.SECOND)
        return lease

    def test_less_than_was_granted(self) -> None:
        """Below four fifths of what is due a client gets less; at four fifths it does not, nor in its first periods."""
        window, now = 10 * ptp.SECOND, 100 * ptp.SECOND
        self.assertTrue(self.lease(0, list(range(94, 101))).is_short(now, window))
        self.assertFalse(self.lease(0, list(range(93, 101))).is_short(now, window))
        self.assertFalse(self.lease(0, []).is_short(8 * ptp.SECOND - 1, window))
        self.assertTrue(self.lease(0, []).is_short(8 * ptp.SECOND, window))
        # Of one that is over, or that comes too seldom for the window, nothing is said.
        self.assertFalse(self.lease(0, []).is_short(301 * ptp.SECOND, window))
        self.assertFalse(self.lease(1, []).is_short(now, window))
        # Delay_Resps are due as often as they are asked for.
        asked = self.lease(0, [95, 99])
        for it in (95, 99):
            asked.ask(it * ptp.SECOND)
        self.assertFalse(asked.is_short(now, window))
        for it in range(90, 100):
            asked.ask(it * ptp.SECOND)
        self.assertTrue(asked.is_short(now, window))

    def many(self) -> Ledger:
        """Three clients that are granted a Sync a second, of which the third gets none."""
        seen = Ledger("10.0.0.1", 10 * ptp.SECOND, 96)
        for number in (1, 2, 3):
            ip, port = f"10.0.1.{number}", f"0a0000000000000{number}0001"
            give = signaling("0a000000000000010001", port, 0, "0005000800000000012c0001")
            seen.take(capture.Datagram(0, "10.0.0.1", 320, ip, 320, give))
            for second in range(1, 31) if number < 3 else ():
                octets = timing(0, "0a000000000000010001", second, second * ptp.SECOND)
                seen.take(capture.Datagram(second * ptp.SECOND, "10.0.0.1", 319, ip, 319, octets))
        return seen

    def written(self, shown: dict[str, Any], **words: Any) -> str:
        observe = tool("observe")
        names = {"json": False, "rows": None, "prometheus": None, **words}
        out = io.StringIO()
        with mock.patch.object(observe.sys, "stdout", out):
            observe.write(shown, argparse.Namespace(**names))
        return out.getvalue()

    def test_those_with_less_come_first(self) -> None:
        shown = self.many().snapshot(30 * ptp.SECOND)
        clients = [(it["address"][-1], it["short"]) for it in shown["clients"]]
        self.assertEqual(clients, [("3", True), ("1", False), ("2", False)])
        table = self.written(shown)
        self.assertIn("3 granted; 1 of 3 clients get less than they were granted", table)
        self.assertRegex(table, r"10\.0\.1\.3 .* +1 +<0 +0 ")
        self.assertRegex(table, r"10\.0\.1\.1 .* +1 +1 +30 ")

    def test_rows(self) -> None:
        shown = self.many().snapshot(30 * ptp.SECOND)
        table = self.written(shown, rows=2)
        self.assertIn("10.0.1.3", table)
        self.assertIn("10.0.1.1", table)
        self.assertNotIn("10.0.1.2", table)
        self.assertIn(".. and 1 more: --rows N shows more, --json has all", table)
        self.assertNotIn("more", self.written(shown, rows=3))

    def test_what_was_missed_is_said_of_the_rates(self) -> None:
        table = self.written(self.many().snapshot(30 * ptp.SECOND, 7, 3))
        self.assertIn("missed by this view 7, 3 of them now: what is seen a second is the least", table)
        self.assertRegex(table, r"10\.0\.1\.1 .* +1 +>=1 +30 ")
        self.assertNotIn(">=", self.written(self.many().snapshot(30 * ptp.SECOND, 7, 0)))

    def test_rates_are_the_least_for_a_window(self) -> None:
        """And as long nobody is said to get less than was granted."""
        seen = self.many()
        shown = [seen.snapshot(it * ptp.SECOND, 3, 3 if it == 30 else 0) for it in (29, 30, 31, 39, 40)]
        self.assertEqual([it["rates_are_least"] for it in shown], [False, True, True, True, False])
        self.assertEqual([it["short"] for it in shown], [1, 0, 0, 0, 3])

    def test_what_is_asked_for_is_forgotten(self) -> None:
        """Delay_Reqs behind the end of a grant are not kept for longer than the window."""
        lease = self.lease(0, [])
        for it in range(400):
            lease.ask(it * ptp.SECOND)
        lease.is_short(400 * ptp.SECOND, 10 * ptp.SECOND)
        self.assertLessEqual(len(lease.asked), 10)

    def test_prometheus(self) -> None:
        shown = self.many().snapshot(30 * ptp.SECOND, 7)
        with tempfile.TemporaryDirectory() as folder:
            self.assertEqual(self.written(shown, prometheus=f"{folder}/it"), "")
            lines = Path(f"{folder}/it").read_text().splitlines()
            self.assertEqual([it.name for it in Path(folder).iterdir()], ["it"])
        for line in (
            'ptp_granted_messages_per_second{grandmaster="10.0.0.1"} 3',
            'ptp_capacity_messages_per_second{grandmaster="10.0.0.1"} 6',
            'ptp_clients_with_less_than_granted{grandmaster="10.0.0.1"} 1',
            'ptp_leases{grandmaster="10.0.0.1",state="granted"} 3',
            'ptp_leases{grandmaster="10.0.0.1",state="denied"} 0',
            'ptp_messages_seen_total{grandmaster="10.0.0.1",kind="sync"} 60',
            'ptp_grants_total{grandmaster="10.0.0.1"} 3',
            'ptp_denials_total{grandmaster="10.0.0.1"} 0',
            'ptp_missed_total{grandmaster="10.0.0.1"} 7',
        ):
            self.assertIn(line, lines)
        names = [it.split("{")[0] for it in lines if not it.startswith("#")]
        self.assertEqual({it.split()[2] for it in lines if it.startswith("# TYPE")}, set(names))
        with self.assertRaisesRegex(endings.Stopped, "/nowhere/it: No such file or directory: name a file to write to"):
            self.written(shown, prometheus="/nowhere/it")

    def test_rate_in_the_window(self) -> None:
        lease = Lease(0)
        for second in range(1, 31):
            lease.see(second * ptp.SECOND)
            if second > 20:
                lease.see(second * ptp.SECOND + 1)
        self.assertEqual(lease.seen_per_second(30 * ptp.SECOND + 2, 10 * ptp.SECOND), 2.0)
        self.assertEqual(lease.seen_per_second(50 * ptp.SECOND, 10 * ptp.SECOND), 0.0)

    def test_the_edge_of_the_window(self) -> None:
        """A message exactly one window ago is not in it, and one a nanosecond later is."""
        for moment, count in ((10 * ptp.SECOND, 0), (10 * ptp.SECOND + 1, 1)):
            lease = Lease(0)
            lease.see(moment)
            self.assertEqual(lease.seen_per_second(20 * ptp.SECOND, 10 * ptp.SECOND), count / 10)

    def test_table(self) -> None:
        table = run("observe", GM, "--read", PTP4L, "--capacity", "640").stdout.decode()
        self.assertIn("granted 33 messages/s, 528/16, of a capacity of 640/16 (82 %)\n", table)
        self.assertIn("3 granted; 0 of 1 clients get less than they were granted\n", table)
        self.assertIn("requests 3, grants 3, denials 0", table)
        self.assertRegex(table, r"192\.0\.2\.2 +ee7bdcfffe2da55d/1 +announce +granted +\d\d:\d\d:\d\d +54 s +1 ")

    def test_other_addresses_are_passed_over(self) -> None:
        last = self.observe(PTP4L.read_bytes(), "10.9.9.9")[-1]
        self.assertEqual((last["clients"], last["counts"]), ([], {}))

    def test_refused(self) -> None:
        with tempfile.TemporaryDirectory() as folder:
            (Path(folder) / "it").write_text("hello")
            self.assertEqual(run("observe", GM, "--read", f"{folder}/it").returncode, 65)
        self.assertEqual(run("observe", GM, "--read", "/nowhere").returncode, 66)
        self.assertEqual(run("observe", "here", "--read", "/nowhere").returncode, 64)


ETH, LO = ("eth0", 0x0800, 4), ("lo", 0x0800, 4)
INCOMING = ("eth0", 0x0800, 0)
SO_TIMESTAMPNS = 35


class Socket:
    """Stands in for a raw socket: what it hears, and how many packets it says were lost each time it is asked.

    The system's stamp of its first packet ends in 1 ns, that of the second in 2 ns, and so on.
    """

    def __init__(self, heard: list[tuple[bytes, tuple[str, int, int]]], lost: list[int]) -> None:
        self.heard, self.lost, self.read = heard, lost, 0

    def recvmsg(self, size: int, room: int) -> tuple[bytes, list[tuple[int, int, bytes]], int, tuple[str, int, int]]:
        packet, address = self.heard.pop(0)
        assert room >= socket.CMSG_SPACE(16)
        self.read += 1
        said = [(socket.SOL_SOCKET, SO_TIMESTAMPNS, struct.pack("qq", 1_700_000_000, self.read))]
        return packet, said, 0, address

    def getsockopt(self, level: int, option: int, size: int) -> bytes:
        return struct.pack("II", 100, self.lost.pop(0))


class Listening(unittest.TestCase):
    """What is heard live, without a right to listen: the filter's program is run here, and the socket is a stand-in."""

    def passes(self, protocol: int, packet: bytes) -> bool:
        """Whether the system's filter lets a packet through: its program is run as the system would."""
        program = tool("observe").filter_for(GM)
        lines = [struct.unpack_from("HBBI", program, at) for at in range(0, len(program), 8)]
        at = value = 0
        while True:
            code, yes, no, number = lines[at]
            at += 1
            match code:
                case 0x28:
                    self.assertEqual(number, 0xFFFFF000)
                    value = protocol
                case 0x30:
                    value = packet[number]
                case 0x20:
                    value = int.from_bytes(packet[number : number + 4])
                case 0x15:
                    at += yes if value == number else no
                case 0x06:
                    return number > 0

    def test_filter(self) -> None:
        """UDP over IPv4 to the grandmaster and from it passes, and nothing else."""
        to, other, away = (ip_packet(*it, 320, b"it") for it in ((SLAVE, GM), (SLAVE, "192.0.2.9"), (GM, SLAVE)))
        tcp = to[:9] + b"\x06" + to[10:]
        passed = [self.passes(0x0800, it) for it in (to, away, other, tcp)]
        self.assertEqual((passed, self.passes(0x86DD, to)), ([True, True, False, False], False))

    def listener(self, heard: list[tuple[bytes, tuple[str, int, int]]], lost: list[int]) -> Any:
        observe = tool("observe")
        with (
            mock.patch.object(observe.socket, "socket", lambda *it: mock.Mock()),
            mock.patch.object(observe.sys, "stdin", mock.Mock()),
        ):
            made = observe.Listener(GM, None)
        made.socket.setsockopt.assert_any_call(socket.SOL_SOCKET, SO_TIMESTAMPNS, 1)
        made.socket = Socket(heard, lost)
        return made

    def test_what_this_machine_sends_is_heard_once(self) -> None:
        """A packet that leaves by an interface is heard; on loopback each comes twice, and is heard as it comes in."""
        packets = [ip_packet(GM, SLAVE, 320, bytes([it])) for it in range(4)]
        ways = [ETH, INCOMING, LO, ("lo", 0x0800, 0)]
        made = self.listener(list(zip(packets, ways)), [])
        with mock.patch("select.select", lambda heard, *_: (heard if made.socket.heard else [], [], [])):
            heard = [(it.octets, it.moment) for it in made.hear(time.monotonic() + 60)]
        stamp = 1_700_000_000 * ptp.SECOND
        self.assertEqual(heard, [(b"\0", stamp + 1), (b"\1", stamp + 2), (b"\3", stamp + 4)])

    def test_the_moment_of_a_packet(self) -> None:
        """It is the system's stamp, or now where the system gives none, or says something else."""
        observe = tool("observe")
        stamp = (socket.SOL_SOCKET, SO_TIMESTAMPNS, struct.pack("qq", 5, 6))
        other = (socket.SOL_SOCKET, SO_TIMESTAMPNS - 6, bytes(16))
        for said in ([stamp], [other, stamp]):
            self.assertEqual(observe.moment_of(said), 5 * ptp.SECOND + 6)
        with mock.patch.object(observe.time, "time_ns", lambda: 7):
            for said in ([], [other], [(socket.SOL_IP, *stamp[1:])], [(*stamp[:2], bytes(8))]):
                self.assertEqual(observe.moment_of(said), 7)

    def test_each_table_says_what_was_missed_since_the_last(self) -> None:
        observe = tool("observe")
        shown: list[tuple[int, int]] = []
        stand_in = mock.Mock()
        stand_in.hear = lambda until: iter(())
        stand_in.count_missed = mock.Mock(side_effect=[3, 3, 7])
        words = argparse.Namespace(interface=None, seconds=0.03, every=0.01, ports=(319, 320))
        with (
            mock.patch.object(observe, "Listener", lambda *_: stand_in),
            mock.patch.object(observe, "write", lambda it, _: shown.append((it["missed"], it["missed_now"]))),
            mock.patch.object(observe.time, "monotonic", lambda: 0.0),
        ):
            observe.watch_live(Ledger(GM, 10 * ptp.SECOND), words)
        self.assertEqual(shown, [(3, 3), (3, 0), (7, 4)])

    def test_what_was_missed_adds_up(self) -> None:
        made = self.listener([], [3, 0, 4])
        self.assertEqual([made.count_missed() for _ in range(3)], [3, 3, 7])


if __name__ == "__main__":
    unittest.main()
