"""Datagrams by their octets."""

from __future__ import annotations

import unittest

import ptp
from support import EXAMPLES

class Datagrams(unittest.TestCase):
    def test_captured(self) -> None:
        lines = (EXAMPLES / "captured.hex").read_text().splitlines()
        octets = [bytes.fromhex(it) for it in lines if it and not it.startswith("#")]
        messages = [ptp.read_message(it) for it in octets[:8]]
        self.assertEqual([it.type for it in messages], [12, 12, 11, 0, 1, 9, 12, 12])
        self.assertEqual({it.domain for it in messages}, {4})
        self.assertEqual(str(messages[0].source), "0a00000000000011/1")
        self.assertEqual(messages[0].tlvs, (ptp.Request(11, 1, 300),))
        self.assertEqual(messages[1].tlvs, (ptp.Grant(11, 1, 300),))
        self.assertEqual((messages[2].clock_class, messages[2].stamp), (84, (2, 1000000)))
        self.assertEqual((str(messages[5].target), messages[5].sequence), ("0a00000000000011/1", 7))
        self.assertEqual(messages[6].tlvs, (ptp.Cancel(11),))
        three = (ptp.Request(11, 1, 300), ptp.Request(0, 0, 300), ptp.Request(9, 0, 300))
        self.assertEqual(messages[7].tlvs, three)
        with self.assertRaisesRegex(ptp.Fault, "short 33"):
            ptp.read_message(octets[8])

    def test_faults(self) -> None:
        request = bytes.fromhex("0c120036040004" + "00" * 27 + "ff" * 10 + "00040006b0010000012c")
        self.assertEqual(ptp.read_message(request).tlvs, (ptp.Request(11, 1, 300),))
        changed = {"version 1": (1, 0x11), "sdo 1": (0, 0x1C), "tlv 0 overrun 7 6": (47, 7)}
        changed |= {"tlv 0 length 4 5": (47, 5), "length 55 54": (3, 55), "body 43 44": (3, 43)}
        changed |= {"tlv 6 short 2": (3, 46)}
        for fault, (at, octet) in changed.items():
            octets = bytearray(request)
            octets[at] = octet
            if fault.startswith("tlv 6"):
                octets[44:54] = bytes.fromhex("00060002b00000000000")
                octets[3] = 52
            with self.assertRaisesRegex(ptp.Fault, fault):
                ptp.read_message(bytes(octets))

    def test_signalings_and_stamps_are_written(self) -> None:
        """Of a Signaling some TLVs are kept, and a timing message gets another timestamp."""
        head, other = "0c12{}040004" + "00" * 27 + "ff" * 10, "3000000212ab"
        ask, give = "00040006b0010000012c", "000500080000000000000000"
        whole = bytes.fromhex(head.format("0048") + ask + other + give + "beef")
        for places, kept in (([0], ask), ([1], give), ([0, 1], ask + give), ([], "")):
            length = f"{44 + len(kept) // 2:04x}"
            self.assertEqual(ptp.with_tlvs(whole, places).hex(), head.format(length) + kept)
        self.assertEqual(ptp.trimmed(whole), whole[:-2])
        sync = bytes.fromhex("0012002c" + "00" * 40)
        stamped = "0012002c" + "00" * 30 + "000000000003" + "00000005"
        self.assertEqual(ptp.with_stamp(sync, 3 * 10**9 + 5).hex(), stamped)

    def test_rates_and_periods(self) -> None:
        """A rate times its period is 16 seconds, for each logarithm of a kind."""
        for log in range(-7, 5):
            self.assertEqual(ptp.rate_of(log) * ptp.period_of(log), 16 * 10**9)
        self.assertEqual((ptp.period_of(-7), ptp.period_of(4)), (7_812_500, 16 * 10**9))
