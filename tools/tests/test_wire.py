"""Reports of captures beside a grandmaster, for an audit. What stands in them is written by hand, or told by replay."""

from __future__ import annotations

import re
import subprocess
import tempfile
import unittest
from pathlib import Path
from unittest import mock

import wire_report
from capture import Datagram
from support import EXAMPLES, PATIENCE, PTP4L, REPORT, Event, beside, capture_of, program, ptpuni, run
from support import signaling, timing, wants_program
from wire import Wire

GM, CLIENT, OTHER = "10.0.0.1", "10.0.1.17", "10.0.1.18"
GM_PORT, ANY = "0a000000000000010001", "ff" * 10
CLIENT_PORT, OTHER_PORT = "0a000000000000110001", "0a000000000000120001"
SECOND = 10**9
# The capture's moment at which the grandmaster's clock stands at 0.
ZERO = 1_700_000_000 * SECOND
# Of a REQUEST and its answer: the kind's code, the interval's logarithm, the duration, R.
ASK_SYNC, GIVE_SYNC, DENY_SYNC = "0004000600000000003c", "0005000800000000003c0001", "000500080000000000000000"
ASK_DELAY, GIVE_DELAY = "0004000690000000003c", "0005000890000000003c0001"
END_SYNC, ENDED_SYNC = "000600020000", "000700020000"


def asks(moment: int, tlvs: str, sequence: int = 0, ip: str = CLIENT, port: str = CLIENT_PORT) -> Event:
    return (ZERO + moment, ip, GM, signaling(port, ANY, sequence, tlvs))


def says(moment: int, tlvs: str, sequence: int = 0, ip: str = CLIENT, port: str = CLIENT_PORT) -> Event:
    return (ZERO + moment, GM, ip, signaling(GM_PORT, port, sequence, tlvs))


def sync(stamp: int, sequence: int, late: int = 2000, ip: str = CLIENT) -> Event:
    """A Sync that is seen so many nanoseconds behind its stamp."""
    return (ZERO + stamp + late, GM, ip, timing(0, GM_PORT, sequence, stamp))


def delay_resp(stamp: int, sequence: int) -> Event:
    return (ZERO + stamp + 2000, GM, CLIENT, timing(9, GM_PORT, sequence, stamp, rest=CLIENT_PORT))


# A Delay_Req at 0, so that the capture begins a period before the first grant.
FIRST = (ZERO, CLIENT, GM, timing(1, CLIENT_PORT, 0, 0))
# A Sync a second for 60 s, asked for at 1 s and granted 50 us later, of which three Syncs were captured.
GRANTED = [asks(SECOND + 2000, ASK_SYNC), says(SECOND + 52000, GIVE_SYNC)]
THREE = [*GRANTED, *(sync((2 + it) * SECOND + 20000, it) for it in range(3))]


def reported(events: list[Event], *words: str) -> tuple[list[str], list[str]]:
    """The lines of the report, and what is said of it."""
    ran = run("from-pcap", "report", "-", "--grandmaster", GM, *words, given=capture_of(events))
    assert ran.returncode == 0, ran.stderr
    said = ran.stderr.decode().replace("from-pcap: -: ", "").splitlines()
    return ran.stdout.decode().splitlines(), said


def audit(capacity: int, lines: list[str]) -> str:
    report = "".join(f"{it}\n" for it in lines).encode()
    ran = subprocess.run([str(program()), "audit", str(capacity)], input=report, capture_output=True, timeout=PATIENCE)
    return ran.stdout.decode().removesuffix("\n")


def told(lines: list[str]) -> list[str]:
    """The lines without their numbers and without octets."""
    return [re.sub(r"^\d+ (send) \d+ (.*) \S+$|^\d+ ", r"\1 \2", it).strip() for it in lines[:-1]]


class Told(unittest.TestCase):
    def test_a_grant_and_its_syncs(self) -> None:
        """The decision is at the request's moment by the grandmaster's clock, which is 2 us behind by the Syncs."""
        lines, said = reported(THREE)
        octets = [it[3].hex() for it in [THREE[1], *THREE[2:]]]
        wanted = ["1 granted sync 0 at 1000000000 until 61000000000", f"1 send 1 {GM} {CLIENT} general {octets[0]}"]
        wanted += [f"{it} send {it} {GM} {CLIENT} event {octets[it - 1]}" for it in (2, 3, 4)]
        self.assertEqual(lines, [*wanted, "end 4 4"])
        counts = "1 grants, 0 denials, 3 messages, 16 held at most"
        self.assertEqual(said, [f"{counts}, stamped up to 0.000 ms before the wire"])

    def test_what_is_asked_by_whom_and_answered(self) -> None:
        """Granted, short with what is held and asked, outside by what was asked, cancelled, nothing."""
        of_other = {"ip": OTHER, "port": OTHER_PORT}
        events = [
            *GRANTED,
            sync(2 * SECOND + 20000, 0),
            asks(3 * SECOND + 2000, "0004000600fe0000003c", **of_other),
            says(3 * SECOND + 9000, "0005000800fe000000000000", **of_other),
            asks(4 * SECOND + 2000, "00040006000000000000" + "0004000600050000003c" + "0004000630000000003c", 1),
            says(4 * SECOND + 9000, DENY_SYNC + "00050008000500000000" + "0000" + "000500083000000000000000", 1),
            asks(5 * SECOND + 2000, END_SYNC, 2),
            says(5 * SECOND + 9000, ENDED_SYNC, 2),
            asks(6 * SECOND + 2000, END_SYNC + "000600029000" + "000600023000", 3),
            says(6 * SECOND + 9000, ENDED_SYNC + "000700029000" + "000700023000", 3),
        ]
        lines, _ = reported(events, "--capacity", "32")
        self.assertEqual(
            told(lines),
            [
                "granted sync 0 at 1000000000 until 61000000000",
                f"send {GM} {CLIENT} general",
                f"send {GM} {CLIENT} event",
                "short sync -2 at 3000000000 others 16 rate 64 capacity 32",
                f"send {GM} {OTHER} general",
                "outside duration sync 0 0",
                "outside log sync 5",
                "outside type 3",
                f"send {GM} {CLIENT} general",
                "cancelled sync at 5000000000",
                f"send {GM} {CLIENT} general",
                "nothing sync at 6000000000",
                "nothing delay_resp at 6000000000",
                "nothing 3",
                f"send {GM} {CLIENT} general",
            ],
        )

    def test_what_is_held_beside_a_denial(self) -> None:
        """The client's own grant of the kind is not, nor one that is over; a request for 59 s is outside."""
        faster, none = "0004000600fe0000003c", "0005000800fe000000000000"
        events = [*GRANTED, sync(2 * SECOND, 0, 2000), asks(3 * SECOND, faster, 1), says(3 * SECOND + 9000, none, 1)]
        events += [asks(70 * SECOND, ASK_DELAY, 2), says(70 * SECOND + 9000, DENY_SYNC.replace("0800", "0890"), 2)]
        events += [asks(71 * SECOND, ASK_SYNC.replace("3c", "3b"), 3), says(71 * SECOND + 9000, DENY_SYNC, 3)]
        lines = [it for it in told(reported(events, "--capacity", "32")[0]) if not it.startswith(("send", "granted"))]
        wanted = ["short sync -2", "short delay_resp 0", "outside duration sync 0 59"]
        self.assertEqual([it.split(" at ")[0] for it in lines], wanted)
        self.assertEqual([it.split(" ")[-5] for it in lines[:2]], ["0", "0"])

    def test_a_denial_wants_a_capacity(self) -> None:
        events = [asks(SECOND, ASK_SYNC), says(SECOND, DENY_SYNC)]
        ran = run("from-pcap", "report", "-", "--grandmaster", GM, given=capture_of(events))
        self.assertEqual((ran.returncode, ran.stdout), (65, b""))
        self.assertIn(b"-: it has denials or CANCELs of the grandmaster: say its capacity by --capacity N", ran.stderr)

    def test_sheddings(self) -> None:
        """CANCELs of the grandmaster within a second are those of one change, to the next of the capacities."""
        events = [*GRANTED, asks(SECOND + 3000, ASK_DELAY, 1), says(SECOND + 53000, GIVE_DELAY, 1)]
        events += [sync(2 * SECOND + 20000, 0)]
        events += [says(3 * SECOND + 2000, "000600029000", 7), says(3 * SECOND + 9000, END_SYNC, 8)]
        events += [says(5 * SECOND, "00060002b000", 9), sync(6 * SECOND, 1)]
        lines, said = reported(events, "--capacity", "32,8,9")
        self.assertEqual(
            told(lines)[5:],
            [
                f"capacity {GM} 8 at 3000000000",
                f"shed delay_resp 0 {CLIENT} 0a00000000000011/1",
                f"shed sync 0 {CLIENT} 0a00000000000011/1",
                f"send {GM} {CLIENT} general",
                f"send {GM} {CLIENT} general",
                f"capacity {GM} 9 at 4999998000",
                f"send {GM} {CLIENT} event",
            ],
        )
        self.assertIn("left out 1 CANCELs of grants that are not known", said)
        self.assertTrue(said[0].startswith("2 grants, 0 denials, 2 sheddings, 2 messages, 32 held at most"))

    def test_two_steps(self) -> None:
        """A Sync with twoStepFlag has the timestamp of its Follow_Up, in its place and in its octets."""
        first = (ZERO + 2 * SECOND + 30000, GM, CLIENT, timing(0, GM_PORT, 0, 0, 0x600))
        second = (ZERO + 3 * SECOND + 30000, GM, CLIENT, timing(0, GM_PORT, 1, 0, 0x600))
        follow_up = (ZERO + 2 * SECOND + 31000, GM, CLIENT, timing(8, GM_PORT, 0, 2 * SECOND + 28000))
        lines, said = reported([*GRANTED, first, follow_up, second])
        self.assertEqual(lines[2][-20:], f"{2:012x}{28000:08x}")
        # The second has no timestamp: it has the capture's moment, 2 us before which the first was stamped.
        self.assertEqual(lines[3][-20:], f"{3:012x}{28000:08x}")
        self.assertEqual(len(lines), 5)
        self.assertIn("1 Syncs without their Follow_Up, taken by their own timestamp or the capture's", said)

    def test_ptp4l_by_its_follow_ups(self) -> None:
        """The Syncs of ptp4l carry no timestamp; tshark told those of its Follow_Ups."""
        lines = run("from-pcap", "report", PTP4L, "--grandmaster", "192.0.2.1").stdout.decode().splitlines()
        syncs = [it.split()[-1] for it in lines if " event " in it]
        self.assertEqual((len(syncs), syncs[0][-20:]), (14, "00006b0a2b5a0819e6c1"))

    def test_other_requests_of_the_client_wait(self) -> None:
        """An answer is matched by its sequenceId; an older request of the kind stays without an answer."""
        events = [asks(SECOND, ASK_SYNC, 1), asks(2 * SECOND, ASK_SYNC, 2), asks(3 * SECOND, ASK_SYNC, 3)]
        events += [says(3 * SECOND + 9000, GIVE_SYNC, 2), sync(4 * SECOND, 0, 0)]
        lines, said = reported(events)
        self.assertEqual(told(lines)[0], "granted sync 0 at 2000000000 until 62000000000")
        self.assertIn("2 requests whose answer was not seen", said)

    def test_answers_with_numbers_of_their_own(self) -> None:
        """An answer whose sequenceId is no request's is one to the first request of its kind and logarithm."""
        faster = "0004000600fe0000003c"
        events = [asks(SECOND, ASK_SYNC, 1), asks(2 * SECOND, faster, 2), asks(3 * SECOND, faster, 3)]
        events += [says(3 * SECOND + 9000, "0005000800fe0000003c0001", 77), sync(4 * SECOND, 0, 0)]
        self.assertEqual(told(reported(events)[0])[0], "granted sync -2 at 2000000000 until 62000000000")

    def test_what_has_no_line(self) -> None:
        """A grant of another kind, or at another logarithm, has no line, and the rest of its Signaling has."""
        other_kind, other_log = "0005000830000000003c0001", "0005000800050000003c0001"
        events = [asks(SECOND, ASK_SYNC), says(SECOND, other_kind + GIVE_SYNC + other_log)]
        lines, said = reported(events)
        self.assertEqual(lines[1].split()[-1], signaling(GM_PORT, CLIENT_PORT, 0, GIVE_SYNC).hex())
        self.assertIn("left out 2 grants outside of every profile", said)

    def test_refused(self) -> None:
        ran = run("from-pcap", "report", PTP4L, "--grandmaster", "10.9.9.9")
        self.assertEqual((ran.returncode, ran.stdout), (65, b""))
        self.assertIn(b"nothing in it is from or to 10.9.9.9", ran.stderr)
        self.assertEqual(run("from-pcap", "report", "/nowhere", "--grandmaster", GM).returncode, 66)


class Moments(unittest.TestCase):
    """Where a decision is put between its request and its answer."""

    def grant(self, *events: Event) -> str:
        return told(reported([*GRANTED, sync(2 * SECOND + 20000, 0), *events])[0])[0]

    def test_a_message_at_the_very_end_tells_how_late_it_began(self) -> None:
        last = SECOND + 60 * SECOND + 30000
        self.assertEqual(self.grant(sync(last, 1)), f"granted sync 0 at {SECOND + 30001} until {last + 1}")
        # One behind the latest moment at which it can end tells nothing.
        self.assertEqual(self.grant(sync(last + 30000, 1)), f"granted sync 0 at {SECOND} until {61 * SECOND}")

    def test_a_message_while_it_is_decided_is_of_the_grant_before(self) -> None:
        events = [*THREE, asks(5 * SECOND + 2000, END_SYNC, 1), sync(5 * SECOND + 30000, 1)]
        lines = told(reported([*events, says(5 * SECOND + 52000, ENDED_SYNC, 1)])[0])
        cancelled = [f"cancelled sync at {5 * SECOND + 30001}", f"send {GM} {CLIENT} general"]
        self.assertEqual(lines[-3:], [f"send {GM} {CLIENT} event", *cancelled])

    def test_the_clock_is_followed(self) -> None:
        """Of a clock that gains a millisecond each second the moments are those of the same second."""
        events = [*GRANTED, sync(2 * SECOND, 0, 2000)]
        events += [(ZERO + 100 * SECOND + 2000, GM, CLIENT, timing(0, GM_PORT, 1, 100 * SECOND + 10**8))]
        events += [asks(100 * SECOND + 5000, ASK_SYNC, 1), says(100 * SECOND + 9000, GIVE_SYNC, 1)]
        lines = told(reported(events)[0])
        for at in (SECOND + 2000 - 2000, 100 * SECOND + 10**8 + 3000):
            self.assertIn(f"granted sync 0 at {at} until {at + 60 * SECOND}", lines)

    def test_the_clock_is_told_by_the_message_that_was_seen_soonest(self) -> None:
        events = [*GRANTED, sync(2 * SECOND, 0, 500000), sync(3 * SECOND, 1, 2000)]
        events += [sync(3 * SECOND + 9 * 10**8, 2, 900000), sync(5 * SECOND, 3, 900000)]
        events += [asks(3 * SECOND + 2000, ASK_DELAY, 1), says(3 * SECOND + 52000, GIVE_DELAY, 1)]
        self.assertIn(f"granted delay_resp 0 at {3 * SECOND} until {63 * SECOND}", told(reported(events)[0]))

    def test_a_message_a_period_behind_is_of_the_new_grant(self) -> None:
        """The answer was seen late, behind a Sync that it paid for."""
        events = [FIRST, asks(SECOND, ASK_SYNC), sync(SECOND * 22 // 10, 0, 0), says(SECOND * 25 // 10, GIVE_SYNC)]
        self.assertEqual(told(reported(events)[0])[0], f"granted sync 0 at {SECOND} until {61 * SECOND}")

    def test_decisions_are_in_order(self) -> None:
        """A request that was seen first and answered last is decided no sooner than the one answered before."""
        other = {"ip": OTHER, "port": OTHER_PORT}
        events = [asks(SECOND, ASK_SYNC, **other), asks(SECOND + 9000, ASK_SYNC), says(SECOND + 20000, GIVE_SYNC)]
        events += [says(SECOND + 30000, GIVE_SYNC, **other), sync(3 * SECOND, 0, 0)]
        granted = [it for it in told(reported(events)[0]) if it.startswith("granted")]
        self.assertEqual(granted, [f"granted sync 0 at {SECOND + 9000} until {61 * SECOND + 9000}"] * 2)


class Parts(unittest.TestCase):
    """Captures that lack something."""

    def test_a_capture_that_begins_in_the_middle(self) -> None:
        """Messages before the first grant that was seen are left out, and those that may be of an earlier one."""
        renewed = [asks(5 * SECOND + 2000, ASK_SYNC), says(5 * SECOND + 52000, GIVE_SYNC)]
        events = [*(sync(it * SECOND + 500000, it) for it in range(1, 5)), *renewed]
        events += [sync(it * SECOND + 500000, it) for it in range(5, 8)]
        lines, said = reported(events)
        self.assertEqual(len(told(lines)), 2 + 2)
        self.assertIn("left out 4 messages of grants that were made before the capture", said)
        self.assertIn("left out 1 early messages of a chain whose beginning was not seen", said)
        whole, _ = reported(events, "--whole")
        self.assertEqual(len(told(whole)), 2 + 7)

    def test_a_chain_that_is_seen_from_its_beginning_is_told_whole(self) -> None:
        """Here the first Sync is early, and is told, since a Sync would have been seen before."""
        early = [FIRST, *GRANTED, sync(SECOND + 900000, 0)]
        self.assertEqual(len(told(reported(early)[0])), 3)

    def test_a_lost_request(self) -> None:
        lines, said = reported([FIRST, *GRANTED[1:], sync(SECOND + 10**6, 0), sync(3 * SECOND, 1)])
        self.assertEqual(told(lines)[0], f"granted sync 0 at {SECOND + 50000} until {61 * SECOND + 50000}")
        self.assertIn("left out 1 early messages of a chain whose beginning was not seen", said)

    def test_a_lost_answer(self) -> None:
        """Behind a request without an answer the grant may go on, so that what comes after its end is left out."""
        events = [*THREE, asks(30 * SECOND, ASK_SYNC, 1), sync(70 * SECOND, 9)]
        lines, said = reported(events)
        self.assertEqual(len(told(lines)), 5)
        self.assertIn("left out 1 messages behind a request whose answer was not seen", said)
        # Without the request it is told, and an audit says `grant`.
        self.assertEqual(len(told(reported([*THREE, sync(70 * SECOND, 9)])[0])), 6)

    def test_a_grant_behind_a_lost_answer(self) -> None:
        """It may continue one that was not seen, so that its first early Sync is left out."""
        events = [FIRST, *THREE, asks(30 * SECOND, ASK_SYNC, 1), asks(62 * SECOND, ASK_SYNC, 2)]
        events += [says(62 * SECOND + 9000, GIVE_SYNC, 2), sync(62 * SECOND + 10**8, 9), sync(63 * SECOND + 10**8, 10)]
        lines, said = reported(events)
        self.assertEqual(len(told(lines)), 5 + 3)
        self.assertIn("left out 1 early messages of a chain whose beginning was not seen", said)

    def test_delay_resps_of_a_chain_that_was_not_seen(self) -> None:
        """Two periods may have been saved: a pair may come with a period, until a client paused for that long."""
        pairs = [71, 80, 81, 120, 121, 122]
        events = [(ZERO + 65 * SECOND // 10, CLIENT, GM, timing(1, CLIENT_PORT, 0, 0))]
        events += [asks(7 * SECOND, ASK_DELAY), says(7 * SECOND + 9000, GIVE_DELAY)]
        lines, said = reported([*events, *(delay_resp(it * SECOND // 10, it) for it in pairs)])
        answered = [it for it in told(lines) if it.startswith("answered")]
        self.assertEqual(answered, [f"answered at {it * SECOND // 10}" for it in (80, 120, 121, 122)])
        self.assertIn("left out 2 early messages of a chain whose beginning was not seen", said)

    def test_a_cancel_of_what_was_not_seen(self) -> None:
        """Behind it nothing is granted, so that a Sync is told."""
        events = [asks(SECOND, END_SYNC), says(SECOND + 9000, ENDED_SYNC), sync(2 * SECOND, 0)]
        self.assertEqual(told(reported(events)[0])[-1], f"send {GM} {CLIENT} event")

    def test_what_is_after_a_cancel_is_told(self) -> None:
        events = [*THREE, asks(5 * SECOND, END_SYNC, 1), says(5 * SECOND + 5000, ENDED_SYNC, 1), sync(7 * SECOND, 3)]
        self.assertEqual(told(reported(events)[0])[-1], f"send {GM} {CLIENT} event")

    def test_classes_are_said(self) -> None:
        rest = "00000080{:02x}2100008000000000000000010000a0"
        events = []
        for second, clock_class in ((1, 84), (2, 84), (3, 90)):
            octets = timing(11, GM_PORT, second, second * SECOND, rest=rest.format(clock_class))
            events.append((ZERO + second * SECOND, GM, CLIENT, octets))
        _, said = reported(events)
        self.assertEqual([it for it in said if "Class" in it], ["clockClass 90 from 1700000003.000 s on"])


class Slack(unittest.TestCase):
    EARLY = [*GRANTED, sync(2 * SECOND, 0), sync(3 * SECOND - 100, 1), sync(4 * SECOND - 50, 2)]

    def test_what_is_forgiven(self) -> None:
        """A message that is early by the slack gets the earliest lawful moment as its timestamp."""
        lines, said = reported(self.EARLY, "--slack", "100")
        self.assertEqual([it[-20:] for it in lines[2:5]], [f"{it:012x}00000000" for it in (2, 3, 4)])
        self.assertIn("forgiven 2 messages before their time, of 100 ns at most (--slack 100)", said)
        lines, said = reported(self.EARLY, "--slack", "99")
        self.assertEqual(lines[3][-20:], f"{2:012x}{SECOND - 100:08x}")

    def test_it_is_no_slack_a_message(self) -> None:
        """What is forgiven adds up: at a rate that is too high a slack is used up."""
        fast = [FIRST, *GRANTED, *(sync((1 + it) * (SECOND - 40) + SECOND, it) for it in range(3))]
        _, said = reported(fast, "--slack", "100")
        self.assertIn("forgiven 2 messages before their time, of 80 ns at most (--slack 100)", said)

    def test_a_grant_behind_the_end_begins_anew(self) -> None:
        """Its first Sync is due a period behind it, whatever came before."""
        again = [asks(100 * SECOND + 2000, ASK_SYNC, 1), says(100 * SECOND + 52000, GIVE_SYNC, 1)]
        events = [FIRST, *GRANTED, sync(2 * SECOND, 0), *again, sync(101 * SECOND - 50, 1)]
        _, said = reported(events, "--slack", "100")
        self.assertIn("forgiven 1 messages before their time, of 50 ns at most (--slack 100)", said)

    def test_one_that_stays_too_early_is_not_forgiven(self) -> None:
        """Two Syncs in one period: the first is forgiven half a second, and the second stays where it is."""
        half = SECOND // 2
        events = [FIRST, *GRANTED, sync(2 * SECOND, 0), sync(2 * SECOND + half, 1), sync(2 * SECOND + half + 10, 2)]
        lines, said = reported(events, "--slack", str(SECOND))
        self.assertIn(f"forgiven 1 messages before their time, of {half} ns at most (--slack {SECOND})", said)
        self.assertEqual(lines[-2][-20:], f"{2:012x}{half + 10:08x}")

    def test_what_is_due_behind_the_end_is_not_forgiven(self) -> None:
        """A Sync just before the end of its grant, which is early by 100 ns, would be put behind the end."""
        last = 61 * SECOND - 100
        events = [FIRST, *GRANTED, sync(60 * SECOND, 0), sync(last, 1)]
        lines, said = reported(events, "--slack", "100")
        self.assertEqual((lines[3][-20:], len(said)), (f"{60:012x}{SECOND - 100:08x}", 1))

    def test_delay_resps_have_a_credit(self) -> None:
        """Two of them in a period are in time, and need no slack."""
        events = [FIRST, asks(SECOND, ASK_DELAY), says(SECOND + 9000, GIVE_DELAY)]
        events += [delay_resp(3 * SECOND, 0), delay_resp(3 * SECOND + 5 * 10**8, 1)]
        self.assertFalse(any("forgiven" in it for it in reported(events, "--slack", str(SECOND))[1]))

    def test_kinds(self) -> None:
        events = [asks(SECOND, ASK_DELAY), says(SECOND + 9000, GIVE_DELAY), delay_resp(3 * SECOND, 0)]
        self.assertEqual(told(reported(events)[0])[2:], ["answered at 3000000000", f"send {GM} {CLIENT} general"])
        lines, said = reported(events, "--kinds", "announce,sync")
        self.assertEqual(len(told(lines)), 2)
        self.assertIn("left out 1 messages of the kind delay_resp, which --kinds does not name", said)


def both(length: int) -> list[Event]:
    """A Sync and a Delay_Resp a second, for so many seconds, in grants of 60 s that are renewed each 30 s."""
    events = [FIRST]
    for second in range(1, length):
        if second % 30 == 1:
            events += [asks(second * SECOND + 2000, ASK_SYNC + ASK_DELAY, second)]
            events += [says(second * SECOND + 52000, GIVE_SYNC + GIVE_DELAY, second)]
        if second > 1:
            events += [sync(second * SECOND + 20000, second), delay_resp(second * SECOND + 30000, second)]
    return events


def pieces(events: list[Event], limit: int, capacities: tuple[int, ...] = ()) -> list[list[str]]:
    """The lines of each report, of at most so many octets."""
    seen = Wire(GM)
    for moment, sender, receiver, octets in events:
        seen.take(Datagram(moment, sender, 320, receiver, 320, octets))
    seen.finish()
    made = wire_report.Reporter(seen, capacities, limit=limit)
    made.run()
    return [it.text().splitlines() for it in made.pieces]


class Pieces(unittest.TestCase):
    def test_each_piece_begins_with_the_grants_that_are_live(self) -> None:
        made = pieces(both(100), 8000)
        self.assertEqual(len(made), 5)
        self.assertTrue(all(sum(len(it) + 1 for it in lines) <= 8000 for lines in made))
        # What the second one says again: each grant by itself, the last Sync and the last Delay_Resp.
        last = [it.split()[-1] for it in made[0] if " send " in it][-2:]
        granted = [f"granted sync 0 at {SECOND} until {61 * SECOND}", f"send {GM} {CLIENT} general"]
        granted += [f"granted delay_resp 0 at {SECOND} until {61 * SECOND}", f"send {GM} {CLIENT} general"]
        self.assertEqual(told(made[1])[:4], granted)
        self.assertEqual({it.split()[-1] for it in made[1][4:7] if " send " in it}, set(last))
        # And nothing is told by none of them.
        whole = {it.split()[-1] for it in pieces(both(100), 10**6)[0] if " event " in it}
        self.assertEqual({it.split()[-1] for lines in made for it in lines if " event " in it}, whole)

    def test_each_piece_begins_with_the_capacity(self) -> None:
        """Behind a change of capacity a piece tells it again, between the grants before it and those behind it."""
        events = [*both(20), says(20 * SECOND + 9000, END_SYNC, 99), asks(21 * SECOND, ASK_SYNC, 98)]
        events += [says(21 * SECOND + 9000, GIVE_SYNC, 98), *(sync(it * SECOND + 20000, it) for it in range(23, 60))]
        made = pieces(events, 5000, (64, 40))
        self.assertGreater(len(made), 2)
        said = [it.split(" at ")[0] for it in told(made[-1]) if not it.startswith("send")]
        self.assertEqual(said, ["granted delay_resp 0", "answered", f"capacity {GM} 40", "granted sync 0"])

    def test_in_pieces_by_the_command(self) -> None:
        with tempfile.TemporaryDirectory() as folder, mock.patch.object(wire_report, "LARGEST_REPORT", 8000):
            name = f"{folder}/it"
            given = capture_of(both(100))
            ran = run("from-pcap", "report", "-", "--grandmaster", GM, "--pieces", name, given=given)
            self.assertEqual((ran.returncode, ran.stdout), (0, b""))
            texts = [Path(f"{name}-{it}.report").read_text().splitlines() for it in range(1, 6)]
            self.assertEqual(texts, pieces(both(100), 8000))
            self.assertIn(b"5 reports, in which", ran.stderr)
            ran = run("from-pcap", "report", "-", "--grandmaster", GM, given=given)
            self.assertEqual((ran.returncode, ran.stdout), (65, b""))
            self.assertIn(b"above the 64 MiB that audit reads: 5 are written with --pieces NAME", ran.stderr)


@wants_program
class Audited(unittest.TestCase):
    """The program's own answers: yes where the promises were kept, and no where a capture is changed to break one."""

    def test_yes_and_its_neighbours(self) -> None:
        lines, _ = reported([FIRST, *THREE])
        self.assertEqual(audit(16, lines), "yes grants 1 sent 3")
        self.assertEqual(audit(15, lines), "no 1 fit")
        doubled = reported([FIRST, *THREE, sync(3 * SECOND + 20000, 1)])[0]
        self.assertEqual(audit(16, doubled), "no 5 early")
        behind = reported([FIRST, *THREE, sync(70 * SECOND, 3)])[0]
        self.assertEqual(audit(16, behind), "no 6 grant")

    def test_each_cause_of_no(self) -> None:
        """What docs/AUDIT.md says of each cause, but for `early`, `grant` and `fit`, which are above."""
        other = {"port": OTHER_PORT}
        shared = [asks(5 * SECOND, ASK_SYNC, 1, **other), says(5 * SECOND + 9000, GIVE_SYNC, 1, **other)]
        no_renewal = GIVE_DELAY[:-2] + "00"
        reply = [asks(5 * SECOND, ASK_DELAY, 1), says(5 * SECOND + 9000, no_renewal, 1)]
        nanos = bytearray(sync(5 * SECOND, 3)[3])
        nanos[40:44] = (10**9).to_bytes(4)
        stamp = [(ZERO + 5 * SECOND, GM, CLIENT, bytes(nanos))]
        over = [asks(5 * SECOND, ASK_DELAY, 1), says(5 * SECOND + 9000, GIVE_DELAY, 1)]
        over += [says(6 * SECOND, "000600029000", 9)]
        for cause, events in {"shared": shared, "reply": reply, "stamp": stamp, "over": over}.items():
            lines, _ = reported([FIRST, *THREE, *events], "--capacity", "32,15")
            self.assertRegex(audit(32, lines), f"no [0-9]+ {cause}$")
        # With the capacity that is left it is well, and timestamps that fall are early ones.
        lines, _ = reported([FIRST, *THREE, *over], "--capacity", "32,16")
        self.assertEqual(audit(32, lines), "yes grants 2 sent 3")
        falling = [sync(2 * SECOND, 0), sync(4 * SECOND, 1), sync(3 * SECOND - 1, 2, 2 * SECOND)]
        lines, _ = reported([FIRST, *GRANTED, *falling])
        self.assertRegex(audit(16, lines), "no [0-9]+ early$")

    def test_a_capture_that_begins_in_the_middle(self) -> None:
        """Of Delay_Resps by twos, as their credit allows, wherever the capture begins."""
        events = [asks(SECOND, ASK_DELAY), says(SECOND + 9000, GIVE_DELAY)]
        for second in range(3, 80, 2):
            if second % 20 == 1:
                events += [asks(second * SECOND, ASK_DELAY, second), says(second * SECOND + 9000, GIVE_DELAY, second)]
            events += [delay_resp(second * SECOND + 10**8, second), delay_resp(second * SECOND + 2 * 10**8, second + 1)]
        self.assertTrue(audit(16, reported([FIRST, *events])[0]).startswith("yes grants 4 sent 78"))
        for first in range(len(events)):
            self.assertIn("yes", audit(16, reported(events[first:])[0]), first)

    def test_pieces(self) -> None:
        events = both(100)
        self.assertEqual([audit(32, it)[:3] for it in pieces(events, 8000)], ["yes"] * 5)
        self.assertEqual([audit(31, it)[-3:] for it in pieces(events, 8000)], ["fit"] * 5)
        # Wherever a piece begins it is sound.
        for limit in range(4000, 7000, 91):
            self.assertEqual({audit(32, it)[:3] for it in pieces(events, limit)}, {"yes"}, limit)
        # A Sync that is doubled is found in whichever piece it stands, also right behind a seam.
        for second in range(5, 95, 6):
            doubled = pieces([*events, sync(second * SECOND + 20000, second)], 8000)
            self.assertEqual([audit(32, it)[-5:] for it in doubled].count("early"), 1, second)

    def test_examples(self) -> None:
        """The capture beside a grandmaster of replay tells what its own report does."""
        examples = (("falling-capacity", 48, 48), ("lost-delay-resp", 2048, 18), ("under-load", 64, 64))
        for name, capacity, held in examples:
            with self.subTest(name):
                script = (EXAMPLES / f"{name}.script").read_text()
                report = ptpuni("replay", script.encode()).decode()
                lines, _ = reported(shifted(beside(GM, script, report)), "--capacity", str(capacity))
                self.assertEqual(told(lines), of_the_grandmaster(report, capacity))
                self.assertTrue(audit(held, lines).startswith("yes "))
                self.assertIn(" fit", audit(held - 1, lines))


def shifted(events: list[Event]) -> list[Event]:
    return [(ZERO + it[0], *it[1:]) for it in events]


def of_the_grandmaster(report: str, capacity: int) -> list[str]:
    """What a report of replay tells of the grandmaster and the wire shows too, with its capacity as it is named."""
    kept = []
    for line in told(report.splitlines()):
        word = line.split()[0]
        of_decisions = ("granted", "short", "outside", "cancelled", "nothing", "answered", "shed")
        if word in of_decisions or line.startswith(f"send {GM}"):
            kept.append(re.sub("capacity [0-9]+$", f"capacity {capacity}", line))
        elif word == "capacity" and " 48 " not in line:
            kept.append(re.sub(r"(capacity \S+) \d+", rf"\1 {capacity}", line))
    return kept


if __name__ == "__main__":
    unittest.main()
