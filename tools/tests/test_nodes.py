"""What the nodes of a scenario send. What is wanted is reckoned here by hand, from docs/PROFILE.md."""

from __future__ import annotations

import unittest

import nodes
import plan
from nodes import DELAY_REQ, SIGNALING
from ptp import SECOND
from test_scenario import EDGE, Made

ONE = """
length = 130
delay = 0.001

[[grandmasters]]
ip = "10.0.0.1"
capacity = 32
max_duration = 60

[[slaves]]
ip = "10.0.1.1"
masters = ["10.0.0.1"]
log_announce = 1
log_sync = 0
log_delay = 1
"""
LOST = ONE.replace("\ndelay", "\nloss = 1\ndelay")
TWO = ONE.replace('ip = "10.0.1.1"', 'ip = "10.0.1.1"\ncount = 2\nspread = 2')
THERE, BACK = "10.0.1.1 10.0.0.1", "10.0.0.1 10.0.1.1"


def sent(text: str, way: str) -> list[float]:
    """The moments, in seconds, at which datagrams of a way are sent."""
    made = Made(text)
    return [made.sent(number) / SECOND for number, it in enumerate(made.ways, 1) if it == way]


class Asks(unittest.TestCase):
    def test_without_an_answer(self) -> None:
        """Three, a second apart, and a minute later the next."""
        asks = sent(LOST, f"{THERE} {SIGNALING}")
        self.assertEqual(asks, [0, 1, 2, 62, 63, 64, 124, 125, 126])

    def test_granted(self) -> None:
        """A renewal at half of the duration, which the grandmaster makes shorter."""
        text = ONE.replace("[[slaves]]", "[[slaves]]\nduration = 300")
        self.assertEqual(sent(text, f"{THERE} {SIGNALING}"), [0, 31, 62, 93, 124])
        self.assertEqual(sent(text.replace("= 60", "= 1000"), f"{THERE} {SIGNALING}"), [0])

    def test_denied(self) -> None:
        """What is denied is asked for a minute later, what is granted beside it at half of its duration."""
        # (8 and 16 sixteenths are held, and another 8 do not fit)
        made = Made(ONE.replace("capacity = 32", "capacity = 31"))
        asks = [made.sent(it) // SECOND for it, way in enumerate(made.ways, 1) if way == f"{THERE} {SIGNALING}"]
        self.assertEqual(asks, [0, 31, 61, 62, 93, 122, 124])
        self.assertNotIn(f"{THERE} {DELAY_REQ}", made.ways)

    def test_another_domain(self) -> None:
        """Nobody answers."""
        self.assertEqual(sent(ONE + "domain = 5", f"{BACK} {SIGNALING}"), [])
        self.assertEqual(len(sent(ONE + "domain = 5", f"{THERE} {SIGNALING}")), 9)


class Messages(unittest.TestCase):
    def test_of_a_turn(self) -> None:
        """Each a period after the one before it, and the first a period after the grant."""
        # (granted at 0.001 s; turns each second; the grants go on at each renewal)
        self.assertEqual(sent(ONE, f"{BACK} event 00"), list(range(2, 131)))
        self.assertEqual(sent(ONE, f"{BACK} general 0b"), list(range(3, 130, 2)))

    def test_in_order_of_their_earliest_moments(self) -> None:
        """Of one table the client that was granted first comes first; at one moment they come by their addresses."""
        slave = 'ip = "10.0.1.{}"\nclock = "0a000000000000{}"\nstart = {}\nmasters = ["10.0.0.1"]\nlog_sync = 0\n'
        head = ONE[: ONE.index("[[slaves]]")].replace("capacity = 32", "capacity = 99")
        for starts, first in (((0, 0.1), ["9", "10"]), ((0.1, 0), ["10", "9"])):
            text = f"{head}[[slaves]]\n{slave.format(9, '04', starts[0])}[[slaves]]\n{slave.format(10, '08', starts[1])}"
            turned = [it.split()[1][7:] for it in Made(text).ways if it.endswith("event 00")]
            self.assertEqual(turned[:6], [*first, "9", "10", "9", "10"])

    def test_delay_reqs(self) -> None:
        """The first is due a period after the grant came."""
        # (granted from 0.002 s on; ticks each second, and a period of two)
        self.assertEqual(sent(ONE, f"{THERE} {DELAY_REQ}"), list(range(3, 130, 2)))
        self.assertEqual(sent(ONE, f"{BACK} general 09"), [it + 0.001 for it in range(3, 130, 2)])

    def test_delay_resps_of_copies(self) -> None:
        """A copy is answered as long as the grant has a period to its credit."""
        text = ONE.replace("delay = 0.001", "delay = 0.001\nrepeat = 1")
        # The first Delay_Req comes at 3.001 s, 1 s after it might have: its copy is too early, and so is each that follows.
        answers = sent(text, f"{BACK} general 09")
        self.assertEqual(answers, [it + 0.001 for it in range(3, 130, 2)])
        # Where Delay_Reqs are lost the next copy has their credit.
        between = '\n[[outages]]\nnode = "10.0.1.1"\nfrom = 4\nuntil = 8\n'
        answers = sent(text + between, f"{BACK} general 09")
        self.assertEqual(answers[:5], [3.001, 9.001, 9.001, 11.001, 13.001])

    def test_end_with_the_grant(self) -> None:
        """Where no renewal arrives the grandmaster ends at its end, and the slave at that of what it was told."""
        text = ONE + '\n[[outages]]\nnode = "10.0.1.1"\nfrom = 30.5\nuntil = 130\n'
        self.assertEqual(sent(text, f"{BACK} event 00")[-1], 60)
        self.assertEqual(sent(text, f"{THERE} {DELAY_REQ}")[-1], 59)
        # Asked twice, and granted until 61.6 s, of which the slave knows from 2.2 s on; the asks for a renewal are lost.
        for old, new in (("delay = 0.001", "delay = 0.6"), ("log_delay = 1", "log_delay = 0"), ("= 32", "= 99"), ("130", "90")):
            text = text.replace(old, new, 1)
        text = text.replace("30.5", "32.9").replace("130", "35.9")
        self.assertEqual(sent(text, f"{THERE} {SIGNALING}"), [0, 1, 33, 34, 35])
        self.assertEqual(sent(text, f"{THERE} {DELAY_REQ}")[-2:], [61, 62])
        self.assertEqual(sent(text, f"{BACK} general 09")[-1], 60.6)

    def test_a_renewal_at_the_very_end(self) -> None:
        """The grant is over then: its messages begin anew, a period behind the new one, and so do Delay_Reqs."""
        self.assertEqual(sent(EDGE, f"{THERE} {SIGNALING}"), [0, 36, 48, 60, 96])
        syncs = sent(EDGE, f"{BACK} event 00")
        # (granted at 0.001 s and at 60.001 s, at which the next would be due at 60.1 s)
        self.assertEqual(syncs, [it + 0.1 for it in (*range(1, 60), *range(61, 100))])
        # (one is sent at 48 s, and the next would be due at 64 s: there is a tick at 72 s)
        self.assertEqual(sent(EDGE, f"{THERE} {DELAY_REQ}"), [24, 48, 84])


class Ends(unittest.TestCase):
    def test_a_stop(self) -> None:
        """All that is granted is cancelled in one Signaling, which is acknowledged, and nothing more is sent."""
        made = Made(ONE + "stop = 10.5")
        self.assertEqual(made.ways[-2:], [f"{THERE} {SIGNALING}", f"{BACK} {SIGNALING}"])
        self.assertEqual([made.sent(len(made.ways) - it) for it in (1, 0)], [10_500_000_000, 10_501_000_000])
        # So it is where ticks go on, and a second stop finds nothing.
        stop = '[[changes]]\nat = {}\nnode = "10.0.1.1"\nstop = true\n'
        self.assertEqual(Made(ONE + stop.format(10.5) + stop.format(12)).ways, made.ways)
        # One that has nothing says nothing.
        self.assertEqual(len(sent(LOST + "stop = 10.5", f"{THERE} {SIGNALING}")), 3)

    def test_sheddings(self) -> None:
        """The newest first, of one moment the latest kind first, and no more than it takes; each is acknowledged."""
        change = '[[changes]]\nat = 10.5\nnode = "10.0.0.1"\ncapacity = {}\n'
        for capacity, shed in ((64, 0), (63, 1), (56, 1), (55, 2), (40, 2), (39, 3), (31, 4), (7, 6)):
            made = Made(TWO.replace("capacity = 32", "capacity = 64") + change.format(capacity))
            cancels = [it for it, line in zip(made.ways, made.lines) if line.startswith("capacity")]
            second = f"10.0.0.1 10.0.1.2 {SIGNALING}"
            self.assertEqual(cancels, ([second] * 3 + [f"{BACK} {SIGNALING}"] * 3)[:shed], capacity)
            acknowledged = [it for it, at in zip(made.ways, made.lines) if at.startswith("deliver 10501") and "0c" in it]
            self.assertEqual(len(acknowledged), shed)

    def test_a_shed_kind_is_asked_for_a_minute_later(self) -> None:
        change = '[[changes]]\nat = 10.5\nnode = "10.0.0.1"\ncapacity = 31\n'
        text = ONE.replace("= 60", "= 1000") + "duration = 300\n" + change
        # (the acknowledgement, and the asks for Delay_Resps at 71 s and each minute from then on)
        self.assertEqual(sent(text, f"{THERE} {SIGNALING}"), [0, 10.501, 71])
        self.assertEqual(sent(text, f"{THERE} {DELAY_REQ}")[-1], 9)
        self.assertEqual(sent(text, f"{BACK} event 00")[-1], 130)
        # The grant of Syncs is the next.
        text = text.replace("capacity = 31", "capacity = 15")
        self.assertEqual(sent(text, f"{BACK} event 00")[-1], 10)


class Orders(unittest.TestCase):
    def test_clients_by_address(self) -> None:
        text = ONE.replace('"10.0.1.1"', '"10.0.1.10"').replace("[[slaves]]", '[[slaves]]\nip = "10.0.1.9"\nmasters = []\n[[slaves]]')
        made = plan.read_plan(text.replace("masters = []", 'masters = ["10.0.0.1"]'))
        ways = nodes.Ways(made)
        grandmaster = nodes.Grandmaster(made.grandmasters[0])
        slaves = [nodes.Slave(it, {"10.0.0.1": grandmaster}, ways) for it in reversed(made.slaves)]
        self.assertEqual([it.ip for it in slaves], ["10.0.1.10", "10.0.1.9"])
        self.assertEqual([it.slave.ip for it in grandmaster.pairs], ["10.0.1.9", "10.0.1.10"])


if __name__ == "__main__":
    unittest.main()
