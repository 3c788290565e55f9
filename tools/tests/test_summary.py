"""Reports in numbers. What is wanted is reckoned here by hand."""

from __future__ import annotations

import json
import unittest
from typing import Any

from story import Grandmaster, Slave, Story, Term
from support import EXAMPLES, REPORT, run, timing, tool

summary = tool("summary")
SCRIPT = EXAMPLES / "falling-capacity.script"
A, B = ("10.0.1.17", "0a00000000000011/1"), ("10.0.1.18", "0a00000000000012/1")


class Slaves(unittest.TestCase):
    def of(self, selections: list[tuple[float, str]], end: float, stop: float | None = None) -> Any:
        slave = Slave("10.0.1.17", selections, end=stop)
        return summary.of_slave(slave, Story(slaves={slave.ip: slave}, start=0.0, end=end), {})

    def test_times(self) -> None:
        """Without a master from 0 to 20 and from 80 to 90 of 100 s; from one to another one, and back to it."""
        one, other = "10.0.0.1", "10.0.0.2"
        it = self.of([(0, "none"), (20, one), (50, other), (80, "none"), (90, one), (95, "none")], 100)
        self.assertEqual((it.availability, it.without_master, it.longest_without, it.changes), (0.65, 35, 20, 2))

    def test_a_loss_alone_is_no_change(self) -> None:
        it = self.of([(0, "10.0.0.1"), (50, "none"), (60, "10.0.0.1")], 100)
        self.assertEqual((it.availability, it.changes), (0.9, 0))

    def test_a_slave_that_stops(self) -> None:
        """Its time is over at its stop."""
        it = self.of([(0, "none"), (10, "10.0.0.1"), (50, "none")], 100, 50)
        self.assertEqual((it.availability, it.without_master), (0.8, 10))

    def test_got(self) -> None:
        slave = Slave("10.0.1.17", [(0.0, "none")], {"announce": 5, "sync": 75, "delay_resp": 0})
        story = Story(slaves={slave.ip: slave}, start=0.0, end=110.0)
        granted = {("10.0.1.17", "sync"): (100.0, 100.0), ("10.0.1.17", "delay_resp"): (0.5, 1.0)}
        self.assertEqual(summary.of_slave(slave, story, granted).got_of_granted, {"sync": 0.75})


class Grandmasters(unittest.TestCase):
    """The capacity that would have done: what was held, and what was denied or shed and wanted still."""

    def setUp(self) -> None:
        self.master = Grandmaster("10.0.0.1")

    def test_a_denial_is_wanted_for_a_minute(self) -> None:
        self.master.grant(A, "sync", Term(0.0, 300.0, 16))
        self.master.deny(B, "sync", 10.0, 32)
        self.assertEqual(self.master.most_wanted(), 48)
        self.master.grant(A, "announce", Term(69.0, 300.0, 8))
        self.assertEqual(self.master.most_wanted(), 56)

    def test_not_for_longer(self) -> None:
        self.master.grant(A, "sync", Term(0.0, 300.0, 16))
        self.master.deny(B, "sync", 10.0, 32)
        self.master.grant(A, "announce", Term(70.0, 300.0, 8))
        self.assertEqual(self.master.most_wanted(), 48)

    def test_one_that_asks_again_is_counted_once(self) -> None:
        for second in (10.0, 11.0, 12.0):
            self.master.deny(B, "sync", second, 32)
        self.assertEqual(self.master.most_wanted(), 32)

    def test_a_refused_renewal_wants_what_is_above_its_grant(self) -> None:
        self.master.grant(A, "sync", Term(0.0, 300.0, 16))
        self.master.deny(A, "sync", 10.0, 32)
        self.assertEqual(self.master.most_wanted(), 32)

    def test_what_is_shed_is_wanted_to_its_end(self) -> None:
        self.master.grant(A, "sync", Term(0.0, 300.0, 16))
        self.master.shed(A, "sync", 10.0)
        self.master.grant(B, "sync", Term(299.0, 400.0, 16))
        self.assertEqual((self.master.most_wanted(), max(it[1] for it in self.master.held())), (32, 16))

    def test_what_is_granted_or_cancelled_is_wanted_no_more(self) -> None:
        self.master.deny(A, "sync", 10.0, 32)
        self.master.grant(A, "sync", Term(20.0, 300.0, 32))
        self.master.deny(B, "sync", 30.0, 32)
        self.master.end(B, "sync", 40.0)
        self.master.grant(B, "announce", Term(50.0, 300.0, 8))
        self.assertEqual(self.master.most_wanted(), 64)


class Commands(unittest.TestCase):
    """The report of falling-capacity.script, whose numbers the README explains."""

    def test_json(self) -> None:
        ran = run("summary", REPORT, "--script", SCRIPT, "--json")
        self.assertEqual((ran.returncode, ran.stderr), (0, b""))
        told = json.loads(ran.stdout)
        (master,) = told["grandmasters"]
        counts = [master[it] for it in ("granted", "short", "outside", "shed", "cancelled", "sent")]
        # It held 48 sixteenths, which both slaves want all the time.
        self.assertEqual(counts, [6, 2, 0, 2, 0, 2])
        self.assertEqual((master["held_at_most"], master["capacity_that_would_do"]), (3, 3))
        self.assertEqual(master["capacities"], [3, 1.5, 3])
        first, second = told["slaves"]
        # The first one selects its master at 11.001 s of 132.002 s, the second one never does; it is denied twice.
        self.assertEqual((first["address"], first["without_master"], first["denials"]), ("10.0.1.17", 11.001, 0))
        self.assertAlmostEqual(first["availability"], 1 - 11.001 / 132.002, places=6)
        self.assertEqual((second["availability"], second["longest_without"], second["denials"]), (0, 131.002, 2))
        self.assertEqual((told["seconds"], told["refused"]), (132.002, ""))

    def test_table(self) -> None:
        text = run("summary", REPORT, "--script", SCRIPT).stdout.decode()
        self.assertRegex(text, r"10\.0\.1\.17 +91\.67 % +11\.0 s +11\.0 s +0 +0 ")
        self.assertRegex(text, r"10\.0\.0\.1 +6 +2 +0 +2 +0 +2 +3 +3, 1\.5, 3 +3\n")
        self.assertIn("had a master for 45.83 % of the time on average, and for 0.00 % at least (10.0.1.18).", text)
        self.assertIn("The longest time without one was 131.0 s (10.0.1.18).", text)
        self.assertIn("10.0.0.1: 2 requests were denied and 2 grants shed; a capacity of 3 messages/s (48/16)", text)

    def test_clients_of_a_capture(self) -> None:
        """A report that tells of no slave has its clients: of 4 Syncs, a second apart, 3 were sent."""
        group = [it for it in REPORT.read_text().splitlines() if it.split()[0] == "10"]
        lines = [it.replace("10 ", "1 ", 1).replace("send 2", "send 1") for it in group]
        for number, second in enumerate((1, 2, 4), 2):
            octets = timing(0, "0a000000000000010001", number, second * 10**9 + 10**6).hex()
            lines.append(f"{number} send {number} 10.0.0.1 10.0.1.17 event {octets}")
        given = "".join(f"{it}\n" for it in [*lines, "end 4 4"]).encode()
        told = json.loads(run("summary", "-", "--json", given=given).stdout)
        self.assertEqual(told["clients"], [{"address": "10.0.1.17", "sent_of_granted": {"announce": 0, "sync": 0.75}}])
        table = run("summary", "-", given=given).stdout.decode()
        self.assertRegex(table, r"CLIENT +ANNOUNCE SENT +SYNC SENT\n10\.0\.1\.17 +0\.00 % +75\.00 %\n")

    def test_refused(self) -> None:
        ran = run("summary", "-", given=b"hello\n")
        self.assertEqual((ran.returncode, ran.stdout), (65, b""))
        self.assertEqual(ran.stderr, b"summary: -: line 1: no form of a report: `hello`\n")
        ran = run("summary", REPORT, "--script", EXAMPLES / "under-load.script")
        self.assertEqual((ran.returncode, ran.stdout), (65, b""))
        self.assertEqual(run("summary", "/nowhere").returncode, 66)
        self.assertEqual(run("summary").returncode, 64)
        cut = run("summary", "-", given=b"1 nobody\n2 bad field 3\n")
        self.assertIn(b"It is no whole run: line 2 of the script was refused: field 3.", cut.stdout)


if __name__ == "__main__":
    unittest.main()
