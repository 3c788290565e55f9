"""Scenarios and the scripts that are made from them."""

from __future__ import annotations

import random
import sys
import tempfile
import unittest
from itertools import product
from pathlib import Path
from unittest import mock

import course
import lines
import plan
from nodes import DELAY_REQ, SIGNALING
from support import EXAMPLES, TOOLS, program, ptpuni, run, tool, wants_program

scenario = tool("scenario")

SMALL = """
length = 20
seed = 3
delay = [0.001, 0.004]

[[grandmasters]]
ip = "10.0.0.1"
capacity = 100

[[slaves]]
ip = "10.0.1.1"
count = 2
spread = 1
masters = ["10.0.0.1"]
log_sync = 0
"""


CAPACITY_FALLS = """
[[changes]]
at = 8
node = "10.0.0.1"
capacity = 80

[[changes]]
at = 12
node = "10.0.0.1"
capacity = 300
"""


class Plans(unittest.TestCase):
    def test_small(self) -> None:
        made = plan.read_plan(SMALL)
        self.assertEqual((made.length, made.seed, made.tick, made.turn), (20 * 10**9, 3, 10**9, 10**9))
        self.assertEqual([it.line() for it in made.grandmasters], ["gm 10.0.0.1 0a00fffe0a000001 1 4 84 100 1000"])
        second = ["slave 10.0.1.2 0a00fffe0a000102 1 4 300 3 3 1 0 - 300 3", "master 10.0.1.2 10.0.0.1 1 flag"]
        self.assertEqual(made.slaves[1].lines(), second)
        self.assertEqual([it.start for it in made.slaves], [0, 10**9 // 2])
        # Table: the last octet of the clock identity plus the port number, modulo 4.
        self.assertEqual([it.table for it in made.slaves], [2, 3])

    def test_ticks_by_delay_resps_and_turns_by_syncs(self) -> None:
        """By default a slave ticks as often as Delay_Resps come, and a table turns as often as Announces and Syncs."""
        for text, tick, turn in (
            ("log_sync = -2\nlog_delay = -4", 10**9 // 16, 10**9 // 4),
            ("log_sync = -4\nlog_delay = -1", 10**9 // 2, 10**9 // 16),
            ("log_announce = -3\nlog_sync = -1", 10**9, 10**9 // 8),
        ):
            made = plan.read_plan(SMALL.replace("log_sync = 0", text))
            self.assertEqual((made.tick, made.turn), (tick, turn), text)

    def test_moments_are_exact(self) -> None:
        made = plan.read_plan(SMALL.replace("length = 20", "length = 4611686016.000000001"))
        self.assertEqual(made.length, 4611686016000000001)

    def test_refused(self) -> None:
        slave = '[[slaves]]\nip = "10.0.1.9"\nmasters = ["10.0.0.1"]\n'
        change = '[[changes]]\nat = 1\nnode = "{}"\n'
        refused = {
            SMALL.replace("length = 20", ""): "length: it is required",
            SMALL.replace("length", "lenth"): "lenth: there is no such key here: is length meant?",
            SMALL.replace("seed = 3", "sead = 3"): "sead: there is no such key here: is seed meant?",
            SMALL.replace("seed = 3", "colour = 3"): "colour: there is no such key here",
            SMALL.replace("capacity", "capacty"): "[0].capacty: there is no such key here: is capacity meant?",
            SMALL.replace("log_sync", "log_snyc"): "slaves[0].log_snyc: there is no such key here: is log_sync meant?",
            SMALL.replace('["10.0.0.1"]', '["10.0.0.9"]'): "the master 10.0.0.9 of 10.0.1.1 is none of the",
            SMALL.replace('["10.0.0.1"]', '["10.0.0.1", "10.0.0.1"]'): "10.0.1.1 has the master 10.0.0.1 twice",
            SMALL.replace('masters = ["10.0.0.1"]', "masters = []"): "10.0.1.1 has 0 masters, and a slave has 1 to 16",
            SMALL.replace("capacity = 100", "capacity = 0"): "grandmasters[0].capacity: 0 is no whole number from 1",
            SMALL.replace("log_sync = 0", "log_sync = 9"): "slaves[0].log_sync: 9 is no whole number from -7 to 4",
            SMALL.replace("0.001, 0.004", "0.004, 0.001"): "delay: the first is the greater one",
            SMALL.replace("[0.001, 0.004]", "0"): "delay: it is not above 0",
            SMALL + 'judge = "gap"': "slaves[0].judge: there is no such key here",
            SMALL.replace('masters = ["10.0.0.1"]', 'masters = ["10.0.0"]'): "slaves[0].masters[0].ip: '10.0.0' is no",
            SMALL + slave.replace("1.9", "1.2"): "two nodes have one address",
            SMALL + '[[outages]]\nnode = "10.0.0.9"\nfrom = 1\nuntil = 2': "outages: 10.0.0.9 is no node's address",
            SMALL + change.format("10.0.0.1"): "changes[0].node: none of capacity, class",
            SMALL + '[[changes]]\nat = true\nnode = "10.0.0.1"': "changes[0].at: True is no number of seconds",
            SMALL + change.format("10.0.1.1") + "capacity = 5": "changes: 10.0.1.1 is no grandmaster",
            SMALL + change.format("10.0.0.9") + "class = 90": "changes: 10.0.0.9 is no grandmaster",
            SMALL + change.format("10.0.0.1") + "stop = true": "changes: 10.0.0.1 is no slave",
            SMALL + change.format("10.0.1.1") + 'master = "10.0.0.2"\nunusable = true': "10.0.0.2 is no master of 10.0.1.1",
            "length = ": "Invalid value",
            "length = 1": "at least one grandmaster and one slave",
        }
        for text, why in refused.items():
            with self.assertRaises(plan.PlanError, msg=why) as caught:
                plan.read_plan(text)
            self.assertIn(why, str(caught.exception))

    def test_judges(self) -> None:
        """A script has 64 judges of each rule; a change of a judge takes one, too."""
        plan.read_plan(SMALL.replace("count = 2", "count = 64"))
        gap = SMALL.replace('["10.0.0.1"]', '[{ ip = "10.0.0.1", judge = "gap" }]')
        change = '[[changes]]\nat = 1\nnode = "10.0.1.1"\nmaster = "10.0.0.1"\njudge = "{}"\n'
        plan.read_plan(SMALL.replace("count = 2", "count = 64") + change.format("gap"))
        for text, name in (
            (SMALL.replace("count = 2", "count = 65"), "flag"),
            (SMALL.replace("count = 2", "count = 64") + change.format("flag"), "flag"),
            (gap.replace("count = 2", "count = 65"), "gap"),
        ):
            with self.assertRaisesRegex(plan.PlanError, f"slaves: the judge {name} is wanted 65 times, .* has 64:"):
                plan.read_plan(text)

    def test_examples(self) -> None:
        lengths = {it.name: plan.read_plan(it.read_text()).length for it in self.examples()}
        self.assertEqual(lengths["twenty-slaves.toml"], 3600 * 10**9)

    @staticmethod
    def examples() -> list[Path]:
        return [it for it in sorted(EXAMPLES.glob("*.toml")) if "[[grandmasters]]" in it.read_text()]


class Made:
    """The script of a scenario, without a program that says whether it is as foretold, and what is told one."""

    def __init__(self, text: str) -> None:
        self.course = course.Course(plan.read_plan(text))
        script = lines.Lines()
        self.told: list[str] = []
        self.counts: list[int] = []
        ways: list[int] = []
        for part in self.course.parts():
            script.add(part.arrivals, part.numbers, part.texts)
            script.settle(part.until)
            self.told += "".join(part.told).splitlines()
            self.counts += part.counts
            ways += part.ways
        self.script = "".join(script.written)
        self.words = [it.split() for it in self.script.splitlines()]
        # Of each datagram, from the first one on, by which line it is sent, and what a report says of its way.
        self.lines = [line for line, count in zip(self.told, self.counts) for _ in range(count)]
        self.ways = [self.course.ways.spelled[it].decode() for it in ways]

    def moments(self, *names: str) -> list[int]:
        """The moments of the events of these names."""
        return [int(it[1]) for it in self.words if it[0] in names]

    def sent(self, number: int) -> int:
        """The moment at which a datagram is sent."""
        return int(self.lines[number - 1].split()[1])

    def arrivals(self) -> dict[int, list[int]]:
        """The moments at which each datagram arrives, by its number."""
        found: dict[int, list[int]] = {}
        for it in self.words:
            if it[0] == "deliver":
                found.setdefault(int(it[2]), []).append(int(it[1]))
        return found


EVENTS = ("tick", "turn", "deliver")


class Courses(unittest.TestCase):
    def test_events(self) -> None:
        made = Made(SMALL)
        self.assertEqual(made.moments(*EVENTS), sorted(made.moments(*EVENTS)))
        # Two slaves tick every second of 20, the first from 0 and the second from 0.5 s, and are served.
        self.assertEqual(len(made.moments("tick")), 21 + 20)
        self.assertEqual(len(made.moments("turn")), 2 * 20)
        # Two are asked and answered; then come a Sync a second, and an Announce each two.
        self.assertEqual(len(made.ways), 4 + 19 + 19 + 9 + 9)
        # What is sent at the very end arrives no more.
        arrivals = made.arrivals()
        self.assertEqual(set(arrivals), {it for it in range(1, 61) if made.sent(it) < 20 * 10**9})
        self.assertTrue(all(len(it) == 1 for it in arrivals.values()))

    def test_intervals(self) -> None:
        """Ticks and turns come again at intervals of their own, also where two are due at one moment."""
        for tick, turn, ticks, turns in ((2, 1, [11, 10], 20), (1, 2, [21, 20], 10), (0.5, 0.25, [41, 40], 80)):
            made = Made(SMALL.replace("seed", f"tick = {tick}\nturn = {turn}\nseed"))
            words = [it[2] for it in made.words if it[0] == "tick"]
            self.assertEqual([words.count("10.0.1.1"), words.count("10.0.1.2")], ticks)
            self.assertEqual(len(made.moments("turn")), 2 * turns)

    def test_order_where_datagrams_are_long_on_their_way(self) -> None:
        made = Made(SMALL.replace("0.001, 0.004", "0.4, 0.9"))
        self.assertEqual(made.moments(*EVENTS), sorted(made.moments(*EVENTS)))

    def test_delays(self) -> None:
        made = Made(SMALL)
        for number, moments in made.arrivals().items():
            self.assertIn(moments[0] - made.sent(number), range(1_000_000, 4_000_001))

    def test_draws(self) -> None:
        """Of each datagram is drawn whether it is lost and repeated, and then its delay, as `randrange` draws it."""
        for least, greatest in (("0.001", "0.001"), ("0.001", "0.002"), ("0.00001", "0.6")):
            text = SMALL.replace("0.001, 0.004", f"{least}, {greatest}").replace("seed", "loss = 0.3\nrepeat = 0.3\nseed")
            made = Made(text)
            link, chance = plan.read_plan(text).link, random.Random(3)
            for number in range(1, len(made.ways) + 1):
                is_lost, is_twice = chance.random() < 0.3, chance.random() < 0.3
                delays = [chance.randint(link.least, link.greatest) for _ in range(1 + is_twice)]
                due = sorted(made.sent(number) + it for it in delays)
                due = [] if is_lost else [it for it in due if it <= 20 * 10**9]
                self.assertEqual(made.arrivals().get(number, []), due, (greatest, number))

    def test_same_seed_same_script(self) -> None:
        self.assertEqual(Made(SMALL).script, Made(SMALL).script)
        self.assertNotEqual(Made(SMALL).script, Made(SMALL.replace("seed = 3", "seed = 4")).script)

    def test_losses_and_repeats(self) -> None:
        self.assertEqual(Made(SMALL.replace("seed", "loss = 1\nseed")).arrivals(), {})
        arrivals = Made(SMALL.replace("seed", "repeat = 1\nseed")).arrivals()
        self.assertEqual([len(arrivals[it]) for it in range(1, 40)], [2] * 39)
        made = Made(SMALL.replace("seed", "loss = 0.5\nseed"))
        self.assertIn(len(made.arrivals()), range(len(made.ways) // 4, len(made.ways) * 3 // 4))

    def test_copies_go_their_own_ways(self) -> None:
        """Where the delay is a range, two copies of a datagram do not arrive at one moment."""
        arrivals = Made(SMALL.replace("seed", "repeat = 1\nseed")).arrivals().values()
        twice = [len(set(it)) for it in arrivals]
        self.assertGreater(len(twice), 30)
        self.assertGreater(twice.count(2), 0.9 * len(twice))
        # Where it is none, they do, and both are handed over.
        arrivals = Made(SMALL.replace("[0.001, 0.004]", "0.001\nrepeat = 1")).arrivals().values()
        self.assertEqual({(len(it), len(set(it))) for it in arrivals}, {(2, 1)})

    def test_a_link_that_is_faster(self) -> None:
        """Nothing arrives out of order where one link is faster than all others."""
        link = '[[links]]\nbetween = ["10.0.1.1", "10.0.0.1"]\ndelay = 0.0001\n'
        made = Made(SMALL.replace("[0.001, 0.004]", "0.6").replace("spread = 1", "spread = 0.1") + link)
        self.assertEqual(made.moments(*EVENTS), sorted(made.moments(*EVENTS)))
        fast = {made.ways[it - 1] for it, (moment,) in made.arrivals().items() if moment == made.sent(it) + 100_000}
        self.assertEqual(fast, {it for it in made.ways if "10.0.1.1" in it})
        # Nor is it told to the replay beside out of order, by which the datagrams are numbered.
        told = [int(it.split()[1]) for it in made.told if it.split()[0] in EVENTS]
        self.assertEqual(told, sorted(told))

    def test_a_link_of_its_own(self) -> None:
        made = Made(SMALL + '[[links]]\nbetween = ["10.0.1.2", "10.0.0.1"]\nloss = 1\n')
        self.assertEqual({made.ways[it - 1].split()[0] for it in made.arrivals()}, {"10.0.0.1", "10.0.1.1"})
        self.assertEqual(made.ways.count(f"10.0.1.2 10.0.0.1 {SIGNALING}"), 3)

    def test_outages(self) -> None:
        """All is lost that is sent in one, and that would arrive in one: from its beginning on, and not at its end."""
        wholly, partly = ('node = "10.0.0.1"', "10.0.0.1"), ('between = ["10.0.0.1", "10.0.1.2"]', "10.0.1.2")
        for (ends, who), delay, is_late in product((wholly, partly), (2_000_000, 600_000_000), (False, True)):
            # (what is sent at 5 s arrives as it begins, or what is sent at 10 s is sent as it ends)
            start, until = (5_300_000_000, 10 * 10**9) if is_late else (5 * 10**9 + delay, 10_300_000_000)
            text = SMALL.replace("[0.001, 0.004]", str(delay / 10**9))
            made = Made(f"{text}[[outages]]\n{ends}\nfrom = {start / 10**9}\nuntil = {until / 10**9}\n")
            due = {}
            for number, way in enumerate(made.ways, 1):
                sent, arrival = made.sent(number), made.sent(number) + delay
                is_cut = start <= sent < until or start <= arrival < until
                if not (is_cut and who in way) and arrival <= 20 * 10**9:
                    due[number] = [arrival]
            self.assertEqual(made.arrivals(), due)
            self.assertIn(len(made.ways) - len(due), range(6, 25))

    def test_what_arrives_at_the_very_end(self) -> None:
        """A Delay_Req that was sent half a second before it is handed over, and answered."""
        made = Made(SMALL.replace("[0.001, 0.004]", "0.5").replace("log_sync = 0", "log_sync = 0\nlog_delay = 0"))
        last = [way for line, way in zip(made.lines, made.ways) if line.startswith("deliver 20000000000 ")]
        self.assertEqual(last, ["10.0.0.1 10.0.1.2 general 09"])

    def test_an_outage_is_said(self) -> None:
        """A comment stands in the script, and is not told."""
        made = Made(SMALL + '[[outages]]\nnode = "10.0.0.1"\nfrom = 5.25\nuntil = 10\n')
        script = made.script.splitlines()
        said = script.index("# From 5.25 until 10 s all from and to 10.0.0.1 is lost.")
        self.assertEqual(script[said + 1].split()[:2], ["tick", "5500000000"])
        self.assertIn("# The outage of 10.0.0.1 is over.", script)
        self.assertFalse([it for it in made.told if it.startswith("#")])

    def test_changes(self) -> None:
        node = '[[changes]]\nnode = "10.0.0.1"\n'
        slave = '[[changes]]\nnode = "10.0.1.1"\nmaster = "10.0.0.1"\n'
        made = Made(
            SMALL
            + f"{node}at = 3\ncapacity = 50\n{node}at = 4\nclass = 90\n"
            + f'{slave}at = 5\nunusable = true\n{slave}at = 6\njudge = "gap"\n'
            + '[[changes]]\nnode = "10.0.1.2"\nat = 7\nstop = true\n'
        )
        for line in (
            "capacity 3000000000 10.0.0.1 50",
            "class 10.0.0.1 90",
            "flag 5000000000 10.0.1.1 10.0.0.1 1",
            "judge 6000000000 10.0.1.1 10.0.0.1 gap",
            "stop 7000000000 10.0.1.2",
        ):
            self.assertIn(line, made.script.splitlines())
            self.assertIn(line, made.told)

    def test_a_slave_that_stops(self) -> None:
        made = Made(SMALL.replace("log_sync", "stop = 10\nlog_sync"))
        self.assertEqual(len(made.moments("tick")), 10 + 10)
        self.assertEqual(len(made.moments("stop")), 2)

    def test_one_slave_of_two_stops(self) -> None:
        """They tick at one moment, and the other one goes on."""
        other = SMALL[SMALL.index("[[slaves]]") :].replace("10.0.1.1", "10.0.2.1")
        made = Made(SMALL.replace("log_sync", "stop = 10\nlog_sync") + other)
        ticks = [it[2] for it in made.words if it[0] == "tick"]
        counts = [ticks.count(it) for it in ("10.0.1.1", "10.0.1.2", "10.0.2.1", "10.0.2.2")]
        self.assertEqual(counts, [10, 10, 21, 20])
        # The last tick of those that go on is at the very end.
        made = Made(SMALL.replace("log_sync", "stop = 19.5\nlog_sync") + other)
        ticks = [it[2] for it in made.words if it[0] == "tick"]
        counts = [ticks.count(it) for it in ("10.0.1.1", "10.0.1.2", "10.0.2.1", "10.0.2.2")]
        self.assertEqual(counts, [20, 19, 21, 20])

    def test_order_at_one_moment(self) -> None:
        """What is set stands first, what was added first before the rest; then what arrives, by its number."""
        change = '[[changes]]\nat = 1.5\nnode = "10.0.0.1"\nclass = 90\n[[changes]]\nat = 1.5\nnode = "10.0.0.1"\ncapacity = 9\n'
        made = Made(SMALL.replace("[0.001, 0.004]", "0.5").replace("log_sync = 0", "log_sync = -1") + change)
        at = [it for it in made.script.splitlines() if " 1500000000 " in it or it.startswith("class")]
        self.assertEqual([it.split()[0] for it in at[:3]], ["class", "capacity", "tick"])
        # (turns at each half second)
        arrived = [it for it in at if it.startswith("deliver")]
        self.assertEqual([it.split()[0] for it in at[3:5]], ["turn", "turn"])
        self.assertEqual(at[5:], sorted(arrived, key=lambda it: int(it.split()[2])))
        told = [it for it in made.told if it in at]
        self.assertEqual(told, [it for it in at if it in told])

    def test_in_parts_of_any_size(self) -> None:
        """The script comes in parts, to the same end."""
        # (of the last one much arrives at moments at which ticks and turns are set)
        at_once = SMALL.replace("[0.001, 0.004]", "0.5").replace("log_sync = 0", "log_sync = -1")
        for text in (SMALL, SMALL.replace("0.001, 0.004", "0.4, 0.9"), at_once):
            whole = Made(text)
            for size in (0, 3, 40):
                with mock.patch.object(course, "PART_LINES", size):
                    made = Made(text)
                self.assertEqual((made.script, made.told), (whole.script, whole.told), size)


class Runs(unittest.TestCase):
    """Scripts that are made beside a stand-in, of which it is known what it sends when: slaves ask, and nothing arrives."""

    LOST = SMALL.replace("seed", "loss = 1\nseed")

    def setUp(self) -> None:
        folder = tempfile.TemporaryDirectory()
        self.addCleanup(folder.cleanup)
        self.folder = Path(folder.name)
        self.file = self.folder / "it.toml"
        self.file.write_text(self.LOST)

    def fake(self, how: str) -> Path:
        made = self.folder / how
        fake = TOOLS / "tests/fake_replay.py"
        made.write_text(f"#!/bin/sh\nexec '{sys.executable}' -B '{fake}' {how}\n")
        made.chmod(0o755)
        return made

    def test_a_program_that_does_as_foretold(self) -> None:
        ran = run("scenario", self.file, "--ptpuni", self.fake("good"))
        self.assertEqual((ran.returncode, ran.stderr), (0, b""))
        head, script = ran.stdout.decode().split("\n", 1)
        self.assertEqual(head, "# Made by tools/scenario from it.toml, with the seed 3.")
        self.assertEqual(script, Made(self.LOST).script)

    def test_programs_that_do_not(self) -> None:
        differs = b"does not do what docs/PROFILE.md says: it sends"
        wanted = {
            "short": b"ended with status 3 before its script did",
            "bad": b"refused a line: 6 bad field 3",
            "late": b"ended with status 0 before its script did",
            "fails": b"ended with status 67\n",
            "cut": b"ended with status 0 before its script did",
            "torn": b"ended with status 0 before its script did",
            "skips": differs + b" 7 datagrams, and not 6",
            "more": differs + b" 7 datagrams, and not 6",
            "hides": differs + b" 7 datagrams, and not 6",
            "less": differs + b" 5 datagrams, and not 6",
            "elsewhere": differs + b" datagram 3 on line 10 of what it is told (10.0.1.1 10.0.1.1 general 0c), and not on line 10",
            "early": differs + b" datagram 2 on line 6 of what it is told (10.0.1.2 10.0.0.1 general 0c), and not on line 7",
        }
        for how, why in wanted.items():
            ran = run("scenario", self.file, "--ptpuni", self.fake(how))
            self.assertEqual((ran.returncode, ran.stdout), (70, b""), (how, ran.stderr))
            self.assertIn(why, ran.stderr)
            self.assertEqual(ran.stderr.count(b"\n"), 1)

    def test_a_program_that_reads_nothing(self) -> None:
        for how in ("sleeps", "silent"):
            with mock.patch("beside.PATIENCE", 0.3):
                ran = run("scenario", self.file, "--ptpuni", self.fake(how))
            self.assertEqual((ran.returncode, ran.stdout), (70, b""))
            self.assertRegex(ran.stderr.decode(), "did nothing for 0 s|read nothing for 0 s")

    def test_no_program_and_no_file(self) -> None:
        ran = run("scenario", self.file, "--ptpuni", "/nowhere/ptpuni")
        self.assertEqual((ran.returncode, ran.stdout), (69, b""))
        self.assertIn(b"/nowhere/ptpuni does not start", ran.stderr)
        ran = run("scenario", "/nowhere/it.toml")
        self.assertEqual((ran.returncode, ran.stdout), (66, b""))
        self.file.write_text("length = 1")
        self.assertEqual(run("scenario", self.file).returncode, 65)

    def test_a_script_that_is_too_large(self) -> None:
        whole = run("scenario", self.file, "--ptpuni", self.fake("good")).stdout
        for largest in (len(whole), len(whole) - 1, 1000):
            with mock.patch.object(lines, "LARGEST_SCRIPT", largest), mock.patch.object(scenario, "LARGEST_SCRIPT", largest):
                ran = run("scenario", self.file, "--ptpuni", self.fake("good"))
            if largest == len(whole):
                self.assertEqual((ran.returncode, ran.stdout, ran.stderr), (0, whole, b""))
                continue
            self.assertEqual((ran.returncode, ran.stdout), (65, b""))
            self.assertIn(b"length: the script would be above the 64 MiB that replay reads", ran.stderr)

    def test_a_script_that_is_as_large_as_may_be_amid_it(self) -> None:
        """It goes on, and is too large; nothing is read behind the part with which it is."""
        parts = [(moment, [moment - 1], [moment], []) for moment in (1, 2, 3)]
        told = mock.Mock()
        told.recv = mock.Mock(side_effect=parts)
        # ("#", and "deliver 0 1")
        with mock.patch.object(lines, "LARGEST_SCRIPT", 14):
            self.assertEqual(lines.write_lines(told, "#\n"), b"#\ndeliver 0 1\ndeliver 1 2\n")


LOSSES = SMALL.replace("seed", "loss = 0.1\nrepeat = 0.1\nseed").replace("capacity = 100", "capacity = 400")
LOSSES = LOSSES.replace("log_sync = 0", "log_sync = -2\nlog_delay = -3") + CAPACITY_FALLS
TWO = """
length = 200
seed = 7
delay = [0.0001, 0.05]
repeat = 0.1
tick = 0.3
turn = 0.2

[[grandmasters]]
ip = "10.0.0.1"
capacity = 60
max_duration = 75

[[grandmasters]]
ip = "10.0.0.2"
capacity = 1000
class = 90

[[grandmasters]]
ip = "10.0.0.3"
capacity = 1000
domain = 5

[[slaves]]
ip = "10.0.1.1"
count = 3
spread = 3
masters = ["10.0.0.1", "10.0.0.3", "10.0.0.2"]
log_announce = 0
log_sync = -1
log_delay = 0
duration = 100

[[slaves]]
ip = "10.0.1.9"
masters = ["10.0.0.2"]
log_announce = -3
log_delay = -4
duration = 60
stop = 150

[[outages]]
between = ["10.0.1.9", "10.0.0.2"]
from = 20
until = 95

[[outages]]
node = "10.0.1.1"
from = 110
until = 130

[[changes]]
at = 140
node = "10.0.0.2"
capacity = 70
"""
# Two asks for a renewal are lost, and the third one comes, and is answered, just as the grant and what was told of it end.
EDGE = """
length = 100
delay = 0.001
tick = 12
turn = 0.1

[[grandmasters]]
ip = "10.0.0.1"
capacity = 32

[[slaves]]
ip = "10.0.1.1"
masters = ["10.0.0.1"]
log_sync = 0
log_delay = 4
duration = 60

[[outages]]
node = "10.0.1.1"
from = 30
until = 59
"""


class WithTheProgram(unittest.TestCase):
    @wants_program
    def test_replay_takes_the_script(self) -> None:
        with tempfile.NamedTemporaryFile(suffix=".toml") as file:
            file.write(SMALL.encode() + b"log_delay = 0\n")
            file.flush()
            ran = run("scenario", file.name, "--ptpuni", program() or "")
        self.assertEqual((ran.returncode, ran.stderr), (0, b""))
        script = ran.stdout.splitlines()
        report = ptpuni("replay", ran.stdout).splitlines()
        self.assertTrue(report[-1].startswith(b"end %d " % len(script)))
        # Each grant of the two slaves, and messages at the rates granted: 20 s of a Sync a second.
        self.assertEqual(sum(b" granted " in it for it in report), 6)
        self.assertIn(sum(b" heard sync " in it for it in report), range(2 * 17, 2 * 20 + 1))
        self.assertIn(sum(b" heard delay_resp " in it for it in report), range(2 * 15, 2 * 20 + 1))
        self.assertTrue(any(it.endswith(b"selected 10.0.1.2 10.0.0.1") for it in report))

    @wants_program
    def test_the_script_sends_what_was_foretold(self) -> None:
        """Of the whole script the program sends just the datagrams that are foretold, each on its line."""
        wanted = {
            LOSSES: (b" shed ", b" cancel ", b" silent soon "),
            TWO: (b" shed ", b" cancel ", b" denial ", b" silent ", b" ignored domain 4"),
            EDGE: (b" granted ",),
        }
        for text, words in wanted.items():
            made = Made(text)
            report = ptpuni("replay", made.script.encode())
            script = made.script.splitlines()
            sent = [it.split() for it in report.decode().splitlines() if it.split()[1] == "send"]
            self.assertGreater(len(sent), 150)
            found = [(script[int(it[0]) - 1], " ".join(it[3:6]) + " " + it[6][:2]) for it in sent]
            self.assertEqual(found, list(zip(made.lines, made.ways)))
            for it in words:
                self.assertTrue(it in report, it)
            self.assertTrue(any(it.endswith(DELAY_REQ) for it in made.ways))


if __name__ == "__main__":
    unittest.main()
