"""Pictures of a report."""

from __future__ import annotations

import io
import re
import unittest
import xml.etree.ElementTree as xml
from unittest import mock

import picture
import report
from reader import read_story
from script import Outage, Script
from story import Slave, Story, Term
from support import EXAMPLES, PTP4L, REPORT, TOOLS, ptpuni, run, signaling, timing, tool, wants_program

plot = tool("plot")
SCRIPT = EXAMPLES / "falling-capacity.script"


def read(lines: list[str], script: bytes | None = None) -> Story:
    text = "".join(f"{it}\n" for it in lines).encode()
    return read_story(io.BytesIO(text), Script(script) if script else None)


def story(with_script: bool = True) -> Story:
    return read(REPORT.read_text().splitlines(), SCRIPT.read_bytes() if with_script else None)


class Stories(unittest.TestCase):
    """The report of falling-capacity.script, whose numbers the README explains."""

    def test_held(self) -> None:
        master = story().grandmasters["10.0.0.1"]
        held = [(0.001, 24), (1.001, 48), (10.0, 24), (132.001, 48)]
        self.assertEqual(master.held()[:4], held)
        self.assertEqual(master.held()[4:], [(300.001, 24), (432.001, 0)])
        self.assertEqual(master.force(0.0), [(0.0, 48.0), (10.0, 24.0), (100.0, 48.0)])

    def test_marks(self) -> None:
        marks = story().grandmasters["10.0.0.1"].marks
        self.assertEqual(marks["granted"], [0.001, 0.001, 1.001, 1.001, 132.001, 132.001])
        self.assertEqual(marks["denied"], [71.001, 71.001])
        self.assertEqual(marks["shed"], [10.0, 10.0])

    def test_sent(self) -> None:
        self.assertEqual(story().grandmasters["10.0.0.1"].sent, [11.0, 11.0])

    def test_selections(self) -> None:
        slaves = story().slaves
        self.assertEqual(slaves["10.0.1.17"].selections, [(0.0, "none"), (11.001, "10.0.0.1")])
        self.assertEqual(slaves["10.0.1.18"].selections, [(1.0, "none")])

    def test_capacity_is_not_invented(self) -> None:
        master = story(with_script=False).grandmasters["10.0.0.1"]
        self.assertEqual(master.force(0.0), [(10.0, 24.0), (100.0, 48.0)])

    def test_a_renewal_takes_the_place_of_its_grant(self) -> None:
        lines = [it for it in REPORT.read_text().splitlines() if it.split()[0] == "10"]
        again = [it.replace("10 ", "11 ", 1).replace("send 2", "send 1") for it in lines]
        master = read([*again, "end 11 1"]).grandmasters["10.0.0.1"]
        later = [it.replace(" 1000000 ", " 7000000000 ") for it in again]
        later = [it.replace("11 ", "12 ", 1).replace("send 1", "send 2") for it in later]
        renewed = read([*again, *later, "end 12 2"]).grandmasters["10.0.0.1"]
        self.assertEqual(master.held()[0], (0.001, 24))
        self.assertEqual([value for _, value in renewed.held()], [24, 24, 0])

    def test_a_grant_that_is_over_holds_nothing(self) -> None:
        """A grant to 300.001 s, and one at 400 s: between them nothing is held."""
        lines = [it for it in REPORT.read_text().splitlines() if it.split()[0] == "10"]
        first = [it.replace("10 ", "11 ", 1).replace("send 2", "send 1") for it in lines]
        later = [it.replace(" 1000000 ", f" {400 * 10**9} ").replace("300001000000", "700000000000") for it in first]
        later = [it.replace("11 ", "12 ", 1).replace("send 1", "send 2") for it in later]
        master = read([*first, *later, "end 12 2"]).grandmasters["10.0.0.1"]
        self.assertEqual(master.held(), [(0.001, 24), (300.001, 0), (400.0, 24), (700.0, 0)])

    def test_an_event_that_tells_no_moment(self) -> None:
        """Without a script a tick is drawn at the last moment that was told before it."""
        heard = ["1 heard sync 10.0.0.1 seq 1 at 7000000000", "1 selected 10.0.1.18 10.0.0.1"]
        made = read([*heard, "2 selected 10.0.1.17 10.0.0.1", "end 2 0"])
        self.assertEqual(made.slaves["10.0.1.17"].selections, [(7.0, "10.0.0.1")])
        # The moment that was told last may stand in an earlier block of the text.
        with mock.patch.object(report, "BLOCK", 1):
            made = read([*heard, "2 selected 10.0.1.17 10.0.0.1", "end 2 0"])
        self.assertEqual(made.slaves["10.0.1.17"].selections, [(7.0, "10.0.0.1")])

    def test_a_cancel_ends_its_grant(self) -> None:
        lines = [it for it in REPORT.read_text().splitlines() if it.split()[0] == "10"]
        reply = next(it for it in lines if " send 2 " in it)
        cancelled = ["11 cancelled sync at 5000000000", reply.replace("10 send 2 ", "11 send 2 ", 1)]
        lines = [it.replace("10 send 2 ", "10 send 1 ", 1) for it in lines]
        master = read([*lines, *cancelled, "end 11 2"]).grandmasters["10.0.0.1"]
        self.assertEqual(master.held(), [(0.001, 24), (5.0, 8), (300.001, 0)])
        self.assertEqual(master.marks["cancelled"], [5.0])

    def test_messages_of_a_rate(self) -> None:
        self.assertEqual(plot.summed([(0.0, 1.0), (10.0, 2.0)], 20.0), [(0.0, 0.0), (10.0, 10.0), (20.0, 30.0)])


class Curves(unittest.TestCase):
    def test_thinned_keeps_what_is_seen(self) -> None:
        flat = [(0.1 * it, 5.0) for it in range(2000)]
        peak = [*flat[:1002], (100.2, 0.0), *flat[1003:]]
        self.assertLess(len(picture.thinned(flat)), 40)
        self.assertIn((100.2, 0.0), picture.thinned(peak))

    def test_ticks(self) -> None:
        self.assertEqual(picture.ticks(0, 10, 5), [0, 2, 4, 6, 8, 10])
        self.assertEqual(picture.ticks(0, 0.03, 4), [0, 0.01, 0.02, 0.03])


class Pictures(unittest.TestCase):
    """The pictures in docs/ are those of the examples."""

    @wants_program
    def test_stored_pictures(self) -> None:
        for name in ("falling-capacity", "lost-delay-resp", "two-masters", "under-load"):
            script = EXAMPLES / f"{name}.script"
            report = ptpuni("replay", script.read_bytes())
            drawn = run("plot", "-", "--title", name, "--script", script, given=report).stdout
            stored = TOOLS.parent / "docs/pictures" / f"{name}.svg"
            self.assertEqual(drawn.decode(), stored.read_text(), name)


def texts(svg: str) -> list[str]:
    return [it.text or "" for it in xml.fromstring(svg).iter("{http://www.w3.org/2000/svg}text")]


def told(script: str, lines: list[str]) -> Story:
    return read([*lines, f"end {script.count(chr(10))} 0"], script.encode())


class Drawn(unittest.TestCase):
    """What a picture says, of reports that are written here by hand."""

    GM = "gm 10.0.0.1 0a00000000000001 1 4 84 {} 300\n"

    def held(self, opening: int, changes: list[tuple[int, int]]) -> Story:
        """A grandmaster that holds 24 sixteenths from 0.001 s on, whose capacity changes at some seconds."""
        group = [it for it in REPORT.read_text().splitlines() if it.split()[0] == "10"]
        lines = [it.replace("10 ", "2 ", 1).replace("send 2", "send 1") for it in group]
        script = self.GM.format(opening) + "rx 1000000 10.0.0.1 10.0.1.17 00\n"
        for number, (second, value) in enumerate(changes, 3):
            script += f"capacity {second}000000000 10.0.0.1 {value}\n"
            lines.append(f"{number} capacity 10.0.0.1 {value} at {second}000000000")
        lines.append(f"end {len(changes) + 2} 1")
        return read(lines, script.encode())

    def test_a_capacity_that_falls_into_sight(self) -> None:
        """It is far above what is held until 100 s: it is drawn from there on, and the legend says so."""
        svg = plot.draw(self.held(64000, [(100, 40), (200, 48)]), "it")
        self.assertIn("capacity (above until 100 s)", texts(svg))
        heading = "Grandmaster 10.0.0.1: 1.5 messages/s held at most, capacity 2.5 to 4\u2009000"
        self.assertIn(heading, texts(svg))
        self.assertIn("capacity 2.5", texts(svg))
        # The panel has room for the capacities that lie near, so that its ticks go up to 3 messages a second.
        self.assertIn("3", texts(svg))
        self.assertNotIn("4\u2009000", texts(svg))

    def test_the_legend_stands_clear_of_the_heading(self) -> None:
        """Beside it, and below it where both are long."""
        for changes, legend, is_below in (([(100, 40), (200, 48)], "capacity (above until 100 s)", True), ([], "held", False)):
            svg = xml.fromstring(plot.draw(self.held(64000 if changes else 48, changes), "it"))
            found = {it.text: it.attrib for it in svg.iter("{http://www.w3.org/2000/svg}text")}
            heading = next(it for text, it in found.items() if text and text.startswith("Grandmaster 10.0.0.1: 1.5 "))
            self.assertEqual(float(found[legend]["y"]) - float(heading["y"]), 18 if is_below else 0)

    def test_the_legend_of_a_capacity(self) -> None:
        seconds = ("s", 1.0)
        self.assertEqual(plot.legend_of([(0.0, 3.0)], 4.0, seconds, 9.0), "capacity")
        self.assertEqual(plot.legend_of([(0.0, 5.0)], 4.0, seconds, 9.0), "capacity (above)")
        self.assertEqual(plot.legend_of([(0.0, 5.0), (7.0, 4.0)], 4.0, seconds, 9.0), "capacity (above until 7 s)")
        steps = [(0.0, 5.0), (120.0, 6.0), (300.0, 4.0)]
        self.assertEqual(plot.legend_of(steps, 4.0, ("min", 60.0), 9.0), "capacity (above until 5 min)")
        self.assertEqual(plot.legend_of([(0.0, 3.0), (7.0, 5.0)], 4.0, seconds, 9.0), "capacity (above in parts)")

    def test_what_a_slave_came_to(self) -> None:
        """It had a master from 20 to 80 s and from 90 s on; its bars end where the time is over, at 100 s."""
        script = self.GM.format(48) + "slave 10.0.1.17 0a00000000000011 1 4 0 3 3 1 0 - 300\n"
        chosen = ((0, "none"), (20, "10.0.0.1"), (80, "none"), (90, "10.0.0.1"), (100, "10.0.0.1"))
        lines = []
        for number, (second, name) in enumerate(chosen, 3):
            script += f"tick {second}000000000 10.0.1.17\n"
            lines.append(f"{number} selected 10.0.1.17 {name}")
        svg = plot.draw(told(script, lines), "it")
        self.assertIn("70.00 %", texts(svg))
        self.assertIn("20.0 s", texts(svg))
        bars = [it for it in xml.fromstring(svg).iter("{http://www.w3.org/2000/svg}rect") if it.get("height") == "13"]
        ends = [float(it.get("x") or 0) + float(it.get("width") or 0) for it in bars]
        # The axis goes on for a hundredth behind the last moment.
        self.assertAlmostEqual(max(ends), picture.LEFT + (picture.END - picture.LEFT) / 1.01, delta=0.2)

    def test_what_a_slave_got(self) -> None:
        """Of a Sync a second from 10 s to 110 s it heard 75, and no Delay_Resp of half a one a second."""
        slave = Slave("10.0.1.17", [(0.0, "none")], {"announce": 0, "sync": 75, "delay_resp": 0})
        made = Story(slaves={"10.0.1.17": slave}, start=0.0, end=110.0)
        terms = [Term(10.0, 60.0, 16, "10.0.1.17", "sync"), Term(60.0, 310.0, 16, "10.0.1.17", "sync")]
        made.grandmaster("10.0.0.1").terms = [*terms, Term(10.0, 310.0, 8, "10.0.1.17", "delay_resp")]
        self.assertEqual(made.granted()["10.0.1.17", "sync"], (100.0, 100.0))
        shown = texts(plot.draw(made, "it"))
        for text in ("0.75 of 1.00", "0.00 of 0.50", "Sync/s, of", "Delay_Resp/s, of"):
            self.assertIn(text, shown)
        self.assertNotIn("Announce/s, of", shown)

    def test_what_happened_is_marked(self) -> None:
        """Outages of a grandmaster, a cut way, a change of class and of capacity."""
        made = self.held(48, [(100, 40)])
        made.outages = [Outage(20.0, 40.0, "10.0.0.1"), Outage(50.0, 60.0, "10.0.0.1 and 10.0.1.17")]
        made.grandmasters["10.0.0.1"].classes = [(1.0, 84), (30.0, 104)]
        shown = texts(plot.draw(made, "it"))
        for text in ("outage", "cut from 10.0.1.17", "class 104", "capacity 2.5"):
            self.assertIn(text, shown)
        self.assertNotIn("class 84", shown)

    def test_outages_are_marked_at_slaves(self) -> None:
        """Each has a red line above the bar, from its beginning to its end, at the slaves that it is about alone."""
        for who, count in (("10.0.1.17", 1), ("10.0.0.1 and 10.0.1.17", 1), ("10.0.0.1", 0)):
            slaves = {it: Slave(it, [(0.0, "10.0.0.1")], {}) for it in ("10.0.1.17", "10.0.1.18")}
            made = Story(slaves=slaves, start=0.0, end=100.0, outages=[Outage(25.0, 75.0, who)])
            paths = [it.attrib for it in xml.fromstring(plot.draw(made, "it")).iter("{http://www.w3.org/2000/svg}path")]
            lines = [it["d"] for it in paths if it.get("stroke") == picture.RED and it.get("stroke-width") == "2"]
            self.assertEqual(len(lines), count, who)
            for it in lines:
                start, end = (float(at) for at in re.findall(r"[MH]([0-9.]+)", it))
                # (the axis goes on for a hundredth behind the last moment)
                self.assertAlmostEqual(start - picture.LEFT, (picture.END - picture.LEFT) * 25 / 101, delta=0.2)
                self.assertAlmostEqual(end - picture.LEFT, (picture.END - picture.LEFT) * 75 / 101, delta=0.2)

    def test_outages_come_from_the_script(self) -> None:
        script = self.GM.format(48) + "# From 0.5 until 1800 s all from and to 10.0.0.1 and 10.0.1.17 is lost.\n"
        self.assertEqual(told(script, []).outages, [Outage(0.5, 1800.0, "10.0.0.1 and 10.0.1.17")])

    def test_classes_come_from_announces(self) -> None:
        rest = "00000080{:02x}2100008000000000000000010000a0"
        lines = []
        for number, clock_class in enumerate((84, 84, 104), 1):
            octets = timing(11, "0a000000000000010001", number, number * 10**9, rest=rest.format(clock_class)).hex()
            lines.append(f"{number} send {number} 10.0.0.1 10.0.1.17 general {octets}")
        made = read([*lines, "end 3 3"])
        self.assertEqual(made.grandmasters["10.0.0.1"].classes, [(1.0, 84), (3.0, 104)])

    def test_many_messages_are_counted_by_columns(self) -> None:
        """Of more messages than the picture has places the curve has the number at each place."""
        stamps = [b"%012x%08x" % divmod(it * 10**7, 10**9) for it in range(1, 10001)]
        made = Story(start=0.0, end=100.0)
        made.grandmaster("10.0.0.1").stamps += b"".join(stamps)
        axis = picture.Axis(0.0, 100.0, picture.LEFT, picture.END)
        points = plot.counts(picture.Picture("", "", axis, 100.0), made.grandmasters["10.0.0.1"])
        self.assertLess(len(points), 2 * (picture.END - picture.LEFT) + 2)
        for at, count in points:
            self.assertAlmostEqual(count, at * 100, delta=1)
        self.assertEqual(points[-1], (100.0, 10000.0))


class Pools(unittest.TestCase):
    """Outputs of `ptpuni pools`, as docs/FORMATS.md has them: two customers with 8 sixteenths each."""

    SCRIPT = EXAMPLES / "two-customers.script"

    def output(self) -> list[str]:
        """A grant of 8 to one pool's client and a denial of 1 to its other one, and a Sync of the other pool."""
        give, deny = "00050008b0010000012c0001", "00050008b004000000000000"
        gm, one, two = "0a000000000000010001", "0a000000000000110001", "0a000000000000120001"
        sync = timing(0, gm, 0, 5 * 10**9).hex()
        return [
            f"5 pool 1 send general 10.0.1.17 {signaling(gm, one, 0, give).hex()}",
            f"6 pool 1 send general 10.0.1.18 {signaling(gm, two, 0, deny).hex()}",
            "7 stranger",
            f"8 pool 2 send event 10.0.2.17 {sync}",
            "end 8",
        ]

    POOLS = (
        "gm 10.0.0.1 0a00000000000001 1 4 84 16 300\n# It is sold to two.\npool 10.0.1.0 24 8\npool 10.0.2.0 24 8\n"
        "rx 1000000000 10.0.1.17 00\nrx 2000000000 10.0.1.18 00\nrx 3000000000 10.0.3.1 00\nturn 5000000000 2 0\n"
    )

    def test_story(self) -> None:
        made = read(self.output(), self.POOLS.encode())
        first, second = made.grandmasters["pool 1"], made.grandmasters["pool 2"]
        self.assertEqual((first.held(), first.opening), ([(1.0, 8), (301.0, 0)], 8))
        self.assertEqual((first.marks["granted"], first.marks["denied"]), ([1.0], [2.0]))
        self.assertEqual((second.sent, made.start, made.end), ([5.0], 1.0, 5.0))
        self.assertEqual(first.title, "Pool 1, 10.0.1.0/24")

    def test_picture(self) -> None:
        shown = texts(plot.draw(read(self.output(), self.POOLS.encode()), "it"))
        self.assertIn("Pool 1, 10.0.1.0/24: 0.5 messages/s held at most, capacity 0.5", shown)
        self.assertIn("Pool 2, 10.0.2.0/24: 1 messages sent of a budget of 2", shown)

    def test_refused(self) -> None:
        lines = self.output()
        refused = {
            "\n".join([*lines[:2], "hello", *lines[2:]]): "line 3: no form of an output of pools: `hello`",
            "\n".join(lines[:-1]): "line 5: the text ends without `end LINES`",
            "\n".join(it.replace("8 pool 2", "8 pool 1") for it in lines): "line 4: it does not fit line 8 of",
            "\n".join(it.replace("7 stranger", "4 stranger") for it in lines): "line 3: it does not fit line 4 of",
        }
        for text, why in refused.items():
            with self.assertRaises(report.Refused, msg=why) as caught:
                read_story(io.BytesIO(text.encode()), Script(self.POOLS.encode()))
            self.assertIn(why, str(caught.exception))

    @wants_program
    def test_of_the_program(self) -> None:
        output = ptpuni("pools", self.SCRIPT.read_bytes())
        ran = run("plot", "-", "--script", self.SCRIPT, given=output)
        self.assertEqual((ran.returncode, ran.stderr), (0, b""))
        self.assertTrue(any(it.startswith("Pool 1, ") for it in texts(ran.stdout.decode())))


class Commands(unittest.TestCase):
    def test_picture(self) -> None:
        ran = run("plot", REPORT, "--script", SCRIPT)
        self.assertEqual((ran.returncode, ran.stderr), (0, b""))
        shown = texts(ran.stdout.decode())
        for text in ("granted 6", "denied 2", "shed 2", "10.0.1.17", "10.0.1.18", "falling-capacity"):
            self.assertIn(text, shown)
        self.assertIn("Grandmaster 10.0.0.1: 3 messages/s held at most, capacity 1.5 to 3", shown)

    def test_a_report_of_a_capture(self) -> None:
        """It is drawn as it is, over the time of the capture, and is not said to be one of `replay`."""
        words = ("--grandmaster", "192.0.2.1", "--kinds", "announce,sync", "--slack", "62500000")
        made = run("from-pcap", "report", PTP4L, *words)
        ran = run("plot", "-", "--capacity", "640", given=made.stdout)
        self.assertEqual((ran.returncode, ran.stderr), (0, b""))
        shown = texts(ran.stdout.decode())
        self.assertIn("Grandmaster 192.0.2.1: 33 messages/s held at most, capacity 40", shown)
        self.assertTrue(any(it.startswith("Grandmaster 192.0.2.1: 17 messages sent of a budget of ") for it in shown))
        self.assertIn("granted 3", shown)
        moments = [int(re.sub(r"\W", "", it)) for it in shown if re.fullmatch(r"1\W795\W828\W5\d\d", it)]
        self.assertEqual(moments, 2 * list(range(1795828566, 1795828572)))
        self.assertNotIn(b"replay", ran.stdout)

    def test_capacity_from_the_command_line(self) -> None:
        for words in (("--capacity", "96"), ("--capacity", "10.0.0.1=96")):
            self.assertIn(b"capacity 1.5 to 6", run("plot", "-", *words, given=REPORT.read_bytes()).stdout)
        self.assertEqual(run("plot", "-", "--capacity", "0").returncode, 64)

    def test_refused(self) -> None:
        lines = REPORT.read_text().splitlines(keepends=True)
        ran = run("plot", "-", given="".join([*lines[:4], "hello\n", *lines[4:]]).encode())
        self.assertEqual((ran.returncode, ran.stdout), (65, b""))
        self.assertEqual(ran.stderr, b"plot: -: line 5: no form of a report: `hello`\n")
        granted = next(it for it in lines if " granted " in it)
        ran = run("plot", "-", given=f"9 nobody\n{granted}end 10 0\n".encode())
        self.assertIn(b"line 2: a decision without the reply", ran.stderr)
        shed = next(it for it in lines if " shed " in it)
        ran = run("plot", "-", given=f"9 nobody\n{shed}end 99 0\n".encode())
        self.assertIn(b"line 2: a grant is shed without a change of capacity above it", ran.stderr)
        self.assertEqual(run("plot", "/nowhere").returncode, 66)

    def test_nothing_happened(self) -> None:
        self.assertEqual(run("plot", "-", given=b"end 1 0\n").returncode, 0)


if __name__ == "__main__":
    unittest.main()
