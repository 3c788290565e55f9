"""Reports by the forms of their lines, and beside their scripts."""

from __future__ import annotations

import io
import tempfile
import unittest
from collections.abc import Callable
from pathlib import Path
from typing import Any
from unittest import mock

import parts
import reader
import report
from script import Script
from story import Story
from support import EXAMPLES, REPORT, timing, tool

# One line of each form, as docs/FORMATS.md has them.
LINES = """\
1 granted announce 1 at 0 until 300000000000
1 short sync -4 at 5 others 24 rate 256 capacity 24
1 outside type 5
1 outside log sync 9
1 outside duration announce -3 59
1 cancelled delay_resp at 7
1 nothing sync at 7
1 nothing 5
1 answered at 4611686018427387903
1 silent nogrant at 0
1 silent soon at 1 earliest 2
1 heard announce 10.0.0.1 class 84 at 3
1 heard sync 10.0.0.1 seq 65535 at 3
1 heard follow_up 255.255.255.255 at 3
1 heard delay_resp 0.0.0.0 seq 0 at 3
1 grant sync 300
1 denial announce
1 cancel sync
1 cancel 5
1 ack sync
1 ack 5
1 ignored fault short 33
1 ignored fault tlv 44 length 4 7
1 ignored type 2
1 ignored other 13
1 ignored stranger
1 ignored domain 0
1 ignored target
1 capacity 10.0.0.1 24 at 10000000000
1 shed sync 0 10.0.1.18 0a00000000000012/1
1 nobody
1 send 1 10.0.0.1 10.0.1.17 general 0c12
1 send 2 10.0.0.1 10.0.1.17 event -
1 selected 10.0.1.17 10.0.0.1
1 selected 10.0.1.17 none
1 bad field 3""".split("\n")

NO_LINES = """\
granted announce 1 at 0 until 3
1 granted announce 1 at 0 until
1 granted announce 01 at 0 until 3
1 granted announce 1 at 0 until 3 4
1 granted follow_up 1 at 0 until 3
1  granted announce 1 at 0 until 3
1 heard sync 10.0.0.256 seq 1 at 3
1 heard sync 10.0.0 seq 1 at 3
1 shed sync 0 10.0.1.18 0A00000000000012/1
1 send 1 10.0.0.1 10.0.1.17 general 0c1
1 send 1 10.0.0.1 10.0.1.17 multicast 0c12
1 send 1 10.0.0.1 10.0.1.17 general 0c12003604000400g0
1 send 1 10.0.0.1 10.0.1.17 general 0c12003604000400A0
1 send 1 10.0.0.1 10.0.1.17 general 0c12003604000400 0
1 send 1 10.0.0.256 10.0.1.17 general 0c12003604000400
1 send 01 10.0.0.1 10.0.1.17 general 0c12003604000400
1 selected 10.0.1.17 10.0.0.1.
1 ignored
1 bad luck
hello""".split("\n")

SYNC = timing(0, "0a000000000000010001", 0, 10**9).hex()


def read(text: str, script: str | None = None) -> Story:
    return reader.read_story(io.BytesIO(text.encode()), Script(script.encode()) if script is not None else None)


def blocks(text: bytes) -> list[report.Block]:
    reading = report.Reading()
    return [reading.block(it) for it in report.texts(io.BytesIO(text))]


class Reports(unittest.TestCase):
    def test_forms(self) -> None:
        for text in LINES:
            self.assertTrue(report.has_form(text.encode()), text)
        for text in NO_LINES:
            self.assertFalse(report.has_form(text.encode()), text)

    def test_each_form_in_a_report(self) -> None:
        """The lines of which there are many are read in another way, which takes and refuses the same."""
        decided = {"granted", "short", "outside", "cancelled", "nothing", "shed", "bad"}
        for text in LINES:
            if text.split()[1] not in decided and not text.endswith(("0c12", "-")):
                read(f"{text}\nend 1 0\n")
        for text in NO_LINES:
            with self.assertRaises(report.Refused, msg=text) as caught:
                read(f"1 nobody\n{text}\nend 1 0\n")
            self.assertIn(f"line 2: no form of a report: `{text[:50]}", str(caught.exception))

    def test_columns(self) -> None:
        block = blocks(REPORT.read_bytes())[0]
        words = [it[2].split()[0] for it in block.others]
        counts = (len(block.datagrams), words.count(b"granted"), words.count(b"shed"), words.count(b"capacity"))
        self.assertEqual(counts, (14, 6, 2, 2))
        self.assertEqual((len(block.fronts), len(block.rests), sum(block.kinds.values())), (14, 14, 14))
        heard = [count for (head, _), count in block.told.items() if head]
        self.assertEqual((sum(heard), sum(block.told.values())), (2, 13))

    def test_what_is_heard_counts_right_before_what_is_selected(self) -> None:
        """Not where its slave sends something between, nor where another event is between."""
        heard, selected = "1 heard sync 10.0.0.1 seq 1 at 5", "1 selected 10.0.1.17 10.0.0.1"
        sent = f"1 send 1 10.0.1.17 10.0.0.1 event {SYNC}"
        for lines, count in (
            ([heard, selected, "end 1 0"], 1),
            ([heard, sent, selected, "end 1 1"], 0),
            ([heard, selected.replace("1 ", "2 ", 1), "end 2 0"], 0),
        ):
            self.assertEqual(read("".join(f"{it}\n" for it in lines)).slaves["10.0.1.17"].heard["sync"], count)

    def test_numbers_of_two_widths(self) -> None:
        """Digits are in the order of their numbers where they are of one width, and not where 10 follows 9."""
        lines = [f"{it} selected 10.0.1.17 none\n" for it in (8, 9, 10, 11)]
        self.assertEqual(blocks("".join([*lines, "end 11 0\n"]).encode())[0].count, 4)
        with self.assertRaisesRegex(report.Refused, "line 3: its number 9 is lower than 10"):
            read("".join([lines[0], lines[2], lines[1], "end 11 0\n"]))

    def test_each_length_of_a_front(self) -> None:
        """A datagram that begins as one that was read, and is shorter, is read, too."""
        lines = [f"{it} send {it} 10.0.0.1 10.0.1.17 event {SYNC}\n" for it in (1, 2)]
        read("".join([*lines, "end 2 2\n"]))
        lines[1] = lines[1].replace(SYNC, SYNC[:-8])
        with self.assertRaisesRegex(report.Refused, "line 2: the datagram is no PTP message: length 44 40"):
            read("".join([*lines, "end 2 2\n"]))

    def test_refused(self) -> None:
        refused = {
            "": "line 1: the text ends without",
            "1 nobody\n": "line 2: the text ends without",
            "1 nobody\nhello\nend 1 0\n": "line 2: no form of a report: `hello`",
            "1 nobody\n\nend 1 0\n": "line 2: no form of a report: ``",
            "2 nobody\n1 nobody\nend 2 0\n": "line 2: its number 1 is lower than 2",
            "2 selected 10.0.0.1 none\n1 selected 10.0.0.1 none\nend 2 0\n": "line 2: its number 1 is lower than 2",
            "0 nobody\nend 1 0\n": "line 1: its number 0 is lower than 1",
            "0 selected 10.0.0.1 none\nend 1 0\n": "line 1: its number 0 is lower than 1",
            "01 selected 10.0.0.1 none\nend 1 0\n": "line 1: no form of a report",
            "1 send 1 10.0.0.1 10.0.1.17 event -\nend 1 1\n": "line 1: the datagram is no PTP message: short 0",
            "1 send 2 10.0.0.1 10.0.1.17 event 00\nend 1 1\n": "line 1: datagram 2 stands where 1 is next",
            "1 nobody\nend 1 1\n": "line 2: `end 1 1` ends a report of line 1 and 0 datagrams",
            "2 nobody\nend 1 0\n": "line 2: `end 1 0` ends",
            "end 1 0\n2 nobody\n": "line 2: it stands behind the last line of a report, `end 1 0`",
            "1 bad word\nend 1 0\n": "line 2: it stands behind the last line of a report, `1 bad word`",
            "1 nobody\nend x 0\n": "line 2: no form of a report: `end x 0`",
            "1 heard sync 10.0.0.256 seq 1 at 3\n1 selected 10.0.1.17 none\nend 1 0\n": "line 1: no form",
            "1 heard sync 10.0.0.1 class 1 at 3\n1 selected 10.0.1.17 none\nend 1 0\n": "line 1: no form",
            "1 heard sync 10.0.0.1 seq 01 at 3\n1 selected 10.0.1.17 none\nend 1 0\n": "line 1: no form",
            f"1 answered at 03\n1 send 1 10.0.0.1 10.0.1.17 general {SYNC}\nend 1 1\n": "line 1: no form",
            "1 send 1 10.0.0.1 10.0.1.17 event 00\nend 1 1\n": "line 1: the datagram is no PTP message: short 1",
        }
        for name, size in (("BLOCK", report.BLOCK), ("BLOCK", 1), ("BLOCK", 7), ("ROWS", 1), ("ROWS", 7)):
            for text, why in refused.items():
                with mock.patch.object(report, name, size), self.assertRaises(report.Refused, msg=text) as caught:
                    read(text)
                self.assertIn(why, str(caught.exception))

    def test_report_of_a_refused_script(self) -> None:
        self.assertEqual(read("1 nobody\n2 bad field 3").refused, "line 2 of the script was refused: field 3")

    def test_in_blocks_of_any_size(self) -> None:
        """A group of lines is read whole, wherever a block of the text ends."""
        text, script = REPORT.read_text(), (EXAMPLES / "falling-capacity.script").read_text()
        whole = tool("plot").draw(read(text, script), "it")
        for size in (1, 100, 300, 1000):
            with mock.patch.object(report, "BLOCK", size):
                self.assertEqual(tool("plot").draw(read(text, script), "it"), whole, size)

    def test_rows_of_any_size(self) -> None:
        """A block is cut a few rows at a time, and none is lost or cut where a group goes on."""

        def columns() -> list[object]:
            its = blocks(REPORT.read_bytes())
            kept = [(it.numbers, it.datagrams, it.fronts, it.rests, it.moments, it.kinds, it.told) for it in its]
            return [kept, [(it.count, it.missing) for it in its]]

        whole = columns()
        for size in (1, 100, 300, 1000):
            with mock.patch.object(report, "ROWS", size):
                self.assertEqual(columns(), whole, size)


class Scripts(unittest.TestCase):
    """A report is read beside its own script, and refused beside any other."""

    TEXT, SCRIPT = REPORT.read_text(), (EXAMPLES / "falling-capacity.script").read_text()

    def refused(self, script: str, text: str | None = None) -> str:
        with self.assertRaises(report.Refused) as caught:
            read(text or self.TEXT, script)
        return str(caught.exception)

    def changed(self, old: str, new: str) -> str:
        self.assertIn(old, self.SCRIPT)
        return self.refused(self.SCRIPT.replace(old, new, 1))

    def test_its_own(self) -> None:
        self.assertEqual(read(self.TEXT, self.SCRIPT).grandmasters["10.0.0.1"].opening, 48)

    def test_others(self) -> None:
        for other in ("under-load", "full-table", "two-masters", "lost-delay-resp"):
            why = self.refused((EXAMPLES / f"{other}.script").read_text())
            self.assertRegex(why, "line [0-9]+: it does not fit line [0-9]+ of the script: `|line [0-9]+: it ends")

    def test_each_kind_of_difference(self) -> None:
        """Another node, another word, another capacity, opening or later, a later moment, another length."""
        self.assertIn("it does not fit line 10", self.changed("deliver 1000000 1", "deliver 1000001 1"))
        first_tick = next(it for it in self.SCRIPT.splitlines() if it.startswith("tick "))
        self.assertIn("it does not fit line", self.changed(first_tick, first_tick.replace("10.0.1.17", "10.0.1.18")))
        self.assertIn("it does not fit line", self.changed(first_tick, first_tick.replace("tick", "class")))
        self.assertIn("line 3: it does not fit line 10", self.changed("deliver 1000000 1", "deliver 1000000 999"))
        self.assertIn("it does not fit line", self.changed("10000000000 10.0.0.1 24", "10000000000 10.0.0.1 23"))
        self.assertIn("it does not fit line", self.changed("100000000000 10.0.0.1 48", "100000000001 10.0.0.1 48"))
        lines = self.SCRIPT.count("\n")
        self.assertIn(f"it ends {lines} lines, and the script has {lines + 1}", self.refused(self.SCRIPT + "\n"))

    def test_another_slave_selects(self) -> None:
        script = "slave 10.0.1.17 x\ntick 1000000000 10.0.1.{}\n"
        self.assertEqual(list(read("2 selected 10.0.1.17 none\nend 2 0\n", script.format(17)).slaves), ["10.0.1.17"])
        why = self.refused(script.format(18), "2 selected 10.0.1.17 none\nend 2 0\n")
        self.assertIn("line 1: it does not fit line 2 of the script: `tick 1000000000 10.0.1.18`", why)

    def test_a_denial_tells_the_capacity(self) -> None:
        """The opening capacity stands in no line but a denial's."""
        reply = next(it for it in self.TEXT.splitlines() if " send 2 " in it).split(" ", 3)[3]
        text = f"2 short sync 0 at 5 others 24 rate 16 capacity 24\n2 send 1 {reply}\nend 2 1\n"
        gm = "gm 10.0.0.1 0a00000000000001 1 4 84 {} 300\nrx 5 10.0.0.1 10.0.1.17 00\n"
        self.assertEqual(read(text, gm.format(24)).grandmasters["10.0.0.1"].opening, 24)
        self.assertIn("line 1: it does not fit line 2", self.refused(gm.format(25), text))

    def test_behind_the_front_of_a_long_report(self) -> None:
        """Of a long report some lines of each block are compared, and all changes of capacity."""
        with mock.patch.object(reader, "ALL_LINES", 0), mock.patch.object(reader, "SOME_LINES", 3):
            self.assertIn("it does not", self.changed("10000000000 10.0.0.1 24", "10000000000 10.0.0.1 23"))
            first_tick = next(it for it in self.SCRIPT.splitlines() if it.startswith("tick "))
            self.assertIn("it does not fit", self.changed(first_tick, first_tick.replace("10.0.1.17", "10.0.1.18")))


class Here:
    """Stands in for a pool of processes."""

    def __enter__(self) -> Here:
        return self

    def __exit__(self, *_: object) -> None:
        pass

    def map(self, read: Callable[[Any], Any], given: list[Any]) -> list[Any]:
        return [read(it) for it in given]


class Parts(unittest.TestCase):
    """A long report is read in parts, one for each processor, to the same end."""

    def setUp(self) -> None:
        folder = tempfile.TemporaryDirectory()
        self.addCleanup(folder.cleanup)
        self.file = Path(folder.name) / "it"
        four = mock.patch.object(parts.os, "sched_getaffinity", lambda _: {0, 1, 2, 3})
        four.start()
        self.addCleanup(four.stop)

    def told(self, text: str, script: str | None, least: int) -> Story | None:
        self.file.write_text(text)
        with mock.patch.object(parts, "LEAST_PART", least):
            return parts.read_in_parts(str(self.file), Script(script.encode()) if script else None)

    def told_here(self, text: str, script: str | None) -> Story | None:
        """The same in four parts, in this process, which takes a hundredth of the time."""
        with mock.patch.object(parts, "get_context", lambda _: mock.Mock(Pool=lambda _: Here())):
            return self.told(text, script, 1000)

    def long(self) -> tuple[str, str]:
        """A report of three slaves with grants, an answer that tells no moment, changes of capacity and of class."""
        script = ["gm 10.0.0.1 0a00000000000001 1 4 84 48 300", *(f"slave 10.0.1.{it} x" for it in (17, 18, 19))]
        granted, asked, reply = (it.split(" ", 1)[1] for it in REPORT.read_text().splitlines()[2:5])
        lines: list[str] = []
        sent = 0

        def add(event: str, *said: str) -> None:
            script.append(event)
            nonlocal sent
            for it in said:
                sent += it.startswith("send ")
                lines.append(f"{len(script)} {it.replace('send ', f'send {sent} ')}")

        reply = reply.replace("send 2 ", "send ")
        rest = "00000080{:02x}2100008000000000000000010000a0"
        for second in range(1, 200):
            now = second * 10**9
            at = f"{now} 10.0.0.1"
            if second % 60 == 1:
                add("rx 1000000 10.0.0.1 10.0.1.17 00", granted, asked, reply)
            elif second % 60 == 30:
                add(f"capacity {at} {second}", f"capacity 10.0.0.1 {second} at {now}")
            elif second % 60 == 45:
                add(f"rx {at} 10.0.1.17 00", "outside log sync 9", reply)
            elif second % 7 == 0:
                octets = timing(11, "0a000000000000010001", 0, now, rest=rest.format(84 if second < 100 else 104)).hex()
                add(f"turn {at} 2", f"send 10.0.0.1 10.0.1.17 general {octets}")
            elif second % 2:
                octets = timing(0, "0a000000000000010001", second, now).hex()
                add(f"turn {at} 2", f"send 10.0.0.1 10.0.1.17 event {octets}")
            else:
                slave, name = f"10.0.1.{17 + second % 3}", "none" if second % 20 < 10 else "10.0.0.1"
                heard = f"heard sync 10.0.0.1 seq {second} at {now}"
                add(f"rx {now} {slave} 10.0.0.1 00", heard, f"selected {slave} {name}")
        text = "".join(f"{it}\n" for it in [*lines, f"end {len(script)} {sent}"])
        return text, "".join(f"{it}\n" for it in script)

    def test_same_story(self) -> None:
        text, script = self.long()
        for given in (script, None):
            whole = read(text, given)
            self.assertEqual([it[1] for it in whole.grandmasters["10.0.0.1"].classes], [84, 104])
            for least in (len(text) // 2, len(text) // 3, 1000):
                made = self.told(text, given, least)
                assert made
                made.settle(Script(given.encode()) if given else None, {})
                self.assertEqual(made, whole, least)
                self.assertEqual(tool("plot").draw(made, "it"), tool("plot").draw(whole, "it"))

    def test_a_short_report_is_read_at_once(self) -> None:
        text, _ = self.long()
        self.assertIsNone(self.told(text, None, len(text) // 2 + 1))

    def test_a_part_goes_on_where_the_one_before_it_ended(self) -> None:
        text, _ = self.long()
        self.file.write_text(text)

        def made() -> list[parts.Part]:
            places = [0, text.index("\n100 ") + 1, len(text)]
            read_parts = [parts.read_part(str(self.file), *it, None) for it in zip(places, places[1:])]
            return [it for it in read_parts if it]

        self.assertIsNotNone(parts.joined(made(), None))
        first, second = made()
        second.number = first.progress.last - 1
        self.assertIsNone(parts.joined([first, second], None))
        first, second = made()
        second.before += 1
        self.assertIsNone(parts.joined([first, second], None))
        first, second = made()
        first.progress.ended = b"end 99 50"
        self.assertIsNone(parts.joined([first, second], None))

    def test_what_is_refused_is_read_from_its_front(self) -> None:
        """In whichever part a fault is, and at every seam, the report is said to be read anew."""
        text, script = self.long()
        lines = text.splitlines(keepends=True)
        self.assertIsNotNone(self.told_here(text, script))
        with self.file.open("rb") as stream:
            seams = [text[:it].count("\n") for it in parts.cuts(stream, len(text), 4)[1:-1]]
        self.assertEqual(len(seams), 3)
        for at in sorted({*range(5, len(lines), 29), *(seam + it for seam in seams for it in range(-4, 5))}):
            wrong = ("hello\n", "1 nobody\n", "end 1 1\n")[at % 3]
            self.assertIsNone(self.told_here("".join([*lines[:at], wrong, *lines[at:]]), script), (at, wrong))
            if " send " in lines[at]:
                self.assertIsNone(self.told_here("".join([*lines[:at], *lines[at + 1 :]]), script), at)
            if " heard " in lines[at]:
                later = "".join(it.replace(it.split()[0], "900", 1) for it in lines[at : at + 2])
                self.assertIsNone(self.told_here("".join([*lines[:at], later, *lines[at + 2 :]]), None), at)
        self.assertIsNone(self.told_here(text, script.replace(" 10.0.0.1 2\n", " 10.0.0.2 2\n")))
        self.assertIsNone(self.told_here(text, script + "\n"))


if __name__ == "__main__":
    unittest.main()
