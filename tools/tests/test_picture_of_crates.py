"""The picture of docs/ARCHITECTURE.md is the one of crates.txt, and crates without a place in it are refused."""

from __future__ import annotations

import subprocess
import unittest

from support import PATIENCE, TOOLS, tool

ARCHITECTURE = TOOLS.parent / "docs" / "ARCHITECTURE.md"


class Picture(unittest.TestCase):
    def setUp(self) -> None:
        self.tool = tool("picture-of-crates")

    def test_the_page_has_the_picture(self) -> None:
        page = ARCHITECTURE.read_text(encoding="utf-8")
        self.assertEqual(page, self.tool.with_picture(page), "run tools/picture-of-crates --write")

    def test_all_crates_are_in_it(self) -> None:
        ended = subprocess.run([TOOLS / "picture-of-crates"], capture_output=True, text=True, timeout=PATIENCE)
        shown = [line.split()[0] for line in ended.stdout.splitlines() if line.startswith("    ptu_") or "ptpuni " in line]
        names = list(self.tool.uses((TOOLS.parent / "crates.txt").read_text(encoding="utf-8")))
        self.assertEqual((ended.returncode, sorted(shown)), (0, sorted(names)))

    def test_minutes_are_those_of_the_table(self) -> None:
        table = "| crate | proof | tests | edits | with all above |\n|---|---|---|---|---|\n| ptu_a | 1.50 | 0.25 | 0.00 | 12 |\n"
        self.assertEqual(self.tool.minutes(table), {"ptu_a": 1.75})
        self.assertEqual(self.tool.minutes("| `ptu_a` | a | b | c |"), {})

    def test_a_crate_without_a_layer_is_refused(self) -> None:
        with self.assertRaisesRegex(self.tool.Stopped, "ptu_new has no layer"):
            self.tool.layers(["ptu_units", "ptu_new"])

    def test_a_crate_below_what_it_stands_on_is_refused(self) -> None:
        with self.assertRaisesRegex(self.tool.Stopped, "ptu_a stands on ptu_b"):
            self.tool.see_order({"ptu_a": ["ptu_b"], "ptu_b": []}, {"high": ["ptu_b"], "low": ["ptu_a"]})

    def test_what_another_one_stands_on_is_left_out(self) -> None:
        graph = self.tool.uses("# a comment\na: hex\nb: a\nc: a b\n")
        self.assertEqual(graph, {"a": [], "b": ["a"], "c": ["a", "b"]})
        self.assertEqual(self.tool.all_below(graph, "c"), {"a", "b"})

    def test_marks_that_are_missing_are_said(self) -> None:
        with self.assertRaisesRegex(self.tool.Stopped, "are not there"):
            self.tool.with_picture("no marks")


if __name__ == "__main__":
    unittest.main()
