"""Where rules are written: the files of definitions with their heads, and definitions by words."""

from __future__ import annotations

import subprocess
import unittest

from support import PATIENCE, TOOLS


def rules(*words: str) -> tuple[int, list[str]]:
    ended = subprocess.run([TOOLS / "rules", *words], capture_output=True, text=True, timeout=PATIENCE)
    return ended.returncode, ended.stdout.splitlines()


class Rules(unittest.TestCase):
    def test_each_file_of_definitions_has_a_head(self) -> None:
        files = (TOOLS.parent / "crates").glob("*/specs/*.antt")
        status, lines = rules()
        self.assertEqual(status, 0)
        # (a file Lib has no definitions, but names the files beside it)
        wanted = {f"{it.parts[-3]}/{it.stem}" for it in files if it.stem != "Lib"}
        self.assertEqual({line.split(":")[0] for line in lines} & wanted, wanted)

    def test_a_definition_is_found_by_words_of_its_sentence(self) -> None:
        status, lines = rules("ELIGIBLE", "better")
        self.assertEqual(status, 0)
        self.assertEqual([line.split(": ")[:2] for line in lines], [["ptu_record/Selection", "IsBest"]])

    def test_nothing_found_is_said_by_the_status(self) -> None:
        self.assertEqual(rules("no such words"), (1, []))


if __name__ == "__main__":
    unittest.main()
