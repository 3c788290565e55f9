"""That each edit and each plant applies to the files as they stand. What refuses them is tried by other commands, which take
long."""

from __future__ import annotations

import re
import subprocess
import unittest
from pathlib import Path

from support import PATIENCE, TOOLS, tool

TOP = TOOLS.parent


def faults_of_edit(file: Path) -> list[str]:
    """Why an edit does not apply: each old text stands once in its file, once those before have their new ones."""
    crate = TOP / "crates" / (file.parent.name if file.parent.name != "must-fail" else file.parent.parent.name)
    lines = file.read_text(encoding="utf-8").splitlines()
    text = (crate / lines[0].removeprefix("file: ")).read_text(encoding="utf-8")
    olds = [it.removeprefix("old: ") for it in lines if it.startswith("old: ")]
    news = [it.removeprefix("new: ") for it in lines if it.startswith("new: ")]
    faults = [] if olds and len(olds) == len(news) else ["it has as many texts that are old as new"]
    for old, new in zip(olds, news, strict=False):
        if text.count(old) != 1:
            faults.append(f"{text.count(old)} times: {old}")
        text = text.replace(old, new)
    return faults


class WrongBodies(unittest.TestCase):
    def test_each_edit_applies(self) -> None:
        edits = [*TOP.glob("edits/*/*.edit"), *TOP.glob("crates/*/must-fail/*.edit")]
        self.assertGreater(len(edits), 100)
        self.assertEqual({it.name: faults for it in edits if (faults := faults_of_edit(it))}, {})

    def test_each_plant_applies(self) -> None:
        known = tool("plants")
        plants = [*TOP.glob("plants/*.diff")]
        self.assertGreater(len(plants), 100)
        for it in plants:
            with self.subTest(it.name):
                self.assertTrue(known.read_plant(it, 1).changes)

    def test_each_diff_with_its_proofs_applies(self) -> None:
        for it in TOP.glob("plants/proofs/*.diff"):
            with self.subTest(it.name):
                diff = re.sub(r"\A.*?(?=^diff --git )", "", it.read_text(encoding="utf-8"), flags=re.S | re.M)
                words = ("git", "apply", "--check", "-")
                ended = subprocess.run(words, cwd=TOP, input=diff, text=True, capture_output=True, timeout=PATIENCE)
                self.assertEqual((ended.returncode, ended.stderr), (0, ""))


if __name__ == "__main__":
    unittest.main()
