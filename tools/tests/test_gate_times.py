"""The minutes of each crate, with a stand-in for the prover that takes some processor time under a crate's name."""

from __future__ import annotations

import os
import subprocess
import tempfile
import unittest
from pathlib import Path

from support import PATIENCE, TOOLS

# It calls itself `rattle`, by its first word, and works for some seconds.
WORK = "import time\nend = time.process_time() + 3\nwhile time.process_time() < end: pass\n"
RUN = """\
#!/bin/sh
cd "$2" && (exec -a rattle python3 -c "$WORK" build --crate-name "$1" $3)
"""


class GateTimes(unittest.TestCase):
    def setUp(self) -> None:
        folder = tempfile.TemporaryDirectory()
        self.addCleanup(folder.cleanup)
        self.top = Path(folder.name)
        (self.top / "tools").mkdir()
        for it in ("gate-times", "endings.py", "options.py", "ptp.py"):
            (self.top / "tools" / it).write_text((TOOLS / it).read_text())
        (self.top / "crates.txt").write_text("# crates\nlow:\nhigh: low hex\nother:\n")
        (self.top / "rt-edit-x").mkdir()
        (self.top / "run").write_text(RUN.replace("/bin/sh", "/bin/bash"))
        (self.top / "run").chmod(0o755)

    def rows(self, *words: str) -> tuple[int, dict[str, list[str]]]:
        ended = subprocess.run(
            ["python3", "-B", "tools/gate-times", "./run", *words],
            cwd=self.top, env={**os.environ, "WORK": WORK}, capture_output=True, text=True, timeout=PATIENCE,
        )
        cells = [[it.strip() for it in line.strip("|").split("|")] for line in ended.stdout.splitlines()]
        return ended.returncode, {row[0]: row[1:] for row in cells}

    def test_a_proof_counts_for_its_crate_and_for_those_below(self) -> None:
        status, rows = self.rows("high", ".", "")
        self.assertEqual(status, 0)
        self.assertGreater(float(rows["high"][0]), 0)
        self.assertEqual(rows["other"], ["0.00", "0.00", "0.00", "0"])
        self.assertEqual([rows["high"][1:3], rows["low"][:3]], [["0.00", "0.00"], ["0.00", "0.00", "0.00"]])

    def test_tests_and_edits_have_their_columns(self) -> None:
        self.assertGreater(float(self.rows("low", ".", "--test")[1]["low"][1]), 0)
        self.assertGreater(float(self.rows("low", "rt-edit-x", "")[1]["low"][2]), 0)

    def test_a_proof_beside_the_command_is_not_counted(self) -> None:
        words = [str(self.top / "run"), "other", ".", ""]
        beside = subprocess.Popen(words, cwd=self.top, env={**os.environ, "WORK": WORK * 2})
        self.addCleanup(beside.wait)
        rows = self.rows("low", ".", "")[1]
        self.assertGreater(float(rows["low"][0]), 0)
        self.assertEqual(rows["other"], ["0.00", "0.00", "0.00", "0"])

    def test_the_status_is_the_command_s(self) -> None:
        self.assertNotEqual(self.rows("low", "nowhere", "")[0], 0)


if __name__ == "__main__":
    unittest.main()
