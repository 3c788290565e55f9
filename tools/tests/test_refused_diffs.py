"""Which diffs are found refused, in a small repository of its own with a stand-in for the prover.

The stand-in proves crates/low where its source has `right`. Else it finds the clause open that the source names.
"""

from __future__ import annotations

import os
import shutil
import subprocess
import tempfile
import unittest
from pathlib import Path

from support import TOOLS

RT = """\
#!/bin/sh
[ "$1" = check ] || exit 9
echo "logic=proved functions=3"
grep -q right src/lib.rt && echo "logic=proved functions=1" && exit 0
clause=$(cat src/lib.rt)
echo "fn low::ports::send: no proof: expected answers in ./proofs; \\`search\\` did not prove \\`returns-clause-$clause\\`"
echo "logic=not-proved"
exit 1
"""
DIFF = """\
Nothing is sent.
refused-at: low ports::send goes_on

diff --git a/crates/low/src/lib.rt b/crates/low/src/lib.rt
--- a/crates/low/src/lib.rt
+++ b/crates/low/src/lib.rt
@@ -1 +1 @@
-OLD
+NEW
"""


class RefusedDiffs(unittest.TestCase):
    def setUp(self) -> None:
        room = tempfile.TemporaryDirectory()
        self.addCleanup(room.cleanup)
        self.top = Path(room.name)
        for name in ("tools", "bin", "crates/low/src", "plants/proofs"):
            (self.top / name).mkdir(parents=True)
        shutil.copy(TOOLS / "refused-diffs", self.top / "tools/refused-diffs")
        (self.top / "bin/rt").write_text(RT)
        (self.top / "bin/rt").chmod(0o755)
        (self.top / "crates/low/src/lib.rt").write_text("right\n")
        for name in ("crates.txt", "HANDLES"):
            (self.top / name).write_text("")
        subprocess.run(("git", "init", "-q"), cwd=self.top, check=True)

    def tried(self, diff: str, *names: str) -> tuple[int, str]:
        """The status and the output of the tool with this one diff."""
        (self.top / "plants/proofs/nothing-sent.diff").write_text(diff)
        env = {**os.environ, "PATH": f"{self.top / 'bin'}:{os.environ['PATH']}"}
        words = (self.top / "tools/refused-diffs", *names)
        ran = subprocess.run(words, env=env, capture_output=True, text=True)
        return ran.returncode, ran.stdout

    def diff(self, new: str) -> str:
        return DIFF.replace("OLD", "right").replace("NEW", new)

    def test_one_that_is_refused_where_it_says(self) -> None:
        status, said = self.tried(self.diff("goes_on"))
        self.assertEqual((status, said), (0, "nothing-sent: refused\nrefused-diffs: 1 tried: each refused\n"))

    def test_one_that_is_proved(self) -> None:
        status, said = self.tried(self.diff("also right"))
        self.assertEqual(status, 1)
        self.assertIn("NOT REFUSED: the crate is proved with it", said)

    def test_one_that_another_clause_refuses(self) -> None:
        status, said = self.tried(self.diff("handed"))
        self.assertEqual(status, 1)
        self.assertIn("refused elsewhere: [('ports::send', 'handed')]", said)

    def test_one_that_does_not_apply(self) -> None:
        status, said = self.tried(self.diff("goes_on").replace("-right", "-wrong"))
        self.assertEqual(status, 1)
        self.assertIn("does not apply", said)

    def test_one_without_its_form(self) -> None:
        status, said = self.tried("Nothing is sent.\n")
        self.assertEqual(status, 1)
        self.assertIn("it has a line that says what is wrong", said)

    def test_an_unknown_name(self) -> None:
        status, _ = self.tried(self.diff("goes_on"), "other")
        self.assertEqual(status, 2)


if __name__ == "__main__":
    unittest.main()
