"""Which edits are tried where, in a small repository of its own with a stand-in for the prover.

The stand-in refuses an edit where the crate's source still has its clause `ensures`, as the prover would.
"""

from __future__ import annotations

import os
import shutil
import subprocess
import tempfile
import unittest
from pathlib import Path

from support import PATIENCE, TOOLS

RT = """\
#!/bin/sh
[ "$1" = version ] && exec echo "${KIT:-kit 1}"
[ "$1" = help ] && exec echo "rt ci ${FLAGS-[--anew]}" >&2
[ "$*" = ci ] || exit 9
ls crates >"$SEEN"
status=0
for edit in crates/*/must-fail/*.edit; do
    [ -e "$edit" ] || continue
    crate=${edit%/must-fail/*}
    if grep -q ensures "$crate/src/lib.rt"; then echo "refused: $edit"; else echo "NOT REFUSED: $edit"; status=1; fi
done
exit "$status"
"""
SOURCE = "pub fn one() -> u8\n    ensures { result ≡ 1 }\n{\n    1\n}\n"


class Edits(unittest.TestCase):
    def setUp(self) -> None:
        folder = tempfile.TemporaryDirectory()
        self.addCleanup(folder.cleanup)
        self.top = Path(folder.name) / "tree"
        path = f"{folder.name}/bin:{os.environ['PATH']}"
        names = {f"GIT_{who}_{what}": "a@b" for who in ("AUTHOR", "COMMITTER") for what in ("NAME", "EMAIL")}
        self.seen = Path(folder.name) / "seen"
        self.env = {**os.environ, **names, "PATH": path, "SEEN": str(self.seen)}
        self.put(Path(folder.name) / "bin/rt", RT)
        (Path(folder.name) / "bin/rt").chmod(0o755)
        self.put(self.top / "crates.txt", "low:\nhigh: low hex\nother:\n")
        for name in ("low", "high", "other"):
            self.put(self.top / f"crates/{name}/src/lib.rt", SOURCE)
            self.put(self.top / f"crates/{name}/specs/Lib.antt", f"-- {name}\n")
        self.put(self.top / "crates/low/must-fail/zero.edit", "file: src/lib.rt\n")
        for name in ("high", "other"):
            self.put(self.top / f"edits/{name}/zero.edit", "file: src/lib.rt\n")
        for it in ("edits", "endings.py", "options.py", "ptp.py"):
            self.put(self.top / "tools" / it, (TOOLS / it).read_text())
        self.run_in("git", "init", "--quiet")
        self.commit()

    def put(self, file: Path, text: str) -> None:
        file.parent.mkdir(parents=True, exist_ok=True)
        file.write_text(text)

    def run_in(self, *words: str) -> subprocess.CompletedProcess[str]:
        return subprocess.run(words, cwd=self.top, env=self.env, capture_output=True, text=True, timeout=PATIENCE)

    def commit(self) -> None:
        self.run_in("git", "add", "--all")
        self.assertEqual(self.run_in("git", "commit", "--quiet", "--message", "a state").returncode, 0)

    def edits(self, *words: str) -> tuple[int, list[str]]:
        """The status, and the crates whose edits the prover was handed, or was handed and let through."""
        ended = self.run_in("python3", "-B", "tools/edits", *words)
        return ended.returncode, [it for it in ended.stdout.splitlines() if "efused: " in it or "REFUSED: " in it]

    def passes_all(self) -> None:
        self.assertEqual(self.edits()[0], 0)
        self.commit()

    def test_all_are_tried_and_the_state_is_written_down(self) -> None:
        head = self.run_in("git", "rev-parse", "HEAD").stdout
        status, lines = self.edits()
        self.assertEqual(status, 0)
        wanted = [f"refused: crates/{it}/must-fail/zero.edit" for it in ("high", "other")]
        self.assertEqual(lines, wanted)
        self.assertEqual((self.top / "edits/PASSED").read_text(), head + "kit 1\n")

    def test_nothing_is_tried_where_nothing_changed(self) -> None:
        self.passes_all()
        self.assertEqual(self.edits("changed"), (0, []))

    def test_a_weaker_contract_is_told(self) -> None:
        self.passes_all()
        self.put(self.top / "crates/high/src/lib.rt", SOURCE.replace("    ensures { result ≡ 1 }\n", ""))
        self.commit()
        status, lines = self.edits("changed")
        self.assertEqual(status, 1)
        self.assertIn("NOT REFUSED: crates/high/must-fail/zero.edit", lines)
        self.assertNotIn("refused: crates/other/must-fail/zero.edit", lines)

    def test_a_definition_of_a_crate_below_tries_the_crate(self) -> None:
        self.passes_all()
        self.put(self.top / "crates/low/specs/Lib.antt", "-- another\n")
        self.commit()
        status, lines = self.edits("changed")
        self.assertEqual(status, 0)
        self.assertIn("refused: crates/high/must-fail/zero.edit", lines)
        self.assertNotIn("refused: crates/other/must-fail/zero.edit", lines)

    def test_a_new_edit_and_a_change_not_yet_committed_are_tried(self) -> None:
        self.passes_all()
        self.put(self.top / "edits/other/more.edit", "file: src/lib.rt\n")
        self.put(self.top / "crates/high/proofs/One.antt", "-- new\n")
        lines = self.edits("changed")[1]
        for edit in ("high/must-fail/zero", "other/must-fail/zero", "other/must-fail/more"):
            self.assertIn(f"refused: crates/{edit}.edit", lines)

    def test_all_are_tried_where_the_state_is_not_at_hand_or_of_another_kit(self) -> None:
        self.passes_all()
        self.env["KIT"] = "kit 2"
        self.assertEqual(len(self.edits("changed")[1]), 2)
        self.put(self.top / "edits/PASSED", "0" * 40 + "\nkit 2\n")
        self.commit()
        self.assertEqual(len(self.edits("changed")[1]), 2)

    def test_a_kit_of_the_same_logic_counts_and_of_another_not(self) -> None:
        self.env["KIT"] = "kit 1 logic abc"
        self.passes_all()
        self.env["KIT"] = "kit 2 logic abc"
        self.assertEqual(self.edits("changed"), (0, []))
        self.env["KIT"] = "kit 1 logic abd"
        self.assertEqual(len(self.edits("changed")[1]), 2)

    def test_only_what_the_crates_stand_on_is_proved_for_them(self) -> None:
        self.edits("high")
        self.assertEqual(self.seen.read_text().split(), ["high", "low"])
        self.edits("other")
        self.assertEqual(self.seen.read_text().split(), ["other"])

    def test_edits_are_laid_for_the_gate_where_the_toolchain_keeps_nothing(self) -> None:
        self.passes_all()
        self.put(self.top / "crates/high/src/lib.rt", SOURCE + "// a remark\n")
        self.commit()
        self.assertEqual(self.edits("lay"), (0, []))
        self.assertFalse((self.top / "crates/high/must-fail").exists())
        self.env["FLAGS"] = ""
        self.assertEqual(self.edits("lay"), (0, []))
        self.assertTrue((self.top / "crates/high/must-fail/zero.edit").exists())
        self.assertFalse((self.top / "crates/other/must-fail").exists())
        self.assertEqual(self.edits("changed"), (0, []))
        self.assertEqual(self.edits("lift"), (0, []))
        self.assertEqual(self.run_in("git", "status", "--porcelain").stdout, "")
        self.assertEqual(self.edits("changed"), (0, ["refused: crates/high/must-fail/zero.edit"]))

    def test_an_edit_that_stands_in_both_sets_is_not_laid(self) -> None:
        self.env["FLAGS"] = ""
        self.put(self.top / "crates/other/must-fail/zero.edit", "file: src/lib.rt\n")
        self.commit()
        self.assertEqual(self.edits("lay"), (1, []))
        self.assertFalse((self.top / "crates/high/must-fail").exists())

    def test_a_state_is_written_down_only_where_all_are_refused_and_committed(self) -> None:
        self.put(self.top / "crates/other/src/lib.rt", "")
        self.assertEqual(self.edits()[0], 1)
        self.assertFalse((self.top / "edits/PASSED").exists())
        self.put(self.top / "crates/other/src/lib.rt", SOURCE + "// a remark\n")
        self.assertEqual(self.edits()[0], 0)
        self.assertFalse((self.top / "edits/PASSED").exists())
        self.commit()
        self.assertEqual(self.edits("high")[0], 0)
        self.assertFalse((self.top / "edits/PASSED").exists())

    def test_a_crate_without_edits_is_refused(self) -> None:
        self.assertEqual(self.edits("low"), (64, []))

    def test_the_tree_is_left_as_it_is(self) -> None:
        before = self.run_in("git", "status", "--porcelain").stdout
        self.edits("high")
        self.assertEqual(self.run_in("git", "status", "--porcelain").stdout, before)
        self.assertFalse((self.top / "crates/high/must-fail").exists())

    def tearDown(self) -> None:
        shutil.rmtree(self.top, ignore_errors=True)


if __name__ == "__main__":
    unittest.main()
