"""What audits take, with stand-ins for the program and for valgrind, which say what they were given."""

from __future__ import annotations

import os
import subprocess
import tempfile
import unittest
from pathlib import Path

from support import PATIENCE, TOOLS

# `replay` writes a line for each of its own, and `audit` reads all.
PROGRAM = """\
#!/bin/sh
case $1 in replay) exec cat ;; audit) exec cat >/dev/null ;; esac
"""
# A million instructions for each line.
VALGRIND = """\
#!/bin/sh
echo "==1== I   refs:      $(wc -l),000,000" >&2
"""
PAGE = "before\n<!-- tools/audit-costs -->\nold\n<!-- the end of what it writes -->\nbehind\n"


class AuditCosts(unittest.TestCase):
    def setUp(self) -> None:
        folder = tempfile.TemporaryDirectory()
        self.addCleanup(folder.cleanup)
        self.top = Path(folder.name)
        (self.top / "tools").mkdir()
        (self.top / "docs").mkdir()
        for it in ("audit-costs", "endings.py", "options.py", "ptp.py"):
            (self.top / "tools" / it).write_text((TOOLS / it).read_text())
        for name, text in (("valgrind", VALGRIND), ("program", PROGRAM), ("ptpuni", "#!/bin/sh\necho ptpuni: it, proved\n")):
            (self.top / name).write_text(text)
            (self.top / name).chmod(0o755)
        self.page = self.top / "docs" / "PERFORMANCE.md"
        self.page.write_text(PAGE)

    def ran(self, *words: str) -> subprocess.CompletedProcess[str]:
        paths = {"PATH": f"{self.top}:{os.environ['PATH']}", "PTPUNI": str(self.top / "program")}
        return subprocess.run(
            ["python3", "-B", "tools/audit-costs", *words],
            cwd=self.top, env={**os.environ, **paths}, capture_output=True, text=True, timeout=PATIENCE,
        )

    def test_a_row_has_the_instructions_of_its_lines(self) -> None:
        ran = self.ran()
        self.assertEqual((ran.returncode, ran.stderr, self.page.read_text()), (0, "", PAGE))
        said, _, *rows = ran.stdout.splitlines()
        self.assertEqual(said, "The program: it, proved.")
        cells = [[it.strip() for it in row.strip("|").split("|")] for row in rows[2:]]
        # (the stand-in's report is the script: a line of the grandmaster, and one for each request)
        self.assertEqual(cells[0][:5], ["100", "1501", "1501.0", "1000000", ""])
        self.assertEqual(cells[1][:5], ["100", "6001", "6001.0", "1000000", "1.00"])
        self.assertEqual(cells[3][4], "")
        self.assertEqual(cells[-1][:5], ["unlike datagrams", "24001", "24001.0", "1000000", "1.00"])

    def test_the_table_stands_between_its_marks(self) -> None:
        ran = self.ran("--write")
        self.assertEqual((ran.returncode, ran.stdout), (0, ""))
        front, table, behind = self.page.read_text().partition("The program: it, proved.\n")
        self.assertEqual(front, "before\n<!-- tools/audit-costs -->\n")
        self.assertNotIn("old", behind)
        self.assertTrue(table and behind.endswith(" MB |\n<!-- the end of what it writes -->\nbehind\n"))

    def test_a_page_without_the_marks_stays(self) -> None:
        self.page.write_text("before\n")
        ran = self.ran("--write")
        self.assertEqual((ran.returncode, self.page.read_text()), (65, "before\n"))


if __name__ == "__main__":
    unittest.main()
