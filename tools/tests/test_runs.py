"""The stored runs of the program, and what their reader says of a run that ends otherwise, and of a file of no such form."""

from __future__ import annotations

import os
import unittest
from functools import partial
from pathlib import Path
from tempfile import TemporaryDirectory

from support import TOOLS, program, run, tool, wants_program

RUNS = TOOLS.parent / "runs"
ONE = """\
let a = 61
let many = <a*3>

== one
refuses nothing at all
$ WORD <0xff>
< <many:2>
<| <0x0d00>
> <many><one>
! said
status <two>
| one | two |
| x<0x0a>y | 3 |
"""


class Form(unittest.TestCase):
    def read(self, text: str) -> list[object]:
        return list(tool("runs").read_runs(text))

    def test_pieces_tables_and_octets(self) -> None:
        words = ["WORD", os.fsdecode(b"\xff")]
        run = tool("runs").Run("one: x<0x0a>y", words, b"6161\n\r\0", b"616161x\ny\n", 3, b"said\n")
        self.assertEqual(self.read(ONE), [run])

    def test_a_table_is_a_run_for_each_row(self) -> None:
        titles = [it.title for it in self.read(ONE + "| v | 4 |\n")]
        self.assertEqual(titles, ["one: x<0x0a>y", "one: v"])

    def test_a_file_of_no_such_form_is_refused(self) -> None:
        whole = "== one\nrefuses it\n$ show\n"
        self.assertEqual(len(self.read(whole)), 1)
        for text in (
            whole + "what",
            whole + "let a = 1",
            whole + "< <a>",
            "let a = 61\n" + whole + "< <a:2>",
            whole + "status a",
            whole + "| a |",
            whole + "| a |\n| b | c |",
            "== one\n$ show\n",
            "== one\nrefuses it\n",
            "$ show\n",
        ):
            with self.subTest(text=text), self.assertRaises(tool("runs").BadRuns):
                self.read(text)

    def test_what_differs_is_told(self) -> None:
        run = tool("runs").Run("one", [], b"", b"1\n2\n", 3, b"4\n")
        difference = partial(tool("runs").difference, said=b"4\n")
        self.assertIsNone(difference(run, b"1\n2\n", 3))
        self.assertIsNotNone(difference(run, b"1\n2\n", 3, said=b""))
        for out, status in ((b"1\n2\n", 0), (b"1\n", 3), (b"1\n2", 3), (b"1\n2\n3\n", 3), (b"1\n3\n", 3)):
            with self.subTest(out=out, status=status):
                self.assertIsNotNone(difference(run, out, status))


class Stored(unittest.TestCase):
    @wants_program
    def test_each_ends_as_stored(self) -> None:
        runs = tool("runs")
        for file in runs.files_of([]):
            for run in runs.read_runs(file.read_text()):
                with self.subTest(file=file.name, run=run.title):
                    self.assertIsNone(runs.failure(str(program()), run))

    @wants_program
    def test_those_that_are_asked_for_are_counted(self) -> None:
        ended = run("runs", "--only", "no words are refused")
        self.assertEqual((ended.returncode, ended.stdout), (0, b"1 passed, 0 failed\n"))

    @wants_program
    def test_one_that_ends_otherwise_is_told(self) -> None:
        with TemporaryDirectory() as folder:
            file = Path(folder) / "one.runs"
            file.write_text("== one\nrefuses it\n$ show\n> end 1\n")
            ended = run("runs", file)
        told = b"failed: one.runs: one: of the output line 1 is b'end 0\\n', and wanted is b'end 1\\n'\n"
        self.assertEqual((ended.returncode, ended.stdout), (1, told + b"0 passed, 1 failed\n"))

    def test_there_are_some(self) -> None:
        self.assertTrue(tool("runs").files_of([]))


if __name__ == "__main__":
    unittest.main()
