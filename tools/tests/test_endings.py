"""How the tools end: with the statuses of the program, and one line that names the file and says what to do."""

from __future__ import annotations

import os
import subprocess
import tempfile
import unittest
from pathlib import Path
from unittest import mock

from support import PTP4L, REPORT, TOOLS, run, tool

GM = "192.0.2.1"
# The words with which each tool reads a file, which is put in the place of `{}`.
READS = {
    "from-pcap": [("show", "{}"), ("script", "{}"), ("report", "{}", "--grandmaster", GM)],
    "observe": [(GM, "--read", "{}")],
    "plot": [("{}",), (str(REPORT), "--script", "{}")],
    "summary": [("{}",), (str(REPORT), "--script", "{}")],
    "scenario": [("{}",)],
    "runs": [("{}",)],
}
WRONG_WORDS = {
    "from-pcap": [(), ("show",), ("report", "{}"), ("report", "{}", "--grandmaster", "x"), ("show", "{}", "--ports=0")],
    "observe": [(), ("here",), (GM, "--capacity", "0"), (GM, "--rows", "0"), (GM, "--seconds", "-1"), (GM, "--json", "--prometheus", "x")],
    "plot": [(), ("{}", "--capacity", "0"), ("{}", "--capacity", "here=1"), ("{}", "--nothing")],
    "summary": [(), ("{}", "--capacity", "16777217"), ("{}", "{}")],
    "scenario": [(), ("{}", "{}")],
    "runs": [("--nothing",)],
    "rules": [("--nothing",)],
    "edits": [("--nothing",), ("nobody",)],
    "plants": [("--nothing",), ("nothing",)],
    "gate-times": [("--nothing",)],
    "audit-costs": [("--nothing",), ("16",)],
}


class Endings(unittest.TestCase):
    def setUp(self) -> None:
        folder = tempfile.TemporaryDirectory()
        self.addCleanup(folder.cleanup)
        self.folder = Path(folder.name)

    def said(self, name: str, words: tuple[str, ...], file: Path) -> tuple[int, list[str]]:
        """The status, and the lines on standard error; nothing is written on standard output."""
        ran = run(name, *(it.replace("{}", str(file)) for it in words))
        self.assertEqual(ran.stdout, b"", (name, words))
        return ran.returncode, ran.stderr.decode().splitlines()

    def test_words(self) -> None:
        for name, each in WRONG_WORDS.items():
            for words in each:
                status, lines = self.said(name, words, PTP4L)
                self.assertEqual((status, len(lines)), (64, 1), (name, words, lines))
                self.assertRegex(lines[0], f"^{name}.*: .*: see {name}.* --help$")

    def test_files_that_are_not_there(self) -> None:
        missing = self.folder / "missing"
        for name, each in READS.items():
            for words in each:
                for file, why in ((missing, "No such file or directory"), (self.folder, "Is a directory")):
                    status, lines = self.said(name, words, file)
                    self.assertEqual((status, len(lines)), (66, 1), (name, words, lines))
                    self.assertRegex(lines[0], f"^{name}: {file}: {why}: name ")

    def test_files_of_no_form(self) -> None:
        file = self.folder / "it"
        for octets in (b"hello\n", b"\xff\xfe\n"):
            file.write_bytes(octets)
            for name, each in READS.items():
                for words in each:
                    if "--script" in words:
                        words = (str(file), "--script", "{}")
                    status, lines = self.said(name, words, file)
                    self.assertEqual((status, len(lines)), (65, 1), (name, words, lines))
                    self.assertTrue(lines[0].startswith(f"{name}: {file}: "), lines)

    def test_outputs_that_cannot_be_written(self) -> None:
        words = ("report", str(PTP4L), "--grandmaster", GM, "--pieces", f"{self.folder}/none/it")
        ran = run("from-pcap", *words)
        self.assertEqual(ran.returncode, 67)
        why = f"{self.folder}/none/it-1.report: No such file or directory: name a place to write to"
        self.assertIn(why.encode(), ran.stderr)

    def test_no_right_to_listen(self) -> None:
        observe = tool("observe")
        for error, hint in (
            (PermissionError(1, "Operation not permitted"), "listening takes root or CAP_NET_RAW; or: tcpdump "),
            (OSError(19, "No such device"), "name one of this machine's interfaces"),
        ):
            with mock.patch.object(observe, "Listener", side_effect=error):
                ran = run("observe", GM, "--interface", "eth7")
            self.assertEqual((ran.returncode, ran.stdout), (69, b""))
            self.assertIn(hint.encode(), ran.stderr)
            self.assertEqual(ran.stderr.count(b"\n"), 1)

    def test_programs_that_are_not_there(self) -> None:
        """What a tool starts is named, and what to do."""
        started = {"edits": [()], "plants": [()], "gate-times": [(), ("rt", "check")], "runs": [()], "audit-costs": [()]}
        wanting = {"runs": "/nowhere/ptpuni: it is no program that can be run", "audit-costs": "valgrind: it is not in PATH"}
        with mock.patch.dict(os.environ, {"PATH": str(self.folder), "PTPUNI": "/nowhere/ptpuni"}):
            for name, each in started.items():
                for words in each:
                    status, lines = self.said(name, words, PTP4L)
                    missing = wanting.get(name, "rt: it is not in PATH")
                    self.assertEqual((status, len(lines)), (69, 1), (name, words, lines))
                    self.assertTrue(lines[0].startswith(f"{name}: {missing}: "), lines)

    def test_no_room_for_the_output(self) -> None:
        quiet = {**os.environ, "PYTHONDONTWRITEBYTECODE": "1"}
        capture = ("--read", str(PTP4L))
        for words in (("summary", REPORT), ("plot", REPORT), ("from-pcap", "show", PTP4L), ("observe", GM, *capture), ("rules",)):
            with open("/dev/full", "wb") as full:
                ran = subprocess.run([TOOLS / words[0], *words[1:]], stdout=full, stderr=subprocess.PIPE, env=quiet)
            why = f"{words[0]}: standard output: No space left on device: make room, or write it elsewhere\n"
            self.assertEqual((ran.returncode, ran.stderr.decode()), (67, why))

    def test_nobody_reads_on(self) -> None:
        """A tool whose output is closed says nothing more."""
        quiet = {**os.environ, "PYTHONDONTWRITEBYTECODE": "1"}
        for words in (("summary", REPORT), ("plot", REPORT), ("from-pcap", "show", PTP4L), ("rules",)):
            reader, writer = os.pipe()
            os.close(reader)
            try:
                ran = subprocess.run([TOOLS / words[0], *words[1:]], stdout=writer, stderr=subprocess.PIPE, env=quiet)
            finally:
                os.close(writer)
            self.assertEqual((ran.returncode, ran.stderr), (67, b""), words[0])


if __name__ == "__main__":
    unittest.main()
