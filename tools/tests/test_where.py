"""The lists of docs/HOWTO.md: that they name files that are there, and all files that have all names of a list."""

from __future__ import annotations

import re
import subprocess
import unittest
from collections.abc import Iterator
from pathlib import Path

from support import PATIENCE, TOOLS, tool

TOP = TOOLS.parent
PARTS = (
    *("README.md", "ptpuni", "docs/*.md", "examples/*.toml", "packaging/*", "packaging/tests/*", "runs/*.runs"),
    *("tools/*", "tools/tests/*.py", "crates/*/src/**/*.rt", "crates/*/specs/**/*.antt", "crates/*/proofs/**/*.antt"),
)
# Pages that may speak of all names of a list in passing.
IN_PASSING = {f"docs/{it}.md" for it in ("ARCHITECTURE", "CHANGELOG", "DECISIONS", "GLOSSARY", "PROFILE", "PROOFS")}


def where(*words: str) -> tuple[int, list[str], str]:
    ended = subprocess.run([TOOLS / "where", *words], capture_output=True, text=True, timeout=PATIENCE)
    return ended.returncode, ended.stdout.splitlines(), ended.stderr


def texts() -> Iterator[tuple[str, list[str]]]:
    for part in PARTS:
        for path in sorted(TOP.glob(part)):
            name = path.relative_to(TOP).as_posix()
            if path.is_file() and name not in ("docs/HOWTO.md", "tools/where", "tools/tests/test_where.py"):
                yield name, path.read_text(encoding="utf-8").splitlines()


class Lists(unittest.TestCase):
    def test_each_place_is_there(self) -> None:
        known = tool("where")
        for kind in known.kinds().values():
            rows = known.rows(kind)
            self.assertGreater(len(rows), 10, kind.title)
            for place in (it for row in rows for it in row.places):
                self.assertTrue(known.files(place), f"{kind.title}: there is no {place}")

    def test_what_is_for_each_has_each(self) -> None:
        known = tool("where")
        for kind in known.kinds().values():
            for name in kind.variants:
                for row, path, lines in known.places(kind, name):
                    if row.is_for(name, kind.groups.get(name, "")):
                        self.assertTrue(lines, f"{kind.title}: {path} does not have {name}")

    def test_what_has_each_is_in_the_list(self) -> None:
        known = tool("where")
        files = list(texts())
        for kind in known.kinds().values():
            named = {it for row in known.rows(kind) for place in row.places for it in map(self.named, known.files(place))}
            for group in set(kind.groups.values()) - {"both"} or {""}:
                names = [it for it in kind.variants if kind.groups.get(it, "") in (group, "both", "")]
                having = {path for path, lines in files if self.has_all(kind, names, path, lines)}
                with self.subTest(kind.title, group=group):
                    self.assertEqual(having - named - IN_PASSING, set(), "not in docs/HOWTO.md")

    @staticmethod
    def named(path: Path) -> str:
        return path.relative_to(TOP).as_posix()

    @staticmethod
    def has_all(kind: object, names: list[str], path: str, lines: list[str]) -> bool:
        text = "\n".join(lines)
        patterns = (kind.pattern(it, path.endswith(".md")).pattern for it in names)  # type: ignore[attr-defined]
        return all(re.search(it, text) for it in patterns)


class Places(unittest.TestCase):
    def test_a_setting_stands_by_its_name_and_its_variant(self) -> None:
        status, lines, _ = where("two_step")
        self.assertEqual(status, 0)
        self.assertEqual(lines[0], "A setting: two_step (docs/HOWTO.md says what to write)")
        places = {line.split(":")[0] for line in lines[1:]}
        for path in ("crates/ptu_config/src/key.rt", "crates/ptu_config/specs/Rules.antt", "packaging/ptpuni.1"):
            self.assertIn(path, places)
        self.assertTrue(any(line.endswith('Key::TwoStep => "two_step",') for line in lines))

    def test_a_class_of_python_is_no_place_of_the_setting_class(self) -> None:
        _, lines, _ = where("--kind", "setting", "class")
        places = [line for line in lines if line.startswith("tools/plan.py:")]
        self.assertTrue(places)
        self.assertFalse([line for line in places if ": class " in line])

    def test_a_name_of_two_lists_has_the_places_of_both(self) -> None:
        titles = [line.split(":")[0] for line in where("capacity")[1] if "(docs/HOWTO.md says" in line]
        self.assertEqual(titles, ["A setting", "A line of the report"])
        alone = where("--kind", "line", "capacity")[1]
        self.assertTrue(alone[0].startswith("A line of the report: "))

    def test_names_are_told_by_list(self) -> None:
        status, lines, _ = where()
        self.assertEqual((status, [line.split(":")[0] for line in lines]), (0, list(tool("where").kinds())))

    def test_an_unknown_name_is_said_with_the_nearest(self) -> None:
        self.assertEqual(where("two_steps"), (1, [], "where: nothing has the name two_steps: is two_step meant?\n"))

    def test_a_place_without_the_name_says_so(self) -> None:
        known = tool("where")
        row = known.Row(["docs/FORMATS.md"], "each but `end`")
        self.assertEqual([row.is_for(it, "") for it in ("shed", "end")], [True, False])
        self.assertEqual([known.Row([], "slave").is_for("x", it) for it in ("slave", "both", "grandmaster")], [True, True, False])


if __name__ == "__main__":
    unittest.main()
