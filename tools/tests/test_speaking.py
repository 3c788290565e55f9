"""Grandmasters that run and are spoken to, over UDP, in a network namespace, where one is to be had without rights.

It refuses a class that is told and not announced, one for which grants are ended, a lower capacity that sheds the oldest,
more or less than is too much, that sheds without a word, or for which the others miss a Sync, and a unit whose reload is
not obeyed, or whose stop leaves the program, or its closing line, behind.
"""

from __future__ import annotations

import json
import re
import subprocess
import sys
import tempfile
import unittest
from functools import cache
from pathlib import Path
from typing import Any

from support import PATIENCE, TOOLS, program, wants_program
from test_live import has_namespace

SYNC_RATE = 16
SECOND = 10**9


@cache
def knows_control_port() -> bool:
    """Whether the program knows the settings of a control port: one before them refuses their key by name."""
    asked = b'ip = "127.0.0.1"\nclock = "00b0aefffe000001"\nrounds = 1\ncapacity = 16\ncontrol_port = 0\n'
    ran = subprocess.run([str(program()), "serve"], input=asked, capture_output=True, timeout=PATIENCE)
    return ran.stdout == b"settings bad control_port\n"


@unittest.skipUnless(has_namespace(), "no network namespace is to be had")
@wants_program
class Speaking(unittest.TestCase):
    def seen(self, scene: str) -> dict[str, Any]:
        """What was seen in a scene."""
        if not knows_control_port():
            self.skipTest("the program does not know control_port")
        script = TOOLS / "tests" / "speaking.py"
        env = {"PYTHONPATH": str(TOOLS), "PATH": "/usr/local/bin:/usr/sbin:/usr/bin:/sbin:/bin"}
        with tempfile.TemporaryDirectory() as folder:
            words = ["unshare", "-rn", sys.executable, "-B", str(script), scene, folder, str(program())]
            ran = subprocess.run(words, env=env, cwd=folder, capture_output=True, text=True, timeout=PATIENCE)
        self.assertEqual(ran.returncode, 0, ran.stderr)
        seen: dict[str, Any] = json.loads(ran.stdout)
        return seen

    def see_end(self, end: list[Any], granted: int, held: int) -> None:
        answer, status, line = end
        self.assertEqual((answer, status), ("ok\n", 0))
        self.assertRegex(line, rf"^rounds [0-9]+ sent [0-9]+ failed 0 granted {granted} refused 0 held {held}\n$")

    def test_a_worse_class_sends_a_slave_away_and_back(self) -> None:
        seen = self.seen("class_and_slave")
        self.assertEqual(seen["answers"], ["ok\n", "ok\n"])
        changed = [it for it in seen["selections"] if it != "none"]
        self.assertEqual(changed, ["127.0.0.1", "127.0.0.3", "127.0.0.1"])
        grants = ("held", "live_announce", "live_sync", "live_delay_resp", "granted", "refused")
        for before, after, end in zip(seen["before"], seen["after"], seen["ends"]):
            self.assertEqual([after[it] for it in grants], [before[it] for it in grants])
            self.assertEqual([before[it] for it in grants], [3 * SYNC_RATE, 1, 1, 1, 3, 0])
            self.see_end(end, 3, 3 * SYNC_RATE)
        self.assertEqual([it["class"] for it in seen["after"]], [84, 84])

    def test_a_lower_capacity_sheds_the_newest_alone(self) -> None:
        seen = self.seen("lower_capacity")
        count = len(seen["granted"])
        kept = count // 2
        self.assertEqual((count, set(seen["granted"])), (200, {60}))
        self.assertEqual(seen["answer"], f"ok\nshed {count - kept}\n")
        self.assertEqual(seen["cancelled"], [0] * kept + [1] * (count - kept))
        self.assertEqual(seen["behind"][kept:], [0] * (count - kept))
        for syncs in seen["syncs"][:kept]:
            self.assertGreaterEqual(len(syncs), 5)
            for (sequence, stamp), (after, later) in zip(syncs, syncs[1:]):
                self.assertEqual(after, sequence + 1)
                # (a second behind the one before, and no other one could have come between)
                self.assertTrue(SECOND <= later - stamp < 2 * SECOND, (stamp, later))
        status = seen["status"]
        self.assertEqual((status["live_sync"], status["held"], status["capacity"]), (kept, kept * SYNC_RATE, kept * SYNC_RATE))
        self.see_end(seen["end"], count, kept * SYNC_RATE)

    def test_the_unit_reloads_and_stops(self) -> None:
        seen = self.seen("unit")
        self.assertEqual(seen["granted"], 60)
        self.assertEqual(seen["reloaded"], [0, "capacity 320: shed 0\nclass 110: ok\n", ""])
        self.assertEqual(seen["stopped"], [0, "ok\n", ""])
        self.assertEqual(seen["ended"], 0)
        self.assertEqual(sorted(set(seen["classes"])), [84, 110])
        self.assertEqual(seen["classes"], sorted(seen["classes"]))
        self.assertIsNotNone(re.search(r"^rounds [0-9]+ sent [0-9]+ failed 0 granted 1 refused 0 held 16$", seen["out"], re.M))


if __name__ == "__main__":
    unittest.main()
