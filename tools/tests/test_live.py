"""The tools beside a grandmaster that runs, in a network namespace of its own, where one is to be had without rights.

It refuses an observe that hears one direction alone, or nothing, one that takes the moment at which it reads a packet for
that at which the packet came, and a report of a capture that an audit does not pass. The listener sleeps while the slave
asks for its grants: the moment of a REQUEST that is read late would make the first messages early.
"""

from __future__ import annotations

import json
import shutil
import subprocess
import sys
import tempfile
import unittest
from functools import cache
from pathlib import Path
from typing import Any

from support import PATIENCE, TOOLS, program, wants_program

SECONDS = 5
GM = """
ip = "127.0.0.1"
clock = "00b0aefffe000001"
capacity = 528
max_duration = 60
rounds = 4294967295
"""
SLAVE = """
ip = "127.0.0.2"
clock = "00b0aefffe000010"
rounds = 4294967295
log_announce = 0
log_sync = -4
log_delay = -4
duration = 60

[[masters]]
ip = "127.0.0.1"
"""
# Nothing here waits for longer than its limit.
SCRIPT = """
wait_for() {{ n=0; while [ ! -s $1 ] && [ ! -e $1.ready ] && [ $n -lt 100 ]; do sleep 0.1; n=$((n + 1)); done; }}
ip link set lo up
timeout {limit} "$program" serve < gm.toml > served &
started=$!
timeout {limit} "$python" -B "$tools/tests/listen.py" lo.pcap 127.0.0.1 {more} &
listener=$!
timeout {limit} "$python" -B "$tools/observe" 127.0.0.1 --json --seconds {seconds} --capacity 528 > observed &
observer=$!
wait_for lo.pcap
wait_for observed
kill -s STOP -- -$listener
timeout {limit} "$program" slave < slave.toml > selected &
started="$started $!"
sleep 0.3
kill -s CONT -- -$listener
wait $observer
wait $listener
kill $started
wait
cat observed
"""


@cache
def has_namespace() -> bool:
    """Whether a network namespace is to be had, with its loopback up."""
    if not shutil.which("unshare") or not shutil.which("ip"):
        return False
    return subprocess.run(["unshare", "-rn", "ip", "link", "set", "lo", "up"], capture_output=True).returncode == 0


@unittest.skipUnless(has_namespace(), "no network namespace is to be had")
class Live(unittest.TestCase):
    @wants_program
    def test_observed_and_audited(self) -> None:
        with tempfile.TemporaryDirectory() as folder:
            (Path(folder) / "gm.toml").write_text(GM)
            (Path(folder) / "slave.toml").write_text(SLAVE)
            last, errors = self.run_live(folder)
            self.assertEqual(errors, "")
            self.see_observed(last)
            self.see_audited(folder)

    def run_live(self, folder: str) -> tuple[dict[str, Any], str]:
        """What observe tells last, and what is said on standard error."""
        names = {"program": program(), "python": sys.executable, "tools": TOOLS, "PYTHONPATH": TOOLS}
        env = {name: str(value) for name, value in names.items()} | {"PATH": "/usr/sbin:/usr/bin:/sbin:/bin"}
        script = SCRIPT.format(limit=SECONDS + 20, seconds=SECONDS, more=SECONDS + 1)
        words = ["unshare", "-rn", "sh", "-c", script]
        ran = subprocess.run(words, cwd=folder, env=env, capture_output=True, text=True, timeout=PATIENCE)
        lines = ran.stdout.splitlines()
        self.assertTrue(lines, ran.stderr)
        return json.loads(next(it for it in reversed(lines) if it.startswith("{"))), ran.stderr

    def see_observed(self, last: dict[str, Any]) -> None:
        self.assertEqual((last["held"], last["missed"]), (528, 0))
        self.assertEqual(last["counts"]["requests"], 3)
        self.assertGreater(last["counts"]["delay_reqs"], 1)
        (client,) = last["clients"]
        self.assertEqual(client["address"], "127.0.0.2")
        # (what is due three seconds long, less what a very busy machine may take)
        for kind, least in (("announce", 1), ("sync", 5), ("delay_resp", 2)):
            self.assertEqual(client[kind]["state"], "granted")
            self.assertGreaterEqual(client[kind]["seen"], least)

    def see_audited(self, folder: str) -> None:
        words = ["report", "lo.pcap", "--grandmaster", "127.0.0.1", "--whole"]
        made = subprocess.run([TOOLS / "from-pcap", *words], cwd=folder, capture_output=True)
        self.assertEqual(made.returncode, 0, made.stderr)
        self.assertIn(b" 3 grants, 0 denials, ", made.stderr)
        answers = []
        for capacity in (528, 527):
            ran = subprocess.run([str(program()), "audit", str(capacity)], input=made.stdout, capture_output=True)
            answers.append(ran.stdout.decode().split()[0::2][:2])
        self.assertEqual([it[0] for it in answers], ["yes", "no"])
        self.assertEqual(answers[1][1], "fit")


if __name__ == "__main__":
    unittest.main()
