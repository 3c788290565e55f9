"""Many leases at one line, and many halves: no turn, change of capacity or half is given up, however many there are.

They refuse a turn, of a grandmaster or of a pool, that is answered by want of memory where it sends more than a thousand
or 4096 messages; and a half that is answered so where 4096 others wait.
"""

from __future__ import annotations

import subprocess
import unittest
from ipaddress import IPv4Address

from support import PATIENCE, program, timing, wants_program

CLIENTS = 6000
LEFT = 1500
SECOND = 10**9
# A REQUEST of Sync, one a second for 300 s; at one a second a grant takes 16 sixteenths.
SYNC_0 = "0004000600000000012c"
RATE = 16


def request(clock: int) -> str:
    """The digits by which a client asks for Syncs, by its number in the clock identity."""
    clock += 0x0A00_0001_0000_0000
    return f"0c12003604000400{'00' * 12}{clock:016x}00010000057f{'ff' * 10}{SYNC_0}"


def asks(client: int) -> str:
    """The script's line by which the client with this number asks for Syncs, at the moment of its number."""
    return f"rx {client} 10.0.0.1 {IPv4Address(0x0A01_0000 + client)} {request(client)}"


def report_on(lines: list[str], word: str = "replay") -> list[list[str]]:
    """The words of each line of the output, of a run that ends well."""
    script = "".join(f"{line}\n" for line in lines).encode()
    ran = subprocess.run([str(program()), word], input=script, capture_output=True, timeout=PATIENCE)
    assert ran.returncode == 0, ran.stderr
    return [line.split() for line in ran.stdout.decode().splitlines()]


@wants_program
class ManyLeases(unittest.TestCase):
    def test_all_are_served_and_the_newest_are_shed(self) -> None:
        setup = [f"gm 10.0.0.1 0a00000000000001 1 4 84 {CLIENTS * RATE} 300"]
        requests = [asks(client) for client in range(CLIENTS)]
        turns = [f"turn {2 * SECOND} 10.0.0.1 {table}" for table in range(4)]
        change = [f"capacity {3 * SECOND} 10.0.0.1 {LEFT * RATE}"]
        later = [f"turn {4 * SECOND} 10.0.0.1 {table}" for table in range(4)]
        report = report_on(setup + requests + turns + change + later)
        said: dict[str, list[list[str]]] = {"requests": [], "turns": [], "change": [], "later": []}
        last = 1 + CLIENTS
        for line in report[:-1]:
            number = int(line[0])
            part = "requests" if number <= last else "turns" if number <= last + 4 else "change" if number == last + 5 else "later"
            said[part].append(line)
        words = {part: [line[1] for line in lines] for part, lines in said.items()}
        self.assertEqual(words["requests"], ["granted", "send"] * CLIENTS)
        self.assertEqual(words["turns"], ["send"] * CLIENTS)
        shed = CLIENTS - LEFT
        self.assertEqual(words["change"], ["capacity"] + ["shed"] * shed + ["send"] * shed)
        self.assertEqual(words["later"], ["send"] * LEFT)
        # (the newest are shed first, and each client whose grant was shed is told)
        told = [str(IPv4Address(0x0A01_0000 + client)) for client in range(CLIENTS - 1, LEFT - 1, -1)]
        self.assertEqual([line[4] for line in said["change"][1 + shed :]], told)
        self.assertEqual(report[-1], ["end", str(1 + CLIENTS + 9), str(2 * CLIENTS + shed + LEFT)])

    def test_all_of_one_table_of_a_pool_are_served(self) -> None:
        # (a table has the clients whose clock identity and portNumber leave the same by 4)
        setup = ["gm 10.0.0.1 0a00000000000001 1 4 84 16777216 300", f"pool 0.0.0.0 0 {CLIENTS * RATE}"]
        requests = [f"rx 0 {IPv4Address(0x0A01_0000 + it)} {request(4 * it)}" for it in range(CLIENTS)]
        said = report_on([*setup, *requests, f"turn {SECOND} 1 1"], "pools")
        self.assertEqual([it[4] for it in said[:-1]], ["general"] * CLIENTS + ["event"] * CLIENTS)
        self.assertEqual(said[-1], ["end", str(2 + CLIENTS + 1)])


@wants_program
class ManyHalves(unittest.TestCase):
    def test_all_wait_for_their_other_half(self) -> None:
        source = "0a000000000000010001"
        follow_ups = [timing(8, source, it, it).hex() for it in range(CLIENTS)]
        syncs = [timing(0, source, it, 0, flags=0x600).hex() for it in range(CLIENTS)]
        said = report_on(follow_ups + syncs, "join")
        self.assertEqual([it[1] for it in said[:-1]], ["wait"] * CLIENTS + ["pair"] * CLIENTS)
        self.assertEqual(said[-1], ["end", str(2 * CLIENTS), "0"])


if __name__ == "__main__":
    unittest.main()
