"""Reports of the program, audited by it: those of worked scripts and of all examples, and the neighbours of each fault.

The scripts and their numbers of grants and messages are written here by hand, from what each of them asks for. Of the
examples the numbers are counted by this folder's own reader of reports.
"""

from __future__ import annotations

import re
import resource
import subprocess
import unittest

import ptp
from support import EXAMPLES, PATIENCE, program, run, tool, wants_program

A, B = 0x0A00_0000_0000_0011, 0x0A00_0000_0000_0012
IP = {A: "10.0.1.17", B: "10.0.1.18"}
SECOND = 10**9
YES, NO = 0, 70

# What stands in a REQUEST and a CANCEL behind the header: the kind's code, the interval's logarithm, the duration.
ANNOUNCE_1 = "00040006b0010000012c"
SYNC_0 = "0004000600000000012c"
DELAY_RESP_0 = "0004000690000000012c"
END_ANNOUNCE, END_SYNC = "00060002b000", "000600020000"
DELAY_REQ = f"0112002c04000400{'00' * 12}{A:016x}00010007017f{'00' * 10}"


def gm(capacity: int, max_duration: int = 300) -> str:
    return f"gm 10.0.0.1 0a00000000000001 1 4 84 {capacity} {max_duration}"


def signaling(client: int, sequence: int, tlvs: str) -> str:
    length = 44 + len(tlvs) // 2
    head = f"0c12{length:04x}04000400{'00' * 12}{client:016x}0001{sequence:04x}057f"
    return head + "ff" * 10 + tlvs


def asks(moment: int, client: int, tlvs: str, sequence: int = 0) -> str:
    return f"rx {moment} 10.0.0.1 {IP[client]} {signaling(client, sequence, tlvs)}"


def turn(moment: int, table: int = 2) -> str:
    return f"turn {moment} 10.0.0.1 {table}"


def sends_delay_req(moment: int) -> str:
    return f"rx {moment} 10.0.0.1 10.0.1.17 {DELAY_REQ}"


ONE_SYNC = [gm(16), asks(0, A, SYNC_0), turn(SECOND - 1), turn(SECOND)]

# Each script with its grandmaster's capacity, and how many grants and timing messages its report tells.
WORKED: dict[str, tuple[int, int, int, list[str]]] = {
    "one request": (8, 1, 0, [gm(8), asks(0, A, ANNOUNCE_1)]),
    "exactly full": (2048, 1, 0, [gm(2048), asks(0, A, "0004000600f90000012c")]),
    "one sixteenth short": (2047, 0, 0, [gm(2047), asks(0, A, "0004000600f90000012c")]),
    "a repeat in a full table": (
        8,
        2,
        0,
        [gm(8), asks(0, A, ANNOUNCE_1), asks(5 * SECOND, A, ANNOUNCE_1), asks(5 * SECOND, B, "00040006b0040000012c")],
    ),
    "a refused renewal": (
        16,
        2,
        1,
        [
            gm(16),
            asks(0, A, ANNOUNCE_1),
            asks(0, B, ANNOUNCE_1),
            asks(10 * SECOND, A, "00040006b0000000012c"),
            turn(10 * SECOND),
        ],
    ),
    "at the moment of expiry": (
        8,
        2,
        1,
        [
            gm(8, 60),
            asks(0, A, ANNOUNCE_1),
            asks(60 * SECOND, A, ANNOUNCE_1),
            turn(62 * SECOND - 1),
            turn(62 * SECOND),
        ],
    ),
    "three denials": (
        2048,
        0,
        0,
        [gm(2048), asks(0, A, "00040006b0fc0000012c0004000600000000003b0004000630000000012c")],
    ),
    "a long duration": (8, 1, 0, [gm(8, 1000), asks(0, A, "00040006b00100000e10")]),
    "the edge of pacing": (16, 1, 1, ONE_SYNC),
    "late turns": (16, 1, 3, [*ONE_SYNC, turn(11 * SECOND), turn(12 * SECOND - 1), turn(12 * SECOND)]),
    "the credit of two": (
        16,
        1,
        2,
        [
            gm(16),
            asks(0, A, DELAY_RESP_0),
            sends_delay_req(10 * SECOND),
            sends_delay_req(11 * SECOND - 1),
            sends_delay_req(11 * SECOND - 1),
        ],
    ),
    "cancelled twice": (
        8,
        1,
        0,
        [
            gm(8),
            asks(0, A, ANNOUNCE_1),
            asks(5 * SECOND, A, END_ANNOUNCE, 1),
            asks(6 * SECOND, A, END_ANNOUNCE, 1),
            turn(7 * SECOND),
        ],
    ),
    "a cancel with an early moment": (
        16,
        1,
        1,
        [gm(16), asks(0, A, SYNC_0), turn(5 * SECOND), asks(3 * SECOND, A, END_SYNC, 1)],
    ),
    "several requests in one message": (
        2048,
        3,
        0,
        [gm(2048), asks(0, A, "30000002abcd" + ANNOUNCE_1 + SYNC_0 + DELAY_RESP_0) + "dead"],
    ),
    "both ends": (
        2048,
        2,
        2,
        [
            gm(2048),
            "slave 10.0.1.17 0a00000000000011 1 4 300 3 3 1 0 - 300",
            "master 10.0.1.17 10.0.0.1 1 flag",
            "tick 0 10.0.1.17",
            "deliver 1000000 1",
            "deliver 2000000 2",
            turn(2001000000),
            "deliver 2002000000 3",
            "deliver 2003000000 4",
        ],
    ),
    "a lower capacity": (
        16,
        3,
        0,
        [
            gm(16),
            asks(0, A, ANNOUNCE_1),
            asks(SECOND, B, ANNOUNCE_1),
            "capacity 2000000000 10.0.0.1 8",
            asks(2 * SECOND, B, ANNOUNCE_1),
            "capacity 3000000000 10.0.0.1 16",
            asks(0, B, ANNOUNCE_1),
        ],
    ),
}

# The capacity of an example's grandmasters.
CAPACITIES = {
    "falling-capacity": 48,
    "full-table": 8,
    "lost-delay-resp": 2048,
    "moments-backwards": 8,
    "one-request": 8,
    "refused-renewal": 16,
    "two-masters": 2048,
    "under-load": 64,
    "maintenance": 240,
    "narrow-link": 330,
    "twenty-slaves": 256,
}


def run_program(words: list[str], given: bytes) -> tuple[bytes, int]:
    ran = subprocess.run([str(program()), *words], input=given, capture_output=True, timeout=PATIENCE)
    return ran.stdout, ran.returncode


def report_of(script: list[str]) -> list[str]:
    out, status = run_program(["replay"], "".join(f"{it}\n" for it in script).encode())
    assert status == 0, out
    return out.decode().splitlines()


def audit(capacity: int, report: list[str]) -> tuple[str, int]:
    out, status = run_program(["audit", str(capacity)], "".join(f"{it}\n" for it in report).encode())
    return out.decode(), status


def is_reply(line: str) -> bool:
    """Whether the line sends a Signaling with a GRANT or an ACKNOWLEDGE_CANCEL, by its octets."""
    words = line.split()
    return words[1] == "send" and words[-1].startswith("0c") and words[-1][88:92] in ("0005", "0007")


def with_octet(line: str, place: int, octet: str) -> str:
    digits = line.split()[-1]
    return line.removesuffix(digits) + digits[: 2 * place] + octet + digits[2 * place + 2 :]


def with_stamp(line: str, nanos: int) -> str:
    """A Sync at so many nanoseconds."""
    seconds, rest = divmod(nanos, SECOND)
    return line[:-20] + f"{seconds:012x}{rest:08x}"


def processor_time(capacity: int, report: list[str]) -> float:
    """The least processor time that an audit took of three, in seconds."""
    took = []
    for _ in range(3):
        before = resource.getrusage(resource.RUSAGE_CHILDREN).ru_utime
        audit(capacity, report)
        took.append(resource.getrusage(resource.RUSAGE_CHILDREN).ru_utime - before)
    return min(took)


def counted(report: list[str]) -> tuple[int, int]:
    """How many grants and timing messages the lines tell."""
    sent = [bytes.fromhex(it.split()[-1]) for it in report if it.split()[1] == "send" and it.split()[-1] != "-"]
    types = [ptp.read_message(it).type for it in sent]
    return sum(it.split()[1] == "granted" for it in report), sum(it in ptp.KINDS for it in types)


@wants_program
class Audits(unittest.TestCase):
    def answers(self, capacity: int, report: list[str], answer: str) -> None:
        status = YES if answer.startswith("yes") else NO
        self.assertEqual(audit(capacity, report), (f"{answer}\n", status))

    def test_worked_scripts(self) -> None:
        for name, (capacity, grants, sent, script) in WORKED.items():
            with self.subTest(name):
                self.answers(capacity, report_of(script), f"yes grants {grants} sent {sent}")

    def test_an_octet_of_a_reply(self) -> None:
        """Another messageType in the first answer of a group, which begins at the line that is named."""
        for name, (capacity, _, _, script) in WORKED.items():
            report = report_of(script)
            at = next(it for it, line in enumerate(report) if is_reply(line))
            group = report[at].split()[0]
            first = next(it for it, line in enumerate(report) if line.split()[0] == group)
            octet = int(report[at].split()[-1][96:98], 16) ^ 0x40
            with self.subTest(name):
                changed = [*report[:at], with_octet(report[at], 48, f"{octet:02x}"), *report[at + 1 :]]
                self.answers(capacity, changed, f"no {first + 1} reply")

    def test_a_nanosecond_of_a_message(self) -> None:
        granted, reply, sync, end = report_of(ONE_SYNC)
        for nanos, answer in {
            SECOND - 1: "no 3 early",
            SECOND: "yes grants 1 sent 1",
            300 * SECOND - 1: "yes grants 1 sent 1",
            300 * SECOND: "no 3 grant",
            2**62 - 1: "no 3 grant",
            2**62: "no 3 stamp",
        }.items():
            with self.subTest(nanos):
                self.answers(16, [granted, reply, with_stamp(sync, nanos), end], answer)
        for digits, answer in {"3b9ac9ff": "yes grants 1 sent 1", "3b9aca00": "no 3 stamp"}.items():
            with self.subTest(digits):
                self.answers(16, [granted, reply, f"{with_stamp(sync, SECOND)[:-8]}{digits}", end], answer)

    def test_a_second_of_a_duration(self) -> None:
        granted, reply, end = report_of([gm(16), asks(0, A, SYNC_0)])
        longer = granted.replace("300000000000", "301000000000")
        longer_reply = with_octet(reply, 53, "2d")
        self.answers(16, [granted, reply, end], "yes grants 1 sent 0")
        self.answers(16, [longer, reply, end], "no 1 reply")
        self.answers(16, [granted, longer_reply, end], "no 1 reply")
        self.answers(16, [longer, longer_reply, end], "yes grants 1 sent 0")
        self.answers(16, [granted.replace("300000000000", "300000000001"), reply, end], "no 1 reply")

    def test_a_sixteenth_of_a_rate(self) -> None:
        """Of the grants of two clients, of which the second is charged beside the first, and of a change."""
        script = [gm(16), asks(0, A, ANNOUNCE_1), asks(SECOND, B, ANNOUNCE_1)]
        self.answers(15, report_of(script), "no 3 fit")
        self.answers(16, report_of(script), "yes grants 2 sent 0")
        lower = report_of([*script, "capacity 2000000000 10.0.0.1 8"])
        self.answers(16, lower, "yes grants 2 sent 0")
        self.answers(16, [it.replace("10.0.0.1 8 at", "10.0.0.1 7 at") for it in lower], "no 5 over")
        # The CANCEL alone is no reply to a change without sheddings.
        self.answers(16, [it for it in lower if " shed " not in it], "no 5 reply")

    def test_moments_and_identities(self) -> None:
        script = [gm(16), asks(5, A, ANNOUNCE_1), asks(9, B, ANNOUNCE_1), asks(9, A, END_ANNOUNCE)]
        report = report_of(script)
        self.answers(16, report, "yes grants 2 sent 0")
        earlier = [it.replace("cancelled announce at 9", "cancelled announce at 8") for it in report]
        self.answers(16, earlier, "no 5 moment")
        # The acknowledgement's target: another port at the address, the client's own at another address, and both.
        other_port = with_octet(report[5], 43, "02")
        other_ip = report[5].replace("10.0.1.17", "10.0.1.19")
        self.answers(16, [*report[:5], other_port, report[6]], "no 5 shared")
        self.answers(16, [*report[:5], other_ip, report[6]], "yes grants 2 sent 0")

    def test_a_refused_line_behind_a_fault(self) -> None:
        granted, reply, end = report_of([gm(16), asks(0, A, SYNC_0)])
        self.assertEqual(audit(15, [granted, reply, end]), ("no 1 fit\n", NO))
        for line, answer in {"1 nobody": "3 bad order", "3 nobdy": "3 bad form", "2 \t": "3 bad text"}.items():
            with self.subTest(line):
                self.assertEqual(audit(15, [granted, reply, line, end]), (f"{answer}\n", 65))
        self.assertEqual(audit(15, [granted, reply]), ("3 bad end\n", 65))
        self.assertEqual(audit(15, [granted, reply, end, end]), ("4 bad end\n", 65))

    def test_as_fast_beside_many_grants(self) -> None:
        """A list of the live grants that is gone through at each decision takes eight times as long here."""
        renewals = tool("audit-costs").renewals
        few, many = report_of(list(renewals(100, 60))), report_of(list(renewals(2000, 3)))
        self.assertEqual((len(few), len(many)), (24001, 24001))
        self.answers(16777216, many, "yes grants 18000 sent 0")
        self.assertLess(processor_time(16777216, many), 4 * processor_time(16777216, few))

    def sound(self, name: str, report: list[str]) -> None:
        grants, sent = counted(report)
        with self.subTest(name):
            self.answers(CAPACITIES[name], report, f"yes grants {grants} sent {sent}")

    def test_examples(self) -> None:
        for file in sorted(EXAMPLES.glob("*.script")):
            if re.search("^pool ", file.read_text(), re.MULTILINE):
                continue  # a script of pools, which has no report
            self.sound(file.stem, report_of(file.read_text().splitlines()))
        for file in sorted(EXAMPLES.glob("*.report")):
            self.sound(file.stem, file.read_text().splitlines())

    def test_scenarios(self) -> None:
        for name in ("maintenance", "narrow-link", "twenty-slaves"):
            made = run("scenario", EXAMPLES / f"{name}.toml", "--ptpuni", str(program()))
            self.assertEqual(made.stderr, b"")
            self.sound(name, report_of(made.stdout.decode().splitlines()))
