"""Grandmasters that run and are spoken to, in the network namespace in which this is started: SCENE FOLDER PROGRAM.

It writes what was seen, as one object of JSON. The scenes are the functions that have a name of SCENES.
"""

from __future__ import annotations

import json
import os
import re
import selectors
import shlex
import socket
import subprocess
import sys
import time
from collections.abc import Callable
from pathlib import Path
from typing import Any

import ptp
from support import TOOLS, signaling

PACKAGING = TOOLS.parent / "packaging"
KEY, CONTROL = "0f1e2d3c4b5a6978", 21321
SECONDS = 60
SYNC, ANNOUNCE = 0, 11
LOOPBACK, SECOND_MASTER, SLAVE = "127.0.0.1", "127.0.0.3", "127.0.0.2"
GM = """
ip = "{ip}"
clock = "00b0aefffe00000{last}"
capacity = {capacity}
class = {level}
rounds = 4294967295
control_port = {control}
control_key = "{key}"
"""
SETTINGS_OF_SLAVE = f"""
ip = "{SLAVE}"
clock = "00b0aefffe000010"
rounds = 4294967295
wait_to_restore = 0
log_announce = 0
log_sync = 0
log_delay = 0

[[masters]]
ip = "{LOOPBACK}"

[[masters]]
ip = "{SECOND_MASTER}"
"""


def wait_for(holds: Callable[[], Any]) -> Any:
    """What holds, as soon as it does; an error where it does not within a minute."""
    end = time.monotonic() + SECONDS
    while not (held := holds()):
        if time.monotonic() > end:
            raise TimeoutError(holds.__name__)
        time.sleep(0.02)
    return held


class Grandmaster:
    """A `serve` with a control port."""

    def __init__(self, folder: Path, program: str, ip: str, capacity: int, control: int = CONTROL) -> None:
        self.file = folder / f"{ip}.toml"
        self.given = {"ip": ip, "last": ip[-1], "control": control, "key": KEY, "capacity": capacity, "level": 84}
        self.write()
        self.out = folder / f"{ip}.out"
        self.program, self.control = program, control
        self.answers = socket.socket(socket.AF_INET, socket.SOCK_DGRAM)
        self.answers.bind((LOOPBACK, control + 1))
        self.answers.settimeout(1)

    def write(self, **changed: int) -> None:
        self.file.write_text(GM.format(**(self.given | changed)))

    def begin(self, words: list[str]) -> None:
        with self.out.open("wb") as out:
            self.process = subprocess.Popen(words, stdin=self.file.open(), stdout=out, stderr=subprocess.STDOUT)
        wait_for(self.status)

    def serve(self) -> None:
        self.begin([self.program, "serve"])

    def say(self, command: str) -> str:
        """The answer to a command, or nothing where there is none within a second."""
        self.answers.sendto(f"{KEY} {command}".encode(), (LOOPBACK, self.control))
        try:
            return self.answers.recv(2048).decode()
        except (TimeoutError, ConnectionRefusedError):
            return ""

    def status(self) -> dict[str, int]:
        said = self.say("status").splitlines()[1:]
        return {name: int(value) for name, value in map(str.split, said)}

    def stop(self) -> tuple[str, int, str]:
        said = self.say("stop")
        return said, self.process.wait(SECONDS), self.out.read_text()


def class_and_slave(folder: Path, program: str) -> dict[str, Any]:
    """A slave with two masters, the first of which is told to announce class 110, and then 84 again."""
    first = Grandmaster(folder, program, LOOPBACK, 640)
    second = Grandmaster(folder, program, SECOND_MASTER, 640, CONTROL + 2)
    for it in (first, second):
        it.serve()
    (folder / "slave.toml").write_text(SETTINGS_OF_SLAVE)
    out = folder / "slave.out"
    with out.open("wb") as chosen:
        slave = subprocess.Popen([program, "slave"], stdin=(folder / "slave.toml").open(), stdout=chosen)

    def selections() -> list[str]:
        return [line.split()[3] for line in out.read_text().splitlines(keepends=True) if line.endswith("\n")]

    def is_served() -> bool:
        return selections()[-1:] == [LOOPBACK] and all(it.status()["granted"] == 3 for it in (first, second))

    wait_for(is_served)
    begun = len(selections()) - 1  # on a busy machine the second master may have been the first to be there
    before = [it.status() for it in (first, second)]
    answers = [first.say("class 110")]
    wait_for(lambda: selections()[-1:] == [SECOND_MASTER])
    answers.append(first.say("class 84"))
    wait_for(lambda: selections()[-1:] == [LOOPBACK])
    after = [it.status() for it in (first, second)]
    slave.kill()
    slave.wait()
    ends = [it.stop() for it in (first, second)]
    return {"answers": answers, "selections": selections()[begun:], "before": before, "after": after, "ends": ends}


class Clients:
    """Many clients that ask for messages of one kind, one a second, and keep what comes."""

    def __init__(self, count: int) -> None:
        self.ways = selectors.DefaultSelector()
        self.senders: list[socket.socket] = []
        self.heard: list[list[ptp.Message]] = [[] for _ in range(count)]
        for client in range(count):
            for port in (320, 319):
                at = socket.socket(socket.AF_INET, socket.SOCK_DGRAM)
                at.bind((f"127.1.{client // 250}.{client % 250 + 1}", port))
                at.setblocking(False)
                self.ways.register(at, selectors.EVENT_READ, client)
                if port == 320:
                    self.senders.append(at)

    def hear(self, seconds: float) -> None:
        end = time.monotonic() + seconds
        while (left := end - time.monotonic()) > 0:
            for key, _ in self.ways.select(left):
                assert isinstance(key.fileobj, socket.socket)
                self.heard[key.data].append(ptp.read_message(key.fileobj.recv(2048)))

    def ask(self, client: int, code: int) -> int:
        """For how many seconds a client is granted messages of this kind."""
        request = f"00040006{code << 4:02x}00{SECONDS:08x}"
        octets = signaling(f"00b0aefffe1{client:05x}0001", "f" * 20, 1, request)
        self.senders[client].sendto(octets, (LOOPBACK, 320))
        seconds = []

        def answer() -> bool:
            self.hear(0.001)
            seconds.extend(it.seconds for told in self.heard[client] for it in told.tlvs if isinstance(it, ptp.Grant))
            return bool(seconds)

        wait_for(answer)
        return seconds[0]


def lower_capacity(folder: Path, program: str) -> dict[str, Any]:
    """Two hundred clients have a Sync a second each, and a capacity that is lowered is enough for the half of them."""
    count = 200
    gm = Grandmaster(folder, program, LOOPBACK, count * 16)
    gm.serve()
    clients = Clients(count)
    granted = [clients.ask(client, SYNC) for client in range(count)]
    clients.hear(2)
    answer = gm.say(f"capacity {count * 8}")
    clients.hear(4)
    cancelled, stamps, behind = [], [], []
    for heard in clients.heard:
        places = [place for place, it in enumerate(heard) if any(isinstance(tlv, ptp.Cancel) for tlv in it.tlvs)]
        cancelled.append(len(places))
        syncs = [it for it in heard if it.type == SYNC]
        stamps.append([(it.sequence, it.stamp[0] * ptp.SECOND + it.stamp[1]) for it in syncs if it.stamp])
        behind.append(sum(it.type == SYNC for it in heard[places[0] :]) if places else 0)
    status, end = gm.status(), gm.stop()
    return {
        "granted": granted,
        "answer": answer,
        "cancelled": cancelled,
        "behind": behind,
        "syncs": stamps,
        "status": status,
        "end": end,
    }


def unit(folder: Path, program: str) -> dict[str, Any]:
    """What the unit runs for a start, a reload and a stop, with one client that hears Announces."""
    said = (PACKAGING / "ptpuni.service").read_text()
    gm = Grandmaster(folder, program, LOOPBACK, 640)

    def words(key: str) -> list[str]:
        found = re.search(rf"^{key}=-?(.*)$", said, re.M)
        assert found
        line = re.sub(r"/usr/local/(?:lib/ptpuni|bin)/", f"{PACKAGING}/", found[1])
        return shlex.split(line.replace("/etc/ptpuni/serve.toml", str(gm.file)))

    def run(key: str) -> list[Any]:
        # (the unit's commands speak from the port at which the answers come, so it has to be free)
        gm.answers.close()
        env = os.environ | {"MAINPID": str(gm.process.pid)}
        ran = subprocess.run(words(key), env=env, capture_output=True, text=True, timeout=SECONDS)
        return [ran.returncode, ran.stdout, ran.stderr]

    os.environ["PTPUNI_PROGRAM"] = program
    gm.begin(words("ExecStart"))
    clients = Clients(1)
    granted = clients.ask(0, ANNOUNCE)
    clients.hear(1.5)
    gm.write(level=110, capacity=320)
    reloaded = run("ExecReload")
    clients.hear(2.5)
    stopped = run("ExecStop")
    # (where ExecStop has ended the launcher has, too: systemd would end what is left)
    ended = gm.process.poll()
    classes = [it.clock_class for it in clients.heard[0] if it.type == ANNOUNCE]
    return {
        "granted": granted,
        "reloaded": reloaded,
        "stopped": stopped,
        "ended": ended,
        "classes": classes,
        "out": gm.out.read_text(),
    }


SCENES = {it.__name__: it for it in (class_and_slave, lower_capacity, unit)}


def main() -> None:
    scene, folder, program = sys.argv[1:]
    subprocess.run(["ip", "link", "set", "lo", "up"], check=True)
    print(json.dumps(SCENES[scene](Path(folder), program)))


main()
