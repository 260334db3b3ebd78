"""Three desks, each behind a door of its own and with a consumer that posts there."""

from __future__ import annotations

import contextlib
import dataclasses
import pathlib
import shutil
import signal
import socket
import subprocess
import sys
import threading
import time

from door.tests.doors import SITE
from steelnewt_door.journal import rows_in
from tests.several.bench import Bench
from tests.several.desks import Consumer, Desk, Files
from tests.several.nodes import ROOT
from tests.several.plan import Plan
from tests.several.programs import Failure, Program, Programs
from tests.several.signed import BASE, ROSTER, People

DOOR = [sys.executable, "-B", str(ROOT / "door" / "desk-door")]
SETTINGS = """\
site = "{site}"
desk = "unix:{desk}"
listen = "unix:{folder}/door.sock"
root = "unix:{folder}/root/desk.sock"
signers = "{folder}/signers"
journal = "{folder}/journal"
answers = "unix:{folder}/answers.sock"
file_key = "{folder}/key"
[doors]
"""


@dataclasses.dataclass(frozen=True)
class Place:
    """Where a consumer posts to: as a desk, by its name and its address."""

    name: str
    address: str


class Door:
    """The door before a desk, however often it is started, and what answers auditors beside it."""

    def __init__(
        self, desk: Desk, folder: pathlib.Path, started: Programs, plain: dict[str, str]
    ) -> None:
        self.desk, self.folder = desk, folder
        self.socket = folder / "door.sock"
        for name, mode in (("root", 0o700), ("journal", 0o700), ("signers", 0o755)):
            (folder / name).mkdir(parents=True, mode=mode)
        self.config = folder / "door.toml"
        self.environment = plain | {"PYTHONPATH": str(ROOT)}
        words = [*DOOR, "--config", str(self.config)]
        parts = self.environment, folder / "door.out"
        self.program = started.add(Program(f"door {desk.name}", [*words, "serve"], *parts))
        answers = [*words, "answer"]
        self.answers = started.add(Program(f"answers {desk.name}", answers, *parts))
        self.lock = threading.Lock()

    @property
    def place(self) -> Place:
        return Place(self.desk.name, f"unix:{self.socket}")

    @property
    def answers_at(self) -> str:
        return f"unix:{self.folder}/answers.sock"

    def configure(self, others: list[Door]) -> None:
        parts = {"site": SITE, "desk": self.desk.socket, "folder": self.folder}
        lines = "".join(f'{it.desk.name} = "{it.answers_at}"\n' for it in others)
        self.config.write_text(SETTINGS.format(**parts) + lines)

    def run(self, *words: str) -> subprocess.CompletedProcess[str]:
        whole = [*DOOR, "--config", str(self.config), *words]
        return subprocess.run(
            whole, env=self.environment, capture_output=True, text=True, check=False
        )

    def is_listening(self, path: pathlib.Path) -> bool:
        with contextlib.suppress(OSError), socket.socket(socket.AF_UNIX) as peer:
            peer.connect(str(path))
            return True
        return False

    def start(self) -> None:
        """Starts it, and again where it ends at once, as a unit with Restart=always does."""
        self.start_one(self.program, self.socket)

    def start_answers(self) -> None:
        if not (self.folder / "key").exists():
            self.run("file-key")
        self.start_one(self.answers, self.folder / "answers.sock")

    def start_one(self, program: Program, path: pathlib.Path) -> None:
        program.start()
        until = time.monotonic() + 180
        while not self.is_listening(path) or not program.is_running():
            if not program.is_running():
                time.sleep(0.3)
                program.start()
            if time.monotonic() > until:
                raise Failure(f"{program.name} does not listen: {program.text()[-500:]}")
            time.sleep(0.05)

    def restart(self, how: signal.Signals, pause: float = 0.5) -> None:
        with self.lock:
            self.program.end(how)
            time.sleep(pause)
            self.start()

    def lose_journal(self) -> None:
        """The disks of the door and of the desk are gone."""
        with self.lock:
            self.program.end(signal.SIGKILL)
            self.answers.end(signal.SIGKILL)
            self.desk.lose_store()
            shutil.rmtree(self.folder / "journal")
            (self.folder / "journal").mkdir(mode=0o700)
            self.start()
            self.start_answers()

    def rows(self) -> list[dict[str, object]]:
        return list(rows_in(str(self.folder / "journal")))


class DoorBench(Bench):
    """The bench of several desks, with a door before each."""

    def __init__(
        self, plan: Plan, seed: int, program: list[str], folder: pathlib.Path, started: Programs
    ) -> None:
        super().__init__(plan, seed, program, folder, started)
        self.files = Files(program, folder, ROSTER, BASE)
        self.people = People(seed)
        self.doors: dict[str, Door] = {}
        self.stolen: set[bytes] = set()  # what somebody took off a desk's queue

    def begin(self, names: list[str], enrolled: list[str]) -> None:
        """Starts desks, doors and consumers, all with one history of signers."""
        self.define(names)
        for name in names:
            folder = self.folder / f"door-{name}"
            self.new_desk(name)
            self.doors[name] = Door(self.desks[name], folder, self.started, self.plain)
        first = self.doors[names[0]]
        self.people.enrol(first.folder / "signers", enrolled)
        for name, door in self.doors.items():
            door.configure([it for it in self.doors.values() if it is not door])
            if door is not first:
                signers = [str(it / "signers") for it in (first.folder, door.folder)]
                shutil.copytree(*signers, dirs_exist_ok=True)
            self.desks[name].start()
            door.start()
            door.start_answers()
            self.consume(name, door.place)

    def consume(self, name: str, place: Place) -> None:
        """Starts the consumer of a desk, which posts there."""
        if name in self.consumers:
            self.consumers[name].program.end(signal.SIGTERM)
        account = self.account(f"desk-{name}")
        consumer = Consumer(place, self.started, account, self.folder)  # type: ignore[arg-type]
        self.consumers[name] = consumer
        consumer.start()

    def publish_as(self, relay: str, bodies: list[bytes]) -> list[str]:
        """What `desk-publish` says of each."""
        words = [sys.executable, "-m", "desk_broker.publish", relay]
        given = b"".join(it + b"\n" for it in bodies)
        ran = subprocess.run(
            words, env=self.account(f"relay-{relay}"), input=given, capture_output=True, check=False
        )
        return ran.stdout.decode().splitlines()
