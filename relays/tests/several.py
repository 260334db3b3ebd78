"""A site with three desks, each with a store of its own, and a relay that posts to all of them."""

import signal
import sqlite3
import subprocess
from contextlib import closing
from pathlib import Path

from relays.tests.site import BASE, DESK, PATIENCE, SETTINGS, Site
from steelnewt_client.desk import Desk

NAMES = ("a", "b", "c")


class Several(Site):
    """Desks by their names; `a` is the first in the settings."""

    def __init__(self, folder: Path) -> None:
        super().__init__(folder)
        self.served: dict[str, subprocess.Popen[str]] = {}
        self.settle(*NAMES)

    def settle(self, *names: str) -> None:
        """The settings, with these desks."""
        listed = ", ".join(f'"{self.address(name)}"' for name in names)
        text = SETTINGS.format(folder=self.folder)
        first = text.partition("\n")[0]
        self.config.write_text(text.replace(first, f"desks = [{listed}]", 1))

    def address(self, name: str) -> str:
        return f"unix:{self.label(name)}"

    def label(self, name: str) -> str:
        """What the relay calls it."""
        return f"{self.folder}/{name}.sock"

    def store_of(self, name: str) -> Path:
        return self.folder / f"{name}.db"

    def serve(self, *names: str, roster: str = "site.roster") -> None:
        for name in names:
            words = [DESK, "serve", str(self.folder / roster), str(BASE)]
            words += [str(self.store_of(name)), self.address(name)]
            desk = subprocess.Popen(words, stdout=subprocess.PIPE, text=True)
            assert desk.stdout
            assert desk.stdout.readline() == f"listening {self.address(name)}\n"
            self.served[name] = desk

    def end(self, *names: str, how: signal.Signals = signal.SIGTERM) -> None:
        for name in names:
            if desk := self.served.pop(name, None):
                desk.send_signal(how)
                desk.wait(timeout=PATIENCE)
                assert desk.stdout
                desk.stdout.close()
                # (a desk that is killed leaves its socket)
                Path(self.label(name)).unlink(missing_ok=True)

    def close(self) -> None:
        self.end_jobs()
        self.end(*NAMES)

    def count(self, name: str) -> int:
        """How many messages a desk has, while it is served."""
        return Desk(self.address(name)).count()[0]

    def held(self, name: str) -> list[str]:
        """The messages of a desk's store."""
        with closing(sqlite3.connect(self.store_of(name))) as base:
            return [row[0] for row in base.execute("SELECT body FROM messages ORDER BY body")]

    def who_lack(self) -> list[str]:
        """The desks that lack a message, each once for each."""
        with closing(sqlite3.connect(self.folder / "outbox.db")) as base:
            rows = "SELECT desk FROM owed ORDER BY message, desk"
            return [desk for (desk,) in base.execute(rows)]
