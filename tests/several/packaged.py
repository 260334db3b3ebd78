"""The packaged relay, which needs no broker: it posts to each desk itself. There are two, with an
outbox each: one is killed again and again, the other is down all the while."""

from __future__ import annotations

import random
import signal
import sqlite3
import time

from steelnewt_client.messages import Request, read
from steelnewt_relay.outbox import Outbox
from tests.several.bench import Bench
from tests.several.nodes import ROOT
from tests.several.programs import Program, wait_until
from tests.several.sites import RELAYS, Post

MESSAGES = 12  # of both, for each time that one is killed
PATIENCE = 600.0  # seconds
SETTINGS = """\
desks = [{desks}]
relay = "{relay}"
roster = "{roster}"
outbox = "{folder}/outbox.db"
"""


class Packaged:
    """A relay of the package: its outbox, and what posts from there."""

    def __init__(self, bench: Bench, relay: str) -> None:
        self.folder = bench.folder / f"packaged-{relay}"
        self.folder.mkdir()
        desks = ", ".join(f'"{it}"' for it in bench.addresses())
        config = self.folder / "relay.toml"
        config.write_text(
            SETTINGS.format(
                desks=desks, relay=relay, roster=bench.files.roster, folder=self.folder
            )
        )
        words = [str(ROOT / "relays" / "desk-relay"), "--config", str(config), "post"]
        log = self.folder / "post.out"
        self.post = bench.started.add(
            Program(f"packaged relay {relay}", [*words, "--every", "0.5"], bench.plain, log)
        )
        self.path = str(self.folder / "outbox.db")
        Outbox(self.path).close()

    def keep(self, posts: list[Post]) -> None:
        """Messages that people confirmed."""
        outbox = Outbox(self.path)
        for post in posts:
            message = read(post.body.decode())
            is_request = isinstance(message, Request)
            of = message.by if isinstance(message, Request) else message.of
            kind = "request" if isinstance(message, Request) else message.kind
            try:
                with outbox.writing(True):
                    outbox.insert(message, kind, of, message.no, None)
            except sqlite3.IntegrityError:
                # (no relay gives a number twice, as the random site does)
                assert is_request
        outbox.close()

    def is_done(self) -> bool:
        """Whether each desk has each of its messages."""
        outbox = Outbox(self.path)
        states = {it.state for it in outbox.find("true")}
        lags = outbox.owed.lags()
        outbox.close()
        return states == {"acked"} and not lags

    def hears(self) -> bool:
        return self.post.hears(signal.SIGTERM)

    def bodies(self) -> set[bytes]:
        outbox = Outbox(self.path)
        found = {it.message.text().encode() for it in outbox.find("true")}
        outbox.close()
        return found


class Relays:
    """One that is killed, and one that is down."""

    def __init__(self, bench: Bench, posts: list[Post]) -> None:
        self.killed, self.down = (Packaged(bench, relay) for relay in RELAYS[:2])
        # (what both had is asked once)
        self.posts = list({post.body: post for post in posts}.values())

    def kill(self, bench: Bench, chance: random.Random) -> None:
        """People confirm words at both; the one posts, and is killed at any moment."""
        half, kills = len(self.posts) // 2, bench.plan.relay_kills
        self.down.keep(self.posts[half:])
        own, each = self.posts[:half], -(-half // kills)
        for number in range(kills):
            self.killed.keep(own[number * each : (number + 1) * each])
            self.killed.post.start()
            time.sleep(chance.uniform(0.2, 2.0))
            self.killed.post.end(signal.SIGKILL)
        bench.tell(f"a packaged relay was killed {kills} times")

    def end(self, bench: Bench) -> set[bytes]:
        """Starts both, and waits until each desk has all that they kept; these messages."""
        for relay in (self.killed, self.down):
            relay.post.start()
        for relay in (self.killed, self.down):
            wait_until("each desk has what a packaged relay kept", relay.is_done, PATIENCE, 0.5)
            # (it may have had nothing left to do, and end before it hears anything)
            wait_until("it hears a signal", relay.hears, PATIENCE, 0.1)
            bench.checks.same("it ends cleanly", relay.post.end(signal.SIGTERM), 0)
        bodies = self.killed.bodies() | self.down.bodies()
        bench.tell(f"{len(bodies)} messages of two packaged relays are at each desk")
        return bodies
