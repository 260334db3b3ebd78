#!/usr/bin/env python3
"""Random lives of sites: three desks, which lag, answer nothing, come back from a backup, keep no
history, or are cut, and five hosts, which fetch, and are killed at any moment. A site's roster and
base change, also back to what they were. After each fetch a host's file is none that a newer sound
answer had ended, and once all desks answer and are level, each host has the newest file.

As root: `python3 -m tests.hosts.lives 300`. The fetch is the host's own, but for the questions and
visudo, which stand here; where a fetch is killed, it is a process of its own that ends there."""

from __future__ import annotations

import contextlib
import dataclasses
import io
import os
import random
import signal
import sys
import tempfile
from collections.abc import Callable, Iterator
from typing import Any
from unittest import mock

from steelnewt_host import answers, fetching, place
from steelnewt_host.asking import Reply
from steelnewt_host.faults import Fault
from steelnewt_host.settings import Settings
from tests.common.replies import digest

BASES = [b"", b"dba ALL = (root) !/usr/bin/env\n", b"dba ALL = (root) /usr/bin/id\n"]
CALLS = ("replace", "rename", "unlink", "fsync", "fchmod", "utime")  # where a fetch is killed
STEPS = 60
OLD = 1000  # messages that give nothing any more


@dataclasses.dataclass
class Site:
    """What a site was and is: its rosters and bases, and its messages, which give and take."""

    states: list[tuple[str, int]]
    messages: list[tuple[str, int]] = dataclasses.field(default_factory=list)

    def grants(self, seen: int) -> list[int]:
        """What the first messages give."""
        held: list[int] = []
        for kind, number in self.messages[:seen]:
            held = [*held, number] if kind == "give" else [it for it in held if it != number]
        return held


@dataclasses.dataclass
class Desk:
    """A desk: how many messages it holds, and up to which state it has come."""

    site: Site
    seen: int = 0
    state: int = 0
    is_up: bool = True
    has_history: bool = True
    cuts: list[tuple[int, int]] = dataclasses.field(default_factory=list)

    @property
    def archived(self) -> int:
        return self.cuts[-1][1] if self.cuts else 0

    def history(self, states: list[tuple[str, str]]) -> Iterator[str]:
        """A line for each state, and for each cut, from which on they say what was taken out."""
        archived = 0
        for at, (roster, base) in enumerate(states[: self.state + 1]):
            for out in (archived, *(it[1] for it in self.cuts if it[0] == at)):
                archived, cut = out, f"cut 20251101000000Z {out} " if out else ""
                yield f"{20260101000000 + at}Z {cut}{roster} {base}\n"

    def file(self) -> bytes:
        lines = [f"ann db1 = (root) /usr/bin/g{it}\n" for it in self.site.grants(self.seen)]
        return BASES[self.site.states[self.state][1]] + "".join(lines).encode()

    def reply(self, route: str) -> Reply:
        if not self.is_up:
            raise Fault("it is away")
        states = [(it[0] * 64, digest(BASES[it[1]])) for it in self.site.states]
        if route == "/v1/history":
            if not self.has_history:
                return Reply(404, b"T3 NoRoute", "")
            return Reply(200, "".join(self.history(states)).encode(), "")
        roster, base = states[self.state]
        held = OLD + self.seen - self.archived
        return Reply(200, f"{held} {roster} {base}\n".encode() + self.file(), "")


@dataclasses.dataclass
class Host:
    """A host, and the newest that it was told and took: how far the desk was."""

    folder: str
    newest: tuple[int, int] = (-1, -1)
    ended: set[bytes] = dataclasses.field(default_factory=set)

    @property
    def settings(self) -> Settings:
        file, state = (os.path.join(self.folder, it) for it in ("sudoers", "state"))
        return Settings(("0", "1", "2"), file=file, state=state, run=state)

    def held(self) -> bytes | None:
        if not os.path.exists(self.settings.file):
            return None
        with open(self.settings.file, "rb") as file:
            return file.read()


class Life:
    """One site's life."""

    def __init__(self, rng: random.Random, folder: str) -> None:
        self.rng, self.said, self.is_taken = rng, "", False
        self.site = Site([("a", 0)])
        self.desks = [Desk(self.site, has_history=rng.random() < 0.5) for _ in range(3)]
        self.hosts = [Host(os.path.join(folder, f"host{at}")) for at in range(5)]
        self.backups = {at: Desk(self.site) for at in range(3)}
        self.wrong: list[str] = []
        self.kills = 0
        for host in self.hosts:
            os.mkdir(host.folder)

    def ask(self, _: Settings, desk: str, route: str, *__: int) -> Reply:
        return self.desks[int(desk)].reply(route)

    def step(self) -> None:
        """One thing that happens."""
        at = self.rng.randrange(3)
        desk = self.desks[at]
        what = self.rng.randrange(21)
        if what < 3:
            self.site.messages.append(self.message())
        elif what < 6:
            desk.seen = self.rng.randint(desk.seen, len(self.site.messages))
        elif what == 6:
            roster, base = self.rng.choice("abcd"), self.rng.randrange(3)
            self.site.states += [(roster, base)] if self.site.states[-1] != (roster, base) else []
        elif what == 7:
            desk.state = self.rng.randint(desk.state, len(self.site.states) - 1)
        elif what == 8:
            desk.is_up = not desk.is_up
        elif what == 9:
            self.backups[at] = dataclasses.replace(desk, cuts=[*desk.cuts])
        elif what == 10:
            held = self.backups[at]
            desk.seen, desk.state, desk.cuts = held.seen, held.state, [*held.cuts]
        elif what == 11:
            desk.has_history = not desk.has_history
        elif what == 12:
            out = desk.archived + self.rng.choice((200, 300))
            desk.cuts += [(desk.state, out)] if out <= OLD else []
        else:
            self.fetch(self.rng.choice(self.hosts), self.rng.random() < 0.4)

    def message(self) -> tuple[str, int]:
        held = self.site.grants(len(self.site.messages))
        if held and self.rng.random() < 0.5:
            return "take", self.rng.choice(held)
        return "give", len(self.site.messages)

    def fetch(self, host: Host, is_killed: bool) -> None:
        """A fetch, and what has to hold after it."""
        before = host.held()
        self.is_taken = False
        if is_killed:
            self.kills += killed_at(self.rng.randint(1, 40), lambda: self.run(host))
        else:
            self.run(host)
        held = host.held()
        told = [it for it in self.desks if it.is_up and it.file() == held]
        if held is not None and held != before and not told:
            self.wrong.append("a file that no desk gave")
        for line in host.ended:
            if line in (held or b"").splitlines():
                self.wrong.append(f"{line!r} is back")
        if held != before or self.is_taken:
            self.note(host, told, held != before)

    def note(self, host: Host, told: list[Desk], is_another: bool) -> None:
        """What the file of this host has ended: it may not come back. (Where several desks give
        the same file, it counts as that of the last of them.)"""
        reached = [self.reached(it, host) for it in told] or [host.newest]
        if is_another and all(it[0] < host.newest[0] or it[1] < host.newest[1] for it in reached):
            self.wrong.append(f"it went back from {host.newest} to {max(reached)}")
        low = min(reached)
        host.newest = (max(low[0], host.newest[0]), max(low[1], host.newest[1]))
        given = {it for kind, it in self.site.messages[: host.newest[1]] if kind == "give"}
        gone = given - set(self.site.grants(host.newest[1]))
        host.ended = {f"ann db1 = (root) /usr/bin/g{it}".encode() for it in gone}

    def reached(self, desk: Desk, host: Host) -> tuple[int, int]:
        """How far a desk is. (A state that the site went back to is the same as it was before.)"""
        states, last = self.site.states, host.newest[0]
        is_same = last >= 0 and states[desk.state] == states[last]
        return last if is_same else desk.state, desk.seen

    def run(self, host: Host) -> None:
        """A fetch of a host. (Where it is refused by all, a desk whose file is that of the host by
        chance has told it nothing.)"""
        said, self.is_taken = io.StringIO(), False
        with contextlib.redirect_stderr(said), contextlib.suppress(Fault):
            fetching.fetch(host.settings, "db1")
            self.is_taken = True
        self.said = said.getvalue()

    def end(self) -> None:
        """All desks are level and answer: then each host gets the newest file, or says that what
        its history does not show has to be accepted."""
        for desk in self.desks:
            desk.is_up = desk.has_history = True
            desk.seen, desk.state = len(self.site.messages), len(self.site.states) - 1
        for host in self.hosts:
            self.fetch(host, False)
            if host.held() != self.desks[0].file():
                self.wrong.append(f"it does not get the newest: {self.said}")


def killed_at(at: int, work: Callable[[], None]) -> bool:
    """Does it in a process that ends at that call: whether it did."""
    child = os.fork()
    if not child:
        left = [at]

        def counting(real: Callable[..., Any]) -> Callable[..., Any]:
            def call(*words: Any, **named: Any) -> Any:
                left[0] -= 1
                if not left[0]:
                    os.kill(os.getpid(), signal.SIGKILL)
                return real(*words, **named)

            return call

        with contextlib.ExitStack() as stack:
            for name in CALLS:
                stack.enter_context(mock.patch.object(os, name, counting(getattr(os, name))))
            work()
        os._exit(0)
    return os.WIFSIGNALED(os.waitpid(child, 0)[1])


def killed_everywhere() -> tuple[int, int]:
    """One fetch, killed at each of its calls: while one desk has a revocation or another state, and
    one lags, which then is the only one that answers. How often it was killed, and how often the
    host went back."""
    kills, back = 0, 0
    for states in ([("a", 0)], [("a", 0), ("b", 0)], [("a", 0), ("a", 1)], [("a", 0), ("b", 1)]):
        for at in range(1, 99):
            with tempfile.TemporaryDirectory() as folder:
                life = Life(random.Random(0), folder)
                right, lags, other = life.desks
                host, life.site.states[:] = life.hosts[0], states
                life.site.messages += [("give", 1), ("give", 2), ("take", 1)]
                right.is_up = other.is_up = False
                right.has_history = lags.has_history = True
                right.seen, right.state, lags.seen = 3, len(states) - 1, 2
                with mock.patch.object(answers, "ask", life.ask):
                    life.run(host)
                    right.is_up = True
                    if not killed_at(at, lambda: life.run(host)):
                        break
                    kills, stood, right.is_up = kills + 1, host.held(), False
                    life.run(host)
                    back += stood == right.file() != host.held()
    return kills, back


def main() -> int:
    count, wrong, kills = int(sys.argv[1]), 0, 0
    os.umask(0o077)
    with contextlib.ExitStack() as stack:
        for what, name, answer in (
            (fetching, "fit_sudo", lambda: "1.9.13"),
            (place, "visudo", lambda *_: []),
        ):
            stack.enter_context(mock.patch.object(what, name, answer))
        points, back = killed_everywhere()
        print(f"one fetch, killed at {points} calls: went back {back} times", flush=True)
        wrong += back + (points < 60)
        for number in range(count):
            with tempfile.TemporaryDirectory() as folder:
                life = Life(random.Random(number), folder)
                with mock.patch.object(answers, "ask", life.ask):
                    for _ in range(STEPS):
                        life.step()
                    life.end()
            kills += life.kills
            wrong += bool(life.wrong)
            if life.wrong:
                print(f"life {number}: {life.wrong[:3]}", flush=True)
    print(f"{count} lives, {kills} fetches killed, {wrong} wrong")
    return 1 if wrong else 0


if __name__ == "__main__":
    sys.exit(main())
