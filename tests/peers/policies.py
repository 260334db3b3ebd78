#!/usr/bin/env python3
"""Asks sudo what random policies decide: aliases nested in aliases, with signs at every depth, and
times with offsets from UTC.

Each policy has to pass `visudo -c`. `sudo -l` is asked once about each policy
(tests/common/sudo_peer.py), and for each bound of time at the second before it, at the bound and a
second after it; `desk decide` has to answer as sudo does. It prints what is otherwise, and ends
with the counts; the seed is fixed.
"""

import os
import random
import sys
import tempfile
import time
from collections.abc import Mapping
from typing import NoReturn

from tests.common import desk
from tests.common.random_policies import FILES, HOSTS, TARGETS, USERS, alias_policy
from tests.common.sudo_peer import accepts, allows, clear, enter_namespace, furnish

POLICIES, TIMES = 2000, 200
LAST = 4102444799
NO_OR_ONE: list[list[str]] = [[], [], ["-l"], ["-a"]]


def invocation(rng: random.Random) -> list[str]:
    path = rng.choice(FILES)
    return [
        rng.choice(USERS),
        rng.choice(HOSTS),
        rng.choice(TARGETS),
        "20260105093000Z",
        path,
        *rng.choice(NO_OR_ONE),
    ]


def spelled(rng: random.Random, moment: int) -> str:
    """A spelling of the moment by a clock ahead of UTC or behind it; it may lack seconds or minutes
    where they are zero."""
    offset = rng.choice((0, 1, 59, 60, 330, 720, 845, 1439))
    sign = rng.choice((1, -1))
    text = time.strftime("%Y%m%d%H%M%S", time.gmtime(moment + sign * offset * 60))
    while text.endswith("00") and len(text) > 10 and rng.random() < 0.7:
        text = text[:-2]
    return f"{text}{'+' if sign > 0 else '-'}{offset // 60:02}{offset % 60:02}"


def bound(rng: random.Random) -> int:
    """A moment, often at the end of a day, a month or a year; far enough from 1970 and 2099 that a
    clock beside UTC shows a year of four digits in both."""
    moment = rng.choice(
        (
            rng.randrange(86400 * 2, LAST - 86400 * 2),
            951782400,
            951868800,
            1767225600,
            1767139200 + 86399,
            4107542400 - 86400 * 61,
        )
    )
    return moment - rng.choice((0, moment % 60, moment % 3600))


def dated(rng: random.Random) -> tuple[str, int]:
    """A policy with one bound, and that moment."""
    moment, option = bound(rng), rng.choice(("NOTBEFORE", "NOTAFTER"))
    return f"ann db1 = (root) {option}={spelled(rng, moment)} /srv/bin/ls\n", moment


class Run:
    """The comparison, and its counts."""

    def __init__(self, folder: str, programs: Mapping[str, str], sudoers: str) -> None:
        self.folder, self.programs, self.sudoers = folder, programs, sudoers
        self.asked = self.allowed = self.wrong = 0

    def policy(self, text: str) -> str | None:
        """Puts a policy in place for both, where visudo accepts it."""
        if not accepts(self.programs["visudo"], f"{text!r}", text, self.folder):
            self.wrong += 1
            return None
        desk.write(os.path.dirname(self.sudoers), os.path.basename(self.sudoers), text)
        return desk.write(self.folder, "policy", text)

    def ask(self, path: str, words: list[str], text: str) -> None:
        theirs = allows(self.programs, words)
        answer = desk.run([*desk.PROGRAM, "decide", path, *words[:5], "--", *words[5:]])
        self.asked += 1
        self.allowed += theirs
        if answer.returncode not in (0, 1) or answer.stdout.startswith("allow") != theirs:
            self.wrong += 1
            print(
                f"{text}{' '.join(words)}: sudo {'allows' if theirs else 'denies'}, the desk says"
                f" {(answer.stdout + answer.stderr).strip()}"
            )

    def aliases(self, rng: random.Random) -> None:
        text = alias_policy(rng)
        path = self.policy(text)
        if path:
            self.ask(path, invocation(rng), text)

    def times(self, rng: random.Random) -> None:
        text, moment = dated(rng)
        path = self.policy(text)
        for at in (moment - 1, moment, moment + 1):
            if path:
                self.ask(path, ["ann", "db1", "root", desk.stamp(at), "/srv/bin/ls"], text)


def inside() -> NoReturn:
    programs = {name: desk.tool(name) for name in ("sudo", "visudo", "faketime")}
    rng = random.Random(1)
    with tempfile.TemporaryDirectory() as folder:
        sudoers = furnish(
            folder, sorted({*USERS, *TARGETS}), [it.removeprefix("/srv/") for it in FILES]
        )
        ran = Run(folder, programs, sudoers)
        for _ in range(POLICIES):
            ran.aliases(rng)
        aliases = ran.asked
        for _ in range(TIMES):
            ran.times(rng)
        clear()
    print(
        f"sudo was asked of {aliases} policies with nested aliases and {ran.asked - aliases} times"
        f" of {TIMES} bounds with offsets: {ran.allowed} allowed, {ran.asked - ran.allowed} denied,"
        f" {ran.wrong} otherwise than the desk"
    )
    sys.exit(1 if ran.wrong or aliases < POLICIES else 0)


if __name__ == "__main__":
    if sys.argv[1:] == ["--inside"]:
        inside()
    desk.check_built()
    enter_namespace()
