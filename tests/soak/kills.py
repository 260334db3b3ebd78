#!/usr/bin/env python3
"""The desk, killed (SIGKILL) at random moments over a file of 20,000 messages.

`deliver` is killed 200 times while it takes 200 more messages, in an order by chance: after each,
the file must be whole for Python's `sqlite3`, hold all that it held and a beginning of what was
sent, and nothing else; delivered once more, each line is acknowledged, and the file holds what it
holds after a run that nobody stopped. Half of the moments lie before the first write to the log,
half behind it. So is `deliver --sync twice`, and what that leaves is opened by a desk that syncs
once a commit.

`rebuild` is killed 200 times while it gives the desk another roster: after each, the file is the
desk of the old roster or of the new one, whole, and the same command ends well when it is given
again. Each eighth desk refuses the other roster, and answers questions as a desk does that was made
so: its answers depend on its rows alone, and these are compared each time.

The file is made once, by `sqlite3`, and each run has a copy of it; some run side by side. `python3
-m tests.soak.kills WORDS..` runs another program than build/desk; `--only PART..` before them tries
some of the parts, and RUNS, HELD, SENT and LANES of the environment say how many there are of each.
"""

from __future__ import annotations

import contextlib
import os
import random
import shutil
import signal
import sqlite3
import subprocess
import sys
import tempfile
import threading
import time
from collections import Counter
from collections.abc import Iterator
from concurrent.futures import ThreadPoolExecutor
from typing import NamedTuple, Protocol

from tests.common import desk, store_files
from tests.common.tally import Count, program, try_parts

RUNS = int(os.environ.get("RUNS", "200"))
HELD = int(os.environ.get("HELD", "20000"))
SENT = int(os.environ.get("SENT", "200"))
LANES = int(os.environ.get("LANES", str(max(1, (os.cpu_count() or 2) - 1))))
ASKED = 16  # of so many desks that are found, two are asked; all rows are read of each
PATIENCE = 600  # the seconds after which a run hangs: the machine may be busy
AT = "20260105093000Z"


class Moment(NamedTuple):
    """When a run is killed: so many seconds after its beginning, or after it began to write."""

    is_late: bool
    delay: float


class Killed(NamedTuple):
    was_killed: bool
    before: float
    writing: float


NEVER = Moment(True, PATIENCE)


class Trial:
    """What the parts share: the program, a folder, and a file with many messages."""

    def __init__(self, words: list[str], folder: str) -> None:
        self.words, self.folder = words, folder
        numbers = range(HELD // 2)
        self.held = [make(no) for no in numbers for make in (desk.request, desk.approval)]
        self.whole = os.path.join(folder, "whole.db")
        store_files.make_desk(self.whole, desk.read(desk.ROSTER), self.held)

    def run(
        self, command: str, roster: str, store: str, word: str, lines: list[str]
    ) -> tuple[int, str, str]:
        given = "".join(f"{line}\n" for line in lines)
        words = [*self.words, command, roster, desk.BASE, store, *([word] if word else [])]
        done = desk.run(words, given, PATIENCE)
        return done.returncode, done.stdout, desk.without_names(done.stderr)

    @contextlib.contextmanager
    def copy(self) -> Iterator[str]:
        """A copy of the file of many messages."""
        with tempfile.TemporaryDirectory(dir=self.folder) as folder:
            yield shutil.copy(self.whole, os.path.join(folder, "killed.db"))

    def killed(self, store: str, words: list[str], lines: list[str], moment: Moment) -> Killed:
        """Whether a run was killed at a moment, before its end; when it began to write, and when it
        ended, in seconds."""
        given = "".join(f"{line}\n" for line in lines).encode()
        begun = wrote = time.monotonic()
        with subprocess.Popen(
            [*self.words, *words],
            stdin=subprocess.PIPE,
            stdout=subprocess.DEVNULL,
            stderr=subprocess.DEVNULL,
        ) as process:
            assert process.stdin is not None
            process.stdin.write(given)
            process.stdin.close()
            if moment.is_late:
                while process.poll() is None and not is_written(store + "-wal"):
                    time.sleep(0.001)
                wrote = time.monotonic()
            with contextlib.suppress(subprocess.TimeoutExpired):
                process.wait(moment.delay)
            process.kill()
        ended = time.monotonic()
        return Killed(process.returncode == -signal.SIGKILL, wrote - begun, ended - wrote)


def is_written(log: str) -> bool:
    """Whether something is written to a store's log, behind its head, which is less than a page."""
    with contextlib.suppress(FileNotFoundError):
        return os.path.getsize(log) >= 4_096
    return False


class Kind(Protocol):
    """What is killed: how long its runs take until they write, and write; and a run that is killed
    at a moment, after which the desk is asked. The run's count says whether it was killed in time,
    and names the state that was found."""

    whole: Killed

    def kill(self, count: Count, moment: Moment, is_asked: bool) -> tuple[bool, str]: ...


def refusal(no: int) -> str:
    """A message that the file does not hold yet."""
    return desk.approval(no, kind="refuse")


class Delivering:
    """Deliveries of more messages, in an order by chance, by words with these options."""

    def __init__(self, trial: Trial, *options: str) -> None:
        self.trial, self.options = trial, options
        self.lines = [refusal(no) for no in range(SENT)]
        random.Random(13).shuffle(self.lines)
        with trial.copy() as store:
            self.whole = trial.killed(store, self.words(store), self.lines, NEVER)
            self.wanted = store_files.read(store)

    def words(self, store: str) -> list[str]:
        return ["deliver", desk.ROSTER, desk.BASE, store, "chat", *self.options]

    def kill(self, count: Count, moment: Moment, is_asked: bool) -> tuple[bool, str]:
        with self.trial.copy() as store:
            killed = self.trial.killed(store, self.words(store), self.lines, moment)
            held = store_files.read(store)[1]
            kept = len(held) - len(self.trial.held)
            title = f"a delivery killed with {kept} messages more"
            sent = sorted([*self.trial.held, *self.lines[: max(0, kept)]])
            count.same(title, held == sent, True)
            if is_asked:
                desk_is_there = self.trial.run("review", desk.ROSTER, store, AT, [])[0] == 0
                count.holds(f"{title}, asked", desk_is_there)
            again = self.trial.run("deliver", desk.ROSTER, store, "chat", self.lines)
            count.same(f"{title}, made again", again, (0, "ack\n" * len(self.lines), ""))
            count.same(f"{title}: the rows", store_files.read(store) == self.wanted, True)
        return killed.was_killed, str(kept)


class Rebuilding:
    """Rebuildings with another roster."""

    def __init__(self, trial: Trial) -> None:
        self.trial = trial
        text = desk.read(desk.ROSTER).replace("7200", "7199")
        self.new = desk.write(trial.folder, "new.toml", text)
        with trial.copy() as store:
            self.rows = {desk.ROSTER: self.review(store, desk.ROSTER)}
            self.whole = trial.killed(store, self.words(store), [], NEVER)
            self.wanted = store_files.read(store)
            self.rows[self.new] = self.review(store, self.new)
        if self.rows[self.new] == self.rows[desk.ROSTER]:
            sys.exit("the new roster does not change the report")

    def review(self, store: str, roster: str) -> tuple[int, str, str]:
        return self.trial.run("review", roster, store, AT, [])

    def rebuild(self, store: str) -> tuple[int, str, str]:
        return self.trial.run("rebuild", self.new, store, "", [])

    def words(self, store: str) -> list[str]:
        return ["rebuild", self.new, desk.BASE, store]

    def kill(self, count: Count, moment: Moment, is_asked: bool) -> tuple[bool, str]:
        with self.trial.copy() as store:
            killed = self.trial.killed(store, self.words(store), [], moment)
            [(_, _, text)], held = store_files.read(store)
            names = [self.new, desk.ROSTER]
            roster, other = names if text == desk.read(self.new) else names[::-1]
            count.same("the roster", text, desk.read(roster))
            count.same("the messages", held == sorted(self.trial.held), True)
            if is_asked:
                count.same("by its roster", self.review(store, roster), self.rows[roster])
                refused = self.review(store, other)
                count.same("by the other roster", refused, (2, "", "K1 RosterChanged\n"))
            count.same("made again", self.rebuild(store), (0, "ok\n", ""))
            count.same("the rows", store_files.read(store) == self.wanted, True)
            if is_asked:
                count.same("and asked", self.review(store, self.new), self.rows[self.new])
        return killed.was_killed, os.path.basename(roster)


def kill_all(kind: Kind, name: str) -> Count:
    """Kills RUNS runs, some side by side: half of them before they write, half while they do."""
    whole, killed, states = Count(), 0, Counter[str]()
    chance, lock = random.Random(13), threading.Lock()
    # (the moments stay about the end of a run, however much else the machine does)
    spans = {False: kind.whole.before, True: kind.whole.writing}

    def one(number: int) -> None:
        nonlocal killed
        count, is_late = Count(), number % 2 == 0
        with lock:
            moment = Moment(is_late, chance.uniform(0, spans[is_late]))
        was_killed, state = kind.kill(count, moment, number % ASKED < 2)
        with lock:
            spans[is_late] *= 1.05 if was_killed else 0.9
            killed += was_killed
            states[state] += 1
            whole.tried += count.tried
            whole.wrong += count.wrong

    with ThreadPoolExecutor(LANES) as lanes:
        for done in [lanes.submit(one, number) for number in range(RUNS)]:
            done.result()
    print(f"{name}: {killed} of {RUNS} runs killed, {len(states)} different states found")
    if len(states) < 4:
        print(f"{name}: {dict(states)}")
    sys.stdout.flush()
    whole.holds("at least a third of the runs were killed", killed >= RUNS // 3, killed)
    whole.holds("more than one state was found", len(states) > 1 or RUNS < 10, states)
    return whole


def kill_delivering(trial: Trial) -> Count:
    return kill_all(Delivering(trial), "deliver")


def kill_syncing_twice(trial: Trial) -> Count:
    return kill_all(Delivering(trial, "--sync", "twice"), "deliver --sync twice")


def kill_rebuilding(trial: Trial) -> Count:
    return kill_all(Rebuilding(trial), "rebuild")


PARTS = (kill_delivering, kill_syncing_twice, kill_rebuilding)


def main() -> int:
    parts, words = try_parts(PARTS, sys.argv[1:])
    whole = Count()
    with tempfile.TemporaryDirectory(dir=desk.MEMORY) as folder:
        trial = Trial(program(words) or desk.PROGRAM, folder)
        for part in parts:
            begun = time.monotonic()
            try:
                count = part(trial)
                whole.tried, whole.wrong = whole.tried + count.tried, whole.wrong + count.wrong
            except (OSError, sqlite3.Error, subprocess.SubprocessError) as error:
                whole.holds(part.__name__, False, repr(error))
            print(f"{part.__name__}: {time.monotonic() - begun:.0f} seconds", flush=True)
    print(
        f"{whole.tried} things were tried with a desk that is killed:"
        f" {whole.wrong} went otherwise"
    )
    return 1 if whole.wrong else 0


if __name__ == "__main__":
    sys.exit(main())
