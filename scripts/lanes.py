"""Runs the parts of the gate side by side, each within its time, and tells what became of each.

A part is the words of one command. Each runs apart (apart.py), with a folder for temporary files
and a log of its own. As many run at once as there are lanes; those that take longest begin first.
One that measures time runs alone. What they print is shown in the order of the table, as if they
had run one after another, and between it how far the run is. A part passes where its command ended
with 0 within its time, and in no other way.
"""

from __future__ import annotations

import enum
import functools
import math
import os
import re
import shlex
import shutil
import subprocess
import sys
import tempfile
import time
from collections.abc import Callable, Collection, Iterable, Mapping, Sequence
from typing import NamedTuple

import repository

APART = os.path.join(repository.ROOT, "scripts", "apart.py")
# A part may take this many times the minutes that it took on the machine of the table, and so many
# minutes in any case: then it hangs.
TIMES, LEAST = 5.0, 10.0
# the status of one that hung (apart.py)
TIME_IS_UP = 124
PAUSE = 0.1
# What is shown once more of a part that failed: lines that say so, and the last ones.
TELLING = re.compile(r": otherwise|FAILED|Error|NOT REFUSED|NOT TRIED|BAD EDIT|no end after")
SHOWN, COLUMNS = 6, 300


class Outcome(enum.Enum):
    PASSED = "passed"
    FAILED = "FAILED"
    LEFT_OUT = "LEFT OUT"
    NOT_RUN = "NOT RUN"

    @property
    def is_bad(self) -> bool:
        return self in (Outcome.FAILED, Outcome.NOT_RUN)


class Part(NamedTuple):
    """A part: its name, its command as a shell has it, and what it needs: programs and `root`."""

    name: str
    command: str
    needs: str = ""
    # what it took by itself on the machine of docs/change/GATE.md; and how many lanes it fills
    minutes: float = 1.0
    cores: int = 1
    # whether nothing may run beside it, since it measures time
    alone: bool = False
    # the part whose result it reads
    after: str = ""

    @property
    def group(self) -> str:
        return self.name.partition("/")[0]

    @property
    def limit(self) -> float:
        """The minutes after which it hangs."""
        return max(TIMES * self.minutes, LEAST)


class Result(NamedTuple):
    part: Part
    outcome: Outcome
    minutes: float = 0.0
    # processor minutes, of all that it waited for
    processor: float = 0.0
    why: str = ""


class Run(NamedTuple):
    """A part that runs."""

    process: subprocess.Popen[bytes]
    begun: float
    folder: str


@functools.cache
def lacking(part: Part) -> str:
    """What the part needs and this machine lacks, for a person; nothing where all is there."""
    lacks = []
    for need in part.needs.split():
        if need == "root":
            lacks += ["root's rights"] if os.geteuid() != 0 else []
        elif shutil.which(need) is None:
            lacks.append(f"the program {need}")
    return ", ".join(lacks)


def log_of(logs: str, part: Part) -> str:
    """The path of a part's log, in the folder of the logs."""
    return os.path.join(logs, part.name.replace("/", "-") + ".log")


class Lanes:
    """Parts that run side by side; `run` gives their results, in the order of the parts."""

    def __init__(
        self,
        parts: Sequence[Part],
        lanes: int,
        logs: str,
        *,
        whole: bool = False,
        known: Mapping[str, float] | None = None,
        say: Callable[[str], object] | None = None,
        before: int = 0,
        behind: Sequence[Part] = (),
    ) -> None:
        """`logs` is the folder of the parts' logs. With `whole`, a part that lacks something fails.
        `known` has the minutes that parts last took on this machine. So many parts ended `before`,
        and those `behind` are run later."""
        self.parts, self.lanes, self.logs, self.whole = parts, lanes, logs, whole
        self.by_name = {it.name: it for it in parts}
        self.known = {it.name: (known or {}).get(it.name, it.minutes) for it in (*parts, *behind)}
        self.say, self.before, self.behind = say or write, before, behind
        self.waiting = sorted(parts, key=lambda it: (it.alone, -self.known[it.name]))
        self.running: dict[str, Run] = {}
        self.results: dict[str, Result] = {}
        self.shown: dict[str, int] = {}

    def run(self) -> list[Result]:
        os.makedirs(self.logs, exist_ok=True)
        # (short: a socket below it has 107 bytes for its whole path)
        self.room = tempfile.mkdtemp(prefix="g", dir="/tmp")
        os.chmod(self.room, 0o755)
        try:
            while self.waiting or self.running:
                self.start()
                self.show()
                time.sleep(PAUSE)
                self.collect()
            self.show()
        finally:
            for run in self.running.values():
                run.process.terminate()
            for run in self.running.values():
                run.process.wait()
            shutil.rmtree(self.room, ignore_errors=True)
        return [self.results[it.name] for it in self.parts]

    # ---- which part is next

    def start(self) -> None:
        """Starts what can run now, and settles what cannot run at all."""
        while self.starts_one():
            pass
        if not self.running:
            for part in list(self.waiting):
                self.settle(Result(part, Outcome.NOT_RUN, why=f"{part.after} never ends"))

    def starts_one(self) -> bool:
        """Whether a part that waited now runs or is settled. A long part that fills two lanes waits
        for them: a shorter one passes it only where it should end before they are free."""
        free_in = math.inf
        for part in list(self.waiting):
            before = self.results.get(part.after)
            if before is None and any(it.name == part.after for it in self.parts):
                continue
            lacks = lacking(part)
            if before is not None and before.outcome is not Outcome.PASSED:
                why = f"{part.after} is {before.outcome.value}"
                self.settle(Result(part, Outcome.NOT_RUN, why=why))
            elif lacks:
                outcome = Outcome.FAILED if self.whole else Outcome.LEFT_OUT
                self.settle(Result(part, outcome, why=f"this machine lacks {lacks}"))
            elif self.has_room(part) and self.known[part.name] <= free_in:
                self.begin(part)
            else:
                free_in = min(free_in, self.room_in(part))
                continue
            return True
        return False

    def room_in(self, part: Part) -> float:
        """About the minutes until the lanes that the part fills are free, by what each part that
        runs last took."""
        free = self.lanes - self.used()
        for name in sorted(self.running, key=self.rest):
            free += self.fills(self.by_name[name])
            if free >= self.fills(part):
                return self.rest(name)
        return 0.0

    def rest(self, name: str) -> float:
        """About the minutes that a part that runs still takes. One that is late takes some more,
        the more the later it is: so short parts may pass while it goes on."""
        lasted = (time.monotonic() - self.running[name].begun) / 60
        return max(self.known[name] - lasted, lasted / 4)

    def fills(self, part: Part) -> int:
        return min(part.cores, self.lanes)

    def used(self) -> int:
        """How many lanes are full."""
        return sum(self.fills(self.by_name[name]) for name in self.running)

    def has_room(self, part: Part) -> bool:
        if any(self.by_name[name].alone for name in self.running):
            return False
        if part.alone:
            return not self.running and all(it.alone for it in self.waiting)
        return self.used() + self.fills(part) <= self.lanes

    def begin(self, part: Part) -> None:
        self.waiting.remove(part)
        folder = os.path.join(self.room, str(len(self.results) + len(self.running)))
        os.mkdir(folder)
        # (accounts that are nobody's have files there too)
        os.chmod(folder, 0o1777)
        cores = self.lanes if part.alone else self.fills(part)
        apart = [sys.executable, "-I", "-S", APART]
        words = [*apart, "--minutes", f"{part.limit:g}", "--folder", folder]
        with open(log_of(self.logs, part), "wb") as log:
            process = subprocess.Popen(
                [*words, *shlex.split(part.command)],
                stdin=subprocess.DEVNULL,
                stdout=log,
                stderr=subprocess.STDOUT,
                env=dict(os.environ, CORES=str(cores)),
            )
        self.running[part.name] = Run(process, time.monotonic(), folder)

    # ---- what became of it

    def collect(self) -> None:
        for part in self.parts:
            run = self.running.get(part.name)
            if run is None:
                continue
            pid, status, usage = os.wait4(run.process.pid, os.WNOHANG)
            if pid == 0:
                continue
            run.process.returncode = os.waitstatus_to_exitcode(status)
            del self.running[part.name]
            shutil.rmtree(run.folder, ignore_errors=True)
            minutes = (time.monotonic() - run.begun) / 60
            processor = (usage.ru_utime + usage.ru_stime) / 60
            outcome = Outcome.FAILED if status else Outcome.PASSED
            why = f"status {run.process.returncode}" if status else ""
            self.settle(Result(part, outcome, minutes, processor, why))

    def settle(self, result: Result) -> None:
        """Keeps a part's result, and says how far the run is."""
        if result.part in self.waiting:
            self.waiting.remove(result.part)
        self.results[result.part.name] = result
        done = self.before + len(self.results)
        took = f" in {result.minutes:.1f} minutes" if result.minutes else ""
        line = f"({done} of {self.before + len(self.parts) + len(self.behind)}"
        line += f": {result.part.name} {result.outcome.value}{took}"
        if self.running or self.waiting or self.behind:
            line += f"; some {self.left():.0f} minutes to go"
        self.say(f"{line})\n")

    def left(self) -> float:
        """About how many minutes the rest takes, by what each part last took."""
        rest = {it.name: self.known[it.name] for it in (*self.waiting, *self.behind)}
        rest |= {name: self.rest(name) for name in self.running}
        parts = [it for it in (*self.parts, *self.behind) if it.name in rest]
        alone = sum(rest[it.name] for it in parts if it.alone)
        side = [(rest[it.name], self.fills(it)) for it in parts if not it.alone]
        work = sum(minutes * cores for minutes, cores in side) / self.lanes
        return alone + max([work, *(minutes for minutes, _ in side)])

    # ---- what is shown

    def show(self) -> None:
        """Shows the logs in the order of the parts: of each that has ended, up to the first that
        has not, whose lines are shown as they come."""
        for part in self.parts:
            if part.name not in self.shown:
                if part.name in self.running or part.name in self.results:
                    self.say(f"== {part.name}\n")
                    self.shown[part.name] = 0
            has_ended = part.name in self.results
            if part.name in self.shown:
                self.show_more(part, has_ended)
            if not has_ended:
                return

    def show_more(self, part: Part, has_ended: bool) -> None:
        result = self.results.get(part.name)
        if result is not None and result.minutes == 0:
            if self.shown[part.name] == 0:
                self.say(f"{part.name}: {result.outcome.value}: {result.why}\n")
                self.shown[part.name] = 1
            return
        with open(log_of(self.logs, part), "rb") as log:
            log.seek(self.shown[part.name])
            more = log.read()
        # (of a line that is being written, nothing)
        more = more if has_ended else more[: more.rfind(b"\n") + 1]
        self.shown[part.name] += len(more)
        if more:
            text = more.decode(errors="replace")
            self.say(text if text.endswith("\n") else text + "\n")


def write(text: str) -> None:
    print(text, end="", flush=True)


# ---- the end


def table(results: Iterable[Result]) -> str:
    """The parts with their minutes."""
    lines = ["| part | minutes | processor minutes | |", "|---|---|---|---|"]
    for part, outcome, minutes, processor, why in results:
        cells = [f"{minutes:.1f}", f"{processor:.1f}"] if minutes else ["", ""]
        told = why if outcome is Outcome.PASSED else f"{outcome.value} ({why})"
        lines.append(f"| {part.name} | {' | '.join(cells)} | {told} |")
    return "\n".join(lines)


def failures(results: Iterable[Result], logs: str) -> str:
    """Each part that did not pass and had to, with its last lines."""
    lines: list[str] = []
    for result in results:
        if result.outcome.is_bad:
            lines.append(f"== {result.outcome.value}: {result.part.name} ({result.why})")
            if result.minutes:
                lines += last_lines(log_of(logs, result.part))
    return "\n".join(lines)


def last_lines(path: str) -> list[str]:
    with open(path, encoding="utf-8", errors="replace") as file:
        said = file.read().splitlines()
    telling = [it for it in said[:-SHOWN] if TELLING.search(it)]
    return [it[:COLUMNS] for it in telling[-SHOWN:] + said[-SHOWN:]]


def minutes_of(results: Iterable[Result]) -> dict[str, float]:
    """What the parts that passed took."""
    return {it.part.name: it.minutes for it in results if it.outcome is Outcome.PASSED}


def chosen(parts: Sequence[Part], names: Collection[str]) -> list[Part]:
    """The parts of these names or groups, with those whose results they read."""
    found = [it for it in parts if it.name in names or it.group in names]
    needed = {it.after for it in found}
    return [it for it in parts if it in found or it.name in needed]
