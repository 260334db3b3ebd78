#!/usr/bin/env python3
"""Cuts random histories, and compares what `desk` answers of what stays with what it answers of the
whole, before and after later messages come.

Each history is cut by the program `trial_cuts` at a random moment, and once more here, from the
definition (a name has ended where each of its requests ends before the moment). Later messages are
random ones, archived verdicts that come again, and requests whose numbers had been used. Then each
host's file after the moment and after later ones has to be the same, and so have the report's lines
of what is in force and of what waits. How often the files would differ had the requests gone as
well is counted beside it, and must not be 0: else the test tries nothing. The same histories each
time. `python3 -m tests.cases.random_cuts CUTS DESK` runs other programs than the one that `rt run`
leaves in crates/trial_cuts, and than build/desk; `COUNT=N` tries so many, on `CORES=N` processors.
"""

import json
import os
import random
import sys
import tempfile
from multiprocessing.pool import ThreadPool
from typing import NamedTuple

from tests.cases.random_reports import BASES, HOSTS, MIDNIGHT, Message, Roster, message
from tests.common import desk

COUNT, CORES = int(os.environ.get("COUNT", "25")), int(os.environ.get("CORES", "1"))
LEFT = os.path.join(desk.ROOT, "crates", "trial_cuts", "out", "trial_cuts")
CUTS, PROGRAM = sys.argv[1:3] if len(sys.argv) > 2 else (LEFT, desk.PROGRAM[0])


def name(line: str) -> tuple[str, int]:
    """The name that the message asks under or is about."""
    it = json.loads(line)
    return it["by" if it["kind"] == "request" else "of"], it["no"]


def is_request(line: str) -> bool:
    return bool(json.loads(line)["kind"] == "request")


def ended(lines: list[str], moment: str) -> set[tuple[str, int]]:
    """The names under which somebody asks, and nobody for an end at the moment or later."""
    asked = [line for line in lines if is_request(line)]
    lasting = {name(line) for line in asked if json.loads(line)["until"] >= moment}
    return {name(line) for line in asked} - lasting


class History:
    """What a desk holds of random messages, a moment, what comes later, and the three sets that are
    compared."""

    def __init__(self, chance: random.Random, answers: "Answers") -> None:
        drawn = [desk.canonical(message(chance)) for _ in range(chance.randint(0, 60))]
        lines = answers.held(drawn)
        lines += chance.sample(lines, len(lines) // 6)
        self.lines = lines
        at = MIDNIGHT + chance.randint(30, 90) * 600 + chance.choice([-1, 0, 0, 1])
        self.moment = desk.stamp(at)
        self.times = [desk.stamp(at + more) for more in (0, 1, 1800, 86_400)]
        over = ended(lines, self.moment)
        self.kept = [line for line in lines if is_request(line) or name(line) not in over]
        self.archived = [line for line in lines if not is_request(line) and name(line) in over]
        self.bare = [line for line in lines if name(line) not in over]
        self.later = self.drawn(chance, at)

    def drawn(self, chance: random.Random, at: int) -> list[str]:
        """Messages that come later: new ones, archived ones, and numbers that are used again."""
        new = [message(chance) for _ in range(chance.randint(0, 20))]
        again = chance.sample(self.archived, chance.randint(0, len(self.archived)))
        asked: list[Message] = [json.loads(line) for line in self.lines if is_request(line)]
        for it in chance.sample(asked, len(asked) // 2):
            begin = at + chance.choice([0, 600])
            new.append({**it, "from": desk.stamp(begin), "until": desk.stamp(begin + 3600)})
        later = [desk.canonical(it) for it in new] + again
        chance.shuffle(later)
        return later


class Answers:
    """What the desk answers of messages."""

    def __init__(self, path: str, program: str, chance: random.Random) -> None:
        self.program = program
        self.roster, self.base = os.path.join(path, "roster"), os.path.join(path, "base")
        desk.write(path, "roster", Roster(chance).text())
        desk.write(path, "base", chance.choice(BASES))

    def held(self, lines: list[str]) -> list[str]:
        """The lines that the desk acknowledges: a line that it refuses is no part of a history."""
        words = [self.program, "deliver", self.roster, self.base, "-", "web"]
        ran = desk.run(words, "".join(line + "\n" for line in lines))
        answers = ran.stdout.splitlines()
        return [line for line, it in zip(lines, answers, strict=True) if it == "ack"]

    def report(self, moment: str, given: str) -> list[str]:
        """The report's lines, but for the approvals that do not count: of what has ended, these
        are in the archive."""
        words = [self.program, "review", self.roster, self.base, "-", moment]
        lines = desk.run(words, given).stdout.splitlines()
        return lines[: lines.index("BARRED")] + lines[lines.index("CONFLICTS") :]

    def of(self, history: History, lines: list[str]) -> list[object]:
        given = "".join(line + "\n" for line in lines)
        found: list[object] = []
        for moment in history.times:
            for host in HOSTS:
                words = ["print", self.roster, self.base, "-", host, "--after", moment]
                ran = desk.run([self.program, *words], given)
                found.append((ran.returncode in (0, 2), ran.stdout))
            found.append(self.report(moment, given))
        return found


def is_cut_right(cuts: str, history: History) -> bool:
    """Whether the program cuts as the definition says."""
    given = "".join(line + "\n" for line in [history.moment, *history.lines])
    wanted = "".join(line + "\n" for line in [*history.kept, "%%", *history.archived])
    ran = desk.run([cuts], given)
    return ran.returncode == 0 and ran.stdout == wanted


class Found(NamedTuple):
    """What a history showed: how many of its messages were archived; how often the rest, and the
    rest without the requests, answered otherwise than the whole; and the history, where the rest
    did."""

    archived: int
    wrong: int
    bare: int
    said: str


def tried(number: int) -> Found:
    """What the history of this number shows."""
    chance = random.Random(f"a history that is cut, {number}")
    wrong = bare = 0
    said = ""
    with tempfile.TemporaryDirectory(dir=desk.MEMORY) as path:
        answers = Answers(path, PROGRAM, chance)
        history = History(chance, answers)
        is_right = is_cut_right(CUTS, history)
        for later in ([], history.later):
            whole = answers.of(history, history.lines + later)
            if not is_right or answers.of(history, history.kept + later) != whole:
                wrong += 1
                said += "\n".join([history.moment, *history.lines, "%%", *later, ""])
            bare += answers.of(history, history.bare + later) != whole
    return Found(len(history.archived), wrong, bare, said)


def main() -> None:
    with ThreadPool(CORES) as pool:
        found = pool.map(tried, range(COUNT))
    archived, wrong, bare = (sum(it[place] for it in found) for place in range(3))
    print("".join(it.said for it in found), end="")
    print(
        f"{COUNT} histories, {archived} messages archived: {wrong} times otherwise than the whole;"
        f" without the requests {bare} times"
    )
    sys.exit(1 if wrong or not bare else 0)


if __name__ == "__main__":
    main()
