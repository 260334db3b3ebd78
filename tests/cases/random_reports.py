#!/usr/bin/env python3
"""Compares `desk review` with a second reading of the rules (docs/AUDITING.md, docs/MESSAGES.md) on
random rosters, bases and messages.

Which messages a desk holds is what `desk deliver` acknowledges, and whether a grant is needed is
what `desk beyond` finds on each of its hosts; all else of the report is made here. The same sets
each time. `python3 -m tests.cases.random_reports WORDS..` runs another program than build/desk.
"""

import datetime
import json
import os
import random
import sys
import tempfile
from collections.abc import Mapping
from typing import Any

from tests.common import desk

Message = dict[str, Any]
# A duty as a roster has it: held always, or from one day to another.
Entry = str | Mapping[str, str]

SETS = 400
HOSTS = ["db1", "db2"]
DUTIES = ["approve-db", "audit", "cash", "operate-db"]
PEOPLE = ["ann", "bob", "carol", "dave", "eve"]
COMMANDS = ["/bin/", "/bin/ls", "/usr/bin/", "/usr/bin/id", "ALL"]
BASES = [
    "",
    "ann ALL = ALL\n",
    "ann db1 = (root) ALL\n",
    "ALL ALL = (ALL) /bin/ls, /usr/bin/\n",
    "bob db2 = ALL\nann ALL = /bin/, !/bin/ls\n",
]
MIDNIGHT = 1_767_571_200
DAYS = ["20260104", "20260105", "20260106"]


def seconds(text: str) -> int:
    return int(
        datetime.datetime.strptime(text, "%Y%m%d%H%M%SZ")
        .replace(tzinfo=datetime.timezone.utc)
        .timestamp()
    )


def entries(chance: random.Random, duty: str) -> list[Entry]:
    """A duty that is held always, from one day to another, or from two."""
    count = chance.choice([0, 0, 1, 1, 2])
    spans = [
        sorted(chance.sample(DAYS, 2)) if chance.random() < 0.5 else [chance.choice(DAYS)] * 2
        for _ in range(count)
    ]
    return [{"duty": duty, "from": first, "until": last} for first, last in spans] or [duty]


def is_held(entry: Entry, duty: str, at: str) -> bool:
    """Whether the entry of a roster gives the duty on the day of the moment, a text as messages
    have it."""
    if isinstance(entry, str):
        return entry == duty
    return entry["duty"] == duty and entry["from"] <= at[:8] <= entry["until"]


class Roster:
    """People with duties, pairs of duties that conflict, and two ceilings."""

    def __init__(self, chance: random.Random) -> None:
        self.people: dict[str, list[Entry]] = {}
        for person in PEOPLE:
            drawn = set(chance.sample(DUTIES, chance.randint(0, 2))) | (
                {"approve-db"} if chance.random() < 0.6 else set()
            )
            duties = sorted(drawn | ({"operate-db"} if person == "ann" else set()))
            self.people[person] = [entry for duty in duties for entry in entries(chance, duty)]
        pairs = [tuple(chance.sample(DUTIES, 2)) for _ in range(chance.choice([0, 0, 1, 2]))]
        self.conflicts = list(dict.fromkeys(pairs))
        self.needs = {"db-pair": chance.randint(1, 3), "db-root": chance.randint(1, 2)}

    def text(self) -> str:
        ceilings = [
            desk.ceiling(
                name, needs=needs, hosts=HOSTS[: 2 if name == "db-root" else 1], longest=72000
            )
            for name, needs in self.needs.items()
        ]
        return desk.roster(self.people, ceilings, DUTIES, HOSTS, conflicts=self.conflicts)

    def conflict(self, one: str, other: str) -> bool:
        return (one, other) in self.conflicts or (other, one) in self.conflicts

    def duties(self, person: str, at: str) -> set[str]:
        """The duties that the person holds at the moment."""
        return {
            duty
            for duty in DUTIES
            if any(is_held(entry, duty, at) for entry in self.people[person])
        }

    def bar(self, person: str, asker: str, at: str) -> str | None:
        """Why the person's approval at the moment does not count, or None."""
        duties = self.duties(person, at)
        if person == asker:
            return "asker"
        if "approve-db" not in duties:
            return "duty"
        return "conflict" if any(self.conflict("approve-db", duty) for duty in duties) else None

    def may_revoke(self, person: str, asker: str, at: str) -> bool:
        return person == asker or "approve-db" in self.duties(person, at)


def message(chance: random.Random) -> Message:
    """A request, or a verdict on one."""

    def moment(low: int, high: int) -> str:
        return desk.stamp(MIDNIGHT + chance.randint(low, high) * 600)

    if chance.random() < 0.35:
        return {
            "at": moment(0, 3),
            "by": chance.choice(["ann", "ann", "bob", "eve"]),
            "ceiling": chance.choice(["db-pair", "db-root"]),
            "cmnds": sorted(chance.sample(COMMANDS, chance.randint(1, 3))),
            "from": moment(3, 6),
            "hosts": sorted(chance.sample(HOSTS, chance.randint(1, 2))),
            "kind": "request",
            "no": chance.randint(1, 8),
            "runas": "root",
            "until": moment(6, 14),
        }
    return {
        "at": chance.choice([moment(0, 14), moment(0, 14), moment(-2, 0), moment(144, 145)]),
        "by": chance.choice(PEOPLE),
        "kind": chance.choice(["approve"] * 8 + ["refuse", "revoke"]),
        "no": chance.randint(1, 9),
        "of": chance.choice(["ann", "ann", "bob"]),
    }


def window(roster: Roster, request: Message, verdicts: list[Message]) -> tuple[int, int] | None:
    """The first and the last second of the request's window, or None."""
    asker, eligible = request["by"], [
        verdict
        for verdict in verdicts
        if roster.bar(verdict["by"], request["by"], verdict["at"]) is None
    ]
    first: dict[str, float] = {}
    for verdict in eligible:
        if verdict["kind"] == "approve":
            first[verdict["by"]] = min(
                first.get(verdict["by"], float("inf")), seconds(verdict["at"])
            )
    needs = roster.needs[request["ceiling"]]
    if len(first) < needs:
        return None
    complete = sorted(first.values())[needs - 1]
    if any(
        verdict["kind"] == "refuse" and seconds(verdict["at"]) <= complete for verdict in eligible
    ):
        return None
    revoked = [
        seconds(verdict["at"]) - 1
        for verdict in verdicts
        if verdict["kind"] == "revoke" and roster.may_revoke(verdict["by"], asker, verdict["at"])
    ]
    start, end = max(seconds(request["from"]), complete), min([seconds(request["until"]), *revoked])
    return (int(start), int(end)) if start <= end else None


class Folder:
    """Where the files of a run stand."""

    def __init__(self, path: str, roster: str, base: str) -> None:
        self.roster, self.base, self.granted = (
            os.path.join(path, name) for name in ("roster", "base", "granted")
        )
        desk.write(path, "roster", roster)
        desk.write(path, "base", base)

    def run(self, *words: str, given: str = "") -> desk.Run:
        return desk.run([*desk.named(), *words], given)

    def need(self, request: Message, start: int, end: int) -> str:
        """Whether the base allows all that the grant does, by `desk beyond` on each of its
        hosts."""
        found = set()
        for host in request["hosts"]:
            with open(self.granted, "w") as file:
                for command in request["cmnds"]:
                    file.write(
                        f"{request['by']} {host} = ({request['runas']})"
                        f" NOTBEFORE={desk.stamp(start)} NOTAFTER={desk.stamp(end)} {command}\n"
                    )
            ran = self.run(
                "beyond",
                self.granted,
                self.base,
                "--user",
                request["by"],
                "--host",
                host,
                "--runas",
                request["runas"],
            )
            found.add(
                {(0, "none\n"): "none", (2, ""): "many"}.get((ran.returncode, ran.stdout), "some")
            )
        return "needed" if "some" in found else "unknown" if "many" in found else "needless"


def report(folder: Folder, roster: Roster, texts: list[str], at: int) -> list[str]:
    """The report of these texts at the moment."""
    messages = [json.loads(text) for text in texts]
    requests: dict[tuple[str, int], list[Message]] = {}
    for each in messages:
        if each["kind"] == "request":
            requests.setdefault((each["by"], each["no"]), []).append(each)
    live, barred, broad = [], [], []
    for (asker, number), asked in sorted(requests.items()):
        if len(asked) > 1:
            continue
        request, verdicts = asked[0], [
            each for each in messages if each.get("of") == asker and each["no"] == number
        ]
        name = f"{asker:<32} {number:>9}"
        held = window(roster, request, verdicts)
        if held and held[0] <= at <= held[1]:
            live.append(
                f"{name} {request['ceiling']:<32} {desk.stamp(held[0])} {desk.stamp(held[1])}"
                f" {folder.need(request, *held)}"
            )
            broad += [
                f"{name} {command}"
                for command in request["cmnds"]
                if command == "ALL" or command.endswith("/")
            ]
        approvers = sorted({verdict["by"] for verdict in verdicts if verdict["kind"] == "approve"})
        for person in approvers:
            moments = sorted(
                verdict["at"]
                for verdict in verdicts
                if verdict["kind"] == "approve" and verdict["by"] == person
            )
            reasons = [roster.bar(person, asker, moment) for moment in moments]
            barred += [f"{name} {person:<32} {reasons[0]}"] if all(reasons) else []
    pairs = sorted({tuple(sorted(pair)) for pair in roster.conflicts})
    pairs_held = [
        f"{person:<32} {one:<32} {other}"
        for person in sorted(PEOPLE)
        for one, other in pairs
        if {one, other} <= roster.duties(person, desk.stamp(at))
    ]
    parked = sorted(
        text
        for text, each in zip(texts, messages, strict=True)
        if "of" in each and (each["of"], each["no"]) not in requests
    )
    return [
        f"REVIEW {desk.stamp(at)}",
        "LIVE",
        *live,
        "BARRED",
        *barred,
        "CONFLICTS",
        *pairs_held,
        "BROAD",
        *broad,
        "PARKED",
        *parked,
    ]


class Drawn:
    """A random set of messages: the lines that bring it, a moment, and the lines of its report."""

    def __init__(self, folder: Folder, lines: list[str], at: int, wanted: list[str]) -> None:
        self.folder, self.lines, self.at, self.wanted = folder, lines, at, wanted

    def text(self) -> str:
        return "".join(line + "\n" for line in self.wanted)


def draw(path: str, chance: random.Random) -> Drawn:
    """A random set over a random roster and base, whose files it puts at the path."""
    roster = Roster(chance)
    folder = Folder(path, roster.text(), chance.choice(BASES))
    lines = [desk.canonical(message(chance)) for _ in range(chance.randint(0, 40))]
    lines += chance.sample(lines, len(lines) // 4)
    chance.shuffle(lines)
    given = "".join(line + "\n" for line in lines)
    answers = folder.run(
        "deliver", folder.roster, folder.base, "-", "web", given=given
    ).stdout.splitlines()
    held = sorted({line for line, answer in zip(lines, answers, strict=True) if answer == "ack"})
    at = MIDNIGHT + chance.choice([chance.randint(18, 84) * 100, -1, 86_400])
    return Drawn(folder, lines, at, report(folder, roster, held, at))


def compare(path: str, chance: random.Random) -> tuple[bool, int]:
    """Whether the desk's report of a random set is the one that is made here; and how many lines it
    has."""
    drawn = draw(path, chance)
    given = "".join(line + "\n" for line in drawn.lines)
    ran = drawn.folder.run(
        "review", drawn.folder.roster, drawn.folder.base, "-", desk.stamp(drawn.at), given=given
    )
    is_right = ran.returncode == 0 and ran.stdout == drawn.text()
    if not is_right:
        with open(drawn.folder.roster) as roster:
            print(f"{roster.read()}\n{given}\n{ran.stdout}\n{drawn.text()}")
    return is_right, len(drawn.wanted)


def main() -> None:
    chance = random.Random(7)
    with tempfile.TemporaryDirectory() as path:
        compared = [compare(path, chance) for _ in range(SETS)]
    wrong = sum(not is_right for is_right, _ in compared)
    print(
        f"{SETS} reports of {sum(count for _, count in compared)} lines: {wrong} otherwise than"
        " they are made here"
    )
    sys.exit(1 if wrong else 0)


if __name__ == "__main__":
    main()
