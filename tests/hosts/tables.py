#!/usr/bin/env python3
"""Gives desk-host random tables of processes, records, kept lines and files of a desk: whatever
stands there, it answers, in bounded time, and never takes one thing for another. The count is given
(`python3 -m tests.hosts.tables 100000`); the seed is fixed."""

from __future__ import annotations

import json
import os
import random
import sys
import tempfile
from collections.abc import Callable

from steelnewt_host.canaries import Lines
from steelnewt_host.faults import Unclear
from steelnewt_host.kept import lines_of
from steelnewt_host.processes import Process, ancestors, process_of
from steelnewt_host.records import fields_of, question_of, recorded, starts
from steelnewt_host.session import Session
from steelnewt_host.sessions import belongs
from steelnewt_host.settings import Settings
from steelnewt_host.telling import shown
from steelnewt_host.timers import ends_of

PARTS = (
    "7 (sudo) S 1 7 7 34816 7 4194560 1 2 3 4 5 6 7 8 20 0 1 0 4711 1 2".split(" ")
    + "Uid:\t1000\t0\t0\t0 NSpid:\t7 Name:\tx ) ( \n \t - 99999999999999999999 0 Z X".split(" ")
)
FIELDS = "form name cgroup user cwd given_user given_group given_root is_shell command".split()
FIELDS += "runas_user sudoedit cut word word word".split()
TEXTS = ["", "1", "root", "ann", "/usr/bin/id", "/bin/../b", "--", "-u", "a\nb", "=", "\\ ", "é"]


REST = (0, 1, 0, 1, True)  # what a process has beside its numbers and its start


class Fuzz:
    """Random inputs, and what has to hold of each answer."""

    def __init__(self, folder: str) -> None:
        self.rng = random.Random(72)
        self.settings = Settings(run=folder, state=folder)
        self.wrong = 0
        os.makedirs(os.path.join(folder, "starts"))

    def check(self, what: str, is_right: bool, said: object) -> None:
        if not is_right:
            self.wrong += 1
            print(f"{what}: otherwise. {str(said)[:300]!r}")

    def words(self, parts: list[str], most: int) -> str:
        count = self.rng.randrange(most)
        return " ".join(self.rng.choice(parts) for _ in range(count))

    def a_process(self) -> None:
        """A text of /proc gives a process whose numbers stand in it, or none."""
        seen, status = self.words(PARTS, 40), self.words(PARTS, 20).replace(" ", "\n")
        it = process_of(7, seen, status)
        is_right = it is None or str(it.start) in seen and f"Uid:\t{it.user}\t{it.power}" in status
        self.check("a process", is_right, (seen, status, it))

    def a_table(self) -> None:
        """Among processes whose parents may be anything, what belongs to a start is of the table,
        and never this process; nothing of another start of the same number is."""
        rng, count = self.rng, self.rng.randrange(1, 40)
        numbers = rng.sample(range(1, 99), count)
        every = {
            it: Process(it, rng.randrange(5), rng.choice([*numbers, 0]), rng.choice(numbers), *REST)
            for it in numbers
        }
        name = (rng.choice(numbers), rng.randrange(5))
        found = recorded_of(name, every)
        first = every[name[0]]
        self.check("a session", found <= set(every.values()), found)
        self.check("its own start", first.start == name[1] or not found, (name, first))
        self.check("above", len(list(ancestors(first, every))) <= count, first)

    def a_record(self) -> None:
        """A record is a question about a whole path, or it is unclear; it tells one line."""
        rng = self.rng
        held = ["form=1", "name=99999999-7"][: rng.randrange(2, 4)]
        held += [f"{rng.choice(FIELDS)}={rng.choice(TEXTS)}" for _ in range(rng.randrange(14))]
        text = "\0".join([*held, "end=true", ""]).encode()
        is_cut = rng.random() < 0.3
        if is_cut:
            text = text[: rng.randrange(len(text))]
        elif rng.random() < 0.3:
            at = rng.randrange(len(text) + 1)
            text = text[:at] + rng.randbytes(rng.randrange(9)) + text[at + rng.randrange(9) :]
        path = os.path.join(self.settings.run, "starts", "99999999-7")
        with open(path, "wb") as file:
            file.write(text)
        fields_of(text)
        try:
            asked = question_of(path)
            command = asked[asked.index("--") + 1]
            self.check("a question", command == "sudoedit" or command.startswith("/"), asked)
            self.check("a record that was cut off", not is_cut, text)
        except Unclear:
            pass
        it = recorded(path, (99999999, 7), None)
        self.check("a told line", it is not None and "\n" not in shown(str(it)), it)
        # (there is no such process and no such group: it has ended, and is cleared)
        self.check("it has ended", not list(starts(self.settings)), text)

    def a_kept_line(self) -> None:
        """Each kept line is one of JSON, with its moment; what is none is told as lost."""
        line = json.dumps({"form": 1, "at": 7, "name": "7-9", "words": ["id"]}).encode()
        at = self.rng.randrange(len(line))
        cut = line[:at] + self.rng.randbytes(self.rng.randrange(4))
        cut += line[at:][: self.rng.randrange(99)]
        found = list(lines_of(b"\n" + cut + b"\n\n" + line + b"\n", "b"))
        is_right = all(isinstance(it["at"], int) and ("boot" in it or "lost" in it) for it in found)
        self.check("a kept line", is_right and found[-1]["name"] == "7-9", cut)

    def a_file(self) -> None:
        """Random lines of a file give ends that stand in them, and questions about accounts."""
        rng = self.rng
        stamp = f"20{rng.randrange(10, 99)}0105{rng.randrange(10, 24)}0000"
        who = rng.choice(["ann", "bob", "OPS", "!ann"])
        line = f"{who} db1 = (root) NOTAFTER={stamp}Z /usr/bin/id"
        at = rng.choice(["db1", "ALL", "db1, WEB"])
        ends = list(ends_of(line.replace("db1", at), "ann"))
        self.check("an end", len(ends) == (0 if line.startswith("bob") else 1), line)
        odd = "".join(rng.choice("0123456789") for _ in range(14))
        ends = list(ends_of(line.replace(stamp, odd), "ann"))
        self.check("a moment that is none", len(ends) < 2, odd)
        parts = ["ann", "root", "db1", "=", "(root)", "ALL", "!", ",", "User_Alias", "/usr/bin/id"]
        asked = list(Lines(self.words(parts, 12)).questions())
        self.check("a question", all(it.command[0].startswith("/") for it in asked), asked)


def recorded_of(name: tuple[int, int], every: dict[int, Process]) -> set[Process]:
    return belongs(Session(name, "ann", "", None), every)


def main() -> int:
    count = int(sys.argv[1]) if len(sys.argv) > 1 else 2_000
    with tempfile.TemporaryDirectory() as folder:
        fuzz = Fuzz(folder)
        parts: list[Callable[[], None]] = [
            fuzz.a_process,
            fuzz.a_table,
            fuzz.a_record,
            fuzz.a_kept_line,
            fuzz.a_file,
        ]
        for part in parts:
            for _ in range(count):
                part()
    print(f"desk-host's tables: {len(parts)} kinds of {count:,} each, {fuzz.wrong} wrong")
    return 1 if fuzz.wrong else 0


if __name__ == "__main__":
    sys.exit(main())
