"""The same change on several desks: all are asked first, and then it is made on each."""

from __future__ import annotations

import argparse
import re
import shlex
import subprocess
from typing import NamedTuple

from desk_tools.change import Halfway
from desk_tools.found import visible
from desk_tools.served import Failed

# (the machine that is asked is that of a desk, and maybe far away)
ASKED_IN = 600.0


# what a machine says that it has taken out of its store
TAKEN = re.compile(r"^Taken out so far: (\d+) messages, sha256 ([0-9a-f]{64})$", re.MULTILINE)

# the status of a machine that does not know which one its desk has; ssh's own is 255
HALFWAY, NO_SSH = 3, 255


class Said(NamedTuple):
    """What a machine says, and its status."""

    status: int
    out: str
    err: str


class Machines:
    """The machines of the desks, and the change that is made on each."""

    def __init__(
        self, said: argparse.Namespace, kind: str, reasons: list[str], new: bytes
    ) -> None:
        self.names, self.kind, self.reasons, self.new = said.desks, kind, reasons, new
        self.ssh = shlex.split(said.ssh)
        self.said, self.done = said, f"has the new {kind}"

    def what(self) -> list[str]:
        """What it is changed to: the input."""
        return ["-"]

    def words(self, *more: str) -> str:
        """The same command, on one machine."""
        found = [f"desk-change-{self.kind}", *self.what(), "--conf", self.said.conf]
        found += ["--service", self.said.service]
        found += ["--desk", self.said.desk] if self.said.desk else []
        for word in self.reasons:
            name, _, text = word.partition("=")
            found.append(f"--{name}={text}")
        if self.kind == "roster":
            found += [f"--rename={it}" for it in self.said.rename]
        return shlex.join([*found, *more])

    def ask(self, name: str, *more: str) -> Said:
        words = [*self.ssh, f"root@{name}", self.words(*more)]
        try:
            ran = subprocess.run(
                words, input=self.new, capture_output=True, check=False, timeout=ASKED_IN
            )
        except (OSError, subprocess.TimeoutExpired) as fault:
            return Said(NO_SSH, "", f"it cannot be asked: {fault}")
        out, err = (it.decode("utf-8", "replace") for it in (ran.stdout, ran.stderr))
        return Said(ran.returncode, out, err)

    def ask_all(self) -> dict[str, Said]:
        """What it changes on each machine. None begins where one is away, or refuses it."""
        found = {name: self.ask(name, "--show") for name in self.names}
        away = {name: it for name, it in found.items() if it.status}
        if away:
            told = "; ".join(f"{name}: {last(it.err)}" for name, it in away.items())
            raise Failed(f"{told}; no desk was begun with")
        return found

    def has(self, said: Said) -> bool:
        return said.out.endswith(f"The desk has this {self.kind}.\n")

    def change_all(self, lacking: list[str], *more: str) -> None:
        """One after the other, and none behind one that did not take it."""
        for at, name in enumerate(lacking):
            said = self.ask(name, "--yes", *more)
            show(name, said)
            if said.status:
                is_unknown = said.status in (HALFWAY, NO_SSH)
                rest = ", ".join(lacking[at + is_unknown :])
                told = " (which one it has is not known)" if is_unknown else ""
                old = f"; the old one is still at {rest}" if rest else ""
                raise Halfway(f"{name}: {last(said.err)}{told}{old}")
            print(f"{name} {self.done}.")


class Cuts(Machines):
    """The same, where the history of each is cut."""

    def __init__(self, said: argparse.Namespace, reasons: list[str]) -> None:
        super().__init__(said, "roster", reasons, b"")
        self.done = "is cut"

    def what(self) -> list[str]:
        return ["--cut", self.said.cut]

    def has(self, said: Said) -> bool:
        return said.out.endswith("The desk is cut there.\n")

    def alike(self, found: dict[str, Said]) -> str:
        """The digest of what is taken out, with all that was before: on each desk the same, or none
        is begun with."""
        digests = {name: TAKEN.search(it.out) for name, it in found.items()}
        told = {name: (it[1], it[2]) for name, it in digests.items() if it}
        if len(told) < len(found) or len(set(told.values())) > 1:
            each = ", ".join(f"{name} {it[0]}" for name, it in told.items())
            raise Failed(
                f"the desks do not take out the same messages ({each}): compare them"
                " (desk-compare messages), fill what lacks, and see when each was cut;"
                " no desk was begun with"
            )
        return next(iter(told.values()))[1]


def last(text: str) -> str:
    lines = text.strip().splitlines()
    return lines[-1] if lines else "it says nothing"


def show(name: str, said: Said) -> None:
    for line in said.out.splitlines():
        print(visible(f"{name}: {line}"))
