"""A program whose reads and writes fail as planned: fail_io.c, preloaded, and its plan; and one
whose replies are cut at each byte, in copies of it: cut_replies.c."""

from __future__ import annotations

import errno
import mmap
import os
import struct
import subprocess
from typing import NamedTuple

from tests.common import desk

NONE, READ, WRITE, CALL, CALLS = range(5)
FORM = "iiqqqii"
# what a call that fails says; 0: it moves nothing, and is no error
ERRORS = {
    "EIO": errno.EIO,
    "ECONNRESET": errno.ECONNRESET,
    "ENOMEM": errno.ENOMEM,
    "EINTR": errno.EINTR,
    "nothing": 0,
}


CUTS = "12q"
# how a copy of the program went otherwise, by its status
WHYS = {
    78: "writes other bytes than those that follow",
    79: "writes on after a write that failed",
    80: "writes elsewhere",
    81: "keeps the connection",
    82: "ends before a write failed",
    83: "says something else than H2",
    84: "ends, or comes to no end",
}


def shared(folder: str, name: str, size: int) -> tuple[mmap.mmap, dict[str, str]]:
    """A file of so many bytes in memory, shared with a program that is started with this
    environment, into which NAME.c of this folder is preloaded."""
    shim = os.path.join(folder, f"{name}.so")
    source = os.path.join(os.path.dirname(__file__), f"{name}.c")
    if not os.path.exists(shim):
        subprocess.run(["cc", "-shared", "-fPIC", "-O1", "-o", shim, source], check=True)
    path = desk.write(folder, f"{name}.plan", bytes(size))
    with open(path, "r+b") as file:
        held = mmap.mmap(file.fileno(), size)
    return held, {**os.environ, "LD_PRELOAD": shim, name.upper(): path}


class Plan:
    """What has to fail, shared with a program that is started with `environment`."""

    def __init__(self, folder: str) -> None:
        self.held, self.environment = shared(folder, "fail_io", struct.calcsize(FORM))

    def set(self, what: int, place: int, error: int = errno.EIO) -> None:
        """From now on: at this byte of the next peer, or at this call on a file."""
        self.held[:] = struct.pack(FORM, what, error, place, 0, 0, 0, 1)

    def clear(self) -> None:
        self.held[:] = bytes(len(self.held))

    def failures(self) -> int:
        """How many calls have failed."""
        return int(struct.unpack(FORM, self.held[:])[5])

    def calls(self) -> int:
        """How many calls on files there were."""
        return int(struct.unpack(FORM, self.held[:])[4])


class Seen(NamedTuple):
    """What became of a reply that was cut: how often its peer took nothing, in how many writes it
    went out, how many copies were made, how many went otherwise, and the first: where, and why."""

    waits: int
    writes: int
    copies: int
    wrong: int
    place: int
    why: int

    def first(self) -> str:
        why = WHYS.get(self.why, self.why)
        return f"first at byte {self.place}: it {why}" if self.wrong else ""


class Cuts:
    """Where the reply to the next peer is cut, in a program that is started with `environment`."""

    def __init__(self, folder: str, longest: int) -> None:
        size = struct.calcsize(CUTS) + longest
        self.held, self.environment = shared(folder, "cut_replies", size)

    def set(self, reply: bytes, step: int = 1, most: int = 0, room: int = 0, lie: int = -1) -> None:
        """The next reply, which is this one, is cut at each `step`th byte. Each write takes at most
        `most` bytes, and the kernel has `room` for so many, where they are given. At the byte `lie`
        a copy is told a byte too many."""
        plan = struct.pack(CUTS, 1, step, most, room, lie, len(reply), *[0] * 6)
        self.held[: len(plan) + len(reply)] = plan + reply

    def seen(self) -> Seen:
        return Seen(*struct.unpack_from(CUTS, self.held)[6:])
