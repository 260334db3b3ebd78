"""The processes of this host, as /proc shows them."""

from __future__ import annotations

import contextlib
import os
import pwd
import re
import signal
import stat
import time
from collections.abc import Collection, Iterator
from typing import NamedTuple, Optional

from steelnewt_host.faults import Unclear
from steelnewt_host.state import read_some

SHORT = 64 * 1024  # the bytes that those texts of /proc have at most
TICK = 0.05  # the seconds by which the start of a process is rounded


class Process(NamedTuple):
    """A process as /proc shows it. Its start (in clock ticks since the machine's) and its number
    are its name: a number alone is used again. Nothing is read here that its user may make long, or
    hold up: neither its words nor its memory, and no path."""

    pid: int
    start: int
    parent: int
    session: int
    terminal: int
    user: int  # the real user, who started it
    power: int  # the effective one
    depth: int  # how many namespaces of numbers deep: a container's are deeper
    is_there: bool  # and not merely its status, until its parent asks for that


def process_of(pid: int, seen: str, status: str) -> Optional[Process]:
    """A process, of the texts of its /proc/PID/stat and status. (What stands in brackets, and
    behind `Name:`, is its user's choice; the kernel lets no line end into that.)"""
    fields = seen.rpartition(") ")[2].split()
    users = re.search(r"^Uid:\t([0-9]+)\t([0-9]+)", status, re.M)
    numbers = re.search(r"^NSpid:(.*)", status, re.M)
    if users is None:
        return None
    try:
        return Process(
            pid,
            int(fields[19]),
            int(fields[1]),
            int(fields[3]),
            int(fields[4]),
            int(users[1]),
            int(users[2]),
            len(numbers[1].split()) if numbers else 1,
            fields[0] not in ("Z", "X"),
        )
    except (ValueError, IndexError):
        return None


def read_process(pid: int) -> Optional[Process]:
    """A process; nothing where it is gone, or cannot be read."""
    texts = [read_some(f"/proc/{pid}/{name}", SHORT) for name in ("stat", "status")]
    if None in texts:
        return None
    seen, status = ((it or b"").decode("utf-8", "replace") for it in texts)
    return process_of(pid, seen, status)


def processes() -> dict[int, Process]:
    """Every process that can be read, by its number."""
    found = (read_process(int(name)) for name in os.listdir("/proc") if name.isdigit())
    return {it.pid: it for it in found if it}


def started(process: Process) -> float:
    """When it was started, by that clock: that is when it was forked, and it may have become what
    it is later."""
    return process.start / os.sysconf("SC_CLK_TCK")


WORDS = 256 * 1024  # the bytes that are read of a sudo's words, and of its environment


def words_of(process: Process) -> tuple[str, ...]:
    """The words of a sudo: they are its user's choice, and nobody changes them while it runs."""
    text = read_some(f"/proc/{process.pid}/cmdline", WORDS)
    return tuple(os.fsdecode(text).split("\0")[:-1]) if text else ()


def environment(process: Process) -> dict[str, str]:
    """What a sudo was started with: of two variables of a name the first, as sudo takes it."""
    text = read_some(f"/proc/{process.pid}/environ", WORDS)
    if text is None:
        raise Unclear("its environment cannot be read, or is too long")
    found: dict[str, str] = {}
    for it in os.fsdecode(text).split("\0"):
        name, is_set, value = it.partition("=")
        if is_set:
            found.setdefault(name, value)
    return found


def is_sudo(process: Process, files: dict[tuple[int, int], str]) -> bool:
    """Whether it is one of this host's, or was until that was replaced. Only what has root's power
    is looked at: no user may choose where its file lies."""
    if process.power != 0:
        return False
    with contextlib.suppress(OSError):
        seen = os.stat(f"/proc/{process.pid}/exe")
        if (seen.st_dev, seen.st_ino) in files:
            return True
        gone = os.readlink(f"/proc/{process.pid}/exe").removesuffix(" (deleted)")
        return seen.st_nlink == 0 and gone in files.values()
    return False


def ancestors(here: Process, every: dict[int, Process]) -> Iterator[Process]:
    """The processes above one."""
    for _ in range(len(every)):
        above = every.get(here.parent)
        if above is None:
            return
        yield above
        here = above


def name_of(user: int) -> str:
    try:
        return pwd.getpwuid(user).pw_name
    except KeyError:
        return f"#{user}"


def terminal_of(process: Process) -> Optional[str]:
    """The path of a process's terminal, where it has one."""
    major, minor = os.major(process.terminal), os.minor(process.terminal)
    path = f"/dev/pts/{minor + 256 * (major - 136)}" if 136 <= major <= 143 else f"/dev/tty{minor}"
    try:
        seen = os.lstat(path)
    except OSError:
        return None
    is_it = stat.S_ISCHR(seen.st_mode) and seen.st_rdev == process.terminal != 0
    return path if is_it else None


def send(process: Process, what: signal.Signals) -> None:
    """Sends a signal to just this process: its number is held while its start is compared."""
    with contextlib.suppress(OSError):
        handle = os.pidfd_open(process.pid)
        try:
            now = read_process(process.pid)
            if now is not None and now.start == process.start:
                signal.pidfd_send_signal(handle, what)
        finally:
            os.close(handle)


def alive(found: Collection[Process]) -> list[Process]:
    """The processes that have not ended."""
    now = (read_process(it.pid) for it in found)
    return [it for it, new in zip(found, now) if new and new.start == it.start and new.is_there]


def wait_for(found: Collection[Process], seconds: float) -> list[Process]:
    """Waits for the processes to end: those that have not."""
    until = time.monotonic() + seconds
    while (left := alive(found)) and time.monotonic() < until:
        time.sleep(0.1)
    return left
