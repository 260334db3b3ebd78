#!/usr/bin/env python3
"""desk-backup and desk-restore are killed at each of their system calls that change a file, one
after the other: a backup is then whole or not there, and a restore that is run again ends as one
that was never killed.

    python3 -m tests.backup.kills [MOST]

With MOST, so many places are tried, evenly over all. Needs root and strace."""

from __future__ import annotations

import os
import re
import shutil
import sys
import tempfile

from tests.backup.room import OUTBOX, STORE, Room
from tests.common import desk

# What changes a file or a folder, or says that it is on the disk.
CALLS = "openat,write,rename,renameat,mkdir,unlink,unlinkat,rmdir,link,symlink,fsync,chmod,fchmod,"
CALLS += "fchmodat,chown,fchown,fchownat,ftruncate"
ASIDE = (OUTBOX, f"{OUTBOX}-wal", f"{STORE}-wal")  # what an opening merges


def places(trace: str, below: str) -> list[tuple[str, int]]:
    """Each call of the traced program that names something below a folder, or writes to what it has
    open there: its name, and how many of its kind came before it, with itself."""
    counts: dict[str, int] = {}
    found = []
    for line in trace.splitlines():
        call = re.match(r"(?:\d+ +)?(\w+)\(", line)
        if call is None:
            continue
        counts[call[1]] = counts.get(call[1], 0) + 1
        is_read = call[1] == "openat" and "O_RDONLY" in line
        if below in line and not is_read:
            found.append((call[1], counts[call[1]]))
    return found


def traced(path: str) -> tuple[str, ...]:
    return ("strace", "-q", "-y", "-e", f"trace={CALLS}", "-o", path)


def killed(call: str, at: int) -> tuple[str, ...]:
    inject = f"inject={call}:signal=KILL:when={at}"
    return ("strace", "-q", "-e", f"trace={call}", "-e", inject, "-o", "/dev/null")


def thinned(found: list[tuple[str, int]], most: int) -> list[tuple[str, int]]:
    step = max(1, len(found) // most) if most else 1
    return found[::step]


class Tally:
    def __init__(self) -> None:
        self.checks = self.wrong = self.killed = self.refused = 0

    def check(self, what: str, is_right: bool, found: object = "") -> None:
        self.checks += 1
        if not is_right:
            self.wrong += 1
            print(f"{what}: otherwise. {str(found)[-700:]}", flush=True)


def of_backup(folder: str, most: int, tally: Tally) -> None:
    room = Room(os.path.join(folder, "b"))
    room.furnish(2)
    room.backup()
    trace = os.path.join(folder, "trace")
    room.write("/etc/desk/bells", "one\n")
    room.backup(before=traced(trace))
    for number, (call, at) in enumerate(thinned(places(desk.read(trace), room.backups), most)):
        room.write("/etc/desk/bells", f"{number}\n")
        before = room.moments()
        ran = room.backup(before=killed(call, at))
        tally.killed += ran.returncode in (-9, 137)
        where = f"the backup, killed at {call} {at}"
        new = [it for it in room.moments() if it not in before]
        for moment in new:
            looked = room.restore("--look", "--at", moment)
            tally.check(f"{where}: what is there is whole", looked.returncode == 0, looked)
        tally.check(f"{where}: those before it stay", not set(before) - set(room.moments()), before)
        again = room.backup()
        tally.check(f"{where}: the next one", again.returncode == 0, again)
        left = [it for it in os.listdir(room.backups) if it.startswith(".")]
        tally.check(f"{where}: nothing is left of it", not left, left)
        for moment in room.moments()[:-2]:
            shutil.rmtree(os.path.join(room.backups, moment))


def of_restore(folder: str, most: int, tally: Tally) -> None:
    room = Room(os.path.join(folder, "r"))
    room.furnish(2)
    room.backup()
    second = room.ask([30], posts=False, keeps=False)
    listed = desk.write(folder, "second", "".join(f"{it}\n" for it in second))
    words = ("--messages", listed, "--again")
    trace = os.path.join(folder, "trace")
    room.lose()
    room.restore(*words, before=traced(trace))
    held, files = room.held(), room.files()
    for call, at in thinned(places(desk.read(trace), room.root), most):
        room.lose()
        ran = room.restore(*words, before=killed(call, at))
        tally.killed += ran.returncode in (-9, 137)
        where = f"the restore, killed at {call} {at}"
        is_begun = os.path.exists(room.path("/var/lib/desk-restore/unfinished"))
        has_store = os.path.exists(room.path(STORE))
        is_done = os.path.exists(room.path("/var/lib/desk-restore/last.json"))
        # (the last step of all takes the mark away)
        tally.check(f"{where}: no unit starts meanwhile", is_begun or not has_store or is_done)
        again = room.restore(*words)
        tally.check(f"{where}: again", again.returncode == 0 or is_done and not is_begun, again)
        tally.check(f"{where}: each message", room.held() == held, room.held() ^ held)
        now = room.files()
        other = {it for it in files.keys() | now.keys() if files.get(it) != now.get(it)}
        other -= {*ASIDE, STORE}
        tally.check(f"{where}: each file", not other, other)


def main() -> int:
    most = int(sys.argv[1]) if sys.argv[1:] else 0
    tally = Tally()
    with tempfile.TemporaryDirectory(prefix="k", dir="/tmp") as folder:
        of_backup(folder, most, tally)
        of_restore(folder, most, tally)
    tally.check("it was killed", tally.killed > 10 or 0 < most <= 10, tally.killed)
    print(f"killed {tally.killed} times: {tally.checks} checks, {tally.wrong} wrong")
    return 1 if tally.wrong else 0


if __name__ == "__main__":
    sys.exit(main())
