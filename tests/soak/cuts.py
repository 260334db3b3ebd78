#!/usr/bin/env python3
"""desk-cut is killed at each of its system calls, one after the other; each of those that change or
read a file fails once, as on a full disk; each request for memory is refused once; a small disk
fills; the store changes each time that it is read; and two cuts meet.

After a kill the store that was cut is as it was, and the new one is whole or not there, its archive
never after it; the next cut ends as one that was never killed. After a failure nothing is left.

`python3 -m tests.soak.cuts DESK` runs the desk-cut beside another desk than build/desk; MOST=N
tries at most some N places of each kind, evenly over all. Needs root and strace.
"""

from __future__ import annotations

import fcntl
import os
import re
import subprocess
import sys
import tempfile
import threading
import time
from collections.abc import Iterator

from tests.backup.kills import Tally, killed, places, thinned, traced
from tests.cases.cuts import CUT, DESK, listing, run
from tests.common import desk

LATER = "20260201000000Z"  # when what was asked for has ended
MOST = int(os.environ.get("MOST", "0"))
SHIM = os.path.join(desk.ROOT, "tests", "cases", "fail_alloc.c")
READS = ("openat", "read", "statx")
SLOW = ("strace", "-f", "-q", "-o", "/dev/null", "-e")  # and what it waits at, in microseconds
SMALL = """
mount -t tmpfs -o size={size}k none "$1/small"
exec "$2" "$1/old.db" "$1/small/new.db" {moment} --archive "$1/small/gone.messages"
"""


def failing(call: str, at: int, error: str) -> tuple[str, ...]:
    inject = f"inject={call}:error={error}:when={at}"
    return ("strace", "-q", "-e", f"trace={call}", "-e", inject, "-o", "/dev/null")


def numbered(trace: str) -> Iterator[tuple[str, tuple[str, int]]]:
    """Each line of a trace, with the call's name, and how many of its kind came before it, with
    itself."""
    counts: dict[str, int] = {}
    for line in trace.splitlines():
        call = re.match(r"(?:\d+ +)?(\w+)\(", line)
        if call is not None:
            counts[call[1]] = counts.get(call[1], 0) + 1
            yield line, (call[1], counts[call[1]])


def every(trace: str, below: str) -> list[tuple[str, int]]:
    """Each call of the traced program, from the first one that names the folder."""
    found = []
    is_begun = False
    for line, (call, number) in numbered(trace):
        is_begun |= below in line and call != "execve"
        if is_begun and call != "exit_group":
            found.append((call, number))
    return found


class Cutting:
    """A store that is cut again and again, beside a cut that nothing disturbed."""

    def __init__(self, folder: str, tally: Tally) -> None:
        self.tally, self.folder = tally, folder
        self.old, self.new, self.gone = map(self.path, ("old.db", "new.db", "gone.messages"))
        given = f"{desk.request(7)}\n{desk.approval(7)}\n{desk.request(8)}\n"
        run(DESK, "deliver", desk.ROSTER, desk.BASE, self.old, "chat", given=given)
        self.words = [CUT, self.old, self.new, LATER, "--archive", self.gone]
        self.before = listing(folder)
        trace = os.path.join(folder, "trace")
        status = run(*self.words, before=traced(trace))[2]
        self.changes = places(desk.read(trace), folder)
        self.clear()
        run(*self.words, before=("strace", "-q", "-y", "-o", trace))
        self.calls = every(desk.read(trace), folder)
        lines = numbered(desk.read(trace))
        self.reads = [at for line, at in lines if at[0] in READS and f"{self.old}" in line]
        os.remove(trace)
        self.whole = listing(folder)
        tally.check("a cut that is not disturbed", status == 0, status)
        tally.check("its archive", bool(self.whole.get("gone.messages")))
        self.clear()

    def path(self, name: str) -> str:
        return os.path.join(self.folder, name)

    def clear(self) -> None:
        """Takes away what a cut made."""
        for name in set(listing(self.folder)) - set(self.before):
            os.remove(self.path(name))

    def kill(self, call: str, place: int) -> None:
        where = f"killed at {call} {place}"
        status = run(*self.words, before=killed(call, place))[2]
        self.tally.killed += status in (-9, 137)
        left = listing(self.folder)
        as_it_was = {name: left.get(name) for name in self.before}
        self.tally.check(f"{where}: the store", as_it_was == self.before)
        for name in ("new.db", "gone.messages"):
            is_right = left.get(name) in (None, self.whole[name])
            self.tally.check(f"{where}: {name} is whole or not there", is_right)
        if "new.db" in left:
            self.tally.check(f"{where}: the archive is there before", "gone.messages" in left)
        else:
            self.go_on(where, "gone.messages" in left)
        self.clear()

    def go_on(self, where: str, is_archived: bool) -> None:
        """The next cut ends as one that was never killed; an archive without a store is named."""
        if is_archived:
            _, err, status = run(*self.words)
            named = (f"C2 AlreadyThere\ncause: {self.gone}\n", 2)
            self.tally.check(f"{where}: the archive alone", (err, status) == named, err)
            os.remove(self.gone)
        _, err, status = run(*self.words)
        self.tally.check(f"{where}: the next", status == 0, err)
        self.tally.check(f"{where}: all files then", listing(self.folder) == self.whole)

    def fail(self, call: str, place: int) -> None:
        """A call that fails: the cut is refused and nothing is left, or the call did not matter."""
        where = f"{call} {place} fails"
        is_full = (call, place) in self.changes and call != "rename"
        error = "ENOSPC" if is_full else "EIO"
        _, err, status = run(*self.words, before=failing(call, place, error))
        left = listing(self.folder)
        if status == 0:
            self.tally.check(f"{where}, and is passed over", left == self.whole, sorted(left))
        else:
            is_named = err.startswith("F1 FileFailed\ncause: ")
            self.tally.check(f"{where}: what is said", is_named, err)
            self.tally.check(f"{where}: what is left", left == self.before, sorted(left))
        self.clear()


def fills(cutting: Cutting) -> None:
    """A disk that has room for less than the store, by what it lacks."""
    for size in (4, 16, 32):
        script = SMALL.format(size=size, moment=LATER)
        os.makedirs(cutting.path("small"), exist_ok=True)
        words = ["unshare", "-m", "sh", "-euc", script, "sh", cutting.folder, os.path.abspath(CUT)]
        ran = subprocess.run(words, capture_output=True, text=True, check=False)
        said = "No space left on device (os error 28)\n"
        is_right = ran.returncode == 2 and ran.stderr.endswith(said)
        cutting.tally.check(f"a disk of {size} KiB", is_right, (ran.returncode, ran.stderr))
        is_left = listing(cutting.folder) == cutting.before
        cutting.tally.check(f"the store, by a disk of {size} KiB", is_left)


def starved(cutting: Cutting, most: int) -> int:
    """Each request for memory is refused in turn: the cut says so, and nothing is left."""
    tally, folder = cutting.tally, cutting.folder
    with tempfile.TemporaryDirectory() as room:
        shim, count = os.path.join(room, "shim.so"), os.path.join(room, "count")
        subprocess.run(["cc", "-shared", "-fPIC", "-O1", "-o", shim, SHIM, "-ldl"], check=True)
        before = ["env", f"LD_PRELOAD={shim}", f"COUNT_ALLOC={count}"]
        run(*cutting.words, before=before)
        cutting.clear()
        whole = int(desk.read(count))
        for number in range(1, whole + 1, max(1, whole // most) if most else 1):
            _, err, status = run(*cutting.words, before=[*before, f"FAIL_ALLOC={number}"])
            left, wanted = listing(folder), cutting.whole if status == 0 else cutting.before
            tally.check(f"memory {number}: the files", left == wanted, sorted(left))
            is_named = err == "" if status == 0 else (err, status) == ("NoMemory\n", 2)
            tally.check(f"memory {number}: what is said", is_named, (err, status))
            tally.refused += status == 2
            cutting.clear()
    return whole


def changes(cutting: Cutting) -> None:
    """Something writes to the store whenever it is read. (The log is merged: without it the file
    alone is the store, and no header tells what was written meanwhile.)"""
    log = f"{cutting.old}-wal"
    with open(cutting.old, "rb") as file:
        before = file.read()
    os.remove(log)
    is_over = threading.Event()

    def write() -> None:
        with open(cutting.old, "r+b", buffering=0) as file:
            while not is_over.wait(0.001):
                # (a number that SQLite leaves to whoever has the file)
                file.seek(60)
                file.write(time.monotonic_ns().to_bytes(8, "big")[-4:])

    writing = threading.Thread(target=write)
    writing.start()
    try:
        found = run(*cutting.words, before=(*SLOW, "inject=close:delay_enter=5000"))
    finally:
        is_over.set()
        writing.join()
    left = listing(cutting.folder)
    said = f"the store is written to: {cutting.old}\n"
    said += f"try again, or stop what writes to it (fuser {cutting.old})\n"
    cutting.tally.check("a store that changes", found == ("", said, 2), found)
    cutting.tally.check("its files", sorted(left) == ["old.db"], sorted(left))
    for path, whole in ((cutting.old, before), (log, cutting.before["old.db-wal"])):
        with open(path, "wb") as file:
            file.write(whole)
    cutting.clear()


def meets(cutting: Cutting) -> None:
    """The file that a cut is about to lock is taken away by the cut that had it, and a third one
    has begun its own there: that is not put in place."""
    part = f"{cutting.new}.part"
    desk.write(cutting.folder, "new.db.part", "")
    words = [*SLOW, "inject=flock:delay_enter=1000000:when=1", *cutting.words]
    second = subprocess.Popen(words, stderr=subprocess.PIPE, text=True)
    time.sleep(0.5)
    os.remove(part)
    with open(part, "w", encoding="ascii") as third:
        fcntl.flock(third, fcntl.LOCK_EX)
        third.write("a part of a store")
        third.flush()
        err = second.communicate()[1]
        left = listing(cutting.folder)
    said = f"C3 CutRuns\ncause: another desk-cut writes {part}\n"
    cutting.tally.check("two that meet", (err, second.returncode) == (said, 2), err)
    is_left = left == {**cutting.before, "new.db.part": b"a part of a store"}
    cutting.tally.check("the third one's file", is_left, sorted(left))
    cutting.clear()


def together(cutting: Cutting) -> None:
    """Four begin at once: one is made, and the others name it."""
    for _ in range(10):
        pipe = subprocess.PIPE
        cuts = [
            subprocess.Popen(cutting.words, stderr=pipe, stdout=pipe, text=True) for _ in range(4)
        ]
        told = sorted(it.communicate()[1].split("\n")[0] for it in cuts)
        is_one = told[0] == "" and set(told[1:]) <= {"C2 AlreadyThere", "C3 CutRuns"}
        cutting.tally.check("four at once", is_one, told)
        cutting.tally.check("their files", listing(cutting.folder) == cutting.whole)
        cutting.clear()


def main() -> None:
    tally = Tally()
    with tempfile.TemporaryDirectory(dir=desk.MEMORY) as folder:
        cutting = Cutting(folder, tally)
        for call, place in thinned(cutting.calls, MOST):
            cutting.kill(call, place)
        for call, place in thinned([*cutting.changes, *cutting.reads], MOST):
            cutting.fail(call, place)
        for part in (fills, changes, meets, together):
            part(cutting)
        requests = starved(cutting, MOST)
        found = f"{len(cutting.calls)} calls, {len(cutting.changes)} that change a file and"
        found += f" {len(cutting.reads)} that read the store, {requests} requests for memory"
    counts = f"{tally.killed} kills, {tally.refused} without memory, {tally.checks} checks"
    print(f"{found}: {counts}, {tally.wrong} wrong")
    sys.exit(1 if tally.wrong or not tally.killed or not tally.refused else 0)


if __name__ == "__main__":
    main()
